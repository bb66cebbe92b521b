"""Compares `report` and `audit` with mechdes on the answers of examples/, and on texts that are made at random: tables of mechanisms,
answers about the fairest one and under conditions of the designer, answers about sales, about auctions and about several units, and
auctions of one's own, of which some have odds that no auction has.

Some texts are changed after they were made, and most of these are refused. The seed is fixed, so that the texts are the same at
each call. What is printed, the line on standard error and the status must be the same. The program is that of the variable
MECHDES, or the one that the repository's tests build.
"""

import collections
import dataclasses
import os
import random
import subprocess
import sys
import tempfile
from collections.abc import Callable, Iterator
from pathlib import Path
from typing import Any, NoReturn

from second_opinion import auction, auditing, command, mutate, reporting, setting
from second_opinion.conditions import condition_line
from second_opinion.places import TOP, needed_program
from second_opinion.require_compare import drawn_condition
from second_opinion.setting import AuctionSetting, GeneralSetting, Profile

MADE = 6  # texts of each sort for each setting
GREATEST = 2**62 - 1
CHANGED = 0.2  # how often a text is changed
TOO_WIDE: list[list[object]] = [["wide", 0, 1, 5, 1], ["again"], ["pivot", 0, 1], ["wide", 2, 0, -7, 3]]

COMMANDS: dict[str, command.Command] = {"report": reporting.report, "audit": auditing.audit}

Rows = Iterator[list[object]]
Maker = Callable[[random.Random, Any], Rows]


def main(words: list[str]) -> NoReturn:
    """Compares all, tells how often each status came, and ends with 1 where the two differed."""
    path = needed_program(words)
    numbers, statuses, differing = random.Random(5), collections.Counter[int](), 0
    for toml in sorted(TOP.glob("examples/*.toml")):
        its = setting.read_setting(toml.read_bytes())
        calls: list[tuple[bytes, str, tuple[str, ...]]] = [(csv, word, ()) for csv in [*stored(toml), *made(numbers, its)] for word in COMMANDS]
        calls += [(csv, "report", units_words(numbers)) for csv in [*stored(toml), *made_units(numbers, its)]]
        for csv, word, options in calls:
            status, is_same = compared(path, word, toml, csv, options)
            statuses[status] += 1
            differing += not is_same
    print("".join(f"{count:6} with the status {status}\n" for status, count in sorted(statuses.items())), end="")
    print(f"{statuses.total()} compared, {differing} differ")
    sys.exit(1 if differing else 0)


def stored(toml: Path) -> Iterator[bytes]:
    """The answers and tables beside a setting, and all auctions of one's own."""
    for file in sorted({*TOP.glob(f"examples/{toml.stem}*.csv"), *TOP.glob("examples/own-*.csv")}):
        yield file.read_bytes()


def units_words(numbers: random.Random) -> tuple[str, str]:
    """The option of a number of units, of which some cannot be sold."""
    return "--units", str(numbers.choice([1, 2, 3, 12, 13]))


def compared(path: str, word: str, toml: Path, csv: bytes, options: tuple[str, ...]) -> tuple[int, bool]:
    """The status of a command, and whether the two say the same; where they do not, the files are kept and named."""
    with tempfile.NamedTemporaryFile(prefix=f"{word}-", suffix=".csv", delete=False) as file:
        file.write(csv)
    words = [str(toml), file.name, *options]
    ran = subprocess.run([path, word, *words], capture_output=True, text=True)
    status, text, line = command.outcome(COMMANDS[word], words)
    is_same = (ran.returncode, ran.stdout, ran.stderr) == (status, text, f"mechdes: {line}\n" if line else "")
    if is_same:
        os.unlink(file.name)
    else:
        print("differ:", word, *words)
    return status, is_same


def made(numbers: random.Random, its: setting.Setting) -> Iterator[bytes]:
    """Texts about a setting with numbers made at random, small ones and some of the greatest; some are changed."""
    for maker in AUCTION_MAKERS if isinstance(its, AuctionSetting) else GENERAL_MAKERS:
        yield from made_by(maker, numbers, its)


def made_units(numbers: random.Random, its: setting.Setting) -> Iterator[bytes]:
    """The same about several units."""
    if isinstance(its, AuctionSetting):
        yield from made_by(unit_answer, numbers, its)


def made_by(maker: Maker, numbers: random.Random, its: setting.Setting) -> Iterator[bytes]:
    """Texts of one sort."""
    for _ in range(MADE):
        records = [list(map(str, record)) for record in maker(numbers, its)]
        if numbers.random() < CHANGED:
            mutate.record_change(numbers, records)
        yield "".join(",".join(record) + "\n" for record in records).encode()


def denominator(numbers: random.Random) -> int:
    return numbers.choice([1, 2, 3, 6, 100, numbers.randint(1, 1000), GREATEST])


def pay(numbers: random.Random) -> int:
    return numbers.choice([0, 0, 1, -1, numbers.randint(-20, 20), GREATEST, -GREATEST])


# ---- general settings


def general_table(numbers: random.Random, its: GeneralSetting) -> Rows:
    yield ["answer", 1, "general", "table"]
    yield from mechanism(numbers, its)
    yield ["end"]


def fair_answer(numbers: random.Random, its: GeneralSetting) -> Rows:
    """An answer about the fairest mechanism, of which nothing that it claims needs to be so."""
    word = numbers.choice(["optimal", "optimal", "unbounded", "infeasible", "toowide"])
    yield ["answer", 1, "fair", word]
    yield from claimed(numbers, its, word)
    yield ["end"]


def required_answer(numbers: random.Random, its: GeneralSetting) -> Rows:
    """The same of an answer under conditions of the designer."""
    word = numbers.choice(["optimal", "optimal", "optimal", "unbounded", "infeasible"])
    yield ["answer", 1, "required", word]
    for _ in range(numbers.randint(0, 4)):
        bounded = dataclasses.replace(drawn_condition(numbers, its), num=numbers.randint(-6, 6), den=numbers.randint(1, 4))
        yield [*condition_line(bounded, its).split(",")]
    yield from claimed(numbers, its, word)
    yield ["end"]


def claimed(numbers: random.Random, its: GeneralSetting, word: str) -> Rows:
    """What an answer of a word has behind its first records, without multipliers."""
    if word == "optimal":
        yield ["value", numbers.randint(-9, 9), numbers.randint(1, 9)]
    if word in ("optimal", "unbounded"):
        yield from mechanism(numbers, its)
    if word == "optimal":
        yield ["bound", denominator(numbers)]
    if word == "unbounded" and its.payments:
        yield from paid(numbers, its, "ray")
    if word == "toowide":
        yield from TOO_WIDE


def mechanism(numbers: random.Random, its: GeneralSetting) -> Rows:
    """The records from the table to the last payment."""
    den = denominator(numbers)
    yield ["table", den]
    for profile in its.profiles():
        chances, left = [], den
        for _ in its.outcomes[1:]:
            chances.append(numbers.choice([0, 0, left, numbers.randint(0, left)]))
            left -= chances[-1]
        yield ["lottery", *names(its, profile), *chances, left]
    if its.payments:
        yield from paid(numbers, its, "pay")


def paid(numbers: random.Random, its: GeneralSetting, word: str) -> Rows:
    for profile in its.profiles():
        yield [word, *names(its, profile), *(pay(numbers) for _ in its.agents)]


def names(its: GeneralSetting, profile: Profile) -> list[str]:
    return [agent.types[kind] for agent, kind in zip(its.agents, profile)]


def sale_answer(numbers: random.Random, its: GeneralSetting) -> Rows:
    """An answer about a sale, of which nothing needs to be so, the setting being one neither: `report` takes its odds and pays as they
    stand, and the masses are 0."""
    yield ["answer", 1, "asym", numbers.choice(["optimal", "optimal", "optimal", "toowide"])]
    den = denominator(numbers)
    yield ["value", 0, 1]
    yield ["interim", den]
    for agent in its.agents:
        yield ["odds", agent.name, *(numbers.choice([0, den, numbers.randint(0, den)]) for _ in agent.types)]
    for agent in its.agents:
        yield ["pays", agent.name, *(pay(numbers) for _ in agent.types)]
    for profile in its.profiles():
        yield ["mass", *names(its, profile), *(0 for _ in its.agents)]
    sets = range(1, 2 ** min(12, sum(len(agent.types) for agent in its.agents)))
    for cut in sorted(numbers.sample(sets, min(5, len(sets)))):
        yield ["cut", cut]
    yield ["bound", 1]
    yield ["end"]


GENERAL_MAKERS: list[Maker] = [general_table, fair_answer, required_answer, sale_answer]


# ---- auctions


def auction_answer(numbers: random.Random, its: AuctionSetting) -> Rows:
    """Odds and pays of no mechanism, as it may be: `report` takes those of an answer as they stand, and the masses are 0."""
    return answer_about(numbers, its, "auction")


def unit_answer(numbers: random.Random, its: AuctionSetting) -> Rows:
    """The same about several units."""
    return answer_about(numbers, its, "units")


def answer_about(numbers: random.Random, its: AuctionSetting, sold: str) -> Rows:
    kinds = len(its.values)
    yield ["answer", 1, sold, "optimal"]
    yield ["value", 0, 1]
    yield from interim(numbers, its, *any_odds(numbers, its))
    for counts in auction.count_lists(its.bidders, kinds):
        yield ["mass", *counts, *[0] * kinds]
    for cut in sorted(numbers.sample(range(1, 2**kinds), min(5, 2**kinds - 1))):
        yield ["cut", cut]
    yield ["bound", 1]
    yield ["end"]


def own_auction(numbers: random.Random, its: AuctionSetting) -> Rows:
    """An auction of one's own."""
    yield ["answer", 1, "auction", "table"]
    yield from interim(numbers, its, *own_odds(numbers, its))
    yield ["end"]


def interim(numbers: random.Random, its: AuctionSetting, den: int, odds: list[int]) -> Rows:
    yield ["interim", den]
    yield ["odds", *odds]
    yield ["pays", *(pay(numbers) for _ in its.values)]


def own_odds(numbers: random.Random, its: AuctionSetting) -> tuple[int, list[int]]:
    """Odds that some auction has, odds that may ask for a little too much, or any."""
    return numbers.choice([modest_odds, ordered_odds, ordered_odds, any_odds])(numbers, its)


def any_odds(numbers: random.Random, its: AuctionSetting) -> tuple[int, list[int]]:
    den = denominator(numbers)
    return den, [numbers.choice([0, den, numbers.randint(0, den)]) for _ in its.values]


def modest_odds(numbers: random.Random, its: AuctionSetting) -> tuple[int, list[int]]:
    """Odds that leave as much for each bidder."""
    den = denominator(numbers)
    return den, [numbers.randint(0, den // its.bidders) for _ in its.values]


def ordered_odds(numbers: random.Random, its: AuctionSetting) -> tuple[int, list[int]]:
    """The odds of the auction in which the item goes to the value that comes last in an order made at random, so that no set of the
    last values can have more; half of the time one of them asks for more."""
    bidders, below, odds = its.bidders, 0, [0] * len(its.values)
    den = bidders * sum(its.weights) ** (bidders - 1)
    if den > GREATEST:
        return modest_odds(numbers, its)
    for place in numbers.sample(range(len(odds)), len(odds)):
        whole = below + its.weights[place]
        odds[place] = sum(below ** (bidders - 1 - others) * whole**others for others in range(bidders))
        below = whole
    place = numbers.randrange(len(odds))
    odds[place] = min(den, odds[place] + numbers.choice([0, 1]))
    return den, odds


AUCTION_MAKERS: list[Maker] = [auction_answer, own_auction]
