"""Audits `threshold` and `award` of this folder on auctions that are made at random, and compares mechdes with them.

    second-opinion/threshold --audit [COUNT]
    second-opinion/threshold --compare [PROGRAM [COUNT]]

The seeds are fixed, so that the auctions are the same at each call. An audit goes through every profile of small auctions. Compared
are the text, the line on standard error and the status: of `threshold` on each auction, of `award` at some of its profiles at each
draw, and beyond. The program is that of the variable MECHDES, or the one that the repository's tests build.
"""

import random
import subprocess
import sys
import tempfile
from collections.abc import Callable, Iterator
from pathlib import Path
from typing import NoReturn

from second_opinion import command, threshold
from second_opinion.places import needed_program
from second_opinion.setting import AuctionSetting, read_setting
from second_opinion.threshold import MOST_UNITS, Rule
from second_opinion.threshold_audit import faults

COUNT = 300
PROFILES = 4  # of each auction, at which units are awarded

Maker = Callable[[random.Random], AuctionSetting]


def audit(words: list[str]) -> NoReturn:
    """Audits as many small auctions as are asked for, and ends with 1 where something was wrong."""
    numbers, wrong, tried, count = random.Random(7), 0, 0, count_of(words)
    for number in range(count):
        auction = small(numbers)
        for units in range(1, auction.bidders + 1):
            tried += 1
            for fault in faults(Rule(auction, units)):
                wrong += 1
                print(f"{number}: {units} units: {auction}: {fault}")
    print(f"{count} auctions, {tried} with their numbers of units, {wrong} faults")
    sys.exit(1 if wrong else 0)


def compare(words: list[str]) -> NoReturn:
    """Compares as many auctions as are asked for, and ends with 1 where the two differed."""
    path, count = needed_program(words[:1]), count_of(words[1:])
    numbers, tried, differing = random.Random(8), 0, 0
    folder = Path(tempfile.mkdtemp(prefix="threshold-"))
    for number in range(count):
        auction = MAKERS[number % len(MAKERS)](numbers)
        toml = folder / f"{number}.toml"
        toml.write_text(auction_text(auction))
        calls = list(calls_of(numbers, auction, str(toml)))
        differ = [call for call in calls if not same(path, call)]
        for call in differ:
            print(f"differ: {' '.join(call)}")
        tried, differing = tried + len(calls), differing + len(differ)
        if not differ:
            toml.unlink()
    if not differing:
        folder.rmdir()
    print(f"{count} auctions, {tried} calls compared, {differing} differ")
    sys.exit(1 if differing else 0)


def count_of(words: list[str]) -> int:
    """How many auctions are asked for."""
    return int(words[0]) if words else COUNT


COMMANDS = {"threshold": threshold.threshold, "award": threshold.award}


def same(path: str, call: list[str]) -> bool:
    """Whether the two say the same."""
    ran = subprocess.run([path, *call], capture_output=True, text=True)
    status, text, line = command.outcome(COMMANDS[call[0]], call[1:])
    return (ran.returncode, ran.stdout, ran.stderr) == (status, text, f"mechdes: {line}\n" if line else "")


def calls_of(numbers: random.Random, auction: AuctionSetting, toml: str) -> Iterator[list[str]]:
    """The calls about an auction: with one unit, with another number of them, and with one that is refused."""
    assert read_setting(Path(toml).read_bytes()) == auction
    for units in (1, numbers.randint(1, auction.bidders), numbers.choice([0, MOST_UNITS, MOST_UNITS + 1])):
        yield ["threshold", toml, str(units)]
        for _ in range(PROFILES):
            reports = [numbers.choice(auction.values) for _ in range(auction.bidders)]
            profile = ",".join(map(str, reports))
            for draw in range(-1, auction.bidders + 1):
                yield ["award", "--", toml, str(units), profile, str(draw)]
        yield ["award", toml, str(units), f"{auction.values[0]}," * auction.bidders, "0"]


def made(numbers: random.Random, bidders: int, kinds: int, greatest: int, weight: int) -> AuctionSetting:
    """An auction with values and weights up to a greatest one, and any objective."""
    values = sorted(numbers.sample(range(greatest + 1), kinds))
    revenue, welfare = numbers.choice([(1, 0), (1, 0), (1, 0), (1, 1), (0, 1), (2, -1), (1, 2), (0, 0)])
    keep = numbers.choice([0, 0, 0, numbers.randint(-greatest, greatest)])
    weights = [numbers.randint(1, weight) for _ in range(kinds)]
    return AuctionSetting(bidders, values, weights, revenue, welfare, keep)


def small(numbers: random.Random) -> AuctionSetting:
    """An auction all of whose profiles can be gone through. Values and weights are so few that virtual values often tie."""
    bidders = numbers.randint(1, 4)
    kinds = numbers.randint(1, [6, 5, 4, 3][bidders - 1])
    return made(numbers, bidders, kinds, numbers.choice([6, 12, 100, 999_999]), numbers.choice([1, 2, 9]))


def wide(numbers: random.Random) -> AuctionSetting:
    """An auction with values of six digits."""
    return made(numbers, numbers.randint(2, 6), numbers.randint(2, 6), 1_000_000, 9)


def pooled(numbers: random.Random) -> AuctionSetting:
    """An auction in which each second value is rare, so that it is pooled with its neighbours."""
    kinds = numbers.randint(3, 8)
    values = sorted(numbers.sample(range(30), kinds))
    weights = [numbers.randint(1, 3) if place % 2 else numbers.randint(6, 12) for place in range(kinds)]
    return AuctionSetting(numbers.randint(2, 5), values, weights, 1, 0, 0)


MAKERS: list[Maker] = [small, wide, pooled]


def auction_text(auction: AuctionSetting) -> str:
    """The setting file of an auction."""
    lines = ['format = "mechanism-setting"', "version = 1", 'kind = "auction"']
    lines += [f"{key} = {number}" for key, number in vars(auction).items()]
    return "\n".join(lines) + "\n"
