"""Compares `ironunits` of mechdes with the closed form of this folder, on auctions of examples/ and on some made at random.

The seed is fixed, so that they are the same at each call. All records but the masses have to be the same; the masses have to be those
of a unit table with the odds; the value has to be that of `units`, where it answers, and that of the greatest ironed virtual values
profile by profile. Of one unit the numbers have to be those of `iron`. The program is that of the variable MECHDES, or the one that
the repository's tests build.
"""

import random
import sys
import tempfile
from collections.abc import Iterator
from pathlib import Path
from typing import NoReturn

from second_opinion import closed_form, setting
from second_opinion.auction import count_lists, demand, weight_of
from second_opinion.measure import run
from second_opinion.places import TOP, needed_program
from second_opinion.setting import AuctionSetting

MADE = 300  # auctions
DONE, TOO_WIDE, UNDECIDED = 0, 12, 22


def main(words: list[str]) -> NoReturn:
    """Compares all, and ends with 1 where something is wrong."""
    program, count, wrong = needed_program(words), 0, 0
    with tempfile.TemporaryDirectory() as folder:
        for file in files(Path(folder)):
            auction = setting.read_setting(file.read_bytes())
            if isinstance(auction, AuctionSetting):
                for units in range(1, min(auction.bidders + 1, closed_form.MOST_UNITS) + 1):
                    count += 1
                    for fault in faults(program, file, auction, units):
                        wrong += 1
                        print(f"{fault}: {units} units of\n{file.read_text()}")
    print(f"{count} compared, {wrong} wrong")
    sys.exit(1 if wrong else 0)


def files(folder: Path) -> Iterator[Path]:
    """The settings of examples/, and auctions made at random."""
    yield from sorted(TOP.glob("examples/*.toml"))
    numbers = random.Random(7)
    for place in range(MADE):
        file = folder / f"{place}.toml"
        file.write_text(auction_text(numbers, 10 ** numbers.choice([1, 1, 2, 4, 6])))
        yield file


def auction_text(numbers: random.Random, greatest: int) -> str:
    kinds = numbers.randint(1, 5)
    values = sorted(numbers.sample(range(greatest + 1), kinds))
    weights = [numbers.randint(1, 9) for _ in values]
    lines = {
        "bidders": numbers.randint(1, 5),
        "values": values,
        "weights": weights,
        "revenue": numbers.choice([0, 1, 1, 1, 2]),
        "welfare": numbers.choice([-1, 0, 0, 1]),
        "keep": numbers.choice([0, 0, numbers.randint(-greatest, greatest)]),
    }
    return 'format = "mechanism-setting"\nversion = 1\nkind = "auction"\n' + "".join(f"{key} = {word}\n" for key, word in lines.items())


def faults(program: str, file: Path, auction: AuctionSetting, units: int) -> Iterator[str]:
    """What is wrong with what is printed about so many units."""
    status, printed = run(program, "ironunits", file, str(units))
    form = closed_form.closed_form(auction, units)
    if form.is_long():
        if (status, printed) != (UNDECIDED, b"undecided\n"):
            yield "decided"
        return
    if status != DONE:
        yield f"status {status}"
        return
    records = [line.split(",") for line in printed.decode().splitlines()]
    if [record for record in records if record[0] != "mass"] != [list(map(str, record)) for record in form.records()]:
        yield "other records"
    yield from mass_faults(auction, units, form, [list(map(int, record[1:])) for record in records if record[0] == "mass"])
    if form.value != closed_form.value_by_profiles(auction, units):
        yield "value by profiles"
    yield from other_faults(program, file, units, records)


def mass_faults(auction: AuctionSetting, units: int, form: closed_form.ClosedForm, masses: list[list[int]]) -> Iterator[str]:
    """What keeps masses from being a unit table with the odds."""
    kinds, den, odds = len(auction.values), form.interim.den, form.interim.odds
    given = [0] * kinds
    counts = list(count_lists(auction.bidders, kinds))
    if [tuple(numbers[:kinds]) for numbers in masses] != counts:
        yield "counts of masses"
        return
    for its, numbers in zip(counts, masses):
        room = den * weight_of(auction, its)
        if sum(numbers[kinds:]) > units * room or any(not 0 <= mass <= count * room for mass, count in zip(numbers[kinds:], its)):
            yield "masses"
        given = [total + mass for total, mass in zip(given, numbers[kinds:])]
    if given != [demand(auction, value, own) for value, own in enumerate(odds)]:
        yield "masses of a value"


def other_faults(program: str, file: Path, units: int, records: list[list[str]]) -> Iterator[str]:
    """Where `units` says another value, and `iron` other numbers about one unit."""
    status, printed = run(program, "units", file, str(units))
    value = ",".join(records[1])
    if status not in (DONE, TOO_WIDE) or status == DONE and printed.decode().splitlines()[1] != value:
        yield "value of units"
    if units == 1:
        status, printed = run(program, "iron", file)
        its = [line.split(",") for line in printed.decode().splitlines()]
        if status != DONE or numbers_of(its) != numbers_of(records):
            yield "numbers of iron"


def numbers_of(records: list[list[str]]) -> list[list[str]]:
    """All records but the first one and the masses."""
    return [record for record in records[1:] if record[0] != "mass"]
