"""Reads and writes answers about auctions and about several units, as docs/FORMATS.md states them."""

from collections.abc import Sequence
from dataclasses import dataclass

from second_opinion import answer
from second_opinion.answer import GREATEST, GREATEST_WIDE, Pair, Records, TooWideAnswer
from second_opinion.auction import Counts, Interim, count_lists, weight_of
from second_opinion.setting import AuctionSetting, Refused


@dataclass
class AuctionAnswer:
    """Odds and pays with their value (a numerator and a denominator), and masses by list of counts, over the denominator
    of the odds. `multipliers` has pairs of face and main by row of the reduced program with the cuts; the main ones are
    over the denominator `bound`."""

    value: Pair
    interim: Interim
    masses: dict[Counts, list[int]]
    cuts: list[int]
    bound: int
    multipliers: dict[int, Pair]


def read_answer(data: bytes, auction: AuctionSetting) -> AuctionAnswer | TooWideAnswer:
    """The answer about an auction that the bytes of a file state, or `Refused`."""
    records, word, version = answer.begun(data, "auction", {"1": ["optimal", "toowide"], "2": ["toowide"]})
    said: AuctionAnswer | TooWideAnswer
    said = read_optimal(records, auction) if word == "optimal" else read_too_wide(records, auction, version)
    records.finish()
    return said


def read_table(data: bytes, auction: AuctionSetting) -> Interim:
    """The odds and pays of an auction of one's own, of which nothing is claimed, or `Refused`."""
    records, _, _ = answer.begun(data, "auction", {"1": ["table"], "2": []})
    interim = read_interim(records, auction)
    records.expect(end=1)
    records.finish()
    return interim


def read_answer_or_table(data: bytes, auction: AuctionSetting) -> AuctionAnswer | TooWideAnswer | Interim:
    """An answer about an auction. A text whose first record has another word than those of answers is read as an auction of one's
    own."""
    try:
        return read_answer(data, auction)
    except Refused as refused:
        if refused.line != answer.ANOTHER_WORD:
            raise
        return read_table(data, auction)


def read_unit_answer(data: bytes, auction: AuctionSetting, units: int) -> AuctionAnswer | TooWideAnswer:
    """The same about so many units: one that is too wide has two paths in either version."""
    records, word, _ = answer.begun(data, "units", {"1": ["optimal", "toowide"], "2": ["toowide"]})
    said: AuctionAnswer | TooWideAnswer
    said = read_optimal(records, auction, units) if word == "optimal" else read_too_wide(records, auction, "2")
    records.finish()
    return said


def read_optimal(records: Records, auction: AuctionSetting, units: int | None = None) -> AuctionAnswer:
    """An optimal answer about so many units, or about the one item."""
    value = answer.read_value(records)
    interim = read_interim(records, auction)
    masses = read_masses(records, auction, interim.den, units)
    cuts: list[int] = []
    while records.expect(cut=2, bound=2) == "cut":
        read_cut(records, auction, cuts)
    bound = records.integer(2, 1, GREATEST)
    kinds = len(auction.values)
    return AuctionAnswer(value, interim, masses, cuts, bound, answer.read_rows(records, kinds * kinds + len(cuts), 2))


def read_interim(records: Records, auction: AuctionSetting) -> Interim:
    """The records `interim`, `odds` and `pays`."""
    kinds = len(auction.values)
    records.expect(interim=2)
    den = records.integer(2, 1, GREATEST)
    records.expect(odds=1 + kinds)
    odds = records.integers(2, 0, den)
    records.expect(pays=1 + kinds)
    return Interim(den, odds, records.integers(2, -GREATEST, GREATEST))


def read_masses(records: Records, auction: AuctionSetting, den: int, units: int | None) -> dict[Counts, list[int]]:
    """One record for each list of counts. A value that no bidder has there has no mass, and where units are sold another one at
    most a unit for each bidder with it."""
    kinds = len(auction.values)
    masses = {}
    for counts in count_lists(auction.bidders, kinds):
        records.expect(mass=1 + 2 * kinds)
        for place, count in enumerate(counts, 2):
            records.integer(place, count, count)
        whole = den * weight_of(auction, counts)
        greatest = [GREATEST_WIDE if count else 0 for count in counts] if units is None else [count * whole for count in counts]
        masses[counts] = [records.integer(place, 0, most) for place, most in enumerate(greatest, 2 + kinds)]
        if sum(masses[counts]) > (units or 1) * whole:
            records.refuse("sum")
    return masses


def read_cut(records: Records, auction: AuctionSetting, cuts: list[int]) -> None:
    """Adds the set of a `cut` record to those that were read before, none of which it may be."""
    number = records.integer(2, 1, 2 ** len(auction.values) - 1)
    if number in cuts:
        records.refuse("field 2")
    cuts.append(number)


def read_too_wide(records: Records, auction: AuctionSetting, version: str) -> TooWideAnswer:
    cuts: list[int] = []
    while records.expect(cut=2, pivot=3, wide=5) == "cut":
        read_cut(records, auction, cuts)
    paths = [answer.read_begun_path(records)]
    if version == "2":
        records.expect(again=1)
        paths.append(answer.read_path(records))
    records.expect(end=1)
    return TooWideAnswer(paths)


def write_answer(said: AuctionAnswer, kind: str = "auction") -> str:
    """The text of an optimal answer of a kind. Rows whose multipliers are 0 are left out."""
    records: list[list[object]] = [["answer", 1, kind, "optimal"], ["value", *said.value], ["interim", said.interim.den]]
    records += [["odds", *said.interim.odds], ["pays", *said.interim.pays]]
    records += [["mass", *counts, *masses] for counts, masses in said.masses.items()]
    records += [["cut", cut] for cut in said.cuts]
    records.append(["bound", said.bound])
    records += [["row", index, *pair] for index, pair in sorted(said.multipliers.items()) if pair != (0, 0)]
    records.append(["end"])
    return "".join(",".join(map(str, record)) + "\n" for record in records)


def has_wide_number(said: AuctionAnswer) -> bool:
    """Whether a number of an optimal answer is too wide for a file."""
    interim = said.interim
    narrow: list[Sequence[int]] = [[interim.den], interim.odds, interim.pays, [said.bound], *said.multipliers.values()]
    wide: list[Sequence[int]] = [said.value, *said.masses.values()]
    return any(abs(number) > GREATEST for numbers in narrow for number in numbers) or any(
        abs(number) > GREATEST_WIDE for numbers in wide for number in numbers
    )
