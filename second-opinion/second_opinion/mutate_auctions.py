"""Auctions and their answers for `mutate`: small ones made at random, and answers that are changed as a whole."""

import random
from collections.abc import Iterator

from second_opinion import auction, auction_answer, auction_finding
from second_opinion.auction_answer import AuctionAnswer
from second_opinion.setting import AuctionSetting

GROUPED = b"""format = "mechanism-setting"
version = 3
kind = "bidders"
slots = [10, 4, 4]
revenue = 1
welfare = 1
keep = 0
[[bidder]]
name = "shoes"
count = 2
values = [-4, 6]
weights = [1, 3]
worth = 0
[[bidder]]
name = "books"
values = [2, 5, 7]
weights = [2, 1, 1]
"""
UNITS_TOO_WIDE = b"answer,1,units,toowide\ncut,1\npivot,0,1\nwide,1,2,5,3\nagain\nwide,0,0,7,1\nend\n"
TOO_WIDE = [b"answer,1,auction,toowide\ncut,1\npivot,0,1\nwide,1,2,-9223372036854775808,3\nend\n",
            b"answer,2,auction,toowide\ncut,1\npivot,0,1\npivot,1,0\nwide,1,2,5,3\nagain\nwide,0,0,7,1\nend\n"]


def made_pairs(count: int) -> list[tuple[bytes, bytes]]:
    """So many auctions by a fixed seed, each with the answer that `find` gives, as bytes, and two with answers that are too
    wide."""
    numbers = random.Random(5)
    its = [made_auction(numbers) for _ in range(count)]
    pairs = [(written(one), auction_answer.write_answer(auction_finding.found_answer(one)).encode()) for one in its]
    return pairs + [(written(its[0]), text) for text in TOO_WIDE]


def unit_pairs(count: int) -> list[tuple[int, bytes, bytes]]:
    """So many auctions by a fixed seed, each with a number of units and the answer about them that is found here, as bytes, and one
    with an answer that is too wide."""
    numbers = random.Random(11)
    sales = [(numbers.choice([1, 2, 2, 3, 4]), made_auction(numbers)) for _ in range(count)]
    pairs = [
        (units, written(its), auction_answer.write_answer(auction_finding.found_answer(its, units), "units").encode())
        for units, its in sales
    ]
    return [*pairs, (2, written(sales[0][1]), UNITS_TOO_WIDE)]


def made_auction(numbers: random.Random) -> AuctionSetting:
    """An auction of few bidders and values."""
    kinds = numbers.randint(1, 4)
    values = sorted(numbers.sample(range(numbers.choice([5, 20])), kinds))
    weights = [numbers.randint(1, 4) for _ in values]
    return AuctionSetting(numbers.randint(1, 3), values, weights, numbers.choice([0, 1, 1, 1, 2]),
                          numbers.choice([0, 0, 1, -1]), numbers.choice([0, 0, 1, 3, -2]))


def written(its: AuctionSetting) -> bytes:
    """The file of an auction."""
    keys = ["bidders", "values", "weights", "revenue", "welfare", "keep"]
    lines = ['format = "mechanism-setting"', "version = 1", 'kind = "auction"', *(f"{key} = {getattr(its, key)}" for key in keys)]
    return ("\n".join(lines) + "\n").encode()


def edges() -> Iterator[bytes]:
    """Auctions at and beyond the limits of size: bidders, values, and the weight of each value."""
    forms = [(12, 2, 1), (12, 2, 5), (12, 2, 6), (1, 12, 83_333), (1, 12, 83_334), (2, 12, 83_333), (2, 12, 83_334), (5, 12, 1),
             (8, 8, 3), (8, 8, 4), (9, 9, 1), (13, 1, 1), (0, 1, 1), (1, 13, 1), (1, 0, 1), (12, 1, 10), (12, 1, 11)]
    for bidders, kinds, weight in forms:
        yield written(AuctionSetting(bidders, [7 * kind for kind in range(kinds)], [weight] * kinds, 1, 1, 3))


def whole_change(numbers: random.Random, its: AuctionSetting, csv: bytes, units: int | None) -> bytes:
    """An answer about the item, or about so many units, that is read, changed as a whole, so that its texts stay in order, and
    written again. One that is too wide stays as it is."""
    said = auction_answer.read_answer(csv, its) if units is None else auction_answer.read_unit_answer(csv, its, units)
    if not isinstance(said, AuctionAnswer):
        return csv
    for _ in range(numbers.choice([1, 1, 2])):
        change = numbers.choice([change_odds, change_odds, change_pay, change_masses, change_cuts, change_multiplier, double])
        change(numbers, its, said)
        if change is change_odds and numbers.random() < 0.9:
            have_odds(its, said, units or 1)
    if numbers.random() < 0.9:
        value = auction.value_of(its, said.interim, units or 1)
        said.value = value.numerator, value.denominator
    return auction_answer.write_answer(said, "auction" if units is None else "units").encode()


def change_odds(numbers: random.Random, its: AuctionSetting, said: AuctionAnswer) -> None:
    """Other odds of a value."""
    place, odds = numbers.randrange(len(its.values)), said.interim.odds
    odds[place] = min(said.interim.den, max(0, odds[place] + numbers.choice([-2, -1, 1])))


def have_odds(its: AuctionSetting, said: AuctionAnswer, units: int) -> None:
    """Masses of so many units that have the odds, where there are any."""
    if auction.worst_set(its, said.interim, units) is None:
        said.masses = auction_finding.masses_of(its, said.interim, units)


def change_pay(numbers: random.Random, its: AuctionSetting, said: AuctionAnswer) -> None:
    said.interim.pays[numbers.randrange(len(its.values))] += numbers.choice([-1, -1, 1])


def change_masses(numbers: random.Random, its: AuctionSetting, said: AuctionAnswer) -> None:
    """A part of one value's mass goes to another, or is kept."""
    masses = said.masses[numbers.choice([*said.masses])]
    there = [place for place, mass in enumerate(masses) if mass]
    if there:
        part = numbers.choice([1, masses[numbers.choice(there)]])
        masses[numbers.choice(there)] -= 1
        if numbers.random() < 0.7:
            masses[numbers.choice(there)] += part


def change_cuts(numbers: random.Random, its: AuctionSetting, said: AuctionAnswer) -> None:
    """One cut more, one less, or another order of them."""
    others = [number for number in range(1, 2 ** len(its.values)) if number not in said.cuts]
    change = numbers.choice(["more", "less", "order"])
    if change == "more" and others:
        said.cuts.insert(numbers.randrange(len(said.cuts) + 1), numbers.choice(others))
    elif change == "less" and said.cuts:
        del said.cuts[numbers.randrange(len(said.cuts))]
    else:
        numbers.shuffle(said.cuts)


def change_multiplier(numbers: random.Random, its: AuctionSetting, said: AuctionAnswer) -> None:
    """Another multiplier of a row, or another bound."""
    index = numbers.randrange(len(its.values) ** 2 + len(said.cuts))
    face, main = said.multipliers.get(index, (0, 0))
    said.multipliers[index] = face + numbers.choice([0, 0, 0, 1, -1]), main + numbers.choice([0, -1, 1, 1])
    said.bound += numbers.choice([0, 0, 0, 1])


def double(numbers: random.Random, its: AuctionSetting, said: AuctionAnswer) -> None:
    """The same odds, pays and masses over twice the denominator."""
    interim = said.interim
    interim.den *= 2
    interim.odds, interim.pays = [2 * odds for odds in interim.odds], [2 * pay for pay in interim.pays]
    said.masses = {counts: [2 * mass for mass in masses] for counts, masses in said.masses.items()}
