"""What an auction means: how often its item, or so many units of it, can go to some values, what odds and pays are worth, and the
reduced program.

A symmetric auction is told by how often a bidder wins and what it pays, by its own value, on average over the values of
the others. Values go by their places from 0, and a set of them is a number: its bit v is set where v is in it. A list of
counts has, for each value, how many bidders have it.
"""

import math
from collections.abc import Iterator
from dataclasses import dataclass
from fractions import Fraction

from second_opinion.program import Program, divided
from second_opinion.setting import AuctionSetting

Counts = tuple[int, ...]  # for each value, how many bidders have it


@dataclass
class Interim:
    """How often a bidder with each value wins, and what it pays, all over the denominator `den`."""

    den: int
    odds: list[int]
    pays: list[int]


def count_lists(bidders: int, values: int) -> Iterator[Counts]:
    """All lists of counts of so many bidders over so many values, in ascending lexicographic order."""
    if values == 1:
        yield (bidders,)
        return
    for first in range(bidders + 1):
        for rest in count_lists(bidders - first, values - 1):
            yield (first, *rest)


def weight_of(auction: AuctionSetting, counts: Counts) -> int:
    """The weight of all profiles with these counts."""
    orders = math.factorial(auction.bidders) // math.prod(map(math.factorial, counts))
    return orders * math.prod(weight**count for weight, count in zip(auction.weights, counts))


def demand(auction: AuctionSetting, value: int, odds: int) -> int:
    """The weight of the profiles in which a bidder with the value wins, with these odds, over their denominator."""
    return auction.bidders * sum(auction.weights) ** (auction.bidders - 1) * auction.weights[value] * odds


def members(auction: AuctionSetting, number: int) -> list[int]:
    """The values of a set."""
    return [value for value in range(len(auction.values)) if number >> value & 1]


def right_side(auction: AuctionSetting, number: int, units: int = 1) -> int:
    """How many of so many units there are for bidders with values of the set, over all profiles by their weights."""
    inside = sum(auction.weights[value] for value in members(auction, number))
    outside = sum(auction.weights) - inside
    return sum(
        min(count, units) * math.comb(auction.bidders, count) * inside**count * outside ** (auction.bidders - count)
        for count in range(auction.bidders + 1)
    )


def excess(auction: AuctionSetting, interim: Interim, number: int, units: int = 1) -> int:
    """By how much the odds of a set ask for more than there is, over the denominator."""
    asked = sum(demand(auction, value, interim.odds[value]) for value in members(auction, number))
    return asked - interim.den * right_side(auction, number, units)


def worst_set(auction: AuctionSetting, interim: Interim, units: int = 1) -> int | None:
    """The set with the greatest excess, the largest number of several; None where no set asks for too much."""
    sets = range(1, 2 ** len(auction.values))
    worst = max(sets, key=lambda number: (excess(auction, interim, number, units), number))
    return worst if excess(auction, interim, worst, units) > 0 else None


def value_of(auction: AuctionSetting, interim: Interim, units: int = 1) -> Fraction:
    """The objective: that of keeping all units, and what each bidder adds."""
    added = sum(
        weight * ((auction.welfare * value - auction.keep) * odds + auction.revenue * pay)
        for value, weight, odds, pay in zip(auction.values, auction.weights, interim.odds, interim.pays)
    )
    return units * auction.keep + Fraction(auction.bidders * added, sum(auction.weights) * interim.den)


def single_cuts(auction: AuctionSetting) -> list[int]:
    """The sets of one value."""
    return [1 << value for value in range(len(auction.values))]


def program_of(auction: AuctionSetting, cuts: list[int], units: int = 1) -> Program:
    """The reduced program of so many units with these cuts: columns of the odds, then the plus parts of the pays, then their minus
    parts."""
    values = range(len(auction.values))
    rows = []
    for true in values:
        for report in values:
            if report != true:
                name = f"truth/{auction.values[true]}/{auction.values[report]}"
                terms = gain(auction, true, report) | negative(gain(auction, true, true))
                rows.append(divided(name, False, 0, terms))
    for true in values:
        rows.append(divided(f"rational/{auction.values[true]}", False, 0, negative(gain(auction, true, true))))
    for cut in cuts:
        terms = {value: demand(auction, value, 1) for value in members(auction, cut)}
        rows.append(divided(f"cut/{cut}", False, right_side(auction, cut, units), terms))
    return Program(3 * len(values), rows, cost_of(auction))


def gain(auction: AuctionSetting, true: int, report: int) -> dict[int, int]:
    """What a bidder of a true value gets by a report, by column."""
    kinds = len(auction.values)
    return {report: auction.values[true], kinds + report: -1, 2 * kinds + report: 1}


def negative(terms: dict[int, int]) -> dict[int, int]:
    return {column: -number for column, number in terms.items()}


def cost_of(auction: AuctionSetting) -> dict[int, int]:
    """The cost by column, divided."""
    kinds = len(auction.values)
    cost = {}
    for place, (value, weight) in enumerate(zip(auction.values, auction.weights)):
        cost[place] = weight * (auction.welfare * value - auction.keep)
        cost[kinds + place] = weight * auction.revenue
        cost[2 * kinds + place] = -weight * auction.revenue
    return divided("cost", False, 0, cost).terms


def point_of(interim: Interim) -> dict[int, int]:
    """The point of odds and pays by column, over their denominator."""
    numbers = [*interim.odds, *(max(pay, 0) for pay in interim.pays), *(max(-pay, 0) for pay in interim.pays)]
    return dict(enumerate(numbers))
