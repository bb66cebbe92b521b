"""The best auction of several units in closed form, from the rules of docs/FORMATS.md: pools of values by their virtual values, odds by
how often units can go to bidders with the values from one on, and multipliers over their least common denominator.
"""

import math
from collections.abc import Iterator
from dataclasses import dataclass
from fractions import Fraction

from second_opinion import command, setting
from second_opinion.answer import GREATEST
from second_opinion.auction import Interim, count_lists, weight_of
from second_opinion.setting import AuctionSetting, Refused

MOST_UNITS = 12


@dataclass
class Pool:
    """The values from `first` on that are before `stop`, with their weight and the sum of their virtual values by weight."""

    first: int
    stop: int
    weight: int
    virtual: int


@dataclass
class ClosedForm:
    """The numbers of an answer, but for its masses. `multipliers` are by row of the reduced program with the cuts."""

    value: Fraction
    interim: Interim
    cuts: list[int]
    multipliers: dict[int, Fraction]

    def bound(self) -> int:
        return math.lcm(*(multiplier.denominator for multiplier in self.multipliers.values()))

    def is_long(self) -> bool:
        return any(self.bound() * number > GREATEST for number in (Fraction(1), *self.multipliers.values()))

    def records(self) -> Iterator[list[object]]:
        """The records of `ironunits`, without the masses."""
        yield ["answer", 1, "units", "optimal"]
        yield ["value", self.value.numerator, self.value.denominator]
        yield ["interim", self.interim.den]
        yield ["odds", *self.interim.odds]
        yield ["pays", *self.interim.pays]
        yield from (["cut", cut] for cut in self.cuts)
        yield ["bound", self.bound()]
        yield from (["row", index, 0, self.bound() * number] for index, number in sorted(self.multipliers.items()) if number)
        yield ["end"]


def closed(words: list[str]) -> tuple[int, str]:
    """The command `closed SETTING NUMBER`: what `mechdes ironunits` prints, without the masses."""
    name, number = command.file_names(words, 2)
    if not number.isdecimal() or not 1 <= int(number) <= MOST_UNITS:
        raise Refused(67, "number refused")
    auction = setting.read_setting(command.read_file(name, setting.FILE_LIMIT))
    if not isinstance(auction, AuctionSetting):
        raise Refused(65, "setting refused: other kind")
    form = closed_form(auction, int(number))
    if form.is_long():
        return 22, "undecided\n"
    return 0, "".join(",".join(map(str, record)) + "\n" for record in form.records())


def closed_form(auction: AuctionSetting, units: int) -> ClosedForm:
    pools = pools_of(auction)
    interim = interim_of(auction, pools, units)
    cuts = [(1 << len(auction.values)) - (1 << pool.first) for pool in pools]
    return ClosedForm(value_of(auction, interim, units), interim, cuts, multipliers_of(auction, pools, units))


def virtual_values(auction: AuctionSetting) -> list[int]:
    """The virtual values, each times the weight of its value."""
    above = [sum(auction.weights[place:]) for place in range(len(auction.values) + 1)]
    asked = [value * weight for value, weight in zip(auction.values, above)] + [0]
    return [
        weight * (auction.welfare * value - auction.keep) + auction.revenue * (asked[place] - asked[place + 1])
        for place, (value, weight) in enumerate(zip(auction.values, auction.weights))
    ]


def pools_of(auction: AuctionSetting) -> list[Pool]:
    """The pools that buy, from the lowest on. Each ends as soon as the mean of its virtual values is as low as it can be."""
    virtual = virtual_values(auction)
    sums = [sum(virtual[:place]) for place in range(len(virtual) + 1)]
    first = max(place for place, total in enumerate(sums) if total == min(sums))
    pools = []
    while first < len(virtual):
        ends = range(first + 1, len(virtual) + 1)
        found = [Pool(first, end, sum(auction.weights[first:end]), sums[end] - sums[first]) for end in ends]
        pools.append(min(found, key=lambda pool: (Fraction(pool.virtual, pool.weight), pool.stop)))
        first = pools[-1].stop
    return pools


def sold_from(auction: AuctionSetting, units: int, place: int) -> int:
    """How often units can go to bidders with values from a place on, over all profiles by weight."""
    inside, bidders = sum(auction.weights[place:]), auction.bidders
    outside = sum(auction.weights) - inside
    return sum(
        min(units, count) * math.comb(bidders, count) * inside**count * outside ** (bidders - count) for count in range(bidders + 1)
    )


def interim_of(auction: AuctionSetting, pools: list[Pool], units: int) -> Interim:
    odds, pays = [0] * len(auction.values), []
    for pool in pools:
        share = Fraction(sold_from(auction, units, pool.first) - sold_from(auction, units, pool.stop), pool.weight)
        odds[pool.first:pool.stop] = [whole(share)] * (pool.stop - pool.first)
    paid = before = 0
    for value, own in zip(auction.values, odds):
        paid, before = paid + value * (own - before), own
        pays.append(paid)
    return Interim(denominator(auction), odds, pays)


def denominator(auction: AuctionSetting) -> int:
    return auction.bidders * sum(auction.weights) ** (auction.bidders - 1)


def whole(number: Fraction) -> int:
    if number.denominator != 1:
        raise ValueError(f"odds that are no whole number: {number}")
    return int(number)


def value_of(auction: AuctionSetting, interim: Interim, units: int) -> Fraction:
    """The objective: that of keeping all units, and what each bidder adds."""
    added = sum(
        weight * ((auction.welfare * value - auction.keep) * odds + auction.revenue * pay)
        for value, weight, odds, pay in zip(auction.values, auction.weights, interim.odds, interim.pays)
    )
    return auction.keep * units + Fraction(auction.bidders * added, sum(auction.weights) * interim.den)


def multipliers_of(auction: AuctionSetting, pools: list[Pool], units: int) -> dict[int, Fraction]:
    """What each row is multiplied by, but for those that are multiplied by 0."""
    kinds, factor = len(auction.values), cost_divisor(auction)
    found = {kinds * (kinds - 1): Fraction(auction.revenue * sum(auction.weights), factor)}
    for place in range(1, kinds):
        step = auction.values[place] - auction.values[place - 1]
        gap = gap_of(auction, pools, place)
        paid = auction.revenue * sum(auction.weights[place:])
        found[truth_row(kinds, place - 1, place)] = gap / (step * factor)
        found[truth_row(kinds, place, place - 1)] = (paid * step + gap) / (step * factor)
    mean = Fraction(0)
    for number, pool in enumerate(pools):
        its = Fraction(pool.virtual, pool.weight)
        divisor = math.gcd(sold_from(auction, units, pool.first), *(denominator(auction) * weight for weight in auction.weights[pool.first:]))
        found[kinds * kinds + number] = (its - mean) * divisor / (denominator(auction) * factor)
        mean = its
    return found


def truth_row(kinds: int, value: int, report: int) -> int:
    """The row that a bidder with a value does not gain by a report: by value, then by other value."""
    return value * (kinds - 1) + report - (report > value)


def gap_of(auction: AuctionSetting, pools: list[Pool], place: int) -> Fraction:
    """How far the curve of virtual values is at a value above its lower hull."""
    virtual = virtual_values(auction)
    sums = [sum(virtual[:end]) for end in range(place + 1)]
    for pool in pools:
        if pool.first <= place < pool.stop:
            weight = sum(auction.weights[pool.first:place])
            return sums[place] - sums[pool.first] - Fraction(pool.virtual * weight, pool.weight)
    return Fraction(sums[place] - min(sums))


def cost_divisor(auction: AuctionSetting) -> int:
    """What the cost of the program is divided by."""
    numbers = [
        number
        for value, weight in zip(auction.values, auction.weights)
        for number in (weight * (auction.welfare * value - auction.keep), weight * auction.revenue)
    ]
    return math.gcd(*numbers) or 1


def value_by_profiles(auction: AuctionSetting, units: int) -> Fraction:
    """The greatest objective once more, and in another way: at each profile the units go to the bidders with the greatest ironed
    virtual values, as far as these are above 0 (Myerson 1981; Maskin and Riley 1989)."""
    ironed = [Fraction(0)] * len(auction.values)
    for pool in pools_of(auction):
        ironed[pool.first:pool.stop] = [Fraction(pool.virtual, pool.weight)] * (pool.stop - pool.first)
    total = Fraction(0)
    for counts in count_lists(auction.bidders, len(auction.values)):
        left = units
        for value in reversed(range(len(ironed))):
            sold = min(left, counts[value])
            total += weight_of(auction, counts) * sold * ironed[value]
            left -= sold
    return auction.keep * units + total / sum(auction.weights) ** auction.bidders
