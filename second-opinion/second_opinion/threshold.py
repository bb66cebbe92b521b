"""The auction of several units in which only winners pay: docs/FORMATS.md, "What `threshold` prints" and "What `award` prints".

A bidder's rank is the number of the pool that its value is in, counted from 0, the lowest; `LOWEST` is that of a value below the
reserve.
"""

import dataclasses
from collections.abc import Iterator, Sequence
from dataclasses import dataclass
from fractions import Fraction

from second_opinion import command
from second_opinion.answer import NUMBER, records_of
from second_opinion.auction import count_lists, weight_of
from second_opinion.setting import FILE_LIMIT, AuctionSetting, GeneralSetting, Refused, read_setting

LOWEST = -1
MOST_UNITS = 12

Pool = tuple[int, int]  # the places of its least and its greatest value


@dataclass(frozen=True)
class Expected:
    """What is expected of an auction: its objective, what all bidders pay, and what the units are worth to those who get them."""

    value: Fraction
    revenue: Fraction
    welfare: Fraction


class Rule:
    """The rule of an auction and a number of units."""

    def __init__(self, auction: AuctionSetting, units: int) -> None:
        self.auction = auction
        self.units = units
        self.pools = pools_of(auction)
        self.leasts = [auction.values[first] for first, _ in self.pools]

    def rank(self, place: int) -> int:
        """The rank of a value."""
        return next((rank for rank, (first, last) in enumerate(self.pools) if first <= place <= last), LOWEST)

    def chance(self, rank: int, others: Sequence[int]) -> Fraction:
        """How often a bidder of a rank wins against others of these ranks."""
        if rank == LOWEST:
            return Fraction(0)
        ahead, beside = sum(other > rank for other in others), 1 + others.count(rank)
        return Fraction(min(max(self.units - ahead, 0), beside), beside)

    def payment(self, rank: int, others: Sequence[int]) -> Fraction:
        """What it pays on average over the draws: the least value of each pool up to its own, times what its chance rises there."""
        paid = before = Fraction(0)
        for pool, least in enumerate(self.leasts[: rank + 1]):
            chance = self.chance(pool, others)
            paid += least * (chance - before)
            before = chance
        return paid

    def price(self, rank: int, others: Sequence[int]) -> Fraction | None:
        """What it pays where it wins, or None where it never does."""
        chance = self.chance(rank, others)
        return self.payment(rank, others) / chance if chance else None

    def draws(self, ranks: Sequence[int]) -> int:
        """How many draws there are at the ranks of all bidders: as many as share the edge, or one."""
        for rank in set(ranks) - {LOWEST}:
            left, beside = self.units - sum(other > rank for other in ranks), ranks.count(rank)
            if 0 < left < beside:
                return beside
        return 1

    def winners(self, ranks: Sequence[int], draw: int) -> list[int]:
        """Who wins at a draw, counted from 0: pool by pool from the highest, each from the place that the draw names on."""
        won: list[int] = []
        for rank in reversed(range(len(self.pools))):
            beside = [bidder for bidder, its in enumerate(ranks) if its == rank]
            left = min(self.units - len(won), len(beside))
            won += [beside[(draw + step) % len(beside)] for step in range(left)]
        return sorted(won)

    def ranks(self) -> range:
        """All ranks, from the lowest."""
        return range(LOWEST, len(self.pools))

    def by_rank(self, amounts: Sequence[int]) -> list[int]:
        """The sums of amounts by value over the values of each rank."""
        return [sum(amount for place, amount in enumerate(amounts) if self.rank(place) == rank) for rank in self.ranks()]

    def lists(self, bidders: int) -> Iterator[tuple[int, list[int]]]:
        """The lists of ranks that so many bidders may have, whatever their order, each with the weight of its profiles."""
        of_ranks = dataclasses.replace(self.auction, bidders=bidders, weights=self.by_rank(self.auction.weights))
        for counts in count_lists(bidders, len(self.ranks())):
            weight = weight_of(of_ranks, counts)
            if weight:
                yield weight, [rank for rank, count in zip(self.ranks(), counts) for _ in range(count)]

    def interim(self, rank: int) -> tuple[Fraction, Fraction]:
        """How often a bidder of a rank wins, and what it pays, on average over the values of the others."""
        others = list(self.lists(self.auction.bidders - 1))
        total = sum(self.auction.weights) ** (self.auction.bidders - 1)
        odds = sum((weight * self.chance(rank, ranks) for weight, ranks in others), Fraction(0))
        pays = sum((weight * self.payment(rank, ranks) for weight, ranks in others), Fraction(0))
        return odds / total, pays / total

    def expected(self) -> Expected:
        """What is expected, over all lists of ranks."""
        auction = self.auction
        weights = self.by_rank(auction.weights)
        worths = self.by_rank([weight * value for weight, value in zip(auction.weights, auction.values)])
        revenue = welfare = sold = Fraction(0)
        for weight, everyone in self.lists(auction.bidders):
            for rank in everyone:
                others = without(everyone, rank)
                often = weight * self.chance(rank, others)
                if often:
                    sold += often
                    welfare += often * Fraction(worths[rank - LOWEST], weights[rank - LOWEST])
                    revenue += weight * self.payment(rank, others)
        total = sum(auction.weights) ** auction.bidders
        revenue, welfare, sold = revenue / total, welfare / total, sold / total
        value = auction.revenue * revenue + auction.welfare * welfare + auction.keep * (self.units - sold)
        return Expected(value, revenue, welfare)

    def prices(self) -> Iterator[tuple[int, int | None, int, Fraction]]:
        """What the winner of one unit pays, by its pool, by the best pool among the others (None where none of them reaches the
        reserve), and by how many of them are in it."""
        for pool in range(len(self.pools)):
            cases = [(LOWEST, 0)] + [(other, count) for other in range(pool + 1) for count in range(1, self.auction.bidders)]
            for other, count in cases:
                others = [other] * count + [LOWEST] * (self.auction.bidders - 1 - count)
                price = self.price(pool, others)
                assert price is not None  # nobody is ahead of the pool
                yield pool, None if other == LOWEST else other, count, price


def without(ranks: Sequence[int], rank: int) -> list[int]:
    """The ranks of the others of a bidder with one of them."""
    others = list(ranks)
    others.remove(rank)
    return others


def sums_of(auction: AuctionSetting) -> list[int]:
    """For each number of the lowest values the sum of their virtual values times their weights."""
    sums, above = [0], sum(auction.weights)
    for value, following, weight in zip(auction.values, [*auction.values[1:], 0], auction.weights):
        gain = weight * (auction.welfare * value - auction.keep)
        gain += auction.revenue * (value * above - following * (above - weight))
        above -= weight
        sums.append(sums[-1] + gain)
    return sums


def pools_of(auction: AuctionSetting) -> list[Pool]:
    """The pools from the reserve on, by the rules 2 and 3 of docs/FORMATS.md, "What `iron` prints"."""
    sums, kinds = sums_of(auction), len(auction.values)
    start = max(place for place, total in enumerate(sums) if total == min(sums))
    pools = []
    while start < kinds:
        slopes = {
            end: Fraction(sums[end] - sums[start], sum(auction.weights[start:end])) for end in range(start + 1, kinds + 1)
        }
        end = min(slopes, key=lambda place: slopes[place])  # the first of several
        pools.append((start, end - 1))
        start = end
    return pools


def field(part: object) -> str:
    """A part of a record as text: a fraction has two fields, and what is absent is `none`."""
    if isinstance(part, Fraction):
        return f"{part.numerator},{part.denominator}"
    return "none" if part is None else str(part)


def record(*parts: object) -> str:
    """A record."""
    return ",".join(map(field, parts)) + "\n"


def threshold_text(rule: Rule) -> str:
    """The records of `threshold`."""
    expected, values = rule.expected(), rule.auction.values
    records = [record("threshold", 1), record("units", rule.units), record("value", expected.value)]
    records += [record("revenue", expected.revenue), record("welfare", expected.welfare)]
    records.append(record("reserve", rule.leasts[0] if rule.leasts else None))
    records += [record("pool", values[first], values[last]) for first, last in rule.pools]
    if rule.units == 1:
        records += [record("price", *case) for case in rule.prices()]
    return "".join(records) + record("end")


def award_text(rule: Rule, ranks: Sequence[int], draw: int) -> str:
    """The records of `award` at the ranks of all bidders."""
    chances, prices = [], []
    for bidder, rank in enumerate(ranks, 1):
        others = without(ranks, rank)
        chances.append(record("chance", bidder, rule.chance(rank, others)))
        price = rule.price(rank, others)
        prices += [] if price is None else [record("price", bidder, price)]
    wins = [record("wins", bidder + 1) for bidder in rule.winners(ranks, draw)]
    return "".join([*chances, *prices, *wins]) + record("end")


def rule_of(name: str, units: int) -> Rule:
    """The rule of an auction in a file. A wrong number of units is refused before the file is read."""
    if not 1 <= units <= MOST_UNITS:
        raise Refused(67, "number refused")
    auction = read_setting(command.read_file(name, FILE_LIMIT))
    if isinstance(auction, GeneralSetting):
        raise Refused(65, "setting refused: other kind")
    return Rule(auction, units)


def ranks_of(rule: Rule, profile: str) -> list[int]:
    """The ranks of the bidders at a profile, whose values are cut at commas."""
    values, reports = list(map(str, rule.auction.values)), profile.split(",")
    if len(reports) != rule.auction.bidders or not set(reports) <= set(values):
        raise Refused(67, "profile refused")
    return [rule.rank(values.index(report)) for report in reports]


def read_units(data: bytes) -> int:
    """The number of units that a text of `threshold` is about."""
    records = records_of(data)
    number_in(next(records, []), 1, b"threshold", 1)
    return number_in(next(records, []), 2, b"units", MOST_UNITS)


def number_in(fields: list[bytes], line: int, word: bytes, most: int) -> int:
    """The number of a record that has this word, and behind it a number from 1 to a greatest one."""
    if len(fields) != 2 or fields[0] != word:
        raise Refused(66, f"answer refused: line {line}: record")
    if not NUMBER.fullmatch(fields[1]) or not 1 <= int(fields[1]) <= most:
        raise Refused(66, f"answer refused: line {line}: field 2")
    return int(fields[1])


def threshold(words: list[str]) -> tuple[int, str]:
    """The command `threshold SETTING NUMBER`."""
    name, number = command.file_names(words, 2)
    return 0, threshold_text(rule_of(name, command.number_of(number)))


def award(words: list[str]) -> tuple[int, str]:
    """The command `award SETTING NUMBER PROFILE DRAW`."""
    name, number, profile, drawn = command.file_names(words, 4)
    units, draw = command.number_of(number), command.number_of(drawn)
    rule = rule_of(name, units)
    ranks = ranks_of(rule, profile)
    if not 0 <= draw < rule.draws(ranks):
        raise Refused(67, "draw refused")
    return 0, award_text(rule, ranks, draw)
