"""What a page shows of an auction and its answer: exact numbers, and nothing of how they are shown.

Values go by their places from 0, as in `auction.py`. A run of values is a pair of places, those of its first and its
last value.
"""

from collections.abc import Iterator
from dataclasses import dataclass
from fractions import Fraction
from itertools import groupby

from second_opinion.answer import Pair
from second_opinion.auction import Counts, demand, members, point_of, program_of, right_side, value_of, weight_of
from second_opinion.auction_answer import AuctionAnswer
from second_opinion.setting import AuctionSetting


Run = tuple[Fraction, int, int]  # of values next to each other: what they have in common, and the places of the first and the last


@dataclass(frozen=True)
class Cut:
    """A set of values: its number and its places, the weight of the profiles in which it is to win, the weight of those
    in which it is there, and the index and the multipliers of its row."""

    number: int
    places: tuple[int, ...]
    asked: Fraction
    most: int
    row: int
    multipliers: Pair

    @property
    def binds(self) -> bool:
        """Whether the set asks for all there is."""
        return self.asked == self.most

    @property
    def weighed(self) -> bool:
        """Whether its multiplier is positive."""
        return self.multipliers > (0, 0)


@dataclass(frozen=True)
class Block:
    """A run of values that count alike once virtual values that fall are averaged, and what each counts."""

    first: int
    last: int
    weight: int
    counts: Fraction


def virtual_values(auction: AuctionSetting) -> list[Fraction]:
    """For each value what selling to it brings, less what the values above must then be left with."""
    found, above = [], sum(auction.weights)
    for value, following, weight in zip(auction.values, [*auction.values[1:], 0], auction.weights):
        above -= weight
        found.append(value - Fraction((following - value) * above, weight))
    return found


def counted_values(auction: AuctionSetting) -> list[Fraction]:
    """What the objective gains where the item goes to a bidder with a value and is not kept."""
    return [
        auction.revenue * virtual + auction.welfare * value - auction.keep
        for value, virtual in zip(auction.values, virtual_values(auction))
    ]


def ironed(auction: AuctionSetting) -> list[Block]:
    """The blocks of values. Neighbours are put together, with the average by weight, as long as the lower ones count
    more."""
    blocks: list[Block] = []
    for place, (weight, counts) in enumerate(zip(auction.weights, counted_values(auction))):
        block = Block(place, place, weight, counts)
        while blocks and blocks[-1].counts > block.counts:
            lower = blocks.pop()
            weight = lower.weight + block.weight
            counts = (lower.weight * lower.counts + block.weight * block.counts) / weight
            block = Block(lower.first, block.last, weight, counts)
        blocks.append(block)
    return blocks


def highest_chances(auction: AuctionSetting, blocks: list[Block]) -> list[Fraction]:
    """For each block the chance that the highest value of all bidders is one of it."""
    total, below, found = sum(auction.weights), 0, []
    for block in blocks:
        upto = below + block.weight
        found.append(Fraction(upto**auction.bidders - below**auction.bidders, total**auction.bidders))
        below = upto
    return found


def greatest_value(auction: AuctionSetting) -> Fraction:
    """The greatest value that an auction can have: the item goes to the block that counts most, if more than 0."""
    blocks = ironed(auction)
    gains = [max(block.counts, Fraction(0)) * chance for block, chance in zip(blocks, highest_chances(auction, blocks))]
    return sum(gains, Fraction(auction.keep))


def runs(numbers: list[Fraction]) -> list[Run]:
    """The runs of equal numbers next to each other."""
    found, place = [], 0
    for number, same in groupby(numbers):
        last = place + len(list(same)) - 1
        found.append((number, place, last))
        place = last + 1
    return found


class Sale:
    """An optimal answer about an auction: how the item is sold."""

    def __init__(self, auction: AuctionSetting, answer: AuctionAnswer) -> None:
        self.auction = auction
        self.answer = answer
        self.interim = answer.interim
        self.places = range(len(auction.values))
        self.total = sum(auction.weights)
        self.odds = [Fraction(number, self.interim.den) for number in self.interim.odds]
        self.pays = [Fraction(number, self.interim.den) for number in self.interim.pays]
        self.program = program_of(auction, answer.cuts)
        self.profiles = self.total**auction.bidders  # their weight

    def chance(self, place: int) -> Fraction:
        """The chance that a bidder has a value."""
        return Fraction(self.auction.weights[place], self.total)

    def per_win(self, place: int) -> Fraction | None:
        """What a bidder with a value pays for each time that it wins, or None where it never does."""
        return self.pays[place] / self.odds[place] if self.odds[place] else None

    def keeps(self, place: int) -> Fraction:
        """What a bidder with a value is left with on average."""
        return self.auction.values[place] * self.odds[place] - self.pays[place]

    def pools(self) -> list[Run]:
        """The runs of at least two values that win as often, each with its odds."""
        return [(odds, first, last) for odds, first, last in runs(self.odds) if first < last]

    def over_all(self, amounts: list[Fraction]) -> Fraction:
        """The sum over all bidders of an amount by value, on average."""
        return self.auction.bidders * sum((self.chance(place) * amount for place, amount in enumerate(amounts)), Fraction(0))

    def kept(self) -> Fraction:
        """The chance that the item is kept."""
        return 1 - self.over_all(self.odds)

    def welfare(self) -> Fraction:
        """What the item is worth to who gets it, on average."""
        return self.over_all([value * odds for value, odds in zip(self.auction.values, self.odds)])

    def revenue(self) -> Fraction:
        """What all bidders pay, on average."""
        return self.over_all(self.pays)

    def value(self) -> Fraction:
        """The expected objective."""
        return value_of(self.auction, self.interim)

    def multipliers(self, row: int) -> Pair:
        """The pair of face and main multipliers of a row."""
        return self.answer.multipliers.get(row, (0, 0))

    def cuts(self) -> list[Cut]:
        """The sets of the answer, in its order. Their rows stand behind those of truth and rationality."""
        found = []
        for row, number in enumerate(self.answer.cuts, len(self.places) ** 2):
            places = tuple(members(self.auction, number))
            asked = sum((demand(self.auction, place, 1) * self.odds[place] for place in places), Fraction(0))
            most = right_side(self.auction, number)
            found.append(Cut(number, places, asked, most, row, self.multipliers(row)))
        return found

    def sides(self) -> Iterator[tuple[Fraction, int]]:
        """For each row of the reduced program its left side at the odds and pays, and its right side."""
        point, den = point_of(self.interim), self.interim.den
        for row in self.program.rows:
            yield Fraction(sum(number * point[column] for column, number in row.terms.items()), den), row.right

    def equal(self) -> set[int]:
        """The rows of truth and rationality that hold with equality."""
        return {row for row, (left, right) in enumerate(self.sides()) if left == right and row < len(self.places) ** 2}

    def broken(self) -> list[tuple[str, Fraction, int]]:
        """The rows that the odds and pays break, by name, each with its two sides."""
        rows = zip(self.program.rows, self.sides())
        return [(row.name, left, right) for row, (left, right) in rows if left > right]

    def shares(self, counts: Counts) -> list[Fraction]:
        """The chance that the item goes to a bidder with a value, where so many bidders have each value."""
        room = self.interim.den * weight_of(self.auction, counts)
        return [Fraction(mass, room) for mass in self.answer.masses[counts]]

    def missed(self) -> tuple[int, int, int] | None:
        """The first value whose masses do not make its odds: its place, the sum of its masses, and what they should add
        to; or None."""
        for place in self.places:
            given = sum(masses[place] for masses in self.answer.masses.values())
            asked = demand(self.auction, place, self.interim.odds[place])
            if given != asked:
                return place, given, asked
        return None
