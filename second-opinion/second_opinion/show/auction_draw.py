"""The pictures of an auction: how often a bidder wins by its value, what values count, and what sets of values ask for.

In all of them the plain pattern is the usual case, and the striped one what a reader looks for: numbers below 0, and
sets that bind.
"""

from fractions import Fraction

from second_opinion.setting import AuctionSetting
from second_opinion.show.auction_facts import Run, Sale, counted_values, ironed
from second_opinion.show.bars import Bar, Bars, Group
from second_opinion.show.draw import picture_file, text_at
from second_opinion.show.text import number, set_words, with_decimal

HEADING = Fraction(42, 5)  # the width of a character of a heading
PATTERNS_USED = (0, 1)  # the plain pattern and the striped one


def run_words(auction: AuctionSetting, first: int, last: int, rest: str) -> str:
    """A run of values, and what is said of them."""
    return f"{set_words(auction.values, range(first, last + 1))}: {rest}"


def odds_bars(auction: AuctionSetting, odds: list[Fraction], pools: list[Run]) -> Bars:
    """How often a bidder wins, by its own value; the pools, whose values win as often, are marked."""
    bars = []
    for value, often in zip(auction.values, odds):
        spoken = f"The value {number(value)} wins with the odds {number(often)}"
        bars.append(Bar(number(value), often, with_decimal(often), spoken, limit=1))
    groups = [
        Group(first, last, run_words(auction, first, last, "pooled" if often else "never win")) for often, first, last in pools
    ]
    return Bars("How often a bidder wins, by its value", bars, groups)


def value_bars(auction: AuctionSetting) -> Bars:
    """What each value counts, and the averages of those that fall."""
    bars = []
    for value, counts in zip(auction.values, counted_values(auction)):
        spoken = f"The value {number(value)} counts {number(counts)}"
        bars.append(Bar(number(value), counts, with_decimal(counts), spoken, key=int(counts < 0)))
    groups = [
        Group(
            block.first, block.last, run_words(auction, block.first, block.last, f"ironed to {number(block.counts)}"),
            block.counts,
        )
        for block in ironed(auction)
        if block.first < block.last
    ]
    return Bars("What each value counts", bars, groups)


def cut_bars(sale: Sale) -> Bars:
    """What each set of the answer asks for, in the frame of what there is."""
    auction, bars = sale.auction, []
    for cut in sale.cuts():
        words = set_words(auction.values, cut.places)
        text = f"{number(cut.asked)} of {cut.most}"
        spoken = f"The set {words} asks for {text}"
        spoken += ", all there is" if cut.binds else ""
        spoken += ", with a multiplier" if cut.weighed else ""
        bars.append(Bar(words, cut.asked, text, spoken, limit=cut.most, key=int(cut.binds), thick=cut.weighed))
    return Bars("What the sets of values ask for", bars)


def odds_file(sale: Sale, heading: str) -> str:
    """The odds as an SVG file of its own."""
    drawn = odds_bars(sale.auction, sale.odds, sale.pools())
    words = f"{drawn.heading}: {drawn.description()}"
    made = [text_at(18, 32, heading, "heading"), text_at(18, 56, drawn.heading, "agent"), drawn.body(18, 68)]
    wide = max(drawn.width, len(heading) * HEADING)
    return picture_file(heading, words, wide + 36, drawn.height + 86, PATTERNS_USED, made)
