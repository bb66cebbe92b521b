"""Puts a page together from an auction and what `threshold` prints of it: who wins, and what winners pay."""

from dataclasses import dataclass
from fractions import Fraction

from second_opinion.setting import AuctionSetting
from second_opinion.show.auction_draw import PATTERNS_USED, odds_bars
from second_opinion.show.auction_page import AnyAuctionPage
from second_opinion.show.auction_tables import folded
from second_opinion.show.draw import pattern_definitions
from second_opinion.show.parts import alert, big, big_value, figure, hidden, made_from, paragraph, section, whole
from second_opinion.show.tables import Cell, head, numeric, table
from second_opinion.show.text import count, html_number, number, set_words
from second_opinion.threshold import LOWEST, Rule, threshold_text, without
from second_opinion.threshold_audit import best_by_virtual_values

MOST_ROWS = 400  # of what winners pay; more are left out


@dataclass(frozen=True)
class Told:
    """What a text of `threshold` tells: the rule of an auction and its units, and the text."""

    rule: Rule
    text: str


class ThresholdPage(AnyAuctionPage):
    """A page about an auction in which only winners pay, by the words of `Page`."""

    truth = "dominant: at every profile, whatever the others report, no report is better than the truth"
    rational = "ex-post: at every profile, no bidder loses"
    payments = "by winners alone"

    def __init__(
        self, auction: AuctionSetting, told: Told, title: str, names: list[str], remark: str = "", home: str | None = None
    ) -> None:
        self.auction = auction
        self.told = told
        self.rule = told.rule
        self.title = title
        self.names = names
        self.remark = remark
        self.home = home

    def html(self) -> str:
        """The whole page."""
        parts = [hidden(pattern_definitions(PATTERNS_USED)), self.verdict(), self.setting_section(), self.winners_section()]
        return whole(self, "".join([*parts, self.prices_section(), self.counts_section()]))

    def kind(self) -> str:
        """The kind of the answer, in a few words."""
        return f"an optimal auction of {count(self.rule.units, 'unit')}, paid by winners alone"

    def value(self) -> Fraction:
        """The expected objective."""
        return self.rule.expected().value

    def verdict(self) -> str:
        """What is told, above all else, and what is wrong with it where that is easily seen."""
        expected, leasts = self.rule.expected(), self.rule.leasts
        reserve = f"Reserve {number(leasts[0])}" if leasts else "No value can win"
        made = big(reserve) + big_value(expected.value) + paragraph(
            f"The bidders are expected to pay {html_number(expected.revenue)}, and those who get a unit to have "
            f"{html_number(expected.welfare)} of it. By the virtual values no auction has a greater value."
        )
        wrong = []
        if self.told.text != threshold_text(self.rule):
            wrong.append("The file is another one than this auction has.")
        if expected.value != best_by_virtual_values(self.auction, self.rule.units):
            wrong.append("By the virtual values there is an auction of a greater value.")
        alerts = [alert("This answer is wrong.", words) for words in wrong]
        return "".join([f'<div class="verdict">\n{made}</div>\n', *alerts])

    def winners_section(self) -> str:
        """Who wins, and how often on average."""
        rule, values = self.rule, self.auction.values
        interim = {rank: rule.interim(rank) for rank in rule.ranks()}
        odds = [interim[rule.rank(place)][0] for place in range(len(values))]
        pools = [(interim[rank][0], first, last) for rank, (first, last) in enumerate(rule.pools) if first < last]
        below = rule.pools[0][0] if rule.pools else len(values)
        pools += [(Fraction(0), 0, below - 1)] if below > 1 else []
        text = paragraph(
            f"There {'is' if rule.units == 1 else 'are'} {count(rule.units, 'unit')}. Bidders of the highest pool win first, then those "
            "of the next one, as long as there are units; where a pool has more bidders than units are left, lots are drawn. Bars: how "
            "often a bidder wins, on average over the values of the others."
        )
        rows: list[list[Cell]] = []
        for rank, (first, last) in enumerate(rule.pools):
            words = set_words(values, range(first, last + 1))
            rows.append([head(str(rank)), words, numeric(interim[rank][0]), numeric(interim[rank][1])])
        heads = [("Pool", False), ("Values", False), ("Wins", True), ("Pays", True)]
        made = table("Pools", heads, rows, "on average over the values of the others") if rows else ""
        return section("Who wins", text + figure("", odds_bars(self.auction, odds, pools), "odds", "Odds by value") + made)

    def prices_section(self) -> str:
        """What winners pay: of one unit by the best of the others, of several by how many bidders are in each pool."""
        text = paragraph(
            "A winner pays the least value of each pool up to its own, as often as its chance rises there, over its chance. That is "
            "the most with which the truth is still best. Who does not win pays nothing."
        )
        return section("What winners pay", text + (self.cases_table() if self.rule.units == 1 else self.lists_table()))

    def pool_words(self, rank: int) -> str:
        """The values of a pool, in words."""
        first, last = self.rule.pools[rank]
        return set_words(self.auction.values, range(first, last + 1))

    def cases_table(self) -> str:
        """The price of one unit in each case."""
        rows: list[list[Cell]] = []
        for pool, other, many, price in self.rule.prices():
            best: Cell = ("none reaches the reserve", "soft") if other is None else self.pool_words(other)
            rows.append([head(self.pool_words(pool)), best, (str(many) if many else "", "num"), numeric(price)])
        heads = [("Winner", False), ("Best of the others", False), ("How many", True), ("Pays", True)]
        return folded(table("What the winner pays", heads, rows), "What the winner pays", len(rows))

    def lists_table(self) -> str:
        """The chance and the price in each pool, by how many bidders are in which pool."""
        lists = [ranks for _, ranks in self.rule.lists(self.auction.bidders)]
        rows: list[list[Cell]] = []
        for ranks in lists[:MOST_ROWS]:
            row: list[Cell] = [head(self.list_words(ranks))]
            for rank in range(len(self.rule.pools)):
                row += self.pool_cells(ranks, rank)
            rows.append(row)
        heads = [("Bidders", False)]
        shared = [
            (word, True, f"with {self.pool_words(rank)}") for rank in range(len(self.rule.pools)) for word in ("Wins", "Pays")
        ]
        caption = "What winners pay" + (f": the first {MOST_ROWS:,} of {len(lists):,} lists" if len(lists) > MOST_ROWS else "")
        return folded(table(caption, [*heads, *shared], rows), caption, len(rows))

    def list_words(self, ranks: list[int]) -> str:
        """How many bidders have which values, in words."""
        words = {rank: "below the reserve" if rank == LOWEST else f"with {self.pool_words(rank)}" for rank in self.rule.ranks()}
        return ", ".join(f"{ranks.count(rank)} {words[rank]}" for rank in sorted(set(ranks)))

    def pool_cells(self, ranks: list[int], rank: int) -> list[Cell]:
        """How often a bidder of a pool wins where all bidders have these ranks, and what it pays then."""
        if rank not in ranks:
            return [("", "soft"), ("", "soft")]
        others = without(ranks, rank)
        price = self.rule.price(rank, others)
        return [numeric(self.rule.chance(rank, others)), ("nothing", "soft") if price is None else numeric(price)]

    def foot(self) -> str:
        """Where the page comes from, and what it is not."""
        return made_from(self.names) + paragraph("All numbers were computed for this page.")
