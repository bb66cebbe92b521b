"""Puts a page together from an auction and its answer."""

from fractions import Fraction

from second_opinion.answer import TooWideAnswer
from second_opinion.auction_answer import AuctionAnswer
from second_opinion.setting import AuctionSetting
from second_opinion.show.arrows import Held, Line
from second_opinion.show.auction_draw import PATTERNS_USED, cut_bars, odds_bars, value_bars
from second_opinion.show.auction_facts import Sale, counted_values, greatest_value, ironed, virtual_values
from second_opinion.show.auction_tables import (
    blocks_table, counts_table, cuts_table, masses_table, odds_table, prices_table, value_parts_table, values_table,
)
from second_opinion.show.draw import pattern_definitions
from second_opinion.show.parts import alert, big, big_value, figure, hidden, made_from, paragraph, section, whole
from second_opinion.show.text import MINUS, TIMES, auction_objective_words, count, html_name, html_number, number, set_words
from second_opinion.show.why import MANY_ARROWS, too_wide_section

MANY_CUTS = 60  # beyond this there is no picture of the sets
FORMULA = (
    f"value {MINUS} (next value {MINUS} value) {TIMES} (weight of the values above)/(weight of the value)"
)


class AnyAuctionPage:
    """What the pages about an auction share: its values and what they count. The words on truth, rationality and payments are
    those of what its answers are about."""

    auction: AuctionSetting
    truth: str
    rational: str
    payments: str

    def setting_section(self) -> str:
        """The auction in a few words, and its values."""
        auction = self.auction
        have = "who each have" if auction.bidders > 1 else "who has"
        apart = ", whatever the others have" if auction.bidders > 1 else ""
        facts = [
            ("Bidders", f"{auction.bidders}, {have} one of {count(len(auction.values), 'value')}{apart}"),
            ("Maximised", auction_objective_words(auction)),
            ("Truth", self.truth),
            ("Rationality", self.rational),
            ("Payments", self.payments),
        ]
        text = "".join(f"<dt>{term}</dt><dd>{words}</dd>\n" for term, words in facts)
        return section("The auction", f"<dl>\n{text}</dl>\n{values_table(auction)}")

    def counts_section(self) -> str:
        """What each value counts, and which of them are averaged."""
        auction = self.auction
        text = paragraph(
            "The virtual value of a value is what selling to it brings in revenue, less what the values above must "
            f"then be left with: {FORMULA}."
        )
        if counted_values(auction) != virtual_values(auction):
            text += paragraph(f"What a value counts is {self.counts_words()}.")
        text += paragraph(
            "The best auction gives the item to a bidder whose value counts most, as long as it counts more than 0."
            + (" Striped bars are below 0." if min(counted_values(auction)) < 0 else "")
        )
        blocks = [block for block in ironed(auction) if block.first < block.last]
        for block in blocks:
            run = set_words(auction.values, range(block.first, block.last + 1))
            text += paragraph(
                f"At the values {run} these numbers fall, where odds may not. So they are ironed: all of them count "
                f"their average by weight, {html_number(block.counts)}. A broken line is drawn there."
            )
        drawn = figure("", value_bars(self.auction), "counts", "What each value counts")
        return section("Virtual values", f'{text}<div class="flow">\n{drawn}{counts_table(auction)}</div>\n')

    def counts_words(self) -> str:
        """What the objective gains where the item goes to a value, in words."""
        auction = self.auction
        counted = [(auction.revenue, "its virtual value"), (auction.welfare, "the value itself")]
        parts = [(f"{number(factor)} {TIMES} " if factor != 1 else "") + words for factor, words in counted if factor]
        keep = f", less the {number(auction.keep)} that keeping the item is worth" if auction.keep else ""
        return (" + ".join(parts) or "0") + keep


class AuctionPage(AnyAuctionPage):
    """A page about an answer, by the words of `Page`."""

    truth = "Bayes: on average over the values of the others, no report is better than the truth"
    rational = "interim: on average over the values of the others, no bidder loses"
    payments = "yes, of any size and sign"

    def __init__(
        self, auction: AuctionSetting, answer: AuctionAnswer | TooWideAnswer, title: str, names: list[str],
        remark: str = "", home: str | None = None,
    ) -> None:
        self.auction = auction
        self.answer = answer
        self.title = title
        self.names = names
        self.remark = remark
        self.home = home
        self.sale = None if isinstance(answer, TooWideAnswer) else Sale(auction, answer)

    def html(self) -> str:
        """The whole page."""
        if isinstance(self.answer, TooWideAnswer):
            parts = [self.verdict(), self.setting_section(), too_wide_section(self.answer.paths, "all values")]
            return whole(self, "".join(parts))
        parts = [hidden(pattern_definitions(PATTERNS_USED)), self.verdict(), self.setting_section()]
        parts += [self.odds_section(), self.counts_section(), self.value_section(), self.cuts_section()]
        parts += [self.equal_section(), self.masses_section()]
        return whole(self, "".join(parts))

    def kind(self) -> str:
        """The kind of the answer, in a few words."""
        return "an optimal auction" if self.sale else "too wide"

    def value(self) -> Fraction | None:
        """The value of an optimal answer, or None."""
        return self.sale.value() if self.sale else None

    def verdict(self) -> str:
        """What the answer says, above all else, and what is wrong with it where that is easily seen."""
        if isinstance(self.answer, TooWideAnswer):
            made = big("Too wide") + paragraph(
                "A number on the way to the answer grew beyond the width that was asked for. This says nothing of the "
                "auction: every auction has a best mechanism."
            )
            return f'<div class="verdict">\n{made}</div>\n'
        made = big_value(Fraction(*self.answer.value)) + paragraph(
            "The answer says that this auction is optimal: no other that meets the conditions has a greater value."
        )
        wrong = self.mistakes()
        if not wrong:
            made += paragraph(
                "Its odds and pays meet the conditions, its masses make the odds, and by the virtual values there is "
                "no greater value."
            )
        alerts = [alert("This answer is wrong.", words) for words in wrong]
        return "".join([f'<div class="verdict">\n{made}</div>\n', *alerts])

    def mistakes(self) -> list[str]:
        """What is wrong with an optimal answer, as sentences of HTML."""
        sale, found = self.sale, []
        if sale.value() != Fraction(*sale.answer.value):
            found.append(
                f"The value of the odds and pays below is {html_number(sale.value())}, and not what the answer says."
            )
        broken = sale.broken()
        if broken:
            name, left, right = broken[0]
            found.append(
                f"The odds and pays break {count(len(broken), 'condition')}, first {html_name(name)}: "
                f"{html_number(left)} where at most {html_number(right)} is allowed."
            )
        if sale.missed():
            place, given, asked = sale.missed()
            value = number(self.auction.values[place])
            found.append(f"The masses of the value {value} add to {given}, where its odds ask for {asked}.")
        if not found and sale.value() != greatest_value(self.auction):
            found.append(f"By the virtual values there is an auction of the value {self.greatest()}.")
        return found

    def greatest(self) -> str:
        """The greatest value that there is, as HTML."""
        return html_number(greatest_value(self.auction))

    def odds_section(self) -> str:
        """How often a bidder wins and what it pays, by its value."""
        sale, words = self.sale, []
        free = any(pay and not odds for odds, pay in zip(sale.odds, sale.pays))
        for odds, first, last in sale.pools():
            run = set_words(self.auction.values, range(first, last + 1))
            if odds:
                words.append(f"The values {run} are pooled: to this auction they are one value, with the odds "
                             f"{html_number(odds)}.")
            else:
                words.append(f"The values {run} never win.")
        text = paragraph(
            "A bar for each value: its odds, how often a bidder with it wins, on average over the values of the others "
            "(interim odds). A value whose bar fills its frame always wins."
            + (" A bracket marks values that win as often." if sale.pools() else "")
        )
        text += "".join(map(paragraph, words))
        text += figure("", odds_bars(self.auction, sale.odds, sale.pools()), "odds", "Odds by value") + odds_table(sale)
        text += paragraph(
            "A bidder may pay just what stands under <em>Pays</em> each time, whether it wins or not"
            + ("." if free else "; or what stands under <em>Pays per win</em> where it wins, and else nothing.")
            + " What it keeps is its value times its odds, less what it pays. In the file odds and pays stand over "
            f"{sale.interim.den}."
        )
        return section("Odds and pays", text)

    def value_section(self) -> str:
        """The parts of the value, and the greatest one by the virtual values."""
        text = paragraph(
            "The sum in the second table, by virtual values, bounds the value of every auction that meets the "
            "conditions, and the best auction reaches it (Myerson 1981)."
        )
        tables = value_parts_table(self.sale) + blocks_table(self.auction, greatest_value(self.auction))
        return section("The value", f'{text}<div class="flow">\n{tables}</div>\n')

    def cuts_section(self) -> str:
        """The sets of values of the answer."""
        cuts = self.sale.cuts()
        text = paragraph(
            "There is one item. So bidders with a value of a set cannot win in more profiles than there are with such "
            "a bidder. Odds for which this holds of all sets are those of some auction (Border 1991). The answer names "
            f"{len(cuts)} of {count(2 ** len(self.auction.values) - 1, 'set')}."
        )
        if not cuts:
            return section("Sets of values", text)
        if any(cut.binds for cut in cuts):
            text += paragraph(
                "A set that asks for all there is binds (striped bars): one of its values wins whenever it is there."
            )
        if any(cut.weighed for cut in cuts):
            text += paragraph(
                "A thick edge: with a positive multiplier, the price of the set in the proof. It belongs to the row of "
                "the set, whose numbers are divided by what they have in common."
            )
        drawn = figure("", cut_bars(self.sale), "cuts", "Sets of values") if len(cuts) <= MANY_CUTS else ""
        return section("Sets of values", f'{text}<div class="flow">\n{drawn}{cuts_table(self.sale)}</div>\n')

    def equal_section(self) -> str:
        """The conditions of truth and rationality that hold with equality, and their multipliers."""
        sale = self.sale
        kinds, equal = len(sale.places), sale.equal()
        arrows, rings, weighed = {}, {}, []
        for row in range(kinds * kinds):
            true, report = self.pair(row)
            has = sale.multipliers(row) > (0, 0)
            if row in equal and report is not None:
                arrows[true, report] = Held(True, has)
            elif row in equal:
                rings[true] = Held(True, has)
            if has:
                weighed.append((row, self.demand_words(true, report)))
        counts = f"{count(len(arrows), 'condition')} of truth and {len(rings)} of rationality"
        text = paragraph(f"With equality hold {counts}.")
        types = [number(value) for value in self.auction.values]
        line = Line("a bidder", types, arrows, rings, "Value", "is left with nothing")
        if (arrows or rings) and len(arrows) <= MANY_ARROWS:
            text += paragraph(
                "An arrow leads from a value to a report that is as good to it as the truth."
                + (" A double frame has a value that is left with nothing." if rings else "")
                + (" A thick line: with a positive multiplier." if weighed else "")
            )
            text += f'<div class="flow">\n{figure("", line, "equal", "Conditions of a bidder")}</div>\n'
        text += prices_table(sale, weighed) if weighed else paragraph("None of these conditions has a multiplier.")
        return section("Truth and rationality", text)

    def pair(self, row: int) -> tuple[int, int | None]:
        """The value of a row of truth or rationality, and its report or None."""
        kinds = len(self.sale.places)
        if row >= kinds * (kinds - 1):
            return row - kinds * (kinds - 1), None
        true, report = divmod(row, kinds - 1)
        return true, report + (report >= true)

    def demand_words(self, true: int, report: int | None) -> str:
        """What a row of truth or rationality demands, in words."""
        value = number(self.auction.values[true])
        if report is None:
            return f"a bidder with {value} does not lose, on average"
        return f"a bidder with {value} gains nothing by reporting {number(self.auction.values[report])}, on average"

    def masses_section(self) -> str:
        """Who wins where so many bidders have each value."""
        text = paragraph(
            "How the odds are made: where so many bidders have each value, the item goes to a bidder with a value by "
            "these chances, to each of those who have it as often. The weight is that of the profiles with these "
            f"values. A mass of the file is the chance times the weight times {self.sale.interim.den}."
        )
        return section("Who wins", text + masses_table(self.sale))

    def foot(self) -> str:
        """Where the page comes from, and what it is not."""
        text = made_from(self.names)
        if self.sale:
            text += paragraph(
                "All numbers but the answer's own were computed for this page. Whether the multipliers prove the value "
                "is not tried here: <code>mechdes check</code> does that."
            )
        return text
