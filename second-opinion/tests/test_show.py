"""Tries the pages of `show` over the examples."""

import contextlib
import html
import itertools
import random
import re
import subprocess
import sys
import tempfile
import unittest
import xml.etree.ElementTree as tree
from fractions import Fraction
from html.parser import HTMLParser

from second_opinion.answer import InfeasibleAnswer, OptimalAnswer
from second_opinion.auction import Interim, count_lists
from second_opinion.auction_answer import AuctionAnswer
from second_opinion.auction_finding import found_answer
from second_opinion.conditions import broken_condition, program_under, read_conditions
from second_opinion.places import EXAMPLES, FOLDER, stored_names
from second_opinion.required_answer import RequiredAnswer, read_required
from second_opinion.requiring import found_under
from second_opinion.setting import AuctionSetting, GeneralSetting, read_setting
from second_opinion.show import gallery, style
from second_opinion.show.auction_draw import cut_bars, odds_bars, value_bars
from second_opinion.show.auction_facts import Sale, counted_values, greatest_value, ironed, virtual_values
from second_opinion.show.auction_page import AuctionPage
from second_opinion.show.bars import Bar, Bars, Group
from second_opinion.show.draw import CHAR, place
from second_opinion.show.facts import Play, Prior, conditions, contradiction, name_of, terms_of
from second_opinion.show.floors import floor_step, with_corners
from second_opinion.show.frontier import Chart, Step, corners_of, parts_of, step_of
from second_opinion.show.kinds import read_answer
from second_opinion.show.page import Page
from second_opinion.show.parts import ANY_PAGE
from second_opinion.show.text import MINUS, asked_words, decimal, html_name, mixed, number, set_words, with_decimal

EMPTY = {"meta", "br", "wbr"}


def example(name):
    """The setting and the answer of an example."""
    setting = read_setting((EXAMPLES / f"{name}.toml").read_bytes())
    return setting, read_answer((EXAMPLES / f"{name}-answer.csv").read_bytes(), setting)


def stored(kind=GeneralSetting):
    """The name, setting and answer of each example of the gallery that has this kind of setting."""
    for name in stored_names():
        setting, answer = example(name)
        if isinstance(setting, kind):
            yield name, setting, answer


def required():
    """The name, setting and answer of each example under conditions of the designer."""
    for path in sorted(EXAMPLES.glob("*-required.csv")):
        setting = read_setting((EXAMPLES / f"{path.name.rsplit('-', 2)[0]}.toml").read_bytes())
        yield path.name, setting, read_answer(path.read_bytes(), setting)


EACH_WORD = b"""require,1
revenue,most,-1,8
welfare,least,7,4
utility,seller,least,1,3
chance,trade,most,2,3
at,cost5+worth2,keep,least,1,1
pay,seller,most,1,2
pay,buyer,worth6,least,5,1
end
"""


class Elements(HTMLParser):
    """The elements of a page: that each one ends where it should, their ids and their headings."""

    def __init__(self, text):
        super().__init__()
        self.open, self.ids, self.headings = [], [], []
        self.feed(text)

    def handle_starttag(self, tag, attributes):
        self.ids += [value for name, value in attributes if name == "id"]
        if re.fullmatch("h[1-6]", tag):
            self.headings.append(int(tag[1]))
        if tag not in EMPTY:
            self.open.append(tag)

    def handle_startendtag(self, tag, attributes):
        pass

    def handle_endtag(self, tag):
        assert self.open.pop() == tag, (tag, self.getpos())


def brightness(colour):
    """How bright a colour is, by the rules of the web's guidelines for contrast."""
    parts = [int(colour[i : i + 2], 16) / 255 for i in (1, 3, 5)]
    parts = [part / 12.92 if part <= 0.03928 else ((part + 0.055) / 1.055) ** 2.4 for part in parts]
    return 0.2126 * parts[0] + 0.7152 * parts[1] + 0.0722 * parts[2]


def contrast(one, two):
    """The contrast of two colours, from 1 to 21."""
    less, more = sorted([brightness(one), brightness(two)])
    return (more + 0.05) / (less + 0.05)


class Facts(unittest.TestCase):
    def test_rows_are_those_of_the_program(self):
        subsidy = read_setting((EXAMPLES / "subsidy.toml").read_bytes())
        cases = [(name, setting, ()) for name, setting, _ in stored()]
        cases += [(name, setting, answer.conditions) for name, setting, answer in required()]
        for name, setting, asked in [*cases, ("each word", subsidy, read_conditions(EACH_WORD, subsidy))]:
            prior = Prior(setting)
            profiles, outcomes, agents = setting.profile_count(), len(setting.outcomes), len(setting.agents)
            rows = conditions(setting, asked)
            for row, other in zip(rows, program_under(setting, asked).rows, strict=True):
                terms, right = terms_of(setting, prior, row)
                columns = {}
                for where, factor in terms.items():
                    rank = setting.rank(where[0])
                    if len(where) == 2:
                        columns[rank * outcomes + where[1]] = factor
                    else:
                        plus = profiles * outcomes + where[2] * profiles + rank
                        columns[plus], columns[plus + agents * profiles] = factor, -factor
                if row.asked and row.profile:
                    other.name += "/" + setting.profile_name(row.profile)
                said = name_of(setting, row), right, row.kind == "profile", columns
                self.assertEqual(said, (other.name, other.right, other.exact, other.terms), name)

    def test_stored_answers_hold(self):
        for name, setting, answer in stored():
            page = Page(setting, answer, name, ["a", "b"])
            self.assertNotIn("answer is wrong", page.html(), name)
            if isinstance(answer, OptimalAnswer):
                self.assertEqual(page.play.value(), Fraction(*answer.value))
                for index, pair in answer.multipliers.items():
                    if page.rows[index].kind != "profile" and pair > (0, 0):
                        self.assertIn(index, page.equal)
            if isinstance(answer, InfeasibleAnswer):
                weights = {index: face for index, (face, _) in answer.multipliers.items()}
                self.assertLess(contradiction(setting, page.prior, weights), 0)
                self.assertIsNone(contradiction(setting, page.prior, {0: 1}))

    def test_answers_under_conditions_hold(self):
        for name, setting, answer in required():
            page = Page(setting, answer, name, ["a", "b"])
            self.assertNotIn("answer is wrong", page.html(), name)
            for index, pair in answer.said.multipliers.items():
                if isinstance(answer.said, OptimalAnswer) and page.rows[index].kind != "profile" and pair > (0, 0):
                    self.assertIn(index, page.equal, name)
            # Without the rows of the designer it shows nothing.
            if isinstance(answer.said, InfeasibleAnswer):
                faces = {index: face for index, (face, _) in answer.said.multipliers.items() if not page.rows[index].asked}
                self.assertIsNone(contradiction(setting, page.prior, faces, answer.conditions), name)

    def test_conditions_of_the_designer_that_are_broken(self):
        setting = read_setting((EXAMPLES / "subsidy.toml").read_bytes())
        asked = read_conditions(EACH_WORD, setting)
        said = read_answer((EXAMPLES / "subsidy-eighth-required.csv").read_bytes(), setting).said
        for number, each in enumerate(asked):
            page = Page(setting, RequiredAnswer([each], said), "a", ["a", "b"])
            first = next(((left, right) for _, left, right in page.broken), None)
            expected = broken_condition(setting, said.mechanism, [each])
            self.assertEqual(first, expected and expected[1:], number)
            self.assertEqual("of the setting and of the designer, first <code>require/<wbr>0" in page.html(), bool(expected))
        self.assertEqual(sum(bool(broken_condition(setting, said.mechanism, [each])) for each in asked), 3)
        words = [asked_words(setting, each) for each in asked]
        self.assertEqual(words[:3], ["the revenue is at most \u22121/8, on average", "the welfare is at least 7/4, on average",
                                     "what seller gets is at least 1/3, on average"])
        self.assertEqual(words[3:], ["the chance of trade is at most 2/3, on average", "the chance of keep is at least 1",
                                     "what seller pays is at most 1/2", "what buyer pays is at least 5"])

    def test_an_objective_without_a_bound_under_conditions(self):
        setting = read_setting((EXAMPLES / "unbounded-revenue.toml").read_bytes())
        for line, gains in (("welfare,least,0,1", True), ("revenue,most,1000,1", False), ("revenue,least,1,1", True)):
            asked = read_conditions(f"require,1\n{line}\nend\n".encode(), setting)
            unbounded = example("unbounded-revenue")[1]
            self.assertEqual(Page(setting, RequiredAnswer(asked, unbounded), "a", ["a", "b"]).gains(), gains, line)

    def test_broken_conditions_are_named(self):
        setting = read_setting((EXAMPLES / "posted-price.toml").read_bytes())
        answer = read_answer((EXAMPLES / "price-above-value.csv").read_bytes(), setting)
        page = Page(setting, answer, "a", ["a", "b"])
        row, left, right = page.broken[0]
        self.assertEqual((name_of(setting, row), left, right), ("truth/buyer/high/low/high", -1, 0))
        self.assertIn("Not admissible.", page.html())

    def test_parts_of_the_value(self):
        setting, answer = example("bilateral-trade")
        prior = Prior(setting)
        play = Play(setting, prior, answer.mechanism)
        net = sum(
            prior.type_chance(agent, own) * play.expected_utility(agent, own)
            for agent, its in enumerate(setting.agents)
            for own in range(len(its.types))
        )
        self.assertEqual(net, play.welfare() - play.revenue())


def table_rows(text, caption):
    """The rows of the table of a page whose caption begins with these words, each a list of texts."""
    found = re.search(f"<caption>{re.escape(caption)}.*?</table>", text, re.S)
    rows = re.findall("<tr>(.*?)</tr>", found[0], re.S)
    return [[plain(cell) for cell in re.findall("<t[hd].*?</t[hd]>", row, re.S)] for row in rows]


def plain(text):
    """HTML without its elements."""
    return html.unescape(re.sub("<[^>]*>", "", text))


def unsold(auction):
    """An answer that says that it is best to keep the item always."""
    nothing = [0] * len(auction.values)
    masses = {counts: nothing for counts in count_lists(auction.bidders, len(auction.values))}
    return AuctionAnswer((auction.keep, 1), Interim(1, nothing, nothing), masses, [], 1, {})


class Auctions(unittest.TestCase):
    def test_virtual_values(self):
        # By hand, in the pages of the examples.
        third = Fraction(-1, 3)
        expected = {"cuts": [-1, 1, 3, 5], "efficient": [0, 2], "ironed": [1, 0, 6], "keep": [0, 2, 4],
                    "reserve": [-3, -1, 1, 3, 5], "single": [-2, third, 3, 8]}
        for name, numbers in expected.items():
            auction, _ = example(f"auction-{name}")
            self.assertEqual(virtual_values(auction), numbers)
            if name == "keep":
                numbers = [number - 1 for number in numbers]  # what the item is worth to the seller
            self.assertEqual(counted_values(auction), [1, 2] if name == "efficient" else numbers)
            blocks = [(block.first, block.last, block.counts) for block in ironed(auction)]
            if name == "ironed":
                self.assertEqual(blocks, [(0, 1, Fraction(2, 3)), (2, 2, 6)])
            elif name != "efficient":
                self.assertEqual(blocks, [(place, place, counts) for place, counts in enumerate(numbers)])

    def test_a_single_buyer_has_a_best_price(self):
        # No lottery brings more than the best price (Riley and Zeckhauser 1983), nor than the best one above which to
        # sell, where welfare and keeping the item count too.
        cases = [([2, 3, 5, 8], [2, 3, 3, 2], 1, 0, 0), ([1, 2, 3, 10], [5, 1, 4, 2], 1, 0, 0),
                 ([0, 4, 5, 6, 7, 20], [3, 1, 9, 1, 6, 2], 2, 0, 3), ([1, 2, 4], [1, 1, 1], 1, -3, -2),
                 ([3, 5, 6], [7, 1, 2], 0, 1, 4), ([1, 5, 9], [1, 8, 2], 3, -1, 2), ([6], [5], 1, 1, 20)]
        for values, weights, revenue, welfare, keep in cases:
            total, best = sum(weights), Fraction(keep)
            for place, price in enumerate(values):
                sold = list(zip(values, weights))[place:]
                worth = sum(weight * (revenue * price + welfare * value - keep) for value, weight in sold)
                best = max(best, keep + Fraction(worth, total))
            self.assertEqual(greatest_value(AuctionSetting(1, values, weights, revenue, welfare, keep)), best)

    def test_stored_answers_hold(self):
        names = [name for name, *_ in stored(AuctionSetting)]
        auctions = ["auction-" + each for each in "cuts efficient ironed keep reserve single".split()]
        self.assertEqual(names, auctions + ["compromise-" + each for each in "1-1 1-3 1-4 2-1".split()])
        for name, auction, answer in stored(AuctionSetting):
            page = AuctionPage(auction, answer, name, ["a", "b"])
            self.assertEqual(page.mistakes(), [])
            sale = page.sale
            parts = auction.revenue * sale.revenue() + auction.welfare * sale.welfare() + auction.keep * sale.kept()
            self.assertEqual({parts, sale.value(), greatest_value(auction)}, {Fraction(*answer.value)}, name)
            for row, pair in answer.multipliers.items():
                tight = sale.equal() | {cut.row for cut in sale.cuts() if cut.binds}
                self.assertTrue(pair == (0, 0) or row in tight, (name, row))

    def test_each_number_of_the_answer_stands_on_the_page(self):
        for name, auction, answer in stored(AuctionSetting):
            text = AuctionPage(auction, answer, name, ["a", "b"]).html()
            words = plain(" ".join(re.findall("<desc.*?</desc>", text, re.S)))
            self.assertIn(f">Value {number(Fraction(*answer.value))}<", text.replace("<wbr>", ""))
            den = answer.interim.den
            rows = table_rows(text, "Odds and pays by value")[1:]
            numbers = zip(rows, auction.values, answer.interim.odds, answer.interim.pays, strict=True)
            for row, value, odds, pay in numbers:
                per_win = number(Fraction(pay, odds)) if odds else "never wins"
                keeps = number(Fraction(value * odds - pay, den))
                odds = number(Fraction(odds, den))
                self.assertEqual(row, [str(value), odds, number(Fraction(pay, den)), per_win, keeps], name)
                self.assertIn(f"The value {value} wins with the odds {odds}.", words)
            weighed = {int(row[0]): row[-1] for row in table_rows(text, "Conditions with a positive")[1:]} if (
                name != "auction-efficient") else {}
            sets = table_rows(text, "Sets of values")[1:]
            self.assertEqual([int(row[5]) for row in sets], answer.cuts)
            weighed |= {int(row[6]): row[4] for row in sets if row[4] != "none"}
            expected = {row: number(Fraction(main, answer.bound)) for row, (_, main) in answer.multipliers.items()}
            self.assertEqual(weighed, expected, name)
            rows = table_rows(text, "Who wins")[1:]
            for row, (counts, masses) in zip(rows, answer.masses.items(), strict=True):
                there = ", ".join(f"{many} with {value}" for value, many in zip(auction.values, counts) if many)
                self.assertEqual(row[0], there)
                self.assertEqual(row[4].split(" of ")[0], " + ".join(str(mass) for mass in masses if mass) or "0")

    def test_sets_and_shares(self):
        # By hand, in the pages auction-cuts.md and auction-ironed.md.
        text = AuctionPage(*example("auction-cuts"), "a", ["a", "b"]).html()
        self.assertEqual([row[:5] for row in table_rows(text, "Sets of values")[1:]], [
            ["2", "0", "7", "", "none"], ["3", "3", "7", "", "none"], ["4", "5", "7", "", "none"],
            ["5", "7", "7", "binds", "1/4"], ["3, 4, 5", "15", "15", "binds", "1/8"],
            ["4, 5", "12", "12", "binds", "1"]])
        self.assertIn("The set 3, 4, 5 asks for 15 of 15, all there is, with a multiplier.", text)
        text = AuctionPage(*example("auction-ironed"), "a", ["a", "b"]).html()
        self.assertIn(["1 with 2, 1 with 3", "2: 1/2, 3: 1/2", "0", "4", "16 + 16 of 32"], table_rows(text, "Who wins"))
        self.assertIn(["2", f"2 {MINUS} 1 \u00d7 2/2 = 1", "2/3"], table_rows(text, "Virtual values"))
        self.assertIn("The values 2, 3 are pooled", text)

    def test_answers_that_are_wrong(self):
        auction, answer = example("auction-reserve")
        cases = [
            ({"value": (72, 25)}, "is 71/25, and not what the answer says"),
            ({"interim": Interim(10, [0, 0, 5, 7, 9], [0, 0, 15, 23, 34])}, "5/<wbr>4</code>: 1/10 where at most 0"),
            ({"interim": Interim(10, [0, 0, 5, 7, 8], [0, 0, 15, 23, 28])}, "The masses of the value 5 add to 90"),
            (vars(unsold(auction)), "By the virtual values there is an auction of the value 71/25."),
        ]
        for changes, words in cases:
            page = AuctionPage(auction, AuctionAnswer(**{**vars(answer), **changes}), "a", ["a", "b"])
            self.assertIn(words, " ".join(page.mistakes()))
            self.assertIn("This answer is wrong.", page.html())

    def test_answers_that_are_found_have_the_value_of_the_virtual_values(self):
        draw, falls = random.Random(7), 0
        for _ in range(60):
            values = sorted(draw.sample(range(30), draw.randint(1, 5)))
            weights = [draw.randint(1, 9) for _ in values]
            counts = draw.choice([0, 1, 1, 2]), draw.choice([0, 0, 1, -1, 3]), draw.choice([0, 0, 1, -4, 7, 40])
            auction = AuctionSetting(draw.randint(1, 3), values, weights, *counts)
            page = AuctionPage(auction, found_answer(auction), "a", ["a", "b"])
            self.assertEqual(page.mistakes(), [], auction)
            self.assertEqual(Elements(page.html()).open, [])
            falls += len(ironed(auction)) < len(values)
        self.assertGreater(falls, 10)

    def test_many_masses_are_folded(self):
        for values, folded, left in [(5, False, 0), (6, True, 0), (12, True, 1_365 - 400)]:
            auction = AuctionSetting(4 if values > 6 else 3, list(range(values)), [1] * values, 0, 0, 1)
            text = AuctionPage(auction, unsold(auction), "a", ["a", "b"]).html()
            self.assertEqual(("<details>" in text), folded)
            self.assertEqual("are left out" in text, left > 0)
            self.assertIn(f"of 1,365 lists, {left} are left out" if left else "Who wins, by the values that", text)
            self.assertEqual(Elements(text).open, [])

    def test_pictures_fit_on_a_phone(self):
        for name, auction, answer in stored(AuctionSetting):
            sale = Sale(auction, answer)
            for drawn in [odds_bars(auction, sale.odds, sale.pools()), value_bars(auction), cut_bars(sale)]:
                self.assertLessEqual(drawn.width + 2, ANY_PAGE, name)

    def test_bars_hold_their_texts(self):
        long, name = Fraction(-(2**60) - 1, 3**30), "1, 3, 5, 7, 9, 11"
        cases = [
            ([("1", Fraction(1, 3)), ("1000000", Fraction(-9, 4))], [Group(0, 1, "1, 1000000: ironed to -1/3", -1)]),
            ([("1", long), ("2", Fraction(3)), ("3", Fraction(0))], [Group(1, 2, "a"), Group(0, 0, "b" * 60)]),
            ([(name, long), ("2", 1 / long)], [Group(0, 0, "one")]),
            ([(name, Fraction(0)), (name, Fraction(0))], []),
        ]
        for rows, groups in cases:
            drawn = Bars("Some", [Bar(name, number, str(number), "") for name, number in rows], groups)
            texts = []
            for text in tree.fromstring(drawn.svg("a")).iter("text"):
                x, y = Fraction(text.get("x")) + 1, Fraction(text.get("y"))
                box = (x, y - 11, x + len(text.text) * CHAR, y + 3)
                inside = min(x, box[1]) >= 0 and box[2] <= drawn.width + 2 and box[3] <= drawn.height
                self.assertTrue(inside, text.text)
                texts.append(box)
            lines = re.findall(r"M([\d.]+) ([\d.]+)V([\d.]+)", re.search('class="axis" d="([^"]*)"', drawn.svg("a"))[1])
            self.assertEqual(len(lines), len(rows))
            for at, top, bottom in lines:  # a line of no width; the drawing stands one pixel to the right
                texts.append((Fraction(at) + 1, Fraction(top), Fraction(at) + 1, Fraction(bottom)))
            for one, other in itertools.combinations(texts, 2):
                apart = one[2] <= other[0] or other[2] <= one[0] or one[3] <= other[1] or other[3] <= one[1]
                self.assertTrue(apart, (rows, one, other))

    def test_sets_in_words(self):
        cases = [([0], "10"), ([0, 2], "10, 30"), ([0, 1, 2], "10, 20, 30"), ([0, 1, 2, 3, 5], "10 to 40, 60")]
        for places, words in cases:
            self.assertEqual(set_words([10, 20, 30, 40, 50, 60], places), words)


class Frontiers(unittest.TestCase):
    def steps(self, names=gallery.FRONTIER):
        return [step_of(name, *example(name)) for name in names]

    def test_corners_and_edges(self):
        # By hand, in the page frontier.md.
        points, edges = corners_of(self.steps())
        self.assertEqual([(25 * one, 25 * other) for one, other in points], [(71, 88), (68, 94), (65, 95)])
        self.assertEqual([edge.weights for edge in edges], [(2, 1), (1, 3)])
        self.assertEqual([edge.value for edge in edges], [Fraction(46, 5), 14])

    def test_what_shows_no_frontier(self):
        steps = self.steps()
        with self.assertRaisesRegex(ValueError, "two rules have no line"):
            corners_of([step for step in steps if step.name != "compromise-1-3"])
        with self.assertRaisesRegex(ValueError, "a rule lies beyond a line"):
            corners_of([*steps, Step("forged", (1, 1), Fraction(6), (Fraction(1), Fraction(1)))])

    def test_the_page_says_what_an_edge_costs(self):
        text = gallery.pages()["frontier.html"]
        self.assertIn("From 71/25 to 68/25 of revenue, 3/25 of it buys 6/25 of welfare.", text)
        self.assertIn("From 68/25 to 13/5 of revenue, 3/25 of it buys 1/25 of welfare.", text)

    def test_floors(self):
        # By hand, in the page revenue-floor.md: what prices bring, and what each unit of revenue costs between two of them.
        steps = gallery.floor_steps()
        prices = [(5, 15), (8, 14), (9, 12)]
        corners = [(Fraction(revenue, 5), Fraction(welfare, 5)) for revenue, welfare in prices]
        self.assertEqual([step.point for step in steps if step.name == ""], corners)
        named = {step.name: step.point for step in steps if step.name}
        for name, point in named.items():
            lines = (EXAMPLES / f"{name}.csv").read_text().splitlines()
            floor = Fraction(*map(int, lines[1].split(",")[2:]))
            self.assertEqual(point, (floor, Fraction(*map(int, lines[2].split(",")[1:]))) if point else None, name)
            setting = read_setting((EXAMPLES / "revenue-floor.toml").read_bytes())
            found = found_under(setting, read_required((EXAMPLES / f"{name}.csv").read_bytes(), setting).conditions).said
            self.assertEqual(point, (floor, Fraction(*found.value)) if isinstance(found, OptimalAnswer) else None, name)
        self.assertEqual([step.unmet for step in steps if not step.point], [2])
        parts = [(one, other, edge.weights) for one, other, edge in reversed(parts_of(steps))]
        lines = (corners[0], (Fraction(1, 2), 3), (0, 1)), (corners[1], corners[0], (Fraction(1, 3), 1))
        self.assertEqual(parts, [*lines, (corners[2], corners[1], (2, 1))])
        self.assertEqual([steps[-1].weights, steps[-1].value], [(1, 0), Fraction(9, 5)])

    def test_what_is_no_answer_under_a_floor(self):
        setting = read_setting((EXAMPLES / "revenue-floor.toml").read_bytes())
        stored = (EXAMPLES / "revenue-floor-2-required.csv").read_bytes()
        changed = [read_required(stored.replace(one, other), setting) for one, other in
                   ((b"value,44", b"value,43"), (b"row,30,0,1\n", b""), (b"least", b"most"), (b"revenue", b"welfare"))]
        for found in (*changed, found_under(setting, [])):
            with self.assertRaisesRegex(ValueError, "no answer under a floor"):
                floor_step("changed", setting, found)
        steps = [step for step in gallery.floor_steps() if step.name]
        with self.assertRaisesRegex(ValueError, "two rules have no line"):
            corners_of([step for step in steps if step.name != "revenue-floor-3-required"])
        # The lines of the first and the fifth cross beyond that of the two floors between them.
        with self.assertRaisesRegex(ValueError, "two rules have no line"):
            corners_of(with_corners(setting, [steps[0], steps[4]]))

    def test_texts_of_the_pictures_are_apart(self):
        for chart in (Chart(self.steps()), Chart(gallery.floor_steps(), "Floor", "right: a higher floor", number)):
            lines, boxes = [[chart.at(point) for point in chart.points]], []
            lines += [[(chart.at((floor, chart.low[1]))[0], end) for end in (0, chart.height - 36)] for floor in chart.unmet]
            for x, y, words, anchor in chart.texts():
                start = x - len(words) * CHAR if anchor else x
                boxes.append((start, y - 10, start + len(words) * CHAR, y + 3))
                self.assertTrue(0 <= start and boxes[-1][2] <= chart.width and 0 <= y - 10 and y + 3 <= chart.height, words)
            for one, other in itertools.combinations(boxes, 2):
                self.assertTrue(one[2] <= other[0] or other[2] <= one[0] or one[3] <= other[1] or other[3] <= one[1], (one, other))
            for line, box, part in itertools.product(lines, boxes, [Fraction(step, 40) for step in range(41)]):
                for one, other in zip(line, line[1:]):
                    x, y = (start + part * (end - start) for start, end in zip(one, other))
                    self.assertFalse(box[0] < x < box[2] and box[1] < y < box[3], (box, x, y))
            self.assertLess(chart.width * Fraction(4, 5), 420 - 2 * 16)


class Pages(unittest.TestCase):
    def test_the_stored_pages_are_made_from_the_examples(self):
        made = gallery.pages()
        for name, text in made.items():
            self.assertEqual((EXAMPLES / "pages" / name).read_bytes(), text.encode(), name)
        self.assertEqual({path.name for path in (EXAMPLES / "pages").iterdir()}, set(made))

    def test_pages_are_well_formed(self):
        for name, text in gallery.pages().items():
            if name.endswith(".svg"):
                tree.fromstring(text)
                continue
            elements = Elements(text)
            self.assertEqual(elements.open, [], name)
            self.assertEqual(len(set(elements.ids)), len(elements.ids), name)
            self.assertEqual(elements.headings.count(1), 1, name)
            for before, after in zip(elements.headings, elements.headings[1:]):
                self.assertLessEqual(after, before + 1, name)
            for drawing in re.findall("<svg.*?</svg>", text, re.S):
                root = tree.fromstring(drawing)
                if root.get("role") == "img":
                    self.assertIn(root.get("aria-labelledby"), elements.ids)
                    self.assertIn(root.get("aria-describedby"), elements.ids)
                else:
                    self.assertEqual(root.get("aria-hidden"), "true")
            self.assertNotRegex(text, r"<script|https?:|@import|src=")

    def test_each_decimal_number_is_that_of_the_fraction_beside_it(self):
        beside, count = r"(\u2212?\d+/\d+)(?: = \u2212?\(?\d+ \+ \d+/\d+\)?)? = (\u2212?\d+\.\d+)(\.\.)?", 0
        for name, text in gallery.pages().items():
            text = text.replace("<wbr>", "").replace("</p>\n<p class=\"soft\">", " ")
            shown = re.sub("<style.*?</style>|<[^>]*>", "\n", text, flags=re.S)
            for words in re.findall(beside, shown):
                fraction, rounded = (Fraction(word.replace(MINUS, "-")) for word in words[:2])
                left = abs(fraction) - abs(rounded)
                self.assertTrue(0 < left < Fraction(1, 1000) if words[2] else left == 0, (name, words))
                count += 1
            self.assertNotRegex(re.sub(beside, "", shown), r"\d\.\d", name)
        self.assertGreater(count, 50)

    def test_links_lead_to_files(self):
        for name, text in gallery.pages().items():
            for target in re.findall('href="([^"]*)"', text):
                self.assertTrue((EXAMPLES / "pages" / target).exists(), (name, target))
            shown = re.sub("<a .*?</a>", "", text, flags=re.S)
            self.assertNotRegex(shown, r"\.md\b", name)

    def test_each_page_has_a_picture(self):
        for name, text in gallery.pages().items():
            self.assertTrue('<figure ' in text or name == "index.html" or name.endswith(".svg"), name)

    def test_why_there_is_no_mechanism_and_how_wide_numbers_grew(self):
        made = gallery.pages()
        for name, words in [("two-claims", "sum: \u22121."), ("two-claims", "profile/claimant+claimant: 3 \u00d7 1 = 3."),
                            ("too-wide", "allowed: 62 bits. forward: 65 bits. backward: 65 bits.")]:
            self.assertIn(words, made[f"{name}.html"])

    def test_contrast(self):
        schemes = [
            (style.LIGHT_PAGE, style.LIGHT, style.LIGHT_PAYS + style.LIGHT_GETS),
            (style.DARK_PAGE, style.DARK, style.DARK_PAYS + style.DARK_GETS),
        ]
        for page, keys, shades in schemes:
            grounds = shades + [ground for ground, _ in keys]
            pairs = [("ink", ground) for ground in grounds]
            pairs += [(text, page[ground]) for text in ("ink", "soft", "link") for ground in ("paper", "panel", "line")]
            for text, ground in pairs:
                self.assertGreaterEqual(contrast(page[text], ground), 4.5, (text, ground))
            for ground, stroke in keys:
                self.assertGreaterEqual(contrast(stroke, ground), 3, (stroke, ground))


class Words(unittest.TestCase):
    def test_numbers(self):
        self.assertEqual(number(Fraction(-6, 4)), "\u22123/2")
        self.assertEqual(mixed(Fraction(9652, 275)), "35 + 27/275")
        self.assertEqual(mixed(Fraction(-5, 3)), "\u2212(1 + 2/3)")
        self.assertEqual((mixed(Fraction(3, 3)), mixed(Fraction(1, 2))), ("", ""))
        decimals = [(Fraction(9652, 275), "35.098.."), (Fraction(3, 8), "0.375"), (Fraction(-2, 3), "\u22120.666.."),
                    (Fraction(1, 2), "0.5"), (Fraction(1, 16), "0.062.."), (Fraction(1, 3000), "0.000.."), (4, "")]
        for value, text in decimals:
            self.assertEqual(decimal(value), text)
        self.assertEqual(with_decimal(Fraction(5, 11)), "5/11 = 0.454..")
        self.assertEqual([place(x) for x in (Fraction(1, 3), Fraction(-1, 2), 10)], ["0.33", "-0.5", "10"])

    def test_names_are_escaped(self):
        self.assertEqual(html_name("a/<b>"), "<code>a/<wbr>&lt;b&gt;</code>")
        with call("posted-price.toml", "posted-price-answer.csv", "--title", "<b>&") as done:
            self.assertEqual(done.returncode, 0)
            self.assertIn(b"<h1>&lt;b&gt;&amp;</h1>", done.stdout)

    def test_statuses(self):
        cases = [
            (["posted-price.toml", "posted-price-answer.csv"], 0, b""),
            (["posted-price.toml", "posted-price.csv", "--picture"], 0, b""),
            (["two-claims.toml", "two-claims-answer.csv", "--picture"], 66, b"show: answer refused: no table\n"),
            (["posted-price.toml", "vote-answer.csv"], 66, b"show: answer refused: line 4: record\n"),
            (["auction-cuts.toml", "auction-cuts-answer.csv"], 0, b""),
            (["auction-cuts.toml", "vote-answer.csv"], 66, b"show: answer refused: line 1: field 3\n"),
            (["posted-price-answer.csv", "posted-price-answer.csv"], 65, b"show: setting refused: not toml\n"),
            (["no-such-file", "posted-price-answer.csv"], 70, b"show: read fault\n"),
            (["posted-price.toml"], 64, b"show: usage\n"),
            (["posted-price.toml", "posted-price-answer.csv", "--wide"], 64, b"show: usage\n"),
        ]
        for words, status, line in cases:
            with call(*words) as done:
                self.assertEqual((done.returncode, done.stderr), (status, line), words)

    def test_auctions_that_are_too_wide(self):
        with tempfile.NamedTemporaryFile("w", suffix=".csv") as file:
            file.write("answer,2,auction,toowide\ncut,1\npivot,3,0\nwide,1,2,70000,3\nagain\nwide,4,5,80000,7\nend\n")
            file.flush()
            with call("auction-keep.toml", file.name) as done:
                self.assertEqual((done.returncode, done.stderr), (0, b""))
                self.assertIn("Too wide", done.stdout.decode())
                rows = table_rows(done.stdout.decode(), "The first entry of each path that is too wide")
                self.assertEqual(rows[1:], [["forward", "1", "1", "2", "70000", "3", "17"],
                                            ["backward", "0", "4", "5", "80000", "7", "17"]])
            with call("auction-keep.toml", file.name, "--picture") as done:
                self.assertEqual((done.returncode, done.stderr), (66, b"show: answer refused: no table\n"))

    def test_the_picture_of_an_auction(self):
        with call("auction-ironed.toml", "auction-ironed-answer.csv", "--picture", "--title", "Two & one") as done:
            words = " ".join(tree.fromstring(done.stdout).itertext())
        for part in ["Two & one", "The value 3 wins with the odds 3/8.", "6 wins with the odds 7/8.", "2, 3: pooled"]:
            self.assertIn(part, words)


@contextlib.contextmanager
def call(*words):
    """What `show` does with these words, in the folder of the examples."""
    yield subprocess.run([sys.executable, "-B", FOLDER / "show", *words], capture_output=True, cwd=EXAMPLES)
