"""How values are shown: in ten lines at most, in a notebook, and as tables of pandas."""

import html.parser
import importlib.util
import sys
import unittest
import unittest.mock
from collections.abc import Iterator
from fractions import Fraction
from typing import Any

import mechdes

from .common import Recorder, example, stored
from .test_texts import setting_of, shown_whole, stored_answers

PLAIN = {mechdes.Answer, mechdes.Optimal, mechdes.Bounded, mechdes.WithoutBest, mechdes.Printed}  # of which others are made


def values() -> Iterator[mechdes.Printed]:
    """Values of every kind that a command prints."""
    for name, printed in stored_answers():
        yield mechdes.parse("solve", printed, setting_of(name), 3 if name == "seats-three" else None)
    for command, setting, printed, units in shown_whole():
        yield mechdes.parse(command, printed, setting, units)
    yield mechdes.parse("find", "undecided\n", example("village-bus"))
    yield mechdes.parse("replay", "basis,0,1,3\nrule,1\nagain,0\nend\n")
    yield mechdes.parse("rows", "program,2,1\ncost,0,1\nrow,0,profile/a,exact,1,0,1,1,1\nend\n")
    yield mechdes.parse("drill", "drill,1,auction,optimal,3,2\ncheck,valid\n")


def pandas_of(value: Any) -> tuple[list[dict[str, Any]], list[Any], list[str]]:
    """The rows, keys and names of the table that a value makes."""
    with unittest.mock.patch.dict(sys.modules, pandas=Recorder("pandas")):
        return value.to_pandas()


class Elements(html.parser.HTMLParser):
    """Counts the elements of a text, and refuses one whose elements do not close in their order."""

    def __init__(self, text: str) -> None:
        super().__init__()
        self.open: list[str] = []
        self.seen: list[str] = []
        self.feed(text)
        self.close()
        assert not self.open, self.open

    def handle_starttag(self, tag: str, attrs: object) -> None:
        self.open.append(tag)
        self.seen.append(tag)

    def handle_startendtag(self, tag: str, attrs: object) -> None:
        self.seen.append(tag)

    def handle_endtag(self, tag: str) -> None:
        assert self.open.pop() == tag, tag


class Showing(unittest.TestCase):
    def test_every_value_has_ten_lines_at_most_and_a_table(self) -> None:
        kinds = set[type]()
        for value in values():
            kinds.add(type(value))
            with self.subTest(type(value).__name__):
                lines = repr(value).splitlines()
                self.assertLessEqual(len(lines), 10)
                self.assertLessEqual(max(map(len, lines)), 120)
                self.assertTrue(lines[0].startswith(type(value).__name__))
                self.assertIn("table", Elements(value._repr_html_()).seen)
                rows, keys, names = pandas_of(value)
                self.assertEqual((len(rows), len(keys) > 0, len(names) > 0), (len(keys), True, True))
        named = (getattr(mechdes, name) for name in mechdes.__all__)
        wanted = {kind for kind in named if isinstance(kind, type) and issubclass(kind, mechdes.Printed)}
        self.assertEqual(kinds, wanted - PLAIN)

    def test_an_answer_names_its_value_its_kind_and_its_size(self) -> None:
        # The page posted-price.md: the price 3, which half of the buyers pay.
        answer = mechdes.read(example("posted-price"), stored("posted-price-answer"))
        wanted = [
            "GeneralOptimal (general): value 3/2 (1.5); 2 profiles, 2 outcomes",
            "buyer  keep  sell  pays buyer",
            "low    1     0     0",
            "high   0     1     3",
        ]
        self.assertEqual(repr(answer).splitlines(), wanted)
        self.assertEqual(repr(answer.mechanism).splitlines(), ["Mechanism: 2 profiles, 2 outcomes", *wanted[1:]])
        auction = mechdes.read(example("auction-ironed"), stored("auction-ironed-answer"))
        self.assertEqual(repr(auction).splitlines()[0], "AuctionOptimal (auction): value 3; 2 bidders, 3 values")
        infeasible = mechdes.read(example("two-claims"), stored("two-claims-answer"))
        told = "Infeasible (general): no mechanism meets the conditions; 3 multipliers"
        self.assertEqual(repr(infeasible).splitlines()[0], told)

    def test_a_scale_is_named(self) -> None:
        sale = mechdes.Auction(bidders=1, values=["0.5", 1], weights=[1, 1])
        answer = mechdes.solve(sale).best()
        self.assertTrue(repr(answer).startswith("AuctionOptimal (auction): value 1/2 (0.5); 1 bidder, 2 values, scale 2\n"))
        self.assertIn("; 2 types, scale 2\n", repr(mechdes.report(sale, answer)))
        self.assertIn("; 1 pool, scale 2\n", repr(mechdes.threshold(sale, 1)))

    def test_long_tables_and_numbers_are_cut(self) -> None:
        lotteries = {(f"t{place}",): {"x": Fraction(1, 10**20), "y": 1 - Fraction(1, 10**20)} for place in range(9)}
        lines = repr(mechdes.Mechanism(lotteries, agents=("a",))).splitlines()
        self.assertEqual((len(lines), lines[1:4]), (10, ["a   x       y", "t0  ~1e-20  ~1", "t1  ~1e-20  ~1"]))
        self.assertEqual(lines[-1], ".. and 2 more rows")
        eight = mechdes.Mechanism(dict(list(lotteries.items())[:8]), agents=("a",))
        self.assertEqual([line[:2] for line in repr(eight).splitlines()[2:]], [f"t{place}" for place in range(8)])
        wide = mechdes.Mechanism({("t",): {f"outcome{place}": Fraction(1, 20) for place in range(20)}})
        self.assertEqual([line[-3:] for line in repr(wide).splitlines()[1:]], [" ..", " .."])

    def test_a_notebook_shows_a_table_and_a_picture(self) -> None:
        answer = mechdes.read(example("posted-price"), stored("posted-price-answer"))
        shown = answer._repr_html_()
        self.assertEqual((Elements(shown).seen.count("tr"), Elements(shown).seen.count("rect")), (3, 2))
        for part in ("value 3/2 (1.5)", "<th>pays buyer</th>", "<title>sell 1</title>"):
            self.assertIn(part, shown)
        auction = mechdes.read(example("auction-ironed"), stored("auction-ironed-answer"))._repr_html_()
        # Three values, each with a bar for how often it wins and one for what it pays.
        self.assertEqual(Elements(auction).seen.count("rect"), 6)
        self.assertIn('<td title="0.875">7/8</td>', auction)
        self.assertIn('width="300.0" height="18" fill="#fdbf6f"', auction)  # 6 pays most
        self.assertIn('width="60.0" height="18" fill="#fdbf6f"', auction)  # 2 pays a fifth of that

    def test_payments_below_nothing_have_bars_to_the_left(self) -> None:
        odds = {1: Fraction(1, 2), 2: Fraction(1, 2)}
        shown = mechdes.AuctionTable(odds=odds, pays={1: Fraction(-1), 2: Fraction(3)})._repr_html_()
        self.assertIn('width="75.0" height="18" fill="#fdbf6f"', shown)
        self.assertIn('width="225.0" height="18" fill="#fdbf6f"', shown)

    def test_as_many_words_stand_in_a_part_as_fit(self) -> None:
        # Of 300 pixels the parts have 210, 75 and 15; a letter has 7, and 6 are left free.
        chances = {"first": Fraction(7, 10), "second_one": Fraction(1, 4), "third": Fraction(1, 20)}
        shown = mechdes.Mechanism({("t",): chances})._repr_html_()
        for name, words in (("first 7/10", "first 7/10"), ("second_one 1/4", "1/4"), ("third 1/20", "")):
            self.assertIn(f"<g><title>{name}</title>", shown)
            self.assertIn(f">{words}</text></g>", shown)

    def test_names_are_no_elements(self) -> None:
        strange = mechdes.Mechanism({("<b>",): {"<i>": Fraction(1)}}, agents=("<u>",))
        self.assertFalse({"i", "u"} & {*Elements(strange._repr_html_()).seen})

    def test_pandas_itself(self) -> None:
        if importlib.util.find_spec("pandas") is None:
            self.skipTest("pandas is not there")
        for value in values():
            with self.subTest(type(value).__name__):
                self.assertEqual(len(value.to_pandas()), len(pandas_of(value)[0]))


if __name__ == "__main__":
    unittest.main()
