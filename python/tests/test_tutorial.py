"""The tutorial and the scripts: they run, and print what is worked out by hand."""

import contextlib
import io
import re
import unittest
from collections.abc import Callable

import price_and_lottery
import tutorial

from .common import EXAMPLES, PYTHON, needs_library


def printed(part: Callable[[], object]) -> str:
    """What a part of the tutorial prints."""
    with contextlib.redirect_stdout(io.StringIO()) as out:
        part()
    return out.getvalue()


class Tutorial(unittest.TestCase):
    @needs_library
    def test_divorce(self) -> None:
        # The page divorce.md.
        told = printed(tutorial.divorce)
        self.assertIn("The best rule has the value 9652/275\n", told)
        self.assertIn("to_husband 6/11, burn 5/11\n", told)

    def test_price(self) -> None:
        # The page posted-price.md.
        self.assertIn("The best price is 3 and brings 3/2\n", printed(tutorial.price))

    def test_cents(self) -> None:
        # 0.6 times 34.90, which is more than 19.90.
        told = printed(tutorial.cents).splitlines()
        self.assertEqual(told[0], "The best price brings 20.94, which is exactly 1047/50")
        self.assertEqual(told[1], "AuctionOptimal (auction): value 1047/50 (20.94); 1 bidder, 2 values, scale 10")
        self.assertIn("values: 19.9 is a float, which is rounded: write '19.9' or Fraction('19.9')", told[-1])

    def test_two_goods(self) -> None:
        # Hart and Nisan: one good for 2, and both for 3.
        told = printed(tutorial.two_goods)
        self.assertIn("The best way to sell both goods brings 13/9\na buyer with 2 and 0 pays 2 and one with 2 and 1 3\n", told)
        # Three buyers with nine types each: (3 + 1) ^ 2 outcomes are within the limits, and 9 ^ 3 profiles.
        self.assertIn("rows of the linear program, and a setting has at most 4096\n", told)

    def test_auction(self) -> None:
        # The page auction-ironed.md.
        told = printed(tutorial.auction)
        self.assertIn("The best auction brings 3\n", told)
        self.assertIn("a bidder with 6 wins with the chance 7/8 and pays 15/4 on average\n", told)
        self.assertIn("nobody gains by a lie: True\nwhere 3 and 2 are reported, the chances are 1/2 1/2\n", told)

    def test_reserve_prices(self) -> None:
        # The higher value is 5 in 9 of 25 profiles, 4 in 7 and 3 in 5; virtual values are 5, 3 and 1, and the item is sold where
        # they are more than what it is worth kept.
        values = re.findall(r"^ +\d+  (\S+) ", printed(tutorial.reserve_prices), re.M)
        self.assertEqual(values, ["71/25", "3", "84/25", "93/25", "109/25", "5", "6"])

    def test_held(self) -> None:
        # By hand, as in the page pooled-values.md: 2 and 3 are one pool, of which a winner pays 2. One with 6 pays 4 against the
        # pool, so that it gains nothing by a bid of it (half a chance to keep 6 - 2), and 6 against another 6. The seller has 2 in
        # 9 of 16 profiles, 4 in 6 and 6 in 1: 3 on average, with the variance 3/2. Odds are 3/8, 3/8 and 7/8, as in
        # auction-ironed.md. A thousand auctions stay within four times the standard deviation.
        told = printed(tutorial.held)
        self.assertIn("The item is sold from 2 on, and brings 3\n", told)
        (paid,) = re.findall(r"in 1000 auctions the seller has (\S+) on average; the most that a lie gained is 0\n", told)
        self.assertLess(abs(float(paid) - 3), 0.16)
        won = re.findall(r"a bidder with (\d) won (\S+) of the time\n", told)
        self.assertEqual([value for value, _ in won], ["2", "3", "6"])
        for (_, part), odds in zip(won, (3 / 8, 3 / 8, 7 / 8), strict=True):
            self.assertLess(abs(float(part) - odds), 0.09)

    def test_compromises(self) -> None:
        # The page frontier.md; at 70/25 two thirds of the first corner's 88/25 and one third of the second one's 94/25.
        self.assertIn(
            "revenue 68/25 with welfare 94/25\nrevenue 13/5 with welfare 19/5\nat a revenue of 14/5 the most welfare is 18/5\n",
            printed(tutorial.compromises),
        )

    def test_refusals(self) -> None:
        sentence = "the setting, line 5: the value 2 stands behind 3: values ascend"
        told = f"The program says: setting refused: values order (status 65): {sentence}\n"
        self.assertEqual(printed(tutorial.refusals), told)


class Scripts(unittest.TestCase):
    def test_the_breakpoints_of_lotteries_and_prices(self) -> None:
        # docs/USING.md.
        told = printed(price_and_lottery.main).splitlines()
        self.assertEqual(told[:2], ["the best price list changes at W = 1 2", "the best mechanism changes at W = 1/2 5/2"])

    def test_the_code_of_the_documentation_runs_and_prints_what_it_says(self) -> None:
        section = (PYTHON.parent / "docs/USING.md").read_text().split("## In Python, without a process\n")[1].split("\n## ")[0]
        code = "".join(re.findall("```python\n(.*?)```", section, re.S)) + "\n"
        lines = [line for line in code.splitlines() if not re.search("to_pandas|savefig", line)]
        out = printed(lambda: exec("\n".join(lines).replace('"examples/', f'"{EXAMPLES}/'), {}))
        for shown in (
            "GeneralOptimal 5/2\n",
            "{2: Fraction(3, 8), 3: Fraction(3, 8), 6: Fraction(7, 8)}\n",
            "\nanswer,1,general,optimal\n",
            "63/16\n",
            "6 (Fraction(1, 2), Fraction(4, 3)) (1, 3)\n1 1.0\n4/3\nvalue,6,1\n",
            "\n5/2\n9/4\n1/6\n",
            "0 71/25\n",
            "True\n",
        ):
            self.assertIn(shown, out)
        self.assertIn("[('71/25', '88/25'), ('68/25', '94/25'), ('13/5', '19/5')]\n", out)


if __name__ == "__main__":
    unittest.main()
