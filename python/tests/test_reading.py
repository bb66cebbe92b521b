"""Printed answers, read into values. The texts are those of examples/ and of their pages; no library is wanted.

The expected numbers are those that the pages of the examples work out by hand.
"""

import pickle
import re
import unittest
from fractions import Fraction
from typing import Any

import mechdes
from mechdes.reading import read_answer

from .common import EXAMPLES, text


def read(setting: str, answer: str) -> Any:
    return mechdes.read(EXAMPLES / f"{setting}.toml", EXAMPLES / f"{answer}.csv")


def on_page(name: str, command: str) -> str:
    """The records that a page shows below a command, which may be the first of more."""
    lines = text(name).splitlines()
    at = lines.index(f"    ./mechdes {command}") + 1
    shown = [line.strip() for line in lines[at:]]
    first = next(k for k, line in enumerate(shown) if line.startswith("answer,"))
    count = next(k for k, line in enumerate(shown[first:]) if "," not in line and line != "end")
    return "\n".join(shown[first : first + count]) + "\n"


class Answers(unittest.TestCase):
    def test_optimal(self) -> None:
        found = read("posted-price", "posted-price-answer")
        self.assertIs(type(found), mechdes.GeneralOptimal)
        self.assertIsInstance(found, mechdes.Optimal)
        self.assertEqual(found.value, Fraction(3, 2))
        self.assertEqual(found.lotteries, {("low",): {"keep": 1, "sell": 0}, ("high",): {"keep": 0, "sell": 1}})
        self.assertEqual(found.payments, {("low",): {"buyer": 0}, ("high",): {"buyer": 3}})
        self.assertEqual(
            [(m.row, m.main) for m in found.multipliers], [(1, Fraction(1, 2)), (2, Fraction(3, 2)), (3, Fraction(1, 2)), (5, 3)]
        )
        self.assertEqual((found.kind, found.word), ("general", "optimal"))
        self.assertEqual(str(found), text("posted-price-answer.csv"))

    def test_a_lottery_of_fractions(self) -> None:
        found = read("divorce", "divorce-answer")
        self.assertEqual(found.value, Fraction(9652, 275))
        self.assertEqual(
            found.lotteries["much", "much"], {"to_husband": Fraction(6, 11), "to_wife": 0, "museum": 0, "burn": Fraction(5, 11)}
        )
        self.assertEqual(found.payments, {})

    def test_table(self) -> None:
        found = read("posted-price", "price-above-value")
        self.assertIs(type(found), mechdes.Table)
        self.assertEqual(found.mechanism.payments["high",], {"buyer": 4})

    def test_infeasible(self) -> None:
        found = read("two-claims", "two-claims-answer")
        self.assertIs(type(found), mechdes.Infeasible)
        self.assertEqual([(m.row, m.face, m.main) for m in found.multipliers], [(0, 1, None), (1, 1, None), (2, 3, None)])

    def test_unbounded(self) -> None:
        found = read("unbounded-revenue", "unbounded-revenue-answer")
        self.assertIs(type(found), mechdes.Unbounded)
        self.assertEqual(found.ray, {("low",): {"buyer": 1}, ("high",): {"buyer": 1}})
        self.assertEqual(found.mechanism.lotteries["high",]["keep"], 1)

    def test_too_wide_by_two_paths(self) -> None:
        found = read("too-wide", "too-wide-answer")
        self.assertIs(type(found), mechdes.TooWide)
        forward, backward = found.paths
        self.assertEqual((forward.pivots[0], len(forward.pivots)), ((18, 0), 16))
        self.assertEqual((forward.row, forward.column), (0, 19))
        self.assertEqual(forward.entry, Fraction(25536590580927989520, 319166515855856))
        self.assertEqual((backward.pivots[0], backward.row, backward.column), ((17, 80), 1, 18))

    def test_too_wide_of_an_auction(self) -> None:
        wide = "answer,2,auction,toowide\ncut,1\ncut,5\npivot,0,1\nwide,2,3,9,2\nagain\npivot,4,5\nwide,6,7,8,3\nend\n"
        found = mechdes.read(EXAMPLES / "auction-ironed.toml", wide)
        self.assertEqual(found.cuts, (frozenset({2}), frozenset({2, 6})))
        self.assertEqual([path.entry for path in found.paths], [Fraction(9, 2), Fraction(8, 3)])

    def test_auction(self) -> None:
        found = read("auction-ironed", "auction-ironed-answer")
        self.assertIs(type(found), mechdes.AuctionOptimal)
        self.assertEqual(found.value, 3)
        self.assertEqual(found.odds, {2: Fraction(3, 8), 3: Fraction(3, 8), 6: Fraction(7, 8)})
        self.assertEqual(found.pays, {2: Fraction(6, 8), 3: Fraction(6, 8), 6: Fraction(30, 8)})
        self.assertEqual(found.mechanism.masses[1, 1, 0], {2: 2, 3: 2, 6: 0})
        self.assertEqual(found.mechanism.weight((1, 1, 0)), 4)
        self.assertEqual(found.mechanism.chances([3, 2]), (Fraction(1, 2), Fraction(1, 2)))
        self.assertEqual(found.mechanism.chances([6, 2]), (1, 0))
        self.assertEqual(found.mechanism.draws([3, 2]), 32)
        with self.assertRaises(ValueError):
            found.mechanism.chances([3, 4])

    def test_an_auction_of_ones_own(self) -> None:
        found = read("auction-reserve", "own-first-price")
        self.assertIs(type(found), mechdes.AuctionTable)
        self.assertEqual((found.kind, found.word, found.denominator), ("auction", "table", 10))
        self.assertEqual(list(found.odds.items())[2:], [(3, Fraction(1, 2)), (4, Fraction(7, 10)), (5, Fraction(9, 10))])
        self.assertEqual(found.pays[4], Fraction(28, 10))
        self.assertEqual(pickle.loads(pickle.dumps(found)), found)

    def test_fairest(self) -> None:
        found = read("fair-split", "fair-split-fairest")
        self.assertIs(type(found), mechdes.Fairest)
        self.assertEqual(found.value, Fraction(4, 5))
        self.assertEqual(found.lotteries["needs", "any"], {"keep": 0, "player": Fraction(4, 15), "other": Fraction(11, 15)})

    def test_a_sale(self) -> None:
        page = on_page("strong-and-weak.md", "asym examples/strong-and-weak.toml")
        page = page.removesuffix("end\n") + ("" if "bound," in page else "bound,2\nrow,3,0,2\n") + "end\n"
        found = mechdes.read(EXAMPLES / "strong-and-weak.toml", page)
        self.assertIs(type(found), mechdes.SaleOptimal)
        self.assertEqual(found.value, Fraction(17, 4))
        self.assertEqual(
            found.mechanism.odds, {"weak": {"v2": 0, "v3": Fraction(1, 2)}, "strong": {"v4": Fraction(1, 2), "v6": 1}}
        )
        self.assertEqual(found.mechanism.pays["strong"], {"v4": 2, "v6": 5})
        self.assertEqual(found.mechanism.chances(["v3", "v4"]), {"weak": 1, "strong": 0})
        self.assertEqual(found.mechanism.draws(["v3", "v4"]), 2)
        self.assertEqual(found.cuts[-1], frozenset({("weak", "v3"), ("strong", "v6")}))

    def test_a_sale_of_units(self) -> None:
        setting = mechdes.Auction(bidders=2, values=[1, 2], weights=[1, 1])
        # Two units for two bidders: each pays 1 where it has one, and both have one at all profiles.
        told = "answer,1,units,optimal\nvalue,2,1\ninterim,1\nodds,1,1\npays,1,1\n"
        told += "mass,0,2,0,2\nmass,1,1,2,2\nmass,2,0,2,0\ncut,1\ncut,2\nbound,1\nrow,2,0,4\nend\n"
        found = read_answer(setting, told, units=2)
        self.assertIs(type(found), mechdes.UnitsOptimal)
        self.assertIsInstance(found, mechdes.AuctionOptimal)
        self.assertEqual((found.value, found.mechanism.units), (2, 2))
        self.assertEqual(found.mechanism.chances([2, 1]), (1, 1))
        self.assertEqual((type(found.mechanism), found.mechanism.draws([2, 1])), (mechdes.UnitsMechanism, 27720 * 2))

    def test_the_mechanism_of_determ_is_no_leaf(self) -> None:
        found = read("two-goods", "two-goods-rule")
        self.assertIs(type(found), mechdes.Rule)
        self.assertEqual(found.value, Fraction(7, 3))
        self.assertEqual(found.outcomes, {("v1_0",): "none", ("v0_2",): "second", ("v3_3",): "both"})
        self.assertEqual([row["buyer"] for row in found.payments.values()], [0, 2, 5])
        self.assertEqual([type(node) for node in found.tree], [mechdes.Branch] + 4 * [mechdes.Leaf])
        self.assertEqual(
            [leaf.fixed for leaf in found.leaves], [{("v1_0",): name} for name in ("none", "first", "second", "both")]
        )
        self.assertEqual(
            found.leaves[1].mechanism.lotteries["v0_2",],
            {"none": 0, "first": 0, "second": Fraction(2, 3), "both": Fraction(1, 3)},
        )
        self.assertEqual([row["buyer"] for row in found.leaves[-1].mechanism.payments.values()], [1, 1, 1])

    def test_other_answers_of_determ(self) -> None:
        setting = EXAMPLES / "two-claims.toml"
        found = mechdes.read(setting, "answer,1,determ,infeasible\nleaf,infeasible\nrow,0,1\nend\n")
        self.assertIs(type(found), mechdes.Infeasible)
        self.assertEqual(found.tree, (mechdes.Leaf({}, None, (mechdes.Multiplier(0, 1),)),))
        found = mechdes.read(
            EXAMPLES / "two-goods.toml", "answer,1,determ,toowide\nfix,1,2\npivot,0,1\nwide,0,1,3,1\nagain\nwide,0,2,5,1\nend\n"
        )
        self.assertEqual(found.fixed, {("v0_2",): "second"})
        unbounded = text("unbounded-revenue-answer.csv").replace("general", "determ")
        self.assertIs(type(mechdes.read(EXAMPLES / "unbounded-revenue.toml", unbounded)), mechdes.Unbounded)

    def test_a_deep_tree_is_read(self) -> None:
        types = [f"t{k}" for k in range(16)]
        agents = [mechdes.Agent(name, types, [[0]] * 16, weights=[1] * 16) for name in "ab"]
        setting = mechdes.Setting(
            truth="bayes",
            rational="none",
            payments=False,
            outcomes=["x"],
            agents=[*agents, mechdes.Agent("c", types[:4], [[0]] * 4, weights=[1] * 4)],
        )
        branches = "".join(f"branch,{rank}\n" for rank in range(1024))
        found = read_answer(setting, f"answer,1,determ,infeasible\n{branches}leaf,infeasible\nend\n")
        self.assertEqual((len(found.tree), len(found.tree[-1].fixed)), (1025, 1024))

    def test_undecided(self) -> None:
        found = mechdes.read(EXAMPLES / "auction-beyond.toml", "undecided\n")
        self.assertEqual((type(found), found.kind, found.word), (mechdes.Undecided, "auction", "undecided"))

    def test_every_stored_answer_is_read_and_comes_back_from_a_pickle(self) -> None:
        for ending in ("-answer", "-found", "-fairest", "-rule"):
            for path in sorted(EXAMPLES.glob(f"*{ending}.csv")):
                with self.subTest(path.name):
                    found = mechdes.read(EXAMPLES / f"{path.stem.removesuffix(ending)}.toml", path)
                    self.assertEqual(pickle.loads(pickle.dumps(found)), found)

    def test_a_mechanism_writes_the_table_that_it_is_read_from(self) -> None:
        for setting, table in (
            ("posted-price", "posted-price"),
            ("divorce", "divorce-percent"),
            ("public-good", "public-good-subsidy"),
        ):
            found = read(setting, table)
            again = mechdes.Table(setting=found.setting, mechanism=found.mechanism)
            self.assertEqual(again.text(), text(f"{table}.csv"))
        self.assertEqual(mechdes.Mechanism(found.mechanism.lotteries, {("a",): {"x": Fraction(1, 6)}}).denominator, 6)

    def test_numbers_that_are_not_exact_are_refused(self) -> None:
        with self.assertRaises(TypeError):
            mechdes.Mechanism({("low",): {"keep": 0.5, "sell": 0.5}})
        given = mechdes.Mechanism({("low",): {"keep": 0.5, "sell": 0.5}, ("high",): {"keep": 1, "sell": 0}}, denominator=2)
        setting = mechdes.Setting(
            truth="bayes",
            rational="none",
            payments=False,
            outcomes=["keep", "sell"],
            agents=[mechdes.Agent("buyer", ["low", "high"], [[0, 1], [0, 3]], weights=[1, 1])],
        )
        with self.assertRaises(TypeError):
            mechdes.Table(setting=setting, mechanism=given).text()

    def test_names_of_a_mechanism_may_stand_in_any_order(self) -> None:
        found = read("divorce", "divorce-percent")
        turned = {profile: dict(reversed(row.items())) for profile, row in reversed(found.mechanism.lotteries.items())}
        table = mechdes.Table(setting=found.setting, mechanism=mechdes.Mechanism(turned, denominator=100))
        self.assertEqual(table.text(), text("divorce-percent.csv"))

    def test_a_mechanism_with_other_names_is_not_written(self) -> None:
        setting = mechdes.read_setting(EXAMPLES / "posted-price.toml")
        chances, pays = {"keep": 1, "sell": 0}, {"buyer": 0}
        for lotteries, payments in (
            ({("low",): chances}, {("low",): pays}),
            ({("low",): chances, ("high",): {"keep": 1}}, {("low",): pays, ("high",): pays}),
            ({("low",): chances, ("high",): {**chances, "burn": 0}}, {("low",): pays, ("high",): pays}),
            ({("low",): chances, ("high",): chances}, {}),
            ({("low",): chances, ("high",): chances}, {("low",): pays, ("high",): {"seller": 0}}),
        ):
            with self.subTest(lotteries, payments=payments), self.assertRaisesRegex(ValueError, "are wanted, not"):
                mechdes.Table(setting=setting, mechanism=mechdes.Mechanism(lotteries, payments)).text()
        divorce = read("divorce", "divorce-percent")
        paid = mechdes.Mechanism(divorce.mechanism.lotteries, {profile: {"wife": 0} for profile in divorce.mechanism.lotteries})
        with self.assertRaisesRegex(ValueError, "are wanted, not"):
            mechdes.Table(setting=divorce.setting, mechanism=paid).text()


class Refusals(unittest.TestCase):
    def test_an_answer_of_an_unknown_kind_is_refused_by_its_name(self) -> None:
        setting = EXAMPLES / "posted-price.toml"
        answer = text("posted-price-answer.csv")
        for old, new in (("general", "robust"), ("optimal", "nearly"), ("answer,1", "answer,3"), ("answer,1", "answer,2")):
            with self.subTest(new), self.assertRaises(mechdes.UnknownAnswer) as caught:
                mechdes.read(setting, answer.replace(old, new, 1))
            self.assertIn(new.split(",")[-1], str(caught.exception))

    def test_an_answer_about_another_kind_of_setting_is_refused(self) -> None:
        for setting, answer in (("posted-price", "auction-ironed-answer"), ("auction-ironed", "posted-price-answer")):
            with self.assertRaises(mechdes.AnswerNotRead):
                read(setting, answer)

    def test_an_answer_to_another_setting_is_refused(self) -> None:
        for setting, answer in (
            ("divorce", "posted-price-answer"),
            ("auction-reserve", "auction-ironed-answer"),
            ("two-goods", "posted-price-answer"),
            ("two-bidders", "own-first-price"),
        ):
            with self.subTest(setting), self.assertRaises(mechdes.AnswerNotRead):
                read(setting, answer)

    def test_a_text_that_lacks_a_record_or_has_one_twice_is_refused(self) -> None:
        for setting, answer in (
            ("posted-price", "posted-price-answer"),
            ("auction-ironed", "auction-ironed-answer"),
            ("auction-reserve", "own-first-price"),
            ("two-goods", "two-goods-rule"),
        ):
            lines = text(f"{answer}.csv").splitlines(keepends=True)
            kept = {k for k, line in enumerate(lines) if re.match("row|cut|branch|leaf", line)}
            for k in set(range(len(lines))) - kept:
                for wrong in (lines[:k] + lines[k + 1 :], lines[: k + 1] + lines[k:]):
                    with self.subTest(answer=answer, record=k), self.assertRaises(mechdes.AnswerNotRead):
                        mechdes.read(EXAMPLES / f"{setting}.toml", "".join(wrong) or "\n")

    def test_records_out_of_their_order_are_refused(self) -> None:
        for setting, word in (
            ("posted-price", "row"),
            ("auction-ironed", "mass"),
            ("auction-ironed", "row"),
            ("posted-price", "lottery"),
        ):
            lines = text(f"{setting}-answer.csv").splitlines(keepends=True)
            first, second, *_ = [k for k, line in enumerate(lines) if line.startswith(word)]
            lines[first], lines[second] = lines[second], lines[first]
            with self.subTest(setting, word=word), self.assertRaises(mechdes.AnswerNotRead):
                mechdes.read(EXAMPLES / f"{setting}.toml", "".join(lines))

    def test_masses_that_are_none_are_refused(self) -> None:
        answer = text("auction-ironed-answer.csv")
        for old, new in (
            ("mass,1,1,0,16,16,0", "mass,1,1,0,16,16,1"),
            ("mass,1,1,0,16,16,0", "mass,1,1,0,-16,16,0"),
            ("mass,2,0,0", "mass,3,0,0"),
        ):
            with self.subTest(new), self.assertRaises(mechdes.AnswerNotRead):
                mechdes.read(EXAMPLES / "auction-ironed.toml", answer.replace(old, new))

    def test_auctions_in_which_only_winners_pay_that_are_none_are_refused(self) -> None:
        sold, awarded = text("used-car-threshold.csv"), "chance,1,1,2\nchance,2,1,2\nprice,1,2,1\nprice,2,2,1\nwins,2\nend\n"
        for command, printed, old, new in (
            ("threshold", sold, "reserve,5000", "reserve,4000"),
            ("threshold", sold, "reserve,5000", "reserve,none"),
            ("threshold", sold, "pool,5000,5000", "pool,5000,4000"),
            ("threshold", sold, "units,1", "units,0"),
            ("threshold", sold, "price,2,2,2,7000,1", "price,3,2,2,7000,1"),
            ("threshold", sold, "price,0,0,2,5000,1", "price,0,1,2,5000,1"),
            ("threshold", sold, "price,0,0,2,5000,1", "price,0,none,2,5000,1"),
            ("threshold", sold, "price,0,0,2,5000,1", "price,0,0,0,5000,1"),
            ("threshold", sold, "price,0,0,2,5000,1", "price,0,0,2,5000,0"),
            ("threshold", sold, "end\n", ""),
            ("award", awarded, "chance,2", "chance,1"),
            ("award", awarded, "chance,2", "chance,3"),
            ("award", awarded, "chance,2,1,2", "chance,2,0,1"),
            ("award", awarded, "price,2,2,1\n", ""),
            ("award", awarded, "wins,2", "wins,3"),
            ("award", awarded, "wins,2\nend\n", "end\nwins,2\n"),
        ):
            assert old in printed
            with self.subTest(new), self.assertRaises(mechdes.AnswerNotRead):
                mechdes.parse(command, printed.replace(old, new, 1))
        with self.assertRaises(mechdes.UnknownAnswer):
            mechdes.parse("threshold", sold.replace("threshold,1", "threshold,2"))

    def test_numbers_that_are_none_are_refused(self) -> None:
        answer = text("posted-price-answer.csv")
        for old, new in (
            ("3,2", "3,0"),
            ("3,2", "3,02"),
            ("3,2", "+3,2"),
            ("3,2", "3.5,2"),
            ("low,1,0", "low,2,-1"),
            ("low,1,0", "low,1,1"),
            ("high,3", "high,"),
            ("high,3", "high, 3"),
        ):
            with self.subTest(new), self.assertRaises(mechdes.AnswerNotRead):
                mechdes.read(EXAMPLES / "posted-price.toml", answer.replace(old, new, 1))


if __name__ == "__main__":
    unittest.main()
