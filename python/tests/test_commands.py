"""The commands: each gives its value, and what is refused is raised with its status and line.

The expected numbers are those of the pages of examples/ and docs/.
"""

import functools
import importlib.util
import pickle
import random
import sys
import unittest
import unittest.mock
from collections.abc import Callable, Sequence
from fractions import Fraction
from typing import Any

import mechdes

from .common import Recorder, calling, example, needs_library, stored, text


class Solving(unittest.TestCase):
    def test_each_word_has_its_own_class(self) -> None:
        for name, wanted in (
            ("posted-price", mechdes.GeneralOptimal),
            ("two-claims", mechdes.Infeasible),
            ("unbounded-revenue", mechdes.Unbounded),
            ("auction-ironed", mechdes.AuctionOptimal),
        ):
            with self.subTest(name):
                self.assertIs(type(mechdes.solve(example(name))), wanted)

    @needs_library
    def test_numbers_that_grow_are_too_wide(self) -> None:
        self.assertIs(type(mechdes.solve(example("auction-beyond"))), mechdes.TooWide)
        self.assertIs(type(mechdes.solve(example("divorce"), width=4)), mechdes.TooWide)

    def test_longer_numbers_on_the_way(self) -> None:
        setting = example("village-bus")
        found, fairest = mechdes.find(setting), mechdes.find_fair(setting)
        self.assertEqual((type(found), found.value), (mechdes.GeneralOptimal, Fraction(1282241, 10240)))
        self.assertTrue(mechdes.check(setting, found))
        self.assertEqual((type(fairest), fairest.value), (mechdes.Fairest, Fraction(74292765, 1189504)))
        self.assertTrue(mechdes.audit(setting, fairest))
        for command in (mechdes.find, mechdes.find_fair):
            self.assertIs(type(command(example("two-claims"))), mechdes.Infeasible)
            self.assertIs(type(command(example("unbounded-revenue"))), mechdes.Unbounded)

    @needs_library
    def test_a_basis_decides_which_answer_comes(self) -> None:
        setting = example("posted-price")
        rest = "column,3\ncolumn,4\ncolumn,5\nslack,0\n"
        for basis, multipliers in (("column,0\ncolumn,1\n", {1: 1, 2: 3, 3: 1, 5: 6}), ("column,0\nslack,3\n", {1: 1, 2: 2, 5: 3})):
            found = mechdes.find(setting, f"{basis}{rest}end\n")
            self.assertEqual((type(found), found.value), (mechdes.GeneralOptimal, Fraction(3, 2)))
            self.assertIn("".join(f"row,{row},0,{number}\n" for row, number in multipliers.items()), found.text())
        with self.assertRaises(mechdes.AnswerRefused) as refused:
            mechdes.find(setting, f"{rest}end\n")
        self.assertEqual(refused.exception.message, "answer refused: line 5: record")

    @needs_library
    def test_the_other_searches(self) -> None:
        self.assertEqual(mechdes.fair(example("fair-split")).value, Fraction(4, 5))
        self.assertEqual(mechdes.asym(example("strong-and-weak")).value, Fraction(17, 4))
        self.assertEqual(mechdes.determ(example("two-goods")).value, Fraction(7, 3))
        self.assertEqual(mechdes.iron(example("auction-reserve")).value, Fraction(71, 25))
        seats = mechdes.units(example("seats"), 3)
        closed = mechdes.iron_units(example("seats"), 3)
        for found in (seats, closed):
            self.assertEqual((type(found), found.value, found.mechanism.units), (mechdes.UnitsOptimal, Fraction(484, 81), 3))

    @needs_library
    def test_numbers(self) -> None:
        self.assertIsInstance(mechdes.make(1), mechdes.Auction)
        self.assertIsInstance(mechdes.make(2), mechdes.Setting)
        drilled = mechdes.drill(1)
        self.assertEqual((drilled.kind, drilled.word, drilled.value), ("auction", "optimal", Fraction(727535, 38416)))
        self.assertTrue(drilled.verdict)

    def test_the_best_answer_comes_or_what_it_is_instead_is_raised(self) -> None:
        answer = mechdes.solve(example("posted-price"))
        self.assertIs(answer.best(), answer)
        # The value of posted-price.md as a fraction and as a float: half of the buyers pay 3.
        self.assertEqual((answer.best().value, float(answer.best().value)), (Fraction(3, 2), 1.5))
        undecided = mechdes.read(example("auction-beyond"), "undecided\n")
        for name, given, word in (
            ("two-claims", mechdes.solve(example("two-claims")), "infeasible"),
            ("unbounded-revenue", mechdes.solve(example("unbounded-revenue")), "unbounded"),
            ("auction-beyond", undecided, "undecided"),
            ("posted-price", mechdes.read(example("posted-price"), stored("posted-price")), "table"),
        ):
            with self.subTest(name), self.assertRaisesRegex(mechdes.NotOptimal, f", {word}\\): ") as caught:
                given.best()
            self.assertIs(caught.exception.answer, given)
            self.assertEqual(pickle.loads(pickle.dumps(caught.exception)).answer, given)

    def test_the_words_of_earlier_versions_are_there(self) -> None:
        setting = text("two-goods.toml")
        answer = mechdes.solve(setting)
        self.assertTrue(mechdes.check(setting, str(answer)))
        self.assertEqual(mechdes.read(setting, str(answer)), answer)


class Checking(unittest.TestCase):
    def test_a_verdict_is_true_where_the_answer_is_valid_and_only_there(self) -> None:
        setting, answer = example("posted-price"), text("posted-price-answer.csv")
        self.assertTrue(mechdes.check(setting, answer))
        self.assertFalse(mechdes.check(setting, stored("posted-price")))
        self.assertEqual(mechdes.check(setting, stored("posted-price")).word, "undecided")
        rejected = mechdes.check(setting, answer.replace("value,3,2", "value,2,1"))
        self.assertFalse(rejected)
        self.assertEqual((rejected.word, rejected.condition, rejected.numbers), ("rejected", 2, (3, 2)))
        self.assertEqual(str(rejected), "rejected,2,3,2")

    def test_a_verdict_names_a_broken_condition(self) -> None:
        answer = text("posted-price-answer.csv").replace("pay,high,3", "pay,high,4")
        rejected = mechdes.check(example("posted-price"), answer)
        self.assertEqual((rejected.condition, rejected.name, rejected.numbers), (1, "truth/buyer/high/low/high", (-1, 0)))

    def test_the_fairest_mechanism_is_checked(self) -> None:
        setting, answer = example("fair-split"), text("fair-split-fairest.csv")
        self.assertTrue(mechdes.check(setting, answer))
        rejected = mechdes.check(setting, answer.replace("value,4,5", "value,1,1"))
        self.assertEqual((bool(rejected), rejected.condition, rejected.numbers), (False, 2, (4, 5)))

    def test_the_best_mechanism_of_a_sale_is_checked(self) -> None:
        setting, answer = example("strong-and-weak"), text("strong-and-weak-by-hand.csv")
        self.assertTrue(mechdes.check(setting, answer))
        rejected = mechdes.check(setting, answer.replace("mass,v3,v4,2,0", "mass,v3,v4,1,1"))
        self.assertEqual((bool(rejected), rejected.condition, rejected.numbers), (False, 9, (1, 1, 2)))

    def test_an_answer_about_several_units_is_checked(self) -> None:
        setting, answer = example("seats"), text("seats-three.csv")
        self.assertTrue(mechdes.check(setting, answer, units=3))
        rejected = mechdes.check(setting, answer.replace("value,484,81", "value,6,1"), units=3)
        self.assertEqual((bool(rejected), rejected.condition, rejected.numbers), (False, 2, (484, 81)))

        with self.assertRaisesRegex(mechdes.AnswerRefused, "line 1: field 3"):
            mechdes.check(setting, answer)
        read = mechdes.read(setting, answer, units=3)
        self.assertTrue(mechdes.check(setting, read))
        with self.assertRaisesRegex(ValueError, "about 3 units, not 2"):
            mechdes.check(setting, read, units=2)

    @needs_library
    def test_the_tree_of_determ_is_checked(self) -> None:
        setting, answer = example("two-goods"), mechdes.determ(example("two-goods"))
        self.assertTrue(mechdes.determcheck(setting, answer))
        rejected = mechdes.determcheck(setting, str(answer).replace("value,7,3", "value,8,3"))
        self.assertEqual((bool(rejected), rejected.condition, rejected.numbers), (False, 13, (7, 3)))

    def test_an_audit_is_true_where_the_mechanism_is_admissible_and_only_there(self) -> None:
        self.assertTrue(mechdes.audit(example("divorce"), stored("divorce-percent-safe")))
        broken = mechdes.audit(example("divorce"), stored("divorce-percent"))
        self.assertFalse(broken)
        self.assertEqual((broken.broken, broken.left, broken.right), ("truth/husband/little/much", 1824, 1840))

    @needs_library
    def test_mechanisms_of_other_answers_are_audited_reported_and_run(self) -> None:
        setting = example("two-goods")
        self.assertTrue(mechdes.audit(setting, mechdes.determ(setting)))
        self.assertEqual(mechdes.report(setting, mechdes.determ(setting)).revenue, Fraction(7, 3))
        self.assertTrue(mechdes.audit(example("fair-split"), mechdes.fair(example("fair-split"))))
        self.assertEqual(mechdes.run(setting, mechdes.determ(setting), ["v3_3"], 0).payments, {"buyer": 5})

    def test_answers_about_the_fairest_mechanism_are_audited_reported_and_run(self) -> None:
        # The first outcome comes only where both voters like it. With `l` a voter gets it half of the time.
        setting, path = example("welfare-vote"), stored("welfare-vote-fairest")
        for answer in (path, path.read_text(), mechdes.read(setting, path)):
            self.assertTrue(mechdes.audit(setting, answer))
            told = mechdes.report(setting, answer)
            self.assertEqual((told.value, told.types["first", "l"].gets, told.regret), (Fraction(3, 2), Fraction(1, 2), 0))
            self.assertEqual(mechdes.run(setting, answer, ["l", "r"], 0).outcome, "right")
            self.assertEqual(mechdes.draw(setting, answer, ["l", "l"]).outcome, "left")
        # Whichever of the fairest is found, the voter that gets least gets 3/4.
        found = mechdes.find_fair(setting)
        self.assertTrue(mechdes.audit(setting, found))
        told = mechdes.report(setting, found)
        self.assertEqual(min(sum(told.types[name, kind].gets for kind in "lr") / 2 for name in ("first", "second")), Fraction(3, 4))
        self.assertIn(mechdes.draw(setting, found, ["l", "r"]).outcome, ("left", "right"))

    def test_a_stored_answer_of_another_search_is_audited_reported_and_run(self) -> None:
        setting = example("two-goods")
        rule = mechdes.read(setting, stored("two-goods-rule"))
        self.assertTrue(mechdes.audit(setting, rule))
        self.assertEqual(mechdes.report(setting, rule).revenue, Fraction(7, 3))
        drawn = mechdes.run(setting, rule, ["v3_3"], 0)
        self.assertEqual((drawn.outcome, drawn.payments), ("both", {"buyer": 5}))

    def test_a_mechanism_is_judged_by_its_names(self) -> None:
        # A price of 3: who says low keeps out and pays nothing. The names do not stand in the order of the setting.
        lotteries = {("high",): {"sell": 1, "keep": 0}, ("low",): {"sell": 0, "keep": 1}}
        price = mechdes.Mechanism(lotteries, {("high",): {"buyer": 3}, ("low",): {"buyer": 0}})
        self.assertTrue(mechdes.audit(example("posted-price"), price))
        self.assertEqual(mechdes.report(example("posted-price"), price).revenue, Fraction(3, 2))
        with self.assertRaises(ValueError):
            mechdes.audit(example("auction-ironed"), price)

    def test_a_mechanism_made_by_hand_is_audited(self) -> None:
        sure = {"keep": Fraction(0), "sell": Fraction(1)}
        price = mechdes.Mechanism(
            {("low",): sure, ("high",): sure}, {("low",): {"buyer": Fraction(1, 2)}, ("high",): {"buyer": Fraction(1, 2)}}
        )
        self.assertTrue(mechdes.audit(example("posted-price"), price))
        self.assertEqual(mechdes.report(example("posted-price"), price).revenue, Fraction(1, 2))


class Telling(unittest.TestCase):
    def test_a_report(self) -> None:
        told = mechdes.report(example("posted-price"), stored("price-above-value"))
        self.assertEqual((told.value, told.revenue, told.welfare), (2, 2, Fraction(3, 2)))
        self.assertEqual(told.types["buyer", "high"], mechdes.TypeReport(gets=Fraction(-1), pays=Fraction(4)))
        self.assertEqual(told.gains, (mechdes.Worst("buyer", "high", Fraction(1), "low", ("high",)),))
        self.assertEqual(told.losses, (mechdes.Worst("buyer", "high", Fraction(1), None, ("high",)),))
        self.assertEqual((told.regret, told.admissible, told.deficit, told.tight), (1, False, None, ("rational/buyer/low",)))

    def test_a_report_of_a_deficit(self) -> None:
        told = mechdes.report(example("public-good"), stored("public-good-subsidy"))
        self.assertEqual((told.deficit, told.admissible), ((("low", "low"), Fraction(-2)), False))

    def test_a_report_of_an_auction(self) -> None:
        told = mechdes.report(example("auction-ironed"), stored("auction-ironed-answer"))
        # 3/8 of the cases at 3, less 6/8: what a bidder with 3 keeps.
        self.assertEqual(told.types[3], mechdes.TypeReport(gets=Fraction(3, 8), pays=Fraction(6, 8)))
        self.assertEqual((told.revenue, told.welfare, told.regret), (3, Fraction(63, 16), 0))
        self.assertIn("truth/3/2", told.tight)

    def test_a_report_of_an_auction_of_ones_own(self) -> None:
        # The page own-auction.md: the highest bid wins and pays itself.
        auction, odds = example("auction-reserve"), {value: Fraction(2 * value - 1, 10) for value in range(1, 6)}
        table = mechdes.AuctionTable(odds=odds, pays={value: value * odds[value] for value in (5, 4, 3, 2, 1)})
        self.assertEqual(table.text(), text("own-first-price.csv"))
        self.assertEqual(mechdes.read(auction, stored("own-first-price")), table)
        for given in (table, stored("own-first-price"), table.text()):
            told = mechdes.report(auction, given)
            self.assertEqual((told.value, told.revenue, told.welfare), 3 * (Fraction(19, 5),))
            self.assertEqual(told.types[5], mechdes.TypeReport(gets=Fraction(0), pays=Fraction(9, 2)))
            self.assertEqual(told.gains, (mechdes.Worst(None, 5, Fraction(1), 3),))
            self.assertEqual((told.regret, told.losses[0].amount, told.admissible, bool(told)), (1, 0, False, True))
            self.assertEqual(told.tight, tuple(f"rational/{value}" for value in range(1, 6)))

    def test_odds_that_no_auction_has(self) -> None:
        # The same page: the values 4 and 5 ask for one profile more than there are.
        auction = mechdes.read_setting(example("auction-reserve"))
        tenths = dict(zip(auction.values, (Fraction(number, 10) for number in (1, 3, 4, 8, 9)), strict=True))
        table = mechdes.AuctionTable(odds=tenths, pays=dict.fromkeys(auction.values, Fraction(0)))
        for given in (table, stored("own-too-often")):
            told = mechdes.report(auction, given)
            self.assertIs(type(told), mechdes.Violated)
            self.assertEqual((bool(told), told.values, told.excess, told.denominator), (False, frozenset({4, 5}), 1, 10))

    def test_tables_of_other_values_are_refused(self) -> None:
        half = Fraction(1, 2)
        for odds, pays in (
            ({2: half, 3: half}, {2: 1, 3: 1}),
            ({2: half, 3: half, 6: half}, {2: 1, 3: 1}),
            ({2: half, 3: half, 6: half, 7: half}, {2: 1, 3: 1, 6: 1, 7: 1}),
        ):
            with self.subTest(odds, pays=pays), self.assertRaisesRegex(ValueError, "are wanted, not"):
                mechdes.report(example("auction-ironed"), mechdes.AuctionTable(odds=odds, pays=pays))
        table = mechdes.AuctionTable(odds={2: half, 3: half, 6: half}, pays={2: 1, 3: 1, 6: 1})
        with self.assertRaisesRegex(ValueError, "is one of an auction"):
            mechdes.report(example("posted-price"), table)
        with self.assertRaises(TypeError):
            mechdes.AuctionTable(odds={2: 0.5}, pays={2: 1})

    def test_a_report_of_several_units(self) -> None:
        # The page seats.md: a fan with 3 has a seat in 131 of 135 cases, and pays 302/135.
        setting, path = example("seats"), stored("seats-three")
        answer = mechdes.read(setting, path, units=3)
        for given, units in ((answer, None), (answer, 3), (mechdes.read(setting, path), 3), (path, 3), (path.read_text(), 3)):
            told = mechdes.report(setting, given, units)
            self.assertEqual((told.value, told.revenue, told.welfare), (Fraction(484, 81), Fraction(484, 81), Fraction(575, 81)))
            self.assertEqual(told.types[3], mechdes.TypeReport(gets=Fraction(91, 135), pays=Fraction(302, 135)))
            self.assertEqual((told.admissible, told.tight[-2:]), (True, ("cut/4", "cut/6")))

    def test_a_report_of_a_sale(self) -> None:
        # The page strong-and-weak.md: the strong bidder with 6 always has the item, and pays 5.
        setting, path = example("strong-and-weak"), stored("strong-and-weak-by-hand")
        for given in (mechdes.read(setting, path), path, path.read_text()):
            told = mechdes.report(setting, given)
            self.assertEqual((told.value, told.revenue, told.welfare), (Fraction(17, 4), Fraction(17, 4), Fraction(19, 4)))
            self.assertEqual(told.types["strong", "v6"], mechdes.TypeReport(gets=Fraction(1), pays=Fraction(5)))
            self.assertEqual(told.gains, (mechdes.Worst("weak", "v3", 0, "v2"), mechdes.Worst("strong", "v6", 0, "v4")))
            self.assertEqual((told.admissible, told.tight[-4:]), (True, ("rational/strong/v4", "cut/8", "cut/10", "cut/15")))

    def test_a_run(self) -> None:
        setting, answer = example("class-trip"), stored("class-trip-answer")
        for profile, first, outcome in (
            (["museum_too", "zoo_only"], 3, "zoo"),
            (["museum_too", "zoo_only"], 0, "lake"),
            (["lake_only", "museum_too"], 5, "museum"),
        ):
            self.assertEqual(mechdes.run(setting, answer, profile, first), mechdes.Draw(outcome, {}))

    def test_an_auction_is_drawn_to_each_bidder_as_often_as_the_other(self) -> None:
        setting = example("auction-ironed")
        answer = mechdes.solve(setting)
        first = [mechdes.run(setting, answer, [3, 3], draw, second).winner for draw in range(8) for second in (0, 1)]
        self.assertEqual(sorted(first), 8 * [1] + 8 * [2])
        drawn = mechdes.draw(setting, answer, [6, 2], random.Random(1))
        self.assertEqual((drawn.winner, drawn.payments), (1, {1: Fraction(30, 8), 2: Fraction(6, 8)}))

    def test_an_auction_in_which_only_winners_pay(self) -> None:
        told = mechdes.threshold(example("used-car"), 1)
        self.assertEqual((told.units, told.value, told.revenue, told.welfare), (1, Fraction(47125, 8), Fraction(46875, 8), 6375))
        self.assertEqual((told.reserve, told.pools), (5000, ((5000, 5000), (6000, 6000), (7000, 7000))))
        prices = {(price.pool, price.other, price.count): price.price for price in told.prices}
        self.assertEqual((len(prices), prices[2, None, 0], prices[2, 1, 2]), (15, 5000, Fraction(20000, 3)))
        several = mechdes.threshold(example("seats"), 3)
        self.assertEqual((several.value, several.pools, several.prices), (Fraction(484, 81), ((2, 2), (3, 3)), ()))
        nothing = mechdes.threshold(mechdes.Auction(bidders=2, values=[1, 2], weights=[1, 1], keep=5), 2)
        self.assertEqual((nothing.value, nothing.reserve, nothing.pools, nothing.prices), (10, None, (), ()))

    def test_units_are_awarded(self) -> None:
        bids = [3, 2, 2, 1, 2]
        found = [mechdes.award(example("seats"), 3, bids, draw) for draw in range(3)]
        self.assertEqual([told.winners for told in found], [(1, 2, 3), (1, 3, 5), (1, 2, 5)])
        first = found[0]
        self.assertEqual(first.chances, {1: 1, 2: Fraction(2, 3), 3: Fraction(2, 3), 4: 0, 5: Fraction(2, 3)})
        self.assertEqual((first.prices, first.draws), ({1: Fraction(9, 4), 2: 2, 3: 2, 5: 2}, 3))
        self.assertEqual(found[1].payments, {1: Fraction(9, 4), 2: 0, 3: 2, 4: 0, 5: 2})
        nobody = mechdes.award(example("used-car"), 1, [4000, 4000, 4000])
        self.assertEqual((nobody.winners, nobody.prices, nobody.draws, set(nobody.payments.values())), ((), {}, 1, {0}))

    def test_several_units_are_drawn(self) -> None:
        # The page seats.md: each fan with 2 has a seat at half of the draws.
        setting, path, bids = example("seats"), stored("seats-three"), [2, 2, 2, 2, 3]
        answer = mechdes.read(setting, path, units=3)
        self.assertEqual(answer.mechanism.draws(bids), 18711000)
        paid = {**dict.fromkeys(range(1, 5), Fraction(182, 135)), 5: Fraction(302, 135)}
        for first, winners in ((0, (1, 3, 5)), (9355499, (1, 3, 5)), (9355500, (2, 4, 5)), (18710999, (2, 4, 5))):
            for given, units in ((answer, None), (path, 3)):
                told = mechdes.run(setting, given, bids, first, units=units)
                self.assertEqual(told, mechdes.UnitsDraw(winners, paid, 135))
        for given, units in ((answer, None), (answer, 3), (path, 3)):
            drawn = mechdes.draw(setting, given, bids, units=units)
            self.assertEqual((drawn.winners in ((1, 3, 5), (2, 4, 5)), drawn.payments), (True, paid))
        nobody = mechdes.draw(setting, answer, [1, 1, 1, 1, 1], random.Random(1))
        self.assertEqual((nobody.winners, set(nobody.payments.values())), ((), {0}))

    def test_one_unit_is_drawn_as_several_are(self) -> None:
        auction, printed = example("auction-ironed"), text("auction-ironed-answer.csv")
        answer = mechdes.read(auction, printed.replace("answer,1,auction", "answer,1,units"), units=1)
        draws = answer.mechanism.draws([3, 3])
        self.assertEqual(draws, 27720 * mechdes.solve(auction).mechanism.draws([3, 3]))
        self.assertEqual([mechdes.run(auction, answer, [3, 3], draw).winners for draw in (0, draws // 2)], [(1,), (2,)])
        with self.assertRaises(mechdes.WordRefused):
            mechdes.run(auction, answer, [3, 3], draws)

    def test_a_sale_is_drawn(self) -> None:
        # The page strong-and-weak.md: the weak bidder has the item with 3 where the strong one has 4, and never else.
        setting, path = example("strong-and-weak"), stored("strong-and-weak-by-hand")
        answer = mechdes.read(setting, path)
        for profile, outcome in ((["v3", "v4"], "weak"), (["v2", "v4"], "strong"), (["v3", "v6"], "strong")):
            self.assertEqual(answer.mechanism.draws(profile), 2)
            drawn = [mechdes.run(setting, path, profile, first) for first in (0, 1)] + [mechdes.draw(setting, answer, profile)]
            self.assertEqual([told.outcome for told in drawn], 3 * [outcome])
        self.assertEqual(drawn[0].payments, {"weak": Fraction(3, 2), "strong": 5})
        with self.assertRaisesRegex(ValueError, "no profile of these agents"):
            mechdes.draw(setting, answer, ["v2", "v3"])

    def test_an_item_that_is_sometimes_kept_is_drawn(self) -> None:
        sale = example("strong-and-weak")
        told = "answer,1,asym,optimal\nvalue,0,1\ninterim,2\nodds,weak,0,0\nodds,strong,0,0\npays,weak,0,0\npays,strong,0,0\n"
        told += "mass,v2,v4,0,1\nmass,v2,v6,0,0\nmass,v3,v4,0,0\nmass,v3,v6,0,0\nbound,1\nend\n"
        self.assertEqual([mechdes.run(sale, told, ["v2", "v4"], draw).outcome for draw in (0, 1)], ["strong", "keep"])

    def test_the_number_of_units_is_that_of_the_answer(self) -> None:
        setting, path, bids = example("seats"), stored("seats-three"), [2, 2, 2, 2, 3]
        answer = mechdes.read(setting, path, units=3)
        for call in (
            lambda: mechdes.run(setting, answer, bids, 0, units=2),
            lambda: mechdes.draw(setting, answer, bids, units=2),
            lambda: mechdes.report(setting, answer, 2),
        ):
            with self.assertRaisesRegex(ValueError, "about 3 units, not 2"):
                call()

    def test_the_program_of_an_auction(self) -> None:
        auction = mechdes.Auction(bidders=1, values=[1, 3], weights=[1, 1], keep=2)
        program = mechdes.rows(auction)
        self.assertEqual((program.columns, len(program.rows)), (6, 6))
        self.assertEqual(program.cost, {0: -2, 1: -2, 2: 1, 3: 1, 4: -1, 5: -1})
        self.assertEqual(program.rows[1], mechdes.Row("truth/3/1", False, 0, {0: 3, 1: -3, 2: -1, 3: 1, 4: 1, 5: -1}))

    @needs_library
    def test_pivots(self) -> None:
        setting = example("too-wide")
        wide = mechdes.read(setting, stored("too-wide-answer")).paths[0]
        replayed = mechdes.replay(setting, wide.pivots)
        self.assertFalse(replayed)
        self.assertEqual(
            (replayed.wide.entry, replayed.forward, len(replayed.bases)), (wide.entry, len(wide.pivots), len(wide.pivots))
        )
        self.assertTrue(mechdes.replay(setting, []))

    @needs_library
    def test_odds(self) -> None:
        setting = example("two-bidders")
        violated = mechdes.realise(setting, stored("two-bidders-odds-too-often"))
        self.assertFalse(violated)
        self.assertEqual((violated.values, violated.excess), (frozenset(mechdes.read_setting(setting).values[1:]), 1))
        realised = mechdes.realise(setting, stored("two-bidders-odds-by-value"))
        self.assertTrue(realised)
        self.assertEqual(list(realised.masses[0, 1, 1].values()), [0, 0, 2])
        auction = mechdes.read_setting(setting)
        mapped = mechdes.realise(auction, {value: Fraction(1, 2) for value in auction.values})
        self.assertTrue(mapped)


class TableParts(unittest.TestCase):
    def table(self, value: Any) -> tuple[list[dict[str, Any]], list[Any], list[str]]:
        with unittest.mock.patch.dict(sys.modules, pandas=Recorder("pandas")):
            return value.to_pandas()

    def test_what_tables_are_made_of(self) -> None:
        rows, keys, names = self.table(mechdes.read(example("divorce"), stored("divorce-answer")))
        self.assertEqual(names, ["husband", "wife"])
        self.assertEqual(rows[keys.index(("much", "much"))]["burn"], Fraction(5, 11))
        rows, keys, names = self.table(mechdes.read(example("posted-price"), stored("posted-price-answer")))
        self.assertEqual((rows[1], keys, names), ({"keep": 0, "sell": 1, "pays buyer": 3}, ["low", "high"], ["buyer"]))
        rows, keys, names = self.table(mechdes.read(example("auction-ironed"), stored("auction-ironed-answer")))
        self.assertEqual((rows[2], keys[2], names), ({"weight": 1, "odds": Fraction(7, 8), "pays": Fraction(15, 4)}, 6, ["value"]))
        told = mechdes.report(example("posted-price"), stored("posted-price-answer"))
        self.assertEqual(self.table(told), ([{"gets": 0, "pays": 0}, {"gets": 0, "pays": 3}], list(told.types), ["agent", "type"]))
        rows, keys, names = self.table(mechdes.award(example("auction-ironed"), 1, [6, 2]))
        self.assertEqual(rows, [{"chance": 1, "price": 4, "wins": True}, {"chance": 0, "price": None, "wins": False}])
        self.assertEqual((keys, names), ([1, 2], ["bidder"]))
        rows, keys, names = self.table(mechdes.frontier(example("posted-price")))
        self.assertEqual([row["welfare"] for row in rows], [Fraction(3, 2), 2])

    def test_without_pandas_an_import_error_says_so(self) -> None:
        with unittest.mock.patch.dict(sys.modules, pandas=None), self.assertRaises(ImportError):
            mechdes.read(example("posted-price"), stored("posted-price-answer")).to_pandas()


class Tables(unittest.TestCase):
    def setUp(self) -> None:
        if importlib.util.find_spec("pandas") is None:
            self.skipTest("pandas is not there")

    def test_a_table_has_names_and_exact_numbers(self) -> None:
        table = mechdes.solve(example("divorce")).to_pandas()
        self.assertEqual(table.index.names, ["husband", "wife"])
        self.assertEqual(table.loc[("much", "much"), "burn"], Fraction(5, 11))
        table = mechdes.solve(example("posted-price")).to_pandas()
        self.assertEqual((table.loc["high", "sell"], table.loc["high", "pays buyer"]), (1, 3))
        table = mechdes.award(example("auction-ironed"), 1, [2, 3], 1).to_pandas()
        self.assertEqual((table.index.name, list(table["wins"])), ("bidder", [False, True]))
        self.assertEqual(list(table["chance"]), 2 * [Fraction(1, 2)])

    @needs_library
    def test_other_tables(self) -> None:
        auction = example("auction-ironed")
        answer = mechdes.solve(auction)
        self.assertEqual(answer.to_pandas().loc[6].to_dict(), {"weight": 1, "odds": Fraction(7, 8), "pays": Fraction(15, 4)})
        self.assertEqual(mechdes.report(auction, answer).to_pandas().loc[3, "gets"], Fraction(3, 8))
        self.assertEqual(mechdes.asym(example("strong-and-weak")).to_pandas().loc[("strong", "v6"), "pays"], 5)
        self.assertEqual(list(mechdes.frontier(example("posted-price")).to_pandas()["welfare"]), [Fraction(3, 2), 2])


class Refused(unittest.TestCase):
    def refuses(self, kind: type[mechdes.Refused], status: int, line: str, call: Callable[[], object]) -> None:
        with self.assertRaises(kind) as caught:
            call()
        self.assertEqual((caught.exception.status, caught.exception.message), (status, line))
        again = pickle.loads(pickle.dumps(caught.exception))
        self.assertEqual((type(again), again.status, again.message), (kind, status, line))

    def test_each_status_is_an_exception_of_its_own(self) -> None:
        setting, answer = example("posted-price"), stored("posted-price-answer")
        self.refuses(mechdes.SettingRefused, 65, "setting refused: missing format", lambda: mechdes.solve("x = 1\n"))
        self.refuses(mechdes.AnswerRefused, 66, "answer refused: line 1: record", lambda: mechdes.check(setting, setting))
        self.refuses(
            mechdes.AnswerRefused,
            66,
            "answer refused: line 1: field 3",
            lambda: mechdes.check(example("fair-split"), stored("auction-reserve-answer")),
        )
        fair, line = example("fair-split"), "answer refused: no table"
        for command in (mechdes.audit, mechdes.report):
            self.refuses(mechdes.AnswerRefused, 66, line, lambda: command(fair, "answer,1,fair,infeasible\nend\n"))
        own, line = mechdes.read(example("auction-reserve"), stored("own-first-price")), "answer refused: line 1: field 4"
        self.refuses(mechdes.AnswerRefused, 66, line, lambda: mechdes.check(example("auction-reserve"), own))
        self.refuses(mechdes.AnswerRefused, 66, line, lambda: mechdes.run(example("auction-reserve"), own, [1, 2], 0))
        self.refuses(mechdes.AnswerRefused, 66, line, lambda: mechdes.draw(example("auction-reserve"), own, [1, 2]))
        seats, three, bids = example("seats"), stored("seats-three"), [2, 2, 2, 2, 3]
        for number in (0, 13):
            self.refuses(mechdes.WordRefused, 67, "number refused", lambda: mechdes.run(seats, three, bids, 0, units=number))
            self.refuses(mechdes.WordRefused, 67, "number refused", lambda: mechdes.report(seats, three, number))
        self.refuses(mechdes.WordRefused, 67, "draw refused", lambda: mechdes.run(seats, three, bids, 18711000, units=3))
        self.refuses(mechdes.WordRefused, 67, "draw refused", lambda: mechdes.run(seats, three, bids, 0, 1, units=3))
        self.refuses(mechdes.WordRefused, 67, "profile refused", lambda: mechdes.run(seats, three, bids[1:], 0, units=3))
        self.refuses(mechdes.AnswerRefused, 66, "answer refused: line 6: sum", lambda: mechdes.report(seats, three, 2))
        self.refuses(mechdes.SettingRefused, 65, "setting refused: other kind", lambda: mechdes.report(setting, three, 3))
        line = "answer refused: line 1: field 3"
        self.refuses(mechdes.AnswerRefused, 66, line, lambda: mechdes.run(seats, three, bids, 0))
        self.refuses(mechdes.AnswerRefused, 66, line, lambda: mechdes.draw(seats, three, bids))
        self.refuses(mechdes.AnswerRefused, 66, line, lambda: mechdes.report(seats, three))
        by_hand = stored("strong-and-weak-by-hand")
        self.refuses(mechdes.AnswerRefused, 66, line, lambda: mechdes.run(fair, by_hand, ["needs", "any"], 0))
        self.refuses(mechdes.AnswerRefused, 66, line, lambda: mechdes.report(fair, by_hand))
        sale = example("strong-and-weak")
        self.refuses(mechdes.WordRefused, 67, "draw refused", lambda: mechdes.run(sale, by_hand, ["v2", "v6"], 2))
        self.refuses(mechdes.WordRefused, 67, "profile refused", lambda: mechdes.run(sale, by_hand, ["v2", "v3"], 0))
        self.refuses(mechdes.WordRefused, 67, "profile refused", lambda: mechdes.run(setting, answer, ["middle"], 0))
        self.refuses(mechdes.WordRefused, 67, "draw refused", lambda: mechdes.run(setting, answer, ["low"], -1))
        auction, line = example("auction-ironed"), "setting refused: other kind"
        self.refuses(mechdes.SettingRefused, 65, line, lambda: mechdes.find(auction))
        self.refuses(mechdes.SettingRefused, 65, line, lambda: mechdes.find_fair(auction))
        self.refuses(mechdes.SettingRefused, 65, line, lambda: mechdes.threshold(setting, 1))
        self.refuses(mechdes.WordRefused, 67, "number refused", lambda: mechdes.threshold(auction, 13))
        self.refuses(mechdes.WordRefused, 67, "profile refused", lambda: mechdes.award(auction, 1, [2, 4]))
        self.refuses(mechdes.WordRefused, 67, "draw refused", lambda: mechdes.award(auction, 1, [2, 3], 2))
        self.refuses(mechdes.WordRefused, 67, "draw refused", lambda: mechdes.award(auction, 1, [2, 3], -1))

    @needs_library
    def test_refusals_of_further_commands(self) -> None:
        setting = example("posted-price")
        self.refuses(mechdes.SettingRefused, 65, "setting refused: other kind", lambda: mechdes.fair(example("auction-ironed")))
        self.refuses(mechdes.SettingRefused, 65, "setting refused: not a sale", lambda: mechdes.asym(setting))
        self.refuses(mechdes.WordRefused, 67, "number refused", lambda: mechdes.make(-1))
        self.refuses(mechdes.WordRefused, 67, "number refused", lambda: mechdes.units(example("seats"), 13))
        seats, three = example("seats"), stored("seats-three")
        self.refuses(mechdes.WordRefused, 67, "number refused", lambda: mechdes.check(seats, three, 0))
        self.refuses(mechdes.WordRefused, 67, "pivot 1 refused", lambda: mechdes.replay(setting, [(0, 99)]))
        self.refuses(mechdes.UsageRefused, 64, "usage", lambda: mechdes.solve(setting, width=63))

    def test_the_reason_of_a_refusal(self) -> None:
        auction = mechdes.Auction(bidders=2, values=[1, 2], weights=[1, 0])
        with self.assertRaises(mechdes.SettingRefused) as caught:
            mechdes.solve(auction)
        self.assertEqual(caught.exception.reason, "zero weight")


class Ready:
    """A library that keeps the questions, and has one answer to all."""

    def __init__(self, reply: mechdes.Reply) -> None:
        self.asked: list[tuple[list[str], bytes, bytes]] = []
        self.reply = reply

    def call(self, words: Sequence[str], setting: bytes = b"", second: bytes = b"") -> mechdes.Reply:
        self.asked.append((list(words), setting, second))
        return self.reply


class Wiring(unittest.TestCase):
    """What each command asks of the library, told by one that keeps the question and has the answer ready."""

    def told(self, reply: mechdes.Reply, command: Callable[..., Any], *words: Any) -> tuple[Any, Any]:
        """What a command makes of a reply, and what it asked."""
        ready = Ready(reply)
        with calling(ready):
            found = command(*words)
        (question,) = ready.asked
        return found, question

    def test_questions_and_answers(self) -> None:
        auction, sale, goods = (example(name).read_bytes() for name in ("seats", "strong-and-weak", "two-goods"))
        rule, fairest, by_hand = map(text, ("two-goods-rule.csv", "fair-split-fairest.csv", "strong-and-weak-by-hand.csv"))
        seats = text("seats-three.csv")
        wide = "cut,1\nwide,0,0,9,1\nagain\nwide,0,0,9,1\nend\n"
        split, drilled = example("fair-split").read_bytes(), "drill,2,general,optimal,91,4\ncheck,valid\n"
        for status, printed, command, words, kind, question in (
            (0, rule, mechdes.determ, [goods], mechdes.Rule, (["determ", "setting", "--width", "62"], goods, b"")),
            (0, fairest, mechdes.fair, [split, 30], mechdes.Fairest, (["fair", "setting", "--width", "30"], split, b"")),
            (
                12,
                f"answer,1,asym,toowide\n{wide}",
                mechdes.asym,
                [sale],
                mechdes.TooWide,
                (["asym", "setting", "--width", "62"], sale, b""),
            ),
            (
                12,
                f"answer,1,units,toowide\n{wide}",
                mechdes.units,
                [auction, 3],
                mechdes.TooWide,
                (["units", "--width", "62", "--", "setting", "3"], auction, b""),
            ),
            (
                0,
                text("seats-threshold.csv"),
                mechdes.threshold,
                [auction, 3],
                mechdes.Threshold,
                (["threshold", "--", "setting", "3"], auction, b""),
            ),
            (
                0,
                "chance,1,1,1\nprice,1,2,1\nwins,1\nend\n",
                mechdes.award,
                [auction, 3, [2, 1], -1],
                mechdes.Award,
                (["award", "--", "setting", "3", "2,1", "-1"], auction, b""),
            ),
            (22, "undecided\n", mechdes.iron, [auction], mechdes.Undecided, (["iron", "setting"], auction, b"")),
            (22, "undecided\n", mechdes.iron_units, [auction, 3], mechdes.Undecided, (["ironunits", "--", "setting", "3"], auction, b"")),
            (22, "undecided\n", mechdes.find, [goods], mechdes.Undecided, (["find", "setting"], goods, b"")),
            (22, "undecided\n", mechdes.find_fair, [goods], mechdes.Undecided, (["findfair", "setting"], goods, b"")),
            (0, fairest, mechdes.find_fair, [split], mechdes.Fairest, (["findfair", "setting"], split, b"")),
            (
                20,
                "rejected,2,4,5\n",
                mechdes.check,
                [split, fairest],
                mechdes.Verdict,
                (["check", "setting", "answer"], split, fairest.encode()),
            ),
            (
                20,
                "rejected,9,1,1,2\n",
                mechdes.check,
                [sale, by_hand],
                mechdes.Verdict,
                (["check", "setting", "answer"], sale, by_hand.encode()),
            ),
            (
                20,
                "rejected,9,1,3,4\n",
                mechdes.check,
                [auction, "answer,1,units,toowide\n", 2],
                mechdes.Verdict,
                (["check", "--units=2", "setting", "answer"], auction, b"answer,1,units,toowide\n"),
            ),
            (
                20,
                "rejected,16\n",
                mechdes.determcheck,
                [goods, rule],
                mechdes.Verdict,
                (["determcheck", "setting", "answer"], goods, rule.encode()),
            ),
            (
                0,
                "basis,0,1,3\nrule,1\nagain,0\nend\n",
                mechdes.replay,
                [goods, [(1, 2)]],
                mechdes.Replay,
                (["replay", "setting", "pivots", "--width", "62"], goods, b"pivot,1,2\nend\n"),
            ),
            (
                21,
                "violated,6,1,2\n",
                mechdes.realise,
                [auction, {1: 0, 2: Fraction(1, 2), 3: Fraction(2, 3)}],
                mechdes.Violated,
                (["realise", "setting", "odds"], auction, b"interim,6\nodds,0,3,4\nend\n"),
            ),
            (
                0,
                "outcome,weak\npays,2,3,4\n",
                mechdes.run,
                [sale, by_hand, ["v3", "v4"], 1],
                mechdes.Draw,
                (["run", "--", "setting", "answer", "v3,v4", "1", "0"], sale, by_hand.encode()),
            ),
            (
                0,
                "wins,5\npays,1,1,1,1,1,1\n",
                functools.partial(mechdes.run, units=3),
                [auction, seats, [2, 2, 2, 2, 3], -1],
                mechdes.UnitsDraw,
                (["run", "--units=3", "--", "setting", "answer", "2,2,2,2,3", "-1", "0"], auction, seats.encode()),
            ),
            (
                0,
                "value,1,1\nrevenue,1,1\nwelfare,1,1\ntype,1,0,1,0,1\ntype,2,0,1,0,1\ntype,3,0,1,0,1\nend\n",
                mechdes.report,
                [auction, seats, -3],
                mechdes.Report,
                (["report", "--units=-3", "setting", "answer"], auction, seats.encode()),
            ),
            (0, auction.decode(), mechdes.make, [1], mechdes.Auction, (["make", "--", "1"], b"", b"")),
            (0, drilled, mechdes.drill, [2], mechdes.Drill, (["drill", "--", "2"], b"", b"")),
        ):
            with self.subTest(question[0]):
                found, asked = self.told(mechdes.Reply(status, printed.encode(), b""), command, *words)
                self.assertIs(type(found), kind)
                self.assertEqual(asked, question)

    def test_each_status_has_its_exception(self) -> None:
        for status, kind in (
            (64, mechdes.UsageRefused),
            (65, mechdes.SettingRefused),
            (66, mechdes.AnswerRefused),
            (67, mechdes.WordRefused),
            (72, mechdes.OutOfMemory),
            (99, mechdes.Refused),
        ):
            with self.subTest(status), self.assertRaises(kind) as caught:
                self.told(mechdes.Reply(status, b"", b"mechdes: setting refused: zero weight\n"), mechdes.solve, "x = 1\n")
            self.assertIs(type(caught.exception), kind)
            self.assertEqual((caught.exception.status, caught.exception.reason), (status, "zero weight"))

    def test_an_answer_of_another_command_is_refused_by_its_name(self) -> None:
        fairest = text("fair-split-fairest.csv")
        infeasible = "answer,1,fair,infeasible\nrow,0,1\nend\n"
        for status, printed, named in ((0, fairest, "fair, Fairest"), (10, infeasible, "fair, Infeasible")):
            reply = mechdes.Reply(status, printed.encode(), b"")
            for command in (mechdes.solve, mechdes.find):
                refused = f"{command.__name__} does not give: {named}"
                with self.subTest(refused), self.assertRaisesRegex(mechdes.AnswerNotRead, refused):
                    self.told(reply, command, example("fair-split"))


if __name__ == "__main__":
    unittest.main()
