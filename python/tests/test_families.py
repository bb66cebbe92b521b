"""Families of settings, by what is known of them in closed form or worked out by hand."""

import dataclasses
import itertools
import math
import unittest
import unittest.mock
from collections.abc import Iterator
from fractions import Fraction

import mechdes
from mechdes import families

from .common import needs_library
from .stand_in import Refused as RefusedBySecondOpinion
from .stand_in import setting as second_opinion

THREE = ["a", "b", "c"]


def proved(setting: mechdes.Setting) -> Fraction:
    """The value of the best mechanism, which the checker finds valid."""
    answer = mechdes.find(setting).best()
    assert mechdes.check(setting, answer)
    return answer.value


def pairs(*values: int) -> list[tuple[int, int]]:
    """Two goods, each with these values."""
    return list(itertools.product(values, repeat=2))


class Goods(unittest.TestCase):
    def test_two_goods_of_its_page(self) -> None:
        setting = families.goods([[(1, 0), (0, 2), (3, 3)]])
        self.assertEqual(setting.outcomes, ("0_0", "0_1", "1_0", "1_1"))
        (buyer,) = setting.agents
        self.assertEqual((buyer.types, buyer.weights), (("v1_0", "v0_2", "v3_3"), (1, 1, 1)))
        self.assertEqual(buyer.utility, ((0, 0, 1, 1), (0, 2, 0, 2), (0, 3, 3, 6)))
        self.assertEqual(proved(setting), Fraction(5, 2))

    def test_separate_prices_bundles_and_both(self) -> None:
        # Hart and Nisan, of two goods with the same values, all as likely. 0 and 1: the price 1 for each takes all that there is.
        # 1 and 2: both for 3 sells three times of four, and separate prices bring 2. 0, 1 and 2: one for 2 and both for 3 bring
        # 13/9, and neither separate prices nor a bundle more than 4/3.
        for values, best in (((0, 1), 1), ((1, 2), Fraction(9, 4)), ((0, 1, 2), Fraction(13, 9))):
            with self.subTest(values):
                self.assertEqual(proved(families.goods([pairs(*values)])), best)

    def test_one_good_for_two_buyers(self) -> None:
        # Myerson: 3 has the virtual value 3, and 1 has 1 - 2 = -1. Somebody has 3 in three of four cases.
        setting = families.goods([[[1], [3]], [[1], [3]]])
        self.assertEqual(setting.outcomes, ("0", "1", "2"))
        self.assertEqual(proved(setting), Fraction(9, 4))
        # Where 3 comes once in four times, 1 has 1 - 2/3 = 1/3: 7/16 * 3 + 9/16 * 1/3.
        self.assertEqual(proved(families.goods([[[1], [3]], [[1], [3]]], [[3, 1], ["0.75", "0.25"]])), Fraction(3, 2))


class Slots(unittest.TestCase):
    def test_slots_go_by_virtual_values(self) -> None:
        # 3 has the virtual value 3, and 1 has -1. Two have 3 once in four times, which is worth 3 * 3/2, and one of two in half.
        setting = families.slots([[1, 3], [1, 3]], [1, "0.5"])
        self.assertEqual((setting.outcomes, setting.scale), (("none", "1", "2", "1_2", "2_1"), 2))
        self.assertEqual(setting.agents[1].utility[1], (0, 0, 3, Fraction(3, 2), 3))
        self.assertEqual(proved(setting), Fraction(21, 8))

    def test_rates_fall(self) -> None:
        for rates in (["0.5", 1], [1, -1]):
            with self.subTest(rates), self.assertRaisesRegex(ValueError, "slots: the rates fall"):
                families.slots([[1, 3]], rates)


class PublicProject(unittest.TestCase):
    def test_what_truth_costs_where_the_agents_bear_the_cost(self) -> None:
        # The cost is 4. Let the project be built at (4,4), and with the chance q at (1,4) and (4,1). A low agent bears q of 4q at
        # most, so that a high one at (4,4) would keep 3q by reporting 1, and must keep as much by the truth: 8 - 4 >= 6q. So q is
        # 2/3 at most, and the value 4/4 + 2/3 * 1/4 * 2. Building whenever it is worth its cost would bring 3/2.
        setting = families.public_project([[1, 4], [1, 4]], 4)
        self.assertEqual(setting.outcomes, ("leave", "build"))
        self.assertEqual(proved(setting), Fraction(4, 3))
        # The same in other units, whose shares are fractions.
        self.assertEqual(proved(families.public_project([["0.1", "0.4"]] * 2, "0.4")), Fraction(2, 15))

    def test_one_agent_decides_for_itself(self) -> None:
        # Of 1, 2 and 6 with a cost of 3 only the last builds, and has 3 more.
        self.assertEqual(proved(families.public_project([[1, 2, 6]], 3)), 1)


class BilateralTrade(unittest.TestCase):
    def test_efficient_trade_is_out_of_reach(self) -> None:
        # Myerson and Satterthwaite, on the page bilateral-trade.md: 5/3 of 7/4.
        setting = families.bilateral_trade([1, 5], [2, 6])
        self.assertEqual((setting.truth, setting.rational, setting.no_deficit), ("bayes", "interim", True))
        self.assertEqual(proved(setting), Fraction(5, 3))
        self.assertEqual(proved(families.bilateral_trade(["0.1", "0.5"], ["0.2", "0.6"])), Fraction(1, 6))
        # Without the budget all of it can be had.
        self.assertEqual(proved(dataclasses.replace(setting, no_deficit=False)), Fraction(7, 4))

    def test_dominant_truth_costs_more(self) -> None:
        # Let p, q and r be the chances of trade at (1,2), (1,6) and (5,6). At (1,6) the seller must have q + 4r, or it would report
        # 5; and the buyer pays 6q - 4p at most, or it would report 2. So 4p + 4r <= 5q <= 5, and the value (p + 5q + r)/4 is 25/16
        # at most.
        self.assertEqual(proved(families.bilateral_trade([1, 5], [2, 6], truth="dominant")), Fraction(25, 16))


class Voting(unittest.TestCase):
    def test_the_majority_decides_between_two(self) -> None:
        # Of three voters, all agree once in four times, and else two do: (3 + 3 * 2)/4.
        setting = families.voting(3, ["left", "right"])
        self.assertEqual(setting.agents[0].types, ("left_right", "right_left"))
        self.assertEqual(proved(setting), Fraction(9, 4))

    def rule(self, setting: mechdes.Setting, winner: dict[tuple[str, ...], str]) -> mechdes.Mechanism:
        """The mechanism by which a winner comes at each profile."""
        names = setting.outcomes
        return mechdes.Mechanism({profile: {name: Fraction(name == won) for name in names} for profile, won in winner.items()})

    def test_a_dictator_is_truthful_and_counting_is_not(self) -> None:
        setting = families.voting(2, THREE)
        dictator = self.rule(setting, {profile: profile[0][0] for profile in setting.profiles()})
        self.assertTrue(mechdes.audit(setting, dictator))
        # The dictator has 2, and the other one 1 on average.
        self.assertEqual(mechdes.report(setting, dictator).value, 3)

        def count(profile: tuple[str, ...], name: str) -> int:
            return -sum(ranking.split("_").index(name) for ranking in profile)

        counted = {profile: max(THREE, key=lambda name: count(profile, name)) for profile in setting.profiles()}
        self.assertFalse(mechdes.audit(setting, self.rule(setting, counted)))

    @needs_library
    def test_the_best_rule_without_lots_is_a_dictator(self) -> None:
        # Gibbard and Satterthwaite: a truthful rule is a dictator's, or has two winners at most. Between two of three the majority,
        # and the first of them where there is none, has (10/3 + 2)/2 = 8/3.
        setting = families.voting(2, THREE)
        self.assertEqual(mechdes.determ(setting).best().value, 3)

    def test_scores_and_weights(self) -> None:
        # One voter, who likes b best three times of four.
        setting = families.voting(1, ["a", "b"], scores=["1.5", 0], weights=[[1, 3]])
        self.assertEqual((setting.scale, proved(setting)), (2, Fraction(3, 2)))
        self.assertEqual(proved(setting.with_objective(mechdes.Objective(value=[0, 1]))), 1)
        with self.assertRaisesRegex(ValueError, "2 alternatives and 1 scores"):
            families.voting(1, ["a", "b"], scores=[1])


class Assignment(unittest.TestCase):
    def test_two_objects_for_two_agents(self) -> None:
        # Each likes one of the two objects: both have theirs half of the time, and else one has.
        setting = families.assignment([[(1, 0), (0, 1)]] * 2)
        self.assertEqual((setting.outcomes, setting.payments), (("1_2", "2_1"), False))
        self.assertEqual(proved(setting), Fraction(3, 2))

    def test_one_object_for_more_agents(self) -> None:
        # Without payments nobody can be asked: each of three has 1 or 3, and the object is worth 2 to whoever has it.
        setting = families.assignment([[[1], [3]]] * 3)
        self.assertEqual(setting.outcomes, ("0_0_1", "0_1_0", "1_0_0"))
        self.assertEqual(proved(setting), 2)

    def test_three_objects_for_two_agents(self) -> None:
        # One agent chooses first. Both have their best, 2, two thirds of the time, and else the second has its next best, 1: no
        # rule does better.
        setting = families.assignment([list(itertools.permutations([2, 1, 0]))] * 2)
        self.assertEqual(len(setting.outcomes), 6)
        orders = dict(zip(setting.agents[0].types, itertools.permutations([2, 1, 0]), strict=True))
        rule = {}
        for profile in setting.profiles():
            first = orders[profile[0]].index(2)
            second = max((place for place in range(3) if place != first), key=orders[profile[1]].__getitem__)
            rule[profile] = {name: Fraction(name == f"{first + 1}_{second + 1}") for name in setting.outcomes}
        serial = mechdes.Mechanism(rule)
        self.assertTrue(mechdes.audit(setting, serial))
        self.assertEqual(mechdes.report(setting, serial).value, Fraction(11, 3))


def settings(size: int) -> Iterator[mechdes.Setting]:
    """A setting of each family of this size, whether it is within the limits or not."""
    values, truths = list(range(size)), ("dominant", "bayes")
    for truth in truths:
        yield families.goods([[[value] for value in values]] * 2, truth=truth)
        yield families.slots([values[:4]] * 3, [2, 1][: size % 3], truth=truth)
        yield families.public_project([values] * 2, 1, truth=truth)
        yield families.bilateral_trade(values, values, truth=truth)
        yield families.assignment([[(value, 1) for value in values]] * 2, truth=truth)
        yield families.voting(size % 4 + 1, THREE[: 2 + size % 2], truth=truth)
        yield families.goods([[(1,) * (size % 5 + 1)]] * (size % 8 or 1), truth=truth)


class Limits(unittest.TestCase):
    def test_a_setting_is_within_them_where_the_program_would_not_refuse_it(self) -> None:
        seen = set()
        for size in range(2, 18):
            with unittest.mock.patch.object(families._Family, "try_limits"):
                made = list(settings(size))
            for setting in made:
                try:
                    second_opinion.read_setting(setting.to_toml().encode())
                    refused = None
                except RefusedBySecondOpinion as fault:
                    refused = fault.line
                conditions = setting.truth, setting.rational, setting.payments, setting.objective, setting.no_deficit
                sizes = [len(agent.types) for agent in setting.agents]
                try:
                    families._Family("family", *conditions).try_limits(sizes, len(setting.outcomes))
                    told = None
                except ValueError as fault:
                    told = str(fault)
                self.assertEqual(told is None, refused is None, (sizes, setting.truth, told, refused))
                seen.add(refused)
        self.assertEqual(seen, {None, "setting refused: sizes", "setting refused: too many rows"})

    def test_they_are_told_before_anything_is_written(self) -> None:
        for make, told in (
            (lambda: families.goods([[[1] * 40]] * 6), f"goods: {7**40} outcomes, and a setting has at most 16"),
            (lambda: families.slots([[1, 2]] * 7, [1]), "slots: 7 agents, and a setting has at most 6"),
            (lambda: families.public_project([range(17)], 1), "public_project: 17 types of an agent, and a setting has at most 16"),
            (lambda: families.voting(4, THREE), "voting: 1296 profiles, and a setting has at most 1024"),
            # 13 * 13 profiles, at each of which each agent has 12 lies, may stay away, and the budget holds.
            (
                lambda: families.bilateral_trade(range(13), range(13), truth="dominant"),
                "bilateral_trade: 4732 rows of the linear program, and a setting has at most 4096",
            ),
            # 216 profiles with 3 chances, 3240 lies and 3456 rows.
            (
                lambda: families.voting(3, THREE),
                f"voting: {3456 * (648 + 3240 + 3456 + 1)} cells of the table of the linear program",
            ),
            (lambda: families.assignment([[range(30)]] * 6), f"assignment: {math.perm(30, 6)} outcomes"),
        ):
            with self.subTest(told), self.assertRaisesRegex(ValueError, f"^{told}"):
                make()

    def test_lists_that_do_not_fit_are_told_with_their_lengths(self) -> None:
        for make, told in (
            (lambda: families.goods([[(1, 2), (3,)]]), "goods: all types have equally many numbers, and here they have 1 and 2"),
            (lambda: families.goods([[[1], [2]]], [[1]]), r"goods: each type has a weight: \[2\] .* not \[1\]"),
            (lambda: families.slots([[1, 2], []], [1]), "slots: there is at least one agent, each has at least one type"),
            (lambda: families.assignment([[()]]), "assignment: .* each type at least one number"),
            (lambda: families.public_project([], 1), "public_project: there is at least one agent"),
            (lambda: families.voting(0, THREE), "voting: there is at least one voter"),
            (lambda: families.bilateral_trade([1, "1.0"], [1]), "bilateral_trade: an agent has the same type twice"),
        ):
            with self.subTest(told), self.assertRaisesRegex(ValueError, told):
                make()
        with self.assertRaisesRegex(TypeError, "goods: 0.5 is a float"):
            families.goods([[[0.5]]])

    def test_names_say_the_numbers_or_count(self) -> None:
        setting = families.goods([[("-1.5", 2), (0, Fraction(1, 3))], [(1, 2), (-1, 2)]])
        names = [("vminus3over2_2", "v0_1over3"), ("v1_2", "vminus1_2")]
        self.assertEqual([agent.types for agent in setting.agents], names)
        # The name of the first had 36 letters.
        (buyer,) = families.goods([[(-100000, -100001, -100002), (1, 2, 3)]]).agents
        self.assertEqual(buyer.types, ("t1", "t2"))


if __name__ == "__main__":
    unittest.main()
