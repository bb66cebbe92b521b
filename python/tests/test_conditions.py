"""Conditions of the designer: as values, as texts, and what `require` and `check` give. The commands are those of
second-opinion/; the expected numbers are those of the pages of examples/."""

import dataclasses
import unittest
from fractions import Fraction
from typing import Any

import mechdes
from mechdes import Chance, Payment, Reply, Revenue, Utility, Welfare

from .common import EXAMPLES, calling, example, stored, text
from .stand_in import Changed, SecondOpinion

# Floors with the values under them and their shadows. The price 1 brings a revenue of 1 and a welfare of 3, 2 brings 8/5 and 14/5,
# and 3 brings 9/5 and 12/5: between two prices welfare falls evenly.
FLOORS = (
    (1, Fraction(1, 2), 3, 0),
    (2, Fraction(6, 5), Fraction(44, 15), Fraction(-1, 3)),
    (3, Fraction(3, 2), Fraction(17, 6), Fraction(-1, 3)),
    (4, Fraction(17, 10), Fraction(13, 5), -2),
    (5, Fraction(7, 4), Fraction(5, 2), -2),
)


class Requiring(unittest.TestCase):
    def setUp(self) -> None:
        caller = calling(SecondOpinion())
        caller.__enter__()
        self.addCleanup(caller.__exit__, None, None, None)

    def test_a_frontier_by_floors(self) -> None:
        setting = example("revenue-floor")
        for number, floor, value, shadow in FLOORS:
            found = mechdes.require(setting, [Revenue("least", floor)])
            self.assertIs(type(found), mechdes.Required)
            self.assertEqual((found.value, found.conditions), (value, (Revenue("least", floor, floor.denominator),)))
            self.assertEqual(found.shadows, (shadow,))
            self.assertTrue(mechdes.check(setting, found))
            kept = stored(f"revenue-floor-{number}-required")
            self.assertTrue(mechdes.check(setting, kept))
            read = mechdes.read(setting, kept)
            self.assertEqual((read.value, read.shadows), (value, (shadow,)))
            # What another floor leaves is never more than the shadow says.
            self.assertTrue(all(other <= value + (moved - floor) * shadow for _, moved, other, _ in FLOORS))
        found = mechdes.require(setting, [Revenue("least", 2)])
        self.assertEqual((type(found), found.kind, found.conditions), (mechdes.Infeasible, "required", (Revenue("least", 2, 1),)))
        self.assertEqual(found.shadows, ())
        self.assertTrue(mechdes.check(setting, found))

    def test_conditions_may_be_a_path_or_a_text(self) -> None:
        setting, path = example("budget"), stored("budget-4")
        wanted = mechdes.require(setting, [Payment("bidder", "most", 4)])
        # (6 + B)/4 for a budget B.
        self.assertEqual((wanted.value, wanted.shadows), (Fraction(5, 2), (Fraction(1, 4),)))
        for given in (path, path.read_text(), path.read_bytes()):
            self.assertEqual(mechdes.require(setting, given), wanted)
        self.assertEqual(wanted.conditions, mechdes.read_conditions(wanted.setting, path.read_text()))

    def test_none_and_several(self) -> None:
        setting = example("posted-price")
        free = mechdes.require(setting, [])
        self.assertEqual((free.value, free.shadows), (Fraction(3, 2), ()))
        # As on the page of a bidder with a budget, with the values 1 and 3: (3 + B)/4 for a budget B. With 1 it has the item half
        # of the time, so that it keeps 1/2 on average, and welfare is 7/4: the other two floors are not met with equality.
        conditions = [Payment("buyer", "most", 2), Utility("buyer", "least", Fraction(1, 4)), Welfare("least", 1, 3)]
        found = mechdes.require(setting, conditions)
        self.assertEqual((found.value, found.shadows), (Fraction(5, 4), (Fraction(1, 4), 0, 0)))
        self.assertIn("\nutility,buyer,least,1,4\nwelfare,least,3,3\n", found.text())
        self.assertTrue(found.text().endswith("\nshadow,0,1,4\nshadow,1,0,1\nshadow,2,0,1\nend\n"))

    def test_where_the_objective_has_no_bound(self) -> None:
        setting = example("unbounded-revenue")
        (agent, *_), (outcome, *_) = mechdes.read_setting(setting).agent_names, mechdes.read_setting(setting).outcomes
        found = mechdes.require(setting, [Chance(outcome, "most", 1), Payment(agent, "most", -5)])
        self.assertEqual(found.kind, "required")
        self.assertEqual(type(mechdes.require(setting, [Chance(outcome, "most", 1)])), mechdes.Unbounded)
        unbounded = mechdes.require(setting, [Chance(outcome, "most", 1)])
        self.assertEqual((unbounded.conditions, unbounded.shadows), ((Chance(outcome, "most", 1, 1),), ()))
        self.assertTrue(mechdes.check(setting, unbounded))
        self.assertEqual(mechdes.read(setting, unbounded.text()), unbounded)

    def test_the_mechanism_can_be_audited_and_reported(self) -> None:
        setting = example("school-quota")
        found = mechdes.require(setting, [Chance("bob_north", "least", Fraction(3, 8))])
        self.assertTrue(mechdes.audit(setting, found))
        self.assertEqual(mechdes.report(setting, found).value, Fraction(35, 8))
        self.assertEqual(found.lotteries["north", "north"]["bob_north"], Fraction(1, 2))
        # Where both like the north, Bob's way is worth 2 and Ann's is worth 3.
        self.assertEqual(found.shadows, (-1,))

    def test_what_is_wrong_is_rejected(self) -> None:
        setting, printed = example("budget"), text("budget-4-required.csv")
        for old, new, condition, numbers in (
            ("most,4,1", "most,3,1", 17, (0, 6, 8)),
            ("value,5,2", "value,7,2", 2, (5, 2)),
            ("row,5,0,6", "row,5,0,7", 6, (11, 2, 5, 1)),
            ("shadow,0,1,4", "shadow,0,1,5", 18, (0, 1, 4)),
            ("shadow,0,1,4", "shadow,0,2,8", 18, (0, 1, 4)),
            ("shadow,0,1,4\n", "", 18, (0, 1, 4)),
        ):
            verdict = mechdes.check(setting, printed.replace(old, new))
            self.assertFalse(verdict)
            self.assertEqual((verdict.condition, verdict.name, verdict.numbers), (condition, None, numbers))
            self.assertEqual(mechdes.parse("check", verdict.text()), verdict)
        verdict = mechdes.check(setting, printed.replace("pay,low,2", "pay,low,4"))
        self.assertEqual((verdict.condition, verdict.name, verdict.numbers), (1, "rational/bidder/low", (-2, 0)))

    def test_shadows_that_are_not_told(self) -> None:
        # With the value 6 the item is never kept, by two more conditions, whose rows are 8 and 9. With face multipliers of 1 they
        # take each other away, and no shadow of theirs is told.
        setting, printed = example("budget"), text("budget-4-required.csv")
        front, back = "pay,bidder,most,4,1\n", "shadow,0,1,4\n"
        printed = printed.replace(front, front + "at,high,keep,least,0,1\nat,high,keep,most,0,1\n")
        printed = printed.replace(back, "row,8,1,0\nrow,9,1,0\n" + back)
        found = mechdes.read(setting, printed)
        self.assertEqual((found.shadows, found.text()), ((Fraction(1, 4), None, None), printed))
        self.assertTrue(mechdes.check(setting, found))
        for place in (1, 2):
            told = tuple(Fraction(0) if place == other else shadow for other, shadow in enumerate(found.shadows))
            verdict = mechdes.check(setting, dataclasses.replace(found, shadows=told))
            self.assertEqual((verdict.condition, verdict.name, verdict.numbers), (18, None, (place,)))
            self.assertEqual(mechdes.parse("check", verdict.text()), verdict)
        # The last shadow alone.
        between = printed.replace("row,8,1,0\nrow,9,1,0\n", "").replace(back, "shadow,2,0,1\n")
        self.assertEqual(mechdes.read(setting, between).shadows, (None, None, 0))
        self.assertEqual(mechdes.check(setting, between).numbers, (0, 1, 4))

    def test_refusals(self) -> None:
        setting = example("budget")
        for conditions, reason in (
            ([Payment("buyer", "most", 4)], "line 2: field 2"),
            ([Payment("bidder", "most", 4, type="middle")], "line 2: field 3"),
            ([Revenue("most", 1), Chance("sold", "most", 1)], "line 3: field 2"),
            ([Chance("sell", "most", 1, profile=("low", "high"))], "line 2: field 2"),
            ([Revenue("most", 2**60)], "line 2: field 3"),
            ("require,1\n", "line 1: ended"),
        ):
            with self.assertRaises(mechdes.AnswerRefused) as refused:
                mechdes.require(setting, conditions)
            self.assertEqual(refused.exception.reason, reason)
        with self.assertRaises(mechdes.SettingRefused):
            mechdes.require(example("two-bidders"), [Revenue("most", 1)])

    def test_undecided_and_other_answers(self) -> None:
        setting = text("budget.toml")
        calls: list[Any] = []

        def told(status: int, printed: str) -> Changed:
            def reply(words: Any, given: bytes, second: bytes) -> Reply:
                calls.append((list(words), given, second))
                return Reply(status, printed.encode(), b"")

            return Changed(require=reply)

        with calling(told(22, "undecided\n")):
            self.assertIs(type(mechdes.require(setting, [Revenue("least", Fraction(1, 2))])), mechdes.Undecided)
        wanted = ["require", "setting", "conditions"], setting.encode(), b"require,1\nrevenue,least,1,2\nend\n"
        self.assertEqual(calls, [wanted])
        # An answer of `find` is none of `require`.
        with calling(told(0, text("posted-price-answer.csv"))), self.assertRaises(mechdes.AnswerNotRead):
            mechdes.require(text("posted-price.toml"), [])


class Conditions(unittest.TestCase):
    def test_each_kind_is_written_and_read(self) -> None:
        setting = mechdes.read_setting(example("second-price"))
        printed = (
            "require,1\nrevenue,least,-1,1\nwelfare,most,4,2\nutility,two,least,0,7\nchance,first,most,1,2\n"
            "at,v1+v2,second,least,1,3\npay,one,most,5,1\npay,two,v2,least,-5,9\nend\n"
        )
        wanted = (
            Revenue("least", -1, 1),
            Welfare("most", 2, 2),
            Utility("two", "least", 0, 7),
            Chance("first", "most", Fraction(1, 2), 2),
            Chance("second", "least", Fraction(1, 3), 3, ("v1", "v2")),
            Payment("one", "most", 5, 1),
            Payment("two", "least", Fraction(-5, 9), 9, "v2"),
        )
        read = mechdes.read_conditions(setting, printed)
        self.assertEqual(read, wanted)
        self.assertEqual(mechdes.conditions_text(read), printed)
        for place, condition in enumerate(read):
            self.assertEqual(condition.word, printed.splitlines()[place + 1].split(",")[0])

    def test_the_least_denominator_where_none_is_given(self) -> None:
        self.assertEqual(Revenue("least", Fraction(6, 4)).record(), ("revenue", "least", 3, 2))
        self.assertEqual(Chance("sell", "most", 1).record(), ("chance", "sell", "most", 1, 1))

    def test_what_is_no_condition(self) -> None:
        for fault, make in (
            (ValueError, lambda: Revenue("exactly", 1)),
            (ValueError, lambda: Revenue("least", Fraction(1, 3), 2)),
            (ValueError, lambda: Revenue("least", 1, 0)),
            (TypeError, lambda: Revenue("least", 0.5)),
            (TypeError, lambda: Revenue("least", True)),
        ):
            with self.assertRaises(fault):
                make()

    def test_texts_that_are_no_conditions(self) -> None:
        setting = mechdes.read_setting(example("budget"))
        for lines in (
            ["require,2", "end"],
            ["require,1"],
            ["require,1", "end", "end"],
            ["require,1", "profit,least,1,1", "end"],
            ["require,1", "revenue,least,1", "end"],
            ["require,1", "revenue,exactly,1,1", "end"],
            ["require,1", "revenue,least,1,0", "end"],
            ["require,1", "revenue,least,01,1", "end"],
            ["require,1", "utility,buyer,least,1,1", "end"],
            ["require,1", "at,sell,low,least,1,1", "end"],
            ["require,1", "pay,bidder,middle,least,1,1", "end"],
        ):
            with self.assertRaises(mechdes.AnswerNotRead):
                mechdes.read_conditions(setting, "\n".join(lines))


class Texts(unittest.TestCase):
    def test_answers_are_written_again_byte_for_byte(self) -> None:
        names = [path.name for path in sorted(EXAMPLES.glob("*-required.csv"))]
        self.assertTrue(names)
        for name in names:
            setting = mechdes.read_setting(example(name.removesuffix("-required.csv").rpartition("-")[0]))
            found = mechdes.parse("require", text(name), setting)
            self.assertEqual(found.text(), text(name), name)

    def test_records_that_may_not_stand_there(self) -> None:
        setting, printed = mechdes.read_setting(example("budget")), text("budget-4-required.csv")
        for other in ("shadow,0,1,4\n", "shadow,1,0,1\n", "row,7,0,1\n", "pay,bidder,most,4,1\n"):
            with self.assertRaises(mechdes.AnswerNotRead):
                mechdes.read(setting, printed.replace("end\n", other + "end\n"))
        for wrong in ("shadow,-1,1,4", "shadow,1,1,4", "shadow,0,1", "shadow,0,1,0", "shadow,0,x,4", "shadow,0,1,4,0"):
            with self.assertRaises(mechdes.AnswerNotRead):
                mechdes.read(setting, printed.replace("shadow,0,1,4", wrong))
        with self.assertRaises(mechdes.AnswerNotRead):
            mechdes.read(example("revenue-floor"), text("revenue-floor-6-required.csv").replace("end\n", "shadow,0,0,1\nend\n"))
        with self.assertRaises(mechdes.UnknownAnswer):
            mechdes.read(setting, "answer,1,required,toowide\nend\n")


if __name__ == "__main__":
    unittest.main()
