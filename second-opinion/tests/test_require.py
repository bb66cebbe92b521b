"""Conditions of the designer: each kind on settings whose numbers are worked out by hand, refusals, and answers that are wrong.

Run this with `python3 -m unittest discover` in second-opinion/.
"""

import contextlib
import io
import os
import random
import tempfile
import unittest
import unittest.mock
from fractions import Fraction
from pathlib import Path

from second_opinion import command, conditions, generate, judging, require_checking, require_compare, required_answer, requiring
from second_opinion.answer import OptimalAnswer
from second_opinion.finding import found_answer
from second_opinion.places import EXAMPLES, FOLDER
from second_opinion.program import point_of, sum_over
from second_opinion.setting import Refused, read_setting


def sale(weights="[1, 1]", objective="revenue = 1", rational="ex-post", payments="true"):
    """A buyer values an item 1 or 3, and no report may be better than the truth."""
    return read_setting(
        f"""format = "mechanism-setting"
version = 1
kind = "general"
truth = "dominant"
rational = "{rational}"
payments = {payments}
outcomes = ["keep", "sell"]
[objective]
{objective}
[[agent]]
name = "buyer"
types = ["low", "high"]
weights = {weights}
utility = [[0, 1], [0, 3]]
""".encode()
    )


# Let x and y be the chances of selling to low and to high; x is at most y, since else high would report low. Low pays x at most, and
# high 3y - 2x at most, which leaves it the 2x that it gets by reporting low. So the revenue is (x + 3y - 2x)/2 = (3y - x)/2 at most,
# and without conditions 3/2, with x = 0 and y = 1: the price 3.
SALE = sale()
# Nobody has to take part: payments may be as great as one likes.
FORCED = sale(rational="none")


def found(setting, *lines):
    """What is found under conditions, given as records; the answer has to be valid, and to read back as it was written."""
    asked = conditions.read_conditions("\n".join(["require,1", *lines, "end"]).encode(), setting)
    answered = requiring.found_under(setting, asked)
    assert require_checking.verdict(setting, answered) == (0, "valid"), lines
    text = required_answer.write_required(answered, setting)
    assert required_answer.read_required(text.encode(), setting) == answered, lines
    return answered


class Kinds(unittest.TestCase):
    def brings(self, setting, value, *conditions):
        """Each condition is given with its shadow; None where it is not asked for."""
        answered = found(setting, *(line for line, _ in conditions))
        self.assertIsInstance(answered.said, OptimalAnswer, conditions)
        self.assertEqual(Fraction(*answered.said.value), Fraction(value), conditions)
        for shadow, (line, wanted) in zip(answered.shadows, conditions, strict=True):
            if wanted is not None:
                self.assertEqual(Fraction(*shadow), Fraction(wanted), line)

    def comes_to(self, word, setting, *lines):
        self.assertEqual(type(found(setting, *lines).said).__name__, word, lines)

    def test_no_conditions(self):
        self.brings(SALE, "3/2")
        self.assertEqual(found(SALE).said, found_answer(SALE))

    def test_revenue(self):
        # No more than the bound can be had, and all of it can.
        self.brings(SALE, 1, ("revenue,most,1,1", 1))
        self.brings(SALE, "1/3", ("revenue,most,2,6", 1))
        self.brings(SALE, "3/2", ("revenue,least,1,1", 0))
        self.comes_to("InfeasibleAnswer", SALE, "revenue,least,2,1")
        # What is bounded by the condition alone.
        self.brings(FORCED, 5, ("revenue,most,5,1", 1))
        # Where welfare is the aim, low can be sold to for 1 and high, too: 2 of welfare with a revenue of 1. For a revenue of 5/4 the
        # chance x has to be 1/2: the revenue is (3 - x)/2 and the welfare (3 + x)/2, which makes 3 together.
        welfare = sale(objective="welfare = 1")
        self.brings(welfare, 2, ("revenue,least,1,2", 0))
        self.brings(welfare, "7/4", ("revenue,least,5,4", -1))

    def test_welfare(self):
        # The welfare (x + 3y)/2 is to be 7/4: with y = 1 that is x = 1/2, and the revenue (3 - x)/2 = 5/4. Both make 3 together.
        self.brings(SALE, "5/4", ("welfare,least,7,4", -1))
        # With x = 0 the revenue is the welfare.
        self.brings(SALE, 1, ("welfare,most,1,1", 1))
        self.brings(SALE, "3/2", ("welfare,least,1,1", 0))
        self.comes_to("InfeasibleAnswer", SALE, "welfare,least,3,1")
        self.comes_to("UnboundedAnswer", FORCED, "welfare,least,2,1")

    def test_utility(self):
        # The buyer is left 2x with the chance 1/2. So x is the bound, 1/2, and a unit more of it costs 1/2 of revenue.
        self.brings(SALE, "5/4", ("utility,buyer,least,1,2", "-1/2"))
        self.brings(SALE, "3/2", ("utility,buyer,most,1,1", 0))
        self.comes_to("InfeasibleAnswer", SALE, "utility,buyer,most,-1,1")
        # Beyond 1 the buyer has to be paid: each unit costs one.
        self.brings(SALE, "1/2", ("utility,buyer,least,3,2", -1))
        # The buyer may lose 4 on average: what it pays is 4 more than what it gets, 3/2 where x = 0 or 2 where x = 1.
        self.brings(FORCED, 6, ("utility,buyer,least,-4,1", -1))

    def test_chance(self):
        # Sold with the chance q = (x + 1)/2, so that x = 2q - 1 and the revenue is 2 - q.
        self.brings(SALE, "5/4", ("chance,sell,least,3,4", -1))
        self.brings(SALE, "5/4", ("chance,keep,most,1,4", 1))
        # With x = 0 and q = y/2 the revenue is 3q.
        self.brings(SALE, "3/4", ("chance,sell,most,1,4", 3))
        self.brings(SALE, "3/2", ("chance,sell,most,3,4", 0))
        self.comes_to("InfeasibleAnswer", SALE, "chance,sell,least,2,1")
        self.comes_to("UnboundedAnswer", FORCED, "chance,sell,most,0,1")

    def test_at(self):
        # x = 1/2: (3 - x)/2 of revenue. y = 1/2: 3y/2.
        self.brings(SALE, "5/4", ("at,low,sell,least,1,2", "-1/2"))
        self.brings(SALE, "3/4", ("at,high,sell,most,1,2", "3/2"))
        self.brings(SALE, "3/2", ("at,high,sell,least,1,2", 0))
        # Who values the item less would have it more often.
        self.comes_to("InfeasibleAnswer", SALE, "at,high,sell,most,1,3", "at,low,sell,least,1,2")
        self.comes_to("UnboundedAnswer", FORCED, "at,high,keep,least,1,1")

    def test_pay(self):
        # High pays 3 - 2x, at most 2 where x is 1/2. With the bound p the revenue is (x + p)/2 = ((3 - p)/2 + p)/2 = (3 + p)/4.
        self.brings(SALE, "5/4", ("pay,buyer,most,2,1", "1/4"))
        self.brings(SALE, "5/4", ("pay,buyer,high,most,2,1", "1/4"))
        self.brings(SALE, "3/2", ("pay,buyer,low,most,2,1", 0))
        # Low pays x at most.
        self.brings(SALE, "5/4", ("pay,buyer,low,least,1,2", "-1/2"))
        self.brings(SALE, "5/4", ("pay,buyer,least,1,2", "-1/2"))
        self.comes_to("InfeasibleAnswer", SALE, "pay,buyer,least,3,2")
        # With x = 0 and y = 1 high pays 3 more than low.
        self.brings(FORCED, "11/2", ("pay,buyer,low,most,4,1", 1))
        self.comes_to("UnboundedAnswer", FORCED, "pay,buyer,low,least,4,1")

    def test_weights_and_divisors(self):
        # High comes 3 times of 4: the revenue is (x + 3(3 - 2x))/4 = (9 - 5x)/4, and the item is sold with the chance q = (x + 3)/4,
        # so that the revenue is 6 - 5q. All with x = 1/2.
        setting = sale(weights="[1, 3]")
        self.brings(setting, "13/8", ("chance,sell,least,7,8", -5))
        self.brings(setting, "13/8", ("chance,sell,least,14,16", -5))
        self.brings(setting, "13/8", ("at,low,sell,least,1,2", "-5/4"))
        # High pays p = 3 - 2x: ((3 - p)/2 + 3p)/4 = (3 + 5p)/8.
        self.brings(setting, "13/8", ("pay,buyer,most,4,2", "5/8"))
        # Three times the revenue is the aim, and the cost is divided by 3.
        self.brings(sale("[1, 3]", "revenue = 3"), "39/8", ("chance,sell,least,7,8", -15))
        # Weights of 20 and 60 are as likely.
        self.brings(sale("[20, 60]", "revenue = 3"), "39/8", ("at,low,sell,least,3,6", "-15/4"))

    def test_several_conditions(self):
        # x = 1/2 by the second one, which is the narrower.
        lines = (("at,low,sell,least,1,4", 0), ("utility,buyer,least,1,2", "-1/2"), ("revenue,least,1,1", 0), ("pay,buyer,most,3,1", 0))
        self.brings(SALE, "5/4", *lines)
        # Exactly 1 of revenue, by two conditions: of their shadows only the sum counts.
        answered = found(SALE, "revenue,least,1,1", "revenue,most,1,1")
        self.assertEqual(answered.said.value, (1, 1))
        self.assertEqual(sum(Fraction(*shadow) for shadow in answered.shadows), 1)

    def test_without_payments(self):
        # All payments are 0. Truth asks for x = y where there are none, since low would like the item, too; here x = y = 1.
        setting = sale(objective="welfare = 1", payments="false")
        self.brings(setting, 2, ("revenue,least,-1,1", 0), ("pay,buyer,most,1,1", 0), ("utility,buyer,least,1,1", 0))
        self.brings(setting, 1, ("utility,buyer,most,1,1", 1))
        self.comes_to("InfeasibleAnswer", setting, "revenue,least,1,2")
        self.comes_to("InfeasibleAnswer", setting, "pay,buyer,high,least,1,1")


class Shadows(unittest.TestCase):
    def test_moved_bounds_bring_no_more_than_the_shadows_say(self):
        numbers, moved = random.Random(4), 0
        for toml, text in require_compare.drawn_texts(random.Random(5)):
            setting = read_setting(toml.encode())
            asked = conditions.read_conditions(text.encode(), setting)
            before = requiring.found_under(setting, asked)
            if not isinstance(before.said, OptimalAnswer):
                continue
            # A bound whose shadow is not told does not move.
            steps = [Fraction(numbers.randint(-3, 3), 4) * (shadow is not None) for shadow in before.shadows]
            bounds = [Fraction(condition.num, condition.den) + step for condition, step in zip(asked, steps)]
            after = requiring.found_under(setting, list(map(require_compare.changed, asked, bounds)))
            if isinstance(after.said, OptimalAnswer):
                moved += 1
                shadows = [Fraction(*(shadow or (0, 1))) for shadow in before.shadows]
                gains = sum(step * shadow for step, shadow in zip(steps, shadows))
                self.assertLessEqual(Fraction(*after.said.value), Fraction(*before.said.value) + gains, (toml, text))
                for condition, shadow in zip(asked, shadows):
                    self.assertGreaterEqual(shadow * condition.sign, 0)
            if moved == 25:
                break


class Rows(unittest.TestCase):
    def test_rows_measure_what_conditions_do(self):
        numbers = random.Random(6)
        for _ in range(30):
            toml = generate.small_text(numbers)
            with contextlib.suppress(Refused):
                setting = read_setting(toml.encode())
                said = found_answer(setting)
                for _ in range(5 if hasattr(said, "mechanism") else 0):
                    condition = require_compare.drawn_condition(numbers, setting)
                    condition = require_compare.changed(condition, Fraction(numbers.randint(-9, 9), numbers.randint(1, 9)))
                    point, factor = point_of(setting, said.mechanism), condition.sign * condition.den
                    sums = [sum_over(terms, point) for terms, _ in conditions.undivided_rows(setting, condition)]
                    self.assertEqual(sums, [factor * amount for amount in conditions.measured(setting, said.mechanism, condition)])


# Two agents of two types; a profile is named by both types.
PAIR = read_setting(
    b"""format = "mechanism-setting"
version = 1
kind = "general"
truth = "bayes"
rational = "none"
payments = true
outcomes = ["a", "b"]
[[agent]]
name = "one"
types = ["l", "h"]
weights = [1, 2]
utility = [[0, 1], [0, 2]]
[[agent]]
name = "two"
types = ["l", "r"]
weights = [1, 1]
utility = [[1, 0], [0, 1]]
"""
)
GREAT = 2**62 - 1


class Files(unittest.TestCase):
    def refused(self, setting, *lines):
        try:
            conditions.read_conditions("\n".join(lines).encode(), setting)
        except Refused as refused:
            self.assertEqual(refused.status, 66)
            return refused.line.removeprefix("answer refused: ")
        return None

    def test_what_is_read_is_written(self):
        text = """require,1
revenue,least,-1,1
welfare,most,4,2
utility,two,least,0,7
chance,b,most,1,2
at,h+r,b,least,1,3
pay,one,most,5,1
pay,two,r,least,-5,9
end
"""
        read = conditions.read_conditions(text.encode(), PAIR)
        self.assertEqual(conditions.write_conditions(read, PAIR), text)
        self.assertEqual([condition.word for condition in read],
                         ["revenue", "welfare", "utility", "chance", "at", "pay", "pay"])
        self.assertEqual((read[4].profile, read[4].outcome, read[6].agent, read[6].kind), ((1, 1), 1, 1, 1))
        quoted = text.replace("revenue,", '"revenue",').replace("\n", "\r\n").replace("end", "\r\nend")
        self.assertEqual(conditions.read_conditions(quoted.encode(), PAIR), read)
        # One row for each, but for `pay` one for each profile: all four, and the two with r.
        self.assertEqual([len(conditions.places_of(PAIR, condition)) for condition in read], [1, 1, 1, 1, 1, 4, 2])

    def test_rows(self):
        # The weights of the profiles are 1, 1, 2 and 2, together 6. Chances stand by profile, then by outcome, and the plus parts of
        # the payments behind them, of each agent by profile, from the column 8 on.
        for line, wanted in (
            ("utility,two,most,5,3", [({0: 3, 3: 3, 4: 6, 7: 6, 12: -3, 13: -3, 14: -6, 15: -6}, 30)]),
            ("welfare,least,1,1", [({0: -1, 1: -1, 3: -2, 4: -2, 5: -4, 7: -6}, -6)]),
            ("revenue,most,1,1", [({8: 1, 9: 1, 10: 2, 11: 2, 12: 1, 13: 1, 14: 2, 15: 2}, 6)]),
            ("chance,b,most,1,2", [({1: 2, 3: 2, 5: 4, 7: 4}, 6)]),
            ("at,h+l,b,least,1,2", [({5: -2}, -1)]),
            ("pay,two,r,most,7,2", [({13: 2}, 7), ({15: 2}, 7)]),
            ("pay,one,h,least,7,1", [({10: -1}, -7), ({11: -1}, -7)]),
        ):
            (condition,) = conditions.read_conditions(f"require,1\n{line}\nend\n".encode(), PAIR)
            rows = list(conditions.undivided_rows(PAIR, condition))
            plain = [({column: number for column, number in terms.items() if number and column < 16}, right) for terms, right in rows]
            self.assertEqual(plain, wanted, line)
            for terms, _ in rows:
                for column in range(8, 16):
                    self.assertEqual(terms.get(column + 8, 0), -terms.get(column, 0), line)

    def test_refusals(self):
        for line, place in (
            ("revenue,1,1", "record"),
            ("revenue,least,1,1,1", "record"),
            ("profit,least,1,1", "record"),
            ("Revenue,least,1,1", "record"),
            ("pay,one,l,h,least,1,1", "record"),
            ("pay,one,least,1", "record"),
            ("row,0,1", "record"),
            ("revenue,Least,1,1", "field 2"),
            ("revenue,least,01,1", "field 3"),
            (f"revenue,least,{2**62},1", "field 3"),
            ("revenue,least,1,0", "field 4"),
            ("revenue,least,1,-1", "field 4"),
            ("revenue,least,,1", "field 3"),
            (f"revenue,least,1,{2**62}", "field 4"),
            ("utility,three,least,1,1", "field 2"),
            ("utility,one,atleast,1,1", "field 3"),
            ("utility,one,least,x,1", "field 4"),
            ("utility,one,least,1,x", "field 5"),
            ("chance,c,least,1,1", "field 2"),
            ("at,l,b,least,1,1", "field 2"),
            ("at,r+l,b,least,1,1", "field 2"),
            ("at,l+r+l,b,least,1,1", "field 2"),
            ("at,l+r,c,least,1,1", "field 3"),
            ("at,l+r,b,never,1,1", "field 4"),
            ("pay,none,least,1,1", "field 2"),
            ("pay,one,r,least,1,1", "field 3"),
            ("pay,two,r,x,1,1", "field 4"),
            ("pay,two,r,least,1.5,1", "field 5"),
        ):
            self.assertEqual(self.refused(PAIR, "require,1", "chance,a,most,1,1", line, "end"), f"line 3: {place}", line)

    def test_records_that_are_not_there(self):
        self.assertEqual(self.refused(PAIR, ""), "line 0: ended")
        self.assertEqual(self.refused(PAIR, "require,1"), "line 1: ended")
        self.assertEqual(self.refused(PAIR, "require,2", "end"), "line 1: field 2")
        self.assertEqual(self.refused(PAIR, "require", "end"), "line 1: record")
        self.assertEqual(self.refused(PAIR, "end"), "line 1: record")
        self.assertEqual(self.refused(PAIR, "require,1", "end", "end"), "line 3: record")
        self.assertEqual(self.refused(PAIR, "require,1", "end,1"), "line 2: record")
        self.assertIsNone(self.refused(PAIR, "require,1", "", "end"))

    def test_numbers_of_rows(self):
        # Of an average 6 times NUM stands in the row, and of a payment NUM itself. The right side is the fault of NUM.
        most = 2**44
        for line, place in (
            (f"pay,one,least,{most},{most}", None),
            (f"pay,one,least,{-most},{most}", None),
            (f"pay,one,least,1,{most + 1}", "field 5"),
            (f"pay,one,least,{most + 1},1", "field 4"),
            (f"at,l+l,a,most,{-most - 1},1", "field 5"),
            (f"revenue,most,{most // 6},1", None),
            (f"revenue,most,{most // 6 + 1},1", "field 3"),
            (f"chance,a,most,0,{most // 2}", None),
            (f"chance,a,most,0,{most // 2 + 1}", "field 5"),
            # At h and r all get 2 + 1 of b, with the weight 2.
            (f"welfare,most,0,{most // 6}", None),
            (f"welfare,most,0,{most // 6 + 1}", "field 4"),
            (f"revenue,least,{GREAT},{GREAT}", "field 3"),
        ):
            wanted = place and f"line 2: {place}"
            self.assertEqual(self.refused(PAIR, "require,1", line, "end"), wanted, line)

    def test_how_many(self):
        lines = ["require,1", *["chance,a,most,1,1"] * 1000]
        self.assertIsNone(self.refused(PAIR, *lines, "end"))
        self.assertEqual(self.refused(PAIR, *lines, "chance,a,most,1,1", "end"), "line 1002: record")
        # The setting has 8 rows: 4 of truth and 4 of profiles. Each of these adds 4.
        self.assertEqual(PAIR.condition_count() + PAIR.profile_count(), 8)
        wide = read_setting(wide_text())
        own = wide.condition_count() + wide.profile_count()
        self.assertEqual(own, 2 * 16 * 15 + 2 + 512)
        lines = ["require,1", *["pay,one,least,0,1"] * 5, *["pay,two,t3,least,0,1"] * 16]
        left = 4096 - own - 5 * 512 - 16 * 32
        lines += ["at,t0+t1+t1,only,most,1,1"] * left
        self.assertIsNone(self.refused(wide, *lines, "end"))
        for line in ("at,t0+t1+t1,only,most,1,1", "pay,one,most,0,1", "revenue,most,1,1"):
            self.assertEqual(self.refused(wide, *lines, line, "end"), f"line {len(lines) + 1}: record")


def wide_text():
    """Three agents of 16, 16 and 2 types, which make 512 profiles, with one outcome."""
    lines = ['format = "mechanism-setting"', "version = 1", 'kind = "general"', 'truth = "bayes"', 'rational = "none"',
             "payments = false", 'outcomes = ["only"]']
    for name, count in (("one", 16), ("two", 16), ("three", 2)):
        lines += ["[[agent]]", f'name = "{name}"', f"types = {generate.names([f't{kind}' for kind in range(count)])}",
                  f"weights = {[1] * count}", f"utility = {[[0]] * count}"]
    return "\n".join(lines).encode()


# The item is sold with the chance 3/4 or more: x = 1/2 and y = 1. The rows are: low gains nothing as high, high nothing as low, low and
# high do not lose, the chances at low and at high, and the condition, 4(x + y) of at least 3·2, halved: -2x - 2y of at most -3. With the
# multipliers over 2: high's truth 1 (`row,1,0,2`) lets it pay 3y - 3x more than low, low's part 2 (`row,2,0,4`) lets it pay x.
OPTIMAL = ("answer,1,required,optimal", "chance,sell,least,3,4", "value,5,4", "table,2", "lottery,low,1,1", "lottery,high,0,2",
           "pay,low,1", "pay,high,4", "bound,2", "row,1,0,2", "row,2,0,4", "row,5,0,8", "row,6,0,1", "shadow,0,-1,1")


class Answers(unittest.TestCase):
    def says(self, setting, *records):
        """The verdict on an answer, or its refusal."""
        try:
            data = "\n".join([*records, "end"]).encode()
            _, line = require_checking.verdict(setting, required_answer.read_required(data, setting))
        except Refused as refused:
            return refused.line
        return line

    def with_record(self, records, place, *others):
        """An answer with other records in place of the one at a place, counted from 1."""
        return [*records[: place - 1], *others, *records[place:]]

    def test_the_answer_by_hand_is_valid(self):
        self.assertEqual(self.says(SALE, *OPTIMAL), "valid")

    def test_each_condition_of_an_optimal_answer(self):
        for place, records, line in (
            # Low would get 1/2 for 1: a loss of 1, in halves.
            (7, ["pay,low,2"], "rejected,1,rational/buyer/low,-1,0"),
            # Sold with 1/2 + 1 of 2, in halves 3, times 5; 4 times 2 halves times the weight 2.
            (2, ["chance,sell,least,4,5"], "rejected,17,0,15,16"),
            (3, ["value,3,2"], "rejected,2,5,4"),
            (3, ["value,10,8"], "valid"),
            (11, ["row,2,0,-4"], "rejected,3,2,0,-4"),
            (13, ["row,6,0,-1"], "rejected,3,6,0,-1"),
            # Where high's chances are not bounded: y counts 3 times 2 for its truth and 2 for the condition.
            (12, [], "rejected,4,3,0,-8"),
            # A face multiplier at a row whose right side is 1.
            (12, ["row,5,1,8"], "rejected,5,1"),
            # (9 - 3)/2 where (8 - 3)/2 is reached.
            (12, ["row,5,0,9"], "rejected,6,3,1,5,2"),
            (14, ["shadow,0,-1,2"], "rejected,18,0,-1,1"),
            (14, ["shadow,0,0,1"], "rejected,18,0,-1,1"),
            (14, [], "rejected,18,0,-1,1"),
            # It has to be in least terms.
            (14, ["shadow,0,-3,3"], "rejected,18,0,-1,1"),
        ):
            self.assertEqual(self.says(SALE, *self.with_record(OPTIMAL, place, *records)), line, records)

    def test_the_condition_that_fails_is_told_by_its_number(self):
        # High pays 4 halves, times 2; 3 times 2 halves.
        front, back = OPTIMAL[:2], [*OPTIMAL[2:], "shadow,1,0,1"]
        self.assertEqual(self.says(SALE, *front, "pay,buyer,high,most,3,2", *back), "rejected,17,1,6,8")
        self.assertEqual(self.says(SALE, *front, "pay,buyer,high,most,2,1", *back), "valid")

    def test_a_shadow_is_told_or_not(self):
        # High is never kept from the item, by two more conditions. Face multipliers of their rows, 7 and 8, take each other away.
        front = (*OPTIMAL[:2], "at,high,keep,least,0,1", "at,high,keep,most,0,1", *OPTIMAL[2:13])
        faces = "row,7,1,0", "row,8,1,0"
        for records, line in (
            ((*faces, "shadow,0,-1,1"), "valid"),
            ((*faces, "shadow,0,-1,1", "shadow,1,0,1"), "rejected,18,1"),
            ((*faces, "shadow,0,-1,1", "shadow,2,0,1"), "rejected,18,2"),
            (("shadow,0,-1,1", "shadow,1,0,1", "shadow,2,0,1"), "valid"),
            (("shadow,0,-1,1", "shadow,2,0,1"), "rejected,18,1,0,1"),
            (("shadow,0,-1,1", "shadow,1,0,1"), "rejected,18,2,0,1"),
            (("shadow,1,0,1", "shadow,0,-1,1"), "answer refused: line 17: field 2"),
        ):
            self.assertEqual(self.says(SALE, *front, *records), line, records)

    def test_a_shadow_that_is_too_long(self):
        asked = conditions.read_conditions(b"require,1\nat,low,sell,least,1,2\nend\n", SALE)
        mechanism = found(SALE).said.mechanism
        for bound, main, shadow in ((2**61 - 1, 1, (-1, 2**61 - 1)), (2**62 - 1, 1, (-1, 2**62 - 1)), (2**62 - 1, 3, (-1, (2**62 - 1) // 3)),
                                    (1, 2**62 - 1, (1 - 2**62, 1)), (1, 2**62, None)):
            said = OptimalAnswer((5, 4), mechanism, bound, {6: (0, main)})
            self.assertEqual(require_checking.shadows_of(SALE, asked, said), [shadow], (bound, main))
        said = OptimalAnswer((5, 4), mechanism, 2**62 - 1, {6: (0, 1)})
        asked = conditions.read_conditions(b"require,1\nat,low,sell,least,1,1\nend\n", SALE)
        self.assertEqual(require_checking.shadows_of(SALE, asked, said), [None])

    def test_the_first_that_fails_is_told(self):
        wrong = self.with_record(OPTIMAL, 14, "shadow,0,7,1")
        wrong = self.with_record(wrong, 3, "value,9,1")
        self.assertEqual(self.says(SALE, *wrong), "rejected,2,5,4")
        wrong = self.with_record(wrong, 2, "chance,sell,least,1,1")
        self.assertEqual(self.says(SALE, *wrong), "rejected,17,0,3,4")
        wrong = self.with_record(wrong, 7, "pay,low,2")
        self.assertEqual(self.says(SALE, *wrong), "rejected,1,rational/buyer/low,-1,0")

    def test_both_sides_of_each_kind(self):
        # In halves: low has 1/2 and pays 1/2, high has 1 and pays 2. Both sides of averages are over 2 halves.
        for line, sides in (
            ("revenue,least,2,1", "5,8"),
            ("revenue,most,1,1", "4,5"),
            ("welfare,least,4,2", "14,16"),
            ("welfare,most,1,1", "4,7"),
            ("utility,buyer,least,3,5", "10,12"),
            ("utility,buyer,most,0,1", "0,2"),
            ("chance,keep,least,1,2", "2,4"),
            ("chance,keep,most,0,1", "0,1"),
            ("at,low,sell,least,1,1", "1,2"),
            ("at,low,keep,most,1,4", "2,4"),
            # At low it is well.
            ("pay,buyer,most,1,1", "2,4"),
            ("pay,buyer,least,1,1", "1,2"),
            ("pay,buyer,least,3,1", "1,6"),
            ("pay,buyer,high,least,3,1", "4,6"),
        ):
            self.assertEqual(self.says(SALE, *self.with_record(OPTIMAL, 2, line)), f"rejected,17,0,{sides}", line)

    def test_conditions_of_an_infeasible_answer(self):
        # Sold with the chance 3/4 at low, and with 1/2 at high at most: the first row says that low pays at most x for x more. The rows
        # of the truth are low as high: (y - p') - (x - p), high as low: (3x - p) - (3y - p'). Together 2x - 2y at most 0. Then 4x at
        # least 3, and 2y at most 1: 2x - 2y is at least 3/2 - 1.
        front = "answer,1,required,infeasible", "at,low,sell,least,3,4", "at,high,sell,most,1,2"
        valid = "row,0,2", "row,1,2", "row,6,1", "row,7,2"
        self.assertEqual(self.says(SALE, *front, *valid), "valid")
        self.assertEqual(self.says(SALE, *front, *valid[:3], "row,7,-2"), "rejected,3,7,-2,0")
        self.assertEqual(self.says(SALE, *front, *valid[:3]), "rejected,4,3,-4,0")
        self.assertEqual(self.says(SALE, *front), "rejected,5,0")
        self.assertEqual(self.says(SALE, *front, *valid, "row,8,1"), "answer refused: line 8: field 2")
        self.assertEqual(self.says(SALE, *front, "value,1,1"), "answer refused: line 4: record")
        self.assertEqual(self.says(SALE, *front, "shadow,0,1,1"), "answer refused: line 4: field 2")
        self.assertEqual(self.says(SALE, *front, *valid, "shadow,0,1,1"), "answer refused: line 8: field 2")
        self.assertEqual(self.says(SALE, *front, *valid, "shadow,0,1"), "answer refused: line 8: record")

    def test_conditions_of_an_unbounded_answer(self):
        front = "answer,1,required,unbounded", "at,low,keep,most,1,1"
        table = "table,1", "lottery,low,1,0", "lottery,high,0,1", "pay,low,0", "pay,high,3"
        self.assertEqual(self.says(FORCED, *front, *table, "ray,low,1", "ray,high,1"), "valid")
        self.assertEqual(self.says(FORCED, *front, *table[:4], "pay,high,4", "ray,low,1", "ray,high,1"),
                         "rejected,1,truth/buyer/high/low/high,-1,0")
        self.assertEqual(self.says(FORCED, front[0], "at,low,keep,most,1,2", *table, "ray,low,1", "ray,high,1"),
                         "rejected,17,0,1,2")
        # The payments that are added break the truth of high, and that of the condition, whose row is the fifth.
        self.assertEqual(self.says(FORCED, *front, *table, "ray,low,1", "ray,high,2"), "rejected,7,1,1")
        self.assertEqual(self.says(FORCED, front[0], "revenue,most,100,1", *table, "ray,low,1", "ray,high,1"), "rejected,7,4,2")
        self.assertEqual(self.says(FORCED, front[0], "pay,buyer,most,100,1", *table, "ray,low,1", "ray,high,1"), "rejected,7,4,1")
        self.assertEqual(self.says(FORCED, *front, *table, "ray,low,0", "ray,high,0"), "rejected,8,0")

    def test_refusals(self):
        for place, records, line in (
            (1, ["answer,1,general,optimal"], "line 1: field 3"),
            (1, ["answer,2,required,optimal"], "line 1: field 4"),
            (1, ["answer,1,required,table"], "line 1: field 4"),
            (1, ["answer,1,required,toowide"], "line 1: field 4"),
            (1, ["answer,1,required,infeasible"], "line 3: record"),
            (1, ["answer,1,required,unbounded"], "line 3: record"),
            (2, ["chance,sold,least,3,4"], "line 2: field 2"),
            (2, ["require,1", "chance,sell,least,3,4"], "line 2: record"),
            (2, ["chance,sell,least,3,4", "end"], "line 3: record"),
            (2, [], "line 12: field 2"),  # no row of a condition is there
            (5, ["lottery,low,1,2"], "line 5: sum"),
            (13, ["row,7,0,1"], "line 13: field 2"),
            (14, ["chance,sell,least,3,4"], "line 14: record"),
            (14, ["shadow,1,-1,1"], "line 14: field 2"),
            (14, ["shadow,0,-1,0"], "line 14: field 4"),
            (14, ["shadow,0,x,1"], "line 14: field 3"),
            (14, ["shadow,0,-1"], "line 14: record"),
            (14, ["shadow,0,-1,1"] * 2, "line 15: field 2"),
            (14, ["shadow,0,-1,1", "row,7,0,1"], "line 15: record"),
            (14, [f"shadow,0,{2**62},1"], "line 14: field 3"),
        ):
            self.assertEqual(self.says(SALE, *self.with_record(OPTIMAL, place, *records)), f"answer refused: {line}", records)
        lines = ["answer,1,required,infeasible", *["chance,sell,least,3,4"] * 1001]
        self.assertEqual(self.says(SALE, *lines), "answer refused: line 1002: record")


class Commands(unittest.TestCase):
    def setUp(self):
        folder = tempfile.TemporaryDirectory()
        self.addCleanup(folder.cleanup)
        self.folder = Path(folder.name)

    def write(self, name, *lines):
        (self.folder / name).write_text("".join(line + "\n" for line in lines))
        return str(self.folder / name)

    def test_statuses(self):
        setting = str(FOLDER.parent / "examples/posted-price.toml")
        auction = str(FOLDER.parent / "examples/two-bidders.toml")
        asked = self.write("asked", "require,1", "chance,sell,least,3,4", "end")
        status, text, line = command.outcome(requiring.require, [setting, asked])
        self.assertEqual((status, line), (0, None))
        self.assertEqual(text, "\n".join([*OPTIMAL, "end"]) + "\n")
        answered = self.write("answered", text)
        self.assertEqual(command.outcome(judging.check, [setting, answered]), (0, "valid\n", None))
        beyond = self.write("beyond", "require,1", "revenue,least,2,1", "end")
        self.assertEqual(command.outcome(requiring.require, [setting, beyond])[0], 10)
        said = command.outcome(requiring.require, [auction, "no-such-file"])
        self.assertEqual(said, (65, "", "setting refused: other kind"))
        self.assertEqual(command.outcome(judging.check, [auction, answered]), (66, "", "answer refused: line 1: field 3"))
        for words, status, line in (
            ([setting, "no-such-file"], 70, "read fault"),
            ([setting, setting], 66, "answer refused: line 1: record"),
            ([setting], 64, "usage"),
        ):
            for of in (requiring.require, judging.check):
                self.assertEqual(command.outcome(of, words), (status, "", line))

    def test_each_stored_answer_is_valid_and_found_anew(self):
        names = [path.name.removesuffix("-required.csv") for path in sorted(EXAMPLES.glob("*-required.csv"))]
        self.assertTrue(names)
        for name in names:
            setting, asked = str(EXAMPLES / f"{name.rpartition('-')[0]}.toml"), str(EXAMPLES / f"{name}.csv")
            stored = EXAMPLES / f"{name}-required.csv"
            said = command.outcome(judging.check, [setting, str(stored)])
            self.assertEqual(said, (0, "valid\n", None), name)
            _, text, _ = command.outcome(requiring.require, [setting, asked])
            # The mechanism and the multipliers may be others.
            of_all = [[line for line in lines.splitlines() if line.startswith(("answer,", "value,"))]
                      for lines in (text, stored.read_text())]
            self.assertEqual(of_all[0], of_all[1], name)

    def test_the_comparison(self):
        # The commands of this folder stand in for the program; one that finds another value is told from it.
        program = self.folder / "program"
        for text, wanted in (("", 0), (".replace('value,', 'value,1')", 1)):
            program.write_text(f"""#!/usr/bin/env python3
import sys
sys.path.insert(0, {str(FOLDER)!r})
from second_opinion import command, judging, requiring
of = {{"require": requiring.require, "check": judging.check}}[sys.argv[1]]
status, told, line = command.outcome(of, sys.argv[2:])
print(told{text}, end="")
print("" if line is None else f"mechdes: {{line}}\\n", end="", file=sys.stderr)
sys.exit(status)
""")
            os.chmod(program, 0o755)
            kept = unittest.mock.patch.object(tempfile, "tempdir", str(self.folder))
            with kept, contextlib.redirect_stdout(io.StringIO()) as told, self.assertRaises(SystemExit) as ended:
                require_compare.main([str(program), "2"])
            self.assertEqual(ended.exception.code, wanted, told.getvalue())
            self.assertIn("2 settings", told.getvalue())
