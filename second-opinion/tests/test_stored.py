"""Has the stored answers of examples/ checked, and finds them anew."""

import unittest
from fractions import Fraction

from second_opinion import answer, command, fair_checking, fairness, finding, judging
from second_opinion.answer import OptimalAnswer
from second_opinion.places import ENDING, EXAMPLES, stored_names
from second_opinion.program import broken
from second_opinion.setting import Refused, read_setting


def first_records(text, count):
    """The first records of an answer."""
    return text.splitlines()[:count]


def names_with(ending):
    """The examples that have an answer with an ending."""
    return [path.name.removesuffix(ending) for path in sorted(EXAMPLES.glob("*" + ending))]


class Stored(unittest.TestCase):
    def check(self, setting, answer):
        """What `check` comes to."""
        return command.outcome(judging.check, [str(EXAMPLES / setting), str(EXAMPLES / answer)])

    def test_each_stored_answer_is_valid(self):
        for name in stored_names():
            text = (EXAMPLES / (name + ENDING)).read_text()
            is_wide = first_records(text, 1)[0].endswith(",toowide")
            expected = (22, "undecided\n", None) if is_wide else (0, "valid\n", None)
            self.assertEqual(self.check(f"{name}.toml", name + ENDING), expected, name)
        for name in names_with("-found.csv"):
            self.assertEqual(self.check(f"{name}.toml", f"{name}-found.csv"), (0, "valid\n", None), name)
        self.assertEqual(self.check("too-wide.toml", "too-wide-elsewhere.csv"), (0, "valid\n", None))

    def test_an_answer_to_another_question_is_not(self):
        cases = [
            ("too-wide.toml", "too-wide-from-rounded.csv", (22, "undecided\n", None)),
            ("compromise-1-3.toml", "compromise-1-4-answer.csv", (20, "rejected,2,14,1\n", None)),
            ("divorce.toml", "divorce-unburnt-answer.csv", (66, "", "answer refused: line 4: record")),
            ("vote.toml", "no-such-file", (70, "", "read fault")),
        ]
        for setting, answer, expected in cases:
            self.assertEqual(self.check(setting, answer), expected, answer)

    def find_anew(self, command_of, name, stored):
        """Finds an answer anew, and compares its first records with those of the stored one."""
        status, found, line = command.outcome(command_of, [str(EXAMPLES / f"{name}.toml")])
        is_optimal = first_records(stored, 1)[0].endswith(",optimal")
        self.assertEqual((status == 0, line), (is_optimal, None), name)
        self.assertEqual(first_records(found, 1 + is_optimal), first_records(stored, 1 + is_optimal), name)

    def test_what_is_found_anew_has_the_same_value(self):
        for ending, command_of in ((ENDING, finding.find), ("-found.csv", finding.find), ("-fairest.csv", fairness.findfair)):
            for name in names_with(ending):
                stored = (EXAMPLES / (name + ending)).read_text()
                if not first_records(stored, 1)[0].endswith(",toowide"):
                    self.find_anew(command_of, name, stored)

    def test_the_fairest_mechanism_keeps_to_the_conditions_and_none_is_fairer(self):
        for name in ("fair-split", "village-bus", "lemons", "divorce"):
            setting = read_setting((EXAMPLES / f"{name}.toml").read_bytes())
            found = fairness.found_fairest(setting)
            self.assertIsInstance(found, OptimalAnswer, name)
            self.assertIsNone(broken(setting, found.mechanism), name)
            amount, total = fair_checking.least_of(setting, found.mechanism)
            self.assertEqual(Fraction(*found.value), Fraction(amount, total * found.mechanism.den), name)
            self.assertEqual(fair_checking.verdict(setting, found), (0, "valid"), name)

    def test_each_stored_answer_about_the_fairest_mechanism_is_valid(self):
        names = names_with("-fairest.csv")
        self.assertTrue(names)
        for name in names:
            self.assertEqual(self.check(f"{name}.toml", f"{name}-fairest.csv"), (0, "valid\n", None), name)


def setting_of(agents, *lines):
    """A setting with one outcome and no objective, whose agents have one type each: what they get of the outcome, and their
    weight."""
    texts = ['format = "mechanism-setting"', "version = 1", 'kind = "general"', 'truth = "dominant"', *lines, 'outcomes = ["only"]']
    for number, (utility, weight) in enumerate(agents):
        texts += ["[[agent]]", f'name = "a{number}"', 'types = ["t"]', f"weights = [{weight}]", f"utility = [[{utility}]]"]
    return read_setting("\n".join(texts).encode())


class Fairest(unittest.TestCase):
    """Answers about the fairest mechanism, each verdict worked out by hand."""

    def says(self, setting, *records):
        """The verdict on an answer, or its refusal."""
        try:
            _, line = fair_checking.verdict(setting, answer.read_fair_answer("\n".join([*records, "end"]).encode(), setting))
        except Refused as refused:
            return refused.line
        return line

    def test_conditions_of_an_optimal_answer(self):
        # The first agent gets 3 and the second nothing, and what one pays the other may have: half of 3 for each.
        setting = setting_of([(3, 1), (0, 1)], 'rational = "none"', "payments = true", "no_deficit = true")
        for value, pays, rows, line in (
            ("3,2", "3,-3", ("0,0,1", "1,0,3", "2,0,1", "3,0,1"), "valid"),
            ("1,1", "3,-4", (), "rejected,1,deficit/t+t,-1,0"),
            ("6,4", "3,-3", (), "rejected,2,3,2"),
            ("3,2", "3,-3", ("0,0,-1",), "rejected,3,0,0,-1"),
            ("3,2", "3,-3", ("0,0,1", "1,0,3", "2,0,1"), "rejected,4,2,0,-1"),
            ("3,2", "3,-3", ("0,0,1", "1,1,3", "2,0,1", "3,0,1"), "rejected,5,1"),
            ("3,2", "3,-3", ("0,0,1", "1,0,4", "2,0,1", "3,0,1"), "rejected,6,2,1,3,2"),
            ("3,2", "3,-3", ("4,0,1",), "answer refused: line 7: field 2"),
        ):
            front = "answer,1,fair,optimal", f"value,{value}", "table,2", "lottery,t,t,2", f"pay,t,t,{pays}", "bound,2"
            self.assertEqual(self.says(setting, *front, *(f"row,{row}" for row in rows)), line)

    def test_a_level_of_more_than_62_bits(self):
        setting, den = setting_of([(3, 1)], 'rational = "none"', "payments = false"), 2**62 - 1
        front = "answer,1,fair,optimal", "value,3,1", f"table,{den}", f"lottery,t,{den}", "bound,1", "row,0,0,3", "row,1,0,-1"
        self.assertEqual(self.says(setting, *front), f"rejected,11,{3 * den}")

    def test_conditions_of_an_infeasible_answer(self):
        setting = setting_of([(0, 1)], 'rational = "ex-post"', "payments = false")
        self.assertEqual(self.says(setting, "answer,1,fair,infeasible", "row,1,1"), "rejected,5,1")
        self.assertEqual(self.says(setting, "answer,1,fair,infeasible", "row,2,1"), "rejected,4,2,-1,0")

    def test_conditions_of_an_unbounded_answer(self):
        # What the agent is paid counts twice.
        setting, most = setting_of([(0, 2)], 'rational = "none"', "payments = true"), 2**62 - 1
        for pay, ray, line in ((0, -1, "valid"), (0, 0, "rejected,7,1,1"), (0, 1, "rejected,7,1,3"),
                               (-most, -1, f"rejected,11,{2 * most}")):
            answered = "answer,1,fair,unbounded", "table,1", "lottery,t,1", f"pay,t,{pay}", f"ray,t,{ray}"
            self.assertEqual(self.says(setting, *answered), line)

    def test_what_is_too_wide_claims_nothing(self):
        setting = setting_of([(0, 1)], 'rational = "none"', "payments = false")
        for version in (1, 2):
            front = f"answer,{version},fair,toowide"
            self.assertEqual(self.says(setting, front, "wide,1,1,20,1", "again", "wide,1,1,20,1"), "undecided")
            self.assertEqual(self.says(setting, front, "wide,1,1,20,1"), "answer refused: line 3: record")
        self.assertEqual(self.says(setting, "answer,2,fair,infeasible"), "answer refused: line 1: field 4")
        self.assertEqual(self.says(setting, "answer,1,general,infeasible"), "answer refused: line 1: field 3")
