"""Tries `check` and `report` on an answer about a sale that was worked out by hand, with one thing changed at a time."""

import tempfile
import unittest

from second_opinion import command, judging, reporting
from second_opinion.places import EXAMPLES

SETTING = EXAMPLES / "strong-and-weak.toml"
BY_HAND = (EXAMPLES / "strong-and-weak-by-hand.csv").read_text()

# What is changed, and what is said then. Weights are 1 each, and pairs are the weak bidder with 2 and 3, the strong one with 4 and 6.
FORGED = [
    # the weak one with 3 has 1 of the 2 that it asks for
    ("mass,v3,v4,2,0", "mass,v3,v4,1,1", "rejected,9,1,1,2"),
    # the strong one with 6 gets 12 - 11 halves, and by telling 4 it gets 6 - 4
    ("pays,strong,4,10", "pays,strong,4,11", "rejected,10,3,1,0"),
    # by telling 3 the weak one with 2 gets 2 - 1 halves
    ("pays,weak,0,3", "pays,weak,0,1", "rejected,10,0,1,0"),
    # one more cut, and the last multiplier falls to none: the odds of the strong one with 4 have 6 * 2 - 4 * 4
    ("cut,8\n", "cut,8\ncut,9\n", "rejected,4,2,0,-4"),
    ("value,17,4", "value,9,2", "rejected,2,17,4"),
    ("value,17,4", "value,34,8", "valid"),
    ("row,1,0,2", "row,0,0,-1\nrow,1,0,2", "rejected,3,0,0,-1"),
    # the odds of the weak one with 2: 3 * 2 - 2 * 4
    ("row,10,0,4\n", "", "rejected,4,0,0,-2"),
    # a face multiplier of the cut of the strong one with 6, whose right side is 1
    ("row,8,0,6", "row,8,1,6", "rejected,5,1"),
    # 6 + 3 + 2 * 5 halves, where the payments are 17 halves
    ("row,10,0,4", "row,10,0,5", "rejected,6,19,2,17,2"),
    # the minus part of what the weak one with 2 pays has 2 - 4, and costs -1
    ("bound,2", "bound,1", "rejected,4,8,0,-1"),
]

REFUSED = [
    ("interim,2", "interim,0", "line 3: field 2"),
    ("odds,weak,0,1", "odds,weak,0,3", "line 4: field 4"),
    ("odds,weak,0,1", "odds,strong,0,1", "line 4: field 2"),
    ("odds,strong,1,2", "odds,strong,1", "line 5: record"),
    ("mass,v2,v4,0,2", "mass,v2,v4,-1,2", "line 8: field 4"),
    ("mass,v2,v4,0,2", "mass,v2,v4,1,2", "line 8: sum"),
    ("mass,v2,v4,0,2", "mass,v2,v6,0,2", "line 8: field 3"),
    ("cut,10", "cut,16", "line 13: field 2"),
    ("cut,10", "cut,8", "line 13: field 2"),
    ("row,10,0,4", "row,11,0,4", "line 22: field 2"),
    ("answer,1,asym", "answer,1,auction", "line 1: field 3"),
    ("answer,1,asym,optimal", "answer,2,asym,optimal", "line 1: field 4"),
    ("end\n", "", "line 22: ended"),
]


def told(text, setting=SETTING, function=judging.check):
    """What `check`, or another command, comes to of an answer."""
    with tempfile.NamedTemporaryFile("w", suffix=".csv") as file:
        file.write(text)
        file.flush()
        return command.outcome(function, [str(setting), file.name])


def changed(old, new):
    """The answer with some of its text replaced."""
    assert BY_HAND.count(old) == 1, old
    return BY_HAND.replace(old, new)


# The strong one with 6 pays 11/2. Each value is as likely, so that the revenue is (3/2 + 2 + 11/2)/2, and the welfare (3/2 + 2 + 6)/2. With
# 6 it gets 12 - 11 halves, and by telling 4 it would get 6 - 4. The cut of the strong one with 6 alone is tight; 9 has the weak one with
# 2 besides, who asks for nothing and comes at one more of the profiles.
TOO_DEAR = """value,9,2
revenue,9,2
welfare,19,4
type,weak,v2,0,1,0,1
type,weak,v3,0,1,3,2
type,strong,v4,0,1,2,1
type,strong,v6,1,2,11,2
gain,weak,v3,v2,0,1
gain,strong,v6,v4,1,2
loss,weak,v2,0,1
loss,strong,v4,0,1
tight,truth/weak/v3/v2
tight,rational/weak/v2
tight,rational/weak/v3
tight,rational/strong/v4
tight,cut/8
end
"""


class Reports(unittest.TestCase):
    def test_what_odds_and_pays_do(self):
        answer = changed("pays,strong,4,10", "pays,strong,4,11").replace("cut,10\ncut,15\n", "cut,9\n").replace("row,10,0,4\n", "")
        self.assertEqual(told(answer, function=reporting.report), (0, TOO_DEAR, None))

    def test_refusals(self):
        wide = "answer,1,asym,toowide\ncut,1\nwide,0,0,9,1\nagain\nwide,0,0,9,1\nend\n"
        self.assertEqual(told(wide, function=reporting.report), (66, "", "answer refused: no table"))
        self.assertEqual(told(changed("end\n", ""), function=reporting.report), (66, "", "answer refused: line 22: ended"))
        self.assertEqual(told(BY_HAND, EXAMPLES / "divorce.toml", reporting.report), (66, "", "answer refused: line 1: field 3"))


class Sales(unittest.TestCase):
    def test_the_answer_by_hand_is_valid(self):
        self.assertEqual(told(BY_HAND), (0, "valid\n", None))

    def test_each_condition(self):
        for old, new, line in FORGED:
            self.assertEqual(told(changed(old, new)), (0 if line == "valid" else 20, line + "\n", None), new)

    def test_refusals(self):
        for old, new, reason in REFUSED:
            self.assertEqual(told(changed(old, new)), (66, "", f"answer refused: {reason}"), new)

    def test_too_wide_claims_nothing(self):
        for version in (1, 2):
            text = f"answer,{version},asym,toowide\ncut,1\npivot,0,1\nwide,0,0,9,1\nagain\nwide,0,0,9,1\nend\n"
            self.assertEqual(told(text), (22, "undecided\n", None))

    def test_settings_that_are_no_sale(self):
        for name in ("divorce", "two-bidders"):
            self.assertEqual(told(BY_HAND, EXAMPLES / f"{name}.toml"), (66, "", "answer refused: line 1: field 3"))


if __name__ == "__main__":
    unittest.main()
