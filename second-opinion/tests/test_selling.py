"""Tries `why` over settings that are sales but for one or two changes."""

import tempfile
import unittest
from pathlib import Path

from second_opinion import command, selling
from second_opinion.places import EXAMPLES

SALE = (EXAMPLES / "strong-and-weak.toml").read_text()


def told(text):
    """What `why` comes to of a setting."""
    with tempfile.NamedTemporaryFile("w", suffix=".toml") as file:
        file.write(text)
        file.flush()
        return command.outcome(selling.why, [file.name])


def changed(*pairs):
    """The sale with some of its text replaced."""
    text = SALE
    for old, new in pairs:
        assert old in text, old
        text = text.replace(old, new)
    return text


# Each breaks one condition of a sale alone, in the order of the format.
BREAKS = [
    ([('["keep", "weak", "strong"]', '["keep", "weak", "strong", "burnt"]'), ("0], [0, 3, 0]", "0, 0], [0, 3, 0, 0]"),
      ("4], [0, 0, 6]", "4, 0], [0, 0, 6, 0]")], "the outcomes are 4, and not one more than the agents, 3"),
    ([("[0, 3, 0]]", "[1, 3, 0]]")], "keep is worth 1 to weak at v3+v4, and not 0"),
    ([("[0, 2, 0]", "[0, -2, 0]")], "weak is worth -2 to weak at v2+v4, which is negative"),
    ([("version = 1", "version = 2"),
      ("utility = [[0, 2, 0], [0, 3, 0]]", "utility_at = [[0, 2, 0], [0, 2, 0], [0, 3, 0], [0, 4, 0]]")],
     "what weak is worth to weak at v3+v6 depends on the types of others"),
    ([("[0, 0, 6]", "[0, 5, 6]")], "weak is worth 5 to strong at v2+v6, and not 0"),
    ([('truth = "bayes"', 'truth = "dominant"')], "truth is dominant, and not bayes"),
    ([('rational = "interim"', 'rational = "ex-post"')], "rational is ex-post, and not interim"),
    ([("utility = [[0, 0, 4]", "outside = [0, 1]\nutility = [[0, 0, 4]")], "strong of type v6 has 1 outside, and not 0"),
    ([("payments = true", "payments = false")], "there are no payments"),
    ([("payments = true", "payments = true\nno_deficit = true")], "there is a condition on the deficit"),
    ([("revenue = 1", "revenue = -1")], "revenue is -1, which is negative"),
    ([('types = ["v2", "v3"]', f"types = {[f't{n}' for n in range(11)]}".replace("'", '"')),
      ("weights = [1, 1]\nutility = [[0, 2, 0], [0, 3, 0]]", f"weights = {[1] * 11}\nutility = {[[0, n, 0] for n in range(11)]}")],
     "the agents have 13 types together, and not at most 12"),
    ([("weights = [1, 1]\n", ""), ("payments = true", "payments = true\nprior = [1, 1, 1, 2]")],
     "types depend on each other: v2+v4 has not the chance of its types"),
]


class Selling(unittest.TestCase):
    def test_a_sale(self):
        for text in (SALE, changed(("weights = [1, 1]\n", ""), ("payments = true", "payments = true\nprior = [2, 4, 3, 6]"))):
            self.assertEqual(told(text), (0, "a sale\n", None))

    def test_each_condition(self):
        for pairs, reason in BREAKS:
            self.assertEqual(told(changed(*pairs)), (20, f"not a sale: {reason}\n", None))

    def test_the_first_of_several(self):
        later = [("revenue = 1", "revenue = -1")]
        for pairs, reason in BREAKS[:10]:
            self.assertEqual(told(changed(*pairs, *later)), (20, f"not a sale: {reason}\n", None))

    def test_what_is_refused_before(self):
        self.assertEqual(told("x"), (65, "", "setting refused: not toml"))
        auction = str(Path(EXAMPLES / "auction-keep.toml"))
        self.assertEqual(command.outcome(selling.why, [auction]), (65, "", "setting refused: other kind"))
        self.assertEqual(command.outcome(selling.why, []), (64, "", "usage"))
