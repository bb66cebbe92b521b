"""Settings as values: what they write is what they read, and what the program reads."""

import pathlib
import tempfile
import tomllib
import unittest
from fractions import Fraction
from typing import Any

import mechdes
from mechdes.settings import file_bytes, setting_bytes

from .common import EXAMPLES, text
from .stand_in import Refused as RefusedBySecondOpinion
from .stand_in import setting as second_opinion

WRONG = ["0", "1", "2", "3", "-1", "1.0", "true", "false", '"bayes"', '""', "[]", "[1]", "[[1]]", '["a", "b"]', "{ }", "1000001"]
WRONG += ['"1"', '["1", "2"]', '[["1"]]', "[0.5, 0.5]"]

POSTED = mechdes.Setting(
    truth="dominant",
    rational="ex-post",
    payments=True,
    outcomes=["keep", "sell"],
    agents=[mechdes.Agent("buyer", ["low", "high"], [[0, 1], [0, 3]], weights=[1, 1])],
    objective=mechdes.Objective(revenue=1),
)


class Settings(unittest.TestCase):
    def test_a_setting_made_by_hand_is_that_of_its_file(self) -> None:
        self.assertEqual(mechdes.read_setting(EXAMPLES / "posted-price.toml"), POSTED)
        self.assertEqual(tomllib.loads(POSTED.to_toml()), tomllib.loads(text("posted-price.toml")))

    def test_an_auction_made_by_hand_is_that_of_its_file(self) -> None:
        auction = mechdes.Auction(bidders=2, values=[2, 3, 6], weights=[2, 1, 1])
        self.assertEqual(mechdes.read_setting(EXAMPLES / "auction-ironed.toml"), auction)
        self.assertEqual(tomllib.loads(auction.to_toml()), tomllib.loads(text("auction-ironed.toml")))

    def test_every_example_is_read_as_it_is_written(self) -> None:
        for path in sorted(EXAMPLES.glob("*.toml")):
            with self.subTest(path.name):
                setting = mechdes.read_setting(path)
                self.assertEqual(mechdes.read_setting(setting.to_toml()), setting)

    def verdict(self, file: str) -> Any:
        """What second-opinion/ makes of a file: the setting, or the line that refuses it."""
        try:
            return second_opinion.read_setting(file.encode())
        except RefusedBySecondOpinion as refused:
            return refused.line

    def test_a_changed_file_is_written_as_what_it_means_or_not_read(self) -> None:
        # Each line of some examples with each wrong value, without it, and with a key that is not known there.
        verdicts = {"not read": 0, "taken": 0, "refused": 0}
        for name in ("posted-price", "lemons", "correlated-values", "auction-keep", "partnership-sole"):
            lines = text(f"{name}.toml").splitlines()
            for place, line in enumerate(lines):
                key = line.partition(" =")[0]
                changed = [f"{key} = {wrong}" for wrong in WRONG] if " = " in line and not line.startswith("#") else []
                for other in [*changed, "", f"{line}\nkeep = 0", f"{line}\nutility_at = [[1, 2]]"]:
                    file = "\n".join([*lines[:place], other, *lines[place + 1 :], ""])
                    try:
                        written = mechdes.read_setting(file).to_toml()
                    except mechdes.SettingNotRead:
                        verdicts["not read"] += 1
                        self.assertIsInstance(self.verdict(file), str, file)
                        continue
                    wanted = self.verdict(file)
                    verdicts["refused" if isinstance(wanted, str) else "taken"] += 1
                    self.assertEqual(self.verdict(written), wanted, file)
        self.assertGreater(min(verdicts.values()), 50, verdicts)

    def test_the_program_reads_what_is_written_as_it_reads_the_file(self) -> None:
        for name in ("lemons", "divorce", "correlated-values", "public-good", "auction-keep", "partnership-sole"):
            with self.subTest(name):
                path = EXAMPLES / f"{name}.toml"
                self.assertEqual(mechdes.rows(path), mechdes.rows(mechdes.read_setting(path)))

    def test_a_setting_is_taken_as_a_path_a_text_or_bytes(self) -> None:
        data = (EXAMPLES / "posted-price.toml").read_bytes()
        for given in (EXAMPLES / "posted-price.toml", str(EXAMPLES / "posted-price.toml"), data.decode(), data):
            self.assertEqual(setting_bytes(given), data)
        self.assertEqual(file_bytes(""), b"")
        with self.assertRaises(FileNotFoundError):
            mechdes.read_setting("no-such-file.toml")

    def test_a_file_that_is_written_is_solved_by_its_path(self) -> None:
        with tempfile.TemporaryDirectory() as folder:
            path = pathlib.Path(folder) / "setting.toml"
            path.write_text(POSTED.to_toml())
            self.assertEqual(mechdes.solve(path).value, Fraction(3, 2))

    def test_numbers_that_are_not_exact_are_refused(self) -> None:
        for wrong, kind in ((1.0, TypeError), (True, TypeError), (None, TypeError), ("one", ValueError), ("1/3", ValueError)):
            with self.subTest(wrong), self.assertRaises(kind):
                mechdes.Auction(bidders=2, values=[1, 2], weights=[1, wrong])
            with self.subTest(wrong), self.assertRaises(kind):
                mechdes.Agent("a", ["t"], [[wrong]], weights=[1])
        told = r"agent.utility: 0.1 is a float, which is rounded: write '0.1' or Fraction\('0.1'\) for that number"
        with self.assertRaisesRegex(TypeError, told):
            mechdes.Agent("a", ["t"], [[0.1]], weights=[1])
        for wrong in (Fraction(1, 2), "1", 2.0):
            with self.subTest(wrong), self.assertRaisesRegex(TypeError, "bidders: a whole number is wanted"):
                mechdes.Auction(bidders=wrong, values=[1], weights=[1])

    def test_an_auction_has_one_weight_for_each_value(self) -> None:
        for values, weights, told in (
            ([5, 10], [40], "values has the length 2, and weights has the length 1"),
            ([], [1], "values has the length 0, and weights has the length 1"),
        ):
            with self.subTest(values), self.assertRaisesRegex(ValueError, told):
                mechdes.Auction(bidders=2, values=values, weights=weights)
        file = text("auction-ironed.toml").replace("weights = [2, 1, 1]", "weights = [2, 1]")
        self.assertNotEqual(file, text("auction-ironed.toml"))
        with self.assertRaises(mechdes.SettingNotRead):
            mechdes.read_setting(file)
        with self.assertRaises(mechdes.SettingRefused) as refused:
            mechdes.solve(file)
        self.assertEqual(refused.exception.reason, "shape")

    def test_parts_of_another_kind_are_refused(self) -> None:
        good = {"truth": "bayes", "rational": "none", "payments": False, "outcomes": ["x"], "agents": []}
        mechdes.Setting(**good)
        mistakes = ({"payments": 1}, {"no_deficit": "no"}, {"truth": 3}, {"rational": None}, {"outcomes": "x"}, {"outcomes": [1]})
        for wrong in mistakes:
            with self.subTest(wrong), self.assertRaises(TypeError):
                mechdes.Setting(**{**good, **wrong})
        for name, types, utility in (("a", "types", [[1]]), (3, ["t"], [[1]]), ("a", ["t"], "1"), ("a", ["t"], {1: 2})):
            with self.subTest(name, types=types, utility=utility), self.assertRaises(TypeError):
                mechdes.Agent(name, types, utility, weights=[1])

    def test_what_is_no_setting_is_not_read(self) -> None:
        for wrong in (
            "x = 1\n",
            "not toml\n",
            'format = "mechanism-setting"\nversion = 1\nkind = "lottery"\n',
            text("auction-keep.toml") + "color = 3\n",
            b"\xff",
            'kind = "\ud800"\n',
            f"kind = {'[' * 5000}\n",
        ):
            with self.subTest(wrong), self.assertRaises(mechdes.SettingNotRead):
                mechdes.read_setting(wrong)

    def test_names_are_quoted_as_toml_wants_it(self) -> None:
        strange = mechdes.Agent('a"\\\x7f\n', ["t"], [[1, 2]], weights=[1])
        setting = mechdes.Setting(truth="bayes", rational="none", payments=False, outcomes=["x", "y"], agents=[strange])
        self.assertEqual(mechdes.read_setting(setting.to_toml()), setting)

    def test_profiles_and_weights_are_in_the_order_of_the_format(self) -> None:
        agents = [
            mechdes.Agent("a", ["r", "s"], [[1], [1]], weights=[1, 2]),
            mechdes.Agent("b", ["t", "u"], [[1], [1]], weights=[3, 4]),
        ]
        setting = mechdes.Setting(truth="bayes", rational="none", payments=False, outcomes=["x"], agents=agents)
        self.assertEqual(setting.weights(), {("r", "t"): 3, ("r", "u"): 4, ("s", "t"): 6, ("s", "u"): 8})

    def test_objectives_add_up(self) -> None:
        added = mechdes.Objective(revenue=1, value=[1, 2]) * 3 + mechdes.Objective(welfare=1) * 2
        self.assertEqual(added, mechdes.Objective(welfare=2, revenue=3, value=(3, 6)))
        with self.assertRaises(TypeError):
            mechdes.Auction(bidders=1, values=[1], weights=[1]).with_objective(added)


if __name__ == "__main__":
    unittest.main()
