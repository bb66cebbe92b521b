"""Tries which judge `check` gives an answer, and what it refuses. Run this with `python3 -m unittest discover` in second-opinion/."""

import subprocess
import tempfile
import unittest
from pathlib import Path

from second_opinion import command, judging
from second_opinion.places import EXAMPLES, FOLDER

OF_ANOTHER = (66, "", "answer refused: line 1: field 3")
VALID = (0, "valid\n", None)


class Judging(unittest.TestCase):
    def says(self, setting, answer, *words):
        """What `check` comes to."""
        return command.outcome(judging.check, [str(EXAMPLES / f"{setting}.toml"), str(EXAMPLES / f"{answer}.csv"), *words])

    def says_of(self, setting, text, *words):
        """The same of an answer with this text."""
        with tempfile.TemporaryDirectory() as folder:
            path = Path(folder) / "answer.csv"
            path.write_bytes(text)
            return self.says(setting, str(path.with_suffix("")), *words)

    def test_the_first_record_tells_the_judge(self):
        for setting, answer in (("posted-price", "posted-price-answer"), ("welfare-vote", "welfare-vote-fairest"),
                                ("subsidy", "subsidy-none-required"), ("strong-and-weak", "strong-and-weak-by-hand"),
                                ("auction-single", "auction-single-answer")):
            self.assertEqual(self.says(setting, answer), VALID, answer)
            as_read = b"\xef\xbb\xbf" + (EXAMPLES / f"{answer}.csv").read_bytes().replace(b"answer,", b'"answer",', 1)
            self.assertEqual(self.says_of(setting, as_read), VALID, answer)

    def test_what_tells_the_judge_stands_in_the_first_line_without_quotes(self):
        text = (EXAMPLES / "welfare-vote-fairest.csv").read_bytes()
        for other in (b"\n" + text, text.replace(b"fair", b'"fair"', 1)):
            self.assertEqual(self.says_of("welfare-vote", other), OF_ANOTHER)

    def test_an_option_may_stand_anywhere(self):
        setting, answer = str(EXAMPLES / "seats.toml"), str(EXAMPLES / "seats-three.csv")
        for words in (["--units", "3", setting, answer], [setting, "--units=3", answer], [setting, answer, "--units", "3"]):
            self.assertEqual(command.outcome(judging.check, words), VALID, words)
        for words in ([setting, answer, "--units"], [setting, answer, "--units", "03"], [setting, "3", answer], [setting]):
            self.assertEqual(command.outcome(judging.check, words), (64, "", "usage"), words)

    def test_the_number_is_refused_before_a_file_is_read(self):
        for number in ("0", "13"):
            self.assertEqual(self.says("no-such-file", "no-such-file", "--units", number), (67, "", "number refused"))

    def test_answers_that_are_for_another_setting(self):
        self.assertEqual(self.says("seats", "seats-three"), OF_ANOTHER)
        self.assertEqual(self.says("auction-single", "auction-single-answer", "--units", "1"), OF_ANOTHER)
        for answer in ("posted-price-answer", "welfare-vote-fairest", "subsidy-none-required", "strong-and-weak-by-hand",
                       "two-goods-rule"):
            self.assertEqual(self.says("seats", answer), OF_ANOTHER, answer)
            self.assertEqual(self.says("seats", answer, "--units", "3"), OF_ANOTHER, answer)
        self.assertEqual(self.says("posted-price", "strong-and-weak-by-hand"), OF_ANOTHER)
        self.assertEqual(self.says("posted-price", "no-such-file", "--units", "1"), (65, "", "setting refused: other kind"))

    def test_first_records_that_are_none(self):
        for text, reason in (
            (b"", "line 0: ended"),
            (b"answer,1,fair\n", "line 1: record"),
            (b"table,1,fair,optimal\n", "line 1: record"),
            (b"answer,3,fair,optimal\n", "line 1: field 2"),
            (b"answer,1,fairest,optimal\n", "line 1: field 3"),
            (b"answer,1,fair,table\n", "line 1: field 4"),
            (b"answer,2,required,optimal\n", "line 1: field 4"),
        ):
            self.assertEqual(self.says_of("posted-price", text), (66, "", f"answer refused: {reason}"), text)

    def test_answers_of_determ_are_not_judged(self):
        self.assertEqual(self.says("two-goods", "two-goods-rule"), (1, "", "answers of determ are not judged here"))
        words = [str(FOLDER / "check"), str(EXAMPLES / "two-goods.toml"), str(EXAMPLES / "two-goods-rule.csv")]
        done = subprocess.run(words, capture_output=True, check=False)
        self.assertEqual((done.returncode, done.stdout), (1, b""))
        self.assertEqual(done.stderr, b"check: answers of determ are not judged here\n")


if __name__ == "__main__":
    unittest.main()
