#!/usr/bin/env python3
"""Tries `mechdes explain` as the launcher calls it, over the program that `rt ci` built: `build/explain_test.py`."""

from __future__ import annotations

import json
import os
import pty
import subprocess
import sys
import tempfile
import unittest
from pathlib import Path
from typing import List, Tuple

sys.dont_write_bytecode = True
TOP = Path(__file__).resolve().parent.parent
sys.path.insert(0, str(TOP / "build"))

if sys.version_info < (3, 11):
    print("build/explain_test.py: no python3 of 3.11 or later, so that nothing was tried", file=sys.stderr)
    sys.exit(0)

import explain

SCRIPT = str(TOP / "build/explain.py")
SETTING, ANSWER = "examples/posted-price.toml", "examples/posted-price-answer.csv"
SEATS = ["examples/seats.toml", "examples/seats-three.csv"]
ABSENT = "no-such-file"
# Calls that are refused: the status, and the line.
REFUSED: List[Tuple[List[str], int, str]] = [
    ([], 64, "usage"),
    (["a", "b", "c"], 64, "usage"),
    ([SETTING, "--long"], 64, "usage"),
    ([SETTING, "--js"], 64, "usage"),
    ([SETTING, "--help"], 64, "usage"),
    ([SETTING, ANSWER, "--units"], 64, "usage"),
    ([SETTING, ANSWER, "--units", "03"], 64, "usage"),
    ([ABSENT], 70, "read fault"),
    ([SETTING, ABSENT], 70, "read fault"),
    (["README.md", ABSENT], 65, "setting refused: not toml"),
    ([ABSENT, ANSWER, "--units", "13"], 67, "number refused"),
    (["README.md", ANSWER], 65, "setting refused: not toml"),
    ([SETTING, SETTING], 66, "answer refused: line 1: record"),
    ([SETTING, *SEATS[1:]], 66, "answer refused: line 1: field 3"),
    (SEATS, 66, "answer refused: line 1: field 3"),
    ([SETTING, "examples/used-car-threshold.csv"], 65, "setting refused: other kind"),
]


def called(words: List[str], **environment: str) -> Tuple[int, str, str]:
    """The status of a call, and what it printed and told."""
    environment = {**os.environ, **environment}
    ran = subprocess.run([SCRIPT, *words], cwd=TOP, stdin=subprocess.DEVNULL, capture_output=True, text=True, env=environment)
    return ran.returncode, ran.stdout, ran.stderr


def on_a_terminal(words: List[str], columns: int, **environment: str) -> str:
    """What a call prints on a terminal of so many columns."""
    ours, theirs = pty.openpty()
    environment = {**os.environ, "COLUMNS": str(columns), **environment}
    with subprocess.Popen([SCRIPT, *words], cwd=TOP, stdin=subprocess.DEVNULL, stdout=theirs, env=environment) as ran:
        os.close(theirs)
        found = b""
        while True:
            try:
                part = os.read(ours, 1 << 16)
            except OSError:  # (the other end was closed)
                part = b""
            if not part:
                break
            found += part
        os.close(ours)
    assert ran.returncode == 0
    return found.decode().replace("\r\n", "\n")


class ExplainTest(unittest.TestCase):
    def setUp(self) -> None:
        self.assertTrue(explain.PROGRAM.exists(), "no program, which rt ci builds")

    def test_text(self) -> None:
        status, out, told = called([SETTING, ANSWER])
        self.assertEqual((status, told), (0, ""))
        self.assertTrue(out.startswith("This rule is best: its expected revenue is 1.5 (3/2), and no rule"))
        self.assertIn("\n  high   sell     3\n", out)
        self.assertEqual(called([SETTING])[1], out)

    def test_data(self) -> None:
        status, out, _ = called(["--json", SETTING, ANSWER])
        self.assertEqual((status, json.loads(out)["verdict"]), (0, "valid"))

    def test_units(self) -> None:
        for option in (["--units", "3"], ["--units=3"]):
            status, out, _ = called([*option, *SEATS])
            self.assertEqual((status, out.partition(":")[0]), (0, "This rule is best for three units"))

    def test_an_answer_that_is_wrong_is_explained(self) -> None:
        with tempfile.NamedTemporaryFile("w", suffix=".csv") as file:
            file.write((TOP / ANSWER).read_text().replace("value,3,2", "value,2,1"))
            file.flush()
            status, out, _ = called([SETTING, file.name])
        self.assertEqual(status, 0)
        self.assertIn("The answer states a wrong value: that of its rule is 1.5 (3/2).", out)

    def test_refused(self) -> None:
        for words, status, line in REFUSED:
            with self.subTest(words):
                found = called(words)
                self.assertEqual((found[0], found[1], found[2].splitlines()[:1]), (status, "", [f"mechdes: {line}"]))

    def test_colours_of_a_terminal(self) -> None:
        plain = called([SETTING, ANSWER])[1]
        self.assertNotIn("\033", plain)
        self.assertEqual(on_a_terminal([SETTING, ANSWER], 80, NO_COLOR="1"), plain)
        self.assertIn("\033[1;32mThis rule is best", on_a_terminal([SETTING, ANSWER], 80, NO_COLOR=""))

    def test_the_width_of_a_terminal(self) -> None:
        for columns in (50, 120):
            lengths = [*map(len, on_a_terminal([SETTING, ANSWER], columns, NO_COLOR="1").splitlines())]
            self.assertTrue(columns - 30 < max(lengths) <= columns, lengths)


if __name__ == "__main__":
    unittest.main()
