#!/usr/bin/env python3
"""Tries trials/run over rows of its own, with a program that says what it is told to: `trials/run_test.py`."""

from __future__ import annotations

import contextlib
import importlib.machinery
import importlib.util
import io
import sys
import tempfile
import types
import unittest
from pathlib import Path
from unittest import mock

sys.dont_write_bytecode = True
FOLDER = Path(__file__).resolve().parent

# What it does is its first word: it prints the second one, tells it on standard error, does both, or prints the file of that path
# or its length. The status is the third word.
PROGRAM = r"""#!/bin/sh
case $1 in
print | both) printf '%s\n' "$2" | tr '~' '\n' ;;
show) cat "$2" ;;
length) echo $(wc -c <"$2") ;;
esac
case $1 in
tell | both) echo "mechdes: $2" >&2 ;;
esac
exit "$3"
"""


def loaded() -> types.ModuleType:
    """The runner as a module."""
    loader = importlib.machinery.SourceFileLoader("trials", str(FOLDER / "run"))
    spec = importlib.util.spec_from_loader("trials", loader)
    assert spec is not None
    made = importlib.util.module_from_spec(spec)
    sys.modules["trials"] = made
    loader.exec_module(made)
    return made


trials = loaded()


class Case(unittest.TestCase):
    def setUp(self) -> None:
        room = tempfile.TemporaryDirectory()
        self.addCleanup(room.cleanup)
        self.folder = Path(room.name)
        self.program = self.folder / "program"
        self.program.write_text(PROGRAM)
        self.program.chmod(0o755)

    def run_rows(self, rows: str, shared: str = "") -> tuple[int, str]:
        """The status of a run of these rows, and what it prints."""
        (self.folder / "rows.txt").write_text(rows)
        if shared:
            (self.folder / "shared.txt").write_text(shared)
        with contextlib.redirect_stdout(io.StringIO()) as printed:
            status = trials.run(self.folder, self.program)
        return status, printed.getvalue()

    def assert_right(self, rows: str, count: int = 1, shared: str = "") -> None:
        self.assertEqual(self.run_rows(rows, shared), (0, f"trials/run: {count} rows, 0 wrong\n"))

    def assert_wrong(self, rows: str, *told: str) -> None:
        status, printed = self.run_rows(rows)
        self.assertEqual(status, 1)
        for text in told:
            self.assertIn(text, printed)
        self.assertIn(" 1 wrong\n", printed)

    def assert_refused(self, rows: str, why: str, shared: str = "") -> None:
        with self.assertRaisesRegex(trials.Refused, why):
            self.run_rows(rows, shared)


class RightTest(Case):
    def test_what_is_printed_and_what_is_told(self) -> None:
        self.assert_right("# Two rows.\nprint a~b 0 | 0 | a; b\n\ntell usage 64 | 64 | usage\n", 2)

    def test_parts_of_a_text(self) -> None:
        parts = ["..", "a,1; ..", "a,..; ..", "..; d", "a,1; ..; d", "..; b; ..", "..; b; c; ..", "a,1; b; c; d; .."]
        for expected in [*parts, "a,1\n    b; c\n    d"]:
            self.assert_right(f"print a,1~b~c~d 0 | 0 | {expected}\n")

    def test_one_of_several_statuses(self) -> None:
        self.assert_right("print a 12 | 0/12 | a\n")

    def test_words(self) -> None:
        self.assert_right('print "a b" 0 | 0 | a b\nprint "" 0 | 0\n    ..\n', 2)

    def test_texts(self) -> None:
        text = "text ONE\n    a\n    b\n\ntext TWO\n    ONE; c\n    / b; c -> d; e\n\n"
        self.assert_right(text + "show TWO 0 | 0 | a; d; e\nshow {TWO; f / a; -> / f -> g; h} 0 | 0 | d; e; g; h\n", 2)
        self.assert_right("show {\n    a; b\n    c\n} 0 | 0 | a; b; c\nlength {} 0 | 0 | 0\n", 2)

    def test_texts_that_files_share(self) -> None:
        self.assert_right("show ONE 0 | 0 | a\n", shared="text TWO\n    a\n\ntext ONE\n    TWO\n")

    def test_lines_that_come_often_and_odd_ends(self) -> None:
        self.assert_right("show {a x3; b} 0 | 0 | a; a; a; b\nlength {a x3; b\\} 0 | 0 | 7\n", 2)
        self.assert_right("show {a\\r; ; b} 0 | 0 | a\\r; ; b\nlength {a\\r; ; b} 0 | 0 | 6\n", 2)

    def test_what_was_printed(self) -> None:
        self.assert_right("print a 0 | 0 | a\nshow PRINTED 0 | 0 | a\nshow PRINTED 3 | 3 | a\n", 3)


class WrongTest(Case):
    def test_status(self) -> None:
        self.assert_wrong("print a 20 | 0 | a\n", "rows.txt:1: print a 20\n", "the status is 20, and not 0")

    def test_place_and_both_texts(self) -> None:
        told = ("rows.txt:3: ", "expected:\n        a\n        c\n", "came:\n        b\n")
        self.assert_wrong("# One row.\n\nprint b 0 | 0 | a; c\n", *told)

    def test_text(self) -> None:
        whole = ["b", "a,1; b; c", "a,1; b", "a,1; b; c; d; e"]
        begins = ["a; ..", "b; ..", "a,2..; ..", "a,..", "a,1; c; ..; d"]
        ends = ["..; c", "..; 1; b; ..", "..; e; ..", "..; d; b; .."]
        for expected in [*whole, *begins, *ends]:
            self.assert_wrong(f"print a,1~b~c~d 0 | 0 | {expected}\n", "came:")

    def test_other_stream(self) -> None:
        self.assert_wrong("both a 0 | 0 | a\n", "on the other stream:\n        mechdes: a")
        self.assert_wrong("both a 64 | 64 | a\n", "on the other stream:\n        a")

    def test_stream(self) -> None:
        self.assert_wrong("tell a 0 | 0 | mechdes: a\n", "came:")
        self.assert_wrong("print mechdes:~a 64 | 64 | a\n", "came:")

    def test_refusal(self) -> None:
        self.assert_wrong("tell no 65 | 65 | not so\n", "expected:\n        mechdes: not so")

    def test_what_was_printed(self) -> None:
        self.assert_wrong("print a 0 | 0 | a\nshow PRINTED 0 | 0 | b\n", "rows.txt:2: show PRINTED 0\n")

    def test_a_program_that_does_not_end(self) -> None:
        self.program.write_text("#!/bin/sh\nexec sleep 60\n")
        with mock.patch.object(trials, "LONGEST", 0.2):
            self.assert_wrong("print a 0 | 0 | a\n", "did not end")


class RefusedTest(Case):
    def test_rows(self) -> None:
        ends = ["", " | 0", " | 0 |", " | x | a", " | 0 | a | b"]
        for row in [*("print a 0" + it for it in ends), "print {a 0 | 0 | a", "text one"]:
            self.assert_refused(f"{row}\n", r"rows\.txt:1: ")
        self.assert_refused("# A comment\n    print a 0 | 0 | a\n", r"rows\.txt:2: neither a row nor a text")
        self.assert_refused("print a 0 | 0/64 | a\n", "one status is that of a refusal")
        self.assert_refused("print a 0 | 0 | a..b\n", "at the end of a line")

    def test_names(self) -> None:
        self.assert_refused("show ONE 0 | 0 | a\n", "no text ONE stands above")
        self.assert_refused("show ONE 0 | 0 | a\n\ntext ONE\n    a\n", "no text ONE stands above")
        self.assert_refused("text ONE\n    a\n\ntext ONE\n    b\n\nshow ONE 0 | 0 | a\n", "ONE is something else already")
        self.assert_refused("text PRINTED\n    a\n", "PRINTED is something else already")
        self.assert_refused("text ONE\n    b\n\nshow ONE 0 | 0 | b\n", "ONE is something else already", shared="text ONE\n    a\n")

    def test_what_no_row_uses(self) -> None:
        self.assert_refused("text ONE\n    a\n\ntext TWO\n    ONE\n\nprint a 0 | 0 | a\n", r"rows\.txt: no row uses ONE, TWO")
        self.assert_refused("print a 0 | 0 | a\n", "no row uses ONE", shared="text ONE\n    a\n")

    def test_changes(self) -> None:
        for change, why in (("b -> c", "0 times"), ("a -> c", "2 times"), ("a", "no change"), ("-> a", "no change")):
            self.assert_refused(f"show {{a; a / {change}}} 0 | 0 | a\n", why)
        self.assert_refused("show {a -> b} 0 | 0 | a\n", "no / stands in front")

    def test_files(self) -> None:
        self.assert_refused("# Nothing\n", r"rows\.txt: no row stands in it")
        self.assert_refused("print a 0 | 0 | a\n", r"shared\.txt: rows stand in the other files", shared="print a 0 | 0 | a\n")

    def test_nothing_was_printed(self) -> None:
        self.assert_refused("show PRINTED 0 | 0 | a\n", "nothing was printed above")

    def test_no_file(self) -> None:
        with contextlib.redirect_stdout(io.StringIO()):
            self.assertEqual(trials.run(self.folder, self.program), 1)

    def test_words(self) -> None:
        for words in (["nowhere"], ["a", "b"]):
            with contextlib.redirect_stderr(io.StringIO()):
                self.assertEqual(trials.main(words), 1)


if __name__ == "__main__":
    unittest.main()
