"""Replays the rows of trials/bidders.txt: settings with groups of bidders, and how they are refused. Run this with
`python3 -m unittest discover` in second-opinion/."""

import importlib.machinery
import importlib.util
import sys
import tempfile
import unittest
import unittest.mock
from pathlib import Path

from second_opinion import (
    auditing,
    basis,
    closed_form,
    command,
    fairness,
    finding,
    judging,
    listing,
    reporting,
    requiring,
    ruling,
    selling,
    threshold,
)
from second_opinion.places import TOP
from second_opinion.setting import Refused, read_setting
from second_opinion.show import command as showing

ROWS = TOP / "trials" / "bidders.txt"
COMMANDS = {"rows": listing.rows, "find": finding.find, "threshold": threshold.threshold, "check": judging.check,
            "report": reporting.report}
OTHER_KIND = "setting refused: other kind"
SMALLEST = """format = "mechanism-setting"
version = 3
kind = "bidders"
[[bidder]]
name = "b"
values = [1]
weights = [1]
"""


def loaded():
    """The runner of trials/ as a module, by which its rows are read."""
    loader = importlib.machinery.SourceFileLoader("trials", str(TOP / "trials" / "run"))
    made = importlib.util.module_from_spec(importlib.util.spec_from_loader("trials", loader))
    with unittest.mock.patch.object(sys, "dont_write_bytecode", True), unittest.mock.patch.dict(sys.modules, trials=made):
        loader.exec_module(made)
    return made


def refusal(text):
    """How a setting is refused."""
    try:
        read_setting(text.encode())
    except Refused as refused:
        return refused.line
    return None


class Grouped(unittest.TestCase):
    def written(self, text):
        """The path of a file with a text."""
        with tempfile.NamedTemporaryFile("w", delete=False) as file:
            file.write(text)
        self.addCleanup(Path(file.name).unlink)
        return file.name

    def test_each_row(self):
        # Commands that this folder has not are tried by the reader, to which all of them come first.
        _, rows = loaded().read_file(ROWS, None)
        self.assertEqual(len(rows), 88)
        for row in rows:
            word, file, *_ = row.words
            wanted = row.expected.removeprefix("mechdes: ").rstrip("\n")
            self.assertEqual(row.statuses, [65], row.place)
            self.assertEqual(refusal(file.text), wanted, f"{row.place}: {row.call}")
            if word.text in COMMANDS:
                words = [self.written(it.text) if it.is_file else it.text for it in row.words[1:]]
                self.assertEqual(command.outcome(COMMANDS[word.text], words), (65, "", wanted), f"{row.place}: {row.call}")

    def test_no_command_serves_them(self):
        path = self.written(SMALLEST)
        for function, *words in (
            (auditing.audit, path, "no-such-file"), (judging.check, path, "no-such-file"), (basis.basis, path),
            (judging.check, path, "no-such-file", "--units", "1"), (reporting.report, path, "no-such-file", "--units", "1"),
            (closed_form.closed, path, "1"), (finding.find, path), (fairness.findfair, path), (listing.rows, path),
            (requiring.require, path, "no-such-file"), (ruling.rule, path), (selling.why, path), (showing.show, path, "no-such-file"),
            (threshold.threshold, path, "1"), (threshold.award, path, "1", "1", "0"),
        ):
            self.assertEqual(command.outcome(function, list(words)), (65, "", OTHER_KIND), function.__name__)

    def test_sizes_of_whole_files(self):
        # Lists and groups at their limits and one beyond.
        def groups(count, each=1):
            return "".join(f'[[bidder]]\nname = "b{number}"\ncount = {each}\nvalues = [1]\nweights = [1]\n' for number in range(count))

        def values(count):
            return f'[[bidder]]\nname = "b"\nvalues = {list(range(count))}\nweights = {[1] * count}\n'

        front = SMALLEST.partition("[[")[0]
        for text, is_right in (
            (front + groups(64), True), (front + groups(65), False),
            (front + groups(2, 500), True), (front + groups(2, 501), False), (front + groups(1, 1001), False),
            (front + values(64), True), (front + values(65), False),
            (f"{front}slots = {[1] * 1000}\n{groups(1)}", True), (f"{front}slots = {[1] * 1001}\n{groups(1)}", False),
        ):
            self.assertEqual(refusal(text), OTHER_KIND if is_right else "setting refused: sizes", text[-60:])

    def test_which_refusal_comes_first(self):
        # Each change breaks one thing more, which is told before all that was broken earlier.
        text = SMALLEST.replace("[[bidder]]", "slots = [1, 1]\n[[bidder]]").replace("[1]", "[1, 2]")
        for old, new, wanted in (
            ("slots = [1, 1]", "slots = [1, 2]", "slots order"),
            ("values = [1, 2]", "values = [2, 2]", "values order"),
            ("weights = [1, 2]", "weights = [1, 1000000]", "weight total"),
            ("weights = [1, 1000000]", "weights = [0, 1000000]", "zero weight"),
            ("slots = [1, 2]", "slots = [1, 2000]", "out of range"),
            ("weights = [0, 1000000]", "weights = [0, 1000000, 1]", "shape"),
            ('name = "b"\n', 'name = "b"\ncount = 0\n', "sizes"),
            ("[[bidder]]", '[[bidder]]\nname = "b"\nvalues = [1]\nweights = [1]\n[[bidder]]', "double name"),
            ('name = "b"\nvalues', 'name = ""\nvalues', "bad name"),
            ("[[bidder]]\nname = \"\"", "[[bidder]]\nbids = 1\nname = \"\"", "unknown key"),
            ("bids = 1", "bids = 1\nworth = true", "wrong kind bidder.worth"),
            ("slots = [1, 2000]", "slots = [[1]]", "wrong kind slots"),
            ("version = 3", "version = 2", "unknown word kind"),
        ):
            self.assertEqual(text.count(old), 1, old)
            text = text.replace(old, new)
            self.assertEqual(refusal(text), f"setting refused: {wanted}", text)


if __name__ == "__main__":
    unittest.main()
