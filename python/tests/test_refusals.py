"""What refusals mean: the sentences of wrong inputs, and the words that were meant."""

import importlib.machinery
import importlib.util
import pathlib
import re
import shlex
import sys
import unittest
from collections.abc import Iterator
from typing import Any, NamedTuple

import mechdes
from mechdes import refusals
from mechdes.refusals.faults import TABLE

from .common import BUILT, TOP, example, stored

CASES = pathlib.Path(__file__).with_name("refusals.txt")
WHOLE = re.compile(r"(\S+) = (.*)")
CHANGE = re.compile(r"(\S+): (.*) ->(?: (.*))?")


class Case(NamedTuple):
    """A wrong input: the words of its call, its files, the program's line, and the sentence."""

    words: list[str]
    files: dict[str, str]
    line: str
    sentence: str

    def read(self, name: str) -> bytes:
        if name not in self.files:
            raise FileNotFoundError(2, "no such file", name)
        return self.files[name].encode()


def unescaped(text: str) -> str:
    return text.replace("\\n", "\n")


def changed(files: dict[str, str], change: str) -> dict[str, str]:
    """The files with one of them changed, or another one."""
    whole, piece = WHOLE.fullmatch(change), CHANGE.fullmatch(change)
    if piece is None:
        assert whole is not None, change
        return {**files, whole[1]: unescaped(whole[2])}
    old, new = unescaped(piece[2]), unescaped(piece[3] or "")
    assert files[piece[1]].count(old) == 1, change
    return {**files, piece[1]: files[piece[1]].replace(old, new)}


def cases() -> Iterator[Case]:
    """The wrong inputs of refusals.txt."""
    known: dict[str, str] = {}
    for item in re.split(r"\n(?=\S)", CASES.read_text()):
        head, *lines = [line.removeprefix("    ") for line in item.rstrip().split("\n")]
        if head.startswith("file "):
            known[head.removeprefix("file ")] = "\n".join(lines) + "\n"
        elif not head.startswith("#"):
            *changes, line, sentence = lines
            files = known
            for change in changes:
                files = changed(files, change)
            yield Case(shlex.split(head), files, line, sentence)


def rows_of_trials() -> Iterator[Any]:
    """The rows of trials/ that are refused, whose lines are those of the program."""
    loader = importlib.machinery.SourceFileLoader("trials_run", str(TOP / "trials/run"))
    spec = importlib.util.spec_from_loader("trials_run", loader)
    assert spec is not None
    module = importlib.util.module_from_spec(spec)
    sys.modules["trials_run"] = module
    loader.exec_module(module)
    for chain in module.read(TOP / "trials"):
        yield from (row for row in chain if row.statuses[0] >= 64 and all(word.text is not None for word in row.words))


class Sentences(unittest.TestCase):
    def test_each_wrong_input_has_its_sentence(self) -> None:
        count = 0
        for case in cases():
            with self.subTest(" ".join(case.words), line=case.line):
                found = refusals.sentence_of(case.words, f"mechdes: {case.line}\n", case.read)
                self.assertEqual(found and found.text, case.sentence)
            count += 1
        self.assertGreaterEqual(count, 65)

    def test_the_program_writes_these_lines(self) -> None:
        tried = 0
        for case in cases():
            files = [word for word in case.words if word in case.files]
            called = iter(("setting", "answer"))
            words = [next(called) if word in case.files else word for word in case.words]
            with self.subTest(" ".join(case.words), line=case.line):
                try:
                    if case.line == "usage" and not BUILT:
                        raise NotImplementedError("the stand-in reads words otherwise")
                    reply = mechdes.call(words, *map(case.read, files))
                except NotImplementedError:
                    continue
                self.assertEqual(reply.err.decode(), f"mechdes: {case.line}\n")
                tried += 1
        self.assertGreater(tried, 50)

    def test_what_is_wrong_with_a_basis(self) -> None:
        # A setting with one agent of two types and two outcomes: 6 rows, and 8 columns.
        setting = (TOP / "examples/posted-price.toml").read_bytes()
        for basis, cause, sentence in (
            ("column,8\n", "line 1: field 2", 'line 1: field 2 of column is "8", and 0 to 7 is wanted'),
            ("slack,0\nslack,0\n", "line 2: field 2", 'line 2: field 2 of slack is "0", and a slack that no record before has is wanted'),
            ("row,0\n", "line 1: record", 'line 1: the record begins with "row", and column or slack is wanted'),
            ("slack,0,1\n", "line 1: record", "line 1: slack has 2 fields behind the word, and 1 is wanted"),
            ("slack,0\n", "line 1: ended", "line 2: the file ends after 1 record, and column or slack is wanted"),
        ):
            with self.subTest(basis):
                files = {"one.toml": setting, "one.csv": basis.encode()}
                told = refusals.sentence_of(["find", "one.toml", "--from", "one.csv"], f"answer refused: {cause}", files.__getitem__)
                self.assertEqual(told and told.text, f"the basis file one.csv, {sentence}")

    def test_all_that_the_program_refuses_is_explained(self) -> None:
        count = 0
        for row in rows_of_trials():
            words = [f"file {place}" if word.is_file else word.text for place, word in enumerate(row.words)]
            files = {f"file {place}": word.text for place, word in enumerate(row.words) if word.is_file}
            with self.subTest(row.place):
                case = Case(words, files, row.expected, "")
                self.assertIsNotNone(refusals.sentence_of(words, row.expected, case.read))
            count += 1
        self.assertGreater(count, 600)

    def test_where_nothing_is_wrong_nothing_is_said(self) -> None:
        files = {"setting": example("posted-price").read_text(), "answer": stored("posted-price-answer").read_text()}
        causes = ["not toml", "missing truth", "wrong kind payments", "unknown word truth", "unknown key", "bad name"]
        causes += ["double name", "sizes", "shape", "out of range", "zero weight", "weight total", "too many rows", "too long"]
        lines = [f"setting refused: {cause}" for cause in causes]
        lines += ["answer refused: line 2: field 2", "answer refused: line 3: sum", "read fault", "usage", "want of memory", ""]
        for line in lines:
            told = refusals.sentence_of(["check", "setting", "answer"], line, Case([], files, "", "").read)
            self.assertIsNone(told, line)

    def test_what_cannot_be_read_again(self) -> None:
        for files in ({}, {"setting": ""}, {"setting": "kind = 1\n", "answer": "\n"}):
            for line in ("setting refused: shape", "answer refused: line 3: field 2", "answer refused: line 7: sum"):
                self.assertIsNone(refusals.sentence_of(["check", "setting", "answer"], line, Case([], files, "", "").read))

class Words(unittest.TestCase):
    def test_distances(self) -> None:
        pairs = [("find", "find", 0), ("fnid", "find", 1), ("fin", "find", 1), ("fins", "find", 1), ("", "ab", 2), ("ca", "abc", 3)]
        for one, other, expected in pairs:
            self.assertEqual(refusals.distance(one, other), expected)
            self.assertEqual(refusals.distance(other, one), expected)

    def test_the_nearest_word(self) -> None:
        known = ["audit", "rows", "run", "solve", "find", "fair"]
        words = ["fnid", "sovle", "audti", "slve", "x", "ru", "rum", "rowz", "elephant", "finger"]
        found = [refusals.nearest(it, known) for it in words]
        self.assertEqual(found, ["find", "solve", "audit", "solve", None, None, "run", "rows", None, None])
        # The first in the order of the table, where several are as near.
        self.assertEqual([refusals.nearest("aaa", it) for it in (["aab", "aac"], ["aac", "aab"])], ["aab", "aac"])


class Exceptions(unittest.TestCase):
    def test_an_exception_says_where(self) -> None:
        text = next(case.files for case in cases() if case.line == "setting refused: shape")["rooms.toml"]
        with self.assertRaises(mechdes.SettingRefused) as caught:
            mechdes.find(text)
        told = caught.exception
        self.assertEqual((told.line, told.key, told.found, told.wanted), (21, "agent.weights", "2 numbers", "there are 3 types"))
        sentence = 'the setting, line 21: agent 2 "bob": weights has 2 numbers, and there are 3 types'
        self.assertEqual(str(told), f"setting refused: shape (status 65): {sentence}")

    def test_an_exception_calls_each_file_what_it_is(self) -> None:
        text = next(cases()).files["rooms.toml"].replace("= dominant", '= "dominant"')
        with self.assertRaises(mechdes.AnswerRefused) as caught:
            mechdes.require(text, "require,1\nrevenue,atleast,1,1\nend\n")
        assert caught.exception.sentence is not None
        self.assertTrue(caught.exception.sentence.text.startswith("the conditions file, line 2: field 2 of revenue"))

    def test_without_a_sentence(self) -> None:
        told = mechdes.Refused(70, "mechdes: read fault\n")
        self.assertEqual((told.line, told.key, told.found, told.wanted), (None, None, None, None))
        self.assertEqual(str(told), "read fault (status 70)")


class Table(unittest.TestCase):
    def test_every_sentence_is_used(self) -> None:
        code = "".join(path.read_text() for path in (TOP / "python/mechdes/refusals").glob("*.py"))
        for name in TABLE["sentences"]:
            self.assertTrue(f'"{name}"' in code, name)


if __name__ == "__main__":
    unittest.main()
