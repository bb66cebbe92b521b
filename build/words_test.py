#!/usr/bin/env python3
"""Tries what the launcher says by itself, in a fresh copy of the repository and against the program that `rt ci` built:
`build/words_test.py`."""

from __future__ import annotations

import os
import pty
import re
import shutil
import signal
import subprocess
import sys
import tempfile
import time
import unittest
from pathlib import Path
from typing import Dict, List, NamedTuple, Tuple
from unittest import mock

sys.dont_write_bytecode = True
TOP = Path(__file__).resolve().parent.parent
sys.path.insert(0, str(TOP / "build"))

import words
from refusals.faults import TABLE

PROGRAM = TOP / "crates/md_prog/out/md_prog"
SENTENCES = "python/mechdes/refusals"
PARTS = ["mechdes", "README.md", "crates.txt", "build", "crates", "docs/FORMATS.md", "python/pyproject.toml", SENTENCES]
ABSENT = "no-such-file.toml"
HELP = [["help"], ["--help"], ["--version"], ["help", "find"], ["solve", "--help"], ["help", "explain"], ["explain", "--help"]]
# Calls that are refused before the program is built.
REFUSED: List[Tuple[List[str], int]] = [
    ([], 64),
    (["fnid"], 64),
    (["fnid", "x.toml"], 64),
    (["help", "fnid"], 64),
    (["--width"], 64),
    ([""], 64),
    (["find"], 64),
    (["find", "a", "b"], 64),
    (["check", "a"], 64),
    (["make"], 64),
    (["make", "1", "2"], 64),
    (["find", ABSENT], 70),
    (["solve", ABSENT], 70),
    (["check", ABSENT, "README.md"], 70),
    (["units", ABSENT, "3"], 70),
    (["run", ABSENT, "a", "l,r", "0", "0"], 70),
    (["find", ""], 70),
]
# Calls that only the program answers.
LEFT = [
    ["units", ABSENT, "13"],
    ["units", ABSENT, "0"],
    ["units", ABSENT, "03"],
    ["run", ABSENT, "a", "l,r", "0", "x"],
    ["run", ABSENT, "a", "l,r", "0", str(1 << 126)],
    ["solve", ABSENT, "--width"],
    ["solve", "--width=3", ABSENT],
    ["find", "-x"],
    ["find", ABSENT, "--from", "x"],
    ["find", "README.md", "--from"],
    ["make", "x"],
    ["drill", "1000000"],
    ["check", "README.md", ABSENT],
    ["find", "docs"],
]


def called(program: Path, call: List[str], cwd: Path) -> Tuple[int, bytes, bytes]:
    """The status of a call, what it printed, and the first line of what it told."""
    ran = subprocess.run([str(program), *call], cwd=cwd, stdin=subprocess.DEVNULL, stdout=subprocess.PIPE, stderr=subprocess.PIPE)
    return ran.returncode, ran.stdout, ran.stderr.partition(b"\n")[0]


class FreshTest(unittest.TestCase):
    """Calls in a copy where nothing is built."""

    room: tempfile.TemporaryDirectory[str]
    top: Path

    @classmethod
    def setUpClass(cls) -> None:
        cls.room = tempfile.TemporaryDirectory()
        cls.top = Path(cls.room.name)
        for part in PARTS:
            (cls.top / part).parent.mkdir(parents=True, exist_ok=True)
            if (TOP / part).is_dir():
                shutil.copytree(TOP / part, cls.top / part, ignore=shutil.ignore_patterns("out", "__pycache__"))
            else:
                shutil.copy(TOP / part, cls.top / part)

    @classmethod
    def tearDownClass(cls) -> None:
        cls.room.cleanup()

    def call(self, call: List[str]) -> Tuple[int, bytes, bytes]:
        """Makes a call, which builds nothing, and looks that it takes less than a second when the machine lets it."""
        seconds: List[float] = []
        while len(seconds) < 5 and min(seconds, default=1.0) >= 1:
            began = time.monotonic()
            found = called(self.top / "mechdes", call, self.top)
            seconds.append(time.monotonic() - began)
        self.assertLess(min(seconds), 1, call)
        self.assertEqual([*self.top.glob("crates/*/out")], [], call)
        return found

    def test_help_and_version(self) -> None:
        for call in HELP:
            status, out, told = self.call(call)
            self.assertEqual((status, told), (0, b""), call)
            self.assertGreater(len(out.splitlines()), 2)

    def test_refused_as_the_program_refuses(self) -> None:
        self.assertTrue(PROGRAM.exists(), "no program, which rt ci builds")
        for call, status in REFUSED:
            found = self.call(call)
            self.assertEqual(found[0], status, call)
            self.assertEqual(found, called(PROGRAM, call, self.top), call)

    def test_what_the_launcher_refuses_of_its_own_words(self) -> None:
        for words_behind, status, line in (("", 64, b"usage"), ("a b c", 64, b"usage"), (ABSENT, 70, b"read fault")):
            self.assertEqual(self.call(["explain", *words_behind.split()]), (status, b"", b"mechdes: " + line))

    def test_what_the_program_answers_alone(self) -> None:
        self.assertTrue(PROGRAM.exists(), "no program, which rt ci builds")
        known = words.commands()
        for call in LEFT:
            self.assertIsNone(words.refusal_of(call, known), call)
            self.assertGreaterEqual(called(PROGRAM, call, self.top)[0], 64, call)

    def test_a_word_that_is_no_text(self) -> None:
        self.assertIsNone(words.refusal_of([os.fsdecode(b"\xff")], words.commands()))


class WordsTest(unittest.TestCase):
    def test_the_table_of_commands(self) -> None:
        known = words.commands()
        formats = (TOP / "docs/FORMATS.md").read_text()
        for name, form in known.items():
            takes = " ".join(["mechdes", name, *form.arguments, *(f"[{it}]" for it in form.options)])
            self.assertIn(f"    {takes}\n", formats)
            self.assertGreater(len(words.section_of(name)), 100, name)
            self.assertIn(takes, words.help_of(name, form))
        self.assertEqual({it.split()[0] for it in words.purposes() if it.startswith("    ")}, {*known})

    def test_sentences_know_these_commands(self) -> None:
        takes = {name: form.arguments for name, form in words.commands().items()}
        self.assertEqual({name: it["takes"].split() for name, it in TABLE["commands"].items()}, takes)
        may = {name: [it.split()[0] for it in form.options] for name, form in words.commands().items()}
        told = {name: f"{it.get('may', '')} {it.get('options', '')}".split() for name, it in TABLE["commands"].items()}
        self.assertEqual(told, may)
        self.assertEqual([*TABLE["commands"]], [*takes])

    def test_numbers(self) -> None:
        good, bad = ["0", "4", "-4", str((1 << 126) - 1)], ["", "04", "+4", "-0", "4 ", "x", str(1 << 126)]
        self.assertEqual([words.is_number(it) for it in good + bad], [True] * len(good) + [False] * len(bad))

    def test_the_version_without_a_kit(self) -> None:
        with mock.patch.dict(os.environ, PATH="/nowhere"):
            self.assertRegex(words.version(), r"^mechdes \d+\.\d+\.\d+\nthe command rt of the Rattle kit is not on the path\n")


# The program of the tests below: it does what the environment says.
STAND_IN = """#!/bin/sh
eval "$DOES"
"""
SETTING = 'format = "mechanism-setting"\nversion = 1\nkind = "general"\ntruth = "dominent"\n'


class Ended(NamedTuple):
    """How a call on a terminal ended, by its status or its signal, and what stood on the terminal."""

    status: int
    shown: str


class TerminalTest(unittest.TestCase):
    """Calls of the launcher over a program that stands in for the built one."""

    room: tempfile.TemporaryDirectory[str]
    top: Path

    @classmethod
    def setUpClass(cls) -> None:
        cls.room = tempfile.TemporaryDirectory()
        cls.top = Path(cls.room.name)
        for part in ("build", SENTENCES, "crates/md_cli_words/src", "crates/md_cli_words/specs"):
            shutil.copytree(TOP / part, cls.top / part, ignore=shutil.ignore_patterns("__pycache__"))
        for part in ("mechdes", "crates.txt"):
            shutil.copy(TOP / part, cls.top / part)
        (cls.top / "rooms.toml").write_text(SETTING)
        (cls.top / "copies").mkdir()
        out = cls.top / "crates/md_prog/out"
        out.mkdir(parents=True)
        (out / "md_prog").write_text(STAND_IN)
        (out / "md_prog").chmod(0o755)
        (out / "built").write_text(f"{cls.level()} a sum\n")

    @classmethod
    def tearDownClass(cls) -> None:
        cls.room.cleanup()

    @classmethod
    def level(cls) -> str:
        """The level that the launcher builds for here, by its own function."""
        code = (cls.top / "mechdes").read_text()
        function = code[code.index("level() {") : code.index("\n}\n", code.index("level() {")) + 2]
        return subprocess.run(["bash", "-c", f"{function}\nlevel"], stdout=subprocess.PIPE, check=True).stdout.decode().strip()

    def tearDown(self) -> None:
        self.assertEqual([*(self.top / "copies").iterdir()], [], "a copy of standard input was left")

    def environment(self, does: str) -> Dict[str, str]:
        return {**os.environ, "DOES": does, "TMPDIR": str(self.top / "copies")}

    def on_terminal(self, call: List[str], does: str, *, given: bytes = b"", typed: bytes = b"", sent: int = 0) -> Ended:
        """Makes a call on a terminal, at which something is given first. Once the program has said `ready`, something is typed, or
        a signal is sent."""
        child, terminal = pty.fork()
        if child == 0:
            os.chdir(self.top)
            os.execve(self.top / "mechdes", ["mechdes", *call], self.environment(does))
        os.write(terminal, given)
        shown = b""
        while True:
            try:
                shown += os.read(terminal, 1 << 16)
            except OSError:
                break
            if b"ready\r\n" in shown and (typed or sent):
                os.write(terminal, typed) if typed else os.kill(child, sent)
                typed, sent = b"", 0
        os.close(terminal)
        _, status = os.waitpid(child, 0)
        ended = -os.WTERMSIG(status) if os.WIFSIGNALED(status) else os.WEXITSTATUS(status)
        return Ended(ended, shown.decode().replace("\r\n", "\n"))

    def elsewhere(self, call: List[str], does: str, given: bytes = b"") -> Tuple[int, bytes, bytes]:
        """Makes a call away from a terminal."""
        words, environment = [str(self.top / "mechdes"), *call], self.environment(does)
        ran = subprocess.run(words, cwd=self.top, env=environment, input=given, capture_output=True)
        return ran.returncode, ran.stdout, ran.stderr

    def test_a_refusal_has_a_second_line_on_a_terminal_alone(self) -> None:
        line = "mechdes: setting refused: unknown word truth\n"
        does = f"printf '{line}' >&2; exit 65"
        meaning = 'mechdes: rooms.toml, line 4: truth is "dominent", and "dominant" or "bayes" is wanted: is "dominant" meant?\n'
        self.assertEqual(self.on_terminal(["find", "rooms.toml"], does), (65, line + meaning))
        self.assertEqual(self.elsewhere(["find", "rooms.toml"], does), (65, b"", line.encode()))

    def test_files_that_cannot_be_read(self) -> None:
        line = "mechdes: read fault\n"
        for name, meaning in (("none.toml", "there is no file none.toml"), ("build", "build is a folder, and a file is wanted")):
            found = self.on_terminal(["find", name], f"printf '{line}' >&2; exit 70")
            self.assertEqual(found, (70, f"{line}mechdes: {meaning}\n"))

    def test_a_file_that_is_too_long(self) -> None:
        line = "mechdes: setting refused: too long\n"
        (self.top / "long.toml").write_bytes(b"#" * ((1 << 20) + 1))
        meaning = "mechdes: long.toml: the file has more than 1,048,576 bytes\n"
        self.assertEqual(self.on_terminal(["find", "long.toml"], f"printf '{line}' >&2; exit 65"), (65, line + meaning))

    def test_bytes_that_are_no_text(self) -> None:
        line = "mechdes: setting refused: not toml\n"
        (self.top / "bytes.toml").write_bytes(b'kind = "auction"\n# \xff\n')
        meaning = "mechdes: bytes.toml, line 2: the bytes are no text in UTF-8\n"
        self.assertEqual(self.on_terminal(["find", "bytes.toml"], f"printf '{line}' >&2; exit 65"), (65, line + meaning))

    def test_where_nothing_is_found_nothing_is_said(self) -> None:
        line = "mechdes: want of memory\n"
        self.assertEqual(self.on_terminal(["find", "rooms.toml"], f"printf '{line}' >&2; exit 72"), (72, line))

    def test_answers_and_statuses_are_passed_on(self) -> None:
        for does, status, shown in (
            ("echo answer,1; echo end", 0, "answer,1\nend\n"),
            ("exit 10", 10, ""),
            ("printf 'no end of line'; exit 22", 22, "no end of line"),
            ("echo; echo ' b'; exit 12", 12, "\n b\n"),
        ):
            self.assertEqual(self.on_terminal(["find", "rooms.toml"], does), (status, shown))

    def test_words_are_passed_on(self) -> None:
        call = ["run", "a b", "", "*", "--", "-1"]
        self.assertEqual(self.on_terminal(call, 'printf "<%s>" "$@"'), (0, "<run><a b><><*><--><-1>"))

    def test_signals_are_passed_on(self) -> None:
        stops = "echo ready; exec sleep 60"
        for sent in (signal.SIGTERM, signal.SIGHUP, signal.SIGINT):
            self.assertEqual(self.on_terminal(["find", "rooms.toml"], stops, sent=sent), (-sent, "ready\n"))
        # (several times, since here the launcher and the program get the signal at once)
        for _ in range(8):
            self.assertEqual(self.on_terminal(["find", "rooms.toml"], stops, typed=b"\x03"), (-signal.SIGINT, "ready\n^C"))
        handles = "trap 'echo handled; exit 7' TERM; echo ready; while :; do sleep 0.05; done"
        self.assertEqual(self.on_terminal(["find", "rooms.toml"], handles, sent=signal.SIGTERM), (7, "ready\nhandled\n"))

    def test_how_long_it_is_at_work(self) -> None:
        status, shown = self.on_terminal(["find", "rooms.toml"], "sleep 4.5; echo answer,1")
        self.assertEqual((status, shown.split("\r\x1b[K")[-1]), (0, "answer,1\n"))
        seconds = [*map(int, re.findall(r"\r\x1b\[Kmechdes: at work for (\d+) s; Ctrl-C stops it", shown))]
        self.assertEqual(seconds, [*range(2, 2 * len(seconds) + 1, 2)])
        self.assertGreaterEqual(len(seconds), 2)
        for name in ("rooms.toml", "-"):
            self.assertEqual(self.elsewhere(["find", name], "sleep 2.5; echo answer,1"), (0, b"answer,1\n", b""))

    def test_standard_input_as_a_file(self) -> None:
        given = b"one\ntwo"
        self.assertEqual(self.elsewhere(["find", "-"], 'cat "$2"; exit 10', given), (10, given, b""))
        self.assertEqual(self.elsewhere(["check", "rooms.toml", "-"], 'cat "$3"', given), (0, given, b""))
        self.assertEqual(self.elsewhere(["find", "-"], 'wc -c <"$2"', b"#" * ((1 << 20) + 9))[:2], (0, b"1048577\n"))
        self.assertEqual(self.elsewhere(["fnid", "-"], 'echo "$2"'), (0, b"-\n", b""))

    def test_a_refusal_of_standard_input(self) -> None:
        line = "mechdes: answer refused: line 1: record\n"
        found = self.on_terminal(["require", "rooms.toml", "-"], f"printf '{line}' >&2; exit 66", given=b"requires,1\n\x04")
        place = "mechdes: the conditions file on standard input, line 1"
        meaning = f'{place}: the record begins with "requires", and require is wanted: is "require" meant?\n'
        self.assertEqual((found.status, found.shown[-len(line + meaning) :]), (66, line + meaning))

    def test_a_stopped_call_leaves_no_copy(self) -> None:
        stops = "echo ready; exec sleep 60"
        for sent in (signal.SIGTERM, signal.SIGINT):
            found = self.on_terminal(["check", "rooms.toml", "-"], stops, given=b"\x04", sent=sent)
            self.assertEqual(found.status, -sent)

    def test_standard_input_stands_once(self) -> None:
        self.assertEqual(self.elsewhere(["check", "-", "-"], "echo no"), (64, b"", b"mechdes: usage\n"))
        meaning = "mechdes: `-` stands twice, and there is one standard input\n"
        self.assertEqual(self.on_terminal(["check", "-", "-"], "echo no"), (64, f"mechdes: usage\n{meaning}"))


if __name__ == "__main__":
    unittest.main()
