#!/usr/bin/env python3
"""Tries build/libraries and the launcher over small repositories, with a kit that proves nothing: `build/libraries_test.py`."""

from __future__ import annotations

import contextlib
import os
import pty
import re
import runpy
import shutil
import signal
import subprocess
import sys
import tempfile
import time
import types
import unittest
from pathlib import Path
from typing import Any, Callable, List, Mapping, Tuple
from unittest import mock

sys.dont_write_bytecode = True
FOLDER = Path(__file__).resolve().parent
sys.path.insert(0, str(FOLDER))

import early
import machine
import proving
from crates import Failed, Kit, chains, crates_of, find_kit

libraries = types.SimpleNamespace(**runpy.run_path(str(FOLDER / "libraries"), run_name="libraries"))
LONGEST = 20  # seconds that a test waits
Crates = Mapping[str, Tuple[int, str]]  # how many lines a crate has, and what it uses

# Notes its calls, and makes what rattle makes. Where the crate has a file `after`, it waits until what that says stands in the file
# `calls` at the top; where it has a file `fails`, it ends with the status that stands there, and is killed where that is 9. The
# format of a library is the text of its sources.
RATTLE = f"""#!{sys.executable}
import os, sys, time
words = sys.argv[1:]
behind = lambda it: words[words.index(it) + 1]
name, made = behind("--crate-name"), behind("-o")

def text(name):
    return open(name).read() if os.path.exists(name) else ""

def note(*words):
    with open("../../calls", "a") as file:
        print(*words, file=file)

more = [behind(it) for it in ("--cpu", "--jobs") if it in words]
note("begins", name, words[0], *more, *["statements"] * ("--statements" in words))
while text("after") not in text("../../calls"):
    time.sleep(0.01)
note("ends", name)
fails = text("fails")
if fails:
    if fails == "9":
        os.remove("fails")
        os.kill(os.getpid(), 9)
    print("error: it is not so")
    sys.exit(int(fails))
print("logic=proved functions=1")
if words[0] == "check":
    os.makedirs(made)
elif made.endswith(".rlib"):
    os.makedirs(made, exist_ok=True)
    open(made + "/format", "w").write(text("src/lib.rt"))
else:
    open(made, "w").close()
"""
# Makes a program that prints its words and its input.
LINK = f"""#!{sys.executable}
import os, sys
made = sys.argv[sys.argv.index("-o") + 1]
open(made, "w").write('#!/bin/sh\\necho "$@"\\ncat\\nexit 7\\n')
os.chmod(made, 0o755)
"""
# Answers to `rt try` what stands in the file `early` at the top, once that is there, and then tells in `calls` that it did.
RT = f"""#!{sys.executable}
import os, sys, time
with open("../../calls", "a") as file:
    print("tries", *sys.argv[2:], file=file)
while not os.path.exists("../../early"):
    time.sleep(0.01)
text = open("../../early").read()
sys.stdout.write(text)
sys.stdout.flush()
sys.stderr.write("checked: ended status=7\\nrun=ended status=7 runners=1 proved=no\\n" if text else "run=none proved=no\\n")
"""


class Repository:
    """A throw-away repository with the builder, the launcher and the kit above. Its crates are given by their lines and what they
    use."""

    def __init__(self, crates: Crates) -> None:
        self.room = tempfile.TemporaryDirectory()
        self.top = Path(self.room.name).resolve() / "top"
        self.rows: dict[str, str] = {}
        (self.top / "build").mkdir(parents=True)
        (self.top / "kit/bin").mkdir(parents=True)
        for name in ("mechdes", "README.md", *(f"build/{it.name}" for it in FOLDER.glob("*.py")), "build/libraries"):
            shutil.copy(FOLDER.parent / name, self.top / name)
        sentences = "python/mechdes/refusals"
        shutil.copytree(FOLDER.parent / sentences, self.top / sentences, ignore=shutil.ignore_patterns("__pycache__"))
        for name, text in (("rt", RT), ("rattle", RATTLE), ("rattle-link", LINK)):
            (self.top / "kit/bin" / name).write_text(text)
            (self.top / "kit/bin" / name).chmod(0o755)
        (self.top / "kit/bin/python3").symlink_to(sys.executable)
        (self.top / "kit/WHAT").write_text("a kit\n")
        table = "crates/md_cli_words/src/command.rt"
        (self.top / table).parent.mkdir(parents=True)
        shutil.copy(FOLDER.parent / table, self.top / table)
        for name, (lines, uses) in crates.items():
            self.add(name, lines, uses)

    def copy(self) -> Repository:
        """The same in another folder, with what was built."""
        made = object.__new__(Repository)
        made.room, made.rows = tempfile.TemporaryDirectory(), dict(self.rows)
        made.top = Path(made.room.name).resolve() / "top"
        shutil.copytree(self.top, made.top, symlinks=True)
        (made.top / "calls").unlink()
        return made

    def kit(self) -> Kit:
        return Kit(str(self.top / "kit/bin/rt"))

    def crates(self, name: str) -> Any:
        return crates_of(self.top, name, self.kit())

    def add(self, name: str, lines: int, uses: str) -> None:
        name, *kind = name.split()
        self.rows[name] = " ".join([name, *kind]) + f": {uses}\n"
        (self.top / "crates.txt").write_text("".join(self.rows.values()))
        self.write(name, f"src/{'main' if name == 'md_prog' else 'lib'}.rt", "// a line\n" * lines)
        self.write(name, "specs/Lib.antt", "")

    def write(self, name: str, file: str, text: str) -> None:
        path = self.top / "crates" / name / file
        path.parent.mkdir(parents=True, exist_ok=True)
        path.write_text(text)

    def out(self, name: str, file: str) -> Path:
        return self.top / "crates" / name / "out" / file

    def start(self, *words: str, jobs: int = 1, **how: Any) -> subprocess.Popen[str]:
        """Starts a call, which Ctrl-C ends also where these tests were begun in the background."""
        path = f"{self.top / 'kit/bin'}:{os.environ['PATH']}"
        how["preexec_fn"] = lambda: signal.signal(signal.SIGINT, signal.SIG_DFL)
        how = {"stdin": subprocess.DEVNULL, "stdout": subprocess.PIPE, "stderr": subprocess.PIPE, "text": True, **how}
        environment = {**os.environ, "PATH": path, "MECHDES_JOBS": str(jobs)}
        return subprocess.Popen([self.top / words[0], *words[1:]], env=environment, **how)

    def run(self, *words: str, **how: Any) -> tuple[int, str, str]:
        """The status of a call, what it printed and what it told."""
        with self.start(*words, **how) as call:
            out, err = call.communicate(timeout=LONGEST)
        return call.returncode, out, err

    def build(self, name: str, **how: Any) -> tuple[int, str, str]:
        return self.run("build/libraries", name, **how)

    def calls(self) -> list[str]:
        """What the kit noted."""
        file = self.top / "calls"
        return file.read_text().splitlines() if file.exists() else []

    def note(self, text: str) -> None:
        with open(self.top / "calls", "a") as file:
            print(text, file=file)

    def begun(self) -> list[str]:
        """The crates whose proofs were begun."""
        rows = [row.split() for row in self.calls() if row.startswith("begins")]
        return [row[1] for row in rows if row[1:3] != ["md_prog", "build"]]

    def is_kit_running(self) -> bool:
        kit = f"{self.top / 'kit/bin/r'}".encode()
        for process in filter(str.isdigit, os.listdir("/proc")):
            with contextlib.suppress(OSError):
                if any(it.startswith(kit) for it in Path("/proc", process, "cmdline").read_bytes().split(b"\0")):
                    return True
        return False


SMALL = {"md_low": (20, ""), "md_one": (30, "md_low"), "md_two": (60, "md_low"), "md_prog": (5, "md_one md_two")}
SETTING = "mechdes"  # a file that is there


def tearDownModule() -> None:
    for made in Case.once:
        made.room.cleanup()


class Case(unittest.TestCase):
    once: List[Repository] = []

    def kept(self, made: Repository) -> Repository:
        self.addCleanup(made.room.cleanup)
        return made

    def repository(self, crates: Crates = SMALL) -> Repository:
        return self.kept(Repository(crates))

    def built(self) -> Repository:
        """A repository whose program the launcher has built."""
        if not self.once:
            made = Repository(SMALL)
            self.assertEqual(made.run("mechdes", "solve", SETTING, cwd=made.top)[0], 7)
            self.once.append(made)
        return self.kept(self.once[0].copy())

    def wait_for(self, what: str, holds: Callable[[], object]) -> None:
        """Waits until something holds."""
        end = time.monotonic() + LONGEST
        while not holds():
            self.assertLess(time.monotonic(), end, what)
            time.sleep(0.01)


class OrderTest(Case):
    def test_a_chain_is_weighed(self) -> None:
        rows = {"low": (10, ""), "long": (30, "low"), "next": (5, "long"), "short": (20, "low std"), "top": (1, "short next")}
        crates = self.repository(rows).crates("top")
        order = chains(crates, {it: it.lines for it in crates})
        self.assertEqual({it.name: order[it] for it in order}, {"low": 46, "long": 36, "next": 6, "short": 21, "top": 1})

    def test_a_crate_is_expected_to_take_more_with_its_lines_and_those_below(self) -> None:
        made = self.repository({"low": (400, ""), "mid": (200, "low"), "top": (200, "mid")})
        low, mid, top = map(proving.expected, made.crates("top"))
        self.assertLess(mid, low)
        self.assertLess(mid, top)

    def test_only_what_is_below_is_read(self) -> None:
        made = self.repository({"low": (1, ""), "beside": (1, "low"), "top": (1, "low"), "above": (1, "top")})
        self.assertEqual([it.name for it in made.crates("top")], ["low", "top"])
        with self.assertRaises(Failed):
            made.crates("std")

    def test_all_files_of_the_proof_are_counted(self) -> None:
        made = self.repository({"low": (4, "")})
        made.write("low", "specs/Lib.antt", "pub mod Words\n")
        made.write("low", "proofs/add/Answers.antt", "a\nb\n")
        made.write("low", "must-fail/first.edit", "file: src/lib.rt\n")
        (crate,) = made.crates("low")
        self.assertEqual((crate.lines, crate.source_lines), (7, 4))

    def shared(self, ready: str, idle: int, room: float = 1e15, is_alone: bool = True) -> list[tuple[str, int]]:
        """Which of some crates begin, with their jobs: each crate is a letter, and one with a capital letter is short."""
        crates = [types.SimpleNamespace(name=it) for it in ready]
        seconds = mock.patch.object(proving, "expected", lambda it: proving.SECONDS_OF_JOBS - it.name.isupper())
        memory = mock.patch.object(proving, "memory_of", lambda _, jobs=1: 2 + jobs)
        with seconds, memory:
            return [(it.name, jobs) for it, jobs in proving.shares(crates, idle, room, is_alone)]  # type: ignore[arg-type]

    def test_processors_are_shared(self) -> None:
        self.assertEqual(self.shared("a", 1), [("a", 1)])
        self.assertEqual(self.shared("ab", 1), [("a", 1)])
        self.assertEqual(self.shared("a", 2), [("a", 2)])
        self.assertEqual(self.shared("abc", 2), [("a", 1), ("b", 1)])
        self.assertEqual(self.shared("a", 4), [("a", 4)])
        self.assertEqual(self.shared("ab", 4), [("a", 2), ("b", 2)])
        self.assertEqual(self.shared("abc", 4), [("a", 1), ("b", 1), ("c", 2)])
        self.assertEqual(self.shared("abcde", 4), [("a", 1), ("b", 1), ("c", 1), ("d", 1)])
        self.assertEqual(self.shared("a", 16), [("a", 4)])
        self.assertEqual(self.shared("a", 0, is_alone=False), [])
        self.assertEqual(self.shared("", 4), [])

    def test_a_short_crate_gets_one_job(self) -> None:
        self.assertEqual(self.shared("A", 4), [("A", 1)])
        self.assertEqual(self.shared("Ab", 4), [("A", 1), ("b", 3)])

    def test_memory_is_looked_at(self) -> None:
        self.assertEqual(self.shared("ab", 4, 4), [("a", 2)])
        self.assertEqual(self.shared("abcd", 4, 6), [("a", 1), ("b", 1)])
        self.assertEqual(self.shared("ab", 4, 1), [("a", 1)])
        self.assertEqual(self.shared("ab", 3, 1, is_alone=False), [])


class TimeTest(Case):
    def builder(self, crates: Crates, name: str, seconds: Mapping[str, float]) -> proving.Builder:
        """A builder of crates that are expected to take so many seconds."""
        with mock.patch.object(proving, "expected", lambda it: seconds[it.name]):
            return proving.Builder(self.repository(crates).crates(name), 1, "x86-64-v2")

    def running(self, builder: proving.Builder, at: int, seconds: float) -> None:
        run = object.__new__(proving.Run)
        run.crate, run.jobs, run.began = builder.crates[at], 1, time.monotonic() - seconds
        builder.running = [run]

    def test_a_constant_gives_way_to_what_was_measured(self) -> None:
        pace = proving.Pace()
        self.assertEqual(pace.now(), 1)
        pace.add(proving.CONSTANT, 3 * proving.CONSTANT)
        self.assertAlmostEqual(pace.now(), 2)
        pace.add(1e9, 1e9)
        self.assertAlmostEqual(pace.now(), 1, places=4)
        self.assertAlmostEqual(pace.now(1e9), 2, places=4)

    def test_what_is_left_goes_by_all_and_by_the_longest_chain(self) -> None:
        crates = {"low": (1, ""), "one": (1, "low"), "two": (1, "low"), "top": (1, "one two")}
        builder = self.builder(crates, "top", {"low": 100, "one": 300, "two": 300, "top": 50})
        left = builder.left()
        self.assertAlmostEqual(proving.seconds_left(builder.crates, left, 1), 750)
        self.assertAlmostEqual(proving.seconds_left(builder.crates, left, 4), 450)
        builder.done = {*builder.crates[:2]}
        self.assertAlmostEqual(proving.seconds_left(builder.crates, builder.left(), 4), 350)

    def test_a_crate_that_is_late_makes_the_rest_longer(self) -> None:
        builder = self.builder({"low": (1, ""), "top": (1, "low")}, "top", {"low": 60, "top": 240})
        self.running(builder, 0, 60)
        self.assertRegex(builder.progress(), "about 4 minutes left$")
        self.running(builder, 0, 360)
        self.assertRegex(builder.progress(), "about 8 minutes left$")

    def test_minutes_in_words(self) -> None:
        said = [proving.in_words(it) for it in (10, 40, 61, 100, 3600)]
        self.assertEqual(said, ["less than a minute", "about 1 minute", "about 1 minute", "about 2 minutes", "about 60 minutes"])

    def test_the_share_goes_by_seconds_and_never_falls(self) -> None:
        crates = {"low": (1, ""), "mid": (1, "low"), "top": (1, "mid")}
        builder = self.builder(crates, "top", {"low": 100, "mid": 300, "top": 600})
        builder.done = {builder.crates[0]}
        self.assertRegex(builder.progress(), r"^10 % of the work is done, .* left$")
        self.running(builder, 1, 100)
        self.assertRegex(builder.progress(), "^20 %")
        builder.pace.add(1e6, 1e7)
        self.assertRegex(builder.progress(), "^20 %")

    def test_the_machine_is_asked(self) -> None:
        with mock.patch.dict(os.environ, MECHDES_JOBS="3"):
            self.assertEqual(machine.processors(), 3)
        for wrong in ("0", "two", "-1"):
            with mock.patch.dict(os.environ, MECHDES_JOBS=wrong), self.assertRaises(Failed):
                machine.processors()
        with mock.patch.dict(os.environ, MECHDES_JOBS=""):
            self.assertIn(machine.processors(), range(1, len(os.sched_getaffinity(0)) + 1))
        self.assertGreater(machine.free_memory(), 0)


class BuildTest(Case):
    def test_each_crate_once_the_longest_chain_first_and_what_is_told(self) -> None:
        made = self.repository()
        status, out, told = made.build("md_prog", jobs=1)
        self.assertEqual((status, out), (0, ""), told)
        begun = [row for row in made.calls() if row.startswith("begins")]
        libs = [f"begins {name} build 1 statements" for name in ("md_low", "md_two", "md_one")]
        self.assertEqual(begun, [*libs, "begins md_prog check x86-64-v2 1", "begins md_prog build x86-64-v2"])
        lines = told.splitlines()
        plan = "mechdes: proving and building 4 crates with 115 lines, one at a time; "
        self.assertEqual(lines[0], plan + "0 % of the work is done, less than a minute left")
        shares = [int(re.findall(r"(\d+) % of the work is done", it)[0]) for it in lines[:-1]]
        self.assertEqual(shares, sorted(shares))
        self.assertEqual((shares[0], len(shares)), (0, 4))
        self.assertRegex(lines[1], r"^mechdes: md_low is proved \(\d+ s\); ")
        self.assertRegex(lines[-1], "^mechdes: all is proved and built ")
        self.assertTrue(told.replace("\n", "").isprintable())

    def test_crates_over_a_common_one_side_by_side(self) -> None:
        made = self.repository()
        made.write("md_one", "after", "begins md_two")
        made.write("md_two", "after", "begins md_one")
        self.assertEqual(made.build("md_prog", jobs=2)[0], 0)
        self.assertEqual({*made.calls()[2:4]}, {"begins md_one build 1 statements", "begins md_two build 1 statements"})

    def test_it_tells_at_least_every_while(self) -> None:
        made = self.repository({"md_low": (20, "")})
        made.write("md_low", "after", "go on")
        told: list[str] = []

        def tell(text: str) -> None:
            told.append(text)
            if sum("; at work: md_low" in it for it in told) == 2:
                made.note("go on")

        often = mock.patch.multiple(proving, SECONDS_BETWEEN_LINES=0.1, SECONDS_BETWEEN_LOOKS=0.02)
        with often, mock.patch.object(proving, "tell", tell):
            self.assertTrue(proving.Builder(made.crates("md_low"), 1, "x86-64-v2").build())
        self.assertRegex(told[1], r"^\d+ % of the work is done, less than a minute left; at work: md_low$")

    def test_a_static_library(self) -> None:
        made = self.repository({"md_low": (20, ""), "md_embed staticlib": (5, "md_low")})
        self.assertEqual(made.run("build/libraries", "--below", "md_embed")[0], 0)
        self.assertEqual(made.begun(), ["md_low"])
        self.assertEqual(made.build("md_embed")[0], 0)
        self.assertTrue(made.out("md_embed", "libmd_embed.a").is_file())
        self.assertEqual(made.begun(), ["md_low", "md_embed"])

    def test_a_library_over_others_as_they_lie_there(self) -> None:
        made = self.repository({"md_low": (20, ""), "md_embed staticlib": (5, "md_low")})
        made.write("md_low", "out/rlib/md_low.rlib/format", "of rt ci\n")
        self.assertEqual(made.run("build/libraries", "--alone", "md_embed")[0], 0)
        self.assertEqual(made.begun(), ["md_embed"])

    def test_wrong_words(self) -> None:
        for words in ([], ["md_low", "md_one"], ["--all"], ["--below", "md_prog", "--run"], ["--alone", "--below", "a"], ["md_prog", "--cpu"]):
            self.assertIsNone(libraries.asked_in(words), words)
        self.assertEqual(libraries.asked_in(["--cpu", "a", "b", "--run", "--below", "--run"]), ("b", "a", "", ["--below", "--run"]))
        made = self.repository()
        self.assertEqual(made.run("build/libraries")[0], 64)
        self.assertEqual(made.build("md_none")[0], 1)
        self.assertEqual(made.run("build/libraries", "md_low", "--run", "solve", SETTING, cwd=made.top)[0], 1)
        self.assertEqual(made.calls(), [])


class AgainTest(Case):
    def test_what_is_built_is_not_built_again(self) -> None:
        made = self.built()
        self.assertEqual(made.build("md_one"), (0, "", ""))
        self.assertEqual(made.calls(), [])

    def test_a_change_of_a_proof_concerns_its_crate_alone(self) -> None:
        made = self.built()
        made.write("md_one", "proofs/Lib.antt", "mod Sums\n")
        self.assertEqual(made.build("md_one")[0], 0)
        self.assertEqual(made.build("md_two")[0], 0)
        self.assertEqual(made.begun(), ["md_one"])

    def test_a_change_of_what_is_stated_concerns_what_is_above(self) -> None:
        made = self.built()
        made.write("md_one", "src/lib.rt", "// another\n")
        self.assertEqual(made.run("mechdes", "solve", SETTING, cwd=made.top)[0], 7)
        self.assertEqual(made.begun(), ["md_one", "md_prog"])

    def test_a_change_of_what_is_used(self) -> None:
        made = self.built()
        made.add("md_two", 60, "md_low indexmap")
        self.assertEqual(made.build("md_two")[0], 0)
        self.assertEqual(made.begun(), ["md_two"])

    def test_a_library_that_the_kit_made_is_not_taken(self) -> None:
        made = self.built()
        made.out("md_low", "rlib/stamp").touch()
        self.assertEqual(made.build("md_two")[0], 0)
        self.assertEqual(made.begun(), ["md_low"])
        self.assertFalse(made.out("md_low", "rlib/stamp").exists())

    def test_a_library_that_was_made_otherwise_or_removed(self) -> None:
        made = self.built()
        made.out("md_low", "rlib/md_low.rlib/format").write_text("another\n")
        shutil.rmtree(made.out("md_two", "rlib"))
        self.assertEqual(made.build("md_two")[0], 0)
        self.assertEqual(made.begun(), ["md_low", "md_two"])

    def test_another_kit(self) -> None:
        made = self.built()
        (made.top / "kit/WHAT").write_text("another kit\n")
        self.assertEqual(made.build("md_one")[0], 0)
        self.assertEqual(made.begun(), ["md_low", "md_one"])

    def stopped(self, number: int) -> str:
        """Stops a call at md_two, and calls it again."""
        made = self.repository()
        made.write("md_two", "after", "go on")
        with made.start("build/libraries", "md_two", jobs=1) as call:
            self.wait_for("md_two begins", lambda: "md_two" in made.begun())
            self.assertTrue(made.is_kit_running())
            call.send_signal(number)
            _, told = call.communicate(timeout=LONGEST)
        self.assertEqual(call.returncode, -number)
        self.wait_for("the kit ends too", lambda: not made.is_kit_running())
        made.note("go on")
        self.assertEqual(made.build("md_two")[0], 0)
        self.assertEqual(made.begun(), ["md_low", "md_two", "md_two"])
        return told

    def test_interrupted(self) -> None:
        self.assertIn("the next call goes on from there\n", self.stopped(signal.SIGINT))

    def test_killed(self) -> None:
        self.stopped(signal.SIGKILL)

    def test_a_second_call_waits(self) -> None:
        made = self.repository({"md_low": (20, "")})
        made.write("md_low", "after", "go on")
        log = made.top / "second.log"
        with made.start("build/libraries", "md_low") as first, open(log, "w") as file:
            self.wait_for("md_low begins", made.begun)
            with made.start("build/libraries", "md_low", stderr=file) as second:
                self.wait_for("the second waits", lambda: "another call builds here" in log.read_text())
                made.note("go on")
                second.communicate(timeout=LONGEST)
            first.communicate(timeout=LONGEST)
        self.assertEqual((first.returncode, second.returncode), (0, 0))
        self.assertEqual(made.begun(), ["md_low"])


class FailureTest(Case):
    def test_nothing_above_is_tried_and_what_runs_beside_ends(self) -> None:
        made = self.repository()
        made.write("md_one", "fails", "1")
        made.write("md_two", "after", "go on")
        log = made.top / "told"
        with open(log, "w") as file, made.start("build/libraries", "md_prog", jobs=2, stderr=file) as call:
            self.wait_for("it is told", lambda: "run beside it: md_two\n" in log.read_text())
            made.note("go on")
            call.communicate(timeout=LONGEST)
        self.assertEqual(call.returncode, 1)
        self.assertIn(f"mechdes: md_one is not proved: see {made.out('md_one', 'build.log')}\n", log.read_text())
        self.assertIn("error: it is not so\n", made.out("md_one", "build.log").read_text())
        self.assertEqual(made.calls()[-1], "ends md_two")
        self.assertNotIn("md_prog", made.begun())
        (made.top / "crates/md_one/fails").unlink()
        self.assertEqual(made.build("md_prog", jobs=2)[0], 0)
        self.assertEqual(made.begun()[3:], ["md_one", "md_prog"])

    def test_another_status_of_the_kit(self) -> None:
        made = self.repository()
        made.write("md_low", "fails", "3")
        status, _, told = made.build("md_low")
        self.assertEqual(status, 1)
        self.assertIn("md_low was not built (the kit ended with the status 3): see ", told)

    def test_a_proof_that_was_killed_is_tried_alone(self) -> None:
        made = self.repository()
        made.write("md_one", "fails", "9")
        made.write("md_two", "after", "ends md_one")
        status, _, told = made.build("md_prog", jobs=2)
        self.assertEqual(status, 0, told)
        self.assertIn("md_one was killed, most likely for memory", told)
        self.assertEqual(made.begun().count("md_one"), 2)
        self.assertLess(made.calls().index("ends md_two"), len(made.calls()) - 6)

    def test_files_that_change_meanwhile(self) -> None:
        made = self.repository()
        made.write("md_two", "after", "go on")
        with made.start("build/libraries", "md_prog", jobs=1) as call:
            self.wait_for("md_two begins", lambda: "md_two" in made.begun())
            made.write("md_low", "src/lib.rt", "// another line\n")
            made.note("go on")
            _, told = call.communicate(timeout=LONGEST)
        self.assertEqual(call.returncode, 1)
        self.assertIn("what md_low is built of was changed meanwhile: call this again\n", told)
        self.assertEqual(made.begun(), ["md_low", "md_two"])

    def test_no_rt(self) -> None:
        with mock.patch.dict(os.environ, PATH="/nowhere"), self.assertRaisesRegex(Failed, "rt .* is not on the path"):
            find_kit()


class EarlyTest(Case):
    """Calls whose answer before the proof is shown, or is not."""

    def called(self, early_text: str | None, *words: str, jobs: int = 2, **more: str) -> tuple[Repository, int, str, str]:
        """Makes a call whose early answer is this text, and which is proved once that was looked at."""
        made = self.repository({"md_prog": (3, "")})
        if early_text is not None:
            (made.top / "early").write_text(early_text)
            made.write("md_prog", "after", "tries")
        with mock.patch.dict(os.environ, more):
            status, out, told = made.run("mechdes", *words, jobs=jobs, cwd=made.top)
        return made, status, out, told

    def test_the_same_answer(self) -> None:
        words = ["solve", "crates.txt", "no-file", "--width", "8"]
        made, status, out, told = self.called("solve crates.txt no-file --width 8\n", *words)
        self.assertEqual((status, out), (7, "solve crates.txt no-file --width 8\n"), told)
        self.assertIn("tries --data f1=", made.calls()[0] + made.calls()[1])
        self.assertTrue(any(row.endswith("/top/crates.txt -- solve f1 no-file --width 8") for row in made.calls()))
        self.assertIn("mechdes: the program answers, with the status 7, but is not proved yet:\n", told)
        self.assertIn("\nbefore the proof | solve crates.txt no-file --width 8\n", told)
        self.assertNotIn("checked:", told)
        self.assertNotIn("run=", told)

    def test_another_answer_ends_the_call_with_a_failure(self) -> None:
        _, status, out, told = self.called("answer,1\n", "solve", "crates.txt")
        self.assertEqual((status, out), (1, "solve crates.txt\n"))
        self.assertRegex(told, "(?s)before the proof \\| answer,1\n.*the program answered otherwise before its proof")

    def test_none_is_shown_where_the_program_did_not_end(self) -> None:
        _, status, out, told = self.called("", "solve", "crates.txt")
        self.assertEqual((status, out), (7, "solve crates.txt\n"))
        self.assertNotIn("before the proof", told)

    def test_a_long_one_is_not_shown(self) -> None:
        _, status, _, told = self.called("a line\n" * (early.MOST_LINES + 1), "solve", "crates.txt")
        self.assertEqual(status, 7)
        self.assertNotIn("before the proof", told)

    def test_left_out(self) -> None:
        self.assertEqual(self.called(None, "make", "1")[0].calls()[0].split()[0], "begins")
        off = {"MECHDES_EARLY": "0"}
        calls: list[tuple[list[str], int, dict[str, str]]] = [(["solve", SETTING], 1, {}), (["solve", SETTING], 2, off), (["solve", "build"], 2, {})]
        for words, jobs, more in calls:
            made, status, _, _ = self.called(None, *words, jobs=jobs, **more)
            self.assertEqual(status, 7)
            self.assertEqual([row for row in made.calls() if row.startswith("tries")], [], words)

    def test_a_file_that_is_too_long(self) -> None:
        with tempfile.NamedTemporaryFile() as file:
            self.assertEqual(early.as_data(["solve", file.name, "8"]), (["--data", f"f1={file.name}"], ["solve", "f1", "8"]))
            file.truncate(early.LONGEST_FILE + 1)
            self.assertIsNone(early.as_data(["solve", file.name]))

    def test_it_is_ended_with_the_proof(self) -> None:
        made = self.repository({"md_prog": (3, "")})
        made.write("md_prog", "after", "tries")
        status, out, _ = made.run("mechdes", "solve", "crates.txt", jobs=2, cwd=made.top)
        self.assertEqual((status, out), (7, "solve crates.txt\n"))
        self.wait_for("rt ends too", lambda: not made.is_kit_running())

    def test_it_takes_a_processor(self) -> None:
        builder = proving.Builder(self.repository().crates("md_prog"), 4, "x86-64-v2")
        self.assertEqual(builder.idle(), 4)
        room = builder.room()
        builder.early = mock.Mock(is_running=lambda: True)
        self.assertEqual(builder.idle(), 3)
        self.assertLess(builder.room(), room)


class LauncherTest(Case):
    def test_builds_and_then_runs_with_words_input_and_status(self) -> None:
        made = self.repository({"md_prog": (3, "")})
        with open(made.top / "crates.txt") as file:
            status, out, told = made.run("mechdes", "solve", SETTING, "--run", stdin=file, cwd=made.top)
        self.assertEqual(status, 7, told)
        self.assertEqual(out, f"solve {SETTING} --run\nmd_prog: \n")
        self.assertRegex(made.calls()[0], r"^begins md_prog check x86-64-v[23] 1$")

    def test_explain_is_a_script_over_the_program(self) -> None:
        made = self.repository({"md_prog": (3, "")})
        script = made.top / "build/explain.py"
        script.write_text("#!/usr/bin/env python3\nimport sys\nprint('explains', *sys.argv[1:])\n")
        script.chmod(0o755)
        for _ in ("first", "later"):
            status, out, told = made.run("mechdes", "explain", SETTING, cwd=made.top)
            self.assertEqual((status, out), (0, f"explains {SETTING}\n"), told)
        self.assertEqual(made.begun(), ["md_prog"])

    def test_later_calls_start_no_python(self) -> None:
        made = self.built()
        for name in ("build/libraries", "build/words.py", "kit/bin/rt"):
            (made.top / name).unlink()
        self.assertEqual(made.run("mechdes", "solve"), (7, "solve\n", ""))

    def test_a_newer_source_is_built_and_a_failed_build_runs_nothing(self) -> None:
        made = self.built()
        time.sleep(0.02)
        made.write("md_one", "src/lib.rt", "// another\n")
        made.write("md_one", "fails", "1")
        status, out, told = made.run("mechdes", "solve", SETTING, cwd=made.top)
        self.assertEqual((status, out), (1, ""))
        self.assertIn("md_one is not proved: see ", told)
        (made.top / "crates/md_one/fails").unlink()
        self.assertEqual(made.run("mechdes", "solve", SETTING, cwd=made.top)[:2], (7, f"solve {SETTING}\n"))
        self.assertEqual(made.begun(), ["md_one", "md_one", "md_prog"])

    def test_a_source_that_was_only_touched(self) -> None:
        made = self.built()
        time.sleep(0.02)
        (made.top / "crates/md_low/src/lib.rt").touch()
        self.assertEqual(made.run("mechdes", "solve", SETTING, cwd=made.top), (7, f"solve {SETTING}\n", ""))
        self.assertEqual(made.calls(), [])
        (made.top / "build/libraries").unlink()
        self.assertEqual(made.run("mechdes", "solve"), (7, "solve\n", ""))

    def test_a_program_that_another_call_built(self) -> None:
        made = self.built()
        time.sleep(0.02)
        made.out("md_prog", "md_prog").touch()
        self.assertEqual(made.run("mechdes", "solve", SETTING, cwd=made.top)[0], 7)
        self.assertEqual(made.begun(), ["md_prog"])

    def test_a_stopped_call_ends_all(self) -> None:
        made = self.repository({"md_prog": (3, "")})
        made.write("md_prog", "after", "go on")
        with made.start("mechdes", "solve", SETTING, jobs=2, cwd=made.top) as call:
            self.wait_for("md_prog begins", made.begun)
            call.send_signal(signal.SIGTERM)
            out, _ = call.communicate(timeout=LONGEST)
        self.assertEqual((call.returncode, out), (-signal.SIGTERM, ""))
        self.wait_for("the kit ends too", lambda: not made.is_kit_running())

    def test_a_refusal_says_more_on_a_terminal(self) -> None:
        made = self.repository()
        ours, theirs = pty.openpty()
        with made.start("mechdes", "fnid", stderr=theirs) as call:
            call.communicate(timeout=LONGEST)
        os.close(theirs)
        told = os.read(ours, 1000).decode().replace("\r", "")
        os.close(ours)
        self.assertEqual(call.returncode, 64)
        self.assertEqual(told, "mechdes: usage\nmechdes: there is no command `fnid`: is `find` meant?\n")
        self.assertEqual(made.run("mechdes", "fnid"), (64, "", "mechdes: usage\n"))
        self.assertEqual(made.calls(), [])


if __name__ == "__main__":
    unittest.main()
