"""Proves and builds crates, several at a time, and tells how far it is."""

from __future__ import annotations

import re
import signal
import subprocess
import time
from pathlib import Path
from typing import Dict, List, Mapping, Optional, Sequence, Set, Tuple

import early
from crates import Crate, chains, clear_for, commands_of
from machine import Group, free_memory, tell

# The processor seconds that a crate is expected to take, by its lines and those of the sources below: fitted to fifty crates of a
# measured call, on a machine that took 1.8 times as long. Contracts stand in the sources, and most of the time goes to them.
SECONDS = 3.0
SECONDS_A_SOURCE_LINE = 0.1
SECONDS_A_PROOF_LINE = 0.0035
SECONDS_A_LINE_BELOW = 0.0016
CONSTANT = 300  # so many expected seconds count as measured, beside those that were
# The memory that a proof takes, and the part of it that each further job of it takes.
MEMORY = 1_000_000_000
MEMORY_A_SOURCE_LINE = 1_000_000
MEMORY_A_PROOF_LINE = 200_000
MEMORY_A_LINE_BELOW = 80_000
MEMORY_OF_JOB = 0.6
MOST_JOBS = 4
SECONDS_OF_JOBS = 40  # a crate that takes less gets one job: each further one loads all below, which costs more than it brings
PROVED_AT_MOST = 0.9  # of a crate that is not done
SECONDS_BETWEEN_LINES = 30
SECONDS_BETWEEN_LOOKS = 0.05
KILLED = -signal.SIGKILL


def expected(crate: Crate) -> float:
    """The processor seconds that the proof of a crate is expected to take."""
    below = sum(it.source_lines for it in crate.below)
    own = SECONDS_A_SOURCE_LINE * crate.source_lines + SECONDS_A_PROOF_LINE * (crate.lines - crate.source_lines)
    return SECONDS + own + SECONDS_A_LINE_BELOW * below


def memory_of(crate: Crate, jobs: int = 1) -> float:
    """The bytes that the proof of a crate takes at most."""
    below = sum(it.source_lines for it in crate.below)
    own = MEMORY_A_SOURCE_LINE * crate.source_lines + MEMORY_A_PROOF_LINE * (crate.lines - crate.source_lines)
    return (MEMORY + own + MEMORY_A_LINE_BELOW * below) * (1 + MEMORY_OF_JOB * (jobs - 1))


def shares(ready: Sequence[Crate], idle: int, room: float, is_alone: bool) -> List[Tuple[Crate, int]]:
    """Which of the crates that are ready begin now, in their order, each with its jobs: one where more are ready than processors
    are idle or where it is short, else an equal share of these. One begins in any case where nothing runs."""
    found: List[Tuple[Crate, int]] = []
    for at, crate in enumerate(ready):
        jobs = min(idle // (len(ready) - at) or 1, MOST_JOBS if expected(crate) >= SECONDS_OF_JOBS else 1)
        while jobs > 1 and memory_of(crate, jobs) > room:
            jobs -= 1
        is_first = is_alone and not found
        if not is_first and (idle < 1 or memory_of(crate, jobs) > room):
            break
        found.append((crate, jobs))
        idle, room = idle - jobs, room - memory_of(crate, jobs)
    return found


class Pace:
    """How many seconds pass for each one that was expected: a constant, which counts less the more was measured."""

    def __init__(self) -> None:
        self.expected, self.seconds = float(CONSTANT), float(CONSTANT)

    def add(self, expected: float, seconds: float) -> None:
        self.expected, self.seconds = self.expected + expected, self.seconds + seconds

    def now(self, late: float = 0) -> float:
        """The seconds for each expected one, where crates that are not done are late by so many seconds."""
        return (self.seconds + late) / self.expected


def seconds_left(crates: Sequence[Crate], left: Mapping[Crate, float], at_a_time: int) -> float:
    """About how long what is left will take: all of it side by side, or the longest chain of crates."""
    longest = max(chains(crates, left).values(), default=0)
    return max(sum(left.values()) / at_a_time, longest)


def in_words(seconds: float) -> str:
    minutes = round(seconds / 60)
    if minutes < 1:
        return "less than a minute"
    return f"about {minutes} minute{'s' * (minutes > 1)}"


class Run:
    """A crate that the kit is at work on."""

    def __init__(self, crate: Crate, jobs: int, group: Group, cpu: str) -> None:
        self.crate, self.jobs, self.group, self.began = crate, jobs, group, time.monotonic()
        clear_for(crate)
        crate.log().write_bytes(b"")
        self.left = commands_of(crate, jobs, cpu)
        self.process = self.begun()

    def begun(self) -> subprocess.Popen[bytes]:
        """The next of its commands, which is begun."""
        with open(self.crate.log(), "ab") as log:
            return self.group.start(self.left.pop(0), cwd=self.crate.folder, stdout=log, stderr=subprocess.STDOUT)

    def status(self) -> Optional[int]:
        """The status of the first command that fails, 0 once all ended well, and None while it is at work."""
        status = self.process.poll()
        if status == 0 and self.left:
            self.process, status = self.begun(), None
        return status

    def seconds(self) -> float:
        return time.monotonic() - self.began

    def is_proved(self) -> bool:
        return re.search(r"^logic=proved\b", self.crate.log().read_text(errors="replace"), re.M) is not None


class Builder:
    """Builds crates, each behind those that it stands on in the list, for a program of this level. Some may be given: they are taken as
    they lie there."""

    def __init__(self, crates: Sequence[Crate], at_most: int, cpu: str, given: Sequence[Crate] = ()) -> None:
        self.crates, self.at_most, self.cpu = crates, at_most, cpu
        self.done: Set[Crate] = {*given}
        self.note_built()
        self.weights = {it: expected(it) for it in crates}
        self.order = chains(crates, self.weights)
        self.running: List[Run] = []
        self.failed: List[Crate] = []
        self.alone: List[Crate] = []
        self.early: Optional[early.Early] = None
        self.pace, self.began, self.told_at, self.told = Pace(), time.monotonic(), 0.0, 0
        self.memory = float(free_memory())

    def note_built(self) -> None:
        """Notes which crates are built over libraries that are."""
        for it in self.crates:
            if it not in self.done and self.done >= {*it.uses} and it.is_built(self.cpu):
                self.done.add(it)

    def build(self, top: Optional[Path] = None, words: Optional[Sequence[str]] = None) -> bool:
        """Builds what is not built, and returns whether all is. Where the words of a call are given, the program is tried on them
        before it is proved."""
        if len(self.done) == len(self.crates):
            return True
        self.tell_plan()
        group = self.group = Group()
        try:
            if top:
                self.early = early.begun(group, str(self.crates[0].kit.rt), top, words)
            self.begin()
            while self.running:
                self.wait()
                self.begin()
        finally:
            if self.early:
                self.early.end()
            group.end()
            for it in self.running:
                it.process.wait()
        if not self.failed:
            tell(f"all is proved and built ({in_words(time.monotonic() - self.began)} in this call)")
        return not self.failed

    # What runs

    def idle(self) -> int:
        """How many processors neither a proof nor the early answer has."""
        return self.at_most - sum(it.jobs for it in self.running) - self.has_early()

    def has_early(self) -> bool:
        return self.early is not None and self.early.is_running()

    def room(self) -> float:
        """The bytes that can still be planned on."""
        planned = sum(memory_of(it.crate, it.jobs) for it in self.running) + early.MEMORY * self.has_early()
        return min(self.memory - planned, free_memory())

    def begin(self) -> None:
        """Begins what can be begun now. A crate that was killed runs with nothing beside it."""
        if self.failed:
            return
        self.note_built()
        busy = {it.crate for it in self.running}
        if not busy:
            self.memory = float(free_memory())
        elif busy & {*self.alone}:
            return
        ready = [it for it in self.crates if it not in self.done | busy and self.done >= {*it.uses}]
        lone = [it for it in ready if it in self.alone]
        if lone:
            begun = [] if busy else [(lone[0], 1)]
        else:
            begun = shares(sorted(ready, key=lambda it: -self.order[it]), self.idle(), self.room(), not busy)
        for crate, jobs in begun:
            self.start(crate, jobs)

    def start(self, crate: Crate, jobs: int) -> None:
        for it in [crate, *crate.below]:
            if it.see() != it.seen:
                self.failed.append(crate)
                tell(f"what {it.name} is built of was changed meanwhile: call this again")
                return
        self.running.append(Run(crate, jobs, self.group, self.cpu))

    def wait(self) -> None:
        """Waits until a crate is done or the early answer is there, and tells now and then how far it is."""
        had_early = self.has_early()
        while self.running:
            ended = [(it, status) for it in self.running for status in [it.status()] if status is not None]
            for it, status in ended:
                self.running.remove(it)
                self.end(it, status)
            if ended or had_early > self.has_early():
                return
            if time.monotonic() - self.told_at >= SECONDS_BETWEEN_LINES:
                self.tell_progress("", f"; at work: {self.names_running()}")
            time.sleep(SECONDS_BETWEEN_LOOKS)

    def end(self, run: Run, status: int) -> None:
        crate = run.crate
        if status == KILLED and crate not in self.alone:
            self.alone.append(crate)
            tell(f"{crate.name} was killed, most likely for memory: it is tried once more, with nothing beside it")
        elif status:
            is_refused = status == 1 and not run.is_proved()
            self.fail(crate, "is not proved" if is_refused else f"was not built (the kit ended with the status {status})")
        elif crate.see() != crate.seen:
            self.fail(crate, "was changed meanwhile")
        else:
            crate.record().write_text(crate.built(self.cpu))
            self.done.add(crate)
            self.pace.add(self.weights[crate], run.seconds())
            self.tell_progress(f"{crate.name} is proved ({run.seconds():.0f} s); ", "")

    def fail(self, crate: Crate, why: str) -> None:
        self.failed.append(crate)
        tell(f"{crate.name} {why}: see {crate.log()}")
        if self.running:
            tell(f"nothing more is begun, and the call ends once those are done that run beside it: {self.names_running()}")

    # What it tells

    def left(self) -> Dict[Crate, float]:
        """The seconds that are left of each crate."""
        pace = self.pace.now(self.late())
        found = {it: 0 if it in self.done else pace * self.weights[it] for it in self.crates}
        for it in self.running:
            found[it.crate] = max(found[it.crate] - it.seconds(), (1 - PROVED_AT_MOST) * found[it.crate])
        return found

    def late(self) -> float:
        """By how many seconds crates that are not done take longer than expected."""
        return sum(max(0, it.seconds() - self.pace.now() * self.weights[it.crate]) for it in self.running)

    def at_a_time(self) -> int:
        """How many crates memory and processors allow at a time."""
        usual = sum(map(memory_of, self.crates)) / len(self.crates)
        return max(1, min(self.at_most, int(self.memory // usual)))

    def progress(self) -> str:
        """The share of the work that is done, which never falls, and about how long the rest will take."""
        left = self.left()
        whole = self.pace.now(self.late()) * sum(self.weights.values())
        self.told = max(self.told, int(100 - 100 * sum(left.values()) / (whole or 1)))
        return f"{self.told} % of the work is done, {in_words(seconds_left(self.crates, left, self.at_a_time()))} left"

    def tell_progress(self, before: str, behind: str) -> None:
        self.told_at = time.monotonic()
        if len(self.done) < len(self.crates):
            tell(f"{before}{self.progress()}{behind}")

    def tell_plan(self) -> None:
        count, lines = len(self.crates) - len(self.done), sum(it.lines for it in self.crates if it not in self.done)
        what = f"{count} crate{'s' * (count > 1)} with {lines:,} lines"
        at_a_time = self.at_a_time()
        self.tell_progress(f"proving and building {what}, {f'up to {at_a_time}' if at_a_time > 1 else 'one'} at a time; ", "")

    def names_running(self) -> str:
        return ", ".join(it.crate.name for it in self.running)
