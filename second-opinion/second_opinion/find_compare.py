"""Compares `find` and `findfair` of mechdes with `solve` and `fair` and with `find` of this folder, and has their answers checked.

The settings are the general ones of examples/ and bench/settings, twelve sorts of twenty each, and small ones of all kinds. The
seeds are fixed, so that they are the same at each call. Each answer of `find` has to be valid to `check` of mechdes and of this
folder, and so has each of `findfair`. Where the other command has an answer, kind and value have to be the same.

For each sort a line tells how many settings there are, how many of them the search answers and how many the walk (`solve` or
`fair`), and the median and the greatest seconds of the processor that the search took. Settings of which something is wrong are
kept in a folder, which is named, and the status is 1. The program is that of the variable MECHDES, or the one that the repository's
tests build.
"""

import random
import statistics
import sys
import tempfile
from collections.abc import Callable, Iterable, Iterator
from pathlib import Path
from typing import NamedTuple, NoReturn

from second_opinion import command, finding, generate, judging, setting
from second_opinion.measure import processor_seconds, run
from second_opinion.places import TOP, needed_program
from second_opinion.setting import GeneralSetting

EACH = 20  # settings of a sort
SMALL = 200
SMALL_FAIR = 60
TOO_WIDE = 12
UNDECIDED = 22

Told = tuple[int, bytes]  # a status, and what is printed
Faults = Callable[[Path, Path], Iterator[str]]  # from a setting and an answer to what is wrong with it


class Words(NamedTuple):
    """A command that searches, and the one that walks."""

    search: str
    walk: str


BEST = Words("find", "solve")
FAIREST = Words("findfair", "fair")


class Sort(NamedTuple):
    """Settings that take turns in truth, aim and size."""

    name: str
    truths: list[tuple[str, str]]  # truth and rationality
    aims: list[tuple[bool, bool, str]]  # whether agents pay, whether a deficit is forbidden, objective
    sizes: list[tuple[int, int, int]]  # agents, types of each, outcomes
    greatest: int  # utility
    weight: int = 5  # the greatest one
    is_sale: bool = False

    def texts(self) -> Iterator[str]:
        """The texts of its settings."""
        for count in range(EACH):
            form = *self.truths[count % len(self.truths)], *self.aims[count % len(self.aims)]
            size = self.sizes[count // 2 % len(self.sizes)]
            numbers = random.Random(f"{self.name} {count}")
            yield generate.setting_text(numbers, form, size, self.greatest, self.weight, self.is_sale)


BAYES, DOMINANT = ("bayes", "interim"), ("dominant", "ex-post")
BOTH = [BAYES, DOMINANT]
AIMS = [(True, False, "revenue = 1"), (True, True, "welfare = 1"), (True, True, "welfare = 1\nrevenue = 1")]
SORTS = [
    Sort("utilities to 20", [BAYES], AIMS, [(2, 4, 3)], 20),
    Sort("utilities to 100", [BAYES], AIMS, [(2, 4, 3)], 100),
    Sort("utilities to 1,000", [BAYES], AIMS, [(2, 4, 3)], 1000),
    Sort("five outcomes, to 20", [BAYES], AIMS, [(2, 4, 5)], 20),
    Sort("five outcomes, to 100", [BAYES], AIMS, [(2, 4, 5)], 100),
    Sort("five outcomes, to 1,000", [BAYES], AIMS, [(2, 4, 5)], 1000),
    Sort("dominant truth", [DOMINANT], AIMS, [(2, 4, 3)], 100),
    Sort("weights to 9", BOTH, AIMS, [(2, 4, 3)], 100, weight=9),
    Sort("three agents of two types", BOTH, AIMS, [(3, 2, 3)], 100),
    Sort("votes of three agents", [("bayes", "none"), ("dominant", "none")], [(False, False, "welfare = 1")], [(3, 3, 3)], 20),
    Sort("utility net of payments", BOTH, [(True, True, "welfare = 1\nrevenue = -1")], [(2, 4, 3)], 100),
    Sort("sales", BOTH, [(True, False, "revenue = 1")], [(2, 4, 3), (3, 3, 4)], 100, is_sale=True),
]


def main(words: list[str]) -> NoReturn:
    """Compares all, and ends with 1 where something was wrong."""
    comparison = Comparison(needed_program(words))
    small = random.Random(6)
    print(f"{'settings':30} {'count':>5} {'find':>5} {'solve':>5} {'median s':>9} {'greatest s':>10}")
    comparison.compare("examples/ and bench/settings", stored_texts(), BEST)
    for sort in SORTS:
        comparison.compare(sort.name, sort.texts(), BEST)
    comparison.compare("small ones of all kinds", (generate.small_text(small) for _ in range(SMALL)), BEST, found_here)
    fair = (generate.small_text(small) for _ in range(SMALL_FAIR))
    comparison.compare("findfair and fair, small ones", fair, FAIREST)
    comparison.end()


def stored_texts() -> Iterator[str]:
    """The general settings of the repository."""
    for path in sorted([*TOP.glob("examples/*.toml"), *TOP.glob("bench/settings/*.toml")]):
        if isinstance(setting.read_setting(path.read_bytes()), GeneralSetting):
            yield path.read_text()


def claim(told: Told) -> tuple[int, list[bytes]]:
    """What is claimed: the status, the first record, and the value where there is one."""
    status, text = told
    return status, [line for line in text.splitlines() if line.startswith((b"answer,", b"value,"))]


def found_here(toml: Path, csv: Path) -> Iterator[str]:
    """Where `find` of this folder finds another kind or value; it may end with 1, where its numbers are too long."""
    status, text, _ = command.outcome(finding.find, [str(toml)])
    records = claim((status, text.encode()))[1]
    if status != 1 and records != claim((status, csv.read_bytes()))[1]:
        yield f"second-opinion/find: {records}"


class Comparison:
    """Tries settings, and counts those of which something is wrong."""

    def __init__(self, path: str) -> None:
        self.path = path
        self.folder = Path(tempfile.mkdtemp(prefix="find-"))
        self.wrong = 0

    def compare(self, sort: str, texts: Iterable[str], words: Words, *others: Faults) -> None:
        """Compares the command that searches with the one that walks, has its answers checked, and prints the line of a sort of
        settings."""

        def faults(toml: Path, csv: Path) -> Iterator[str]:
            status, printed = run(self.path, "check", toml, csv)
            theirs = status, printed.decode(), None
            for who, verdict in [("mechdes", theirs), ("here", command.outcome(judging.check, [str(toml), str(csv)]))]:
                if verdict != (0, "valid\n", None):
                    yield f"check {who}: {verdict}"
            for other in others:
                yield from other(toml, csv)

        answered, walked, times = 0, 0, []
        for text in texts:
            (self.folder / f"{self.wrong}.toml").write_text(text)
            before = processor_seconds()
            found = run(self.path, words.search, self.folder / f"{self.wrong}.toml")
            times.append(processor_seconds() - before)
            other = run(self.path, words.walk, self.folder / f"{self.wrong}.toml")
            answered += found[0] != UNDECIDED
            walked += other[0] != TOO_WIDE
            self.judge(sort, found, other, faults)
        counts = f"{len(times):5} {answered:5} {walked:5}"
        print(f"{sort:30} {counts} {statistics.median(times):9.3f} {max(times):10.3f}", flush=True)

    def judge(self, sort: str, found: Told, other: Told, faults: Faults) -> None:
        """Tells what is wrong of a setting, and keeps it."""
        toml, csv = (self.folder / f"{self.wrong}.{end}" for end in ["toml", "csv"])
        csv.write_bytes(found[1])
        wrong = []
        if other[0] != TOO_WIDE and claim(found) != claim(other):
            wrong.append(f"{claim(found)}, but the walk says {claim(other)}")
        if found[0] in finding.STATUSES.values():
            wrong += faults(toml, csv)
        elif found != (UNDECIDED, b"undecided\n"):
            wrong.append(f"status {found[0]}")
        for what in wrong:
            print(f"{sort}: {toml}: {what}")
        self.wrong += bool(wrong)

    def end(self) -> NoReturn:
        """Tells how many were wrong, and ends with 1 where any was."""
        for name in self.folder.glob(f"{self.wrong}.*"):
            name.unlink()
        print(f"{self.wrong} wrong" + (f", see {self.folder}" if self.wrong else ""))
        if not self.wrong:
            self.folder.rmdir()
        sys.exit(1 if self.wrong else 0)
