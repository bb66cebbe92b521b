"""mutate [PROGRAM [FROM]]: compares mechdes with this folder on files that were made wrong.

Answers of examples/, and of small auctions made at random, are taken and changed: a number, a record, a byte, or the
mechanism as a whole. `mechdes check` and `check` get the same two files, and what they print, their lines on standard
error and their statuses must be the same. So with answers about the fairest mechanism, found here for the settings of
examples/, about several units, found here for the small auctions, and about sales, made at random; with settings that were
changed, with those at the limits of size, and with all settings and answers of examples/ and bench/settings as they are,
but for answers of `determ`, which are not judged here. Of the settings, what `rows` prints is compared too. The changes are
the same at each call.
PROGRAM is mechdes's program: this word, the variable MECHDES, or the one that the repository's tests build. The commands
of this folder run inside this process, and each hundredth time as a process of their own too. Pairs on which the two
differ are kept in a folder, which is named. A run that was broken off is taken up again with FROM, the number of files that
were compared.
"""

import collections
import pathlib
import random
import subprocess
import sys
import tempfile
from collections.abc import Iterator
from fractions import Fraction
from typing import NoReturn

from second_opinion import (
    answer,
    command,
    fair_checking,
    fairness,
    finding,
    judging,
    listing,
    mutate_auctions,
    mutate_sales,
    program,
    setting,
)
from second_opinion.places import FOLDER, TOP, needed_program

ANSWERS = 2000
FAIREST = 1000
SOLD = 2000
UNITS = 1000
SETTINGS = 1000
AUCTIONS = 30
SALES = 40
GROUPED = 500
TOKENS = ["0", "1", "-1", "2", "-0", "+1", "01", "", " ", "x", "1.0", "end", "row", "lottery", "mass", "cut", "again",
          '"1"', '"', "1000", str(2**62 - 1), str(2**62), str(-(2**62)), str(1 - 2**62), str(2**126 - 1),
          str(2**126), str(2**32), "9" * 60]
VALUES = ["0", "1", "-1", "true", "false", '"bayes"', '"x"', '""', "[]", "[1]", "[[1]]", '["a", "b"]', "1.5", "1000000",
          "1000001", "-1000001", "1001", "9223372036854775807", "9223372036854775808", "0x10", "1_0", "{ }",
          "1979-05-27", '"a-b"', '["a", "a"]', '["a b"]', '["o_0", "' + "x" * 33 + '"]', "13", "12", "17", "2",
          "[1, 2, 3]", "[3, 2, 1]", "[[1, 2], [3, 4]]"]


def main() -> None:
    """Compares all, and tells how often each outcome came."""
    comparison = Comparison(needed_program(sys.argv[1:2]), int((sys.argv[2:] or ["0"])[0]))
    pairs = stored_pairs() + mutate_auctions.made_pairs(AUCTIONS)
    tomls = [file.read_bytes() for folder in ["examples", "bench/settings"] for file in sorted((TOP / folder).glob("*.toml"))]
    for toml in tomls:
        comparison.compare_rows("rows as they are", toml)
        for path in sorted(TOP.glob("examples/*.csv")):
            comparison.compare("as it is", toml, path.read_bytes())
    for toml in [*edges(), *mutate_auctions.edges()]:
        comparison.compare_rows("rows at the limits", toml)
    numbers = random.Random(3)
    for _ in range(ANSWERS):
        toml, csv = numbers.choice(pairs)
        comparison.compare("answer", toml, changed_answer(numbers, toml, csv))
    for _ in range(SETTINGS):
        toml, csv = numbers.choice(pairs)
        changed = changed_setting(numbers, toml)
        comparison.compare("setting", changed, csv)
        comparison.compare_rows("rows of a setting", changed)
    fairest = fairest_pairs()
    for _ in range(FAIREST):
        toml, csv = numbers.choice(fairest)
        comparison.compare("answer about the fairest", toml, changed_answer(numbers, toml, csv))
    sales = mutate_sales.made_pairs(comparison.path, SALES)
    for toml, csv in sales:
        comparison.compare("answer about a sale as it is", toml, csv)
    for _ in range(SOLD):
        toml, csv = numbers.choice(sales)
        comparison.compare("answer about a sale", toml, changed_answer(numbers, toml, csv))
    sold = mutate_auctions.unit_pairs(AUCTIONS)
    for _ in range(UNITS):
        units, toml, csv = numbers.choice(sold)
        changed = changed_answer(numbers, toml, csv, units)
        comparison.compare_units("answer about units", units + numbers.choice([0, 0, 0, 0, 1, -1]), toml, changed)
    for _ in range(GROUPED):
        comparison.compare_rows("setting with groups of bidders", changed_setting(numbers, mutate_auctions.GROUPED))
    comparison.report()


def stored_pairs() -> list[tuple[bytes, bytes]]:
    """The settings of examples/, each with the answers whose names begin with its name, as bytes."""
    tomls = {path.stem: path.read_bytes() for path in TOP.glob("examples/*.toml")}
    pairs = []
    for path in sorted(TOP.glob("examples/*.csv")):
        fronts = [name for name in tomls if path.stem.startswith(name)]
        if fronts:
            pairs.append((tomls[max(fronts, key=len)], path.read_bytes()))
    return pairs


def fairest_pairs() -> list[tuple[bytes, bytes]]:
    """The general settings of examples/, each with an answer about its fairest mechanism, as bytes."""
    pairs = []
    for path in sorted(TOP.glob("examples/*.toml")):
        status, found, _ = command.outcome(fairness.findfair, [str(path)])
        if status in finding.STATUSES.values():
            pairs.append((path.read_bytes(), found.encode()))
    return pairs


def edges() -> Iterator[bytes]:
    """Settings at and beyond the limits of size: truth, rationality, payments, types of each agent, outcomes."""
    forms: list[tuple[str, str, str, list[int], int]] = [
        ("bayes", "none", "false", [16, 16], 1), ("bayes", "none", "false", [16, 16], 16),
        ("bayes", "interim", "true", [16, 16], 1), ("bayes", "interim", "true", [16, 16], 2),
        ("dominant", "none", "false", [9, 9], 2), ("dominant", "none", "false", [9, 9], 3),
        ("dominant", "none", "false", [10, 9], 1), ("dominant", "none", "false", [11, 9], 1),
        ("dominant", "ex-post", "true", [2] * 6, 16), ("dominant", "ex-post", "true", [2] * 5, 16),
        ("bayes", "none", "false", [16, 8, 8], 1), ("bayes", "none", "false", [16, 9, 8], 1),
        ("bayes", "none", "false", [4] * 5, 1), ("bayes", "none", "false", [2] * 7, 1),
        ("bayes", "none", "false", [17], 1), ("bayes", "none", "false", [16], 17), ("bayes", "none", "false", [1], 16),
        ("dominant", "ex-post", "true", [16], 16), ("bayes", "none", "false", [], 1), ("bayes", "none", "false", [1], 0),
        ("bayes", "none", "false", [0], 1),
    ]
    for truth, rational, payments, types, outcomes in forms:
        lines = ['format = "mechanism-setting"', "version = 1", 'kind = "general"', f'truth = "{truth}"',
                 f'rational = "{rational}"', f"payments = {payments}", f"outcomes = {texts('o', outcomes)}"]
        lines += ["agent = []"] if not types else []
        for agent, count in enumerate(types):
            utility = [[(kind * 7 + outcome * 5 + agent) % 11 for outcome in range(outcomes)] for kind in range(count)]
            lines += ["[[agent]]", f'name = "a{agent}"', f"types = {texts('t', count)}",
                      f"weights = {[1 + kind % 2 for kind in range(count)]}", f"utility = {utility}"]
        yield "\n".join(lines).encode()


def texts(front: str, count: int) -> str:
    """A list of names, as TOML has it."""
    return str([f"{front}{number}" for number in range(count)]).replace("'", '"')


class Comparison:
    """Runs both commands on pairs of files, and counts what came."""

    def __init__(self, path: str, passed: int) -> None:
        self.path = path
        self.passed = passed
        self.number = 0
        self.folder = pathlib.Path(tempfile.mkdtemp(prefix="second-opinion-"))
        self.counts: collections.Counter[tuple[str, int, str]] = collections.Counter()
        self.tried: collections.Counter[str] = collections.Counter()
        self.differ = 0

    def compare(self, sort: str, toml: bytes, csv: bytes) -> None:
        """Compares `check` on two files."""
        self.compare_command(sort, "check", judging.check, [toml, csv])

    def compare_units(self, sort: str, units: int, toml: bytes, csv: bytes) -> None:
        """Compares `check` of so many units on two files."""
        self.compare_command(sort, "check", judging.check, [toml, csv], "--units", str(units))

    def compare_rows(self, sort: str, toml: bytes) -> None:
        """Compares `rows` on a setting."""
        self.compare_command(sort, "rows", listing.rows, [toml])

    def compare_command(self, sort: str, word: str, function: command.Command, contents: list[bytes], *others: str) -> None:
        """Compares a command on files with these contents, and keeps them where it differs. Other words stand behind their names."""
        self.number += 1
        if self.number <= self.passed:
            return
        if self.number % 500 == 0:
            print(f"mutate: at {self.number}", file=sys.stderr)
        names = [str(self.folder / f"{self.differ}.{end}") for end in ["toml", "csv"][: len(contents)]]
        for name, content in zip(names, contents):
            pathlib.Path(name).write_bytes(content)
        words = [*names, *others]
        status, text, line = command.outcome(function, words)
        if status == command.BEYOND:
            return
        theirs = run([self.path, word, *words])
        ours = status, text, "" if line is None else f"mechdes: {line}\n"
        if self.number % 100 == 0 and ours != run([FOLDER / word, *words]):
            sys.exit(f"mutate: {word} {words}: another outcome as a process of its own")
        self.tried[sort] += 1
        if theirs != ours:
            self.differ += 1
            print(f"{word} {words}: mechdes {str(theirs)[:200]}, here {str(ours)[:200]}", flush=True)
        status, printed, error = theirs
        self.counts[word, status, short(printed + error)] += 1

    def report(self) -> NoReturn:
        """Tells what came, and ends with 1 where the two differed."""
        for name in self.folder.glob(f"{self.differ}.*"):
            name.unlink()
        for (word, status, text), count in sorted(self.counts.items()):
            print(f"{count:6} {word}: {status} {text}")
        for sort, count in self.tried.items():
            print(f"{count:6} compared: {sort}")
        print(f"{self.differ:6} differ" + (f", see {self.folder}" if self.differ else ""))
        if not self.differ:
            self.folder.rmdir()
        sys.exit(1 if self.differ else 0)


def is_fairest(csv: bytes) -> bool:
    """Whether an answer begins as one about the fairest mechanism."""
    return csv.startswith(b"answer,1,fair,")


def is_sold(csv: bytes) -> bool:
    """Whether an answer begins as one about a sale."""
    return csv.startswith(b"answer,1,asym,")


def run(words: list[str | pathlib.Path]) -> tuple[int, str, str]:
    """The status of a command, what it prints, and its standard error."""
    done = subprocess.run([str(word) for word in words], capture_output=True)
    return done.returncode, done.stdout.decode(), done.stderr.decode()


def short(text: str) -> str:
    """What kind of text it is: without the numbers of a rejection or a program, and without the line of a refusal."""
    if text.startswith("rejected"):
        return ",".join(text.strip().split(",")[:2])
    if text.startswith("program"):
        return "program"
    words = text.strip().split(" ")
    return " ".join(word for word in words if not word.rstrip(":").isdigit())


def changed_answer(numbers: random.Random, toml: bytes, csv: bytes, units: int | None = None) -> bytes:
    """An answer with one to three changes; of several units their number is told."""
    if numbers.random() < 0.3:
        return whole_change(numbers, toml, csv, units)
    records = [line.split(",") for line in csv.decode().splitlines()]
    for _ in range(numbers.choice([1, 1, 1, 2, 3])):
        if records:
            record_change(numbers, records)
    text = "\n".join(",".join(record) for record in records) + "\n"
    if numbers.random() < 0.15:
        text = text_change(numbers, text)
    return text.encode("utf-8", "surrogateescape")


def record_change(numbers: random.Random, records: list[list[str]]) -> None:
    """Changes a field, or drops, doubles, exchanges, lengthens or shortens a record."""
    at = numbers.randrange(len(records))
    record = records[at]
    if not record:
        del records[at]
        return
    change = numbers.choice(["near", "near", "near", "token", "token", "drop", "double", "exchange", "longer", "shorter"])
    place = numbers.randrange(len(record))
    if change == "near" and record[place].lstrip("-").isdigit():
        record[place] = str(int(record[place]) + numbers.choice([-7, -2, -1, 1, 1, 2, 100]))
    elif change == "token":
        record[place] = numbers.choice(TOKENS)
    elif change == "drop":
        del records[at]
    elif change == "double":
        records.insert(at, list(record))
    elif change == "exchange":
        other = numbers.randrange(len(records))
        records[at], records[other] = records[other], record
    elif change == "longer":
        record.insert(place, numbers.choice(TOKENS))
    elif change == "shorter":
        del record[place]


def text_change(numbers: random.Random, text: str) -> str:
    """Changes the bytes of a text, whatever they mean."""
    at = numbers.randrange(len(text))
    change = numbers.choice(["byte", "byte", "cut", "end", "crlf", "quote", "blank", "mark", "empty lines", "tail"])
    if change == "byte":
        byte = bytes([numbers.randrange(256)]).decode("utf-8", "surrogateescape")
        return text[:at] + byte + text[at + 1 :]
    if change == "cut":
        return text[:at]
    if change == "end":
        return text.rstrip("\n")
    if change == "crlf":
        return text.replace("\n", numbers.choice(["\r\n", "\r", "\n\r"]))
    if change == "quote":
        return ",".join(f'"{field}"' if "\n" not in field else field for field in text.split(","))
    if change == "blank":
        return text[:at] + " " + text[at:]
    if change == "mark":
        return "\ufeff" + text
    if change == "empty lines":
        return text.replace("\n", "\n\n")
    return text + numbers.choice(["x", "\n\n", "end\n", " ", ",", '"'])


def whole_change(numbers: random.Random, toml: bytes, csv: bytes, units: int | None) -> bytes:
    """An answer that is read, changed as a whole, so that its texts stay in order, and written again."""
    its = setting.read_setting(toml)
    try:
        if isinstance(its, setting.AuctionSetting):
            return mutate_auctions.whole_change(numbers, its, csv, units)
        if is_sold(csv):
            return mutate_sales.whole_change(numbers, its, csv)
        said = (answer.read_fair_answer if is_fairest(csv) else answer.read_answer)(csv, its)
    except setting.Refused:
        return csv
    mechanism = getattr(said, "mechanism", None)
    profiles = list(its.profiles())
    if mechanism is not None:
        profile = numbers.choice(profiles)
        change = numbers.choice(["none", "one outcome", "move", "pay", "pay"])
        if change == "one outcome":
            outcome = numbers.randrange(len(its.outcomes))
            for lottery in mechanism.lotteries.values():
                lottery[:] = [mechanism.den * (place == outcome) for place in range(len(lottery))]
            for pays in mechanism.pays.values():
                pays[:] = [0] * len(pays)
        elif change == "move":
            lottery = mechanism.lotteries[profile]
            numbers.shuffle(lottery)
        elif change == "pay" and its.payments:
            mechanism.pays[profile][numbers.randrange(len(its.agents))] += numbers.choice([-1, 1])
    if isinstance(said, answer.OptimalAnswer) and numbers.random() < 0.9:
        said.value = value_of(its, mechanism, is_fairest(csv))
    if isinstance(said, answer.UnboundedAnswer) and numbers.random() < 0.3:
        said.rays = {profile: [-number * numbers.randrange(2) for number in rays] for profile, rays in said.rays.items()}
    elif isinstance(said, answer.UnboundedAnswer):
        rays = said.rays[numbers.choice(profiles)]
        rays[numbers.randrange(len(rays))] += numbers.choice([-1, 0, 1])
    multipliers = getattr(said, "multipliers", {})
    for _ in range(numbers.randrange(3)):
        rows = its.condition_count() + its.profile_count() + is_fairest(csv) * len(its.agents)
        index = numbers.choice([*multipliers, numbers.randrange(rows)])
        face, main = multipliers.get(index, (0, 0))
        multipliers[index] = face + numbers.choice([0, 0, 0, 1, -1]), main + numbers.choice([0, -1, 1, 1])
    if hasattr(said, "bound") and numbers.random() < 0.2:
        said.bound = max(1, said.bound + numbers.choice([-1, 1]))
    if isinstance(said, (answer.TableAnswer, answer.TooWideAnswer)):
        return csv
    return answer.write_answer(said, its, "fair" if is_fairest(csv) else "general").encode()


def value_of(its: setting.GeneralSetting, mechanism: answer.Mechanism, is_least: bool) -> answer.Pair:
    """The value of a mechanism; of what its agents get the least, in least terms."""
    if is_least:
        amount, total = fair_checking.least_of(its, mechanism)
        value = Fraction(amount, total * mechanism.den)
        return value.numerator, value.denominator
    amount, total = program.value_of(its, mechanism)
    return amount, total * mechanism.den


def changed_setting(numbers: random.Random, toml: bytes) -> bytes:
    """A setting file with one or two changes: a number or a value replaced, or a line dropped, doubled, or moved."""
    lines = toml.decode().splitlines()
    for _ in range(numbers.choice([1, 1, 2])):
        at = numbers.randrange(len(lines))
        while lines[at].startswith("#") or not lines[at]:
            at = numbers.randrange(len(lines))
        key, is_entry, value = lines[at].partition(" = ")
        change = numbers.choice(["value", "element", "element", "drop", "double", "move", "key", "text"])
        if change == "value" and is_entry:
            lines[at] = f"{key} = {numbers.choice(VALUES)}"
        elif change == "element" and "," in value:
            elements = value.split(",")
            place = numbers.randrange(len(elements))
            old = elements[place]
            core = old.strip().strip("[]")
            elements[place] = old.replace(core, numbers.choice([*VALUES, "7", "", core]), 1)
            lines[at] = f"{key} = {','.join(elements)}"
        elif change == "drop":
            lines[at] = "#"
        elif change == "double":
            lines.insert(at, lines[at])
        elif change == "move":
            lines.insert(numbers.randrange(len(lines)), lines.pop(at))
        elif change == "key" and is_entry:
            words = ["extra", "prior", "weights", "utility_at", "utility", "outside", "value", "no_deficit", "name"]
            lines[at] = f"{numbers.choice(words)} = {value}"
        elif change == "text" and numbers.random() < 0.3:
            return text_change(numbers, "\n".join(lines) + "\n").encode("utf-8", "surrogateescape")
    return ("\n".join(lines) + "\n").encode()
