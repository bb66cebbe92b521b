"""Compares `require` and `check` of mechdes with those of this folder, and has the answers of both checked by both.

    second-opinion/require --compare [PROGRAM [COUNT]]

The settings are small ones of all kinds, each with up to four conditions whose bounds lie near what the best mechanism does
without them. The seed is fixed, so that they are the same at each call. The statuses and the values have to be the same, and each
answer of the two has to be valid to `check` of mechdes and of this folder. Where mechdes finds nothing, that is counted.
Then answers and conditions are changed: of an answer `check` of both has to say the same, to the byte, and of conditions
`require`, where they are refused. Settings of which something is wrong are kept in a folder, which is named, and the status is 1.
The program is that of the variable MECHDES, or the one that the repository's tests build.
"""

import collections
import dataclasses
import random
import sys
import tempfile
from collections.abc import Iterator
from fractions import Fraction
from pathlib import Path
from typing import NoReturn

from second_opinion import command, conditions, finding, generate, judging, mutate, required_answer, requiring
from second_opinion.answer import InfeasibleAnswer, OptimalAnswer, UnboundedAnswer
from second_opinion.conditions import DesignerCondition
from second_opinion.find_compare import UNDECIDED, Told, claim
from second_opinion.measure import run
from second_opinion.places import needed_program
from second_opinion.required_answer import RequiredAnswer
from second_opinion.setting import GeneralSetting, Refused, read_setting

COUNT = 300
MOST = 4  # conditions
CHANGES = 4  # of each answer, and of each conditions file
REFUSED = 64  # and greater statuses
# How much narrower a bound is than what is done without it; below 0 it is wider.
STEPS = [Fraction(-5), Fraction(-1, 2), Fraction(0), Fraction(1, 10), Fraction(1, 3), Fraction(1, 2), Fraction(1), Fraction(2)]


class Files:
    """Where the files of a setting are kept as long as they are compared."""

    def __init__(self, folder: Path, number: int) -> None:
        self.toml = folder / f"{number}.toml"
        self.conditions = folder / f"{number}-conditions.csv"
        self.answer = folder / f"{number}-answer.csv"

    def removes(self) -> None:
        """Removes all of them."""
        for file in [self.toml, self.conditions, self.answer]:
            file.unlink(missing_ok=True)


def main(words: list[str]) -> NoReturn:
    """Compares as many settings as are asked for, and ends with 1 where something was wrong."""
    path, count = needed_program(words[:1]), int((words[1:] or [str(COUNT)])[0])
    folder = Path(tempfile.mkdtemp(prefix="require-"))
    counts: collections.Counter[str] = collections.Counter()
    wrong = 0
    for number, (toml, asked) in zip(range(count), drawn_texts(random.Random(9))):
        files = Files(folder, number)
        files.toml.write_text(toml)
        files.conditions.write_text(asked)
        faults = [*compared(path, files, counts)]
        # A file of which something is wrong is the last one, and stays.
        faults += compared_changes(random.Random(number), path, files, asked, counts) if not faults else []
        for fault in faults:
            print(f"{files.toml}: {fault}")
        wrong += bool(faults)
        if not faults:
            files.removes()
    for what, times in sorted(counts.items()):
        print(f"{times:6} {what}")
    print(f"{count:6} settings, {wrong} wrong" + (f", see {folder}" if wrong else ""))
    if not wrong:
        folder.rmdir()
    sys.exit(1 if wrong else 0)


def compared(path: str, files: Files, counts: collections.Counter[str]) -> Iterator[str]:
    """What is wrong of the answers of the two. They are put into a file, one after the other."""
    theirs = run(path, "require", files.toml, files.conditions)
    status, text, _ = command.outcome(requiring.require, [str(files.toml), str(files.conditions)])
    ours = status, text.encode()
    counts[f"require: {theirs[0]}"] += 1
    if theirs[0] == UNDECIDED:
        if theirs[1] != b"undecided\n":
            yield f"{UNDECIDED} with {theirs[1]!r}"
    elif status != 1 and claim(theirs) != claim(ours):  # 1: our numbers are too long for a file
        yield f"{claim(theirs)}, but here {claim(ours)}"
    elif not tells_conditions(theirs[1], files.conditions.read_bytes()):
        yield "the answer has other conditions than the file"
    for who, (status, printed) in [("mechdes", theirs), ("here", ours)]:
        if status in (0, 10, 11):
            files.answer.write_bytes(printed)
            for fault in unchecked(path, files):
                yield f"the answer of {who}: {fault}"


def tells_conditions(answer: bytes, asked: bytes) -> bool:
    """Whether the conditions of a file stand in an answer behind its first record, and nothing like them behind these."""
    wanted = asked.splitlines()[1:-1]
    told = answer.splitlines()[1:]
    words = (b"value,", b"row,", b"table,", b"end")
    return told[: len(wanted)] == wanted and told[len(wanted)].startswith(words)


def unchecked(path: str, files: Files) -> Iterator[str]:
    """What one of the two checkers has against an answer."""
    told: Told = run(path, "check", files.toml, files.answer)
    if told != (0, b"valid\n"):
        yield f"check of mechdes: {told}"
    said = command.outcome(judging.check, [str(files.toml), str(files.answer)])
    if said != (0, "valid\n", None):
        yield f"check here: {said}"


def compared_changes(
    numbers: random.Random, path: str, files: Files, asked: str, counts: collections.Counter[str]
) -> Iterator[str]:
    """What the two say otherwise of changed answers and conditions. A conditions file that both take may be answered otherwise."""
    its = read_setting(files.toml.read_bytes())
    assert isinstance(its, GeneralSetting)
    found = requiring.found_under(its, conditions.read_conditions(asked.encode(), its))
    for _ in range(CHANGES):
        files.answer.write_bytes(changed_answer(numbers, its, found))
        theirs, ours = both(path, "check", judging.check, [files.toml, files.answer])
        counts[f"check of a changed answer: {ours[0]} {mutate.short(ours[1] + ours[2])}"] += 1
        if theirs != ours:
            yield f"check {files.answer}: mechdes {theirs}, here {ours}"
            return
    for _ in range(CHANGES):
        files.conditions.write_bytes(changed_text(numbers, asked))
        theirs, ours = both(path, "require", requiring.require, [files.toml, files.conditions])
        is_refused = max(theirs[0], ours[0]) >= REFUSED
        counts[f"require of changed conditions: {ours[0]} {mutate.short(ours[2])}" if is_refused else "require of others"] += 1
        if is_refused and theirs != ours:
            yield f"require {files.conditions}: mechdes {theirs}, here {ours}"
            return


def both(path: str, word: str, function: command.Command, names: list[Path]) -> tuple[tuple[int, str, str], tuple[int, str, str]]:
    """What mechdes and this folder come to: a status, and both texts."""
    words = [str(name) for name in names]
    status, text, line = command.outcome(function, words)
    return mutate.run([path, word, *words]), (status, text, "" if line is None else f"mechdes: {line}\n")


def changed_text(numbers: random.Random, text: str) -> bytes:
    """A text with one or two changes of its records, and now and then one of its bytes."""
    records = [line.split(",") for line in text.splitlines()]
    for _ in range(numbers.choice([1, 1, 2])):
        if records:
            mutate.record_change(numbers, records)
    changed = "\n".join(map(",".join, records)) + "\n"
    if numbers.random() < 0.15:
        changed = mutate.text_change(numbers, changed)
    return changed.encode("utf-8", "surrogateescape")


def changed_answer(numbers: random.Random, its: GeneralSetting, found: RequiredAnswer) -> bytes:
    """An answer that is changed as a whole, so that its texts stay in order, or a text with other records."""
    if numbers.random() < 0.4:
        return changed_text(numbers, required_answer.write_required(found, its))
    asked, said, shadows = list(found.conditions), found.said, list(found.shadows)
    change = numbers.choice(["condition", "condition", "shadow", "pay", "multiplier", "multiplier", "ray"])
    if change == "condition" and asked:
        place = numbers.randrange(len(asked))
        asked[place] = dataclasses.replace(asked[place], num=asked[place].num + numbers.choice([-1, 1, 9]))
    elif change == "shadow" and shadows:
        place = numbers.randrange(len(shadows))
        num, den = shadows[place] or (0, 1)
        shadows[place] = numbers.choice([None, (num, den), (num + 1, den), (2 * num, 2 * den), (-num, den)])
    elif change == "pay" and not isinstance(said, InfeasibleAnswer) and its.payments:
        pays = {profile: list(row) for profile, row in said.mechanism.pays.items()}
        pays[numbers.choice(list(pays))][0] += numbers.choice([-1, 1])
        said = dataclasses.replace(said, mechanism=dataclasses.replace(said.mechanism, pays=pays))
    elif change == "ray" and isinstance(said, UnboundedAnswer):
        rays = {profile: list(row) for profile, row in said.rays.items()}
        rays[numbers.choice(list(rays))][-1] += numbers.choice([-1, 1])
        said = dataclasses.replace(said, rays=rays)
    elif not isinstance(said, UnboundedAnswer):
        index = numbers.randrange(required_answer.row_count(its, asked))
        face, main = said.multipliers.get(index, (0, 0))
        moved = face + numbers.choice([0, 0, 1, -1]), main + numbers.choice([0, 1, -1]) * isinstance(said, OptimalAnswer)
        said = dataclasses.replace(said, multipliers={**said.multipliers, index: moved})
    return required_answer.write_required(RequiredAnswer(asked, said, shadows), its).encode()


def drawn_texts(numbers: random.Random) -> Iterator[tuple[str, str]]:
    """Settings, each with a conditions file, without end."""
    while True:
        toml = generate.small_text(numbers)
        try:
            its = read_setting(toml.encode())
        except Refused:
            continue
        assert isinstance(its, GeneralSetting)
        if isinstance(finding.found_answer(its), InfeasibleAnswer) and numbers.random() < 0.8:
            continue  # conditions change nothing there
        yield toml, conditions.write_conditions(drawn_conditions(numbers, its), its)


def drawn_conditions(numbers: random.Random, its: GeneralSetting) -> list[DesignerCondition]:
    """Up to four conditions. Each bound lies near what the best mechanism under the conditions in front of it does. Of those that
    no mechanism meets then, most are left out, and behind one of them no further one is drawn."""
    drawn: list[DesignerCondition] = []
    said = requiring.found_under(its, drawn).said
    for _ in range(numbers.randint(1, 2 * MOST)):
        condition = drawn_condition(numbers, its)
        at = Fraction(0)
        if not isinstance(said, InfeasibleAnswer):
            amount = numbers.choice(conditions.measured(its, said.mechanism, condition))
            at = Fraction(amount, said.mechanism.den * conditions.scale_of(its, condition))
        step = numbers.choice(STEPS) / (5 if condition.outcome is not None else 1)
        condition = changed(condition, at - condition.sign * step)
        if max(abs(condition.num), condition.den) >= 10**6:
            continue
        narrower = requiring.found_under(its, [*drawn, condition]).said
        is_met = not isinstance(narrower, InfeasibleAnswer)
        if is_met or numbers.random() < 0.2:
            drawn, said = [*drawn, condition], narrower
        if not is_met and condition in drawn or len(drawn) == MOST:
            break
    return drawn


def drawn_condition(numbers: random.Random, its: GeneralSetting) -> DesignerCondition:
    """A condition of any kind, whose bound is 0."""
    word, side = numbers.choice(list(conditions.NAMED)), numbers.choice(["least", "most"])
    agent, kind, outcome, profile = None, None, None, None
    if word in ("utility", "pay"):
        agent = numbers.randrange(len(its.agents))
        if word == "pay" and numbers.random() < 0.5:
            kind = numbers.randrange(len(its.agents[agent].types))
    if word in ("chance", "at"):
        outcome = numbers.randrange(len(its.outcomes))
        profile = numbers.choice(list(its.profiles())) if word == "at" else None
    return DesignerCondition(word, side, 0, 1, agent, kind, outcome, profile)


def changed(condition: DesignerCondition, bound: Fraction) -> DesignerCondition:
    """The condition with another bound."""
    return dataclasses.replace(condition, num=bound.numerator, den=bound.denominator)
