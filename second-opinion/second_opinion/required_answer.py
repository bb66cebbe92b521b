"""Reads and writes answers under conditions of the designer, as docs/FORMATS.md states them."""

from collections.abc import Callable
from dataclasses import dataclass, field

from second_opinion import answer
from second_opinion.answer import GREATEST, FoundAnswer, Pair, Records
from second_opinion.conditions import DesignerCondition, condition_line, places_of, read_begun
from second_opinion.setting import GeneralSetting


@dataclass
class RequiredAnswer:
    """The conditions, and what is said of the mechanisms that meet them. Of an optimal one `shadows` has for each condition a
    numerator and a denominator, or None where its shadow is not told."""

    conditions: list[DesignerCondition]
    said: FoundAnswer
    shadows: list[Pair | None] = field(default_factory=list)


LAST = {"shadow": 4, **answer.END}  # what may stand behind the records of a finding
READERS: dict[str, Callable[..., FoundAnswer]] = {
    "optimal": answer.read_optimal,
    "infeasible": answer.read_infeasible,
    "unbounded": answer.read_unbounded,
}


def read_required(data: bytes, setting: GeneralSetting) -> RequiredAnswer:
    """The answer that the bytes of a file state, or `Refused`. Behind the conditions comes the first record of what is said."""
    records, word, _ = answer.begun(data, "required", {"1": READERS, "2": []})
    first = {"optimal": {"value": 3}, "infeasible": {"row": 3, **LAST}, "unbounded": {"table": 2}}[word]
    conditions = read_begun(records, setting, **first)
    records.again()
    said = READERS[word](records, setting, row_count(setting, conditions), 1, LAST)
    shadows = read_shadows(records, len(conditions) if word == "optimal" else 0)
    records.finish()
    return RequiredAnswer(conditions, said, shadows)


def read_shadows(records: Records, count: int) -> list[Pair | None]:
    """The `shadow` records of some of so many conditions, and the end. The first of these records was read."""
    shadows: list[Pair | None] = []
    while records.at("shadow"):
        index = records.integer(2, len(shadows), count - 1)
        shadows += [None] * (index - len(shadows))
        shadows.append((records.integer(3, -GREATEST, GREATEST), records.integer(4, 1, GREATEST)))
        records.expect(**LAST)
    return shadows + [None] * (count - len(shadows))


def row_count(setting: GeneralSetting, conditions: list[DesignerCondition]) -> int:
    """How many rows the program has with those of the conditions."""
    own = setting.condition_count() + setting.profile_count()
    return own + sum(len(places_of(setting, condition)) for condition in conditions)


def write_required(found: RequiredAnswer, setting: GeneralSetting) -> str:
    """The text of an answer: the conditions behind the first record, and the shadows that are told in front of the last one."""
    first, *inner, last = answer.write_answer(found.said, setting, "required").splitlines()
    conditions = (condition_line(condition, setting) for condition in found.conditions)
    shadows = (f"shadow,{index},{told[0]},{told[1]}" for index, told in enumerate(found.shadows) if told is not None)
    return "\n".join([first, *conditions, *inner, *shadows, last]) + "\n"
