"""Conditions of the designer on a mechanism of a general setting, beside those of the setting: values that write and read the
conditions files of docs/FORMATS.md."""

from __future__ import annotations

import dataclasses
import math
from collections.abc import Iterable, Iterator, Sequence
from fractions import Fraction
from typing import Any, ClassVar, Literal, TypeAlias

from .errors import AnswerNotRead
from .records import Record, Records, units
from .settings import Number, Profile, Setting, exact

Side: TypeAlias = Literal["least", "most"]

SIDES: tuple[Side, ...] = ("least", "most")


class Condition:
    """What is measured, where all tell the truth, is to be at least or at most a number.

    side         `least` or `most`
    bound        the number: whole, a fraction or a decimal text
    denominator  that of the bound in the text of a setting whose scale is 1; None for the least one

    Raises `ValueError` for another side, and for a bound that is no multiple of one over the denominator; and `TypeError` for one
    that is no exact number.
    """

    word: ClassVar[str]
    is_amount: ClassVar[bool] = True  # of an amount, the text has the bound at the scale of the setting
    side: Side
    bound: Number
    denominator: int | None

    def __post_init__(self) -> None:
        if self.side not in SIDES:
            raise ValueError(f"a side is `least` or `most`, not {self.side!r}")
        if self.denominator is not None and self.denominator < 1:
            raise ValueError(f"{self.denominator} is no denominator")
        object.__setattr__(self, "bound", exact(self.bound, "bound"))
        self.record()

    def names(self) -> tuple[str, ...]:
        """The fields between the word and the side."""
        return ()

    def record(self, scale: int = 1) -> Record:
        """The record of the condition, for a setting of this scale."""
        bound, factor = exact(self.bound, "bound"), scale if self.is_amount else 1
        denominator = bound.denominator if self.denominator is None else self.denominator
        common = math.gcd(denominator, factor)
        return self.word, *self.names(), self.side, units(bound, denominator) * (factor // common), denominator // common


@dataclasses.dataclass(frozen=True)
class Revenue(Condition):
    """On what all agents are expected to pay."""

    word = "revenue"
    side: Side
    bound: Number
    denominator: int | None = None


@dataclasses.dataclass(frozen=True)
class Welfare(Condition):
    """On what all agents are expected to get together, payments left out."""

    word = "welfare"
    side: Side
    bound: Number
    denominator: int | None = None


@dataclasses.dataclass(frozen=True)
class Utility(Condition):
    """On what an agent is expected to get, its payments taken off."""

    word = "utility"
    agent: str
    side: Side
    bound: Number
    denominator: int | None = None

    def names(self) -> tuple[str, ...]:
        return (self.agent,)


@dataclasses.dataclass(frozen=True)
class Chance(Condition):
    """On how often an outcome is expected to come; with a profile (the names of all types, in the order of the agents), on how
    often it comes there."""

    is_amount = False
    outcome: str
    side: Side
    bound: Number
    denominator: int | None = None
    profile: Profile | None = None

    @property
    def word(self) -> str:  # type: ignore[override]
        """The word of the record."""
        return "chance" if self.profile is None else "at"

    def names(self) -> tuple[str, ...]:
        return (self.outcome,) if self.profile is None else ("+".join(self.profile), self.outcome)


@dataclasses.dataclass(frozen=True)
class Payment(Condition):
    """On what an agent pays, at each profile; with a type, at each profile at which it has this type."""

    word = "pay"
    agent: str
    side: Side
    bound: Number
    denominator: int | None = None
    type: str | None = None

    def names(self) -> tuple[str, ...]:
        return (self.agent,) if self.type is None else (self.agent, self.type)


def condition_records(conditions: Iterable[Condition], scale: int) -> Iterator[Record]:
    """The records of conditions, in their order, for a setting of this scale."""
    for condition in conditions:
        yield condition.record(scale)


def conditions_text(conditions: Iterable[Condition], scale: int = 1) -> str:
    """The text of a conditions file, for a setting of this scale."""
    records: list[Record] = [("require", 1), *condition_records(conditions, scale), ("end",)]
    return "".join(",".join(map(str, record)) + "\n" for record in records)


def read_conditions(setting: Setting, text: str) -> tuple[Condition, ...]:
    """The conditions of a file, whose amounts are divided by the setting's scale. Raises `AnswerNotRead` where the text is none, or
    names what the setting has not."""
    records = Records(text)
    (version,) = records.take("require", 1)
    if version != "1":
        raise AnswerNotRead(f"conditions of an unknown version: {version}")
    found = take_conditions(records, setting)
    records.end()
    return found


def take_conditions(records: Records, setting: Setting) -> tuple[Condition, ...]:
    """The conditions that come next, up to a record of another word."""
    found = list[Condition]()
    while (word := records.word()) in _NAMES:
        found.append(_condition(records, setting, word, records.take(word)))
    return tuple(found)


_NAMES = {"revenue": (0,), "welfare": (0,), "utility": (1,), "chance": (1,), "at": (2,), "pay": (1, 2)}  # fields in front of the side


def _condition(records: Records, setting: Setting, word: str, fields: list[str]) -> Condition:
    if len(fields) - 3 not in _NAMES[word]:
        raise records.wrong("another number of fields is wanted")
    *names, side, numerator, denominator = fields
    if side not in SIDES:
        raise records.wrong(f"{side} is neither `least` nor `most`")
    of: Any = side
    over = records.positive(denominator) * (1 if word in ("chance", "at") else setting.scale)
    bound = Fraction(records.number(numerator), over)
    if word in ("revenue", "welfare"):
        return Revenue(of, bound, over) if word == "revenue" else Welfare(of, bound, over)
    if word == "chance":
        return Chance(_one_of(records, names[0], setting.outcomes), of, bound, over)
    if word == "at":
        profiles = {"+".join(profile): profile for profile in setting.profiles()}
        profile = profiles[_one_of(records, names[0], list(profiles))]
        return Chance(_one_of(records, names[1], setting.outcomes), of, bound, over, profile)
    agent = _one_of(records, names[0], setting.agent_names)
    if word == "utility":
        return Utility(agent, of, bound, over)
    types = setting.agents[list(setting.agent_names).index(agent)].types
    return Payment(agent, of, bound, over, _one_of(records, names[1], types) if len(names) == 2 else None)


def _one_of(records: Records, name: str, names: Sequence[str]) -> str:
    if name not in names:
        raise records.wrong(f"the setting has no {name}")
    return name
