"""An answer with its setting, and what the program tells of both, asked for where it is wanted."""

from __future__ import annotations

import dataclasses
import functools
import itertools
from collections.abc import Iterator
from fractions import Fraction

from .answers import Answer, AuctionOptimal, Report, SaleOptimal, Verdict, cut_records, elements
from .commands import AnswerLike, answer_bytes, check, determcheck, read, report, rows
from .conditions import Condition, Payment
from .errors import AnswerNotRead
from .records import Records
from .settings import AnySetting, Auction, Setting, SettingLike, read_setting, setting_bytes
from .wording import AuctionWords, GeneralWords, Words


@dataclasses.dataclass(frozen=True)
class Case:
    """An answer with its setting, as they were given. How many units an answer of `units` is about stands in `units`."""

    given: SettingLike
    answered: AnswerLike
    units: int | None = None

    @functools.cached_property
    def source(self) -> bytes:
        """The bytes of the setting."""
        return setting_bytes(self.given)

    @functools.cached_property
    def data(self) -> bytes:
        """The bytes of the answer."""
        return answer_bytes(self.given, self.answered)

    @functools.cached_property
    def head(self) -> tuple[str, ...]:
        """The first record of the answer; nothing where it has none."""
        try:
            records = Records(self.data.decode())
        except (AnswerNotRead, UnicodeDecodeError):
            return ("",)
        word = records.word()
        return (word, *records.take(word)) if word else ("",)

    @property
    def kind(self) -> str:
        """The kind of the answer, as its first record has it."""
        return self.head[2] if len(self.head) == 4 else ""

    @property
    def word(self) -> str:
        """The word of the answer, as its first record has it."""
        return self.head[3] if len(self.head) == 4 else ""

    @functools.cached_property
    def setting(self) -> AnySetting:
        """The setting as a value, in the whole numbers of the program."""
        return read_setting(self.source)

    @property
    def general(self) -> Setting:
        """The setting, which is a general one."""
        assert isinstance(self.setting, Setting)
        return self.setting

    @property
    def auction(self) -> Auction:
        """The setting, which is an auction."""
        assert isinstance(self.setting, Auction)
        return self.setting

    @functools.cached_property
    def answer(self) -> Answer:
        """The answer as a value."""
        return read(self.setting, self.data, self.units)

    @functools.cached_property
    def report(self) -> Report:
        """What the mechanism of the answer does."""
        found = report(self.source, self.answer, self.units)
        assert isinstance(found, Report)
        return found

    @functools.cached_property
    def conditions(self) -> tuple[Condition, ...]:
        """The conditions of the designer in the answer."""
        return getattr(self.answer, "conditions", ()) if self.kind == "required" else ()

    @functools.cached_property
    def words(self) -> Words:
        """The conditions of the setting and of the designer as sentences."""
        if isinstance(self.setting, Auction):
            return AuctionWords(self.setting, self.units)
        return GeneralWords(self.setting, self.conditions)

    @property
    def general_words(self) -> GeneralWords:
        """The same of a general setting."""
        assert isinstance(self.words, GeneralWords)
        return self.words

    def verdict(self) -> Verdict:
        """What the checker of the answer says. How many units it is about is said of answers of `units` alone."""
        if self.kind == "determ":
            return determcheck(self.source, self.data)
        return check(self.source, self.data, self.units if self.kind == "units" else None)

    @functools.cached_property
    def row_names(self) -> list[str]:
        """The names of the rows of the program that the multipliers of the answer are about."""
        if isinstance(self.answer, (AuctionOptimal, SaleOptimal)):
            cuts = cut_records(self.setting, self.answer.cuts)
            return [*_interim_names(self.setting), *(f"cut/{number}" for _, number in cuts)]
        names = [row.name for row in rows(self.source).rows]
        if self.kind == "fair":
            return names + [f"level/{agent}" for agent in self.general.agent_names]
        for place, condition in enumerate(self.conditions):
            names += [f"condition/{place}"] * _row_count(self.general, condition)
        return names

    def gain(self, name: str) -> Fraction:
        """By how much the odds and pays of the answer miss a condition of one bidder or pair."""
        kind, *names = name.split("/")
        answer = self.answer
        if isinstance(answer, AuctionOptimal):
            odds, pays, (worth, told) = answer.mechanism.odds, answer.mechanism.pays, (int(names[0]), int(names[-1]))
            own, other = (worth * odds[value] - pays[value] for value in (worth, told))
        else:
            assert isinstance(answer, SaleOptimal)
            agent, has = names[:2]
            place = self.general.agent_names.index(agent)
            utility = self.general.agents[place].utility or ()
            value = utility[list(self.general.agents[place].types).index(has)][place + 1]
            wins, paid = answer.mechanism.odds[agent], answer.mechanism.pays[agent]
            own, other = (value * wins[name] - paid[name] for name in (has, names[-1]))
        return other - own if kind == "truth" else -own


def _row_count(setting: Setting, condition: Condition) -> int:
    """How many rows a condition of the designer has."""
    if not isinstance(condition, Payment):
        return 1
    place = setting.agent_names.index(condition.agent)
    return sum(condition.type in (None, profile[place]) for profile in setting.profiles())


def _interim_names(setting: AnySetting) -> Iterator[str]:
    """The names of the rows of an auction's or a sale's program in front of its cuts."""
    if isinstance(setting, Auction):
        yield from (f"truth/{value}/{other}" for value, other in itertools.permutations(setting.values, 2))
        yield from (f"rational/{value}" for value in setting.values)
        return
    for agent in setting.agents:
        yield from (f"truth/{agent.name}/{name}/{other}" for name, other in itertools.permutations(agent.types, 2))
    yield from (f"rational/{agent}/{name}" for agent, name in elements(setting))
