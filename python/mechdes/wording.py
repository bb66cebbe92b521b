"""How explanations put things: numbers, lists of names, and the conditions of a setting as sentences."""

from __future__ import annotations

import dataclasses
import math
from collections.abc import Iterable, Iterator, Mapping, Sequence
from fractions import Fraction
from typing import Literal, TypeAlias

from .answers import elements, members
from .conditions import Chance, Condition, Payment
from .settings import Amount, Auction, Profile, Setting, exact

Mood: TypeAlias = Literal["demand", "binding", "broken"]

_COUNTS = ("no", "one", "two", "three", "four", "five", "six", "seven", "eight", "nine", "ten", "eleven", "twelve")


def _power(size: Fraction) -> int:
    """The greatest power of ten that is at most a number above 0, by its exponent."""
    digits = len(str(size.numerator)) - len(str(size.denominator))
    is_reached = size.numerator * 10 ** max(-digits, 0) >= size.denominator * 10 ** max(digits, 0)
    return digits if is_reached else digits - 1


def decimal(number: Fraction | int) -> str:
    """A number as a decimal: rounded to four digits, and to no fewer than two behind the point."""
    size = abs(Fraction(number))
    places = max(2, 3 - _power(size)) if size else 2
    digits = str(math.floor(size * 10**places + Fraction(1, 2))).rjust(places + 1, "0")
    text = f"{digits[:-places]}.{digits[-places:]}".rstrip("0").rstrip(".")
    return f"-{text}" if number < 0 else text


def number_words(number: Fraction | int) -> str:
    """A number as a decimal beside the exact fraction: `2.667 (8/3)`; a whole one alone."""
    return str(number) if number.denominator == 1 else f"{decimal(number)} ({number})"


def listed(words: Sequence[object], last: str = "and") -> str:
    """Words in a row: `a, b and c`."""
    *front, end = map(str, words) if words else ("",)
    return f"{', '.join(front)} {last} {end}" if front else end


def counted(count: int, noun: str) -> str:
    """A count with its noun: `one condition`, `four conditions`."""
    number = _COUNTS[count] if count < len(_COUNTS) else str(count)
    return f"{number} {noun}{'' if count == 1 else 's'}"


def values_words(values: Iterable[Amount], every: Sequence[Amount]) -> str:
    """Some of the values of an auction: `3 or more`, `2, 3 or 6`."""
    ascending = sorted(values)
    if len(ascending) > 1 and ascending == list(every[-len(ascending) :]):
        return f"{ascending[0]} or more"
    return listed(ascending, "or")


def pairs_words(pairs: Iterable[tuple[str, str]]) -> str:
    """Some pairs of an agent and a type: `ann has v3 or v4 or bob has v6`."""
    types: dict[str, list[str]] = {}
    for agent, name in pairs:
        types.setdefault(agent, []).append(name)
    return listed([f"{agent} has {listed(names, 'or')}" for agent, names in types.items()], "or")


@dataclasses.dataclass(frozen=True)
class Named:
    """A condition of a general setting, taken from its name."""

    kind: str
    agent: str = ""
    type: str = ""
    report: str = ""
    profile: Profile | None = None
    place: int = 0


def read_name(name: str, setting: Setting) -> Named:
    """The condition of a general setting, or of the designer, that a name of docs/FORMATS.md says."""
    kind, *parts = name.split("/")
    if kind in ("condition", "cut"):
        return Named(kind, place=int(parts[0]))
    if kind in ("deficit", "profile"):
        return Named(kind, profile=tuple(parts[0].split("+")))
    agent, *told = parts
    if kind == "truth":
        return Named(kind, agent, told[0], told[1], tuple(told[2].split("+")) if len(told) == 3 else None)
    if setting.rational == "ex-post" and kind == "rational":
        profile = tuple(told[0].split("+"))
        return Named(kind, agent, profile[setting.agent_names.index(agent)], profile=profile)
    return Named(kind, agent, told[0])


_GENERAL: Mapping[Mood, Mapping[str, str]] = {
    "demand": {
        "truth": "{agent} must not gain {average}by reporting {report}",
        "rational": "{agent} must get {average}at least {outside}, as much as outside",
        "deficit": "The payments of all agents together must not be below 0",
        "profile": "The chances of the outcomes must add to 1",
        "level": "{agent} must get on average at least as much as the agent that gets least",
        "cut": "The item can go to such agents no more often than it happens that {pairs}",
        "revenue": "The expected revenue must be at {side} {bound}",
        "welfare": "The expected welfare must be at {side} {bound}",
        "utility": "What {agent} is expected to get must be at {side} {bound}",
        "chance": "The chance of {outcome} must be at {side} {bound}",
        "at": "The chance of {outcome} must be at {side} {bound}",
        "pay": "{agent} must never pay {limit} than {bound}",
    },
    "binding": {
        "truth": "{agent} does {average}just as well by reporting {report}{where}",
        "rational": "{agent} gets {average}just {outside}, as much as outside{where}",
        "deficit": "The payments of all agents add to exactly 0{where}",
        "cut": "Whenever {pairs}, {winner} gets the item",
    },
    "broken": {
        "truth": "{agent} gains {amount} {average}by reporting {report}",
        "rational": "{agent} gets {amount} less {average}than outside",
        "deficit": "The designer has to add {amount} to what the agents pay",
    },
}
_AUCTION: Mapping[Mood, Mapping[str, str]] = {
    "demand": {
        "truth": "A bidder with {value} must not gain {average}by bidding {report}",
        "rational": "A bidder with {value} must get {average}at least 0, as much as outside",
        "cut": "Bidders with {values} can get the item no more often than there is one of them",
    },
    "binding": {
        "truth": "A bidder with {value} does {average}just as well by bidding {report}",
        "rational": "A bidder with {value} gets {average}just 0, as much as outside",
        "cut": "Whenever there is a bidder with {values}, the item goes to one",
    },
    "broken": {
        "truth": "A bidder with {value} gains {amount} {average}by bidding {report}",
        "rational": "A bidder with {value} gets {amount} less {average}than outside",
    },
}
SOLD = "The item is always sold."
_UNITS: Mapping[Mood, str] = {
    "demand": "Bidders with {values} can get no more units than there are, nor more than one each",
    "binding": "Bidders with {values} get all units, or one each where they are too few for that",
}


def put(case: str, template: str, **parts: object) -> str:
    """A case and what holds there. It begins with a capital only where it stands in front, and begins with no name."""
    first = template[0].lower() if case else template[0]
    return case + (first + template[1:]).format(**parts)


class Words:
    """The conditions of a setting as sentences."""

    def say(self, mood: Mood, name: str, amount: Fraction | int = 0) -> str:
        """The sentence of the condition of a name: what it demands, that it binds, or by how much it is broken."""
        raise NotImplementedError

    def grouped(self, names: Iterable[str]) -> Iterator[tuple[tuple[str, ...], str]]:
        """Conditions that bind, each with its sentence. Those that differ alone in a report, or in the types of other agents, have
        one sentence."""
        for name in names:
            yield (name,), self.say("binding", name)


class GeneralWords(Words):
    """The conditions of a general setting, of a sale, and of the designer, as sentences."""

    def __init__(self, setting: Setting, conditions: Sequence[Condition] = ()) -> None:
        self.setting, self.conditions = setting, conditions
        self._agents = {agent.name: agent for agent in setting.agents}

    def case(self, types: Iterable[tuple[str, str]]) -> str:
        """`If ann has v9 and bob has v2, `: agents of one type are left out."""
        told = [f"{agent} has {name}" for agent, name in types if len(self._agents[agent].types) > 1]
        return f"If {listed(told)}, " if told else ""

    def at(self, profile: Profile, agent: str = "") -> str:
        """The case of a profile, which begins with the type of an agent where one is named."""
        types = zip(self.setting.agent_names, profile, strict=True)
        return self.case(sorted(types, key=lambda pair: pair[0] != agent))

    def say(self, mood: Mood, name: str, amount: Fraction | int = 0) -> str:
        named = read_name(name, self.setting)
        if mood == "binding" and name == f"cut/{(1 << len(elements(self.setting))) - 1}":
            return SOLD
        if named.kind == "condition":
            return self.demand(self.conditions[named.place]) + "."
        own = self.case([(named.agent, named.type)]) if named.type else ""
        return self._sentence(mood, named, own if named.profile is None else self.at(named.profile, named.agent), amount)

    def _sentence(self, mood: Mood, named: Named, case: str, amount: Fraction | int = 0, where: str = "") -> str:
        of_average = {"truth": self.setting.truth == "bayes", "rational": self.setting.rational == "interim"}
        is_average = of_average.get(named.kind, False) and len(self._agents) > 1
        pairs = members(elements(self.setting), named.place) if named.kind == "cut" else ()
        winners = {agent for agent, _ in pairs}
        return put(
            case,
            _GENERAL[mood][named.kind] + ".",
            agent=named.agent,
            report=named.report,
            amount=number_words(amount),
            average="on average " if is_average else "",
            outside=self._outside(named) if named.kind == "rational" else 0,
            pairs=pairs_words(pairs),
            winner=next(iter(winners)) if len(winners) == 1 else "such an agent",
            where=where,
        )

    def _outside(self, named: Named) -> Amount:
        agent = self._agents[named.agent]
        return 0 if agent.outside is None else agent.outside[list(agent.types).index(named.type)]

    def grouped(self, names: Iterable[str]) -> Iterator[tuple[tuple[str, ...], str]]:
        groups: dict[Named, list[str]] = {}
        for name in names:
            named = read_name(name, self.setting)
            key = dataclasses.replace(named, report="") if named.profile is None else dataclasses.replace(named, profile=None)
            groups.setdefault(key, []).append(name)
        for named, found in groups.items():
            yield tuple(found), self.say("binding", found[0]) if len(found) == 1 else self._together(named, found)

    def _together(self, named: Named, found: Sequence[str]) -> str:
        """The sentence of several conditions that bind: of a type with several reports, or at several profiles."""
        case = self.case([(named.agent, named.type)]) if named.type else ""
        reports = [read_name(name, self.setting).report for name in found]
        if named.kind == "truth" and not named.report:
            return self._sentence("binding", dataclasses.replace(named, report=listed(reports, "or")), case)
        cases = math.prod(len(agent.types) for agent in self.setting.agents if agent.name != named.agent)
        whose = "the others" if named.agent else "the agents"
        where = f", in {len(found)} of the {cases} cases of what {whose} have"
        return self._sentence("binding", named, case, where=f", whatever {whose} have" if len(found) == cases else where)

    def demand(self, condition: Condition) -> str:
        """What a condition of the designer demands, without a full stop."""
        case = ""
        if isinstance(condition, Payment) and condition.type is not None:
            case = self.case([(condition.agent, condition.type)])
        if isinstance(condition, Chance) and condition.profile is not None:
            case = self.at(condition.profile)
        return put(
            case,
            _GENERAL["demand"][condition.word],
            agent=getattr(condition, "agent", ""),
            outcome=getattr(condition, "outcome", ""),
            side=condition.side,
            limit="more" if condition.side == "most" else "less",
            bound=number_words(exact(condition.bound, "bound")),
        )


class AuctionWords(Words):
    """The conditions of an auction as sentences."""

    def __init__(self, auction: Auction, units: int | None = None) -> None:
        self.auction, self.units = auction, units

    def say(self, mood: Mood, name: str, amount: Fraction | int = 0) -> str:
        kind, first, *report = name.split("/")
        if kind == "cut":
            return self._cut(mood, int(first))
        return self._sentence(mood, kind, first, report[0] if report else "", amount)

    def _cut(self, mood: Mood, number: int) -> str:
        every = self.auction.values
        if mood == "binding" and self.units is None and number == (1 << len(every)) - 1:
            return SOLD
        template = _AUCTION[mood]["cut"] if self.units is None else _UNITS[mood]
        return put("", template + ".", values=values_words(members(every, number), every))

    def _sentence(self, mood: Mood, kind: str, value: str, report: str, amount: Fraction | int = 0) -> str:
        average = "on average " if self.auction.bidders > 1 else ""
        template = _AUCTION[mood][kind] + "."
        return put("", template, value=value, report=report, amount=number_words(amount), average=average)

    def grouped(self, names: Iterable[str]) -> Iterator[tuple[tuple[str, ...], str]]:
        groups: dict[tuple[str, ...], list[str]] = {}
        for name in names:
            kind, first, *_ = name.split("/")
            groups.setdefault((kind,) if kind == "rational" else (kind, first), []).append(name)
        for (kind, *_), found in groups.items():
            values, reports = ([*dict.fromkeys(name.split("/")[place] for name in found)] for place in (1, -1))
            told = (kind, listed(values, "or"), listed(reports, "or"))
            yield tuple(found), self.say("binding", found[0]) if kind == "cut" else self._sentence("binding", *told)
