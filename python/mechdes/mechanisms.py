"""Mechanisms as tables by names, with exact fractions."""

from __future__ import annotations

import dataclasses
import functools
import math
from collections.abc import Collection, Iterable, Iterator, Mapping, Sequence
from fractions import Fraction
from typing import Any, TypeAlias

from .records import Record, units
from .settings import Amount, Profile, Setting
from .showing import Grid, Shown, View, chance_bars, counted, odds_bars

Lotteries: TypeAlias = Mapping[Profile, Mapping[str, Fraction]]
Payments: TypeAlias = Mapping[Profile, Mapping[str, Fraction]]
Counts: TypeAlias = tuple[int, ...]
_PARTS = 27720  # of a mass, where several units are drawn: each number of bidders divides it


def least_denominator(tables: Iterable[Mapping[Any, Fraction]]) -> int:
    """The least denominator of all numbers of some tables. Raises `TypeError` for one that is not exact."""
    numbers = [number for table in tables for number in table.values()]
    if not all(isinstance(number, (Fraction, int)) for number in numbers):
        raise TypeError("the numbers of a mechanism are fractions or whole numbers")
    return math.lcm(*(number.denominator for number in numbers))


def _wanted(what: str, found: Collection[Any], wanted: Collection[Any]) -> None:
    """Refuses a table that has other keys than are wanted, in whatever order."""
    if set(found) != set(wanted):
        raise ValueError(f"{what}: the names {list(wanted)} are wanted, not {list(found)}")


def by_profile(
    word: str,
    table: Mapping[Profile, Mapping[str, Fraction]],
    setting: Setting,
    names: Sequence[str],
    denominator: int,
    scale: int = 1,
) -> Iterator[Record]:
    """The records of a word that come for each profile, of amounts at their scale. Raises `ValueError` where the table has other
    names."""
    profiles = list(setting.profiles())
    _wanted(word, table, profiles)
    for profile in profiles:
        row = table[profile]
        _wanted(f"{word} at {'+'.join(profile)}", row, names)
        yield word, *profile, *(units(row[name] * scale, denominator) for name in names)


def interim_records(
    odds: Mapping[Any, Fraction], pays: Mapping[Any, Fraction], values: Sequence[Amount], denominator: int, scale: int
) -> Iterator[Record]:
    """The records `interim`, `odds` and `pays` of an auction of this scale."""
    yield "interim", denominator
    for word, table, factor in (("odds", odds, 1), ("pays", pays, scale)):
        _wanted(word, table, values)
        yield word, *(units(table[value] * factor, denominator) for value in values)


def mass_records(masses: Mapping[Counts, Mapping[Any, Fraction]], values: Sequence[Amount], denominator: int) -> Iterator[Record]:
    """The mass records of an auction, in their order."""
    for counts in sorted(masses):
        yield "mass", *counts, *(units(masses[counts][value], denominator) for value in values)


@dataclasses.dataclass(frozen=True, repr=False)
class Mechanism(Shown):
    """A mechanism of a general setting.

    lotteries    for each profile (a tuple of type names) the chance of each outcome, by name
    payments     for each profile what each agent pays, by name; empty where the setting has no payments
    denominator  that of all numbers in the printed table; where 0 is given, the least common one of these numbers
    agents       the names of the agents

    One may be made by hand, to be audited, reported or run; its names may stand in any order. Raises `TypeError` for a number that
    is not exact.
    """

    lotteries: Lotteries
    payments: Payments = dataclasses.field(default_factory=dict)
    denominator: int = 0
    agents: tuple[str, ...] = ()

    def __post_init__(self) -> None:
        if self.denominator == 0:
            denominator = least_denominator([*self.lotteries.values(), *self.payments.values()])
            object.__setattr__(self, "denominator", denominator)

    def draws(self, profile: Sequence[str]) -> int:
        """How many first draws there are for `run`: the first draw is from 0 to one below, each as likely."""
        return self.denominator

    def records(self, setting: Setting) -> Iterator[Record]:
        """The records from `table` to the last payment. Raises `ValueError` where the setting has other names."""
        yield "table", self.denominator
        yield from by_profile("lottery", self.lotteries, setting, setting.outcomes, self.denominator)
        if setting.payments:
            yield from by_profile("pay", self.payments, setting, setting.agent_names, self.denominator, setting.scale)
        else:
            _wanted("pay", self.payments, ())

    def _view(self) -> View:
        """A row for each profile: the chance of each outcome, and `pays AGENT` for each agent."""
        names = self.agents or [f"agent {place}" for place, _ in enumerate(next(iter(self.lotteries), ()), 1)]
        pays = {profile: {f"pays {name}": paid for name, paid in row.items()} for profile, row in self.payments.items()}
        rows = {profile: {**row, **pays.get(profile, {})} for profile, row in self.lotteries.items()}
        outcomes = len(next(iter(self.lotteries.values()), ()))
        words = f"{counted(len(rows), 'profile')}, {counted(outcomes, 'outcome')}"
        return View(words, Grid(names, rows), functools.partial(chance_bars, self.lotteries))


@dataclasses.dataclass(frozen=True, repr=False)
class AuctionMechanism(Shown):
    """A mechanism of an auction, by values.

    bidders, units  how many bidders there are, and how many units of the item: 1 but for `units`, whose text does not say it, so
                    that it is None where a stored text was read without its number
    weights         the weight of each value, as the setting has it
    odds            how often a bidder with each value wins, on average over the values of the others
    pays            what a bidder with each value pays on average, whether it wins or not: charge it just that
    masses          by how many bidders have each value (the counts, in the order of the values) and by value: the weight of the
                    profiles with these counts, times how often the item goes to a bidder with this value there
    denominator     that of all these numbers in the printed answer
    """

    bidders: int
    weights: Mapping[Amount, int]
    odds: Mapping[Amount, Fraction]
    pays: Mapping[Amount, Fraction]
    masses: Mapping[Counts, Mapping[Amount, Fraction]]
    denominator: int
    units: int | None = 1

    def counts(self, reports: Sequence[Amount]) -> Counts:
        """How many bidders report each value. Raises `ValueError` where the reports are no profile."""
        counts = tuple(sum(report == value for report in reports) for value in self.weights)
        if len(reports) != self.bidders or sum(counts) != self.bidders:
            raise ValueError(f"no profile of {self.bidders} bidders with these values: {list(reports)}")
        return counts

    def weight(self, counts: Counts) -> int:
        """The weight of all profiles with these counts."""
        orders = math.factorial(sum(counts)) // math.prod(map(math.factorial, counts))
        return orders * math.prod(weight**count for weight, count in zip(self.weights.values(), counts, strict=True))

    def draws(self, profile: Sequence[Amount]) -> int:
        """How many first draws there are for `run`: the first draw is from 0 to one below, each as likely."""
        return self.denominator * self.weight(self.counts(profile))

    def chances(self, reports: Sequence[Amount]) -> tuple[Fraction, ...]:
        """How likely each bidder is to get the item (of several units, one of them) where these values are reported."""
        counts = self.counts(reports)
        masses, weight = self.masses[counts], self.weight(counts)
        have = dict(zip(self.weights, counts, strict=True))
        return tuple(masses[report] / (weight * have[report]) for report in reports)

    def records(self, scale: int = 1) -> Iterator[Record]:
        """The records from `interim` to the last mass, for an auction of this scale."""
        values = tuple(self.weights)
        yield from interim_records(self.odds, self.pays, values, self.denominator, scale)
        yield from mass_records(self.masses, values, self.denominator)

    def _view(self) -> View:
        """A row for each value: its weight, odds and pays."""
        pays = self.pays
        rows = {value: {"weight": self.weights[value], "odds": odds, "pays": pays[value]} for value, odds in self.odds.items()}
        several = "" if self.units == 1 else ", units not told" if self.units is None else f", {counted(self.units, 'unit')}"
        words = f"{counted(self.bidders, 'bidder')}, {counted(len(rows), 'value')}{several}"
        return View(words, Grid(["value"], rows), functools.partial(odds_bars, self.odds, pays))


@dataclasses.dataclass(frozen=True, repr=False)
class UnitsMechanism(AuctionMechanism):
    """A mechanism of an auction of several units (`units`), by values."""

    def draws(self, profile: Sequence[Amount]) -> int:
        """How many first draws there are for `run` with the number of units: the first draw is from 0 to one below, each as
        likely."""
        return _PARTS * super().draws(profile)


@dataclasses.dataclass(frozen=True, repr=False)
class SaleMechanism(Shown):
    """A mechanism of a sale of one item to bidders who differ.

    weights      the weight of each profile
    odds, pays   by agent and type: how often the agent with the type has the item, on average over the types of the others,
                 and what it pays, whoever has the item
    masses       by profile and agent: the weight of the profile times how often the agent has the item there
    denominator  that of all these numbers in the printed answer
    """

    weights: Mapping[Profile, int]
    odds: Mapping[str, Mapping[str, Fraction]]
    pays: Mapping[str, Mapping[str, Fraction]]
    masses: Mapping[Profile, Mapping[str, Fraction]]
    denominator: int

    def draws(self, profile: Sequence[str]) -> int:
        """How many first draws there are for `run`: the first draw is from 0 to one below, each as likely. Raises `ValueError`
        where the reports are no profile."""
        weight = self.weights.get(tuple(profile))
        if weight is None:
            raise ValueError(f"no profile of these agents: {list(profile)}")
        return self.denominator * weight

    def chances(self, profile: Sequence[str]) -> dict[str, Fraction]:
        """How likely each agent is to have the item at a profile. Raises `ValueError` where the profile never comes."""
        weight = self.weights[tuple(profile)]
        if weight == 0:
            raise ValueError(f"the profile {'+'.join(profile)} has the weight 0")
        return {agent: mass / weight for agent, mass in self.masses[tuple(profile)].items()}

    def records(self, setting: Setting) -> Iterator[Record]:
        """The records from `interim` to the last mass."""
        yield "interim", self.denominator
        for word, table, factor in (("odds", self.odds, 1), ("pays", self.pays, setting.scale)):
            for agent in setting.agents:
                row = table[agent.name]
                yield word, agent.name, *(units(row[name] * factor, self.denominator) for name in agent.types)
        yield from by_profile("mass", self.masses, setting, setting.agent_names, self.denominator)

    def _view(self) -> View:
        """A row for each agent and type: odds and pays."""
        odds = {(agent, name): chance for agent, row in self.odds.items() for name, chance in row.items()}
        pays = {(agent, name): self.pays[agent][name] for agent, name in odds}
        rows = {key: {"odds": chance, "pays": pays[key]} for key, chance in odds.items()}
        words = f"{counted(len(self.odds), 'agent')}, {counted(len(self.masses), 'profile')}"
        return View(words, Grid(["agent", "type"], rows), functools.partial(odds_bars, odds, pays))
