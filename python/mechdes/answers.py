"""What the commands answer, as values. All numbers are exact: whole numbers and `fractions.Fraction`; and each value writes the
text that it was read from.

Amounts (values, payments, gains) are in the units of the setting. The text has them at the setting's scale, as the program printed
them. The numbers of certificates (multipliers, pivots, verdicts, rows) are always the program's.
"""

from __future__ import annotations

import dataclasses
import functools
from collections.abc import Iterator, Mapping, Sequence
from fractions import Fraction
from typing import Any, ClassVar, NoReturn, Self

from .conditions import Condition, condition_records
from .errors import MechdesError
from .mechanisms import (
    AuctionMechanism,
    Counts,
    Mechanism,
    Payments,
    SaleMechanism,
    UnitsMechanism,
    by_profile,
    interim_records,
    least_denominator,
    mass_records,
)
from .records import Printed, Record, terms, units
from .settings import Amount, AnySetting, Auction, Profile, Setting, at_scale
from .showing import Grid, View, counted, number_text, odds_bars


def elements(setting: AnySetting) -> tuple[Any, ...]:
    """What the sets of cuts have: the values of an auction, or pairs of an agent and a type."""
    if isinstance(setting, Auction):
        return tuple(setting.values)
    return tuple((agent.name, name) for agent in setting.agents for name in agent.types)


def members(every: Sequence[Any], number: int) -> tuple[Any, ...]:
    """The set of a number, which is the sum of 2^j over the places j of its members, in their order."""
    return tuple(member for place, member in enumerate(every) if number >> place & 1)


def _set_number(every: Sequence[Any], chosen: frozenset[Any]) -> int:
    """A set as the sum of 2^j over the places j of its members. Raises `ValueError` for a member that is none of the elements."""
    return sum(1 << every.index(member) for member in chosen)


def cut_records(setting: AnySetting, cuts: tuple[frozenset[Any], ...]) -> Iterator[Record]:
    """The records of cuts, each with the number of its set."""
    every = elements(setting)
    for cut in cuts:
        yield "cut", _set_number(every, cut)


@dataclasses.dataclass(frozen=True, kw_only=True, repr=False)
class Answer(Printed):
    """What every answer has: the setting that it answers, its kind (`general`, `auction`, `required`, `fair`, `asym`, `units`,
    `determ`), and its word (`optimal`, `infeasible`, `unbounded`, `toowide`, `table` or `undecided`)."""

    setting: Any
    kind: str
    word: ClassVar[str]

    @property
    def scale(self) -> int:
        """The factor of all amounts in the text: the scale of the setting."""
        return 1 if self.setting is None else self.setting.scale

    @property
    def version(self) -> int:
        """The version of the text."""
        return 1

    def explain(self, width: int = 80) -> str:
        """What the answer says of its setting, in words, in lines of this width: the text of `mechdes.explain`, which has it as
        data, too. Raises what that raises."""
        from .explaining import explain

        return explain(self.setting, self).text(width)

    def records(self) -> Iterator[Record]:
        yield "answer", self.version, self.kind, self.word
        yield from self._inner()
        yield ("end",)

    def _inner(self) -> Iterator[Record]:
        """The records between the first and the last."""
        raise NotImplementedError

    def _headline(self) -> str:
        scale = "" if self.scale == 1 else f", scale {self.scale}"
        return f"{type(self).__name__} ({self.kind}): {self._view().words}{scale}"

    def best(self) -> Optimal:
        """The answer itself, where it has a best mechanism. Raises `NotOptimal` where it is another one."""
        raise NotImplementedError


class NotOptimal(MechdesError):
    """An answer has no best mechanism, and one was asked for. `answer` is what it is instead: an `Infeasible`, say."""

    def __init__(self, answer: WithoutBest) -> None:
        super().__init__(answer)
        self.answer = answer

    def __str__(self) -> str:
        return f"there is no best mechanism in the answer ({self.answer.kind}, {self.answer.word}): {self.answer.instead}"


@dataclasses.dataclass(frozen=True, kw_only=True, repr=False)
class WithoutBest(Answer):
    """An answer without a best mechanism. `instead` says in a few words what it says."""

    instead: ClassVar[str]

    def best(self) -> NoReturn:
        """Raises `NotOptimal`, since there is none."""
        raise NotOptimal(self)


@dataclasses.dataclass(frozen=True)
class Multiplier:
    """The multipliers of a row of the program: `main` as a fraction, None in an infeasible answer; `face` as it is printed."""

    row: int
    face: int
    main: Fraction | None = None


def _face_records(multipliers: tuple[Multiplier, ...]) -> Iterator[Record]:
    for multiplier in multipliers:
        yield "row", multiplier.row, multiplier.face


def _bound_records(bound: int, multipliers: tuple[Multiplier, ...]) -> Iterator[Record]:
    yield "bound", bound
    for multiplier in multipliers:
        yield "row", multiplier.row, multiplier.face, units(multiplier.main or 0, bound)


@dataclasses.dataclass(frozen=True, kw_only=True, repr=False)
class Optimal(Answer):
    """An answer with a best mechanism. `value` is its exact value; each kind of answer has its own `mechanism`."""

    word = "optimal"
    value: Fraction

    def best(self) -> Self:
        """The answer itself."""
        return self

    def _valued(self, view: View, more: str = "") -> View:
        """The view of its mechanism, with its value in front."""
        return view._replace(words=f"value {number_text(self.value)}; {view.words}{more}")


@dataclasses.dataclass(frozen=True, kw_only=True, repr=False)
class Bounded(Optimal):
    """A best mechanism with multipliers of one program, which show that no other has a greater value. `bound` is the denominator of
    the main ones."""

    bound: int
    multipliers: tuple[Multiplier, ...]


@dataclasses.dataclass(frozen=True, kw_only=True, repr=False)
class GeneralOptimal(Bounded):
    """A best mechanism of a general setting."""

    setting: Setting
    mechanism: Mechanism

    def _inner(self) -> Iterator[Record]:
        yield "value", *terms(self.value, self.scale)
        yield from self.mechanism.records(self.setting)
        yield from _bound_records(self.bound, self.multipliers)

    @property
    def lotteries(self) -> Mapping[Profile, Mapping[str, Fraction]]:
        """For each profile the chance of each outcome, by name."""
        return self.mechanism.lotteries

    @property
    def payments(self) -> Payments:
        """For each profile what each agent pays, by name."""
        return self.mechanism.payments

    def _view(self) -> View:
        return self._valued(self.mechanism._view())


@dataclasses.dataclass(frozen=True, kw_only=True, repr=False)
class Fairest(GeneralOptimal):
    """A fairest mechanism. `value` is what the agent that gets least gets on average, payments taken off."""


@dataclasses.dataclass(frozen=True, kw_only=True, repr=False)
class Required(GeneralOptimal):
    """A best mechanism among those that meet conditions of the designer (`require`), which are `conditions`, in their order. Behind
    the multipliers of the setting's rows come those of the rows of the conditions. `shadows` has for each condition what one unit
    of its bound brings the objective, or costs it; None where that is not told. Of an amount it is the same at each scale."""

    conditions: tuple[Condition, ...]
    shadows: tuple[Fraction | None, ...]

    def _inner(self) -> Iterator[Record]:
        yield from condition_records(self.conditions, self.scale)
        yield from super()._inner()
        for place, (condition, shadow) in enumerate(zip(self.conditions, self.shadows, strict=True)):
            if shadow is not None:
                yield "shadow", place, *terms(shadow, 1 if condition.is_amount else self.scale)

    def _view(self) -> View:
        return self._valued(self.mechanism._view(), f", {counted(len(self.conditions), 'condition')}")


@dataclasses.dataclass(frozen=True, kw_only=True, repr=False)
class AuctionOptimal(Bounded):
    """A best mechanism of an auction. `cuts` are the sets of values that are rows of its last program."""

    setting: Auction
    mechanism: AuctionMechanism
    cuts: tuple[frozenset[Amount], ...]

    def _inner(self) -> Iterator[Record]:
        yield "value", *terms(self.value, self.scale)
        yield from self.mechanism.records(self.scale)
        yield from cut_records(self.setting, self.cuts)
        yield from _bound_records(self.bound, self.multipliers)

    @property
    def odds(self) -> Mapping[Amount, Fraction]:
        """How often a bidder with each value wins, on average."""
        return self.mechanism.odds

    @property
    def pays(self) -> Mapping[Amount, Fraction]:
        """What a bidder with each value pays on average, whether it wins or not."""
        return self.mechanism.pays

    def _view(self) -> View:
        return self._valued(self.mechanism._view())


@dataclasses.dataclass(frozen=True, kw_only=True, repr=False)
class UnitsOptimal(AuctionOptimal):
    """A best mechanism of an auction of several units; `mechanism.units` says how many."""

    mechanism: UnitsMechanism


@dataclasses.dataclass(frozen=True, kw_only=True, repr=False)
class SaleOptimal(Bounded):
    """A best mechanism of a sale (`asym`). `cuts` are sets of pairs of an agent and a type."""

    setting: Setting
    mechanism: SaleMechanism
    cuts: tuple[frozenset[tuple[str, str]], ...]

    def _inner(self) -> Iterator[Record]:
        yield "value", *terms(self.value, self.scale)
        yield from self.mechanism.records(self.setting)
        yield from cut_records(self.setting, self.cuts)
        yield from _bound_records(self.bound, self.multipliers)

    def _view(self) -> View:
        return self._valued(self.mechanism._view())


@dataclasses.dataclass(frozen=True)
class Node:
    """A node of the search of `determ`, with what is fixed there: an outcome at each of some profiles."""

    fixed: Mapping[Profile, str]


@dataclasses.dataclass(frozen=True)
class Branch(Node):
    """A node that branches at a profile: its children, one for each outcome, follow it in the tree."""

    profile: Profile


@dataclasses.dataclass(frozen=True)
class Leaf(Node):
    """A node that does not branch: with a best mechanism of its program, lotteries among them, and the denominator of its main
    multipliers; or None for both where no mechanism meets the program."""

    mechanism: Mechanism | None
    multipliers: tuple[Multiplier, ...]
    bound: int | None = None


def _tree_records(setting: Setting, tree: tuple[Node, ...]) -> Iterator[Record]:
    ranks = {profile: rank for rank, profile in enumerate(setting.profiles())}
    for node in tree:
        if isinstance(node, Branch):
            yield "branch", ranks[node.profile]
        elif isinstance(node, Leaf):
            yield from _leaf_records(setting, node)


def _leaf_records(setting: Setting, leaf: Leaf) -> Iterator[Record]:
    if leaf.mechanism is None or leaf.bound is None:
        yield "leaf", "infeasible"
        yield from _face_records(leaf.multipliers)
        return
    yield "leaf", "optimal"
    yield from leaf.mechanism.records(setting)
    yield from _bound_records(leaf.bound, leaf.multipliers)


@dataclasses.dataclass(frozen=True, kw_only=True, repr=False)
class Rule(Optimal):
    """A best deterministic mechanism (`determ`). `tree` has the nodes of the search in their order, numbered from 0."""

    setting: Setting
    mechanism: Mechanism
    tree: tuple[Node, ...]

    def _inner(self) -> Iterator[Record]:
        yield "value", *terms(self.value, self.scale)
        yield from self.mechanism.records(self.setting)
        yield from _tree_records(self.setting, self.tree)

    @property
    def outcomes(self) -> dict[Profile, str]:
        """The outcome at each profile."""
        return {
            profile: next(name for name, chance in row.items() if chance) for profile, row in self.mechanism.lotteries.items()
        }

    @property
    def lotteries(self) -> Mapping[Profile, Mapping[str, Fraction]]:
        """For each profile the chance of each outcome, by name: 1 at one of them."""
        return self.mechanism.lotteries

    @property
    def payments(self) -> Payments:
        """For each profile what each agent pays, by name."""
        return self.mechanism.payments

    @property
    def leaves(self) -> tuple[Leaf, ...]:
        """The leaves of the tree. Their mechanisms are bounds, which may draw lots; the best rule is `mechanism`."""
        return tuple(node for node in self.tree if isinstance(node, Leaf))

    def _view(self) -> View:
        return self._valued(self.mechanism._view(), f", {counted(len(self.tree), 'node')}")


@dataclasses.dataclass(frozen=True, kw_only=True, repr=False)
class Infeasible(WithoutBest):
    """No mechanism meets the conditions, as the multipliers show; of `determ` no deterministic one does, as the tree shows.
    `conditions` are those of the designer, of `require`; no shadow of theirs is told."""

    word = "infeasible"
    instead = "no mechanism meets the conditions"
    shadows: ClassVar[tuple[Fraction | None, ...]] = ()
    setting: Setting
    multipliers: tuple[Multiplier, ...] = ()
    tree: tuple[Node, ...] = ()
    conditions: tuple[Condition, ...] = ()

    def _inner(self) -> Iterator[Record]:
        yield from condition_records(self.conditions, self.scale)
        yield from _face_records(self.multipliers)
        yield from _tree_records(self.setting, self.tree)

    def _view(self) -> View:
        """A row for each multiplier, or for each node of the tree."""
        if self.tree:
            nodes = {place: {"node": type(node).__name__.lower(), "fixed": len(node.fixed)} for place, node in enumerate(self.tree)}
            return View(f"{self.instead}; {counted(len(self.tree), 'node')}", Grid(["number"], nodes))
        rows = {multiplier.row: {"multiplier": multiplier.face} for multiplier in self.multipliers}
        return View(f"{self.instead}; {counted(len(rows), 'multiplier')}", Grid(["row"], rows))


@dataclasses.dataclass(frozen=True, kw_only=True, repr=False)
class Unbounded(WithoutBest):
    """The objective has no bound: the payments of `ray` may be added to the mechanism again and again, and gain each time.
    `conditions` are those of the designer, of `require`; no shadow of theirs is told."""

    word = "unbounded"
    instead = "the objective has no bound"
    shadows: ClassVar[tuple[Fraction | None, ...]] = ()
    setting: Setting
    mechanism: Mechanism
    ray: Payments
    conditions: tuple[Condition, ...] = ()

    def _inner(self) -> Iterator[Record]:
        yield from condition_records(self.conditions, self.scale)
        yield from self.mechanism.records(self.setting)
        names, denominator = self.setting.agent_names, self.mechanism.denominator
        yield from by_profile("ray", self.ray, self.setting, names, denominator, self.scale)

    def _view(self) -> View:
        """The table of the mechanism, and behind it what is added to the payments."""
        view = self.mechanism._view()
        rays = {profile: {f"adds {name}": added for name, added in row.items()} for profile, row in self.ray.items()}
        rows = {profile: {**row, **rays.get(profile, {})} for profile, row in view.grid.rows.items()}
        return View(f"{self.instead}; {view.words}", Grid(view.grid.names, rows), view.bars)


@dataclasses.dataclass(frozen=True, kw_only=True, repr=False)
class Table(WithoutBest):
    """A mechanism of which nothing is claimed."""

    word = "table"
    instead = "nothing is claimed of its mechanism"
    setting: Setting
    kind: str = "general"
    mechanism: Mechanism

    def _inner(self) -> Iterator[Record]:
        yield from self.mechanism.records(self.setting)

    def _view(self) -> View:
        view = self.mechanism._view()
        return view._replace(words=f"{self.instead}; {view.words}")


@dataclasses.dataclass(frozen=True, kw_only=True, repr=False)
class AuctionTable(WithoutBest):
    """An auction of one's own, of which nothing is claimed: how often a bidder wins and what it pays where all tell the truth. It
    may be made by hand, to be reported on.

    odds         for each value how often a bidder with it wins, on average over the values of the others
    pays         for each value what a bidder with it pays on average, whether it wins or not
    denominator  that of all these numbers in the text; where 0 is given, the least common one of these numbers
    setting      the auction that it was read for, or None

    Raises `TypeError` for a number that is not exact.
    """

    word = "table"
    instead = "nothing is claimed of its mechanism"
    setting: Auction | None = dataclasses.field(default=None, compare=False)
    kind: str = "auction"
    odds: Mapping[Any, Fraction]
    pays: Mapping[Any, Fraction]
    denominator: int = 0

    def __post_init__(self) -> None:
        if self.denominator == 0:
            object.__setattr__(self, "denominator", least_denominator([self.odds, self.pays]))

    def _inner(self) -> Iterator[Record]:
        yield from interim_records(self.odds, self.pays, sorted(self.odds), self.denominator, self.scale)

    def _view(self) -> View:
        """A row for each value: its odds and pays."""
        rows = {value: {"odds": odds, "pays": self.pays[value]} for value, odds in self.odds.items()}
        bars = functools.partial(odds_bars, self.odds, self.pays)
        return View(f"{self.instead}; {counted(len(rows), 'value')}", Grid(["value"], rows), bars)


@dataclasses.dataclass(frozen=True)
class WidePath:
    """A path to a basis that is too wide: pairs of a row and a column, and the first entry that is too wide, with its place. The
    entry has the denominator of its dictionary, and need not be in least terms."""

    pivots: tuple[tuple[int, int], ...]
    row: int
    column: int
    numerator: int
    denominator: int

    @property
    def entry(self) -> Fraction:
        """The entry as a fraction."""
        return Fraction(self.numerator, self.denominator)

    def records(self) -> Iterator[Record]:
        """The pivots, and the wide entry."""
        for pivot in self.pivots:
            yield "pivot", *pivot
        yield "wide", self.row, self.column, self.numerator, self.denominator


@dataclasses.dataclass(frozen=True, kw_only=True, repr=False)
class TooWide(WithoutBest):
    """Numbers grew too wide on each path: nothing is known of the setting. Of an auction ask `iron`, of a general setting `find`,
    and after `fair` `find_fair`."""

    word = "toowide"
    instead = "numbers grew too wide, and nothing is known of the setting"
    setting: AnySetting
    paths: tuple[WidePath, ...]
    cuts: tuple[frozenset[Any], ...] = ()
    fixed: Mapping[Profile, str] = dataclasses.field(default_factory=dict)

    @property
    def version(self) -> int:
        """2 where `solve` tells of two paths, else 1."""
        return 2 if self.kind in ("general", "auction") and len(self.paths) == 2 else 1

    def _inner(self) -> Iterator[Record]:
        yield from cut_records(self.setting, self.cuts)
        yield from self._fixed_records()
        for place, path in enumerate(self.paths):
            if place:
                yield ("again",)
            yield from path.records()

    def _view(self) -> View:
        """A row for each path: how many pivots it has, and the entry that is too wide."""
        rows = {
            place: {"pivots": len(path.pivots), "row": path.row, "column": path.column, "entry": path.entry}
            for place, path in enumerate(self.paths, 1)
        }
        return View(f"{self.instead}; {counted(len(rows), 'path')}", Grid(["path"], rows))

    def _fixed_records(self) -> Iterator[Record]:
        if isinstance(self.setting, Setting):
            for rank, profile in enumerate(self.setting.profiles()):
                if profile in self.fixed:
                    yield "fix", rank, self.setting.outcomes.index(self.fixed[profile])


@dataclasses.dataclass(frozen=True, kw_only=True, repr=False)
class Undecided(WithoutBest):
    """`iron`, `iron_units`: the multipliers in closed form have more than 62 bits. `find`, `find_fair` and `require`: nothing was
    found, and nothing is said of the setting. The kind is that of the setting."""

    word = "undecided"
    instead = "nothing is decided"
    setting: AnySetting

    def records(self) -> Iterator[Record]:
        yield (self.word,)

    def _view(self) -> View:
        return View(self.instead, Grid(["answer"], {self.word: {}}))


@dataclasses.dataclass(frozen=True)
class Verdict(Printed):
    """What `check` or `determcheck` says. It is true exactly where the word is `valid`.

    word       `valid`, `undecided` (the answer claims nothing) or `rejected`
    condition  where rejected, the number of the first condition that fails, as docs/FORMATS.md counts them
    name       the condition of the setting that is broken, where that is what fails
    numbers    the further numbers that the condition prints
    """

    word: str
    condition: int | None = None
    name: str | None = None
    numbers: tuple[int, ...] = ()

    def __bool__(self) -> bool:
        return self.word == "valid"

    def records(self) -> Iterator[Record]:
        yield self.word, *(part for part in (self.condition, self.name, *self.numbers) if part is not None)

    def _view(self) -> View:
        row = {"condition": self.condition, "name": self.name, "numbers": " ".join(map(str, self.numbers))}
        return View(self.word, Grid(["verdict"], {self.word: row}))

    def __str__(self) -> str:
        return self.text().rstrip()


@dataclasses.dataclass(frozen=True)
class Audit(Printed):
    """What `audit` says. It is true exactly where the mechanism meets all conditions.

    broken       the name of the first condition that it breaks, or None
    left, right  the condition wants that left is at least right, in units of one over the table's denominator (and of the
                 weights, where the condition sums over profiles)
    """

    broken: str | None = None
    left: int = 0
    right: int = 0

    def __bool__(self) -> bool:
        return self.broken is None

    def records(self) -> Iterator[Record]:
        yield ("admissible",) if self else ("broken", self.broken, self.left, self.right)

    def _view(self) -> View:
        word = "admissible" if self else "broken"
        return View(word, Grid(["audit"], {word: {"condition": self.broken, "left": self.left, "right": self.right}}))

    def __str__(self) -> str:
        return self.text().rstrip()


@dataclasses.dataclass(frozen=True)
class TypeReport:
    """What a type is expected to get (payments taken off) and to pay, given that an agent has it."""

    gets: Fraction
    pays: Fraction


def _key(name: str | Amount, scale: int) -> str | int:
    """A name as it is, or a value at a scale."""
    return name if isinstance(name, str) else at_scale(name, scale)


@dataclasses.dataclass(frozen=True)
class Worst:
    """The worst condition of an agent, and by how much it is missed: more than 0 where it is broken.

    agent, type  of an auction the agent is None, and the type is a value
    report       what the false report is; None for taking part
    profile      where the condition is one at each profile
    """

    agent: str | None
    type: str | Amount
    amount: Fraction
    report: str | Amount | None = None
    profile: Profile | None = None

    def fields(self, scale: int) -> Record:
        """The fields of its record, behind the word, of a report on a setting of this scale."""
        names = (self.agent, self.type, self.report, "+".join(self.profile) if self.profile else None)
        return *(_key(name, scale) for name in names if name is not None), *terms(self.amount, scale)


@dataclasses.dataclass(frozen=True)
class Standing:
    """How a mechanism stands against a condition of the designer, which is true where it meets the condition.

    amount  what the condition measures; of a condition on payments with `least` the least payment that it is about, and with `most`
            the greatest
    scale   the factor of the amount in the text
    """

    met: bool
    amount: Fraction
    scale: int = 1

    def __bool__(self) -> bool:
        return self.met


@dataclasses.dataclass(frozen=True, kw_only=True, repr=False)
class Report(Printed):
    """What a mechanism does, and how far it is from truthful.

    value, revenue, welfare  the expected objective, payments, and utilities with payments left out
    types                    by agent and type, or of an auction by value
    gains                    for each agent the most that it gains by a false report
    losses                   for each agent the most that it misses of its outside utility
    deficit                  the least that all agents pay together at a profile, and that profile; or None
    tight                    the conditions that hold with equality, by their names
    conditions               how it stands against each condition of the designer, where the answer is one of `require`
    scale                    the factor of all amounts in the text: the scale of the setting
    """

    value: Fraction
    revenue: Fraction
    welfare: Fraction
    types: Mapping[Any, TypeReport]
    gains: tuple[Worst, ...]
    losses: tuple[Worst, ...]
    deficit: tuple[Profile, Fraction] | None
    tight: tuple[str, ...]
    conditions: tuple[Standing, ...] = ()
    scale: int = 1

    def records(self) -> Iterator[Record]:
        for word in ("value", "revenue", "welfare"):
            yield word, *terms(getattr(self, word), self.scale)
        for key, told in self.types.items():
            names = key if isinstance(key, tuple) else (at_scale(key, self.scale),)
            yield "type", *names, *terms(told.gets, self.scale), *terms(told.pays, self.scale)
        for word, worst in (("gain", self.gains), ("loss", self.losses)):
            for missed in worst:
                yield word, *missed.fields(self.scale)
        if self.deficit is not None:
            yield "deficit", "+".join(self.deficit[0]), *terms(self.deficit[1], self.scale)
        for name in self.tight:
            yield "tight", name
        for place, standing in enumerate(self.conditions):
            yield "condition", place, "met" if standing else "missed", *terms(standing.amount, standing.scale)
        yield ("end",)

    @property
    def regret(self) -> Fraction:
        """The most that any agent gains by a false report; 0 where none gains."""
        return max([Fraction(0), *(worst.amount for worst in self.gains)])

    @property
    def admissible(self) -> bool:
        """Whether no condition of the setting is missed."""
        missed = any(worst.amount > 0 for worst in (*self.gains, *self.losses))
        return not missed and (self.deficit is None or self.deficit[1] >= 0)

    def _view(self) -> View:
        """A row for each type: what it gets and pays."""
        rows = {key: {"gets": row.gets, "pays": row.pays} for key, row in self.types.items()}
        amounts = (f"{word} {number_text(getattr(self, word))}" for word in ("value", "revenue", "welfare", "regret"))
        scale = "" if self.scale == 1 else f", scale {self.scale}"
        words = f"{', '.join(amounts)}; {counted(len(rows), 'type')}{scale}"
        return View(words, Grid(["agent", "type"] if isinstance(next(iter(rows)), tuple) else ["value"], rows))


@dataclasses.dataclass(frozen=True, repr=False)
class Draw(Printed):
    """What `run` draws, where it is no answer about several units.

    outcome      the name of the outcome; of an auction `keep`, or the number of the bidder who gets the item, from 1
    payments     what each agent pays, by name, or each bidder, by its number; empty where the setting has no payments
    denominator  that of the payments as they are printed
    scale        the factor of the payments in the text
    """

    outcome: str
    payments: Mapping[Any, Fraction]
    denominator: int = 1
    scale: int = 1

    @property
    def winner(self) -> int | None:
        """Of an auction the number of the bidder who gets the item, from 1; None where it is kept."""
        return None if self.outcome == "keep" else int(self.outcome)

    def records(self) -> Iterator[Record]:
        yield "outcome", self.outcome
        if self.payments:
            yield _pays_record(self.payments, self.denominator, self.scale)

    def _view(self) -> View:
        row = {f"pays {name}": paid for name, paid in self.payments.items()}
        return View(self.outcome, Grid(["outcome"], {self.outcome: row}))


@dataclasses.dataclass(frozen=True, repr=False)
class UnitsDraw(Printed):
    """What `run` draws of an answer about several units. Bidders are counted from 1.

    winners      the bidders who get a unit, in their order
    payments     what each bidder pays, by its number, whether it gets a unit or not
    denominator  that of the payments as they are printed
    scale        the factor of the payments in the text
    """

    winners: tuple[int, ...]
    payments: Mapping[int, Fraction]
    denominator: int = 1
    scale: int = 1

    def records(self) -> Iterator[Record]:
        for bidder in self.winners:
            yield "wins", bidder
        yield _pays_record(self.payments, self.denominator, self.scale)

    def _view(self) -> View:
        """A row for each bidder: whether it gets a unit, and what it pays."""
        rows = {bidder: {"wins": bidder in self.winners, "pays": paid} for bidder, paid in self.payments.items()}
        return View(counted(len(self.winners), "winner"), Grid(["bidder"], rows))


def _pays_record(payments: Mapping[Any, Fraction], denominator: int, scale: int) -> Record:
    return "pays", denominator, *(units(paid * scale, denominator) for paid in payments.values())


@dataclasses.dataclass(frozen=True)
class Price:
    """What a winner of one unit pays in a case.

    pool   the number of its pool, from 0, the lowest
    other  that of the best pool among the others; None where none of them reaches the reserve
    count  how many of the others are in that pool
    price  what it pays
    """

    pool: int
    other: int | None
    count: int
    price: Fraction

    def fields(self, scale: int) -> Record:
        """The fields of its record, behind the word, for an auction of this scale."""
        return self.pool, "none" if self.other is None else self.other, self.count, *terms(self.price, scale)


@dataclasses.dataclass(frozen=True, kw_only=True, repr=False)
class Threshold(Printed):
    """The best auction of so many units in which only winners pay, and truth is best whatever the others report.

    value, revenue, welfare  the expected objective, what all bidders pay, and what the units are worth to those who get them
    reserve                  the least value that can win; None where no value can
    pools                    the least and the greatest value of each pool, from the lowest
    prices                   of one unit what its winner pays in each case; of several units there are none
    scale                    the factor of all amounts in the text: the scale of the auction
    """

    units: int
    value: Fraction
    revenue: Fraction
    welfare: Fraction
    reserve: Amount | None
    pools: tuple[tuple[Amount, Amount], ...]
    prices: tuple[Price, ...]
    scale: int = 1

    def records(self) -> Iterator[Record]:
        yield "threshold", 1
        yield "units", self.units
        for word in ("value", "revenue", "welfare"):
            yield word, *terms(getattr(self, word), self.scale)
        yield "reserve", "none" if self.reserve is None else at_scale(self.reserve, self.scale)
        for pool in self.pools:
            yield "pool", *(at_scale(value, self.scale) for value in pool)
        for price in self.prices:
            yield "price", *price.fields(self.scale)
        yield ("end",)

    def _view(self) -> View:
        """A row for each case of a price; of several units a row for each pool."""
        reserve = "nothing is sold" if self.reserve is None else f"reserve {number_text(self.reserve)}"
        scale = "" if self.scale == 1 else f", scale {self.scale}"
        pools = f"{counted(len(self.pools), 'pool')}{scale}"
        words = f"{counted(self.units, 'unit')}, value {number_text(self.value)}, {reserve}; {pools}"
        if not self.prices:
            rows = {place: {"from": least, "to": greatest} for place, (least, greatest) in enumerate(self.pools)}
            return View(words, Grid(["pool"], rows))
        cases = {
            (price.pool, "none" if price.other is None else price.other, price.count): {
                "from": self.pools[price.pool][0],
                "to": self.pools[price.pool][1],
                "price": price.price,
            }
            for price in self.prices
        }
        return View(words, Grid(["pool", "best other", "how many"], cases))


@dataclasses.dataclass(frozen=True, repr=False)
class Award(Printed):
    """Who wins at a profile and a draw. Bidders are counted from 1.

    chances  how often each bidder wins, over all draws
    prices   what a bidder pays if it wins, for each that may
    winners  the bidders who win by this draw
    scale    the factor of the prices in the text
    """

    chances: Mapping[int, Fraction]
    prices: Mapping[int, Fraction]
    winners: tuple[int, ...]
    scale: int = 1

    @property
    def payments(self) -> dict[int, Fraction]:
        """What each bidder pays: a winner its price, and the others nothing."""
        return {bidder: self.prices[bidder] if bidder in self.winners else Fraction(0) for bidder in self.chances}

    @property
    def draws(self) -> int:
        """How many draws there are at the profile: as many as bidders who share the edge, or one where nobody does."""
        return max(1, sum(0 < chance < 1 for chance in self.chances.values()))

    def records(self) -> Iterator[Record]:
        for word, numbers, scale in (("chance", self.chances, 1), ("price", self.prices, self.scale)):
            for bidder, number in numbers.items():
                yield word, bidder, *terms(number, scale)
        for bidder in self.winners:
            yield "wins", bidder
        yield ("end",)

    def _view(self) -> View:
        """A row for each bidder: how often it wins, its price or None, and whether it wins by this draw."""
        rows = {
            bidder: {"chance": chance, "price": self.prices.get(bidder), "wins": bidder in self.winners}
            for bidder, chance in self.chances.items()
        }
        return View(f"{counted(len(self.winners), 'winner')}, {counted(self.draws, 'draw')}", Grid(["bidder"], rows))


@dataclasses.dataclass(frozen=True)
class Basis:
    """A basis on the way: the denominator of its dictionary, and the greatest size of an entry."""

    denominator: int
    greatest: int


@dataclasses.dataclass(frozen=True, repr=False)
class Replay(Printed):
    """What comes of listed pivots: the bases, the first wide entry where there is one, and how many pivots are those of the
    forward and of the backward path. It is true where no basis is wide."""

    bases: tuple[Basis, ...]
    wide: WidePath | None
    forward: int
    backward: int

    def __bool__(self) -> bool:
        return self.wide is None

    def records(self) -> Iterator[Record]:
        for place, basis in enumerate(self.bases):
            yield "basis", place, basis.denominator, basis.greatest
        if self.wide is not None:
            yield from self.wide.records()
        yield "rule", self.forward
        yield "again", self.backward
        yield ("end",)

    def _view(self) -> View:
        """A row for each basis."""
        rows = {place: {"denominator": basis.denominator, "greatest": basis.greatest} for place, basis in enumerate(self.bases)}
        wide = "" if self else ", and then a number that is too wide"
        return View(f"{counted(len(rows), 'basis') if len(rows) == 1 else f'{len(rows)} bases'}{wide}", Grid(["basis"], rows))


@dataclasses.dataclass(frozen=True)
class Row:
    """A row of a linear program: the sum of its numbers times the columns is at most `right`, or exactly that."""

    name: str
    exact: bool
    right: int
    numbers: Mapping[int, int]


def _sparse(numbers: Mapping[int, int]) -> Iterator[int]:
    for column in sorted(numbers):
        yield column
        yield numbers[column]


@dataclasses.dataclass(frozen=True, repr=False)
class Program(Printed):
    """A linear program: `cost` times the columns is to be as great as can be. Numbers that are 0 are left out."""

    columns: int
    cost: Mapping[int, int]
    rows: tuple[Row, ...]

    def records(self) -> Iterator[Record]:
        yield "program", self.columns, len(self.rows)
        yield "cost", *_sparse(self.cost)
        for place, row in enumerate(self.rows):
            yield "row", place, row.name, "exact" if row.exact else "atmost", row.right, *_sparse(row.numbers)
        yield ("end",)

    def _view(self) -> View:
        """A row for each row: its name, what it says, and its numbers by column."""
        rows = {
            place: {"name": row.name, "kind": "exact" if row.exact else "atmost", "right": row.right, "numbers": dict(row.numbers)}
            for place, row in enumerate(self.rows)
        }
        return View(f"{counted(len(rows), 'row')}, {counted(self.columns, 'column')}", Grid(["row"], rows))


@dataclasses.dataclass(frozen=True, kw_only=True, repr=False)
class Realised(Printed):
    """Some auction has the odds: by counts and value, the weight of the profiles with the counts, times how often a bidder with
    the value gets the item there. It is true."""

    setting: Auction
    masses: Mapping[Counts, Mapping[Amount, Fraction]]
    denominator: int

    def records(self) -> Iterator[Record]:
        yield "realise", self.denominator
        yield from mass_records(self.masses, self.setting.values, self.denominator)
        yield ("end",)

    def _view(self) -> View:
        """A row for each list of counts, by how many bidders have each value: the masses of the values."""
        names = [f"with {value}" for value in self.setting.values]
        return View(f"some auction has the odds; {counted(len(self.masses), 'list')} of counts", Grid(names, self.masses))


@dataclasses.dataclass(frozen=True, kw_only=True, repr=False)
class Violated(Printed):
    """No auction has the odds: the bidders with these values are to win more often than there are any, by `excess`, which is a
    weight of profiles. It is false."""

    setting: Auction
    values: frozenset[Amount]
    excess: Fraction
    denominator: int

    def __bool__(self) -> bool:
        return False

    def records(self) -> Iterator[Record]:
        number = _set_number(self.setting.values, self.values)
        yield "violated", number, units(self.excess, self.denominator), self.denominator

    def _view(self) -> View:
        """A row for each value: whether it is one of those that ask for too much."""
        rows = {value: {"asks for too much": value in self.values} for value in self.setting.values}
        return View(f"no auction has the odds; excess {number_text(self.excess)}", Grid(["value"], rows))


@dataclasses.dataclass(frozen=True, repr=False)
class Drill(Printed):
    """How the setting of a number was solved and checked. `value` is None where it is not optimal."""

    number: int
    kind: str
    word: str
    value: Fraction | None
    verdict: Verdict

    def records(self) -> Iterator[Record]:
        yield "drill", self.number, self.kind, self.word, *(() if self.value is None else terms(self.value))
        yield "check", self.verdict

    def _view(self) -> View:
        row = {"kind": self.kind, "answer": self.word, "value": self.value, "verdict": self.verdict.word}
        return View(f"{self.kind}, {self.word}", Grid(["number"], {self.number: row}))
