"""Settings as values: general ones and auctions, which write and read the TOML of docs/FORMATS.md.

Numbers are whole, or fractions and decimal texts, which are exact: `Fraction(1, 3)`, `"0.25"`. A file has whole numbers alone, so
that it is written at a `scale`: all amounts are multiplied by the least number that makes them whole. The package divides what the
program answers by the scale again. Weights are made whole for themselves, since a common factor of theirs changes nothing.
"""

from __future__ import annotations

import dataclasses
import functools
import itertools
import json
import math
import operator
import os
import pathlib
import re
import tomllib
from collections.abc import Iterable, Iterator, Mapping, Sequence
from fractions import Fraction
from typing import Any, TypeAlias

from .errors import SettingNotRead

Profile: TypeAlias = tuple[str, ...]
Amount: TypeAlias = int | Fraction  # an exact number, which is an `int` where it is whole
Number: TypeAlias = Amount | str  # what an exact number is given as: a text is a decimal one
Numbers: TypeAlias = Sequence[Number]

MOST = 1_000_000  # the limit of an amount in size, and of all weights together
_DECIMAL = re.compile(r"[+-]?[0-9]+(\.[0-9]+)?").fullmatch
_HEAD = 'format = "mechanism-setting"\nversion = {version}\nkind = "{kind}"\n'


def _whole(number: Any, key: str) -> int:
    """A whole number. Raises `TypeError` for anything else, truth values and floats among them."""
    if isinstance(number, bool):
        raise TypeError(f"{key}: a whole number is wanted, not {number}")
    try:
        return operator.index(number)
    except TypeError:
        raise TypeError(f"{key}: a whole number is wanted, not {number!r}") from None


def exact(number: Any, key: str) -> Amount:
    """A whole number, a fraction or a decimal text as an exact number. Raises `TypeError` for anything else, and `ValueError` for
    a text that is no decimal number."""
    if type(number) is int:  # nearly all are
        return number
    if isinstance(number, float):
        raise TypeError(f"{key}: {number!r} is a float, which is rounded: write '{number}' or Fraction('{number}') for that number")
    if isinstance(number, str):
        if not _DECIMAL(number):
            raise ValueError(f"{key}: {number!r} is no decimal number")
        number = Fraction(number)
    if isinstance(number, Fraction):
        return number.numerator if number.denominator == 1 else number
    return _whole(number, key)


def _listed(values: Any, key: str) -> Iterator[Any]:
    """The elements of a list. Raises `TypeError` for a text or a table, which Python would take for a list of its letters or
    keys."""
    if isinstance(values, (str, bytes, Mapping)):
        raise TypeError(f"{key}: a list is wanted, not {values!r}")
    return iter(values)


def _amounts(numbers: Numbers, key: str) -> tuple[Amount, ...]:
    return tuple(exact(number, key) for number in _listed(numbers, key))


def _lists(lists: Sequence[Numbers], key: str) -> tuple[tuple[Amount, ...], ...]:
    return tuple(_amounts(numbers, key) for numbers in _listed(lists, key))


def _weights(numbers: Numbers, key: str) -> tuple[int, ...]:
    """Weights as whole numbers: as they are given where all are whole, else the least ones in the same proportions. Raises
    `ValueError` where these add to more than the limit."""
    given = _amounts(numbers, key)
    scale = least_scale(given)
    whole: tuple[int, ...] = _scaled(given, scale)
    if scale == 1:
        return whole
    common = math.gcd(*whole)
    found = tuple(weight // common for weight in whole)
    if sum(found) > MOST:
        raise ValueError(f"{key}: as whole numbers they add to {sum(found)}, and the limit is {MOST}: give them fewer digits")
    return found


def least_scale(amounts: Iterable[Amount]) -> int:
    """The least whole number above 0 that makes all amounts whole."""
    return math.lcm(*(amount.denominator for amount in amounts))


def at_scale(amount: Amount, scale: int) -> int:
    """The whole number that stands for an amount at a scale. Raises `ValueError` where it is none."""
    factor, rest = divmod(scale, amount.denominator)
    if rest:
        raise ValueError(f"{amount} is no multiple of 1/{scale}")
    return amount.numerator * factor


def of_scale(whole: int, scale: int) -> Amount:
    """The amount that a whole number stands for at a scale."""
    return exact(Fraction(whole, scale), "amount")


def _scaled(amounts: Any, scale: int) -> Any:
    """An amount, or a list of amounts or of such lists, as whole numbers."""
    if scale == 1:
        return amounts
    return tuple(_scaled(part, scale) for part in amounts) if isinstance(amounts, tuple) else at_scale(amounts, scale)


def _try_amounts(amounts: Mapping[str, Iterable[Amount]], scale: int) -> None:
    """Refuses an amount that is beyond the limit because of the scale. Without one the program looks at limits."""
    if scale == 1:
        return
    for key, numbers in amounts.items():
        for amount in numbers:
            whole = at_scale(amount, scale)
            if abs(whole) > MOST:
                told = f"{amount} is {whole} as a whole number, at the scale {scale} that all amounts share"
                raise ValueError(f"{key}: {told}, and the limit is {MOST}: give amounts with fewer digits")


def _fill(made: object, parts: Mapping[str, Any]) -> None:
    """Sets the fields of a frozen value that is being made."""
    for name, part in parts.items():
        object.__setattr__(made, name, part)


def _text(text: Any, key: str) -> str:
    if not isinstance(text, str):
        raise TypeError(f"{key}: a text is wanted, not {text!r}")
    return text


def _truth_value(value: Any, key: str) -> bool:
    if not isinstance(value, bool):
        raise TypeError(f"{key}: a truth value is wanted, not {value!r}")
    return value


def _names(names: Sequence[str], key: str) -> tuple[str, ...]:
    return tuple(_text(name, key) for name in _listed(names, key))


def _toml(value: Any) -> str:
    """A value as TOML: texts, truth values, whole numbers and lists of these."""
    if isinstance(value, str):
        return json.dumps(value, ensure_ascii=False).replace("\x7f", "\\u007F")
    if isinstance(value, bool):
        return "true" if value else "false"
    if isinstance(value, tuple):
        return "[" + ", ".join(map(_toml, value)) + "]"
    return str(value)


def _lines(pairs: Mapping[str, Any]) -> str:
    return "".join(f"{key} = {_toml(value)}\n" for key, value in pairs.items())


@dataclasses.dataclass(frozen=True, init=False)
class Objective:
    """What the designer maximises, on average over all profiles by weight: a sum of parts with whole factors.

    welfare  the factor of what the outcome is worth to the agents, payments left out; at most 1,000 in size
    revenue  the factor of all payments; at most 1,000 in size, and of an auction from 0 on
    value    general settings: what each outcome is worth to the designer; empty for nothing
    keep     auctions: what the item is worth to the designer where it is kept
    """

    welfare: int
    revenue: int
    value: tuple[Amount, ...]
    keep: Amount

    def __init__(self, welfare: int = 0, revenue: int = 0, value: Numbers = (), keep: Number = 0) -> None:
        parts: dict[str, Any] = {
            "welfare": _whole(welfare, "objective.welfare"),
            "revenue": _whole(revenue, "objective.revenue"),
            "value": _amounts(value, "objective.value"),
            "keep": exact(keep, "objective.keep"),
        }
        _fill(self, parts)

    def __mul__(self, factor: int) -> Objective:
        return Objective(
            self.welfare * factor, self.revenue * factor, [number * factor for number in self.value], self.keep * factor
        )

    __rmul__ = __mul__

    def __add__(self, other: Objective) -> Objective:
        value = [a + b for a, b in itertools.zip_longest(self.value, other.value, fillvalue=0)]
        return Objective(self.welfare + other.welfare, self.revenue + other.revenue, value, self.keep + other.keep)


@dataclasses.dataclass(frozen=True, init=False)
class Agent:
    """An agent of a general setting.

    name, types  names of 1 to 32 letters, digits and `_`
    utility      for each type, what each outcome is worth to it: up to 1,000,000 in size, at the scale of the setting
    weights      how likely each type is; None where the setting has a joint `prior`
    outside      what each type has without taking part; None for nothing
    utility_at   in place of `utility`: for each profile of all agents, in their order, what each outcome is worth
    """

    name: str
    types: tuple[str, ...]
    utility: tuple[tuple[Amount, ...], ...] | None
    weights: tuple[int, ...] | None
    outside: tuple[Amount, ...] | None
    utility_at: tuple[tuple[Amount, ...], ...] | None

    def __init__(
        self,
        name: str,
        types: Sequence[str],
        utility: Sequence[Numbers] | None = None,
        weights: Numbers | None = None,
        outside: Numbers | None = None,
        utility_at: Sequence[Numbers] | None = None,
    ) -> None:
        parts: dict[str, Any] = {
            "name": _text(name, "agent.name"),
            "types": _names(types, "agent.types"),
            "utility": None if utility is None else _lists(utility, "agent.utility"),
            "weights": None if weights is None else _weights(weights, "agent.weights"),
            "outside": None if outside is None else _amounts(outside, "agent.outside"),
            "utility_at": None if utility_at is None else _lists(utility_at, "agent.utility_at"),
        }
        _fill(self, parts)

    def amounts(self) -> dict[str, Iterable[Amount]]:
        """All utilities and outside utilities, by the name of their list."""
        return {
            "agent.utility": itertools.chain.from_iterable(self.utility or ()),
            "agent.outside": self.outside or (),
            "agent.utility_at": itertools.chain.from_iterable(self.utility_at or ()),
        }

    def to_toml(self, scale: int = 1) -> str:
        """The agent as a file has it, at the scale of its setting."""
        parts = {"name": self.name, "types": self.types, "weights": self.weights}
        amounts = {"outside": self.outside, "utility": self.utility, "utility_at": self.utility_at}
        parts |= {key: _scaled(given, scale) for key, given in amounts.items() if given is not None}
        return "\n[[agent]]\n" + _lines({key: part for key, part in parts.items() if part is not None})


@dataclasses.dataclass(frozen=True, kw_only=True, init=False)
class Setting:
    """A general setting: agents with private types, and outcomes.

    truth       `dominant` (truth is best at each profile) or `bayes` (on average over the others)
    rational    `none`, `ex-post` (taking part is never worse than staying outside) or `interim` (on average over the others)
    payments    whether agents pay
    no_deficit  whether the payments of a profile may never add to less than 0
    prior       a weight for each profile, in their order; None where each agent has weights of its own

    Whatever the program would refuse is refused by the program alone: lengths, limits and names are not looked at here. Raises
    `TypeError` where a part is of another kind, as a number that is a float, and `ValueError` where an amount is beyond the limit
    because of the scale.
    """

    truth: str
    rational: str
    payments: bool
    outcomes: tuple[str, ...]
    agents: tuple[Agent, ...]
    objective: Objective
    no_deficit: bool
    prior: tuple[int, ...] | None

    def __init__(
        self,
        *,
        truth: str,
        rational: str,
        payments: bool,
        outcomes: Sequence[str],
        agents: Sequence[Agent],
        objective: Objective = Objective(),  # noqa: B008
        no_deficit: bool = False,
        prior: Numbers | None = None,
    ) -> None:
        if objective.keep:
            raise TypeError("objective.keep: a general setting has none; give each outcome a value")
        parts: dict[str, Any] = {
            "truth": _text(truth, "truth"),
            "rational": _text(rational, "rational"),
            "payments": _truth_value(payments, "payments"),
            "outcomes": _names(outcomes, "outcomes"),
            "agents": tuple(agents),
            "objective": objective,
            "no_deficit": _truth_value(no_deficit, "no_deficit"),
            "prior": None if prior is None else _weights(prior, "prior"),
        }
        _fill(self, parts)
        for amounts in self._amounts():
            _try_amounts(amounts, self.scale)

    def _amounts(self) -> Iterator[dict[str, Iterable[Amount]]]:
        """All amounts of the objective and of each agent, by the name of their list."""
        yield {"objective.value": self.objective.value}
        for agent in self.agents:
            yield agent.amounts()

    @functools.cached_property
    def scale(self) -> int:
        """The factor of all amounts in the file: the least one that makes utilities, outside utilities and values whole."""
        return least_scale(amount for parts in self._amounts() for amounts in parts.values() for amount in amounts)

    @property
    def agent_names(self) -> tuple[str, ...]:
        """The names of the agents, in their order."""
        return tuple(agent.name for agent in self.agents)

    def profiles(self) -> Iterator[Profile]:
        """All profiles, in their order: the last agent's type changes fastest."""
        return itertools.product(*(agent.types for agent in self.agents))

    def weights(self) -> dict[Profile, int]:
        """The weight of each profile."""
        if self.prior is not None:
            return dict(zip(self.profiles(), self.prior, strict=True))
        lists = (agent.weights or () for agent in self.agents)
        return dict(zip(self.profiles(), map(math.prod, itertools.product(*lists)), strict=True))

    def with_objective(self, objective: Objective) -> Setting:
        """The same setting with another objective."""
        return dataclasses.replace(self, objective=objective)

    def to_toml(self) -> str:
        """The setting as a file has it, whose amounts are `scale` times those of the setting."""
        version = 2 if any(agent.utility_at is not None for agent in self.agents) else 1
        top: dict[str, Any] = {"truth": self.truth, "rational": self.rational, "payments": self.payments}
        if self.no_deficit:
            top["no_deficit"] = True
        top["outcomes"] = self.outcomes
        if self.prior is not None:
            top["prior"] = self.prior
        parts: dict[str, Any] = {"welfare": self.objective.welfare, "revenue": self.objective.revenue}
        parts["value"] = _scaled(self.objective.value, self.scale)
        objective = "\n[objective]\n" + _lines({key: part for key, part in parts.items() if part})
        return (
            _HEAD.format(version=version, kind="general")
            + _lines(top)
            + objective
            + "".join(agent.to_toml(self.scale) for agent in self.agents)
        )


@dataclasses.dataclass(frozen=True, kw_only=True, init=False)
class Auction:
    """A symmetric auction of one item: bidders who have the same values with the same weights, each for itself.

    bidders  1 to 12
    values   what the item may be worth to a bidder, strictly ascending from 0 to 1,000,000, at the scale of the auction
    weights  how likely each value is, above 0
    revenue  the factor of the payments in the objective, 0 to 1,000
    welfare  the factor of the bidders' utilities in the objective, at most 1,000 in size
    keep     what the item is worth to the designer where it is kept

    Limits are looked at by the program alone. Raises `TypeError` for a float, and `ValueError` where values and weights are not
    equally many, or an amount is beyond the limit because of the scale.
    """

    bidders: int
    values: tuple[Amount, ...]
    weights: tuple[int, ...]
    revenue: int
    welfare: int
    keep: Amount

    def __init__(
        self, *, bidders: int, values: Numbers, weights: Numbers, revenue: int = 1, welfare: int = 0, keep: Number = 0
    ) -> None:
        parts: dict[str, Any] = {
            "bidders": _whole(bidders, "bidders"),
            "values": _amounts(values, "values"),
            "weights": _weights(weights, "weights"),
            "revenue": _whole(revenue, "revenue"),
            "welfare": _whole(welfare, "welfare"),
            "keep": exact(keep, "keep"),
        }
        _fill(self, parts)
        if len(self.values) != len(self.weights):
            lengths = f"values has the length {len(self.values)}, and weights has the length {len(self.weights)}"
            raise ValueError(f"{lengths}: each value has one weight")
        _try_amounts({"values": self.values, "keep": [self.keep]}, self.scale)

    @functools.cached_property
    def scale(self) -> int:
        """The factor of all amounts in the file: the least one that makes the values and `keep` whole."""
        return least_scale([*self.values, self.keep])

    @property
    def objective(self) -> Objective:
        """The objective, as one value."""
        return Objective(welfare=self.welfare, revenue=self.revenue, keep=self.keep)

    def with_objective(self, objective: Objective) -> Auction:
        """The same auction with another objective."""
        if any(objective.value):
            raise TypeError("objective.value: an auction has no outcomes with values; it has `keep`")
        return dataclasses.replace(self, revenue=objective.revenue, welfare=objective.welfare, keep=objective.keep)

    def to_toml(self) -> str:
        """The auction as a file has it, whose values and `keep` are `scale` times those of the auction."""
        parts = {"bidders": self.bidders, "values": _scaled(self.values, self.scale), "weights": self.weights}
        parts |= {"revenue": self.revenue}
        parts |= {key: whole for key, whole in (("welfare", self.welfare), ("keep", at_scale(self.keep, self.scale))) if whole}
        return _HEAD.format(version=1, kind="auction") + _lines(parts)


AnySetting: TypeAlias = Setting | Auction
SettingLike: TypeAlias = Setting | Auction | str | bytes | os.PathLike[str]


def file_bytes(text: str | bytes | os.PathLike[str]) -> bytes:
    """A text as bytes: bytes as they are; a text that has a line end, or nothing, as it is; else the file of that path."""
    if isinstance(text, bytes):
        return text
    if isinstance(text, str) and (text == "" or "\n" in text or "\r" in text):
        return text.encode()
    return pathlib.Path(text).read_bytes()


def setting_bytes(setting: SettingLike) -> bytes:
    """The bytes of a setting's file."""
    if isinstance(setting, (Setting, Auction)):
        return setting.to_toml().encode()
    return file_bytes(setting)


_HEAD_KEYS = {"format", "version", "kind"}
_KEYS = {
    "general": {"truth", "rational", "payments", "no_deficit", "outcomes", "objective", "prior", "agent"},
    "auction": {"bidders", "values", "weights", "revenue", "welfare", "keep"},
}
_OBJECTIVE_KEYS = {"welfare", "revenue", "value"}
_NUMBER_KEYS = _KEYS["auction"] | {"prior", "outside", "utility", "utility_at", "value"}


def _known(table: dict[str, Any], keys: set[str]) -> dict[str, Any]:
    """A table of a file, whose keys must be some of those that are known."""
    if unknown := table.keys() - keys:
        raise ValueError(f"unknown keys: {', '.join(sorted(unknown))}")
    return table


def _is_whole(part: Any) -> bool:
    return all(map(_is_whole, part)) if isinstance(part, list) else not isinstance(part, (str, float))


def _try_numbers(table: dict[str, Any]) -> None:
    """Refuses a text or a float where a file has whole numbers alone."""
    for key in _NUMBER_KEYS & table.keys():
        if not _is_whole(table[key]):
            raise TypeError(f"{key}: a file has whole numbers alone")


def _general(file: dict[str, Any]) -> Setting:
    for table in (file, *file["agent"], file.get("objective", {})):
        _try_numbers(table)
    keys = {key: file[key] for key in _KEYS["general"] - {"objective", "agent"} if key in file}
    agents = [Agent(**agent) for agent in file["agent"]]
    if file["version"] == 1 and any(agent.utility_at is not None for agent in agents):
        raise ValueError("unknown keys: utility_at, which version 2 has")
    return Setting(agents=agents, objective=Objective(**_known(file.get("objective", {}), _OBJECTIVE_KEYS)), **keys)


def _read(file: dict[str, Any]) -> AnySetting:
    kind, version = file["kind"], file["version"]
    if file["format"] != "mechanism-setting" or type(version) is not int or version not in (1, 2) or kind not in _KEYS:
        raise ValueError("another format, version or kind")
    parts = _known(file, _KEYS[kind] | _HEAD_KEYS)
    if kind == "general":
        return _general(parts)
    _try_numbers(parts)
    return Auction(**{key: part for key, part in parts.items() if key not in _HEAD_KEYS})


def read_setting(setting: SettingLike) -> AnySetting:
    """A setting as a value, from a path, a text or bytes. A value is given back as it is.

    Raises `SettingNotRead` where it is none; what the program would refuse beyond that is not looked at: `to_toml` then writes
    what is refused as well.
    """
    if isinstance(setting, (Setting, Auction)):
        return setting
    try:
        return _read(tomllib.loads(file_bytes(setting).decode()))
    except KeyError as fault:
        raise SettingNotRead(f"no setting: the key {fault} is missing") from fault
    except (ValueError, TypeError, AttributeError, RecursionError) as fault:
        raise SettingNotRead(f"no setting: {fault}") from fault
