"""Reads a setting file, as docs/FORMATS.md states it.

The file is TOML. What comes out is a `GeneralSetting` or an `AuctionSetting`, or the exception `Refused` with the status
and the line that the format names. The conditions are tried in the order of the format, so that a file with several
mistakes is refused for the same one that mechdes names.
"""

import itertools
import math
import tomllib
from collections.abc import Callable, Iterator
from dataclasses import dataclass
from typing import Any, NoReturn

Profile = tuple[int, ...]  # a type number for each agent
Kind = Callable[[object], bool]  # whether a value of the file is of a kind

FILE_LIMIT = 1_048_576
MILLION = 1_000_000
NAME_BYTES = set(b"abcdefghijklmnopqrstuvwxyzABCDEFGHIJKLMNOPQRSTUVWXYZ0123456789_")


class Refused(Exception):
    """A file that is refused: the status of the command, and its line on standard error."""

    def __init__(self, status: int, line: str | None) -> None:
        super().__init__(line)
        self.status = status
        self.line = line


def refuse(text: str) -> NoReturn:
    """Refuses the setting with one of the texts of the format."""
    raise Refused(65, "setting refused: " + text)


@dataclass
class Agent:
    """One agent. One of `utility` (by type, then outcome) and `utility_at` (by profile, then outcome) is None, and
    `weights` is empty where the setting has a joint prior."""

    name: str
    types: list[str]
    weights: list[int]
    outside: list[int]
    utility: list[list[int]] | None
    utility_at: list[list[int]] | None


@dataclass
class GeneralSetting:
    """A setting with agents. A profile is a tuple of type numbers, one for each agent; agents, types and outcomes are
    numbered from 0 in the order of the file."""

    truth: str
    rational: str
    payments: bool
    no_deficit: bool
    outcomes: list[str]
    welfare: int
    revenue: int
    values: list[int]
    prior: list[int] | None
    agents: list[Agent]

    def profiles(self) -> Iterator[Profile]:
        """All profiles in the order of the format: the last agent's type changes fastest."""
        return itertools.product(*(range(len(agent.types)) for agent in self.agents))

    def profile_count(self) -> int:
        """How many profiles there are."""
        return math.prod(len(agent.types) for agent in self.agents)

    def rank(self, profile: Profile) -> int:
        """The place of a profile among all of them, from 0."""
        rank = 0
        for agent, kind in zip(self.agents, profile):
            rank = rank * len(agent.types) + kind
        return rank

    def weight(self, profile: Profile) -> int:
        """How likely a profile is, over the sum of all weights."""
        if self.prior is not None:
            return self.prior[self.rank(profile)]
        return math.prod(agent.weights[kind] for agent, kind in zip(self.agents, profile))

    def utility(self, agent: int, profile: Profile, outcome: int) -> int:
        """What an outcome is worth to an agent (by its number) at the true types."""
        its = self.agents[agent]
        if its.utility_at is not None:
            return its.utility_at[self.rank(profile)][outcome]
        assert its.utility is not None
        return its.utility[profile[agent]][outcome]

    def value(self, profile: Profile, outcome: int) -> int:
        """What an outcome is worth to the designer at a profile, payments apart."""
        if self.welfare == 0:
            return self.values[outcome]
        utilities = sum(self.utility(agent, profile, outcome) for agent in range(len(self.agents)))
        return self.values[outcome] + self.welfare * utilities

    def profile_name(self, profile: Profile) -> str:
        """The name of a profile: its type names joined by `+`."""
        return "+".join(agent.types[kind] for agent, kind in zip(self.agents, profile))

    def condition_count(self) -> int:
        """How many conditions say `at least`: truth, rationality and no deficit."""
        profiles = self.profile_count()
        counts = [len(agent.types) for agent in self.agents]
        if self.truth == "dominant":
            count = sum(profiles * (types - 1) for types in counts)
        else:
            count = sum(types * (types - 1) for types in counts)
        if self.rational == "ex-post":
            count += profiles * len(counts)
        elif self.rational == "interim":
            count += sum(counts)
        return count + (profiles if self.no_deficit else 0)


@dataclass
class AuctionSetting:
    """An auction of one item among bidders who each have one of `values` by the same `weights`."""

    bidders: int
    values: list[int]
    weights: list[int]
    revenue: int
    welfare: int
    keep: int


Setting = GeneralSetting | AuctionSetting


@dataclass
class Group:
    """So many bidders who each have one of `values` by the same `weights`."""

    name: str
    count: int
    values: list[int]
    weights: list[int]
    worth: int


@dataclass
class GroupedSetting:
    """An auction of slots, each with an amount, among groups of bidders."""

    slots: list[int]
    revenue: int
    welfare: int
    keep: int
    groups: list[Group]


def is_text(value: object) -> bool:
    return isinstance(value, str)


def is_integer(value: object) -> bool:
    return isinstance(value, int) and not isinstance(value, bool)


def is_truth_value(value: object) -> bool:
    return isinstance(value, bool)


def is_table(value: object) -> bool:
    return isinstance(value, dict)


def list_of(kind: Kind) -> Kind:
    """The kind of a list all of whose elements are of a kind."""
    return lambda value: isinstance(value, list) and all(kind(element) for element in value)


class Table:
    """A table of the file, which remembers the keys that were asked for: any other is unknown."""

    def __init__(self, entries: dict[str, Any], front: str = "") -> None:
        self.entries = entries
        self.front = front
        self.known: set[str] = set()

    def has(self, key: str) -> bool:
        return key in self.entries

    def take(
        self, key: str, kind: Kind, *, required: bool = False, default: Any = None, words: list[Any] | None = None
    ) -> Any:
        """The value of a key, refused where it is missing, of a wrong kind, or none of the listed words."""
        self.known.add(key)
        if key not in self.entries:
            if required:
                refuse(f"missing {self.front}{key}")
            return default
        value = self.entries[key]
        if not kind(value):
            refuse(f"wrong kind {self.front}{key}")
        if words is not None and value not in words:
            refuse(f"unknown word {self.front}{key}")
        return value

    def has_unknown_key(self) -> bool:
        return any(key not in self.known for key in self.entries)


def read_setting(data: bytes) -> Setting:
    """The setting that the bytes of a file state, or `Refused`. No command serves an auction with groups of bidders."""
    if len(data) > FILE_LIMIT:
        refuse("too long")
    top = Table(read_toml(data))
    top.take("format", is_text, required=True, words=["mechanism-setting"])
    versions = [1, 2, 3] if top.entries.get("kind") == "bidders" else [1, 2]
    version = top.take("version", is_integer, required=True, words=versions)
    kind = top.take("kind", is_text, required=True, words=["bidders"] if version == 3 else ["general", "auction"])
    if kind == "general":
        return read_general(top, version)
    if kind == "auction":
        return read_auction(top)
    read_grouped(top)
    refuse("other kind")


def read_toml(data: bytes) -> dict[str, Any]:
    """The top table of a TOML document. Python's reader takes whole numbers of any size, while TOML has those of 64
    bits, and it does not pass over a byte order mark."""
    try:
        entries = tomllib.loads(data.decode("utf-8").removeprefix("\ufeff"))
    except (ValueError, RecursionError):
        refuse("not toml")
    if not all(-(2**63) <= number < 2**63 for number in whole_numbers(entries)):
        refuse("not toml")
    return entries


def whole_numbers(value: object) -> Iterator[int]:
    """All whole numbers in a TOML value."""
    if isinstance(value, dict):
        value = list(value.values())
    if isinstance(value, list):
        for element in value:
            yield from whole_numbers(element)
    elif isinstance(value, int) and not isinstance(value, bool):
        yield value


def read_general(top: Table, version: int) -> GeneralSetting:
    """A setting with agents, from its top table."""
    truth = top.take("truth", is_text, required=True, words=["dominant", "bayes"])
    rational = top.take("rational", is_text, required=True, words=["none", "ex-post", "interim"])
    payments = top.take("payments", is_truth_value, required=True)
    no_deficit = top.take("no_deficit", is_truth_value, default=False)
    outcomes = top.take("outcomes", list_of(is_text), required=True)
    objective = Table(top.take("objective", is_table, default={}), "objective.")
    welfare = objective.take("welfare", is_integer, default=0)
    revenue = objective.take("revenue", is_integer, default=0)
    values = objective.take("value", list_of(is_integer), default=[0] * len(outcomes))
    prior = top.take("prior", list_of(is_integer))
    tables = [Table(entries, "agent.") for entries in top.take("agent", list_of(is_table), required=True)]
    agents = [read_agent(table, version, prior is not None) for table in tables]
    if any(table.has_unknown_key() for table in [top, objective, *tables]):
        refuse("unknown key")
    if version == 2 and any(agent.utility is not None and agent.utility_at is not None for agent in agents):
        refuse("unknown key")
    setting = GeneralSetting(truth, rational, payments, no_deficit, outcomes, welfare, revenue, values, prior, agents)
    check_general(setting)
    return setting


def read_agent(table: Table, version: int, joint: bool) -> Agent:
    """One agent. `weights` beside a joint prior, and `utility_at` in version 1, are not looked at: they are unknown."""
    name = table.take("name", is_text, required=True)
    types = table.take("types", list_of(is_text), required=True)
    weights = [] if joint else table.take("weights", list_of(is_integer), required=True)
    outside = table.take("outside", list_of(is_integer), default=[0] * len(types))
    numbers = list_of(list_of(is_integer))
    needed = version == 1 or not table.has("utility_at")
    utility = table.take("utility", numbers, required=needed)
    utility_at = table.take("utility_at", numbers) if version == 2 else None
    return Agent(name, types, weights, outside, utility, utility_at)


def check_general(setting: GeneralSetting) -> None:
    """Refuses a setting whose contents break a condition: the first of them, in the order of the format."""
    agents, outcomes = setting.agents, setting.outcomes
    lists = [[agent.name for agent in agents], outcomes, *(agent.types for agent in agents)]
    if not all(is_name(name) for names in lists for name in names):
        refuse("bad name")
    if any(len(set(names)) < len(names) for names in lists):
        refuse("double name")
    if not 1 <= len(agents) <= 6 or not all(1 <= len(names) <= 16 for names in lists[1:]):
        refuse("sizes")
    if setting.profile_count() > 1024:
        refuse("sizes")
    if not has_shape(setting):
        refuse("shape")
    if not in_range(setting):
        refuse("out of range")
    weights = {profile: setting.weight(profile) for profile in setting.profiles()}
    for number, agent in enumerate(agents):
        for kind in range(len(agent.types)):
            if all(weight == 0 for profile, weight in weights.items() if profile[number] == kind):
                refuse("zero weight")
    if sum(weights.values()) > MILLION:
        refuse("weight total")
    conditions, profiles = setting.condition_count(), len(weights)
    rows = conditions + profiles
    columns = profiles * len(outcomes) + (2 * profiles * len(agents) if setting.payments else 0)
    if rows > 4096 or rows * (columns + conditions + rows + 1) > 4 * MILLION:
        refuse("too many rows")


def is_name(name: str) -> bool:
    """Whether a name is 1 to 32 bytes of letters, digits and `_`."""
    written = name.encode("utf-8")
    return 1 <= len(written) <= 32 and NAME_BYTES.issuperset(written)


def has_shape(setting: GeneralSetting) -> bool:
    """Whether each list has the length that the agents, types, outcomes and profiles give it."""

    def is_matrix(rows: list[list[int]] | None, count: int) -> bool:
        return rows is None or len(rows) == count and all(len(row) == len(setting.outcomes) for row in rows)

    profiles = setting.profile_count()
    return (
        len(setting.values) == len(setting.outcomes)
        and (setting.prior is None or len(setting.prior) == profiles)
        and (setting.prior is not None or all(len(agent.weights) == len(agent.types) for agent in setting.agents))
        and all(len(agent.outside) == len(agent.types) for agent in setting.agents)
        and all(is_matrix(agent.utility, len(agent.types)) for agent in setting.agents)
        and all(is_matrix(agent.utility_at, profiles) for agent in setting.agents)
    )


def in_range(setting: GeneralSetting) -> bool:
    """Whether each number is within its limit."""
    numbers, weights = list(setting.values), list(setting.prior or [])
    for agent in setting.agents:
        numbers += agent.outside
        numbers += itertools.chain(*(agent.utility or []), *(agent.utility_at or []))
        weights += agent.weights
    return (
        all(abs(number) <= MILLION for number in numbers)
        and abs(setting.welfare) <= 1000
        and abs(setting.revenue) <= 1000
        and all(0 <= weight <= MILLION for weight in weights)
        and all(
            abs(setting.value(profile, outcome)) <= 10 * MILLION
            for profile in setting.profiles()
            for outcome in range(len(setting.outcomes))
        )
    )


def read_auction(top: Table) -> AuctionSetting:
    """An auction, from its top table."""
    bidders = top.take("bidders", is_integer, required=True)
    values = top.take("values", list_of(is_integer), required=True)
    weights = top.take("weights", list_of(is_integer), required=True)
    revenue = top.take("revenue", is_integer, default=1)
    welfare = top.take("welfare", is_integer, default=0)
    keep = top.take("keep", is_integer, default=0)
    if top.has_unknown_key():
        refuse("unknown key")
    if not 1 <= bidders <= 12 or not 1 <= len(values) <= 12:
        refuse("sizes")
    if len(weights) != len(values):
        refuse("shape")
    if not (
        all(0 <= number <= MILLION for number in values + weights)
        and 0 <= revenue <= 1000
        and abs(welfare) <= 1000
        and abs(keep) <= MILLION
        and all(abs(welfare * value) <= 10 * MILLION for value in values)
    ):
        refuse("out of range")
    if 0 in weights:
        refuse("zero weight")
    if sum(weights) > MILLION:
        refuse("weight total")
    if any(first >= second for first, second in zip(values, values[1:])):
        refuse("values order")
    if sum(weights) ** bidders > 10**12 or math.comb(bidders + len(values) - 1, bidders) > 20_000:
        refuse("too many counts")
    return AuctionSetting(bidders, values, weights, revenue, welfare, keep)


def read_grouped(top: Table) -> GroupedSetting:
    """An auction with groups of bidders, from its top table."""
    slots = top.take("slots", list_of(is_integer), default=[1])
    revenue = top.take("revenue", is_integer, default=1)
    welfare = top.take("welfare", is_integer, default=0)
    keep = top.take("keep", is_integer, default=0)
    tables = [Table(entries, "bidder.") for entries in top.take("bidder", list_of(is_table), required=True)]
    groups = [read_group(table) for table in tables]
    if any(table.has_unknown_key() for table in [top, *tables]):
        refuse("unknown key")
    setting = GroupedSetting(slots, revenue, welfare, keep, groups)
    check_grouped(setting)
    return setting


def read_group(table: Table) -> Group:
    """One group of bidders."""
    name = table.take("name", is_text, required=True)
    count = table.take("count", is_integer, default=1)
    values = table.take("values", list_of(is_integer), required=True)
    weights = table.take("weights", list_of(is_integer), required=True)
    return Group(name, count, values, weights, table.take("worth", is_integer, default=0))


def check_grouped(setting: GroupedSetting) -> None:
    """Refuses an auction with groups whose contents break a condition: the first of them, in the order of the format."""
    groups, slots = setting.groups, setting.slots
    if not all(is_name(group.name) for group in groups):
        refuse("bad name")
    if len({group.name for group in groups}) < len(groups):
        refuse("double name")
    if not has_sizes(setting):
        refuse("sizes")
    if any(len(group.weights) != len(group.values) for group in groups):
        refuse("shape")
    if not is_grouped_in_range(setting):
        refuse("out of range")
    if any(0 in group.weights for group in groups):
        refuse("zero weight")
    if any(sum(group.weights) > MILLION * math.gcd(*group.weights) for group in groups):
        refuse("weight total")
    if any(first >= second for group in groups for first, second in itertools.pairwise(group.values)):
        refuse("values order")
    if any(first < second for first, second in itertools.pairwise(slots)):
        refuse("slots order")


def has_sizes(setting: GroupedSetting) -> bool:
    """Whether there are as many groups, bidders, values and slots as there may be."""
    groups = setting.groups
    return (
        1 <= len(groups) <= 64
        and all(1 <= group.count <= 1000 and 1 <= len(group.values) <= 64 for group in groups)
        and sum(group.count for group in groups) <= 1000
        and 1 <= len(setting.slots) <= 1000
    )


def is_grouped_in_range(setting: GroupedSetting) -> bool:
    """Whether each number of an auction with groups is within its limit."""
    values = [value for group in setting.groups for value in group.values]
    return (
        all(1 <= amount <= 1000 for amount in setting.slots)
        and 0 <= setting.revenue <= 1000
        and abs(setting.welfare) <= 1000
        and abs(setting.keep) <= MILLION
        and all(abs(value) <= MILLION and abs(setting.welfare * value) <= 10 * MILLION for value in values)
        and all(0 <= weight <= MILLION for group in setting.groups for weight in group.weights)
        and all(abs(group.worth) <= MILLION for group in setting.groups)
    )
