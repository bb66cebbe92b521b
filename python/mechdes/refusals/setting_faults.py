"""Finds in a setting what it was refused for. It is asked for one cause, so that it need not look for any that comes before."""

from __future__ import annotations

import functools
import itertools
import math
import re
from typing import Any, Callable, Dict, Iterator, List, Optional, Sequence, Tuple, Union

from .faults import TABLE, Fault, asked, asked_for, between, counted, listed, nearest, quoted, shown, there
from .toml_places import Items, NotToml, Scalar, Table, Value, read_toml

KEYS, LIMITS = TABLE["keys"], TABLE["limits"]
NAME = re.compile(r"[A-Za-z0-9_]{1,32}")
ANSWERS = {"answer,": "an answer", "require,": "a conditions file", "pivot,": "a pivots file", "interim,": "an odds file"}
# What a setting of a kind is behind a verb, and what its heads are.
CALLED = {"general": "a general one", "auction": "an auction", "bidders": "an auction with groups of bidders"}
HEADS = {"objective": "[objective]", "agent": "[[agent]]", "bidder": "[[bidder]]"}
FRONTS = {"general": ["", "objective", "agent"], "auction": [""], "bidders": ["", "bidder"]}
LISTED = {"agent": "agent", "bidder": "group"}  # what the tables of a list are in sentences
Found = Iterator[Fault]


class Setting:
    """The tables of a setting file."""

    def __init__(self, text: str) -> None:
        self.top: Any = read_toml(text)

    @property
    def kind(self) -> str:
        """Which kind of setting it is."""
        return self.top["kind"].value

    @property
    def agents(self) -> List[Any]:
        """The tables of the agents."""
        return self.top["agent"]

    @property
    def groups(self) -> List[Tuple[Any, str]]:
        """The tables with values and weights, of an auction the top one, each with what stands in front of a sentence on it."""
        return [*self.tables("bidder" if self.kind == "bidders" else "")]

    @property
    def outcomes(self) -> List[str]:
        """The names of the outcomes."""
        return [it.value for it in self.top["outcomes"]]

    def tables(self, front: str) -> Iterator[Tuple[Any, str]]:
        """The tables whose keys have a front, each with what stands in front of a sentence on it."""
        if front in LISTED:
            for number, table in enumerate(self.top[front], 1):
                name = table.get("name")
                called = f"{LISTED[front]} {number}"
                yield table, f"{called} {quoted(name.value)}: " if _is_text(name) else f"{called}: "
        elif front == "objective":
            if "objective" in self.top:
                yield self.top["objective"], ""
        else:
            yield self.top, ""

    def known(self, front: str) -> Dict[str, Any]:
        """The keys that a table with a front may have."""
        if front:
            return KEYS[front]
        kind = self.top.get("kind")
        return {**KEYS["head"], **KEYS.get(kind.value if _is_text(kind) else "", {})}

    def fronts(self) -> List[str]:
        """The fronts of all keys: `agent` of `agent.name`, say."""
        return FRONTS[self.kind]

    def types(self) -> List[List[str]]:
        """The names of the types of each agent."""
        return [[it.value for it in agent["types"]] for agent in self.agents]

    def count_of(self, noun: str, table: Any) -> int:
        """How many elements a list has that there is one of for each of these."""
        if noun == "profile":
            return math.prod(map(len, self.types()))
        return len({"type": table.get("types"), "outcome": self.top.get("outcomes"), "value": table.get("values")}[noun])

    def number(self, key: str, table: Any, default: int) -> int:
        """The whole number of a key."""
        return table[key].value if key in table else default

    def objective(self, key: str) -> int:
        """A factor of the objective."""
        return self.number(key, self.top.get("objective", {}), 0)

    def weight(self, profile: Sequence[int]) -> int:
        """The weight of a profile, by the places of its types."""
        if "prior" in self.top:
            rank = 0
            for place, agent in zip(profile, self.agents):
                rank = rank * len(agent["types"]) + place
            return self.top["prior"][rank].value
        return math.prod(agent["weights"][place].value for place, agent in zip(profile, self.agents))

    def profiles(self) -> Iterator[Tuple[int, ...]]:
        """All profiles, by the places of their types."""
        return itertools.product(*(range(len(types)) for types in self.types()))

    def name_of(self, profile: Sequence[int]) -> str:
        """The name of a profile."""
        return "+".join(types[place] for types, place in zip(self.types(), profile))

    def utility(self, agent: Any, rank: int, place: int, outcome: int) -> int:
        """What an outcome is worth to an agent that has a type, at the profile of a rank."""
        return (agent["utility_at"][rank] if "utility_at" in agent else agent["utility"][place])[outcome].value

    def rows(self) -> int:
        """How many rows the linear program has."""
        return self.conditions() + self.count_of("profile", None)

    def conditions(self) -> int:
        """How many conditions the linear program has."""
        profiles, counts = self.count_of("profile", None), [len(it) for it in self.types()]
        each = profiles if self.top["truth"].value == "dominant" else 0
        truth = sum((each or count) * (count - 1) for count in counts)
        rational = {"none": 0, "ex-post": profiles * len(counts), "interim": sum(counts)}[self.top["rational"].value]
        return truth + rational + (profiles if self.number("no_deficit", self.top, 0) else 0)

    def columns(self) -> int:
        """How many columns the linear program has, without those of slacks."""
        payments = 2 * len(self.agents) if self.top["payments"].value else 0
        return self.count_of("profile", None) * (len(self.outcomes) + payments)


def _is_text(value: Optional[Value]) -> bool:
    return isinstance(value, Scalar) and value.kind == "text"


def _shown_key(front: str, key: str) -> str:
    return f"objective.{key}" if front == "objective" else key


def _whole_key(front: str, key: str) -> str:
    return f"{front}.{key}" if front else key


def _described(value: Value) -> str:
    """A value in words."""
    return TABLE["found"][value.kind].format(source=shown(value.source) if isinstance(value, Scalar) else "")


def _wanted(spec: Dict[str, Any]) -> str:
    """What is to stand at a key."""
    if "words" in spec:
        return listed([quoted(it) if isinstance(it, str) else it for it in spec["words"]])
    return TABLE["kinds"][spec["kind"]]


# Keys


def missing(setting: Setting, key: str) -> Found:
    """Where a key is missing, or what stands in its place."""
    front, _, name = key.rpartition(".")
    wanted = _wanted(setting.known(front)[name])
    for table, place in setting.tables(front):
        if name not in table:
            yield from _misspelt(setting, front, name, table, place)
            yield from _strayed(setting, key, name) if not front else ()
            at = table.at if front in LISTED else None
            yield Fault("key.missing", wanted=wanted, at=at, key=key, place=place, more={"key": _shown_key(front, name)})


def _misspelt(setting: Setting, front: str, name: str, table: Table, place: str) -> Found:
    """An unknown key that is near to a missing one."""
    known = setting.known(front)
    for found, at in table.places.items():
        if found not in known and nearest(found, [*known]) == name:
            yield Fault("key.unknown", quoted(found), name, at, _whole_key(front, name), place, {"meant": asked(quoted(name))})


def _strayed(setting: Setting, key: str, name: str) -> Found:
    """A key of the top table that stands under a head, as what follows the head does."""
    for front, head in HEADS.items():
        tables = setting.top.get(front)
        for table in tables if isinstance(tables, Items) else [tables]:
            if isinstance(table, Table) and name in table and name not in KEYS[front]:
                wanted = TABLE["sentences"]["key.above"]
                yield Fault("key.strayed", head, wanted, table.places[name], key)


def wrong_kind(setting: Setting, key: str) -> Found:
    """Where the value of a key is of another kind."""
    front, _, name = key.rpartition(".")
    kind = setting.known(front)[name]["kind"]
    for table, place in setting.tables(front):
        if name in table:
            for label, value, wanted in _other_kinds(table[name], kind):
                words = TABLE["kinds"][wanted]
                shown_key = label + _shown_key(front, name)
                yield Fault("key.wrong", _described(value), words, value.at, key, place, {"key": shown_key})


def _other_kinds(value: Value, kind: str) -> Iterator[Tuple[str, Value, str]]:
    """A value where it is of another kind, or its elements that are: with what stands in front of the key, and the kind."""
    inner = TABLE["elements"].get(kind)
    if inner is None:
        is_right = value.kind == kind
    else:
        is_right = isinstance(value, Items)
    if not is_right:
        yield "", value, kind
    elif inner is not None and isinstance(value, Items):
        for number, element in enumerate(value, 1):
            for label, found, wanted in _other_kinds(element, inner):
                yield f"{label}{_part(element)} {number} of ", found, wanted


def unknown_word(setting: Setting, key: str) -> Found:
    """Where the value of a key is another word."""
    front, _, name = key.rpartition(".")
    spec = setting.known(front)[name]
    for table, place in setting.tables(front):
        value = table.get(name)
        if value is not None and value.value not in spec["words"]:
            if name == "kind" and value.value == "bidders":
                version = setting.top["version"].source
                yield Fault("kind.version", quoted("bidders"), "3", value.at, key, more={"of": version})
            meant = nearest(str(value.value), [str(it) for it in spec["words"]])
            more = {"key": _shown_key(front, name), "meant": asked_for(meant)}
            yield Fault("key.wrong", shown(value.source), _wanted(spec), value.at, key, place, more)


def unknown_key(setting: Setting) -> Found:
    """The keys that are not known where they stand."""
    for front in setting.fronts():
        known = setting.known(front)
        for table, place in setting.tables(front):
            for key, at in table.places.items():
                if key not in known:
                    yield _unknown(setting, front, key, at, place)
                elif front == "agent":
                    yield from _beside(setting, key, table, at, place)


def _unknown(setting: Setting, front: str, key: str, at: int, place: str) -> Fault:
    """What a key is that is not known where it stands: one of another table, or perhaps another one."""
    whole = _whole_key(front, key)
    meant = nearest(key, [*setting.known(front)])
    for other in setting.fronts() if meant is None else ():
        if key in setting.known(other):
            name = "key.under" if other else "key.above"
            wanted = TABLE["sentences"][name].format(table=HEADS.get(other))
            return Fault("key.strayed", HEADS.get(front, "no head"), wanted, at, whole, place, {"key": key})
    return Fault("key.unknown", quoted(key), at=at, key=whole, place=place, more={"meant": asked_for(meant)})


def _beside(setting: Setting, key: str, table: Table, at: int, place: str) -> Found:
    """A key of an agent that may not stand for what stands elsewhere."""
    whole = f"agent.{key}"
    if key == "weights" and "prior" in setting.top:
        yield Fault("key.beside", key, "prior", at, whole, place)
    if key == "utility_at" and setting.top["version"].value == 1:
        yield Fault("key.version", key, "", at, whole, place)
    if key == "utility_at" and "utility" in table:
        yield Fault("key.beside", key, "utility", at, whole, place)


# Contents


def _names(setting: Setting) -> Iterator[Tuple[str, str, str, List[Scalar]]]:
    """The lists of names: of what, their key, what stands in front of a sentence, and the names."""
    if setting.kind == "bidders":
        yield "group", "bidder.name", "", [it["name"] for it, _ in setting.groups]
        return
    yield "agent", "agent.name", "", [it["name"] for it in setting.agents]
    yield "outcome", "outcomes", "", setting.top["outcomes"]
    for agent, place in setting.tables("agent"):
        yield "type", "agent.types", place, agent["types"]


def bad_name(setting: Setting) -> Found:
    """The names that have other letters, or too many."""
    wanted = TABLE["sentences"]["name.letters"]
    for noun, key, place, names in _names(setting):
        for name in names:
            if not NAME.fullmatch(str(name.value)):
                of = f"an {noun}" if noun in ("agent", "outcome") else f"a {noun}"
                yield Fault("name.bad", shown(name.source), wanted, name.at, key, place, {"of": of})


def double_name(setting: Setting) -> Found:
    """The names that stand in a list a second time."""
    for noun, key, place, names in _names(setting):
        for number, name in enumerate(names):
            if name.value in [it.value for it in names[:number]]:
                yield Fault("name.double", shown(name.source), "", name.at, key, place, {"of": f"the {noun}s"})


def sizes(setting: Setting) -> Found:
    """Of what there are too few or too many."""
    for front in setting.fronts():
        for key, spec in setting.known(front).items():
            for table, place in setting.tables(front) if "noun" in spec and "least" in spec else ():
                if key not in table:
                    continue
                value = table[key]
                count = len(value) if isinstance(value, Items) else value.value
                if not spec["least"] <= count <= spec["most"]:
                    wanted = f"{between(spec['least'], spec['most'])} are"
                    at = table.places[key]
                    yield Fault("size.wrong", there(count, spec["noun"]), wanted, at, _whole_key(front, key), place)
    if setting.kind == "general" and setting.count_of("profile", None) > LIMITS["profiles"]:
        found = there(setting.count_of("profile", None), "profile")
        yield Fault("size.wrong", found, f"at most {LIMITS['profiles']:,} are")
    if setting.kind == "bidders":
        total = sum(setting.number("count", it, 1) for it, _ in setting.groups)
        if total > LIMITS["bidders"]:
            yield Fault("size.wrong", f"{there(total, 'bidder')} in all", f"at most {LIMITS['bidders']:,} are", key="bidder.count")


def shape(setting: Setting) -> Found:
    """The lists that have another length than they should."""
    for front in setting.fronts():
        for table, place in setting.tables(front):
            for key, spec in setting.known(front).items():
                if "per" in spec and key in table:
                    yield from _other_lengths(setting, table, _whole_key(front, key), spec, place)


def _other_lengths(setting: Setting, table: Any, key: str, spec: Dict[str, Any], place: str) -> Found:
    """Where a list, or one of the lists in it, has another length than it should."""
    name = key if key.startswith("objective") else key.rpartition(".")[2]
    value, per = table[name.rpartition(".")[2]], setting.count_of(spec["per"], table)
    if len(value) != per:
        noun = "list" if "inner" in spec else "number"
        yield Fault("shape.wrong", counted(len(value), noun), there(per, spec["per"]), value.at, key, place, {"key": name})
    inner = setting.count_of(spec["inner"], table) if "inner" in spec else 0
    for number, element in enumerate(value if "inner" in spec else (), 1):
        if len(element) != inner:
            more = {"key": f"list {number} of {name}"}
            yield Fault("shape.wrong", counted(len(element), "number"), there(inner, spec["inner"]), element.at, key, place, more)


def out_of_range(setting: Setting) -> Found:
    """The numbers that are outside their limits."""
    for front in setting.fronts():
        for table, place in setting.tables(front):
            for key, spec in setting.known(front).items():
                for label, number in _numbers(table[key]) if "from" in spec and key in table else ():
                    if not spec["from"] <= number.value <= spec["to"]:
                        more = {"key": label + _shown_key(front, key)}
                        wanted = between(spec["from"], spec["to"])
                        yield Fault("key.wrong", number.source, wanted, number.at, _whole_key(front, key), place, more)
    yield from _worths(setting) if setting.kind == "general" else _products(setting)


def _part(value: Value) -> str:
    """What a value is called as a part of a list."""
    return "list" if isinstance(value, Items) else "element"


def _numbers(value: Value) -> Iterator[Tuple[str, Any]]:
    """The numbers of a value, each with what stands in front of the key."""
    if isinstance(value, Items):
        for place, element in enumerate(value, 1):
            for label, number in _numbers(element):
                yield f"{label}{_part(element)} {place} of ", number
    else:
        yield "", value


def _worths(setting: Setting) -> Found:
    """The outcomes that are worth too much to the designer."""
    welfare, most = setting.objective("welfare"), LIMITS["worth"]
    own = [it.value for it in setting.top.get("objective", {}).get("value", [])] or [0] * len(setting.outcomes)
    for rank, profile in enumerate(setting.profiles()):
        for outcome, name in enumerate(setting.outcomes):
            worth = sum(setting.utility(agent, rank, place, outcome) for agent, place in zip(setting.agents, profile))
            if abs(own[outcome] + welfare * worth) > most:
                more = {"of": quoted(name), "profile": quoted(setting.name_of(profile))}
                yield Fault("range.worth", f"{own[outcome] + welfare * worth:,}", between(-most, most), key="objective", more=more)


def _products(setting: Setting) -> Found:
    """The values of an auction that welfare makes too great."""
    welfare, most = setting.number("welfare", setting.top, 0), LIMITS["worth"]
    for table, place in setting.groups:
        for value in table["values"]:
            if abs(welfare * value.value) > most:
                found, wanted, at = f"{welfare * value.value:,}", between(-most, most), setting.top["welfare"].at
                yield Fault("range.product", found, wanted, at, "welfare", place, {"of": value.source})


def zero_weight(setting: Setting) -> Found:
    """The types or values that never come."""
    if setting.kind != "general":
        for table, place in setting.groups:
            for value, weight in zip(table["values"], table["weights"]):
                if weight.value == 0:
                    yield Fault("weight.value", value.source, "above 0", weight.at, _own_key(setting, "weights"), place)
        return
    for number, (agent, place) in enumerate(setting.tables("agent")):
        for kind, name in enumerate(agent["types"]):
            if "prior" not in setting.top:
                weight = agent["weights"][kind]
                if weight.value == 0:
                    yield Fault("weight.type", quoted(name.value), "above 0", weight.at, "agent.weights", place)
            elif all(setting.weight(it) == 0 for it in setting.profiles() if it[number] == kind):
                yield Fault("weight.prior", quoted(name.value), "above 0", setting.top["prior"].at, "prior", place)


def weight_total(setting: Setting) -> Found:
    """By how much the weights are too great together."""
    if setting.kind == "bidders":
        yield from _group_totals(setting)
        return
    is_auction, most = setting.kind == "auction", LIMITS["weight"]
    weights = (it.value for it in setting.top["weights"]) if is_auction else map(setting.weight, setting.profiles())
    total, key = sum(weights), "weights" if is_auction else "prior" if "prior" in setting.top else "agent.weights"
    at = setting.top[key].at if key in setting.top else None
    if total > most:
        more = {"of": "" if is_auction else TABLE["sentences"]["weight.profiles"]}
        yield Fault("weight.total", f"{total:,}", f"{most:,}", at, key, more=more)


def _group_totals(setting: Setting) -> Found:
    """By how much the weights of a group are too great together, where they are divided by their greatest common divisor."""
    for table, place in setting.groups:
        weights = [it.value for it in table["weights"]]
        divisor, most = functools.reduce(math.gcd, weights), LIMITS["weight"]
        if sum(weights) > most * divisor:
            divided = TABLE["sentences"]["weight.divided"].format(divisor=f"{divisor:,}") if divisor > 1 else ""
            total = f"{sum(weights) // divisor:,}"
            yield Fault("weight.total", total, f"{most:,}", table["weights"].at, "bidder.weights", place, {"of": divided})


def _own_key(setting: Setting, key: str) -> str:
    """A key of an auction, or of a group of bidders."""
    return f"bidder.{key}" if setting.kind == "bidders" else key


def values_order(setting: Setting) -> Found:
    """The values of an auction, or of a group of bidders, that do not ascend."""
    for table, place in setting.groups:
        for first, second in zip(table["values"], table["values"][1:]):
            if first.value >= second.value:
                more = {"of": first.source}
                yield Fault("values.order", second.source, "", second.at, _own_key(setting, "values"), place, more)


def slots_order(setting: Setting) -> Found:
    """The slots with a greater amount than the one before."""
    slots = setting.top["slots"]
    for first, second in zip(slots, slots[1:]):
        if first.value < second.value:
            yield Fault("slots.order", second.source, "", second.at, "slots", more={"of": first.source})


def too_many_rows(setting: Setting) -> Found:
    """By how much the linear program is too large."""
    rows, conditions = setting.rows(), setting.conditions()
    cells = rows * (setting.columns() + conditions + rows + 1)
    if rows > LIMITS["rows"]:
        yield Fault("size.rows", counted(rows, "row"), f"{LIMITS['rows']:,}")
    elif cells > LIMITS["cells"]:
        yield Fault("size.cells", counted(cells, "cell"), f"{LIMITS['cells']:,}")


def too_many_counts(setting: Setting) -> Found:
    """By how much an auction is too large."""
    bidders, values = setting.top["bidders"].value, len(setting.top["values"])
    total = sum(it.value for it in setting.top["weights"]) ** bidders
    lists = math.comb(bidders + values - 1, bidders)
    if total > LIMITS["lists"]:
        more = {"of": TABLE["sentences"]["weight.profiles"]}
        yield Fault("weight.total", f"{total:,}", f"{LIMITS['lists']:,}", setting.top["weights"].at, "weights", more=more)
    elif lists > LIMITS["counts"]:
        yield Fault("size.lists", counted(lists, "list"), f"{LIMITS['counts']:,}", setting.top["bidders"].at, "bidders")


# The command


def other_kind(setting: Setting, command: str, has_units: bool) -> Found:
    """Which settings the command serves, and what serves this one."""
    about = TABLE["commands"][command]
    serves = ["auction"] if has_units else about.get("serves", "general auction").split()
    if setting.kind not in serves:
        is_served = setting.kind != "bidders"  # (no command serves groups of bidders)
        names = [f"`{it}`" for it in re.split(r", | and ", about.get("others", "")) if it and is_served]
        serve = TABLE["sentences"]["kind.serves" if len(names) == 1 else "kind.serve"]
        others = f": {serve.format(names=listed(names, 'and'))}" if names else ""
        wanted = listed([{"general": "general settings", "auction": "auctions"}[it] for it in serves], "and")
        more = {"command": f"{command} --units" if has_units else command, "others": others}
        yield Fault("kind.other", CALLED[setting.kind], wanted, setting.top["kind"].at, "kind", more=more)


def not_a_sale(setting: Setting) -> Found:
    """Why a setting is no sale, in the order of docs/FORMATS.md."""
    outcomes, wanted = setting.top["outcomes"], len(setting.agents) + 1
    if len(outcomes) != wanted:
        yield Fault("sale.outcomes", there(len(outcomes), "outcome"), str(wanted), outcomes.at, "outcomes")
    yield from _sale_worths(setting)
    yield from _sale_keys(setting, {"truth": "bayes", "rational": "interim"})
    for agent, place in setting.tables("agent"):
        number = next((it for it in agent.get("outside", []) if it.value), None)
        if number is not None:
            yield Fault("sale.outside", number.source, "0", number.at, "agent.outside", place)
    yield from _sale_keys(setting, {"payments": True, "no_deficit": False})
    if setting.objective("revenue") < 0:
        revenue = setting.top["objective"]["revenue"]
        yield Fault("sale.key", revenue.source, "0 or more", revenue.at, "objective.revenue")
    types = sum(map(len, setting.types()))
    if types > LIMITS["sale_types"]:
        yield Fault("sale.types", counted(types, "type"), str(LIMITS["sale_types"]))
    yield from _dependent_utilities(setting)
    yield from _dependent_weights(setting)


def _sale_worths(setting: Setting) -> Found:
    """What an outcome is worth to an agent that does not have the item at it, or less than nothing to the one that has."""
    for outcome, name in enumerate(setting.outcomes):
        for number, (agent, place) in enumerate(setting.tables("agent")):
            key = "utility_at" if "utility_at" in agent else "utility"
            for worths in agent[key]:
                worth = worths[outcome]
                is_own = number == outcome - 1
                if worth.value < 0 if is_own else worth.value:
                    more = {"of": quoted(name)}
                    wanted = "0 or more" if is_own else "0"
                    yield Fault("sale.worth", worth.source, wanted, worth.at, f"agent.{key}", place, more)


def _sale_keys(setting: Setting, wanted: Dict[str, Union[str, bool]]) -> Found:
    """The keys of the top table that have another value than that of a sale."""
    for key, right in wanted.items():
        value = setting.top.get(key)
        if value is not None and value.value != right:
            told = quoted(right) if isinstance(right, str) else str(right).lower()
            yield Fault("sale.key", shown(value.source), told, value.at, key)


def _dependent_utilities(setting: Setting) -> Found:
    """Where what an agent gets for the item depends on the types of others."""
    for number, (agent, place) in enumerate(setting.tables("agent")):
        firsts: Dict[int, int] = {}
        for rank, profile in enumerate(setting.profiles()):
            worth = setting.utility(agent, rank, profile[number], number + 1)
            if firsts.setdefault(profile[number], worth) != worth:
                more = {"of": quoted(setting.outcomes[number + 1])}
                yield Fault("sale.own", at=agent["utility_at"][rank].at, key="agent.utility_at", place=place, more=more)


def _dependent_weights(setting: Setting) -> Found:
    """Whether the types of agents depend on each other."""
    weights = {profile: setting.weight(profile) for profile in setting.profiles()}
    total = sum(weights.values())
    shares = [
        [sum(weight for profile, weight in weights.items() if profile[agent] == kind) for kind in range(len(types))]
        for agent, types in enumerate(setting.types())
    ]
    for profile, weight in weights.items():
        if weight * total ** (len(profile) - 1) != math.prod(shares[agent][kind] for agent, kind in enumerate(profile)):
            yield Fault("sale.weights", at=setting.top["prior"].at, key="prior")


OF_CONTENTS: Dict[str, Callable[[Setting], Found]] = {
    "unknown key": unknown_key,
    "bad name": bad_name,
    "double name": double_name,
    "sizes": sizes,
    "shape": shape,
    "out of range": out_of_range,
    "zero weight": zero_weight,
    "weight total": weight_total,
    "values order": values_order,
    "slots order": slots_order,
    "too many rows": too_many_rows,
    "too many counts": too_many_counts,
    "not a sale": not_a_sale,
}
OF_KEYS: Dict[str, Callable[[Setting, str], Found]] = {"missing": missing, "wrong kind": wrong_kind, "unknown word": unknown_word}


def not_toml(text: str) -> Found:
    """Where a text is no TOML document, or what else it is."""
    for start, found in ANSWERS.items():
        if text.startswith(start):
            yield Fault("toml.answer", found, "a setting", 0)
    try:
        read_toml(text)
    except NotToml as wrong:
        yield wrong.fault


def setting_fault(text: str, cause: str, command: str, has_units: bool) -> Optional[Fault]:
    """What is wrong with a setting that was refused for a cause, as docs/FORMATS.md names them; None where nothing is found."""
    if cause == "not toml":
        return next(not_toml(text), None)
    setting = Setting(text)
    if cause == "other kind":
        return next(other_kind(setting, command, has_units), None)
    if cause in OF_CONTENTS:
        return next(OF_CONTENTS[cause](setting), None)
    words, _, key = cause.rpartition(" ")
    return next(OF_KEYS[words](setting, key), None)
