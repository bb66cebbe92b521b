"""Printed answers, read into values. A text that is no answer of a known kind to the setting is refused, never misread."""

from __future__ import annotations

import dataclasses
import math
from collections.abc import Callable, Iterator, Mapping, Sequence
from fractions import Fraction
from typing import Any

from .answers import (
    Answer,
    Audit,
    AuctionOptimal,
    AuctionTable,
    Award,
    Basis,
    Branch,
    Draw,
    Drill,
    Fairest,
    GeneralOptimal,
    Infeasible,
    Leaf,
    Multiplier,
    Node,
    Price,
    Program,
    Realised,
    Replay,
    Report,
    Required,
    Row,
    Rule,
    SaleOptimal,
    Standing,
    Table,
    Threshold,
    TooWide,
    TypeReport,
    Unbounded,
    Undecided,
    UnitsDraw,
    UnitsOptimal,
    Verdict,
    Violated,
    WidePath,
    Worst,
    elements,
    members,
)
from .conditions import Condition, take_conditions
from .errors import AnswerNotRead, UnknownAnswer
from .mechanisms import AuctionMechanism, Counts, Mechanism, SaleMechanism, UnitsMechanism
from .records import Over, Printed, Records
from .settings import Amount, AnySetting, Auction, Profile, Setting, SettingLike, of_scale, read_setting


def _by_profile(
    records: Records, word: str, setting: Setting, names: Sequence[str], denominator: int, scale: int = 1
) -> dict[Profile, dict[str, Fraction]]:
    """The records of a word that come for each profile, as fractions by profile and name, of amounts at a scale. Lotteries must be
    some."""
    found, agents, over = {}, len(setting.agents), Over(records, denominator * scale)
    for profile in setting.profiles():
        fields = records.take(word, agents + len(names))
        records.same(fields[:agents], profile)
        numbers = fields[agents:]
        if word == "lottery":
            _try_lottery(records, numbers, denominator)
        found[profile] = dict(zip(names, map(over.__getitem__, numbers), strict=True))
    return found


def _try_lottery(records: Records, fields: list[str], denominator: int) -> None:
    numbers = records.numbers(fields)
    if sum(numbers) != denominator or min(numbers) < 0:
        raise records.wrong("the numbers of a lottery do not add to the denominator, or one is below 0")


def _value(records: Records, setting: AnySetting) -> Fraction:
    """The record of the value."""
    return records.fraction(records.take("value", 2), setting.scale)


def _mechanism(records: Records, setting: Setting) -> Mechanism:
    """The records from `table` to the last of the pays."""
    denominator = records.denominator("table")
    lotteries = _by_profile(records, "lottery", setting, setting.outcomes, denominator)
    pays = _pays(records, "pay", setting, denominator) if setting.payments else {}
    return Mechanism(lotteries, pays, denominator, setting.agent_names)


def _pays(records: Records, word: str, setting: Setting, denominator: int) -> dict[Profile, dict[str, Fraction]]:
    """The records of a word that say for each profile what each agent pays."""
    return _by_profile(records, word, setting, setting.agent_names, denominator, setting.scale)


def _faces(records: Records) -> tuple[Multiplier, ...]:
    """The face multipliers of an infeasible answer."""
    return _ascending(records, (Multiplier(row, face) for row, face in map(records.numbers, records.all("row", 2))))


def _bound(records: Records) -> tuple[int, tuple[Multiplier, ...]]:
    """The bound of an optimal answer, and its multipliers."""
    bound = records.denominator("bound")
    over, number = Over(records, bound), records.number
    found = (Multiplier(number(row), number(face), over[main]) for row, face, main in records.all("row", 3))
    return bound, _ascending(records, found)


def _ascending(records: Records, multipliers: Iterator[Multiplier]) -> tuple[Multiplier, ...]:
    found = list[Multiplier]()
    for multiplier in multipliers:
        if multiplier.row <= (found[-1].row if found else -1):
            raise records.wrong("the rows do not ascend")
        found.append(multiplier)
    return tuple(found)


def _wide_path(records: Records) -> WidePath:
    """The pivots of a path, and its wide entry."""
    pivots = [records.numbers(fields) for fields in records.all("pivot", 2)]
    *numbers, denominator = records.take("wide", 4)
    row, column, numerator = records.numbers(numbers)
    return WidePath(tuple((row, column) for row, column in pivots), row, column, numerator, records.positive(denominator))


def _too_wide(records: Records, setting: AnySetting, kind: str, version: str, **where: Any) -> TooWide:
    """The paths of an answer that is too wide: two with `again` between them, but one where `solve` has the version 1."""
    paths = [_wide_path(records)]
    if version == "2" or (kind, "toowide") not in _TWO_VERSIONS:
        records.take("again", 0)
        paths.append(_wide_path(records))
    records.end()
    return TooWide(setting=setting, kind=kind, paths=tuple(paths), **where)


def _set_of(records: Records, field: str, every: Sequence[Any]) -> frozenset[Any]:
    """The set of a number: the sum of 2^j over the places j of its members."""
    bits = records.number(field)
    if not 0 < bits < 1 << len(every):
        raise records.wrong(f"{bits} is no set of {len(every)}")
    return frozenset(members(every, bits))


def _cuts(records: Records, setting: AnySetting) -> tuple[frozenset[Any], ...]:
    """The sets of the cuts."""
    every = elements(setting)
    return tuple(_set_of(records, field, every) for (field,) in records.all("cut", 1))


def _general(records: Records, setting: Setting, kind: str, word: str, version: str) -> Answer:
    """An answer about a general setting (`general`), or a fairest one (`fair`)."""
    if word == "optimal":
        value, mechanism = _value(records, setting), _mechanism(records, setting)
        bound, multipliers = _bound(records)
        records.end()
        made = Fairest if kind == "fair" else GeneralOptimal
        return made(setting=setting, kind=kind, value=value, mechanism=mechanism, bound=bound, multipliers=multipliers)
    if word == "infeasible":
        faces = _faces(records)
        records.end()
        return Infeasible(setting=setting, kind=kind, multipliers=faces)
    if word == "unbounded":
        return _unbounded(records, setting, kind)
    if word == "table" and kind == "general":
        mechanism = _mechanism(records, setting)
        records.end()
        return Table(setting=setting, kind=kind, mechanism=mechanism)
    if word == "toowide":
        return _too_wide(records, setting, kind, version)
    raise UnknownAnswer(f"an answer of an unknown kind: {kind}, {word}")


def _unbounded(records: Records, setting: Setting, kind: str) -> Unbounded:
    mechanism = _mechanism(records, setting)
    ray = _pays(records, "ray", setting, mechanism.denominator)
    records.end()
    return Unbounded(setting=setting, kind=kind, mechanism=mechanism, ray=ray)


def _required(records: Records, setting: Setting, kind: str, word: str, version: str) -> Answer:
    """An answer of `require`: one as of `find`, with the conditions of the designer in front, and their shadows behind."""
    conditions = take_conditions(records, setting)
    if word == "optimal":
        value, mechanism = _value(records, setting), _mechanism(records, setting)
        bound, multipliers = _bound(records)
        shadows = _shadows(records, [1 if condition.is_amount else setting.scale for condition in conditions])
        records.end()
        return Required(
            setting=setting,
            kind=kind,
            value=value,
            mechanism=mechanism,
            bound=bound,
            multipliers=multipliers,
            conditions=conditions,
            shadows=shadows,
        )
    if word == "infeasible":
        faces = _faces(records)
        records.end()
        return Infeasible(setting=setting, kind=kind, multipliers=faces, conditions=conditions)
    if word == "unbounded":
        return dataclasses.replace(_unbounded(records, setting, kind), conditions=conditions)
    raise UnknownAnswer(f"an answer of an unknown kind: {kind}, {word}")


def _shadows(records: Records, scales: Sequence[int]) -> tuple[Fraction | None, ...]:
    """The shadows of the conditions, as far as they are told: of each condition at its own scale."""
    found: list[Fraction | None] = []
    for field, *shadow in records.all("shadow", 3):
        place = records.number(field)
        if not len(found) <= place < len(scales):
            raise records.wrong("no such condition, or not the next one")
        found += [None] * (place - len(found))
        found.append(records.fraction(shadow, scales[place]))
    found += [None] * (len(scales) - len(found))
    return tuple(found)


def _tree(records: Records, setting: Setting) -> tuple[Node, ...]:
    """The nodes of a search, in preorder. What waits is kept as a list, since a tree may be deep."""
    profiles, found = list(setting.profiles()), list[Node]()
    waiting: list[dict[Profile, str]] = [{}]
    while waiting:
        fixed = waiting.pop()
        if records.word() == "branch":
            rank = records.number(records.take("branch", 1)[0])
            if not 0 <= rank < len(profiles) or profiles[rank] in fixed:
                raise records.wrong(f"no branch at the profile {rank}")
            found.append(Branch(fixed, profiles[rank]))
            waiting += [{**fixed, profiles[rank]: outcome} for outcome in reversed(setting.outcomes)]
            continue
        found.append(_leaf(records, setting, fixed))
    return tuple(found)


def _leaf(records: Records, setting: Setting, fixed: Mapping[Profile, str]) -> Leaf:
    (word,) = records.take("leaf", 1)
    if word == "infeasible":
        return Leaf(fixed, None, _faces(records))
    if word != "optimal":
        raise records.wrong(f"no leaf is {word}")
    mechanism = _mechanism(records, setting)
    bound, multipliers = _bound(records)
    return Leaf(fixed, mechanism, multipliers, bound)


def _rule(records: Records, setting: Setting, kind: str, word: str, version: str) -> Answer:
    """An answer of `determ`. The mechanism is the one in front of the tree; those of the leaves are bounds."""
    if word == "optimal":
        value = _value(records, setting)
        mechanism, tree = _mechanism(records, setting), _tree(records, setting)
        records.end()
        if any(1 not in row.values() for row in mechanism.lotteries.values()):
            raise AnswerNotRead("a deterministic mechanism draws no lots")
        return Rule(setting=setting, kind=kind, value=value, mechanism=mechanism, tree=tree)
    if word == "infeasible":
        tree = _tree(records, setting)
        records.end()
        return Infeasible(setting=setting, kind=kind, tree=tree)
    if word == "unbounded":
        return _unbounded(records, setting, kind)
    if word == "toowide":
        return _too_wide(records, setting, kind, version, fixed=_fixed(records, setting))
    raise UnknownAnswer(f"an answer of an unknown kind: {kind}, {word}")


def _fixed(records: Records, setting: Setting) -> dict[Profile, str]:
    """What is fixed at the node at which a search ends."""
    profiles, found, last = list(setting.profiles()), dict[Profile, str](), -1
    for fields in records.all("fix", 2):
        rank, outcome = records.numbers(fields)
        if not (last < rank < len(profiles) and 0 <= outcome < len(setting.outcomes)):
            raise records.wrong("no such profile or outcome, or not the next one")
        found[profiles[rank]] = setting.outcomes[outcome]
        last = rank
    return found


def _by_value(records: Records, word: str, auction: Auction, denominator: int) -> dict[Amount, Fraction]:
    over = Over(records, denominator)
    return dict(zip(auction.values, map(over.__getitem__, records.take(word, len(auction.values))), strict=True))


def _masses(records: Records, auction: Auction, denominator: int) -> dict[Counts, dict[Amount, Fraction]]:
    """The mass records: by counts and value, one for each list of counts."""
    found: dict[Counts, dict[Amount, Fraction]] = {}
    width, over = len(auction.values), Over(records, denominator)
    last: Counts = ()
    for fields in records.all("mass", 2 * width):
        counts = records.numbers(fields[:width])
        if sum(counts) != auction.bidders or min(counts) < 0 or counts <= last:
            raise records.wrong("no counts of the bidders, or not the next ones")
        if any(field != "0" and (field[:1] == "-" or not count) for field, count in zip(fields[width:], counts, strict=True)):
            raise records.wrong("a mass is below 0, or goes to a value that nobody has")
        found[counts] = dict(zip(auction.values, map(over.__getitem__, fields[width:]), strict=True))
        last = counts
    if len(found) != math.comb(auction.bidders + width - 1, width - 1):
        raise records.wrong("a mass record is missing")
    return found


def _auction(records: Records, auction: Auction, kind: str, word: str, version: str, units: int | None) -> Answer:
    """An answer about an auction (`auction`), or about one of several units (`units`)."""
    if word == "toowide":
        cuts = _cuts(records, auction)
        return _too_wide(records, auction, kind, version, cuts=cuts)
    if word == "table" and kind == "auction":
        odds, pays, denominator = _interim(records, auction)
        records.end()
        return AuctionTable(setting=auction, kind=kind, odds=odds, pays=pays, denominator=denominator)
    if word != "optimal":
        raise UnknownAnswer(f"an answer of an unknown kind: {kind}, {word}")
    value = _value(records, auction)
    mechanism, cuts = _auction_mechanism(records, auction, kind, units), _cuts(records, auction)
    bound, multipliers = _bound(records)
    records.end()
    made: Callable[..., Answer] = UnitsOptimal if kind == "units" else AuctionOptimal
    return made(setting=auction, kind=kind, value=value, mechanism=mechanism, cuts=cuts, bound=bound, multipliers=multipliers)


def _interim(records: Records, auction: Auction) -> tuple[dict[Amount, Fraction], dict[Amount, Fraction], int]:
    """The records from `interim` to the pays: the odds, the pays, and their denominator."""
    denominator = records.denominator("interim")
    odds = _by_value(records, "odds", auction, denominator)
    return odds, _by_value(records, "pays", auction, denominator * auction.scale), denominator


def _auction_mechanism(records: Records, auction: Auction, kind: str, units: int | None) -> AuctionMechanism:
    """The records from `interim` to the last mass."""
    odds, pays, denominator = _interim(records, auction)
    weights = dict(zip(auction.values, auction.weights, strict=True))
    masses = _masses(records, auction, denominator)
    if kind == "units":
        return UnitsMechanism(auction.bidders, weights, odds, pays, masses, denominator, units)
    return AuctionMechanism(auction.bidders, weights, odds, pays, masses, denominator)


def _by_type(records: Records, word: str, setting: Setting, denominator: int) -> dict[str, dict[str, Fraction]]:
    found, over = {}, Over(records, denominator)
    for agent in setting.agents:
        name, *numbers = records.take(word, 1 + len(agent.types))
        records.same([name], [agent.name])
        found[agent.name] = dict(zip(agent.types, map(over.__getitem__, numbers), strict=True))
    return found


def _sale(records: Records, setting: Setting, kind: str, word: str, version: str) -> Answer:
    """An answer of `asym`."""
    if word == "toowide":
        cuts = _cuts(records, setting)
        return _too_wide(records, setting, kind, version, cuts=cuts)
    if word != "optimal":
        raise UnknownAnswer(f"an answer of an unknown kind: {kind}, {word}")
    value = _value(records, setting)
    denominator = records.denominator("interim")
    odds = _by_type(records, "odds", setting, denominator)
    pays = _by_type(records, "pays", setting, denominator * setting.scale)
    masses = _by_profile(records, "mass", setting, setting.agent_names, denominator)
    mechanism, cuts = SaleMechanism(setting.weights(), odds, pays, masses, denominator), _cuts(records, setting)
    bound, multipliers = _bound(records)
    records.end()
    return SaleOptimal(
        setting=setting, kind=kind, value=value, mechanism=mechanism, cuts=cuts, bound=bound, multipliers=multipliers
    )


_GENERAL: dict[str, Callable[..., Answer]] = {
    "general": _general,
    "required": _required,
    "fair": _general,
    "determ": _rule,
    "asym": _sale,
}
_AUCTION = ("auction", "units")
_TWO_VERSIONS = {("general", "toowide"), ("auction", "toowide")}


def read_answer(setting: AnySetting, text: str, units: int | None = None) -> Answer:
    """An answer to a setting, as a value. `units` is the number that `units` was asked for, which its text does not say.

    Raises `UnknownAnswer` for a kind, word or version that this package does not know, and `AnswerNotRead` where the text is
    none, or does not fit the setting. The program's own conditions (`check`) are not tried.
    """
    records = Records(text)
    if records.word() == "undecided":
        records.take("undecided", 0)
        records.nothing()
        return Undecided(setting=setting, kind="auction" if isinstance(setting, Auction) else "general")
    version, kind, word = records.take("answer", 3)
    if kind not in (*_GENERAL, *_AUCTION):
        raise UnknownAnswer(f"an answer of an unknown kind: {kind}, {word}")
    if version != "1" and (version != "2" or (kind, word) not in _TWO_VERSIONS):
        raise UnknownAnswer(f"an answer of an unknown version: {version}, {kind}, {word}")
    if isinstance(setting, Auction) != (kind in _AUCTION):
        raise AnswerNotRead(f"an answer of the kind {kind} is about another kind of setting")
    if isinstance(setting, Auction):
        return _auction(records, setting, kind, word, version, units)
    return _GENERAL[kind](records, setting, kind, word, version)


def read_verdict(text: str) -> Verdict:
    """What `check` or `determcheck` prints."""
    records = Records(text)
    word = records.word()
    if word not in ("valid", "undecided", "rejected"):
        raise UnknownAnswer(f"a verdict of an unknown kind: {word}")
    fields = records.take(word, None if word == "rejected" else 0)
    records.nothing()
    if word != "rejected":
        return Verdict(word)
    condition, *told = fields or [""]
    name = told.pop(0) if condition in ("1", "12") and told else None
    return Verdict(word, records.number(condition), name, records.numbers(told))


def read_audit(text: str) -> Audit:
    """What `audit` prints."""
    records = Records(text)
    word = records.word()
    if word not in ("admissible", "broken"):
        raise UnknownAnswer(f"an audit of an unknown kind: {word}")
    fields = records.take(word, 3 if word == "broken" else 0)
    records.nothing()
    return Audit(fields[0], *records.numbers(fields[1:])) if fields else Audit()


def read_program(text: str) -> Program:
    """What `rows` prints."""
    records = Records(text)
    columns, count = records.numbers(records.take("program", 2))
    cost = records.sparse(records.take("cost"))
    found = list[Row]()
    for fields in records.all("row"):
        if len(fields) < 4 or fields[0] != str(len(found)) or fields[2] not in ("atmost", "exact"):
            raise records.wrong("another row is wanted")
        _, name, kind, right, *numbers = fields
        found.append(Row(name, kind == "exact", records.number(right), records.sparse(numbers)))
    records.end()
    if len(found) != count:
        raise AnswerNotRead(f"{len(found)} rows, not {count}")
    return Program(columns, cost, tuple(found))


def read_replay(text: str) -> Replay:
    """What `replay` prints."""
    records = Records(text)
    bases = list[Basis]()
    for fields in records.all("basis", 3):
        place, denominator, greatest = records.numbers(fields)
        if place != len(bases):
            raise records.wrong("another basis is wanted")
        bases.append(Basis(denominator, greatest))
    wide = _wide_path(records) if records.word() == "wide" else None
    forward, backward = (records.number(records.take(word, 1)[0]) for word in ("rule", "again"))
    records.end()
    return Replay(tuple(bases), wide, forward, backward)


def read_realised(auction: Auction, text: str) -> Realised | Violated:
    """What `realise` prints."""
    records = Records(text)
    if records.word() == "violated":
        return _violated(records, auction)
    denominator = records.denominator("realise")
    masses = _masses(records, auction, denominator)
    records.end()
    return Realised(setting=auction, masses=masses, denominator=denominator)


def _violated(records: Records, auction: Auction) -> Violated:
    """The set of values that asks for too much."""
    bits, excess, over = records.take("violated", 3)
    values = _set_of(records, bits, auction.values)
    found = records.fraction([excess, over])
    records.nothing()
    return Violated(setting=auction, values=values, excess=found, denominator=records.number(over))


def read_draw(setting: AnySetting, text: str, units: int | None = None) -> Draw | UnitsDraw:
    """What `run` prints, of an answer about so many units where a number is given."""
    records = Records(text)
    if units is not None and isinstance(setting, Auction):
        winners = _winners(records, setting.bidders, units)
        return UnitsDraw(winners, *_paid(records, range(1, setting.bidders + 1), setting.scale), setting.scale)
    (outcome,) = records.take("outcome", 1)
    if isinstance(setting, Setting) and not setting.payments:
        records.nothing()
        return Draw(outcome, {})
    names = range(1, setting.bidders + 1) if isinstance(setting, Auction) else setting.agent_names
    return Draw(outcome, *_paid(records, names, setting.scale), setting.scale)


def _winners(records: Records, bidders: int, units: int) -> tuple[int, ...]:
    """The bidders who get a unit, in ascending order, of whom there are at most as many as units."""
    found: list[int] = []
    for (bidder,) in records.all("wins", 1):
        if not (found[-1] if found else 0) < records.number(bidder) <= bidders or len(found) == units:
            raise records.wrong("no such bidder, or not the next one, or more than there are units")
        found.append(records.number(bidder))
    return tuple(found)


def _paid(records: Records, names: Sequence[Any], scale: int) -> tuple[dict[Any, Fraction], int]:
    """The last record, of what each of some names pays, and its denominator."""
    denominator, *paid = records.take("pays", 1 + len(names))
    over = Over(records, records.positive(denominator) * scale)
    records.nothing()
    return dict(zip(names, map(over.__getitem__, paid), strict=True)), records.number(denominator)


def read_threshold(text: str, scale: int = 1) -> Threshold:
    """What `threshold` prints of an auction of this scale."""
    records = Records(text)
    (version,) = records.take("threshold", 1)
    if version != "1":
        raise UnknownAnswer(f"an auction of an unknown version: {version}")
    units = records.positive(records.take("units", 1)[0])
    value, revenue, welfare = (records.fraction(records.take(word, 2), scale) for word in ("value", "revenue", "welfare"))
    (told,) = records.take("reserve", 1)
    reserve = None if told == "none" else of_scale(records.number(told), scale)
    pools = tuple(_pool(records, fields, scale) for fields in records.all("pool", 2))
    if reserve != (pools[0][0] if pools else None):
        raise records.wrong("the reserve is not the least value of the lowest pool")
    prices = tuple(_price(records, fields, len(pools), scale) for fields in records.all("price", 5))
    records.end()
    return Threshold(
        units=units, value=value, revenue=revenue, welfare=welfare, reserve=reserve, pools=pools, prices=prices, scale=scale
    )


def _pool(records: Records, fields: list[str], scale: int) -> tuple[Amount, Amount]:
    least, greatest = records.numbers(fields)
    if least > greatest:
        raise records.wrong("the least value of a pool is above the greatest")
    return of_scale(least, scale), of_scale(greatest, scale)


def _price(records: Records, fields: list[str], pools: int, scale: int) -> Price:
    """A price, by pools of which there are so many."""
    pool, count = records.number(fields[0]), records.number(fields[2])
    other = None if fields[1] == "none" else records.number(fields[1])
    if not 0 <= (other or 0) <= pool < pools or (count == 0) != (other is None):
        raise records.wrong("no case of a price")
    return Price(pool, other, count, records.fraction(fields[3:], scale))


def read_award(text: str, scale: int = 1) -> Award:
    """What `award` prints of an auction of this scale."""
    records = Records(text)
    chances, prices = _by_bidder(records, "chance"), _by_bidder(records, "price", scale)
    winners = tuple(records.number(bidder) for (bidder,) in records.all("wins", 1))
    records.end()
    may_win = [bidder for bidder, chance in chances.items() if chance]
    if list(chances) != list(range(1, len(chances) + 1)) or list(prices) != may_win or not set(winners) <= set(may_win):
        raise AnswerNotRead("other bidders are wanted")
    return Award(chances, prices, winners, scale)


def _by_bidder(records: Records, word: str, scale: int = 1) -> dict[int, Fraction]:
    """The records of a word that have a bidder and a fraction, in ascending order of bidders."""
    found: dict[int, Fraction] = {}
    for bidder, *amount in records.all(word, 3):
        if records.number(bidder) <= max(found, default=0):
            raise records.wrong("another bidder is wanted")
        found[records.number(bidder)] = records.fraction(amount, scale)
    return found


def read_drill(text: str) -> Drill:
    """What `drill` prints."""
    records = Records(text)
    fields = records.take("drill")
    if len(fields) not in (3, 5):
        raise records.wrong("drill has another number of fields")
    number, kind, word, *value = fields
    found = records.fraction(value) if value else None
    (verdict,) = records.take("check", 1)
    records.nothing()
    return Drill(records.number(number), kind, word, found, read_verdict(verdict))


def read_report(setting: AnySetting, text: str, conditions: Sequence[Condition] = ()) -> Report | Violated:
    """What `report` prints. `conditions` are those of the answer, which the text does not name; without them it is refused where it
    tells of any and the setting has a scale."""
    records, scale = Records(text), setting.scale
    if isinstance(setting, Auction) and records.word() == "violated":
        return _violated(records, setting)
    value, revenue, welfare = (records.fraction(records.take(word, 2), scale) for word in ("value", "revenue", "welfare"))
    keys = 1 if isinstance(setting, Auction) else 2
    types: dict[Any, TypeReport] = {}
    for fields in records.all("type", keys + 4):
        told = TypeReport(records.fraction(fields[keys : keys + 2], scale), records.fraction(fields[keys + 2 :], scale))
        types[of_scale(records.number(fields[0]), scale) if keys == 1 else (fields[0], fields[1])] = told
    if tuple(types) != elements(setting):
        raise records.wrong("other types are wanted")
    gains = tuple(_worst(records, setting, fields, True) for fields in records.all("gain"))
    losses = tuple(_worst(records, setting, fields, False) for fields in records.all("loss"))
    deficit = None
    if records.word() == "deficit":
        profile, *least = records.take("deficit", 3)
        deficit = (tuple(profile.split("+")), records.fraction(least, scale))
    tight = tuple(name for (name,) in records.all("tight", 1))
    found = enumerate(records.all("condition", 4))
    standings = tuple(_standing(records, place, fields, conditions, scale) for place, fields in found)
    records.end()
    return Report(
        value=value,
        revenue=revenue,
        welfare=welfare,
        types=types,
        gains=gains,
        losses=losses,
        deficit=deficit,
        tight=tight,
        conditions=standings,
        scale=scale,
    )


def _standing(records: Records, place: int, fields: list[str], conditions: Sequence[Condition], scale: int) -> Standing:
    """The record of the condition of the designer with a number."""
    if records.number(fields[0]) != place or fields[1] not in ("met", "missed"):
        raise records.wrong("the next condition is wanted, met or missed")
    if scale != 1:
        if place >= len(conditions):
            raise records.wrong("the setting has a scale, and it is not known whether this condition is on an amount")
        scale = scale if conditions[place].is_amount else 1
    return Standing(fields[1] == "met", records.fraction(fields[2:], scale), scale)


def _worst(records: Records, setting: AnySetting, fields: list[str], is_gain: bool) -> Worst:
    """A record of a gain or a loss: AGENT (not of an auction), TYPE, REPORT (of a gain), PROFILE (where the condition has one)."""
    each = isinstance(setting, Setting) and (setting.truth == "dominant" if is_gain else setting.rational == "ex-post")
    if len(fields) != isinstance(setting, Setting) + 1 + is_gain + each + 2:
        raise records.wrong("another number of fields is wanted")
    *names, numerator, denominator = fields
    amount = records.fraction([numerator, denominator], setting.scale)
    if isinstance(setting, Auction):
        value, *told = (of_scale(number, setting.scale) for number in records.numbers(names))
        return Worst(None, value, amount, told[0] if told else None)
    return Worst(names[0], names[1], amount, names[2] if is_gain else None, tuple(names[-1].split("+")) if each else None)


_ANSWERS = ("solve", "find", "require", "fair", "findfair", "asym", "units", "determ", "iron", "ironunits")
_OF_SETTINGS: dict[str, Callable[[Any, str], Printed]] = {"realise": read_realised, "report": read_report}
_ALONE: dict[str, Callable[[str], Printed]] = {
    "check": read_verdict,
    "determcheck": read_verdict,
    "audit": read_audit,
    "rows": read_program,
    "replay": read_replay,
    "drill": read_drill,
}
_OF_SCALES: dict[str, Callable[[str, int], Printed]] = {"threshold": read_threshold, "award": read_award}


def parse(command: str, text: str, setting: SettingLike | None = None, units: int | None = None) -> Printed:
    """What a command printed, as a value, of which `text()` is the text again.

    setting  what the command was asked about, where its text has names or numbers of that, or it has a scale
    units    the number that `units` or `ironunits` was asked for, or `run` of an answer about several units

    Raises `UnknownAnswer` for what this package does not know, `AnswerNotRead` where the text is none of the command, and
    `ValueError` where there is no such command or the setting is missing. The text of `make` is a setting: see `read_setting`.
    """
    if command in _ALONE:
        return _ALONE[command](text)
    if command not in (*_ANSWERS, "run", *_OF_SETTINGS, *_OF_SCALES):
        raise ValueError(f"no command prints answers by the name {command!r}")
    if command in _OF_SCALES:
        return _OF_SCALES[command](text, 1 if setting is None else read_setting(setting).scale)
    named = None if setting is None else read_setting(setting)
    if named is None or command == "realise" and not isinstance(named, Auction):
        raise ValueError(f"{command} is about a setting, which is missing or of another kind")
    if command == "run":
        return read_draw(named, text, units)
    return read_answer(named, text, units) if command in _ANSWERS else _OF_SETTINGS[command](named, text)
