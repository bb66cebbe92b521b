"""Tells what the mechanism of an answer does, and how far it is from truthful: docs/FORMATS.md, "What `report` prints".

Of a general setting all is computed from the lotteries and payments, profile by profile; of a sale from the odds and pays of an answer,
and so of an auction, of an answer, also of one about several units, or of an auction of one's own.
"""

from collections.abc import Callable, Iterable, Iterator, Sequence
from fractions import Fraction

from second_opinion import answer, auction, auction_answer, mechanisms, program, sale_answer, sale_checking, selling, unit_checking
from second_opinion.answer import Mechanism
from second_opinion.auction import Interim
from second_opinion.auction_answer import AuctionAnswer
from second_opinion.conditions import DesignerCondition, measured, scale_of
from second_opinion.sale_answer import SaleAnswer, pairs_of
from second_opinion.setting import Agent, AuctionSetting, GeneralSetting, Profile, Refused

Field = str | int
DONE, VIOLATED = 0, 21


def report(words: list[str]) -> tuple[int, str]:
    """The command `report SETTING ANSWER [--units NUMBER]`."""
    its, units, data = unit_checking.files_of(words)
    if isinstance(its, GeneralSetting):
        status, records = DONE, general_report(its, data)
    elif units is None:
        status, records = auction_report(its, data)
    else:
        status, records = DONE, unit_records(its, units, data)
    return status, "".join(",".join(map(str, record)) + "\n" for record in records)


def number(value: Fraction) -> list[int]:
    """A fraction as two fields."""
    return [value.numerator, value.denominator]


def first_greatest(parts: Iterable[tuple[list[Field], Fraction]]) -> list[Field]:
    """The fields and the number of the first part with the greatest number."""
    fields, greatest = max(parts, key=lambda part: part[1])  # of several, Python's max gives the first
    return [*fields, *number(greatest)]


# ---- a general setting


def general_report(its: GeneralSetting, data: bytes) -> Iterable[list[Field]]:
    """The records of the mechanism of an answer. A text that names another kind of answer is one about a sale, where the setting is
    one."""
    try:
        mechanism, asked = mechanisms.proposal_in(data, its)
    except Refused as refused:
        if refused.line != answer.ANOTHER_KIND or next(selling.failing(its), None) is not None:
            raise
        said = sale_answer.read_answer(data, its)
        if not isinstance(said, SaleAnswer):
            raise Refused(66, answer.NO_TABLE) from None
        return sale_records(its, said.interim, said.cuts)
    return general_records(its, mechanism, asked)


def general_records(its: GeneralSetting, mechanism: Mechanism, asked: Sequence[DesignerCondition]) -> Iterator[list[Field]]:
    """What the mechanism does, and how it stands against what the designer asked for."""
    amount, total = program.value_of(its, mechanism)
    yield ["value", *number(Fraction(amount, total * mechanism.den))]
    yield ["revenue", *number(expected(its, mechanism, lambda profile: sum(mechanism.pays.get(profile, []))))]
    yield ["welfare", *number(expected(its, mechanism, lambda profile: enjoyed(its, mechanism, profile)))]
    for place, agent in enumerate(its.agents):
        for kind, name in enumerate(agent.types):
            gets = given(its, mechanism, place, kind, lambda profile: has(its, mechanism, place, profile, profile[place]))
            pays = given(its, mechanism, place, kind, lambda profile: paid(mechanism, place, profile))
            yield ["type", agent.name, name, *number(gets), *number(pays)]
    for place, agent in enumerate(its.agents):
        if len(agent.types) > 1:
            yield ["gain", agent.name, *first_greatest(gains(its, mechanism, place, agent))]
    if its.rational != "none":
        for place, agent in enumerate(its.agents):
            yield ["loss", agent.name, *first_greatest(losses(its, mechanism, place, agent))]
    if its.no_deficit:
        profile = min(its.profiles(), key=lambda profile: sum(mechanism.pays.get(profile, [])))
        yield ["deficit", its.profile_name(profile), *number(Fraction(sum(mechanism.pays.get(profile, [])), mechanism.den))]
    for condition in program.conditions_of(its):
        if room(its, mechanism, condition) == 0:
            yield ["tight", condition.name]
    for index, wanted in enumerate(asked):
        yield ["condition", index, *standing(its, mechanism, wanted)]
    yield ["end"]


def standing(its: GeneralSetting, mechanism: Mechanism, wanted: DesignerCondition) -> list[Field]:
    """Whether a condition of the designer is met, and what it measures: of several amounts the one that is furthest towards the wrong
    side of the bound."""
    furthest = min if wanted.side == "least" else max
    amount = Fraction(furthest(measured(its, mechanism, wanted)), mechanism.den * scale_of(its, wanted))
    room = wanted.sign * (Fraction(wanted.num, wanted.den) - amount)
    return ["met" if room >= 0 else "missed", *number(amount)]


def expected(its: GeneralSetting, mechanism: Mechanism, amount: Callable[[Profile], int]) -> Fraction:
    """What is expected of an amount by profile, in units of one over the denominator."""
    profiles = list(its.profiles())
    whole = mechanism.den * sum(map(its.weight, profiles))
    return Fraction(sum(its.weight(profile) * amount(profile) for profile in profiles), whole)


def given(its: GeneralSetting, mechanism: Mechanism, place: int, kind: int, amount: Callable[[Profile], int]) -> Fraction:
    """The same over the profiles in which an agent has a type."""
    profiles = [profile for profile in its.profiles() if profile[place] == kind]
    whole = mechanism.den * sum(map(its.weight, profiles))
    return Fraction(sum(its.weight(profile) * amount(profile) for profile in profiles), whole)


def paid(mechanism: Mechanism, place: int, profile: Profile) -> int:
    """What an agent pays at a report."""
    pays = mechanism.pays.get(profile)
    return pays[place] if pays else 0


def has(its: GeneralSetting, mechanism: Mechanism, place: int, profile: Profile, told: int) -> int:
    """What an agent has at a true profile where it tells a type."""
    reported = (*profile[:place], told, *profile[place + 1:])
    worth = sum(chance * its.utility(place, profile, outcome) for outcome, chance in enumerate(mechanism.lotteries[reported]))
    return worth - paid(mechanism, place, reported)


def enjoyed(its: GeneralSetting, mechanism: Mechanism, profile: Profile) -> int:
    """What all agents have at a profile, with what they pay given back."""
    agents = range(len(its.agents))
    return sum(has(its, mechanism, place, profile, profile[place]) + paid(mechanism, place, profile) for place in agents)


def gains(its: GeneralSetting, mechanism: Mechanism, place: int, agent: Agent) -> Iterator[tuple[list[Field], Fraction]]:
    """What an agent gains by each false report: at each profile where truth is dominant, given each type otherwise."""
    reports = range(len(agent.types))

    def more(profile: Profile, told: int) -> int:
        return has(its, mechanism, place, profile, told) - has(its, mechanism, place, profile, profile[place])

    if its.truth == "dominant":
        for profile in its.profiles():
            for told in reports:
                if told != profile[place]:
                    fields: list[Field] = [agent.types[profile[place]], agent.types[told], its.profile_name(profile)]
                    yield fields, Fraction(more(profile, told), mechanism.den)
    else:
        for kind in reports:
            for told in reports:
                if told != kind:
                    amount = given(its, mechanism, place, kind, lambda profile: more(profile, told))
                    yield [agent.types[kind], agent.types[told]], amount


def losses(its: GeneralSetting, mechanism: Mechanism, place: int, agent: Agent) -> Iterator[tuple[list[Field], Fraction]]:
    """What an agent gets less than it has outside: at each profile, or given each type."""

    def less(profile: Profile) -> int:
        kind = profile[place]
        return agent.outside[kind] * mechanism.den - has(its, mechanism, place, profile, kind)

    if its.rational == "ex-post":
        for profile in its.profiles():
            yield [agent.types[profile[place]], its.profile_name(profile)], Fraction(less(profile), mechanism.den)
    else:
        for kind, name in enumerate(agent.types):
            yield [name], given(its, mechanism, place, kind, less)


def room(its: GeneralSetting, mechanism: Mechanism, condition: program.Condition) -> int:
    """By how much the left side of a condition is over its right side."""

    def amount(parts: list[program.Part]) -> int:
        return sum(weight * program.gain(its, mechanism, condition.agent, true, told) for weight, true, told in parts)

    return amount(condition.left) - amount(condition.right) - condition.constant * mechanism.den


# ---- a sale


def sale_records(its: GeneralSetting, interim: Interim, cuts: list[int]) -> Iterator[list[Field]]:
    """What odds and pays of the pairs of an agent and a type do."""
    pairs = pairs_of(its)
    weights = [sale_checking.marginal(its, pair) for pair in pairs]
    worths = [sale_checking.worth(its, pair) for pair in pairs]
    whole = sum(map(its.weight, its.profiles())) * interim.den

    def gets(true: int, told: int) -> Fraction:
        return Fraction(worths[true] * interim.odds[told] - interim.pays[told], interim.den)

    yield ["value", *number(sale_checking.value_of(its, interim))]
    yield ["revenue", *number(Fraction(sum(weight * pay for weight, pay in zip(weights, interim.pays)), whole))]
    had = sum(weight * worth * odds for weight, worth, odds in zip(weights, worths, interim.odds))
    yield ["welfare", *number(Fraction(had, whole))]
    names: list[list[Field]] = [[its.agents[agent].name, its.agents[agent].types[kind]] for agent, kind in pairs]
    for place, name in enumerate(names):
        yield ["type", *name, *number(gets(place, place)), *number(Fraction(interim.pays[place], interim.den))]
    places = range(len(pairs))
    false = [(true, told) for true in places for told in places if true != told and pairs[true][0] == pairs[told][0]]
    for agent in range(len(its.agents)):
        more = [([*names[true], names[told][1]], gets(true, told) - gets(true, true)) for true, told in false if pairs[true][0] == agent]
        if more:
            yield ["gain", *first_greatest(more)]
    for agent in range(len(its.agents)):
        yield ["loss", *first_greatest((names[place], -gets(place, place)) for place in places if pairs[place][0] == agent)]
    for true, told in false:
        if gets(true, told) == gets(true, true):
            yield ["tight", "/".join(map(str, ["truth", *names[true], names[told][1]]))]
    for place, name in enumerate(names):
        if gets(place, place) == 0:
            yield ["tight", "/".join(map(str, ["rational", *name]))]
    for cut in cuts:
        demands = sum(weights[place] * interim.odds[place] for place in places if cut >> place & 1)
        if demands == interim.den * sale_checking.right_side(its, cut):
            yield ["tight", f"cut/{cut}"]
    yield ["end"]


# ---- an auction


def auction_report(its: AuctionSetting, data: bytes) -> tuple[int, Iterable[list[Field]]]:
    """The status and the records, of an answer or of an auction of one's own. Where no auction has the odds of the latter, the set
    that asks for too much is told."""
    said = auction_answer.read_answer_or_table(data, its)
    if isinstance(said, AuctionAnswer):
        return DONE, auction_records(its, said.interim, said.cuts)
    if not isinstance(said, Interim):
        raise Refused(66, answer.NO_TABLE)
    worst = auction.worst_set(its, said)
    if worst is None:
        return DONE, auction_records(its, said, [])
    return VIOLATED, [["violated", worst, auction.excess(its, said, worst), said.den]]


def unit_records(its: AuctionSetting, units: int, data: bytes) -> Iterable[list[Field]]:
    """The records of an answer about so many units."""
    said = auction_answer.read_unit_answer(data, its, units)
    if not isinstance(said, AuctionAnswer):
        raise Refused(66, answer.NO_TABLE)
    return auction_records(its, said.interim, said.cuts, units)


def auction_records(its: AuctionSetting, interim: Interim, cuts: list[int], units: int = 1) -> Iterator[list[Field]]:
    kinds = range(len(its.values))
    whole = sum(its.weights) * interim.den

    def of_all(amount: Callable[[int], int]) -> Fraction:
        return Fraction(its.bidders * sum(weight * amount(kind) for kind, weight in enumerate(its.weights)), whole)

    def gets(kind: int, told: int) -> int:
        return its.values[kind] * interim.odds[told] - interim.pays[told]

    yield ["value", *number(auction.value_of(its, interim, units))]
    yield ["revenue", *number(of_all(lambda kind: interim.pays[kind]))]
    yield ["welfare", *number(of_all(lambda kind: its.values[kind] * interim.odds[kind]))]
    for kind in kinds:
        utility, payment = Fraction(gets(kind, kind), interim.den), Fraction(interim.pays[kind], interim.den)
        yield ["type", its.values[kind], *number(utility), *number(payment)]
    if len(its.values) > 1:
        false = [(kind, told) for kind in kinds for told in kinds if told != kind]
        more = {pair: Fraction(gets(*pair) - gets(pair[0], pair[0]), interim.den) for pair in false}
        yield ["gain", *first_greatest(([its.values[kind], its.values[told]], more[kind, told]) for kind, told in false)]
    yield ["loss", *first_greatest(([its.values[kind]], Fraction(-gets(kind, kind), interim.den)) for kind in kinds)]
    for kind in kinds:
        for told in kinds:
            if told != kind and gets(kind, told) == gets(kind, kind):
                yield ["tight", f"truth/{its.values[kind]}/{its.values[told]}"]
    for kind in kinds:
        if gets(kind, kind) == 0:
            yield ["tight", f"rational/{its.values[kind]}"]
    for cut in cuts:
        if auction.excess(its, interim, cut, units) == 0:
            yield ["tight", f"cut/{cut}"]
    yield ["end"]
