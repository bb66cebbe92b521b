"""Why an answer is rejected, in words: a sentence for each number of docs/FORMATS.md."""

from __future__ import annotations

import dataclasses
from collections.abc import Callable, Mapping
from fractions import Fraction
from typing import Any

from .answers import Verdict, elements
from .cases import Case
from .explanations import Fact
from .sections import broken_fact, broken_facts, standing_sentence
from .settings import Auction, Profile
from .wording import GeneralWords, number_words, put

Told = list[Fact]
NO_CERTIFICATE = "The certificate of the answer does not hold"
OF_CERTIFICATES = (3, 4, 5, 6, 14)  # the numbers with which a certificate is rejected


def broken_amount(case: Case, name: str, left: int, right: int) -> Fraction:
    """By how much a mechanism breaks a condition of a general setting of which both sides are told."""
    setting, denominator = case.general, getattr(case.answer, "mechanism").denominator
    kind, agent, *rest = name.split("/")
    averages = {"truth": setting.truth == "bayes", "rational": setting.rational == "interim"}
    if averages.get(kind):
        place = setting.agent_names.index(agent)
        denominator *= sum(weight for profile, weight in setting.weights().items() if profile[place] == rest[0])
    return Fraction(right - left, denominator)


def broken(case: Case, name: str, left: int, right: int) -> Told:
    """The condition of a general setting that is broken first, and the worst ones beside it."""
    others = broken_facts(case.words, case.report)
    if name.startswith("condition/"):
        return others
    first = broken_fact(case.words, name, broken_amount(case, name, left, right))
    return [first, *(fact for fact in others if fact.data["condition"] != name)]


def _value(case: Case, numerator: int, denominator: int) -> Told:
    right = Fraction(numerator, denominator)
    return [Fact(f"The answer states a wrong value: that of its rule is {number_words(right)}.", {"value": right})]


def _negative(case: Case, row: int, face: int, main: int) -> Told:
    name = case.row_names[row]
    sentence = f"{NO_CERTIFICATE}: it gives a weight below 0 to this condition. {case.words.say('demand', name)}"
    return [Fact(sentence, {"condition": name})]


def _uncovered(case: Case, column: int, face: int, main: int) -> Told:
    what = _column(case, column)
    if case.word == "infeasible":
        return [Fact(f"{NO_CERTIFICATE}: by its weights, {what} may still meet all conditions.", {"column": column})]
    return [Fact(f"{NO_CERTIFICATE}: by its weights, {what} would bring more than it costs.", {"column": column})]


def _unbalanced(case: Case, total: int) -> Told:
    if case.word == "infeasible":
        return [Fact(f"{NO_CERTIFICATE}: added up by its weights, the conditions do not contradict each other.", {"sum": total})]
    return [Fact(f"{NO_CERTIFICATE}: its first weights (FACE) must cancel out, and do not.", {"sum": total})]


def _loose(case: Case, bound: int, bound_over: int, cost: int, cost_over: int) -> Told:
    data = {"bound": Fraction(bound, bound_over), "cost": Fraction(cost, cost_over)}
    return [Fact(f"{NO_CERTIFICATE}: it leaves room for a rule with a greater value than this one has.", data)]


def _ray_breaks(case: Case, row: int, total: int) -> Told:
    name = case.row_names[row]
    sentence = f"The payments cannot be added without end: they would break this condition. {case.words.say('demand', name)}"
    return [Fact(sentence, {"condition": name})]


def _ray_gains_nothing(case: Case, cost: int) -> Told:
    return [Fact("Adding the payments again and again does not bring more each time.", {"gain": cost})]


def _masses(case: Case, place: int, total: int, demand: int) -> Told:
    element, denominator = elements(case.setting)[place], getattr(case.answer, "mechanism").denominator
    if isinstance(case.setting, Auction):
        auction = case.setting
        whole = auction.bidders * sum(auction.weights) ** (auction.bidders - 1) * auction.weights[place]
        who = f"A bidder with {element}"
    else:
        agent, name = element
        at = case.general.agent_names.index(agent)
        whole = sum(weight for profile, weight in case.general.weights().items() if profile[at] == name)
        who = f"If {agent} has {name}, {agent}"
    odds, told = Fraction(demand, whole * denominator), Fraction(total, whole * denominator)
    sentence = f"The odds and the table of who wins (mass) disagree. {who} wins with the chance {number_words(odds)} by the odds"
    return [Fact(f"{sentence}, and with {number_words(told)} by the table.", {"odds": odds, "masses": told})]


def _interim(case: Case, row: int, left: int, right: int) -> Told:
    name = case.row_names[row]
    if not name.startswith("cut/"):
        first = broken_fact(case.words, name, case.gain(name))
        return [first, *(fact for fact in broken_facts(case.words, case.report) if fact.data["condition"] != name)]
    ratio = Fraction(left, right)
    sentence = f"{case.words.say('demand', name)} These odds ask for {number_words(ratio)} times as much."
    return [Fact(sentence, {"condition": name, "times": ratio})]


def _long_level(case: Case, level: int) -> Told:
    return [Fact("What the agent that gets least gets is a number of more than 62 bits, which is not checked.", {"level": level})]


def _draws_lots(case: Case, rank: int) -> Told:
    profile = list(case.general.profiles())[rank]
    return [Fact(put(GeneralWords(case.general).at(tuple(profile)), "The rule draws lots."), {"profile": profile})]


def _node(case: Case, node: int) -> str:
    """What is fixed at a node of the search."""
    fixed: Mapping[Profile, str] = getattr(case.answer, "tree")[node].fixed
    told = [f"{outcome}{_where(case, profile)}" for profile, outcome in fixed.items()]
    return f" (the one with {'; '.join(told)})" if told else ""


def _leaf(case: Case, node: int) -> Told:
    return [Fact(f"The certificate of a part of the search does not hold{_node(case, node)}.", {"node": node})]


def _open_leaf(case: Case, node: int) -> Told:
    return [Fact(f"A part of the search may have a better rule{_node(case, node)}.", {"node": node})]


def _uncertified_ray(case: Case) -> Told:
    return [Fact("The payments cannot be added without end, or do not bring more each time.")]


def _missed(case: Case, place: int, left: int, right: int) -> Told:
    amount = case.report.conditions[place].amount
    standing = standing_sentence(case.general_words, case.conditions[place], amount)
    return [Fact(f"The rule does not meet a condition of yours. {standing}", {"condition": f"condition/{place}", "amount": amount})]


def _shadow(case: Case, place: int, *right: int) -> Told:
    demand = case.general_words.demand(case.conditions[place])
    states = f"The answer states a {'wrong ' if right else ''}price for a unit of this condition"
    gives = f"the certificate gives {number_words(Fraction(*right)) if right else 'none'}"
    data: dict[str, Any] = {"condition": f"condition/{place}", **({"shadow": Fraction(*right)} if right else {})}
    return [Fact(f"{states}, and {gives}. {demand}.", data)]


_SENTENCES: Mapping[int, Callable[..., Told]] = {
    1: broken,
    2: _value,
    3: _negative,
    4: _uncovered,
    5: _unbalanced,
    6: _loose,
    7: _ray_breaks,
    8: _ray_gains_nothing,
    9: _masses,
    10: _interim,
    11: _long_level,
    17: _missed,
    18: _shadow,
}
_OF_RULES: Mapping[int, Callable[..., Told]] = {
    11: _draws_lots,
    12: broken,
    13: _value,
    14: _leaf,
    15: _open_leaf,
    16: _uncertified_ray,
}


def rejection(case: Case, verdict: Verdict) -> Told:
    """Why an answer is rejected. Raises `KeyError` for a number that is not known."""
    said = (_OF_RULES if case.kind == "determ" else _SENTENCES)[verdict.condition or 0]
    named: list[Any] = [] if verdict.name is None else [verdict.name]
    first, *others = said(case, *named, *verdict.numbers)
    return [dataclasses.replace(first, data={"number": verdict.condition, **first.data}), *others]


def _column(case: Case, place: int) -> str:
    """What more of a column of the program would be."""
    if isinstance(case.setting, Auction) or case.kind == "asym":
        every = elements(case.setting)
        part, at = divmod(place, len(every))
        who = f"a bidder with {every[at]}" if isinstance(case.setting, Auction) else f"{every[at][0]} with {every[at][1]}"
        return f"letting {who} {('win more often', 'pay more', 'pay less')[part]}"
    setting, profiles = case.general, list(case.general.profiles())
    chances = len(profiles) * len(setting.outcomes)
    if place < chances:
        at, outcome = divmod(place, len(setting.outcomes))
        return f"a greater chance of {setting.outcomes[outcome]}{_where(case, profiles[at])}"
    part, place = divmod(place - chances, len(profiles) * len(setting.agents)) if setting.payments else (2, 0)
    if part == 2:
        return "another level of what the agent that gets least gets"
    agent, at = divmod(place, len(profiles))
    return f"a {'higher' if part == 0 else 'lower'} payment of {setting.agent_names[agent]}{_where(case, profiles[at])}"


def _where(case: Case, profile: Profile) -> str:
    told = GeneralWords(case.general).at(profile)
    return f" where {told.removeprefix('If ').removesuffix(', ')}" if told else ""
