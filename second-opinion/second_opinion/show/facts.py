"""What a page shows of a setting and its answer: exact numbers, and nothing of how they are shown.

Everything is computed anew from the setting and the mechanism, by the meaning that docs/FORMATS.md gives to them.
A profile is a tuple of type numbers, as in `setting.py`.
"""

import math
from collections.abc import Callable, Sequence
from dataclasses import dataclass
from fractions import Fraction
from typing import Any

from second_opinion.answer import Mechanism
from second_opinion.conditions import DesignerCondition, amount_at, measured, places_of, scale_of, undivided_rows
from second_opinion.program import chance_column, payment_columns
from second_opinion.setting import GeneralSetting, Profile

# A place of the linear program: a profile with an outcome, `(profile, outcome)`, or a payment, `(profile, "pay", agent)`.
Place = tuple[Profile, int] | tuple[Profile, str, int]


@dataclass(frozen=True)
class Condition:
    """One row of the linear program of a setting. `kind` is `truth`, `rational`, `deficit`, `profile` or `require`; of the other
    fields those are None that do not belong to the row (`profile` is None in a row that is an average), and `own`, the
    true type, is 0 there. A row of the designer's conditions has the number of its condition as `own`."""

    index: int
    kind: str
    agent: int | None = None
    own: int = 0
    report: int | None = None
    profile: Profile | None = None
    asked: DesignerCondition | None = None


def conditions(setting: GeneralSetting, asked: Sequence[DesignerCondition] = ()) -> list[Condition]:
    """All rows in the order of the format: those that let chances add to 1 behind the others of the setting, and at the end those
    of the designer's conditions."""
    found: list[Condition] = []

    def add(*fields: Any) -> None:
        found.append(Condition(len(found), *fields))

    counts = [len(agent.types) for agent in setting.agents]
    profiles = list(setting.profiles())
    for agent, count in enumerate(counts):
        if setting.truth == "dominant":
            cases = [(profile[agent], profile) for profile in profiles]
        else:
            cases = [(own, None) for own in range(count)]
        for own, profile in cases:
            for report in range(count):
                if report != own:
                    add("truth", agent, own, report, profile)
    for agent, count in enumerate(counts):
        if setting.rational == "ex-post":
            for profile in profiles:
                add("rational", agent, profile[agent], None, profile)
        elif setting.rational == "interim":
            for own in range(count):
                add("rational", agent, own)
    for kind in ["deficit", "profile"] if setting.no_deficit else ["profile"]:
        for profile in profiles:
            add(kind, None, 0, None, profile)
    for number, each in enumerate(asked):
        for place in places_of(setting, each):
            add("require", None, number, None, place, each)
    return found


def name_of(setting: GeneralSetting, row: Condition) -> str:
    """The name of a row, as `audit` and `rows` print it; of a condition of the designer its number, from 0."""
    parts = [row.kind] if row.asked is None else [row.kind, str(row.own)]
    if row.agent is not None:
        agent = setting.agents[row.agent]
        parts.append(agent.name)
        if row.kind == "truth" or row.profile is None:
            parts.append(agent.types[row.own])
        if row.report is not None:
            parts.append(agent.types[row.report])
    if row.profile is not None:
        parts.append(setting.profile_name(row.profile))
    return "/".join(parts)


class Prior:
    """How likely profiles and types are."""

    def __init__(self, setting: GeneralSetting) -> None:
        self.setting = setting
        self.weights = {profile: setting.weight(profile) for profile in setting.profiles()}
        self.total = sum(self.weights.values())
        self.marginals = [[0] * len(agent.types) for agent in setting.agents]
        for profile, weight in self.weights.items():
            for agent, own in enumerate(profile):
                self.marginals[agent][own] += weight

    def chance(self, profile: Profile) -> Fraction:
        """The chance of a profile."""
        return Fraction(self.weights[profile], self.total)

    def type_chance(self, agent: int, own: int) -> Fraction:
        """The chance that an agent has a type."""
        return Fraction(self.marginals[agent][own], self.total)

    def cases(self, row: Condition) -> list[tuple[Profile, int]]:
        """The profiles over which a row of an agent sums, each with its factor."""
        if row.profile is not None:
            return [(row.profile, 1)]
        return [(profile, weight) for profile, weight in self.weights.items() if profile[row.agent] == row.own]


def replaced(profile: Profile, agent: int, own: int) -> Profile:
    """A profile with another type of one agent."""
    return profile[:agent] + (own,) + profile[agent + 1 :]


class Play:
    """A mechanism in its setting: what it gives to whom."""

    def __init__(self, setting: GeneralSetting, prior: Prior, mechanism: Mechanism) -> None:
        self.setting = setting
        self.prior = prior
        self.mechanism = mechanism
        self.den = mechanism.den

    def lottery(self, profile: Profile) -> list[Fraction]:
        """The chances of the outcomes at a profile."""
        return [Fraction(number, self.den) for number in self.mechanism.lotteries[profile]]

    def payment(self, agent: int, profile: Profile) -> Fraction:
        """What an agent pays at a profile."""
        return Fraction(self.raw_payment(agent, profile), self.den)

    def raw_payment(self, agent: int, profile: Profile) -> int:
        """The same, over the denominator of the table."""
        return self.mechanism.pays[profile][agent] if self.mechanism.pays else 0

    def payments(self) -> dict[Profile, list[Fraction]]:
        """What all agents pay at each profile."""
        agents = range(len(self.setting.agents))
        return {profile: [self.payment(agent, profile) for agent in agents] for profile in self.mechanism.lotteries}

    def raw_utility(self, agent: int, true: Profile, reported: Profile) -> int:
        """What an agent gets at true types, where a profile was reported; over the denominator of the table."""
        numbers = self.mechanism.lotteries[reported]
        drawn = [(outcome, number) for outcome, number in enumerate(numbers) if number]
        got = sum(number * self.setting.utility(agent, true, outcome) for outcome, number in drawn)
        return got - self.raw_payment(agent, reported)

    def sides(self, row: Condition) -> tuple[int, int]:
        """The two sides of a condition, as `audit` and `check` print them: the left one should be at least the right one."""
        if row.asked is not None:
            if row.profile is None:
                (amount,) = measured(self.setting, self.mechanism, row.asked)
            else:
                amount = amount_at(self.setting, self.mechanism, row.asked, row.profile)
            sides = amount * row.asked.den, row.asked.num * self.den * scale_of(self.setting, row.asked)
            return sides if row.asked.side == "least" else sides[::-1]
        if row.kind == "deficit":
            return sum(self.raw_payment(agent, row.profile) for agent in range(len(self.setting.agents))), 0
        cases = self.prior.cases(row)
        left = sum(factor * self.raw_utility(row.agent, profile, profile) for profile, factor in cases)
        if row.kind == "rational":
            outside = self.setting.agents[row.agent].outside[row.own]
            return left, self.den * outside * sum(factor for _, factor in cases)
        right = 0
        for profile, factor in cases:
            right += factor * self.raw_utility(row.agent, profile, replaced(profile, row.agent, row.report))
        return left, right

    def over_type(self, agent: int, own: int, number: Callable[[Profile], int]) -> Fraction:
        """The average of a raw number over the profiles in which an agent has a type."""
        marginal = self.prior.marginals[agent][own]
        cases = [case for case in self.prior.weights.items() if case[0][agent] == own]
        return Fraction(sum(weight * number(profile) for profile, weight in cases), marginal * self.den)

    def expected_utility(self, agent: int, own: int) -> Fraction:
        """What a type of an agent gets on average, by the truth."""
        return self.over_type(agent, own, lambda profile: self.raw_utility(agent, profile, profile))

    def expected_payment(self, agent: int, own: int) -> Fraction:
        """What a type of an agent pays on average."""
        return self.over_type(agent, own, lambda profile: self.raw_payment(agent, profile))

    def overall(self, number: Callable[[Profile], int]) -> Fraction:
        """The average of a raw number over all profiles."""
        total = sum(weight * number(profile) for profile, weight in self.prior.weights.items() if weight)
        return Fraction(total, self.prior.total * self.den)

    def welfare(self) -> Fraction:
        """What the outcomes are worth to all agents, on average."""
        agents = range(len(self.setting.agents))
        return self.overall(
            lambda profile: sum(
                number * self.setting.utility(agent, profile, outcome)
                for outcome, number in enumerate(self.mechanism.lotteries[profile])
                if number
                for agent in agents
            )
        )

    def revenue(self) -> Fraction:
        """What all agents pay, on average."""
        agents = range(len(self.setting.agents))
        return self.overall(lambda profile: sum(self.raw_payment(agent, profile) for agent in agents))

    def own_value(self) -> Fraction:
        """What the outcomes themselves are worth to the designer, on average."""
        return self.overall(
            lambda profile: sum(map(int.__mul__, self.mechanism.lotteries[profile], self.setting.values))
        )

    def value(self) -> Fraction:
        """The expected objective."""
        its = self.setting
        return its.welfare * self.welfare() + its.revenue * self.revenue() + self.own_value()


def terms_of(setting: GeneralSetting, prior: Prior, row: Condition) -> tuple[dict[Place, int], int]:
    """A row of the linear program: its numbers by place and its right side, divided by their greatest common divisor."""
    terms: dict[Place, int] = {}

    def add(place: Place, number: int) -> None:
        terms[place] = terms.get(place, 0) + number

    right = 0
    if row.asked is not None:
        terms, right = asked_terms(setting, row)
    elif row.kind == "profile":
        terms, right = {(row.profile, outcome): 1 for outcome in range(len(setting.outcomes))}, 1
    elif row.kind == "deficit":
        if setting.payments:
            terms = {(row.profile, "pay", agent): -1 for agent in range(len(setting.agents))}
    else:
        for true, factor in prior.cases(row):
            reports = [(true, -factor)]
            if row.kind == "truth":
                reports.append((replaced(true, row.agent, row.report), factor))
            else:
                right -= factor * setting.agents[row.agent].outside[row.own]
            for reported, sign in reports:
                for outcome in range(len(setting.outcomes)):
                    add((reported, outcome), sign * setting.utility(row.agent, true, outcome))
                if setting.payments:
                    add((reported, "pay", row.agent), -sign)
    divisor = math.gcd(right, *terms.values()) or 1
    return {place: number // divisor for place, number in terms.items() if number}, right // divisor


def asked_terms(setting: GeneralSetting, row: Condition) -> tuple[dict[Place, int], int]:
    """A row of a condition of the designer by place, undivided."""
    places: dict[int, Place] = {}
    for profile in setting.profiles():
        places |= {chance_column(setting, profile, outcome): (profile, outcome) for outcome in range(len(setting.outcomes))}
        if setting.payments:
            agents = range(len(setting.agents))
            places |= {payment_columns(setting, agent, profile)[0]: (profile, "pay", agent) for agent in agents}
    rows = dict(zip(places_of(setting, row.asked), undivided_rows(setting, row.asked)))
    terms, right = rows[row.profile]
    return {places[column]: number for column, number in terms.items() if column in places}, right


def contradiction(
    setting: GeneralSetting, prior: Prior, multipliers: dict[int, int], asked: Sequence[DesignerCondition] = ()
) -> int | None:
    """The sum of the right sides of rows with these weights, where it shows that no mechanism meets them: the weights
    of conditions are not negative, no chance has a negative number in the sum, no payment has any, and the sum of the
    right sides is negative. Else None."""
    rows = conditions(setting, asked)
    total: dict[Place, int] = {}
    right = 0
    for index, weight in multipliers.items():
        if weight < 0 and rows[index].kind != "profile":
            return None
        terms, its_right = terms_of(setting, prior, rows[index])
        right += weight * its_right
        for place, number in terms.items():
            total[place] = total.get(place, 0) + weight * number
    fine = all(number == 0 if len(place) == 3 else number >= 0 for place, number in total.items())
    return right if fine and right < 0 else None
