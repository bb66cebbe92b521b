"""The conditions of a setting, and the linear program that they make.

Each condition demands that one sum of an agent's utilities is at least another. `broken` measures both sums for a
mechanism, and `program_of` turns the same conditions into rows over the columns of chances and payments.
"""

import math
from collections.abc import Iterator
from dataclasses import dataclass

from second_opinion.answer import Mechanism
from second_opinion.setting import GeneralSetting, Profile

Part = tuple[int, Profile, Profile]  # a weight, a true profile, and the reported one


@dataclass
class Condition:
    """Demands that the sum of `left` is at least the sum of `right` and `constant`. Each part (weight, true, reported)
    is the weight times what the agent gets at the profile `true` from the lottery and the payment of the profile
    `reported`. Where `agent` is None, each part counts all payments of a profile instead."""

    name: str
    agent: int | None
    left: list[Part]
    right: list[Part]
    constant: int


@dataclass
class Row:
    """A bound on a sum of numbers times columns: at most `right`, or exactly that where it is `exact`. `terms` has the
    numbers that are not 0, by column."""

    name: str
    exact: bool
    right: int
    terms: dict[int, int]


@dataclass
class Program:
    """The rows, the number of columns, and the cost by column, which is to be as great as can be."""

    columns: int
    rows: list[Row]
    cost: dict[int, int]


def conditions_of(setting: GeneralSetting) -> Iterator[Condition]:
    """All conditions in the order of the format: truth, rationality, no deficit."""
    profiles = list(setting.profiles())
    for number, agent in enumerate(setting.agents):
        if setting.truth == "dominant":
            for true in profiles:
                yield from truth_conditions(setting, number, true[number], [(1, true)], setting.profile_name(true))
        else:
            for kind in range(len(agent.types)):
                yield from truth_conditions(setting, number, kind, having(setting, number, kind))
    for number, agent in enumerate(setting.agents):
        if setting.rational == "ex-post":
            for true in profiles:
                name = f"rational/{agent.name}/{setting.profile_name(true)}"
                yield Condition(name, number, [(1, true, true)], [], agent.outside[true[number]])
        elif setting.rational == "interim":
            for kind, outside in enumerate(agent.outside):
                name = f"rational/{agent.name}/{agent.types[kind]}"
                left = [(weight, true, true) for weight, true in having(setting, number, kind)]
                yield Condition(name, number, left, [], outside * sum(weight for weight, _, _ in left))
    if setting.no_deficit:
        for profile in profiles:
            yield Condition(f"deficit/{setting.profile_name(profile)}", None, [(1, profile, profile)], [], 0)


def having(setting: GeneralSetting, agent: int, kind: int) -> list[tuple[int, Profile]]:
    """The profiles in which an agent has a type, each with its weight."""
    return [(setting.weight(profile), profile) for profile in setting.profiles() if profile[agent] == kind]


def truth_conditions(
    setting: GeneralSetting, number: int, kind: int, places: list[tuple[int, Profile]], at: str | None = None
) -> Iterator[Condition]:
    """One condition for each other report of an agent of a type, over the true profiles in `places` with their weights.
    `at` is the profile's name where there is one condition for each profile."""
    agent = setting.agents[number]
    for report in range(len(agent.types)):
        if report != kind:
            names = [agent.name, agent.types[kind], agent.types[report], *([at] if at else [])]
            left = [(weight, true, true) for weight, true in places]
            right = [(weight, true, true[:number] + (report,) + true[number + 1 :]) for weight, true in places]
            yield Condition("truth/" + "/".join(names), number, left, right, 0)


def broken(setting: GeneralSetting, mechanism: Mechanism) -> tuple[str, int, int] | None:
    """The first condition that a mechanism breaks: its name and both sums, over the mechanism's denominator. None where
    it breaks none."""

    def amount(agent: int | None, parts: list[Part]) -> int:
        return sum(weight * gain(setting, mechanism, agent, true, reported) for weight, true, reported in parts)

    for condition in conditions_of(setting):
        left = amount(condition.agent, condition.left)
        right = amount(condition.agent, condition.right) + condition.constant * mechanism.den
        if left < right:
            return condition.name, left, right
    return None


def gain(setting: GeneralSetting, mechanism: Mechanism, agent: int | None, true: Profile, reported: Profile) -> int:
    """What an agent gets at the true profile where the mechanism sees the reported one; all payments for no agent."""
    pays = mechanism.pays.get(reported, [])
    if agent is None:
        return sum(pays)
    lottery = mechanism.lotteries[reported]
    worth = sum(setting.utility(agent, true, outcome) * chance for outcome, chance in enumerate(lottery) if chance)
    return worth - (pays[agent] if pays else 0)


def value_of(setting: GeneralSetting, mechanism: Mechanism) -> tuple[int, int]:
    """The objective summed over all profiles with their weights, over the mechanism's denominator, and the sum of all
    weights. The value is the first over the product of the denominator and the second."""
    total, amount = 0, 0
    for profile in setting.profiles():
        weight = setting.weight(profile)
        lottery = mechanism.lotteries[profile]
        worth = sum(setting.value(profile, outcome) * chance for outcome, chance in enumerate(lottery))
        total += weight
        amount += weight * (worth + setting.revenue * sum(mechanism.pays.get(profile, [])))
    return amount, total


def chance_column(setting: GeneralSetting, profile: Profile, outcome: int) -> int:
    """The column of a chance."""
    return setting.rank(profile) * len(setting.outcomes) + outcome


def payment_columns(setting: GeneralSetting, agent: int, profile: Profile) -> tuple[int, int]:
    """The columns of the plus and the minus part of a payment."""
    profiles, agents = setting.profile_count(), len(setting.agents)
    plus = profiles * len(setting.outcomes) + agent * profiles + setting.rank(profile)
    return plus, plus + agents * profiles


def program_of(setting: GeneralSetting) -> Program:
    """The linear program of a setting, each row and the cost divided by the greatest common divisor of its numbers."""
    rows = []
    for condition in conditions_of(setting):
        terms: dict[int, int] = {}
        for sign, parts in [(-1, condition.left), (1, condition.right)]:
            for weight, true, reported in parts:
                add_gain(setting, terms, condition.agent, true, reported, sign * weight)
        rows.append(divided(condition.name, False, -condition.constant, terms))
    for profile in setting.profiles():
        terms = {chance_column(setting, profile, outcome): 1 for outcome in range(len(setting.outcomes))}
        rows.append(Row("profile/" + setting.profile_name(profile), True, 1, terms))
    columns = setting.profile_count() * len(setting.outcomes)
    if setting.payments:
        columns += 2 * setting.profile_count() * len(setting.agents)
    return Program(columns, rows, cost_of(setting))


def add_gain(
    setting: GeneralSetting, terms: dict[int, int], agent: int | None, true: Profile, reported: Profile, factor: int
) -> None:
    """Adds to a row a factor times what an agent gets (as `gain` has it)."""
    if agent is not None:
        for outcome in range(len(setting.outcomes)):
            column = chance_column(setting, reported, outcome)
            terms[column] = terms.get(column, 0) + factor * setting.utility(agent, true, outcome)
    if setting.payments:
        for payer in range(len(setting.agents)) if agent is None else [agent]:
            pays = factor if agent is None else -factor
            plus, minus = payment_columns(setting, payer, reported)
            terms[plus] = terms.get(plus, 0) + pays
            terms[minus] = terms.get(minus, 0) - pays


def cost_of(setting: GeneralSetting) -> dict[int, int]:
    """The cost by column, divided."""
    return divided("cost", False, 0, objective_of(setting)).terms


def objective_of(setting: GeneralSetting) -> dict[int, int]:
    """The objective by column, times the weight of all profiles."""
    cost = {}
    for profile in setting.profiles():
        weight = setting.weight(profile)
        for outcome in range(len(setting.outcomes)):
            cost[chance_column(setting, profile, outcome)] = weight * setting.value(profile, outcome)
        if setting.payments:
            for agent in range(len(setting.agents)):
                plus, minus = payment_columns(setting, agent, profile)
                cost[plus], cost[minus] = weight * setting.revenue, -weight * setting.revenue
    return cost


def divided(name: str, exact: bool, right: int, terms: dict[int, int]) -> Row:
    """A row, divided by the greatest common divisor of its numbers and its right side."""
    divisor = math.gcd(right, *terms.values()) or 1
    numbers = {column: number // divisor for column, number in sorted(terms.items()) if number}
    return Row(name, exact, right // divisor, numbers)


def point_of(setting: GeneralSetting, mechanism: Mechanism) -> dict[int, int]:
    """The point of a mechanism by column, over its denominator; a mechanism without lotteries has chances of 0."""
    point = {}
    for profile, lottery in mechanism.lotteries.items():
        for outcome, chance in enumerate(lottery):
            point[chance_column(setting, profile, outcome)] = chance
    for profile, pays in mechanism.pays.items():
        for agent, pay in enumerate(pays):
            plus, minus = payment_columns(setting, agent, profile)
            point[plus], point[minus] = max(pay, 0), max(-pay, 0)
    return point


def sum_over(terms: dict[int, int], point: dict[int, int]) -> int:
    """The sum of numbers times a point."""
    return sum(number * point.get(column, 0) for column, number in terms.items())
