"""Tells whether what an answer about the fairest mechanism claims is so: the conditions of docs/FORMATS.md, "How an answer is
checked", by the fair program.
"""

from fractions import Fraction

from second_opinion import checking
from second_opinion.answer import GREATEST, Answer, InfeasibleAnswer, Mechanism, OptimalAnswer, UnboundedAnswer
from second_opinion.checking import Failed
from second_opinion.program import Program, add_gain, broken, divided, gain, point_of, program_of
from second_opinion.setting import GeneralSetting


def verdict(its: GeneralSetting, said: Answer) -> tuple[int, str]:
    """The status and the line for an answer."""
    if isinstance(said, OptimalAnswer):
        return checking.told(failed_optimal(its, said))
    if isinstance(said, InfeasibleAnswer):
        return checking.told(checking.failed_infeasible(fair_program(its), said))
    if isinstance(said, UnboundedAnswer):
        return checking.told(failed_unbounded(its, said))
    return checking.UNDECIDED


def failed_optimal(its: GeneralSetting, said: OptimalAnswer) -> Failed | None:
    """The number of the first condition that an optimal answer fails, with what is printed; None where it fails none."""
    condition = broken(its, said.mechanism)
    if condition is not None:
        return 1, *condition
    level, total = least_of(its, said.mechanism)
    value = Fraction(level, total * said.mechanism.den)
    if said.value != (value.numerator, value.denominator):
        return 2, value.numerator, value.denominator
    if abs(level) > GREATEST:
        return 11, level
    return checking.failed_bound(fair_program(its), said, Fraction(level, said.mechanism.den))


def failed_unbounded(its: GeneralSetting, said: UnboundedAnswer) -> Failed | None:
    """The same of an unbounded answer: along its payments the level rises by 1."""
    condition = broken(its, said.mechanism)
    if condition is not None:
        return 1, *condition
    level, _ = least_of(its, said.mechanism)
    if abs(level) > GREATEST:
        return 11, level
    program = fair_program(its)
    plus, _ = level_columns(program)
    return checking.failed_ray(program, {**point_of(its, Mechanism(1, {}, said.rays)), plus: 1})


def level_columns(program: Program) -> tuple[int, int]:
    """The columns of the plus and the minus part of the level: the last two of the fair program."""
    return program.columns - 2, program.columns - 1


def fair_program(setting: GeneralSetting) -> Program:
    """The program of the setting, and behind it a row for each agent: the level is at most what the agent gets, by weight."""
    program = program_of(setting)
    program.columns += 2
    plus, minus = level_columns(program)
    for number, agent in enumerate(setting.agents):
        terms = {plus: 1, minus: -1}
        for profile in setting.profiles():
            add_gain(setting, terms, number, profile, profile, -setting.weight(profile))
        program.rows.append(divided(f"level/{agent.name}", False, 0, terms))
    program.cost = {plus: 1, minus: -1}
    return program


def least_of(setting: GeneralSetting, mechanism: Mechanism) -> tuple[int, int]:
    """What the agent that gets least gets over all profiles by weight, over the mechanism's denominator, and the sum of all
    weights."""
    weights = {profile: setting.weight(profile) for profile in setting.profiles()}
    gains = (
        sum(weight * gain(setting, mechanism, agent, profile, profile) for profile, weight in weights.items())
        for agent in range(len(setting.agents))
    )
    return min(gains), sum(weights.values())
