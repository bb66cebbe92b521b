"""Tells whether what an answer under conditions of the designer claims is so: the conditions of docs/FORMATS.md, "How an answer is
checked", by the rows of the setting and then those of the designer's conditions.
"""

from collections.abc import Sequence
from fractions import Fraction

from second_opinion import checking, command, setting
from second_opinion.answer import GREATEST, InfeasibleAnswer, Mechanism, OptimalAnswer, Pair, UnboundedAnswer
from second_opinion.checking import Failed
from second_opinion.conditions import (
    DesignerCondition,
    broken_condition,
    divisor_of,
    program_under,
    scale_of,
    undivided_rows,
)
from second_opinion.program import broken, objective_of, point_of, sum_over, value_of
from second_opinion.required_answer import RequiredAnswer
from second_opinion.setting import AuctionSetting, GeneralSetting, Refused


def general_setting(name: str) -> GeneralSetting:
    """The general setting of a file."""
    its = setting.read_setting(command.read_file(name, setting.FILE_LIMIT))
    if isinstance(its, AuctionSetting):
        raise Refused(65, "setting refused: other kind")
    return its


def verdict(its: GeneralSetting, found: RequiredAnswer) -> tuple[int, str]:
    """The status and the line for an answer."""
    if isinstance(found.said, InfeasibleAnswer):
        return checking.told(checking.failed_infeasible(program_under(its, found.conditions), found.said))
    if isinstance(found.said, UnboundedAnswer):
        return checking.told(failed_unbounded(its, found.conditions, found.said))
    return checking.told(failed_optimal(its, found.conditions, found.said, found.shadows))


def failed_mechanism(its: GeneralSetting, conditions: Sequence[DesignerCondition], mechanism: Mechanism) -> Failed | None:
    """The conditions 1 and 17: the mechanism is admissible, and does what the designer asks for."""
    condition = broken(its, mechanism)
    if condition is not None:
        return 1, *condition
    unmet = broken_condition(its, mechanism, conditions)
    return None if unmet is None else (17, *unmet)


def failed_optimal(
    its: GeneralSetting, conditions: Sequence[DesignerCondition], said: OptimalAnswer, shadows: Sequence[Pair | None]
) -> Failed | None:
    """The number of the first condition that an optimal answer fails, with what is printed; None where it fails none."""
    failed = failed_mechanism(its, conditions, said.mechanism)
    if failed is not None:
        return failed
    amount, total = value_of(its, said.mechanism)
    value = Fraction(amount, total * said.mechanism.den)
    if value != Fraction(*said.value):
        return 2, value.numerator, value.denominator
    program = program_under(its, conditions)
    reached = Fraction(sum_over(program.cost, point_of(its, said.mechanism)), said.mechanism.den)
    failed = checking.failed_bound(program, said, reached)
    return failed_shadow(its, conditions, said, shadows) if failed is None else failed


def failed_shadow(
    its: GeneralSetting, conditions: Sequence[DesignerCondition], said: OptimalAnswer, shadows: Sequence[Pair | None]
) -> Failed | None:
    """The condition 18: each shadow is told as the multipliers say, and none where they say none."""
    for index, (told, right) in enumerate(zip(shadows, shadows_of(its, conditions, said), strict=True)):
        if told != right:
            return 18, index, *(right or ())
    return None


def failed_unbounded(its: GeneralSetting, conditions: Sequence[DesignerCondition], said: UnboundedAnswer) -> Failed | None:
    """The same of an unbounded answer."""
    failed = failed_mechanism(its, conditions, said.mechanism)
    if failed is not None:
        return failed
    return checking.failed_ray(program_under(its, conditions), point_of(its, Mechanism(1, {}, said.rays)))


def shadows_of(its: GeneralSetting, conditions: Sequence[DesignerCondition], said: OptimalAnswer) -> list[Pair | None]:
    """What one unit of the bound of each condition brings the objective, by the main multipliers: a fraction in least terms. None
    where a row of the condition has a face multiplier, or the fraction a number that is too great for a file.

    Where the bound NUM over DEN is raised by one, the right side of each row of the condition is raised by DEN times what its
    amounts are over, or lowered by that with `least`. The row was divided; so was the cost, which is the objective times the weight
    of all profiles.
    """
    total = sum(map(its.weight, its.profiles()))
    cost_divisor = divisor_of(objective_of(its).values())
    first = its.condition_count() + its.profile_count()
    shadows: list[Pair | None] = []
    for condition in conditions:
        rows = [(right, *terms.values()) for terms, right in undivided_rows(its, condition)]
        pairs = [said.multipliers.get(first + place, (0, 0)) for place in range(len(rows))]
        moved = condition.sign * condition.den * scale_of(its, condition)
        brought = sum((Fraction(main * moved, divisor_of(row)) for row, (_, main) in zip(rows, pairs)), Fraction(0))
        shadow = brought * cost_divisor / (said.bound * total)
        is_firm = not any(face for face, _ in pairs)
        is_short = max(abs(shadow.numerator), shadow.denominator) <= GREATEST
        shadows.append((shadow.numerator, shadow.denominator) if is_firm and is_short else None)
        first += len(rows)
    return shadows
