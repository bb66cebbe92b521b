"""Finds the value of the best deterministic mechanism of a setting, by trying each of them: at each profile one outcome has
the whole chance. What agents pay under it is left to the simplex of `simplex.py`.
"""

import itertools
from fractions import Fraction

from second_opinion import command, setting
from second_opinion.program import Program, chance_column, objective_of, payment_columns, program_of
from second_opinion.setting import AuctionSetting, GeneralSetting, Refused
from second_opinion.simplex import Dictionary, Infeasible, Unbounded

MOST_RULES = 1_000_000  # a setting with more rules is not tried


def rule(words: list[str]) -> tuple[int, str]:
    """The command `rule SETTING`: the value, `infeasible` or `unbounded`, with the statuses of `mechdes determ`."""
    (name,) = command.file_names(words, 1)
    its = setting.read_setting(command.read_file(name, setting.FILE_LIMIT))
    if isinstance(its, AuctionSetting):
        raise Refused(65, "setting refused: other kind")
    if len(its.outcomes) ** its.profile_count() > MOST_RULES:
        raise Refused(command.BEYOND, "there are too many rules to try")
    try:
        value = best_value(its)
    except Unbounded:
        return 11, "unbounded\n"
    if value is None:
        return 10, "infeasible\n"
    return 0, f"value,{value.numerator},{value.denominator}\n"


def best_value(setting: GeneralSetting) -> Fraction | None:
    """The greatest value of a deterministic mechanism that meets all conditions, or None where none does."""
    program = program_of(setting)
    objective = objective_of(setting)
    profiles = list(setting.profiles())
    found = []
    for outcomes in itertools.product(range(len(setting.outcomes)), repeat=len(profiles)):
        chosen = [chance_column(setting, profile, outcome) for profile, outcome in zip(profiles, outcomes)]
        try:
            found.append(greatest(program, objective, chosen, payments(setting)))
        except Infeasible:
            continue
    return max(found) / sum(map(setting.weight, profiles)) if found else None


def payments(setting: GeneralSetting) -> list[int]:
    """The columns of the payments: of each the plus part, which is to have any sign."""
    if not setting.payments:
        return []
    agents = range(len(setting.agents))
    return [payment_columns(setting, agent, profile)[0] for agent in agents for profile in setting.profiles()]


def greatest(program: Program, objective: dict[int, int], chosen: list[int], pays: list[int]) -> Fraction:
    """The greatest objective under the conditions where the chosen columns are 1, and all but the payments are 0."""

    def parts(terms: dict[int, int]) -> tuple[int, list[int]]:
        """What the chosen columns make of a sum, and its numbers at the payments."""
        return sum(terms.get(column, 0) for column in chosen), [terms.get(column, 0) for column in pays]

    rows = {}
    for index, row in enumerate(program.rows):
        constant, numbers = parts(row.terms)
        if not pays and not row.exact and constant > row.right:
            raise Infeasible
        if not row.exact:
            rows[program.columns + index] = row.right - constant, [-number for number in numbers]
    constant, numbers = parts(objective)
    if not pays:
        return Fraction(constant)
    dictionary = Dictionary(rows, (constant, numbers), pays, pays)
    dictionary.solve()
    return Fraction(dictionary.objective.numbers[0], dictionary.objective.den)
