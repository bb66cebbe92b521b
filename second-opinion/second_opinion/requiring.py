"""Finds the best mechanism of a setting among those that meet conditions of the designer: by the search of `finding.py`, over the
setting's program with the rows of the conditions.
"""

from collections.abc import Sequence

from second_opinion import answer, command, conditions, required_answer
from second_opinion.answer import FILE_LIMIT, OptimalAnswer
from second_opinion.conditions import DesignerCondition
from second_opinion.finding import STATUSES, found_by, written
from second_opinion.program import value_of
from second_opinion.require_checking import general_setting, shadows_of
from second_opinion.required_answer import RequiredAnswer
from second_opinion.setting import GeneralSetting


def require(words: list[str]) -> tuple[int, str]:
    """The command `require SETTING CONDITIONS`. The setting is read and refused before the conditions are opened."""
    setting_name, conditions_name = command.file_names(words, 2)
    its = general_setting(setting_name)
    asked = conditions.read_conditions(command.read_file(conditions_name, FILE_LIMIT), its)
    found = found_under(its, asked)
    is_wide, text = answer.has_wide_number(found.said), required_answer.write_required(found, its)
    return written(STATUSES[type(found.said)], is_wide, text)


def found_under(its: GeneralSetting, asked: Sequence[DesignerCondition]) -> RequiredAnswer:
    """An optimal, infeasible or unbounded answer under conditions, with numbers of any size."""
    said = found_by(its, conditions.program_under(its, asked), [], value_of)
    shadows = shadows_of(its, asked, said) if isinstance(said, OptimalAnswer) else []
    return RequiredAnswer(list(asked), said, shadows)
