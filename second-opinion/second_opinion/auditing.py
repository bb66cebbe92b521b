"""Tells whether the mechanism of an answer meets all conditions: docs/FORMATS.md, "What `audit` prints"."""

from second_opinion import answer, command, mechanisms, program, require_checking
from second_opinion.answer import Mechanism
from second_opinion.conditions import DesignerCondition, broken_condition
from second_opinion.setting import GeneralSetting

ADMISSIBLE, BROKEN = 0, 20


def audit(words: list[str]) -> tuple[int, str]:
    """The command `audit SETTING ANSWER`. The setting is read and refused before the answer is opened."""
    setting_name, answer_name = command.file_names(words, 2)
    its = require_checking.general_setting(setting_name)
    data = command.read_file(answer_name, answer.FILE_LIMIT)
    first = first_broken(its, *mechanisms.proposal_in(data, its))
    if first is None:
        return ADMISSIBLE, "admissible\n"
    return BROKEN, ",".join(map(str, ("broken", *first))) + "\n"


def first_broken(its: GeneralSetting, mechanism: Mechanism, asked: list[DesignerCondition]) -> tuple[str, int, int] | None:
    """The first condition that is broken, by its name and both sides: of the setting, and then of the designer."""
    broken = program.broken(its, mechanism)
    if broken is not None:
        return broken
    unmet = broken_condition(its, mechanism, asked)
    return None if unmet is None else (f"condition/{unmet[0]}", unmet[1], unmet[2])
