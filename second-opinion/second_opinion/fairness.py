"""Finds the fairest mechanism of a setting, under which the agent that gets least on average gets most: by the search of
`finding.py`, over the fair program of docs/FORMATS.md.
"""

from second_opinion import command, setting
from second_opinion.answer import FoundAnswer
from second_opinion.fair_checking import fair_program, least_of, level_columns
from second_opinion.finding import found_by, written_answer
from second_opinion.setting import AuctionSetting, GeneralSetting, Refused


def findfair(words: list[str]) -> tuple[int, str]:
    """The command `findfair SETTING`."""
    (name,) = command.file_names(words, 1)
    its = setting.read_setting(command.read_file(name, setting.FILE_LIMIT))
    if isinstance(its, AuctionSetting):
        raise Refused(65, "setting refused: other kind")
    return written_answer(its, found_fairest(its), "fair")


def found_fairest(setting: GeneralSetting) -> FoundAnswer:
    """An optimal, infeasible or unbounded answer about the fairest mechanism, with numbers of any size."""
    program = fair_program(setting)
    level, _ = level_columns(program)
    return found_by(setting, program, [level], least_of)
