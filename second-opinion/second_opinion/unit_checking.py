"""Tells whether what an answer about several units claims is so: the conditions of docs/FORMATS.md, "How an answer is checked", by
the reduced program of so many units.
"""

from second_opinion import answer, checking, command, setting
from second_opinion.answer import TooWideAnswer
from second_opinion.auction_answer import AuctionAnswer
from second_opinion.setting import AuctionSetting, Refused, Setting

MOST_UNITS = 12


def files_of(words: list[str]) -> tuple[Setting, int | None, bytes]:
    """What the words `SETTING ANSWER [--units NUMBER]` name: a setting, the number of units or None, and the bytes of an answer. The
    number is refused first, and the setting before the answer is opened."""
    names, number = command.taken_option(words, "--units")
    setting_name, answer_name = command.file_names(names, 2)
    units = None if number is None else units_of(number)
    its = setting.read_setting(command.read_file(setting_name, setting.FILE_LIMIT))
    if units is not None and not isinstance(its, AuctionSetting):
        raise Refused(65, "setting refused: other kind")
    return its, units, command.read_file(answer_name, answer.FILE_LIMIT)


def units_of(text: str) -> int:
    """The number of units that a word is. A word that is no number is no part of the command."""
    data = text.encode()
    if not answer.NUMBER.fullmatch(data) or len(data) > 40 or abs(int(data)) > answer.GREATEST_WIDE:
        raise Refused(64, "usage")
    if not 1 <= int(data) <= MOST_UNITS:
        raise Refused(67, "number refused")
    return int(data)


def verdict(its: AuctionSetting, units: int, said: AuctionAnswer | TooWideAnswer) -> tuple[int, str]:
    """The status and the line for an answer."""
    if isinstance(said, AuctionAnswer):
        return checking.told(checking.failed_auction(its, said, units))
    return checking.UNDECIDED
