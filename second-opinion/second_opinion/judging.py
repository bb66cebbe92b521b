"""The command `check`: picks the judge of an answer, as docs/FORMATS.md states it in "What `check` prints"."""

from second_opinion import (
    answer,
    auction_answer,
    checking,
    command,
    fair_checking,
    require_checking,
    required_answer,
    sale_answer,
    sale_checking,
    selling,
    unit_checking,
)
from second_opinion.setting import AuctionSetting, Refused, Setting


def check(words: list[str]) -> tuple[int, str]:
    """The command `check SETTING ANSWER [--units NUMBER]`."""
    status, line = verdict(*unit_checking.files_of(words))
    return status, line + "\n"


def verdict(its: Setting, units: int | None, data: bytes) -> tuple[int, str]:
    """The status and the line for the bytes of an answer, about so many units where a number is given. The judge is told by the
    first record; where the setting has no such judge, the one of its own kind refuses that record."""
    if isinstance(its, AuctionSetting):
        if units is not None:
            return unit_checking.verdict(its, units, auction_answer.read_unit_answer(data, its, units))
        return checking.verdict(its, auction_answer.read_answer(data, its))
    kind = answer.kind_of(data)
    if kind == "fair":
        return fair_checking.verdict(its, answer.read_fair_answer(data, its))
    if kind == "required":
        return require_checking.verdict(its, required_answer.read_required(data, its))
    if kind == "asym" and next(selling.failing(its), None) is None:
        return sale_checking.verdict(its, sale_answer.read_answer(data, its))
    if kind == "determ":
        raise Refused(command.BEYOND, "answers of determ are not judged here")
    return checking.verdict(its, answer.read_answer(data, its))
