"""The command `rows SETTING`: the linear program of a setting as a text, and of an auction the reduced one."""

from second_opinion import auction, command, program, setting
from second_opinion.program import Program


def rows(words: list[str]) -> tuple[int, str]:
    """The linear program as a text: for an auction that with the cuts of single values."""
    (name,) = command.file_names(words, 1)
    its = setting.read_setting(command.read_file(name, setting.FILE_LIMIT))
    if isinstance(its, setting.AuctionSetting):
        return 0, rows_text(auction.program_of(its, auction.single_cuts(its)))
    return 0, rows_text(program.program_of(its))


def rows_text(its: Program) -> str:
    """A linear program as the format prints it."""

    def pairs(terms: dict[int, int]) -> list[int]:
        return [number for column in sorted(terms) for number in (column, terms[column])]

    records: list[list[object]] = [["program", its.columns, len(its.rows)], ["cost", *pairs(its.cost)]]
    for index, row in enumerate(its.rows):
        kind = "exact" if row.exact else "atmost"
        records.append(["row", index, row.name, kind, row.right, *pairs(row.terms)])
    records.append(["end"])
    return "".join(",".join(map(str, record)) + "\n" for record in records)
