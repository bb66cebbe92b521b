"""The command `basis`: bases of linear programs from glpsol, a solver in floating point, for `mechdes find --from`."""

from collections.abc import Iterable

from second_opinion import command, program, setting
from second_opinion.program import Program
from second_opinion.setting import Refused

TERMS_IN_LINE = 8


def basis(words: list[str]) -> tuple[int, str]:
    """`basis SETTING`: the setting's linear program, as `glpsol --lp` reads it. `basis SETTING SOLUTION`: the basis of what
    `glpsol -w` wrote about this program."""
    names = command.file_names(words, 2 if len(words) > 1 else 1)
    its = setting.read_setting(command.read_file(names[0], setting.FILE_LIMIT))
    if isinstance(its, setting.AuctionSetting):
        raise Refused(65, "setting refused: other kind")
    of_setting = program.program_of(its)
    if len(names) == 1:
        return 0, program_text(of_setting)
    return 0, basis_text(of_setting, command.read_file(names[1], 1 << 26).decode("ascii", "replace"))


def program_text(its: Program) -> str:
    """A program in the format of CPLEX. Each column stands in the objective, so that glpsol numbers them in their order."""
    rows = [
        f"r{number}:{sum_text(row.terms or {0: 0})} {'=' if row.exact else '<='} {row.right}" for number, row in enumerate(its.rows)
    ]
    costs = {column: its.cost.get(column, 0) for column in range(its.columns)}
    return "\n".join(["Maximize", f"cost:{sum_text(costs)}", "Subject To", *rows, "End", ""])


def sum_text(terms: dict[int, int]) -> str:
    """A sum of numbers times columns."""
    texts = [f" {'-' if number < 0 else '+'} {abs(number)} x{column}" for column, number in sorted(terms.items())]
    return "\n".join("".join(line) for line in (texts[at : at + TERMS_IN_LINE] for at in range(0, len(texts), TERMS_IN_LINE)))


def basis_text(its: Program, solution: str) -> str:
    """The records of the basis in a solution: its lines `i` are about rows and its lines `j` about columns, counted from 1, and
    those of basic ones have `b` behind the number."""
    lines = [line.split() for line in solution.splitlines()]
    records = [*basic(lines, "j", "column", its.columns), *basic(lines, "i", "slack", len(its.rows))]
    if len(records) != len(its.rows):
        raise Refused(66, "the solution is about another program")
    return "".join(f"{record}\n" for record in [*records, "end"])


def basic(lines: Iterable[list[str]], kind: str, word: str, count: int) -> list[str]:
    """The records of the basic lines of a kind."""
    numbers = [int(line[1]) - 1 for line in lines if line[:1] == [kind] and line[2:3] == ["b"]]
    if any(number >= count for number in numbers):
        raise Refused(66, "the solution is about another program")
    return [f"{word},{number}" for number in numbers]
