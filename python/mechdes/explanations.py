"""Explanations as values, which are written as plain text or given as data."""

from __future__ import annotations

import dataclasses
import textwrap
from collections.abc import Iterator, Mapping, Sequence
from fractions import Fraction
from typing import Any, TypeAlias

from .wording import counted, decimal, number_words

Number: TypeAlias = Fraction | int
Shares: TypeAlias = Mapping[str, Number]  # what comes, and how often or how much of it
Cell: TypeAlias = str | Number | Shares

MOST_ROWS = 24  # of a table in the text
SHORT_ROWS = 12  # where there are more
MOST_FACTS = 12
_BOLD, _GOOD, _BAD, _END = "\033[1m", "\033[1;32m", "\033[1;31m", "\033[0m"


@dataclasses.dataclass(frozen=True)
class Fact:
    """A sentence, with the numbers and names that it speaks of."""

    sentence: str
    data: Mapping[str, Any] = dataclasses.field(default_factory=dict)


@dataclasses.dataclass(frozen=True, kw_only=True)
class Section:
    """A part of an explanation: a title with sentences, with a table, or with both.

    name     its name in the data
    columns  the heads of the table; empty texts where it has none
    chances  how likely each row is, where the rows are cases: of many rows the text then has the most likely ones
    """

    name: str
    title: str
    facts: Sequence[Fact] = ()
    columns: Sequence[str] = ()
    rows: Sequence[Sequence[Cell]] = ()
    chances: Sequence[Number] = ()

    def data(self) -> dict[str, Any]:
        """The section as data that JSON has, with all rows and facts."""
        found: dict[str, Any] = {"title": self.title}
        if self.facts:
            found["facts"] = [{"sentence": fact.sentence, **_plain(fact.data)} for fact in self.facts]
        if self.rows:
            found |= {"columns": list(self.columns)} if any(self.columns) else {}
            found["rows"] = [_plain(row) for row in self.rows]
        return found

    def lines(self, width: int) -> Iterator[str]:
        """The lines behind the title."""
        for fact in self.facts[:MOST_FACTS]:
            yield from textwrap.wrap(fact.sentence, width, initial_indent="  - ", subsequent_indent="    ")
        if len(self.facts) > MOST_FACTS:
            yield f"  - and {len(self.facts) - MOST_FACTS} more, which --json lists"
        if self.rows:
            shown = self._shown()
            yield from _table(self.columns, [self.rows[place] for place in shown], width)
            if len(shown) < len(self.rows):
                yield from textwrap.wrap(self._left_out(shown), width, initial_indent="  ", subsequent_indent="  ")

    def _shown(self) -> list[int]:
        """The places of the rows that the text has, in their order."""
        places = list(range(len(self.rows)))
        if len(places) <= MOST_ROWS:
            return places
        if self.chances:
            places.sort(key=lambda place: -self.chances[place])
        return sorted(places[:SHORT_ROWS])

    def _left_out(self, shown: Sequence[int]) -> str:
        rest = counted(len(self.rows) - len(shown), "other row")
        if not self.chances:
            return f"Here {rest} are left out; --json lists them all."
        chance = number_words(sum(self.chances) - sum(self.chances[place] for place in shown))
        likely = "These are the most likely ones. " if len(set(self.chances)) > 1 else ""
        return f"{likely}Here {rest} are left out, with the chance {chance} in all; --json lists them all."


@dataclasses.dataclass(frozen=True)
class Explanation:
    """What an answer says of its setting, in words.

    kind, word  those of the answer, as its first record has them
    verdict     what the program says of it: `valid`, `rejected`, `undecided`; of a mechanism of one's own `admissible`, `broken` or
                `violated`; of odds `realised` or `violated`
    summary     what the answer says, in sentences
    sections    the facts behind it
    """

    kind: str
    word: str
    verdict: str
    summary: Sequence[str]
    sections: Sequence[Section] = ()

    def data(self) -> dict[str, Any]:
        """The explanation as data that JSON has, as docs/FORMATS.md says."""
        head = {"kind": self.kind, "word": self.word, "verdict": self.verdict, "summary": list(self.summary)}
        return head | {section.name: section.data() for section in self.sections}

    def text(self, width: int = 80, colour: bool = False) -> str:
        """The explanation as text, in lines of this width as far as words allow; with colours of a terminal where they are asked
        for."""
        first, *others = self.summary
        mood = _BAD if self.verdict in ("rejected", "broken", "violated") else _GOOD if self.verdict != "undecided" else _BOLD
        lines = [_painted(line, mood if colour else "") for line in textwrap.wrap(first, width)]
        for sentence in others:
            lines += textwrap.wrap(sentence, width)
        for section in self.sections:
            lines += ["", *(_painted(line, _BOLD if colour else "") for line in textwrap.wrap(section.title, width))]
            lines += section.lines(width)
        return "\n".join(lines) + "\n"

    def __str__(self) -> str:
        return self.text()


def _painted(line: str, colour: str) -> str:
    return f"{colour}{line}{_END}" if colour else line


def _plain(value: Any) -> Any:
    """Fractions as their exact text beside a decimal, and all else as it is."""
    if isinstance(value, Fraction):
        return {"exact": str(value), "decimal": float(value)}
    if isinstance(value, Mapping):
        return {key: _plain(part) for key, part in value.items()}
    return [_plain(part) for part in value] if isinstance(value, (list, tuple)) else value


def _cell(cell: Cell, is_short: bool) -> str:
    """A cell as text: numbers beside their exact fractions, or where room is short as decimals alone."""
    if isinstance(cell, str):
        return cell
    if isinstance(cell, Mapping):
        if list(cell.values()) == [1]:
            return next(iter(cell))
        return ", ".join(f"{name}: {_cell(share, is_short)}" for name, share in cell.items())
    return decimal(cell) if is_short else number_words(cell)


def _table(columns: Sequence[str], rows: Sequence[Sequence[Cell]], width: int) -> Iterator[str]:
    """The lines of a table: with exact fractions where they fit the width, else with decimals, else row by row as sentences."""
    head = [list(columns)] if any(columns) else []
    for is_short in (False, True):
        cells = [[_cell(cell, is_short) for cell in row] for row in rows]
        lines = _aligned([*head, *cells])
        if max(map(len, lines)) <= width:
            yield from lines
            if is_short:
                yield from textwrap.wrap("Decimals are rounded; --json has the exact fractions.", width, initial_indent="  ")
            return
    for row in cells:
        told = "; ".join(f"{name}: {cell}" if name else cell for name, cell in zip(columns, row, strict=True))
        yield from textwrap.wrap(told, width, initial_indent="  - ", subsequent_indent="    ")


def _aligned(rows: Sequence[Sequence[str]]) -> list[str]:
    widths = [max(map(len, column)) for column in zip(*rows, strict=True)]
    return ["  " + "  ".join(cell.ljust(size) for cell, size in zip(row, widths, strict=True)).rstrip() for row in rows]
