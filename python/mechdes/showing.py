"""How values are shown: in ten lines at most, in a notebook as a table with a picture, and as a table of pandas."""

from __future__ import annotations

import html
from collections.abc import Callable, Iterable, Mapping, Sequence
from fractions import Fraction
from typing import TYPE_CHECKING, Any, NamedTuple

if TYPE_CHECKING:
    import pandas

_LINES = 10  # of a text, with its first line and the heads of the columns
_WIDTH = 120  # of a line, in letters
_LONG = 16  # letters of a number above which it is rounded in a text
_HTML_ROWS = 40  # of a table in a notebook
_BAR, _GAP, _LETTER = 300, 6, 7  # the length of a bar, the gap between two, and the width of a letter, in pixels
_HEIGHT = 18  # of a bar, in pixels
_COLOURS = ("#a6cee3", "#fdbf6f", "#b2df8a", "#cab2d6", "#fb9a99", "#ffff99", "#d9d9d9", "#8dd3c7")


class Grid(NamedTuple):
    """A table: a row for each key, and the names of the parts of a key, which is a tuple where they are several."""

    names: Sequence[str]
    rows: Mapping[Any, Mapping[Any, Any]]

    def keys(self) -> list[tuple[Any, ...]]:
        """The keys as tuples."""
        return [key if isinstance(key, tuple) else (key,) for key in self.rows]

    def columns(self) -> list[Any]:
        """The names of the columns, in the order in which they come."""
        return list(dict.fromkeys(name for row in self.rows.values() for name in row))

    def lines(self, most: int) -> tuple[list[str], list[list[Any]]]:
        """The heads of all columns, and so many rows at most, each with its key in front."""
        columns = self.columns()
        pairs = zip(self.keys()[:most], self.rows.values(), strict=False)
        return [*self.names, *map(str, columns)], [[*key, *(row.get(name) for name in columns)] for key, row in pairs]


class Part(NamedTuple):
    """A part of a bar: from where to where it goes, from 0 to 1; its words; and the number of its colour."""

    start: float
    end: float
    words: str
    colour: int = 0


class Bars(NamedTuple):
    """A picture: a line for each label, with a bar in each column."""

    labels: Sequence[str]
    columns: Mapping[str, Sequence[Sequence[Part]]]


class View(NamedTuple):
    """What is shown of a value: in a few words what it says and how large it is; its table; and what draws its picture."""

    words: str
    grid: Grid
    bars: Callable[[], Bars] | None = None


class Shown:
    """A value that is shown in a few lines, in a notebook with its table and its picture, and as a table of pandas."""

    def _view(self) -> View:
        """What is shown of it."""
        raise NotImplementedError

    def _headline(self) -> str:
        """What it is, in a line."""
        return f"{type(self).__name__}: {self._view().words}"

    def __repr__(self) -> str:
        return "\n".join([_cut(self._headline()), *_text_lines(self._view().grid)])

    def _repr_html_(self) -> str:
        _, grid, bars = self._view()
        picture = _svg(bars()) if bars else ""
        return f"<p><b>{html.escape(self._headline())}</b></p>{_html_table(grid)}{picture}"

    def to_pandas(self) -> pandas.DataFrame:
        """A table with a row for each key, as docs/USING.md says of each kind of value. Its numbers are exact. Raises `ImportError`
        where pandas is not there."""
        import pandas

        grid = self._view().grid
        keys, names = grid.keys(), grid.names
        index = (
            pandas.MultiIndex.from_tuples(keys, names=list(names))
            if len(names) > 1
            else pandas.Index([key[0] for key in keys], name=names[0])
        )
        return pandas.DataFrame(list(grid.rows.values()), index=index, dtype=object)


def counted(number: int, what: str) -> str:
    """A number with what it counts: `1 profile`, `3 profiles`."""
    return f"{number} {what}" if number == 1 else f"{number} {what}s"


def number_text(number: Fraction | int) -> str:
    """A number, with a decimal one behind it where it is not whole: `5/2 (2.5)`. A long one is rounded."""
    if len(str(number)) > 3 * _LONG:
        return f"about {float(number):.10g}"
    return str(number) if number.denominator == 1 else f"{number} ({float(number):.6g})"


def _cell(part: Any) -> str:
    """A cell: a number as it is, or rounded where it is long."""
    if part is None:
        return ""
    text = str(part)
    return f"~{float(part):.6g}" if isinstance(part, (Fraction, int)) and len(text) > _LONG else text


def _cut(line: str) -> str:
    return line if len(line) <= _WIDTH else line[: _WIDTH - 2] + " .."


def _text_lines(grid: Grid) -> list[str]:
    """The table in lines: its heads, and as many rows as there is room for."""
    room = _LINES - 2
    shown = len(grid.rows) if len(grid.rows) <= room else room - 1
    heads, rows = grid.lines(shown)
    cells = [heads, *([_cell(part) for part in row] for row in rows)]
    widths = [max(map(len, column)) for column in zip(*cells, strict=True)]
    lines = ["  ".join(part.ljust(width) for part, width in zip(row, widths, strict=True)).rstrip() for row in cells]
    rest = len(grid.rows) - shown
    return [*map(_cut, lines), *([f".. and {counted(rest, 'more row')}"] if rest else [])]


def _html_cell(part: Any) -> str:
    """A cell, whose number can be read as a decimal one where the pointer rests on it."""
    is_fraction = isinstance(part, Fraction) and part.denominator != 1
    title = f' title="{float(part):.10g}"' if is_fraction else ""
    return f"<td{title}>{html.escape(_cell(part))}</td>"


def _html_heads(parts: Sequence[Any]) -> str:
    return "".join(f"<th>{html.escape(_cell(part))}</th>" for part in parts)


def _html_table(grid: Grid) -> str:
    heads, rows = grid.lines(_HTML_ROWS)
    count = len(grid.names)
    head = _html_heads(heads)
    body = "".join(f"<tr>{_html_heads(row[:count])}{''.join(map(_html_cell, row[count:]))}</tr>" for row in rows)
    rest = len(grid.rows) - len(rows)
    more = f"<p>.. and {counted(rest, 'more row')}</p>" if rest else ""
    return f"<table><thead><tr>{head}</tr></thead><tbody>{body}</tbody></table>{more}"


def _svg(bars: Bars) -> str:
    """The picture, of as many lines as the table in a notebook has."""
    labels = bars.labels[:_HTML_ROWS]
    left = _LETTER * max(map(len, labels), default=0) + _GAP
    drawn = []
    for number, (title, lines) in enumerate(bars.columns.items()):
        at = left + number * (_BAR + 4 * _GAP)
        drawn.append(_svg_text(at, _HEIGHT - 5, title))
        for place, parts in enumerate(lines[:_HTML_ROWS], 1):
            drawn += [_svg_part(part, at, place * (_HEIGHT + _GAP)) for part in parts]
    drawn += [_svg_text(0, place * (_HEIGHT + _GAP) + _HEIGHT - 5, label) for place, label in enumerate(labels, 1)]
    width, height = left + len(bars.columns) * (_BAR + 4 * _GAP), (len(labels) + 1) * (_HEIGHT + _GAP)
    size = f'width="{width}" height="{height}" viewBox="0 0 {width} {height}"'
    title = f"<title>{html.escape(', '.join(bars.columns))}</title>"
    return f'<svg role="img" {size} font-family="monospace" font-size="11">{title}{"".join(drawn)}</svg>'


def _svg_text(x: float, y: float, text: str, fill: str = "currentColor") -> str:
    return f'<text x="{x:.1f}" y="{y:.1f}" fill="{fill}">{html.escape(text)}</text>'


def _svg_part(part: Part, left: float, top: float) -> str:
    """A part of a bar. All its words stand where the pointer rests on it, and in it as many of the last ones as fit."""
    x, width = left + _BAR * part.start, _BAR * (part.end - part.start)
    room = (width - _GAP) / _LETTER
    fitting = next((words for words in (part.words, part.words.split(" ")[-1]) if len(words) <= room), "")
    words = _svg_text(x + 3, top + _HEIGHT - 5, fitting, "black")
    place, fill = f'x="{x:.1f}" y="{top:.1f}" width="{width:.1f}" height="{_HEIGHT}"', _COLOURS[part.colour % len(_COLOURS)]
    box = f'<rect {place} fill="{fill}" stroke="black" stroke-width="0.5"/>'
    return f"<g><title>{html.escape(part.words)}</title>{box}{words}</g>"


def chance_bars(lotteries: Mapping[tuple[str, ...], Mapping[str, Fraction]]) -> Bars:
    """The chances of all outcomes at each profile, one behind the other."""
    lines = []
    for row in lotteries.values():
        ends = _sums(row.values())
        parts = zip(row.items(), [0.0, *ends], ends, range(len(ends)), strict=False)
        lines.append([Part(start, end, f"{name} {chance}", place) for (name, chance), start, end, place in parts if chance])
    return Bars([", ".join(profile) for profile in lotteries], {"chances of the outcomes": lines})


def _sums(numbers: Iterable[Fraction]) -> list[float]:
    """The sums of the first number, of the first two, and so on."""
    found, total = [], Fraction(0)
    for number in numbers:
        total += number
        found.append(float(total))
    return found


def odds_bars(odds: Mapping[Any, Fraction], pays: Mapping[Any, Fraction]) -> Bars:
    """How often each wins, from 0 to 1; and what it pays, from the least to the greatest payment."""
    least, greatest = min([Fraction(0), *pays.values()]), max([Fraction(0), *pays.values()])
    room = greatest - least or Fraction(1)

    def paid(amount: Fraction) -> Part:
        start, end = sorted([-least / room, (amount - least) / room])
        return Part(float(start), float(end), str(amount), 1)

    labels = [", ".join(map(str, key)) if isinstance(key, tuple) else str(key) for key in odds]
    won = [[Part(0, float(chance), str(chance))] for chance in odds.values()]
    return Bars(labels, {"how often it wins": won, "what it pays": [[paid(pays[key])] for key in odds]})
