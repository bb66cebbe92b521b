"""A picture with a bar for each of a few numbers, with the exact number beside it or below it.

A bar begins at nothing: to the right are numbers above 0, to the left those below. A frame shows how long a bar may be.
A bracket marks bars that belong together. As in `draw.py`, what fits is counted in characters of one width, and
bars are told apart by pattern and words, and by colour only beside these.
"""

import itertools
from collections.abc import Iterable
from dataclasses import dataclass
from fractions import Fraction

from second_opinion.show.draw import BAR, CHAR, LINE, LONGEST, picture, place, text_at
from second_opinion.show.text import Number

WIDTH = 318  # of a picture that fits on any page
TRACK = 110  # the least room for bars where the numbers stand beside them
NAME = 12  # characters of a name that stands to the left of its bar; a longer one stands above it
BRACKET = 14  # the room for a bracket
BETWEEN = 10  # between bars


@dataclass
class Bar:
    """A number with its name. `text` is what the picture shows of it and `spoken` what it says in words; `limit` is the
    end of its frame, or None; `key` is its pattern; a `thick` bar has a thick edge."""

    name: str
    number: Fraction
    text: str
    spoken: str
    limit: int | None = None
    key: int = 0
    thick: bool = False


@dataclass
class Group:
    """A run of bars that belong together, with words below them; `across` is a number at which a line crosses them."""

    first: int
    last: int
    words: str
    across: Fraction | None = None


def text_lines(text: str) -> list[str]:
    """A number with its remark in lines: a long fraction is broken behind its stroke."""
    if len(text) <= LONGEST:
        return [text]
    first, stroke, rest = text.partition("/")
    return [first + stroke, rest] if stroke else [text]


class Bars:
    """Bars below each other, with their groups."""

    def __init__(self, heading: str, bars: list[Bar], groups: Iterable[Group] = ()) -> None:
        self.heading = heading
        self.bars = bars
        self.groups = list(groups)
        self.measure()

    def measure(self) -> None:
        """How large everything is."""
        names = max(len(bar.name) for bar in self.bars)
        self.above = names > NAME
        self.axis_left = (Fraction(0) if self.above else names * CHAR + 10) + (BRACKET if self.groups else 0)
        longest = max(len(bar.text) for bar in self.bars) * CHAR
        self.track = WIDTH - self.axis_left - longest - 10
        self.beside = self.track >= TRACK
        self.lines = [[bar.text] if self.beside else text_lines(bar.text) for bar in self.bars]
        widest = longest
        if not self.beside:
            widest = max(len(line) for lines in self.lines for line in lines) * CHAR
            self.track = max(WIDTH - self.axis_left, widest)
        words = [self.axis_left + len(group.words) * CHAR for group in self.groups]
        words += [self.axis_left + names * CHAR] * self.above
        words.append(self.axis_left + self.track + (longest + 10) * self.beside)
        self.width = max(Fraction(WIDTH), *words)
        numbers = [Fraction(0), *(bar.number for bar in self.bars), *(Fraction(bar.limit or 0) for bar in self.bars)]
        self.low, self.span = min(numbers), max(numbers) - min(numbers)
        self.tops, y = [], 4
        ends = {group.last for group in self.groups}
        for row, lines in enumerate(self.lines):
            y += LINE * self.above
            self.tops.append(y)
            y += BAR + (0 if self.beside else LINE * len(lines) + 4) + LINE * (row in ends) + BETWEEN
        self.height = y - BETWEEN + 4

    def at(self, number: Number) -> Number:
        """Where a number stands, from the left."""
        return self.axis_left + (self.track * Fraction(number - self.low) / self.span if self.span else 0)

    def bottom(self, row: int) -> int:
        """Where a bar with its number ends."""
        return self.tops[row] + BAR + (0 if self.beside else LINE * len(self.lines[row]) + 4)

    def description(self) -> str:
        """All that the picture shows, in words."""
        words = [f"{bar.spoken}." for bar in self.bars] + [f"{group.words}." for group in self.groups]
        return " ".join(words)

    def row(self, row: int, bar: Bar) -> str:
        """A bar with its name, its frame and its number."""
        y, zero = self.tops[row], self.at(0)
        made = [text_at(self.axis_left, y - 4, bar.name) if self.above else text_at(0, y + 14, bar.name)]
        if bar.limit:
            made.append(box("frame", zero, y, self.at(bar.limit)))
        if bar.number:
            ends = sorted([zero, self.at(bar.number)])
            made.append(box("edge thick" if bar.thick else "edge", ends[0], y, ends[1], f' fill="url(#key{bar.key})"'))
        for line, text in enumerate(self.lines[row]):
            beside = (self.axis_left + self.track + 8, y + 14)
            made.append(text_at(*(beside if self.beside else (self.axis_left, y + BAR + 13 + LINE * line)), text))
        return "".join(made)

    def axis(self) -> str:
        """The path of a line where nothing stands. It leaves out the words between bars."""
        x, over = place(self.at(0)), 0 if self.above or not self.beside else 3
        steps = []
        for top, below in itertools.zip_longest(self.tops, self.tops[1:]):
            end = below if below == top + BAR + BETWEEN else top + BAR + over
            steps.append(f"M{x} {place(top - over)}V{place(end)}")
        return "".join(steps)

    def group(self, group: Group) -> str:
        """The bracket of a group, the line across it, and its words."""
        top, bottom = self.tops[group.first], self.bottom(group.last)
        x = self.axis_left - BRACKET + 2
        path = f"M{place(x + 6)} {place(top)}H{place(x)}V{place(bottom)}H{place(x + 6)}"
        made = f'<path class="bracket" d="{path}"/>'
        if group.across is not None:
            made += f'<path class="across" d="M{place(self.at(group.across))} {place(top - 3)}V{place(bottom + 3)}"/>'
        return made + text_at(self.axis_left, bottom + 14, group.words)

    def body(self, left: Number = 0, top: Number = 0) -> str:
        """The drawing itself."""
        made = [self.row(row, bar) for row, bar in enumerate(self.bars)]
        if not any(bar.limit for bar in self.bars):
            made.append(f'<path class="axis" d="{self.axis()}"/>')
        made += [self.group(group) for group in self.groups]
        return f'<g transform="translate({place(left)} {place(top)})">{"".join(made)}</g>'

    def svg(self, name: str) -> str:
        """The picture for a page, which has the patterns and the style."""
        return picture(name, self.heading, self.description(), self.width + 2, self.height, self.body(1))


def box(classes: str, start: Number, y: Number, end: Number, fill: str = "") -> str:
    """A box of the height of a bar."""
    return (
        f'<rect class="{classes}" x="{place(start)}" y="{place(y)}" width="{place(end - start)}" height="{BAR}"{fill}/>'
    )
