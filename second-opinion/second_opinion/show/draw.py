"""Pictures of lotteries as SVG: a stacked bar for each profile, with its exact chances as text below it.

A bar tells outcomes apart by letter and pattern, and by colour only beside these. All text is in a font of one width,
so that what fits can be counted. Coordinates are rounded to hundredths of a pixel; the numbers shown never are.
"""

import itertools
from collections.abc import Iterable, Sequence
from fractions import Fraction
from html import escape

from second_opinion.setting import Profile
from second_opinion.show.facts import Play
from second_opinion.show.style import PATTERNS, picture_style
from second_opinion.show.text import Number, number, with_decimal

LETTERS = "ABCDEFGHIJKLMNOP"
CHAR = Fraction(63, 8)  # the width of a character of 13 pixels
LINE = 15  # the height of a line of text
BAR = 20  # the height of a bar
GAP = 10  # between cells
NARROW = 64  # the least width of a cell
WIDE = 390  # the least width of a picture: a phone has it, a fifth smaller
LONGEST = 20  # characters of a line in a cell; a longer fraction takes two lines


def place(value: Number) -> str:
    """A coordinate as text, in hundredths at most."""
    hundredths = round(Fraction(value) * 100)
    sign, hundredths = "-" if hundredths < 0 else "", abs(hundredths)
    text = f"{sign}{hundredths // 100}.{hundredths % 100:02}"
    return text.rstrip("0").rstrip(".")


def text_at(x: Number, y: Number, text: str, classes: str = "", anchor: str = "") -> str:
    """A line of text."""
    extra = (f' class="{classes}"' if classes else "") + (f' text-anchor="{anchor}"' if anchor else "")
    return f'<text x="{place(x)}" y="{place(y)}"{extra}>{escape(text)}</text>'


def pattern_definitions(outcomes: Iterable[int]) -> str:
    """The patterns that tell these outcomes apart: eight pairs of colours, each with two of eight patterns."""
    made = []
    for outcome in outcomes:
        hue, kind = outcome % 8, (outcome + 3 * (outcome // 8)) % 8
        made.append(
            f'<pattern id="key{outcome}" width="8" height="8" patternUnits="userSpaceOnUse">'
            f'<rect width="8" height="8" class="f{hue}"/>{PATTERNS[kind].format(hue=hue)}</pattern>'
        )
    return "<defs>" + "".join(made) + "</defs>"


def swatch(outcome: int) -> str:
    """The pattern and letter of an outcome, as a small picture beside its name."""
    return (
        f'<svg class="swatch" width="26" height="20" viewBox="0 0 26 20" aria-hidden="true" focusable="false">'
        f'<rect x=".5" y=".5" width="25" height="19" class="edge" fill="url(#key{outcome})"/>'
        f'{text_at(13, 14, LETTERS[outcome], f"letter h{outcome % 8}", "middle")}</svg>'
    )


def bar(x: Number, y: Number, width: Number, chances: list[Fraction]) -> str:
    """A stacked bar. An outcome without a chance has no part in it."""
    parts, at = [], Fraction(x)
    for outcome, chance in enumerate(chances):
        if not chance:
            continue
        wide = width * chance
        parts.append(
            f'<rect x="{place(at)}" y="{place(y)}" width="{place(wide)}" height="{BAR}" class="edge" '
            f'fill="url(#key{outcome})"/>'
        )
        if wide >= 13:
            parts.append(text_at(at + wide / 2, y + 14, LETTERS[outcome], f"letter h{outcome % 8}", "middle"))
        at += wide
    return "".join(parts)


def chance_lines(labels: Sequence[str], chances: list[Fraction]) -> list[str]:
    """The chances of a lottery as short lines of text."""
    lines = []
    for label, chance in zip(labels, chances):
        text = with_decimal(chance)
        text = text if len(text) <= LONGEST else number(chance)
        if chance and len(label) + len(text) < LONGEST:
            lines.append(f"{label} {text}")
        elif chance:
            first, stroke, rest = text.partition("/")
            lines += [label] + ([text] if len(text) <= LONGEST else [first + stroke, rest])
    return lines


class Matrix:
    """The lotteries of all profiles in which the agents before the last two have the given types: a row for each type
    of the last but one, a column for each type of the last one. With one agent there is one column."""

    def __init__(self, play: Play, fixed: Profile) -> None:
        setting = play.setting
        self.agents = setting.agents[len(fixed) :]
        self.rows = self.agents[0].types
        self.columns = self.agents[1].types if len(self.agents) == 2 else [None]
        self.fixed = list(zip(setting.agents, fixed))
        self.outcomes = setting.outcomes
        self.cells = {}
        for row, column in itertools.product(range(len(self.rows)), range(len(self.columns))):
            profile = fixed + ((row, column) if len(self.agents) == 2 else (row,))
            self.cells[row, column] = play.lottery(profile)
        self.measure()

    def measure(self) -> None:
        """How large everything is."""
        names = len(self.columns) <= 6 and max(map(len, self.outcomes)) <= 12
        self.labels = self.outcomes if names else LETTERS
        self.lines = {cell: chance_lines(self.labels, chances) for cell, chances in self.cells.items()}
        longest = max(len(line) for lines in self.lines.values() for line in lines)
        self.side = max(len(name) for name in [*self.rows, self.agents[0].name]) * CHAR + 14
        texts = [longest, *(len(name) for name in self.columns if name)]
        rows = [WIDE - self.side, *(len(agent.name) * CHAR for agent in self.agents[1:])]
        self.cell = max(Fraction(NARROW), max(texts) * CHAR, (max(rows) + GAP) / len(self.columns) - GAP)
        self.head = 24 if len(self.agents) == 1 else 24 + LINE
        self.tops = [self.head]
        for row in range(len(self.rows)):
            most = max(len(self.lines[row, column]) for column in range(len(self.columns)))
            self.tops.append(self.tops[-1] + BAR + 4 + LINE * most + 12)
        self.width = self.side + len(self.columns) * (self.cell + GAP) - GAP
        self.height = self.tops[-1] - 6

    def title(self) -> str:
        """What the picture shows, in a line."""
        text = "Chances of the outcomes at each report of " + " and ".join(agent.name for agent in self.agents)
        if self.fixed:
            text += ", where " + " and ".join(f"{agent.name} reports {agent.types[own]}" for agent, own in self.fixed)
        return text

    def description(self) -> str:
        """All that the picture shows, in words."""
        sentences = []
        for (row, column), chances in self.cells.items():
            where = f"{self.agents[0].name} {self.rows[row]}"
            if len(self.agents) == 2:
                where += f", {self.agents[1].name} {self.columns[column]}"
            words = [f"{name} {number(chance)}" for name, chance in zip(self.outcomes, chances) if chance]
            sentences.append(f"{where}: {', '.join(words)}.")
        return " ".join(sentences)

    def body(self, left: Number = 0, top: Number = 0) -> str:
        """The drawing itself."""
        made = [text_at(left, top + self.head - 10, self.agents[0].name, "agent")]
        if len(self.agents) == 2:
            made.append(text_at(left + self.side, top + 13, self.agents[1].name, "agent"))
            for column, name in enumerate(self.columns):
                made.append(text_at(left + self.side + column * (self.cell + GAP), top + self.head - 10, name))
        for row, name in enumerate(self.rows):
            y = top + self.tops[row]
            made.append(f'<path class="rule" d="M{place(left)} {place(y - 5)}H{place(left + self.width)}"/>')
            made.append(text_at(left, y + 14, name))
            for column in range(len(self.columns)):
                x = left + self.side + column * (self.cell + GAP)
                made.append(bar(x, y, self.cell, self.cells[row, column]))
                for line, text in enumerate(self.lines[row, column]):
                    made.append(text_at(x, y + BAR + 4 + LINE * line + 9, text))
        return "".join(made)

    def svg(self, name: str) -> str:
        """The picture for a page, which has the patterns and the style."""
        return picture(name, self.title(), self.description(), self.width + 2, self.height, self.body(1))


def picture(name: str, title: str, description: str, width: Number, height: Number, body: str) -> str:
    """A picture of a page. It shrinks by a fifth at most where the page is narrower."""
    wide, tall = place(width), place(height)
    return (
        f'<svg class="picture" role="img" aria-labelledby="{name}-title" aria-describedby="{name}-desc" '
        f'width="{wide}" height="{tall}" viewBox="0 0 {wide} {tall}" preserveAspectRatio="xMinYMin" '
        f'style="min-width:{place(width * Fraction(4, 5))}px">'
        f'<title id="{name}-title">{escape(title)}</title>'
        f'<desc id="{name}-desc">{escape(description)}</desc>{body}</svg>'
    )


def matrices(play: Play) -> list[Matrix]:
    """The pictures of a mechanism: one for each way to fix the types of the agents before the last two."""
    before = play.setting.agents[:-2]
    return [Matrix(play, fixed) for fixed in itertools.product(*(range(len(agent.types)) for agent in before))]


def used_outcomes(play: Play) -> list[int]:
    """The outcomes that have a chance at some profile."""
    lotteries = play.mechanism.lotteries.values()
    return [outcome for outcome in range(len(play.setting.outcomes)) if any(numbers[outcome] for numbers in lotteries)]


def standalone(play: Play, heading: str) -> str:
    """All pictures with their legend as an SVG file of its own."""
    left, y = 18, 32
    made = [text_at(left, y, heading, "heading")]
    drawn = matrices(play)
    width = max([matrix.width for matrix in drawn] + [len(heading) * Fraction(42, 5)])
    x, y = Fraction(left), y + 16
    for outcome in used_outcomes(play):
        name = play.setting.outcomes[outcome]
        wide = 26 + 8 + len(name) * CHAR + 18
        if x > left and x + wide > left + width:
            x, y = Fraction(left), y + 26
        made.append(bar_key(x, y, outcome) + text_at(x + 34, y + 14, name))
        x += wide
    y += 40
    for matrix in drawn:
        for agent, own in matrix.fixed:
            made.append(text_at(left, y + 10, f"{agent.name}: {agent.types[own]}", "agent"))
            y += LINE
        made.append(matrix.body(left, y))
        y += matrix.height + 12
    words = " ".join(f"{matrix.title()}: {matrix.description()}" for matrix in drawn)
    return picture_file(heading, words, width + 2 * left, y + 4, used_outcomes(play), made)


def picture_file(heading: str, words: str, width: Number, height: Number, used: Iterable[int], made: list[str]) -> str:
    """A picture as a file of its own, with its words for a screen reader and the patterns that it uses."""
    wide, tall = place(width), place(height)
    return (
        '<svg xmlns="http://www.w3.org/2000/svg" role="img" aria-labelledby="title" aria-describedby="desc" '
        f'width="{wide}" height="{tall}" viewBox="0 0 {wide} {tall}">\n<title id="title">{escape(heading)}</title>\n'
        f'<desc id="desc">{escape(words)}</desc>\n<style>{picture_style()}</style>\n'
        f'{pattern_definitions(used)}\n<rect class="paper" width="100%" height="100%"/>\n'
        + "\n".join([*made, "</svg>\n"])
    )


def bar_key(x: Number, y: Number, outcome: int) -> str:
    """The pattern and letter of an outcome in the legend of a file."""
    return (
        f'<rect x="{place(x)}" y="{place(y)}" width="26" height="{BAR}" class="edge" fill="url(#key{outcome})"/>'
        + text_at(x + 13, y + 14, LETTERS[outcome], f"letter h{outcome % 8}", "middle")
    )
