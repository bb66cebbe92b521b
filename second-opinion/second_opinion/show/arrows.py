"""A picture of the conditions of one agent that hold with equality: which reports are as good as the truth to which
types, and which types get no more than they have outside.

Types stand in a line. An arrow leads from a true type to a report that is as good. Arrows to an earlier type run above
the line, arrows to a later type below it. A type that gets just its outside utility has a double frame.
"""

from dataclasses import dataclass
from fractions import Fraction
from typing import TypeVar

from second_opinion.setting import GeneralSetting
from second_opinion.show.draw import CHAR, picture, place, text_at
from second_opinion.show.facts import Condition
from second_opinion.show.text import Number

Key = TypeVar("Key")

HALF = 12  # half the height of a frame
RING = 4  # how far the outer frame stands off
HEAD = 7  # the length of the head of an arrow


@dataclass
class Held:
    """Conditions that hold with equality: at all profiles or at some, and whether one has a positive multiplier."""

    whole: bool
    weighed: bool

    def words(self) -> str:
        """The same, as a remark."""
        remarks = ([] if self.whole else ["at some profiles"]) + (["with a multiplier"] if self.weighed else [])
        return f" ({', '.join(remarks)})" if remarks else ""

    def classes(self) -> str:
        """The same, as classes of what is drawn."""
        return ("" if self.whole else " some") + (" weighed" if self.weighed else "")


def rise(span: int) -> Fraction:
    """How far an arrow over so many types reaches from its frame."""
    return Fraction(12 + 14 * span)


class Line:
    """The types of an agent in a line. `arrows` has what holds by pairs of a type and a report, `rings` by types.
    `word` is what a type is called, and `least` what is said of one with a ring."""

    def __init__(
        self, agent: str, types: list[str], arrows: dict[tuple[int, int], Held], rings: dict[int, Held],
        word: str = "Type", least: str = "gets just its outside utility",
    ) -> None:
        self.agent, self.types = agent, types
        self.word, self.least = word, least
        self.arrows = arrows
        self.rings = rings
        self.pill = max(map(len, types)) * CHAR + 14
        self.step = self.pill + 26
        self.left = self.pill / 2 + RING + 2
        self.axis = self.room(-1) + HALF + RING + 2
        self.width = self.left * 2 + self.step * (len(types) - 1)
        self.height = self.axis + HALF + RING + 2 + self.room(1)

    def room(self, side: int) -> Fraction:
        """How far the arrows of one side reach: above (-1) or below (1)."""
        spans = [abs(own - report) for own, report in self.arrows if (report > own) == (side > 0)]
        return max([rise(span) * 3 / 4 + 4 for span in spans], default=Fraction(0))

    def description(self) -> str:
        """All that the picture shows, in words."""
        sentences = []
        for own, name in enumerate(self.types):
            reports = [
                self.types[report] + held.words()
                for (true, report), held in self.arrows.items()
                if true == own
            ]
            words = f"{self.word} {name}: "
            words += f"as good as the truth is {', '.join(reports)}" if reports else "no report is as good as the truth"
            if own in self.rings:
                words += f"; it {self.least}{self.rings[own].words()}"
            sentences.append(words + ".")
        return " ".join(sentences)

    def middle(self, own: int) -> Number:
        """Where a type stands."""
        return self.left + self.step * own

    def arrow(self, own: int, report: int, held: Held) -> str:
        """An arrow with its head."""
        side = 1 if report > own else -1
        start, end = self.middle(own) + side * 5, self.middle(report) - side * 5
        near = self.axis + side * (HALF + RING + 1)
        far, tip = near + side * rise(abs(own - report)), near + side * HEAD
        path = f"M{place(start)} {place(near)}C{place(start)} {place(far)} {place(end)} {place(far)} "
        path += f"{place(end)} {place(tip)}"
        point = f"M{place(end)} {place(near)}L{place(end - 4)} {place(tip)}H{place(end + 4)}Z"
        return f'<path class="arrow{held.classes()}" d="{path}"/><path class="point" d="{point}"/>'

    def frame(self, own: int, off: int, classes: str) -> str:
        """A frame around a type."""
        x, y = self.middle(own) - self.pill / 2 - off, self.axis - HALF - off
        wide, tall = self.pill + 2 * off, 2 * (HALF + off)
        return (
            f'<rect class="{classes}" x="{place(x)}" y="{place(y)}" width="{place(wide)}" height="{tall}" '
            f'rx="{HALF + off - 4}"/>'
        )

    def svg(self, name: str) -> str:
        """The picture."""
        made = [self.arrow(*pair, held) for pair, held in self.arrows.items()]
        for own, text in enumerate(self.types):
            if own in self.rings:
                made.append(self.frame(own, RING, "ring" + self.rings[own].classes()))
            made.append(self.frame(own, 0, "node"))
            made.append(text_at(self.middle(own), self.axis + 4, text, "", "middle"))
        title = f"Conditions of {self.agent} that hold with equality"
        return picture(name, title, self.description(), self.width, self.height, "".join(made))


def lines_of(setting: GeneralSetting, rows: list[Condition], equal: set[int], weighed: set[int]) -> list[Line]:
    """The pictures of all agents, by the rows, the indices of those that hold with equality, and the indices of those
    that have a positive multiplier."""

    def held(found: dict[Key, list[int]]) -> dict[Key, Held]:
        return {
            key: Held(equal.issuperset(indices), not weighed.isdisjoint(indices))
            for key, indices in found.items()
            if not equal.isdisjoint(indices)
        }

    made = []
    for agent, its in enumerate(setting.agents):
        arrows: dict[tuple[int, int], list[int]] = {}
        rings: dict[int, list[int]] = {}
        for row in rows:
            if row.agent != agent:
                continue
            if row.report is not None:
                arrows.setdefault((row.own, row.report), []).append(row.index)
            else:
                rings.setdefault(row.own, []).append(row.index)
        made.append(Line(its.name, its.types, held(arrows), held(rings)))
    return made
