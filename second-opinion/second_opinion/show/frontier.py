"""The page of a frontier: what can be had of two objectives at once, as answers about one setting show. They are answers to the
same auction with other weights, or answers under floors on the revenue (`floors.py`).

Each answer gives a point, its revenue (or the floor on it) and its welfare, and a line that no rule lies beyond: the weights times
the two add to no more than its value. Points that lie on each other's lines are corners, and the lines are the edges.
"""

from collections.abc import Callable
from dataclasses import dataclass
from fractions import Fraction
from html import escape

from second_opinion.auction_answer import AuctionAnswer
from second_opinion.setting import AuctionSetting
from second_opinion.show.auction_facts import Sale
from second_opinion.show.draw import CHAR, LINE, picture, place, text_at
from second_opinion.show.parts import EXACT, document, figure, paragraph, section
from second_opinion.show.tables import Cell, Head, table
from second_opinion.show.text import Number, html_number, number, with_decimal

Point = tuple[Fraction, Fraction]  # revenue and welfare
Text = tuple[Number, Number, str, str]  # where a line of text stands, its words, and its anchor

SIDE = 260  # of the square in which the rules lie
BELOW, LEFT, ROOM, OFF = 48, 16, 24, 12


@dataclass(frozen=True)
class Step:
    """An answer: its name (none where it was found for the page), the weights of revenue and welfare in its line and what they
    add to at most, and its point; or None and the floor that no mechanism meets."""

    name: str
    weights: tuple[Number, Number]
    value: Fraction
    point: Point | None
    unmet: Fraction | None = None

    def line(self, point: Point) -> Fraction:
        """What a point brings by the weights."""
        return self.weights[0] * point[0] + self.weights[1] * point[1]


Part = tuple[Point, Point, Step]  # two corners, from that of more revenue on, and the step on whose line they lie


def step_of(name: str, setting: AuctionSetting, answer: AuctionAnswer) -> Step:
    """What an answer shows, computed anew from its odds and pays."""
    sale = Sale(setting, answer)
    return Step(name, (setting.revenue, setting.welfare), sale.value(), (sale.revenue(), sale.welfare()))


def corners_of(steps: list[Step]) -> tuple[list[Point], list[Step]]:
    """The rules, from the most revenue on, with the step whose line has both ends, for each two neighbours.

    Raises `ValueError` where two neighbours have no such line, or some rule lies beyond a line: then this is no frontier.
    """
    points = sorted({step.point for step in steps if step.point}, reverse=True)
    if any(step.line(point) > step.value for step in steps for point in points):
        raise ValueError("a rule lies beyond a line")
    edges = []
    for one, other in zip(points, points[1:]):
        lines = [step for step in steps if step.line(one) == step.line(other) == step.value]
        if not lines:
            raise ValueError("two rules have no line")
        edges.append(lines[0])
    return points, edges


def parts_of(steps: list[Step]) -> list[Part]:
    """The edges of the frontier, where those on one line are one."""
    points, edges = corners_of(steps)
    parts: list[Part] = []
    for one, other, edge in zip(points, points[1:], edges):
        if parts and parts[-1][2].line(other) == parts[-1][2].value:
            one, _, edge = parts.pop()
        parts.append((one, other, edge))
    return parts


class Chart:
    """The points in a square, joined by the edges, each with its numbers, and the floors that no mechanism meets. `first` names
    what lies to the right, `axes` tells of both, and `written` writes a number beside a point."""

    def __init__(
        self,
        steps: list[Step],
        first: str = "Revenue",
        axes: str = "right: more revenue; up: more welfare",
        written: Callable[[Number], str] = with_decimal,
    ) -> None:
        self.points, _ = corners_of(steps)
        self.parts = parts_of(steps)
        self.named = {step.point for step in steps if step.name}
        self.unmet = [step.unmet for step in steps if step.unmet is not None]
        self.first, self.axes, self.written = first, axes, written
        revenues, welfares = [*(point[0] for point in self.points), *self.unmet], [point[1] for point in self.points]
        self.low = (min(revenues), min(welfares))
        self.span = [(max(each) - min(each)) or Fraction(1) for each in (revenues, welfares)]
        self.height = ROOM + SIDE + BELOW
        self.width = max(x + len(words) * CHAR for x, _, words, anchor in self.texts() if not anchor)

    def at(self, point: Point) -> Point:
        """Where a point lies."""
        x, y = ((point[axis] - self.low[axis]) / self.span[axis] for axis in (0, 1))
        return LEFT + x * SIDE, ROOM + (1 - y) * SIDE

    def beside(self, point: Point, words: str, left: bool) -> Text:
        """Words to the left of a place, where that is wanted and there is room; else right above it."""
        x, y = self.at(point)
        return (x - OFF, y + 6, words, "end") if left and x - OFF >= len(words) * CHAR else (x + 8, y - 6, words, "")

    def is_steep(self, place: int) -> bool:
        """Whether the frontier falls fast to the right of a point, or up to it where it is the last one."""
        ends = self.points[max(place - 1, 0) : max(place - 1, 0) + 2]
        (right, low), (left, high) = self.at(ends[0]), self.at(ends[-1])
        return low - high > right - left

    def texts(self) -> list[Text]:
        """All lines of text: the numbers of the points, what a unit costs on each part, the unmet floors, and the axes."""
        made: list[Text] = []
        for place, point in enumerate(self.points):
            made.append(self.beside(point, ", ".join(map(self.written, point)), self.is_steep(place)))
        for one, other, edge in self.parts:
            if all(edge.weights):
                made.append(self.beside(self.free(one, other), f"a unit costs {cost_of(edge)}", True))
        for floor in self.unmet:
            x, y = self.at((floor, self.low[1] + self.span[1] / 2))
            made.append((x + 8, y, f"{number(floor)}: no mechanism", ""))
        return [*made, (LEFT, ROOM + SIDE + OFF + 4 + LINE, self.axes, "")]

    def free(self, one: Point, other: Point) -> Point:
        """The middle between the two neighbours of a part that are farthest apart."""
        on = [point for point in self.points if one >= point >= other]
        more, less = max(zip(on, on[1:]), key=lambda ends: ends[0][0] - ends[1][0])
        return (more[0] + less[0]) / 2, (more[1] + less[1]) / 2

    def told(self) -> str:
        """All that the picture shows, in words."""
        words = [f"{self.first} {number(one)}, welfare {number(other)}." for one, other in self.points]
        for one, other, edge in self.parts:
            if all(edge.weights):
                words.append(f"From {number(one[0])} to {number(other[0])} a unit costs {cost_of(edge)}.")
        return " ".join([*words, *(f"{self.first} {number(floor)}: no mechanism." for floor in self.unmet)])

    def svg(self, name: str) -> str:
        """The picture for a page."""
        left, top, bottom = place(LEFT - 8), place(ROOM - 8), place(ROOM + SIDE + OFF)
        made = [f'<path class="bracket" d="M{left} {top}V{bottom}H{place(LEFT + SIDE + 8)}"/>']
        for floor in self.unmet:
            made.append(f'<path class="arrow some" d="M{place(self.at((floor, self.low[1]))[0])} {top}V{bottom}"/>')
        path = "L".join(" ".join(map(place, self.at(point))) for point in self.points)
        made.append(f'<path class="arrow" d="M{path}"/>')
        for point in self.points:
            x, y = map(place, self.at(point))
            made.append(f'<circle class="{"point" if point in self.named else "node"}" cx="{x}" cy="{y}" r="5"/>')
        made += [text_at(x, y, words, "", anchor) for x, y, words, anchor in self.texts()]
        return picture(name, f"{self.first} and welfare", self.told(), self.width, self.height, "".join(made))


def cost_of(edge: Step) -> str:
    """How much welfare a unit of revenue costs along a line."""
    return number(Fraction(edge.weights[0]) / edge.weights[1])


def weight_words(weights: tuple[Number, Number]) -> str:
    """Two weights in words."""
    return f"{number(weights[0])} and {number(weights[1])}"


def frontier_page(title: str, lead: str, sections: tuple[str, str, str], made_from: str) -> str:
    """The page: what can be had, what one costs of the other, and the answers that show it. All but the title is HTML."""
    headings = "What can be had", "What one costs of the other", "The answers that show it"
    header = '<p class="over"><a href="index.html">All pages</a></p>\n'
    header += f'<h1>{escape(title)}</h1>\n<p class="lead">{lead}</p>\n'
    foot = paragraph(f"Made by <code>second-opinion/gallery</code> from {made_from}. {EXACT}")
    return document(escape(title), header, "".join(map(section, headings, sections)), foot)


def weights_page(title: str, lead: str, steps: list[Step]) -> str:
    """The page about answers with other weights: the picture, the table of rules, and the table of lines."""
    points, edges = corners_of(steps)
    rules: list[list[Cell]] = []
    for point in points:
        best = [weight_words(step.weights) for step in steps if step.line(point) == step.value]
        rules.append([Head(html_number(point[0])), html_number(point[1]), "; ".join(best)])
    rows: list[list[Cell]] = [
        [Head(link(step)), weight_words(step.weights), html_number(step.value), *map(html_number, step.point)] for step in steps
    ]
    costs = [paragraph(edge_words(one, other, edge)) for one, other, edge in zip(points, points[1:], edges)]
    chart = figure("Revenue and welfare of the corners", Chart(steps), "chart", "Revenue and welfare")
    heads = [("Setting", False), ("Weights of revenue and welfare", False), ("Value", True), ("Revenue", True), ("Welfare", True)]
    corners = table("Corners", [("Revenue", True), ("Welfare", True), ("Best by the weights", False)], rules)
    words = "The value of each answer is the most that any rule brings by the weights of its setting. "
    words += "So no rule lies beyond its line."
    answers = paragraph(words) + table("Answers", heads, rows)
    return frontier_page(title, escape(lead), (chart + corners, "".join(costs), answers), "the odds and payments of the answers")


def link(step: Step) -> str:
    """A setting with its page."""
    return f'<a href="{escape(step.name)}.html"><code>{escape(step.name)}.toml</code></a>'


def edge_words(one: Point, other: Point, edge: Step) -> str:
    """What is given for what between two neighbours, and by which weights they bring the same."""
    given, gained = one[0] - other[0], other[1] - one[1]
    return (
        f"From {html_number(one[0])} to {html_number(other[0])} of revenue, {html_number(given)} of it buys "
        f"{html_number(gained)} of welfare. By the weights {weight_words(edge.weights)} both bring {html_number(edge.value)}, "
        "and no rule brings more: what lies between them is had by drawing lots between the two."
    )
