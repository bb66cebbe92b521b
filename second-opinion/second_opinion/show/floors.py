"""The frontier of a setting whose objective is welfare under floors on its revenue: each answer tells the greatest welfare under
its floor, and its multipliers tell a line that no mechanism lies beyond.

They weigh the rows of the setting, which each mechanism meets, and the row of the floor, whose left side counts the revenue. So
what they prove under the floor, they prove of welfare and revenue without it.
"""

import math
from fractions import Fraction

from second_opinion.answer import InfeasibleAnswer, OptimalAnswer, UnboundedAnswer
from second_opinion.conditions import DesignerCondition, program_under, scale_of, undivided_rows
from second_opinion.program import objective_of
from second_opinion.require_checking import verdict
from second_opinion.required_answer import RequiredAnswer
from second_opinion.requiring import found_under
from second_opinion.setting import GeneralSetting
from second_opinion.show.frontier import Chart, Point, Step, cost_of, frontier_page, parts_of
from second_opinion.show.parts import figure, paragraph
from second_opinion.show.tables import Cell, Head, numeric, table
from second_opinion.show.text import TIMES, html_number, number


def floor_step(name: str, its: GeneralSetting, found: RequiredAnswer) -> Step:
    """What an answer under one floor on the revenue shows; `ValueError` where it is not valid or tells of no floor."""
    said, words = found.said, [(each.word, each.side) for each in found.conditions]
    if isinstance(said, UnboundedAnswer) or words != [("revenue", "least")] or verdict(its, found) != (0, "valid"):
        raise ValueError(f"no answer under a floor: {name}")
    floor, is_optimal = found.conditions[0], isinstance(said, OptimalAnswer)
    amount = Fraction(floor.num, floor.den)
    weights = {index: pair[is_optimal] for index, pair in said.multipliers.items()}
    *rows, _ = program_under(its, found.conditions).rows
    most = sum(weights.get(index, 0) * row.right for index, row in enumerate(rows))
    ((terms, right),) = undivided_rows(its, floor)
    total = scale_of(its, floor)
    revenue = Fraction(weights.get(len(rows), 0) * floor.den * total, math.gcd(right, *terms.values()))
    if isinstance(said, InfeasibleAnswer):
        return Step(name, (1, 0), most / revenue, None, amount)
    scale = Fraction(math.gcd(*objective_of(its).values()), total * said.bound)
    return Step(name, (scale * revenue, 1), scale * most, (amount, Fraction(*said.value)))


def with_corners(its: GeneralSetting, steps: list[Step]) -> list[Step]:
    """The steps, which are given by rising floors, with those between them: floors at which the lines of two neighbours cross,
    with the greatest welfare under each, which is searched for."""
    made = steps[:1]
    for one, other in zip(steps, steps[1:]):
        (a, b), (c, d) = one.weights, other.weights
        if (one.weights, one.value) != (other.weights, other.value):
            crossing = Fraction(one.value * d - other.value * b) / (a * d - c * b)
            asked = DesignerCondition("revenue", "least", *crossing.as_integer_ratio())
            made.append(floor_step("", its, found_under(its, [asked])))
        made.append(other)
    return made


def floors_page(title: str, lead: str, steps: list[Step]) -> str:
    """The page about answers under floors, which are given by rising floors: the picture, the table of floors, and the lines."""
    chart = Chart(steps, "Floor", "right: a higher floor; up: more welfare", number)
    words = "A point is filled where a file asks for its floor, and open where it is another corner of the frontier; the second "
    words += "number is the greatest welfare under the floor."
    rows = [floor_cells(step) for step in steps]
    heads = [("Floor on the revenue", True), ("Greatest welfare", True), ("Answer", False)]
    had = figure("The greatest welfare under each floor", chart, "chart", "Floors and welfare") + paragraph(words)
    costs = "".join(paragraph(part_words(*part)) for part in reversed(parts_of(steps)))
    lines: list[list[Cell]] = [
        [Head(link(step)), numeric(step.point[0] if step.point else step.unmet), line_words(step)] for step in steps if step.name
    ]
    shown = "The multipliers of each answer prove this of every mechanism of the setting, whatever its revenue."
    answers = paragraph(shown) + table("Lines", [("Answer", False), ("Floor", True), ("In every mechanism", False)], lines)
    sections = had + table("Floors", heads, rows), costs, answers
    return frontier_page(title, lead, sections, "the stored answers and those that it found at the other corners")


def link(step: Step) -> str:
    """An answer as a link to its file, as HTML."""
    return f'<a href="../{step.name}.csv"><code>{step.name}.csv</code></a>' if step.name else "found for this page"


def floor_cells(step: Step) -> list[Cell]:
    """The row of a floor."""
    if step.point is None:
        return [Head(html_number(step.unmet)), "no mechanism", link(step)]
    return [Head(html_number(step.point[0])), numeric(step.point[1]), link(step)]


def line_words(step: Step) -> str:
    """What no mechanism lies beyond, as HTML."""
    price, counted = step.weights
    if not price or not counted:
        return f"the {'welfare' if counted else 'revenue'} is at most {html_number(step.value)}"
    times = "" if price == 1 else f"{html_number(price)} {TIMES} "
    return f"{times}revenue + welfare is at most {html_number(step.value)}"


def part_words(more: Point, less: Point, edge: Step) -> str:
    """What a unit of the floor costs on a part of the frontier, as HTML."""
    words = f"From {html_number(less[0])} to {html_number(more[0])} "
    if not edge.weights[0]:
        return f"{words}the floor costs nothing: in every mechanism {line_words(edge)}."
    words += f"each unit of the floor costs {cost_of(edge)} of welfare, which falls from {html_number(less[1])} to "
    return f"{words}{html_number(more[1])}: in every mechanism {line_words(edge)}."
