"""The sections of a page that tell why the answer is as it is: the conditions that hold with equality and their
multipliers, the rows that show that there is no mechanism, and the entries that grew too wide."""

from fractions import Fraction
from html import escape
from typing import TYPE_CHECKING

from second_opinion.answer import InfeasibleAnswer, OptimalAnswer, Path
from second_opinion.setting import GeneralSetting
from second_opinion.show.arrows import lines_of
from second_opinion.show.bars import Bar, Bars
from second_opinion.show.draw import pattern_definitions
from second_opinion.show.facts import Condition, contradiction, name_of, terms_of
from second_opinion.show.parts import alert, figure, hidden, paragraph, section
from second_opinion.show.tables import Cell, head, multiplier_text, numeric, table
from second_opinion.show.text import TIMES, condition_words, count, html_name, html_number, inequality, listed, number

if TYPE_CHECKING:
    from second_opinion.show.page import Page

MANY_ROWS = 200  # beyond this the conditions of a table are named, and not told in words
MANY_NAMES = 50  # the same of a list
MANY_ARROWS = 40  # beyond this no picture of arrows, nor of rows, is drawn
WIDTH = 62  # bits that a number may have where no width is asked for
FEW_TERMS = 12  # up to this an inequality is written out
KINDS = [("truth", "truth"), ("rational", "rationality"), ("deficit", "no deficit"), ("require", "the designer")]


def equal_section(page: "Page") -> str:
    """The conditions that hold with equality, and those which the proof of an optimal answer weighs."""
    heading = "Conditions that hold with equality"
    rows = [row for row in page.rows if row.kind != "profile"]
    if not rows:
        return section(heading, paragraph("This setting has no condition but that chances add to 1."))
    multipliers = getattr(page.answer, "multipliers", {})
    weighed = [row for row in rows if multipliers.get(row.index, (0, 0)) > (0, 0)]
    counts = []
    for kind, words in KINDS:
        indices = [row.index for row in rows if row.kind == kind]
        if indices:
            held = len(page.equal.intersection(indices))
            counts.append(f"{held:,} of {count(len(indices), 'condition')} of {words}")
    text = paragraph(f"With equality hold: {listed(counts)}.")
    text += arrows(page, rows, {row.index for row in weighed})
    if isinstance(page.answer, OptimalAnswer):
        text += weighed_table(page, weighed)
    without = [row for row in rows if row.index in page.equal and row not in weighed]
    if without:
        if isinstance(page.answer, OptimalAnswer):
            text += f"<h3>{'Others' if weighed else 'Those'} that hold with equality, without a multiplier</h3>\n"
        text += row_list(page.setting, without)
    return section(heading, text)


def arrows(page: "Page", rows: list[Condition], weighed: set[int]) -> str:
    """A picture for each agent of the reports that are as good as the truth."""
    if all(len(agent.types) == 1 for agent in page.setting.agents):
        return ""
    drawn = lines_of(page.setting, rows, page.equal, weighed)
    drawn = [line for line in drawn if len(line.arrows) <= MANY_ARROWS]
    held = [each for line in drawn for each in [*line.arrows.values(), *line.rings.values()]]
    if not held:
        return ""
    text = "An arrow leads from a type to a report that is as good to it as the truth."
    if any(line.rings for line in drawn):
        text += " A double frame has a type that gets just its outside utility."
    if any(not each.whole for each in held):
        text += " A broken line: at some profiles only."
    if any(each.weighed for each in held):
        text += " A thick line: with a positive multiplier."
    figures = [
        figure(line.agent, line, f"equal{place}", f"Conditions of {line.agent}")
        for place, line in enumerate(drawn)
    ]
    return paragraph(text) + '<div class="flow">\n' + "".join(figures) + "</div>\n"


def weighed_table(page: "Page", weighed: list[Condition]) -> str:
    """The conditions with a positive multiplier, and how many rows of chances the proof weighs beside them."""
    assert isinstance(page.answer, OptimalAnswer)
    bound, multipliers = page.answer.bound, page.answer.multipliers
    told = len(weighed) <= MANY_ROWS

    def cells(row: Condition) -> list[Cell]:
        made: list[Cell] = [(str(row.index), "num"), head(html_name(name_of(page.setting, row)))]
        made += [(escape(condition_words(page.setting, row)), "wide")] if told else []
        return [*made, (multiplier_text(multipliers[row.index], bound), "num")]

    text = "<h3>Conditions with a positive multiplier</h3>\n"
    if weighed:
        text += paragraph(
            "The multiplier of a condition is its weight in the proof that no mechanism is better: the price of the "
            "condition. It belongs to the row as <code>mechdes rows</code> prints it."
            + (" The rows of the designer stand behind those." if page.asked else "")
        )
        heads = [("Row", True), ("Name", False)] + ([("Demands", False)] if told else []) + [("Multiplier", True)]
        caption = f"{count(len(weighed), 'condition')} with a positive multiplier"
        text += table(caption, heads, [cells(row) for row in weighed])
    else:
        text += paragraph(
            "There is none. That chances are not negative and add to 1 at each profile is enough for the proof."
        )
    profiles = sum(page.rows[index].kind == "profile" and pair != (0, 0) for index, pair in multipliers.items())
    if profiles and weighed:
        total = page.setting.profile_count()
        text += paragraph(
            f"The proof also weighs rows that let the chances of a profile add to 1: {profiles:,} of {total:,}."
        )
    return text


def row_list(setting: GeneralSetting, rows: list[Condition]) -> str:
    """Conditions as a list in columns: in words where they are few."""
    items = []
    for row in rows:
        words = f": {escape(condition_words(setting, row))}" if len(rows) <= MANY_NAMES else ""
        items.append(f"<li>{html_name(name_of(setting, row))}{words}</li>\n")
    return f'<ul class="names">\n{"".join(items)}</ul>\n'


def sum_bars(page: "Page", weights: dict[int, int]) -> Bars:
    """The right side of each row as often as its multiplier says, and their sum; the striped ones are below 0."""
    parts = []
    for index, weight in weights.items():
        _, right = terms_of(page.setting, page.prior, page.rows[index])
        parts.append((name_of(page.setting, page.rows[index]), f"{number(weight)} {TIMES} {number(right)}", weight * right))
    parts.append(("sum", "", sum(amount for _, _, amount in parts)))
    bars = []
    for name, product, amount in parts:
        text = " = ".join(filter(None, [product, number(amount)]))
        bars.append(Bar(name, Fraction(amount), text, f"{name}: {text}", key=int(amount < 0)))
    return Bars("What the right sides add to", bars)


def width_bars(paths: list[Path]) -> Bars:
    """How many bits the entry has at which each path ended, and how many were allowed where none were asked for."""
    bars = [Bar("allowed", Fraction(WIDTH), f"{WIDTH} bits", f"allowed: {WIDTH} bits")]
    for name, (_, (_, _, num, _)) in zip(["forward", "backward"], paths):
        bits = abs(num).bit_length()
        bars.append(Bar(name, Fraction(bits), f"{bits} bits", f"{name}: {bits} bits", key=1))
    return Bars("Bits of the entry at which a path ended", bars)


def infeasible_section(page: "Page") -> str:
    """The rows whose sum no mechanism can meet."""
    setting, prior = page.setting, page.prior
    assert isinstance(page.answer, InfeasibleAnswer)
    weights = {index: face for index, (face, _) in page.answer.multipliers.items() if face}
    right = contradiction(setting, prior, weights, page.asked)
    rows: list[list[Cell]] = []
    for index, weight in weights.items():
        row = page.rows[index]
        terms, bound = terms_of(setting, prior, row)
        exact = row.kind == "profile"
        form = escape(inequality(setting, terms, bound, exact))
        if len(terms) > FEW_TERMS:
            form = f"{count(len(terms), 'term')} {'=' if exact else chr(0x2264)} {number(bound)}"
        words = escape(condition_words(setting, row))
        name = head(html_name(name_of(setting, row)))
        rows.append([(str(index), "num"), name, (words, "wide"), (f"<code>{form}</code>", "wide"), numeric(weight)])
    heads = [("Row", True), ("Name", False), ("Demands", False), ("As a row of the linear program", False)]
    text = ""
    if len(rows) <= MANY_ARROWS:
        text += hidden(pattern_definitions([0, 1]))
        text += figure("What the right sides add to", sum_bars(page, weights), "sum", "What the right sides add to")
    text += table("The conditions that cannot be met together", [*heads, ("Multiplier", True)], rows)
    if right is None:
        return section("Why there is none", text + alert("This answer is wrong.", "These multipliers do not show it."))
    text += paragraph(
        "Add these rows up, each as often as its multiplier says. In the sum no chance has a number below 0 and no "
        "payment has any number, so that its left side is at least 0 whatever the mechanism. Its right side is "
        f"{html_number(right)}, and the left side may not be greater: "
        f"<code>0 \N{LESS-THAN OR EQUAL TO} {html_number(right)}</code> is false. So no mechanism meets all of these "
        "conditions."
    )
    return section("Why there is none", text)


def too_wide_section(paths: list[Path], factor: str = "all utilities of an agent and all payments") -> str:
    """How far each path came, and the entry at which it ended. `factor` says what may have a factor in common."""
    rows: list[list[Cell]] = []
    for name, (pivots, (row, column, num, den)) in zip(["forward", "backward"], paths):
        places = [(f"{len(pivots):,}", "num"), (str(row), "num"), (str(column), "num")]
        bits = abs(num).bit_length()
        rows.append([head(name if len(paths) == 2 else "only"), *places, numeric(num), numeric(den), numeric(bits)])
    heads = [("Path", False), ("Pivots", True), ("Row", True), ("Column", True), ("Entry", True), ("Over", True)]
    text = paragraph(
        "The search goes from basis to basis by pivots, and keeps whole numbers over one denominator. It rounds "
        "nothing: where an entry has more bits than the width (62 where none was asked for), it says so and ends."
    )
    text += hidden(pattern_definitions([0, 1]))
    text += figure("Bits of the entry at which a path ended", width_bars(paths), "bits", "Bits of the entries")
    text += table("The first entry of each path that is too wide", [*heads, ("Bits of the entry", True)], rows)
    text += paragraph(
        f"What helps is to ask the same question in fewer digits: take out a factor that {factor} have in common, or "
        "give weights as small whole numbers."
    )
    return section("What it says", text)
