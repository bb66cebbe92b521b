"""The tables of a page, as HTML with captions and heads that name their rows and columns."""

from collections.abc import Callable, Sequence
from fractions import Fraction
from html import escape

from second_opinion.answer import Pair
from second_opinion.setting import GeneralSetting, Profile
from second_opinion.show.facts import Play, Prior
from second_opinion.show.text import UNBROKEN, Number, html_number, number

ColumnHead = tuple[str, bool] | tuple[str, bool, str]
Cell = str | tuple[str, str]

NUMBERS = ' class="num"'  # of the head of a column of numbers
SHADES = 5
SHORT = 14  # rows of a table that is printed on one sheet
MANY = 10  # columns beyond which a table is printed in small letters


class Shading:
    """The shade of a payment, by its size beside the greatest one of the page."""

    def __init__(self, amounts: list[Fraction]) -> None:
        self.greatest = max((abs(amount) for amount in amounts), default=0)

    def of(self, amount: Fraction) -> str:
        """The class of a cell: none where nothing is paid."""
        if not amount:
            return ""
        step = -(-SHADES * abs(amount) // self.greatest)
        return f" {'pay' if amount > 0 else 'get'}{step}"


def table(caption: str, heads: Sequence[ColumnHead], rows: Sequence[Sequence[Cell]], note: str = "") -> str:
    """A table that scrolls where it is wider than the page. `heads` are pairs of a text and whether numbers stand below
    it; a third word stands above those that share it. A row is a list of cells: texts of HTML, or pairs of a text and a
    class; those of `Head` name the row."""
    body = "".join("<tr>" + "".join(map(cell, row)) + "</tr>\n" for row in rows)
    names = ["short"] * (len(rows) <= SHORT) + ["many"] * (len(heads) > MANY)
    classes = f' class="{" ".join(names)}"' if names else ""
    soft = f' <span class="soft">{note}</span>' if note else ""
    return (
        f'<div class="scroll" role="region" tabindex="0" aria-label="{caption}">\n<table{classes}>\n'
        f"<caption>{caption}{soft}</caption>\n<thead>{heads_of(heads)}</thead>\n"
        f"<tbody>\n{body}</tbody>\n</table>\n</div>\n"
    )


def heads_of(heads: Sequence[ColumnHead]) -> str:
    """The heads of columns: two rows of them where some share a word above."""
    rows = ["", ""]
    double = any(len(each) == 3 for each in heads)
    above = None
    for text, numbers, *shared in heads:
        word = shared[0] if shared else None
        if word and word != above:
            rows[0] += f'<th scope="colgroup" colspan="{sum(each[2:] == (word,) for each in heads)}">{word}</th>'
        above = word
        span = ' rowspan="2"' if double and not word else ""
        rows[1 if word else 0] += f'<th scope="col"{span}{NUMBERS if numbers else ""}>{text}</th>'
    return "".join(f"<tr>{row}</tr>" for row in rows if row)


class Head(str):
    """A cell that names its row."""

    span = 1


def head(text: str, span: int = 1) -> Head:
    """A head of a row, or of several rows."""
    made = Head(text)
    made.span = span
    return made


def cell(content: Cell) -> str:
    """A cell of a row."""
    if isinstance(content, Head):
        span = f' rowspan="{content.span}"' if content.span > 1 else ""
        return f'<th scope="row"{span}>{content}</th>'
    if isinstance(content, tuple):
        text, classes = content
        return f'<td class="{classes}">{text}</td>'
    return f"<td>{content}</td>"


def numeric(value: Number, shade: str = "") -> tuple[str, str]:
    """A cell with a number."""
    return html_number(value), "num" + shade


def by_type(setting: GeneralSetting, cells: Callable[[int, int], list[Cell]]) -> list[list[Cell]]:
    """Rows with a head for each agent and one for each of its types, and what `cells(agent, own)` lists behind."""
    rows: list[list[Cell]] = []
    for agent, its in enumerate(setting.agents):
        for own, name in enumerate(its.types):
            first = [head(escape(its.name), len(its.types))] if own == 0 else []
            rows.append([*first, head(escape(name)), *cells(agent, own)])
    return rows


def agents_table(setting: GeneralSetting, prior: Prior) -> str:
    """The agents with their types, how likely these are, and what outcomes are worth to them."""
    weights = setting.prior is None
    outside = any(any(agent.outside) for agent in setting.agents)
    heads: list[ColumnHead] = [("Agent", False), ("Type", False)]
    heads += [("Weight", True)] if weights else []
    heads += [("Chance", True)]
    heads += [("Outside utility", True)] if outside else []
    heads += [(escape(name), True, "Utility") for name in setting.outcomes]

    def cells(agent: int, own: int) -> list[Cell]:
        its = setting.agents[agent]
        made: list[Cell] = [numeric(its.weights[own])] if weights else []
        made.append(numeric(prior.type_chance(agent, own)))
        made += [numeric(its.outside[own])] if outside else []
        if its.utility is not None:
            return [*made, *(numeric(worth) for worth in its.utility[own])]
        return [*made, *[("by profile", "soft")] * len(setting.outcomes)]

    return table("Agents and their types", heads, by_type(setting, cells), "with what each outcome is worth to them")


def profile_heads(setting: GeneralSetting) -> list[ColumnHead]:
    """The heads of a table with a row for each profile."""
    return [(escape(agent.name), False) for agent in setting.agents]


def profile_cells(setting: GeneralSetting, profile: Profile) -> list[Cell]:
    """The heads of its rows."""
    return [head(escape(agent.types[own])) for agent, own in zip(setting.agents, profile)]


def square(setting: GeneralSetting, caption: str, content: Callable[[Profile], Cell], note: str = "") -> str:
    """A table of two agents: a row for each type of the first one, a column for each type of the second one."""
    first, second = setting.agents
    corner = f"{escape(first.name)}&nbsp;\N{DOWNWARDS ARROW} {escape(second.name)}&nbsp;\N{RIGHTWARDS ARROW}"
    heads = [(corner, False)] + [(escape(name), True) for name in second.types]
    rows: list[list[Cell]] = [
        [head(escape(name)), *(content((row, column)) for column in range(len(second.types)))]
        for row, name in enumerate(first.types)
    ]
    return table(caption, heads, rows, note)


def prior_table(setting: GeneralSetting, prior: Prior) -> str:
    """A prior in which types depend on each other."""
    if len(setting.agents) == 2:
        return square(setting, "Chance of each profile", lambda profile: numeric(prior.chance(profile)))
    rows = [[*profile_cells(setting, profile), numeric(prior.chance(profile))] for profile in prior.weights]
    return table("Chance of each profile", [*profile_heads(setting), ("Chance", True)], rows)


def utilities_table(setting: GeneralSetting, agent: int) -> str:
    """The utilities of an agent that depend on the types of all."""
    its = setting.agents[agent]
    heads = [*profile_heads(setting), *((escape(name), True, "Utility") for name in setting.outcomes)]
    rows = [
        [*profile_cells(setting, profile), *map(numeric, worths)]
        for profile, worths in zip(setting.profiles(), its.utility_at or [])
    ]
    return table(f"What outcomes are worth to {escape(its.name)} at the true types", heads, rows)


def payments_tables(setting: GeneralSetting, amounts: dict[Profile, list[Fraction]], word: str) -> str:
    """Payments by profile: with two agents a square for each of them and one for the sum, else one table. `amounts` has
    a list of fractions for each profile."""
    sums = {profile: sum(numbers, Fraction(0)) for profile, numbers in amounts.items()}
    shading = Shading([amount for numbers in amounts.values() for amount in numbers])
    several = len(setting.agents) > 1

    def shaded(amount: Fraction) -> Cell:
        return numeric(amount, shading.of(amount))

    if len(setting.agents) == 2:
        made = []
        for agent, its in enumerate(setting.agents):
            own = {profile: shaded(numbers[agent]) for profile, numbers in amounts.items()}
            made.append(square(setting, f"{word} of {escape(its.name)}", own.__getitem__))
        made.append(square(setting, "Sum of both", lambda profile: numeric(sums[profile])))
        return '<div class="flow">\n' + "".join(made) + "</div>\n"
    heads: list[ColumnHead]
    if several:
        payers = [(escape(agent.name), True, "Payment of") for agent in setting.agents]
        heads = [*profile_heads(setting), *payers, ("Sum", True)]
    else:
        heads = [(f"{escape(setting.agents[0].name)} reports", False), ("pays", True)]
    rows = [
        [*profile_cells(setting, profile), *map(shaded, numbers), *([numeric(sums[profile])] if several else [])]
        for profile, numbers in amounts.items()
    ]
    return table(f"{word}s at each profile" if several else f"{word}s", heads, rows)


def utility_table(setting: GeneralSetting, prior: Prior, play: Play) -> str:
    """What each type gets and pays on average."""
    outside = setting.rational != "none" or any(any(agent.outside) for agent in setting.agents)
    heads: list[ColumnHead] = [("Agent", False), ("Type", False), ("Chance", True), ("Expected utility", True)]
    heads += [("Outside utility", True)] if outside else []
    heads += [("Expected payment", True)] if setting.payments else []

    def cells(agent: int, own: int) -> list[Cell]:
        made: list[Cell] = [numeric(prior.type_chance(agent, own)), numeric(play.expected_utility(agent, own))]
        made += [numeric(setting.agents[agent].outside[own])] if outside else []
        return made + ([numeric(play.expected_payment(agent, own))] if setting.payments else [])

    note = "given the type, by the truth" + (", payments taken off" if setting.payments else "")
    return table("What each type gets on average", heads, by_type(setting, cells), note)


def value_table(setting: GeneralSetting, play: Play) -> str:
    """The parts of the expected objective."""
    parts = [("Welfare: what the outcome is worth to all agents", setting.welfare, play.welfare())]
    if setting.payments:
        parts.append(("Revenue: what all agents pay", setting.revenue, play.revenue()))
    if any(setting.values):
        parts.append(("The designer\N{RIGHT SINGLE QUOTATION MARK}s own value of the outcome", 1, play.own_value()))
    rows: list[list[Cell]] = [[head(words), numeric(factor), numeric(amount)] for words, factor, amount in parts]
    value = f"<strong>{html_number(play.value())}</strong>"
    rows.append([head("Value: the sum of these, each times its factor"), "", (value, "num")])
    return table("Where the value comes from", [("Part", False), ("Factor", True), ("Expected", True)], rows)


def multiplier_text(multipliers: Pair, bound: int) -> str:
    """A pair of multipliers as text: the main one over its denominator, and the face one before it where it counts."""
    face, main = multipliers
    price = number(Fraction(main, bound))
    text = f"{number(face)} (face), {price}" if face else price
    return text if len(text) <= UNBROKEN else text.replace("/", "/<wbr>")
