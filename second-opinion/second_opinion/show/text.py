"""Numbers and names as text, and the sentences of a page. What goes into HTML is escaped here."""

import re
from collections.abc import Iterable
from fractions import Fraction
from html import escape

from second_opinion.conditions import DesignerCondition
from second_opinion.setting import AuctionSetting, GeneralSetting
from second_opinion.show.facts import Condition, Place

Number = int | Fraction

MINUS = "\N{MINUS SIGN}"
TIMES = "\N{MULTIPLICATION SIGN}"
LONGEST_REMARK = 1000
UNBROKEN = 14  # characters of a fraction, or of a part of a name, that stay in one line


def number(value: Number) -> str:
    """A number as text: a whole number, or a fraction in least terms."""
    return str(Fraction(value)).replace("-", MINUS)


def mixed(value: Number) -> str:
    """A fraction beyond 1 as a whole number and a rest, such as `35 + 27/275`; empty where it is none."""
    value = Fraction(value)
    if value.denominator == 1 or abs(value) < 1:
        return ""
    whole, rest = divmod(abs(value), 1)
    text = f"{whole} + {rest}"
    return text if value > 0 else f"{MINUS}({text})"


def decimal(value: Number) -> str:
    """A number that is not whole as a decimal one: exact where three places are enough, else rounded toward 0 with two dots
    behind, such as `35.098..`; empty where it is whole."""
    value = Fraction(value)
    if value.denominator == 1:
        return ""
    thousandths, rest = divmod(abs(value) * 1000, 1)
    whole, places = divmod(thousandths, 1000)
    text = f"{whole}.{places:03}"
    return (MINUS if value < 0 else "") + (f"{text}.." if rest else text.rstrip("0"))


def with_decimal(value: Number) -> str:
    """A number as text, and as a decimal one where it is not whole: `5/11 = 0.454..`."""
    return " = ".join(filter(None, [number(value), decimal(value)]))


def html_number(value: Number) -> str:
    """The same for HTML, where a long fraction may break behind its stroke."""
    text = number(value)
    return text if len(text) <= UNBROKEN else text.replace("/", "/<wbr>")


def html_name(name: str) -> str:
    """A name of rows for HTML. It may break behind a stroke or a plus sign, and where a part of it is long behind an
    underscore."""
    parts = []
    for part in re.split("(?<=[/+])", name):
        parts.append(escape(part).replace("_", "_<wbr>") if len(part) > UNBROKEN else escape(part))
    return f"<code>{'<wbr>'.join(parts)}</code>"


def count(number_of: int, singular: str, plural: str | None = None) -> str:
    """`1 type`, `2 types`."""
    return f"{number_of:,} {singular if number_of == 1 else plural or singular + 's'}"


def listed(words: Iterable[str]) -> str:
    """`a`, `a and b`, `a, b and c`."""
    words = list(words)
    return words[0] if len(words) == 1 else ", ".join(words[:-1]) + " and " + words[-1]


def set_words(values: list[int], places: Iterable[int]) -> str:
    """A set of values by their places, such as `2, 4 to 6`: four or more next to each other are a range."""
    runs: list[list[int]] = []
    for place in places:
        if runs and runs[-1][-1] == place - 1:
            runs[-1].append(place)
        else:
            runs.append([place])
    words = []
    for run in runs:
        names = [number(values[place]) for place in run]
        words += [f"{names[0]} to {names[-1]}"] if len(run) > 3 else names
    return ", ".join(words)


def interdependent(setting: GeneralSetting) -> bool:
    """Whether what an outcome is worth to some agent depends on the types of all."""
    return any(agent.utility_at is not None for agent in setting.agents)


def truth_words(setting: GeneralSetting) -> str:
    """Which truth is demanded."""
    if setting.truth == "bayes":
        return "Bayes: on average over the types of the others, no report is better than the truth"
    if interdependent(setting):
        return "ex-post: at every profile, where the others tell the truth, no report is better than the truth"
    return "dominant: at every profile, whatever the others report, no report is better than the truth"


def rational_words(setting: GeneralSetting) -> str:
    """Which individual rationality is demanded."""
    return {
        "none": "none: nobody may stay away",
        "ex-post": "ex-post: at every profile, everyone gets at least the outside utility",
        "interim": "interim: on average over the types of the others, everyone gets at least the outside utility",
    }[setting.rational]


def payments_words(setting: GeneralSetting) -> str:
    """Whether there are payments, and whether a deficit is allowed."""
    if not setting.payments:
        return "none"
    if setting.no_deficit:
        return "yes, and at every profile they add to at least 0 (no deficit)"
    return "yes, of any size and sign"


def remark(data: bytes) -> str:
    """The comment at the head of a setting's file, as one line of text; empty where there is none, or a long one."""
    lines = []
    for line in data.decode("utf-8", "replace").splitlines():
        if not line.startswith("#"):
            break
        lines.append(line.lstrip("#").strip())
    text = " ".join(filter(None, lines))
    return text if len(text) <= LONGEST_REMARK else ""


def objective_words(setting: GeneralSetting) -> str:
    """What the designer maximises."""
    parts = []
    if setting.welfare:
        parts.append((setting.welfare, "welfare (what the outcome is worth to the agents)"))
    if setting.revenue and setting.payments:
        parts.append((setting.revenue, "revenue (what the agents pay)"))
    if any(setting.values):
        listing = ", ".join(f"{name} {number(worth)}" for name, worth in zip(setting.outcomes, setting.values))
        parts.append((1, f"value of the outcome to the designer ({listing})"))
    return sum_words(parts) if parts else "nothing: every mechanism has the value 0"


def sum_words(parts: list[tuple[int, str]]) -> str:
    """A sum as text; each part is a factor with the words for what it counts."""
    text = "expected "
    for place, (factor, words) in enumerate(parts):
        if place:
            text += " + " if factor > 0 else f" {MINUS} "
        elif factor < 0:
            text += f"{MINUS} "
        text += words if abs(factor) == 1 else f"{abs(factor)} {TIMES} {words}"
    return text


def auction_objective_words(auction: AuctionSetting) -> str:
    """What the designer of an auction maximises."""
    parts = []
    if auction.revenue:
        parts.append((auction.revenue, "revenue (what the bidders pay)"))
    if auction.welfare:
        parts.append((auction.welfare, "welfare (what the item is worth to who gets it)"))
    if auction.keep:
        parts.append((1 if auction.keep > 0 else -1, f"{abs(auction.keep)} where the item is kept"))
    return sum_words(parts) if parts else "nothing: every auction has the value 0"


def asked_words(setting: GeneralSetting, asked: DesignerCondition) -> str:
    """What a condition of the designer demands at the profiles of its rows, in words."""
    agent = "" if asked.agent is None else setting.agents[asked.agent].name
    outcome = "" if asked.outcome is None else setting.outcomes[asked.outcome]
    what = {"revenue": "the revenue", "welfare": "the welfare", "utility": f"what {agent} gets", "pay": f"what {agent} pays"}
    amount = what.get(asked.word, f"the chance of {outcome}")
    average = ", on average" if asked.is_average else ""
    return f"{amount} is at {asked.side} {number(Fraction(asked.num, asked.den))}{average}"


def condition_words(setting: GeneralSetting, row: Condition) -> str:
    """What a row of the linear program demands, in words."""
    at = "" if row.profile is None else f" at {setting.profile_name(row.profile)}"
    if len(setting.agents) == 1 and row.agent is not None:
        at = ""
    if row.asked is not None:
        return asked_words(setting, row.asked) + at
    if row.kind == "profile":
        return f"the chances{at} add to 1"
    if row.kind == "deficit":
        return f"the payments{at} add to at least 0"
    agent = setting.agents[row.agent]
    who = f"{agent.name} of type {agent.types[row.own]}"
    average = ", on average" if row.profile is None and len(setting.agents) > 1 else ""
    if row.kind == "truth":
        return f"{who} gains nothing by reporting {agent.types[row.report]}{at}{average}"
    return f"{who} gets at least {number(agent.outside[row.own])}{at}{average}"


def place_words(setting: GeneralSetting, place: Place) -> str:
    """A chance or a payment of the linear program, as a word of an inequality."""
    profile, last = setting.profile_name(place[0]), place[-1]
    if len(place) == 3:
        return f"pay({setting.agents[last].name}, {profile})"
    return f"chance({setting.outcomes[last]}, {profile})"


def inequality(setting: GeneralSetting, terms: dict[Place, int], right: int, exact: bool) -> str:
    """A row of the linear program as text."""
    text = ""
    for place, factor in terms.items():
        sign = MINUS if factor < 0 else "+"
        if text:
            text += f" {sign} "
        elif factor < 0:
            text += MINUS
        text += ("" if abs(factor) == 1 else f"{abs(factor)} ") + place_words(setting, place)
    return f"{text or 0} {'=' if exact else chr(0x2264)} {number(right)}"
