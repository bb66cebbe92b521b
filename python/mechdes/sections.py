"""The parts of explanations: what a rule does, what it brings, what binds, and what it breaks."""

from __future__ import annotations

from collections.abc import Callable, Iterable, Mapping, Sequence
from fractions import Fraction
from typing import Any

from .answers import Bounded, Report, Threshold, Worst
from .conditions import Condition, Payment
from .explanations import Cell, Fact, Section
from .mechanisms import AuctionMechanism, Mechanism, Payments, SaleMechanism, UnitsMechanism
from .settings import AnySetting, Auction, Profile, Setting
from .wording import GeneralWords, Words, counted, listed, number_words

NO_GOAL = "Nothing is maximised: each rule has the value 0."


# What is asked for


def goal(setting: AnySetting) -> str:
    """What the designer maximises, in a few words."""
    objective = setting.objective
    if any(objective.value) or objective.keep:
        return "value"
    parts = (objective.revenue if isinstance(setting, Auction) or setting.payments else 0, objective.welfare)
    return {(1, 0): "expected revenue", (0, 1): "expected welfare"}.get(parts, "value")


def goal_sentence(setting: AnySetting) -> str:
    """What the designer maximises, as a sentence; nothing where the name of the value says it."""
    objective = setting.objective
    if goal(setting) != "value":
        return ""
    has_payments = isinstance(setting, Auction) or setting.payments
    terms = [(objective.revenue if has_payments else 0, "the expected revenue"), (objective.welfare, "the expected welfare")]
    told = [term for term in [*terms, _own_term(setting)] if term[0]]
    return f"The value is {_sum_words(told)}." if told else NO_GOAL


def _own_term(setting: AnySetting) -> tuple[int, str]:
    """What is worth something to the designer itself, and the sign of it."""
    if isinstance(setting, Setting):
        return int(any(setting.objective.value)), "what the outcomes are worth to the designer"
    return (setting.keep > 0) - (setting.keep < 0), f"{abs(setting.keep)} for an item that is kept"


def _sum_words(terms: Sequence[tuple[int, str]]) -> str:
    """A sum of terms, each with its factor, those that are added first."""
    text = ""
    for factor, what in sorted(terms, key=lambda term: term[0] < 0):
        size = what if abs(factor) == 1 else f"{abs(factor)} times {what}"
        sign = "minus " if factor < 0 else "plus " if text else ""
        text += f"{' ' if text else ''}{sign}{size}"
    return text


def conditions_sentence(setting: AnySetting) -> str:
    """What the setting asks of each rule, as a sentence."""
    if isinstance(setting, Auction):
        average = ", both on average over the values of the others" if setting.bidders > 1 else ""
        return f"The conditions: no bidder gains by a false bid or loses by taking part{average}."
    several = len(setting.agents) > 1
    truth = "no agent gains by a false report"
    if several:
        truth += ", whatever the others have" if setting.truth == "dominant" else ", on average over what the others have"
    parts = [truth]
    if setting.rational != "none":
        average = ", on average over what the others have" if several and setting.rational == "interim" else ""
        parts.append(f"no agent gets less than outside{average}")
    if setting.no_deficit:
        parts.append("the designer never adds money")
    if not setting.payments:
        parts.append("there are no payments")
    return f"The conditions: {'; '.join(parts)}."


# What a rule brings


def amounts(setting: AnySetting, report: Report | Threshold, is_truthful: bool = True) -> Section:
    """The value, the revenue and the welfare of a rule, under which truth is best or not."""
    named = {"expected revenue": report.revenue, "expected welfare": report.welfare}
    if goal(setting) == "value" and goal_sentence(setting) != NO_GOAL:
        named = {"value": report.value, **named}
    if isinstance(setting, Setting) and not setting.payments:
        del named["expected revenue"]
    rows = [(name.capitalize(), amount) for name, amount in named.items()]
    brings = "What it brings" if is_truthful else "What it would bring if all were truthful"
    worth = "what the outcomes are worth to the agents, before payments"
    if isinstance(setting, Auction):
        worth = "what the item is worth to those who get it"
    return Section(name="amounts", title=f"{brings} (welfare: {worth})", columns=("", ""), rows=rows)


def types(setting: AnySetting, report: Report, odds: Callable[[Any], Fraction] | None = None) -> Section:
    """What each type expects to get and to pay; with odds, also how often it wins."""
    keys = ("agent", "has") if isinstance(setting, Setting) else ("value",)
    has_payments = isinstance(setting, Auction) or setting.payments
    rows: list[Sequence[Cell]] = []
    for key, told in report.types.items():
        names = key if isinstance(key, tuple) else (key,)
        rows.append((*names, *([odds(key)] if odds else []), told.gets, *([told.pays] if has_payments else [])))
    columns = (*keys, *(["wins"] if odds else []), *(["gets after paying", "pays"] if has_payments else ["gets"]))
    whose = "each type" if isinstance(setting, Setting) else "a bidder with each value"
    return Section(name="types", title=f"What {whose} can expect", columns=columns, rows=rows)


def agents(setting: Setting, report: Report) -> Section:
    """What each agent expects to get, over all its types."""
    weights = setting.weights()
    whole, rows = sum(weights.values()), []
    for place, agent in enumerate(setting.agents):
        each = (weight * report.types[agent.name, profile[place]].gets for profile, weight in weights.items())
        rows.append((agent.name, sum(each, Fraction(0)) / whole))
    return Section(name="agents", title="What each agent can expect", columns=("agent", "gets"), rows=rows)


# What happens


def _shares(row: Mapping[Any, Fraction]) -> dict[str, Fraction]:
    return {str(name): share for name, share in row.items() if share}


def _cases(
    name: str, title: str, setting: Setting, columns: Sequence[str], cells: Callable[[Profile], Sequence[Cell]]
) -> Section:
    """A table with a row for each profile: the types, how likely it is where profiles differ in that, and further cells."""
    weights = setting.weights()
    whole = sum(weights.values())
    differ = len(set(weights.values())) > 1
    likely = " (all equally likely)" if len(weights) > 1 and not differ else ""
    rows: list[Sequence[Cell]] = []
    chances = [Fraction(weight, whole) for weight in weights.values()]
    for profile, chance in zip(weights, chances, strict=True):
        rows.append((*profile, *([chance] if differ else []), *cells(profile)))
    heads = (*setting.agent_names, *(["how likely"] if differ else []), *columns)
    return Section(name=name, title=title + likely, columns=heads, rows=rows, chances=chances)


def profiles(setting: Setting, mechanism: Mechanism) -> Section:
    """What happens at each profile, and who pays what."""
    pays = mechanism.payments

    def cells(profile: Profile) -> Sequence[Cell]:
        paid = [pays[profile][agent] for agent in setting.agent_names] if pays else []
        return _shares(mechanism.lotteries[profile]), *paid

    columns = ("outcome", *(f"{agent} pays" for agent in setting.agent_names if pays))
    title = f"What happens at each {'report' if len(setting.agents) == 1 else 'list of reports'}"
    if any(paid < 0 for row in pays.values() for paid in row.values()):
        title += "; who pays less than 0 is paid"
    return _cases("profiles", title, setting, columns, cells)


def outcomes(setting: Setting, mechanism: Mechanism) -> Section:
    """How often each outcome comes."""
    weights = setting.weights()
    whole = sum(weights.values())
    rows = []
    for outcome in setting.outcomes:
        chance = sum((weight * mechanism.lotteries[profile][outcome] for profile, weight in weights.items()), Fraction(0)) / whole
        rows.append((outcome, chance))
    return Section(name="outcomes", title="How often each outcome comes", columns=("outcome", "chance"), rows=rows)


def added(setting: Setting, ray: Payments) -> Section:
    """The payments that an unbounded answer adds again and again."""
    columns, title = [f"{agent} pays more" for agent in setting.agent_names], "What can be added to the payments, again and again"
    return _cases("added", title, setting, columns, lambda profile: [*ray[profile].values()])


def sale_profiles(setting: Setting, mechanism: SaleMechanism) -> Section:
    """Who has the item at each profile of a sale."""

    def cells(profile: Profile) -> Sequence[Cell]:
        weight = mechanism.weights[profile]
        have = _shares(mechanism.chances(profile)) if weight else {}
        kept = 1 - sum(have.values())
        return ({**have, **({setting.outcomes[0]: kept} if kept else {})} if weight else "never comes",)

    return _cases("profiles", "Who gets the item at each list of reports", setting, ("goes to",), cells)


def winners(auction: Auction, mechanism: AuctionMechanism) -> Section:
    """Who wins, by the values that are reported."""
    units, several = mechanism.units or 1, isinstance(mechanism, UnitsMechanism)
    whole = sum(auction.weights) ** auction.bidders
    rows: list[Sequence[Cell]] = []
    for counts, row in mechanism.masses.items():
        values = [value for value, count in zip(auction.values, counts, strict=True) for _ in range(count)]
        weight = mechanism.weight(counts)
        shares = {f"{'bidders' if several else 'a bidder'} with {value}": mass / weight for value, mass in row.items() if mass}
        kept = units - sum(shares.values())
        rows.append((listed(values), Fraction(weight, whole), {**shares, **({"kept": kept} if kept else {})}))
    title = "How many units bidders get" if several else "Who gets the item"
    return Section(
        name="winners",
        title=f"{title}, by the values of all bidders",
        columns=("values", "how likely", "units" if several else "goes to"),
        rows=rows,
        chances=[Fraction(mechanism.weight(counts), whole) for counts in mechanism.masses],
    )


def threshold_rule(told: Threshold) -> Section:
    """The reserve of an auction in which only winners pay, and the values that count as one."""
    units = "The item goes" if told.units == 1 else f"Up to {told.units} units go"
    if told.reserve is None:
        return Section(name="rule", title="Who wins", facts=[Fact("Nobody wins at any bid.", {"reserve": None})])
    facts = [Fact(f"No bid below {told.reserve} wins.", {"reserve": told.reserve})]
    facts.append(Fact(f"{units} to the highest of the others; equal ones draw lots."))
    for least, greatest in told.pools:
        if least < greatest:
            facts.append(Fact(f"Bids from {least} to {greatest} count as equal.", {"pool": [least, greatest]}))
    return Section(name="rule", title="Who wins", facts=facts)


def threshold_prices(told: Threshold) -> Section:
    """What the winner of one unit pays in each case."""
    pools = [str(least) if least == greatest else f"{least} to {greatest}" for least, greatest in told.pools]
    rows: list[Sequence[Cell]] = []
    for price in told.prices:
        others = "none that may win" if price.other is None else f"{price.count} with {pools[price.other]}"
        rows.append((pools[price.pool], others, price.price))
    columns = ("the winner has", "best of the others", "pays")
    return Section(name="prices", title="What the winner pays (who does not win pays nothing)", columns=columns, rows=rows)


# What binds, and what is broken


def binding(words: Words, tight: Iterable[str], held: Iterable[str] | None) -> list[Section]:
    """The conditions that hold with equality.

    held  the names of those that a certificate uses; None where there is none
    """
    tight, used = list(tight), None if held is None else dict.fromkeys(held)
    first = [name for name in tight if used is None or name in used]
    first += [name for name in used or () if name.startswith("condition/")]
    others = [name for name in tight if used is not None and name not in used]
    facts = [Fact(sentence, {"conditions": list(names)}) for names, sentence in words.grouped(first)]
    if others:
        one = len(others) == 1
        does = f"{'holds' if one else 'hold'} with equality, and {'costs' if one else 'cost'} nothing"
        facts.append(Fact(f"{counted(len(others), 'other condition').capitalize()} {does}.", {"others": others}))
    if used is not None and not used:
        facts.insert(0, Fact("Nothing: no rule would do better even if no condition were asked of it."))
    title = "Which conditions hold with equality"
    if used is not None:
        title = "What keeps the value from being greater (these conditions hold with equality)"
    return [Section(name="binding", title=title, facts=facts)] if facts else []


def used_rows(answer: Bounded, names: Sequence[str]) -> list[str]:
    """The names of the conditions to which a certificate gives a weight: of all rows but those that say what chances are, or what
    the agent that gets least gets."""
    rows = [multiplier.row for multiplier in answer.multipliers if multiplier.main or multiplier.face]
    return [names[row] for row in rows if not names[row].startswith(("profile/", "level/"))]


def bounds(words: GeneralWords, report: Report, shadows: Sequence[Fraction | None]) -> Section:
    """How a rule stands against the conditions of the designer, and what a unit of each bound would bring."""
    facts = []
    for place, condition in enumerate(words.conditions):
        standing = report.conditions[place]
        told = [standing_sentence(words, condition, standing.amount), shadow_sentence(condition, shadows[place])]
        data = {"condition": f"condition/{place}", "met": standing.met, "amount": standing.amount, "shadow": shadows[place]}
        facts.append(Fact(" ".join(filter(None, told)), data))
    return Section(name="bounds", title="Your conditions", facts=facts)


def standing_sentence(words: GeneralWords, condition: Condition, amount: Fraction) -> str:
    """What a condition of the designer demands, and what the rule has."""
    what = "it is"
    if isinstance(condition, Payment):
        what = f"the {'most' if condition.side == 'most' else 'least'} is"
    return f"{words.demand(condition)}: {what} {number_words(amount)}."


def shadow_sentence(condition: Condition, shadow: Fraction | None) -> str:
    """What moving the bound of a condition of the designer brings or costs; nothing where that is not told."""
    if shadow is None:
        return ""
    if not shadow:
        return "To relax it would bring nothing."
    unit, size = ("One unit", abs(shadow)) if condition.word not in ("chance", "at") else ("A hundredth", abs(shadow) / 100)
    does = "bring at most" if condition.side == "most" else "cost at least"
    return f"{unit} more would {does} {number_words(size)}."


def worst_name(worst: Worst) -> str:
    """The name of the condition that is missed by most."""
    first = "rational" if worst.report is None else "truth"
    parts = [first, worst.agent, None if worst.report is None and worst.profile else worst.type, worst.report]
    parts.append("+".join(worst.profile) if worst.profile else None)
    return "/".join(str(part) for part in parts if part is not None)


def broken_fact(words: Words, name: str, amount: Fraction) -> Fact:
    """A condition of the setting that is broken, and by how much."""
    return Fact(words.say("broken", name, amount), {"condition": name, "amount": amount})


def broken_facts(words: Words, report: Report) -> list[Fact]:
    """What a rule breaks: of each agent the worst false report and loss, the worst deficit, and the conditions of the designer."""
    missed = [(worst_name(worst), worst.amount) for worst in (*report.gains, *report.losses)]
    if report.deficit is not None:
        profile, least = report.deficit
        missed.append((f"deficit/{'+'.join(profile)}", -least))
    facts = [broken_fact(words, name, amount) for name, amount in missed if amount > 0]
    if isinstance(words, GeneralWords):
        for place, (condition, standing) in enumerate(zip(words.conditions, report.conditions, strict=True)):
            if not standing:
                data = {"condition": f"condition/{place}", "amount": standing.amount}
                facts.append(Fact(standing_sentence(words, condition, standing.amount), data))
    return facts
