"""What an answer says of its setting, in plain words, worked out from what the program prints."""

from __future__ import annotations

import dataclasses
from collections.abc import Callable, Mapping, Sequence
from fractions import Fraction
from typing import Any

from . import sections
from .answers import (
    Answer,
    AuctionOptimal,
    AuctionTable,
    Bounded,
    Fairest,
    Infeasible,
    Leaf,
    Optimal,
    Realised,
    Required,
    Rule,
    SaleOptimal,
    Table,
    TooWide,
    Unbounded,
    Undecided,
    UnitsOptimal,
    Verdict,
    Violated,
)
from .cases import Case
from .commands import AnswerLike, audit, find, iron, realise, report, rows, solve, threshold
from .errors import AnswerNotRead, SettingRefused
from .explanations import Explanation, Fact, Section
from .mechanisms import AuctionMechanism
from .reading import read_answer, read_threshold
from .rejections import OF_CERTIFICATES, broken, rejection
from .sections import goal, goal_sentence
from .settings import Auction, Setting, SettingLike
from .wording import counted, number_words, values_words

OTHER_COMMANDS = {
    "auction": "`iron` may answer, and `threshold` always does.",
    "units": "`ironunits` may answer, and `threshold` always does.",
    "fair": "`findfair` may answer.",
    "general": "`find` may answer.",
    "asym": "`find` may answer.",
}
FEWER_DIGITS = "Round the numbers of the setting to fewer digits, and try again."


def explain(setting: SettingLike, answer: AnswerLike | None = None, units: int | None = None) -> Explanation:
    """What an answer says of its setting, in words.

    answer  whatever the program prints of a setting, a table of one's own, or an odds file; where it is left out, what `find` gives
            of a general setting, and `solve` or else `iron` of an auction
    units   how many units the answer is about, where it is a text of `units` or `ironunits`

    Raises what the commands raise that are asked: `SettingRefused` and `AnswerRefused` first of all.
    """
    found = _found(setting) if answer is None else answer
    own_units = found.mechanism.units if isinstance(found, UnitsOptimal) else None
    explanation = _explained(Case(setting, found, own_units if units is None else units), found)
    scale = setting.scale if isinstance(setting, (Auction, Setting)) else 1
    if scale == 1:
        return explanation
    scaled = f"The amounts here are those of the setting times {scale}, since the program reckons in whole numbers."
    return dataclasses.replace(explanation, summary=[*explanation.summary, scaled])


def _explained(case: Case, found: AnswerLike) -> Explanation:
    """The explanation of an answer, in the whole numbers of the program."""
    if isinstance(found, (TooWide, Undecided)):
        return _undecided(found)
    if case.head[0] in _BY_FIRST_WORD:
        rows(case.source)  # (a setting that is refused is told first)
        return _BY_FIRST_WORD[case.head[0]](case)
    if (case.kind, case.word) == ("auction", "table"):
        return _own_auction(case)
    verdict = case.verdict()
    if verdict.word == "rejected":
        return _rejected(case, verdict)
    return _of_answer(case)


def _rejected(case: Case, verdict: Verdict) -> Explanation:
    """Why an answer is not right."""
    summary = ["This answer is not right: the check rejects it."]
    if verdict.condition in OF_CERTIFICATES:
        summary.append("What it claims may still be true: what fails is the certificate that is to prove it.")
    section = Section(name="rejection", title="What is wrong", facts=rejection(case, verdict))
    return Explanation(case.kind, case.word, verdict.word, summary, [section])


def _found(setting: SettingLike) -> Answer:
    """The best mechanism of a setting, as it is found most easily."""
    try:
        return find(setting)
    except SettingRefused as refused:
        if refused.reason != "other kind":
            raise
    solved = solve(setting)
    return iron(setting) if isinstance(solved, TooWide) else solved


def _of_answer(case: Case) -> Explanation:
    """An explanation of an answer that is valid, or claims nothing."""
    answer = case.answer
    if isinstance(answer, (TooWide, Undecided)):
        return _undecided(answer)
    if isinstance(answer, Table):
        return _own_rule(case)
    if isinstance(answer, Infeasible):
        return _infeasible(case, answer)
    if isinstance(answer, Unbounded):
        return _unbounded(case, answer)
    assert isinstance(answer, Optimal)
    return Explanation(answer.kind, answer.word, "valid", _best(case, answer), _facts(case, answer))


# Best rules


def _best(case: Case, answer: Optimal) -> list[str]:
    """What an optimal answer says."""
    setting, value = case.setting, number_words(answer.value)
    if isinstance(answer, Fairest):
        least = f"Under this rule each agent expects to get at least {value}"
        first = f"{least}, and no rule that meets the conditions gives more to the agent that gets least."
        return [first, sections.conditions_sentence(setting)]
    among = "rule that meets the conditions"
    if isinstance(answer, Required):
        among = "rule that meets the conditions of the setting and your own"
    if isinstance(answer, Rule):
        among = "rule without lotteries that meets the conditions"
    units = f" for {counted(case.units or 1, 'unit')}" if answer.kind == "units" else ""
    first = f"This rule is best{units}: its {goal(setting)} is {value}, and no {among} has a greater one."
    return [text for text in (first, goal_sentence(setting), sections.conditions_sentence(setting)) if text]


def _facts(case: Case, answer: Optimal) -> list[Section]:
    """What the rule of an optimal answer does, and what keeps its value from being greater."""
    setting, told = case.setting, case.report
    found = [sections.amounts(setting, told)]
    if isinstance(answer, Fairest):
        found.append(sections.agents(case.general, told))
    if isinstance(answer, Required) and answer.conditions:
        found.append(sections.bounds(case.general_words, told, answer.shadows))
    found += _what_happens(case, answer)
    held = sections.used_rows(answer, case.row_names) if isinstance(answer, Bounded) else None
    return found + sections.binding(case.words, told.tight, held)


def _what_happens(case: Case, answer: Any) -> list[Section]:
    """What the rule of an answer does in each case, and what each type expects of it."""
    setting, told, mechanism = case.setting, case.report, answer.mechanism
    if isinstance(answer, AuctionOptimal):
        return [sections.types(setting, told, mechanism.odds.__getitem__), sections.winners(case.auction, mechanism)]
    if isinstance(answer, SaleOptimal):
        odds: Callable[[Any], Fraction] = lambda pair: mechanism.odds[pair[0]][pair[1]]
        return [sections.types(setting, told, odds), sections.sale_profiles(case.general, mechanism)]
    several = len(mechanism.lotteries) > 1
    found = [sections.profiles(case.general, mechanism)]
    return found + ([sections.outcomes(case.general, mechanism), sections.types(setting, told)] if several else [])


# Where there is no best rule


def _infeasible(case: Case, answer: Infeasible) -> Explanation:
    """Why no rule meets the conditions."""
    conditions = f"the conditions{' of the setting and your own' if answer.conditions else ''}"
    if answer.tree:
        first = f"No rule without lotteries meets {conditions}."
        parts = sum(isinstance(node, Leaf) for node in answer.tree)
        search = f"The search ruled out {'all there are' if parts == 1 else f'each of the {parts} parts into which it cut them'}."
        return Explanation(answer.kind, answer.word, "valid", [first, search, sections.conditions_sentence(case.setting)])
    weights: dict[str, int] = {}
    for multiplier in answer.multipliers:
        name = case.row_names[multiplier.row]
        if not name.startswith("profile/"):
            weights[name] = weights.get(name, 0) + multiplier.face
    facts = [Fact(case.words.say("demand", name), {"condition": name, "weight": weight}) for name, weight in weights.items()]
    title = "This condition cannot be met:"
    if len(facts) > 1:
        title = f"These {counted(len(facts), 'condition')} cannot hold together:"
    first = f"No rule meets {conditions}: each one breaks at least one of those below."
    return Explanation(answer.kind, answer.word, "valid", [first], [Section(name="conflict", title=title, facts=facts)])


def _unbounded(case: Case, answer: Unbounded) -> Explanation:
    """How the value grows without end."""
    setting = case.general
    if answer.kind == "fair":
        grows = "Each agent can get as much as one likes: there is no fairest rule."
    else:
        grows = f"The {goal(setting)} can be made as great as one likes: there is no best rule."
    summary = [grows, "Take the rule below, which meets the conditions, and add the payments below it, again and again."]
    if answer.kind != "fair":
        weights = setting.weights()
        gain = sum((weight * sum(answer.ray[profile].values()) for profile, weight in weights.items()), Fraction(0))
        each = gain * Fraction(setting.objective.revenue, sum(weights.values()))
        summary.append(f"Each time the {goal(setting)} grows by {number_words(each)}.")
    if setting.rational == "none":
        summary.append("The setting lets agents be worse off than outside, so that they may have to pay anything.")
    found = [sections.profiles(setting, answer.mechanism), sections.added(setting, answer.ray)]
    return Explanation(answer.kind, answer.word, "valid", summary, found)


def _undecided(answer: TooWide | Undecided) -> Explanation:
    """That nothing is known."""
    if isinstance(answer, Undecided):
        first = "No answer was found: a number of it, or on the way to it, was too long. Nothing is said of the setting."
        return Explanation(answer.kind, answer.word, "undecided", [first, FEWER_DIGITS])
    first = "Nothing is known of the setting: a number on the way to the answer was too long (more than 62 bits)."
    return Explanation(answer.kind, answer.word, "undecided", [first, OTHER_COMMANDS.get(answer.kind, FEWER_DIGITS)])


# Rules of one's own


def _own_rule(case: Case) -> Explanation:
    """Whether a table of one's own meets the conditions, and what it does."""
    said, told = audit(case.source, case.answer), case.report
    sentences = [goal_sentence(case.setting), sections.conditions_sentence(case.setting)]
    found = [sections.amounts(case.setting, told, bool(said)), *_what_happens(case, case.answer)]
    if said:
        first = "This rule meets all conditions. Nothing here says whether it is the best."
        found += sections.binding(case.words, told.tight, None)
        return Explanation(case.kind, case.word, "admissible", [first, *filter(None, sentences)], found)
    facts = broken(case, said.broken or "", said.left, said.right)
    return Explanation(case.kind, case.word, "broken", *_broken(facts, [*filter(None, sentences)], found))


def _broken(facts: Sequence[Fact], sentences: Sequence[str], found: Sequence[Section]) -> tuple[list[str], list[Section]]:
    """The summary and the sections of a rule that breaks conditions."""
    first = "This rule does not meet the conditions."
    return [first, *sentences], [Section(name="broken", title="What it breaks, and by how much", facts=facts), *found]


def _own_auction(case: Case) -> Explanation:
    """What an auction of one's own does, and by how much a bidder gains or loses."""
    told = report(case.source, case.data)
    if isinstance(told, Violated):
        return Explanation(case.kind, case.word, "violated", _too_often(case.auction, told))
    table = case.answer
    assert isinstance(table, AuctionTable)
    sentences = [text for text in (goal_sentence(case.setting), sections.conditions_sentence(case.setting)) if text]
    facts = sections.broken_facts(case.words, told)
    found = [sections.amounts(case.setting, told, not facts), sections.types(case.setting, told, table.odds.__getitem__)]
    if facts:
        return Explanation(case.kind, case.word, "broken", *_broken(facts, sentences, found))
    found += sections.binding(case.words, told.tight, None)
    first = "This auction meets all conditions. Nothing here says whether it is the best."
    return Explanation(case.kind, case.word, "admissible", [first, *sentences], found)


def _too_often(auction: Auction, told: Violated) -> list[str]:
    """Why no auction has given odds."""
    whole = sum(auction.weights)
    outside = sum(weight for value, weight in zip(auction.values, auction.weights, strict=True) if value not in told.values)
    there = 1 - Fraction(outside, whole) ** auction.bidders
    asked, values = there + told.excess / whole**auction.bidders, values_words(told.values, auction.values)
    return [
        f"No auction has these odds: bidders with {values} would win too often.",
        f"By the odds one of them gets the item with the chance {number_words(asked)}, "
        f"but only with the chance {number_words(there)} is there a bidder with {values}.",
    ]


# Other texts


def _odds(case: Case) -> Explanation:
    """Whether some auction has given odds."""
    told = realise(case.source, case.data)
    if isinstance(told, Violated):
        return Explanation("odds", "violated", "violated", _too_often(case.auction, told))
    first = "Some auction has these odds: the table says who gets the item in it. Nothing is said of what bidders pay."
    return Explanation("odds", "realised", "realised", [first], [sections.winners(case.auction, _mechanism(case.auction, told))])


def _mechanism(auction: Auction, told: Realised) -> AuctionMechanism:
    """The table of some odds as a mechanism of which only the masses are asked for."""
    weights = dict(zip(auction.values, auction.weights, strict=True))
    return AuctionMechanism(auction.bidders, weights, {}, {}, told.masses, told.denominator)


def _threshold(case: Case) -> Explanation:
    """An auction in which only winners pay."""
    given = read_threshold(case.data.decode())
    units = given.units
    told = threshold(case.source, units)
    if told != given:
        first = "This is not what `threshold` says of the setting: it was changed, or is about another setting."
        return Explanation("threshold", "optimal", "rejected", [first])
    setting = case.auction
    best = f"This auction is best for {counted(units, 'unit')}: its {goal(setting)} is {number_words(told.value)}"
    truth = "Whatever the others bid, no bidder gains by a false bid, and nobody pays more than its value."
    facts = [sections.amounts(setting, told), sections.threshold_rule(told)]
    found = facts + ([sections.threshold_prices(told)] if told.prices else [])
    summary = [f"{best}, and no auction has a greater one.", goal_sentence(setting), truth]
    return Explanation("threshold", "optimal", "valid", [text for text in summary if text], found)


def _nothing(case: Case) -> Explanation:
    """The text of a command that has no answer."""
    found = read_answer(case.setting, case.data.decode())
    if not isinstance(found, Undecided):
        raise AnswerNotRead("no text that says that nothing is decided")
    return _undecided(found)


_BY_FIRST_WORD: Mapping[str, Callable[[Case], Explanation]] = {"interim": _odds, "threshold": _threshold, "undecided": _nothing}
