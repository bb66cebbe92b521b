"""The commands of mechdes as functions. Each gives a value; what the program refuses is raised as a `Refused`.

A setting is given as a `Setting` or an `Auction`, as a path, or as a text (a `str` with a line end, or bytes). An answer is given
as what a command gave, as a `Mechanism` or an `AuctionTable`, as a path, or as a text.

All commands raise `SettingRefused` (the program's status 65), `OutOfMemory` (72), `LibraryMissing`, and `OSError` for a path that
cannot be read; and `SettingNotRead` for forms of TOML 1.1, which the program reads and Python's reader does not. Those that take
an answer raise `AnswerRefused` (66), or `ValueError` where a mechanism made by hand has other names than the setting or numbers
that are no multiple of its denominator; and those that take a width raise `UsageRefused` (64) where it is no whole number from 4 to
62. They keep no state and hold no lock of Python's, so that threads may call side by side.
"""

from __future__ import annotations

import dataclasses
import math
import os
import random as randomness
from collections.abc import Callable, Mapping, Sequence
from fractions import Fraction
from typing import Any, TypeAlias, overload

from ._library import call
from .answers import (
    Answer,
    Audit,
    AuctionOptimal,
    AuctionTable,
    Award,
    Draw,
    Drill,
    Fairest,
    GeneralOptimal,
    Infeasible,
    Optimal,
    Program,
    Realised,
    Replay,
    Report,
    Required,
    Rule,
    SaleOptimal,
    Table,
    Threshold,
    TooWide,
    Unbounded,
    Undecided,
    UnitsDraw,
    UnitsOptimal,
    Verdict,
    Violated,
)
from .conditions import Condition, conditions_text
from .errors import AnswerNotRead, refusal
from .mechanisms import Mechanism, _wanted
from .reading import (
    read_answer,
    read_audit,
    read_award,
    read_draw,
    read_drill,
    read_program,
    read_realised,
    read_replay,
    read_report,
    read_threshold,
    read_verdict,
)
from .refusals import Sentence, sentence_of
from .settings import (
    Amount,
    AnySetting,
    Auction,
    Number,
    Setting,
    SettingLike,
    at_scale,
    exact,
    file_bytes,
    read_setting,
    setting_bytes,
)

AnswerLike: TypeAlias = Answer | Mechanism | str | bytes | os.PathLike[str]
AnswerOfCommand: TypeAlias = Optimal | Infeasible | Unbounded | TooWide | Undecided
ConditionsLike: TypeAlias = Sequence[Condition] | str | bytes | os.PathLike[str]


def _scale(setting: SettingLike) -> int:
    """The factor of all amounts in the texts about a setting: that of a value, and 1 of a file, which has whole numbers."""
    return setting.scale if isinstance(setting, (Setting, Auction)) else 1


def answer_bytes(setting: SettingLike, answer: AnswerLike) -> bytes:
    """The bytes of an answer's file. A mechanism is written as a table, in the order of the setting's names."""
    if isinstance(answer, AuctionTable):
        answer = _of_auction(setting, answer)
    if isinstance(answer, Answer):
        if isinstance(setting, (Setting, Auction)) and setting.scale != answer.scale:
            raise ValueError(f"the answer is about a setting with the scale {answer.scale}, and not {setting.scale}")
        return answer.text().encode()
    if isinstance(answer, Mechanism):
        return _table(setting, answer).text().encode()
    return file_bytes(answer)


def _table(setting: SettingLike, mechanism: Mechanism) -> Table:
    named = read_setting(setting)
    if not isinstance(named, Setting):
        raise ValueError("a Mechanism is one of a general setting, and the setting is an auction")
    return Table(setting=named, mechanism=mechanism)


def _of_auction(setting: SettingLike, table: AuctionTable) -> AuctionTable:
    """The table as one of the auction, where it was made by hand."""
    named = read_setting(setting)
    if not isinstance(named, Auction):
        raise ValueError("an AuctionTable is one of an auction, and the setting is none")
    _wanted("odds", table.odds, named.values)
    return dataclasses.replace(table, setting=named) if table.setting is None else table


def _mechanism_bytes(setting: SettingLike, answer: AnswerLike) -> bytes:
    """The same for commands that look at the mechanism alone: of `determ`, whose text they do not read, as a table."""
    if isinstance(answer, Rule) or isinstance(answer, Unbounded) and answer.kind == "determ":
        return answer_bytes(setting, answer.mechanism)
    return answer_bytes(setting, answer)


def _printed(expected: set[int], words: Sequence[str], setting: bytes = b"", second: bytes = b"") -> str:
    """What a command prints, where it ends with one of the statuses that are expected."""
    status, out, err = call(words, setting, second)
    if status not in expected:
        line = (err or out).decode()
        raise refusal(status, line, _meaning(words, line, setting, second))
    return out.decode()


def _meaning(words: Sequence[str], line: str, setting: bytes, second: bytes) -> Sentence | None:
    """What a refusal of the program means, by the words and the files of the call, which have no names of their own."""
    names = {word: "" for word in ("setting", "answer", "conditions", "pivots", "odds")}
    return sentence_of(words, line, lambda name: setting if name == "setting" else second, names)


# Those of another command have its name.
_KINDS = {
    "solve": ("general", "auction"),
    "find": ("general",),
    "require": ("required",),
    "findfair": ("fair",),
    "iron": ("auction",),
    "ironunits": ("units",),
}


def _answered(
    words: Sequence[str],
    setting: SettingLike,
    expected: set[int],
    kinds: tuple[type[Answer], ...],
    units: int | None = None,
    second: bytes = b"",
) -> Any:
    """The answer to a setting, as a value. The program looks at the setting first, so that its refusal comes first."""
    given = setting_bytes(setting)
    text = _printed(expected, words, given, second)
    named = setting if isinstance(setting, (Setting, Auction)) else read_setting(given)
    answer = read_answer(named, text, units)
    # That nothing is decided has one text for all commands.
    is_its = isinstance(answer, Undecided) or answer.kind in _KINDS.get(words[0], (words[0],))
    if type(answer) not in kinds or not is_its:
        raise AnswerNotRead(f"an answer that {words[0]} does not give: {answer.kind}, {type(answer).__name__}")
    return answer


def _units_option(answer: AnswerLike, units: int | None) -> tuple[list[str], int | None]:
    """The option that says how many units an answer is about, where it is about several, and the number: an answer that has its own
    says it as well. Raises `ValueError` where another one is given."""
    own = answer.mechanism.units if isinstance(answer, UnitsOptimal) else None
    number = own if units is None else units
    if own not in (None, number):
        raise ValueError(f"the answer is about {own} units, not {number}")
    return [] if number is None else [f"--units={number}"], number


def _width(width: int) -> list[str]:
    return ["--width", str(width)]


@overload
def solve(setting: Setting, width: int = 62) -> GeneralOptimal | Infeasible | Unbounded | TooWide:
    ...


@overload
def solve(setting: Auction, width: int = 62) -> AuctionOptimal | TooWide:
    ...


@overload
def solve(setting: SettingLike, width: int = 62) -> GeneralOptimal | AuctionOptimal | Infeasible | Unbounded | TooWide:
    ...


def solve(setting: SettingLike, width: int = 62) -> GeneralOptimal | AuctionOptimal | Infeasible | Unbounded | TooWide:
    """The best mechanism of a setting with its exact value; or that there is none, or no bound, or that numbers of more than
    `width` bits came on the way."""
    kinds = (GeneralOptimal, AuctionOptimal, Infeasible, Unbounded, TooWide)
    return _answered(["solve", "setting", *_width(width)], setting, {0, 10, 11, 12}, kinds)


def find(
    setting: SettingLike, hint: str | bytes | os.PathLike[str] | None = None
) -> GeneralOptimal | Infeasible | Unbounded | Undecided:
    """The best mechanism of a general setting, as `solve` gives it, but with longer numbers on the way: most settings for which
    `solve` is too wide have an answer here. Where several mechanisms are best it may be another one. Undecided says nothing of the
    setting.

    hint  a basis of the setting's linear program, as a path or a text, at which the search begins (`find --from`). It decides only
          how soon an answer comes, and which of several

    Raises `AnswerRefused` for a hint that is refused.
    """
    words = ["find", "setting", *([] if hint is None else ["--from", "basis"])]
    kinds = (GeneralOptimal, Infeasible, Unbounded, Undecided)
    return _answered(words, setting, {0, 10, 11, 22}, kinds, second=b"" if hint is None else file_bytes(hint))


def require(setting: SettingLike, conditions: ConditionsLike) -> Required | Infeasible | Unbounded | Undecided:
    """The best mechanism of a general setting among those that meet conditions of the designer, found as `find` finds the best one
    of all.

    conditions  a list of `Revenue`, `Welfare`, `Utility`, `Chance` and `Payment`; or a conditions file as a path or a text

    Raises `AnswerRefused` for conditions that are refused. A path or a text is for the file of the setting: it has amounts at the
    setting's scale.
    """
    if isinstance(conditions, (str, bytes, os.PathLike)):
        second = file_bytes(conditions)
    else:
        second = conditions_text(conditions, _scale(setting)).encode()
    kinds = (Required, Infeasible, Unbounded, Undecided)
    return _answered(["require", "setting", "conditions"], setting, {0, 10, 11, 22}, kinds, second=second)


def find_fair(setting: SettingLike) -> Fairest | Infeasible | Unbounded | Undecided:
    """The fairest mechanism of a general setting, as `fair` gives it, but found as `find` finds the best one (the command
    `findfair`)."""
    return _answered(["findfair", "setting"], setting, {0, 10, 11, 22}, (Fairest, Infeasible, Unbounded, Undecided))


def fair(setting: SettingLike, width: int = 62) -> Fairest | Infeasible | Unbounded | TooWide:
    """The mechanism of a general setting under which the agent that gets least on average gets most. Its value is what that
    agent gets, payments taken off. The objective of the setting plays no part."""
    return _answered(["fair", "setting", *_width(width)], setting, {0, 10, 11, 12}, (Fairest, Infeasible, Unbounded, TooWide))


def asym(setting: SettingLike, width: int = 62) -> SaleOptimal | TooWide:
    """The best mechanism of a sale of one item to bidders who differ. `SettingRefused` says `not a sale` of other settings."""
    return _answered(["asym", "setting", *_width(width)], setting, {0, 12}, (SaleOptimal, TooWide))


def units(setting: SettingLike, units: int, width: int = 62) -> UnitsOptimal | TooWide:
    """The best mechanism of an auction of so many units, 1 to 12, of which each bidder wants one. Another number raises
    `WordRefused`."""
    return _answered(["units", *_width(width), "--", "setting", str(units)], setting, {0, 12}, (UnitsOptimal, TooWide), units)


def threshold(setting: SettingLike, units: int) -> Threshold:
    """The best auction of so many units, 1 to 12, in which only winners pay: its reserve, its pools, and what it brings; of one
    unit what a winner pays in each case. Another number raises `WordRefused`."""
    return read_threshold(_printed({0}, ["threshold", "--", "setting", str(units)], setting_bytes(setting)), _scale(setting))


def award(setting: SettingLike, units: int, profile: Sequence[Number], draw: int = 0) -> Award:
    """Who wins so many units in the auction of `threshold` at a profile of values, and what each winner pays.

    draw  from 0 on, below the `draws` of what comes: as many as bidders who share the edge, or one where nobody does. Draw only
          after all reports are in, by a source of chance that all trust

    Raises `WordRefused` for a wrong number, what is no profile, and a draw out of range.
    """
    words = ["award", "--", "setting", str(units), _reports(setting, profile), str(draw)]
    return read_award(_printed({0}, words, setting_bytes(setting)), _scale(setting))


def _reports(setting: SettingLike, profile: Sequence[Any]) -> str:
    """The word for a profile: of an auction with its values at the scale. Raises `ValueError` where one has no whole number."""
    if isinstance(setting, Auction):
        profile = [at_scale(exact(value, "profile"), setting.scale) for value in profile]
    return ",".join(map(str, profile))


def determ(setting: SettingLike, width: int = 62) -> Rule | Infeasible | Unbounded | TooWide:
    """The best deterministic mechanism of a general setting, which draws no lots, with the tree of the search. The search may
    take long."""
    return _answered(["determ", "setting", *_width(width)], setting, {0, 10, 11, 12}, (Rule, Infeasible, Unbounded, TooWide))


def iron(setting: SettingLike) -> AuctionOptimal | Undecided:
    """A best mechanism of an auction in closed form, by virtual values, also where `solve` is too wide; or undecided, where its
    multipliers have more than 62 bits."""
    return _answered(["iron", "setting"], setting, {0, 22}, (AuctionOptimal, Undecided))


def iron_units(setting: SettingLike, units: int) -> UnitsOptimal | Undecided:
    """What `units` finds, in closed form, also where `units` is too wide; or undecided, where its multipliers have more than 62
    bits. Another number than 1 to 12 raises `WordRefused`."""
    return _answered(["ironunits", "--", "setting", str(units)], setting, {0, 22}, (UnitsOptimal, Undecided), units)


def read(setting: SettingLike, answer: AnswerLike, units: int | None = None) -> Answer:
    """An answer as a value. One that a command gave is given back as it is. `units` is how many units it is about, where it is a
    text of `units` or `ironunits`, which do not say it.

    Raises `UnknownAnswer` where its kind is not known, and `AnswerNotRead` where it does not fit the setting. It is read and not
    checked: `check` does that.
    """
    if isinstance(answer, Answer):
        return answer
    try:
        text = answer_bytes(setting, answer).decode()
    except UnicodeDecodeError as fault:
        raise AnswerNotRead(f"no records: {fault}") from None
    return read_answer(read_setting(setting), text, units)


def check(setting: SettingLike, answer: AnswerLike, units: int | None = None) -> Verdict:
    """Whether what an answer claims is so. It uses nothing of the part that searches.

    units  how many units the answer is about, where it is a text of `units` or `ironunits`; a `UnitsOptimal` says it itself

    It takes the answers of all commands. Another number of units than 1 to 12 raises `WordRefused`. Raises `ValueError` where the
    answer is about another number of units.
    """
    option, _ = _units_option(answer, units)
    words = ["check", *option, "setting", "answer"]
    return read_verdict(_printed({0, 20, 22}, words, setting_bytes(setting), answer_bytes(setting, answer)))


def determcheck(setting: SettingLike, answer: AnswerLike) -> Verdict:
    """Whether what an answer of `determ` claims is so.

    It uses nothing that solves a program. With the search it shares the walk through the tree and what makes the program of a node.
    """
    words = ["determcheck", "setting", "answer"]
    return read_verdict(_printed({0, 20, 22}, words, setting_bytes(setting), answer_bytes(setting, answer)))


def audit(setting: SettingLike, answer: AnswerLike) -> Audit:
    """Whether a mechanism of a general setting meets all its conditions, or which one it breaks first."""
    words = ["audit", "setting", "answer"]
    return read_audit(_printed({0, 20}, words, setting_bytes(setting), _mechanism_bytes(setting, answer)))


def rows(setting: SettingLike) -> Program:
    """The linear program of a setting; of an auction the one that its cut run begins with."""
    return read_program(_printed({0}, ["rows", "setting"], setting_bytes(setting)))


def replay(setting: SettingLike, pivots: AnswerLike | Sequence[tuple[int, int]], width: int = 62) -> Replay:
    """What comes of listed pivots, given as pairs of a row and a column, or as a text or path of a pivots file. A pivot that
    cannot be carried out raises `WordRefused`."""
    if isinstance(pivots, Sequence) and not isinstance(pivots, (str, bytes)):
        pivots = "".join(f"pivot,{row},{column}\n" for row, column in pivots) + "end\n"
    words = ["replay", "setting", "pivots", *_width(width)]
    return read_replay(_printed({0, 12}, words, setting_bytes(setting), answer_bytes(setting, pivots)))


def _odds_text(odds: Mapping[Any, Fraction], values: Sequence[Amount]) -> str:
    if set(odds) != set(values):
        raise ValueError(f"odds are wanted for just these values: {list(values)}")
    numbers = [Fraction(odds[value]) for value in values]
    denominator = math.lcm(*(number.denominator for number in numbers))
    return f"interim,{denominator}\nodds,{','.join(str(number * denominator) for number in numbers)}\nend\n"


def realise(setting: SettingLike, odds: AnswerLike | Mapping[Any, Fraction]) -> Realised | Violated:
    """Whether some auction has given odds: how often a bidder wins, by its value. They are given as a mapping from each value to
    a fraction, or as a text or path of an odds file."""
    if isinstance(odds, Mapping):
        auction = read_setting(setting)
        odds = _odds_text(odds, auction.values if isinstance(auction, Auction) else ())
    text = _printed({0, 21}, ["realise", "setting", "odds"], setting_bytes(setting), answer_bytes(setting, odds))
    auction = read_setting(setting)
    if not isinstance(auction, Auction):
        raise AnswerNotRead("the setting is no auction")
    return read_realised(auction, text)


@overload
def run(
    setting: Setting,
    answer: AnswerLike,
    profile: Sequence[str] | Sequence[Amount],
    first: int,
    second: int = 0,
    *,
    units: None = None,
) -> Draw:
    ...


@overload
def run(
    setting: SettingLike,
    answer: AnswerLike,
    profile: Sequence[str] | Sequence[Amount],
    first: int,
    second: int = 0,
    *,
    units: int | None = None,
) -> Draw | UnitsDraw:
    ...


def run(
    setting: SettingLike,
    answer: AnswerLike,
    profile: Sequence[str] | Sequence[Amount],
    first: int,
    second: int = 0,
    *,
    units: int | None = None,
) -> Draw | UnitsDraw:
    """What two draws give at a profile of reports: type names, or of an auction values. Of several units it is a `UnitsDraw`.

    first, second  draws as docs/FORMATS.md has them: `mechanism.draws(profile)` says how many first ones there are; the second
                   is 0, or in an auction of one item says which of the bidders with the value that wins gets it
    units          how many units the answer is about, where it is a text of `units` or `ironunits`; a `UnitsOptimal` says it
                   itself

    Raises `WordRefused` for what is no profile or out of range, and `ValueError` where the answer is about another number of units.
    `draw` makes both draws.
    """
    option, number = _units_option(answer, units)
    words = ["run", *option, "--", "setting", "answer", _reports(setting, profile), str(first), str(second)]
    text = _printed({0}, words, setting_bytes(setting), _mechanism_bytes(setting, answer))
    return read_draw(read_setting(setting), text, number)


def draw(
    setting: SettingLike,
    answer: AnswerLike,
    profile: Sequence[str] | Sequence[Amount],
    random: randomness.Random | None = None,
    *,
    units: int | None = None,
) -> Draw | UnitsDraw:
    """What comes at a profile of reports, with both draws made evenly: by the system's source of chance, or by `random`. `units` is
    the number that `run` wants of a text of `units` or `ironunits`.

    Draw only after all reports are in, by a source of chance that all trust. Raises what `run` raises, and `ValueError` where the
    reports are no profile of the auction or sale.
    """
    below = (randomness.SystemRandom() if random is None else random).randrange
    found = answer if isinstance(answer, Mechanism) else read(setting, answer, units)
    mechanism: Any = found if isinstance(found, Mechanism) else getattr(found, "mechanism", None)
    first = below(mechanism.draws(profile)) if mechanism is not None else 0
    drawn = run(setting, answer, profile, first, units=units)
    if isinstance(drawn, UnitsDraw) or not isinstance(found, AuctionOptimal) or drawn.winner is None:
        return drawn
    same = sum(report == profile[drawn.winner - 1] for report in profile)
    return run(setting, answer, profile, first, below(same))


@overload
def report(setting: Setting, answer: AnswerLike, units: None = None) -> Report:
    ...


@overload
def report(setting: SettingLike, answer: AnswerOfCommand | Table | Mechanism, units: int | None = None) -> Report:
    ...


@overload
def report(setting: SettingLike, answer: AnswerLike, units: int | None = None) -> Report | Violated:
    ...


def report(setting: SettingLike, answer: AnswerLike, units: int | None = None) -> Report | Violated:
    """What the mechanism of an answer does, and how far it is from truthful. The mechanism need not be admissible, and claims of
    the answer are not looked at. `units` is how many units the answer is about, where it is a text of `units` or `ironunits`; a
    `UnitsOptimal` says it itself.

    Of an auction an `AuctionTable` may be given in place of an answer, or its text. Where no auction has its odds, what comes is
    the set of values that asks for too much, which is false. Raises `ValueError` where the table has other values than the auction,
    or the answer is about another number of units.
    """
    option, _ = _units_option(answer, units)
    words = ["report", *option, "setting", "answer"]
    text = _printed({0, 21}, words, setting_bytes(setting), _mechanism_bytes(setting, answer))
    named = read_setting(setting)
    return read_report(named, text, () if named.scale == 1 else _conditions(named, answer, units))


def _conditions(setting: AnySetting, answer: AnswerLike, units: int | None) -> tuple[Condition, ...]:
    """The conditions of the designer that an answer has."""
    found = answer if isinstance(answer, Mechanism) else read(setting, answer, units)
    return found.conditions if isinstance(found, (Required, Infeasible, Unbounded)) else ()


def make(number: int) -> AnySetting:
    """The setting that a number from 0 to 999,999 stands for: an auction for an odd one. Another number raises `WordRefused`."""
    return read_setting(_printed({0}, ["make", "--", str(number)]))


def drill(number: int) -> Drill:
    """How the setting of a number is solved and checked."""
    return read_drill(_printed({0, 10, 11, 12}, ["drill", "--", str(number)]))


Command: TypeAlias = Callable[..., Any]
_COMMANDS: tuple[Command, ...] = (
    solve,
    find,
    require,
    find_fair,
    fair,
    asym,
    units,
    threshold,
    award,
    determ,
    iron,
    iron_units,
    check,
    determcheck,
    audit,
    rows,
    replay,
    realise,
    run,
    draw,
    report,
)
BY_NAME: Mapping[str, Command] = {command.__name__: command for command in _COMMANDS}
