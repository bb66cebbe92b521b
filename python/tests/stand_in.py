"""What stands in for the proved library: the programs of second-opinion/, which share nothing with mechdes but its formats.

They find, check, audit, list and report. `run` is made here of their parts, by docs/FORMATS.md.
"""

import itertools
import pathlib
import sys
import tempfile
from collections.abc import Callable, Sequence

from mechdes import Reply

sys.path.append(str(pathlib.Path(__file__).resolve().parent.parent.parent / "second-opinion"))

from second_opinion import (  # noqa: E402
    answer,
    auction,
    auction_answer,
    auditing,
    command,
    fairness,
    finding,
    judging,
    listing,
    mechanisms,
    reporting,
    requiring,
    sale_answer,
    selling,
    setting,
    threshold,
    unit_checking,
)
from second_opinion.setting import Refused  # noqa: E402

Told = tuple[int, str]


def _read(names: Sequence[str]) -> tuple[setting.Setting, bytes]:
    """A setting, and the bytes of an answer to it, from their files."""
    its = setting.read_setting(command.read_file(names[0], setting.FILE_LIMIT))
    return its, command.read_file(names[1], answer.FILE_LIMIT)


def check(words: Sequence[str]) -> Told:
    """The command `check SETTING ANSWER [--units NUMBER]`, where the answer is judged there."""
    try:
        return judging.check(list(words))
    except Refused as refused:
        if refused.status == command.BEYOND:
            raise NotImplementedError(refused.line) from None
        raise


def run(words: Sequence[str]) -> Told:
    """The command `run SETTING ANSWER PROFILE DRAW1 DRAW2 [--units NUMBER]`."""
    names, number = command.taken_option(list(words), "--units")
    units = None if number is None else unit_checking.units_of(number)
    its, data = _read(names)
    asked = names[2].split(","), int(names[3]), int(names[4])
    if units is not None:
        if not isinstance(its, setting.AuctionSetting):
            raise Refused(65, "setting refused: other kind")
        return 0, _units_draw(its, auction_answer.read_unit_answer(data, its, units), *asked)
    if isinstance(its, setting.AuctionSetting):
        return 0, _auction_draw(its, auction_answer.read_answer(data, its), *asked)
    try:
        mechanism = mechanisms.mechanism_in(data, its)
    except Refused as refused:
        if refused.line != answer.ANOTHER_KIND or next(selling.failing(its), None) is not None:
            raise
        return 0, _sale_draw(its, sale_answer.read_answer(data, its), *asked)
    return 0, _general_draw(its, mechanism, *asked)


def find(words: Sequence[str]) -> Told:
    """The command `find SETTING`, which is for general settings alone."""
    if isinstance(setting.read_setting(command.read_file(words[0], setting.FILE_LIMIT)), setting.AuctionSetting):
        raise Refused(65, "setting refused: other kind")
    return _or_undecided(finding.find, words)


def require(words: Sequence[str]) -> Told:
    """The command `require SETTING CONDITIONS`."""
    return _or_undecided(requiring.require, words)


def find_fair(words: Sequence[str]) -> Told:
    """The command `findfair SETTING`."""
    return _or_undecided(fairness.findfair, words)


def award(words: Sequence[str]) -> Told:
    """The command `award SETTING NUMBER PROFILE DRAW`, whose numbers may be negative."""
    return threshold.award(["--", *words])


def _or_undecided(search: Callable[[Sequence[str]], Told], words: Sequence[str]) -> Told:
    """What a search finds, or undecided where no file can hold it."""
    try:
        return search(words)
    except Refused as refused:
        if refused.status != command.BEYOND:
            raise
        return 22, "undecided\n"


def _first_over(numbers: Sequence[int], draw: int) -> int | None:
    """The first place up to which the numbers add to more than a draw."""
    return next((place for place, total in enumerate(itertools.accumulate(numbers)) if total > draw), None)


def _try(holds: bool, what: str) -> None:
    if not holds:
        raise Refused(67, f"{what} refused")


def _general_draw(
    its: setting.GeneralSetting, mechanism: answer.Mechanism, reports: Sequence[str], first: int, second: int
) -> str:
    profile = _profile(its, reports)
    _try(0 <= first < mechanism.den and second == 0, "draw")
    drawn = f"outcome,{its.outcomes[_first_over(mechanism.lotteries[profile], first)]}\n"
    paid = ",".join(map(str, mechanism.pays.get(profile, [])))
    return drawn + (f"pays,{mechanism.den},{paid}\n" if its.payments else "")


def _profile(its: setting.GeneralSetting, reports: Sequence[str]) -> tuple[int, ...]:
    """The profile that reports name."""
    names = {tuple(agent.types[kind] for agent, kind in zip(its.agents, profile)): profile for profile in its.profiles()}
    _try(tuple(reports) in names, "profile")
    return names[tuple(reports)]


def _sale_draw(its: setting.GeneralSetting, said: object, reports: Sequence[str], first: int, second: int) -> str:
    interim, profile = said.interim, _profile(its, reports)
    _try(0 <= first < interim.den * its.weight(profile) and second == 0, "draw")
    place = _first_over(said.masses[profile], first)
    pairs = sale_answer.pairs_of(its)
    paid = ",".join(str(interim.pays[pairs.index(pair)]) for pair in enumerate(profile))
    return f"outcome,{its.outcomes[0 if place is None else place + 1]}\npays,{interim.den},{paid}\n"


def _counts(its: setting.AuctionSetting, reports: Sequence[str]) -> tuple[int, ...]:
    """How many bidders report each value."""
    values = list(map(str, its.values))
    _try(len(reports) == its.bidders and set(reports) <= set(values), "profile")
    return tuple(reports.count(value) for value in values)


def _units_draw(its: setting.AuctionSetting, said: object, reports: Sequence[str], first: int, second: int) -> str:
    interim, values, counts = said.interim, list(map(str, its.values)), _counts(its, reports)
    whole = 27720 * interim.den * auction.weight_of(its, counts)
    _try(0 <= first < whole and second == 0, "draw")
    stretches = [27720 * said.masses[counts][place] // counts[place] for place in map(values.index, reports)]
    # How many of first, first + whole, .. lie below where each stretch ends.
    below = [(end - first + whole - 1) // whole for end in itertools.accumulate(stretches, initial=0)]
    wins = "".join(f"wins,{bidder}\n" for bidder, (start, end) in enumerate(itertools.pairwise(below), 1) if start < end)
    paid = ",".join(str(interim.pays[values.index(report)]) for report in reports)
    return f"{wins}pays,{interim.den},{paid}\n"


def _auction_draw(its: setting.AuctionSetting, said: object, reports: Sequence[str], first: int, second: int) -> str:
    interim, values, counts = said.interim, list(map(str, its.values)), _counts(its, reports)
    _try(0 <= first < interim.den * auction.weight_of(its, counts), "draw")
    place = _first_over(said.masses[counts], first)
    having = [number for number, report in enumerate(reports, 1) if place is not None and report == values[place]]
    _try(0 <= second < max(len(having), 1), "draw")
    paid = ",".join(str(interim.pays[values.index(report)]) for report in reports)
    return f"outcome,{having[second] if having else 'keep'}\npays,{interim.den},{paid}\n"


class SecondOpinion:
    """Answers as the library does, where second-opinion/ has a command for it; its mechanisms may be others of the same value."""

    _commands: dict[str, Callable[[Sequence[str]], Told]] = {
        "solve": finding.find,
        "find": find,
        "require": require,
        "findfair": find_fair,
        "check": check,
        "rows": listing.rows,
        "report": reporting.report,
        "audit": auditing.audit,
        "run": run,
        "threshold": threshold.threshold,
        "award": award,
    }

    def call(self, words: Sequence[str], setting: bytes = b"", second: bytes = b"") -> Reply:
        """Carries out a command. Raises `NotImplementedError` for one that second-opinion/ does not have, another width, a basis, or a
        kind of setting that it does not read."""
        name, *rest = words
        if "--width" in rest:
            at = rest.index("--width")
            if rest[at + 1] != "62":
                raise NotImplementedError(f"a width of {rest[at + 1]}")
            del rest[at : at + 2]
        if name not in self._commands or "--from" in rest:
            raise NotImplementedError(name)
        with tempfile.TemporaryDirectory() as folder:
            paths = {"setting": pathlib.Path(folder) / "setting", "answer": pathlib.Path(folder) / "answer"}
            for path, data in zip(paths.values(), (setting, second), strict=True):
                path.write_bytes(data)
            paths["conditions"] = paths["answer"]
            given = [str(paths.get(word, word)) for word in rest if word != "--"]
            status, out, line = command.outcome(self._commands[name], given)
        return Reply(status, out.encode(), b"" if line is None else f"mechdes: {line}\n".encode())


class Changed(SecondOpinion):
    """The same, with replies of a test's own to some commands: functions of the words and the two files."""

    def __init__(self, **replies: Callable[[Sequence[str], bytes, bytes], Reply]) -> None:
        self._replies = replies

    def call(self, words: Sequence[str], setting: bytes = b"", second: bytes = b"") -> Reply:
        """Carries out a command, or has the test's own reply to it."""
        reply = self._replies.get(words[0], super().call)
        return reply(words, setting, second)
