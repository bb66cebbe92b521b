"""Finds in the words of a call what they were refused for."""

from __future__ import annotations

import re
from typing import Dict, List, Optional, Sequence, Tuple

from .faults import TABLE, Fault, asked, asked_for, between, counted, listed, nearest, quoted, shown
from .record_faults import UNITS_PARTS, counts_weight, read_records
from .setting_faults import Setting

COMMANDS, OPTIONS, NUMBERS, TEXTS = TABLE["commands"], TABLE["options"], TABLE["numbers"], TABLE["sentences"]
WHOLE = re.compile(r"0|-?[1-9][0-9]*")
MOST_BITS = 126
INPUT = "-"


class WrongWords(Exception):
    """Words that are no call, with what is wrong."""

    def __init__(self, name: str, found: str = "", wanted: str = "", key: str = "", **more: str) -> None:
        super().__init__(name)
        self.fault = Fault(name, found, wanted, key=key, more=more)


class Call:
    """What the words of a call give: its command, its arguments by their names, and its options. Raises `WrongWords` where they are
    no call."""

    def __init__(self, words: Sequence[str]) -> None:
        if not words:
            raise WrongWords("call.none")
        self.command, *rest = words
        if self.command not in COMMANDS:
            meant = nearest(self.command, [*COMMANDS])
            told = asked(f"`{meant}`") if meant else TEXTS["call.unknown.help"]
            raise WrongWords("call.unknown", f"`{shown(self.command)}`", meant=told)
        self.takes: List[str] = COMMANDS[self.command]["takes"].split()
        may = COMMANDS[self.command].get("may", "").split()
        names, self.options = self._cut(rest)
        if not 0 <= len(names) - len(self.takes) <= len(may):
            takes, wanted = " ".join([self.command, *self.takes]), counted(len(self.takes), "word")
            raise WrongWords("call.count", str(len(names)), wanted, takes=takes)
        self.given = dict(zip([*self.takes, *may], names))
        if "--from" in self.options:
            self.given["BASIS"] = self.options["--from"]
        self._try_numbers()

    def _cut(self, rest: List[str]) -> Tuple[List[str], Dict[str, str]]:
        """The names and numbers among words, and the options."""
        known = COMMANDS[self.command].get("options", "").split()
        names: List[str] = []
        options: Dict[str, str] = {}
        while rest:
            word, *rest = rest
            if word == "--":
                return [*names, *rest], options
            if not word.startswith("-") or word == INPUT:
                names.append(word)
                continue
            name, has_value, value = word.partition("=")
            self._try_option(name, known, options)
            wanted = OPTIONS[name]["shown"].partition(" ")[2]
            if wanted and not has_value and not rest:
                raise WrongWords("call.value", wanted=wanted, key=name)
            if wanted and not has_value:
                value, *rest = rest
            options[name] = value
        return names, options

    def _try_option(self, name: str, known: Sequence[str], options: Dict[str, str]) -> None:
        if name in options:
            raise WrongWords("call.twice", name, key=name)
        if name not in known:
            told, meant = f"`{shown(name)}`", nearest(name, known)
            if not name.startswith("--"):
                raise WrongWords("call.no_option", told, command=self.command)
            raise WrongWords("call.option", told, command=self.command, meant=asked(f"`{meant}`") if meant else "")

    def _try_numbers(self) -> None:
        """Refuses words that are to say numbers and do not."""
        numbers = {key: it for key, it in self.given.items() if key == "NUMBER" or key.startswith("DRAW")}
        asked = {key: it for key, it in self.options.items() if key in ("--width", "--units")}
        for key, text in {**numbers, **asked}.items():
            if not WHOLE.fullmatch(text) or int(text).bit_length() > MOST_BITS:
                raise WrongWords("call.number", f"`{shown(text)}`", TEXTS["call.whole"], key)
            least, most = OPTIONS.get(key, {}).get("least"), OPTIONS.get(key, {}).get("most")
            if least is not None and not least <= int(text) <= most:
                raise WrongWords("call.number", text, between(least, most), key)

    @property
    def second(self) -> Optional[str]:
        """The name of the argument that names a second file, where there is one."""
        return next((it for it in self.given if it in TABLE["files"] and it != "SETTING"), None)

    @property
    def units(self) -> Optional[int]:
        """How many units the call is about, if it says so."""
        text = self.options.get("--units", self.given.get("NUMBER") if "SETTING" in self.takes else None)
        return None if text is None else int(text)


def usage_fault(words: Sequence[str]) -> Optional[Fault]:
    """Why words are no call."""
    try:
        Call(words)
    except WrongWords as wrong:
        return wrong.fault
    return Fault("call.input", "-", "a file", key="-") if [*words].count(INPUT) > 1 else None


def number_fault(call: Call) -> Optional[Fault]:
    """Which number is out of its range."""
    key = "--units" if "--units" in call.options else "NUMBER"
    number = int(call.options.get(key, call.given.get(key, "0")))
    limits = NUMBERS["drawn" if call.units is None else "units"]
    if limits["least"] <= number <= limits["most"]:
        return None
    return Fault("call.number", str(number), between(limits["least"], limits["most"]), key=key)


def profile_fault(call: Call, setting: Setting) -> Optional[Fault]:
    """Which report is none of the setting."""
    reports = call.given["PROFILE"].split(",")
    if setting.kind == "auction":
        values = [str(it.value) for it in setting.top["values"]]
        known, noun, key = [values] * setting.top["bidders"].value, "bidder", "values"
    else:
        known, noun, key = setting.types(), "agent", "agent.types"
    if len(reports) != len(known):
        wanted = f"{len(known)} {'is' if len(known) == 1 else 'are'}"
        return Fault("profile.count", counted(len(reports), "report"), wanted, key=key, more={"of": noun})
    for place, (report, names) in enumerate(zip(reports, known), 1):
        if report not in names:
            more = {"number": str(place), "meant": asked_for(nearest(report, names) if noun == "agent" else None)}
            return Fault("profile.name", quoted(report), listed(names), key=key, more=more)
    return None


def draw_fault(call: Call, setting: Setting, answer: Optional[str]) -> Optional[Fault]:
    """Which draw is out of its range."""
    if "DRAW" in call.given:
        return Fault("call.number", call.given["DRAW"], TEXTS["draw.award"], key="DRAW")
    first, second = (int(call.given[key]) for key in ("DRAW1", "DRAW2"))
    draws = _first_draws(call, setting, answer or "")
    if not 0 <= first < draws:
        return Fault("call.number", str(first), between(0, draws - 1), key="DRAW1")
    is_second_drawn = setting.kind == "auction" and call.units is None
    if second == 0 and not is_second_drawn:
        return None
    return Fault("call.number", str(second), TEXTS["draw.second"] if is_second_drawn else "0", key="DRAW2")


def _first_draws(call: Call, setting: Setting, answer: str) -> int:
    """How many first draws there are at the reports of a call."""
    word, text = next(it.fields[:2] for it in read_records(answer) if it.fields[0] in ("table", "interim"))
    reports = call.given["PROFILE"].split(",")
    if word == "table":
        return int(text)
    if setting.kind == "general":
        profile = [names.index(report) for report, names in zip(reports, setting.types())]
        return int(text) * setting.weight(profile)
    counts = [reports.count(str(it.value)) for it in setting.top["values"]]
    return int(text) * counts_weight(setting, counts) * (1 if call.units is None else UNITS_PARTS)
