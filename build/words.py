"""What the launcher says by itself: help and the version, and, before the program is built, the refusals that are certain.

The commands and what they take are read from the program's own table, crates/md_cli_words/src/command.rt; what they are for, from
README.md; and what they print, from docs/FORMATS.md. The statuses and the first lines of refusals are the program's."""

from __future__ import annotations

import os
import re
import sys
from pathlib import Path
from typing import Dict, List, NamedTuple, Optional, Sequence

from crates import Failed, crates_of, find_kit, is_all_built
from meaning import meaning

TOP = Path(__file__).resolve().parent.parent
USAGE, READ_FAULT = 64, 70
MOST_UNITS = 12
MOST_BITS = 126
OPTIONS = {
    "--width W": "numbers have at most W bits: from 4 to 62, and 62 where none is asked for",
    "--units NUMBER": "the answer is one about so many units, from 1 to 12",
    "--from BASIS": "the search begins at the basis that this file lists",
    "ANSWER": "what is explained; where it is left out, the best rule that `find` or `solve` gives",
    "--json": "the explanation as data",
}


class Refusal(NamedTuple):
    """A status, and the line that the program writes with it."""

    status: int
    line: str


class Form(NamedTuple):
    """What a command takes: its arguments and its options."""

    arguments: List[str]
    options: List[str]


# The commands of the launcher itself. Options that do not begin with `-` are words that may be left out.
OWN = {"explain": Form(["SETTING"], ["ANSWER", "--units NUMBER", "--json"])}


def commands(top: Path = TOP) -> Dict[str, Form]:
    """The commands of the program in the order of its table, and then those of the launcher."""
    text = (top / "crates/md_cli_words/src/command.rt").read_text()
    told = dict(re.findall(r"(?m)^    /// `([a-z]+)((?: [^`]*)?)`", text))
    found = {}
    for name in re.findall(r'(?m)^        "(\w+)" => Some', text):
        options = re.findall(r"\[(--[^\]]*)\]", told[name])
        found[name] = Form(re.sub(r"\[[^\]]*\]", "", told[name]).split(), options)
    return {**found, **OWN}


# Refusals


def is_number(text: str) -> bool:
    """Whether the program reads the text as a whole number."""
    return re.fullmatch(r"0|-?[1-9][0-9]*", text) is not None and abs(int(text)) < 1 << MOST_BITS


def are_numbers_right(form: Form, words: Sequence[str]) -> bool:
    """Whether no word is refused for the number that it is to say."""
    given = dict(zip(form.arguments, words))
    numbers = [it for name, it in given.items() if name == "NUMBER" or name.startswith("DRAW")]
    units = [given["NUMBER"]] if {"NUMBER", "SETTING"} <= {*given} else []
    return all(map(is_number, numbers)) and all(1 <= int(it) <= MOST_UNITS for it in units)


def is_absent(file: str) -> bool:
    try:
        os.stat(file)
    except FileNotFoundError:
        return True
    except (OSError, ValueError):
        pass
    return False


def refusal_of(words: Sequence[str], known: Dict[str, Form]) -> Optional[Refusal]:
    """The refusal of a call, where it is certain without the program."""
    if any(it != it.encode(errors="replace").decode() for it in words):
        # (a word that is no text has no line of its own)
        return None
    if not words or words[0] not in known:
        return Refusal(USAGE, "usage")
    name, *rest = words
    form = known[name]
    if any(it.startswith("-") for it in rest):
        return None
    if not 0 <= len(rest) - len(form.arguments) <= sum(not it.startswith("-") for it in form.options):
        return Refusal(USAGE, "usage")
    if form.arguments[0] == "SETTING" and are_numbers_right(form, rest) and is_absent(rest[0]):
        return Refusal(READ_FAULT, "read fault")
    return None


def refuse(words: Sequence[str], refusal: Refusal) -> int:
    """Writes a refusal of a call as the program does, on a terminal with what it means, and returns its status."""
    print(f"mechdes: {refusal.line}", file=sys.stderr)
    if sys.stderr.isatty():
        sys.stderr.write(meaning("", refusal.line, words))
    return refusal.status


# Help


def purposes(top: Path = TOP) -> List[str]:
    """The rows of README's table of commands: what one wants, and below it a line for each command."""
    lines: List[str] = []
    for want, cells in re.findall(r"(?m)^\| \*\*(.*?)\*\* \|(.*)\|$", (top / "README.md").read_text()):
        lines += ["", want]
        found = re.split(r"`([a-z]+ [A-Z][A-Z0-9 \[\]]*)`: ", cells)
        for takes, text in zip(found[1::2], found[2::2]):
            lines.append(f"    {takes}: {text.replace('`', '').strip('.| ')}")
    return lines


def section_of(name: str, top: Path = TOP) -> str:
    """The section of docs/FORMATS.md on what a command prints."""
    sections = re.split(r"(?m)^(?=## )", (top / "docs/FORMATS.md").read_text())
    heads = (it for it in sections if re.match(rf"## What (?:`\w+` and )?`{name}` (?:and `\w+` )?prints?\n", it))
    return next(heads, "").partition("\n")[2].strip()


def help_of(name: str, form: Form, top: Path = TOP) -> str:
    """The help on a command."""
    takes = " ".join(["mechdes", name, *form.arguments, *(f"[{it}]" for it in form.options)])
    purpose = [it.strip() for it in purposes(top) if it.startswith(f"    {name} ")]
    options = [f"    {it}: {OPTIONS[it]}" for it in form.options]
    return "\n".join([takes, "", *purpose, *options, "", section_of(name, top)])


def version(top: Path = TOP) -> str:
    """The version, the kit's line, and whether the program is proved."""
    found = re.search(r'(?m)^version = "(.*)"', (top / "python/pyproject.toml").read_text())
    try:
        kit = find_kit()
        record = top / "crates/md_prog/out/built"
        level = record.read_text().split()[0] if record.exists() else ""
        is_built = level != "" and is_all_built(crates_of(top, "md_prog", kit), level)
        state = "proved and built here" if is_built else "not built here yet: the first call proves and builds it"
        line = kit.line()
    except Failed as error:
        line, state = str(error), "whether it is proved is not known without the kit"
    return "\n".join([f"mechdes {found[1] if found else ''}", line, state])


def told(words: Sequence[str]) -> str:
    """What the launcher prints for words that ask for help or the version."""
    if [*words] == ["--version"]:
        return version()
    known = commands()
    names = [it for it in words if it in known]
    if names:
        return help_of(names[0], known[names[0]])
    head, foot = "mechdes COMMAND, where you want to", f"`mechdes help COMMAND` tells of one command, and {TOP / 'docs/FORMATS.md'} of all."
    return "\n".join([head, *purposes(), "", foot])


if __name__ == "__main__":
    try:
        print(told(sys.argv[1:]), flush=True)
    except BrokenPipeError:
        os.dup2(os.open(os.devnull, os.O_WRONLY), 1)
