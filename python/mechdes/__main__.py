"""The words of the program, over the library: `python -m mechdes solve setting.toml`, or `mechdes solve setting.toml` where pip
installed the package. What is printed, and the status, are the program's."""

from __future__ import annotations

import inspect
import os
import pathlib
import signal
import sys
from collections.abc import Sequence
from typing import NamedTuple

import mechdes

# What each command takes, as the program's own table has it.
FORMS = {
    "audit": "SETTING ANSWER",
    "rows": "SETTING",
    "check": "SETTING ANSWER [--units NUMBER]",
    "solve": "SETTING [--width W]",
    "replay": "SETTING PIVOTS [--width W]",
    "realise": "SETTING ODDS",
    "fair": "SETTING [--width W]",
    "find": "SETTING [--from BASIS]",
    "findfair": "SETTING",
    "require": "SETTING CONDITIONS",
    "asym": "SETTING [--width W]",
    "units": "SETTING NUMBER [--width W]",
    "threshold": "SETTING NUMBER",
    "award": "SETTING NUMBER PROFILE DRAW",
    "determ": "SETTING [--width W]",
    "determcheck": "SETTING ANSWER",
    "run": "SETTING ANSWER PROFILE DRAW1 DRAW2 [--units NUMBER]",
    "report": "SETTING ANSWER [--units NUMBER]",
    "iron": "SETTING",
    "ironunits": "SETTING NUMBER",
    "make": "NUMBER",
    "drill": "NUMBER",
}
_SECOND = ("ANSWER", "PIVOTS", "ODDS", "CONDITIONS")
_FUNCTIONS = {"findfair": "find_fair", "ironunits": "iron_units"}  # where a function has another name than its command
_OPTIONS = ("--width", "--units")
_SETTING_REFUSED, _ANSWER_REFUSED, _READ_FAULT, _WRITE_FAULT = 65, 66, 70, 71
_READ_FAULTED = mechdes.Reply(_READ_FAULT, b"", b"mechdes: read fault\n")


class Call(NamedTuple):
    """The words of a call as the library takes them, and the paths of its files."""

    words: list[str]
    setting: str | None = None
    second: str | None = None


def call_of(words: Sequence[str]) -> Call:
    """A call, by the words behind the program's name. Options may stand anywhere, up to a word `--`."""
    form = FORMS.get(words[0], "") if words else ""
    arguments = iter(form.partition(" [")[0].split())
    found, paths, is_value, is_basis, is_ended = list(words[:1]), dict[str, str](), False, False, False
    for word in words[1:]:
        if is_basis or (word.startswith("--from=") and not is_value and not is_ended):
            paths["second"] = word if is_basis else word.removeprefix("--from=")
            found.append("basis" if is_basis else "--from=basis")
            is_basis = False
            continue
        if is_value or (word.startswith("-") and not is_ended):
            is_basis = word == "--from" and not is_value
            is_value = word in _OPTIONS
            is_ended = is_ended or word == "--"
            found.append(word)
            continue
        argument = next(arguments, "")
        name = "setting" if argument == "SETTING" else "second" if argument in _SECOND else None
        if name is not None:
            paths[name] = word
        found.append(word if name is None else argument.lower())
    return Call(found, paths.get("setting"), paths.get("second"))


def reply_of(words: Sequence[str]) -> mechdes.Reply:
    """What the program would say of words. Where a file cannot be read, what comes before it is read is told first."""
    call = call_of(words)
    setting, second = _read(call.setting), _read(call.second)
    reply = mechdes.call(call.words, setting or b"", second or b"")
    is_unread = (setting is None and reply.status == _SETTING_REFUSED) or (second is None and reply.status == _ANSWER_REFUSED)
    return _READ_FAULTED if is_unread else reply


def _read(path: str | None) -> bytes | None:
    """The bytes of a file: none where the call has no such file, and None where it cannot be read."""
    try:
        return b"" if path is None else pathlib.Path(path).read_bytes()
    except (OSError, ValueError):
        return None


def help_on(name: str) -> str:
    """The help on a command: what it takes, and what it is for."""
    purpose = inspect.getdoc(getattr(mechdes, _FUNCTIONS.get(name, name))) or ""
    return "\n\n".join([f"mechdes {name} {FORMS[name]}", purpose.split("\n\n")[0]])


def help_text() -> str:
    """The help on all commands."""
    lines = [f"    {name} {form}" for name, form in FORMS.items()]
    return "\n".join(["mechdes COMMAND, which is one of", "", *lines, "", "`mechdes help COMMAND` tells of one command."])


def version() -> str:
    """The version, and where the library is."""
    try:
        mechdes.library()
    except mechdes.LibraryMissing as missing:
        return f"mechdes {mechdes.__version__}\n{missing}"
    return f"mechdes {mechdes.__version__}\n{mechdes.library_path()}"


def told(words: Sequence[str]) -> str | None:
    """What is printed for words that ask for help or the version, or None for others."""
    match list(words):
        case ["--version"]:
            return version()
        case ["help" | "--help"]:
            return help_text()
        case ["help", name] | [name, "--help"] if name in FORMS:
            return help_on(name)
    return None


def main() -> int:
    """Carries out the words of the command line, and gives the status."""
    signal.signal(signal.SIGINT, signal.SIG_DFL)  # a call in the library ends at once
    words = sys.argv[1:]
    text = told(words)
    try:
        reply = reply_of(words) if text is None else mechdes.Reply(0, f"{text}\n".encode(), b"")
    except mechdes.LibraryMissing as missing:
        reply = mechdes.Reply(1, b"", f"mechdes: {missing}\n".encode())
    try:
        for stream, said in ((sys.stdout, reply.out), (sys.stderr, reply.err)):
            stream.buffer.write(said)
            stream.flush()
    except OSError:
        os.dup2(os.open(os.devnull, os.O_WRONLY), sys.stdout.fileno())
        return _WRITE_FAULT
    return reply.status


if __name__ == "__main__":
    sys.exit(main())
