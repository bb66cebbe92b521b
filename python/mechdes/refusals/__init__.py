"""What a refusal of the program means, in a sentence: which file, where in it, what was found there, and what is wanted.

The program's own line says what is wrong in a word or two, and is proved. What stands here is not: it reads the words and the
files of the call once more, looks for what the line names, and tells where that is. Where it finds nothing wrong it says nothing.
It wants Python 3.8 and nothing else, so that the launcher can run it from its folder, apart from the package.
"""

from __future__ import annotations

import re
from typing import Callable, Dict, NamedTuple, Optional, Sequence

from .call_faults import Call, WrongWords, draw_fault, number_fault, profile_fault, usage_fault
from .faults import TABLE, Fault, distance, nearest
from .record_faults import Asked, pivot_fault, record_fault
from .setting_faults import Setting, setting_fault

__all__ = ["Sentence", "STANDARD_INPUT", "distance", "nearest", "sentence_of"]

STANDARD_INPUT = "standard input"
NOT_FOUND = (LookupError, TypeError, ValueError, AttributeError, RecursionError, StopIteration)
Reader = Callable[[str], bytes]


class Sentence(NamedTuple):
    """What a refusal means.

    text    the sentence, with the file and its line in front
    line    the line of the file, from 1, where it is known
    key     the key, record or word that is wrong, as docs/FORMATS.md calls it; empty where it is none
    found   what stands there, in words
    wanted  what is wanted there, in words
    """

    text: str
    line: Optional[int]
    key: str
    found: str
    wanted: str


class _Files:
    """The files of a call: their texts, and how they are called."""

    def __init__(self, call: Call, read: Reader, names: Dict[str, str]) -> None:
        self.call, self.read, self.names = call, read, names

    def text(self, argument: str) -> str:
        return self.read(self.call.given[argument]).decode("utf-8", "replace")

    def called(self, argument: str) -> str:
        """A file in words. One that has no name is called for what it is, and so is one that is neither setting nor answer."""
        kind, word = TABLE["files"][argument], self.call.given[argument]
        name = self.names.get(word, word)
        if not name or not kind.get("is_named"):
            return name or kind["called"]
        return f"{kind['called']} {'on ' if name == STANDARD_INPUT else ''}{name}"

    def told(self, argument: str, fault: Fault) -> Sentence:
        """What is wrong in a file, in a sentence that begins with its place."""
        text = self.text(argument) if fault.at is not None else ""
        line = None if fault.at is None else text.count("\n", 0, fault.at) + 1
        place = self.called(argument) if line is None else f"{self.called(argument)}, line {line}"
        return Sentence(f"{place}: {fault.text()}", line, fault.key, fault.found, fault.wanted)


def sentence_of(words: Sequence[str], line: str, read: Reader, names: Optional[Dict[str, str]] = None) -> Optional[Sentence]:
    """What a refusal means, or None where nothing is found.

    words  those of the call, behind the program's name
    line   what the program wrote on standard error
    read   gives the bytes of a file by its name, or raises `OSError`
    names  what files are called, by their names, where that is something else; empty where they have no name
    """
    told = re.sub(r"^mechdes: ", "", line.strip())
    try:
        return _sentence(words, told, read, names or {})
    except NOT_FOUND + (OSError,):
        return None


def _sentence(words: Sequence[str], told: str, read: Reader, names: Dict[str, str]) -> Optional[Sentence]:
    if told == "usage":
        return _bare(usage_fault(words))
    try:
        files = _Files(Call(words), read, names)
    except WrongWords:
        return None
    if told == "read fault":
        return _unread(files)
    if told == "number refused":
        return _bare(number_fault(files.call))
    of, _, cause = told.partition(" refused: ")
    if of == "setting":
        return _of_setting(files, cause)
    return _of_answer(files, cause) if of == "answer" else _of_words(files, told)


def _bare(fault: Optional[Fault]) -> Optional[Sentence]:
    """What is wrong with words, which are in no file."""
    return fault and Sentence(fault.text(), None, fault.key, fault.found, fault.wanted)


def _unread(files: _Files) -> Optional[Sentence]:
    """Which file cannot be read, and why."""
    for argument in (it for it in files.call.given if it in TABLE["files"]):
        try:
            files.text(argument)
        except OSError as fault:
            name = {FileNotFoundError: "file.absent", IsADirectoryError: "file.folder"}.get(type(fault), "file.unread")
            found = files.called(argument)
            return _bare(Fault(name, found, fault.strerror if name == "file.unread" else "a file", key=argument))
    return None


def _long(files: _Files, argument: str) -> Optional[Sentence]:
    limit = TABLE["files"][argument]["limit"]
    if len(files.read(files.call.given[argument])) <= limit:
        return None
    return files.told(argument, Fault("file.long", wanted=f"{limit:,} bytes"))


def _of_setting(files: _Files, cause: str) -> Optional[Sentence]:
    """What is wrong with the setting."""
    if cause == "too long":
        return _long(files, "SETTING")
    data = files.read(files.call.given["SETTING"])
    try:
        text = data.decode()
    except UnicodeDecodeError as fault:
        at = len(data[: fault.start].decode())
        return files.told("SETTING", Fault("toml.bytes", at=at)) if cause == "not toml" else None
    found = setting_fault(text, cause, files.call.command, "--units" in files.call.options)
    return found and files.told("SETTING", found)


def _asked(files: _Files) -> Asked:
    call = files.call
    units = call.units if "--units" in call.options else None
    return Asked(call.command, units, Setting(files.text("SETTING")))


def _of_answer(files: _Files, cause: str) -> Optional[Sentence]:
    """What is wrong with the second file."""
    argument = files.call.second or ""
    if cause == "too long":
        return _long(files, argument)
    kind = TABLE["files"][argument].get("kind", "")
    found = record_fault(_asked(files), kind, files.text(argument), cause)
    return found and files.told("SETTING" if found.name.startswith("sale") else argument, found)


def _of_words(files: _Files, told: str) -> Optional[Sentence]:
    """What of the words does not fit the files."""
    pivot = re.fullmatch(r"pivot (\d+) refused", told)
    if pivot:
        found = pivot_fault(_asked(files), files.text("PIVOTS"), int(pivot[1]))
        return found and files.told("PIVOTS", found)
    setting = Setting(files.text("SETTING"))
    if told == "profile refused":
        return _bare(profile_fault(files.call, setting))
    answer = files.text("ANSWER") if "ANSWER" in files.call.given else None
    return _bare(draw_fault(files.call, setting, answer)) if told == "draw refused" else None
