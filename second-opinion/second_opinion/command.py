"""What the commands of this folder share: their words, the files they read, and how they end.

The statuses are those of mechdes: 64 for words that are no command, 65 and 66 for a refused file, 70 for one that cannot
be read, 71 where the answer cannot be written, 72 for want of memory. One is not: 1 for what cannot be done here.
"""

import os
import re
import sys
from collections.abc import Callable
from pathlib import Path
from typing import NoReturn

from second_opinion.setting import Refused

BEYOND = 1  # the status for what cannot be done here
Command = Callable[[list[str]], tuple[int, str]]  # from words to a status and a text


def file_names(words: list[str], count: int) -> list[str]:
    """The names of files, and numbers and reports, among the words of a command, as many as it needs. There are no options, so
    that a word that begins with `-` is wrong where no `--` stands before it; but `-` alone is a name. Words that are not UTF-8
    end a command without a line."""
    if not all(map(is_unicode, words)):
        raise Refused(64, None)
    names, only_names = [], False
    for word in words:
        if word == "--" and not only_names:
            only_names = True
        elif word.startswith("-") and word != "-" and not only_names:
            raise Refused(64, "usage")
        else:
            names.append(word)
    if len(names) != count:
        raise Refused(64, "usage")
    return names


def taken_option(words: list[str], option: str) -> tuple[list[str], str | None]:
    """The words without an option and its value, and the value, or None where the option is not there. It may stand anywhere before
    `--`, once, with the value behind it or behind a `=`."""
    end = words.index("--") if "--" in words else len(words)
    places = [place for place, word in enumerate(words[:end]) if word.split("=")[0] == option]
    if not places:
        return words, None
    place = places[0]
    joined = "=" in words[place]
    behind = place + (1 if joined else 2)
    value = words[place].partition("=")[2] if joined else next(iter(words[place + 1:end]), "-")
    if len(places) > 1 or not value or (value.startswith("-") and not joined):
        raise Refused(64, "usage")
    return words[:place] + words[behind:], value


def number_of(word: str) -> int:
    """The whole number of at most 126 bits that a word is. A number has one text."""
    if not re.fullmatch("0|-?[1-9][0-9]*", word, re.ASCII) or abs(int(word)) >= 2**126:
        raise Refused(64, "usage")
    return int(word)


def is_unicode(word: str) -> bool:
    """Whether a word was given in UTF-8: Python keeps other bytes as lone surrogates."""
    return not any("\ud800" <= letter <= "\udfff" for letter in word)


def read_file(name: str, limit: int) -> bytes:
    """The bytes of a file, or one more than the limit where it is longer."""
    try:
        with open(name, "rb") as file:
            return file.read(limit + 1)
    except (OSError, ValueError):
        raise Refused(70, "read fault") from None


def outcome(command: Command, words: list[str]) -> tuple[int, str, str | None]:
    """What a command comes to: its status, what it prints, and its line on standard error, or None."""
    try:
        status, text = command(words)
        return status, text, None
    except Refused as refused:
        return refused.status, "", refused.line
    except MemoryError:
        return 72, "", "want of memory"


def run(command: Command, name: str = "mechdes") -> NoReturn:
    """Runs a command as a program, by the words of the call. The name begins the line on standard error: that of mechdes
    where the two are alike, and that of the command where mechdes does what cannot be done here."""
    status, text, line = outcome(command, sys.argv[1:])
    try:
        sys.stdout.buffer.write(text.encode("utf-8", "replace"))
        sys.stdout.flush()
        if line is not None:
            sys.stderr.write(f"{Path(sys.argv[0]).name if status == BEYOND else name}: {line}\n")
    except OSError:
        os.dup2(os.open(os.devnull, os.O_WRONLY), sys.stdout.fileno())  # Python writes the rest once more at its end
        status = 71
    sys.exit(status)
