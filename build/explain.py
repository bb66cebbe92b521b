#!/usr/bin/env python3
"""Explains an answer in words: `build/explain.py SETTING [ANSWER] [--units NUMBER] [--json]`, which is `mechdes explain`.

It asks the program that `rt ci` or the launcher built. The status is 0 where it explained. Where the program refuses a file, the
status and the line on standard error are the program's, and so they are where the words are no call or a file cannot be read.
"""

from __future__ import annotations

import argparse
import json
import os
import shutil
import sys
from pathlib import Path
from typing import List, NoReturn, Optional

sys.dont_write_bytecode = True
TOP = Path(__file__).resolve().parent.parent
if sys.version_info < (3, 11):
    sys.exit("mechdes: explain wants python3 of 3.11 or later")
sys.path.insert(0, str(TOP / "python"))

import mechdes
import words as front
from words import Refusal

PROGRAM = TOP / "crates/md_prog/out/md_prog"
SETTING, ANSWER, NUMBER = 65, 66, 67
NARROWEST = 40  # columns


class NoCall(Exception):
    """The words are no call."""


class Parser(argparse.ArgumentParser):
    """What the words may be."""

    def __init__(self) -> None:
        super().__init__(add_help=False, allow_abbrev=False)
        self.add_argument("setting", type=Path)
        self.add_argument("answer", type=Path, nargs="?")
        self.add_argument("--units", type=number)
        self.add_argument("--json", action="store_true")

    def error(self, message: str) -> NoReturn:
        raise NoCall(message)


def number(text: str) -> int:
    """A whole number, in the one way in which the program reads it."""
    if not front.is_number(text):
        raise argparse.ArgumentTypeError(text)
    return int(text)


def explain(asked: argparse.Namespace) -> Optional[Refusal]:
    """Prints an explanation, or returns why there is none."""
    if asked.units is not None and not 1 <= asked.units <= front.MOST_UNITS:
        return Refusal(NUMBER, "number refused")
    mechdes.use(mechdes.Executable(PROGRAM))
    try:
        setting = bytes_of(asked.setting)
        found = mechdes.explain(setting, None if asked.answer is None else answer_of(asked.answer, setting), asked.units)
    except Unreadable:
        return Refusal(front.READ_FAULT, "read fault")
    except mechdes.Refused as refused:
        return Refusal(refused.status, refused.message)
    except mechdes.SettingNotRead as fault:
        return Refusal(SETTING, f"setting refused: {fault}")
    except mechdes.AnswerNotRead as fault:
        return Refusal(ANSWER, f"answer refused: {fault}")
    sys.stdout.write(json.dumps(found.data(), indent=2) + "\n" if asked.json else shown(found))
    sys.stdout.flush()
    return None


class Unreadable(Exception):
    """A file that cannot be read."""


def bytes_of(file: Path) -> bytes:
    try:
        return file.read_bytes()
    except (OSError, ValueError) as fault:
        raise Unreadable from fault


def answer_of(file: Path, setting: bytes) -> bytes:
    """The bytes of an answer. Where they cannot be read, a setting that is refused is told first, as the program does."""
    try:
        return bytes_of(file)
    except Unreadable:
        mechdes.rows(setting)
        raise


def shown(found: mechdes.Explanation) -> str:
    """The text of an explanation: on a terminal as wide as that is, and in colour unless NO_COLOR is set."""
    is_terminal = sys.stdout.isatty()
    columns = shutil.get_terminal_size().columns if is_terminal else 80
    return found.text(max(NARROWEST, columns), is_terminal and not os.environ.get("NO_COLOR"))


def main(words: List[str]) -> int:
    try:
        refusal = explain(Parser().parse_intermixed_args(words))
    except NoCall:
        refusal = Refusal(front.USAGE, "usage")
    except BrokenPipeError:
        os.dup2(os.open(os.devnull, os.O_WRONLY), 1)
        return 71
    return front.refuse(["explain", *words], refusal) if refusal else 0


if __name__ == "__main__":
    sys.exit(main(sys.argv[1:]))
