"""What the package raises. Every exception of its own is a `MechdesError`."""

from __future__ import annotations

import pathlib

from .refusals import Sentence


class MechdesError(Exception):
    """The root of all exceptions of this package."""


class LibraryMissing(MechdesError, ImportError):
    """The proved library could not be loaded from `library`: it was not built, or is none that this machine can load."""

    def __init__(self, library: pathlib.Path, fault: str) -> None:
        super().__init__(library, fault)
        self.library = library
        self.fault = fault

    def __str__(self) -> str:
        return (
            f"the library of mechdes could not be loaded from {self.library}: {self.fault}. "
            "python/build makes it, before pip installs the package; or set MECHDES_LIBRARY to its path"
        )


class SettingNotRead(MechdesError, ValueError):
    """A text is no setting that this package can name the parts of."""


class AnswerNotRead(MechdesError, ValueError):
    """A text is no answer to the setting, or none that this package knows."""


class UnknownAnswer(AnswerNotRead):
    """An answer of a kind that this package does not know: a newer program may have printed it."""


class NoFrontier(MechdesError):
    """Two objectives have no frontier, or none that can be found within the limits of settings. `answer` says why, where one
    does."""

    def __init__(self, reason: str, answer: object = None) -> None:
        super().__init__(reason, answer)
        self.reason = reason
        self.answer = answer

    def __str__(self) -> str:
        return self.reason


class Refused(MechdesError):
    """A call that the program refuses, or ends otherwise than the function is for.

    status    the status of the program, as docs/FORMATS.md lists them
    text      what the program printed: its line on standard error where there is one
    sentence  what that means: which file, where in it, what was found there and what is wanted; None where it is not known
    """

    def __init__(self, status: int, text: str, sentence: Sentence | None = None) -> None:
        super().__init__(status, text, sentence)
        self.status = status
        self.text = text
        self.sentence = sentence

    @property
    def message(self) -> str:
        """The program's line, without its name: `setting refused: zero weight`."""
        return self.text.strip().removeprefix("mechdes: ")

    @property
    def reason(self) -> str:
        """What stands last in the line: `zero weight`."""
        return self.message.split(" refused: ")[-1]

    @property
    def line(self) -> int | None:
        """The line of the file that is wrong, from 1, where it is known."""
        return self.sentence.line if self.sentence else None

    @property
    def key(self) -> str | None:
        """The key, record or word that is wrong, as docs/FORMATS.md calls it, where it is known."""
        return (self.sentence.key or None) if self.sentence else None

    @property
    def found(self) -> str | None:
        """What stands there, in words, where it is known."""
        return (self.sentence.found or None) if self.sentence else None

    @property
    def wanted(self) -> str | None:
        """What is wanted there, in words, where it is known."""
        return (self.sentence.wanted or None) if self.sentence else None

    def __str__(self) -> str:
        told = f": {self.sentence.text}" if self.sentence else ""
        return f"{self.message or 'no line'} (status {self.status}){told}"


class UsageRefused(Refused):
    """Status 64: the words are no command. A width, a draw or a profile is no such number or word, say."""


class SettingRefused(Refused):
    """Status 65: the setting is refused; `reason` says why."""


class AnswerRefused(Refused):
    """Status 66: the answer, the pivots or the odds are refused; `reason` says at which record."""


class WordRefused(Refused):
    """Status 67: a number, a pivot, a profile or a draw is refused."""


class OutOfMemory(Refused, MemoryError):
    """Status 72: there was no memory for the work. Nothing is known of the setting."""


_BY_STATUS: dict[int, type[Refused]] = {64: UsageRefused, 65: SettingRefused, 66: AnswerRefused, 67: WordRefused, 72: OutOfMemory}


def refusal(status: int, text: str, sentence: Sentence | None = None) -> Refused:
    """The exception of a status."""
    return _BY_STATUS.get(status, Refused)(status, text, sentence)
