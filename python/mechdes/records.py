"""The records of a printed text: written from values, and taken one after the other, where whatever does not fit is refused with
its place."""

from __future__ import annotations

import csv
import io
import itertools
import re
from collections.abc import Iterable, Iterator
from fractions import Fraction
from typing import TypeAlias

from .errors import AnswerNotRead
from .showing import Shown

Record: TypeAlias = tuple[object, ...]  # a word with its further fields
_NUMBER = re.compile(r"0|-?[1-9][0-9]*").fullmatch


class Printed(Shown):
    """What a command prints, as a value: `text` has just that, made anew from the value's parts.

    Where a text by another hand has a value that is not in least terms, quotes or empty lines, these are not kept: what is written
    then reads back as the same value.
    """

    def records(self) -> Iterator[Record]:
        """The records of the text."""
        raise NotImplementedError

    def text(self) -> str:
        """The text. Raises `ValueError` where a part is not one of a text, as a number that is no multiple of the denominator."""
        return "".join(",".join(map(str, record)) + "\n" for record in self.records())

    def __str__(self) -> str:
        return self.text()


def units(number: Fraction | int, denominator: int) -> int:
    """A fraction in units of one over a denominator. Raises `ValueError` where it is no multiple of that, and `TypeError` where it
    is no exact number."""
    if not isinstance(number, (Fraction, int)):
        raise TypeError(f"a fraction or a whole number is wanted, not {number!r}")
    factor, rest = divmod(denominator, number.denominator)
    if rest:
        raise ValueError(f"{number} is no multiple of 1/{denominator}")
    return number.numerator * factor


def terms(number: Fraction | int, scale: int = 1) -> tuple[int, int]:
    """The two fields of a fraction in least terms, where it is an amount at a scale."""
    scaled = number * scale
    return scaled.numerator, scaled.denominator


class Over(dict[str, Fraction]):
    """Number fields as fractions over one denominator (of amounts times their scale). Each text is read once."""

    def __init__(self, records: Records, denominator: int) -> None:
        super().__init__()
        self._records, self._denominator = records, denominator

    def __missing__(self, field: str) -> Fraction:
        found = self[field] = Fraction(self._records.number(field), self._denominator)
        return found


class Records:
    """The records of a text. A record is its word with its further fields."""

    def __init__(self, text: str) -> None:
        try:
            self._records = [record for record in csv.reader(io.StringIO(text, newline=""), strict=True) if record]
        except csv.Error as fault:
            raise AnswerNotRead(f"no records: {fault}") from None
        self._at = 0
        self._numbers: dict[str, int] = {}  # each text is read once, since the same numbers come again and again

    def wrong(self, why: str) -> AnswerNotRead:
        """The refusal of the record that was taken last."""
        return AnswerNotRead(f"record {self._at}: {why}")

    def word(self) -> str:
        """The word of the next record, or nothing at the end."""
        return self._records[self._at][0] if self._at < len(self._records) else ""

    def take(self, word: str, count: int | None = None) -> list[str]:
        """The fields of the next record, which must have this word, and so many fields behind it."""
        found = self.word()
        self._at += 1
        if found != word:
            raise self.wrong(f"{word} is wanted, not {found or 'the end of the text'}")
        fields = self._records[self._at - 1][1:]
        if count is not None and len(fields) != count:
            raise self.wrong(f"{word} has {len(fields)} fields behind it, not {count}")
        return fields

    def all(self, word: str, count: int | None = None) -> Iterator[list[str]]:
        """The fields of all next records of this word."""
        while self.word() == word:
            yield self.take(word, count)

    def number(self, field: str) -> int:
        """A whole number."""
        found = self._numbers.get(field)
        if found is None:
            if not _NUMBER(field):
                raise self.wrong(f"{field!r} is no number")
            found = self._numbers[field] = int(field)
        return found

    def numbers(self, fields: Iterable[str]) -> tuple[int, ...]:
        """Whole numbers."""
        return tuple(map(self.number, fields))

    def fraction(self, fields: list[str], scale: int = 1) -> Fraction:
        """A fraction of two fields, which is divided by the scale where it is an amount."""
        numerator, denominator = fields
        return Fraction(self.number(numerator), self.positive(denominator) * scale)

    def sparse(self, fields: Iterable[str]) -> dict[int, int]:
        """Pairs of a column and its number, which is not 0, in ascending order of columns."""
        numbers = self.numbers(fields)
        columns, found = numbers[::2], numbers[1::2]
        if len(columns) != len(found) or 0 in found or list(columns) != sorted(set(columns)):
            raise self.wrong("no ascending pairs of a column and a number that is not 0")
        return dict(zip(columns, found, strict=True))

    def denominator(self, word: str) -> int:
        """The number of a record that has a denominator alone."""
        return self.positive(self.take(word, 1)[0])

    def positive(self, field: str) -> int:
        """A number that may be a denominator."""
        found = self.number(field)
        if found < 1:
            raise self.wrong(f"{field} is no denominator")
        return found

    def same(self, found: Iterable[str], wanted: Iterable[str]) -> None:
        """Refuses names that are not those that are wanted."""
        for one, other in itertools.zip_longest(found, wanted):
            if one != other:
                raise self.wrong(f"{other} is wanted, not {one}")

    def end(self) -> None:
        """Takes the last record."""
        self.take("end", 0)
        self.nothing()

    def nothing(self) -> None:
        """Refuses further records."""
        if self._at < len(self._records):
            self._at += 1
            raise self.wrong("nothing is wanted behind the end")
