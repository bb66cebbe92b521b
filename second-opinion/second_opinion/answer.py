"""Reads and writes answer files, as docs/FORMATS.md states them.

An answer is a CSV file of records. `read_answer` reads them one after the other, knows at each place which words may
stand there, and refuses the first record that is wrong. What comes out is one of the five kinds of answer below; those
about auctions are read in `auction_answer.py`.
"""

import re
from collections.abc import Callable, Iterable, Iterator, Mapping, Sequence
from dataclasses import dataclass, field
from typing import NoReturn

from second_opinion.setting import GeneralSetting, Profile, Refused

Pair = tuple[int, int]
Path = tuple[list[Pair], tuple[int, int, int, int]]  # pivots (row, column), and an entry (row, column, numerator, denominator)

FILE_LIMIT = 67_108_864
GREATEST = 2**62 - 1  # the size of a number
GREATEST_WIDE = 2**126 - 1  # the size of a number in `value` and `wide` records
GREATEST_PLACE = 2**32 - 1  # a row or column of a pivot or an entry
NO_TABLE = "answer refused: no table"  # of a command that needs a mechanism
ANOTHER_KIND, ANOTHER_WORD = (f"answer refused: line 1: field {place}" for place in (3, 4))  # in the first record
END = {"end": 1}  # the last record, with its number of fields

NUMBER = re.compile(rb"0|-?[1-9][0-9]*")
# A field that begins with a quote runs to the next single quote, or to the end of the file; what follows that quote up
# to the next comma belongs to it. In any other field a quote is a byte like others.
FIELD = re.compile(rb'"([^"]*+(?:""[^"]*+)*+)(?:"([^,\r\n]*)|\Z)|([^,\r\n]*)')


@dataclass
class Mechanism:
    """Lotteries and payments by profile (a tuple of type numbers), all over the denominator `den`. `pays` is empty where
    the setting has no payments."""

    den: int
    lotteries: dict[Profile, list[int]] = field(default_factory=dict)
    pays: dict[Profile, list[int]] = field(default_factory=dict)


@dataclass
class TableAnswer:
    """A mechanism, of which nothing is claimed."""

    mechanism: Mechanism


@dataclass
class OptimalAnswer:
    """A mechanism, its value (a numerator and a denominator), and multipliers by row: pairs of face and main. The main
    ones are over the denominator `bound`."""

    value: Pair
    mechanism: Mechanism
    bound: int
    multipliers: dict[int, Pair]


@dataclass
class InfeasibleAnswer:
    """That there is no mechanism. The main multiplier of each pair is 0."""

    multipliers: dict[int, Pair]


@dataclass
class UnboundedAnswer:
    """A mechanism, and payments by profile that gain without end when they are added to it."""

    mechanism: Mechanism
    rays: dict[Profile, list[int]]


@dataclass
class TooWideAnswer:
    """One or two paths, each up to its wide entry."""

    paths: list[Path]


FoundAnswer = OptimalAnswer | InfeasibleAnswer | UnboundedAnswer
Answer = TableAnswer | FoundAnswer | TooWideAnswer


def records_of(data: bytes) -> Iterator[list[bytes]]:
    """The records of a CSV file, each a list of fields. A line ends at a newline or a carriage return, so that nothing
    stands between those two; a line in which nothing stands is passed over."""
    data = data.removeprefix(b"\xef\xbb\xbf")
    at = 0
    fields: list[bytes] = []
    while at < len(data):
        if not fields and data[at] in b"\r\n":
            at += 1
            continue
        match = FIELD.match(data, at)
        assert match is not None  # an empty field matches
        quoted, rest, plain = match.groups()
        fields.append(plain if quoted is None else quoted.replace(b'""', b'"') + (rest or b""))
        at = match.end()
        if data[at : at + 1] == b",":
            at += 1
            if at < len(data):
                continue
            fields.append(b"")  # the file ends behind a comma
        yield fields
        fields = []
        at += 1


class Records:
    """The records of an answer, read in turn, with the refusals that name a record."""

    def __init__(self, data: bytes) -> None:
        self.records = records_of(data)
        self.number = 0
        self.fields: list[bytes] = []
        self.is_held = False  # whether the record that was read last is to be read once more

    def again(self) -> None:
        """Has the record that was read last read once more."""
        self.is_held = True

    def refuse(self, reason: str) -> NoReturn:
        raise Refused(66, f"answer refused: line {self.number}: {reason}")

    def take(self) -> None:
        """Reads the next record, whatever it is."""
        if self.is_held:
            self.is_held = False
            return
        fields = next(self.records, None)
        if fields is None:
            self.refuse("ended")
        self.fields = fields
        self.number += 1

    def expect(self, **counts: int) -> str:
        """Reads the next record, whose word is one of those listed, each with its number of fields; gives the word."""
        self.take()
        word = self.fields[0].decode("utf-8", "replace")
        if counts.get(word) != len(self.fields):
            self.refuse("record")
        return word

    def at(self, word: str) -> bool:
        """Whether the record that was read last has this word."""
        return self.fields[0] == word.encode()

    def integer(self, place: int, least: int, greatest: int) -> int:
        """The whole number in a field (counted from 1), refused where it is none, or out of range."""
        text = self.fields[place - 1]
        if not NUMBER.fullmatch(text) or len(text) > 40 or not least <= int(text) <= greatest:
            self.refuse(f"field {place}")
        return int(text)

    def integers(self, first: int, least: int, greatest: int = GREATEST) -> list[int]:
        """The whole numbers from a field on."""
        return [self.integer(place, least, greatest) for place in range(first, len(self.fields) + 1)]

    def word(self, place: int, *words: str) -> str:
        """The word in a field, refused where it is none of those listed."""
        text = self.fields[place - 1].decode("utf-8", "replace")
        if text not in words:
            self.refuse(f"field {place}")
        return text

    def finish(self) -> None:
        """Refuses what follows the last record, which was read."""
        if next(self.records, None) is not None:
            self.number += 1
            self.refuse("record")


def kind_of(data: bytes) -> str:
    """The third field of the first line, as it stands there, which tells what answer it is; nothing where there is none."""
    return b"".join(data.split(b"\n", 1)[0].split(b",")[2:3]).decode("utf-8", "replace")


def begun(data: bytes, kind: str, words: Mapping[str, Iterable[str]]) -> tuple[Records, str, str]:
    """The records of an answer about a setting of a kind, of which the first is read: the records, its word, which is one
    of those that `words` has for the version, and the version."""
    if len(data) > FILE_LIMIT:
        raise Refused(66, "answer refused: too long")
    records = Records(data)
    records.expect(answer=4)
    version = records.word(2, *words)
    records.word(3, kind)
    return records, records.word(4, *words[version]), version


def read_answer(data: bytes, setting: GeneralSetting) -> Answer:
    """The answer about a general setting that the bytes of a file state, or `Refused`."""
    records, word, version = begun(data, "general", {"1": READERS, "2": ["toowide"]})
    return read_begun(records, word, setting, setting.condition_count() + setting.profile_count(), int(version))


def read_fair_answer(data: bytes, setting: GeneralSetting) -> Answer:
    """The same of the fairest mechanism: a row of the fair program for each agent comes behind those of the setting, and an
    answer that is too wide has two paths in either version."""
    records, word, _ = begun(data, "fair", {"1": [word for word in READERS if word != "table"], "2": ["toowide"]})
    rows = setting.condition_count() + setting.profile_count() + len(setting.agents)
    return read_begun(records, word, setting, rows, 2)


def read_begun(records: Records, word: str, setting: GeneralSetting, rows: int, paths: int) -> Answer:
    """What follows the first record, with multipliers of so many rows, or so many paths."""
    answer = READERS[word](records, setting, rows, paths)
    records.finish()
    return answer


def read_table(records: Records, setting: GeneralSetting, rows: int, paths: int) -> TableAnswer:
    mechanism = read_mechanism(records, setting)
    records.expect(end=1)
    return TableAnswer(mechanism)


def read_optimal(
    records: Records, setting: GeneralSetting, rows: int, paths: int, last: Mapping[str, int] = END
) -> OptimalAnswer:
    value = read_value(records)
    mechanism = read_mechanism(records, setting)
    records.expect(bound=2)
    bound = records.integer(2, 1, GREATEST)
    return OptimalAnswer(value, mechanism, bound, read_rows(records, rows, 2, last))


def read_infeasible(
    records: Records, setting: GeneralSetting, rows: int, paths: int, last: Mapping[str, int] = END
) -> InfeasibleAnswer:
    return InfeasibleAnswer(read_rows(records, rows, 1, last))


def read_unbounded(
    records: Records, setting: GeneralSetting, rows: int, paths: int, last: Mapping[str, int] = END
) -> UnboundedAnswer:
    mechanism = read_mechanism(records, setting)
    rays = read_lists(records, setting, "ray") if setting.payments else {}
    records.expect(**last)
    return UnboundedAnswer(mechanism, rays)


def read_too_wide(records: Records, setting: GeneralSetting, rows: int, paths: int) -> TooWideAnswer:
    found = [read_path(records)]
    while len(found) < paths:
        records.expect(again=1)
        found.append(read_path(records))
    records.expect(end=1)
    return TooWideAnswer(found)


READERS: dict[str, Callable[[Records, GeneralSetting, int, int], Answer]] = {
    "table": read_table,
    "optimal": read_optimal,
    "infeasible": read_infeasible,
    "unbounded": read_unbounded,
    "toowide": read_too_wide,
}


def read_value(records: Records) -> Pair:
    """The numerator and the denominator of the record `value`."""
    records.expect(value=3)
    return records.integer(2, -GREATEST_WIDE, GREATEST_WIDE), records.integer(3, 1, GREATEST_WIDE)


def read_mechanism(records: Records, setting: GeneralSetting) -> Mechanism:
    """The records from `table` to the last payment."""
    records.expect(table=2)
    mechanism = Mechanism(records.integer(2, 1, GREATEST))
    for profile in setting.profiles():
        records.expect(lottery=1 + len(setting.agents) + len(setting.outcomes))
        numbers = read_named(records, setting, profile, 0)
        if sum(numbers) != mechanism.den:
            records.refuse("sum")
        mechanism.lotteries[profile] = numbers
    if setting.payments:
        mechanism.pays = read_lists(records, setting, "pay")
    return mechanism


def read_lists(records: Records, setting: GeneralSetting, word: str) -> dict[Profile, list[int]]:
    """One record with a number for each agent, for each profile."""
    lists = {}
    for profile in setting.profiles():
        records.expect(**{word: 1 + 2 * len(setting.agents)})
        lists[profile] = read_named(records, setting, profile, -GREATEST)
    return lists


def read_named(records: Records, setting: GeneralSetting, profile: Profile, least: int) -> list[int]:
    """The numbers of a record behind the names of its profile's types."""
    for place, (agent, kind) in enumerate(zip(setting.agents, profile), 2):
        records.word(place, agent.types[kind])
    return records.integers(2 + len(setting.agents), least)


def read_rows(records: Records, rows: int, count: int, last: Mapping[str, int] = END) -> dict[int, Pair]:
    """The `row` records up to the end, with the face multiplier alone or with the main one: pairs by index, which is one
    of so many rows. Other records may stand in the place of the end."""
    multipliers: dict[int, Pair] = {}
    least = 0
    while records.expect(row=2 + count, **last) == "row":
        index = records.integer(2, least, rows - 1)
        numbers = records.integers(3, -GREATEST)
        multipliers[index] = (numbers + [0])[0], (numbers + [0])[1]
        least = index + 1
    return multipliers


def read_path(records: Records) -> Path:
    """The `pivot` records of a path, and the `wide` record behind them."""
    records.expect(pivot=3, wide=5)
    return read_begun_path(records)


def read_begun_path(records: Records) -> Path:
    """The same where the first record was taken up."""
    pivots = []
    while records.at("pivot"):
        pivots.append((records.integer(2, 0, GREATEST_PLACE), records.integer(3, 0, GREATEST_PLACE)))
        records.expect(pivot=3, wide=5)
    row, column = records.integer(2, 0, GREATEST_PLACE), records.integer(3, 0, GREATEST_PLACE)
    num = records.integer(4, -GREATEST_WIDE, GREATEST_WIDE)
    return pivots, (row, column, num, records.integer(5, 1, GREATEST_WIDE))


def write_answer(answer: FoundAnswer, setting: GeneralSetting, kind: str = "general") -> str:
    """The text of an optimal, infeasible or unbounded answer of a kind. Rows whose multipliers are 0 are left out."""
    lines: list[str] = []

    def record(word: str, *fields: object) -> None:
        lines.append(",".join([word, *map(str, fields)]))

    def lists(word: str, numbers: dict[Profile, list[int]]) -> None:
        for profile in numbers:
            names = [agent.types[kind] for agent, kind in zip(setting.agents, profile)]
            record(word, *names, *numbers[profile])

    def mechanism(its: Mechanism) -> None:
        record("table", its.den)
        lists("lottery", its.lotteries)
        lists("pay", its.pays)

    if isinstance(answer, OptimalAnswer):
        record("answer", 1, kind, "optimal")
        record("value", *answer.value)
        mechanism(answer.mechanism)
        record("bound", answer.bound)
    elif isinstance(answer, InfeasibleAnswer):
        record("answer", 1, kind, "infeasible")
    else:
        record("answer", 1, kind, "unbounded")
        mechanism(answer.mechanism)
        lists("ray", answer.rays)
    for index, pair in sorted(getattr(answer, "multipliers", {}).items()):
        if pair != (0, 0):
            record("row", index, *(pair if isinstance(answer, OptimalAnswer) else pair[:1]))
    record("end")
    return "\n".join(lines) + "\n"


def has_wide_number(answer: FoundAnswer) -> bool:
    """Whether a number of an optimal, infeasible or unbounded answer is too wide for a file."""
    lists: list[Sequence[int]] = [*getattr(answer, "multipliers", {}).values()]
    lists += getattr(answer, "rays", {}).values()
    lists.append([getattr(answer, "bound", 0)])
    if not isinstance(answer, InfeasibleAnswer):
        mechanism = answer.mechanism
        lists += [[mechanism.den], *mechanism.lotteries.values(), *mechanism.pays.values()]
    value = getattr(answer, "value", ())
    wide = any(abs(number) > GREATEST for numbers in lists for number in numbers)
    return wide or any(abs(number) > GREATEST_WIDE for number in value)
