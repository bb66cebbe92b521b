"""Reads TOML with the place of each value, so that a sentence can name its line.

What is no TOML is told with its place; rarer faults (a date that is none, a table that is opened by dotted keys and then by a head)
are passed over.
"""

from __future__ import annotations

import re
from typing import Dict, List, NamedTuple, NoReturn, Optional, Tuple, Union

from .faults import Fault, shown

ESCAPES = {"b": "\b", "t": "\t", "n": "\n", "f": "\f", "r": "\r", "e": "\x1b", '"': '"', "\\": "\\"}
HEX_LENGTHS = {"x": 2, "u": 4, "U": 8}
HEX = re.compile(r"[0-9A-Fa-f]*")
GREATEST_LETTER = 0x10FFFF
BLANKS = re.compile(r"[ \t]*")
BETWEEN = re.compile(r"(?:[ \t\r\n]|#[^\n]*)*")
LINE_END = re.compile(r"[ \t]*(?:#[^\n]*?)?(?:\r?\n|\Z)")
JOINED_LINES = re.compile(r"[ \t]*\r?\n\s*")
BARE_KEY = re.compile(r"[A-Za-z0-9_-]+")
PIECE = re.compile(r"[^\s,\[\]{}#=]+|[^\s]|")
NO_ELEMENT = re.compile(r"[A-Za-z0-9_.-]+[ \t]*=|\[\[?[A-Za-z_]+\]")
BARE_VALUE = re.compile(r"[^\s,\]}#=]+")
LINE_START = re.compile(r"\r?\n?")
DATE = re.compile(r"\d{4}-\d\d-\d\d(?:[Tt ]\d\d:\d\d[^\s,\]}#]*)?|\d\d:\d\d[^\s,\]}#]*")
DIGITS = r"(?:0|[1-9](?:_?[0-9])*)"
INTEGER = re.compile(rf"[+-]?{DIGITS}|0x[0-9A-Fa-f](?:_?[0-9A-Fa-f])*|0o[0-7](?:_?[0-7])*|0b[01](?:_?[01])*")
FLOAT = re.compile(rf"[+-]?(?:{DIGITS}(?:\.[0-9](?:_?[0-9])*)?(?:[eE][+-]?[0-9](?:_?[0-9])*)?|inf|nan)")


class NotToml(Exception):
    """A text that is no TOML document, with what is wrong."""

    def __init__(self, fault: Fault) -> None:
        super().__init__(fault)
        self.fault = fault


class Scalar(NamedTuple):
    """A value that is no list and no table. Its kind is `text`, `integer`, `truth value`, `float` or `date`."""

    kind: str
    value: Union[str, int, bool, None]
    at: int
    source: str


class Items(List["Value"]):
    """A list, with its place."""

    kind = "list"

    def __init__(self, at: int, is_headed: bool = False) -> None:
        super().__init__()
        self.at = at
        self.is_headed = is_headed  # whether it is made of the tables of heads [[..]]


class Table(Dict[str, "Value"]):
    """A table, with its place and those of its keys."""

    kind = "table"

    def __init__(self, at: int) -> None:
        super().__init__()
        self.at = at
        self.places: Dict[str, int] = {}
        self.is_headed = False


Value = Union[Scalar, Items, Table]
Keys = List[Tuple[str, int]]


class Reader:
    """A place in a text that moves on."""

    def __init__(self, text: str) -> None:
        self.text = text
        self.at = 1 if text.startswith("\ufeff") else 0

    def fail(self, name: str, at: Optional[int] = None, found: str = "", key: str = "", wanted: str = "") -> NoReturn:
        """Refuses the text for what stands at a place, which is the next one where none is given."""
        raise NotToml(Fault(name, found or self.next_piece(), wanted, self.at if at is None else at, key))

    def next_piece(self) -> str:
        """What stands next, to be told."""
        match = PIECE.match(self.text, self.at)
        if match and match[0]:
            return f"`{shown(match[0])}`"
        return "the end of the file" if self.at >= len(self.text) else "the end of the line"

    def sees(self, piece: str) -> bool:
        """Whether a piece stands next."""
        return self.text.startswith(piece, self.at)

    def passes(self, piece: str) -> bool:
        """Passes over a piece where it stands next."""
        is_there = self.sees(piece)
        self.at += len(piece) if is_there else 0
        return is_there

    def takes(self, pattern: "re.Pattern[str]") -> str:
        """What a pattern finds next, or nothing."""
        match = pattern.match(self.text, self.at)
        self.at = match.end() if match else self.at
        return match[0] if match else ""


def read_toml(text: str) -> Table:
    """The top table of a document. Raises `NotToml`."""
    reader = Reader(text)
    top = table = Table(reader.at)
    reader.takes(BETWEEN)
    while reader.at < len(text):
        if reader.sees("["):
            table = _headed_table(reader, top)
        else:
            _pair(reader, table)
        if not LINE_END.match(text, reader.at):
            reader.takes(BLANKS)
            reader.fail("toml.rest")
        reader.takes(BETWEEN)
    return top


def _headed_table(reader: Reader, top: Table) -> Table:
    """The table that a head opens: `[a.b]`, or a new one of a list by `[[a.b]]`."""
    at = reader.at
    is_list = reader.passes("[[")
    if not is_list:
        reader.passes("[")
    keys = _key_parts(reader)
    if not reader.passes("]]" if is_list else "]"):
        reader.fail("toml.head", wanted="]]" if is_list else "]")
    owner, (name, _) = _table_at(reader, top, keys[:-1], at), keys[-1]
    table = Table(at)
    if is_list:
        tables = owner.setdefault(name, Items(at, is_headed=True))
        if not isinstance(tables, Items) or not tables.is_headed:
            reader.fail("toml.double", at, key=name)
        tables.append(table)
    else:
        found = owner.setdefault(name, table)
        if not isinstance(found, Table) or found.is_headed:
            reader.fail("toml.double", at, key=name)
        table = found
    owner.places.setdefault(name, at)
    table.is_headed = True
    return table


def _table_at(reader: Reader, table: Table, keys: Keys, at: int) -> Table:
    """The table under keys, made where it is not there; of a list of tables the last one."""
    for name, _ in keys:
        inner = table.setdefault(name, Table(at))
        table.places.setdefault(name, at)
        if isinstance(inner, Items) and inner:
            inner = inner[-1]
        if not isinstance(inner, Table):
            reader.fail("toml.double", at, key=name)
        table = inner
    return table


def _pair(reader: Reader, table: Table) -> None:
    keys = _key_parts(reader)
    name, at = keys[-1]
    if not reader.passes("="):
        reader.fail("toml.equals", key=".".join(it for it, _ in keys))
    reader.takes(BLANKS)
    owner = _table_at(reader, table, keys[:-1], at)
    if name in owner:
        reader.fail("toml.double", at, key=name)
    owner.places[name] = at
    owner[name] = _value(reader)


def _key_parts(reader: Reader) -> Keys:
    """The parts of a key, as of `a."b c".d`, with their places."""
    keys: Keys = []
    while True:
        reader.takes(BLANKS)
        at = reader.at
        is_quoted = reader.sees('"') or reader.sees("'")
        name = _quoted_text(reader, reader.text[at]) if is_quoted else reader.takes(BARE_KEY)
        if not name and not is_quoted:
            reader.fail("toml.key")
        keys.append((name, at))
        reader.takes(BLANKS)
        if not reader.passes("."):
            return keys


def _value(reader: Reader) -> Value:
    at = reader.at
    for quotes in ('"""', "'''", '"', "'"):
        if reader.sees(quotes):
            text = _quoted_text(reader, quotes)
            return Scalar("text", text, at, reader.text[at : reader.at])
    if reader.sees("["):
        return _list(reader)
    return _inline_table(reader) if reader.sees("{") else _bare_value(reader)


def _list(reader: Reader) -> Items:
    items = Items(reader.at)
    reader.passes("[")
    reader.takes(BETWEEN)
    while not reader.passes("]"):
        if _has_no_end(reader):
            reader.fail("toml.list.end", items.at)
        items.append(_value(reader))
        reader.takes(BETWEEN)
        if _has_no_end(reader):
            reader.fail("toml.list.end", items.at)
        if not reader.passes(",") and not reader.sees("]"):
            reader.fail("toml.list")
        reader.takes(BETWEEN)
    return items


def _has_no_end(reader: Reader) -> bool:
    """Whether the text ends in a list, or a key with its equals sign or the head of a table stands there."""
    return reader.at >= len(reader.text) or NO_ELEMENT.match(reader.text, reader.at) is not None


def _inline_table(reader: Reader) -> Table:
    table = Table(reader.at)
    reader.passes("{")
    reader.takes(BETWEEN)
    while not reader.passes("}"):
        _pair(reader, table)
        reader.takes(BETWEEN)
        if not reader.passes(",") and not reader.sees("}"):
            reader.fail("toml.table")
        reader.takes(BETWEEN)
    return table


def _bare_value(reader: Reader) -> Scalar:
    """A number, a truth value or a date."""
    at = reader.at
    source = reader.takes(DATE)
    if source:
        return Scalar("date", None, at, source)
    source = reader.takes(BARE_VALUE)
    if source in ("true", "false"):
        return Scalar("truth value", source == "true", at, source)
    if INTEGER.fullmatch(source):
        number = int(source.replace("_", ""), 0)
        if not -(1 << 63) <= number < 1 << 63:
            reader.fail("toml.bits", at, found=f"`{shown(source)}`")
        return Scalar("integer", number, at, source)
    if FLOAT.fullmatch(source):
        return Scalar("float", None, at, source)
    if not source:
        reader.fail("toml.value")
    is_number = source.lstrip("+-.")[:1].isdigit()
    return reader.fail("toml.number" if is_number else "toml.word", at, found=f"`{shown(source)}`")


def _quoted_text(reader: Reader, quotes: str) -> str:
    """A text up to its end quotes. In one of several lines a backslash at the end of a line joins it with the next."""
    start, is_long = reader.at, len(quotes) == 3
    reader.passes(quotes)
    if is_long:
        reader.takes(LINE_START)
    text: List[str] = []
    while not reader.passes(quotes):
        if reader.at >= len(reader.text) or not is_long and reader.sees("\n"):
            reader.fail("toml.text", start)
        text.append(_letter(reader, quotes[0] == '"', is_long))
    # Up to two quotes may stand before the three that end a text.
    while is_long and reader.passes(quotes[0]):
        text.append(quotes[0])
    return "".join(text)


def _letter(reader: Reader, has_escapes: bool, is_long: bool) -> str:
    """The next letter of a text, or what an escape stands for."""
    if not has_escapes or not reader.passes("\\"):
        reader.at += 1
        return reader.text[reader.at - 1]
    if is_long and JOINED_LINES.match(reader.text, reader.at):
        reader.takes(JOINED_LINES)
        return ""
    at, letter = reader.at - 1, reader.text[reader.at : reader.at + 1]
    reader.at += 1
    if letter in ESCAPES:
        return ESCAPES[letter]
    length = HEX_LENGTHS.get(letter, 0)
    digits = reader.text[reader.at : reader.at + length]
    reader.at += length
    if not length or len(digits) < length or not HEX.fullmatch(digits) or int(digits, 16) > GREATEST_LETTER:
        reader.fail("toml.escape", at, found=f"`{reader.text[at : reader.at]}`")
    return chr(int(digits, 16))
