"""Turns a WebAssembly module with a memory of 64-bit addresses into one with 32-bit addresses, which every browser runs, and
faster.

The library's pointers have 64 bits, also where they lie in memory, and keep them. Only where an address meets the memory is it cut
to 32 bits: before each load, store, copy and fill. Nothing is lost by that, since a memory of 32-bit addresses has no others:
memory.c never asks for more. What is not known here, such as a second memory or an instruction for vectors, ends the run.
"""

from __future__ import annotations

import sys
from typing import Callable, Dict, Iterator, List, NoReturn, Sequence, Tuple

I32, I64, F32, F64 = 0x7F, 0x7E, 0x7D, 0x7C
WRAP, EXTEND_SIGNED, EXTEND = b"\xa7", b"\xac", b"\xad"  # i32.wrap_i64, i64.extend_i32_s and i64.extend_i32_u
TABLE, MEMORY, ELEMENTS, CODE, DATA = 4, 5, 9, 10, 11
WIDE = 4  # in the limits of a memory or a table: its addresses have 64 bits
MOST_PAGES = 1 << 16

# What a store takes from the stack above its address, by the store.
STORED = {0x36: I32, 0x37: I64, 0x38: F32, 0x39: F64, 0x3A: I32, 0x3B: I32, 0x3C: I64, 0x3D: I64, 0x3E: I64}


def refused(what: str) -> NoReturn:
    sys.exit(f"page/narrow.py: the module has {what}")


def number(value: int) -> bytes:
    """An unsigned number in LEB128."""
    made = bytearray()
    while True:
        value, low = value >> 7, value & 0x7F
        made.append(low | (0x80 if value else 0))
        if not value:
            return bytes(made)


def signed(value: int) -> bytes:
    """A signed number in LEB128."""
    made = bytearray()
    while True:
        low, value = value & 0x7F, value >> 7
        is_last = value == (-1 if low & 0x40 else 0)
        made.append(low | (0 if is_last else 0x80))
        if is_last:
            return bytes(made)


class Reader:
    """Reads a module from front to back."""

    def __init__(self, data: bytes) -> None:
        self.data = data
        self.at = 0

    def is_at_end(self) -> bool:
        return self.at == len(self.data)

    def byte(self) -> int:
        self.at += 1
        return self.data[self.at - 1]

    def piece(self, count: int) -> bytes:
        self.at += count
        return self.data[self.at - count : self.at]

    def number(self) -> int:
        value = shift = 0
        while True:
            byte = self.byte()
            value |= (byte & 0x7F) << shift
            shift += 7
            if byte < 0x80:
                return value

    def signed(self) -> int:
        start = self.at
        value = self.number()
        bits = 7 * (self.at - start)
        return value - (1 << bits) if self.data[self.at - 1] & 0x40 else value


def sections(data: bytes) -> Iterator[Tuple[int, bytes]]:
    """The sections of a module, as pairs of a number and a content."""
    reader = Reader(data)
    if reader.piece(8) != b"\0asm\1\0\0\0":
        refused("another head than WebAssembly's")
    while not reader.is_at_end():
        name = reader.byte()
        yield name, reader.piece(reader.number())


def narrow_limits(reader: Reader) -> Tuple[bytes, bool]:
    """Limits without the sign of 64 bits, and whether they had it."""
    flags = reader.byte()
    made = bytes([flags & ~WIDE]) + number(reader.number())
    if flags & 1:
        made += number(min(reader.number(), MOST_PAGES))
    if flags & ~(WIDE | 1):
        refused("limits of another kind")
    return made, bool(flags & WIDE)


def narrow_offset(reader: Reader) -> bytes:
    """The constant at which a segment begins."""
    if reader.byte() != 0x42:  # i64.const
        refused("a segment without a wide constant for its place")
    made = b"\x41" + signed(reader.signed())
    if reader.byte() != 0x0B:
        refused("a segment whose place is no constant")
    return made + b"\x0b"


def narrow_segments(content: bytes, rest_of: Callable[[Reader], bytes]) -> bytes:
    """Segments of data or elements that all begin at a constant."""
    reader = Reader(content)
    count = reader.number()
    made = number(count)
    for _ in range(count):
        if reader.number() != 0:
            refused("a segment of another kind")
        made += number(0) + narrow_offset(reader) + rest_of(reader)
    return made


def data_of(reader: Reader) -> bytes:
    length = reader.number()
    return number(length) + reader.piece(length)


def elements_of(reader: Reader) -> bytes:
    count = reader.number()
    return number(count) + b"".join(number(reader.number()) for _ in range(count))


class Body:
    """The body of a function, whose further locals hold what lies on the stack above an address."""

    def __init__(self, content: bytes, parameters: int, has_wide_table: bool) -> None:
        self.reader = Reader(content)
        self.has_wide_table = has_wide_table
        self.groups = [(self.reader.number(), self.reader.byte()) for _ in range(self.reader.number())]
        self.locals = parameters + sum(count for count, _ in self.groups)
        self.added: Dict[Tuple[int, int], int] = {}
        self.made = bytearray()

    def spare(self, kind: int, which: int = 0) -> bytes:
        """A local of a kind that the function does not use."""
        return number(self.added.setdefault((kind, which), self.locals + len(self.added)))

    def narrow(self) -> bytes:
        while not self.reader.is_at_end():
            self.instruction()
        groups = self.groups + [(1, kind) for kind, _ in self.added]
        heads = b"".join(number(count) + bytes([kind]) for count, kind in groups)
        content = number(len(groups)) + heads + bytes(self.made)
        return number(len(content)) + content

    def instruction(self) -> None:
        start = self.reader.at
        code = self.reader.byte()
        if 0x28 <= code <= 0x3E:
            self.access(code)
        elif code in (0x3F, 0x40):
            self.size_of_memory(code)
        elif code == 0xFC:
            self.bulk(start)
        else:
            self.skip_immediates(code)
            if code == 0x11 and self.has_wide_table:  # call_indirect
                self.made += WRAP
            self.made += self.reader.data[start : self.reader.at]

    def access(self, code: int) -> None:
        """A load or a store, with its alignment and its offset."""
        align, offset = self.reader.number(), self.reader.number()
        if align >= 64 or offset >= 1 << 32:
            refused("a second memory, or an offset of more than 32 bits")
        whole = bytes([code]) + number(align) + number(offset)
        if code in STORED:
            spare = self.spare(STORED[code])
            self.made += b"\x21" + spare + WRAP + b"\x20" + spare + whole  # local.set, .., local.get
        else:
            self.made += WRAP + whole

    def size_of_memory(self, code: int) -> None:
        """memory.size and memory.grow; the second gives -1 where there is no more."""
        self.reader.byte()
        self.made += bytes([code, 0]) + EXTEND if code == 0x3F else WRAP + bytes([code, 0]) + EXTEND_SIGNED

    def bulk(self, start: int) -> None:
        """memory.copy and memory.fill, and conversions that touch no memory."""
        kind = self.reader.number()
        if kind == 10:
            self.reader.piece(2)
            count, source = self.spare(I64), self.spare(I64, 1)
            self.made += b"\x21" + count + b"\x21" + source + WRAP + b"\x20" + source + WRAP + b"\x20" + count + WRAP
        elif kind == 11:
            self.reader.piece(1)
            count, filled = self.spare(I64), self.spare(I32)
            self.made += b"\x21" + count + b"\x21" + filled + WRAP + b"\x20" + filled + b"\x20" + count + WRAP
        elif kind > 7:
            refused(f"the instruction 0xfc {kind}")
        self.made += self.reader.data[start : self.reader.at]

    def skip_immediates(self, code: int) -> None:
        """Reads what stands behind an instruction that is left as it is."""
        reader = self.reader
        if code in (0x02, 0x03, 0x04, 0x41, 0x42):  # block, loop, if, i32.const, i64.const
            reader.signed()
        elif code in (0x0C, 0x0D, 0x10, 0x20, 0x21, 0x22, 0x23, 0x24):  # br, br_if, call, local.*, global.*
            reader.number()
        elif code == 0x0E:  # br_table
            for _ in range(reader.number() + 1):
                reader.number()
        elif code == 0x11:  # call_indirect
            reader.number(), reader.number()
        elif code == 0x1C:  # select with kinds
            reader.piece(reader.number())
        elif code in (0x43, 0x44):  # f32.const, f64.const
            reader.piece(4 if code == 0x43 else 8)
        elif not (code in (0x00, 0x01, 0x05, 0x0B, 0x0F, 0x1A, 0x1B) or 0x45 <= code <= 0xC4):
            refused(f"the instruction {code:#x}")


def parameter_counts(types: bytes, functions: bytes) -> List[int]:
    """How many parameters each function has."""
    reader = Reader(types)
    counts: List[int] = []
    for _ in range(reader.number()):
        if reader.byte() != 0x60:
            refused("a type that is no function's")
        counts.append(reader.number())
        reader.piece(counts[-1])
        reader.piece(reader.number())
    reader = Reader(functions)
    return [counts[reader.number()] for _ in range(reader.number())]


def narrow_code(content: bytes, parameters: Sequence[int], has_wide_table: bool) -> bytes:
    reader = Reader(content)
    made = [number(reader.number())]
    made += [Body(reader.piece(reader.number()), count, has_wide_table).narrow() for count in parameters]
    return b"".join(made)


def narrow_table(content: bytes) -> Tuple[bytes, bool]:
    reader = Reader(content)
    if reader.number() != 1:
        refused("more than one table")
    kind = reader.piece(1)
    limits, is_wide = narrow_limits(reader)
    return number(1) + kind + limits, is_wide


def narrowed(data: bytes) -> bytes:
    """A module with a memory of 32-bit addresses that does what this one does."""
    found = dict(sections(data))
    if 2 in found:
        refused("imports")
    has_wide_table = False
    if TABLE in found:
        found[TABLE], has_wide_table = narrow_table(found[TABLE])
    limits, is_wide = narrow_limits(Reader(found[MEMORY][1:]))
    if found[MEMORY][0] != 1 or not is_wide:
        refused("another memory than one of 64-bit addresses")
    found[MEMORY] = number(1) + limits
    if ELEMENTS in found and has_wide_table:
        found[ELEMENTS] = narrow_segments(found[ELEMENTS], elements_of)
    if DATA in found:
        found[DATA] = narrow_segments(found[DATA], data_of)
    found[CODE] = narrow_code(found[CODE], parameter_counts(found[1], found[3]), has_wide_table)
    # Section 0 has names and remarks alone, which a browser does not need.
    return data[:8] + b"".join(bytes([name]) + number(len(content)) + content for name, content in found.items() if name != 0)
