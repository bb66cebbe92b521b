"""The one entry to the proved library."""

from __future__ import annotations

import ctypes
import functools
import os
import pathlib
import subprocess
import tempfile
import threading
from collections.abc import Callable, Sequence
from typing import NamedTuple, Protocol

from .errors import LibraryMissing

ROOM = 1 << 20  # bytes that are held for the text of an answer, in each thread
_ERROR_ROOM = 1 << 10


class Reply(NamedTuple):
    """What the program would end with, and what it would print to standard output and to standard error."""

    status: int
    out: bytes
    err: bytes


class Caller(Protocol):
    """Whatever carries out the commands: a `Library`, an `Executable`, or what stands in for one."""

    def call(self, words: Sequence[str], setting: bytes = b"", second: bytes = b"") -> Reply:
        """Carries out a command over two files, as `Library.call` does."""
        ...


class _Counts(ctypes.Structure):
    """How many bytes the two texts of a call have."""

    _fields_ = [("out", ctypes.c_size_t), ("err", ctypes.c_size_t)]


def library_path() -> pathlib.Path:
    """Where the library is looked for: at `MECHDES_LIBRARY` where that is set, else beside the package."""
    named = os.environ.get("MECHDES_LIBRARY")
    return pathlib.Path(named) if named else pathlib.Path(__file__).with_name("libmechdes.so")


class Library:
    """The library of a path, as include/mechdes.h states it. It keeps no state, so that any number of threads may call.

    room  bytes that are held for an answer in each thread; a longer one is asked for again, which carries the command out twice

    Raises `LibraryMissing` where it cannot be loaded.
    """

    def __init__(self, path: str | os.PathLike[str], room: int = ROOM) -> None:
        self._function = _function(pathlib.Path(path))
        self._room = room
        self._held = threading.local()

    def call(self, words: Sequence[str], setting: bytes = b"", second: bytes = b"") -> Reply:
        """Carries out a command over two files, and gives its status and both texts.

        words  the words behind the program's name; of those that name files, `setting` has the bytes of `setting`, and any other
               name those of `second`

        Nothing is raised for a refusal: its status is 64 or more. Python's lock is not held meanwhile. Raises `ValueError` for a
        word with a line end.
        """
        if any("\n" in word for word in words):
            raise ValueError("a word of a call has a line end in it")
        texts = ("\n".join(words).encode(), setting, second)
        given = [part for text in texts for part in (text, len(text))]
        room, error_room, counts = self._room, _ERROR_ROOM, _Counts()
        while True:
            out, err = self._buffer(room), ctypes.create_string_buffer(error_room)
            status = self._function(*given, out, room, err, error_room, ctypes.byref(counts))
            if counts.out <= room and counts.err <= error_room:
                return Reply(status, ctypes.string_at(out, counts.out), ctypes.string_at(err, counts.err))
            room, error_room = max(room, counts.out), max(error_room, counts.err)

    def _buffer(self, room: int) -> ctypes.Array[ctypes.c_char]:
        """A buffer of so many bytes: the one that this thread holds, or for a longer answer one of its own."""
        if room > self._room:
            return ctypes.create_string_buffer(room)
        held: ctypes.Array[ctypes.c_char] | None = getattr(self._held, "buffer", None)
        if held is None:
            held = self._held.buffer = ctypes.create_string_buffer(room)
        return held


class Executable:
    """The program of a path, run anew for each call over files in a folder of its own.

    Where it ends by a signal the status is 128 and the number of the signal. Raises `OSError` where it cannot be run.
    """

    def __init__(self, path: str | os.PathLike[str]) -> None:
        self._path = os.path.abspath(path)

    def call(self, words: Sequence[str], setting: bytes = b"", second: bytes = b"") -> Reply:
        """Carries out a command, as `Library.call` does. The second file has one of the names that the commands here give it."""
        with tempfile.TemporaryDirectory(prefix="mechdes-") as folder:
            for name in ("setting", "answer", "conditions", "pivots", "odds"):
                if name in words:
                    pathlib.Path(folder, name).write_bytes(setting if name == "setting" else second)
            ran = subprocess.run([self._path, *words], cwd=folder, stdin=subprocess.DEVNULL, capture_output=True, check=False)
        return Reply(ran.returncode if ran.returncode >= 0 else 128 - ran.returncode, ran.stdout, ran.stderr)


def _function(path: pathlib.Path) -> Callable[..., int]:
    """The call of a library, with the types of its arguments."""
    try:
        function = ctypes.CDLL(str(path)).mechdes_call
    except (OSError, AttributeError) as fault:
        raise LibraryMissing(path, str(fault)) from fault
    read, room = [ctypes.c_char_p, ctypes.c_size_t], [ctypes.c_void_p, ctypes.c_size_t]
    function.argtypes = read * 3 + room * 2 + [ctypes.POINTER(_Counts)]
    function.restype = ctypes.c_uint8
    return function


_loaded = functools.cache(Library)
_chosen: Caller | None = None


def use(caller: Caller | None) -> None:
    """Has all commands of this process call something else than the proved library, as tests do; None for the library again."""
    global _chosen
    _chosen = caller


def library() -> Caller:
    """What the commands call: the proved library, which the first call loads. Raises `LibraryMissing` where it is not there."""
    return _loaded(library_path()) if _chosen is None else _chosen


def call(words: Sequence[str], setting: str | bytes = b"", second: str | bytes = b"") -> Reply:
    """Carries out a command over two texts, with its status and texts as they come. Raises `LibraryMissing`."""
    setting, second = (text.encode() if isinstance(text, str) else text for text in (setting, second))
    return library().call(words, setting, second)
