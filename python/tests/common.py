"""What the tests share: where the files are, and what the commands call."""

import contextlib
import os
import pathlib
import shutil
import subprocess
import sys
import types
import unittest
from collections.abc import Iterator, Sequence
from typing import Any

import mechdes

from .stand_in import SecondOpinion

PYTHON = pathlib.Path(__file__).resolve().parent.parent
TOP = PYTHON.parent
EXAMPLES = TOP / "examples"


def _is_built() -> bool:
    try:
        mechdes.library()
    except mechdes.LibraryMissing:
        return False
    return True


BUILT = _is_built()
_USED = None if BUILT else SecondOpinion()
mechdes.use(_USED)
needs_library = unittest.skipUnless(BUILT, "the library is not built, and second-opinion/ has no such command")


@contextlib.contextmanager
def calling(caller: mechdes.Caller) -> Iterator[None]:
    """Has the commands call something of a test's own for a while."""
    mechdes.use(caller)
    try:
        yield
    finally:
        mechdes.use(_USED)


def example(name: str) -> pathlib.Path:
    """The setting of an example."""
    return EXAMPLES / f"{name}.toml"


def stored(name: str) -> pathlib.Path:
    """A stored answer, table or list of odds of an example."""
    return EXAMPLES / f"{name}.csv"


def text(name: str) -> str:
    """The text of a file of the examples."""
    return (EXAMPLES / name).read_text()


def echo_library(folder: str) -> pathlib.Path:
    """A library that tells what it is given, compiled in a folder. Skips the test where there is no C compiler."""
    compiler = os.environ.get("CC", "cc")
    if shutil.which(compiler) is None:
        raise unittest.SkipTest("no C compiler is there")
    path = pathlib.Path(folder) / "libecho.so"
    source = pathlib.Path(__file__).with_name("echo.c")
    subprocess.run([compiler, "-shared", "-fPIC", "-o", str(path), str(source)], check=True)
    return path


def without_library(script: str) -> tuple[list[str], dict[str, str]]:
    """The words and the environment by which a script runs in a Python of its own, which finds no library."""
    environment = {**os.environ, "MECHDES_LIBRARY": "/no/such/libmechdes.so", "PYTHONPATH": str(PYTHON)}
    return [sys.executable, "-c", script], environment


class Recorder(types.ModuleType):
    """What stands in for pandas: it keeps what a table is made of."""

    class MultiIndex:
        @staticmethod
        def from_tuples(keys: list[tuple[Any, ...]], names: Sequence[str]) -> Any:
            return keys, list(names)

    @staticmethod
    def Index(keys: list[Any], name: str) -> Any:
        return keys, [name]

    @staticmethod
    def DataFrame(rows: list[Any], index: Any, dtype: type) -> Any:
        assert dtype is object
        return rows, *index
