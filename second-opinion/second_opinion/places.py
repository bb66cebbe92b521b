"""Where the repository has what the commands of this folder compare with."""

import os
import sys
from pathlib import Path

FOLDER = Path(__file__).resolve().parents[1]  # of the commands
TOP = FOLDER.parent
EXAMPLES = TOP / "examples"
ENDING = "-answer.csv"  # of a stored answer


def stored_names() -> list[str]:
    """The examples that have a stored answer."""
    return [path.name.removesuffix(ENDING) for path in sorted(EXAMPLES.glob("*" + ENDING))]


def program_path(words: list[str]) -> str:
    """The program of mechdes: the first of these words, the variable MECHDES, or the one that the repository's tests build."""
    return [*words, os.environ.get("MECHDES", str(TOP / "crates/md_prog/out/md_prog"))][0]


def needed_program(words: list[str]) -> str:
    """The same, where nothing can be done without it."""
    path = program_path(words)
    if not os.access(path, os.X_OK):
        sys.exit(f"{Path(sys.argv[0]).name}: no program {path}")
    return path
