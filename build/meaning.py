"""Says on standard error what a refusal of the program means, as the launcher has it do on a terminal:

    build/meaning.py COPY LINE WORDS..

LINE is what the program wrote, and WORDS are those of the call. COPY is the name of the file that standard input was copied to, or
empty. Where nothing is found, nothing is said. It wants Python 3.8 or later.
"""

from __future__ import annotations

import sys
from pathlib import Path
from typing import Sequence

# (the package itself wants a later Python)
sys.path.append(str(Path(__file__).resolve().parent.parent / "python/mechdes"))

from refusals import STANDARD_INPUT, sentence_of


def meaning(copy: str, line: str, words: Sequence[str]) -> str:
    """The line that says what a refusal means, or nothing."""
    found = sentence_of(words, line, lambda name: Path(name).read_bytes(), {copy: STANDARD_INPUT} if copy else {})
    return f"mechdes: {found.text}\n" if found else ""


if __name__ == "__main__":
    sys.stderr.write(meaning(sys.argv[1], sys.argv[2], sys.argv[3:]))
