"""What `docs/definitions` and `docs/clauses` share, which make the pages of docs/made from the sources."""

from __future__ import annotations

import sys
from collections.abc import Iterable
from itertools import takewhile
from pathlib import Path


def paragraph(comment: Iterable[str]) -> str:
    """The first paragraph of a comment, as one line."""
    lines = (line.strip().lstrip("/- ") for line in comment)
    return " ".join(takewhile(bool, lines))


def marked(names: Iterable[str]) -> str:
    """Names as code, with commas between them."""
    return ", ".join(f"`{name}`" for name in names)


def settle(page: Path, text: str, lacks: Iterable[str]) -> int:
    """Writes a page, or compares it if the call says `--check`. Returns 1 and prints what is wrong, or returns 0."""
    wrong = list(lacks)
    if "--check" not in sys.argv[1:]:
        page.parent.mkdir(exist_ok=True)
        page.write_text(text, encoding="utf-8")
    elif not page.exists() or page.read_text(encoding="utf-8") != text:
        wrong.append(f"docs/made/{page.name} is not what the sources say: call docs/{page.stem}, and commit the page")
    print(*wrong, sep="\n", end="\n" if wrong else "")
    return 1 if wrong else 0
