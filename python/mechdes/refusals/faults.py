"""What a second reading finds, and the table of sentences that it is told by: sentences.json, which the page reads too."""

from __future__ import annotations

import json
from pathlib import Path
from typing import Any, Dict, NamedTuple, Optional, Sequence

TABLE: Dict[str, Any] = json.loads(Path(__file__).with_name("sentences.json").read_text(encoding="utf-8"))
MOST_SHOWN = 40  # letters of a text of the user's


class Fault(NamedTuple):
    """Something that is wrong: the name of its sentence, and what stands in it.

    at      the place in the text of the file, by letters from 0, or None where it is not known or in no file
    key     the key, record or word that is wrong, as docs/FORMATS.md calls it
    place   what stands in front of the sentence, as `agent 2 "bob": `
    more    what else the sentence has places for
    """

    name: str
    found: str = ""
    wanted: str = ""
    at: Optional[int] = None
    key: str = ""
    place: str = ""
    more: Dict[str, str] = {}

    def text(self) -> str:
        """The sentence."""
        blank = {"meant": "", "others": "", "label": "", "of": ""}
        fields = {**blank, "key": self.key, "found": self.found, "wanted": self.wanted, **self.more}
        return self.place + TABLE["sentences"][self.name].format(**fields)


def distance(one: str, other: str) -> int:
    """How many letters must be changed, added, left out or exchanged with the next one to make one word of another (Damerau)."""
    rows = [[*range(len(other) + 1)]]
    for i, letter in enumerate(one):
        row = [i + 1]
        for j, wanted in enumerate(other):
            row.append(min(rows[i][j] + (letter != wanted), rows[i][j + 1] + 1, row[j] + 1))
            if i and j and letter == other[j - 1] and one[i - 1] == wanted:
                row[-1] = min(row[-1], rows[i - 1][j - 1] + 1)
        rows.append(row)
    return rows[-1][-1]


def nearest(word: str, known: Sequence[str]) -> Optional[str]:
    """The known word that was most likely meant: at a distance of at most 2, and below half the length of the word."""
    near = [(distance(word, it), at) for at, it in enumerate(known) if abs(len(word) - len(it)) <= 2]
    least, at = min(near, default=(3, 0))
    return known[at] if least <= 2 and 2 * least < len(word) else None


def asked(meant: Optional[str]) -> str:
    """The question whether a word is meant, in the words that end a sentence; nothing where none is near."""
    return f": is {meant} meant?" if meant else ""


def asked_for(meant: Optional[str]) -> str:
    """The same of a word of a file, in quotes."""
    return asked(meant and quoted(meant))


def counted(count: int, noun: str) -> str:
    """A number with its noun: `1 type`, `4,096 rows`."""
    return f"{count:,} {noun}" if count == 1 else f"{count:,} {noun}s"


def there(count: int, noun: str) -> str:
    """That there are so many."""
    return f"there {'is' if count == 1 else 'are'} {counted(count, noun)}"


def between(least: int, most: int) -> str:
    """The numbers from one to another."""
    return f"{least:,}" if least == most else f"{least:,} to {most:,}"


def shown(text: str) -> str:
    """A text of the user's in one line, cut where it is long."""
    line = " ".join(text.split())
    return line if len(line) <= MOST_SHOWN else line[:MOST_SHOWN] + ".."


def quoted(text: str) -> str:
    return f'"{shown(text)}"'


def listed(words: Sequence[object], last: str = "or") -> str:
    """Words with commas between them, and `or` before the last one."""
    texts = [str(it) for it in words]
    return texts[0] if len(texts) == 1 else f"{', '.join(texts[:-1])} {last} {texts[-1]}"
