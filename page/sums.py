"""The two sums that a page names in its head, which tell whether it was made of the files of a checkout.

`mechdes-module` is the sum of what its module is made of: the crate md_embed and all below it, with their lines in crates.txt;
HANDLES; the C of the page; the way in which the module is compiled; and the kit. `mechdes-page` is the sum of the page around the
module, as sheet.py writes it, and so of all that it reads: scripts, style, examples and tables. Neither counts what stands under
site/.

It wants Python 3.8 or later, and so do those that use it.
"""

from __future__ import annotations

import base64
import binascii
import gzip
import hashlib
import re
import sys
import zlib
from pathlib import Path
from typing import Iterator, NamedTuple

TOP = Path(__file__).resolve().parent.parent
sys.path.insert(0, str(TOP / "build"))

from crates import Failed, Kit, base_words, crates_of, sum_of

LIBRARY = "md_embed"
SITE = TOP / "site/index.html"
# What shapes the module beside the crates.
BESIDE = ("HANDLES", "page/arithmetic.c", "page/memory.c", "page/module.py", "page/narrow.py")

META = r'<meta name="mechdes-{}" content="([^"]*)">'
MODULE = r'<script type="text/plain" id="module">([^<]*)</script>'


class Sums(NamedTuple):
    """The sum of what the module is made of, empty where that is not known, and the sum of the page around it."""

    module: str
    page: str


def sum_of_module(top: Path, kit: Kit) -> str:
    """The sum of what a module is made of."""
    crates = crates_of(top, LIBRARY, kit)
    # (the words that the compiler is given, wherever the checkout and the kit lie)
    words = [it.replace(str(top), "top").replace(str(kit.folder), "kit") for it in base_words(crates[-1])]
    return sum_of(kit.line(), [(it.name, it.sum) for it in crates], words, [(it, (top / it).read_bytes()) for it in BESIDE])


# What stands in a page


def place_of(pattern: str, text: str) -> "re.Match[str]":
    found = re.search(pattern, text)
    if not found:
        raise Failed("site/index.html is no page of mechdes")
    return found


def named_in(text: str) -> Sums:
    """The sums that a page names."""
    return Sums(*(place_of(META.format(it), text)[1] for it in Sums._fields))


def module_in(text: str) -> bytes:
    """The module of a page, unpacked."""
    try:
        return gzip.decompress(base64.b64decode(place_of(MODULE, text)[1], validate=True))
    except (binascii.Error, EOFError, OSError, zlib.error):
        raise Failed("the module in site/index.html cannot be unpacked") from None


def is_whole(text: str) -> bool:
    """Whether a text is a page that names its sums and whose module can be unpacked."""
    try:
        return bool(named_in(text) and module_in(text))
    except Failed:
        return False


def bare(text: str) -> str:
    """A page without its module and its sums."""
    for pattern in (MODULE, *map(META.format, Sums._fields)):
        start, end = place_of(pattern, text).span(1)
        text = text[:start] + text[end:]
    return text


def sum_of_page(text: str) -> str:
    """The sum of a page around its module."""
    return hashlib.sha256(bare(text).encode()).hexdigest()


def differences(text: str, now: Sums) -> Iterator[str]:
    """What of a page is not as the files have it whose sums are given, in sentences."""
    named = named_in(text)
    if named.module != now.module:
        yield "its module is out of date (mechdes-module): crates, the way it is compiled, or the kit are others now"
    if named.page != now.page:
        yield "the page around its module is out of date (mechdes-page): scripts, style, examples or tables are others now"
    elif sum_of_page(text) != now.page:
        yield "it was changed after it was written"
