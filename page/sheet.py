"""Writes the page as one file: its style, its scripts as one, the settings of the gallery, the module, and the sums of what it is
made of."""

from __future__ import annotations

import base64
import gzip
import json
import re
from pathlib import Path
from typing import Dict, List

from gallery import gallery
from sums import TOP, Sums, sum_of_module, sum_of_page

from crates import Kit

HERE = Path(__file__).resolve().parent
IMPORT = re.compile(r'(?ms)^import .*? from "\./(\w+)\.js";\n')


def read(name: str) -> str:
    return (HERE / name).read_text(encoding="utf-8")


def ordered(name: str, before: List[str]) -> List[str]:
    """Appends the scripts that a script stands on to those before it, and then itself."""
    for used in IMPORT.findall(read(f"{name}.js")):
        if used not in before:
            ordered(used, before)
    before.append(name)
    return before


def script() -> str:
    """All scripts as one: each behind those that it stands on, without the lines that name these."""
    whole = "\n".join(IMPORT.sub("", read(f"{name}.js")) for name in ordered("main", []))
    return re.sub(r"(?m)^export ", "", whole)


def words() -> List[str]:
    """The commands that the program has."""
    return re.findall(r'"(\w+)" => Some', (TOP / "crates/md_cli_words/src/command.rt").read_text(encoding="utf-8"))


def sentences() -> Dict[str, object]:
    """The table of sentences that tell what a refusal means."""
    return json.loads((TOP / "python/mechdes/refusals/sentences.json").read_text(encoding="utf-8"))


def parts() -> Dict[str, str]:
    """What the page has in the places of index.html. The module and the sums are left empty."""
    return {
        "style": read("page.css").strip(),
        "worker": read("worker.js").strip(),
        "contents": json.dumps({"words": words(), "gallery": gallery(), "sentences": sentences()}).replace("</", "<\\/"),
        "script": script().strip(),
        "module": "",
        "module_sum": "",
        "page_sum": "",
    }


def filled(texts: Dict[str, str]) -> str:
    """The page with texts in its places."""
    return re.sub(r"\{\{(\w+)\}\}", lambda found: texts[found[1]], read("index.html"))


def bare_page() -> str:
    """The page without its module and its sums."""
    return filled(parts())


def sums_now(kit: Kit) -> Sums:
    """The sums of the files as they are."""
    return Sums(sum_of_module(TOP, kit), sum_of_page(bare_page()))


def page(module: bytes, module_sum: str) -> str:
    """The page, of the bytes of the module and the sum of what that is made of."""
    texts = parts()
    packed = base64.b64encode(gzip.compress(module, 9, mtime=0)).decode()
    return filled({**texts, "module": packed, "module_sum": module_sum, "page_sum": sum_of_page(filled(texts))})
