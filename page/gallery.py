"""The settings for the page to begin with: those of examples/, each with its title, its question, and what its page asks of it
first, and one to make an auction of one's own of."""

from __future__ import annotations

import re
from pathlib import Path
from typing import Any, Dict, Iterator, List, Optional, Sequence

HERE = Path(__file__).resolve().parent
EXAMPLES = HERE.parent / "examples"

# Files beside a setting whose names do not begin with its name.
BESIDE = {"auction-reserve": ["own-first-price.csv", "own-too-often.csv"]}

# Second files that commands of the page print themselves.
PRINTED = ("-answer", "-found", "-required", "-fairest", "-rule", "-threshold")

# Titles of settings that have no page of their own.
TITLES = {
    "auction-beyond": "A lot at an auction house",
    "compromise-1-1": "Revenue against welfare, weighed 1 to 1",
    "compromise-1-3": "Revenue against welfare, weighed 1 to 3",
    "compromise-1-4": "Revenue against welfare, weighed 1 to 4",
    "compromise-2-1": "Revenue against welfare, weighed 2 to 1",
    "divorce-unburnt": "A divorce settlement, where nothing is burnt",
    "fair-split": "A piano for one of two heirs",
    "one-type": "The smallest setting",
    "partnership-half": "The end of a partnership of equal shares",
    "partnership-quarters": "The end of a partnership of unequal shares",
    "partnership-sole": "A firm of one partner",
    "public-good": "A bridge for two neighbours",
    "second-price": "An item for two bidders",
    "subsidy-least": "Bilateral trade with the least subsidy",
    "too-wide-rounded": "Numbers that grow too wide, rounded",
    "two-bidders": "How often can a bidder win?",
    "vote": "A choice between two outcomes",
}

# Questions of settings whose page has none of its own, or one that wants more of the page.
QUESTIONS = {
    "auction-beyond": "What should the bidders pay, so that the lot brings the most?",
    "auction-cuts": "Which rule brings the most revenue, and who then wins?",
    "bilateral-trade": "How much of the 7/4 that trade can bring does the best rule bring?",
    "class-trip": "Where should the class go, so that both halves together have the most from it?",
    "divorce-unburnt": "What should the arbitrator do, where nothing can be burnt?",
    "fair-split": "Under which truthful rule does the heir that gets least get most?",
    "one-type": "What is there to decide?",
    "public-good": "When should the bridge be built, and who pays what?",
    "second-price": "Who should have the item, and at which price?",
    "subsidy-least": "How much has to be paid in so that all good trades are made?",
    "too-wide": "Which rule brings the most revenue, where the numbers on the way have many digits?",
    "too-wide-rounded": "Which rule brings the most revenue, with fewer digits?",
    "two-bidders": "Is there an auction in which the values win as often as these odds say?",
    "village-bus": "When should the bus run, so that the most households take it?",
    "vote": "Which of the two should be chosen?",
}

# What is asked of settings that pages speak of beside other things.
ASKS = {"auction-reserve": {"ask": "threshold", "units": "1"}, "fair-split": {"ask": "fair"}}

# Names of the further words of commands, in their order, as the page has them.
FIELDS = {"units": ["units"], "ironunits": ["units"], "threshold": ["units"], "award": ["units", "profile", "draw"]}


def pages(name: str) -> List[Path]:
    """The page of an example, and then the others."""
    own = EXAMPLES / f"{name}.md"
    others = [path for path in sorted(EXAMPLES.glob("*.md")) if path not in (own, EXAMPLES / "README.md")]
    return ([own] if own.exists() else []) + others


def title_of(name: str) -> str:
    """The heading of the page of an example, or a title of its own."""
    page = EXAMPLES / f"{name}.md"
    if page.exists():
        return page.read_text(encoding="utf-8").splitlines()[0][len("# ") :]
    return TITLES.get(name, name.replace("-", " ").capitalize())


def question_of(name: str) -> str:
    """What is asked of an example, in a sentence: the questions of the first page that speaks of it."""
    if name in QUESTIONS:
        return QUESTIONS[name]
    for page in pages(name):
        text = page.read_text(encoding="utf-8")
        asked = re.search(r"(?m)^\*\*The question\.\*\* (.*)$", text)
        if asked and f"{name}.toml" in text:
            return " ".join(each.strip() for each in re.findall(r"[^.?]*\?", asked[1]))
    return ""


def asks_of(name: str) -> Dict[str, str]:
    """The command of the first call on an example in the pages that reads no answer, with its further words by their names."""
    if name in ASKS:
        return ASKS[name]
    for page in pages(name):
        called = re.search(rf"\./mechdes (\w+) examples/{name}\.toml(?!.*-answer\.csv)([^\n`]*)", page.read_text(encoding="utf-8"))
        if called:
            fields = FIELDS.get(called[1], [])
            return {"ask": called[1], **dict(zip(fields, called[2].split()))}
    return {"ask": "solve"}


def kind_of(text: str) -> Optional[str]:
    """Which second file of a command a text is, or None."""
    word, *fields = text.split("\n")[0].split(",")
    if (word, fields[1:]) == ("answer", ["auction", "table"]):
        return "reported"
    if word == "answer":
        kinds = {"required": "required", "fair": "fairest", "determ": "rule", "asym": "sale", "units": "units"}
        return kinds.get(fields[1], "answer")
    return {"pivot": "pivots", "cut": "pivots", "interim": "odds", "require": "conditions"}.get(word)


def files_beside(name: str, names: Sequence[str]) -> Iterator[Path]:
    """The files beside a setting that no command of the page would print."""
    for path in sorted(EXAMPLES.glob(f"{name}-*.csv")) + [EXAMPLES / f"{name}.csv"]:
        owner = next((each for each in names if path.stem == each or path.stem.startswith(f"{each}-")), None)
        if path.exists() and owner == name and not path.stem.endswith(PRINTED):
            yield path
    for beside in BESIDE.get(name, []):
        yield EXAMPLES / beside


def seconds_of(name: str, names: Sequence[str]) -> List[Dict[str, Optional[str]]]:
    """These files, each with its kind and its text."""
    texts = {path.name: path.read_text(encoding="utf-8") for path in files_beside(name, names)}
    return [{"name": name, "kind": kind_of(text), "text": text} for name, text in texts.items()]


def own_auction() -> Dict[str, Any]:
    """An auction to change."""
    text = (HERE / "own-auction.toml").read_text(encoding="utf-8")
    return {
        "name": "own-auction",
        "title": "An auction of your own",
        "question": "Who should win, and at which price?",
        "asks": {"ask": "award"},
        "isOwn": True,
        "text": text,
        "seconds": [],
    }


def gallery() -> List[Dict[str, Any]]:
    """All settings: the auction of one's own, and then the examples in the order of their names."""
    names = [path.stem for path in sorted(EXAMPLES.glob("*.toml"))]
    longest_first = sorted(names, key=len, reverse=True)
    return [own_auction()] + [
        {
            "name": name,
            "title": title_of(name),
            "question": question_of(name),
            "asks": asks_of(name),
            "text": (EXAMPLES / f"{name}.toml").read_text(encoding="utf-8"),
            "seconds": seconds_of(name, longest_first),
        }
        for name in names
    ]
