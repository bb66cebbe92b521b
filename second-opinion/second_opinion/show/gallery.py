"""Writes the gallery: a page for each setting of examples/ that has a stored answer, and an index of them.

    second-opinion/gallery [FOLDER]

FOLDER is examples/pages where none is named. The pictures of the README are written beside the pages. Files of other
names are left as they are. The same files of examples/ give the same pages, byte for byte.
"""

import re
import sys
from html import escape
from pathlib import Path

from second_opinion.conditions import read_conditions
from second_opinion.places import ENDING, EXAMPLES, stored_names
from second_opinion.required_answer import read_required
from second_opinion.setting import AuctionSetting, GeneralSetting, read_setting
from second_opinion.show.floors import floor_step, floors_page, with_corners
from second_opinion.show.frontier import Step, step_of, weights_page
from second_opinion.show.kinds import page_of, picture_of, read_answer
from second_opinion.show.parts import document, paragraph
from second_opinion.show.text import html_number, remark

Entry = tuple[str, str, str, str, str]  # of the list: a name, a title, a kind, a value, and a remark

PICTURES = {"auction-ironed", "divorce", "two-goods"}  # the examples whose lotteries or odds are stored as a picture too
FRONTIER = ("auction-reserve", "compromise-2-1", "compromise-1-1", "compromise-1-3", "compromise-1-4")  # one auction, weighed anew
FLOORS = tuple(f"revenue-floor-{number}" for number in range(1, 7))  # conditions files of one setting, by rising floors
# The answers under conditions that have pages, each with its setting, by whose name the page of examples/ about it goes.
REQUIRED = {"budget-4": "budget", "revenue-floor-2": "revenue-floor", "school-quota-3": "school-quota", "subsidy-eighth": "subsidy"}
# The texts of `threshold` that are stored, each with the page of examples/ that tells of it.
THRESHOLDS = {"used-car": "used-car", "auction-ironed": "pooled-values", "seats": "seat-prices"}
FRONTIER_LEAD = "What can be had of revenue and welfare at once, in the auction of two bidders with a reserve price."


def title_of(name: str) -> str:
    """The heading of the page of an example, or its name in words."""
    page = EXAMPLES / f"{name}.md"
    first = page.read_text("utf-8").splitlines()[:1] if page.exists() else []
    if first and first[0].startswith("# "):
        return first[0][2:].strip()
    return name.replace("-", " ").capitalize()


def linked(text: str) -> str:
    """A text as HTML, in which the name of a file of examples/ leads to its page of the gallery, or to the file."""

    def link(found: re.Match[str]) -> str:
        name, ending = found.groups()
        if not (EXAMPLES / found[0]).exists():
            return found[0]
        has_page = ending == "toml" and (EXAMPLES / (name + ENDING)).exists()
        return f'<a href="{name}.html">{found[0]}</a>' if has_page else f'<a href="../{found[0]}">{found[0]}</a>'

    return re.sub(r"([\w-]+)\.(toml|md)\b", link, escape(text))


def file_link(name: str) -> str:
    """The name of a file of examples/ that leads to it, as HTML."""
    return f'<a href="../{name}"><code>{name}</code></a>'


def lead_of(name: str, text: str) -> str:
    """What stands below the heading of an example: the remark of its file, and where its page is."""
    page = f"{name}.md"
    if page in text or not (EXAMPLES / page).exists():
        return linked(text)
    return f'{linked(text)} Its page is <a href="../{page}">{page}</a>.'


def index(entries: list[Entry]) -> str:
    """The page that lists the others."""
    items = "".join(
        f'<li><a href="{name}.html">{escape(title)}</a>: {escape(kind)}{value}\n<p>{linked(words)}</p></li>\n'
        for name, title, kind, value, words in entries
    )
    words = paragraph(
        "A page for each setting of the examples whose answer is stored: its lotteries as bars, its payments, what "
        "each type gets, and the conditions that hold with equality; or of an auction its odds and payments by value, "
        "its virtual values, and the sets of values that bind; or who wins where only winners pay, and what they pay. "
        "The last are about answers under conditions of the designer."
    )
    foot = paragraph("Made by <code>second-opinion/gallery</code>. All numbers are exact.")
    heading = "Settings and their answers"
    return document(heading, f"<h1>{heading}</h1>\n", f'{words}<ul class="pages">\n{items}</ul>\n', foot)


def frontier() -> str:
    """The page of the auction that is weighed anew."""
    steps = []
    for name in FRONTIER:
        setting = read_setting((EXAMPLES / f"{name}.toml").read_bytes())
        assert isinstance(setting, AuctionSetting), name
        steps.append(step_of(name, setting, read_answer((EXAMPLES / (name + ENDING)).read_bytes(), setting)))
    return weights_page(title_of("frontier"), FRONTIER_LEAD, steps)


def floor_steps() -> list[Step]:
    """What the stored answers under floors show, and what was found at the corners between them."""
    its = read_setting((EXAMPLES / "revenue-floor.toml").read_bytes())
    assert isinstance(its, GeneralSetting)
    steps: list[Step] = []
    for name in FLOORS:
        found = read_required((EXAMPLES / f"{name}-required.csv").read_bytes(), its)
        assert found.conditions == read_conditions((EXAMPLES / f"{name}.csv").read_bytes(), its), name
        steps.append(floor_step(f"{name}-required", its, found))
    return with_corners(its, steps)


def floors(entries: list[Entry]) -> dict[str, str]:
    """The page of the setting under floors, by its name. It is added to the list of all."""
    name, words = "revenue-floor", remark((EXAMPLES / "revenue-floor.toml").read_bytes())
    entries.append((name, title_of(name), "the frontier of revenue and welfare", "", words))
    return {f"{name}.html": floors_page(title_of(name), lead_of(name, words), floor_steps())}


def page_about(name: str, stored: str, told: str, entries: list[Entry]) -> dict[str, str]:
    """The texts about a stored answer to a setting, by their names; `told` names the page of examples/ about it. The page is added to
    the list of all."""
    data = (EXAMPLES / f"{name}.toml").read_bytes()
    setting = read_setting(data)
    answer = read_answer((EXAMPLES / stored).read_bytes(), setting)
    title, own = title_of(told), stored.removesuffix(".csv").removesuffix("-answer")
    files = [file_link(f"{name}.toml"), file_link(stored)]
    page = page_of(setting, answer, title, files, lead_of(told, remark(data)), "index.html")
    value = f" of the value {html_number(page.value())}" if page.value() is not None else ""
    entries.append((own, title, page.kind(), value, remark(data)))
    made = {f"{own}.html": page.html()}
    return made | ({f"{own}.svg": picture_of(setting, answer, title)} if own in PICTURES else {})


def pages() -> dict[str, str]:
    """The texts of all files, by their names."""
    made, entries = {"frontier.html": frontier()}, []
    entries.append(("frontier", title_of("frontier"), "the corners of a frontier", "", FRONTIER_LEAD))
    made |= floors(entries)
    for name in stored_names():
        made |= page_about(name, name + ENDING, name, entries)
    for name, told in THRESHOLDS.items():
        made |= page_about(name, f"{name}-threshold.csv", told, entries)
    for asked, name in REQUIRED.items():
        made |= page_about(name, f"{asked}-required.csv", name, entries)
    made["index.html"] = index(entries)
    return made


def main() -> None:
    """Writes all files."""
    folder = Path(sys.argv[1]) if len(sys.argv) > 1 else EXAMPLES / "pages"
    folder.mkdir(parents=True, exist_ok=True)
    for name, text in pages().items():
        (folder / name).write_bytes(text.encode())

