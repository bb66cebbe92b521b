"""The parts of which a page is made: sections, paragraphs, pictures with their captions, warnings, and all of it."""

from fractions import Fraction
from html import escape
from typing import Protocol

from second_opinion.show.style import page_style
from second_opinion.show.text import Number, decimal, html_number, mixed

NARROWEST = 180  # pixels of a picture with its caption, at least
ANY_PAGE = 320  # pixels that fit on any page
EXACT = (
    "All whole numbers and fractions are exact. A decimal number with two dots behind it is rounded toward 0; nothing else is "
    "rounded but the coordinates of the pictures."
)


class Drawing(Protocol):
    """A picture that knows how wide it is."""

    @property
    def width(self) -> Number: ...

    def svg(self, name: str) -> str: ...


class AnyPage(Protocol):
    """A page about an answer."""

    title: str
    remark: str
    home: str | None

    def kind(self) -> str: ...

    def foot(self) -> str: ...


def section(heading: str, content: str) -> str:
    """A section under a heading."""
    return f"<section>\n<h2>{heading}</h2>\n{content}</section>\n"


def paragraph(text: str) -> str:
    """A paragraph of HTML."""
    return f"<p>{text}</p>\n"


def alert(strong: str, words: str) -> str:
    """A box that says what is wrong."""
    return f'<div class="verdict bad">\n<p><strong>{strong}</strong> {words}</p>\n</div>\n'


def figure(caption: str, drawn: Drawing, name: str, label: str) -> str:
    """A picture in its own size, that scrolls where it is wider than the page. Its caption is no wider than it is."""
    scroll = f' role="region" tabindex="0" aria-label="{escape(label)}"' if int(drawn.width) + 2 > ANY_PAGE else ""
    caption = f"<figcaption>{escape(caption)}</figcaption>\n" if caption else ""
    picture = f'<div class="scroll"{scroll}>\n{drawn.svg(name)}\n</div>\n'
    return f'<figure style="width:{max(NARROWEST, int(drawn.width) + 2)}px">\n{caption}{picture}</figure>\n'


def hidden(definitions: str) -> str:
    """The patterns of a page, in a picture that nobody sees."""
    return f'<svg class="defs" width="0" height="0" aria-hidden="true" focusable="false">{definitions}</svg>\n'


def made_from(names: list[str]) -> str:
    """Where a page comes from: the names of its two files, as HTML."""
    setting, answer = names
    return paragraph(f"Made by <code>second-opinion/show</code> from {setting} and {answer}. {EXACT}")


def whole(page: AnyPage, main: str) -> str:
    """A page about an answer around its sections: its title, what is told below it, and its foot."""
    over = f'<a href="{escape(page.home)}">All pages</a>' if page.home else "A setting and its answer"
    lead = f'<p class="lead">{page.remark}</p>\n' if page.remark else ""
    title = escape(page.title)
    header = f'<p class="over">{over}</p>\n<h1>{title}</h1>\n{lead}'
    return document(f"{title}: {page.kind()}", header, main, page.foot())


def document(title: str, header: str, main: str, footer: str) -> str:
    """A page of HTML. All four are HTML already."""
    return (
        '<!DOCTYPE html>\n<html lang="en">\n<head>\n<meta charset="utf-8">\n'
        '<meta name="viewport" content="width=device-width, initial-scale=1">\n'
        f"<title>{title}</title>\n<style>\n{page_style()}</style>\n</head>\n<body>\n"
        f"<header>\n{header}</header>\n<main>\n{main}</main>\n<footer>\n{footer}</footer>\n</body>\n</html>\n"
    )


def big(text: str) -> str:
    """What the answer says, in large letters."""
    return f'<p class="value">{text}</p>\n'


def big_value(value: Fraction) -> str:
    """The value of a mechanism, in large digits."""
    rest = " = ".join(filter(None, [mixed(value).replace("/", "/<wbr>"), decimal(value)]))
    return big(f"Value {html_number(value)}") + (f'<p class="soft">= {rest}</p>\n' if rest else "")
