"""The command `show`: what its words ask for, and the page or the picture."""

import os
from html import escape

from second_opinion.answer import FILE_LIMIT as ANSWER_LIMIT
from second_opinion.command import read_file
from second_opinion.setting import FILE_LIMIT, Refused, read_setting
from second_opinion.show.kinds import page_of, picture_of, read_answer
from second_opinion.show.text import remark


def asked(given: list[str]) -> tuple[list[str], str | None, bool]:
    """What the words ask for: the two files, the heading or None, and whether the picture alone."""
    given = list(given)
    names: list[str] = []
    title, picture, options = None, False, True
    while given:
        word = given.pop(0)
        if not options or not word.startswith("-"):
            names.append(word)
        elif word == "--":
            options = False
        elif word == "--picture":
            picture = True
        elif word == "--title" and given:
            title = given.pop(0)
        elif word.startswith("--title="):
            title = word.removeprefix("--title=")
        else:
            raise Refused(64, "usage")
    if len(names) != 2:
        raise Refused(64, "usage")
    return names, title, picture


def show(words: list[str]) -> tuple[int, str]:
    """The page or picture that the words ask for, as text."""
    names, title, is_picture = asked(words)
    data = read_file(names[0], FILE_LIMIT)
    setting = read_setting(data)
    answer = read_answer(read_file(names[1], ANSWER_LIMIT), setting)
    names = [os.path.basename(name) for name in names]
    title = title or os.path.splitext(names[0])[0]
    if not is_picture:
        codes = [f"<code>{escape(name)}</code>" for name in names]
        return 0, page_of(setting, answer, title, codes, escape(remark(data))).html()
    picture = picture_of(setting, answer, title)
    if picture is None:
        raise Refused(66, "answer refused: no table")
    return 0, picture
