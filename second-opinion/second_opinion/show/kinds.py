"""The two kinds of settings: how an answer is read, and which page shows it."""

from typing import Any

from second_opinion import answer, auction_answer
from second_opinion.required_answer import RequiredAnswer, read_required
from second_opinion.setting import AuctionSetting, GeneralSetting, Setting
from second_opinion.show.auction_draw import odds_file
from second_opinion.show.auction_facts import Sale
from second_opinion.show.auction_page import AuctionPage
from second_opinion.show.draw import standalone
from second_opinion.show.facts import Play, Prior
from second_opinion.show.page import Page
from second_opinion.show.threshold_page import ThresholdPage, Told
from second_opinion.threshold import Rule, read_units


def read_answer(data: bytes, setting: Setting) -> Any:
    """The answer that the bytes of a file state, with the designer's conditions where it is under such, or the auction of a text by
    `threshold`; or `Refused`."""
    if isinstance(setting, AuctionSetting) and data.startswith(b"threshold,"):
        return Told(Rule(setting, read_units(data)), data.decode("utf-8", "replace"))
    if isinstance(setting, GeneralSetting) and data.startswith(b"answer,1,required,"):
        return read_required(data, setting)
    reader = answer if isinstance(setting, GeneralSetting) else auction_answer
    return reader.read_answer(data, setting)


def page_of(setting: Setting, said: Any, *words: Any) -> Page | AuctionPage | ThresholdPage:
    """The page about an answer. The words are those of `Page`."""
    if isinstance(setting, AuctionSetting) and isinstance(said, Told):
        return ThresholdPage(setting, said, *words)
    return (Page if isinstance(setting, GeneralSetting) else AuctionPage)(setting, said, *words)


def picture_of(setting: Setting, said: Any, heading: str) -> str | None:
    """The lotteries of an answer, or the odds of an auction, as an SVG file; None where the answer has none."""
    said = said.said if isinstance(said, RequiredAnswer) else said
    if isinstance(setting, GeneralSetting):
        return standalone(Play(setting, Prior(setting), said.mechanism), heading) if hasattr(said, "mechanism") else None
    return odds_file(Sale(setting, said), heading) if hasattr(said, "interim") else None
