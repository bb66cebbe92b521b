"""The mechanism of an answer about a general setting, whichever command printed the answer, and the conditions of the designer that it
is to meet."""

from second_opinion import answer
from second_opinion.answer import InfeasibleAnswer, Mechanism, TooWideAnswer
from second_opinion.conditions import DesignerCondition
from second_opinion.required_answer import read_required
from second_opinion.setting import GeneralSetting, Refused


def mechanism_in(data: bytes, setting: GeneralSetting) -> Mechanism:
    """The mechanism of an answer, or `Refused` where it has none."""
    return proposal_in(data, setting)[0]


def proposal_in(data: bytes, setting: GeneralSetting) -> tuple[Mechanism, list[DesignerCondition]]:
    """The same with the conditions of the designer that the answer names, none but under such conditions."""
    said, conditions = said_in(data, setting)
    if isinstance(said, (InfeasibleAnswer, TooWideAnswer)):
        raise Refused(66, answer.NO_TABLE)
    return said.mechanism, conditions


def said_in(data: bytes, setting: GeneralSetting) -> tuple[answer.Answer, list[DesignerCondition]]:
    """What an answer says. A text whose first record names another kind than that of answers about the best mechanism is read as one
    about the fairest, and where it names another kind again as one under conditions of the designer."""
    for read in (answer.read_answer, answer.read_fair_answer):
        try:
            return read(data, setting), []
        except Refused as refused:
            if refused.line != answer.ANOTHER_KIND:
                raise
    required = read_required(data, setting)
    return required.said, required.conditions
