"""Tells why a setting is no sale, of which `mechdes asym` says `not a sale`: docs/FORMATS.md, "What `asym` prints"."""

import math
from collections.abc import Iterator

from second_opinion import command
from second_opinion.setting import FILE_LIMIT, AuctionSetting, GeneralSetting, Refused, read_setting

MOST_TYPES = 12  # of all agents together


def why(words: list[str]) -> tuple[int, str]:
    """The command `why SETTING`: 0 and `a sale`, or 20 and the first condition of a sale that fails."""
    (name,) = command.file_names(words, 1)
    setting = read_setting(command.read_file(name, FILE_LIMIT))
    if isinstance(setting, AuctionSetting):
        raise Refused(65, "setting refused: other kind")
    reason = next(failing(setting), None)
    return (0, "a sale\n") if reason is None else (20, f"not a sale: {reason}\n")


def failing(setting: GeneralSetting) -> Iterator[str]:
    """What fails, in the order of the format. All that follows a wrong number of outcomes is told of the outcomes that are
    there."""
    agents = setting.agents
    if len(setting.outcomes) != len(agents) + 1:
        yield f"the outcomes are {len(setting.outcomes)}, and not one more than the agents, {len(agents) + 1}"
    yield from failing_utilities(setting)
    if setting.truth != "bayes":
        yield f"truth is {setting.truth}, and not bayes"
    if setting.rational != "interim":
        yield f"rational is {setting.rational}, and not interim"
    for agent in agents:
        for kind, outside in zip(agent.types, agent.outside):
            if outside:
                yield f"{agent.name} of type {kind} has {outside} outside, and not 0"
    if not setting.payments:
        yield "there are no payments"
    if setting.no_deficit:
        yield "there is a condition on the deficit"
    if setting.revenue < 0:
        yield f"revenue is {setting.revenue}, which is negative"
    types = sum(len(agent.types) for agent in agents)
    if types > MOST_TYPES:
        yield f"the agents have {types} types together, and not at most {MOST_TYPES}"
    yield from dependent(setting)


def failing_utilities(setting: GeneralSetting) -> Iterator[str]:
    """Where an outcome is worth what it may not be worth: outcome by outcome, agent by agent, profile by profile."""
    for outcome, name in enumerate(setting.outcomes):
        for number, agent in enumerate(setting.agents):
            first: dict[int, int] = {}  # what the outcome is worth to a type of the agent, at the first profile that has it
            for profile in setting.profiles():
                worth, at = setting.utility(number, profile, outcome), setting.profile_name(profile)
                if number != outcome - 1:
                    if worth != 0:
                        yield f"{name} is worth {worth} to {agent.name} at {at}, and not 0"
                elif worth < 0:
                    yield f"{name} is worth {worth} to {agent.name} at {at}, which is negative"
                elif worth != first.setdefault(profile[number], worth):
                    yield f"what {name} is worth to {agent.name} at {at} depends on the types of others"


def dependent(setting: GeneralSetting) -> Iterator[str]:
    """The profiles whose chance is not the product of those of their types."""
    weights = {profile: setting.weight(profile) for profile in setting.profiles()}
    total = sum(weights.values())
    for profile, weight in weights.items():
        having = [
            sum(other for at, other in weights.items() if at[number] == kind) for number, kind in enumerate(profile)
        ]
        if weight * total ** (len(having) - 1) != math.prod(having):
            yield f"types depend on each other: {setting.profile_name(profile)} has not the chance of its types"
