"""The conditions of the designer, as docs/FORMATS.md states them: the file, what each condition measures, and the rows that it adds
to the linear program of a setting.

`measured` takes a mechanism as it is, and `rows_of` has the same amounts as sums over the columns of the program.
"""

import math
from collections.abc import Callable, Iterable, Iterator, Sequence
from dataclasses import dataclass, replace

from second_opinion.answer import FILE_LIMIT, GREATEST, Mechanism, Records
from second_opinion.program import Program, add_gain, chance_column, divided, gain, payment_columns, program_of
from second_opinion.setting import GeneralSetting, Profile, Refused

MOST_CONDITIONS = 1000
MOST_ROWS = 4096  # of the setting and of all conditions
GREATEST_IN_ROW = 2**44  # the size of a number of a row, before the row is divided

LENGTHS = {"revenue": (4,), "welfare": (4,), "utility": (5,), "chance": (5,), "at": (6,), "pay": (5, 6)}  # of records, in fields

Terms = dict[int, int]  # numbers by column
Bounded = tuple[Terms, int]  # a sum that is to be at most a number


@dataclass(frozen=True)
class DesignerCondition:
    """That what `word` measures is at least or at most `num` over `den`. Agents, types and outcomes are told by their numbers;
    those that the word does not ask for are None, and `kind` is None too where a payment is meant at all profiles."""

    word: str
    side: str = "most"
    num: int = 0
    den: int = 1
    agent: int | None = None
    kind: int | None = None
    outcome: int | None = None
    profile: Profile | None = None

    @property
    def is_average(self) -> bool:
        """Whether one amount over all profiles by weight is measured."""
        return self.word not in ("at", "pay")

    @property
    def sign(self) -> int:
        """What a row says at most: the amount, or its negative."""
        return 1 if self.side == "most" else -1


def read_conditions(data: bytes, setting: GeneralSetting) -> list[DesignerCondition]:
    """The conditions that the bytes of a file state, or `Refused`."""
    if len(data) > FILE_LIMIT:
        raise Refused(66, "answer refused: too long")
    records = Records(data)
    records.expect(require=2)
    records.word(2, "1")
    conditions = read_begun(records, setting, end=1)
    records.finish()
    return conditions


def read_begun(records: Records, setting: GeneralSetting, **others: int) -> list[DesignerCondition]:
    """The conditions up to the first record of another word, which is one of those listed with its number of fields. That record
    is read, too."""
    conditions: list[DesignerCondition] = []
    rows = setting.condition_count() + setting.profile_count()
    while (word := expect_condition(records, others)) in NAMED:
        condition = with_bound(records, setting, NAMED[word](records, setting))
        rows += len(places_of(setting, condition))
        if len(conditions) == MOST_CONDITIONS or rows > MOST_ROWS:
            records.refuse("record")
        conditions.append(condition)
    return conditions


def expect_condition(records: Records, others: dict[str, int]) -> str:
    """Reads the next record: a condition, or one of another word. A condition on payments has one of two lengths."""
    records.take()
    word = records.fields[0].decode("utf-8", "replace")
    lengths = {**LENGTHS, **{other: (count,) for other, count in others.items()}}
    if len(records.fields) not in lengths.get(word, ()):
        records.refuse("record")
    return word


def with_bound(records: Records, setting: GeneralSetting, named: DesignerCondition) -> DesignerCondition:
    """The condition of a record, whose last three fields are its side and its bound. The numerator is refused where the right
    side of a row is too great, and else the denominator where a number of the left side is."""
    last = len(records.fields)
    side = records.word(last - 2, "least", "most")
    num, den = records.integer(last - 1, -GREATEST, GREATEST), records.integer(last, 1, GREATEST)
    condition = replace(named, side=side, num=num, den=den)
    rows = list(undivided_rows(setting, condition))
    refuse_wide(records, last - 1, (right for _, right in rows))
    refuse_wide(records, last, payment_numbers(setting, condition))
    refuse_wide(records, last, (number for terms, _ in rows for number in terms.values()))
    return condition


def refuse_wide(records: Records, place: int, numbers: Iterable[int]) -> None:
    """Refuses the field at a place where one of the numbers that it makes is too great."""
    if any(abs(number) > GREATEST_IN_ROW for number in numbers):
        records.refuse(f"field {place}")


def payment_numbers(setting: GeneralSetting, condition: DesignerCondition) -> list[int]:
    """What payments count in the rows of a condition, also where agents do not pay."""
    if condition.word not in ("revenue", "utility", "pay"):
        return []
    weights = [setting.weight(profile) for profile in setting.profiles()] if condition.is_average else [1]
    return [condition.den * weight for weight in weights]


def agent_at(records: Records, setting: GeneralSetting, place: int) -> int:
    """The number of the agent whose name a field has."""
    names = [agent.name for agent in setting.agents]
    return names.index(records.word(place, *names))


def outcome_at(records: Records, setting: GeneralSetting, place: int) -> int:
    """The number of the outcome whose name a field has."""
    return setting.outcomes.index(records.word(place, *setting.outcomes))


def named_sum(records: Records, setting: GeneralSetting) -> DesignerCondition:
    """What all agents pay or get."""
    return DesignerCondition(records.fields[0].decode())


def named_utility(records: Records, setting: GeneralSetting) -> DesignerCondition:
    """What an agent gets."""
    return DesignerCondition("utility", agent=agent_at(records, setting, 2))


def named_chance(records: Records, setting: GeneralSetting) -> DesignerCondition:
    """How often an outcome comes."""
    return DesignerCondition("chance", outcome=outcome_at(records, setting, 2))


def named_at(records: Records, setting: GeneralSetting) -> DesignerCondition:
    """How often an outcome comes at a profile."""
    profiles = {setting.profile_name(profile): profile for profile in setting.profiles()}
    profile = profiles[records.word(2, *profiles)]
    return DesignerCondition("at", outcome=outcome_at(records, setting, 3), profile=profile)


def named_pay(records: Records, setting: GeneralSetting) -> DesignerCondition:
    """What an agent pays, at all profiles or with a type."""
    agent = agent_at(records, setting, 2)
    types, kind = setting.agents[agent].types, None
    if len(records.fields) == 6:
        kind = types.index(records.word(3, *types))
    return DesignerCondition("pay", agent=agent, kind=kind)


# What is measured, from the fields between the word and the side of a record.
NAMED: dict[str, Callable[[Records, GeneralSetting], DesignerCondition]] = {
    "revenue": named_sum,
    "welfare": named_sum,
    "utility": named_utility,
    "chance": named_chance,
    "at": named_at,
    "pay": named_pay,
}


def condition_line(condition: DesignerCondition, setting: GeneralSetting) -> str:
    """The record of a condition."""
    names: list[str] = []
    if condition.profile is not None:
        names.append(setting.profile_name(condition.profile))
    if condition.outcome is not None:
        names.append(setting.outcomes[condition.outcome])
    if condition.agent is not None:
        agent = setting.agents[condition.agent]
        names.append(agent.name)
        if condition.kind is not None:
            names.append(agent.types[condition.kind])
    return ",".join([condition.word, *names, condition.side, str(condition.num), str(condition.den)])


def write_conditions(conditions: Iterable[DesignerCondition], setting: GeneralSetting) -> str:
    """The text of a conditions file."""
    lines = ["require,1", *(condition_line(condition, setting) for condition in conditions), "end"]
    return "\n".join(lines) + "\n"


def places_of(setting: GeneralSetting, condition: DesignerCondition) -> list[Profile | None]:
    """Where the amounts of a condition are measured: over all profiles (None), or at one profile after the other."""
    if condition.is_average:
        return [None]
    if condition.profile is not None:
        return [condition.profile]
    assert condition.agent is not None
    is_every = condition.kind is None
    return [profile for profile in setting.profiles() if is_every or profile[condition.agent] == condition.kind]


def scale_of(setting: GeneralSetting, condition: DesignerCondition) -> int:
    """What an amount is over: the weight of all profiles, or 1 at a profile alone."""
    return sum(map(setting.weight, setting.profiles())) if condition.is_average else 1


def measured(setting: GeneralSetting, mechanism: Mechanism, condition: DesignerCondition) -> list[int]:
    """The amounts of a condition under a mechanism, over the mechanism's denominator and `scale_of`."""
    if condition.is_average:
        profiles = setting.profiles()
        return [sum(setting.weight(profile) * amount_at(setting, mechanism, condition, profile) for profile in profiles)]
    places = places_of(setting, condition)
    return [amount_at(setting, mechanism, condition, profile) for profile in places if profile is not None]


def amount_at(setting: GeneralSetting, mechanism: Mechanism, condition: DesignerCondition, profile: Profile) -> int:
    """What a condition measures at a profile, where all tell the truth."""
    lottery, pays = mechanism.lotteries[profile], mechanism.pays.get(profile, [])
    if condition.word == "revenue":
        return sum(pays)
    if condition.word == "welfare":
        return sum(chance * all_utilities(setting, profile, outcome) for outcome, chance in enumerate(lottery))
    if condition.outcome is not None:
        return lottery[condition.outcome]
    assert condition.agent is not None
    if condition.word == "utility":
        return gain(setting, mechanism, condition.agent, profile, profile)
    return pays[condition.agent] if pays else 0


def all_utilities(setting: GeneralSetting, profile: Profile, outcome: int) -> int:
    """What an outcome is worth to all agents together."""
    return sum(setting.utility(agent, profile, outcome) for agent in range(len(setting.agents)))


def broken_condition(
    setting: GeneralSetting, mechanism: Mechanism, conditions: Sequence[DesignerCondition]
) -> tuple[int, int, int] | None:
    """The first condition that a mechanism does not meet: its number, and the two sides of its first amount that is wrong, of
    which the first should be the greater one. None where it meets them all."""
    for index, condition in enumerate(conditions):
        bound = condition.num * mechanism.den * scale_of(setting, condition)
        for amount in measured(setting, mechanism, condition):
            sides = (amount * condition.den, bound)
            left, right = sides if condition.side == "least" else sides[::-1]
            if left < right:
                return index, left, right
    return None


def undivided_rows(setting: GeneralSetting, condition: DesignerCondition) -> Iterator[Bounded]:
    """The rows of a condition, each with its right side."""
    factor = condition.sign * condition.den
    right = condition.sign * condition.num * scale_of(setting, condition)
    for place in places_of(setting, condition):
        terms: Terms = {}
        for profile in setting.profiles() if place is None else [place]:
            add_amount(setting, terms, condition, profile, factor * (setting.weight(profile) if place is None else 1))
        yield terms, right


def add_amount(setting: GeneralSetting, terms: Terms, condition: DesignerCondition, profile: Profile, factor: int) -> None:
    """Adds to a row a factor times what a condition measures at a profile (as `amount_at` has it)."""
    if condition.word in ("revenue", "utility"):
        add_gain(setting, terms, condition.agent, profile, profile, factor)
    elif condition.word == "welfare":
        for outcome in range(len(setting.outcomes)):
            terms[chance_column(setting, profile, outcome)] = factor * all_utilities(setting, profile, outcome)
    elif condition.outcome is not None:
        terms[chance_column(setting, profile, condition.outcome)] = factor
    elif setting.payments:
        assert condition.agent is not None
        plus, minus = payment_columns(setting, condition.agent, profile)
        terms[plus], terms[minus] = factor, -factor


def program_under(setting: GeneralSetting, conditions: Sequence[DesignerCondition]) -> Program:
    """The program of the setting, and behind it the rows of the conditions in their order."""
    program = program_of(setting)
    for index, condition in enumerate(conditions):
        for terms, right in undivided_rows(setting, condition):
            program.rows.append(divided(f"require/{index}", False, right, terms))
    return program


def divisor_of(numbers: Iterable[int]) -> int:
    """What a row, or the cost, is divided by."""
    return math.gcd(*numbers) or 1
