"""Reads and writes answers about the best mechanism of a sale, as docs/FORMATS.md states them."""

from collections.abc import Iterator
from dataclasses import dataclass

from second_opinion import answer
from second_opinion.answer import GREATEST, GREATEST_WIDE, Pair, Records, TooWideAnswer
from second_opinion.auction import Interim
from second_opinion.setting import GeneralSetting, Profile


@dataclass
class SaleAnswer:
    """Odds and pays by pair of an agent and a type, with their value (a numerator and a denominator), and masses of the
    agents by profile, over the denominator of the odds. `multipliers` has pairs of face and main by row of the program with
    the cuts; the main ones are over the denominator `bound`."""

    value: Pair
    interim: Interim
    masses: dict[Profile, list[int]]
    cuts: list[int]
    bound: int
    multipliers: dict[int, Pair]


def pairs_of(setting: GeneralSetting) -> list[Pair]:
    """The pairs of an agent and a type, by agent, then by type."""
    return [(number, kind) for number, agent in enumerate(setting.agents) for kind in range(len(agent.types))]


def row_count(setting: GeneralSetting, cuts: list[int]) -> int:
    """How many rows the program with the cuts has: for each type one for each type of its agent, and the cuts."""
    return sum(len(agent.types) ** 2 for agent in setting.agents) + len(cuts)


def read_answer(data: bytes, setting: GeneralSetting) -> SaleAnswer | TooWideAnswer:
    """The answer about a sale that the bytes of a file state, or `Refused`."""
    records, word, _ = answer.begun(data, "asym", {"1": ["optimal", "toowide"], "2": ["toowide"]})
    said: SaleAnswer | TooWideAnswer
    said = read_optimal(records, setting) if word == "optimal" else read_too_wide(records, setting)
    records.finish()
    return said


def read_optimal(records: Records, setting: GeneralSetting) -> SaleAnswer:
    value = answer.read_value(records)
    records.expect(interim=2)
    den = records.integer(2, 1, GREATEST)
    odds = read_agents(records, setting, "odds", 0, den)
    interim = Interim(den, odds, read_agents(records, setting, "pays", -GREATEST, GREATEST))
    masses = read_masses(records, setting, den)
    cuts: list[int] = []
    while records.expect(cut=2, bound=2) == "cut":
        read_cut(records, setting, cuts)
    bound = records.integer(2, 1, GREATEST)
    return SaleAnswer(value, interim, masses, cuts, bound, answer.read_rows(records, row_count(setting, cuts), 2))


def read_agents(records: Records, setting: GeneralSetting, word: str, least: int, greatest: int) -> list[int]:
    """One record for each agent, with its name and a number for each of its types."""
    numbers = []
    for agent in setting.agents:
        records.expect(**{word: 2 + len(agent.types)})
        records.word(2, agent.name)
        numbers += records.integers(3, least, greatest)
    return numbers


def read_masses(records: Records, setting: GeneralSetting, den: int) -> dict[Profile, list[int]]:
    """One record for each profile, with a number for each agent: together no more than the weight of the profile."""
    masses = {}
    for profile in setting.profiles():
        records.expect(mass=1 + 2 * len(setting.agents))
        for place, (agent, kind) in enumerate(zip(setting.agents, profile), 2):
            records.word(place, agent.types[kind])
        masses[profile] = records.integers(2 + len(setting.agents), 0, GREATEST_WIDE)
        if sum(masses[profile]) > den * setting.weight(profile):
            records.refuse("sum")
    return masses


def read_cut(records: Records, setting: GeneralSetting, cuts: list[int]) -> None:
    """Adds the set of a `cut` record to those that were read before, none of which it may be."""
    number = records.integer(2, 1, 2 ** len(pairs_of(setting)) - 1)
    if number in cuts:
        records.refuse("field 2")
    cuts.append(number)


def read_too_wide(records: Records, setting: GeneralSetting) -> TooWideAnswer:
    cuts: list[int] = []
    while records.expect(cut=2, pivot=3, wide=5) == "cut":
        read_cut(records, setting, cuts)
    first = answer.read_begun_path(records)
    records.expect(again=1)
    paths = [first, answer.read_path(records)]
    records.expect(end=1)
    return TooWideAnswer(paths)


def write_answer(said: SaleAnswer, setting: GeneralSetting) -> str:
    """The text of an optimal answer. Rows whose multipliers are 0 are left out."""
    return "".join(",".join(map(str, record)) + "\n" for record in records_of(said, setting))


def records_of(said: SaleAnswer, setting: GeneralSetting) -> Iterator[list[object]]:
    """Its records."""
    yield ["answer", 1, "asym", "optimal"]
    yield ["value", *said.value]
    yield ["interim", said.interim.den]
    for word, numbers in [("odds", said.interim.odds), ("pays", said.interim.pays)]:
        rest = iter(numbers)
        for agent in setting.agents:
            yield [word, agent.name, *(next(rest) for _ in agent.types)]
    for profile, masses in said.masses.items():
        yield ["mass", *(agent.types[kind] for agent, kind in zip(setting.agents, profile)), *masses]
    yield from (["cut", cut] for cut in said.cuts)
    yield ["bound", said.bound]
    yield from (["row", index, *pair] for index, pair in sorted(said.multipliers.items()) if pair != (0, 0))
    yield ["end"]
