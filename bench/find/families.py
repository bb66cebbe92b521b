"""Settings for `bench/find/measure`: 27 families, each with utilities to 1, 5, 100 and 1,000, drawn by a seed.

A family is named by its sort, how many agents there are, of how many types, and how many outcomes. Weights are 1 where
utilities are 0 and 1, and else 1 to 5."""

import random
from collections.abc import Iterator
from dataclasses import dataclass

GREATEST = (1, 5, 100, 1000)

# How a sort of setting begins: truth, rationality, payments, no deficit, objective.
SORTS: dict[str, tuple[str, str, bool, bool, str]] = {
    "revenue": ("bayes", "interim", True, False, "revenue = 1"),
    "revenue-dominant": ("dominant", "ex-post", True, False, "revenue = 1"),
    "vote": ("bayes", "none", False, False, "welfare = 1"),
    "vote-dominant": ("dominant", "none", False, False, "welfare = 1"),
    "sale": ("bayes", "interim", True, False, "revenue = 1"),
    "sale-dominant": ("dominant", "ex-post", True, False, "revenue = 1"),
    "balanced": ("bayes", "interim", True, True, "welfare = 1"),
    "balanced-dominant": ("dominant", "ex-post", True, True, "welfare = 1"),
    "items": ("bayes", "interim", True, False, "revenue = 1"),
}

# Agents, types of each, and outcomes.
SIZES: dict[str, list[tuple[int, int, int]]] = {
    "revenue": [
        *((2, types, outcomes) for types in (8, 12, 16) for outcomes in (2, 3, 5)),
        *((3, types, outcomes) for types in (6, 8) for outcomes in (2, 3)),
        (5, 3, 2),
    ],
    "revenue-dominant": [(2, 8, 2), (2, 8, 3), (3, 4, 3)],
    "vote": [(2, 16, 3), (3, 8, 3), (6, 3, 3)],
    "vote-dominant": [(2, 8, 5)],
    "sale": [(3, 6, 4)],
    "sale-dominant": [(2, 8, 3)],
    "balanced": [(2, 12, 3)],
    "balanced-dominant": [(2, 8, 3)],
    "items": [(2, 9, 4), (2, 16, 4)],
}


@dataclass
class Drawn:
    """A setting that was drawn: its family, the greatest utility, the seed, and the text of its file."""

    family: str
    greatest: int
    seed: int
    text: str


def names(word: str, count: int) -> str:
    """A list of so many names, as TOML has it."""
    return "[" + ", ".join(f'"{word}{number}"' for number in range(count)) + "]"


def numbers(draw: random.Random, count: int, least: int, greatest: int) -> list[int]:
    """So many numbers."""
    return [draw.randint(least, greatest) for _ in range(count)]


def utility(sort: str, agent: int, size: tuple[int, int, int], greatest: int, draw: random.Random) -> list[list[int]]:
    """What an agent gets from the outcomes, by its type. In a sale it is the one that the agent gets the good at; two items
    are all sold, each to one of both, and a type is a value for each."""
    _, types, outcomes = size
    if sort.startswith("sale"):
        values = numbers(draw, types, 1, max(greatest, 2))
        return [[value if outcome == agent + 1 else 0 for outcome in range(outcomes)] for value in values]
    if sort == "items":
        side = round(types**0.5)
        first, second = (sorted(draw.sample(range(1, max(greatest, side) + 1), side)) for _ in range(2))
        owners = [(one, other) for one in range(2) for other in range(2)]
        return [[one * (a == agent) + other * (b == agent) for a, b in owners] for one in first for other in second]
    return [numbers(draw, outcomes, 0, greatest) for _ in range(types)]


def setting(sort: str, size: tuple[int, int, int], greatest: int, draw: random.Random) -> str:
    """The text of a setting of this sort and size."""
    truth, rational, payments, no_deficit, objective = SORTS[sort]
    agents, types, outcomes = size
    lines = [
        'format = "mechanism-setting"',
        "version = 1",
        'kind = "general"',
        f'truth = "{truth}"',
        f'rational = "{rational}"',
        f"payments = {str(payments).lower()}",
        f"no_deficit = {str(no_deficit).lower()}",
        f"outcomes = {names('o', outcomes)}",
        "[objective]",
        objective,
    ]
    for agent in range(agents):
        weights = numbers(draw, types, 1, 1 if greatest == 1 else 5)
        lines += ["[[agent]]", f'name = "a{agent}"', f"types = {names('t', types)}", f"weights = {weights}"]
        lines.append(f"utility = {utility(sort, agent, size, greatest, draw)}")
    return "\n".join(lines) + "\n"


def families(seeds: list[int]) -> Iterator[Drawn]:
    """All settings, one of each family and greatest utility for each seed."""
    for sort, sizes in SIZES.items():
        for size in sizes:
            family = "-".join([sort, *map(str, size)])
            for greatest in GREATEST:
                for seed in seeds:
                    draw = random.Random(f"{family} {greatest} {seed}")
                    yield Drawn(family, greatest, seed, setting(sort, size, greatest, draw))
