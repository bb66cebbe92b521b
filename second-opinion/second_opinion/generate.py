"""generate FOLDER: writes 40 settings with utilities to 1000 and 20 votes with utilities to 20, the same each time.

The 40 have two agents of three or four types and three outcomes, and take turns in what they ask for. The votes have
three agents of three types and three outcomes, and no payments.
"""

import pathlib
import random
import sys

Form = tuple[str, str, bool, bool, str]  # truth, rationality, whether agents pay, whether a deficit is forbidden, objective

FORMS: list[Form] = [
    ("bayes", "interim", True, False, "revenue = 1"),
    ("dominant", "ex-post", True, False, "revenue = 1"),
    ("bayes", "interim", True, True, "welfare = 1"),
    ("dominant", "ex-post", True, True, "welfare = 1"),
    ("bayes", "none", False, False, "welfare = 1"),
    ("dominant", "none", False, False, "welfare = 1"),
    ("bayes", "interim", False, False, "welfare = 1"),
    ("dominant", "ex-post", True, True, "welfare = 1\nrevenue = -1"),
]


def names(words: list[str]) -> str:
    """A list of names, as TOML has it."""
    return "[" + ", ".join(f'"{word}"' for word in words) + "]"


def head_lines(form: Form, outcomes: int, *keys: str) -> list[str]:
    """What stands before the agents, with further keys of the top table."""
    truth, rational, payments, no_deficit, objective = form
    return [
        'format = "mechanism-setting"',
        "version = 1",
        'kind = "general"',
        f'truth = "{truth}"',
        f'rational = "{rational}"',
        f"payments = {str(payments).lower()}",
        f"no_deficit = {str(no_deficit).lower()}",
        f"outcomes = {names(list('xyzvw'[:outcomes]))}",
        *keys,
        "",
        "[objective]",
        objective,
    ]


def agent_lines(name: str, types: int, **keys: list[int] | list[list[int]]) -> list[str]:
    """An agent with so many types."""
    front = ["", "[[agent]]", f'name = "{name}"', f"types = {names([f't{kind}' for kind in range(types)])}"]
    return front + [f"{key} = {value}" for key, value in keys.items()]


def drawn(numbers: random.Random, count: int, least: int, greatest: int) -> list[int]:
    """So many random numbers."""
    return [numbers.randint(least, greatest) for _ in range(count)]


def setting_text(
    numbers: random.Random, form: Form, size: tuple[int, int, int], greatest: int, weight: int = 5, is_sale: bool = False
) -> str:
    """The text of a random setting of so many agents, types of each, and outcomes, with utilities and weights up to a greatest
    one. In a sale an agent gets something of one outcome alone."""
    agents, types, outcomes = size
    lines = head_lines(form, outcomes)
    for agent, name in enumerate("abc"[:agents]):
        weights = drawn(numbers, types, 1, weight)
        if is_sale:
            values = drawn(numbers, types, 1, greatest)
            utility = [[value if outcome == agent + 1 else 0 for outcome in range(outcomes)] for value in values]
        else:
            utility = [drawn(numbers, outcomes, 0, greatest) for _ in range(types)]
        lines += agent_lines(name, types, weights=weights, utility=utility)
    return "\n".join(lines) + "\n"


def small_text(numbers: random.Random) -> str:
    """The text of a small random setting of any kind; joint weights, outside utilities and losses are among them."""
    agents, outcomes = numbers.randint(1, 3), numbers.randint(2, 3)
    types = numbers.randint(1, 3 if agents < 3 else 2)
    value = f"value = {drawn(numbers, outcomes, -9, 9)}"
    aim = numbers.choice(["welfare = 1", "revenue = 1", "welfare = 1\nrevenue = 1", "welfare = 1\nrevenue = -1", value])
    truth, rational = numbers.choice(["dominant", "bayes"]), numbers.choice(["none", "interim", "ex-post"])
    payments = numbers.random() < 0.7
    is_joint, least = numbers.random() < 0.3, numbers.choice([0, 0, -20])
    prior = [f"prior = {drawn(numbers, types**agents, 1, 5)}"] if is_joint else []
    lines = head_lines((truth, rational, payments, payments and numbers.random() < 0.5, aim), outcomes, *prior)
    for name in "abc"[:agents]:
        keys: dict[str, list[int] | list[list[int]]] = {} if is_joint else {"weights": drawn(numbers, types, 1, 5)}
        if numbers.random() < 0.4:
            keys["outside"] = drawn(numbers, types, least, 8)
        lines += agent_lines(name, types, **keys, utility=[drawn(numbers, outcomes, least, 20) for _ in range(types)])
    return "\n".join(lines) + "\n"


def main() -> None:
    """Writes all settings."""
    folder = pathlib.Path(sys.argv[1])
    folder.mkdir(parents=True, exist_ok=True)
    numbers = random.Random(2)
    for count in range(40):
        text = setting_text(numbers, FORMS[count % len(FORMS)], (2, numbers.choice([3, 4]), 3), 1000)
        (folder / f"thousand-{count:02}.toml").write_text(text)
    for count in range(20):
        form: Form = (["bayes", "dominant"][count % 2], "none", False, False, "welfare = 1")
        (folder / f"vote-{count:02}.toml").write_text(setting_text(numbers, form, (3, 3, 3), 20))
