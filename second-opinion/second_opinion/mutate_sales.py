"""Sales and their answers for `mutate`: small ones made at random, and answers that are changed as a whole."""

import pathlib
import random
import subprocess
import tempfile

from second_opinion import sale_answer, sale_checking
from second_opinion.places import TOP
from second_opinion.sale_answer import SaleAnswer, pairs_of
from second_opinion.setting import GeneralSetting

TOO_WIDE = b"answer,1,asym,toowide\ncut,1\npivot,0,1\npivot,1,0\nwide,1,2,5,3\nagain\nwide,0,0,7,1\nend\n"


def made_pairs(program: str, count: int) -> list[tuple[bytes, bytes]]:
    """So many sales by a fixed seed, each with the answer of `mechdes asym`, as bytes, one with an answer that is too wide, and
    the sale of examples/ with the answer that was worked out by hand."""
    numbers = random.Random(7)
    tomls = [made_sale(numbers) for _ in range(count)]
    pairs = [(toml, solved(program, toml)) for toml in tomls]
    names = ["strong-and-weak.toml", "strong-and-weak-by-hand.csv"]
    by_hand, said = (TOP.joinpath("examples", name).read_bytes() for name in names)
    return [*pairs, (tomls[0], TOO_WIDE), (by_hand, said)]


def solved(program: str, toml: bytes) -> bytes:
    """What `mechdes asym` prints of a sale."""
    with tempfile.NamedTemporaryFile(suffix=".toml") as file:
        pathlib.Path(file.name).write_bytes(toml)
        return subprocess.run([program, "asym", file.name], capture_output=True, check=False).stdout


def made_sale(numbers: random.Random) -> bytes:
    """The file of a sale to few bidders of few types."""
    bidders = numbers.choice([1, 2, 2, 2, 3])
    outcomes = ["keep", *(f"o{number}" for number in range(bidders))]
    lines = ['format = "mechanism-setting"', "version = 1", 'kind = "general"', 'truth = "bayes"', 'rational = "interim"',
             "payments = true", f"outcomes = {quoted(outcomes)}"]
    for number in range(bidders):
        kinds = numbers.randint(1, 3)
        worth = numbers.sample(range(numbers.choice([4, 12])), kinds)
        utility = [[amount * (outcome == number + 1) for outcome in range(bidders + 1)] for amount in worth]
        lines += ["[[agent]]", f'name = "a{number}"', f"types = {quoted([f't{kind}' for kind in range(kinds)])}",
                  f"weights = {[numbers.randint(1, 3) for _ in range(kinds)]}", f"utility = {utility}"]
    lines += ["[objective]", f"revenue = {numbers.choice([0, 1, 1, 1, 2])}", f"welfare = {numbers.choice([0, 0, 1, -1])}",
              f"value = {[numbers.choice([0, 0, 1, 3]) for _ in outcomes]}"]
    return ("\n".join(lines) + "\n").encode()


def quoted(names: list[str]) -> str:
    """A list of names, as TOML has it."""
    return str(names).replace("'", '"')


def whole_change(numbers: random.Random, its: GeneralSetting, csv: bytes) -> bytes:
    """An answer that is read, changed as a whole, so that its texts stay in order, and written again. One that is too wide
    stays as it is."""
    said = sale_answer.read_answer(csv, its)
    if not isinstance(said, SaleAnswer):
        return csv
    for _ in range(numbers.choice([1, 1, 2])):
        change = numbers.choice([change_odds, change_pay, change_pay, change_masses, change_cuts, change_multiplier, double])
        change(numbers, its, said)
    if numbers.random() < 0.9:
        value = sale_checking.value_of(its, said.interim)
        said.value = value.numerator, value.denominator
    return sale_answer.write_answer(said, its).encode()


def change_odds(numbers: random.Random, its: GeneralSetting, said: SaleAnswer) -> None:
    """Mass of an agent at a profile, and the odds that it makes where these are whole."""
    profile, number = numbers.choice([*said.masses]), numbers.randrange(len(its.agents))
    place = pairs_of(its).index((number, profile[number]))
    demand = sale_checking.marginal(its, (number, profile[number]))
    part = demand * numbers.choice([-1, 1])
    if said.masses[profile][number] + part >= 0:
        said.masses[profile][number] += part
        said.interim.odds[place] = max(0, said.interim.odds[place] + part // demand)


def change_pay(numbers: random.Random, its: GeneralSetting, said: SaleAnswer) -> None:
    said.interim.pays[numbers.randrange(len(said.interim.pays))] += numbers.choice([-1, -1, 1])


def change_masses(numbers: random.Random, its: GeneralSetting, said: SaleAnswer) -> None:
    """A part of one agent's mass goes to another, or is kept."""
    masses = said.masses[numbers.choice([*said.masses])]
    masses[numbers.randrange(len(masses))] -= 1
    if numbers.random() < 0.7:
        masses[numbers.randrange(len(masses))] += 1


def change_cuts(numbers: random.Random, its: GeneralSetting, said: SaleAnswer) -> None:
    """One cut more, one less, or another order of them."""
    others = [number for number in range(1, 2 ** len(pairs_of(its))) if number not in said.cuts]
    change = numbers.choice(["more", "less", "order"])
    if change == "more" and others:
        said.cuts.insert(numbers.randrange(len(said.cuts) + 1), numbers.choice(others))
    elif change == "less" and said.cuts:
        del said.cuts[numbers.randrange(len(said.cuts))]
    else:
        numbers.shuffle(said.cuts)


def change_multiplier(numbers: random.Random, its: GeneralSetting, said: SaleAnswer) -> None:
    """Another multiplier of a row, or another bound."""
    index = numbers.randrange(sale_answer.row_count(its, said.cuts))
    face, main = said.multipliers.get(index, (0, 0))
    said.multipliers[index] = face + numbers.choice([0, 0, 0, 1, -1]), main + numbers.choice([0, -1, 1, 1])
    said.bound += numbers.choice([0, 0, 0, 1])


def double(numbers: random.Random, its: GeneralSetting, said: SaleAnswer) -> None:
    """The same odds, pays and masses over twice the denominator."""
    interim = said.interim
    interim.den *= 2
    interim.odds, interim.pays = [2 * odds for odds in interim.odds], [2 * pay for pay in interim.pays]
    said.masses = {profile: [2 * mass for mass in masses] for profile, masses in said.masses.items()}
