"""Finds the answer to a setting, by the simplex of `simplex.py` over the linear program of `program.py`.

The search sees a smaller program than the rows and columns of the format: at each profile one chance is 1 less the
others, so that no row is exact, and a payment is one variable of any sign. The variables of the search are the columns
(of a payment the plus part alone) and then one for each row that says at most: what is left of its right side.
"""

import math
from collections.abc import Callable, Sequence
from fractions import Fraction
from functools import partial

from second_opinion import answer, auction_answer, auction_finding, command, setting
from second_opinion.answer import FoundAnswer, InfeasibleAnswer, Mechanism, OptimalAnswer, UnboundedAnswer
from second_opinion.program import Program, chance_column, payment_columns, program_of, value_of
from second_opinion.setting import AuctionSetting, GeneralSetting, Profile
from second_opinion.simplex import Dictionary, Infeasible, Unbounded

STATUSES = {OptimalAnswer: 0, InfeasibleAnswer: 10, UnboundedAnswer: 11}

Worth = Callable[[GeneralSetting, Mechanism], tuple[int, int]]  # a value over the mechanism's denominator, as `value_of` has it


def find(words: list[str]) -> tuple[int, str]:
    """The command `find SETTING`."""
    (name,) = command.file_names(words, 1)
    its = setting.read_setting(command.read_file(name, setting.FILE_LIMIT))
    if isinstance(its, AuctionSetting):
        sold = auction_finding.found_answer(its)
        return written(0, auction_answer.has_wide_number(sold), auction_answer.write_answer(sold))
    return written_answer(its, found_answer(its), "general")


def written_answer(its: GeneralSetting, found: FoundAnswer, kind: str) -> tuple[int, str]:
    """The status and the text of an answer about a general setting, whose first record names the kind."""
    return written(STATUSES[type(found)], answer.has_wide_number(found), answer.write_answer(found, its, kind))


def written(status: int, is_wide: bool, text: str) -> tuple[int, str]:
    """The status and the text, where a file can hold the answer."""
    if is_wide:
        raise setting.Refused(command.BEYOND, "a number of the answer has more than 62 bits")
    return status, text


def found_answer(setting: GeneralSetting) -> FoundAnswer:
    """An optimal, infeasible or unbounded answer about a setting, with numbers of any size."""
    return found_by(setting, program_of(setting), [], value_of)


def found_by(setting: GeneralSetting, program: Program, further: Sequence[int], worth: Worth) -> FoundAnswer:
    """The same by a program that may have further columns of any sign, and a value of its own. Where an answer is too wide for
    a file, multipliers with fewer digits are looked for a second time and harder."""
    dictionary = dictionary_of(setting, program, further)
    answer_of: Callable[[int], FoundAnswer] = partial(optimal_answer, setting, program, dictionary, worth)
    try:
        dictionary.solve()
        dictionary.shorten_point()
    except Infeasible:
        answer_of = partial(infeasible_answer, setting, program, dictionary)
    except Unbounded as caught:
        return UnboundedAnswer(mechanism_of(setting, dictionary), rays_of(setting, caught.ray))
    found = answer_of(0)
    return answer_of(25) if answer.has_wide_number(found) else found


def infeasible_answer(setting: GeneralSetting, program: Program, dictionary: Dictionary, rounds: int) -> InfeasibleAnswer:
    """The answer at a contradiction, with multipliers in least terms."""
    _, weights = dictionary.short_multipliers(rounds)
    faces = full_multipliers(setting, program, weights, 0)
    divisor = math.gcd(*faces.values())
    return InfeasibleAnswer({index: (face // divisor, 0) for index, face in faces.items()})


def optimal_answer(
    setting: GeneralSetting, program: Program, dictionary: Dictionary, worth: Worth, rounds: int
) -> OptimalAnswer:
    """The answer at an optimum, with its value and multipliers in least terms."""
    mechanism = mechanism_of(setting, dictionary)
    amount, total = worth(setting, mechanism)
    value = Fraction(amount, total * mechanism.den)
    bound, weights = dictionary.short_multipliers(rounds)
    mains = full_multipliers(setting, program, weights, bound)
    divisor = math.gcd(bound, *mains.values())
    multipliers = {index: (0, main // divisor) for index, main in mains.items()}
    return OptimalAnswer((value.numerator, value.denominator), mechanism, bound // divisor, multipliers)


def dictionary_of(setting: GeneralSetting, program: Program, further: Sequence[int]) -> Dictionary:
    """The first dictionary: the chance of one outcome at every profile, no payments, and 0 in the further columns."""
    profiles = list(setting.profiles())
    outcomes = range(len(setting.outcomes))
    payments: list[int] = []
    if setting.payments:
        agents = range(len(setting.agents))
        payments = [payment_columns(setting, agent, profile)[0] for agent in agents for profile in profiles]

    def worth(outcome: int) -> int:
        return sum(program.cost.get(chance_column(setting, profile, outcome), 0) for profile in profiles)

    base = max(outcomes, key=worth)
    bases = {}  # the chance that is 1 less the others, by each of these
    for profile in profiles:
        for outcome in outcomes:
            if outcome != base:
                bases[chance_column(setting, profile, outcome)] = chance_column(setting, profile, base)
    free = [*payments, *further]
    columns = [*bases, *free]

    def without_bases(terms: dict[int, int]) -> tuple[int, list[int]]:
        """The constant and the numbers of a sum, written without the chances that are 1 less the others."""
        constant = sum(terms.get(chance_column(setting, profile, base), 0) for profile in profiles)
        return constant, [terms.get(column, 0) - terms.get(bases.get(column, -1), 0) for column in columns]

    rows = {}
    for index, row in enumerate(program.rows):
        if not row.exact:
            constant, numbers = without_bases(row.terms)
            rows[program.columns + index] = row.right - constant, [-number for number in numbers]
    for profile in profiles:
        column = chance_column(setting, profile, base)
        rows[column] = 1, [-1 if bases.get(other) == column else 0 for other in columns]
    return Dictionary(rows, without_bases(program.cost), columns, free)


def mechanism_of(setting: GeneralSetting, dictionary: Dictionary) -> Mechanism:
    """The mechanism at which a dictionary stands."""
    point = {variable: (row.numbers[0], row.den) for variable, row in dictionary.rows.items()}

    def amount(column: int) -> Fraction:
        return Fraction(*point.get(column, (0, 1)))

    lotteries, pays = {}, {}
    for profile in setting.profiles():
        lotteries[profile] = [amount(chance_column(setting, profile, outcome)) for outcome in range(len(setting.outcomes))]
        if setting.payments:
            pays[profile] = [amount(payment_columns(setting, agent, profile)[0]) for agent in range(len(setting.agents))]
    lists = [*lotteries.values(), *pays.values()]
    den = math.lcm(*(number.denominator for numbers in lists for number in numbers))

    def over_den(fractions: dict[Profile, list[Fraction]]) -> dict[Profile, list[int]]:
        return {profile: [int(number * den) for number in numbers] for profile, numbers in fractions.items()}

    return Mechanism(den, over_den(lotteries), over_den(pays))


def rays_of(setting: GeneralSetting, change: dict[int, int]) -> dict[Profile, list[int]]:
    """The payments of a ray, in least terms."""
    agents = range(len(setting.agents))
    rays = {
        profile: [change.get(payment_columns(setting, agent, profile)[0], 0) for agent in agents]
        for profile in setting.profiles()
    }
    divisor = math.gcd(*(number for numbers in rays.values() for number in numbers))
    return {profile: [number // divisor for number in numbers] for profile, numbers in rays.items()}


def full_multipliers(setting: GeneralSetting, program: Program, weights: dict[int, int], bound: int) -> dict[int, int]:
    """The multipliers of all rows, from the weights of the variables. That of a profile's row is the least with which no
    chance of the profile falls short: the greatest of what their columns need."""
    conditions = [(index, row) for index, row in enumerate(program.rows) if not row.exact]
    of_profiles = [index for index, row in enumerate(program.rows) if row.exact]
    multipliers = {index: weights.get(program.columns + index, 0) for index, _ in conditions}
    needed = {column: bound * number for column, number in program.cost.items()}
    for index, row in conditions:
        if multipliers[index]:
            for column, number in row.terms.items():
                needed[column] = needed.get(column, 0) - multipliers[index] * number
    for profile in setting.profiles():
        columns = (chance_column(setting, profile, outcome) for outcome in range(len(setting.outcomes)))
        multipliers[of_profiles[setting.rank(profile)]] = max(needed.get(column, 0) for column in columns)
    return {index: number for index, number in multipliers.items() if number}
