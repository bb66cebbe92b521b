"""Finds the answer to an auction, or to a sale of so many units: its odds and pays by a cut run over the simplex of `simplex.py`,
its masses by a flow.

The cut run solves the reduced program with the sets of single values. Where a set asks for more than there is at the
point that is found, the worst one is added as a row, and it starts anew. As for general settings a payment is one
variable of any sign.
"""

import math
from fractions import Fraction

from second_opinion.auction import (
    Counts, Interim, count_lists, demand, program_of, single_cuts, value_of, weight_of, worst_set,
)
from second_opinion.auction_answer import AuctionAnswer, has_wide_number
from second_opinion.program import Program
from second_opinion.setting import AuctionSetting
from second_opinion.simplex import Dictionary

Places = tuple[int, ...]  # values that are there together, or a list of counts
Step = tuple[Places, int, int]  # of a chain: who gives, the value that gets more, the value that gets less


def found_answer(auction: AuctionSetting, units: int = 1) -> AuctionAnswer:
    """The optimal answer to an auction of so many units, with numbers of any size. Where one is too wide for a file, multipliers
    with fewer digits are looked for a second time and harder."""
    cuts = single_cuts(auction)
    while True:
        program = program_of(auction, cuts, units)
        dictionary = dictionary_of(auction, program)
        dictionary.solve()
        dictionary.shorten_point()
        interim = interim_of(auction, dictionary)
        worst = worst_set(auction, interim, units)
        if worst is None:
            break
        cuts.append(worst)
    found = answer_at(auction, units, cuts, program, dictionary, 0)
    return answer_at(auction, units, cuts, program, dictionary, 25) if has_wide_number(found) else found


def answer_at(
    auction: AuctionSetting, units: int, cuts: list[int], program: Program, dictionary: Dictionary, rounds: int
) -> AuctionAnswer:
    """The answer at the optimum where a dictionary stands, with its value and multipliers in least terms."""
    interim = interim_of(auction, dictionary)
    value = value_of(auction, interim, units)
    bound, weights = dictionary.short_multipliers(rounds)
    mains = {index: weights.get(program.columns + index, 0) for index in range(len(program.rows))}
    divisor = math.gcd(bound, *mains.values())
    multipliers = {index: (0, main // divisor) for index, main in mains.items()}
    masses = masses_of(auction, interim, units)
    return AuctionAnswer((value.numerator, value.denominator), interim, masses, cuts, bound // divisor, multipliers)


def dictionary_of(auction: AuctionSetting, program: Program) -> Dictionary:
    """The first dictionary: nobody wins, and nobody pays."""
    kinds = len(auction.values)
    columns = list(range(2 * kinds))

    def numbers(terms: dict[int, int], sign: int) -> list[int]:
        return [sign * terms.get(column, 0) for column in columns]

    rows = {program.columns + index: (row.right, numbers(row.terms, -1)) for index, row in enumerate(program.rows)}
    return Dictionary(rows, (0, numbers(program.cost, 1)), columns, columns[kinds:])


def interim_of(auction: AuctionSetting, dictionary: Dictionary) -> Interim:
    """The odds and pays at which a dictionary stands."""
    kinds = len(auction.values)
    point = {variable: Fraction(row.numbers[0], row.den) for variable, row in dictionary.rows.items()}
    numbers = [point.get(column, Fraction(0)) for column in range(2 * kinds)]
    den = math.lcm(*(number.denominator for number in numbers))
    over_den = [int(number * den) for number in numbers]
    return Interim(den, over_den[:kinds], over_den[kinds:])


def masses_of(auction: AuctionSetting, interim: Interim, units: int = 1) -> dict[Counts, list[int]]:
    """Masses that make the odds. Of one unit they are found for each set of values that are there together, and then shared among
    the lists of counts in which just these are there; of several for each list of counts, a unit at most for each bidder."""
    demands = [demand(auction, value, odds) for value, odds in enumerate(interim.odds)]
    lists: dict[Places, list[Counts]] = {}
    for counts in count_lists(auction.bidders, len(auction.values)):
        key = tuple(value for value, count in enumerate(counts) if count) if units == 1 else counts
        lists.setdefault(key, []).append(counts)
    masses = {}
    if units == 1:
        room = {there: interim.den * sum(weight_of(auction, counts) for counts in group) for there, group in lists.items()}
        given = flow(room, {there: dict.fromkeys(there, room[there]) for there in room}, demands)
        for there, group in lists.items():
            for counts in group:
                masses[counts] = share(given[there], interim.den * weight_of(auction, counts), len(demands))
    else:
        whole = {counts: interim.den * weight_of(auction, counts) for counts in lists}
        most = {counts: {value: count * whole[counts] for value, count in enumerate(counts) if count} for counts in lists}
        given = flow({counts: units * whole[counts] for counts in lists}, most, demands)
        for counts in lists:
            masses[counts] = [given[counts].get(value, 0) for value in range(len(demands))]
    return dict(sorted(masses.items()))


def share(given: dict[int, int], room: int, kinds: int) -> list[int]:
    """What one list of counts takes of what its set of values still has to give, as far as its room goes."""
    masses = [0] * kinds
    for value in given:
        masses[value] = min(given[value], room)
        given[value] -= masses[value]
        room -= masses[value]
    return masses


def flow(room: dict[Places, int], most: dict[Places, dict[int, int]], demands: list[int]) -> dict[Places, dict[int, int]]:
    """How much each place gives to each of its values, so that all demands are met, no place gives more than its room, and none
    more to a value than the most that it may: for each place a dict by value. What is missing is brought step by step, along the
    shortest chain of places which each give less to one value and more to another."""
    left = dict(room)
    given = {there: dict.fromkeys(most[there], 0) for there in room}
    for value, missing in enumerate(demands):
        while missing:
            chain, last = chain_from(value, left, most, given)
            gaining = [*((there, more) for there, more, _ in chain), (last, chain[-1][2] if chain else value)]
            free = [most[there][more] - given[there][more] for there, more in gaining]
            amount = min(missing, left[last], *free, *(given[there][other] for there, _, other in chain))
            for there, _, less in chain:
                given[there][less] -= amount
            for there, more in gaining:
                given[there][more] += amount
            left[last] -= amount
            missing -= amount
    return given


def chain_from(
    value: int, left: dict[Places, int], most: dict[Places, dict[int, int]], given: dict[Places, dict[int, int]]
) -> tuple[list[Step], Places]:
    """The shortest chain from a value to a place that has something left: its steps (a place, the value to which it gives more, the
    value to which it gives less), and that place, which gives more to the last value."""
    chains: dict[int, list[Step]] = {value: []}
    queue = [value]
    for at in queue:  # grows on the way
        for there in given:
            if given[there].get(at, 0) >= most[there].get(at, 0):
                continue
            if left[there]:
                return chains[at], there
            for other in given[there]:
                if other not in chains and given[there][other]:
                    chains[other] = [*chains[at], (there, at, other)]
                    queue.append(other)
    raise AssertionError("no set asks for too much, and yet a demand is not met")
