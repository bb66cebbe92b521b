"""Tells whether what an answer about the best mechanism of a sale claims is so: the conditions of docs/FORMATS.md, "How an
answer is checked", by the program of the sale with the answer's cuts.
"""

from fractions import Fraction

from second_opinion import auction, checking
from second_opinion.answer import Pair, TooWideAnswer
from second_opinion.auction import Interim
from second_opinion.checking import Failed
from second_opinion.program import Program, divided, sum_over
from second_opinion.sale_answer import SaleAnswer, pairs_of
from second_opinion.setting import GeneralSetting


def verdict(its: GeneralSetting, said: SaleAnswer | TooWideAnswer) -> tuple[int, str]:
    """The status and the line for an answer."""
    return checking.UNDECIDED if isinstance(said, TooWideAnswer) else checking.told(failed(its, said))


def failed(its: GeneralSetting, said: SaleAnswer) -> Failed | None:
    """The number of the first condition that an optimal answer fails, with what is printed; None where it fails none."""
    for place, (number, kind) in enumerate(pairs_of(its)):
        given = sum(masses[number] for profile, masses in said.masses.items() if profile[number] == kind)
        demand = marginal(its, (number, kind)) * said.interim.odds[place]
        if given != demand:
            return 9, place, given, demand
    program, point = program_of(its, said.cuts), auction.point_of(said.interim)
    for index, row in enumerate(program.rows):
        if sum_over(row.terms, point) > said.interim.den * row.right:
            return 10, index, sum_over(row.terms, point), said.interim.den * row.right
    value = value_of(its, said.interim)
    if value != Fraction(*said.value):
        return 2, value.numerator, value.denominator
    return checking.failed_bound(program, said, Fraction(sum_over(program.cost, point), said.interim.den))


def marginal(its: GeneralSetting, pair: Pair) -> int:
    """The weight of the profiles in which the agent of a pair has its type."""
    number, kind = pair
    return sum(its.weight(profile) for profile in its.profiles() if profile[number] == kind)


def worth(its: GeneralSetting, pair: Pair) -> int:
    """What the item is worth to the agent of a pair, whatever types the others have."""
    number, kind = pair
    return its.utility(number, tuple(kind if other == number else 0 for other in range(len(its.agents))), number + 1)


def surplus(its: GeneralSetting, pair: Pair) -> int:
    """What the designer has where the agent of a pair has the item, over what it has where the item is kept."""
    number, _ = pair
    return its.values[number + 1] - its.values[0] + its.welfare * worth(its, pair)


def value_of(its: GeneralSetting, interim: Interim) -> Fraction:
    """The objective: that of keeping the item, and what the pairs add."""
    added = sum(
        marginal(its, pair) * (surplus(its, pair) * odds + its.revenue * pay)
        for pair, odds, pay in zip(pairs_of(its), interim.odds, interim.pays)
    )
    return its.values[0] + Fraction(added, sum(map(its.weight, its.profiles())) * interim.den)


def program_of(its: GeneralSetting, cuts: list[int]) -> Program:
    """The program of the sale with these cuts: columns of the odds, then the plus parts of the pays, then their minus parts."""
    pairs = pairs_of(its)
    rows = []
    for true in pairs:
        for told in pairs:
            if told[0] == true[0] and told != true:
                name = f"truth/{true}/{told}"
                rows.append(divided(name, False, 0, gain(its, true, told) | auction.negative(gain(its, true, true))))
    for true in pairs:
        rows.append(divided(f"rational/{true}", False, 0, auction.negative(gain(its, true, true))))
    for cut in cuts:
        terms = {place: marginal(its, pair) for place, pair in enumerate(pairs) if cut >> place & 1}
        rows.append(divided(f"cut/{cut}", False, right_side(its, cut), terms))
    return Program(3 * len(pairs), rows, cost_of(its))


def gain(its: GeneralSetting, true: Pair, told: Pair) -> dict[int, int]:
    """What an agent with its true type gets where it tells another one, by column."""
    pairs = pairs_of(its)
    place = pairs.index(told)
    return {place: worth(its, true), len(pairs) + place: -1, 2 * len(pairs) + place: 1}


def right_side(its: GeneralSetting, cut: int) -> int:
    """The weight of the profiles with some pair of the set."""
    pairs = pairs_of(its)
    return sum(
        its.weight(profile)
        for profile in its.profiles()
        if any(cut >> place & 1 and profile[number] == kind for place, (number, kind) in enumerate(pairs))
    )


def cost_of(its: GeneralSetting) -> dict[int, int]:
    """The cost by column, divided."""
    pairs = pairs_of(its)
    cost = {}
    for place, pair in enumerate(pairs):
        cost[place] = marginal(its, pair) * surplus(its, pair)
        cost[len(pairs) + place] = marginal(its, pair) * its.revenue
        cost[2 * len(pairs) + place] = -marginal(its, pair) * its.revenue
    return divided("cost", False, 0, cost).terms
