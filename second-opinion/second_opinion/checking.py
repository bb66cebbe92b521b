"""Tells whether what an answer claims is so: the conditions of docs/FORMATS.md, "How an answer is checked".

`verdict` gives the status and the line that `check` prints. It needs no search, and no trust in whoever found the answer:
the multipliers weigh the rows of the linear program, and their sums bound the value of every mechanism.
"""

from fractions import Fraction

from second_opinion import auction
from second_opinion.answer import Answer, InfeasibleAnswer, Mechanism, OptimalAnswer, Pair, UnboundedAnswer
from second_opinion.auction_answer import AuctionAnswer
from second_opinion.program import Program, broken, point_of, program_of, sum_over, value_of
from second_opinion.sale_answer import SaleAnswer
from second_opinion.setting import AuctionSetting, GeneralSetting, Setting

Failed = tuple[int | str, ...]  # the number of a condition, with what is printed
UNDECIDED = (22, "undecided")


def verdict(its: Setting, said: Answer | AuctionAnswer) -> tuple[int, str]:
    """The status and the line for an answer, which says nothing that could be checked where it is of no kind below."""
    if isinstance(its, AuctionSetting) and isinstance(said, AuctionAnswer):
        return told(failed_auction(its, said))
    if isinstance(its, GeneralSetting) and isinstance(said, OptimalAnswer):
        return told(failed_optimal(its, said))
    if isinstance(its, GeneralSetting) and isinstance(said, InfeasibleAnswer):
        return told(failed_infeasible(program_of(its), said))
    if isinstance(its, GeneralSetting) and isinstance(said, UnboundedAnswer):
        return told(failed_unbounded(its, said))
    return UNDECIDED


def told(failed: Failed | None) -> tuple[int, str]:
    """The status and the line: 0 and `valid`, or 20 and the first condition that fails."""
    return (0, "valid") if failed is None else (20, "rejected," + ",".join(map(str, failed)))


def failed_optimal(setting: GeneralSetting, answer: OptimalAnswer) -> Failed | None:
    """The number of the first condition that an optimal answer fails, with what is printed; None where it fails none."""
    mechanism = answer.mechanism
    condition = broken(setting, mechanism)
    if condition is not None:
        return 1, *condition
    amount, total = value_of(setting, mechanism)
    value = Fraction(amount, total * mechanism.den)
    if value != Fraction(*answer.value):
        return 2, value.numerator, value.denominator
    program = program_of(setting)
    reached = Fraction(sum_over(program.cost, point_of(setting, mechanism)), mechanism.den)
    return failed_bound(program, answer, reached)


def failed_auction(its: AuctionSetting, said: AuctionAnswer, units: int = 1) -> Failed | None:
    """The same of an optimal answer about an auction, or about so many units: its masses make the odds, and the odds and pays
    are a point of the reduced program, which no point with a greater cost has."""
    interim = said.interim
    for place, odds in enumerate(interim.odds):
        given = sum(masses[place] for masses in said.masses.values())
        if given != auction.demand(its, place, odds):
            return 9, place, given, auction.demand(its, place, odds)
    program, point = auction.program_of(its, said.cuts, units), auction.point_of(interim)
    for index, row in enumerate(program.rows):
        if sum_over(row.terms, point) > interim.den * row.right:
            return 10, index, sum_over(row.terms, point), interim.den * row.right
    value = auction.value_of(its, interim, units)
    if value != Fraction(*said.value):
        return 2, value.numerator, value.denominator
    return failed_bound(program, said, Fraction(sum_over(program.cost, point), interim.den))


def failed_bound(program: Program, answer: OptimalAnswer | AuctionAnswer | SaleAnswer, reached: Fraction) -> Failed | None:
    """Conditions 3 to 6 of an optimal answer: its multipliers bound the cost of every point by the one that is reached."""
    failed = failed_multipliers(program, answer.multipliers, answer.bound)
    if failed is not None:
        return failed
    face, main = sums_of_right_sides(program, answer.multipliers)
    if face != 0:
        return 5, face
    bound = Fraction(main, answer.bound)
    if bound != reached:
        return 6, bound.numerator, bound.denominator, reached.numerator, reached.denominator
    return None


def failed_infeasible(program: Program, answer: InfeasibleAnswer) -> Failed | None:
    """The same of an infeasible answer: the rows contradict each other, weighed with the face multipliers."""
    failed = failed_multipliers(program, answer.multipliers, 0)
    if failed is not None:
        return failed
    face, _ = sums_of_right_sides(program, answer.multipliers)
    return None if face < 0 else (5, face)


def failed_unbounded(setting: GeneralSetting, answer: UnboundedAnswer) -> Failed | None:
    """The same of an unbounded answer."""
    condition = broken(setting, answer.mechanism)
    if condition is not None:
        return 1, *condition
    return failed_ray(program_of(setting), point_of(setting, Mechanism(1, {}, answer.rays)))


def failed_ray(program: Program, ray: dict[int, int]) -> Failed | None:
    """Conditions 7 and 8: a ray keeps all rows met, and its cost is positive."""
    for index, row in enumerate(program.rows):
        amount = sum_over(row.terms, ray)
        if amount > 0 or (row.exact and amount != 0):
            return 7, index, amount
    cost = sum_over(program.cost, ray)
    return None if cost > 0 else (8, cost)


def failed_multipliers(program: Program, multipliers: dict[int, Pair], bound: int) -> Failed | None:
    """Conditions 3 and 4. The pairs of face and main multipliers are compared as Python compares tuples: the first
    number counts before the second."""
    for index, pair in sorted(multipliers.items()):
        if not program.rows[index].exact and pair < (0, 0):
            return 3, index, *pair
    faces = [0] * program.columns
    mains = [-bound * program.cost.get(column, 0) for column in range(program.columns)]
    for index, (face, main) in multipliers.items():
        for column, number in program.rows[index].terms.items():
            faces[column] += face * number
            mains[column] += main * number
    for column, pair in enumerate(zip(faces, mains)):
        if pair < (0, 0):
            return 4, column, *pair
    return None


def sums_of_right_sides(program: Program, multipliers: dict[int, Pair]) -> Pair:
    """The sums of the face and of the main multipliers times the right sides."""
    face = sum(pair[0] * program.rows[index].right for index, pair in multipliers.items())
    main = sum(pair[1] * program.rows[index].right for index, pair in multipliers.items())
    return face, main
