"""An exact simplex: the greatest value of a linear objective under linear conditions, with whole numbers of any size.

`Dictionary.solve` goes to an optimum. From there `shorten_point` and `short_multipliers` go to points and multipliers that
are as good and whose numbers have fewer digits.

The state is a dictionary: each basic variable is written as a constant and a sum over the other variables, which are 0.
Each of its rows is a list of whole numbers over a denominator of its own: the constant, a small part of the constant,
and one number for each nonbasic column. The small part stands for a number times something infinitely small. It is
random and makes each right side a little greater, so that almost no step leaves the objective where it was. It is dropped
in what is read off at the end.
"""

import math
import random
from collections.abc import Callable, Iterable, Iterator
from dataclasses import dataclass
from fractions import Fraction
from typing import Self

Sum = tuple[int, list[int]]  # a constant, and a number for each nonbasic variable

ARTIFICIAL = -1  # the variable that measures how far a point is from meeting all conditions
FIRST = 2  # the place of the first column in a row, behind the constant and its small part
PATIENCE = 50  # steps without a gain, after which Bland's rule makes sure that the search ends


@dataclass
class Expression:
    """A variable as a constant and a sum over the nonbasic variables: all numbers over `den`, which is positive."""

    numbers: list[int]
    den: int

    def reduced(self) -> Self:
        """The same in least terms."""
        divisor = math.gcd(self.den, *self.numbers)
        if divisor != 1:
            self.numbers = [number // divisor for number in self.numbers]
            self.den //= divisor
        return self

    def constant(self) -> tuple[int, int]:
        """The constant with its small part, to be compared with (0, 0)."""
        return self.numbers[0], self.numbers[1]


class Unbounded(Exception):
    """The objective gains without end. `ray` has how the variables change, all over one denominator."""

    def __init__(self, ray: dict[int, int]) -> None:
        super().__init__()
        self.ray = ray


class Infeasible(Exception):
    """No point meets all conditions. The objective is then that of the artificial variable, which stays below 0, and its
    multipliers weigh the conditions so that they contradict each other."""


class Dictionary:
    """`rows` has the expression of each basic variable, by the variable, and `objective` that of the objective. `columns`
    lists the nonbasic variables. A variable in `free` may be of any sign; all others are at least 0."""

    def __init__(self, rows: dict[int, Sum], objective: Sum, columns: Iterable[int], free: Iterable[int]) -> None:
        pushes = random.Random(1)
        self.rows = {
            variable: Expression([constant, 0 if variable in free else pushes.randint(1, 10**6), *numbers], 1).reduced()
            for variable, (constant, numbers) in rows.items()
        }
        self.objective = Expression([objective[0], 0, *objective[1]], 1).reduced()
        self.columns = list(columns)
        self.free = set(free)

    def pivot(self, leaving: int, place: int) -> None:
        """Exchanges a basic variable for the nonbasic one at a place of the rows."""
        entering = self.columns[place - FIRST]
        new = solved(self.rows.pop(leaving), place)
        for variable, row in self.rows.items():
            self.rows[variable] = replaced(row, place, new)
        self.objective = replaced(self.objective, place, new)
        self.rows[entering] = new
        self.columns[place - FIRST] = leaving

    def drop(self, place: int) -> None:
        """Leaves a nonbasic variable out for good: it stays 0."""
        del self.columns[place - FIRST]
        for row in [*self.rows.values(), self.objective]:
            del row.numbers[place]

    def places(self) -> range:
        return range(FIRST, FIRST + len(self.columns))

    def solve(self) -> None:
        """Brings the dictionary to an optimum, or raises `Infeasible` or `Unbounded`."""
        gaining = self.settle_free()
        self.make_feasible()
        if gaining is not None:
            raise Unbounded(gaining)
        self.search(lambda: self.objective)

    def settle_free(self) -> dict[int, int] | None:
        """Makes free variables basic as far as the others depend on them; there they need no more care. No condition
        depends on those that are left. A change of them that gains is given back; they are dropped."""
        gaining = None
        for place in reversed(self.places()):
            if self.columns[place - FIRST] not in self.free:
                continue
            touched = [variable for variable in self.rows
                       if variable not in self.free and self.rows[variable].numbers[place]]
            if touched:
                self.pivot(min(touched, key=self.filled), place)
                continue
            gain = self.objective.numbers[place]
            if gain:
                gaining = self.direction(place, 1 if gain > 0 else -1)
            self.drop(place)
        return gaining

    def filled(self, variable: int) -> int:
        """How many numbers of a row are not 0."""
        numbers = self.rows[variable].numbers
        return len(numbers) - numbers.count(0)

    def direction(self, place: int, sign: int) -> dict[int, int]:
        """How the variables change where a nonbasic one grows (or shrinks), over one common denominator."""
        scale = sign * math.lcm(*(row.den for row in self.rows.values()))
        change = {variable: row.numbers[place] * scale // row.den for variable, row in self.rows.items()}
        change[self.columns[place - FIRST]] = scale
        return change

    def make_feasible(self) -> None:
        """Finds a point that meets all conditions. The artificial variable is added to each row that is negative, enters
        at the worst of them, and is then made as small as it can be."""
        short = [variable for variable, row in self.rows.items()
                 if variable not in self.free and row.constant() < (0, 0)]
        if not short:
            return
        self.columns.append(ARTIFICIAL)
        for variable, row in self.rows.items():
            row.numbers.append(row.den if variable in short else 0)
        self.objective.numbers.append(0)
        worst = short[0]
        for variable in short:
            if self.worse(variable, worst):
                worst = variable
        self.pivot(worst, FIRST + len(self.columns) - 1)
        self.search(lambda: self.rows.get(ARTIFICIAL), -1)
        if ARTIFICIAL in self.rows:
            row = self.rows[ARTIFICIAL]
            self.objective = Expression([-number for number in row.numbers], row.den)
            self.free.add(ARTIFICIAL)
            raise Infeasible
        self.drop(FIRST + self.columns.index(ARTIFICIAL))

    def worse(self, one: int, other: int) -> bool:
        """Whether the constant of one row is less than that of another."""
        mine, its = self.rows[one], self.rows[other]
        return [number * its.den for number in mine.constant()] < [number * mine.den for number in its.constant()]

    def search(self, target: Callable[[], Expression | None], sign: int = 1) -> None:
        """Makes the target (an expression, times the sign) as great as it can be; ends too where it is None."""
        idle = 0
        while (row := target()) is not None:
            numbers = row.numbers
            gains = [place for place in self.places() if sign * numbers[place] > 0]
            if not gains:
                return
            if idle < PATIENCE:
                place = max(gains, key=lambda place: sign * numbers[place])
            else:
                place = min(gains, key=lambda place: self.columns[place - FIRST])
            leaving = self.tightest(place)
            if leaving is None:
                raise Unbounded(self.direction(place, 1))
            idle = idle + 1 if self.rows[leaving].constant() == (0, 0) else 0
            self.pivot(leaving, place)

    def short_multipliers(self, rounds: int) -> tuple[int, dict[int, int]]:
        """Multipliers that belong to the optimum, over a denominator that is as little as the search finds: the
        denominator, and the multipliers by variable. The search goes down as far as it can, and then as many times more
        from a place that is some random steps away."""
        steps = random.Random(2)
        best: dict[int, int] = {}
        least = 0
        for _ in range(rounds + 1):
            while (step := self.shorter_multipliers()) is not None:
                self.pivot(*step)
            if least == 0 or self.objective.den < least:
                least = self.objective.den
                best = {variable: -self.objective.numbers[place] for variable, place in zip(self.columns, self.places())}
            for _ in range(10 if rounds else 0):
                exchanges = list(self.exchanges())
                if exchanges:
                    self.pivot(*steps.choice(exchanges))
        return least, best

    def exchanges(self) -> Iterator[tuple[int, int]]:
        """The exchanges that leave the point where it is and change the multipliers, which stay at least 0: at a basic
        variable that is 0, the nonbasic one enters whose multiplier comes to 0 first."""
        gains = self.objective.numbers
        for variable, row in self.rows.items():
            if row.numbers[0] == 0 and variable not in self.free:
                places = [place for place in self.places() if row.numbers[place] > 0]
                if places:
                    place = min(places, key=lambda place: Fraction(-gains[place], row.numbers[place]))
                    if gains[place]:
                        yield variable, place

    def shorter_multipliers(self) -> tuple[int, int] | None:
        """The exchange that gives the least denominator of the objective, which is that of the multipliers; None where no
        exchange makes it less."""
        best, least = None, self.objective.den
        for variable, place in self.exchanges():
            den = replaced(self.objective, place, solved(self.rows[variable], place)).den
            if den < least:
                best, least = (variable, place), den
        return best

    def shorten_point(self) -> None:
        """Goes from the optimum to others, as long as the denominator of the point becomes less."""
        while (step := self.shorter_point()) is not None:
            self.pivot(*step)

    def shorter_point(self) -> tuple[int, int] | None:
        """The exchange that leaves the objective where it is and gives the least denominator of the point; None where no
        exchange makes it less."""
        best, least = None, math.lcm(*(Fraction(row.numbers[0], row.den).denominator for row in self.rows.values()))
        for place in self.places():
            leaving = None if self.objective.numbers[place] else self.tightest(place)
            if leaving is not None:
                step = Fraction(self.rows[leaving].numbers[0], -self.rows[leaving].numbers[place])
                changed = (row.numbers[0] + step * row.numbers[place] for row in self.rows.values())
                ends = [number / row.den for number, row in zip(changed, self.rows.values())]
                den = math.lcm(step.denominator, *(end.denominator for end in ends))
                if den < least:
                    best, least = (leaving, place), den
        return best

    def tightest(self, place: int) -> int | None:
        """The basic variable that first comes to 0 where the nonbasic one at a place grows. The least of several, which
        Bland's rule asks for, and the artificial one before all others."""
        best = None
        for variable, row in self.rows.items():
            if row.numbers[place] < 0 and variable not in self.free:
                if best is not None:
                    mine = [number * best[1] for number in row.constant()]
                    its = [number * row.numbers[place] for number in best[2]]
                    if (mine, -variable) <= (its, -best[0]):
                        continue
                best = variable, row.numbers[place], row.constant()
        return None if best is None else best[0]


def solved(row: Expression, place: int) -> Expression:
    """The expression of the nonbasic variable at a place, from that of a basic variable, which takes its place there."""
    sign = 1 if row.numbers[place] < 0 else -1
    numbers = [sign * number for number in row.numbers]
    den = -numbers[place]
    numbers[place] = -sign * row.den
    return Expression(numbers, den).reduced()


def replaced(row: Expression, place: int, new: Expression) -> Expression:
    """A row in which the variable at a place is replaced by its new expression."""
    factor = row.numbers[place]
    if factor == 0:
        return row
    divisor = math.gcd(factor, new.den)
    factor, scale = factor // divisor, new.den // divisor
    if scale == 1:
        numbers = [mine + factor * its for mine, its in zip(row.numbers, new.numbers)]
    else:
        numbers = [scale * mine + factor * its for mine, its in zip(row.numbers, new.numbers)]
    numbers[place] = factor * new.numbers[place]
    return Expression(numbers, row.den * scale).reduced()
