#!/usr/bin/env python3
"""What a lottery is worth to a seller of two goods, as one kind of buyer becomes more common.

Some buyers want the first good alone (and pay 1 for it at most), as many the second alone (2), and W times as many both (3 each).
The best mechanism and the best list of prices are followed as W goes from 0 to 6. Both sell the same way between two breakpoints,
which are found exactly: where two ways bring the same, the seller changes from one to the other, or to a third way between.

    python3 python/price_and_lottery.py
"""

import itertools
from collections.abc import Callable, Mapping
from fractions import Fraction

import mechdes

VALUES = {"only_first": (1, 0), "only_second": (0, 2), "both": (3, 3)}

SETTING = """format = "mechanism-setting"
version = 1
kind = "general"
truth = "dominant"
rational = "ex-post"
payments = true
outcomes = ["none", "first", "second", "both"]

[objective]
revenue = 1

[[agent]]
name = "buyer"
types = ["only_first", "only_second", "both"]
weights = [{others}, {others}, {weight}]
utility = [[0, 1, 0, 1], [0, 0, 2, 2], [0, 3, 3, 6]]
"""


class Way:
    """A way to sell: what the buyers of the first two kinds pay, and what one of the third kind pays."""

    def __init__(self, payments: Mapping[str, Fraction]) -> None:
        self.others = payments["only_first"] + payments["only_second"]
        self.third = payments["both"]

    def brings(self, weight: Fraction) -> Fraction:
        """What it brings of one buyer, where the third kind has this weight."""
        return (self.others + weight * self.third) / (2 + weight)

    def meets(self, other: "Way") -> Fraction:
        """The weight at which both ways bring the same."""
        return (self.others - other.others) / (other.third - self.third)


def best_mechanism(weight: Fraction) -> Way:
    """The best way of all, with the checker's word on it."""
    setting = SETTING.format(others=weight.denominator, weight=weight.numerator)
    answer = mechdes.solve(setting)
    assert isinstance(answer, mechdes.GeneralOptimal) and mechdes.check(setting, answer)
    return Way({kind: answer.payments[kind,]["buyer"] for kind in VALUES})


def payments_at(first: int, second: int, both: int) -> dict[str, Fraction]:
    """What each kind pays at a list of prices; a buyer that is torn takes what costs more."""
    bundles = [(0, 0, 0), (1, 0, first), (0, 1, second), (1, 1, both)]
    return {kind: Fraction(max((a * x + b * y - price, price) for x, y, price in bundles)[1])
            for kind, (a, b) in VALUES.items()}


def best_price_list(weight: Fraction) -> Way:
    """The best list of prices, by trying all: each good, and both together, at 0 to 6."""
    ways = (Way(payments_at(*prices)) for prices in itertools.product(range(7), repeat=3))
    return max(ways, key=lambda way: way.brings(weight))


def breakpoints(best: Callable[[Fraction], Way], low: Fraction, high: Fraction) -> list[Fraction]:
    """The weights between two at which the best way changes."""
    at_low, at_high = best(low), best(high)
    if at_low.brings(high) == at_high.brings(high) or at_high.brings(low) == at_low.brings(low):
        return []
    middle = at_low.meets(at_high)
    if best(middle).brings(middle) == at_low.brings(middle):
        return [middle]
    return breakpoints(best, low, middle) + breakpoints(best, middle, high)


def main() -> None:
    low, high = Fraction(1, 100), Fraction(6)
    lists, mechanisms = breakpoints(best_price_list, low, high), breakpoints(best_mechanism, low, high)
    print("the best price list changes at W =", *lists)
    print("the best mechanism changes at W =", *mechanisms)
    print("W     price list  mechanism")
    for weight in sorted({*lists, *mechanisms, Fraction(1), Fraction(2)}):
        print(f"{str(weight):5} {str(best_price_list(weight).brings(weight)):>10}  "
              f"{str(best_mechanism(weight).brings(weight)):>9}")


if __name__ == "__main__":
    main()
