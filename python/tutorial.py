#!/usr/bin/env python3
"""A tour of mechdes in Python: a divorce, a price, prices in cents, an optimal auction, two goods, a sweep over reserve
prices, an auction that is held, and what can be had of revenue and welfare at once.

    python3 python/tutorial.py

It wants the package (`pip install ./python`, or PYTHONPATH=python) with its library, and nothing else. Each part is a function
that can be read by itself; the tests compare what it prints with what is worked out by hand.
"""

import collections
import itertools
import pathlib
import random
from collections.abc import Callable
from fractions import Fraction
from typing import Any

import mechdes

EXAMPLES = pathlib.Path(__file__).resolve().parent.parent / "examples"


def divorce() -> None:
    """A couple that parts has a painting. Each of the two likes it little or much, and only the own type is known."""
    setting = EXAMPLES / "divorce.toml"
    answer = mechdes.solve(setting)                      # a path, a text or a value; what comes is a value
    assert isinstance(answer, mechdes.GeneralOptimal)    # and not Infeasible, Unbounded or TooWide
    assert mechdes.check(setting, answer)                # the checker uses nothing of the part that searches
    print("The best rule has the value", answer.value)
    both = answer.lotteries["much", "much"]              # exact fractions, by names
    print("where both want the painting much:", ", ".join(f"{name} {chance}" for name, chance in both.items() if chance))
    rule = mechdes.determ(setting)
    assert isinstance(rule, mechdes.Rule) and mechdes.determcheck(setting, rule)
    print("the best rule without a lottery has the value", rule.value)


def price() -> None:
    """A buyer values an item 1 or 3, both as likely. The setting is made in Python, and shown as the file that it stands for."""
    buyer = mechdes.Agent("buyer", types=["low", "high"], weights=[1, 1], utility=[[0, 1], [0, 3]])
    revenue = mechdes.Objective(revenue=1)
    setting = mechdes.Setting(
        truth="dominant", rational="ex-post", payments=True, outcomes=["keep", "sell"], agents=[buyer], objective=revenue
    )
    answer = mechdes.solve(setting).best()               # raises NotOptimal where there is no best mechanism
    assert mechdes.check(setting, answer)
    print("The best price is", answer.payments["high",]["buyer"], "and brings", answer.value)
    print("the file begins with", setting.to_toml().splitlines()[0])


def cents() -> None:
    """A ticket is worth 19.90 or 34.90 to a buyer. Decimal texts and fractions are exact; a float is refused."""
    sale = mechdes.Auction(bidders=1, values=["19.90", "34.90"], weights=["0.4", "0.6"])
    answer = mechdes.solve(sale).best()
    print(f"The best price brings {float(answer.value):.2f}, which is exactly {answer.value}")
    print(repr(answer))                                  # ten lines at most; a notebook shows a table with a picture
    rounded: Any = 19.9                                  # (mypy refuses a float, too)
    try:
        mechdes.Auction(bidders=1, values=[rounded], weights=[1])
    except TypeError as refused:
        print(refused)


def two_goods() -> None:
    """A buyer has 0, 1 or 2 for each of two goods, all as likely. The setting is one of a family."""
    values = list(itertools.product([0, 1, 2], repeat=2))
    setting = mechdes.families.goods([values])
    answer = mechdes.solve(setting).best()
    assert mechdes.check(setting, answer)
    print("The best way to sell both goods brings", answer.value)
    pays = {profile: row["buyer1"] for profile, row in answer.payments.items()}
    print("a buyer with 2 and 0 pays", pays["v2_0",], "and one with 2 and 1", pays["v2_1",])
    try:
        mechdes.families.goods([values] * 3)
    except ValueError as beyond:
        print(beyond)


def auction() -> None:
    """An item for two bidders who value it 2, 3 or 6. The setting is made in Python."""
    setting = mechdes.Auction(bidders=2, values=[2, 3, 6], weights=[2, 1, 1])
    answer = mechdes.solve(setting).best()
    assert mechdes.check(setting, answer)
    print("The best auction brings", answer.value)
    for value, odds in answer.odds.items():
        print(f"a bidder with {value} wins with the chance {odds} and pays {answer.pays[value]} on average")
    report = mechdes.report(setting, answer)
    print("the item is worth", report.welfare, "to who gets it, on average; nobody gains by a lie:", report.regret == 0)
    print("where 3 and 2 are reported, the chances are", *answer.mechanism.chances([3, 2]))


def reserve_prices() -> None:
    """What the item is worth to the seller, from nothing on, and the least value that it is then sold to."""
    settings = [mechdes.Auction(bidders=2, values=[1, 2, 3, 4, 5], weights=[1, 1, 1, 1, 1], keep=keep) for keep in range(7)]
    print("kept for  brings  sold from")
    for setting, answer in mechdes.sweep(settings):      # side by side, in order; a refusal stands in its own place
        assert not isinstance(answer, Exception) and mechdes.check(setting, answer)
        sold = [value for value, odds in answer.odds.items() if odds]
        print(f"{setting.keep:8}  {answer.value!s:6}  {min(sold, default='never')}")


def keeps(setting: mechdes.Auction, bids: list[mechdes.Amount], value: mechdes.Amount) -> Fraction:
    """What the first bidder is left with on average over the draws, where the item is worth so much to it."""
    told = mechdes.award(setting, 1, bids)
    return told.chances[1] * (value - told.prices.get(1, 0))


def held(times: int = 1000, seed: int = 1) -> None:
    """The same item, sold so that only the winner pays. The auction is held many times, with values drawn by the weights."""
    setting = mechdes.Auction(bidders=2, values=[2, 3, 6], weights=[2, 1, 1])
    rule = mechdes.threshold(setting, 1)                 # of one unit; no table is needed, and the numbers stay short
    print("The item is sold from", rule.reserve, "on, and brings", rule.value)
    source = random.Random(seed)                         # for a sale that counts take `secrets`, which nobody can foresee
    wins, had = collections.Counter[mechdes.Amount](), collections.Counter[mechdes.Amount]()
    paid, gain = Fraction(0), Fraction(0)
    for _ in range(times):
        bids = source.choices(setting.values, setting.weights, k=setting.bidders)
        draw = source.randrange(mechdes.award(setting, 1, bids).draws)
        award = mechdes.award(setting, 1, bids, draw)
        paid += sum(award.payments.values())
        wins.update(bids[winner - 1] for winner in award.winners)
        had.update(bids)
        gain = max(gain, *(keeps(setting, [lie, *bids[1:]], bids[0]) - keeps(setting, bids, bids[0]) for lie in setting.values))
    print(f"in {times} auctions the seller has {float(paid / times):.3f} on average; the most that a lie gained is {gain}")
    for value in setting.values:
        print(f"a bidder with {value} won {wins[value] / had[value]:.3f} of the time")


def compromises() -> None:
    """What can be had of revenue and welfare at once: all corners, exactly."""
    found = mechdes.frontier(EXAMPLES / "auction-reserve.toml", "revenue", "welfare")
    for corner in found.corners:
        print("revenue", corner.first, "with welfare", corner.second)
    print("at a revenue of 14/5 the most welfare is", found.best(Fraction(14, 5)))


def refusals() -> None:
    """What the program refuses is an exception, which says why and where."""
    try:
        mechdes.solve(mechdes.Auction(bidders=2, values=[3, 2], weights=[1, 1]))
    except mechdes.SettingRefused as refused:
        print("The program says:", refused)


PARTS: tuple[Callable[[], None], ...] = (
    divorce,
    price,
    cents,
    two_goods,
    auction,
    reserve_prices,
    held,
    compromises,
    refusals,
)


def main() -> None:
    for part in PARTS:
        print(f"-- {part.__name__.replace('_', ' ')}")
        part()


if __name__ == "__main__":
    main()
