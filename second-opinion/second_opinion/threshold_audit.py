"""Audits the auction in which only winners pay at every profile and draw, and has its value found by other ways.

The auction is told to the other programs of this folder as a general setting, whose outcomes are the sets of bidders who may win:
`broken` then tries truth and rationality at each profile, and `find` tells what no other mechanism exceeds.
"""

import itertools
import math
from collections.abc import Iterator
from dataclasses import dataclass
from fractions import Fraction

from second_opinion.answer import Mechanism, OptimalAnswer
from second_opinion.auction import count_lists, program_of, value_of, weight_of
from second_opinion.auction_finding import dictionary_of, interim_of
from second_opinion.finding import found_answer
from second_opinion.program import broken
from second_opinion.program import value_of as objective_at
from second_opinion.setting import Agent, AuctionSetting, GeneralSetting, Profile
from second_opinion.show.auction_facts import ironed
from second_opinion.threshold import Rule, without

MOST_FOUND = 60  # profiles times outcomes of a setting that `find` is asked about


@dataclass(frozen=True)
class Awarded:
    """What a bidder has at a profile: how often it wins, what it pays where it wins, and over the draws how often it does."""

    chance: Fraction
    price: Fraction | None
    wins: Fraction


def faults(rule: Rule) -> Iterator[str]:
    """What is wrong with the rule, by its own words for chances, prices and winners."""
    auction, expected = rule.auction, rule.expected()
    lotteries = {}
    for profile in profiles_of(auction):
        ranks = [rule.rank(place) for place in profile]
        draws = rule.draws(ranks)
        won = [rule.winners(ranks, draw) for draw in range(draws)]
        lotteries[profile] = won
        if any(len(winners) > min(rule.units, auction.bidders) for winners in won):
            yield f"more winners than units at {profile}"
        for bidder, rank in enumerate(ranks):
            others = without(ranks, rank)
            often = Fraction(sum(bidder in winners for winners in won), draws)
            has = Awarded(rule.chance(rank, others), rule.price(rank, others), often)
            yield from (f"{fault} of bidder {bidder} at {profile}" for fault in faults_of(has, auction.values[profile[bidder]]))
    setting = general_of(auction, rule.units, "dominant", "ex-post")
    mechanism = mechanism_of(rule, setting, lotteries)
    first = broken(setting, mechanism)
    if first is not None:
        yield f"broken {first}"
    amount, total = objective_at(setting, mechanism)
    if Fraction(amount, total * mechanism.den) != expected.value:
        yield "the value is not that of the rule at all profiles"
    for name, best in bests(auction, rule.units):
        if best != expected.value:
            yield f"the value is {expected.value}, and {best} by {name}"


def faults_of(has: Awarded, value: int) -> Iterator[str]:
    """What is wrong with what a bidder with a value has."""
    if has.wins != has.chance:
        yield "another chance over the draws"
    if (has.price is None) != (has.chance == 0):
        yield "a price without a chance, or none with one"
    if has.price is not None and not 0 <= has.price <= value:
        yield "a price above the value or below 0"


def profiles_of(auction: AuctionSetting) -> Iterator[Profile]:
    """All profiles: for each bidder the place of its value."""
    return itertools.product(range(len(auction.values)), repeat=auction.bidders)


def sets_of(auction: AuctionSetting, units: int) -> list[tuple[int, ...]]:
    """The sets of bidders who may win together."""
    bidders = range(auction.bidders)
    return [chosen for count in range(min(units, len(bidders)) + 1) for chosen in itertools.combinations(bidders, count)]


def general_of(auction: AuctionSetting, units: int, truth: str, rational: str) -> GeneralSetting:
    """The auction of so many units as a general setting."""
    outcomes = sets_of(auction, units)
    kinds = [str(value) for value in auction.values]
    agents = []
    for bidder in range(auction.bidders):
        worth = [[value if bidder in chosen else 0 for chosen in outcomes] for value in auction.values]
        agents.append(Agent(str(bidder + 1), kinds, auction.weights, [0] * len(kinds), worth, None))
    kept = [auction.keep * (units - len(chosen)) for chosen in outcomes]
    names = ["+".join(str(bidder + 1) for bidder in chosen) or "keep" for chosen in outcomes]
    return GeneralSetting(truth, rational, True, False, names, auction.welfare, auction.revenue, kept, None, agents)


def mechanism_of(rule: Rule, setting: GeneralSetting, lotteries: dict[Profile, list[list[int]]]) -> Mechanism:
    """The mechanism of the rule, whose lotteries are the draws, and in which each bidder pays its price as often as it wins."""
    outcomes = {chosen: number for number, chosen in enumerate(sets_of(rule.auction, rule.units))}
    den = math.lcm(*range(1, rule.auction.bidders + 1)) ** 2
    mechanism = Mechanism(den)
    for profile, won in lotteries.items():
        chances = [0] * len(outcomes)
        for winners in won:
            chances[outcomes[tuple(winners)]] += den // len(won)
        mechanism.lotteries[profile] = chances
        ranks = [rule.rank(place) for place in profile]
        paid = [rule.payment(rank, without(ranks, rank)) for rank in ranks]
        mechanism.pays[profile] = [int(amount * den) for amount in paid]
    return mechanism


def bests(auction: AuctionSetting, units: int) -> Iterator[tuple[str, Fraction]]:
    """The greatest value that there is, found by other ways: by the ironed virtual values; by the reduced program with all sets of
    values; and, where it is small, by the general setting, whose mechanisms may treat bidders differently."""
    yield "virtual values", best_by_virtual_values(auction, units)
    yield "the reduced program", best_by_program(auction, units)
    setting = general_of(auction, units, "bayes", "interim")
    if setting.profile_count() * len(setting.outcomes) <= MOST_FOUND:
        found = found_answer(setting)
        assert isinstance(found, OptimalAnswer)
        yield "the general setting", Fraction(*found.value)


def best_by_virtual_values(auction: AuctionSetting, units: int) -> Fraction:
    """At each profile units go to the greatest ironed values above 0."""
    blocks = ironed(auction)
    by_block = AuctionSetting(auction.bidders, [0] * len(blocks), [block.weight for block in blocks], 0, 0, 0)
    gain = Fraction(0)
    for counts in count_lists(auction.bidders, len(blocks)):
        counted = [max(block.counts, Fraction(0)) for block, count in zip(blocks, counts) for _ in range(count)]
        gain += weight_of(by_block, counts) * sum(sorted(counted)[-units:])
    return auction.keep * units + gain / sum(auction.weights) ** auction.bidders


def best_by_program(auction: AuctionSetting, units: int) -> Fraction:
    """The greatest value of odds and pays under the conditions on bidders and on all sets of values."""
    dictionary = dictionary_of(auction, program_of(auction, list(range(1, 2 ** len(auction.values))), units))
    dictionary.solve()
    return value_of(auction, interim_of(auction, dictionary)) + auction.keep * (units - 1)
