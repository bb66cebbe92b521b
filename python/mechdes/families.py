"""Families of settings that come up again and again, made from a few numbers.

    setting = mechdes.families.goods([[(1, 0), (0, 2), (3, 3)]])    # one buyer, three types, two goods
    print(mechdes.solve(setting).best().value)                      # 5/2

Each function gives a `Setting`. Its numbers may be whole, fractions or decimal texts. `weights` has for each agent a list of how
likely its types are; without it they are equally likely. `truth` is `dominant` or `bayes`, as in a `Setting`; `bayes` has fewer
conditions, so that larger settings are within the limits. `with_objective` gives the setting another objective, and
`dataclasses.replace` other conditions.

A type is named by its numbers: `v1_0` has 1 and 0, `vminus3over2` has -3/2. Where a name would have more than 32 letters, the types
of the agent are `t1`, `t2` and so on, in their order.

A setting has at most 6 agents, 16 types of each, 16 outcomes, 1,024 profiles, 4,096 rows of its linear program, and 4,000,000 cells
of the program's table (docs/FORMATS.md). All functions raise `ValueError` where a setting would be beyond one of these limits, with
the number and the limit and before anything is written; and where lists do not fit one another, with their lengths.
"""

from __future__ import annotations

import itertools
import math
from collections.abc import Callable, Sequence
from fractions import Fraction
from typing import Any, NamedTuple, TypeAlias

from .settings import Agent, Amount, Number, Numbers, Objective, Setting, exact

Kind: TypeAlias = tuple[Amount, ...]  # the numbers of a type
_LONGEST = 32  # letters of a name


class _Family(NamedTuple):
    """A family by its name, the conditions of its settings, and their objective."""

    name: str
    truth: str
    rational: str
    payments: bool
    objective: Objective
    no_deficit: bool = False

    def try_limits(self, sizes: Sequence[int], outcomes: int) -> None:
        """Refuses a setting beyond a limit. `sizes` has for each agent how many types it has."""
        profiles, agents = math.prod(sizes), len(sizes)
        truth = sum((profiles if self.truth == "dominant" else size) * (size - 1) for size in sizes)
        rational = {"none": 0, "ex-post": agents * profiles, "interim": sum(sizes)}[self.rational]
        at_most = truth + rational + profiles * self.no_deficit
        rows = at_most + profiles
        columns = profiles * (outcomes + 2 * agents * self.payments)
        for count, limit, what in (
            (agents, 6, "agents"),
            (max(sizes, default=0), 16, "types of an agent"),
            (outcomes, 16, "outcomes"),
            (profiles, 1024, "profiles"),
            (rows, 4096, "rows of the linear program"),
            (rows * (columns + at_most + rows + 1), 4_000_000, "cells of the table of the linear program"),
        ):
            if count > limit:
                raise ValueError(f"{self.name}: {count} {what}, and a setting has at most {limit}")

    def setting(self, outcomes: Sequence[str], agents: Sequence[Agent]) -> Setting:
        """The setting with these outcomes and agents."""
        return Setting(
            truth=self.truth,
            rational=self.rational,
            payments=self.payments,
            outcomes=outcomes,
            agents=agents,
            objective=self.objective,
            no_deficit=self.no_deficit,
        )


def _kinds(family: str, agents: Sequence[Sequence[Numbers]]) -> list[list[Kind]]:
    """The types of all agents, each by equally many numbers."""
    found = [[tuple(exact(number, family) for number in kind) for kind in kinds] for kinds in agents]
    lengths = sorted({len(kind) for kinds in found for kind in kinds})
    if len(lengths) > 1:
        raise ValueError(f"{family}: all types have equally many numbers, and here they have {' and '.join(map(str, lengths))}")
    if lengths in ([], [0]) or not all(found):
        raise ValueError(f"{family}: there is at least one agent, each has at least one type, and each type at least one number")
    if any(len(set(kinds)) < len(kinds) for kinds in found):
        raise ValueError(f"{family}: an agent has the same type twice")
    return found


def _singles(family: str, agents: Sequence[Numbers]) -> list[list[Kind]]:
    """The types of all agents, each by one number."""
    return _kinds(family, [[[number] for number in numbers] for numbers in agents])


def _type_names(prefix: str, kinds: Sequence[Sequence[object]]) -> list[str]:
    """The names of an agent's types."""
    names = [prefix + "_".join(str(part).replace("-", "minus").replace("/", "over") for part in kind) for kind in kinds]
    if len(set(names)) == len(names) and max(map(len, names)) <= _LONGEST:
        return names
    return [f"t{place}" for place, _ in enumerate(kinds, 1)]


def _agents(
    family: str,
    names: Sequence[str],
    kinds: Sequence[Sequence[Any]],
    types: Sequence[Sequence[str]],
    weights: Sequence[Numbers] | None,
    worth: Callable[[int, Any], list[Amount]],
) -> list[Agent]:
    """The agents. `worth` gives what each outcome is worth to an agent, by its place from 0, with a type."""
    likely: Sequence[Numbers] = [[1] * len(its) for its in kinds] if weights is None else weights
    wanted, lengths = [len(its) for its in kinds], [len(its) for its in likely]
    if lengths != wanted:
        raise ValueError(f"{family}: each type has a weight: {wanted} weights are wanted, and not {lengths}")
    return [
        Agent(name, types[place], [worth(place, kind) for kind in kinds[place]], likely[place]) for place, name in enumerate(names)
    ]


def _numbered(noun: str, count: int) -> list[str]:
    return [f"{noun}{number}" for number in range(1, count + 1)]


def goods(buyers: Sequence[Sequence[Numbers]], weights: Sequence[Numbers] | None = None, *, truth: str = "dominant") -> Setting:
    """Goods for buyers whose values add up: what a buyer gets is worth the sum of its values for these goods.

    buyers  for each buyer its types, each of which has a value for each good

    Buyers pay, and never lose by taking part; the objective is the revenue. An outcome is named by who gets each good, in the order
    of the goods: `0_2` keeps the first and gives the second to `buyer2`.

    There are (buyers + 1) ^ goods outcomes, and a setting has 16 at most: 4 goods for one buyer, 2 for two or three buyers, and one
    for more.
    """
    kinds = _kinds("goods", buyers)
    count = len(kinds[0][0])
    family = _Family("goods", truth, "ex-post", True, Objective(revenue=1))
    family.try_limits([len(its) for its in kinds], (len(kinds) + 1) ** count)
    owners = list(itertools.product(range(len(kinds) + 1), repeat=count))

    def worth(place: int, kind: Kind) -> list[Amount]:
        return [sum(value for value, number in zip(kind, owner, strict=True) if number == place + 1) for owner in owners]

    types = [_type_names("v", its) for its in kinds]
    agents = _agents(family.name, _numbered("buyer", len(kinds)), kinds, types, weights, worth)
    return family.setting(["_".join(map(str, owner)) for owner in owners], agents)


def slots(
    bidders: Sequence[Numbers], rates: Numbers, weights: Sequence[Numbers] | None = None, *, truth: str = "dominant"
) -> Setting:
    """Slots for advertisements: a bidder in a slot has its value for a click, times the rate of clicks of the slot.

    bidders  for each bidder the values that it may have for a click
    rates    the rate of clicks of each slot, from the best on: none is greater than the one before it, and none below 0

    Bidders pay, and never lose by taking part; the objective is the revenue. Slots are filled from the first on: a slot behind an
    empty one is worth to each bidder what a lottery between the empty one and none is worth. An outcome is named by the bidders in
    the order of the slots: `2_1` gives the first slot to `bidder2` and the second to `bidder1`; `none` gives none.

    Within the 16 outcomes of a setting are any slots for up to 3 bidders, and one slot for more.
    """
    kinds = _singles("slots", bidders)
    given = [exact(rate, "slots") for rate in rates]
    if not all(first >= second for first, second in itertools.pairwise([*given, 0])):
        raise ValueError(f"slots: the rates fall from slot to slot, and none is below 0: {', '.join(map(str, given))}")
    most = min(len(given), len(kinds))
    family = _Family("slots", truth, "ex-post", True, Objective(revenue=1))
    family.try_limits([len(its) for its in kinds], sum(math.perm(len(kinds), count) for count in range(most + 1)))
    rankings = [order for count in range(most + 1) for order in itertools.permutations(range(len(kinds)), count)]

    def worth(place: int, kind: Kind) -> list[Amount]:
        return [kind[0] * given[order.index(place)] if place in order else 0 for order in rankings]

    types = [_type_names("v", its) for its in kinds]
    agents = _agents(family.name, _numbered("bidder", len(kinds)), kinds, types, weights, worth)
    return family.setting(["_".join(str(place + 1) for place in order) or "none" for order in rankings], agents)


def public_project(
    agents: Sequence[Numbers], cost: Number, weights: Sequence[Numbers] | None = None, *, truth: str = "dominant"
) -> Setting:
    """A project for all, such as a bridge, that costs something where it is built.

    agents  for each agent what the project may be worth to it
    cost    what it costs

    Where it is built, each agent bears an equal share of the cost, which is taken off its value. The payments of the mechanism come
    on top of that and never add to less than 0: so the agents bear the whole cost, in shares that the mechanism may change. Nobody
    loses by taking part. The outcomes are `leave` and `build`; the objective is what the project is worth to all, less its cost.

    Within the limits of a setting are, by `dominant` truth, 6 agents with 2 values each, 4 with 3, 3 with 4, and 2 with 8.
    """
    kinds = _singles("public_project", agents)
    share = Fraction(exact(cost, "public_project")) / len(kinds)
    family = _Family("public_project", truth, "ex-post", True, Objective(welfare=1), no_deficit=True)
    family.try_limits([len(its) for its in kinds], 2)
    types = [_type_names("v", its) for its in kinds]
    names = _numbered("agent", len(kinds))
    made = _agents(family.name, names, kinds, types, weights, lambda _, kind: [0, kind[0] - share])
    return family.setting(["leave", "build"], made)


def bilateral_trade(
    costs: Numbers, values: Numbers, weights: Sequence[Numbers] | None = None, *, truth: str = "bayes"
) -> Setting:
    """One item, of a seller to whom it costs something to give it away, for one buyer.

    costs    what it may cost the seller
    values   what it may be worth to the buyer
    weights  two lists: of the costs, and of the values

    Both pay (the seller a negative amount), and the payments never add to less than 0. Taking part is best on average where `truth`
    is `bayes`, and always where it is `dominant`. The outcomes are `keep` and `trade`; the objective is what trade is worth.

    Within the limits of a setting are 16 costs and 16 values by `bayes` truth, and 8 of each by `dominant` truth.
    """
    kinds = _singles("bilateral_trade", [costs, values])
    rational = "interim" if truth == "bayes" else "ex-post"
    family = _Family("bilateral_trade", truth, rational, True, Objective(welfare=1), no_deficit=True)
    family.try_limits([len(its) for its in kinds], 2)
    types = [_type_names(prefix, its) for prefix, its in zip("cv", kinds, strict=True)]

    def worth(place: int, kind: Kind) -> list[Amount]:
        return [0, kind[0] if place else -kind[0]]

    return family.setting(["keep", "trade"], _agents(family.name, ["seller", "buyer"], kinds, types, weights, worth))


def voting(
    voters: int,
    alternatives: Sequence[str],
    scores: Numbers | None = None,
    weights: Sequence[Numbers] | None = None,
    *,
    truth: str = "dominant",
) -> Setting:
    """A vote over alternatives, by rankings and without payments.

    voters        how many there are
    alternatives  their names, which are the outcomes
    scores        what the best alternative is worth to a voter, the second, and so on; without it one less than there are
                  alternatives, one less than that, and so on to 0, as Borda counts
    weights       for each voter how likely each ranking is; rankings come in the order of the alternatives: `a_b_c`, `a_c_b`,
                  `b_a_c`, ..

    The types of a voter are all rankings, named by the alternatives from the best on. The objective is the sum of the scores.

    Within the limits of a setting are 6 voters over 2 alternatives, and 2 over 3; by `bayes` truth 3 over 3. Four alternatives have
    24 rankings, and an agent has 16 types at most.
    """
    given = [exact(score, "voting") for score in (range(len(alternatives) - 1, -1, -1) if scores is None else scores)]
    if len(given) != len(alternatives):
        raise ValueError(f"voting: there are {len(alternatives)} alternatives and {len(given)} scores")
    if voters < 1:
        raise ValueError("voting: there is at least one voter")
    family = _Family("voting", truth, "none", False, Objective(welfare=1))
    family.try_limits([math.factorial(len(alternatives))] * voters, len(alternatives))
    rankings = list(itertools.permutations(alternatives))

    def worth(_: int, ranking: tuple[str, ...]) -> list[Amount]:
        return [given[ranking.index(name)] for name in alternatives]

    names = _numbered("voter", voters)
    types = [_type_names("", rankings)] * voters
    return family.setting(alternatives, _agents(family.name, names, [rankings] * voters, types, weights, worth))


def assignment(
    agents: Sequence[Sequence[Numbers]], weights: Sequence[Numbers] | None = None, *, truth: str = "dominant"
) -> Setting:
    """Objects for agents who each get one at most, without payments.

    agents  for each agent its types, each of which has a value for each object

    As many objects as can be are given. An outcome is named by what each agent gets, in the order of the agents: `2_1` gives the
    second object to `agent1` and the first to `agent2`; 0 is none. The objective is the sum of the values.

    Within the 16 outcomes of a setting are one object for 6 agents, 2 objects for 4, 3 objects for 3, and 4 objects for 2.
    """
    kinds = _kinds("assignment", agents)
    count = len(kinds[0][0])
    family = _Family("assignment", truth, "none", False, Objective(welfare=1))
    family.try_limits([len(its) for its in kinds], math.perm(max(count, len(kinds)), min(count, len(kinds))))
    objects = [*range(1, count + 1), *[0] * (len(kinds) - count)]
    given = sorted(set(itertools.permutations(objects, len(kinds))))

    def worth(place: int, kind: Kind) -> list[Amount]:
        return [(0, *kind)[owned[place]] for owned in given]

    types = [_type_names("v", its) for its in kinds]
    made = _agents(family.name, _numbered("agent", len(kinds)), kinds, types, weights, worth)
    return family.setting(["_".join(map(str, owned)) for owned in given], made)
