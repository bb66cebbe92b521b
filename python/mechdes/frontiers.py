"""The frontier of two objectives: all that can be had of one for each amount of the other, exactly."""

from __future__ import annotations

import dataclasses
import itertools
import math
from fractions import Fraction
from typing import Any, TypeAlias

from .answers import AuctionOptimal, AuctionTable, GeneralOptimal, Report, TooWide
from .commands import check, find, iron, report, solve
from .errors import NoFrontier, SettingRefused
from .mechanisms import Mechanism
from .settings import Auction, Objective, Setting, SettingLike, read_setting
from .showing import Grid, Shown, View, counted

ObjectiveLike: TypeAlias = str | Objective
Weights: TypeAlias = tuple[int, int]
_NAMED = {"revenue": Objective(revenue=1), "welfare": Objective(welfare=1)}
_END_FACTORS = (1, 3, 10, 30, 100, 300, 1000)


@dataclasses.dataclass(frozen=True)
class Corner:
    """A mechanism that no mixture of others does as well as: a corner of the frontier.

    first, second  the exact values of the two objectives
    weights        whole numbers: the mechanism is best for the sum of the objectives, each times its weight
    setting        the setting with that sum as its objective
    answer         the answer to it, which `check` says to be valid
    """

    first: Fraction
    second: Fraction
    weights: Weights
    setting: Setting | Auction = dataclasses.field(repr=False)
    answer: GeneralOptimal | AuctionOptimal = dataclasses.field(repr=False)


@dataclasses.dataclass(frozen=True)
class Edge:
    """What lies between two neighbouring corners: mixtures of the two. Where `proved` is false, the weights of the edge are beyond
    the limits of settings, so that corners that were not found may lie above it."""

    weights: Weights
    proved: bool


@dataclasses.dataclass(frozen=True, repr=False)
class Frontier(Shown):
    """All corners, from the most of the first objective to the most of the second, with the edges between them."""

    corners: tuple[Corner, ...]
    edges: tuple[Edge, ...]
    names: tuple[str, str]

    @property
    def complete(self) -> bool:
        """Whether there are no corners but these, which is so wherever each edge is proved."""
        return all(edge.proved for edge in self.edges)

    def best(self, first: Fraction | int) -> Fraction:
        """The most of the second objective where the first one is to be so much at least; on an edge that is not proved, what is
        surely to be had. Raises `ValueError` where that is too much of the first."""
        if first > self.corners[0].first:
            raise ValueError(f"no mechanism has {first} of the first objective; {self.corners[0].first} is the most")
        for left, right in itertools.pairwise(self.corners):
            if right.first <= first:
                part = (first - right.first) / (left.first - right.first)
                return right.second + part * (left.second - right.second)
        return self.corners[-1].second

    def _view(self) -> View:
        """A row for each corner."""
        first, second = self.names
        rows = {
            place: {first: corner.first, second: corner.second, "weights": corner.weights}
            for place, corner in enumerate(self.corners)
        }
        return View(f"{counted(len(rows), 'corner')}, {'complete' if self.complete else 'not complete'}", Grid(["corner"], rows))


def _objective(objective: ObjectiveLike) -> Objective:
    if isinstance(objective, Objective):
        return objective
    if objective not in _NAMED:
        raise ValueError(f"no objective is named {objective!r}: there are {', '.join(_NAMED)}, and what an Objective says")
    return _NAMED[objective]


def _name(objective: ObjectiveLike, place: str) -> str:
    return objective if isinstance(objective, str) else f"{place} objective"


def _value_of(answer: GeneralOptimal | AuctionOptimal, setting: Setting | Auction) -> Fraction:
    """The value of an answer's mechanism by the objective of a setting, which may have another scale than that of the answer."""
    if setting.scale == answer.scale:
        return report(setting, answer).value
    if isinstance(answer, GeneralOptimal):
        return report(setting, Mechanism(answer.lotteries, answer.payments)).value
    told = report(setting, AuctionTable(odds=answer.odds, pays=answer.pays))
    assert isinstance(told, Report)  # the answer's masses are an auction with these odds
    return told.value


class _Search:
    """The search for the corners of a setting."""

    def __init__(self, setting: Setting | Auction, first: Objective, second: Objective) -> None:
        self.setting, self.first, self.second = setting, first, second

    def corner(self, weights: Weights) -> Corner:
        """A mechanism that is best for the weighted sum, with its certificate checked. Raises `SettingRefused` beyond limits."""
        setting = self.setting.with_objective(self.first * weights[0] + self.second * weights[1])
        answer: Any = solve(setting)
        if isinstance(answer, TooWide):
            answer = iron(setting) if isinstance(setting, Auction) else find(setting)
        if not isinstance(answer, (GeneralOptimal, AuctionOptimal)):
            raise NoFrontier(f"for the weights {weights} there is no optimal answer, but {type(answer).__name__}", answer)
        verdict = check(setting, answer)
        if not verdict:
            raise NoFrontier(f"for the weights {weights} the certificate is not valid: {verdict}", answer)
        first, second = (_value_of(answer, self.setting.with_objective(part)) for part in (self.first, self.second))
        return Corner(first, second, weights, setting, answer)

    def ends(self) -> tuple[Corner, Corner]:
        """The corners with the most of each objective, and of several such the most of the other one."""
        return self.end((1, 0)), self.end((0, 1))

    def end(self, main: Weights) -> Corner:
        """A great weight on the one objective, and a little one on the other: exact once it costs nothing of the one."""
        most = self.corner(main)
        for factor in _END_FACTORS:
            try:
                found = self.corner((1 + (factor - 1) * main[0], 1 + (factor - 1) * main[1]))
            except SettingRefused:
                break
            if (found.first if main[0] else found.second) == (most.first if main[0] else most.second):
                return found
        raise NoFrontier(
            f"the end of the frontier with the most by {main} wants weights beyond the limits of settings", most.answer
        )

    def above(self, left: Corner, right: Corner) -> Corner | Edge:
        """A corner between two others, or the edge between them, where there is none or none can be found."""
        normal = _normal(left, right)
        low, high = left.weights, right.weights
        weights, exact = normal, True
        while True:
            try:
                found = self.corner(weights)
            except SettingRefused:
                if not exact:
                    return Edge(normal, False)
            else:
                if _value(normal, found) > _value(normal, left):
                    return found
                if exact:
                    return Edge(normal, True)
                is_left = _value(weights, found) == _value(weights, left)
                low, high = (weights, high) if is_left else (low, weights)
            weights, exact = _least((low[0] + high[0], low[1] + high[1])), False


def _least(weights: Weights) -> Weights:
    common = math.gcd(*weights)
    return weights[0] // common, weights[1] // common


def _normal(left: Corner, right: Corner) -> Weights:
    """The weights, as least whole numbers, by which two corners have the same."""
    first, second = right.second - left.second, left.first - right.first
    common = math.lcm(first.denominator, second.denominator)
    return _least((int(first * common), int(second * common)))


def _value(weights: Weights, corner: Corner) -> Fraction:
    return weights[0] * corner.first + weights[1] * corner.second


def _merged(corners: list[Corner], edges: list[Edge]) -> tuple[list[Corner], list[Edge]]:
    """Leaves out points that lie on the edge between their neighbours."""
    kept, kept_edges = corners[:1], list[Edge]()
    for corner, edge in zip(corners[1:], edges, strict=True):
        if kept_edges and kept_edges[-1].weights == edge.weights:
            kept[-1], kept_edges[-1] = corner, Edge(edge.weights, edge.proved or kept_edges[-1].proved)
        else:
            kept.append(corner)
            kept_edges.append(edge)
    return kept, kept_edges


def frontier(setting: SettingLike, first: ObjectiveLike = "revenue", second: ObjectiveLike = "welfare") -> Frontier:
    """All corners of the frontier of two objectives, exactly, each with a certificate that was checked.

    first, second  `revenue` (what all agents pay), `welfare` (what the outcome is worth to all agents, payments left out), or an
                   `Objective`

    The setting is solved with sums of the objectives by whole-number weights, until the weights of each edge bring nothing but its
    own two ends: then no corner is missed. The setting's own objective plays no part. Where `solve` is too wide, `iron` is asked of
    an auction and `find` of a general setting. Raises `NoFrontier` where some sum has no optimal answer.
    """
    search = _Search(read_setting(setting), _objective(first), _objective(second))
    left, right = search.ends()
    corners, edges, waiting = [left], list[Edge](), [right]
    while waiting:
        if (corners[-1].first, corners[-1].second) == (waiting[-1].first, waiting[-1].second):
            waiting.pop()
            continue
        found = search.above(corners[-1], waiting[-1])
        if isinstance(found, Corner):
            waiting.append(found)
        else:
            edges.append(found)
            corners.append(waiting.pop())
    kept, kept_edges = _merged(corners, edges)
    return Frontier(tuple(kept), tuple(kept_edges), (_name(first, "first"), _name(second, "second")))


def draw_frontier(found: Frontier, axes: Any = None) -> Any:
    """Draws a frontier with matplotlib, into `axes` where they are given, and gives the axes; their `figure` can be saved. Raises
    `ImportError` where matplotlib is not there."""
    if axes is None:
        from matplotlib.figure import Figure

        axes = Figure(layout="constrained").add_subplot()
    firsts, seconds = ([float(getattr(corner, part)) for corner in found.corners] for part in ("first", "second"))
    axes.plot(firsts, seconds, marker="o")
    above = {"xytext": (6, 6), "horizontalalignment": "left", "verticalalignment": "bottom"}
    below = {"xytext": (-6, -6), "horizontalalignment": "right", "verticalalignment": "top"}
    for corner, *at in zip(found.corners, firsts, seconds, strict=True):
        # neither side meets the line, which falls ever faster; and none leaves the frame
        side = above if 2 * at[0] <= firsts[0] + firsts[-1] else below
        axes.annotate(f"({corner.first}, {corner.second})", at, textcoords="offset points", **side)
    axes.margins(0.15)
    axes.set_xlabel(found.names[0])
    axes.set_ylabel(found.names[1])
    return axes
