"""Frontiers by hand-worked numbers."""

import importlib.util
import random
import unittest
import unittest.mock
from fractions import Fraction

import mechdes

from .common import EXAMPLES, calling, text
from .stand_in import Changed, SecondOpinion


def points(found: mechdes.Frontier) -> list[tuple[Fraction, Fraction]]:
    return [(corner.first, corner.second) for corner in found.corners]


class Frontiers(unittest.TestCase):
    def test_one_buyer(self) -> None:
        # A buyer with 1 or 3, both as likely: the price 3 brings 3/2 and as much welfare; the price 1 brings 1 and the welfare 2.
        found = mechdes.frontier(EXAMPLES / "posted-price.toml")
        self.assertEqual(points(found), [(Fraction(3, 2), Fraction(3, 2)), (1, 2)])
        self.assertEqual(found.edges, (mechdes.Edge((1, 1), True),))
        self.assertTrue(found.complete)
        for corner in found.corners:
            self.assertTrue(mechdes.check(corner.setting, corner.answer))
        self.assertEqual(found.best(Fraction(5, 4)), Fraction(7, 4))
        self.assertEqual(found.best(0), 2)
        with self.assertRaises(ValueError):
            found.best(2)

    def test_an_auction_with_three_corners(self) -> None:
        # Two bidders with 1 to 5: the page frontier.md works out what the reserve prices 3, 2 and 1 bring.
        found = mechdes.frontier(EXAMPLES / "auction-reserve.toml")
        self.assertEqual(
            points(found),
            [(Fraction(71, 25), Fraction(88, 25)), (Fraction(68, 25), Fraction(94, 25)), (Fraction(65, 25), Fraction(95, 25))],
        )
        self.assertEqual(found.edges, (mechdes.Edge((2, 1), True), mechdes.Edge((1, 3), True)))
        self.assertEqual(found.names, ("revenue", "welfare"))

    def test_the_other_way_round(self) -> None:
        found = mechdes.frontier(EXAMPLES / "auction-ironed.toml", "welfare", "revenue")
        self.assertEqual(points(found), [(Fraction(65, 16), Fraction(23, 8)), (Fraction(63, 16), 3)])

    def test_an_auction_that_is_too_wide_to_solve(self) -> None:
        # Of the values 10 and 14 with the weights 31 and 29, 115 and 86 is the weight of those above. Their virtual values are
        # 10 - 4*115/31 = -150/31 and 14 - 5*86/29 = -24/29, so that they count nothing where welfare weighs 15/31 and 12/203.
        found = mechdes.frontier(EXAMPLES / "auction-beyond.toml")
        self.assertEqual([edge.weights for edge in found.edges], [(203, 12), (31, 15)])
        self.assertTrue(found.complete)

    def test_a_setting_with_one_corner(self) -> None:
        # One bidder with one value: it is sold to at that.
        auction = mechdes.Auction(bidders=1, values=[4], weights=[1])
        self.assertEqual(points(mechdes.frontier(auction)), [(4, 4)])

    def test_objectives_of_outcomes(self) -> None:
        # One agent with one type, who may be given the outcome a, b or c: the corners are those outcomes of which no mixture is
        # better.
        agent = mechdes.Agent("a", ["t"], [[0, 0, 0, 0]], weights=[1])
        setting = mechdes.Setting(truth="bayes", rational="none", payments=False, outcomes=["a", "b", "c", "d"], agents=[agent])
        first, second = mechdes.Objective(value=[4, 3, 0, 1]), mechdes.Objective(value=[0, 3, 4, 3])
        found = mechdes.frontier(setting, first, second)
        self.assertEqual(points(found), [(4, 0), (3, 3), (0, 4)])

    def test_a_point_on_an_edge_is_no_corner(self) -> None:
        agent = mechdes.Agent("a", ["t"], [[0, 0, 0]], weights=[1])
        setting = mechdes.Setting(truth="bayes", rational="none", payments=False, outcomes=["a", "b", "c"], agents=[agent])
        found = mechdes.frontier(setting, mechdes.Objective(value=[2, 1, 0]), mechdes.Objective(value=[0, 1, 2]))
        self.assertEqual(points(found), [(2, 0), (0, 2)])

    def test_an_edge_beyond_the_limits_is_not_said_to_be_proved(self) -> None:
        # The edge between (1000000, 0) and (0, 999999) wants weights that bring values beyond those of the format.
        agent = mechdes.Agent("a", ["t"], [[0, 0]], weights=[1])
        setting = mechdes.Setting(truth="bayes", rational="none", payments=False, outcomes=["a", "b"], agents=[agent])
        found = mechdes.frontier(setting, mechdes.Objective(value=[1000, 0]), mechdes.Objective(value=[0, 999]))
        self.assertEqual((points(found), found.complete), ([(1000, 0), (0, 999)], True))
        found = mechdes.frontier(setting, mechdes.Objective(value=[100000, 0]), mechdes.Objective(value=[0, 99999]))
        self.assertEqual((points(found), found.complete), ([(100000, 0), (0, 99999)], False))

    def test_no_weights_bring_more_than_the_corners(self) -> None:
        # The definition: whatever the weights, the best for their sum is as good as the best of the corners, and no better.
        source = random.Random(3)
        for _ in range(3):
            values = sorted(source.sample(range(1, 12), 3))
            auction = mechdes.Auction(bidders=2, values=values, weights=[source.randint(1, 4) for _ in values])
            found = mechdes.frontier(auction)
            self.assertTrue(found.complete)
            for first, second in ((1, 1), (5, 1), (3, 2), (2, 3), (1, 5)):
                asked = mechdes.Auction(bidders=2, values=values, weights=auction.weights, revenue=first, welfare=second)
                with self.subTest(auction, first=first, second=second):
                    self.assertEqual(mechdes.solve(asked).value, max(first * a + second * b for a, b in points(found)))

    def test_what_has_no_frontier(self) -> None:
        with self.assertRaises(mechdes.NoFrontier) as caught:
            mechdes.frontier(EXAMPLES / "unbounded-revenue.toml")
        self.assertIsInstance(caught.exception.answer, mechdes.Unbounded)
        with self.assertRaises(mechdes.NoFrontier):
            mechdes.frontier(EXAMPLES / "two-claims.toml")
        with self.assertRaises(ValueError):
            mechdes.frontier(EXAMPLES / "posted-price.toml", "revenue", "wellfare")

    def test_a_corner_whose_certificate_is_rejected_is_none(self) -> None:
        rejected = Changed(check=lambda words, setting, second: mechdes.Reply(20, b"rejected,5,7\n", b""))
        with calling(rejected), self.assertRaisesRegex(mechdes.NoFrontier, "not valid: rejected,5,7"):
            mechdes.frontier(EXAMPLES / "posted-price.toml")

    def test_iron_is_asked_where_an_auction_is_too_wide_to_solve(self) -> None:
        wide = b"answer,2,auction,toowide\nwide,0,0,9,1\nagain\nwide,0,0,9,1\nend\n"
        iron = Changed(
            solve=lambda words, setting, second: mechdes.Reply(12, wide, b""),
            iron=lambda words, setting, second: SecondOpinion().call(["solve", "setting"], setting),
        )
        with calling(iron):
            found = mechdes.frontier(EXAMPLES / "auction-ironed.toml")
        self.assertEqual(points(found), [(3, Fraction(63, 16)), (Fraction(23, 8), Fraction(65, 16))])

    def test_find_is_asked_where_a_general_setting_is_too_wide_to_solve(self) -> None:
        wide = mechdes.Reply(12, text("too-wide-answer.csv").encode(), b"")
        with calling(Changed(solve=lambda words, setting, second: wide)):
            found = mechdes.frontier(EXAMPLES / "posted-price.toml")
        self.assertEqual(points(found), [(Fraction(3, 2), Fraction(3, 2)), (1, 2)])

    def test_a_general_setting_that_find_leaves_undecided_has_no_frontier(self) -> None:
        wide, undecided = mechdes.Reply(12, text("too-wide-answer.csv").encode(), b""), mechdes.Reply(22, b"undecided\n", b"")
        silent = Changed(solve=lambda words, setting, second: wide, find=lambda words, setting, second: undecided)
        with calling(silent), self.assertRaises(mechdes.NoFrontier) as caught:
            mechdes.frontier(EXAMPLES / "posted-price.toml")
        self.assertIsInstance(caught.exception.answer, mechdes.Undecided)

    def test_what_a_picture_shows(self) -> None:
        axes = unittest.mock.Mock()
        self.assertIs(mechdes.draw_frontier(mechdes.frontier(EXAMPLES / "posted-price.toml"), axes), axes)
        self.assertEqual(axes.plot.call_args.args, ([1.5, 1.0], [1.5, 2.0]))
        self.assertEqual([call.args[0] for call in axes.annotate.call_args_list], ["(3/2, 3/2)", "(1, 2)"])
        self.assertEqual((axes.set_xlabel.call_args.args, axes.set_ylabel.call_args.args), (("revenue",), ("welfare",)))

    def test_a_picture(self) -> None:
        if importlib.util.find_spec("matplotlib") is None:
            self.skipTest("matplotlib is not there")
        axes = mechdes.draw_frontier(mechdes.frontier(EXAMPLES / "auction-reserve.toml"))
        self.assertEqual(list(axes.lines[0].get_xdata()), [71 / 25, 68 / 25, 65 / 25])
        self.assertEqual((axes.get_xlabel(), axes.get_ylabel()), ("revenue", "welfare"))
        axes.figure.draw_without_rendering()
        frame, words = axes.get_window_extent(), [label.get_window_extent() for label in axes.texts]
        self.assertEqual(len(words), 3)
        self.assertTrue(all(frame.x0 < box.x0 and box.x1 < frame.x1 and frame.y0 < box.y0 and box.y1 < frame.y1 for box in words))


if __name__ == "__main__":
    unittest.main()
