"""Tries the auction in which only winners pay: texts worked out by hand, an audit of every profile, and rules that are wrong."""

import random
import tempfile
import unittest
from fractions import Fraction

from second_opinion import command, threshold, threshold_compare
from second_opinion.places import EXAMPLES
from second_opinion.setting import AuctionSetting, Refused, read_setting
from second_opinion.show.kinds import page_of, read_answer
from second_opinion.threshold import LOWEST, Rule, threshold_text
from second_opinion.threshold_audit import best_by_program, best_by_virtual_values, bests, faults


def told(command_of, name, *words):
    """What a command comes to of an example."""
    return command.outcome(command_of, [str(EXAMPLES / f"{name}.toml"), *words])


def records(text):
    """The records of a text, the last one apart."""
    *found, end, rest = text.split("\n")
    assert (end, rest) == ("end", ""), text
    return found


def example(name):
    return read_setting((EXAMPLES / f"{name}.toml").read_bytes())


class Texts(unittest.TestCase):
    """The pages of examples/ work these numbers out."""

    def test_one_unit(self):
        status, text, line = told(threshold.threshold, "auction-reserve", "1")
        self.assertEqual((status, line), (0, None))
        self.assertEqual(
            records(text),
            ["threshold,1", "units,1", "value,71,25", "revenue,71,25", "welfare,88,25", "reserve,3", "pool,3,3", "pool,4,4", "pool,5,5",
             "price,0,none,0,3,1", "price,0,0,1,3,1",
             "price,1,none,0,3,1", "price,1,0,1,7,2", "price,1,1,1,4,1",
             "price,2,none,0,3,1", "price,2,0,1,7,2", "price,2,1,1,9,2", "price,2,2,1,5,1"],
        )

    def test_three_units(self):
        status, text, line = told(threshold.threshold, "seats", "3")
        self.assertEqual((status, line), (0, None))
        self.assertEqual(
            records(text), ["threshold,1", "units,3", "value,484,81", "revenue,484,81", "welfare,575,81", "reserve,2", "pool,2,2", "pool,3,3"]
        )

    def test_pooled_values_share_at_a_tie(self):
        for draw, winner in (("0", 1), ("1", 2)):
            self.assertEqual(
                told(threshold.award, "auction-ironed", "1", "2,3", draw),
                (0, f"chance,1,1,2\nchance,2,1,2\nprice,1,2,1\nprice,2,2,1\nwins,{winner}\nend\n", None),
            )
        self.assertEqual(
            told(threshold.award, "auction-ironed", "1", "6,2", "0"), (0, "chance,1,1,1\nchance,2,0,1\nprice,1,4,1\nwins,1\nend\n", None)
        )

    def test_units_go_around_the_circle(self):
        # Two seats are left for the three fans with 2, whose numbers are 2, 3 and 5.
        for draw, winners in (("0", [1, 2, 3]), ("1", [1, 3, 5]), ("2", [1, 2, 5])):
            status, text, _ = told(threshold.award, "seats", "3", "3,2,2,1,2", draw)
            self.assertEqual(status, 0)
            self.assertEqual(
                records(text),
                ["chance,1,1,1", "chance,2,2,3", "chance,3,2,3", "chance,4,0,1", "chance,5,2,3",
                 "price,1,9,4", "price,2,2,1", "price,3,2,1", "price,5,2,1", *(f"wins,{winner}" for winner in winners)],
            )

    def test_nothing_is_sold_where_keeping_is_worth_more(self):
        auction = AuctionSetting(2, [1, 2], [1, 1], 1, 0, 5)
        self.assertEqual(threshold_text(Rule(auction, 2)), "threshold,1\nunits,2\nvalue,10,1\nrevenue,0,1\nwelfare,0,1\nreserve,none\nend\n")

    def test_cases_of_several_others(self):
        # Three bidders, and no value is turned away: 1 and 2 have the virtual values 1 - 1·1/2 and 2.
        cases = list(Rule(AuctionSetting(3, [1, 2], [2, 1], 1, 0, 0), 1).prices())
        self.assertEqual(
            cases,
            [(0, None, 0, 1), (0, 0, 1, 1), (0, 0, 2, 1),
             (1, None, 0, 1), (1, 0, 1, Fraction(3, 2)), (1, 0, 2, Fraction(5, 3)), (1, 1, 1, 2), (1, 1, 2, 2)],
        )


class Refusals(unittest.TestCase):
    def test_each(self):
        for command_of, words, expected in (
            (threshold.threshold, ["seats", "0"], (67, "number refused")),
            (threshold.threshold, ["seats", "13"], (67, "number refused")),
            (threshold.threshold, ["no-such-file", "13"], (67, "number refused")),
            (threshold.threshold, ["no-such-file", "12"], (70, "read fault")),
            (threshold.threshold, ["seats", "three"], (64, "usage")),
            (threshold.threshold, ["seats", "03"], (64, "usage")),
            (threshold.threshold, ["seats", str(2**126)], (64, "usage")),
            (threshold.threshold, ["seats", str(2**126 - 1)], (67, "number refused")),
            (threshold.threshold, ["seats"], (64, "usage")),
            (threshold.threshold, ["posted-price", "1"], (65, "setting refused: other kind")),
            (threshold.award, ["seats", "3", "3,2,2,1", "0"], (67, "profile refused")),
            (threshold.award, ["seats", "3", "3,2,2,1,4", "9"], (67, "profile refused")),
            (threshold.award, ["seats", "3", "3,2,2,1,02", "0"], (67, "profile refused")),
            (threshold.award, ["seats", "3", "", "0"], (67, "profile refused")),
            (threshold.award, ["seats", "3", "3,2,2,1,2", "3"], (67, "draw refused")),
            (threshold.award, ["seats", "3", "3,3,3,1,2", "1"], (67, "draw refused")),
            (threshold.award, ["seats", "3", "3,2,2,1,2", "-1"], (64, "usage")),
            (threshold.award, ["--", "seats", "3", "3,2,2,1,2", "-1"], (67, "draw refused")),
            (threshold.award, ["seats", "13", "3", "0"], (67, "number refused")),
            (threshold.award, ["seats", "3", "3,2,2,1,2"], (64, "usage")),
            (threshold.award, ["posted-price", "1", "low", "0"], (65, "setting refused: other kind")),
        ):
            given = [str(EXAMPLES / f"{word}.toml") if word in ("seats", "posted-price", "no-such-file") else word for word in words]
            status, line = expected
            self.assertEqual(command.outcome(command_of, given), (status, "", line), words)



class HigherFirst(Rule):
    """Within a pool the higher value wins: the pools are single values."""

    def __init__(self, auction, units):
        super().__init__(auction, units)
        self.pools = [(place, place) for first, last in self.pools for place in range(first, last + 1)]
        self.leasts = [auction.values[place] for place, _ in self.pools]


class GreatestValue(Rule):
    """A winner in a pool of its own pays the greatest value of it."""

    def payment(self, rank, others):
        paid = super().payment(rank, others)
        values = self.auction.values
        return paid + self.chance(rank, others) * (values[self.pools[rank][1]] - values[self.pools[rank][0]]) if rank != LOWEST else paid


class LosersPay(Rule):
    """What is paid is paid whether the bidder wins or not: by a bidder who never wins too."""

    def payment(self, rank, others):
        return super().payment(rank, others) or Fraction(1)


class OneUnitMore(Rule):
    """There is a unit more than the seller has."""

    def winners(self, ranks, draw):
        more = Rule(self.auction, self.units + 1)
        return more.winners(ranks, draw)


class HigherReserve(Rule):
    """The lowest pool is turned away."""

    def __init__(self, auction, units):
        super().__init__(auction, units)
        self.pools, self.leasts = self.pools[1:], self.leasts[1:]


class FirstWins(Rule):
    """At each draw the first of those who share the edge win."""

    def winners(self, ranks, draw):
        return super().winners(ranks, 0)


class Pages(unittest.TestCase):
    def page(self, name, text):
        auction = example(name)
        return page_of(auction, read_answer(text.encode(), auction), "a", ["b", "c"])

    def test_on_average_it_is_the_rule_of_several_units(self):
        # The page seats.md works these out.
        rule = Rule(example("seats"), 3)
        self.assertEqual([rule.interim(rank) for rank in rule.ranks()],
                         [(0, 0), (Fraction(91, 135), Fraction(182, 135)), (Fraction(131, 135), Fraction(302, 135))])

    def test_with_one_unit_it_is_on_average_the_stored_answer(self):
        for name in ("auction-cuts", "auction-ironed", "auction-keep", "auction-reserve", "auction-single"):
            auction = example(name)
            rule, stored = Rule(auction, 1), read_answer((EXAMPLES / f"{name}-answer.csv").read_bytes(), auction)
            found = [rule.interim(rule.rank(place)) for place in range(len(auction.values))]
            numbers = zip(stored.interim.odds, stored.interim.pays)
            self.assertEqual(found, [(Fraction(odds, stored.interim.den), Fraction(pay, stored.interim.den)) for odds, pay in numbers])

    def test_a_page_tells_of_another_text_that_it_is_wrong(self):
        text = (EXAMPLES / "used-car-threshold.csv").read_text()
        self.assertNotIn("is wrong", self.page("used-car", text).html())
        for old, new in (("reserve,5000", "reserve,4000"), ("price,2,1,1,6500,1", "price,2,1,1,6000,1")):
            self.assertIn("The file is another one", self.page("used-car", text.replace(old, new)).html())

    def test_texts_that_tell_of_no_units_are_refused(self):
        auction = example("used-car")
        for text, line in (("threshold,2\nunits,1\n", "line 1: field 2"), ("threshold,1,1\nunits,1\n", "line 1: record"),
                           ("threshold,1\nunits,13\n", "line 2: field 2"), ("threshold,1\nunits,01\n", "line 2: field 2"),
                           ("threshold,1\nvalue,1\n", "line 2: record"), ("threshold,1\n", "line 2: record")):
            with self.assertRaises(Refused) as caught:
                read_answer(text.encode(), auction)
            self.assertEqual((caught.exception.status, caught.exception.line), (66, f"answer refused: {line}"))

    def test_lists_of_bidders(self):
        html = self.page("seats", (EXAMPLES / "seats-threshold.csv").read_text()).html()
        self.assertIn("1 below the reserve, 3 with 2, 1 with 3", html)
        self.assertEqual(html.count('<tr><th scope="row">'), 21 + 2 + 3 + 3)  # lists, pools, values, and what they count


class Audits(unittest.TestCase):
    def test_the_auctions_of_the_examples(self):
        for path in sorted(EXAMPLES.glob("*.toml")):
            auction = read_setting(path.read_bytes())
            if isinstance(auction, AuctionSetting) and len(auction.values) ** auction.bidders <= 100:
                for units in range(1, auction.bidders + 1):
                    self.assertEqual(list(faults(Rule(auction, units))), [], (path.name, units))

    def test_random_auctions(self):
        numbers = random.Random(3)
        for _ in range(30):
            auction = threshold_compare.small(numbers)
            units = numbers.randint(1, auction.bidders)
            self.assertEqual(list(faults(Rule(auction, units))), [], (auction, units))

    def test_rules_that_are_wrong(self):
        auction = AuctionSetting(2, [2, 3, 6], [2, 1, 1], 1, 0, 0)  # 2 and 3 are a pool
        self.assertEqual(Rule(auction, 1).pools, [(0, 1), (2, 2)])
        for rule, first in (
            (HigherFirst, "the value is 23/8, and 3 by virtual values"),
            (GreatestValue, "a price above the value or below 0 of bidder 0 at (0, 0)"),
            (LosersPay, "broken "),
            (OneUnitMore, "more winners than units at (0, 0)"),
            (HigherReserve, "the value is 21/8, and 3 by virtual values"),
            (FirstWins, "another chance over the draws of bidder 0 at (0, 0)"),
        ):
            found = next(self.tolerant(rule(auction, 1)), "")
            self.assertTrue(found.startswith(first), (rule.__name__, found))
            self.assertEqual(list(faults(Rule(auction, 1))), [])

    def tolerant(self, rule):
        """The faults of a rule; winners of whom there are too many have no outcome, and end the audit."""
        try:
            yield from faults(rule)
        except KeyError:
            return

    def test_more_units_than_bidders_add_what_keeping_them_is_worth(self):
        auction = AuctionSetting(2, [1, 2, 3], [1, 1, 1], 1, 0, 2)
        by_units = [Rule(auction, units).expected().value for units in range(1, 5)]
        self.assertEqual([best_by_virtual_values(auction, units) for units in range(1, 5)], by_units)
        self.assertEqual([best_by_program(auction, units) for units in range(1, 5)], by_units)
        self.assertEqual([by_units[2] - by_units[1], by_units[3] - by_units[2]], [2, 2])

    def test_the_general_setting_is_asked_where_it_is_small(self):
        names = [name for name, _ in bests(AuctionSetting(2, [1, 2, 3], [1, 1, 1], 1, 0, 0), 1)]
        self.assertEqual(names, ["virtual values", "the reduced program", "the general setting"])

    def test_the_values_of_the_pages(self):
        values = [(1, Fraction(664, 243)), (2, Fraction(386, 81)), (3, Fraction(484, 81)), (4, Fraction(1586, 243)), (5, Fraction(20, 3))]
        for units, value in values:
            self.assertEqual(Rule(example("seats"), units).expected().value, value)

    def test_six_digits_are_answered(self):
        numbers = random.Random(4)
        for _ in range(20):
            auction = threshold_compare.wide(numbers)
            units = numbers.randint(1, auction.bidders)
            self.assertEqual(Rule(auction, units).expected().value, best_by_virtual_values(auction, units))

    def test_random_settings_are_written_and_read(self):
        numbers = random.Random(5)
        for maker in threshold_compare.MAKERS:
            with tempfile.NamedTemporaryFile("w", suffix=".toml") as file:
                file.write(threshold_compare.auction_text(maker(numbers)))
                file.flush()
                self.assertEqual(command.outcome(threshold.threshold, [file.name, "1"])[0], 0)
