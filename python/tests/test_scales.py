"""Fractions and decimal texts: they are scaled to whole numbers for the program, and what it answers is divided by the scale."""

import unittest
from fractions import Fraction

import mechdes

from .common import example, stored


def times(name: str, factor: Fraction) -> mechdes.Setting:
    """An example in which all utilities are multiplied by a factor."""
    setting = mechdes.read_setting(example(name))
    assert isinstance(setting, mechdes.Setting)
    agents = [
        mechdes.Agent(agent.name, agent.types, [[number * factor for number in row] for row in agent.utility], agent.weights)
        for agent in setting.agents
    ]
    return mechdes.Setting(
        truth=setting.truth,
        rational=setting.rational,
        payments=setting.payments,
        outcomes=setting.outcomes,
        agents=agents,
        objective=setting.objective,
    )


# One bidder has 1.5 or 10/3, the latter three times as often. The price 10/3 brings 5/2, and 1.5 brings 1.5.
SALE = mechdes.Auction(bidders=1, values=["1.5", Fraction(10, 3)], weights=["0.25", "0.75"])


class Scales(unittest.TestCase):
    def test_amounts_share_one_scale_and_weights_have_their_own(self) -> None:
        self.assertEqual((SALE.values, SALE.weights, SALE.scale), ((Fraction(3, 2), Fraction(10, 3)), (1, 3), 6))
        self.assertIn("values = [9, 20]\nweights = [1, 3]\n", SALE.to_toml())
        agent = mechdes.Agent("a", ["s", "t"], [["0", "0.50"], [1, Fraction(2, 3)]], ["0.1", "0.20"], outside=["-0.25", 0])
        setting = mechdes.Setting(
            truth="bayes",
            rational="interim",
            payments=True,
            outcomes=["x", "y"],
            agents=[agent],
            objective=mechdes.Objective(value=["0.2", 3]),
        )
        self.assertEqual(setting.scale, 60)
        self.assertEqual((agent.weights, agent.utility), ((1, 2), ((0, Fraction(1, 2)), (1, Fraction(2, 3)))))
        for line in ("utility = [[0, 30], [60, 40]]", "outside = [-15, 0]", "weights = [1, 2]", "value = [12, 180]"):
            self.assertIn(f"{line}\n", setting.to_toml())
        joint = mechdes.Agent("b", ["s", "t"], [[0, 1], [0, 1]])
        setting = mechdes.Setting(
            truth="bayes", rational="none", payments=False, outcomes=["x", "y"], agents=[joint], prior=["0.6", Fraction(2, 5)]
        )
        self.assertEqual((setting.prior, setting.scale), ((3, 2), 1))

    def test_whole_numbers_are_written_as_they_are(self) -> None:
        auction = mechdes.Auction(bidders=1, values=[2, "4"], weights=[2, 4], keep="6")
        self.assertEqual((auction.scale, auction.weights, auction.keep), (1, (2, 4), 6))
        self.assertEqual(mechdes.read_setting(auction.to_toml()), auction)

    def test_beyond_the_limit_a_sentence_says_the_number_and_the_limit(self) -> None:
        for amount, told in (
            ({"values": [1, "2.0000001"]}, "values: 1 is 10000000 as a whole number, at the scale 10000000 .* limit is 1000000"),
            ({"keep": "100000.01"}, "keep: 10000001/100 is 10000001 .* at the scale 100 .* the limit is 1000000"),
            ({"weights": ["0.3333333", "0.6666667"]}, "weights: as whole numbers they add to 10000000, and the limit is 1000000"),
        ):
            with self.subTest(told), self.assertRaisesRegex(ValueError, told):
                mechdes.Auction(**{"bidders": 1, "values": [1, 2], "weights": [1, 1], **amount})
        with self.assertRaisesRegex(ValueError, r"agent.utility: 1000 is 3000000 .* at the scale 3000 .* the limit is 1000000"):
            times("posted-price", Fraction(1000, 3)).with_objective(mechdes.Objective(revenue=1, value=[0, "0.001"]))

    def test_an_auction_in_its_own_units(self) -> None:
        answer = mechdes.solve(SALE).best()
        low, high = SALE.values
        self.assertEqual((answer.value, answer.scale), (Fraction(5, 2), 6))
        self.assertEqual((answer.odds, answer.pays), ({low: 0, high: 1}, {low: 0, high: Fraction(10, 3)}))
        self.assertIn("\nvalue,15,1\n", answer.text())
        self.assertIn("\npays,0,20\n", answer.text())
        self.assertEqual(mechdes.read(SALE, answer.text()), answer)
        self.assertTrue(mechdes.check(SALE, answer))
        self.assertEqual(mechdes.run(SALE, answer, ["1.5"], 0).payments, {1: 0})
        drawn = mechdes.draw(SALE, answer, [high])
        self.assertEqual((drawn.payments, drawn.text()), ({1: Fraction(10, 3)}, "outcome,1\npays,1,20\n"))
        told = mechdes.report(SALE, answer)
        self.assertEqual((told.revenue, told.welfare, told.types[high].pays), (Fraction(5, 2), Fraction(5, 2), Fraction(10, 3)))
        self.assertEqual((told.regret, told.admissible), (0, True))
        self.assertIn(told.gains[0].type, SALE.values)
        self.assertEqual(mechdes.parse("report", told.text(), SALE), told)

    def test_thresholds_and_awards_in_their_own_units(self) -> None:
        rule = mechdes.threshold(SALE, 1)
        high = Fraction(10, 3)
        self.assertEqual((rule.value, rule.reserve, rule.pools), (Fraction(5, 2), high, ((high, high),)))
        self.assertEqual([price.price for price in rule.prices], [high])
        self.assertIn("\nreserve,20\npool,20,20\n", rule.text())
        self.assertEqual(mechdes.parse("threshold", rule.text(), SALE), rule)
        award = mechdes.award(SALE, 1, [high])
        self.assertEqual((award.payments, mechdes.award(SALE, 1, ["1.5"]).payments), ({1: high}, {1: 0}))
        self.assertEqual(mechdes.parse("award", award.text(), SALE), award)
        with self.assertRaisesRegex(ValueError, "no multiple of 1/6"):
            mechdes.award(SALE, 1, ["1.55"])

    def test_a_general_setting_in_its_own_units(self) -> None:
        # posted-price.md, in which the buyer has 1 or 3, divided by 4: the price 3/4 brings 3/8.
        setting = times("posted-price", Fraction(1, 4))
        answer = mechdes.solve(setting).best()
        self.assertEqual((answer.value, answer.payments["high",]["buyer"]), (Fraction(3, 8), Fraction(3, 4)))
        self.assertIn("\nvalue,3,2\n", answer.text())
        self.assertEqual(mechdes.read(setting, answer.text()), answer)
        self.assertTrue(mechdes.check(setting, answer))
        by_hand = mechdes.Mechanism(answer.lotteries, answer.payments)
        told = mechdes.report(setting, by_hand)
        self.assertEqual((told.value, told.types["buyer", "high"].pays), (Fraction(3, 8), Fraction(3, 4)))
        self.assertTrue(mechdes.audit(setting, by_hand))
        # Without rationality payments grow without end.
        free = times("unbounded-revenue", Fraction(1, 4))
        unbounded = mechdes.solve(free)
        self.assertEqual(mechdes.read(free, unbounded.text()), unbounded)

    def test_stored_answers_are_read_at_the_scale(self) -> None:
        # strong-and-weak.md has the value 17/4, and seats.md 484/81: both with half of all amounts.
        sale, text = times("strong-and-weak", Fraction(1, 2)), stored("strong-and-weak-by-hand").read_text()
        found, whole = mechdes.read(sale, text), mechdes.read(example("strong-and-weak"), text)
        self.assertEqual((found.value, found.scale, found.text()), (Fraction(17, 8), 2, whole.text()))
        self.assertEqual(2 * found.mechanism.pays["strong"]["v6"], whole.mechanism.pays["strong"]["v6"])
        seats = mechdes.read_setting(example("seats"))
        assert isinstance(seats, mechdes.Auction)
        half = [Fraction(value, 2) for value in seats.values]
        auction = mechdes.Auction(bidders=seats.bidders, values=half, weights=seats.weights)
        several = mechdes.read(auction, stored("seats-three"), units=3)
        self.assertEqual((several.value, list(several.odds)), (Fraction(242, 81), half))
        self.assertTrue(mechdes.check(auction, several))
        drawn = mechdes.draw(auction, several, [half[0]] * auction.bidders)
        self.assertEqual(set(drawn.payments.values()), {several.pays[half[0]]})

    def test_an_auction_of_ones_own_in_its_own_units(self) -> None:
        low, high = SALE.values
        told = mechdes.report(SALE, mechdes.AuctionTable(odds={low: 1, high: 1}, pays={low: Fraction(3, 2), high: Fraction(3, 2)}))
        self.assertEqual((told.revenue, told.types[high].gets), (Fraction(3, 2), Fraction(11, 6)))

    def test_an_answer_at_another_scale_is_refused(self) -> None:
        answer = mechdes.solve(times("posted-price", Fraction(1, 4)))
        with self.assertRaisesRegex(ValueError, "about a setting with the scale 4, and not 2"):
            mechdes.check(times("posted-price", Fraction(1, 2)), answer)

    def test_conditions_in_the_units_of_the_setting(self) -> None:
        # budget.md has the value (6 + B)/4 for a budget B from 2 to 6. An eighth of all amounts has (6 + 8b)/32 for a budget b.
        setting = times("budget", Fraction(1, 8))
        for budget, value in (("0.5", Fraction(10, 32)), (Fraction(5, 8), Fraction(11, 32))):
            conditions = [mechdes.Payment("bidder", "most", budget), mechdes.Chance("sell", "least", "0.1")]
            found = mechdes.require(setting, conditions).best()
            self.assertEqual((found.value, found.shadows), (value, (Fraction(1, 4), 0)))
            self.assertEqual([condition.bound for condition in found.conditions], [Fraction(budget), Fraction(1, 10)])
            self.assertTrue(mechdes.check(setting, found))
            self.assertEqual(mechdes.read(setting, found.text()), found)
            told = mechdes.report(setting, found)
            self.assertEqual([(standing.met, standing.scale) for standing in told.conditions], [(True, 4), (True, 1)])
            self.assertEqual((told.conditions[0].amount, told.revenue), (Fraction(budget), value))
            with self.assertRaisesRegex(mechdes.AnswerNotRead, "whether this condition is on an amount"):
                mechdes.parse("report", told.text(), setting)
        self.assertEqual(mechdes.conditions_text(conditions, 4), "require,1\npay,bidder,most,5,2\nchance,sell,least,1,10\nend\n")

    def test_the_shadow_of_a_chance_is_an_amount(self) -> None:
        # school-quota.md has the value 35/8 and the shadow -1.
        setting = times("school-quota", Fraction(1, 2))
        found = mechdes.require(setting, [mechdes.Chance("bob_north", "least", "0.375")]).best()
        self.assertEqual((found.value, found.shadows), (Fraction(35, 16), (Fraction(-1, 2),)))
        self.assertTrue(found.text().endswith("\nshadow,0,-1,1\nend\n"))
        self.assertEqual(mechdes.read(setting, found.text()), found)

    def test_a_frontier_of_objectives_with_other_scales(self) -> None:
        # The buyer has 1 or 3; a sale is worth a half to the designer. The price 3 brings 3/2, and sells half of the time.
        found = mechdes.frontier(example("posted-price"), "revenue", mechdes.Objective(value=[0, "0.5"]))
        ends = [(Fraction(3, 2), Fraction(1, 4)), (1, Fraction(1, 2))]
        self.assertEqual([(corner.first, corner.second) for corner in found.corners], ends)
        # Kept it is worth 1/3: at the price 4 it is never sold, and at 3 half of the time.
        auction = mechdes.Auction(bidders=1, values=[1, 3], weights=[1, 1])
        found = mechdes.frontier(auction, "revenue", mechdes.Objective(keep=Fraction(1, 3)))
        ends = [(Fraction(3, 2), Fraction(1, 6)), (0, Fraction(1, 3))]
        self.assertEqual([(corner.first, corner.second) for corner in found.corners], ends)


if __name__ == "__main__":
    unittest.main()
