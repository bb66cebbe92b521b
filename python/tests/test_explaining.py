"""What explanations say: whole texts, written by hand; a sentence for each way in which an answer can be wrong; and that every
stored answer of examples/ has an explanation in the words of its setting."""

import dataclasses
import json
import pathlib
import unittest
from collections.abc import Callable
from fractions import Fraction

import mechdes
from mechdes.sections import goal_sentence
from mechdes.wording import decimal, number_words

from .common import BUILT, EXAMPLES, TOP, calling, example, text
from .stand_in import Changed
from .test_texts import setting_of

PROGRAM = TOP / "crates/md_prog/out/md_prog"
CONDITIONS = ("require,", "pivot,")  # no answers

POSTED_PRICE = """\
This rule is best: its expected revenue is 1.5 (3/2), and no rule that meets the
conditions has a greater one.
The conditions: no agent gains by a false report; no agent gets less than
outside.

What it brings (welfare: what the outcomes are worth to the agents, before
payments)
  Expected revenue  1.5 (3/2)
  Expected welfare  1.5 (3/2)

What happens at each report (all equally likely)
  buyer  outcome  buyer pays
  low    keep     0
  high   sell     3

How often each outcome comes
  outcome  chance
  keep     0.5 (1/2)
  sell     0.5 (1/2)

What each type can expect
  agent  has   gets after paying  pays
  buyer  low   0                  0
  buyer  high  0                  3

What keeps the value from being greater (these conditions hold with equality)
  - If buyer has high, buyer does just as well by reporting low.
  - If buyer has low, buyer gets just 0, as much as outside.
  - If buyer has high, buyer gets just 0, as much as outside.
"""
KEEP = """\
This rule is best: its value is 2.5 (5/2), and no rule that meets the conditions
has a greater one.
The value is the expected revenue plus 2 for an item that is kept.
The conditions: no bidder gains by a false bid or loses by taking part.

What it brings (welfare: what the item is worth to those who get it)
  Value             2.5 (5/2)
  Expected revenue  1.5 (3/2)
  Expected welfare  1.5 (3/2)

What a bidder with each value can expect
  value  wins  gets after paying  pays
  1      0     0                  0
  3      1     0                  3

Who gets the item, by the values of all bidders
  values  how likely  goes to
  3       0.5 (1/2)   a bidder with 3
  1       0.5 (1/2)   kept

What keeps the value from being greater (these conditions hold with equality)
  - A bidder with 1 or 3 gets just 0, as much as outside.
  - Whenever there is a bidder with 3, the item goes to one.
  - One other condition holds with equality, and costs nothing.
"""
FAIREST = """\
Under this rule each agent expects to get at least 0.8 (4/5), and no rule that
meets the conditions gives more to the agent that gets least.
The conditions: no agent gains by a false report, whatever the others have;
there are no payments.

What it brings (welfare: what the outcomes are worth to the agents, before
payments)
  Expected welfare  1.6 (8/5)

What each agent can expect
  agent   gets
  player  0.8 (4/5)
  other   0.8 (4/5)

What happens at each list of reports
  player  other  how likely  outcome
  needs   any    0.75 (3/4)  player: 0.2667 (4/15), other: 0.7333 (11/15)
  owns    any    0.25 (1/4)  other

How often each outcome comes
  outcome  chance
  keep     0
  player   0.2 (1/5)
  other    0.8 (4/5)

What each type can expect
  agent   has    gets
  player  needs  1.067 (16/15)
  player  owns   0
  other   any    0.8 (4/5)

What keeps the value from being greater (these conditions hold with equality)
  - Nothing: no rule would do better even if no condition were asked of it.
  - One other condition holds with equality, and costs nothing.
"""
BUDGET = """\
This rule is best: its expected revenue is 2.5 (5/2), and no rule that meets the
conditions of the setting and your own has a greater one.
The conditions: no agent gains by a false report; no agent gets less than
outside.

What it brings (welfare: what the outcomes are worth to the agents, before
payments)
  Expected revenue  2.5 (5/2)
  Expected welfare  3.5 (7/2)

Your conditions
  - bidder must never pay more than 4: the most is 4. One unit more would bring
    at most 0.25 (1/4).

What happens at each report (all equally likely)
  bidder  outcome                           bidder pays
  low     keep: 0.5 (1/2), sell: 0.5 (1/2)  1
  high    sell                              4

How often each outcome comes
  outcome  chance
  keep     0.25 (1/4)
  sell     0.75 (3/4)

What each type can expect
  agent   has   gets after paying  pays
  bidder  low   0                  1
  bidder  high  2                  4

What keeps the value from being greater (these conditions hold with equality)
  - If bidder has high, bidder does just as well by reporting low.
  - If bidder has low, bidder gets just 0, as much as outside.
  - bidder must never pay more than 4.
"""
VOTE = """\
This rule does not meet the conditions.
Nothing is maximised: each rule has the value 0.
The conditions: no agent gains by a false report, whatever the others have;
there are no payments.

What it breaks, and by how much
  - If first has l and second has l, first gains 1 by reporting r.
  - If second has l and first has l, second gains 1 by reporting r.

What it would bring if all were truthful (welfare: what the outcomes are worth
to the agents, before payments)
  Expected welfare  0.5 (1/2)

What happens at each list of reports (all equally likely)
  first  second  outcome
  l      l       b
  l      r       a
  r      l       a
  r      r       a

How often each outcome comes
  outcome  chance
  a        0.75 (3/4)
  b        0.25 (1/4)

What each type can expect
  agent   has  gets
  first   l    0.5 (1/2)
  first   r    0
  second  l    0.5 (1/2)
  second  r    0
"""
TWO_CLAIMS = """\
No rule meets the conditions: each one breaks at least one of those below.

These two conditions cannot hold together:
  - ann must get at least 2, as much as outside.
  - bob must get at least 2, as much as outside.
"""
UNBOUNDED = """\
The expected revenue can be made as great as one likes: there is no best rule.
Take the rule below, which meets the conditions, and add the payments below it,
again and again.
Each time the expected revenue grows by 1.
The setting lets agents be worse off than outside, so that they may have to pay
anything.

What happens at each report (all equally likely)
  buyer  outcome  buyer pays
  low    keep     0
  high   keep     0

What can be added to the payments, again and again (all equally likely)
  buyer  buyer pays more
  low    1
  high   1
"""
TOO_OFTEN = """\
No auction has these odds: bidders with 4 or more would win too often.
By the odds one of them gets the item with the chance 0.68 (17/25), but only
with the chance 0.64 (16/25) is there a bidder with 4 or more.
"""
TOO_WIDE = """\
Nothing is known of the setting: a number on the way to the answer was too long
(more than 62 bits).
`find` may answer.
"""


def explained(name: str, old: str = "", new: str = "", units: int | None = None) -> mechdes.Explanation:
    """The explanation of a stored answer, of which a part was replaced by another."""
    answer = text(f"{name}.csv")
    assert old in answer, old
    return mechdes.explain(setting_of(name), answer.replace(old, new, 1), units)


def facts(found: mechdes.Explanation, name: str) -> list[str]:
    """The sentences of a section."""
    return [fact.sentence for section in found.sections if section.name == name for fact in section.facts]


def replying(status: int, out: str) -> Callable[..., mechdes.Reply]:
    """A reply to a command, whatever its words."""
    return lambda *_: mechdes.Reply(status, out.encode(), b"")


class WholeTexts(unittest.TestCase):
    maxDiff = None

    def test_texts(self) -> None:
        for name, expected in (
            ("posted-price-answer", POSTED_PRICE),
            ("fair-split-fairest", FAIREST),
            ("budget-4-required", BUDGET),
            ("vote-against-both", VOTE),
            ("two-claims-answer", TWO_CLAIMS),
            ("unbounded-revenue-answer", UNBOUNDED),
            ("own-too-often", TOO_OFTEN),
            ("too-wide-answer", TOO_WIDE),
        ):
            with self.subTest(name):
                self.assertEqual(explained(name).text(), expected)

    def test_an_auction(self) -> None:
        # The answer that docs/FORMATS.md has as a whole one.
        auction = mechdes.Auction(bidders=1, values=[1, 3], weights=[1, 1], keep=2)
        answer = (
            "answer,1,auction,optimal\nvalue,5,2\ninterim,1\nodds,0,1\npays,0,3\nmass,0,1,0,1\nmass,1,0,0,0\n"
            "cut,1\ncut,2\nbound,1\nrow,2,0,1\nrow,3,0,1\nrow,5,0,1\nend\n"
        )
        self.assertEqual(mechdes.explain(auction, answer).text(), KEEP)
        self.assertEqual(mechdes.read(auction, answer).explain(), KEEP)

    def test_without_an_answer(self) -> None:
        self.assertEqual(mechdes.explain(example("two-claims")).text(), TWO_CLAIMS)
        auction = mechdes.explain(mechdes.Auction(bidders=1, values=[1, 3], weights=[1, 1], keep=2))
        first = "This rule is best: its value is 2.5 (5/2), and no rule that meets the conditions has a greater one."
        self.assertEqual(auction.summary[0], first)


class Sentences(unittest.TestCase):
    def test_broken_conditions(self) -> None:
        for name, expected in (
            (
                "price-above-value",
                ["If buyer has high, buyer gains 1 by reporting low.", "If buyer has high, buyer gets 1 less than outside."],
            ),
            ("public-good-subsidy", ["If ann has low and bob has low, the designer has to add 2 to what the agents pay."]),
            ("own-first-price", ["A bidder with 5 gains 1 on average by bidding 3."]),
            # Where it has v1 the other one has v1, too, in 2 of 3 cases: by v2 it is paid 1 in these, and pays 1 in the third.
            (
                "correlated-side-bets",
                [
                    "If one has v1, one gains 0.3333 (1/3) on average by reporting v2.",
                    "If one has v2, one gets 0.3333 (1/3) less on average than outside.",
                ],
            ),
        ):
            with self.subTest(name):
                found = explained(name)
                self.assertEqual((found.verdict, facts(found, "broken")), ("broken", expected))

    def test_shadows(self) -> None:
        revenue, chance = "The expected revenue must be at least", "The chance of bob_north must be at least"
        for name, expected in (
            ("revenue-floor-1-required", f"{revenue} 0.5 (1/2): it is 1. To relax it would bring nothing."),
            ("revenue-floor-4-required", f"{revenue} 1.7 (17/10): it is 1.7 (17/10). One unit more would cost at least 2."),
            (
                "school-quota-3-required",
                f"{chance} 0.375 (3/8): it is 0.375 (3/8). A hundredth more would cost at least 0.01 (1/100).",
            ),
        ):
            with self.subTest(name):
                self.assertEqual(facts(explained(name), "bounds"), [expected])

    def test_conditions_that_cannot_hold_together(self) -> None:
        found = explained("revenue-floor-6-required")
        self.assertEqual(
            found.summary[0],
            "No rule meets the conditions of the setting and your own: each one breaks at least one of those below.",
        )
        self.assertEqual(found.sections[0].title, "These eight conditions cannot hold together:")
        self.assertEqual(facts(found, "conflict")[-1], "The expected revenue must be at least 2.")
        self.assertEqual(facts(found, "conflict")[0], "If trader has v3, trader must not gain by reporting v1.")

    def test_what_binds(self) -> None:
        trade = facts(explained("bilateral-trade-answer"), "binding")
        self.assertEqual(trade[-1], "The payments of all agents add to exactly 0, whatever the agents have.")
        festival = facts(explained("festival-site-answer"), "binding")
        self.assertIn("If southtown has busy, southtown does on average just as well by reporting quiet or fair.", festival)
        bus = facts(explained("village-bus-found"), "binding")
        self.assertIn(
            "If lake has families, lake does just as well by reporting commuters, in 2 of the 4 cases of what the others have.", bus
        )
        sale = facts(explained("strong-and-weak-by-hand"), "binding")
        self.assertEqual(
            sale[4:7],
            [
                "Whenever strong has v6, strong gets the item.",
                "Whenever weak has v3 or strong has v6, such an agent gets the item.",
                "The item is always sold.",
            ],
        )
        seats = facts(explained("seats-three", units=3), "binding")
        self.assertEqual(seats[-1], "Bidders with 2 or more get all units, or one each where they are too few for that.")

    def test_an_auction_in_which_only_winners_pay(self) -> None:
        found = explained("used-car-threshold")
        best = "This auction is best for one unit: its value is 5890.63 (47125/8), and no auction has a greater one."
        self.assertEqual(found.summary[0], best)
        self.assertEqual(facts(found, "rule")[0], "No bid below 5000 wins.")
        self.assertEqual(explained("used-car-threshold", "price,1,0,1,5500,1", "price,1,0,1,5400,1").verdict, "rejected")
        self.assertIn("Bids from 2 to 3 count as equal.", facts(explained("auction-ironed-threshold"), "rule"))

    def test_what_is_maximised(self) -> None:
        found = goal_sentence(mechdes.Auction(bidders=2, values=[1, 2], weights=[1, 1], revenue=2, welfare=1, keep=-3))
        self.assertEqual(
            found, "The value is 2 times the expected revenue plus the expected welfare minus 3 for an item that is kept."
        )
        vote = mechdes.read_setting(example("vote"))
        own = "The value is what the outcomes are worth to the designer minus the expected welfare."
        for objective, expected in (
            (mechdes.Objective(welfare=1), ""),
            (mechdes.Objective(welfare=-1, value=[0, 1]), own),
            (mechdes.Objective(revenue=1), "Nothing is maximised: each rule has the value 0."),
        ):
            self.assertEqual(goal_sentence(vote.with_objective(objective)), expected)

    def test_numbers(self) -> None:
        for number, expected in (
            (Fraction(6656936079, 250000000), "26.63 (6656936079/250000000)"),
            (Fraction(8, 3), "2.667 (8/3)"),
            (Fraction(-1, 3), "-0.3333 (-1/3)"),
            (Fraction(1, 123), "0.00813 (1/123)"),
            (Fraction(47125, 8), "5890.63 (47125/8)"),
            (Fraction(4), "4"),
            (0, "0"),
        ):
            self.assertEqual(number_words(number), expected)
        self.assertEqual([decimal(Fraction(number, 2)) for number in (-3, 0, 1, 200)], ["-1.5", "0", "0.5", "100"])


NO_CERTIFICATE = "The certificate of the answer does not hold"
PRICE, CLAIMS, TAKEN = "posted-price-answer", "two-claims-answer", "unbounded-revenue-answer"
AUCTION, SALE, FLOOR = "auction-reserve-answer", "strong-and-weak-by-hand", "revenue-floor-2-required"
# A stored answer, a part of it and what takes its place, the condition of the check that fails, and what is said.
REJECTED = (
    (PRICE, "pay,high,3", "pay,high,4", 1, "If buyer has high, buyer gains 1 by reporting low."),
    (PRICE, "value,3,2", "value,2,1", 2, "The answer states a wrong value: that of its rule is 1.5 (3/2)."),
    (
        PRICE,
        "row,1,0,1",
        "row,1,0,-1",
        3,
        f"{NO_CERTIFICATE}: it gives a weight below 0 to this condition. If buyer has high, buyer must not gain by reporting low.",
    ),
    (
        PRICE,
        "row,1,0,1\n",
        "",
        4,
        f"{NO_CERTIFICATE}: by its weights, a greater chance of sell where buyer has low would bring more than it costs.",
    ),
    (CLAIMS, "row,2,3", "row,2,2", 4, f"{NO_CERTIFICATE}: by its weights, a greater chance of ann may still meet all conditions."),
    (CLAIMS, "row,2,3", "row,2,5", 5, f"{NO_CERTIFICATE}: added up by its weights, the conditions do not contradict each other."),
    (PRICE, "row,5,0,6", "row,5,0,8", 6, f"{NO_CERTIFICATE}: it leaves room for a rule with a greater value than this one has."),
    (
        TAKEN,
        "ray,low,1",
        "ray,low,2",
        7,
        "The payments cannot be added without end: they would break this condition. "
        "If buyer has low, buyer must not gain by reporting high.",
    ),
    (
        TAKEN,
        "ray,low,1\nray,high,1",
        "ray,low,0\nray,high,0",
        8,
        "Adding the payments again and again does not bring more each time.",
    ),
    # Over the 25 profiles a bidder has 5 ten times, five for each bidder, and wins 9 of these. A tenth of a profile is taken away.
    (
        AUCTION,
        "mass,0,0,0,0,2,0,0,0,0,10",
        "mass,0,0,0,0,2,0,0,0,0,9",
        9,
        "The odds and the table of who wins (mass) disagree. A bidder with 5 wins with the chance 0.9 (9/10) by the odds, "
        "and with 0.89 (89/100) by the table.",
    ),
    (AUCTION, "pays,0,0,15,23,33", "pays,0,0,15,23,34", 10, "A bidder with 5 gains 0.1 (1/10) on average by bidding 4."),
    (AUCTION, "pays,0,0,15,23,33", "pays,0,0,16,23,33", 10, "A bidder with 3 gains 0.1 (1/10) on average by bidding 1."),
    # By v4 it has the item, worth 6 to it, half the time and pays 2; by the truth it would pay 11/2.
    (SALE, "pays,strong,4,10", "pays,strong,4,11", 10, "If strong has v6, strong gains 0.5 (1/2) on average by reporting v4."),
    (
        SALE,
        "mass,v2,v4,0,2",
        "mass,v2,v4,0,1",
        9,
        "The odds and the table of who wins (mass) disagree. If strong has v4, strong wins with the chance 0.5 (1/2) by the odds, "
        "and with 0.25 (1/4) by the table.",
    ),
    (
        FLOOR,
        "revenue,least,6,5",
        "revenue,least,7,5",
        17,
        "The rule does not meet a condition of yours. The expected revenue must be at least 1.4 (7/5): it is 1.2 (6/5).",
    ),
    (
        FLOOR,
        "shadow,0,-1,3",
        "shadow,0,-1,2",
        18,
        "The answer states a wrong price for a unit of this condition, and the certificate gives -0.3333 (-1/3). "
        "The expected revenue must be at least 1.2 (6/5).",
    ),
)


class Rejections(unittest.TestCase):
    def test_rejected(self) -> None:
        for name, old, new, number, expected in REJECTED:
            with self.subTest(name, number=number):
                found = explained(name, old, new)
                self.assertEqual((found.verdict, facts(found, "rejection")[0]), ("rejected", expected))
                self.assertEqual(found.sections[0].data()["facts"][0]["number"], number)
                self.assertEqual(len(found.summary), 2 if number in (3, 4, 5, 6) else 1)

    def test_rejected_rules_without_lotteries(self) -> None:
        # What the program prints of such answers to two-goods, whose second leaf gives none to v1_0.
        for record, expected in (
            ("11,0", "If buyer has v1_0, the rule draws lots."),
            # It pays 6 for what is worth 6 to it, and could have the second good, worth 3 to it, for 2.
            ("12,truth/buyer/v3_3/v0_2/v3_3,0,1", "If buyer has v3_3, buyer gains 1 by reporting v0_2."),
            ("13,7,3", "The answer states a wrong value: that of its rule is 2.333 (7/3)."),
            ("14,1", "The certificate of a part of the search does not hold (the one with none where buyer has v1_0)."),
            ("15,1", "A part of the search may have a better rule (the one with none where buyer has v1_0)."),
            ("16", "The payments cannot be added without end, or do not bring more each time."),
        ):
            with self.subTest(record), calling(Changed(determcheck=replying(20, f"rejected,{record}\n"))):
                self.assertEqual(facts(explained("two-goods-rule"), "rejection")[0], expected)

    def test_a_rejected_level(self) -> None:
        with calling(Changed(check=replying(20, "rejected,11,4611686018427387904\n"))):
            (told,) = facts(explained("fair-split-fairest"), "rejection")
        self.assertEqual(told, "What the agent that gets least gets is a number of more than 62 bits, which is not checked.")

    def test_refused(self) -> None:
        for setting, answer, refused in (
            ("not toml [", None, mechdes.SettingRefused),
            (text("posted-price.toml"), "answer,1,general,best\n", mechdes.AnswerRefused),
            (text("posted-price.toml"), "", mechdes.AnswerRefused),
            (text("posted-price.toml"), text("auction-reserve-answer.csv"), mechdes.AnswerRefused),
            (text("seats.toml"), text("seats-three.csv"), mechdes.AnswerRefused),
        ):
            with self.subTest(answer), self.assertRaises(refused):
                mechdes.explain(setting + "\n", answer)


class Shapes(unittest.TestCase):
    def test_data(self) -> None:
        data = json.loads(json.dumps(explained("budget-4-required").data()))
        self.assertEqual([data[key] for key in ("kind", "word", "verdict")], ["required", "optimal", "valid"])
        self.assertEqual(data["amounts"]["rows"][0], ["Expected revenue", {"exact": "5/2", "decimal": 2.5}])
        half = {"exact": "1/2", "decimal": 0.5}
        self.assertEqual(data["profiles"]["rows"][0], ["low", {"keep": half, "sell": half}, {"exact": "1", "decimal": 1.0}])
        self.assertEqual(data["profiles"]["columns"], ["bidder", "outcome", "bidder pays"])
        (bound,) = data["bounds"]["facts"]
        self.assertEqual((bound["condition"], bound["met"]), ("condition/0", True))
        self.assertEqual(bound["shadow"], {"exact": "1/4", "decimal": 0.25})

    def test_a_large_table_is_short_in_the_text(self) -> None:
        types = [f"t{number}" for number in range(30)]
        rows = [(name, Fraction(number)) for number, name in enumerate(types)]
        chances = [Fraction(1, 40)] * 20 + [Fraction(1, 20)] * 10
        section = mechdes.Section(name="many", title="Many", columns=("type", "pays"), rows=rows, chances=chances)
        lines = list(section.lines(200))
        # The ten likely ones and the first two of the others: 18 of 1/40 are left out.
        self.assertEqual([line.split()[0] for line in lines[1:13]], ["t0", "t1", *types[20:]])
        left_out = "Here 18 other rows are left out, with the chance 0.45 (9/20) in all; --json lists them all."
        self.assertEqual(lines[13:], [f"  These are the most likely ones. {left_out}"])
        self.assertEqual(len(section.data()["rows"]), 30)
        even = dataclasses.replace(section, chances=[Fraction(1, 30)] * 30)
        left_out = "  Here 18 other rows are left out, with the chance 0.6 (3/5) in all; --json lists them all."
        self.assertEqual(list(even.lines(200))[13:], [left_out])

    def test_a_wide_table_has_decimals_and_then_sentences(self) -> None:
        section = mechdes.Section(name="wide", title="Wide", columns=("type", "pays"), rows=[("low", Fraction(8, 3))])
        self.assertEqual(list(section.lines(40)), ["  type  pays", "  low   2.667 (8/3)"])
        self.assertEqual(list(section.lines(18))[:2], ["  type  pays", "  low   2.667"])
        self.assertEqual(list(section.lines(12)), ["  - type:", "    low;", "    pays:", "    2.667"])

    def test_colours(self) -> None:
        found = explained("own-too-often")
        self.assertTrue(found.text(80, True).startswith("\033[1;31mNo auction has these odds"))
        self.assertNotIn("\033", str(found))


def stored() -> list[pathlib.Path]:
    """All files of examples/ that explain takes: answers, auctions of `threshold`, and odds."""
    return [path for path in sorted(EXAMPLES.glob("*.csv")) if not path.read_text().startswith(CONDITIONS)]


class Examples(unittest.TestCase):
    def explain_all(self, is_whole: bool) -> None:
        count = 0
        for path in stored():
            with self.subTest(path.name):
                units = 3 if path.stem.startswith("seats") else None
                try:
                    found = mechdes.explain(setting_of(path.stem), path.read_text(), units)
                except NotImplementedError:
                    self.assertFalse(is_whole)
                    continue
                self.look_at(found)
                count += 1
        self.assertGreater(count, 50)

    def look_at(self, found: mechdes.Explanation) -> None:
        """Whether an explanation has nothing in it that no one says, and fits its width."""
        json.dumps(found.data())
        for width in (60, 120):
            told = found.text(width)
            self.assertFalse(set("{}<>|_") & set(told.replace("_", "")), told)
            for mark in ("None", "Fraction", "  ,", " .", ".."):
                self.assertNotIn(mark, told)
            for line in told.splitlines():
                self.assertTrue(len(line) <= width or " " not in line.strip(), line)
        for sentence in (*found.summary, *(fact.sentence for section in found.sections for fact in section.facts)):
            self.assertRegex(sentence, r"\.$")

    def test_all(self) -> None:
        self.explain_all(BUILT)

    @unittest.skipUnless(PROGRAM.exists(), "no program, which rt ci builds")
    def test_all_by_the_program(self) -> None:
        with calling(mechdes.Executable(PROGRAM)):
            self.explain_all(True)
