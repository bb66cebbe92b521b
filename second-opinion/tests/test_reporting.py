"""What `report` and `audit` say, each number worked out by hand. Run this with `python3 -m unittest discover` in second-opinion/."""

import random
import tempfile
import unittest
from pathlib import Path

from second_opinion import auction, auction_finding, auditing, command, report_compare, reporting, setting
from second_opinion.auction import Interim
from second_opinion.places import EXAMPLES
from second_opinion.setting import AuctionSetting

# Two voters with the types `l` and `r`, each of whom is happy where its outcome is taken.
VOTERS = "".join(f"""[[agent]]
name = "{name}"
types = ["l", "r"]
weights = [1, 1]
utility = [[1, 0], [0, 1]]
""" for name in ("first", "second"))
VOTE = f"""format = "mechanism-setting"
version = 1
kind = "general"
truth = "dominant"
rational = "none"
payments = false
outcomes = ["a", "b"]
[objective]
welfare = 1
{VOTERS}"""

# The first outcome comes only where both voters like it.
BOTH_LIKE_IT = "table,1\nlottery,l,l,1,0\nlottery,l,r,0,1\nlottery,r,l,0,1\nlottery,r,r,0,1\n"
FAIREST = f"answer,1,fair,optimal\nvalue,3,4\n{BOTH_LIKE_IT}bound,2\nrow,8,0,2\nend\n"

# In two of four profiles both get 1, in the others one of them. With `l` a voter has 1 of 2, with `r` it always gets 1. A voter
# with `l` gains nothing by the report `r` where the other one has `r`, and loses 1 where it has `l`.
OF_VOTERS = """value,3,2
revenue,0,1
welfare,3,2
type,first,l,1,2,0,1
type,first,r,1,1,0,1
type,second,l,1,2,0,1
type,second,r,1,1,0,1
gain,first,l,r,l+r,0,1
gain,second,l,r,r+l,0,1
tight,truth/first/l/r/l+r
tight,truth/first/r/l/r+r
tight,truth/second/l/r/r+l
tight,truth/second/r/l/r+r
end
"""

PAIR = """format = "mechanism-setting"
version = 1
kind = "general"
truth = "dominant"
rational = "none"
payments = true
no_deficit = true
outcomes = ["only"]
[[agent]]
name = "rich"
types = ["t"]
weights = [1]
utility = [[3]]
[[agent]]
name = "poor"
types = ["t"]
weights = [1]
utility = [[0]]
"""

# The rich agent gives the poor one half of what it has: each has 3/2, and together they pay nothing.
HALVED = "answer,1,fair,optimal\nvalue,3,2\ntable,2\nlottery,t,t,2\npay,t,t,3,-3\nbound,1\nend\n"
OF_PAIR = """value,0,1
revenue,0,1
welfare,3,1
type,rich,t,3,2,3,2
type,poor,t,3,2,-3,2
deficit,t+t,0,1
tight,deficit/t+t
end
"""

# A seller of one item whose buyer has the value 1 or 3. With 1 the buyer gets it half of the time and pays 1/2; with 3 it gets it and
# pays 2. It has nothing or 1, and with 3 it would have 1 by the other report, too.
SALE = (EXAMPLES / "posted-price.toml").read_text()
SOLD = "table,2\nlottery,low,1,1\nlottery,high,0,2\npay,low,1\npay,high,4\n"
OF_SALE = """value,5,4
revenue,5,4
welfare,7,4
type,buyer,low,0,1,1,2
type,buyer,high,1,1,2,1
gain,buyer,high,low,high,0,1
loss,buyer,low,low,0,1
tight,truth/buyer/high/low/high
tight,rational/buyer/low
"""

# Conditions of the designer, and how that stands against them: it brings 5/4, of a welfare of 7/4, and leaves the buyer 1/2; the item
# is sold 3/4 of the time, and kept half of the time where the value is 1.
ASKED = [
    ("revenue,least,1,1", "met,5,4"),
    ("revenue,most,5,4", "met,5,4"),
    ("welfare,least,2,1", "missed,7,4"),
    ("utility,buyer,most,1,4", "missed,1,2"),
    ("chance,sell,least,6,8", "met,3,4"),
    ("at,low,keep,most,1,3", "missed,1,2"),
    ("pay,buyer,least,1,2", "met,1,2"),  # the least of 1/2 and 2
    ("pay,buyer,most,1,2", "missed,2,1"),  # the greatest
    ("pay,buyer,low,most,1,2", "met,1,2"),
    ("pay,buyer,high,least,9,4", "missed,2,1"),
]

AUCTION = """format = "mechanism-setting"
version = 1
kind = "auction"
bidders = 2
values = [1, 2]
weights = [1, 1]
revenue = 1
"""

# The higher bid wins and pays the other one; equal ones win half of the time each. Two bidders pay 2*(1 + 4)/(2*4), and the item is
# worth 2*(1*1 + 2*3)/(2*4) to them. With 1 the other report brings (1*3 - 4)/4, and with 2 it brings (2*1 - 1)/4, which is 1/4 less
# than (2*3 - 4)/4.
SECOND_PRICE = "answer,1,auction,table\ninterim,4\nodds,1,3\npays,1,4\nend\n"
OF_SECOND_PRICE = """value,5,4
revenue,5,4
welfare,7,4
type,1,0,1,1,4
type,2,1,2,1,1
gain,1,2,-1,4
loss,1,0,1
tight,rational/1
end
"""

# The same where the winner pays its own bid: with 2 a bidder has nothing, and by the report 1 it has 1/4.
FIRST_PRICE = SECOND_PRICE.replace("pays,1,4", "pays,1,6")
OF_FIRST_PRICE = """value,7,4
revenue,7,4
welfare,7,4
type,1,0,1,1,4
type,2,0,1,3,2
gain,2,1,1,4
loss,1,0,1
tight,rational/1
tight,rational/2
end
"""


def told(toml, csv, function=reporting.report):
    """What `report` comes to, or another command."""
    with tempfile.TemporaryDirectory() as folder:
        names = [str(Path(folder) / name) for name in ("setting.toml", "second.csv")]
        for name, text in zip(names, (toml, csv)):
            Path(name).write_text(text)
        return command.outcome(function, names)


def audited(toml, csv):
    """What `audit` comes to."""
    return told(toml, csv, auditing.audit)


def refused(text):
    return 66, "", f"answer refused: {text}"


class Fairest(unittest.TestCase):
    """Answers about the fairest mechanism."""

    def test_their_mechanism_is_told(self):
        self.assertEqual(told(VOTE, FAIREST), (0, OF_VOTERS, None))
        self.assertEqual(told(PAIR, HALVED), (0, OF_PAIR, None))

    def test_it_is_that_of_the_table(self):
        self.assertEqual(told(VOTE, f"answer,1,general,table\n{BOTH_LIKE_IT}end\n"), (0, OF_VOTERS, None))
        self.assertEqual(told(VOTE, f"answer,1,fair,unbounded\n{BOTH_LIKE_IT}end\n"), (0, OF_VOTERS, None))

    def test_those_without_one(self):
        wide = "toowide\nwide,1,1,20,1\nagain\nwide,1,1,20,1\nend\n"
        for text in ("answer,1,fair,infeasible\nrow,0,1\nend\n", f"answer,1,fair,{wide}", f"answer,2,fair,{wide}"):
            self.assertEqual(told(VOTE, text), refused("no table"))

    def test_the_first_fault_is_told(self):
        for text, line in (
            ("answer,1,fair,optimal\nvalue,3,0\n", "line 2: field 3"),
            ("answer,1,fair,table\n", "line 1: field 4"),
            ("answer,1,auction,table\n", "line 1: field 3"),
            ("answer,1,determ,optimal\n", "line 1: field 3"),
            ("answer,3,fair,optimal\n", "line 1: field 2"),
            ("answer,1,fair\n", "line 1: record"),
            (FAIREST.replace("end\n", ""), "line 9: ended"),
            (FAIREST.replace("row,8", "row,14"), "line 9: field 2"),  # there are 12 rows, and one for each voter
        ):
            self.assertEqual(told(VOTE, text), refused(line), text)


def required(*asked, sold=SOLD):
    """An answer under conditions of the designer, of which nothing that it claims needs to be so."""
    lines = "".join(f"{line}\n" for line in asked)
    return f"answer,1,required,optimal\n{lines}value,5,4\n{sold}bound,1\nend\n"


class Asked(unittest.TestCase):
    """Answers under conditions of the designer."""

    def test_each_condition_is_told(self):
        records = "".join(f"condition,{index},{record}\n" for index, (_, record) in enumerate(ASKED))
        self.assertEqual(told(SALE, required(*(line for line, _ in ASKED))), (0, f"{OF_SALE}{records}end\n", None))

    def test_none_is_told_where_there_is_none(self):
        for text in (required(), f"answer,1,general,table\n{SOLD}end\n"):
            self.assertEqual(told(SALE, text), (0, f"{OF_SALE}end\n", None))

    def test_the_first_that_is_not_met_is_audited(self):
        for asked, line in (
            ([], "admissible"),
            (["revenue,least,5,4", "pay,buyer,most,2,1"], "admissible"),
            # The item is worth 7 over the table's 2 and both profiles, and so much times 1; the bound is 2 times 4.
            (["revenue,least,1,1", "welfare,least,2,1", "pay,buyer,most,1,1"], "broken,condition/1,7,8"),
            # Of 1 and 4 over 2 the second one is the first that is too much: 1/2 times 2, and so much for each times 2.
            (["pay,buyer,most,1,2"], "broken,condition/0,2,8"),
        ):
            said = (0 if line == "admissible" else 20, f"{line}\n", None)
            self.assertEqual(audited(SALE, required(*asked)), said, asked)

    def test_conditions_of_the_setting_come_first(self):
        # With 3 the buyer pays 5/2 and keeps 1/2; by the other report it would keep 1.
        wrong = required("pay,buyer,most,1,1", sold=SOLD.replace("high,4", "high,5"))
        self.assertEqual(audited(SALE, wrong), (20, "broken,truth/buyer/high/low/high,1,2\n", None))

    def test_what_audit_refuses(self):
        none = "answer,1,required,infeasible\nrevenue,least,2,1\nend\n"
        self.assertEqual(audited(SALE, none), refused("no table"))
        self.assertEqual(audited(SALE, required("pay,buyer,most,1,0")), refused("line 2: field 5"))
        self.assertEqual(audited(AUCTION, SECOND_PRICE), (65, "", "setting refused: other kind"))


class OwnAuctions(unittest.TestCase):
    """Auctions of one's own."""

    def test_their_odds_and_pays_are_told(self):
        self.assertEqual(told(AUCTION, SECOND_PRICE), (0, OF_SECOND_PRICE, None))
        self.assertEqual(told(AUCTION, FIRST_PRICE), (0, OF_FIRST_PRICE, None))

    def test_odds_that_no_auction_has(self):
        for odds, record in (
            # Both values ask for the item 2*2*(4 + 4) times, of 4*4; each alone for 16, where there are 12.
            ("4,4", "violated,3,16,4\n"),
            # The value 2 asks for 2*2*4 of 12, and the value 1 for nothing.
            ("0,4", "violated,2,4,4\n"),
            # Both together ask for 20 of 16, and the value 2 alone for as much more: the larger set is told.
            ("1,4", "violated,3,4,4\n"),
        ):
            self.assertEqual(told(AUCTION, SECOND_PRICE.replace("odds,1,3", f"odds,{odds}")), (21, record, None))

    def test_refusals(self):
        for old, new, line in (
            ("odds,1,3", "odds,1,5", "line 3: field 3"),
            ("pays,1,4", "pays,1", "line 4: record"),
            ("end\n", "mass,0,2,0,4\n", "line 5: record"),
            ("end\n", "", "line 4: ended"),
            ("end\n", "end\nend\n", "line 6: record"),
            ("answer,1", "answer,2", "line 1: field 4"),
            ("answer,1", "answer,3", "line 1: field 2"),
            ("table", "best", "line 1: field 4"),
            ("auction", "units", "line 1: field 3"),
            ("interim,4", "interim,0", "line 2: field 2"),
            ("interim,4\n", "", "line 2: record"),
        ):
            self.assertEqual(told(AUCTION, SECOND_PRICE.replace(old, new)), refused(line), new)

    def test_no_other_setting_has_one(self):
        self.assertEqual(told(VOTE, SECOND_PRICE), refused("line 1: field 3"))

    def test_answers_are_read_as_before(self):
        cuts = (EXAMPLES / "auction-reserve-answer.csv").read_text()
        status, text, line = told((EXAMPLES / "auction-reserve.toml").read_text(), cuts)
        self.assertEqual((status, line), (0, None))
        self.assertIn("tight,cut/", text)
        self.assertEqual(told(AUCTION, "answer,1,auction,toowide\nwide,0,0,5,1\nend\n"), refused("no table"))


class Worst(unittest.TestCase):
    """The set that asks for too much."""

    def test_by_all_sets(self):
        numbers = random.Random(3)
        for _ in range(40):
            values = sorted(numbers.sample(range(9), numbers.randint(1, 3)))
            its = AuctionSetting(numbers.randint(1, 3), values, [numbers.randint(1, 3) for _ in values], 1, 0, 0)
            self.assert_worst(its, Interim(*report_compare.own_odds(numbers, its), [0] * len(values)))

    def assert_worst(self, its, interim):
        """The set holds all others with the greatest excess; where there is none, masses have the odds."""
        sets = range(1 << len(its.values))
        excesses = {number: auction.excess(its, interim, number) for number in sets}
        worst = auction.worst_set(its, interim)
        if worst is None:
            self.assertEqual(max(excesses.values()), 0)
            masses = auction_finding.masses_of(its, interim)
            given = [sum(numbers[value] for numbers in masses.values()) for value in range(len(its.values))]
            self.assertEqual(given, [auction.demand(its, value, odds) for value, odds in enumerate(interim.odds)])
        else:
            self.assertGreater(excesses[worst], 0)
            self.assertTrue(all(number | worst == worst for number in sets if excesses[number] == max(excesses.values())))


class Made(unittest.TestCase):
    """The texts that are compared."""

    def test_all_that_report_says_comes(self):
        numbers, seen = random.Random(5), set()
        for name in ("auction-ironed", "bilateral-trade", "vote"):
            toml = EXAMPLES / f"{name}.toml"
            for csv in report_compare.made(numbers, setting.read_setting(toml.read_bytes())):
                status, text, line = told(toml.read_text(), csv.decode())
                seen.add((status, text.split(",")[0], (line or "").split(":")[0]))
        self.assertEqual(seen, {(0, "value", ""), (21, "violated", ""), (66, "", "answer refused")})
