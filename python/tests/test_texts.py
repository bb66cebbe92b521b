"""Every text that the program prints, as a value, is written again byte for byte.

The texts are those of examples/ and docs/, those that second-opinion/ prints by itself, and for what none of these shows some made
by docs/FORMATS.md.
"""

import dataclasses
import re
import unittest
from collections.abc import Iterator
from fractions import Fraction
from typing import Any

import mechdes
from mechdes.settings import AnySetting

from .common import EXAMPLES, TOP, example, stored, text
from .stand_in import SecondOpinion

OTHER_SETTINGS = {
    "first-price": "second-price",
    "price-above-value": "posted-price",
    "correlated-side-bets": "correlated-values",
    "own-first-price": "auction-reserve",
    "own-too-often": "auction-reserve",
}
NO_ANSWERS = ("interim,", "pivot,", "threshold,", "require,")


def setting_of(name: str) -> AnySetting:
    """The setting that a stored answer of examples/ is about: the one with the longest name that its name begins with."""
    names = [path.stem for path in EXAMPLES.glob("*.toml") if name.startswith(path.stem)]
    return mechdes.read_setting(example(OTHER_SETTINGS.get(name) or max(names, key=len)))


def stored_answers() -> Iterator[tuple[str, str]]:
    """The stored answers, by name: all but odds, pivots, conditions and auctions by `threshold`."""
    for path in sorted(EXAMPLES.glob("*.csv")):
        if not path.read_text().startswith(NO_ANSWERS):
            yield path.stem, path.read_text()


def shown(page: str) -> Iterator[tuple[str, list[str], str]]:
    """What a page shows of commands: the command, its further words, and the indented lines behind it up to the next one."""
    lines = page.splitlines()
    starts = [place for place, line in enumerate(lines) if line.startswith("    ./mechdes ")] + [len(lines)]
    for start, stop in zip(starts, starts[1:]):
        command, *words = lines[start].split()[1:]
        printed = [line.strip() + "\n" for line in lines[start + 1 : stop] if line.startswith("    ")]
        yield command, words, "".join(printed)


def shown_whole() -> Iterator[tuple[str, AnySetting, str, int | None]]:
    """What the pages show whole: the command, its setting, what it prints, and a number of units where an option has one. What comes
    behind the end is another text's."""
    one_line, to_end = ("audit", "check"), ("report", "realise", "solve", "fair", "threshold", "award")
    for path in sorted(EXAMPLES.glob("*.md")):
        for command, words, printed in shown(path.read_text()):
            setting = mechdes.read_setting(TOP / words[0])
            units = int(words[words.index("--units") + 1]) if "--units" in words else None
            if command == "run":
                yield command, setting, re.match(r"outcome.*\n(pays.*\n)?|(wins.*\n)*pays.*\n", printed)[0], units
            elif printed and command in one_line or printed.startswith("violated"):
                yield command, setting, printed.splitlines(keepends=True)[0], units
            elif command in to_end and "end\n" in printed and not printed.startswith("end\n"):
                first = re.search("^(answer|value|realise|threshold|chance),", printed, re.M).start()
                yield command, setting, printed[first : printed.index("end\n") + 4], units


class Texts(unittest.TestCase):
    def again(self, command: str, printed: str, setting: AnySetting | None = None, units: int | None = None) -> Any:
        """What a text says, which must be written as the same text."""
        found = mechdes.parse(command, printed, setting, units)
        self.assertEqual(found.text(), printed)
        return found


class Shown(Texts):
    def test_stored_answers(self) -> None:
        kinds = set()
        for name, printed in stored_answers():
            with self.subTest(name):
                found = self.again("solve", printed, setting_of(name))
                kinds.add((found.kind, found.word))
        general = {("general", word) for word in ("table", "optimal", "infeasible", "unbounded", "toowide")}
        others = {(kind, "optimal") for kind in ("auction", "required", "fair", "asym", "units", "determ")}
        self.assertEqual(kinds, general | others | {("auction", "table"), ("required", "infeasible")})

    def test_stored_conditions(self) -> None:
        names = set()
        for path in sorted(EXAMPLES.glob("*.csv")):
            printed = path.read_text()
            if printed.startswith("require,"):
                with self.subTest(path.name):
                    self.assertEqual(mechdes.conditions_text(mechdes.read_conditions(setting_of(path.stem), printed)), printed)
                    names.add(printed.splitlines()[1].split(",")[0])
        self.assertEqual(names, {"revenue", "welfare", "chance", "pay"})

    def test_stored_auctions_in_which_only_winners_pay(self) -> None:
        for path in sorted(EXAMPLES.glob("*-threshold.csv")):
            with self.subTest(path.name):
                self.again("threshold", path.read_text())

    def test_what_pages_show(self) -> None:
        commands = set()
        for command, setting, printed, units in shown_whole():
            with self.subTest(command, printed=printed):
                self.again(command, printed, setting, units)
                commands.add(command)
        self.assertEqual(commands, {"audit", "check", "run", "report", "realise", "solve", "fair", "threshold", "award"})

    def test_the_sale_of_its_page(self) -> None:
        # The page shows all but the multipliers.
        ((_, words, printed),) = (call for call in shown(text("strong-and-weak.md")) if call[0] == "asym")
        printed = printed[printed.index("answer,") :] + "bound,2\nrow,3,0,2\nrow,4,-1,0\nend\n"
        found = self.again("asym", printed, mechdes.read_setting(TOP / words[0]))
        self.assertEqual((found.bound, found.multipliers[0].main), (2, 1))

    def test_texts_of_the_formats(self) -> None:
        # "A whole answer, about one bidder who values an item 1 or 3, both as likely, where keeping it is worth 2".
        auction = mechdes.Auction(bidders=1, values=[1, 3], weights=[1, 1], keep=2)
        blocks = re.findall(r"(?m)(?:^    .*\n)+", (TOP / "docs/FORMATS.md").read_text())
        texts = [re.sub("(?m)^    ", "", block) for block in blocks]
        (answer,) = (block for block in texts if block.startswith("answer,1,auction,optimal\n"))
        (own,) = (block for block in texts if block.startswith("answer,1,auction,table\n"))
        (rows,) = (block for block in texts if block.startswith("program,6,6\n"))
        self.assertEqual(self.again("solve", answer, auction).value, Fraction(5, 2))
        self.assertEqual(mechdes.read(auction, own), mechdes.AuctionTable(odds={1: 1, 3: 1}, pays={1: 1, 3: 3}))
        self.assertEqual(mechdes.read(auction, own).text(), own)
        self.assertEqual(self.again("rows", rows).rows[4], mechdes.Row("cut/1", False, 1, {0: 1}))
        (sold,) = (block for block in texts if block.startswith("threshold,1\nunits,1\n"))
        (awarded,) = (block for block in texts if block.startswith("chance,1,1,2\n"))
        self.assertEqual(self.again("threshold", sold).prices[3], mechdes.Price(1, 0, 1, Fraction(4)))
        self.assertEqual(self.again("award", awarded).payments, {1: 0, 2: 2})

    def test_programs_and_reports_of_second_opinion(self) -> None:
        for path in sorted(EXAMPLES.glob("*.toml")):
            setting, answer = path.read_bytes(), path.with_name(f"{path.stem}-answer.csv")
            with self.subTest(path.name):
                self.again("rows", SecondOpinion().call(["rows", "setting"], setting).out.decode())
                if answer.exists():
                    told = SecondOpinion().call(["report", "setting", "answer"], setting, answer.read_bytes())
                    if told.status == 0:
                        self.again("report", told.out.decode(), mechdes.read_setting(path))

    def test_answers_that_second_opinion_finds(self) -> None:
        for path in sorted(EXAMPLES.glob("*.toml")):
            with self.subTest(path.name):
                told = SecondOpinion().call(["solve", "setting"], path.read_bytes())
                self.again("solve", told.out.decode(), mechdes.read_setting(path))


class Made(Texts):
    """Texts that no page shows, made by the formats."""

    def test_wide_entries_keep_their_denominators(self) -> None:
        setting = mechdes.read_setting(example("auction-ironed"))
        printed = "answer,2,auction,toowide\ncut,1\ncut,5\npivot,0,1\nwide,2,3,8,2\nagain\npivot,4,5\nwide,6,7,9,3\nend\n"
        found = self.again("solve", printed, setting)
        self.assertEqual([path.entry for path in found.paths], [4, 3])
        self.assertEqual(found.cuts, (frozenset({2}), frozenset({2, 6})))
        for kind in ("general", "auction"):
            asked = setting if kind == "auction" else mechdes.read_setting(example("posted-price"))
            self.again("solve", f"answer,1,{kind},toowide\npivot,0,1\nwide,2,3,8,2\nend\n", asked)

    def test_paths_of_the_other_searches(self) -> None:
        paths = "pivot,0,1\nwide,0,1,4,2\nagain\nwide,0,2,5,1\nend\n"
        fair, goods, sale = (mechdes.read_setting(example(name)) for name in ("fair-split", "two-goods", "strong-and-weak"))
        self.again("fair", f"answer,1,fair,toowide\n{paths}", fair)
        self.again("determ", f"answer,1,determ,toowide\nfix,0,3\nfix,2,1\n{paths}", goods)
        found = self.again("asym", f"answer,1,asym,toowide\ncut,1\ncut,10\n{paths}", sale)
        self.assertEqual(found.cuts[1], frozenset({("weak", "v3"), ("strong", "v6")}))
        self.again("units", f"answer,1,units,toowide\ncut,1\n{paths}", mechdes.read_setting(example("seats")), 3)

    def test_trees(self) -> None:
        setting = mechdes.read_setting(example("two-goods"))
        leaves = "".join(f"leaf,infeasible\nrow,{k},-1\n" for k in range(4))
        found = self.again("determ", f"answer,1,determ,infeasible\nbranch,1\n{leaves}end\n", setting)
        self.assertEqual([node.fixed.get(("v0_2",)) for node in found.tree], [None, *setting.outcomes])
        rule = text("two-goods-rule.csv")
        self.assertIn("leaf,optimal", rule)
        self.again("determ", rule, setting)

    def test_units(self) -> None:
        # Two units for two bidders, who both have one everywhere, and pay 1 each.
        setting = mechdes.Auction(bidders=2, values=[1, 2], weights=[1, 1])
        printed = "answer,1,units,optimal\nvalue,2,1\ninterim,2\nodds,2,2\npays,2,2\n"
        printed += "mass,0,2,0,4\nmass,1,1,4,4\nmass,2,0,4,0\ncut,1\ncut,2\nbound,2\nrow,2,0,4\nend\n"
        self.assertEqual(self.again("units", printed, setting, 2).mechanism.units, 2)
        self.assertIsNone(mechdes.read(setting, printed).mechanism.units)
        self.assertEqual(mechdes.read(setting, printed, units=2).mechanism.units, 2)

    def test_a_setting_may_be_a_path(self) -> None:
        found = mechdes.parse("run", "outcome,sell\npays,2,4\n", example("posted-price"))
        self.assertEqual(found, mechdes.Draw("sell", {"buyer": Fraction(2)}, 2))

    def test_closed_forms(self) -> None:
        auction = mechdes.read_setting(example("auction-ironed"))
        self.assertEqual(type(self.again("iron", "undecided\n", auction)), mechdes.Undecided)
        self.assertEqual(type(self.again("iron", text("auction-ironed-answer.csv"), auction)), mechdes.AuctionOptimal)
        self.assertEqual(type(self.again("ironunits", "undecided\n", auction, 2)), mechdes.Undecided)

    def test_searches_with_longer_numbers(self) -> None:
        setting = mechdes.read_setting(example("fair-split"))
        cases = (("find", "fair-split-answer.csv", "general"), ("findfair", "fair-split-fairest.csv", "fair"))
        for command, printed, kind in cases:
            self.assertEqual(self.again(command, text(printed), setting).kind, kind)
            undecided = self.again(command, "undecided\n", setting)
            self.assertEqual((type(undecided), undecided.kind), (mechdes.Undecided, "general"))

    def test_replays(self) -> None:
        found = self.again("replay", "basis,0,1,3\nbasis,1,2,9\nrule,1\nagain,0\nend\n")
        self.assertTrue(found)
        self.assertEqual(found.bases[1], mechdes.Basis(2, 9))
        found = self.again("replay", "basis,0,1,3\nwide,0,4,20,6\nrule,1\nagain,1\nend\n")
        self.assertFalse(found)
        self.assertEqual(found.wide.entry, Fraction(10, 3))

    def test_a_report_under_conditions(self) -> None:
        answer = b"answer,1,required,optimal\nrevenue,least,1,1\npay,buyer,most,5,2\nvalue,3,2\ntable,1\nlottery,low,1,0\n"
        answer += b"lottery,high,0,1\npay,low,0\npay,high,3\nbound,1\nend\n"
        told = SecondOpinion().call(["report", "setting", "answer"], example("posted-price").read_bytes(), answer).out.decode()
        posted = mechdes.read_setting(example("posted-price"))
        # The price 3 brings it half of the time, and is more than 5/2.
        found = self.again("report", told, posted)
        self.assertEqual(found.conditions, (mechdes.Standing(True, Fraction(3, 2)), mechdes.Standing(False, Fraction(3))))
        self.assertEqual((list(map(bool, found.conditions)), found.admissible), ([True, False], True))
        for old, new in (("condition,1", "condition,0"), ("condition,1", "condition,2"), (",missed,", ",no,"), (",met,3,2", ",met,3")):
            with self.subTest(new), self.assertRaises(mechdes.AnswerNotRead):
                mechdes.parse("report", told.replace(old, new), posted)
        said = SecondOpinion().call(["audit", "setting", "answer"], example("posted-price").read_bytes(), answer).out.decode()
        audited = self.again("audit", said)
        self.assertEqual((bool(audited), audited.broken, audited.left, audited.right), (False, "condition/1", 5, 6))

    def test_odds(self) -> None:
        auction = mechdes.read_setting(example("two-bidders"))
        for command in ("realise", "report"):
            found = self.again(command, "violated,6,4,4\n", auction)
            self.assertEqual((bool(found), found.excess, found.values), (False, 1, frozenset(auction.values[1:])))

    def test_draws(self) -> None:
        self.again("run", "outcome,keep\npays,2,0,4\n", mechdes.read_setting(example("auction-ironed")))
        found = self.again("run", "outcome,sell\npays,2,4\n", mechdes.read_setting(example("posted-price")))
        self.assertEqual(found.payments, {"buyer": 2})
        found = self.again("run", "outcome,weak\npays,2,3,4\n", mechdes.read_setting(example("strong-and-weak")))
        self.assertEqual((found.outcome, found.payments), ("weak", {"weak": Fraction(3, 2), "strong": 2}))

    def test_draws_of_several_units(self) -> None:
        auction = mechdes.read_setting(example("auction-ironed"))
        for winners in ((), (1,), (2,), (1, 2)):
            found = self.again("run", "".join(f"wins,{bidder}\n" for bidder in winners) + "pays,2,1,4\n", auction, 2)
            self.assertEqual(found, mechdes.UnitsDraw(winners, {1: Fraction(1, 2), 2: Fraction(2)}, 2))
        for printed, units in (
            ("wins,1\nwins,2\npays,2,1,4\n", 1),
            ("wins,2\nwins,1\npays,2,1,4\n", 2),
            ("wins,1\nwins,1\npays,2,1,4\n", 2),
            ("wins,0\npays,2,1,4\n", 2),
            ("wins,3\npays,2,1,4\n", 2),
            ("wins,1\npays,2,1\n", 2),
            ("wins,1\n", 2),
            ("wins,1\npays,0,1,4\n", 2),
            ("wins,1\npays,2,1,4\nend\n", 2),
            ("outcome,1\npays,2,1,4\n", 2),
            ("wins,1\npays,2,1,4\n", None),
        ):
            with self.subTest(printed, units=units), self.assertRaises(mechdes.AnswerNotRead):
                mechdes.parse("run", printed, auction, units)

    def test_reports_of_sales_and_of_several_units(self) -> None:
        for name, answer, option, cuts in (
            ("strong-and-weak", "strong-and-weak-by-hand", [], ("cut/8", "cut/10", "cut/15")),
            ("seats", "seats-three", ["--units=3"], ("cut/4", "cut/6")),
        ):
            words = ["report", *option, "setting", "answer"]
            told = SecondOpinion().call(words, example(name).read_bytes(), stored(answer).read_bytes()).out.decode()
            found = self.again("report", told, mechdes.read_setting(example(name)))
            self.assertEqual((found.tight[-len(cuts) :], found.regret), (cuts, 0))

    def test_verdicts(self) -> None:
        for printed, truth in (
            ("valid", True),
            ("undecided", False),
            ("rejected,1,truth/buyer/high/low/high,-1,0", False),
            ("rejected,2,3,2", False),
            ("rejected,3,1,0,-1", False),
            ("rejected,4,0,-1,0", False),
            ("rejected,5,7", False),
            ("rejected,6,1,2,3,4", False),
            ("rejected,9,1,1,2", False),
            ("rejected,10,3,1,0", False),
            ("rejected,11,-9223372036854775808", False),
            ("rejected,12,rational/a/t,-1,0", False),
            ("rejected,16", False),
            ("rejected,17,0,15,16", False),
            ("rejected,18,0,-1,3", False),
            ("rejected,18,2", False),
        ):
            with self.subTest(printed):
                for command in ("check", "determcheck"):
                    found = self.again(command, printed + "\n")
                    self.assertEqual((bool(found), str(found)), (truth, printed))
        self.assertFalse(self.again("audit", "broken,deficit/low+low,-2,0\n"))
        self.assertTrue(self.again("audit", "admissible\n"))

    def test_drills(self) -> None:
        found = self.again("drill", "drill,2,general,optimal,91,4\ncheck,valid\n")
        self.assertEqual((found.value, bool(found.verdict)), (Fraction(91, 4), True))
        self.assertIsNone(self.again("drill", "drill,7,auction,toowide\ncheck,undecided\n").value)


class ByOtherHands(unittest.TestCase):
    def test_a_text_that_the_program_would_write_otherwise_reads_back_as_the_same(self) -> None:
        printed = text("posted-price-answer.csv")
        for other in (
            printed.replace("value,3,2", "value,6,4"),
            printed.replace("\n", "\r\n"),
            printed.replace("\n", "\n\n"),
            printed.replace("low", '"low"'),
            printed.removesuffix("\n"),
        ):
            with self.subTest(other):
                self.assertNotEqual(other, printed)
                self.assertEqual(mechdes.read(example("posted-price"), other), mechdes.read(example("posted-price"), printed))
                self.assertEqual(mechdes.read(example("posted-price"), other).text(), printed)

    def test_an_altered_answer_is_written_as_it_is_now(self) -> None:
        answer = mechdes.read(example("posted-price"), stored("posted-price-answer"))
        altered = dataclasses.replace(answer, value=Fraction(2))
        self.assertIn("value,2,1\n", altered.text())
        self.assertTrue(mechdes.check(example("posted-price"), answer))
        self.assertEqual(str(mechdes.check(example("posted-price"), altered)), "rejected,2,3,2")

    def test_a_number_that_is_no_multiple_of_the_denominator_is_not_written(self) -> None:
        answer = mechdes.read(example("posted-price"), stored("posted-price-answer"))
        third = dataclasses.replace(answer.mechanism, payments={("low",): {"buyer": Fraction(1, 3)}, ("high",): {"buyer": 0}})
        with self.assertRaisesRegex(ValueError, "1/3 is no multiple of 1/1"):
            dataclasses.replace(answer, mechanism=third).text()

    def test_a_cut_of_what_the_setting_does_not_have_is_not_written(self) -> None:
        answer = mechdes.read(example("auction-ironed"), stored("auction-ironed-answer"))
        with self.assertRaises(ValueError):
            dataclasses.replace(answer, cuts=(frozenset({4}),)).text()


class Refused(unittest.TestCase):
    def test_versions_have_their_paths(self) -> None:
        both = text("too-wide-answer.csv")
        one = both[: both.index("again")] + "end\n"
        for wrong in (both.replace("answer,2", "answer,1"), one):
            with self.assertRaises(mechdes.AnswerNotRead):
                mechdes.read(example("too-wide"), wrong)
        self.assertEqual(len(mechdes.read(example("too-wide"), one.replace("answer,2", "answer,1")).paths), 1)

    def test_texts_that_are_none_of_the_command(self) -> None:
        posted, auction = (mechdes.read_setting(example(name)) for name in ("posted-price", "two-bidders"))
        for command, printed, setting in (
            ("check", "rejected\n", None),
            ("check", "rejected,2,x\n", None),
            ("check", "valid,1\n", None),
            ("check", "valid\nvalid\n", None),
            ("check", "perhaps\n", None),
            ("check", "", None),
            ("audit", "broken,deficit/a\n", None),
            ("audit", "feasible\n", None),
            ("rows", "program,1,1\ncost,0,1\nend\n", None),
            ("rows", "program,1,0\ncost,0\nend\n", None),
            ("rows", "program,2,0\ncost,1,1,0,1\nend\n", None),
            ("rows", "program,1,0\ncost,0,0\nend\n", None),
            ("rows", "program,1,1\ncost\nrow,1,a,atmost,0\nend\n", None),
            ("rows", "program,1,1\ncost\nrow,0,a,atleast,0\nend\n", None),
            ("rows", "program,1,1\ncost\nrow,0,a\nend\n", None),
            ("replay", "basis,1,1,1\nrule,0\nagain,0\nend\n", None),
            ("replay", "wide,0,1,2,0\nrule,0\nagain,0\nend\n", None),
            ("replay", "rule,0\nend\n", None),
            ("realise", "violated,8,1,1\n", auction),
            ("realise", "violated,1,1,0\n", auction),
            ("report", "violated,8,1,1\n", auction),
            ("report", "violated,1,1,1\nend\n", auction),
            ("report", "violated,1,1,1\n", posted),
            ("realise", "realise,1\nend\n", auction),
            ("run", "outcome,sell\n", posted),
            ("run", "outcome,sell\npays,1,2,3\n", posted),
            ("run", "outcome,sell\npays,0,2\n", posted),
            ("report", "value,1,1\nrevenue,1,1\nwelfare,1,1\nend\n", posted),
            ("drill", "drill,1,auction\ncheck,valid\n", None),
            ("drill", "drill,1,auction,optimal,1\ncheck,valid\n", None),
        ):
            with self.subTest(command, printed=printed), self.assertRaises(mechdes.AnswerNotRead):
                mechdes.parse(command, printed, setting)

    def test_a_report_lacks_nothing(self) -> None:
        told = SecondOpinion().call(
            ["report", "setting", "answer"], example("posted-price").read_bytes(), stored("posted-price").read_bytes()
        )
        lines = told.out.decode().splitlines(keepends=True)
        optional = ("gain", "loss", "tight")
        for place, line in enumerate(lines):
            if not line.startswith(optional):
                with self.subTest(line), self.assertRaises(mechdes.AnswerNotRead):
                    mechdes.parse("report", "".join(lines[:place] + lines[place + 1 :]), example("posted-price"))

    def test_commands_that_are_none(self) -> None:
        for command, setting in (("sovle", None), ("make", None), ("solve", None), ("report", None)):
            with self.subTest(command), self.assertRaises(ValueError) as caught:
                mechdes.parse(command, "valid\n", setting)
            self.assertNotIsInstance(caught.exception, mechdes.AnswerNotRead)
        with self.assertRaises(ValueError):
            mechdes.parse("realise", "violated,1,1,1\n", mechdes.read_setting(example("posted-price")))


if __name__ == "__main__":
    unittest.main()
