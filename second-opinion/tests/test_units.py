"""Answers about several units, each worked out by hand. Run this with `python3 -m unittest discover` in second-opinion/."""

import unittest

from second_opinion import auction_answer, command, judging, reporting, unit_checking
from second_opinion.places import EXAMPLES
from second_opinion.setting import AuctionSetting, Refused

# Two bidders have the values 1 and 3, both as likely, and the seller wants revenue. Selling to the value 3 alone, for 3, is best:
# of two units each such bidder gets one, and of one unit one of them does where there is any.
AUCTION = AuctionSetting(2, [1, 3], [1, 1], 1, 0, 0)
TWO = ("answer,1,units,optimal", "value,3,1", "interim,1", "odds,0,1", "pays,0,3", "mass,0,2,0,2", "mass,1,1,0,2", "mass,2,0,0,0",
       "cut,1", "cut,2", "bound,1", "row,1,0,1", "row,2,0,2", "row,5,0,3")
ONE = ("answer,1,units,optimal", "value,9,4", "interim,4", "odds,0,3", "pays,0,9", "mass,0,2,0,4", "mass,1,1,0,8", "mass,2,0,0,0",
       "cut,1", "cut,2", "bound,4", "row,1,0,4", "row,2,0,8", "row,5,0,3")
PATH = ("pivot,0,1", "wide,0,0,5,1")


class Units(unittest.TestCase):
    def says(self, units, *records):
        """The verdict on an answer, or its refusal."""
        try:
            data = "\n".join([*records, "end"]).encode()
            _, line = unit_checking.verdict(AUCTION, units, auction_answer.read_unit_answer(data, AUCTION, units))
        except Refused as refused:
            return refused.line
        return line

    def with_record(self, records, place, record):
        """An answer with another record at a place, counted from 1, or without the one there."""
        return [*records[: place - 1], *([record] if record else []), *records[place:]]

    def test_answers_worked_out_by_hand_are_valid(self):
        self.assertEqual(self.says(2, *TWO), "valid")
        self.assertEqual(self.says(1, *ONE), "valid")

    def test_each_condition(self):
        for place, record, line in (
            (7, "mass,1,1,0,1", "rejected,9,1,3,4"),
            (5, "pays,0,4", "rejected,10,1,1,0"),
            (2, "value,4,1", "rejected,2,3,1"),
            (12, "row,1,0,-1", "rejected,3,1,0,-1"),
            (14, None, "rejected,4,1,0,-3"),
            (14, "row,5,1,3", "rejected,5,1"),
            (14, "row,5,0,4", "rejected,6,4,1,3,1"),
            (2, "value,6,2", "valid"),
        ):
            self.assertEqual(self.says(2, *self.with_record(TWO, place, record)), line)

    def test_reports(self):
        # Two units are enough for two bidders, so that the cut of the value 3 says no more than that its odds are at most 1; of one unit
        # the odds are just what there is, and two could give more.
        for units, records, value, pays, tight in ((2, TWO, "3,1", "3,1", ["tight,cut/2"]), (1, ONE, "9,4", "9,4", ["tight,cut/2"]), (2, ONE, "9,4", "9,4", [])):
            said = reporting.unit_records(AUCTION, units, "\n".join([*records, "end"]).encode())
            lines = [",".join(map(str, record)) for record in said]
            self.assertEqual(lines[:5], [f"value,{value}", f"revenue,{value}", f"welfare,{value}", "type,1,0,1,0,1", f"type,3,0,1,{pays}"])
            self.assertEqual(lines[5:-1], ["gain,3,1,0,1", "loss,1,0,1", "tight,truth/3/1", "tight,rational/1", "tight,rational/3", *tight])

    def test_another_number_of_units(self):
        self.assertEqual(self.says(1, *TWO), "answer refused: line 6: sum")
        # The masses of one unit fit two as well. But the odds of the value 3 are then at most 1, not four times them at most 3, so that
        # 3 over 4 times that row is 9 over 4 too little.
        self.assertEqual(self.says(2, *ONE), "rejected,4,1,0,-9")

    def test_refusals(self):
        for units, records, line in (
            (2, self.with_record(TWO, 6, "mass,0,2,0,3"), "line 6: field 5"),
            (2, self.with_record(TWO, 6, "mass,0,2,1,2"), "line 6: field 4"),
            (1, self.with_record(ONE, 7, "mass,1,1,1,8"), "line 7: sum"),
            (1, self.with_record(ONE, 7, "mass,1,1,0,9"), "line 7: field 5"),
            (2, self.with_record(TWO, 1, "answer,1,auction,optimal"), "line 1: field 3"),
            (2, self.with_record(TWO, 1, "answer,2,units,optimal"), "line 1: field 4"),
        ):
            self.assertEqual(self.says(units, *records), f"answer refused: {line}")

    def test_what_is_too_wide_claims_nothing(self):
        for version in (1, 2):
            front = f"answer,{version},units,toowide"
            self.assertEqual(self.says(2, front, "cut,1", *PATH, "again", *PATH), "undecided")
            self.assertEqual(self.says(2, front, "cut,1", *PATH), "answer refused: line 5: record")

    def test_numbers_of_units(self):
        for word, status in (("0", 67), ("13", 67), ("-1", 67), ("01", 64), ("x", 64), (str(2**126), 64)):
            with self.assertRaises(Refused) as refused:
                unit_checking.units_of(word)
            self.assertEqual(refused.exception.status, status)
        self.assertEqual(unit_checking.units_of("12"), 12)

    def test_the_stored_answer_is_valid(self):
        words = [str(EXAMPLES / "seats.toml"), str(EXAMPLES / "seats-three.csv"), "--units", "3"]
        self.assertEqual(command.outcome(judging.check, words), (0, "valid\n", None))
