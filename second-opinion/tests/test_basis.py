"""Bases from glpsol: its numbers of rows and columns, and solutions that are about another program."""

import tempfile
import unittest
from pathlib import Path

from second_opinion import basis
from second_opinion.places import EXAMPLES
from second_opinion.setting import Refused

# What `glpsol -w` of GLPK 5.0 wrote about examples/posted-price.toml.
SOLUTION = """c Problem:    
c Rows:       6
c Columns:    8
c Non-zeros:  22
c Status:     OPTIMAL
c Objective:  cost = 3 (MAXimum)
c
s bas 6 8 f f 3
i 1 b -2 0
i 2 u 0 0.5
i 3 u 0 1.5
i 4 u 0 0.5
i 5 s 1 -0
i 6 s 1 3
j 1 b 1 0
j 2 b 0 0
j 3 l 0 -3
j 4 b 1 0
j 5 b 0 0
j 6 b 3 0
j 7 l 0 0
j 8 l 0 0
e o f
"""


class Bases(unittest.TestCase):
    def turned(self, name: str, solution: str) -> tuple[int, str]:
        """What is printed for a solution about a setting of the examples."""
        with tempfile.TemporaryDirectory() as folder:
            path = Path(folder) / "solution"
            path.write_text(solution)
            return basis.basis([str(EXAMPLES / f"{name}.toml"), str(path)])

    def test_a_solution_is_turned(self) -> None:
        wanted = "column,0\ncolumn,1\ncolumn,3\ncolumn,4\ncolumn,5\nslack,0\nend\n"
        self.assertEqual(self.turned("posted-price", SOLUTION), (0, wanted))

    def test_solutions_of_other_programs(self) -> None:
        price = "posted-price"
        short, beyond = SOLUTION.replace("j 1 b", "j 1 l"), SOLUTION.replace("j 6 b", "j 9 b")
        for name, solution in (("lemons", SOLUTION), (price, short), (price, beyond)):
            with self.subTest(name), self.assertRaises(Refused) as refused:
                self.turned(name, solution)
            self.assertEqual(refused.exception.status, 66)

    def test_each_column_stands_in_the_objective(self) -> None:
        # The revenue is half of what both types pay, of which each counts once; payments have two parts.
        status, text = basis.basis([str(EXAMPLES / "posted-price.toml")])
        self.assertEqual(status, 0)
        self.assertIn("cost: + 0 x0 + 0 x1 + 0 x2 + 0 x3 + 1 x4 + 1 x5 - 1 x6 - 1 x7\n", text)
        # Low does not gain by saying high; and it is sold or not.
        self.assertIn("r0: - 1 x1 + 1 x3 + 1 x4 - 1 x5 - 1 x6 + 1 x7 <= 0\n", text)
        self.assertIn("r4: + 1 x0 + 1 x1 = 1\n", text)

    def test_an_auction_has_no_such_program(self) -> None:
        with self.assertRaises(Refused) as refused:
            basis.basis([str(EXAMPLES / "auction-reserve.toml")])
        self.assertEqual((refused.exception.status, refused.exception.line), (65, "setting refused: other kind"))
