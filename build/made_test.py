#!/usr/bin/env python3
"""Tries docs/definitions and docs/clauses over a small repository of two crates: `build/made_test.py`."""

from __future__ import annotations

import shutil
import subprocess
import sys
import tempfile
import unittest
from pathlib import Path
from typing import Tuple

sys.dont_write_bytecode = True
TOP = Path(__file__).resolve().parent.parent

LENGTHS = """-- Lengths of roads.
-- They are whole numbers.
use Rattle.std.specs.Prelude.{ℕ}

-- the length of a road,
-- in miles
abbrev pub length_of : Road → ℕ
length_of r = r.miles

abbrev pub half_of : Road → ℕ

-- ---- its ends

pub data Side : Type 0 where

-- where a road begins and ends
pub record IsBetween (r : Road) : Type 0 where
  -- a field
  pub begin : Town
"""
TOLLS = """-- Tolls.
--
-- Each road has one.

abbrev pub toll_of : Road → ℕ
"""
LIBRARY = """//! Roads.
mod road;
mod tolls;

pub use road::Road;
pub use tolls::{cheapest, toll};
"""
ROAD = """impl Road {
    /// A road of so many miles. It is
    /// free.
    #[must_use]
    pub fn new(miles: u8) -> Road
        ensures { result.miles ≡ miles }
    {
        Road { miles }
    }

    // Is not given to other crates.
    pub(crate) fn inner(&self)
        ensures { IsRoad self }
    {
    }
}

/// Stays in the crate, too.
pub fn joined(roads: &[Road]) -> Road
    ensures value { result ≡ joined roads }
{
}
"""
TOLL = """/// What a road costs.
pub fn toll(road: &Road) -> u8
    // Roads are short.
    requires { IsShort road }
    ensures value { result ≡ toll_of road }

    // No toll is
    // greater.
    ensures most { result ≤ 9 }
    ensures { IsToll result }
{
}

pub fn cheapest(roads: &[Road]) -> u8
    ensures { IsCheapest roads result }
{
}
"""
DEFINITIONS = """## roads

### [roads/Lengths](../../crates/roads/specs/Lengths.antt)

Lengths of roads. They are whole numbers.

- `length_of` (with `half_of`): the length of a road, in miles
- `Side`: *its ends*
- `IsBetween`: where a road begins and ends

## alleys

### [alleys/Tolls](../../crates/alleys/specs/Tolls.antt)

Tolls. Defines `toll_of`.
"""
CLAUSES = """## roads

Edits that are refused: `makes-tolls-of-0`.

| File | Call | Does | Ensures |
|---|---|---|---|
| road.rt | `Road::new` | A road of so many miles. | - |
| tolls.rt | `toll` | What a road costs. | `value`; `most`, - (No toll is greater.) |
| tolls.rt | `cheapest` |  | - |
"""
FILES = {
    "crates.txt": "roads:\nalleys: roads\n",
    "crates/roads/specs/Lib.antt": "pub mod Lengths\n",
    "crates/roads/specs/Lengths.antt": LENGTHS,
    "crates/roads/src/lib.rt": LIBRARY,
    "crates/roads/src/road.rt": ROAD,
    "crates/roads/src/tolls.rt": TOLL,
    "crates/roads/must-fail/makes-tolls-of-0.edit": "",
    "crates/alleys/specs/Tolls.antt": TOLLS,
    "docs/PROVED.md": "| Tolls are known. | `roads/makes-tolls-of-0` |\n",
}


class MadeTest(unittest.TestCase):
    def setUp(self) -> None:
        room = tempfile.TemporaryDirectory()
        self.addCleanup(room.cleanup)
        self.top = Path(room.name)
        for name, text in FILES.items():
            self.write(name, text)
        for name in ("build/made.py", "build/crates.py", "docs/definitions", "docs/clauses"):
            (self.top / name).parent.mkdir(exist_ok=True)
            shutil.copy(TOP / name, self.top / name)

    def write(self, name: str, text: str) -> None:
        (self.top / name).parent.mkdir(parents=True, exist_ok=True)
        (self.top / name).write_text(text, encoding="utf-8")

    def call(self, *words: str) -> Tuple[int, str]:
        """The status of a call, and what it printed."""
        ran = subprocess.run([str(self.top / words[0]), *words[1:]], stdout=subprocess.PIPE, check=False)
        return ran.returncode, ran.stdout.decode()

    def test_the_page_of_definitions(self) -> None:
        self.assertEqual(self.call("docs/definitions"), (0, ""))
        page = (self.top / "docs/made/definitions.md").read_text(encoding="utf-8")
        self.assertEqual(page.partition("\n\n## ")[2], DEFINITIONS.removeprefix("## "))

    def test_a_definition_without_a_comment(self) -> None:
        self.write("crates/alleys/specs/Tolls.antt", "use roads.specs.Lengths.{length_of}\n\nabbrev pub toll_of : Road → ℕ\n")
        status, told = self.call("docs/definitions")
        self.assertEqual((status, told.split("\n")), (1, [
            "crates/alleys/specs/Tolls.antt does not begin with a comment that says what it defines",
            "crates/alleys/specs/Tolls.antt: no comment says what toll_of means",
            "",
        ]))  # fmt: skip

    def test_the_page_of_clauses(self) -> None:
        self.assertEqual(self.call("docs/clauses"), (1, "crates/roads/src/tolls.rt: no comment says what cheapest does\n"))
        page = (self.top / "docs/made/clauses.md").read_text(encoding="utf-8")
        self.assertEqual(page.partition("\n\n## ")[2], CLAUSES.removeprefix("## "))

    def test_edits_and_theorems_and_their_names(self) -> None:
        theorems = "| Tolls are low. | roads/proofs/Low.antt | `low`, `all-low` |\n"
        self.write("docs/PROVED.md", "| Tolls are known. | `roads/makes-tolls-of-9` |\n" + theorems)
        self.write("crates/roads/proofs/Low.antt", "  pub low : Low\n  low = refl\nall-low = refl\n")
        _, told = self.call("docs/clauses")
        self.assertIn("docs/PROVED.md does not name the edit roads/makes-tolls-of-0\n", told)
        self.assertIn("docs/PROVED.md names roads/makes-tolls-of-9, which is no edit\n", told)
        self.assertTrue(told.endswith("no edit\ndocs/PROVED.md names all-low, which is not in roads/proofs/Low.antt\n"), told)

    def test_a_page_that_is_not_what_the_sources_say(self) -> None:
        wrong = "docs/made/definitions.md is not what the sources say: call docs/definitions, and commit the page\n"
        self.assertEqual(self.call("docs/definitions", "--check"), (1, wrong))
        self.call("docs/definitions")
        self.assertEqual(self.call("docs/definitions", "--check"), (0, ""))
        self.write("crates/alleys/specs/Tolls.antt", TOLLS.replace("Tolls.", "Tolls of alleys."))
        self.assertEqual(self.call("docs/definitions", "--check"), (1, wrong))


if __name__ == "__main__":
    unittest.main()
