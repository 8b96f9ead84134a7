#!/usr/bin/env python3
"""Tests of definitions_of.py, over a small tree of its own. `make scripts` runs it."""

import os
import tempfile
import unittest

import support  # first, since it finds the others

import definitions_of
from definitions_of import Name

TREE = {
    "low/specs/Rows.antt": """-- IsUnused stands in a comment
use Rattle.std.specs.Prelude.{List, IsUnused}
use Rattle.low.specs.declared.row.Row.{Row}

-- a row (own: named by IsShown)
abbrev pub IsRow : Row → Type 0
IsRow row = IsWide row.samples

abbrev pub IsWide : List ℕ → Type 0
IsWide samples = samples ≢ []

pub data Kind : Type 0 where
  Short : Kind
  Long : (rows : List Row) → Kind

pub record IsUnused (row : Row) : Type 0 where
  pub wide : IsRow row

infixl 10 ◌<+>◌
abbrev pub ◌<+>◌ : Row → Row → Row
a <+> b = a
""",
    "low/src/device.rt": """ghost use Rattle.low.specs.Rows.{IsWide};

pub trait Reads {
    ghost left: { Self → List ℕ };
    ghost wide: { IsWide };

    fn read(&mut self) -> u8
        ensures some { IsWide (left self.old) };
}
""",
    "high/specs/Runs.antt": """use Rattle.low.specs.Rows.{IsRow as IsGood, Kind, Long, ◌<+>◌}
pub use Rattle.low.specs.Rows.{IsWide}

-- a run
pub record HasRun (rows : List Row) : Type 0 where
  pub good : IsGood (rows <+> rows)
  pub kind : kind_of rows ≡ Long rows

unfoldable pub kind_of : List Row → Kind
kind_of [] = Kind
""",
    "high/src/run.rt": """ghost use Rattle.high.specs.Runs.{HasRun, IsWide};

/// Runs.
pub fn run<R: Reads + Send>(
    reader: &mut R,
) -> bool
    requires wide { IsWide R.left }
    // HasRun
    ensures ran { result ≡ true → HasRun [] }
{
    helper(kind_of)
}

pub fn wide<R: Reads>(reader: &mut R) -> bool
    ensures wide { R.wide reader }
{
    true
}

impl Reads for Other {
    fn one(&self) -> bool {
        true
    }
}

impl Twice {
    pub fn one(&self) -> bool
        ensures all { IsWide [] }
    {
        true
    }
}
""",
}
ROWS, RUNS = ("low", "Rows"), ("high", "Runs")


class Definitions(unittest.TestCase):
    def setUp(self):
        folder = tempfile.TemporaryDirectory()
        self.addCleanup(folder.cleanup)
        self.root = folder.name
        for path, text in TREE.items():
            whole = os.path.join(self.root, "crates", path)
            os.makedirs(os.path.dirname(whole), exist_ok=True)
            with open(whole, "w", encoding="utf-8") as file:
                file.write(text)

    def told(self, path):
        return definitions_of.definitions_of(self.root, path)

    def test_what_a_contract_reaches(self):
        wanted = {Name(*RUNS, "HasRun"), Name(*RUNS, "kind_of"), Name("low", "device.rt", "Reads.left")}
        wanted |= {Name(*ROWS, name) for name in ("IsRow", "IsWide", "Kind", "<+>")}
        self.assertEqual(self.told("high::run"), wanted)

    def test_ghost_members_lead_on(self):
        wanted = {Name("low", "device.rt", "Reads.wide"), Name(*ROWS, "IsWide")}
        self.assertEqual(self.told("high::wide"), wanted)

    def test_methods(self):
        self.assertEqual(self.told("high::Twice::one"), {Name(*ROWS, "IsWide")})
        self.assertEqual(self.told("high::Other::one"), set())

    def test_functions_that_are_not_there(self):
        for path in ("high::none", "high::one", "none::run"):
            with self.assertRaises(SystemExit):
                self.told(path)


if __name__ == "__main__":
    unittest.main()
