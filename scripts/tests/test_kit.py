#!/usr/bin/env python3
"""Tests of what make and the gate ask of the installed toolchain, over a repository of two crates: `make`, `rt ci` and
the edits follow one another in one checkout. The gate runs this."""

import os
import shutil
import subprocess
import sys
import unittest

from support import SCRIPTS, Folder

LOW = """//! A sum.
#![tactic(auto)]

ghost use Rattle.std.specs.Prelude.{◌≡◌, ◌+◌, ◌<◌};

/// The number behind this one.
pub fn next(number: usize) -> usize
    requires { number < 100 }
    ensures { result ≡ number + 1 }
{
    number + 1
}
"""
PROGRAM = """//! Prints what it reads.
#![tactic(auto)]

use low::next;
use std::io;

fn main(rt: HostRuntime) -> io::Result<()> {
    for line in rt.lines(rt.alloc()) {
        let line = line?;
        println!(rt; "{} {}", next(1), line.as_str())?;
    }
    Ok(())
}
"""
EDIT = """file: src/lib.rt
old:     number + 1
new:     number + 2
# new:     1 + number
"""
FILES = {
    "crates.txt": "low:\npnmpipe: low\n",
    "HANDLES": "Handles allowed: none.\n",
    "crates/low/src/lib.rt": LOW,
    "crates/low/must-fail/adds_2.edit": EDIT,
    "crates/pnmpipe/src/main.rt": PROGRAM,
    "crates/pnmpipe/stdin": "word\n",
    "crates/pnmpipe/stdout": "2 word\n",
}


@unittest.skipUnless(shutil.which("rt"), "there is no rt")
class Kit(Folder):
    def setUp(self):
        super().setUp()
        for name, text in FILES.items():
            self.write(f"root/{name}", text.encode())
        os.mkdir(self.path("root/.git"))
        os.mkdir(self.path("root/scripts"))
        for file in os.listdir(SCRIPTS):
            if file.endswith(".py"):
                shutil.copy(os.path.join(SCRIPTS, file), self.path("root/scripts"))

    def printed(self, *words):
        """What a command prints that ends well."""
        ran = subprocess.run(words, cwd=self.path("root"), capture_output=True, text=True, check=False)
        self.assertEqual(ran.returncode, 0, ran.stdout + ran.stderr)
        return ran.stdout

    def test_the_build_and_the_gate_follow_one_another(self):
        build = (sys.executable, "scripts/build.py")
        self.assertIn("1 of 2: low", self.printed(*build))
        # (two crates, and the edit by itself)
        self.assertIn("\n3 passed, 0 failed\n", self.printed("rt", "ci"))
        told = self.printed(sys.executable, "scripts/change.py", "pass", "low")
        self.assertIn("\n1 passed, 0 failed\n", told)
        self.assertIn("low/edit/adds_2: refused at `returns` of next: ", told)
        self.assertIn("low/control/adds_2: proved", told)
        self.assertIn("2 were proved before", self.printed(*build))


if __name__ == "__main__":
    unittest.main()
