#!/usr/bin/env python3
"""Tests of edits.py, over a small crate and a stand-in for rattle, which goes by words in the bodies of functions.
`make scripts` runs this."""

import os
import shutil
import signal
import subprocess
import sys
import time
import unittest

from support import SCRIPTS, Folder

FILES = ("build.py", "crates.py", "edit_checks.py", "edit_steps.py", "edits.py", "library.py", "places.py")
FILES += ("rust_places.py",)

CODE = """pub const SIDE: u32 = 8;
pub const DEPTH: u32 = 4;
/// Its callers stand on it.
fn low(x: u32) -> u32 ensures { result ≡ x } { is_low(x) }
pub fn high(x: u32) -> u32 ensures { result ≡ x } { low(x) }
pub fn side(x: u32) -> u32 ensures { result ≡ x } { is_side(x, SIDE) }
pub fn answered(x: u32) -> u32 ensures { result ≡ x } { is_answered(x) }
"""
# (no copies can be made of the functions whose goals these name)
STEPS = """use Rattle.one.proofs.low.Goals.{in-Ok}
use Rattle.one.proofs.high.Goals.{in-Ok}
"""
ANSWERS = """use Rattle.one.proofs.answered.Goals as goal

returns : goal.returns
returns c = tt
"""
LAWS = """pub fn limits_are() ensures side { SIDE ≡ 8 } ensures depth { DEPTH ≡ 4 } {}
pub fn words_hold() ensures { WordsHold } {}
"""

RT = """#!/bin/sh
[ "$1" != doc ] || echo "$KIT/START-HERE.md"
"""

# a function is refused if its body has a word of these, and proved if nothing that it calls is refused
RATTLE = r'''#!/usr/bin/env python3
import os, re, sys, time

OPEN = "note: src/lib.rt:1:1: it is not proved (`returns`); "
NO_PROOF = "no proof: `search` did not prove `returns`"
MESSAGES = {
    "WRONG": (OPEN + "the facts known there allow values at which this goal is false", NO_PROOF),
    "DEEP": (OPEN + "`search` gave up at one of its limits", NO_PROOF),
    "DIFFERS": ("./proofs/{0}/Answers.antt:1:1: error: `returns-in-Ok`: as printed, the two types differ",
                "not proved; it stands on `Rattle.one.proofs.{0}.Answers.returns-in-Ok`, which antt refuses"),
    "RENAMED": ("./proofs/{0}/Answers.antt:1:1: error: `returns`: `c.low` is not in scope", "no proof"),
}
with open("src/lib.rt") as code, open("src/laws.rt") as laws, open("specs/Words.antt") as words:
    code, laws, words = code.read(), laws.read(), words.read()
bodies = dict(re.findall(r"fn (\w+)\(.*\{(.*)\}\n", code))
for name in bodies:
    if name.startswith("answered_"):
        with open(f"proofs/{name}/Answers.antt") as answers:
            assert f".proofs.{name}.Goals as goal" in answers.read()
tried = [it for it in bodies if not os.path.exists(f"proofs/{it}/Proof.antt")]
is_holed = lambda law: os.path.exists(f"proofs/laws/{law}/Proof.antt")
tried += [it for it in ("limits_are", "words_hold") if not is_holed(it)]
asked = {path.rpartition("::")[2] for word, path in zip(sys.argv, sys.argv[1:]) if word == "--only"}
assert not asked or asked == set(tried), (asked, tried)
with open(os.environ["NOTES"], "a") as notes:
    notes.write(" ".join(tried) + "\n")
time.sleep(float(os.environ.get("SECONDS", "0")))
if "BROKEN" in code:
    print("src/lib.rt:1:1: error[mismatched-types]: it doesn't compile")
    sys.exit(2)
failed = set()
for name, body in bodies.items():
    found = next((it for it in MESSAGES if it in body), None)
    calls = [it for it in failed if f"{it}(" in body]
    if name not in tried:
        said = f"depends on a hole in `Rattle.one.proofs.{name}.Proof.{name}_spec`"
    elif found or calls:
        failed.add(name)
        noted, said = MESSAGES[found] if found else ("", f"no proof: it calls `one::{calls[0]}`, which is not proved")
        print(noted.format(name))
    else:
        said = "no holes"
    print(f"fn one::{name}: {said.format(name)}")
values = dict(re.findall(r"const (\w+): u32 = (\d+)", code))
clauses = re.findall(r"ensures (\w+) \{ (\w+) ≡ (\d+) \}", laws) if "limits_are" in tried else []
goals = [f"`returns-clause-{clause}`" for clause, name, value in clauses if values[name] != value]
for it in goals:
    print(OPEN.replace("`returns`", it) + "the facts known there allow values at which this goal is false")
print("fn one::laws::limits_are: " + (f"no proof: `search` did not prove {', '.join(goals)}" if goals else "no holes"))
is_wrong = "words_hold" in tried and "wrong" in words
lemma = "not proved; it stands on `Rattle.one.proofs.WordLaws.word_is_right`, which antt refuses"
print(f"fn one::laws::words_hold: {lemma if is_wrong else 'no holes'}")
print("holes=1")
sys.exit(1)
'''


class Edits(Folder):
    def setUp(self):
        super().setUp()
        os.makedirs(self.path("root/scripts"))
        for file in FILES:
            shutil.copy(os.path.join(SCRIPTS, file), self.path("root/scripts"))
        crate = {"src/lib.rt": CODE, "src/laws.rt": LAWS, "specs/Words.antt": "word = right\n"}
        crate |= {"proofs/CallSteps.antt": STEPS, "proofs/answered/Answers.antt": ANSWERS}
        for file, text in [("crates.txt", "one:\n"), *((f"crates/one/{it}", text) for it, text in crate.items())]:
            self.write(f"root/{file}", text.encode())
        self.write("bin/rt", RT.encode(), 0o755)
        self.write("kit/bin/rattle", RATTLE.encode(), 0o755)

    def edit(self, name, *steps, file="src/lib.rt"):
        """Writes an edit: of each step the old text, the new one, and that of its control, if it has one."""
        text = "".join(
            f"old: {old}\nnew: {new}\n" + "".join(f"# new: {it}\n" for it in kept) for old, new, *kept in steps
        )
        self.write(f"root/crates/one/must-fail/{name}.edit", f"file: {file}\n{text}".encode())

    def start(self, **variables):
        path = f"{self.path('bin')}:{os.path.dirname(sys.executable)}:{os.environ['PATH']}"
        own = {"PATH": path, "KIT": self.path("kit"), "NOTES": self.path("notes"), "TMPDIR": self.path("tmp")}
        own["PYTHONDONTWRITEBYTECODE"] = "1"
        os.makedirs(self.path("tmp"), exist_ok=True)
        script = [sys.executable, self.path("root/scripts/edits.py"), "--proved", self.path("proved")]
        streams = {"stdout": subprocess.PIPE, "stderr": subprocess.PIPE, "text": True}
        return subprocess.Popen(script, env={**os.environ, **own, **variables}, **streams)

    def tried(self):
        """The status, the line on each edit and control, and what each check went into."""
        child = self.start()
        told, faults = child.communicate(timeout=60)
        self.assertEqual(faults, "")
        self.assertEqual(os.listdir(self.path("tmp")), [])
        lines = [line.split(": ", 1) for line in told.splitlines()]
        with open(self.path("notes"), encoding="utf-8") as notes:
            checks = notes.read().splitlines()
        return child.returncode, {name.split("/", 1)[1]: said for name, said in lines if "/" in name}, checks

    def test_edits_of_different_functions_are_refused_in_one_check(self):
        self.edit("low_is_wrong", ("is_low(x)", "WRONG(x)"))
        self.edit("answer_differs", ("is_answered(x)", "DIFFERS(x)"))
        status, said, checks = self.tried()
        self.assertEqual((status, checks), (0, ["low answered_tried_0"]))
        self.assertEqual(said["edit/low_is_wrong"], "refused at `returns` of low: a goal that doesn't follow")
        differs = "refused at `returns-in-Ok` of answered: a type that differs"
        self.assertEqual(said["edit/answer_differs"], differs)

    def test_changes_of_one_function_are_tried_in_copies_in_one_check(self):
        self.edit("side_is_wrong", ("is_side(x, SIDE)", "WRONG(x, SIDE)", "is_side(x, { SIDE })"))
        self.edit("side_differs", ("is_side(x, SIDE)", "DIFFERS(x)", "is_side({ x }, SIDE)"))
        self.edit("answer_differs", ("is_answered(x)", "DIFFERS(x)", "is_answered({ x })"))
        status, said, checks = self.tried()
        self.assertEqual((status, len(checks), len(said)), (0, 1, 6))
        tried = [it.rpartition("_")[0] for it in checks[0].split()]
        self.assertEqual(tried, 4 * ["side_tried"] + 2 * ["answered_tried"])
        self.assertEqual(said["edit/side_is_wrong"], "refused at `returns` of side: a goal that doesn't follow")
        self.assertEqual(said["edit/side_differs"], "refused at `returns-in-Ok` of side: a type that differs")
        self.assertEqual(said["control/side_differs"], "proved as it must be")

    def test_edits_and_controls_of_one_check_are_judged_each_for_itself(self):
        # (what isn't well in a copy is tried where the function stands)
        names = {"copied": ("is_side(x, SIDE)", "side"), "placed": ("is_low(x)", "low")}
        for name, (old, _) in names.items():
            self.edit(f"{name}_is_wrong", (old, old.replace("is_", "WRONG_"), f"{{ {old} }}"))
            self.edit(f"{name}_is_kept", (old, f"{{ {old} }}", old.replace("is_", "DEEP_")))
        status, said, checks = self.tried()
        self.assertEqual((status, len(said), len(checks)), (1, 8, 6))
        for name, (_, function) in names.items():
            why = f"refused at `returns` of {function}: a goal that doesn't follow"
            self.assertEqual(said[f"edit/{name}_is_wrong"], why)
            self.assertEqual(said[f"edit/{name}_is_kept"], "NOT REFUSED: no goal of its own is open")
            self.assertEqual(said[f"control/{name}_is_wrong"], "proved as it must be")
            why = f"NOT PROVED: at `returns` of {function}: a limit of the search"
            self.assertEqual(said[f"control/{name}_is_kept"], why)

    def test_a_control_whose_callee_is_edited_is_tried_again(self):
        self.edit("low_is_wrong", ("is_low(x)", "WRONG(x)", "{ is_low(x) }"))
        self.edit("high_is_wrong", ("{ low(x) }", "{ WRONG(x) }", "{ { low(x) } }"))
        status, said, _ = self.tried()
        self.assertEqual((status, len(said)), (0, 4))

    def test_edits_of_one_function_without_copies_are_refused_one_by_one(self):
        self.edit("low_is_wrong", ("is_low(x)", "WRONG(x)"))
        self.edit("low_differs", ("is_low(x)", "DIFFERS(x)"))
        status, said, checks = self.tried()
        self.assertEqual((status, len(said), checks), (0, 2, ["low", "low"]))

    def test_an_edit_that_keeps_the_meaning_is_a_fault(self):
        self.edit("low_is_low", ("is_low(x)", "{ is_low(x) }"))
        status, said, _ = self.tried()
        self.assertEqual((status, said["edit/low_is_low"]), (1, "NOT REFUSED: no goal of its own is open"))

    def test_an_edit_that_another_function_refuses_is_a_fault(self):
        # (what calls a function that was edited isn't proved either, and says nothing of its own edit)
        self.edit("low_is_wrong", ("is_low(x)", "WRONG(x)"))
        self.edit("high_is_low", ("{ low(x) }", "{ low(x) + 0 }"))
        status, said, checks = self.tried()
        self.assertEqual((status, checks), (1, ["low high", "high"]))
        self.assertTrue(said["edit/low_is_wrong"].startswith("refused"))
        self.assertTrue(said["edit/high_is_low"].startswith("NOT REFUSED"))

    def test_an_edit_that_a_limit_alone_refuses_is_a_fault(self):
        self.edit("low_is_deep", ("is_low(x)", "DEEP(x)"))
        status, said, _ = self.tried()
        told = {"edit/low_is_deep": "NOT REFUSED: at `returns` of low: a limit of the search"}
        self.assertEqual((status, said), (1, told))

    def test_an_edit_that_takes_a_name_from_an_answer_is_a_fault(self):
        self.edit("low_is_renamed", ("is_low(x)", "RENAMED(x)"))
        status, said, _ = self.tried()
        why = "no goal of its own is open, and it isn't proved"
        self.assertEqual((status, said), (1, {"edit/low_is_renamed": f"NOT REFUSED: {why}"}))

    def test_an_edit_that_does_not_compile_is_a_fault_and_spoils_no_other(self):
        self.edit("low_is_broken", ("is_low(x)", "BROKEN(x)"))
        self.edit("answer_is_wrong", ("is_answered(x)", "WRONG(x)"))
        status, said, _ = self.tried()
        self.assertEqual(status, 1)
        self.assertTrue(said["edit/low_is_broken"].startswith("NOT REFUSED: the check has no verdict"))
        self.assertTrue(said["edit/answer_is_wrong"].startswith("refused"))

    def test_an_edit_whose_function_is_gone_is_a_fault(self):
        self.edit("low_is_gone", ("fn low(x: u32)", "fn lower(x: u32)"), ("{ low(x) }", "{ lower(x) }"))
        status, said, _ = self.tried()
        self.assertEqual((status, said["edit/low_is_gone"][:11]), (1, "NOT REFUSED"))

    def test_an_edit_that_cannot_be_made_is_told(self):
        self.edit("old_text_is_gone", ("is_lower(x)", "WRONG(x)"))
        with self.assertRaisesRegex(AssertionError, "an old text doesn't stand in its file once"):
            self.tried()

    def test_limits_are_refused_together_each_at_its_clause(self):
        self.edit("side_of_9", ("SIDE: u32 = 8", "SIDE: u32 = 9"))
        self.edit("depth_of_5", ("DEPTH: u32 = 4", "DEPTH: u32 = 5"))
        self.edit("depth_of_4", ("DEPTH: u32 = 4", "DEPTH: u32 = 4"))
        status, said, checks = self.tried()
        self.assertEqual((status, checks[0]), (1, "limits_are"))
        self.assertIn("`returns-clause-side`", said["edit/side_of_9"])
        self.assertIn("refused at `returns-clause-depth`", said["edit/depth_of_5"])
        self.assertTrue(said["edit/depth_of_4"].startswith("NOT REFUSED"))

    def test_definitions_are_tried_over_the_laws(self):
        self.edit("word_is_wrong", ("word = right", "word = wrong"), file="specs/Words.antt")
        status, said, checks = self.tried()
        self.assertEqual((status, checks), (0, ["limits_are words_hold"]))
        self.assertIn("refused at `word_is_right` of laws::words_hold", said["edit/word_is_wrong"])

    def test_controls_have_to_prove(self):
        self.edit("low_is_wrong", ("is_low(x)", "WRONG(x)", "{ is_low(x) }"))
        self.assertEqual(self.tried()[0], 0)
        for word in ("WRONG", "DEEP", "RENAMED", "BROKEN"):
            self.edit("low_is_wrong", ("is_low(x)", "WRONG(x)", f"{word}(x)"))
            status, said, _ = self.tried()
            self.assertEqual((status, said["control/low_is_wrong"][:10]), (1, "NOT PROVED"), word)

    def test_a_signal_ends_the_checks(self):
        self.edit("low_is_wrong", ("is_low(x)", "WRONG(x)"))
        self.edit("low_differs", ("is_low(x)", "DIFFERS(x)"))
        child = self.start(SECONDS="30")
        for _ in range(600):
            if os.path.exists(self.path("notes")) and os.path.getsize(self.path("notes")):
                break
            time.sleep(0.05)
        child.send_signal(signal.SIGTERM)
        child.communicate(timeout=20)
        self.assertEqual((child.returncode, os.listdir(self.path("tmp"))), (128 + signal.SIGTERM, []))
        with open(self.path("notes"), encoding="utf-8") as notes:
            self.assertEqual(notes.read(), "low\n")
        left = subprocess.run(["pgrep", "-f", self.path("kit/bin/rattle")], stdout=subprocess.PIPE, check=False)
        self.assertEqual(left.stdout, b"")

    def test_a_control_may_have_an_old_text_of_its_own(self):
        self.edit("low_is_wrong", ("is_low(x)", "WRONG(x)\n# old: { low(x) }", "{ DEEP(x) }"))
        status, said, _ = self.tried()
        told = "NOT PROVED: at `returns` of high: a limit of the search"
        self.assertEqual((status, said["control/low_is_wrong"]), (1, told))


if __name__ == "__main__":
    unittest.main()
