#!/usr/bin/env python3
"""Tries crates that were changed: `near` in minutes, over what was kept, `pass` from nothing, as the gate does.

near: of each crate the layout, its check, the edits that must fail and their controls, the tests as they stand,
unproved, and what the program of its cases prints, or the commands that are stored beside the program; then the check
of each crate that stands on one of them. pass: `rt ci` over a temporary copy, below TMPDIR, of these crates and their
tests, and of all that they stand on, and the edits of these crates. Neither takes the place of `make check`, which is
the gate.
"""

import argparse
import itertools
import os
import subprocess
import sys
import tempfile

import gate_crates
from build import PROGRAM
from crates import ROOT, SOURCES, Ended, above, below, copied, end_by_signals, read_crates, tests_of


def say(text):
    print(f"change: {text}", flush=True)


def call(folder, *words, **how):
    """Runs rt; ends this script where it fails."""
    place = os.path.relpath(folder, ROOT)
    say(f"rt {' '.join(words)}" + (f", in {place}" if place != "." else ""))
    status = subprocess.run(["rt", *words], cwd=folder, **how).returncode
    if status:
        sys.exit(f"change: rt {' '.join(words)} in {place} FAILED, status {status}")


def is_laid_out(name):
    """Whether rt fmt, which mends files in place, finds nothing to mend in a copy."""
    with tempfile.TemporaryDirectory() as folder:
        copy = copied(name, folder, SOURCES)
        made = subprocess.run(["rt", "fmt"], cwd=copy, capture_output=True, text=True, check=False)
    if made.returncode or "formatted" in made.stdout:
        print(made.stdout + made.stderr, end="")
    return made.returncode == 0 and "formatted" not in made.stdout


def has_tests(folder):
    """Whether a crate has a test."""
    for at, _, files in os.walk(os.path.join(folder, "src")):
        for file in files:
            with open(os.path.join(at, file), encoding="utf-8") as text:
                if "#[test]" in text.read():
                    return True
    return False


def tells_what_is_stored(folder):
    """Runs a program on its stored input; ends this script where it prints anything else than is stored."""
    place = os.path.relpath(folder, ROOT)
    say(f"rt run, in {place}")
    with open(os.path.join(folder, "stdin"), encoding="utf-8") as given:
        made = subprocess.run(["rt", "run"], cwd=folder, stdin=given, stdout=subprocess.PIPE, text=True, check=False)
    with open(os.path.join(folder, "stdout"), encoding="utf-8") as stored:
        wants = stored.read()
    if made.returncode:
        sys.exit(f"change: rt run in {place} FAILED, status {made.returncode}")
    for number, (told, want) in enumerate(itertools.zip_longest(made.stdout.split("\n"), wants.split("\n")), 1):
        if told != want:
            sys.exit(f"change: {place} FAILED: line {number} is\n{told}\nin place of\n{want}")


def answers_stored_commands(folder):
    """Builds the program and runs its stored commands; ends this script where one answers otherwise."""
    with open(os.path.join(folder, "stdin"), "rb") as given:
        call(folder, "run", "--", "pnminvert", stdin=given, stdout=subprocess.DEVNULL)
    script = os.path.join(ROOT, "scripts/tests/test_commands.py")
    if subprocess.run([sys.executable, script, "--program", os.path.join(folder, "out", PROGRAM)]).returncode:
        sys.exit("change: a stored command FAILED")


def near(crates, names):
    folders = {name: os.path.join(ROOT, "crates", name) for name in crates}
    for name in names:
        say(f"the layout of {name}")
        if not is_laid_out(name):
            sys.exit(f"change: {name} isn't laid out: run rt fmt in crates/{name}")
    for name in names:
        call(folders[name], "check")
    with tempfile.TemporaryDirectory(prefix="pnmpipe-near-") as folder:
        say(f"the edits of {', '.join(names)}")
        if gate_crates.call("edits.py", "--proved", gate_crates.statements(folder, ROOT), *names):
            sys.exit("change: an edit or a control FAILED")
    for tests in dict.fromkeys(it for name in names for it in tests_of(crates, name)):
        if tests.endswith("_cases"):
            tells_what_is_stored(folders[tests])
            continue
        if tests == PROGRAM:
            answers_stored_commands(folders[tests])
        if has_tests(folders[tests]):
            call(folders[tests], "try", "--test", "--seconds", "600")
    for name in above(crates, names):
        call(folders[name], "check")
    say(f"{', '.join(names)} and what stands on them hold; `make check` is the gate")
    return 0


def pass_alone(crates, names):
    whole = set(names).union(*(tests_of(crates, name) for name in names))
    taken = whole.union(*(below(crates, name) for name in whole))
    with tempfile.TemporaryDirectory(prefix="pnmpipe-pass-") as folder:
        named = ", ".join(it for it in crates if it in whole)
        say(f"rt ci over {named}, and {len(taken - whole)} crates that these stand on; then the edits")
        return gate_crates.judged(folder, taken, whole)


def main():
    crates = read_crates()
    parser = argparse.ArgumentParser(description=__doc__.split("\n")[0])
    parser.add_argument("how", choices=["near", "pass"])
    parser.add_argument("crates", nargs="+", metavar="CRATE", help="names of crates, as crates.txt has them")
    args = parser.parse_args()
    unknown = [name for name in args.crates if name not in crates]
    if unknown:
        parser.error(f"crates.txt has no {', '.join(unknown)}")
    names = [name for name in crates if name in args.crates]
    end_by_signals()
    try:
        return near(crates, names) if args.how == "near" else pass_alone(crates, names)
    except Ended as ended:
        return 128 + ended.args[0]


if __name__ == "__main__":
    sys.exit(main())
