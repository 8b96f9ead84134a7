#!/usr/bin/env python3
"""Judges all crates for the gate: `rt ci` over a copy of them without their edits; then the edits that must fail and
their controls, many in one check, over what it proved there (edits.py); and the C library over the same
(gate_library.py). Leaves in crates/NAME/out the programs, and the programs of tests, that the other scripts of the gate
run.

With `--alone` it is `rt ci` that tries each edit first, in a check of its own. That takes more than twice as long.
"""

import argparse
import glob
import os
import shutil
import subprocess
import sys
import tempfile

from build import PROGRAM, told_by_rt
from crates import ROOT, SOURCES, Ended, end_by_signals, lay_out, read_crates
from places import SCRIPTS


def call(script, *words):
    """Runs a script of this folder, which a signal to this one ends too. Gives its status."""
    sys.stdout.flush()
    child = subprocess.Popen([sys.executable, os.path.join(SCRIPTS, script), *words])
    try:
        return child.wait()
    except Ended:
        child.terminate()
        child.wait()
        raise


def statements(folder, crates):
    """A folder of what checks have left of the libraries in a copy, or in the checkout: their statements and code."""
    proved = os.path.join(folder, "proved")
    os.mkdir(proved)
    for rlib in glob.glob(os.path.join(crates, "crates/*/out/rlib/*.rlib")):
        os.symlink(rlib, os.path.join(proved, os.path.basename(rlib)))
    return proved


def rt_ci(folder):
    """Runs `rt ci` from nothing, also with a toolchain that keeps what has passed. Gives the status."""
    told = subprocess.run(["rt", "help"], capture_output=True, text=True, check=False)
    anew = ["--anew"] if "--anew" in told.stdout + told.stderr else []
    environment = {"RT_JOBS": str(len(os.sched_getaffinity(0))), **os.environ}
    return subprocess.run(["rt", "ci", *anew], cwd=folder, env=environment).returncode


def judged(folder, crates, whole, alone=False):
    """Judges these crates in a copy: of some the tests and edits too, of the others the proof. Gives the status."""
    left_out = {"out"} if alone else {"out", "must-fail"}

    def parts_of(name):
        return SOURCES if name not in whole else set(os.listdir(os.path.join(ROOT, "crates", name))) - left_out

    lay_out(folder, crates, parts_of)
    return rt_ci(folder) or call("edits.py", "--proved", statements(folder, folder), *whole)


def hand_back(folder):
    """Gives the crates what the scripts of the gate run. Gives where the program is."""
    for name in read_crates():
        for made in (name, f"{name}_tests"):
            source, target = (os.path.join(it, "crates", name, "out") for it in (folder, ROOT))
            if os.path.isfile(os.path.join(source, made)):
                os.makedirs(target, exist_ok=True)
                shutil.copy(os.path.join(source, made), target)
    return os.path.join(ROOT, "crates", PROGRAM, "out", PROGRAM)


def main():
    parser = argparse.ArgumentParser(description=__doc__, formatter_class=argparse.RawDescriptionHelpFormatter)
    parser.add_argument("--alone", action="store_true", help="each edit in a check of its own, too")
    asked = parser.parse_args()
    end_by_signals()
    crates = read_crates()
    print(f"gate: {told_by_rt('version')}", flush=True)
    try:
        with tempfile.TemporaryDirectory(prefix="pnmpipe-gate-") as folder:
            status = judged(folder, crates, crates, asked.alone)
            program = ["--program", hand_back(folder)]
            return status or call("gate_library.py", *program, "--proved", os.path.join(folder, "proved"))
    except Ended as ended:
        return 128 + ended.args[0]


if __name__ == "__main__":
    sys.exit(main())
