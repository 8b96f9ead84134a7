#!/usr/bin/env python3
"""Builds the C library over what the gate's `rt ci` has just proved, and tests it (test_library.py).

`rt ci` proves a static library, and compiles none. It leaves the statements of each crate that it has proved, and the
code. Over these, which gate_crates.py has in a copy of the crates, `rattle build` checks pnm_c once more, from nothing,
and compiles all, as `make library` does over what make has proved.
"""

import argparse
import os
import subprocess
import sys
import tempfile
import time

import library
from build import LIBRARY, Toolchain, made_of
from crates import ROOT, Ended, below, end_by_signals, read_crates

TESTS = os.path.join(ROOT, "scripts/tests/test_library.py")


def say(text):
    print(f"gate_library: {text}", flush=True)


def ended_well(what, words, folder):
    """Whether a command ended with status 0; else what it printed is shown."""
    start = time.monotonic()
    environment = {"RT_JOBS": str(len(os.sched_getaffinity(0))), **os.environ}
    streams = {"stdin": subprocess.DEVNULL, "stdout": subprocess.PIPE, "stderr": subprocess.STDOUT}
    ran = subprocess.run(words, cwd=folder, env=environment, errors="replace", check=False, **streams)
    if ran.returncode:
        print(ran.stdout, end="", flush=True)
    told = f"FAILED, status {ran.returncode}" if ran.returncode else f"{time.monotonic() - start:.0f} s"
    say(f"{what}: {told}")
    return ran.returncode == 0


def built(folder, proved):
    """The static library, made in the folder over what was proved; None where a check has failed."""
    toolchain = Toolchain()
    at = os.path.join(folder, "proved")
    os.mkdir(at)
    for name in below(read_crates(), LIBRARY):
        os.symlink(made_of(name, os.path.abspath(proved)), made_of(name, at))
    words = toolchain.build(LIBRARY, min(4, len(os.sched_getaffinity(0))), at)
    if not ended_well(f"{LIBRARY} is checked and compiled", words, os.path.join(ROOT, "crates", LIBRARY)):
        return None
    return made_of(LIBRARY, at)


def main():
    parser = argparse.ArgumentParser(description=__doc__.split("\n")[0])
    parser.add_argument("--program", required=True, help="the program that the gate has built")
    parser.add_argument("--proved", required=True, help="where the statements of crates are that the gate has proved")
    words = parser.parse_args()
    end_by_signals()
    if not library.compiler():
        # (that the tests say)
        return subprocess.run([sys.executable, TESTS]).returncode
    try:
        with tempfile.TemporaryDirectory(prefix="pnmpipe-library-") as folder:
            archive = built(folder, words.proved)
            if archive is None:
                return 1
            given = ["--archive", archive, "--program", os.path.join(ROOT, words.program)]
            return subprocess.run([sys.executable, TESTS, *given]).returncode
    except Ended as ended:
        return 128 + ended.args[0]


if __name__ == "__main__":
    sys.exit(main())
