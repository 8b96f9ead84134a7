#!/usr/bin/env python3
"""Checks the model of how the threads of pnmpipe wait, and that the checker finds each edit that loses a wake-up.

    check.py [--all] [--only TEXT] [--trace] [--where-installed]

Each line of the table (table.py) names a model, the definitions that it is made with, how it is searched and what
has to come of it: `holds`, or `fails`, where a thread sleeps for ever, runs in a cycle, or an assertion is violated.
Without --all the big ones are left out. It wants spin and gcc (apt-get install spin gcc libc6-dev); where they aren't
installed it says so, and fails unless --where-installed is given.
"""

import argparse
import os
import re
import shutil
import subprocess
import sys
import tempfile
import time

sys.dont_write_bytecode = True

from table import TABLE

HERE = os.path.dirname(os.path.abspath(__file__))

# how the checker is compiled and run, by what is looked for
COMPILED = {"deadlock": ["-DSAFETY"], "cycles": ["-DNP"]}
RUN = {"deadlock": [], "cycles": ["-l"]}

# all but a long search take less time than to compile it well; it has at most so much memory, in MB
QUICK = {"compiled": ["-O0"], "run": ["-m100000", "-w20"]}
BIG = {"compiled": ["-O0"], "run": ["-m2000000", "-w23"]}
LONG = {"compiled": ["-O2"], "run": ["-m8000000", "-w26"]}
MEMORY = 6000


def definitions(line):
    return ["-D" + word for word in line.words.split()]


def made(line, folder, options):
    """Makes the checker of a line in the folder."""
    words = ["spin", "-a", *definitions(line), os.path.join(HERE, line.model)]
    subprocess.run(words, cwd=folder, check=True, stdout=subprocess.DEVNULL)
    options = ["-w", f"-DMEMLIM={MEMORY}", "-DVECTORSZ=2048", "-DCOLLAPSE", *COMPILED[line.how], *options]
    subprocess.run(["gcc", *options, "-o", "pan", "pan.c"], cwd=folder, check=True)


def tell_trace(line, folder):
    """Prints the steps to a failure: the shortest of those that are found."""
    made(line, folder, ["-O2", "-DREACH"])
    subprocess.run(["./pan", "-m500000", "-i", *RUN[line.how]], cwd=folder, stdout=subprocess.DEVNULL, check=False)
    words = ["spin", "-t", "-p", "-g", "-l", *definitions(line), os.path.join(HERE, line.model)]
    subprocess.run(words, cwd=folder, check=False)


def check(line, traces):
    """What comes of a line: the verdict, the states, and what the checker says of a failure."""
    size = LONG if line.is_long else BIG if line.is_big else QUICK
    with tempfile.TemporaryDirectory() as folder:
        made(line, folder, size["compiled"])
        words = ["./pan", *size["run"], *RUN[line.how]]
        told = subprocess.run(words, cwd=folder, stdout=subprocess.PIPE, text=True, check=False).stdout
        errors = re.search(r"errors: (\d+)", told)
        if not errors:
            return "no verdict", 0, told.strip().replace("\n", "; ")
        is_whole = "Search not completed" not in told and "max search depth too small" not in told
        verdict = "fails" if errors[1] != "0" else "holds" if is_whole else "not searched to the end"
        states = int(float(re.search(r"([\d.e+]+) states, stored", told)[1]))
        why = re.search(r"pan:\d+: (.*?) \(at depth", told)
        if verdict == "fails" and traces:
            tell_trace(line, folder)
    return verdict, states, why[1] if why else ""


def check_all(lines, traces):
    """Prints what comes of each line; gives how many didn't come out as wanted."""
    start = time.monotonic()
    wrong = total = 0
    for line in lines:
        verdict, states, why = check(line, traces)
        is_well = verdict == line.wanted
        wrong += not is_well
        total += states
        told = f"{line.name} [{line.model} {line.words}]" + (f": {why}" if why else "")
        print(f"{'ok   ' if is_well else 'WRONG'} {verdict:5} {states:>10,}  {told}", flush=True)
    seconds = time.monotonic() - start
    print(f"model: {len(lines)} lines, {total:,} states, {seconds:.0f} s; {wrong} didn't come out as wanted")
    return wrong


def main():
    parser = argparse.ArgumentParser(description=__doc__, formatter_class=argparse.RawDescriptionHelpFormatter)
    parser.add_argument("--all", action="store_true", help="the big lines too")
    parser.add_argument("--only", default="", metavar="TEXT", help="the lines that have this text")
    parser.add_argument("--trace", action="store_true", help="tell the steps to each failure")
    parser.add_argument("--where-installed", action="store_true", help="pass where spin or gcc isn't there")
    asked = parser.parse_args()
    missing = [command for command in ("spin", "gcc") if shutil.which(command) is None]
    if missing:
        print(f"model: {' and '.join(missing)} isn't installed, so how threads wait isn't searched", flush=True)
        return 0 if asked.where_installed else 1
    lines = [it for it in TABLE if (asked.all or not it.is_big) and asked.only in f"{it.name} {it.model} {it.words}"]
    if not lines:
        sys.exit(f"model: no line has {asked.only!r}")
    return 1 if check_all(lines, asked.trace) else 0


if __name__ == "__main__":
    sys.exit(main())
