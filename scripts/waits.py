#!/usr/bin/env python3
"""Wants no sleep of a run to be ended by its time-out: a neighbour wakes each thread that waits.

Each run has chains, rings and lanes whose threads wait for one another in a way of their own: the caller for room
while the last tool waits for it, wide rows beside which places stay free, lanes that are broken off. `timed_out.c`,
compiled here and loaded before the program, counts the sleeps that timed out, where there is a C compiler; a run has to
end soon in any case, since each such sleep lasts 400 milliseconds. On a machine with too much else to do a neighbour
may come late, too: so a run in which a sleep timed out is made again, and one of its tries has to be without.
`--tries 1` wants it of each. `--runs N` makes N runs in all, the same ones again and again, on all processors and on
one in turn.
"""

import argparse
import concurrent.futures
import itertools
import os
import random
import shutil
import subprocess
import sys
import tempfile
import time

from places import ROOT, SCRIPTS

# a call of futex, of number 202, that times out after a millisecond, and then another call
SLEEPS_ONCE = """
import ctypes
word, time = ctypes.c_int(0), (ctypes.c_long * 2)(0, 1000000)
words = [ctypes.c_long(it) for it in (202, ctypes.addressof(word), 128, 0, ctypes.addressof(time), 0, 0)]
syscall = ctypes.CDLL(None).syscall
syscall(*words)
syscall(ctypes.c_long(39), *words[1:])
"""

# seconds within which each run ends where no thread waits in vain
BOUND = 5


def image(columns, rows, kind="P5"):
    """An image of random bytes."""
    bytes_a_row = {"P4": (columns + 7) // 8, "P5": columns, "P6": 3 * columns}[kind]
    maxval = "" if kind == "P4" else "255\n"
    raster = random.Random(columns * rows).randbytes(bytes_a_row * rows)
    return f"{kind}\n{columns} {rows}\n{maxval}".encode() + raster


NARROW, SMALL, WIDE = image(16, 400), image(28, 28) * 40, image(40_000, 60)
PAGE, LABELS = image(576, 400, "P4"), image(200, 100, "P4") * 10
SIXTEEN = " | ".join(["pamchannel 0 | pnminvert | pamflip -lr | pamdepth 255"] * 4)

# words, input, and the status that is wanted
RUNS = [
    # the last tool waits for room in the caller's ring, while the caller waits for room in the first one's
    (["--ring", "1", "pamenlarge 8"], image(400_000, 4), 0),
    (["--ring", "2", "pamenlarge 4 | pnminvert"], WIDE, 0),
    # places that stay free beside wide rows: the sender is woken where none is left, not only where half is, since
    # the messages around a row fill places that the row keeps free, once it is there
    (["--ring", "4", "pnminvert"], WIDE, 0),
    (["--ring", "4", "pnminvert"], image(40_000, 1) * 60, 0),
    (["--ring", "1", "pamchannel 0"], NARROW, 0),
    (["pamflip -tb | pamflip -xy"], PAGE, 0),
    (["--ring", "8", "pamcut -left 8 -right -9 -top 2 | pamenlarge 2"], LABELS, 0),
    (["--ring", "2", SIXTEEN], SMALL, 0),
    (["--lanes", "3", "--ring", "2", "pamchannel 0 | pnminvert"], NARROW, 0),
    (["--lanes", "8", "--ring", "1", "pnminvert"], SMALL, 0),
    # a tool refuses behind lanes, and the input ends too soon before them
    (["--lanes", "3", "--ring", "1", "pnminvert | pamcut -left 20"], SMALL + NARROW, 1),
    (["--lanes", "2", "--ring", "1", "pnminvert | pamenlarge 3"], NARROW[:-7], 1),
    (["--plain", "--ring", "1", "pamdepth 100 | pnmtile 40 40"], NARROW, 0),
]


def counter_in(folder):
    """What counts the sleeps that time out, built in this folder; None where there is no compiler."""
    if not shutil.which("cc"):
        return None
    counter = os.path.join(folder, "timed_out.so")
    source = os.path.join(SCRIPTS, "timed_out.c")
    subprocess.run(["cc", "-O2", "-Wall", "-Wextra", "-Werror", "-shared", "-fPIC", source, "-o", counter], check=True)
    told = os.path.join(folder, "told")
    subprocess.run([sys.executable, "-c", SLEEPS_ONCE], env=counted_in(counter, told), check=True)
    if sleeps_told_in(told) != (0, 1):
        sys.exit("waits: the counter doesn't count a sleep that times out")
    return counter


def sleeps_told_in(path):
    """How many sleeps timed out by this file, and went on with nothing, and with something. The file goes."""
    with open(path, "rb") as file:
        told = file.read()
    os.remove(path)
    return told.count(b"a"), told.count(b"b")


def counted_in(counter, path):
    """The environment of a run that adds a byte to this new file for each of its sleeps that times out."""
    if not counter:
        return dict(os.environ)
    with open(path, "wb"):
        pass
    return {**os.environ, "LD_PRELOAD": counter, "TIMED_OUT": path}


def first_fault(asked, number, counter, folder):
    """What is wrong with each try of a run, if anything."""
    for _ in range(asked.tries):
        told = fault_of(asked.program, number, counter, folder)
        if told is None:
            return None
    return told


def fault_of(program, number, counter, folder):
    """What is wrong with a run, if anything: a sleep that timed out, another status, or that it lasts too long."""
    words, source, status = RUNS[number % len(RUNS)]
    processors = os.sched_getaffinity(0)
    if number // len(RUNS) % 2:
        processors = {min(processors)}
    told = os.path.join(folder, str(number))
    start = time.monotonic()
    try:
        run = subprocess.run([program, *words], input=source, env=counted_in(counter, told), timeout=60, check=False,
                             stdout=subprocess.DEVNULL, stderr=subprocess.DEVNULL,
                             preexec_fn=lambda: os.sched_setaffinity(0, processors))
    except subprocess.TimeoutExpired:
        return f"{words} doesn't end"
    seconds = time.monotonic() - start
    sleeps = 0
    if counter:
        sleeps = sum(sleeps_told_in(told))
    if sleeps:
        return f"{words}: {sleeps} sleeps timed out"
    if run.returncode != status:
        return f"{words}: status {run.returncode}, not {status}"
    if seconds > BOUND:
        return f"{words}: {seconds:.1f} s"
    return None


def main():
    parser = argparse.ArgumentParser(description=__doc__)
    program = os.path.join(ROOT, "bin", "pnmpipe")
    parser.add_argument("--program", default=program, help="the program (default: bin/pnmpipe)")
    parser.add_argument("--runs", type=int, default=4 * len(RUNS), help="how many runs (default: %(default)s)")
    parser.add_argument("--tries", type=int, default=4, help="how many tries a run has (default: %(default)s)")
    asked = parser.parse_args()
    asked.program = os.path.abspath(asked.program)
    with tempfile.TemporaryDirectory() as folder, concurrent.futures.ThreadPoolExecutor(os.cpu_count()) as pool:
        counter = counter_in(folder)
        if not counter:
            print("waits: without a C compiler sleeps that time out are seen by how long a run takes", file=sys.stderr)
        told = pool.map(first_fault, itertools.repeat(asked), range(asked.runs), itertools.repeat(counter),
                        itertools.repeat(folder))
        wrong = [line for line in told if line]
    for line in wrong[:20]:
        print(f"waits: {line}")
    print(f"waits: {asked.runs} runs, {len(wrong)} in which a thread waited in vain")
    return 1 if wrong else 0


if __name__ == "__main__":
    sys.exit(main())
