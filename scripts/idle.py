#!/usr/bin/env python3
"""Wants a run whose input is silent to take next to no processor time, and to have written what was due before.

The input is held open before its first byte, after an image, inside the next one's header and inside its raster, for
chains of 1, 3, 16 and 64 tools, by the shortest rings and those that the program makes, in one lane and in three. What
its threads take to start depends on the machine and on what else it does, so a run is given some stretches of silence,
and has to be idle in one of them. Threads that only yield while they wait would take a processor each, in all of them.
"""

import argparse
import concurrent.futures
import itertools
import os
import subprocess
import sys
import threading
import time

from places import ROOT

CHAINS = [" | ".join(["pnminvert"] * count) for count in (1, 3, 16)]
OPTIONS = [["--ring", ring, "--lanes", lanes] for ring, lanes in itertools.product(("1", "64"), ("1", "3"))]
RUNS = [[*options, chain] for chain, options in itertools.product(CHAINS, OPTIONS)]
RUNS.append([" | ".join(["pnminvert"] * 64)])
RUNS.append(["--lanes", "3", "--ring", "1", "pnminvert | pamflip -lr"])

# an image of two rows, and the beginnings of another one, which the silence cuts in its header or in its second row
WHOLE = b"P5\n2 2\n9\n\x01\x02\x03\x04"
HEADER = b"P5\n2"
RASTER = b"P5\n2 2\n9\n\x03\x04\x05"

# what comes before the silence, and how many whole images are due by then
SILENCES = [
    ("before the first byte", b"", 0),
    ("after an image", WHOLE, 1),
    ("inside the next header", WHOLE + HEADER, 1),
    ("inside the next raster", WHOLE + RASTER, 1),
]

# how much of a stretch of silence an idle run may take, and how many of them it is given; how many runs are silent side
# by side
SHARE = 0.02
STRETCHES = 4
BESIDE = 8


def spent(child):
    """Seconds of the processor that all threads of a process have taken (clock_getcpuclockid of it)."""
    return time.clock_gettime(~child.pid << 3 | 2)


def spent_in_silence(child, seconds):
    """Seconds of the processor that a run takes of a stretch of silence: the first in which it is idle, or the last."""
    for _ in range(STRETCHES):
        before = spent(child)
        time.sleep(seconds)
        taken = spent(child) - before
        if taken <= SHARE * seconds:
            break
    return taken


def silent_run(program, words, given, due, seconds):
    """Seconds of the processor that a run takes of the silence, and how many bytes it had written before."""
    pipes = {"stdin": subprocess.PIPE, "stdout": subprocess.PIPE, "stderr": subprocess.DEVNULL}
    with subprocess.Popen([program, *words], **pipes) as child:
        # (a run from which what is due never comes is ended, and then too few bytes were written)
        ended = threading.Timer(60 + STRETCHES * seconds, child.kill)
        ended.start()
        child.stdin.write(given)
        child.stdin.flush()
        written = child.stdout.read(due)
        taken = spent_in_silence(child, seconds)
        child.stdin.close()
        child.stdout.read()
        ended.cancel()
    return taken, len(written)


def main():
    parser = argparse.ArgumentParser(description=__doc__, formatter_class=argparse.RawDescriptionHelpFormatter)
    parser.add_argument("--program", default=os.path.join(ROOT, "bin/pnmpipe"))
    parser.add_argument("--seconds", type=float, default=1.0, help="how long a stretch of silence is")
    options = parser.parse_args()
    cases = list(itertools.product(RUNS, SILENCES))

    def run_of(case):
        words, (_, given, images) = case
        return silent_run(options.program, words, given, len(WHOLE) * images, options.seconds)

    busy = 0
    with concurrent.futures.ThreadPoolExecutor(BESIDE) as pool:
        for (words, (name, _, images)), (taken, written) in zip(cases, pool.map(run_of, cases)):
            if taken > SHARE * options.seconds or written < len(WHOLE) * images:
                busy += 1
                told = f"{taken:.3f} s of the processor in {options.seconds} s of silence, {written} bytes"
                print(f"{' '.join(words)[:60]} {name}: {told}", file=sys.stderr)
    print(f"idle: {len(cases)} silent runs, {busy} of them busy")
    return 1 if busy else 0


sys.exit(main())
