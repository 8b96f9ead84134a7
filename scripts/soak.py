#!/usr/bin/env python3
"""Runs random chains over random streams while something disturbs them, and wants what a run in one thread answers.

Rings, lanes and the form of the output are random. So is what disturbs a run: a slow writer before it and a slow reader
behind it, signals that stop it and let it go on, one processor for all its threads. The bytes, the status and the line
have to be those of the C library, which runs in one thread; or, if there is none, those of a quiet run with one lane,
as with --reference. After a fault one's bytes are a prefix of the other's. Each run is made of a seed: `--first SEED
--runs 1` repeats one.

Where there is a C compiler the sleeps that timed out are counted, too. Some do, since they wait for a slow writer or
reader, or for a tool that has much to do. What counts is how many went on with something then, for which nobody had
woken the thread: none does but in a run that a signal has stopped.
"""

import argparse
import collections
import concurrent.futures
import os
import random
import signal
import subprocess
import sys
import tempfile
import threading
import time
import typing

sys.dont_write_bytecode = True

from places import ROOT  # pylint: disable=wrong-import-position
from random_runs import by_library, by_program, chain_of, library, stream_of  # pylint: disable=wrong-import-position
from waits import counted_in, counter_in, sleeps_told_in  # pylint: disable=wrong-import-position

# seconds after which a run is taken to hang
BOUND = 60


def feed(child, stream, numbers, is_slow):
    """Writes the first 4,000 bytes by parts, with pauses, where the writer is slow, and all else at once."""
    at = 0
    try:
        while at < len(stream):
            size = numbers.choice([1, 7, 100, 1000]) if is_slow and at < 4000 else len(stream)
            child.stdin.write(stream[at : at + size])
            child.stdin.flush()
            at += size
            if is_slow and numbers.random() < 0.05:
                time.sleep(numbers.random() * 0.004)
        child.stdin.close()
    except BrokenPipeError:
        pass


def stop_at_times(child, numbers):
    try:
        for _ in range(numbers.randint(1, 4)):
            time.sleep(numbers.random() * 0.004)
            child.send_signal(signal.SIGSTOP)
            time.sleep(numbers.random() * 0.004)
            child.send_signal(signal.SIGCONT)
    except ProcessLookupError:
        pass


def taken(child, numbers, is_slow):
    """All bytes of the output, the first ones by parts and with pauses where the reader is slow."""
    parts = []
    while True:
        size = numbers.choice([1, 100, 65536]) if is_slow and len(parts) < 40 else 65536
        part = os.read(child.stdout.fileno(), size)
        if not part:
            return b"".join(parts)
        parts.append(part)
        if is_slow and numbers.random() < 0.05:
            time.sleep(numbers.random() * 0.003)


def disturbed(program, words, stream, numbers, environment):
    """The bytes, status and line of a disturbed run, its seconds, and whether a signal stopped it."""
    start = time.monotonic()
    pipe = subprocess.PIPE
    child = subprocess.Popen([program, *words], stdin=pipe, stdout=pipe, stderr=pipe, env=environment)
    if numbers.random() < 0.5:
        os.sched_setaffinity(child.pid, {numbers.choice(sorted(os.sched_getaffinity(0)))})
    lines = []
    is_fed_slowly, is_stopped, is_read_slowly = (numbers.random() < part for part in (0.3, 0.2, 0.2))
    threads = [threading.Thread(target=feed, args=(child, stream, random.Random(numbers.random()), is_fed_slowly))]
    threads.append(threading.Thread(target=lambda: lines.append(child.stderr.read())))
    if is_stopped:
        threads.append(threading.Thread(target=stop_at_times, args=(child, random.Random(numbers.random()))))
    for thread in threads:
        thread.start()
    bound = threading.Timer(BOUND, child.kill)
    bound.start()
    made = taken(child, numbers, is_read_slowly)
    child.wait()
    bound.cancel()
    for thread in threads:
        thread.join()
    child.stdout.close()
    child.stderr.close()
    return made, child.returncode, lines[0].decode(), time.monotonic() - start, is_stopped


class Judged(typing.NamedTuple):
    """The seconds of a run, its sleeps that timed out, of which the second ones went on with something, whether a
    signal stopped it, the line that it ended with, and what is wrong, if anything."""

    seconds: float
    sleeps: tuple[int, int]
    is_stopped: bool
    line: str
    fault: str | None


def judged(asked, seed, counter, folder):
    """A run, judged by one in one thread, or by a quiet one."""
    numbers = random.Random(seed)
    stream, width, height, depth = stream_of(numbers)
    chain = chain_of(numbers, width, height, depth)
    ring = numbers.choice([1, 1, 2, 2, 3, 8, 64, numbers.randint(1, 1024), 1024])
    lanes, plain = numbers.choice([1, 1, numbers.randint(1, 8)]), numbers.random() < 0.3
    words = ["--ring", str(ring), "--lanes", str(lanes), *["--plain"] * plain, chain]
    if asked.module:
        want = by_library(asked.module, stream, chain, plain)
    else:
        want = by_program(asked.reference or asked.program, stream, chain, plain)
    told = os.path.join(folder, str(seed))
    environment = counted_in(counter, told)
    made, status, line, seconds, is_stopped = disturbed(asked.program, words, stream, numbers, environment)
    sleeps = sleeps_told_in(told) if counter else (0, 0)
    both = sorted((made, want[0]), key=len)
    fits = both[1].startswith(both[0]) if status else both[0] == both[1]
    if (status, line) == (1 if want[1] else 0, want[1]) and fits:
        return Judged(seconds, sleeps, is_stopped, line, None)
    fault = f"{status}, {line}, {len(made)} bytes; wanted {want[1]}, {len(want[0])} bytes"
    return Judged(seconds, sleeps, is_stopped, line, f"seed {seed}: {words}: {fault}")


def seeds_of(asked):
    """The seeds of the runs: so many, or as many as begin within the seconds."""
    end, seed = time.monotonic() + asked.seconds, asked.first
    while seed < asked.first + asked.runs if asked.runs else time.monotonic() < end:
        yield seed
        seed += 1


def main():
    parser = argparse.ArgumentParser(description=__doc__.split("\n", maxsplit=1)[0])
    parser.add_argument("--program", default=os.path.join(ROOT, "bin/pnmpipe"))
    parser.add_argument("--reference", help="the program whose quiet runs are compared with, in place of the library")
    parser.add_argument("--seconds", type=float, default=60, help="how long runs are started")
    parser.add_argument("--first", type=int, default=None, help="the first seed; by default one of the clock's")
    parser.add_argument("--runs", type=int, default=None)
    asked = parser.parse_args()
    asked.program = os.path.abspath(asked.program)
    asked.first = time.time_ns() // 1_000_000 if asked.first is None else asked.first
    asked.module = None if asked.reference else library()
    print(f"soak: seeds from {asked.first}, beside {'the library' if asked.module else 'quiet runs'}", flush=True)
    runs, wrong, longest, sleeps, vain, lines = 0, 0, (0.0, None), 0, {False: 0, True: 0}, collections.Counter()
    with tempfile.TemporaryDirectory() as folder, concurrent.futures.ThreadPoolExecutor(2 * os.cpu_count()) as pool:
        counter, waiting = counter_in(folder), collections.deque()
        seeds = seeds_of(asked)
        while True:
            seed = next(seeds, None)
            if seed is not None:
                waiting.append((seed, pool.submit(judged, asked, seed, counter, folder)))
            if not waiting:
                break
            if seed is not None and len(waiting) < 4 * os.cpu_count():
                continue
            seed, run = waiting[0][0], waiting.popleft()[1].result()
            runs, longest, sleeps = runs + 1, max(longest, (run.seconds, seed)), sleeps + sum(run.sleeps)
            vain[run.is_stopped] += run.sleeps[1]
            lines[run.line.rpartition(": ")[2].strip() or "well"] += 1
            if run.sleeps[1] and not run.is_stopped:
                print(f"soak: seed {seed}: {run.sleeps[1]} sleeps went on by their time-out", flush=True)
            if run.fault:
                wrong += 1
                print(f"soak: {run.fault}", flush=True)
    print(f"soak: {runs} runs, {wrong} wrong, the longest {longest[0]:.2f} s by seed {longest[1]}; {dict(lines)}")
    if counter:
        print(f"soak: {sleeps} sleeps timed out, of which {sum(vain.values())} went on with something, "
              f"{vain[True]} of these in runs that a signal stopped")
    return 1 if wrong or not runs else 0


if __name__ == "__main__":
    sys.exit(main())
