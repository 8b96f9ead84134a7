#!/usr/bin/env python3
"""Wants runs to do with little room: a stack of few KiB, the memory of what `pnmtile` shows, and that of a plain
image's rows; and small PAM images to take no more time if their headers are written in another way.

Each command of `refused.py` has to end as it does with room enough, in a stack of 32 KiB for one tool, of the main
thread and of each thread that the program starts, and of some more for each further tool, which is started within the
frame of the one behind it, and for each further lane, which is started within that of the next one. A stack that is
too small ends a run by a signal, which no line names, so a frame that grows, as by a buffer that lies in it, is
refused here. The system takes up to 8 KiB of the main thread's stack, at random.

`pnmtile` keeps the columns that it shows, and no whole rows of an image that is larger than what fits beside them. The
rows of a plain bitmap of one column are held as those of a raw one, eight pixels a byte, by what turns it upside down.

Whether a header is held whole is asked before each image, so the search for its last line must not go beyond that.
"""

import argparse
import itertools
import os
import resource
import shlex
import subprocess
import sys
import textwrap
import threading

from places import ROOT
from refused import LANES, MOST_TOOLS, STREAM, Answer, Command, Fault, commands, judge

# KiB of the stack for one tool, and for each further one, and for each further lane
FIRST = 32
FURTHER = 6
FURTHER_LANE = 3

# a PGM image of 80 MB, five of whose columns are shown, and the MB that may be resident at any time
WIDE, HIGH = 10_000, 8_000
SHOWN = 5
RESIDENT = 10

# a plain bitmap of one column and the greatest height, and the most MB that may be resident: a byte a row are 16
TALL, RESIDENT_OF_TALL = 16_777_216, 40

# so many images of a pixel, with the last line of the header as the program writes it, and in other ways; how many
# times as much time these may take, and the seconds that don't count
PIXELS = 20_000
LINES = b"WIDTH 1\nHEIGHT 1\nDEPTH 1\nMAXVAL 255\n"
EXACT, OTHERS = b"ENDHDR\n", (b"ENDHDR \n", b"ENDHDR\r\n", b" ENDHDR x\n")
MOST_TIMES, LITTLE = 4, 0.3


def tools_of(command):
    return command.words[-1].count("|") + 1


def lanes_of(command):
    words = command.words
    return int(words[words.index("--lanes") + 1]) if "--lanes" in words else 1


def all_commands(program):
    """The commands, and the most tools over the most lanes, which are too many to refuse each of their threads."""
    yield from commands(program)
    chain = " | ".join(["pnminvert"] * MOST_TOOLS)
    yield Command(["--ring", "1", "--lanes", str(max(LANES)), chain], STREAM, STREAM, MOST_TOOLS)


def run(program, command, room, seconds):
    """Runs the command in a stack of so many KiB, without variables, which lie in it too."""
    words = ["/bin/sh", "-c", 'ulimit -s "$0" && exec "$@"', str(room), program, *command.words]
    ran = subprocess.run(words, input=command.given, capture_output=True, env={}, timeout=seconds)
    judge(command, Answer(ran.returncode, ran.stdout, ran.stderr.decode(errors="replace"), 0, 0))


def name_of(command):
    return textwrap.shorten(shlex.join(command.words), 90, placeholder=" ..")


def check_stacks(args):
    """Runs each command in its stack. Gives how many ran, and how many of them failed."""
    count = failed = 0
    for command in all_commands(args.program):
        further = FURTHER * (tools_of(command) - 1) + FURTHER_LANE * (lanes_of(command) - 1)
        room = FIRST + further
        count += 1
        try:
            run(args.program, command, room, args.seconds)
        except Fault as fault:
            failed += 1
            print(f"room: in {room} KiB: {name_of(command)}: {fault}", file=sys.stderr)
    return count, failed


def peak_of(process):
    """The most memory that a running process has had since it began its program, in MB: what wait4(2) tells has that of
    this script in it, too, whose child it was."""
    with open(f"/proc/{process.pid}/status") as status:
        return next(int(line.split()[1]) for line in status if line.startswith("VmHWM:")) // 1024


def check_memory(args, chain, given, want, come, most):
    """Whether a chain makes of these parts of an input what it has to, and less memory than so many MB is resident once
    so much of that has come, while the input is still open. Gives 1 where not."""
    with subprocess.Popen([args.program, chain], stdin=subprocess.PIPE, stdout=subprocess.PIPE) as child:
        giver = threading.Thread(target=lambda: [*map(child.stdin.write, given), child.stdin.flush()])
        giver.start()
        written = child.stdout.read(come)
        resident = peak_of(child)
        giver.join()
        child.stdin.close()
        written += child.stdout.read()
    print(f"room: {resident} MB for {chain}")
    return 0 if written == want and child.returncode == 0 and resident < most else 1


def check_tiles(args):
    row = bytes(range(250)) * (WIDE // 250)
    want = b"P5\n%d %d\n255\n" % (SHOWN, HIGH) + row[:SHOWN] * HIGH
    given = itertools.chain([b"P5\n%d %d\n255\n" % (WIDE, HIGH)], itertools.repeat(row, HIGH))
    # (the whole result comes, and the program waits for another image)
    return check_memory(args, f"pnmtile {SHOWN} {HIGH}", given, want, len(want), RESIDENT)


def check_column(args):
    digits = "".join(f"{byte:08b}" for byte in range(256)).encode() * (TALL // 2048)
    want = b"P4\n1 %d\n" % TALL + digits[::-1].translate(bytes.maketrans(b"01", b"\x00\x80"))
    # (the rest is more than a pipe holds, so the program hasn't ended yet)
    return check_memory(args, "pamflip -tb", [b"P1\n1 %d\n" % TALL, digits, b"\n"], want, TALL // 2, RESIDENT_OF_TALL)


def seconds_of_pixels(args, last_line):
    """The processor's time for images whose header has this last line."""
    before = resource.getrusage(resource.RUSAGE_CHILDREN)
    given = (b"P7\n" + LINES + last_line + b"\x01") * PIXELS
    made = subprocess.run([args.program, "pnminvert"], input=given, capture_output=True, timeout=600, check=True)
    after = resource.getrusage(resource.RUSAGE_CHILDREN)
    if made.stdout != (b"P7\n" + LINES + EXACT + b"\xfe") * PIXELS:
        raise Fault("other pixels were written")
    return after.ru_utime + after.ru_stime - before.ru_utime - before.ru_stime


def check_headers(args):
    """How many ways to write the last line of a PAM header take more time than they may, in two tries."""
    failed = 0
    for other in OTHERS:
        for _ in range(2):
            exact, seconds = (seconds_of_pixels(args, line) for line in (EXACT, other))
            if seconds <= MOST_TIMES * exact + LITTLE:
                break
        else:
            failed += 1
            print(f"room: {PIXELS} headers with {other!r} took {seconds:.2f} s, and {exact:.2f} s with {EXACT!r}")
    return failed


def main():
    parser = argparse.ArgumentParser(description=__doc__.split("\n\n")[0])
    parser.add_argument("--program", default=os.path.join(ROOT, "bin/pnmpipe"))
    parser.add_argument("--seconds", type=float, default=60, help="how long a run may take")
    args = parser.parse_args()
    args.program = os.path.abspath(args.program)
    count, failed = check_stacks(args)
    memory, headers = check_tiles(args) + check_column(args), check_headers(args)
    print(f"room: {count} commands, {failed} of them failed in their stack, {memory} runs in their memory")
    print(f"room: {headers} of {len(OTHERS)} headers took more time")
    sys.exit(1 if failed or memory or headers or not count else 0)


if __name__ == "__main__":
    main()
