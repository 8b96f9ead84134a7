"""How the threads wait: the program beside busy processes on the processors that it has, and a shell pipe of Netpbm's
tools in the same conditions; from a file to memory, medians, the bytes compared.

With --other PATH, another program, it times both in turn on a quiet machine, over numbers of processors, tools, places
of a ring, samples of a row and lanes, and prints geometric means of this one's seconds over the other's.
"""

import contextlib
import itertools
import math
import os
import random
import subprocess
import sys
import time

from measure import Beside, medians_in_turn, print_columns, print_line, status_of, written

RUNS = 7

# processors, busy processes beside, and the name, header and bytes of an image with its tool
COLOR = ("rows of 3 bytes", b"P6\n1 300000\n255\n", 900_000, "pamchannel 0")
RECEIPT = ("rows of 72 bytes", b"P4\n576 300000\n", 72 * 300_000, "pamflip -tb")
PHOTO = ("PPM, 4,032 by 3,024", b"P6\n4032 3024\n255\n", 3 * 4032 * 3024, "pnminvert")
CELLS = [
    *((1, 1, line) for line in (COLOR, RECEIPT, PHOTO)),
    *((2, 2, line) for line in (COLOR, RECEIPT, PHOTO)),
    *((1, 0, line) for line in (COLOR, RECEIPT, PHOTO)),
]

THREE = "pamchannel 0 | pnminvert | pamflip -lr"
CHAINS = {1: "pamchannel 0", 3: THREE, 16: " | ".join([THREE] * 5 + ["pamchannel 0"])}
FACTORS = {
    "processors": (1, 2, 4),
    "tools": tuple(CHAINS),
    "ring": (1, 8, 64),
    "samples a row": (16, 64, 1000, 20000),
    "lanes": (1, 3, 8),
}
SAMPLES = 500_000


def on(processors):
    return ["taskset", "-c", f"0-{processors - 1}"]


@contextlib.contextmanager
def busy(count):
    """So many processes that never wait, each on a processor of its own."""
    loop = [sys.executable, "-c", "while True: pass"]
    children = [subprocess.Popen(["taskset", "-c", str(number), *loop]) for number in range(count)]
    time.sleep(0.3)
    try:
        yield
    finally:
        for child in children:
            child.kill()
            child.wait()


def add_options(parser):
    parser.add_argument("--other", metavar="PATH", help="another program, to compare with on a quiet machine")
    parser.add_argument("--seconds", type=float, default=3600, help="how long that may take")


def beside_busy(args, folder):
    """A line for each cell; how many give other bytes than Netpbm's tool."""
    table = Beside(args, folder, ["processors", "busy beside", "image", "tool"])
    for processors, count, (name, header, size, tool) in CELLS:
        path = written(os.path.join(folder, "image"), header, size)
        with busy(count):
            labels = [processors, count, name, tool]
            table.line(labels, path, [tool], ["sh", "-c", tool], before=on(processors))
    return table.differing


def mean_of(ratios):
    return math.exp(sum(map(math.log, ratios)) / len(ratios))


def compared(programs, runs, cell, folder):
    """How many times the wall and processor seconds of the second program the first takes, by medians in turn."""
    processors, tools, ring, width, lanes = cell
    path = os.path.join(folder, str(width))
    if not os.path.exists(path):
        height = max(20, SAMPLES // width)
        written(path, b"P5\n%d %d\n255\n" % (width, height), width * height)
    words = ["--ring", str(ring), "--lanes", str(lanes), CHAINS[tools]]
    calls = [([*on(processors), program, *words], os.devnull) for program in programs]
    results = medians_in_turn(calls, path, runs)
    if None in results:
        sys.exit(f"{words}: a run failed")
    return [max(mine, 0.001) / max(other, 0.001) for mine, other in zip(*results)][:2]


def compare(programs, runs, seconds, folder):
    """Geometric means over all cells that there is time for, in random order, and by each number of a factor."""
    cells = [cell for cell in itertools.product(*FACTORS.values()) if cell[0] <= os.cpu_count()]
    random.Random(1).shuffle(cells)
    start, told = time.monotonic(), []
    for cell in cells:
        if time.monotonic() - start > seconds:
            break
        told.append((cell, compared(programs, runs, cell, folder)))
    groups = [("all", [ratios for _, ratios in told])]
    for at, (name, numbers) in enumerate(FACTORS.items()):
        groups += [(f"{name}: {number}", [ratios for cell, ratios in told if cell[at] == number]) for number in numbers]
    print(f"{len(told)} of {len(cells)} cells")
    print_columns(["", "wall", "processor"])
    for name, ratios in groups:
        if ratios:
            walls, used = zip(*ratios)
            print_line([name, f"{mean_of(walls):.2f}", f"{mean_of(used):.2f}"])


def run(args, folder):
    if args.other:
        return compare((args.program, args.other), args.runs, args.seconds, folder)
    return status_of(beside_busy(args, folder))
