"""What the tables share: images, runs that are timed, bytes that are compared, lines, and the file of figures."""

import os
import random
import statistics
import subprocess
import sys
import tempfile
import time

HERE = os.path.dirname(os.path.abspath(__file__))
ROOT = os.path.dirname(HERE)

# images and results lie in memory, if the system has a folder for that
IN_MEMORY = "/dev/shm" if os.path.isdir("/dev/shm") else None

# (library_calls.py links the C library as scripts/library.py says, and curves.py measures what scripts/charts.py draws)
sys.path.append(os.path.join(ROOT, "scripts"))


def pair_of(text):
    """A name and the path of a program, of NAME=PATH."""
    name, _, path = text.partition("=")
    return name, path


def add_options(parser, runs):
    """The options of every table."""
    parser.add_argument("--program", default=os.path.join(ROOT, "bin/pnmpipe"))
    parser.add_argument("--runs", type=int, default=runs, help=f"of each, {runs} by default")
    parser.add_argument("--folder", default=IN_MEMORY, help="where images and results lie")


def add_options_beside(parser, images):
    """The options of a table of programs beside Netpbm's tools."""
    parser.add_argument("--beside", action="append", default=[], type=pair_of, metavar="NAME=PATH")
    parser.add_argument("--image", action="append", choices=images, help="by default all")
    parser.add_argument("--figures", metavar="FILE", help="a file whose figures are put in place of those there")


def written(path, header, size, count=1):
    """Writes an image of random bytes, or several, some bytes at a time, and gives its path."""
    numbers = random.Random(1)
    with open(path, "wb") as file:
        for _ in range(count):
            file.write(header)
            for start in range(0, size, 1 << 20):
                file.write(numbers.randbytes(min(1 << 20, size - start)))
    return path


def timed(words, source, target):
    """Wall seconds, processor seconds and peak MB of one run; None where it fails. The system counts what this script
    itself takes as the least peak of a child."""
    with open(source, "rb") as stdin, open(target, "wb") as stdout:
        start = time.perf_counter()
        child = subprocess.Popen(words, stdin=stdin, stdout=stdout)
        _, status, usage = os.wait4(child.pid, 0)
        wall = time.perf_counter() - start
        child.returncode = status
    if status != 0:
        return None
    return wall, usage.ru_utime + usage.ru_stime, usage.ru_maxrss / 1024


def medians_in_turn(calls, source, runs):
    """The medians of each call's runs, where the calls, words with a target, take turns; None for one that failed."""
    rounds = [[timed(words, source, target) for words, target in calls] for _ in range(runs)]
    return [None if None in results else tuple(map(statistics.median, zip(*results))) for results in zip(*rounds)]


def median_of(words, source, target, runs):
    return medians_in_turn([(words, target)], source, runs)[0]


def same_bytes(one, other):
    return subprocess.run(["cmp", "-s", one, other]).returncode == 0


def built(folder, source):
    """A program in C of this folder, built."""
    program = os.path.join(tempfile.mkdtemp(dir=folder), os.path.splitext(source)[0])
    subprocess.run(["cc", "-O2", "-o", program, os.path.join(HERE, source)], check=True)
    return program


def shown(result):
    return "failed" if result is None else "%.3f / %.3f / %.0f" % result


def print_columns(names):
    print("| " + " | ".join(names) + " |\n" + "|---" * len(names) + "|")


def print_line(cells):
    print("| " + " | ".join(str(cell) for cell in cells) + " |", flush=True)


def over(result, peer):
    """The wall and the processor seconds of a run over those of its peer."""
    return result[0] / peer[0], result[1] / max(peer[1], 0.001)


def status_of(differing):
    """How a table ends: it fails, and says so, if results differ or a run failed."""
    return f"{differing} results differ from Netpbm's or failed" if differing else 0


class Beside:
    """A table of programs beside Netpbm's tools: of each wall seconds, processor seconds and MB, by medians, and the
    first program's wall and processor time over Netpbm's."""

    def __init__(self, args, folder, labels, further=()):
        self.runs, self.programs = args.runs, [("pnmpipe", args.program), *getattr(args, "beside", [])]
        self.wanted, self.made = (os.path.join(folder, name) for name in ("wanted", "made"))
        self.differing = 0
        # wall seconds of the first program and of Netpbm's tool, and their processor seconds, by image and tool
        self.figures = {}
        print_columns([*labels, *(name for name, _ in self.programs), "Netpbm", *further, "over Netpbm"])

    def median(self, words, path):
        return median_of(words, path, self.made, self.runs)

    def line(self, labels, path, words, peer_words, before=(), same=same_bytes, further=lambda peer: []):
        """A line: `before` are words before each program's, `same` compares two results, `further` gives more cells.
        The last two labels are the image and the tool."""
        peer = median_of([*before, *peer_words], path, self.wanted, self.runs)
        results, cells = [], []
        for _, program in self.programs:
            result = self.median([*before, program, *words], path)
            fits = result and peer and same(self.wanted, self.made)
            self.differing += not fits
            results.append(result)
            cells.append(shown(result) + ("" if fits else " (OTHER BYTES)"))
        first, ratio = results[0], "-"
        *ahead, image, tool = labels
        if first and peer:
            self.figures[image, tool] = first[0], peer[0], first[1], peer[1]
            ratio = "%.2f, %.2f" % over(first, peer)
        print_line([*ahead, image, f"`{tool}`", *cells, shown(peer), *further(peer), ratio])

    def end(self, args):
        """Writes the figures, if a file is named, and gives the status."""
        if args.figures:
            write_figures(args.figures, self.figures)
        return status_of(self.differing)


def write_figures(path, figures):
    """Puts figures in place of those that a file has for the same image and tool, or behind all."""
    with open(path, encoding="utf-8") as file:
        head, *lines = file.read().splitlines()
    known = {tuple(line.split("\t")[:2]): line for line in lines}
    for (image, tool), seconds in figures.items():
        known[image, tool] = "\t".join([image, tool, *("%.3f" % it for it in seconds)])
    with open(path, "w", encoding="utf-8") as file:
        file.write("\n".join([head, *known.values()]) + "\n")
