"""The program with 1, 2, 4 and 8 lanes: file to memory, the best and the median run, the bytes compared.

A line for each image and tool: the wall seconds, best / median, with each number of lanes, and the median with one
lane over the least of these medians. The images have rows of 64 samples, of which each is little work for a thread,
and of 18,000. The runs with different numbers of lanes take turns, one process at a time. Where such an image is
large, `pamdepth` takes its samples from a table; it divides for each where an image has no more samples than its
maxval, as those of `small16` and `flat16` do, of which the second has three rows. Needs some 400 MB of memory for
files, in /dev/shm or --folder.
"""

import os
import statistics

from measure import print_columns, print_line, same_bytes, timed, written

RUNS = 5


def gray(width, height, maxval):
    return b"P5\n%d %d\n%d\n" % (width, height, maxval)


def colors(width, height):
    return b"P7\nWIDTH %d\nHEIGHT %d\nDEPTH 4\nMAXVAL 255\nTUPLTYPE RGB_ALPHA\nENDHDR\n" % (width, height)


# the name, the header of each image, the bytes of its raster, and how many there are
IMAGES = {
    "narrow": (gray(64, 781250, 255), 64 * 781250, 2),
    "wide": (gray(18000, 5556, 255), 18000 * 5556, 1),
    "small16": (gray(64, 1023, 65535), 64 * 1023 * 2, 764),
    "flat16": (gray(18000, 3, 65535), 18000 * 3 * 2, 926),
    "narrow colors": (colors(16, 781250), 64 * 781250, 2),
    "wide colors": (colors(4500, 5556), 18000 * 5556, 1),
}

CASES = [
    ("narrow", "pamdepth 1000"),
    ("wide", "pamdepth 1000"),
    ("small16", "pamdepth 1000"),
    ("flat16", "pamdepth 1000"),
    ("narrow", "pnminvert"),
    ("wide", "pnminvert"),
    ("narrow colors", "pamchannel 0"),
    ("wide colors", "pamchannel 0"),
]

LANES = [1, 2, 4, 8]


def measured(program, chain, source, folder, runs):
    """The wall seconds of the runs by their number of lanes, in turn, or None where a run failed or wrote other
    bytes."""
    first, made = os.path.join(folder, "first"), os.path.join(folder, "made")
    seconds = {lanes: [] for lanes in LANES}
    for run in range(runs):
        for lanes in LANES:
            target = first if run == 0 and lanes == LANES[0] else made
            result = timed([program, "--lanes", str(lanes), chain], source, target)
            same = result and (target == first or same_bytes(first, made))
            if not same:
                seconds[lanes] = None
            elif seconds[lanes] is not None:
                seconds[lanes].append(result[0])
    return seconds


def shown(seconds):
    return "FAILED OR OTHER BYTES" if seconds is None else "%.3f / %.3f" % (min(seconds), statistics.median(seconds))


def gain_of(seconds):
    if None in seconds.values():
        return "-"
    medians = {lanes: statistics.median(each) for lanes, each in seconds.items()}
    return "%.2f" % (medians[LANES[0]] / min(medians.values()))


def add_options(parser):
    parser.add_argument("--image", action="append", choices=list(IMAGES), help="by default all")


def run(args, folder):
    failed = 0
    print_columns(["image", "tool", *(f"{lanes} lane{'s' * (lanes > 1)}" for lanes in LANES), "gain"])
    source, there = os.path.join(folder, "source"), None
    for name, chain in CASES:
        if args.image and name not in args.image:
            continue
        if name != there:
            written(source, *IMAGES[name])
            there = name
        seconds = measured(args.program, chain, source, folder, args.runs)
        failed += sum(each is None for each in seconds.values())
        print_line([name, f"`{chain}`", *map(shown, seconds.values()), gain_of(seconds)])
    return f"{failed} numbers of lanes failed or gave other bytes than the first run" if failed else 0
