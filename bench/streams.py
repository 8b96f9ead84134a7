"""Streams between descriptors by the C library, beside the program: processor seconds and the most MB resident of runs
over streams of each kind, whose size is doubled three times. The time has to grow as the size does, and the memory with
the largest image alone. For what make and make library have left.
"""

import os
import statistics
import subprocess
import sys

from measure import ROOT, print_columns, print_line, timed

import library

sys.path.append(os.path.join(ROOT, "scripts/tests"))

from library_streams import stream_kinds

RUNS = 3

MB = 1_000_000
SIZES = [20 * MB, 40 * MB, 80 * MB, 160 * MB]

CHAIN = "pamflip -null"


def add_options(parser):
    parser.add_argument("--library", default=f"{ROOT}/bin", help="the folder that has it")


def driver_of(folder, built):
    """The program of the tests that passes a stream through the library."""
    made, shared = os.path.join(folder, "command"), os.path.join(built, library.SHARED)
    words = [library.compiler(), "-std=c99", "-O2", "-I", built, "-o", made]
    words += [os.path.join(library.SOURCE, "tests/command.c"), shared, f"-Wl,-rpath,{os.path.abspath(built)}"]
    subprocess.run(words, check=True)
    return made


def cell(words, source, target, runs):
    """The median of the processor seconds, and the most MB."""
    results = [timed(words, source, target) for _ in range(runs)]
    if None in results:
        return "failed"
    return "%.2f / %.0f" % (statistics.median(it[1] for it in results), max(it[2] for it in results))


def run(args, folder):
    if not os.path.exists(os.path.join(args.library, library.SHARED)) or not library.compiler():
        return "bench streams: there is no library or no C compiler: run make library first"
    driver = driver_of(folder, args.library)
    source, target = (os.path.join(folder, it) for it in ("stream", "results"))
    print_columns(["Stream", "By", *(f"{size // MB} MB" for size in SIZES)])
    for kind, _ in enumerate(list(stream_kinds(MB))):
        cells = {"the library": [], "the program": []}
        for size in SIZES:
            what, stream = list(stream_kinds(size))[kind]
            with open(source, "wb") as file:
                file.write(stream)
            cells["the library"].append(cell([driver, "fd", "raw", CHAIN], source, target, args.runs))
            cells["the program"].append(cell([args.program, CHAIN], source, target, args.runs))
        for way, told in cells.items():
            print_line([what, way, *told])
    return 0
