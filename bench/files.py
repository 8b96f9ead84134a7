"""Many files through one chain, in each way, beside Netpbm: files a second, the results compared.

The files: 10,000 PGM images of 64 by 64, and 300 pages of A4 in bits. The ways: pnmpipe-files with the C library in
process, and by calls of pnmpipe alone; one call of pnmpipe over all files as a stream, parted by pnmpipe-split; and by
xargs on all processors a call of pnmpipe for each file, and Netpbm's tools in a pipe of the shell for each. For a quiet
machine, with the program and the library that make and make library have left, and Netpbm.
"""

import os
import random
import shutil
import statistics
import subprocess
import sys
import time

from measure import ROOT, built, print_columns, print_line

RUNS = 3
CHAIN = "pamcut -left 8 -right -9 | pamflip -lr | pnminvert"

XARGS = 'xargs -a list -d "\\n" -P "$(nproc)" -n 8 sh -c \'for file; do %s > "out/${file##*/}"; done\' sh'
IN_PROCESS = "`pnmpipe-files`, with the C library"
FLOOR = "a loop in C that only reads and writes"
WAYS = {
    IN_PROCESS: 'pnmpipe-files "$CHAIN" out --names list',
    "`pnmpipe-files`, a call of `pnmpipe` a file": 'pnmpipe-files --small 0 "$CHAIN" out --names list',
    "one `pnmpipe` over all, and `pnmpipe-split`": 'xargs -d "\\n" cat -- < list | pnmpipe "$CHAIN" '
    "| pnmpipe-split --names list out/",
    "a call of `pnmpipe` a file, by `xargs -P`": XARGS % 'pnmpipe "$CHAIN" < "$file"',
    "Netpbm's three tools a file, by `xargs -P`": XARGS
    % 'pamcut -left 8 -right -9 "$file" | pamflip -lr | pnminvert',
}

# a name, the suffix, how many files, and what makes one of random numbers
SETS = [
    ("64 by 64", "pgm", 10_000, lambda numbers: b"P5\n64 64\n255\n" + numbers.randbytes(64 * 64)),
    ("pages of A4 in bits", "pbm", 300, lambda numbers: b"P4\n2480 3508\n" + numbers.randbytes(310 * 3508)),
]


def fill(folder, suffix, count, image):
    """Writes the files, and a list of them."""
    shutil.rmtree(f"{folder}/in", ignore_errors=True)
    os.makedirs(f"{folder}/in")
    numbers = random.Random(1)
    with open(f"{folder}/list", "w", encoding="utf-8") as names:
        for number in range(count):
            name = f"in/{number:06}.{suffix}"
            names.write(name + "\n")
            with open(f"{folder}/{name}", "wb") as file:
                file.write(image(numbers))


def results(folder):
    made = {}
    for name in sorted(os.listdir(f"{folder}/out")):
        if not name.endswith(".log"):
            with open(f"{folder}/out/{name}", "rb") as file:
                made[name] = file.read()
    return made


def times_of(folder, environment, count, runs):
    """How many files each way does a second, once all have made the same of them."""
    times, wanted = {way: [] for way in WAYS}, None
    for _ in range(runs):
        for way, script in WAYS.items():
            shutil.rmtree(f"{folder}/out", ignore_errors=True)
            os.mkdir(f"{folder}/out")
            start = time.perf_counter()
            subprocess.run(["sh", "-c", script], cwd=folder, env=environment, check=True, stderr=subprocess.DEVNULL)
            times[way].append(time.perf_counter() - start)
            made = results(folder)
            wanted = wanted or made
            if len(made) != count or (made != wanted and way != FLOOR):
                sys.exit(f"bench files: {way}: other results")
    return {way: count / statistics.median(taken) for way, taken in times.items()}


def add_options(parser):
    parser.add_argument("--library", default=f"{ROOT}/bin/libpnmpipe.so.1")
    parser.add_argument("--floor", action="store_true", help="beside them a loop in C that only reads and writes")


def run(args, folder):
    if not shutil.which("pamcut"):
        return "bench files: Netpbm isn't installed"
    if not os.path.exists(args.library):
        print(f"bench files: there is no {args.library}, so nothing is run in process")
        del WAYS[IN_PROCESS]
    os.mkdir(f"{folder}/bin")
    os.symlink(os.path.abspath(args.program), f"{folder}/bin/pnmpipe")
    path = f"{folder}/bin:{ROOT}/helpers:{os.environ['PATH']}"
    environment = {**os.environ, "PATH": path, "CHAIN": CHAIN}
    environment["PNMPIPE_LIBRARY"] = os.path.abspath(args.library)
    if args.floor:
        WAYS[FLOOR] = built(folder, "copies.c")
    found = {}
    for name, suffix, count, image in SETS:
        fill(folder, suffix, count, image)
        found[f"{count:,} {name}"] = times_of(folder, environment, count, args.runs)
    chain = CHAIN.replace("|", "\\|")
    print(f"Files a second through `{chain}`:\n")
    print_columns(["Way", *found])
    for way in WAYS:
        print_line([way, *(f"{rates[way]:,.0f}" for rates in found.values())])
    return 0
