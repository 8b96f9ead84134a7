"""One tool over as many samples in rows of other widths, raw and plain, and more and more tools over one image, beside
Netpbm's own: file to memory, medians, the bytes compared. A line for each image and chain: wall seconds, processor
seconds and the greatest resident memory in MB of the program, of each program named by --beside NAME=PATH and of
Netpbm's tools, and the program's wall and processor time over Netpbm's. Charts show the processor seconds
(scripts/charts.py)."""

import os
import subprocess

from measure import Beside, add_options_beside, written  # first, since it finds the other

from charts import NUMBERS, TOOL, WIDTHS, columns

RUNS = 7

# how many samples an image of each width has, or a few less
SAMPLES = 16_000_000
SHEET = b"P5\n2480 7016\n255\n", 2480 * 7016


def add_options(parser):
    add_options_beside(parser, [*(columns(width, form) for width in WIDTHS for form in ("raw", "plain")), "sheet"])


def images(program, folder):
    """The name of each image, its file, and the chains."""
    raw, plain = (os.path.join(folder, name) for name in ("raw", "plain"))
    for width in WIDTHS:
        height = SAMPLES // width
        written(raw, b"P5\n%d %d\n255\n" % (width, height), width * height)
        yield columns(width, "raw"), raw, [TOOL]
        with open(raw, "rb") as stdin, open(plain, "wb") as stdout:
            subprocess.run([program, "--plain", "pamcut"], stdin=stdin, stdout=stdout, check=True)
        yield columns(width, "plain"), plain, [TOOL]
    yield "sheet", written(raw, *SHEET), [" | ".join([TOOL] * number) for number in NUMBERS]


def run(args, folder):
    table = Beside(args, folder, ["image", "chain"])
    for name, path, chains in images(args.program, folder):
        for chain in chains if not args.image or name in args.image else ():
            table.line([name, chain], path, [chain], ["sh", "-c", chain])
    return table.end(args)
