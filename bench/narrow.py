"""Chains beside a shell pipe of Netpbm's tools, over narrow rows and small images: file to memory, medians, the bytes
compared. A line for each image and chain: wall seconds, processor seconds and the greatest resident memory in MB (no
less than this script's own, some 19) of the program, of each program named by --beside NAME=PATH and of the pipe, and
the program's wall and processor time over the pipe's."""

import os

from measure import Beside, add_options_beside, written
from tool_examples import untried

RUNS = 7

PAGE_CHAIN = "pamcut -left 8 -right -9 | pamflip -lr | pnminvert"
LETTER_CHAIN = "pamcut -left 75 -right -76 | pamflip -lr | pnminvert"
ICON_CHAINS = ["pamcut -left 8", "pamcut -left 8 | pamdepth 127"]

CUT = "pamcut -left 8 -right -9 -top 8 -bottom -9"
FOUR = "pamcut -left 8 -right -9 | pamflip -lr | pnminvert | pamenlarge 2"
TURNS = ["pamflip -tb", "pamflip -r180", "pamflip -r90"]
RGBA = b"P7\nWIDTH 32\nHEIGHT 32\nDEPTH 4\nMAXVAL 255\nTUPLTYPE RGB_ALPHA\nENDHDR\n"

# each tool once, over rows of few samples, by the chains of the stored figures; some images have a cut and a tile of
# their own
EACH = ["pnminvert", "pamdepth 100", "pamchannel 0", "pamflip -lr", "pamflip -xy", "pamflip -r180", "pamenlarge 2"]
EACH += untried([*EACH, "pamcut", "pnmtile"])

# by what pixels are enlarged, and how many times as many rows there are for that: a result takes 32 to 127 MB
FACTORS = [(2, 64), (8, 8), (32, 1)]


def enlarged(name, header, size, rows):
    """An image for each factor: its name, header and size, and the chain."""
    heights = [(factor, times * rows) for factor, times in FACTORS]
    return [(name, header % height, size * height, 1, [f"pamenlarge {factor}"]) for factor, height in heights]


# the name, the header and the bytes of the raster of an image, how many there are, and the chains
STREAMS = [
    ("page", b"P4\n2480 56128\n", 310 * 56128, 1, ["pnminvert", PAGE_CHAIN, "pamflip -tb", "pamenlarge 2"]),
    ("A4 page", b"P4\n2480 3508\n", 310 * 3508, 1, ["pamflip -r90"]),
    ("letter", b"P4\n2550 56128\n", 319 * 56128, 1, ["pnminvert", LETTER_CHAIN]),
    ("page at 600", b"P4\n4960 28060\n", 620 * 28060, 1, [CUT]),
    ("letter at 600", b"P4\n5100 28064\n", 638 * 28064, 1, [CUT]),
    ("page at 1200", b"P4\n9921 14031\n", 1241 * 14031, 1, [CUT]),
    ("label", b"P4\n384 400000\n", 48 * 400000, 1, ["pnminvert"]),
    ("receipt", b"P4\n576 200000\n", 72 * 200000, 1, [*TURNS, "pamenlarge 2", "pamenlarge 4", FOUR]),
    ("label of 812", b"P4\n812 100000\n", 102 * 100000, 1, ["pamflip -r90", "pamenlarge 2", FOUR]),
    ("64 a row", b"P5\n64 500000\n255\n", 64 * 500000, 1, ["pamcut -left 8 | pamdepth 127", "pamflip -tb", *EACH]),
    ("16 a row", b"P5\n16 500000\n255\n", 16 * 500000, 1, ["pamcut -left 2", *EACH, "pnmtile 16 600000"]),
    ("color of 16", b"P6\n16 200000\n255\n", 48 * 200000, 1, [*EACH, "pamenlarge 3", "pnmtile 200 200000"]),
    ("words of 64", b"P5\n64 100000\n65535\n", 128 * 100000, 1, ["pamcut -left 4", "pamdepth 255", *EACH]),
    ("stamps", b"P4\n200 100\n", 2500, 10000, [CUT]),
    ("digits", b"P5\n28 28\n255\n", 784, 20000, [CUT]),
    ("RGBA icons", RGBA, 4096, 8000, [CUT, "pamchannel 0 -tupletype GRAYSCALE"]),
    ("64 by 64", b"P5\n64 64\n255\n", 64 * 64, 20000, ICON_CHAINS),
    ("1 by 1", b"P5\n1 1\n255\n", 1, 100000, ["pamcut | pamcut | pamcut"]),
    ("gray page", b"P5\n2480 7016\n255\n", 2480 * 7016, 1, ["pnminvert"]),
    ("color page", b"P6\n2480 3508\n255\n", 7440 * 3508, 1, ["pnminvert"]),
    ("photo", b"P6\n4032 3024\n255\n", 12096 * 3024, 1, ["pnminvert"]),
    *enlarged("bits of 2480", b"P4\n2480 %d\n", 310, 400),
    *enlarged("bits of 20000", b"P4\n20000 %d\n", 2500, 50),
    *enlarged("gray of 2480", b"P5\n2480 %d\n255\n", 2480, 50),
    *enlarged("color of 2480", b"P6\n2480 %d\n255\n", 7440, 17),
    *enlarged("words of 2480", b"P5\n2480 %d\n65535\n", 4960, 25),
]


def add_options(parser):
    add_options_beside(parser, list(dict.fromkeys(stream[0] for stream in STREAMS)))


def run(args, folder):
    table = Beside(args, folder, ["image", "chain"])
    for name, header, size, count, chains in STREAMS:
        if args.image and name not in args.image:
            continue
        path = written(os.path.join(folder, name), header, size, count)
        for chain in chains:
            table.line([name, chain], path, [chain], ["sh", "-c", chain])
        os.remove(path)
    return table.end(args)
