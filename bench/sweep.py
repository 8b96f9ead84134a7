"""All tools by kinds of images and by options beside Netpbm's own, and each pair that takes more processor time than
Netpbm's tool: file to memory, the bytes compared.

Images are 4,000 wide, but where a factor would make the result too large. The program and Netpbm's tool run in turn;
a line has the medians of their processor seconds, and the one over the other. What is above 1.0 is measured once
more, and the end lists it with both ratios. The ratios hold on a busy machine too, the seconds don't. It takes a
minute or two.
"""

import os
import subprocess

from measure import medians_in_turn, print_columns, print_line, same_bytes, status_of, written
from tool_examples import untried
from tool_table import LEAVING_PAM

RUNS = 3
COLUMNS = ["image", "tool", "pnmpipe", "Netpbm", "over Netpbm"]

WIDTH, BITS = 4000, 64_000_000

# the bits of a pixel, and the header of each kind for a width and a height
KINDS = {
    "pbm": (1, "P4\n{} {}\n"),
    "pgm": (8, "P5\n{} {}\n255\n"),
    "pgm16": (16, "P5\n{} {}\n65535\n"),
    "ppm": (24, "P6\n{} {}\n255\n"),
    "pam": (32, "P7\nWIDTH {}\nHEIGHT {}\nDEPTH 4\nMAXVAL 255\nTUPLTYPE RGB_ALPHA\nENDHDR\n"),
}

# Netpbm's pnminvert and pnmtile take PAM of one plane or three, and make it PGM or PPM: what stays PAM here is made
# so too.
RGB_PAM = (24, "P7\nWIDTH {}\nHEIGHT {}\nDEPTH 3\nMAXVAL 255\nTUPLTYPE RGB\nENDHDR\n")

# a tool with its options, and how many pixels of the result come of one
ENLARGE = [(f"pamenlarge {factor}", factor * factor) for factor in (*range(1, 17), 32, 100, 1000)]
ENLARGE += [(f"pamenlarge -{axis}scale {factor}", factor) for axis in "xy" for factor in (2, 3, 8, 100)]
CUTS = ["", "-left 8 -right -9", "-left 3 -right -4", "-left 3", "-right -4", "-top 10 -bottom -11"]
CUTS += ["-left 1999 -width 9"]
DEPTHS = ["65535", "255", "100", "1"]
FLIPS = ["-null", "-lr", "-tb", "-xy", "-r90", "-r180", "-r270"]
TILES = [("8000 {twice}", 4), ("12001 {high}", 3), ("4000 {twice}", 2), ("1000 {high}", 0.25), ("100 100", 0.1)]
CHANNELS = {"pbm": ["0"], "pgm": ["0", "0 0"], "pgm16": ["0"], "ppm": ["0", "2 1 0", "0 1 2"], "pam": ["3", "0 1 2"]}


def pairs_of(kind):
    """Each tool with its options that this kind is tried with, and how many pixels of the result come of one. A tool
    that isn't named here makes no image larger."""
    pairs = list(named_pairs(kind))
    return pairs + [(stage, 1) for stage in untried(tool for tool, _ in pairs)]


def named_pairs(kind):
    yield "pnminvert", 1
    yield from ((f"pamcut {words}".strip(), 1) for words in CUTS)
    # (pamdepth 1 leaves PBM as it is here, and makes it gray there)
    yield from ((f"pamdepth {maxval}", 1) for maxval in DEPTHS if (kind, maxval) != ("pbm", "1"))
    yield from ((f"pamchannel {planes}", 1) for planes in CHANNELS[kind])
    yield from ENLARGE
    yield from ((f"pamflip {way}", 1) for way in FLIPS)
    yield from ((f"pnmtile {sizes}", factor) for sizes, factor in TILES)


def sized(folder, form, factor):
    """An image of about BITS bits, or that becomes so many by the factor; its path, width and height."""
    each, header = form
    pixels = max(1, int(BITS / each / max(1, factor)))
    width = min(WIDTH, pixels)
    height = max(1, pixels // width)
    count = (width * each + 7) // 8 * height
    path = written(os.path.join(folder, "image"), header.format(width, height).encode(), count)
    return path, width, height


def same(one, made, is_leaving_pam):
    """Whether two results are the same, the second one as PGM or PPM where Netpbm's tool doesn't leave PAM."""
    if is_leaving_pam:
        with open(made, "rb") as stdin, open(made + ".pnm", "wb") as stdout:
            subprocess.run(["pamtopnm"], stdin=stdin, stdout=stdout, check=True)
        made += ".pnm"
    return same_bytes(one, made)


def measured(args, folder, kind, tool, factor):
    """Medians of the processor seconds of both, whether they wrote the same, the image's size, and the chain."""
    is_leaving_pam = kind == "pam" and tool.split()[0] in LEAVING_PAM
    form = RGB_PAM if is_leaving_pam else KINDS[kind]
    path, width, height = sized(folder, form, factor)
    chain = tool.format(high=height, twice=2 * height)
    wanted, made = (os.path.join(folder, name) for name in ("wanted", "made"))
    results = medians_in_turn([([args.program, chain], made), (chain.split(), wanted)], path, args.runs)
    if None in results:
        return None, None, False, (width, height), chain
    (_, ours, _), (_, peers, _) = results
    return ours, peers, same(wanted, made, is_leaving_pam), (width, height), chain


def line_of(args, folder, kind, tool, factor):
    """Prints a pair's line, and gives its ratio, and whether the results are the same."""
    ours, peers, is_same, size, chain = measured(args, folder, kind, tool, factor)
    ratio = ours / max(peers, 1e-4) if ours is not None else float("nan")
    note = "" if is_same else " (failed)" if ours is None else " (OTHER BYTES)"
    seconds = ["-", "-"] if ours is None else [f"{ours:.3f}", f"{peers:.3f}"]
    print_line([f"{kind} {size[0]} by {size[1]}", f"`{chain}`", *seconds, f"{ratio:.2f}{note}"])
    return ratio, is_same, chain


def add_options(parser):
    parser.add_argument("--kind", action="append", choices=list(KINDS), help="by default all")
    parser.add_argument("--tool", action="append", help="how a tool with its options begins; by default all")


def run(args, folder):
    """All pairs, then those above 1.0 once more."""
    differing, above, count = 0, [], 0
    print_columns(COLUMNS)
    for kind in args.kind or KINDS:
        for tool, factor in pairs_of(kind):
            if args.tool and not any(tool.startswith(it) for it in args.tool):
                continue
            ratio, is_same, chain = line_of(args, folder, kind, tool, factor)
            count += 1
            differing += not is_same
            if is_same and ratio > 1.0:
                above.append((kind, tool, factor, chain, ratio))
    print(f"\n{count} pairs, {len(above)} above 1.0 of Netpbm's processor time; these once more:\n")
    print_columns(COLUMNS)
    again = [(*pair, line_of(args, folder, *pair[:3])[0]) for pair in above]
    print()
    print_columns(["image", "tool", "over Netpbm", "once more"])
    for kind, _, _, chain, ratio, second in sorted(again, key=lambda it: -min(it[4:])):
        print_line([kind, f"`{chain}`", f"{ratio:.2f}", f"{second:.2f}"])
    return status_of(differing)
