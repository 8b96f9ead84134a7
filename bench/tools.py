"""Each tool beside Netpbm's own, over large images: file to memory, medians, the bytes compared.

A line for each image and tool: wall seconds, processor seconds and the greatest resident memory in MB (that of this
script, some 15 MB, is the least that shows) of the program, of each program named by --beside NAME=PATH and of the
Netpbm tool, and the program's wall and processor time over Netpbm's. It needs some 1 GB of memory for files, in
/dev/shm or --folder. `turns` has the tools that turn an image, and where `vips` is installed its turn by as many
quarters. With --floor, a line has also the figures of `floor.c`, which reads and writes as many bytes as the tool,
through a block of the whole image for tools that keep one, and does nothing else. Beside other work, `chrt -f 10`
before this script's name gives figures that can be compared.

`plain` has those whose result is plain text: the program with --plain beside the Netpbm tool with -plain. Their lines
differ, so what both have written is read again, by the program and by Netpbm, and the four raw images are compared. Its
--floor is `plain_floor.c`, which writes the same text from a table of the texts of all samples.
"""

import os
import shutil
import subprocess
import tempfile

from measure import Beside, add_options_beside, built, same_bytes, shown, written

RUNS = 5

# the header and the bytes of the raster of each image
IMAGES = {
    "scan": (b"P4\n10000 14000\n", 10000 // 8 * 14000),
    "color": (b"P6\n6000 4000\n255\n", 6000 * 4000 * 3),
    "gray": (b"P5\n8000 8000\n255\n", 8000 * 8000),
    "gray16": (b"P5\n4000 4000\n65535\n", 4000 * 4000 * 2),
}

TOOLS = {
    "tools": [
        "pnminvert",
        "pamcut -left 3 -right -4",
        "pamflip -null",
        "pamflip -lr",
        "pamenlarge 2",
        "pnmtile WIDE HIGH",
        "pamdepth 100",
    ],
    "turns": ["pamflip -tb", "pamflip -xy", "pamflip -r90", "pamflip -r180", "pamflip -r270"],
    "plain": ["pnminvert"],
}
# the images whose result is written as plain text
PLAIN_IMAGES = ["scan", "color", "gray16"]

# What the options and names of tools have that keep an image.
KEEPING = ("-tb", "-xy", "-r90", "-r180", "-r270", "pnmtile")

# The angles of vips, which turns clockwise, and the names by which it writes each kind of image, without a comment in
# the header.
VIPS_TURNS = {"pamflip -r90": "d270", "pamflip -r180": "d180", "pamflip -r270": "d90"}
VIPS_KINDS = {"scan": ".pbm[strip]", "color": ".ppm[strip]", "gray": ".pgm[strip]", "gray16": ".pgm[strip]"}


def add_options(parser):
    add_options_beside(parser, list(IMAGES))
    parser.add_argument("--tool", action="append", help="a chain of one tool; by default all of the table")
    parser.add_argument("--floor", action="store_true", help="also a program that does no more than has to be done")


def samples_read(program, text, folder):
    """The file of what a program that reads and writes images makes of a text."""
    made = tempfile.mkstemp(dir=folder)[1]
    with open(text, "rb") as stdin, open(made, "wb") as stdout:
        subprocess.run(program, stdin=stdin, stdout=stdout, check=True)
    return made


def same_samples(reader, one, other, folder):
    """Whether two plain texts have the same samples, as this program and Netpbm read them."""
    readings = [[reader, "pamflip -null"], ["pnmtopnm"]]
    files = [samples_read(words, text, folder) for words in readings for text in (one, other)]
    same = all(same_bytes(files[0], file) for file in files[1:])
    for file in files:
        os.remove(file)
    return same


class Lines:
    """The lines of one of these tables."""

    def __init__(self, args, folder):
        self.args, self.folder = args, folder
        self.is_plain = args.table == "plain"
        self.floor = args.floor and built(folder, "plain_floor.c" if self.is_plain else "floor.c")
        self.has_vips = args.table == "turns" and shutil.which("vips") is not None
        further = ["floor"] * args.floor + ["vips"] * self.has_vips
        self.table = Beside(args, folder, ["image", "tool"], further)

    def line(self, image, path, tool):
        width, height = IMAGES[image][0].split()[1:3]
        chain = tool.replace("WIDE", str(2 * int(width))).replace("HIGH", str(2 * int(height)))

        def further(peer):
            if self.floor:
                yield shown(peer and self.table.median(self.floor_words(image, path, tool), path))
            if self.has_vips:
                yield self.vips(image, path, tool, peer)

        if self.is_plain:
            words = ["--plain", chain], [*chain.split(), "-plain"]
            self.table.line([image, f"--plain {tool}"], path, *words, same=self.same_samples, further=further)
        else:
            self.table.line([image, tool], path, [chain], chain.split(), further=further)

    def same_samples(self, one, other):
        return same_samples(self.args.program, one, other, self.folder)

    def floor_words(self, image, path, tool):
        """The words of the program that does no more than has to be done, once Netpbm's result is there."""
        magic, *numbers = (word.decode() for word in IMAGES[image][0].split())
        if self.is_plain:
            return [self.floor, magic[1], *numbers, *["1"] * (magic == "P4")]
        size = os.path.getsize(path)
        times = max(1, round(os.path.getsize(self.table.wanted) / size))
        return [self.floor, str(times), str(size if any(word in tool.split() for word in KEEPING) else 0)]

    def vips(self, image, path, tool, peer):
        """The figures of vips, where it has such a turn."""
        if tool not in VIPS_TURNS:
            return "-"
        result = self.table.median(["vips", "rot", "stdin", VIPS_KINDS[image], VIPS_TURNS[tool]], path)
        is_same = result and peer and same_bytes(self.table.wanted, self.table.made)
        return shown(result) + ("" if is_same else " (OTHER BYTES)")


def run(args, folder):
    lines = Lines(args, folder)
    for image in args.image or IMAGES:
        if lines.is_plain and image not in PLAIN_IMAGES:
            continue
        path = written(os.path.join(folder, image), *IMAGES[image])
        for tool in args.tool or TOOLS[args.table]:
            lines.line(image, path, tool)
        os.remove(path)
    return lines.table.end(args)
