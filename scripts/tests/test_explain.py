#!/usr/bin/env python3
"""Wants pnmpipe-explain to agree with the program on whether there is a fault, and which: over all stored commands,
random words, chains, and streams that were cut and edited, and inputs of other kinds. Of these, and of some calls with
each fault, it wants the words too.

--cases says how many random calls of each kind are tried, from --first on.
"""

import argparse
import os
import random
import re
import subprocess
import sys
import tempfile
import unittest

sys.dont_write_bytecode = True

from support import COLOR, GRAY, HELPERS, ROOT, loaded, read, run

import tables
from input_faults import Words, in_words
from judge_formats import SETS
from random_runs import chain_of, stream_of
from test_commands import stored_commands
from tool_examples import untried

EXPLAIN = f"{HELPERS}/pnmpipe-explain"
OPTIONS = None

# calls, and what their explanation has beside the program's line; those of an input
CHAINS = [
    ("pamcut -lft 8", ["has no option -lft", "-left, -right, -top, -bottom, -width and -height", "Is -left meant?"]),
    ("pnminvert | pamcut -l 8", ["Stage 2", "Write: pnmpipe 'pnminvert | pamcut -left 8'"]),
    ("pamcut 1 2 3 4", ["Write: pnmpipe 'pamcut -left 1 -top 2 -width 3 -height 4'"]),
    ("pnmdepth 255", ["no tool pnmdepth", "Write: pnmpipe 'pamdepth 255'"]),
    ("pamenlarge -scale 3 in.pgm", ["Write: pnmpipe 'pamenlarge 3' < in.pgm"]),
    ("pamflip -ccw", ["Write: pnmpipe 'pamflip -r90'"]),
    ("pnminvert -plain", ["Write: pnmpipe --plain 'pnminvert'"]),
    ("pamcut -left x", ["-16,777,216 to 16,777,216", "x is not a decimal number"]),
    ("pnmtile 0 3", ["from 1 to 16,777,216, and 0 is out of range"]),
    ("pamdepth", ["lacks its maxval"]),
    ("pamcut -top", ["-top lacks its value"]),
    ("pamcut -left 1 -right 3 -width 3", ["-left, -right and -width"]),
    ("pamflip -lr -tb", ["a second one", "pamflip -lr | pamflip -tb"]),
    ("pamchannel 256", ["from 0 to 255"]),
    ("pamchannel 0 -tupletype " + "x" * 256, ["256 bytes", "at most 255"]),
    ("pnminvert | ", ["A stage is empty", "Remove a bar"]),
    ("pnminvert" + "| pnminvert" * 64, ["65 stages", "64"]),
    (" " * 4097, ["4,097 bytes", "4,096"]),
    ("\t", ["names no tool"]),
    ("pnmscale 2", ["no tool pnmscale", "pipe of the shell"]),
    ("PAMCUT", ["Is pamcut meant?"]),
    ("pamenlarge 2 3", ["3 is one too many", "pnmpipe 'pamenlarge -xscale 2 -yscale 3'"]),
    ("pnminvert <in.pgm", ["outside of the quotes: pnmpipe '..' < in.pgm"]),
    ("pamcut -left 8 < in.pgm | pnminvert", ["outside of the quotes: pnmpipe '..' < in.pgm"]),
    ("<in.pgm pnminvert", ["outside of the quotes: pnmpipe '..' < in.pgm"]),
    ("pnminvert '<in.pgm'", ["outside of the quotes: pnmpipe '..' < in.pgm"]),
    ("pnminvert 'in.pgm'", ["Use < for a file: pnmpipe '..' < in.pgm"]),
    ('pamflip "lr"', ["Is -lr meant?"]),
    ("pnminvert >out.pgm", ["outside of the quotes: pnmpipe '..' > out.pgm"]),
    ("pamflip lr", ["Is -lr meant?"]),
    ("pamcut left 8", ["Is -left meant?"]),
    ("pamcut left", ["Is -left meant?"]),
    ("pamdepth 255 3", ["at most 1 argument, so 3 is one too many. What to do: Leave it out."]),
]

# words, and what their explanation has
WORDS = [
    (["pamcut", "-left", "8"], ["one word, in quotes", "pnmpipe 'pamcut -left 8'"]),
    (["pnminvert", HELPERS], ["A chain is one word", "use < for a file"]),
    (["pamflip -lr | pnminvert", "in.pgm"], ["Use < for a file", "pnmpipe 'pamflip -lr | pnminvert' < in.pgm"]),
    (["--ring", "0", "pnminvert"], ["from 1 to 1,024, and 0 is out of range"]),
    (["--lanes", "x", "pnminvert"], ["from 1 to 8, and x is not a number"]),
    (["--plane", "pnminvert"], ["Is --plain meant?"]),
    (["pamflip -lr", "<in.pgm"], ["outside of the quotes: pnmpipe 'pamflip -lr' < in.pgm"]),
    (["pamflip -lr", "<", "in.pgm"], ["outside of the quotes: pnmpipe 'pamflip -lr' < in.pgm"]),
    (["--lane=2", "pnminvert"], ["Is --lanes meant?"]),
    (["--plain"], ["No chain is given."]),
    (["--lanes"], ["none follows"]),
]

CUT = b"P5\n4 4\n255\n" + bytes(range(16))

# an input, and what its explanation under `pnminvert` has
INPUTS = [
    (b"", ["is empty"]),
    (b"\xff\xd8\xff\xe0\0\x10JFIF", ["a JPEG file", "jpegtopnm"]),
    (b"\x89PNG\r\n\x1a\n", ["a PNG file", "pngtopam"]),
    (b"%PDF-1.7\n", ["a PDF file", "pdftoppm"]),
    (b"\x1f\x8b\x08\0", ["gzip", "gzip -dc"]),
    (b"II*\0", ["a TIFF file"]),
    (b"hello", ['begins with "hello"; a Netpbm image begins with P1 to P7.']),
    (b"RaS2PwgRaster\0" + bytes(60), ["a PWG raster file", "Ghostscript"]),
    (b"UNIRAST\0\0\0\0\1\x18\1\0\1", ["a URF file", "Ghostscript"]),
    *((mark + b"MediaClass\0", ["a CUPS raster file", "Ghostscript"]) for mark in (b"RaSt", b"tSaR", b"2SaR", b"RaS3")),
    (b"\xff\x0a\xfa\x1f\x01\x90", ["a JPEG XL file", "djxl"]),
    (b"\0\0\0\x0cJXL \r\n\x87\n\0\0\0\x14ftypjxl ", ["a JPEG XL file", "djxl"]),
    (b"\x97JB2\r\n\x1a\n\1\0\0\0\1", ["a JBIG2 file", "jbig2dec -t pbm"]),
    (b"8BPS\0\1\0\0\0\0\0\0\0\3", ["a Photoshop file", "'FILE[0]'"]),
    (b"\x76\x2f\x31\x01\2\0\0\0channels\0", ["an OpenEXR file", "convert FILE"]),
    (b"\0\0\2\0\0\0\0\0\0\0\0\0\x40\0\x30\0\x18\x20" + bytes(9), ["a TGA file", "tgatoppm"]),
    (b"\0\0\n\0\0\0\0\0\0\0\0\0\x40\0\x30\0\x20\x08" + bytes(9), ["a TGA file", "tgatoppm"]),
    (b"\4\1\1\0\0\0\1\x18\0\0\0\0\x40\0\x30\0\x08\0name" + bytes(9), ["a TGA file", "tgatoppm"]),
    (b"#define mark_width 16\n#define mark_height 16\n", ["an XBM file", "xbmtopbm"]),
    (b"/* XPM */\nstatic char * mark_xpm[] = {\n", ["an XPM file", "xpmtoppm"]),
    (b"YUV4MPEG2 W64 H48 F25:1\nFRAME\n", ["a Y4M video", "ffmpeg"]),
    (b"\n<!DOCTYPE HTML>\n<head>", ["an HTML page", "a server"]),
    (b"\xef\xbb\xbf<html lang='en'>", ["an HTML page", "a server"]),
    (b"<?xml version='1.0'?><svg>", ["SVG or other XML", "rsvg-convert"]),
    (b"\xef\xbb\xbf" + GRAY, ["an image after a byte order mark", "tail -c +4"]),
    (b"P\0\0\0\2" + bytes(30), ["begins with 50 00"]),
    (b"\n" + GRAY, ["white space (1 byte)", "Remove the white space"]),
    (GRAY.replace(b"\n", b"\r\n"), ["CR LF", "in binary mode"]),
    (b"P5\r\n2 1\r\n255\r\n\1\2", ["CR LF", "in binary mode"]),
    (b"P7\r\nWIDTH 1\r\n", ["a CR", "in binary mode"]),
    (GRAY + b"\n", ["ends at byte 11", "white space (1 byte) follows", "head -c 11 FILE"]),
    (GRAY + b"\n" + GRAY, ["ends at byte 11", "before the next image"]),
    (GRAY + CUT[:20] + CUT + CUT, ["Image 2 ends at byte 38", "byte 31", "cut short"]),
    (GRAY + COLOR[:-1], ["Image 2, PPM of 1 by 1, maxval 9, begins at byte 11", "1 byte before", "byte 22"]),
    (CUT[:-5], ["5 bytes before", "2 of 4 rows are whole"]),
    (b"P5 3 9", ["ends at byte 6", '"P5 3 9"']),
    (b"P5 3x", ['"x"', "a digit of the width", "byte 4"]),
    (b"P5 3 x", ['"x"', "a digit of the height", "byte 5"]),
    (b"P5 3 9 1x", ['"x"', "a digit of the maxval", "byte 8"]),
    (b"P55", ["white space before the width"]),
    (b"P5 0 1 9\n", ["width is 0"]),
    (b"P5 1 16777217 9\n", ["16,777,217 rows"]),
    (b"P5 " + b"9" * 5000 + b" 1 9\n", ["more than 999,999,999,999,999 columns"]),
    (b"P5 1 1 65536\n", ["maxval is 65,536", "1 to 65,535"]),
    (b"P5 " + b" " * 65536, ["65,536 bytes"]),
    (b"P7\nWIDE 3\n", ["byte 3", '"WIDE 3"']),
    (b"P7\nWIDTH\n", ["lacks its number"]),
    (b"P7\nWIDTH x\n", ["no decimal number"]),
    (b"P7\nWIDTH 1\nWIDTH 1\n", ["byte 11", "repeats a field"]),
    (b"P7\nWIDTH 1\nENDHDR\n", ["lacks HEIGHT and DEPTH and MAXVAL"]),
    (b"P7\nTUPLTYPE " + b"x" * 256 + b"\n", ["256 bytes", "at most 255"]),
    (b"P6\n2 2\n9\n" + bytes(7) + b"\x0b" + bytes(4), ["row 1, column 0, plane 1", "sample 11", "maxval 9"]),
    (b"P5\n2 2\n300\n\0\0\0\0\1\x2d\0\0", ["row 1, column 0", "sample 301", "maxval 300"]),
    (b"P2 2 2 9 1 2 3 x", ["row 1, column 1", '"x"', "byte 15"]),
    (b"P2 2 2 9 1 2 10 1", ["row 1, column 0", "sample 10", "byte 13"]),
    (b"P2 2 2 9 1 2", ["lacks 2 samples of 4", "row 1, column 0"]),
    (b"P1 2 1 10x", ["behind the last sample", '"x"']),
    (b"P1 1 1 " + b" " * 1_048_576 + b"1", ["1,048,576 bytes"]),
    (GRAY + b"P2 1 1 9 1", ["stands alone", "begins at byte 11"]),
]

# a chain, an input, and what the explanation has
TOOLS = [
    ("pamcut -left 1 | pamcut -left 1", GRAY, ["Stage 2, pamcut -left 1: image 1", "PGM of 1 by 1", "1 column"]),
    ("pamcut -left 1", GRAY + COLOR, ["image 2 of the stream", "begins at column 1"]),
    ("pamcut -height 2", GRAY, ["It has 1 row, numbered from 0,", "ends at row 1"]),
    ("pamcut -left 1 -right 0", GRAY, ["ends at column 0", "begins behind it at column 1"]),
    ("pamchannel 3", COLOR, ["It has 3 planes, numbered from 0, so there is no plane 3."]),
    ("pamchannel 1", GRAY, ["It has 1 plane, numbered from 0, so there is no plane 1."]),
    ("pamenlarge 16777216", GRAY, ["33,554,432 columns"]),
]


def explained(words, given):
    """What is said of a call, and the status."""
    with tempfile.TemporaryFile() as file:
        file.write(given)
        file.flush()
        file.seek(0)
        return Explain.program.said(words, file.fileno())


def answered(words, given):
    """The line of the program, and its status."""
    ran = subprocess.run(
        [OPTIONS.program, *words], input=given, stdout=subprocess.DEVNULL, stderr=subprocess.PIPE, timeout=60
    )
    return ran.stderr.decode().rstrip("\n"), ran.returncode


class Explain(unittest.TestCase):
    program = loaded("pnmpipe-explain")

    def agrees(self, words, given, why):
        """The explanation, which has to name the program's fault, or none where there is none."""
        text, status = explained(words, given)
        if OPTIONS.program:
            line, ended = answered(words, given)
            told = text.split("\n")[0] if status else ""
            self.assertEqual((told, status), (line, 1 if ended else 0), why)
        if len(given) < 1_000:
            brief, again = explained(["--brief", *words], given)
            self.assertEqual((again, "\n" in brief), (status, brief.startswith("usage: ")), why)
        return text

    def has(self, words, given, wanted):
        """The explanation has these words."""
        text = " ".join(self.agrees(words, given, words).split())
        for each in wanted:
            self.assertIn(each, text, words)

    def test_words(self):
        for chain, wanted in CHAINS:
            self.has([chain], GRAY, wanted)
        for words, wanted in WORDS:
            self.has(words, GRAY, wanted)
        for given, wanted in INPUTS:
            self.has(["pnminvert"], given, wanted)
        for chain, given, wanted in TOOLS:
            self.has([chain], given, wanted)
        self.has(["--plain", "pnminvert"], GRAY + GRAY, ["image 2 of the stream"])
        self.has(["--plain", "pamchannel 0"], GRAY, ["no plain form"])

    def test_well(self):
        self.has(["pnminvert | pamflip -xy"], GRAY + COLOR, ["All is well: 2 tools, 2 images."])
        self.has(["pnminvert"], b"P1 1 1 0\nP1 1 1 1\n", ["All is well", "Another image begins at byte 9"])
        self.has(["pnminvert"], b"P1 1 1 0\njunk", ["All is well", "from byte 8 on", "ignores"])

    def test_limits(self):
        """Each limit of lengths, and one byte more."""
        gap, pam = 1_048_576, b"WIDTH 1\nHEIGHT 1\nDEPTH 1\nMAXVAL 9\n"
        rest = b"\nENDHDR\n"
        for fits, beyond, fault in [
            (b"P5" + b" " * 65_528 + b"1 1 9\n\5", b"P5" + b" " * 65_529 + b"1 1 9\n\5", "TooLong"),
            (b"P5 1 1 9#" + b"x" * 65_525 + b"\n\n\5", b"P5 1 1 9#" + b"x" * 65_526 + b"\n\n\5", "TooLong"),
            (b"P7\n" + pam + b"#" * (65_536 - 11 - len(pam)) + rest + b"\5", None, ""),
            (None, b"P7\n" + pam + b"#" * (65_537 - 11 - len(pam)) + rest + b"\5", "TooLong"),
            (b"P7\n" + pam + b"TUPLTYPE " + b"x" * 255 + rest + b"\5", None, ""),
            (b"P1 1 1 " + b" " * (gap - 1) + b"1", b"P1 1 1 " + b" " * gap + b"1", "TooLong"),
            (b"P2 1 1 9 " + b"0" * (gap - 1) + b"5", b"P2 1 1 9 " + b"0" * gap + b"5", "TooLong"),
            (None, b"P2 2 1 9 5" + b"#" * (gap - 1) + b"\n5", "TooLong"),
            (b"P2 2 1 9 5" + b" " * (gap - 1) + b"5 ", b"P2 2 1 9 5" + b" " * (gap - 1) + b"5x", "BadSample"),
            (b"P2 1 1 9 " + b"0" * 9_000 + b"3", b"P2 1 1 9 " + b"0" * 9_000 + b"10", "SampleAboveMaxval"),
            (None, b"P5" + b" " * 65_534, "HeaderCut"),
            (None, b"P5" + b" " * 65_535, "TooLong"),
        ]:
            if fits:
                self.assertIn("All is well", self.agrees(["pnminvert"], fits, (fault, fits[:20])))
            if beyond:
                self.assertIn(f"input: {fault}\n", self.agrees(["pnminvert"], beyond, (fault, beyond[:20])))
        self.assertIn("All is well", self.agrees(["pnminvert".ljust(4096)], GRAY, "chain"))
        self.assertIn("All is well", self.agrees(["|".join(["pnminvert"] * 64)], GRAY, "chain"))

    def test_long_plain_rasters(self):
        """Rasters of several pieces, with a fault at some place or none."""
        numbers = random.Random(1)
        for kind, maxval in [(1, 1), (2, 99), (2, 255), (3, 65_535), (2, 9)]:
            for fault in [None, None, b"x", b"70000", b"#", b"# c\n", b"0" * 2_000, b"100"]:
                samples = [b"%d" % numbers.randint(0, maxval) for _ in range(20_000)]
                if fault:
                    at = numbers.randrange(len(samples))
                    samples[at] += numbers.choice([b" ", b""]) + fault
                text = b"".join(sample + numbers.choice([b" ", b"\n", b" # c\n", b"\r\n  "]) for sample in samples)
                header = b"P%d 100 %d %s" % (kind, 200 if kind < 3 else 66, b"" if kind == 1 else b"%d " % maxval)
                self.agrees(["pnminvert"], header + text, (kind, maxval, fault))

    def test_marks(self):
        text, _ = explained(["pnminvert | pamcut -left=1 -lft 8"], b"")
        lines = text.split("\n")
        self.assertEqual(lines[2][lines[3].index("^") : lines[3].rindex("^") + 1], "-lft")
        text, _ = explained(["pnminvert |" * 20 + "pamcut -left " + "0" * 200 + "1 -lft 8" + "| pnminvert" * 20], b"")
        lines = text.split("\n")
        self.assertEqual(lines[2][lines[3].index("^") : lines[3].rindex("^") + 1], "-lft")
        self.assertEqual((lines[2][4:6], lines[2][-2:], len(lines[2]) <= 78), ("..", "..", True))
        text, _ = explained(["pnminvert |"], b"")
        self.assertEqual(text.split("\n")[2:4], ["    pnminvert |", "               ^"])

    def test_every_fault_has_words(self):
        names = [it["printed"] for it in tables.codes() if it["number"] // 100 == 2]
        self.assertGreater(len(names), 10)
        for name in names:
            self.assertTrue(hasattr(Words, in_words(name)), name)

    def test_stored_commands(self):
        count = 0
        for command in stored_commands():
            words = [os.fsdecode(word) for word in command.words[1:]]
            # help and the version are its own; that a device fails can't be seen from here
            if not words or {"--version", "-V"} & set(words) or b"WriteFailed" in command.printed:
                continue
            text, status = explained(words, command.given)
            told = text.split("\n")[0] + "\n" if status else ""
            wanted = command.printed.decode()
            self.assertEqual((told, status), (wanted, 1 if command.status else 0), command.place)
            count += 1
        self.assertGreater(count, 100)


class Random(unittest.TestCase):
    agrees = Explain.agrees

    def each(self, kind, call):
        for seed in range(OPTIONS.first, OPTIONS.first + OPTIONS.cases):
            numbers = random.Random(f"{kind} {seed}")
            words, given = call(numbers)
            self.agrees(words, given, (kind, seed, words, given[:200]))

    def test_streams(self):
        def call(numbers):
            given, width, height, depth = stream_of(numbers)
            return [*(["--plain"] if numbers.random() < 0.2 else []), chain_of(numbers, width, height, depth)], given

        self.each("stream", call)

    def test_edits(self):
        self.each("edit", edited_call)

    def test_places(self):
        """A fault stands where the input has to be cut for it to go, or, of one that is cut, at the end."""
        names = set()
        for seed in range(OPTIONS.first, OPTIONS.first + OPTIONS.cases):
            words, given = edited_call(random.Random(f"edit {seed}"))
            text, _ = explained(words, given)
            name = text.split("\n")[0].rsplit(" ", 1)[-1]
            told = re.search(r"\b(ends at|At) byte ([\d,]+)", " ".join(text.split()))
            at = int(told[2].replace(",", "")) if told else 0
            if name in ("HeaderCut", "RasterCut"):
                self.assertEqual((told[1], at), ("ends at", len(given)), given)
            elif name in ("BadNumber", "BadSample", "SampleAboveMaxval") and told:
                self.assertNotIn(f" {name}\n", explained(words, given[:at])[0], given)
                # a sample is one or two bytes, or digits and what ends them
                size = max(2, re.match(rb"\d*.?", given[at:], re.S).end()) if name == "SampleAboveMaxval" else 1
                self.assertIn(f" {name}\n", explained(words, given[: at + size])[0], given)
            else:
                continue
            names.add(name)
        self.assertEqual(len(names), 5)

    def test_chains(self):
        # (a good one is tried over no image, since its result may be endless)
        self.each("chain", lambda numbers: ([chain_text(numbers)], b""))

    def test_tools(self):
        self.each("tool", lambda numbers: ([tools_text(numbers)], b"".join(image(numbers) for _ in range(3))))

    def test_calls(self):
        self.each("call", lambda numbers: (call_words(numbers), GRAY))


SMALL = [
    b"P1\n3 2\n101\n010\n",
    b"P2 # c\n2 2\n9\n1 2 3 4\n",
    b"P3 1 1 255 10 20 30",
    b"P4\n9 2\n\xff\x80\0\0",
    b"P5\n2 2\n122\nABCD",
    b"P5\n2 1\n300\n\0\1\1\x2c",
    b"P6\n# x\n1 1\n9\n\1\2\3",
    b"P7\nWIDTH 2\nHEIGHT 1\nDEPTH 2\nMAXVAL 9\nTUPLTYPE A\nENDHDR\n\1\2\3\4",
]


def edited_call(numbers):
    """A small stream with some bytes put in, taken out or changed, cut or with something behind it."""
    given = bytearray(b"".join(numbers.choice(SMALL) for _ in range(numbers.choice([1, 1, 2, 3]))))
    for _ in range(numbers.choice([0, 1, 1, 2, 4])):
        at = numbers.randrange(len(given)) if given else 0
        byte = bytes([numbers.choice(numbers.choice([SETS["telling"], SETS["plain"], SETS["all"]]))])
        form = numbers.random()
        given[at : at + (form > 0.3)] = byte if form < 0.8 else b""
    if numbers.random() < 0.3:
        del given[numbers.randrange(len(given) + 1) :]
    chains = ["pnminvert", "pamcut -left 1", "pamchannel 1", "pamenlarge 2 | pamcut -top 1 | pamflip -xy"]
    chain = numbers.choice(chains)
    return [*(["--plain"] if numbers.random() < 0.1 else []), chain], bytes(given)


# words that a tool mostly takes
PLAUSIBLE = {
    "pnminvert": [],
    "pamcut": ["-left 1", "-right -1", "-width 3", "--top=0", "-bottom 2", "-height 1", "-top -0", "-width 0", "-left"],
    "pamdepth": ["255", "1", "65536"],
    "pamchannel": ["0", "1", "2", "-tupletype A", "-tupletype=", "256", "-tupletype"],
    "pamenlarge": ["2", "-xscale 2", "--yscale=3", "-yscale 0"],
    "pamflip": ["-lr", "-xy", "--null", "-r90", "-lr=1"],
    "pnmtile": ["3", "4", "16777217"],
}
PLAUSIBLE.update((name, words) for name, *words in map(str.split, untried(PLAUSIBLE)))


def chain_text(numbers):
    """A text that is mostly no chain."""
    names = [*PLAUSIBLE] * 5 + ["pnmscale", "PAMCUT", "-", "", "pnmcut"]
    options = "-left -right -top -bottom -width -height -xscale -yscale -tupletype -lr -tb -xy -r90 -null --left"
    options += " -tuplet -left=1 -left= -width=0 -lr=1 -tupletype= -tupletype=a=b - -- -= --left=-1 -l -scale -plain"
    values = "0 1 -1 2 3 255 256 65535 65536 16777216 16777217 -16777216 -16777217 +1 007 -0 x 1x \u00e9 1,5 ''"
    blanks = [" ", " ", " ", "  ", "\t", "\n", "\r\n", "\v", "\u00a0", "\f"]
    stages = []
    for _ in range(numbers.choice([1, 1, 1, 2, 3, 64, 65] if numbers.random() < 0.2 else [1, 1, 2])):
        words = [numbers.choice(names)]
        for _ in range(numbers.choice([0, 1, 1, 1, 2, 2, 3, 4])):
            some = PLAUSIBLE.get(words[0]) if numbers.random() < 0.85 else None
            words.append(numbers.choice(some or (options if numbers.random() < 0.5 else values).split(" ")))
        if numbers.random() < 0.02:
            words += ["1"] * numbers.choice([255, 256, 257])
        text = words[0] + "".join(numbers.choice(blanks[:3] * 9 + blanks) + word for word in words[1:])
        stages.append(numbers.choice(["", "", " "]) + text + numbers.choice(["", "", " "]))
    return "|".join(stages)


def tools_text(numbers):
    """A good chain, which may refuse some images, and whose results are small or not there."""
    axes = []
    for first, last, size in [("left", "right", "width"), ("top", "bottom", "height")]:
        options = [f"-{first} {numbers.randint(-4, 4)}", f"-{last} {numbers.randint(-4, 4)}"]
        options.append(f"-{size} {numbers.randint(1, 4)}")
        axes += numbers.sample(options, numbers.randint(0, 2))
    planes = [str(numbers.randint(0, 2)) for _ in range(numbers.choice([1, 1, 2, 3]))]
    wide = numbers.choice([1, 2, 3, 1_398_101, 1_398_102, 2_796_202, 4_194_304, 8_388_608, 8_388_609, 16_777_216])
    some = [" ".join(["pamcut", *axes]), " ".join(["pamchannel", *planes]), f"pamenlarge -xscale {wide}"]
    some += ["pamflip -xy", "pamflip -r90", "pnmtile 2 3", "pamdepth 7", "pnminvert"]
    some += untried(some)
    chain = numbers.sample(some, numbers.choice([1, 1, 2, 3]))
    # long rows are made last, since most tools take long over them
    return " | ".join(sorted(chain, key=lambda text: "xscale" in text))


def image(numbers):
    """A small image whose raster is black."""
    width, height, depth = numbers.randint(1, 4), numbers.randint(1, 2), numbers.randint(1, 4)
    if numbers.random() < 0.3:
        head = b"P7\nWIDTH %d\nHEIGHT %d\nDEPTH %d\nMAXVAL 9\nENDHDR\n" % (width, height, depth)
        return head + bytes(width * height * depth)
    depth = numbers.choice([1, 3])
    return b"P%d %d %d 9\n" % (5 if depth == 1 else 6, width, height) + bytes(width * height * depth)


def call_words(numbers):
    """Words that are mostly no call."""
    some = "pnminvert pamcut --ring --lanes --plain --help -h -hx -x -xh -1 - -- --ring=7 --ring=+7 --ring= --ring=0"
    some += " --lanes=8 --lanes=9 --ring=1024 --ring=1025 1 7 +7 ++7 + 0 x --ri --plain= --help=x -p --raw -ring"
    some += " --ring=1=2 \udcff 00012 ''"
    count = numbers.choice([1, 2, 2, 3, 3, 4, 5])
    return ["" if word == "''" else word for word in (numbers.choice(some.split(" ")) for _ in range(count))]


class Program(unittest.TestCase):
    """The program itself, as it is called."""

    def test_statuses(self):
        done = run([EXPLAIN, "pnminvert"], GRAY)
        self.assertEqual((done.returncode, done.stdout), (0, b"All is well: 1 tool, 1 image.\n"))
        done = run([EXPLAIN, "pnminvert"], GRAY[:-1])
        self.assertEqual((done.returncode, done.stdout.split(b"\n")[0]), (1, b"pnmpipe: input: RasterCut"))
        done = run([EXPLAIN, "--no-input", "pnminvert"], GRAY[:-1])
        self.assertEqual((done.returncode, done.stdout), (0, b"The chain is good: 1 tool. No input was looked at.\n"))
        self.assertEqual(run([EXPLAIN]).returncode, 2)
        with open("/dev/full", "wb") as full:
            ended = subprocess.run([EXPLAIN, "pnminvert"], input=GRAY, stdout=full, stderr=subprocess.PIPE, check=False)
        self.assertEqual((ended.returncode, ended.stderr.count(b"\n")), (2, 1))
        self.assertIn(b"usage: pnmpipe-explain", run([EXPLAIN, "--help"]).stdout)
        with open(f"{ROOT}/VERSION", "rb") as file:
            self.assertEqual(run([EXPLAIN, "--version"]).stdout, b"pnmpipe-explain " + file.read())

    def test_input_that_does_not_wait(self):
        texts = [b"", b"P", b"P5 1", b"X", GRAY[:-1], GRAY, GRAY + b"X", GRAY + b"P5 1 1 9\n\x0a"]
        texts += [b"P1 1 1 0", b"P1 1 1 0 ", b"P1 1 1 0x", b"P2 1 1 9 5", b"P2 1 1 9 5 ", b"P2 1 1 9 10 "]
        texts += [b"P7\nWIDTH 1"]
        ends = []
        for text in texts:
            (told, status), line = [self.piped(text, call) for call in (Explain.program.said, self.answered)]
            if OPTIONS.program:
                self.assertEqual((told.split("\n")[0] if status else "", status), line, text)
            ends.append(status)
        self.assertEqual(sum(ends), len(texts) - 2)

    def piped(self, text, call):
        """What a call answers whose input is a pipe with this text, that stays open and doesn't wait."""
        given, writing = os.pipe()
        try:
            os.set_blocking(given, False)
            os.write(writing, text)
            return call(["pnminvert"], given)
        finally:
            os.close(given)
            os.close(writing)

    def answered(self, words, given):
        if not OPTIONS.program:
            return None
        ran = subprocess.run(
            [OPTIONS.program, *words], stdin=given, stdout=subprocess.DEVNULL, stderr=subprocess.PIPE, timeout=60
        )
        return ran.stderr.decode().rstrip("\n"), ran.returncode

    def test_unreadable(self):
        done = run(["sh", "-c", f"exec {EXPLAIN} pnminvert <&-"])
        self.assertEqual((done.returncode, done.stdout.split(b"\n")[0]), (1, b"pnmpipe: input: ReadFailed"))
        self.assertIn(b"is closed", done.stdout)
        # (python3 itself says so)
        done = run(["sh", "-c", f"exec {EXPLAIN} pnminvert < /"])
        self.assertEqual((done.returncode, b"is a directory" in done.stderr), (1, True))

    def test_many_files(self):
        if not OPTIONS.program:
            self.skipTest("there is no program")
        with tempfile.TemporaryDirectory() as folder:
            for name, data in [("a b.pgm", GRAY), ("cut.pgm", GRAY[:-1]), ("odd\\name.pgm", COLOR)]:
                with open(f"{folder}/{name}", "wb") as file:
                    file.write(data)
            words = [f"{HELPERS}/pnmpipe-files", "pamcut -left 1", "out", *sorted(os.listdir(folder))]
            done = run(words, cwd=folder, env={**os.environ, "PNMPIPE": OPTIONS.program})
        self.assertIn(b"cut.pgm: pnmpipe: input: RasterCut\ncut.pgm: Image 1, PGM of 2 by 1", done.stderr)
        self.assertIn(b"odd\\name.pgm: Stage 1, pamcut -left 1: image 1 of the stream", done.stderr)
        self.assertNotIn(b"a b.pgm", done.stderr)

    def test_page(self):
        blocks = re.findall(r"^\.Bd -\w+.*\n((?:[^.].*\n|\n)*)\.Ed", read("man/pnmpipe-explain.1"), re.M)
        command, wanted, _ = (text.replace(r"\(aq", "'").replace(r"\(ha", "^") for text in blocks)
        done = run(["sh", "-c", command], env={**os.environ, "PATH": f"{HELPERS}:{os.environ['PATH']}"})
        self.assertEqual((done.stdout.decode(), done.returncode), (wanted, 1))

    def test_installed(self):
        with tempfile.TemporaryDirectory() as folder:
            target = ["-s", "-C", ROOT, f"BUILT={OPTIONS.program}", f"DESTDIR={folder}", "PREFIX=/usr"]
            self.assertEqual(run(["make", "install", *target]).returncode, 0)
            done = run([f"{folder}/usr/bin/pnmpipe-explain", "pamcut -l 8"], GRAY)
            self.assertIn(b"pnmpipe 'pamcut -left 8'\n", done.stdout)
            self.assertEqual(run([f"{folder}/usr/bin/pnmpipe-explain", "pnminvert"], GRAY).returncode, 0)

    def test_locale(self):
        done = run([EXPLAIN, "pnminvert -\u00e9"], env={**os.environ, "LC_ALL": "C", "PYTHONUTF8": "0"})
        self.assertIn("-\u00e9".encode(), done.stdout)
        self.assertEqual(done.returncode, 1)


def main():
    global OPTIONS
    parser = argparse.ArgumentParser(description=__doc__.split("\n")[0])
    parser.add_argument("--program", default=f"{ROOT}/bin/pnmpipe")
    parser.add_argument("--cases", type=int, default=100)
    parser.add_argument("--first", type=int, default=1)
    OPTIONS, left = parser.parse_known_args()
    if os.access(OPTIONS.program, os.X_OK):
        OPTIONS.program = os.path.abspath(OPTIONS.program)
    else:
        print(f"test_explain: there is no {OPTIONS.program}, so its answers aren't compared")
        OPTIONS.program = None
    unittest.main(argv=[sys.argv[0], *left])


if __name__ == "__main__":
    main()
