#!/usr/bin/env python3
"""Makes the pictures of the documents, docs/pictures: what each tool makes of the test card, card.ppm, and the charts
of figures (charts.py), where gnuplot is installed. The diagram of threads, threads.svg, is edited by hand.

With --check nothing is written: the pictures that are there have to be the same, pixel by pixel, as those that would be
made.
"""

import argparse
import os
import struct
import subprocess
import sys
import zlib

import charts
from places import ROOT

FOLDER = f"{ROOT}/docs/pictures"

# the chain that makes each picture of the card, by numbers that show best what it does; PNG has no PAM, so `channel` is
# told to be gray
CHAINS = {
    "card": "pamflip -null",
    "invert": "pnminvert",
    "cut": "pamcut -left 16 -width 64",
    "depth": "pamdepth 3 | pamdepth 255",
    "channel": "pamchannel 0 0 0",
    "enlarge": "pamenlarge 2",
    "flip": "pamflip -xy",
    "tile": "pnmtile 144 96",
    "chain": "pamcut -left 16 -width 64 | pamflip -xy | pnminvert",
}


def card():
    """The card: a slope of colors, the letters R and F, which no turn makes look alike, a disc and a bar."""
    with open(f"{FOLDER}/card.ppm", "rb") as file:
        return file.read()


def pixels_of(program, chain):
    """The width, the height and the pixels that a chain makes of the card, three samples each."""
    made = subprocess.run([program, chain], input=card(), stdout=subprocess.PIPE, check=True).stdout
    if made.startswith(b"P7\n"):
        header, raster = made.split(b"ENDHDR\n", 1)
        fields = dict(line.split(b" ", 1) for line in header.split(b"\n")[1:] if line)
        return int(fields[b"WIDTH"]), int(fields[b"HEIGHT"]), raster
    _, size, _, raster = made.split(b"\n", 3)
    width, height = size.split()
    return int(width), int(height), raster


def chunk(name, data):
    return struct.pack(">I", len(data)) + name + data + struct.pack(">I", zlib.crc32(name + data))


def lines_of(width, height, pixels):
    """The rows as PNG has them: each after the number of its filter, by which a sample is taken from the next
    pixel's."""
    lines = []
    for y in range(height):
        row = pixels[y * width * 3 : (y + 1) * width * 3]
        lines.append(b"\1" + bytes((here - before) % 256 for before, here in zip(b"\0\0\0" + row, row)))
    return b"".join(lines)


def png(width, height, pixels):
    header = struct.pack(">IIBBBBB", width, height, 8, 2, 0, 0, 0)
    data = zlib.compress(lines_of(width, height, pixels), 9)
    return b"\x89PNG\r\n\x1a\n" + chunk(b"IHDR", header) + chunk(b"IDAT", data) + chunk(b"IEND", b"")


def opened(data):
    """The header and the rows of a PNG that `png` has made; how they are packed may differ."""
    at, header, packed = 8, b"", b""
    while at < len(data):
        length = struct.unpack(">I", data[at : at + 4])[0]
        name, content = data[at + 4 : at + 8], data[at + 8 : at + 8 + length]
        header += content if name == b"IHDR" else b""
        packed += content if name == b"IDAT" else b""
        at += length + 12
    return header, zlib.decompress(packed)


def drawings():
    """The charts, by their names."""
    if not charts.can_draw():
        print("pictures: gnuplot isn't installed, so no chart is looked at")
        return {}
    return charts.drawn()


def checked(program):
    """The pictures that differ from those that would be made."""
    found = []
    for name, chain in CHAINS.items():
        path = f"{FOLDER}/{name}.png"
        if not os.path.exists(path):
            found.append(f"{name}.png isn't there")
            continue
        with open(path, "rb") as file:
            there = opened(file.read())
        if there != opened(png(*pixels_of(program, chain))):
            found.append(f"{name}.png is another picture")
    for name, drawing in drawings().items():
        path = f"{FOLDER}/{name}.svg"
        if not os.path.exists(path):
            found.append(f"{name}.svg isn't there")
            continue
        with open(path, encoding="utf-8") as file:
            if not charts.are_the_same(file.read(), drawing):
                found.append(f"{name}.svg is another picture")
    return found


def main():
    parser = argparse.ArgumentParser(description=__doc__.split("\n")[0])
    parser.add_argument("--program", default=f"{ROOT}/bin/pnmpipe")
    parser.add_argument("--check", action="store_true", help="write nothing, and compare")
    options = parser.parse_args()
    if options.check:
        if not os.access(options.program, os.X_OK):
            print(f"pictures: there is no {options.program}, so nothing is compared")
            return
        found = checked(options.program)
        print("\n".join(f"pictures: {line}" for line in found) or "pictures: they are as the program makes them")
        sys.exit(bool(found))
    for name, chain in CHAINS.items():
        with open(f"{FOLDER}/{name}.png", "wb") as file:
            file.write(png(*pixels_of(options.program, chain)))
    for name, drawing in drawings().items():
        with open(f"{FOLDER}/{name}.svg", "w", encoding="utf-8") as file:
            file.write(drawing)


if __name__ == "__main__":
    main()
