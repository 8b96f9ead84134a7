#!/usr/bin/env python3
"""Calls of the C library, in C and in Python, over 20,000 images of 64 by 64 and over a page of 100 KB, beside a
process of pnmpipe a file, Pillow, numpy and libvips: calls a second, medians, the samples compared.

The images lie in memory, and so do the results; of `files` and `process` in files below /dev/shm. numpy and libvips
are given the samples and leave samples, and don't read or write a format. For a quiet machine, with what make and make
library have left. Of Pillow, numpy and libvips those are timed that are there.
"""

import io
import os
import statistics
import subprocess
import sys
import time

from measure import HERE, ROOT, print_columns, print_line, written

import library

RUNS = 3

CHAINS = ["pnminvert", "pamflip -r90", "pamcut -left 8 | pamflip -lr | pnminvert"]

# width, height and samples of a pixel; images in all, and those that slow ways take
INPUTS = {"20,000 of 64 by 64": (64, 64, 3, 20_000, 1000), "a page of 100 KB": (300, 340, 1, 500, 100)}

WAYS = {
    "memory": "C, from memory to memory",
    "pnmpipe": "Python, `pnmpipe.run`",
    "files": "C, from a file to a file",
    "process": "a process of `pnmpipe` a file",
    "pillow": "Pillow, from bytes to bytes",
    "numpy": "numpy, from samples to samples",
    "vips": "libvips in C, from samples to samples",
}
SLOW = ("process", "pillow", "numpy", "vips")


def header(width, height, bands):
    return b"P%d\n%d %d\n255\n" % (6 if bands == 3 else 5, width, height)


# ---- the ways of Python, each a function of an image's bytes that gives bytes which end with the samples


def by_pnmpipe(chain, _):
    import pnmpipe

    return lambda image: pnmpipe.run(chain, image)


def by_pillow(chain, _):
    from PIL import Image, ImageOps

    def inverted(image):
        return ImageOps.invert(image)

    def turned(image):
        return image.transpose(Image.Transpose.ROTATE_90)

    def three(image):
        cut = image.crop((8, 0, image.width, image.height))
        return ImageOps.invert(cut.transpose(Image.Transpose.FLIP_LEFT_RIGHT))

    tool = dict(zip(CHAINS, (inverted, turned, three)))[chain]

    def run(image):
        made = io.BytesIO()
        tool(Image.open(io.BytesIO(image))).save(made, "ppm")
        return made.getvalue()

    return run


def by_numpy(chain, shape):
    import numpy

    def inverted(samples):
        return 255 - samples

    def three(samples):
        return 255 - samples[:, :7:-1]

    tool = dict(zip(CHAINS, (inverted, numpy.rot90, three)))[chain]
    count = shape[0] * shape[1] * shape[2]

    def run(image):
        samples = numpy.frombuffer(image, numpy.uint8, count, len(image) - count)
        return tool(samples.reshape(shape[1], shape[0], shape[2])).tobytes()

    return run


PYTHON = {"pnmpipe": by_pnmpipe, "pillow": by_pillow, "numpy": by_numpy}


def time_python(way, chain, path, size, rounds, out, *shape):
    """What library_calls.c does, for a way of Python."""
    run = PYTHON[way](chain, tuple(map(int, shape)))
    with open(path, "rb") as file:
        text = file.read()
    images = [text[at : at + int(size)] for at in range(0, len(text), int(size))]
    for _ in range(int(rounds)):
        start = time.perf_counter()
        for image in images:
            made = run(image)
        print(len(images) / (time.perf_counter() - start))
    with open(out, "wb") as file:
        file.write(made)


# ---- the table


class Bench:
    """The program of C, the images and the ways that are there, in a folder."""

    def __init__(self, folder, program, built, rounds):
        self.folder, self.program, self.rounds = folder, os.path.abspath(program), rounds
        self.own = {**os.environ, "PNMPIPE_LIBRARY": os.path.join(built, library.SHARED)}
        self.own["PYTHONPATH"] = os.path.join(library.SOURCE, "python")
        self.caller = os.path.join(folder, "library_calls")
        source = os.path.join(HERE, "library_calls.c")
        words = [library.compiler(), "-std=gnu99", "-O2", "-I", built, "-o", self.caller, source]
        words += [os.path.join(built, library.SHARED), f"-Wl,-rpath,{os.path.abspath(built)}"]
        vips = subprocess.run(["pkg-config", "--cflags", "--libs", "vips"], capture_output=True, text=True, check=False)
        has_vips = vips.returncode == 0
        subprocess.run([*words, *(["-DWITH_VIPS", *vips.stdout.split()] if has_vips else [])], check=True)
        # (the system's Python has the system's packages)
        pythons = [it for it in (sys.executable, "/usr/bin/python3") if os.path.exists(it)]
        self.python = {way: self.first(pythons, module) for way, module in (("pillow", "PIL"), ("numpy", "numpy"))}
        self.python["pnmpipe"] = sys.executable
        self.ways = [it for it in WAYS if (it != "vips" or has_vips) and self.python.get(it, True)]

    @staticmethod
    def first(pythons, module):
        """The first Python that has the module, if one has."""
        for python in pythons:
            if subprocess.run([python, "-c", f"import {module}"], capture_output=True, check=False).returncode == 0:
                return python
        return None

    def images(self, name, shape, count):
        path = os.path.join(self.folder, name)
        size = len(header(*shape)) + shape[0] * shape[1] * shape[2]
        if not os.path.exists(path):
            written(path, header(*shape), shape[0] * shape[1] * shape[2], count)
        return path, size

    def timed(self, way, chain, path, size, shape):
        """The calls a second, and the samples of the last result."""
        out = os.path.join(self.folder, "out")
        words = [way, chain, path, str(size), str(self.rounds), out]
        if way in PYTHON:
            words = [self.python[way], os.path.abspath(__file__), *words, *map(str, shape)]
        else:
            more = {"process": [self.program], "vips": list(map(str, shape))}.get(way, [])
            words = [self.caller, *words, *more]
        ran = subprocess.run(words, env=self.own, stdout=subprocess.PIPE, text=True, check=True)
        with open(out, "rb") as file:
            return statistics.median(map(float, ran.stdout.split())), file.read()

    def column(self, width, height, bands, count, few, chain):
        """The calls a second of each way over images of one size."""
        told, wanted = {}, {}
        samples = (width - 8 if "-left 8" in chain else width) * height * bands
        for way in self.ways:
            taken = few if way in SLOW else count
            path, size = self.images(f"{width}-{taken}", (width, height, bands), taken)
            told[way], made = self.timed(way, chain, path, size, (width, height, bands))
            if made[-samples:] != wanted.setdefault(taken, made[-samples:]):
                sys.exit(f"bench library: {way} makes other samples than another way of `{chain}`")
        return told

    def table(self, name):
        """Prints the table of an input, and gives what it says of each chain."""
        columns = [self.column(*INPUTS[name], chain) for chain in CHAINS]
        chains = [f"`{chain}`".replace("|", "\\|") for chain in CHAINS]
        print()
        print_columns([f"Calls a second, {name}", *chains])
        for way in self.ways:
            print_line([WAYS[way], *(f"{it[way]:,.0f}" for it in columns)])
        return columns


def add_options(parser):
    parser.add_argument("--library", default=f"{ROOT}/bin", help="the folder that has it")


def run(args, folder):
    if not os.path.exists(os.path.join(args.library, library.SHARED)):
        return f"bench library: there is no {library.SHARED} in {args.library}: run make library first"
    if not library.compiler():
        return "bench library: there is no C compiler"
    bench = Bench(folder, args.program, args.library, args.runs)
    columns = [column for name in INPUTS for column in bench.table(name)]
    for way in ("memory", "files"):
        ratios = [it[way] / it["process"] for it in columns]
        print(f"\n{WAYS[way]}, over a process a file: " + ", ".join(f"{it:.1f}" for it in ratios))
    return 0


if __name__ == "__main__":
    # (run by a Python that has the module of the way)
    time_python(*sys.argv[1:])
