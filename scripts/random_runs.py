"""Random streams and chains, and how the program and the C library answer them, for scripts that compare runs."""

import os
import subprocess
import sys

from places import ROOT
from tool_examples import EXAMPLES

SHARED = os.path.join(ROOT, "bin/libpnmpipe.so.1")

# samples that a result may have at most, so that a run is over soon; few are let through beyond it, to ten times as
# many
MOST_SAMPLES = 400_000

MAXVALS = [1, 2, 9, 100, 254, 255, 256, 300, 4095, 65535]

TYPES = [b"", b"RGB", b"GRAYSCALE", b"BLACKANDWHITE", b"BLACKANDWHITE_ALPHA", b"two words"]


def size_of(numbers):
    """A width and a height: small mostly, wide or tall at times."""
    form = numbers.random()
    if form < 0.05:
        return numbers.randint(1, 3), numbers.randint(100, 2000)
    if form < 0.1:
        return numbers.randint(1000, 20000), numbers.randint(1, 3)
    if form < 0.5:
        return numbers.randint(1, 6), numbers.randint(1, 6)
    return numbers.randint(1, 70), numbers.randint(1, 40)


def samples_of(numbers, count, maxval):
    """Samples, seldom one above the maxval, where the bytes of one have room for that."""
    samples = [numbers.randint(0, maxval) for _ in range(count)]
    if maxval not in (255, 65535) and numbers.random() < 0.02:
        samples[numbers.randrange(count)] = maxval + 1
    return samples


def plain_image(numbers):
    """An image whose raster is a text, with comments and blanks here and there."""
    kind = numbers.choice([1, 2, 3])
    width, height = numbers.randint(1, 30), numbers.randint(1, 20)
    maxval = 1 if kind == 1 else numbers.choice(MAXVALS)
    gap = numbers.choice([" ", "\n", " # a comment\n", "\t \r\n"])
    header = f"P{kind}{gap}{width}{gap}{height}{gap}" + ("" if kind == 1 else f"{maxval}\n")
    samples = samples_of(numbers, width * height * (3 if kind == 3 else 1), maxval)
    parts = [str(sample) for sample in samples]
    text = "".join(part + numbers.choice(["", " "]) for part in parts) if kind == 1 else gap.join(parts)
    return (header + text).encode() + numbers.choice([b"", b"\n", b"\njunk"]), width, height, 3 if kind == 3 else 1


def raw_image(numbers):
    kind = numbers.choice([4, 5, 6, 7])
    width, height = size_of(numbers)
    if kind == 4:
        raster = numbers.randbytes((width + 7) // 8 * height)
        return b"P4\n%d %d\n" % (width, height) + raster, width, height, 1
    maxval = numbers.choice(MAXVALS)
    depth = {5: 1, 6: 3}.get(kind) or numbers.randint(1, 5)
    samples = samples_of(numbers, width * height * depth, maxval)
    raster = b"".join(sample.to_bytes(1 if maxval < 256 else 2, "big") for sample in samples)
    if kind == 7:
        typed = numbers.choice(TYPES)
        lines = [b"WIDTH %d" % width, b"HEIGHT %d" % height, b"DEPTH %d" % depth, b"MAXVAL %d" % maxval]
        lines.append(b"TUPLTYPE " + typed)
        numbers.shuffle(lines)
        return b"P7\n" + b"\n".join(lines) + b"\nENDHDR\n" + raster, width, height, depth
    return b"P%d\n# c\n%d %d\n%d\n" % (kind, width, height, maxval) + raster, width, height, depth


def stream_of(numbers):
    """A stream, and the greatest width, height and depth of its images; sometimes it is cut or a byte is another."""
    if numbers.random() < 0.15:
        images = [plain_image(numbers)]
    else:
        images = [raw_image(numbers) for _ in range(numbers.choice([1, 1, 2, 3, 5]))]
    stream = bytearray(b"".join(image for image, _, _, _ in images))
    damage = numbers.random()
    if damage < 0.12:
        del stream[numbers.randrange(len(stream)) :]
    elif damage < 0.2:
        stream[numbers.randrange(len(stream))] = numbers.randrange(256)
    elif damage < 0.23:
        stream += numbers.choice([b"\n", b"P", b"P1 1 1 0", b"P5 1 1 0\n\x00", b"XX"])
    return bytes(stream), *(max(sizes) for sizes in list(zip(*images))[1:])


def cut_of(numbers):
    options = []
    for start, end, size in [("left", "right", "width"), ("top", "bottom", "height")]:
        forms = [[], [], [(start, (0, 2))], [(end, (-3, -1))], [(start, (-3, 1)), (end, (-1, -1))], [(size, (1, 2))]]
        some = numbers.choice(forms)
        options += [f"-{name} {numbers.randint(*between)}" for name, between in some]
    return " ".join(["pamcut", *options])


# two planes of any image, so many times as wide, are more samples than a row may have
TOO_LARGE = ["pamchannel 0 0", "pamenlarge -xscale 8388609"]


def scale_of(numbers, wide, high):
    across, down = numbers.randint(1, 3), numbers.randint(1, 3)
    samples = wide * across * high * down
    if samples > 10 * MOST_SAMPLES or samples > MOST_SAMPLES and numbers.random() < 0.98:
        across, down = 1, 1
    text = numbers.choice([f"-xscale {across}", f"-yscale {down}", f"-xscale {across} -yscale {down}"])
    return "pamenlarge " + text, wide * across, high * down


def chain_of(numbers, width, height, depth):
    """1 to 64 tools, and how large a result may be, so that no chain makes too much. A tool without a branch of its own
    makes no image larger, and stands there by its examples in turn."""
    tools = []
    wide, high = width * depth, height
    count = numbers.choice([1, 1, 2, 2, 3, 4, 5, 8, 16, 17, 64])
    while len(tools) < count:
        name = numbers.choice(list(EXAMPLES))
        if name == "pamcut":
            tools.append(cut_of(numbers))
        elif name == "pamdepth":
            tools.append(f"pamdepth {numbers.choice(MAXVALS)}")
        elif name == "pamchannel":
            planes = [numbers.choice([0, 0, 0, 0, 1, 2]) for _ in range(numbers.randint(1, 3))]
            wide *= len(planes)
            typed = numbers.choice(["", " -tupletype=", " -tupletype RGB"])
            tools.append(f"pamchannel {' '.join(map(str, planes))}{typed}")
        elif name == "pamenlarge" and len(tools) + 2 <= count and numbers.random() < 0.02:
            tools += TOO_LARGE
        elif name == "pamenlarge":
            text, wide, high = scale_of(numbers, wide, high)
            tools.append(text)
        elif name == "pamflip":
            way = numbers.choice(["-null", "-lr", "-tb", "-xy", "-r90", "-r180", "-r270"])
            wide, high = (max(wide, high * depth), max(high, wide)) if way in ("-xy", "-r90", "-r270") else (wide, high)
            tools.append(f"pamflip {way}")
        elif name == "pnmtile":
            across, down = numbers.randint(1, 90), numbers.randint(1, 60)
            wide, high = max(wide, across * depth), max(high, down)
            tools.append(f"pnmtile {across} {down}")
        else:
            tools.append(EXAMPLES[name][len(tools) % len(EXAMPLES[name])])
    return " | ".join(tools)


def library(shared=SHARED):
    """The Python module over this library, or None if there is no library."""
    if not os.path.exists(shared):
        return None
    os.environ["PNMPIPE_LIBRARY"] = shared
    sys.path.insert(0, os.path.join(ROOT, "library/python"))
    sys.dont_write_bytecode = True
    import pnmpipe

    return pnmpipe


def by_program(program, stream, chain, plain):
    """What a quiet run writes, and its line."""
    ran = subprocess.run([program, *["--plain"] * plain, "--", chain], input=stream, capture_output=True, check=False)
    return ran.stdout, ran.stderr.decode()


def by_library(module, stream, chain, plain):
    """The same of the library, which runs in one thread."""
    try:
        return module.run(chain, stream, plain), ""
    except module.Fault as fault:
        return fault.results, f"pnmpipe: {fault}\n"
