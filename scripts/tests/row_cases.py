"""The cases of test_rows.py: streams of images whose rows have critical sizes, chains of tools, and ways to run them.

Rows travel together in blocks: those that lie whole in what was read, which are 65,536 bytes at most. A row of more
than 16,384 bytes that doesn't is read to its end and travels by itself. So the rows of cases have the sizes around a
byte, a power of two and these limits. Images are so high that a block ends inside the image, that the image fills a
block, or that it has one row more. A comment makes a header longer if its raster has to begin with a read. Samples are
random; their seed is the name of the group."""

import itertools
import random
import typing
from functools import lru_cache

from chain_text import read_chain
from slow_heads import named_tool, result_head
from slow_rasters import Image, answer, unpacked, written
from slow_reader import MOST_HEADER, Fault
from slow_reading import BUFFER, STRAIGHT, raw_row
from slow_writer import header
from tool_examples import untried

# the bytes of rows, and the most of a row that counts as short
SIZES = [1, 7, 8, 9, 511, 512, 513, 16_384, 16_385, 65_535, 65_536, 65_537]
SHORT = 520

# the most bytes of all results of a case, and the most rows that lanes get
MOST_RESULT, MOST_DEALT = 1_150_000, 12_000


class Format(typing.NamedTuple):
    """A kind of images, and the maxvals that they have in turn."""

    kind: str
    depth: int
    maxvals: list
    tuple_type: bytes = b""

    def head(self, width, height=1, turn=0):
        return self.kind, width, height, self.depth, self.maxvals[turn % len(self.maxvals)], self.tuple_type


FORMATS = {
    "bits": Format("Bit", 1, [1]),
    "flags": Format("Pam", 1, [1], b"BLACKANDWHITE"),
    "flags-2": Format("Pam", 2, [1], b"BLACKANDWHITE_ALPHA"),
    "bytes": Format("Gray", 1, [255, 100]),
    "bytes-3": Format("Color", 3, [255, 100]),
    "bytes-4": Format("Pam", 4, [255, 100], b"RGB_ALPHA"),
    "words": Format("Gray", 1, [65_535, 4_095]),
    "words-3": Format("Color", 3, [65_535, 4_095]),
}


class Part(typing.NamedTuple):
    """An image of a stream, its raster, and whether that begins with a read."""

    image: Image
    raster: bytes
    is_aligned: bool = False

    def header(self, start=0, form="raw"):
        """The header of the image if it starts there in the stream."""
        plain = header(form, self.image.head)
        missing = -(start + len(plain)) % BUFFER if self.is_aligned else 0
        if len(plain) + missing > MOST_HEADER:
            raise ValueError("no header is so long that the raster begins with a read")
        comment = b"\n" if missing == 1 else b"#" + b"." * (missing - 2) + b"\n" if missing else b""
        return plain[:3] + comment + plain[3:]

    def block(self, start=0):
        """How many rows lie whole in the first read if the image starts there."""
        come = BUFFER - (start + len(self.header(start))) % BUFFER
        return come // raw_row(self.image.head)


class Way(typing.NamedTuple):
    """How a case is run: by so many lanes, with rings of so many places, the input in pieces of so many bytes, 0 for a
    file."""

    lanes: int = 1
    ring: int = 64
    piece: int = 0


class Case(typing.NamedTuple):
    """A chain, the form of the results, the input, and the ways to run it. The fault is that of the input."""

    chain: str
    text: bytes
    images: list
    ways: list
    fault: typing.Optional[str] = None
    form: str = "raw"

    def wanted(self):
        """What a run writes, and where and what its fault is."""
        return answer(tools_of(self.chain), self.images, self.fault, self.form)


@lru_cache(maxsize=None)
def tools_of(chain):
    return [named_tool(stage) for stage in read_chain(chain)]


# --- images


def raster_of(numbers, maxval, size):
    """Bytes that are samples of at most a maxval."""
    raster = numbers.randbytes(size)
    if maxval in (255, 65_535):
        return raster
    if maxval == 4_095:
        made = bytearray(raster)
        made[::2] = made[::2].translate(bytes(byte % 16 for byte in range(256)))
        return bytes(made)
    return raster.translate(bytes(byte % (maxval + 1) for byte in range(256)))


def part(numbers, form, width, height, turn=0, is_aligned=False):
    """A random image."""
    head = form.head(width, height, turn)
    size = raw_row(head) * height
    if form.kind == "Bit":
        # (spare bits are random, too)
        raster = numbers.randbytes(size)
        return Part(Image(head, unpacked(raster, width)), raster, is_aligned)
    raster = raster_of(numbers, head[4], size)
    return Part(Image(head, raster), raster, is_aligned)


def widths(form, size):
    """How wide images are whose rows have so many bytes, or nearly."""
    if form.kind == "Bit":
        return [8 * size, 8 * size - 3, 8 * size - 7]
    pixel = raw_row(form.head(1))
    return sorted({max(1, size // pixel), -(-size // pixel)}, reverse=True)


def parts_of(numbers, form, size, heights):
    """Images of these heights, each of the next width; a height is worked out of the rows that a block has room for."""
    parts, turns = [], itertools.cycle(widths(form, size))
    for turn, (height, is_aligned) in enumerate(heights):
        width = next(turns)
        rows = height(BUFFER // raw_row(form.head(width))) if callable(height) else height
        parts.append(part(numbers, form, width, rows, turn, is_aligned))
    return parts


def stream_of(parts):
    text = b""
    for it in parts:
        text += it.header(len(text)) + it.raster
    return text


FEW = [(5, False), (1, False), (2, False)]
SOME = [*FEW, (11, False)]
INSIDE, FULL, ONE_MORE = (lambda block: block + block // 2 + 1), (lambda block: block), (lambda block: block + 1)
TALL = [(INSIDE, False), (ONE_MORE, True), (FULL, True)]
TURNED = [(1_023, False), (1_024, False), (1_025, False)]


# --- chains


def result_of(tools, head):
    """The head of a chain's result, and the most bytes that one of its tools makes; None if one refuses."""
    most = 0
    for tool in tools:
        try:
            head = result_head(tool, head)
        except Fault:
            return None
        most = max(most, raw_row(head) * head[2])
    return head, most


def taken(chain, parts):
    """The images that a chain takes, as far as their results are not too large."""
    found, left = [], MOST_RESULT
    for it in parts:
        result = result_of(tools_of(chain), it.image.head)
        if result and result[1] <= left:
            left -= result[1]
            found.append(it)
    return found


def single_tools(parts):
    """Each tool: by options for these images, or else by its example."""
    chains = list(fitting_tools(parts))
    return chains + untried(chains)


def fitting_tools(parts):
    """The tools whose options depend on the images, or that have several ways to go."""
    sizes = [it.image.head[1:3] for it in parts]
    least, (wide, high) = min(width for width, _ in sizes), map(max, zip(*sizes))
    depth = min(it.image.head[3] for it in parts)
    yield from ("pnminvert", "pamdepth 255", "pamdepth 1", "pamdepth 65535")
    yield f"pamcut -left {least // 3} -right -{1 + least // 4} -top 1 -bottom -2"
    yield from ("pamcut -top 1", "pamcut -bottom -2", f"pamcut -left {least // 2}", f"pamcut -width {least // 2 + 1}")
    for edge in sorted({it.block() for it in parts} - {0}):
        yield from (f"pamcut -top {edge - 1} -height 2", f"pamcut -top {edge}", f"pamcut -height {edge}")
    yield from ("pamchannel 0 -tupletype X", f"pamchannel {depth - 1} 0")
    yield from (f"pamenlarge {options}" for options in ("2", "3", "-xscale 2", "-yscale 3"))
    is_short = all(raw_row(it.image.head) <= SHORT for it in parts)
    yield from ["pamenlarge 17"] if is_short else ["pamenlarge -xscale 17", "pamenlarge -yscale 17"]
    yield from (f"pamflip -{way}" for way in ("lr", "tb", "r180", "xy", "r90", "r270"))
    yield from (f"pnmtile {wide + wide // 2 + 1} {high + 3}", f"pnmtile {least // 2 + 1} {high // 2 + 1}")


def pairs_of_tools(parts):
    """A tool that keeps images and one that doesn't, in both orders, and two that keep them."""
    wide, high = (max(it.image.head[at] for it in parts) for at in (1, 2))
    keeping = [f"pamflip -{way}" for way in ("tb", "xy", "r180", "r270")] + [f"pnmtile {wide + 3} {high + 2}"]
    others = ["pnminvert", "pamcut -top 1 -right -2", "pamcut -bottom -2", "pamdepth 255", "pamdepth 65535"]
    others += ["pamchannel 0 0", "pamenlarge 2", "pamenlarge -yscale 3", "pamflip -lr"]
    for one, other in itertools.product(keeping, others):
        yield from (f"{one} | {other}", f"{other} | {one}")
    yield from (f"{one} | {other}" for one, other in itertools.permutations(keeping, 2))
    yield from (f"pamenlarge -yscale 3 | {other} | {one}" for one, other in zip(itertools.cycle(keeping), others))


# --- groups


class Group:
    """Cases of one kind, mostly of rows of one format and size."""

    def __init__(self, name):
        self.kind, *facts = name.split()
        self.numbers = random.Random(name)
        if len(facts) == 2:
            self.form, self.size = FORMATS[facts[0]], int(facts[1])
        lanes_and_rings = [(1, 1), (2, 64), (2, 1), (3, 64), (3, 1), (8, 64), (8, 1)]
        self.numbers.shuffle(lanes_and_rings)
        self.others = itertools.cycle(lanes_and_rings)

    def cases(self):
        return getattr(self, self.kind)()

    def other(self, chain, parts):
        """Another way to run a case: in turn each number of lanes with each size of rings; many rows in one lane."""
        results = [result_of(tools_of(chain), it.image.head)[0] for it in parts]
        rows = sum(max(it.image.head[2], head[2]) for it, head in zip(parts, results))
        return Way(*next(self.others)) if rows <= MOST_DEALT else Way(1, 1)

    def each(self, chains, parts, pieces=()):
        """A case of each chain, over the images that it takes. Every other one is run in a second way."""
        seconds = [self.other, *(lambda *_, it=it: Way(piece=it) for it in pieces)]
        seconds = [it for second in seconds for it in (second, None)]
        start = self.numbers.randrange(len(seconds))
        texts = {}
        for chain, second in zip(chains, itertools.cycle([*seconds[start:], *seconds[:start]])):
            fit = taken(chain, parts)
            key = tuple(map(id, fit))
            if key and key not in texts:
                texts[key] = stream_of(fit)
            if key:
                ways = [Way()] + ([second(chain, fit)] if second else [])
                yield Case(chain, texts[key], [it.image for it in fit], ways)

    def few(self):
        """Few rows, which come at once, or by one byte, a row less a byte, or three rows and a half a read."""
        parts = parts_of(self.numbers, self.form, self.size, SOME if self.size <= SHORT else FEW)
        row = raw_row(parts[0].image.head)
        pieces = {row - 1, 7 * row // 2, 1 if row < 10 else row - 1} - {0}
        return self.each(single_tools(parts), parts, [min(it, BUFFER) for it in sorted(pieces)])

    def tall(self):
        """Rows for more than a block."""
        parts = parts_of(self.numbers, self.form, self.size, TALL)
        return self.each(single_tools(parts), parts)

    def turned(self):
        """Columns of some 1,024 samples."""
        parts = parts_of(self.numbers, self.form, self.size, TURNED)
        return self.each((f"pamflip -{way}" for way in ("xy", "r90", "r270")), parts)

    def pairs(self):
        """Some of all pairs of tools, others in each group; every other one is run in a second way alone."""
        heights = [(5, False), *(TALL[:2] if 2 * self.size <= BUFFER else [(2, True)])]
        parts = parts_of(self.numbers, self.form, self.size, heights)
        for case in self.each(self.numbers.sample(list(pairs_of_tools(parts)), 12), parts):
            yield case._replace(ways=case.ways[-1:])

    def bad(self):
        """A sample above the maxval, or a raster that ends too soon, at the ends of a block and inside it."""
        form = self.form._replace(maxvals=self.form.maxvals[-1:])
        heights = [(2, False), ((lambda block: 2 * block + 1) if 2 * self.size <= BUFFER else 5, True)]
        for is_aligned in (False, True):
            good, bad = parts_of(self.numbers, form, self.size, heights)
            bad = bad._replace(is_aligned=is_aligned)
            start = len(stream_of([good]))
            height, block = bad.image.head[2], bad.block(start)
            rows = {0, 1, height // 2, height - 1, *(it for it in (block - 1, block, block + 1) if 0 <= it < height)}
            tools = itertools.cycle(self.numbers.sample(single_tools([bad]), 12))
            for y in sorted(rows):
                yield from self.bad_at(y, good, bad, tools)

    def bad_at(self, y, good, bad, tools):
        """Streams whose second image is at fault in a row."""
        before, length = stream_of([good]), raw_row(bad.image.head)
        front = before + bad.header(len(before))
        images = [good.image, Image(bad.image.head, bad.image.samples[: y * bad.image.row])]
        spoiled = self.spoiled(bad, y * length, length)
        ends = [(bad.raster[: y * length + length - 1], "RasterCut")]
        ends += [(spoiled + before, "SampleAboveMaxval")] if spoiled else []
        for raster, fault in ends:
            chain = next(it for it in tools if len(taken(it, [good, bad])) == 2)
            ways = [Way(), self.other(chain, [good, bad])]
            yield Case(chain, front + raster, images, ways[: self.numbers.randint(1, 2)], fault)

    def spoiled(self, bad, start, length):
        """The raster with a sample above the maxval, the first or the last one of a row; None if none can be."""
        maxval, sample = bad.image.head[4], bad.image.sample
        if bad.image.head[0] == "Bit" or maxval in (255, 65_535):
            return None
        at = start + self.numbers.choice([0, length - sample])
        return bad.raster[:at] + (maxval + 1).to_bytes(sample, "big") + bad.raster[at + sample :]

    def plain(self):
        """Plain images, and raw ones of which plain results are wanted, one in a stream."""
        parts = parts_of(self.numbers, self.form, self.size, [(5 if self.size <= SHORT else 1, False)])
        if 1 < self.size <= SHORT:
            parts += parts_of(self.numbers, self.form, self.size, [(INSIDE, False)])
        for it, count in zip(parts, (12, 3)):
            for case in self.each(self.numbers.sample(single_tools([it]), count), [it]):
                yield case._replace(text=plain_text(it, self.numbers))
        for it in parts:
            chains = [chain for chain in single_tools([it]) if "pamchannel" not in chain]
            for case in self.each(self.numbers.sample(chains, 6), [it]):
                yield case._replace(form="plain")

    def mixed(self):
        """Images of all formats one after another, whose rows have any size."""
        parts = []
        for turn in range(30):
            form = self.numbers.choice(list(FORMATS.values()))
            width, height = self.numbers.choice([(1, 400), (9, 90), (70, 60), (200, 40), (700, 9), (2_000, 3)])
            width, height = self.numbers.randint(1, width), self.numbers.randint(1, height)
            parts.append(part(self.numbers, form, width, height, turn))
        return self.each(single_tools(parts), parts)

    def refused(self):
        """A tool refuses an image between others."""
        for form in FORMATS.values():
            wide, narrow = (part(self.numbers, form, width, 300) for width in (90, 20))
            for chain in ("pamcut -left 40", "pnminvert | pamcut -left 40 | pamflip -tb", "pamchannel 5"):
                parts = [wide, wide, narrow, wide]
                yield Case(chain, stream_of(parts), [it.image for it in parts], [Way(), Way(*next(self.others))])


def plain_text(given, numbers):
    """The text of a plain image, between whose samples stand blanks of any kind, or none between bits."""
    head, row = given.image.head, given.image.row
    one = (*head[:2], 1, *head[3:])
    blanks = [b" ", b"\n", b"\t\r\n"] + [b""] * (head[0] == "Bit")
    text = given.header(form="plain")
    for at in range(0, len(given.image.samples), row):
        samples = written("plain", Image(one, given.image.samples[at : at + row]))[len(header("plain", one)) :]
        text += numbers.choice([b"", b"#\n"]) + samples.replace(b" ", numbers.choice(blanks))
    return text


def group_names():
    """All groups."""
    for name, form in FORMATS.items():
        for size in SIZES:
            kinds = ["few"]
            kinds += ["pairs"] if size not in (65_535, 65_537) else []
            kinds += ["tall"] if 2 * size <= BUFFER else []
            kinds += ["turned"] if size < 10 or size <= SHORT and form.maxvals[0] == 255 else []
            kinds += ["bad"] if size in (7, 9, 513, STRAIGHT, 65_537) or (name, size) == ("bytes", 1) else []
            kinds += ["plain"] if form.kind != "Pam" and size in (1, 9, 512, STRAIGHT, 65_536) else []
            yield from (f"{kind} {name} {size}" for kind in kinds)
    yield from ("mixed 1", "mixed 2", "mixed 3", "refused")
