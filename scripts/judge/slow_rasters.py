"""What each tool makes of images of many or wide rows, and what a run writes and prints, worked out from the manual
pages as in slow_tools.py and slow_writer.py, but of many bytes at once. Heads and refusals are those of slow_heads.py.
test_cases.py compares the samples with what slow_tools.py works out of each sample.

A piece is a pixel or a row: so many bytes. Pieces of one size stand one after another. A function goes over the pieces,
or over the bytes of one, whichever are fewer."""

import itertools
import sys
import typing
from array import array
from functools import lru_cache

from slow_heads import kept, result_head
from slow_reader import Fault
from slow_tools import keeps_images
from slow_writer import header, lines_of

NUMERALS = [str(number) for number in range(65_536)]


class Image(typing.NamedTuple):
    """A head, and the samples of the rows that have come: a byte each, or two if the maxval is above 255."""

    head: tuple
    samples: bytes

    @property
    def sample(self):
        """The bytes of a sample."""
        return 1 if self.head[4] < 256 else 2

    @property
    def row(self):
        """The bytes of a row of samples."""
        return self.head[1] * self.head[3] * self.sample


# --- pieces


def repeated(pieces, size, times):
    """Each piece so many times."""
    if len(pieces) <= size * size:
        return b"".join(pieces[at : at + size] * times for at in range(0, len(pieces), size))
    made = bytearray(len(pieces) * times)
    for byte in range(size):
        for at in range(byte, size * times, size):
            made[at :: size * times] = pieces[byte::size]
    return bytes(made)


def backwards(pieces, size):
    """The last piece first."""
    if len(pieces) <= size * size:
        return b"".join(pieces[at : at + size] for at in range(len(pieces) - size, -1, -size))
    made = bytearray(len(pieces))
    for byte in range(size):
        made[byte::size] = pieces[byte::size][::-1]
    return bytes(made)


def parts(pieces, size, start, end):
    """Of each piece the bytes from a start to an end."""
    if len(pieces) <= size * (end - start):
        return b"".join(pieces[at + start : at + end] for at in range(0, len(pieces), size))
    made = bytearray(len(pieces) // size * (end - start))
    for byte in range(start, end):
        made[byte - start :: end - start] = pieces[byte::size]
    return bytes(made)


def transposed(pieces, size, across):
    """The columns of rows of so many pieces, one after another."""
    down = len(pieces) // (size * across)
    made = bytearray(len(pieces))
    if down <= across:
        for y, byte in itertools.product(range(down), range(size)):
            row = pieces[y * across * size : (y + 1) * across * size]
            made[y * size + byte :: down * size] = row[byte::size]
    else:
        for x, byte in itertools.product(range(across), range(size)):
            column = pieces[x * size + byte :: across * size]
            made[x * down * size + byte : (x + 1) * down * size : size] = column
    return bytes(made)


# --- bits: a sample is 1 if the pixel is white, and a bit is 1 if it is black


def unpacked(raster, width):
    """The samples of rows of bits."""
    bits = f"{int.from_bytes(raster, 'big'):0{8 * len(raster)}b}".encode()
    return parts(bits.translate(bytes(byte == ord("0") for byte in range(256))), (width + 7) // 8 * 8, 0, width)


def packed(samples, width):
    """The rows of bits of samples, the spare bits white."""
    spare = -width % 8
    if spare and len(samples) <= width * width:
        samples = b"".join(samples[at : at + width] + b"\1" * spare for at in range(0, len(samples), width))
    elif spare:
        padded = bytearray(b"\1" * (len(samples) // width * (width + spare)))
        for x in range(width):
            padded[x :: width + spare] = samples[x::width]
        samples = padded
    bits = samples.translate(b"10".ljust(256))
    return int(bits or b"0", 2).to_bytes(len(bits) // 8, "big")


# --- samples


def words_of(samples):
    """The numbers of samples of two bytes."""
    words = array("H", samples)
    if sys.byteorder == "little":
        words.byteswap()
    return words


@lru_cache(maxsize=None)
def inverted(maxval):
    return [maxval - sample for sample in range(maxval + 1)]


@lru_cache(maxsize=None)
def scaled(maxval, made):
    return [(2 * sample * made + maxval) // (2 * maxval) for sample in range(maxval + 1)]


def looked_up(samples, size, table, made_size):
    """For each sample the number that a table has, in samples of so many bytes."""
    if size == 1:
        highs, lows = (bytes(it >> shift & 255 for it in table).ljust(256, b"\0") for shift in (8, 0))
        if made_size == 1:
            return samples.translate(lows)
        made = bytearray(2 * len(samples))
        made[0::2], made[1::2] = samples.translate(highs), samples.translate(lows)
        return bytes(made)
    numbers = map(table.__getitem__, words_of(samples))
    return bytes(numbers) if made_size == 1 else words_of(array("H", numbers).tobytes()).tobytes()


def planes_of(samples, size, depth, planes):
    """The samples of these planes."""
    made = bytearray(len(samples) // depth * len(planes))
    for number, plane in enumerate(planes):
        for byte in range(size):
            made[number * size + byte :: len(planes) * size] = samples[plane * size + byte :: depth * size]
    return bytes(made)


# --- tools


def flipped(image, way):
    """The samples of a flipped image."""
    _, width, _, depth, _, _ = image.head
    samples, pixel = image.samples, depth * image.sample
    if way in ("topbottom", "r270"):
        samples = backwards(samples, image.row)
    if way in ("leftright", "r180"):
        # (all pixels from the last to the first)
        samples = backwards(samples, pixel)
    if way == "leftright":
        samples = backwards(samples, image.row)
    if way in ("transpose", "r90", "r270"):
        samples = transposed(samples, pixel, width)
    if way == "r90":
        samples = backwards(samples, len(samples) // width)
    return samples


def made_samples(tool, image, head):
    """The samples of the rows that are due of an image whose rows have come, by the head of the result."""
    _, width, height, depth, maxval, _ = image.head
    samples, row, pixel, options = image.samples, image.row, depth * image.sample, tool.options
    if keeps_images(tool) and len(samples) < height * row:
        return b""
    if tool.name == "invert":
        return looked_up(samples, image.sample, inverted(maxval), image.sample)
    if tool.name == "depth":
        return looked_up(samples, image.sample, scaled(maxval, head[4]), 1 if head[4] < 256 else 2)
    if tool.name == "planes":
        return planes_of(samples, image.sample, depth, options[0])
    if tool.name == "cut":
        left, columns = kept(width, options[0], options[1], options[4])
        top, rows = kept(height, options[2], options[3], options[5])
        return parts(samples[top * row : (top + rows) * row], row, left * pixel, (left + columns) * pixel)
    if tool.name == "enlarge":
        across, down = options
        return repeated(repeated(samples, pixel, across), row * across, down)
    if tool.name == "tile":
        times = -(-head[1] // width)
        across = parts(repeated(samples[: head[2] * row], row, times), times * row, 0, head[1] * pixel)
        return (across * (-(-head[2] // height)))[: head[2] * head[1] * pixel]
    return flipped(image, options[0])


def made_of(tool, image):
    """What is due of an image's result; a Fault if the tool refuses its head."""
    head = result_head(tool, image.head)
    return Image(head, made_samples(tool, image, head))


# --- runs


def written(form, image):
    """The bytes of a head and of rows in a form."""
    kind, width = image.head[:2]
    samples = image.samples
    if form == "raw":
        return header(form, image.head) + (packed(samples, width) if kind == "Bit" else samples)
    if kind == "Bit":
        words = samples.translate(b"10".ljust(256)).decode()
    else:
        words = [NUMERALS[it] for it in (samples if image.sample == 1 else words_of(samples))]
    each = width * image.head[3]
    lines = [lines_of(words[at : at + each]) for at in range(0, len(words), each)]
    return header(form, image.head) + "".join(lines).encode()


def answer(tools, images, fault=None, form="raw"):
    """What a run writes, and where and what its fault is, if there is one. If the input is at fault, the last image may
    lack rows."""
    results = b""
    for image in images:
        for number, tool in enumerate(tools, 1):
            try:
                image = made_of(tool, image)
            except Fault as refusal:
                return results, f"input: {fault}" if fault else f"tool {number}: {refusal}"
        results += written(form, image)
    return results, f"input: {fault}" if fault else None
