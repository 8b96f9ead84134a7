"""What pnm_format_cases has to tell of rows, worked out slowly from what its lines mean: pixels are 0 where they are
black and 1 where they are white, the first pixel of a byte is its highest bit, and a bit is 1 where the pixel is
black."""

import re

from slow_reader import tell_text

# numbers at the ends of bits, bytes and words, and beside them
BOUNDS = [0, 1, 2, 200, 254, 255, 256, 300, 65_534, 65_535, 65_536, 2**32 - 1]

# of which parts are copied
WHOLE = 20


def made_up(kind, count):
    """So many pixels of a made row."""
    return [int((at * at + 5 * kind + at // 3) % 5 > 1) for at in range(count)]


def packed(pixels):
    """The bytes of pixels, the spare bits white."""
    size = (len(pixels) + 7) // 8
    bits = bytes([ord("1") - pixel for pixel in pixels]).decode().ljust(8 * size, "0")
    return int(bits or "0", 2).to_bytes(size, "big")


def pixels_in(text):
    """The pixels of bytes."""
    return [1 - (byte >> bit & 1) for byte in text for bit in range(7, -1, -1)]


def tell_pixels(pixels):
    """How many pixels a row has, each of them, and its bytes."""
    return f" {len(pixels)} {''.join(map(str, pixels))}{tell_text(packed(pixels))}"


def tell_columns(byte, count, height):
    """So many columns of a made image, from a byte on."""
    rows = [made_up(y, 8 * byte + count) for y in range(height)]
    columns = [[row[8 * byte + x] for row in rows] for x in range(count)]
    return "".join(f" {height}{tell_text(packed(column))}" for column in columns)


def rows_of(word, numbers):
    """The rows of a sweep of pixels."""
    first, last = numbers[:2]
    if word == "new":
        return [made_up(count, count) for count in range(first, last + 1) for _ in range(2)]
    if word == "take":
        return [made_up(1, 40)[:count] for count in range(first, last + 1)]
    if word == "invert":
        return [[1 - pixel for pixel in made_up(count, count)] for count in range(first, last + 1)]
    if word == "reverse":
        return [made_up(2, count)[::-1] for count in range(first, last + 1)]
    least, most = numbers[2:4]
    if word == "repeat":
        return [
            [pixel for pixel in made_up(2, count) for _ in range(times)]
            for count in range(first, last + 1)
            for times in range(least, most + 1)
        ]
    return [
        made_up(1, held) + made_up(2, 43)[start : start + count]
        for held in range(first, last + 1)
        for start in range(least, most + 1)
        for count in range(numbers[4], numbers[5] + 1)
    ]


def tell_within(row, most):
    """Whether a row is within each number."""
    bounds = BOUNDS + [max(most - 1, 0), most, most + 1]
    return " " + "".join(str(int(all(sample <= bound for sample in row))) for bound in bounds)


def tell_left(maxval, sample):
    """What is left of a maxval, as a byte where it is one, and as a word."""
    return f" {maxval - sample} 0" * (2 if maxval < 256 else 1)


def made_samples(word, count):
    """So many samples of a made row."""
    if word == "bits":
        return made_up(3, count)
    return [at * 37 % 256 if word == "bytes" else at * 9_973 % 65_536 for at in range(count)]


def tell_samples(word, count):
    """How a row is held, its samples three times over, and the same of its copy."""
    held, samples = f" {word} {count}", "".join(f" {it}" for it in made_samples(word, count))
    return f"{held}{samples}{samples}{held}{samples}{samples}"


def tell_parts(word):
    """Each part of a row."""
    row = made_samples(word, WHOLE)
    parts = [row[start : start + count] for start in range(WHOLE + 1) for count in range(WHOLE - start + 1)]
    return ["".join(f" {it}" for it in part) for part in parts]


def tell_line(word, rest, text):
    """What is told of a line, a list where it is a sweep; a fault where there is no such word."""
    numbers = [int(number) for number in re.findall(r"\d+", rest)]
    if word in ("bits", "pixels"):
        count, _, pixels = text.partition(b" ")
        row = pixels_in(pixels)[: int(count)]
        return tell_pixels(row) + tell_pixels([]) if word == "bits" else tell_within(row, 1)
    if word in ("words", "bytes"):
        most = max(numbers, default=0)
        return f" {most}" + tell_within(numbers, most) * 2
    if word == "bound":
        return tell_within([3, 9, 0], 9) * 2
    if word == "left":
        return tell_left(*numbers)
    if word == "columns":
        byte, first, last, lowest, highest = numbers
        heights = range(lowest, highest + 1)
        return [tell_columns(byte, count, height) for height in heights for count in range(first, last + 1)]
    if word == "samples":
        return [tell_samples(rest.partition(" ")[0], count) for count in range(numbers[0], numbers[1] + 1)]
    if word == "parts":
        return tell_parts(rest)
    if word in ("new", "take", "invert", "reverse", "repeat", "append"):
        return [tell_pixels(row) for row in rows_of(word, numbers)]
    raise ValueError(f"no line begins with {word}")
