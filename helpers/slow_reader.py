"""What a text says as a stream of images, worked out slowly from the formats' description. Numbers of answers are as
the programs of cases tell them."""

import re
import sys
import zlib
from array import array
from functools import reduce

FORMATS = {
    b"1": ("Bit", True),
    b"2": ("Gray", True),
    b"3": ("Color", True),
    b"4": ("Bit", False),
    b"5": ("Gray", False),
    b"6": ("Color", False),
    b"7": ("Pam", False),
}
DEPTHS = {"Bit": 1, "Gray": 1, "Color": 3}
MOST = 16_777_216
BLANKS = b" \t\r"
FIELDS = (b"WIDTH", b"HEIGHT", b"DEPTH", b"MAXVAL")

# the most bytes of a header, and of a plain raster from one sample's last digit through the next one's
MOST_HEADER, MOST_GAP = 65_536, 1_048_576

# a comment goes through the next CR or LF; what any other byte is
COMMENT = re.compile(rb"#[^\r\n]*[\r\n]?")
BLANKS_OF_RASTER, DIGITS = re.compile("[ #]*"), re.compile("0*")
MARKS = bytes(b"0"[0] if 48 <= byte <= 57 else b" "[0] if byte in b" \t\r\n" else b"x"[0] for byte in range(256))


class Fault(Exception):
    """A fault, by its name, ends the stream. Of a header's fault is known where it stands there, and what does."""

    def __init__(self, name, at=0, what=None):
        super().__init__(name)
        self.at = at
        self.what = what


def answers(text):
    """All that a source answers: heads, rows, and words, the last of which is StreamEnd or a fault."""
    given = []
    rest = text
    try:
        while rest or not given:
            kind, is_plain = magic(rest, bool(given))
            head, length = read_head(kind, rest)
            given.append(head)
            raster = plain_raster if is_plain else raw_raster
            rest = raster(rest[length:], head, given)
        given.append("StreamEnd")
    except Fault as fault:
        given.append(str(fault))
    return given


# what is answered where a byte is missing
MISSING = ("EmptyInput", "HeaderCut", "RasterCut")


def answers_to_all(text):
    """What is answered to each text that begins with this one, before another byte is needed, and whether more is."""
    at_end, before_junk = answers(text), answers(text + b"x")
    given = []
    for one, other in zip(at_end, before_junk):
        if one != other or one in MISSING:
            break
        given.append(one)
    return given, not (given and isinstance(given[-1], str) and given[-1] != "ImageEnd")


def read_head(kind, text):
    """The head of a header, which has so many bytes at most, and its bytes."""
    try:
        return pam_head(text[:MOST_HEADER]) if kind == "Pam" else pnm_head(kind, text[:MOST_HEADER])
    except Fault as fault:
        if str(fault) == "HeaderCut" and len(text) > MOST_HEADER:
            raise Fault("TooLong", MOST_HEADER) from None
        raise


def magic(text, is_later):
    """The kind that the magic names, and whether the image is plain."""
    if not text:
        raise Fault("EmptyInput")
    if text[:1] != b"P":
        raise Fault("BadMagic")
    if len(text) < 2:
        raise Fault("HeaderCut")
    if text[1:2] not in FORMATS:
        raise Fault("BadMagic")
    kind, is_plain = FORMATS[text[1:2]]
    if is_plain and is_later:
        raise Fault("PlainInStream")
    return kind, is_plain


def judged(kind, width, height, depth, maxval, tuple_type):
    """The head of these fields."""
    fields = {"width": width, "height": height, "depth": depth, "maxval": maxval}
    if not width or not height or not depth:
        raise Fault("ZeroSize", what=fields)
    if max(width, height, width * depth) > MOST or depth > 256:
        raise Fault("TooLarge", what=fields)
    if not 0 < maxval < 65_536:
        raise Fault("BadMaxval", what=fields)
    return kind, width, height, depth, maxval, tuple_type


def marks(text):
    """What each byte is, in turn: # in a comment, blank for white space, 0 for a digit, and x for any other."""
    parts, at = [], 0
    for found in COMMENT.finditer(text):
        parts += [text[at : found.start()].translate(MARKS), b"#" * len(found[0])]
        at = found.end()
    return b"".join([*parts, text[at:].translate(MARKS)]).decode()


def pnm_head(kind, text):
    """The head of PBM, PGM or PPM, and the bytes of the header."""
    body = text[2:]
    numbers = []
    before = " "
    for at, mark in enumerate(marks(body)):
        if mark == "x" or (mark == "0" and at == 0):
            raise Fault("BadNumber", at + 2, len(numbers))
        if mark == " " and len(numbers) == (2 if kind == "Bit" else 3):
            maxval = 1 if kind == "Bit" else numbers[2]
            return judged(kind, *numbers[:2], DEPTHS[kind], maxval, b""), at + 3
        if mark == "0":
            if before != "0":
                numbers.append(0)
            numbers[-1] = 10 * numbers[-1] + int(chr(body[at]))
        if mark != "#":
            before = mark
    raise Fault("HeaderCut", what=len(numbers))


def token(line):
    """The first token of a line, and what follows it."""
    rest = line.strip(BLANKS)
    for at, byte in enumerate(rest):
        if byte in BLANKS:
            return rest[:at], rest[at:].strip(BLANKS)
    return rest, b""


def pam_head(text):
    """The head of PAM, and the bytes of the header."""
    if len(text) < 3:
        raise Fault("HeaderCut")
    if text[2:3] != b"\n":
        raise Fault("BadPamLine", 2, text[2:3])
    numbers, types = {}, []
    at = 3
    while True:
        end = text.find(b"\n", at)
        if end < 0:
            raise Fault("HeaderCut", what=len(numbers))
        line, start = text[at:end], at
        name, rest = token(line)
        at = end + 1
        if name == b"ENDHDR":
            break
        if name == b"TUPLTYPE":
            types += [rest] if rest else []
            if len(b" ".join(types)) > 255:
                raise Fault("TooLong", start, len(b" ".join(types)))
        elif name in FIELDS:
            fault = number_fault(numbers, name, token(rest)[0])
            if fault:
                raise Fault(fault, start, line)
            # (int takes so many digits alone)
            numbers[name] = reduce(lambda number, digit: 10 * number + int(chr(digit)), token(rest)[0], 0)
        elif name and name[:1] != b"#":
            raise Fault("BadPamLine", start, line)
    if len(numbers) < 4:
        raise Fault("MissingField", start, [name.decode() for name in FIELDS if name not in numbers])
    return judged("Pam", *(numbers[name] for name in FIELDS), b" ".join(types)), at


def number_fault(numbers, name, word):
    """What is wrong with a number of a PAM header, if anything is."""
    if not word:
        return "BadPamLine"
    if any(chr(byte) not in "0123456789" for byte in word):
        return "BadNumber"
    return "DuplicateField" if name in numbers else None


def raw_raster(raster, head, given):
    """Adds the rows, and gives what follows the raster."""
    kind, width, height, depth, maxval, _ = head
    size = (width + 7) // 8 if kind == "Bit" else width * depth * (1 if maxval < 256 else 2)
    for y in range(height):
        row = raw_samples(raster[y * size : (y + 1) * size], kind, maxval)[: width * depth]
        if row and max(row) > maxval:
            raise Fault("SampleAboveMaxval")
        if len(row) < width * depth:
            raise Fault("RasterCut")
        given.append(row)
    given.append("ImageEnd")
    return raster[height * size :]


def raw_samples(text, kind, maxval):
    """The samples of bytes, the last of which may be half of one."""
    if kind == "Bit":
        bits = f"{int.from_bytes(text, 'big'):0{8 * len(text)}b}" if text else ""
        return [ord("1") - bit for bit in bits.encode()]
    if maxval < 256:
        return list(text)
    return [256 * high + low for high, low in zip(text[::2], text[1::2])]


def plain_raster(raster, head, given):
    """Adds the rows. What follows the raster is ignored, but for the byte right after it."""
    kind, width, height, depth, maxval, _ = head
    kinds = marks(raster)
    at = 0
    for y in range(height):
        row = []
        for _ in range(width * depth):
            sample, at = plain_sample(raster, kinds, at, kind, maxval)
            row.append(sample)
        # the last row is given after the byte that follows it
        if y == height - 1 and at < len(raster) and kinds[at] in "0x":
            raise Fault("BadSample")
        given.append(row)
    given.append("ImageEnd")
    return b""


def plain_sample(raster, kinds, at, kind, maxval):
    """The next sample, and where the byte after it stands. Each byte through its last digit comes early enough."""
    late = at + MOST_GAP
    at = BLANKS_OF_RASTER.match(kinds, at).end()
    if at >= late and late < len(raster):
        raise Fault("TooLong")
    if at == len(raster):
        raise Fault("RasterCut")
    if kinds[at] == "x" or (kind == "Bit" and raster[at] not in b"01"):
        raise Fault("BadSample")
    if kind == "Bit":
        return 1 - int(chr(raster[at])), at + 1
    end = DIGITS.match(kinds, at).end()
    if end > late:
        raise Fault("TooLong")
    if end < len(raster) and kinds[end] == "x":
        raise Fault("BadSample")
    # (a number of many digits is above each maxval)
    digits = raster[at:end].lstrip(b"0")[:9]
    if int(digits or b"0") > maxval:
        raise Fault("SampleAboveMaxval")
    return int(digits or b"0"), end


def tell_bytes(text):
    """A text as it is written."""
    escapes = {10: "\\n", 92: "\\\\"}
    return "".join(escapes.get(it) or (chr(it) if 32 <= it <= 126 else f"\\x{it:02x}") for it in text)


def tell_text(text):
    """A text, or how many bytes it has and their CRC-32."""
    if not text:
        return " no bytes"
    return " " + tell_bytes(text) if len(text) <= 200 else f" {len(text)} bytes {zlib.crc32(text):08x}"


def tell_head(kind, width, height, depth, maxval, tuple_type=b""):
    """A head."""
    told = f" {kind} {width} {height} {depth} {maxval}"
    return told + (f" ({tell_bytes(tuple_type)})" if tuple_type else "")


def tell_row(row):
    """The samples of a row, or how many there are and the CRC-32 of them, each of two bytes."""
    if len(row) <= 64:
        return f" [{' '.join(map(str, row))}]"
    samples = array("H", row)
    if sys.byteorder == "little":
        samples.byteswap()
    return f" [{len(row)} samples {zlib.crc32(samples.tobytes()):08x}]"


def tell(given):
    """Answers, one after another."""
    told = ""
    for answer in given:
        if isinstance(answer, str):
            told += f" {answer}"
        else:
            told += tell_head(*answer) if isinstance(answer, tuple) else tell_row(answer)
    return told
