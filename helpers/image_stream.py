"""Reads a stream of Netpbm images by blocks, in little memory: the head of each, or the stream's first fault, with its
place and what stands there. `pnmpipe-explain` and `pnmpipe-split` use it."""

import os
import re
import sys
from array import array

from slow_reader import MOST_GAP, MOST_HEADER, Fault, magic, read_head

BLANKS = b" \t\r\n"

# bytes of a read, of a piece of a plain raster, and of a header that most have room in
ROOM, PIECE, SHORT_HEADER = 1 << 20, 1 << 16, 256

# the most digits that a number is made of at once
MOST_DIGITS = 1_000

# a whole comment of a plain raster, and a byte's kind there: 0 for a digit, a blank for white space, x for any other
COMMENT = re.compile(rb"#[^\r\n]*[\r\n]")
KINDS_OF_BYTES = bytes(48 if 48 <= byte <= 57 else 32 if byte in BLANKS else 120 for byte in range(256))

# what seems to be a header, and the most bytes of one that are looked for
HIDDEN = re.compile(
    rb"P[456][ \t\r\n]{1,9}(?:#[^\n]{0,99}\n){0,2}[1-9][0-9]{0,7}[ \t\r\n]{1,9}[1-9][0-9]{0,7}[ \t\r\n]"
    rb"|P7\n[#A-Z][ -~\n]{0,200}?ENDHDR\n"
)
MOST_HIDDEN = 256

# a plain image that follows another one
SECOND = re.compile(rb"(?:[ \t\r\n]|#[^\r\n]*[\r\n])*(?=P[1-7][ \t\r\n#])")


class Stream:
    """The bytes that a descriptor gives, some of which are held."""

    def __init__(self, descriptor):
        self.descriptor = descriptor
        self.held, self.at = b"", 0
        # where the first byte that is held and wasn't taken stands in the whole stream
        self.place = 0
        self.is_over, self.failure = False, None

    def peek(self, count):
        """The next bytes, which stay: so many, or all that are left."""
        length = len(self.held) - self.at
        if length >= count or self.is_over:
            return self.held[self.at : self.at + count]
        parts = [self.held[self.at :]]
        while length < count and not self.is_over:
            try:
                part = os.read(self.descriptor, ROOM)
            except OSError as failure:
                self.failure, part = failure, b""
            self.is_over = not part
            parts.append(part)
            length += len(part)
        self.held, self.at = b"".join(parts), 0
        return self.held[:count]

    def some(self, count):
        """Some of the next bytes, which stay: what is there, at most so many; none at the end."""
        self.peek(1)
        return self.held[self.at : self.at + count]

    def skip(self, count):
        """Takes bytes that are held."""
        self.at += count
        self.place += count


class Image:
    """What is known of an image: its number, from 1, where it begins, its head, and where its raster begins."""

    def __init__(self, number, start):
        self.number, self.start = number, start
        self.is_plain, self.head, self.raster = False, None, None
        # whether CR LF ends the header's last line, where CR alone ends the header
        self.has_lines_of_dos = False
        # where in the raster the header of another image seems to stand
        self.hidden = None
        # samples of a plain raster that were taken
        self.seen = 0

    def sample_size(self):
        return 1 if self.head[4] < 256 else 2

    def row_size(self):
        """The bytes of a raw row."""
        kind, width, _, depth, _, _ = self.head
        return (width + 7) // 8 if kind == "Bit" else width * depth * self.sample_size()

    def samples(self):
        _, width, height, depth, _, _ = self.head
        return width * height * depth


class Reader:
    """Reads a stream's images, one after another."""

    def __init__(self, descriptor):
        self.stream = Stream(descriptor)
        # the image that is read, and the one before it, with its header's text
        self.image = self.before = None
        self.text = None
        self.is_over = False

    def images(self):
        """Each image, once all of it was read; a fault is raised with its place in the stream."""
        while not self.is_over:
            if self.image and not self.stream.peek(1) and not self.stream.failure:
                return
            if self.next_image().is_plain:
                PlainRaster(self.stream, self.image).read()
                self.is_over = True
            else:
                self.read_raster()
            yield self.image

    def next_image(self):
        """The next image, whose header is read; the raster before it was taken."""
        self.before, self.image = self.image, Image(self.image.number + 1 if self.image else 1, self.stream.place)
        self.read_header()
        return self.image

    def read_header(self):
        """Reads the image's header."""
        image = self.image
        # many images have one header, and a text that begins so has the same one
        if self.text and self.stream.peek(len(self.text)) == self.text:
            image.head, length = self.before.head, len(self.text)
        else:
            try:
                length = self.header(SHORT_HEADER)
            except Fault as fault:
                if str(fault) != "HeaderCut":
                    raise
                length = self.header(MOST_HEADER + 1)
        text = self.stream.peek(length + 1)
        self.text = text[:length]
        image.raster = image.start + length
        image.has_lines_of_dos = text[length - 1 :] == b"\r\n"
        self.stream.skip(length)

    def header(self, most):
        """The bytes of the header, which has less than so many."""
        text = self.stream.peek(most)
        start = self.image.start
        try:
            kind, self.image.is_plain = magic(text, self.image.number > 1)
            self.image.head, length = read_head(kind, text)
            return length
        except Fault as fault:
            name = str(fault)
            if name in ("HeaderCut", "EmptyInput") and len(text) < most and self.stream.failure:
                raise Fault("ReadFailed", start + len(text), self.stream.failure) from None
            raise Fault(name, start + (len(text) if name == "HeaderCut" else fault.at), fault.what) from None

    def read_raster(self):
        """Reads a raw raster."""
        image = self.image
        left, tail = image.row_size() * image.head[2], b""
        while left > 0:
            wanted = min(left, ROOM)
            part = self.stream.peek(wanted)
            if image.hidden is None:
                found = HIDDEN.search(tail + part)
                image.hidden = found and self.stream.place - len(tail) + found.start()
                tail = part[-MOST_HIDDEN:]
            at = first_above(part, image)
            if at is not None:
                sample = int.from_bytes(part[at : at + image.sample_size()], "big")
                raise Fault("SampleAboveMaxval", self.stream.place + at, sample)
            left -= len(part)
            self.stream.skip(len(part))
            if len(part) < wanted:
                raise cut("RasterCut", self.stream, left)


def cut(name, stream, what):
    """The fault of a stream that lacks a byte."""
    return Fault("ReadFailed", stream.place, stream.failure) if stream.failure else Fault(name, stream.place, what)


def first_above(part, image):
    """Where the first sample above the maxval stands in a part of a raster."""
    kind, maxval = image.head[0], image.head[4]
    if kind == "Bit" or maxval in (255, 65_535):
        return None
    if maxval < 256:
        if not part.translate(None, bytes(range(maxval + 1))):
            return None
        return next(at for at, sample in enumerate(part) if sample > maxval)
    # first bytes of samples that are within the maxval whatever the second one is
    if not part[::2].translate(None, bytes(range((maxval + 1) >> 8))):
        return None
    samples = array("H", part[: len(part) & ~1])
    if sys.byteorder == "little":
        samples.byteswap()
    if not samples or max(samples) <= maxval:
        return None
    return 2 * next(at for at, sample in enumerate(samples) if sample > maxval)


def above(maxval):
    """What finds a number of as many digits as the maxval that is above it."""
    digits = str(maxval)
    greater = []
    for at, digit in enumerate(digits):
        if digit < "9":
            greater.append(f"{digits[:at]}[{int(digit) + 1}-9][0-9]{{{len(digits) - at - 1}}}")
    return re.compile("|".join(greater or ["(?!)"]).encode())


class PlainRaster:
    """A plain raster that is read: by pieces of numbers and white space, and byte by byte where something else stands,
    and at the end."""

    def __init__(self, stream, image):
        self.stream, self.image = stream, image
        self.kind, self.maxval, self.wanted = image.head[0], image.head[4], image.samples()
        self.above = above(self.maxval)
        # bytes since the last sample's last digit, the digits of one that has begun, and whether this is a comment
        self.gap, self.digits, self.is_comment = 0, [], False

    def read(self):
        """Reads the samples, and the byte after them."""
        while self.image.seen < self.wanted:
            text = self.stream.peek(PIECE)
            if not text:
                self.end()
                return
            piece = self.piece_of(text)
            if piece and self.take_piece(piece):
                self.stream.skip(len(piece))
            else:
                self.take_bytes(piece or text, not piece)
        if self.kind == "Bit":
            after = self.stream.peek(1)
            if not after and self.stream.failure:
                raise cut("", self.stream, None)
            if after and after not in b" \t\r\n#":
                raise Fault("BadSample", self.stream.place, after[0])

    def piece_of(self, text):
        """What a text begins with, up to a comment that doesn't end in it, or within a number; comments are blanks."""
        if self.digits or self.is_comment:
            return b""
        if b"#" in text:
            # (a comment that doesn't end is looked for behind the last line's end, so that it is scanned once)
            end = 1 + max(text.rfind(b"\r"), text.rfind(b"\n"))
            comment = text.find(b"#", end)
            rest = text[end:] if comment < 0 else text[end:comment]
            text = COMMENT.sub(lambda found: b" " * len(found[0]), text[:end]) + rest
        if self.kind == "Bit":
            return text
        return text[: 1 + max(text.rfind(blank) for blank in (b" ", b"\t", b"\r", b"\n"))]

    def take_piece(self, piece):
        """Takes the samples of a piece, all of which are good and not the last ones; tells whether they are."""
        count = None if self.gap + len(piece) > MOST_GAP else self.samples_of(piece)
        if count is None or self.image.seen + count >= self.wanted:
            return False
        self.image.seen += count
        self.gap = len(piece) - len(piece.rstrip(BLANKS)) + (0 if count else self.gap)
        return True

    def samples_of(self, piece):
        """How many samples a piece has; none where one isn't good."""
        if self.kind == "Bit":
            pixels = piece.translate(None, BLANKS)
            return None if pixels.translate(None, b"01") else len(pixels)
        kinds = piece.translate(KINDS_OF_BYTES)
        if b"x" in kinds:
            return None
        if b"0" * (len(str(self.maxval)) + 1) not in kinds and not self.above.search(piece):
            return kinds.count(b" 0") + kinds.startswith(b"0")
        # with zeros before them, numbers of more digits may be good
        samples = piece.split()
        is_good = max(map(len, samples)) <= MOST_DIGITS and max(map(int, samples)) <= self.maxval
        return len(samples) if is_good else None

    def take_bytes(self, text, is_part):
        """Takes bytes one by one until no more samples are wanted; of a part of a text, until neither a number nor a
        comment goes on."""
        for at, byte in enumerate(text):
            self.take_byte(byte, self.stream.place + at)
            if self.image.seen == self.wanted or (is_part and not self.digits and not self.is_comment):
                self.stream.skip(at + 1)
                return
        self.stream.skip(len(text))

    def take_byte(self, byte, place):
        """Takes a byte, which stands at this place."""
        self.gap += 1
        is_digit = not self.is_comment and 48 <= byte <= (49 if self.kind == "Bit" else 57)
        if self.gap > MOST_GAP and (is_digit or not self.digits):
            raise Fault("TooLong", place)
        if self.is_comment:
            self.is_comment = byte not in b"\r\n"
        elif is_digit:
            self.digits.append(byte)
            if self.kind == "Bit":
                self.end_sample(place + 1)
                self.gap = 0
        elif byte in b" \t\r\n#":
            self.is_comment = byte == 35
            if self.digits:
                self.end_sample(place)
                self.gap = 1
        else:
            raise Fault("BadSample", place, byte)

    def end_sample(self, place):
        """Ends the sample whose digits stand before this place."""
        number = bytes(self.digits).lstrip(b"0")
        if len(number) > 5 or int(number or b"0") > self.maxval:
            raise Fault("SampleAboveMaxval", place - len(self.digits), int(number[:MOST_DIGITS]))
        self.digits = []
        self.image.seen += 1

    def end(self):
        """The input has ended."""
        if self.digits and not self.stream.failure:
            self.end_sample(self.stream.place)
        if self.image.seen < self.wanted:
            raise cut("RasterCut", self.stream, self.wanted - self.image.seen)


def after_plain(stream):
    """What follows a plain image and is ignored: whether anything but white space does, and where another image begins,
    if one does."""
    text = stream.peek(PIECE)
    second = SECOND.match(text)
    return bool(re.sub(rb"#[^\r\n]*", b"", text).strip(BLANKS)), second and stream.place + second.end()
