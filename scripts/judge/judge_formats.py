"""What pnm_format_cases has to tell: of what is read of texts, and of what is written of messages (`slow_rows` has what
it tells of rows)."""

import re

import slow_rows
from case_text import BRACES, Apart, Sweep, changes, handed_in, numbers_in, one_by_one, text_of
from slow_reader import FORMATS, answers, answers_to_all, tell, tell_text
from slow_reading import Reading, needs
from slow_writer import Sink, Writer, lines_of

# bytes that mean something, and bytes beside them; and those of plain rasters
SETS = {
    "all": bytes(range(256)),
    "telling": b"\x00\x01\x08\t\n\x0b\x0c\r\x0e !\"#$/0123456789:PQx~\x7f\x80\x85\xa0\xfe\xff",
    "plain": b" \n#0159:/x",
}

# how many numbers of bytes a read may have where a source tells of what it holds
READS = 9

FAULTS = {
    "input": "EmptyInput BadMagic HeaderCut TooLong BadNumber ZeroSize TooLarge BadMaxval BadPamLine DuplicateField "
    "MissingField RasterCut SampleAboveMaxval BadSample PlainInStream ReadFailed Memory",
    "output": "WriteFailed OutOfOrder Broken SecondPlain PlainPam",
}

# the words that are of rows, of sinks and of sources
OF_ROWS = "bits new invert reverse take append repeat columns words bytes pixels bound left samples parts".split()
OF_SINKS = "raw plain sips numbers bitmaps".split()


class Lines:
    """Works out the lines of the program one after another."""

    def __init__(self):
        self.images = []

    def want(self, line):
        """What is told of a line."""
        word, _, rest = line.partition(" ")
        if word in OF_ROWS:
            want = slow_rows.tell_line(word, rest, text_of(rest))
            return Sweep(want) if isinstance(want, list) else want
        if word in OF_SINKS:
            return want_of_sink(word, rest)
        if word == "names":
            return f" {FAULTS[rest]}"
        if word == "image":
            self.images.append(text_of(rest))
            return ""
        if word in ("streams", "after"):
            return want_of_images(word, text_of(rest), self.images)
        return want_of_source(word, rest)


# --- what is read


def said(text):
    return tell(answers(text))


def replaced(words, text, count):
    """The texts with a byte of a set in the place of so many."""
    return Sweep(
        said(text[:at] + bytes([byte]) + text[at + count :])
        for at in range(len(text) + 1 - count)
        for byte in SETS[words]
    )


def want_of_images(word, text, images):
    """What is answered to images one after another, or to images with a text after them."""
    if word == "after":
        return Sweep(said(prefix + text) for image in images for prefix in (image, image + image))
    pairs = [(one, other) for one in images for other in images]
    cut = Sweep(said(one + other[:length]) for one, other in pairs for length in range(len(other) + 1))
    parted = Sweep(said(one + bytes([byte]) + other) for one, other in pairs for byte in range(256))
    return f"{cut}{parted}{Sweep(said(one + other + third) for one, other in pairs for third in images)}"


def want_of_source(word, rest):
    """What is answered to a text."""
    if word in ("text", "long"):
        return said(text_of(rest))
    if word == "cuts":
        text = text_of(rest)
        return changes([said(text[:length]) for length in range(len(text) + 1)])
    if word in ("changes", "inserts"):
        words, _, written = rest.partition(" ")
        return replaced(words, text_of(written), 1 if word == "changes" else 0)
    if word == "fails":
        text = text_of(rest)
        return changes([said_until(text, count) for count in range(len(text) + 1)])
    if word.removesuffix("_by") in ("reads", "together"):
        return want_of_reading(word, rest)
    if word == "width":
        return width_of(text_of(rest))
    if word not in ("ahead", "held"):
        raise ValueError("no such word")
    count, _, written = rest.partition(" ")
    if word == "held":
        return f" {count}" * READS
    # the bytes of which the last answers are known, an image's end with its last row; then no more are read
    text = text_of(written)
    needed = [count for count, answer in zip(needs(text), answers(text)) if answer != "ImageEnd"]
    return " 0" + "".join(f" {needed[min(number, len(needed) - 1)]}" for number in range(int(count)))


def want_of_reading(word, rest):
    """What is answered, and what each read asked for and got."""
    size, is_apart = 4096, word.startswith("reads")
    if word.endswith("_by"):
        number, _, rest = rest.partition(" ")
        size = max(size, int(number))
    most, failing, written = rest.split(" ", 2)
    text = text_of(written)
    reading = Reading(text, size, int(most), int(failing), is_apart)
    told = reading.read() + " by" + "".join(f" {asked}:{got}" for asked, got in reading.calls)
    is_plain = text[:1] == b"P" and FORMATS.get(text[1:2], ("", False))[1]
    return PlainApart(told) if is_plain and not is_apart else told


class PlainApart(Apart):
    """What a line tells of a plain image, but for the braces around rows: its end comes with the last one alone."""

    OPEN = "where braces stand around plain rows, since those that are held may come together or one by one"

    # the last row with the image's end
    LAST = re.compile(r" \{ \[[^]]*\] ImageEnd \}")

    def allows(self, told):
        is_ended = len(self.LAST.findall(told)) == told.count(" ImageEnd")
        has_rows_alone = told.count(" { [") == told.count(" {")
        return is_ended and has_rows_alone and Apart(BRACES.sub("", self)).allows(told)


def said_until(text, count):
    """What is answered where a read fails after so many that gave a byte each."""
    given, is_read_on = answers_to_all(text[:count])
    if not is_read_on:
        raise ValueError("no read fails there")
    return tell(given) + " ReadFailed"


def width_of(text):
    """How the samples of the first row are held: as they lie in a raw file, whether it is one or plain."""
    kind, _, _, _, maxval, _ = answers(text)[0]
    return " bits" if kind == "Bit" else " bytes" if maxval < 256 else " words"


# --- what is written


def want_of_sink(word, rest):
    """What a sink answers, and what it writes."""
    if word == "numbers":
        return Sweep(numbers_told(*numbers_in(rest), 3 if rest.startswith("Color") else 1))
    if word == "bitmaps":
        return Sweep(bitmaps_told(*numbers_in(rest)))
    text = text_of(rest).decode("latin-1")
    if word != "sips":
        writer = Writer()
        return want_of_stream(Sink(word, writer), handed_in(text), False) + tell_text(writer.written)
    form, most, writes, flushes, messages = text.split(" ", 4)
    writer = Writer(int(most), *(None if it == "_" else int(it) for it in (writes, flushes)))
    told = want_of_stream(Sink(form, writer), handed_in(messages), True)
    return f"{told}{tell_text(writer.written)} flushed {writer.flushed}"


def want_of_stream(sink, handed, is_flushed):
    """The faults of a sink that gets these messages, and how it ends. It may be flushed after each image."""
    told = ""
    for it in handed:
        messages = one_by_one([it])
        fault = sink.put(*messages)
        told += f" {fault}" if fault else ""
        fault = sink.flush() if is_flushed and messages[-1] == "ImageEnd" else None
        told += f" flush {fault}" if fault else ""
    fault = sink.flush()
    return f"{told} end{f' {fault}' if fault else ''}"


NUMBERS = [7, 65_535, 42, 255, 0, 4096, 10, 999, 9, 10_000, 100, 256, 1000]


def numbers_told(maxval, least, most, first, last, planes):
    """What is written of plain images of a row of numbers, held as bytes, where they are, and as words."""
    for width in range(least, most + 1):
        for shift in range(first, last + 1):
            row = [min(NUMBERS[(x + shift) % 13], maxval) for x in range(width * planes)]
            text = f"P{3 if planes == 3 else 2}\n{width} 1\n{maxval}\n{lines_of(map(str, row))}"
            yield from [f" end{tell_text(text.encode())}"] * (2 if maxval < 256 else 1)


def bitmaps_told(first, least, most):
    """What is written of plain images of a row of pixels, which are held as bits, bytes and words."""
    for width in range(least, most + 1):
        byte, pixels = first, ""
        while len(pixels) < width:
            pixels += f"{byte:08b}"
            byte = (5 * byte + first) % 256
        text = f"P1\n{width} 1\n{lines_of(pixels[:width])}"
        yield from [f" end{tell_text(text.encode())}"] * 3
