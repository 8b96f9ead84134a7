"""What is written of messages in raw and in plain form, worked out slowly from the formats' description, over a writer
whose calls fail."""

import slow_rows
from slow_tools import Place

RAW = {"Bit": "P4", "Gray": "P5", "Color": "P6"}
PLAIN = {"Bit": "P1", "Gray": "P2", "Color": "P3"}


def lines_of(words):
    """Words in lines of at most 70 characters, each in the line of the one before where that has room for it."""
    text, lines, start = " ".join(words), [], 0
    while len(text) - start > 70:
        end = text.rindex(" ", start, start + 71)
        lines.append(text[start:end])
        start = end + 1
    return "\n".join([*lines, text[start:]]) + "\n"


def header(form, head):
    """The header of an image in a form."""
    kind, width, height, depth, maxval, tuple_type = head
    if kind == "Pam":
        named = b"TUPLTYPE " + tuple_type + b"\n" if tuple_type else b""
        sizes = f"P7\nWIDTH {width}\nHEIGHT {height}\nDEPTH {depth}\nMAXVAL {maxval}\n".encode()
        return sizes + named + b"ENDHDR\n"
    last = "" if kind == "Bit" else f"{maxval}\n"
    return f"{(RAW if form == 'raw' else PLAIN)[kind]}\n{width} {height}\n{last}".encode()


def row_bytes(form, head, row):
    """A row of an image in a form."""
    kind, maxval = head[0], head[4]
    if form == "plain":
        return lines_of(str(1 - sample if kind == "Bit" else sample) for sample in row).encode()
    if kind == "Bit":
        return slow_rows.packed(row)
    if maxval < 256:
        return bytes(list(row))
    return b"".join(sample.to_bytes(2, "big") for sample in row)


class Writer:
    """A writer of which a write takes so many bytes, and the write and the flush after so many fail, None for none."""

    def __init__(self, most=None, writes=None, flushes=None):
        if most not in (None, 0, 1) and writes:
            raise ValueError("how many bytes come before a write that fails isn't worked out")
        self.most, self.writes, self.flushes = most, writes, flushes
        self.written, self.flushed = b"", 0

    def write(self, text):
        """Takes bytes, or those before a call that fails; whether all were taken."""
        # so many come before the call that fails, each by a call of its own or all by the first one
        left = len(text) if self.writes is None else self.writes - len(self.written) if self.writes else 0
        left = 0 if self.most == 0 else left
        self.written += text[: max(left, 0)]
        return not text or left >= len(text)

    def flush(self):
        self.flushed += 1
        return self.flushes is None or self.flushed != self.flushes + 1


class Sink:
    """Writes messages in a form."""

    def __init__(self, form, writer):
        self.form, self.writer = form, writer
        self.place, self.head, self.images = Place(), None, 0
        self.fault = None
        # what was written whole: images and rows
        self.rows = 0

    def refusal(self, messages):
        """Why messages may not be written."""
        place = Place()
        place.__dict__.update(self.place.__dict__)
        for message in messages:
            if not place.accepts(message) or isinstance(message, tuple) and message[2] == 0:
                return "OutOfOrder"
            place.step(message)
        if self.form == "plain" and isinstance(messages[0], tuple):
            if self.images:
                return "SecondPlain"
            if messages[0][0] == "Pam":
                return "PlainPam"
        return None

    def put(self, *messages):
        """Writes a message, or rows that come together; the fault, if there is one."""
        if self.fault:
            return "Broken"
        self.fault = self.refusal(messages)
        for message in messages if not self.fault else []:
            if not self.fault and not self.writer.write(self.bytes_of(message)):
                self.fault = "WriteFailed"
        return self.fault

    def bytes_of(self, message):
        """The bytes of a message, which has its place."""
        self.place.step(message)
        if isinstance(message, tuple):
            self.head = message
            return header(self.form, message)
        if isinstance(message, str):
            self.images += message == "ImageEnd"
            return b""
        self.rows += 1
        return row_bytes(self.form, self.head, message)

    def flush(self):
        """Flushes the writer; the fault, if there is one, which is none of the sink."""
        if self.fault:
            return "Broken"
        return None if self.writer.flush() else "WriteFailed"
