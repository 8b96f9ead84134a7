"""How the programs of cases are written to, and how they tell: texts with escapes, messages, between braces those that
are handed over together, sweeps, and answers with the number from which on they are those."""

import re
import zlib
from array import array

ESCAPES = {"n": b"\n", "r": b"\r", "t": b"\t"}

ESCAPE = re.compile(r"\\(?:#(\d+),(\d+),(\d+),(\d+),(\d+);|(\d+)\(((?:\\.|[^)])*)\)|x(..)|(.))")


def text_of(written):
    """The bytes that a written text stands for."""

    def meant(found):
        *numbers, times, part, code, mark = found.groups()
        if code:
            return chr(int(code, 16))
        if mark:
            return ESCAPES.get(mark, mark.encode()).decode("latin-1")
        if times:
            return int(times) * ESCAPE.sub(meant, part)
        count, first, step, modulus, size = map(int, numbers)
        counted = (first + k * step % modulus for k in range(count))
        if not size:
            return "".join(f"{number} " for number in counted)
        return b"".join(number.to_bytes(size, "big") for number in counted).decode("latin-1")

    return ESCAPE.sub(meant, written).encode("latin-1")


def numbers_in(text):
    """All numbers of a text."""
    return [int(word) for word in re.findall(r"\d+", text)]


# --- messages: a head is a tuple, a row an array, and each other message its name


class Together(list):
    """What is handed over together: the head of an image, rows and its end, or some of these."""


# a mark of a step, a head, a row, an end, or a brace
HEAD = r"(Bit|Gray|Color|Pam) (\d+) (\d+) (\d+) (\d+)(?: \(([^)]*)\))?"
MESSAGE = re.compile(rf" *(?:([?~!}}]|{{\d*)|{HEAD}|\[([^]]*)\]|(ImageEnd|StreamEnd|Stop))")


def rows_in(written):
    """The rows that are written between brackets: one, or so many as numbers by a rule fill."""
    if not written.startswith("#"):
        return [array("H", map(int, written.split()))]
    count, first, step, modulus, length = numbers_in(written)
    samples = array("H", [first + k * step % modulus for k in range(count)])
    return [samples[at : at + length] for at in range(0, count, length)] if length else []


def parts_in(text):
    """The messages and marks of a text, one by one."""
    at = 0
    text = text.rstrip(" ")
    while at < len(text):
        found = MESSAGE.match(text, at)
        if not found:
            raise ValueError(f"no message begins at {text[at : at + 20]!r}")
        mark, kind, *numbers, tuple_type, row, end = found.groups()
        at = found.end()
        if kind:
            yield (kind, *map(int, numbers), (tuple_type or "").encode("latin-1"))
        elif row is not None:
            yield from rows_in(row)
        else:
            yield mark or end


def handed_in(text):
    """What a text hands over: messages and marks, and messages together between braces; a number before these says how
    often their rows come."""
    handed, group, times = [], None, 1
    for part in parts_in(text):
        if isinstance(part, str) and part.startswith("{"):
            group, times = [], int(part[1:] or 1)
        elif part == "}":
            rows = [it for it in group if is_row(it)]
            heads, ends = [it for it in group if is_head(it)], [it for it in group if it == "ImageEnd"]
            handed.append(Together(heads + rows * times + ends))
            group = None
        elif group is not None:
            group.append(part)
        else:
            handed.append(part)
    return handed


def one_by_one(handed):
    """The messages of what is handed over."""
    return [message for it in handed for message in (it if isinstance(it, Together) else [it])]


def is_head(message):
    return isinstance(message, tuple)


def is_row(message):
    return isinstance(message, (list, array))


# --- what is told


class Sweep(list):
    """The answers to many cases, of which their number and a CRC-32 are told."""

    def __str__(self):
        return f" {len(self)} cases {zlib.crc32(''.join(self).encode()):08x}"


# around what is handed over together, and what may stand between these: a head, rows and an end
BRACES = re.compile(r" [{}]")
GROUP = re.compile(rf" \{{((?: {HEAD})?(?: \[[^]]*\])*(?: ImageEnd)?) \}}")
TOGETHER = re.compile(rf"{HEAD}|\[[^]]*\]|ImageEnd")


def without_braces(group):
    """What stands between braces, with them if it is a head or an end alone."""
    return group[1] if "[" in group[1] or len(TOGETHER.findall(group[1])) > 1 else group[0]


class Apart(str):
    """What a line tells, but for the braces around what is handed over together of an image."""

    OPEN = "where braces stand, since the head of an image, its rows and its end may go together or one by one"

    def allows(self, told):
        return BRACES.search(GROUP.sub(without_braces, told)) is None and BRACES.sub("", told) == self


class OneOf(tuple):
    """What a line tells is one of these."""

    OPEN = "which of two ends it is, since rows that go together may take one place of a ring or several"

    def allows(self, told):
        return any(allows(want, told) for want in self)

    def __str__(self):
        return " or ".join(map(str, self))


def allows(want, told):
    """Whether a line may tell this."""
    return want.allows(told) if hasattr(want, "allows") else str(want) == told


def changes(told):
    """Answers by number, each with the number from which on they are those."""
    out, before = "", ""
    for number, answer in enumerate(told):
        if answer != before:
            out += f" | {number}:{answer}"
        before = answer
    return out
