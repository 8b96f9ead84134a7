#!/usr/bin/env python3
"""Tests of cases.py: what is stored is allowed, and a changed answer is refused. Of each word of the programs of cases
some lines are worked out, and what is stored of each is changed: a number is turned, a row is dropped, two messages are
exchanged, another fault or end is named, a byte or a digit of a CRC-32 is another, the last word is missing, or one
more is there. `make scripts` runs it."""

import itertools
import random
import re
import unittest
from array import array
from collections import Counter

import support  # first, since it finds the others

import cases
import judge_formats
import judge_tools
import row_cases
import slow_rasters
import slow_writer
from case_text import Apart, OneOf, allows, handed_in, numbers_in
from slow_reader import Fault, answers
from slow_tools import Work, written_tool

FAULTS = set(" ".join([*judge_formats.FAULTS.values(), *judge_tools.FAULTS.values()]).split())
ENDS = {"Well": "Broken", "Broken": "PeerGone", "PeerGone": "Well"}

# so many lines of a word, spread over all of them; of sweeps fewer
MOST, MOST_SWEEPS = 24, 3
SWEEPS = ("types", "images", "axes", "changes", "inserts", "streams", "after", "cuts")

# the most samples of a row, and of an image of a sweep, that are worked out
MOST_SAMPLES = 100_000

# what the next lines are about
NAMING = ("tool", "none", "image", "axis")

DIGEST = re.compile(r"(?<= )[0-9a-f]{8}(?=\]| |$)")

MESSAGE = r"(?:Bit|Gray|Color|Pam) \d+ \d+ \d+ \d+(?: \([^)]*\))?|\[[^]]*\]|ImageEnd|StreamEnd|Stop"


def two_of(found):
    """The first and the last one."""
    found = list(found)
    return found[:1] + found[1:][-1:]


def other_numbers(told):
    for found in two_of(re.finditer(r"(?<![\w\\])\d+(?!\w)", told)):
        yield told[: found.start()] + str(int(found[0]) + 1) + told[found.end() :]


def dropped_rows(told):
    for found in two_of(re.finditer(r" \[[^]]*\]", told)):
        yield told[: found.start()] + told[found.end() :]


def exchanged_messages(told):
    # (the lines that tell of rows and of fields have lists of other things between brackets)
    pairs = re.finditer(rf"({MESSAGE}) (?=({MESSAGE}))", told)
    for found in two_of(it for it in pairs if it[1] != it[2]):
        yield f"{told[: found.start()]}{found[2]} {found[1]}{told[found.end(2) :]}"


def other_faults(told):
    for found in two_of(it for it in re.finditer(r"[A-Z]\w+", told) if it[0] in FAULTS):
        for name in two_of(sorted(FAULTS - {found[0]})):
            yield told[: found.start()] + name + told[found.end() :]


def other_ends(told):
    for found in two_of(re.finditer("|".join(ENDS), told)):
        yield told[: found.start()] + ENDS[found[0]] + told[found.end() :]


def other_digests(told):
    for found in two_of(DIGEST.finditer(told)):
        yield told[: found.end() - 1] + f"{int(found[0][-1], 16) ^ 1:x}" + told[found.end() :]


def other_bytes(told):
    if re.search(r"P[1-7](\\n|$| )", told):
        yield told[:-1] + chr(ord(told[-1]) ^ 1)


def shorter(told):
    if told.strip():
        yield told.rstrip(" ").rpartition(" ")[0]


def longer(told):
    yield told + " StreamEnd"


CHANGES = {
    "number": other_numbers,
    "row": dropped_rows,
    "messages": exchanged_messages,
    "fault": other_faults,
    "end": other_ends,
    "digest": other_digests,
    "byte": other_bytes,
    "shorter": shorter,
    "longer": longer,
}

# the changes that are tried at least once of lines with these words
WANTED = {
    "pnm_tools_cases": {
        "run": "number row messages fault digest shorter longer",
        "lane": "number row messages shorter longer",
        "head": "number fault shorter longer",
        "axis": "number fault shorter longer",
        "chain": "number fault shorter longer",
        "copy": "number shorter longer",
        "judge tool held": "shorter longer",
        "types images axes": "number digest shorter longer",
        "names": "fault shorter longer",
    },
    "pnm_format_cases": {
        "text long": "number row messages fault digest shorter longer",
        "cuts fails": "number row messages fault shorter longer",
        "together together_by": "number row messages shorter longer",
        "reads reads_by": "number shorter longer",
        "changes inserts streams after": "number digest shorter longer",
        "ahead held": "number shorter longer",
        "width": "shorter longer",
        "raw plain sips": "number fault byte shorter longer",
        "numbers bitmaps columns append repeat": "number digest shorter longer",
        "pixels words bytes": "number shorter longer",
        "names": "fault shorter longer",
    },
    "pnm_flow_cases": {
        "raw": "number fault byte digest shorter longer",
        "plain cuts reads writes flushes never room buffered": "number fault byte shorter longer",
        "stage": "number row messages fault end shorter longer",
        "deal": "number row messages fault end shorter longer",
        "gather": "number row messages fault end shorter longer",
        "chain": "number row messages fault end shorter longer",
        "heights": "number shorter longer",
    },
}


def is_short(word, line, told):
    """Whether a line is worked out soon."""
    if word == "types":
        first, last, _, width, _, height = numbers_in(line)
        return (last + 1 - first) * width * height <= MOST_SAMPLES // 10
    if word in ("run", "lane", "raw", "plain"):
        return max(numbers_in(f"{line} {told} 0")) <= MOST_SAMPLES
    return True


def chosen(crate):
    """The lines whose answers are changed, by their numbers."""
    words, with_digests = {}, {}
    for number, (line, told) in enumerate(zip(cases.stored(crate, "stdin"), cases.stored(crate, "stdout"))):
        word = line.partition(" ")[0]
        if word != "#" and is_short(word, line, told):
            words.setdefault(word, []).append(number)
            with_digests.setdefault(word, []).extend([number] if DIGEST.search(told) else [])
    numbers = {number for all_of_word in with_digests.values() for number in all_of_word[:1]}
    for word, all_of_word in words.items():
        most = MOST_SWEEPS if word in SWEEPS else MOST
        step = max(1, len(all_of_word) // most)
        numbers.update(all_of_word[::step])
    return numbers


class Answers(unittest.TestCase):
    def setUp(self):
        self.tried = Counter()

    def each_of(self, crate):
        """Works out the chosen lines of a program, and wants changed answers to be refused."""
        at_work, numbers = cases.JUDGES[crate].Lines(), chosen(crate)
        for number, (line, told) in enumerate(zip(cases.stored(crate, "stdin"), cases.stored(crate, "stdout"))):
            word = line.partition(" ")[0]
            if number not in numbers and word not in NAMING:
                continue
            want = at_work.want(line)
            if number in numbers and word not in ("none", "image"):
                with self.subTest(line=line):
                    self.assertTrue(allows(want, told))
                    self.is_refused(word, want, told)
        for words, kinds in WANTED[crate].items():
            for word in words.split():
                with self.subTest(word=word):
                    self.assertEqual([kind for kind in kinds.split() if not self.tried[word, kind]], [])

    def is_refused(self, word, want, told):
        for kind, change in CHANGES.items():
            for changed in change(told):
                if changed != told:
                    self.tried[word, kind] += 1
                    self.assertFalse(allows(want, changed), f"{kind}: {changed}")

    def test_tools(self):
        self.each_of("pnm_tools_cases")

    def test_formats(self):
        self.each_of("pnm_format_cases")

    def test_flow(self):
        self.each_of("pnm_flow_cases")


class OpenParts(unittest.TestCase):
    """What is left open of an answer, and no more."""

    def test_braces(self):
        want = Apart(" Well [1] [2] [3]")
        for told in (" Well [1] [2] [3]", " Well { [1] [2] } [3]", " Well { [1] } { [2] [3] }"):
            self.assertTrue(allows(want, told), told)
        for told in (" Well { [2] [1] } [3]", " Well { [1] [2] [3]", " { Well [1] } [2] [3]", " Well { } [1] [2] [3]"):
            self.assertFalse(allows(want, told), told)

    def test_braces_of_an_image(self):
        want = Apart(" Well Gray 2 1 1 9 [1 2] ImageEnd StreamEnd")
        for told in (
            " Well { Gray 2 1 1 9 [1 2] ImageEnd } StreamEnd",
            " Well Gray 2 1 1 9 { [1 2] } ImageEnd StreamEnd",
            " Well { Gray 2 1 1 9 [1 2] } ImageEnd StreamEnd",
            " Well Gray 2 1 1 9 { [1 2] ImageEnd } StreamEnd",
        ):
            self.assertTrue(allows(want, told), told)
        for told in (
            " Well { Gray 2 1 1 9 [1 2] ImageEnd StreamEnd }",
            " Well Gray 2 1 1 9 [1 2] { ImageEnd StreamEnd }",
            " { Well Gray 2 1 1 9 [1 2] } ImageEnd StreamEnd",
            " Well { Gray 2 1 1 9 [1 2] ImageEnd StreamEnd",
        ):
            self.assertFalse(allows(want, told), told)

    def test_one_of_two_ends(self):
        want = OneOf((" Well", " PeerGone"))
        self.assertTrue(allows(want, " Well") and allows(want, " PeerGone"))
        self.assertFalse(allows(want, " Broken") or allows(want, " Well sent Stop"))

    def test_held(self):
        want = judge_tools.Held(handed_in("Gray 2 3 1 300 [0 1] [2 255] [256 0] ImageEnd"))
        for told in (" bits bytes words", " words words words", " bytes words words"):
            self.assertTrue(allows(want, told), told)
        for told in (" bits bits words", " bits bytes bytes", " bits bytes", " bits bytes words words", " a b c"):
            self.assertFalse(allows(want, told), told)
        want = judge_tools.HeldByEach([judge_tools.Held(handed_in(row)) for row in ("[1]", "[1]", "[300]")])
        for told in (" | 0: bits | 2: words", " | 0: words", " | 0: bits | 1: bytes | 2: words"):
            self.assertTrue(allows(want, told), told)
        for told in (" | 0: bits", " | 1: words", " | 0: bits | 2: bytes", " | 0: bits | 3: words", " words", ""):
            self.assertFalse(allows(want, told), told)


class Formulas(unittest.TestCase):
    """Rows that are worked out by rows are those of the formulas of columns, rows and planes."""

    WIDTH, HEIGHT, DEPTH, MAXVAL = 3, 4, 2, 99

    # what the sample of the result is, of a function that gives those of the image
    SAMPLES = {
        "invert": lambda at, x, y, p: 99 - at(x, y, p),
        "cut 1 _ _ -2 1 2": lambda at, x, y, p: at(x + 1, y + 1, p),
        "depth 7": lambda at, x, y, p: (2 * at(x, y, p) * 7 + 99) // (2 * 99),
        "depth 1": lambda at, x, y, p: (2 * at(x, y, p) + 99) // (2 * 99),
        "planes 1 0 1 (B)": lambda at, x, y, p: at(x, y, (1, 0, 1)[p]),
        "enlarge 2 3": lambda at, x, y, p: at(x // 2, y // 3, p),
        "flip null": lambda at, x, y, p: at(x, y, p),
        "flip leftright": lambda at, x, y, p: at(2 - x, y, p),
        "flip topbottom": lambda at, x, y, p: at(x, 3 - y, p),
        "flip transpose": lambda at, x, y, p: at(y, x, p),
        "flip r90": lambda at, x, y, p: at(2 - y, x, p),
        "flip r180": lambda at, x, y, p: at(2 - x, 3 - y, p),
        "flip r270": lambda at, x, y, p: at(y, 3 - x, p),
        "tile 7 6": lambda at, x, y, p: at(x % 3, y % 4, p),
        "tile 2 3": lambda at, x, y, p: at(x % 3, y % 4, p),
    }

    def sample(self, x, y, plane):
        self.assertTrue(0 <= x < self.WIDTH and 0 <= y < self.HEIGHT and 0 <= plane < self.DEPTH)
        return 4 * ((y * self.WIDTH + x) * self.DEPTH + plane)

    def test_samples(self):
        places = [(x, plane) for x in range(self.WIDTH) for plane in range(self.DEPTH)]
        rows = [array("H", [self.sample(x, y, plane) for x, plane in places]) for y in range(self.HEIGHT)]
        for written, formula in self.SAMPLES.items():
            with self.subTest(written):
                tool = written_tool(written)
                work = Work(tool, ("Pam", self.WIDTH, self.HEIGHT, self.DEPTH, self.MAXVAL, b"A"))
                made = [row for it in rows for row in work.answers(it)] + work.last_answers()
                _, width, height, depth, _, _ = work.result
                wanted = [
                    [formula(self.sample, x, y, plane) for x in range(width) for plane in range(depth)]
                    for y in range(height)
                ]
                self.assertEqual([list(row) for row in made], wanted)


class Rasters(unittest.TestCase):
    """What slow_rasters.py works out of many bytes at once is what slow_tools.py works out of each sample. The texts of
    row_cases.py have the images that stand beside them."""

    HEADS = [("Bit", 1, 1), ("Pam", 2, 1), ("Gray", 1, 100), ("Color", 3, 255), ("Pam", 4, 9), ("Gray", 1, 65_535)]
    HEADS += [("Color", 3, 1_000)]
    SIZES = [(1, 1), (3, 4), (9, 3), (2, 20), (8, 8), (17, 5)]

    TOOLS = [*Formulas.SAMPLES, "cut _ _ 1 _ _ _", "cut _ _ _ -2 _ _", "cut 1 -1 _ _ _ _", "depth 255", "depth 65535"]
    TOOLS += ["planes 0 ()", "enlarge 1 3", "enlarge 3 1", "enlarge 17 17", "tile 40 1", "tile 1 40"]

    def test_tools(self):
        numbers = random.Random(1)
        for (kind, depth, maxval), (width, height) in itertools.product(self.HEADS, self.SIZES):
            rows = [array("H", numbers.choices(range(maxval + 1), k=width * depth)) for _ in range(height)]
            head = (kind, width, height, depth, maxval, b"A" if kind == "Pam" else b"")
            for written, count in itertools.product(self.TOOLS, {height, height // 2}):
                with self.subTest(written=written, head=head, count=count):
                    self.is_same(written_tool(written), head, rows[:count])

    def is_same(self, tool, head, rows):
        samples = b"".join(slow_writer.row_bytes("raw", (None, *head[1:]), row) for row in rows)
        image = slow_rasters.Image(head, samples)
        try:
            work = Work(tool, head)
        except Fault as fault:
            self.assertEqual(slow_rasters.answer([tool], [image]), (b"", f"tool 1: {fault}"))
            return
        made = [row for it in rows for row in work.answers(it)]
        made += work.last_answers() if len(rows) == head[2] else []
        for form in ("raw", "plain") if work.result[0] != "Pam" else ("raw",):
            wanted = [slow_writer.header(form, work.result)]
            wanted += [slow_writer.row_bytes(form, work.result, row) for row in made]
            self.assertEqual(slow_rasters.answer([tool], [image], None, form), (b"".join(wanted), None))

    def test_streams(self):
        for name in ("few bits 9", "few words-3 512", "bad words 513", "bad flags-2 16384", "plain bytes 9", "refused"):
            for case in row_cases.Group(name).cases():
                wanted = []
                for image in case.images:
                    numbers = image.samples if image.sample == 1 else slow_rasters.words_of(image.samples)
                    each = image.head[1] * image.head[3]
                    wanted += [image.head, *(list(numbers[at : at + each]) for at in range(0, len(numbers), each))]
                    wanted.append("ImageEnd")
                wanted[-1 if case.fault else len(wanted) :] = [case.fault or "StreamEnd"]
                with self.subTest(name=name, chain=case.chain):
                    self.assertTrue(answers(case.text) == wanted)


class Lines(unittest.TestCase):
    def test_unknown_words(self):
        for judge in cases.JUDGES.values():
            for line in ("unknown 1", "", "Raw (pnminvert) P5"):
                with self.subTest(judge=judge.__name__, line=line), self.assertRaises((ValueError, LookupError)):
                    judge.Lines().want(line)


if __name__ == "__main__":
    unittest.main()
