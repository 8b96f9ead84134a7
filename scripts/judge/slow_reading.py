"""When a source reads of a text, how much it asks for and gets, and which rows come together, worked out slowly from
what docs/ARCHITECTURE.md says of one row's way: a read is made where what has come doesn't tell the next answer."""

from bisect import bisect_right

from slow_reader import answers, answers_to_all, tell

# a row of bytes that wants so many more is read past the buffer; but if it has no more than these in all and fits in
# the buffer, a read goes there first
STRAIGHT = 16_384

# how many bytes the program reads at a time at most
BUFFER = 65_536


def raw_row(head):
    """The bytes of a row of a raw image."""
    kind, width, _, depth, maxval, _ = head
    return (width + 7) // 8 if kind == "Bit" else width * depth * (1 if maxval < 256 else 2)


class Known:
    """How many answers are known by each front of a text."""

    def __init__(self, text):
        self.text, self.counts = text, {}

    def __len__(self):
        return len(self.text) + 1

    def __getitem__(self, length):
        if length not in self.counts:
            self.counts[length] = len(answers_to_all(self.text[:length])[0])
        return self.counts[length]


def needs(text):
    """By how many bytes of a text each answer is known, one more than there are where the end has to be found."""
    known = Known(text)
    return [bisect_right(known, number) for number in range(len(answers(text)))]


class Reading:
    """What a source answers that reads a text through a buffer of this size, a read giving some bytes at most and the
    one with a number failing, 0 for none. Each message is told by itself, or what comes together between braces, but
    for the rows of a plain image."""

    def __init__(self, text, size, most, failing, is_apart):
        self.text, self.size, self.most, self.failing, self.is_apart = text, size, most, failing, is_apart
        self.whole, self.needs = answers(text), needs(text)
        # the bytes that have come; what each read asked for, and what it got
        self.come, self.calls = 0, []
        # of a raw image where the next row begins, the bytes of a row, of a sample in it, the maxval, none for bits,
        # and how many rows are left
        self.start, self.row, self.sample, self.maxval, self.rows = 0, 0, 1, None, 0

    def read(self):
        """Tells all answers. What comes together stands between braces, unless it is told apart."""
        told, number = "", 0
        while number < len(self.whole):
            count = self.fetch(number)
            if not count:
                return f"{told} ReadFailed"
            given = self.whole[number : number + count]
            told += f" {{{tell(given)} }}" if count > 1 and not self.is_apart else tell(given)
            number += count
        return told

    def fetch(self, number):
        """Reads what an answer takes. How many come at once, none where a read fails: the head of an image and rows
        that are held whole then, or such rows, or one; and its end with its last row."""
        if self.rows:
            if not self.read_first():
                return 0
            count = self.held_rows(number) or int(self.wait(number))
            return count and self.with_end(number, count)
        if not self.wait(number):
            return 0
        if isinstance(self.whole[number], tuple):
            self.begin(number)
            return self.with_end(number, 1 + self.held_rows(number + 1))
        return self.with_end(number, 1)

    def with_end(self, number, count):
        """Passes the rows of so many answers. How many these are with the image's end, if it comes after them."""
        passed = sum(isinstance(it, list) for it in self.whole[number : number + count]) if self.rows else 0
        self.rows, self.start = self.rows - passed, self.start + passed * self.row
        return count + (self.whole[number + count : number + count + 1] == ["ImageEnd"])

    def begin(self, number):
        """Begins an image, whose header ends where its head is known."""
        head, before = self.whole[number], self.needs[number - 1] if number else 0
        self.start, self.row, self.sample = self.needs[number], raw_row(head), 2 if head[4] > 255 else 1
        self.maxval = None if head[0] == "Bit" else head[4]
        self.rows = head[2] if self.text[before + 1 : before + 2] in b"4567" else 0

    def held(self):
        """The bytes of the next rows that have come."""
        return self.text[self.start : self.come]

    def held_rows(self, number):
        """How many of the next rows of a raw image are held whole; if one of them is at fault half of them are taken,
        and so on."""
        count = min(self.rows, len(self.held()) // self.row)
        while not all(isinstance(it, list) for it in self.whole[number : number + count]):
            count //= 2
        return count

    def read_first(self):
        """Reads once if the next row is short, isn't held whole, and shows no fault in what is held of it. Whether that
        read doesn't fail."""
        part = self.held()
        is_short = self.row <= min(STRAIGHT, self.size)
        if not is_short or len(part) >= self.row or self.come > len(self.text) or self.is_at_fault(part):
            return True
        return self.call(self.size - len(part))

    def is_at_fault(self, part):
        """Whether a whole sample of a row's first bytes is above the maxval."""
        if self.maxval is None:
            return False
        whole = range(0, len(part) + 1 - self.sample, self.sample)
        return any(int.from_bytes(part[at : at + self.sample], "big") > self.maxval for at in whole)

    def call(self, asked):
        """Reads once; whether that doesn't fail."""
        is_failing = len(self.calls) + 1 == self.failing
        got = 0 if is_failing else min(asked, self.most, len(self.text) - self.come)
        self.calls.append((asked, got))
        # the end is found if nothing comes
        self.come += got if got or is_failing else 1
        return not is_failing

    def wait(self, number):
        """Reads until an answer is known, part by part; whether no read fails."""
        while self.come < self.needs[number]:
            left = self.start + self.row - self.come
            asked = self.size
            if self.rows and self.sample == 1 and left >= STRAIGHT:
                asked = left
            elif self.rows and self.sample == 2:
                asked -= left % 2
            if not self.call(asked):
                return False
        return True
