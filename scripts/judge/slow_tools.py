"""What each tool makes of an image and of messages, worked out slowly from its manual page and the project's rules:
which options are lawful, the samples of the result, and which message may come where. What it makes of a head is worked
out in slow_heads.py.

How early a row is given is the project's own choice: a tool answers a row at once by the rows of the result that show
it, but one that moves rows, or repeats the whole image, gives all of them once the image has ended."""

from array import array
from collections import deque
from copy import copy

from slow_heads import WAYS, Tool, is_row_wise, kept, result_head
from slow_reader import MOST, Fault


def written_tool(written):
    """The tool that a line of cases writes."""
    name, _, rest = written.partition(" ")
    if name == "planes":
        numbers, _, tuple_type = rest.partition("(")
        return Tool(name, (tuple(map(int, numbers.split())), tuple_type.rpartition(")")[0].encode("latin-1")))
    words = rest.split()
    if name == "flip":
        if rest not in WAYS:
            raise ValueError("no such way to flip")
        return Tool(name, (rest,))
    if len(words) != {"invert": 0, "cut": 6, "depth": 1, "enlarge": 2, "tile": 2}.get(name):
        raise ValueError("no such tool")
    return Tool(name, tuple(None if it == "_" else int(it) for it in words))


# --- options


def is_extent(number):
    return 1 <= number <= MOST


def is_lawful(tool):
    """Whether the options are in their ranges, and no axis of a cut has all three."""
    options = tool.options
    if tool.name == "cut":
        left, right, top, bottom, width, height = options
        offsets = all(-MOST <= it <= MOST for it in options[:4] if it is not None)
        sizes = all(is_extent(it) for it in options[4:] if it is not None)
        return offsets and sizes and None in (left, right, width) and None in (top, bottom, height)
    if tool.name == "depth":
        return 1 <= options[0] <= 65_535
    if tool.name == "planes":
        numbers, text = options
        is_type = len(text) <= 255 and b"\n" not in text and text == text.strip(b" \t\r")
        return 1 <= len(numbers) <= 256 and all(it <= 255 for it in numbers) and is_type
    return tool.name in ("invert", "flip") or all(map(is_extent, options))


def keeps_images(tool):
    """Whether rows are given once their image has ended."""
    return tool.name == "tile" or tool.name == "flip" and tool.options[0] not in WAYS[:2]


def printed(tool):
    """A tool as Rust's Debug prints it."""

    def some(number):
        return "None" if number is None else f"Some({number})"

    options = tool.options
    if tool.name == "cut":
        names = ("left", "right", "top", "bottom", "width", "height")
        return f"Cut(CutBox {{ {', '.join(f'{name}: {some(it)}' for name, it in zip(names, options))} }})"
    if tool.name == "planes":
        return f"Channel(Planes {{ numbers: {list(options[0])}, tuple_type: {list(options[1])} }})"
    if tool.name == "flip":
        way = options[0]
        return f"Flip({dict(zip(WAYS, ('Null', 'LeftRight', 'TopBottom', 'Transpose'))).get(way, 'Rotate' + way[1:])})"
    return tool.name.capitalize() + (f"({', '.join(map(str, options))})" if options else "")


# --- images


class Work:
    """A tool at an image."""

    def __init__(self, tool, head):
        self.tool, self.head = tool, head
        self.result = result_head(tool, head)
        self.rows = []
        self.at = None

    def picked(self):
        """Where the samples of a row of the result stand in the row that it shows."""
        _, width, _, depth, _, _ = self.head
        name, options = self.tool.name, self.tool.options
        if name == "enlarge":
            at = array("I")
            for x in range(width):
                at += array("I", range(x * depth, x * depth + depth)) * options[0]
            return at
        if name == "tile":
            wide = self.result[1]
            return (array("I", range(width * depth)) * (wide // width + 1))[: wide * depth]
        columns, planes = range(width), range(depth)
        if name == "cut":
            left, count = kept(width, options[0], options[1], options[4])
            columns = range(left, left + count)
        elif name == "planes":
            planes = options[0]
        elif name == "flip" and options[0] in ("leftright", "r180"):
            columns = range(width - 1, -1, -1)
        return array("I", [x * depth + plane for x in columns for plane in planes])

    def shown(self, row):
        """A row of the result that shows this one."""
        maxval, made = self.head[4], self.result[4]
        if self.tool.name == "invert":
            return array("H", [maxval - sample for sample in row])
        if self.tool.name == "depth":
            return array("H", [(2 * sample * made + maxval) // (2 * maxval) for sample in row])
        if self.at is None:
            self.at = self.picked()
        return array("H", [row[at] for at in self.at])

    def answers(self, row):
        """The rows that answer a row."""
        name, options, y = self.tool.name, self.tool.options, len(self.rows)
        self.rows.append(row if keeps_images(self.tool) else None)
        if keeps_images(self.tool):
            return []
        if name == "cut":
            top, count = kept(self.head[2], options[2], options[3], options[5])
            return [self.shown(row)] if top <= y < top + count else []
        return [self.shown(row)] * (options[1] if name == "enlarge" else 1)

    def last_answers(self):
        """The rows that answer the image's end."""
        if not keeps_images(self.tool):
            return []
        _, width, height, depth, _, _ = self.head
        if self.tool.name == "tile":
            shown = [self.shown(row) for row in self.rows[: self.result[2]]]
            return [shown[y % height] for y in range(self.result[2])]
        way = self.tool.options[0]
        if way in ("topbottom", "r180"):
            return [self.shown(row) for row in reversed(self.rows)]
        columns = range(width - 1, -1, -1) if way == "r90" else range(width)
        rows = self.rows[::-1] if way == "r270" else self.rows
        return [array("H", b"".join(row[x * depth : (x + 1) * depth].tobytes() for row in rows)) for x in columns]

    def are_given_together(self, rows):
        """Whether the rows that answer the image's end are given at once: those of a turned or a tiled image, while
        they are short and few."""
        name, options = self.tool.name, self.tool.options
        is_made_anew = name == "tile" or (name == "flip" and options[0] in ("transpose", "r90", "r270"))
        return is_made_anew and 1 < len(rows) <= 64 and sum(map(len, rows)) <= 32_768


# --- messages


class Place:
    """Where in a stream the next message stands."""

    def __init__(self):
        self.head, self.row, self.is_over = None, 0, False

    def accepts(self, message):
        if self.is_over or message == "Stop":
            return not self.is_over
        if not self.head:
            return isinstance(message, tuple) or message == "StreamEnd"
        _, width, height, depth, maxval, _ = self.head
        if message == "ImageEnd":
            return self.row == height
        is_row = not isinstance(message, (tuple, str)) and self.row < height
        return is_row and len(message) == width * depth and max(message) <= maxval

    def step(self, message):
        if isinstance(message, tuple):
            self.head, self.row = message, 0
        elif message == "ImageEnd":
            self.head = None
        elif isinstance(message, str):
            self.is_over = True
        else:
            self.row += 1


class Filter:
    """A tool at work on messages."""

    def __init__(self, tool):
        self.tool = tool
        self.place, self.work = Place(), None
        self.fault, self.waiting, self.is_asked = None, deque(), False

    def may_come(self, messages):
        """Whether these may all come now."""
        place = copy(self.place)
        for message in messages:
            if self.is_asked or not place.accepts(message):
                return False
            place.step(message)
        return True

    def feed(self, *messages):
        """Takes a message, or messages together that may all come; the refusal, if there is one."""
        if not self.fault and not self.may_come(messages):
            self.fault = "OutOfOrder"
        for message in messages:
            if not self.fault:
                try:
                    self.take(message)
                except Fault as fault:
                    self.fault = str(fault)
        # until None is answered, nothing more may come
        self.is_asked = True
        return self.fault

    def take(self, message):
        if isinstance(message, tuple):
            self.work = Work(self.tool, message)
            self.waiting.append(self.work.result)
        elif message == "ImageEnd":
            rows = self.work.last_answers()
            parts = 1 if self.work.are_given_together(rows) else max(1, len(rows))
            # the end comes with the last rows
            self.waiting += [*rows[: parts - 1], [*rows[parts - 1 :], message] if rows else message]
        elif isinstance(message, str):
            self.waiting.append(message)
        else:
            self.waiting += self.work.answers(message)
        self.place.step(message)

    def next(self):
        """The next answer, which is a list where messages are given together, the fault, or None."""
        if self.fault:
            return self.fault
        if self.waiting:
            return self.waiting.popleft()
        self.is_asked = False
        return None

    def all(self):
        """All answers that are due."""
        given = []
        for answer in self.waiting:
            given += answer if isinstance(answer, list) else [answer]
        self.waiting.clear()
        self.is_asked = False
        return given


def stage(tool, messages):
    """How a stage ends that gets these messages, and what it sends: (end, sent, how many it took). Without a StreamEnd
    or a Stop nothing more can come."""
    filter_, sent = Filter(tool), []
    for count, message in enumerate(messages, 1):
        fault = filter_.feed(message)
        if fault:
            ended = [at for at, it in enumerate(messages) if at >= count - 1 and it in ("StreamEnd", "Stop")]
            return f"Fault({fault})", sent + ["Stop"], ended[0] + 1 if ended else len(messages)
        sent += filter_.all()
        if message in ("StreamEnd", "Stop"):
            return ("Well" if message == "StreamEnd" else "Broken"), sent, count
    return "PeerGone", sent + ["Stop"], len(messages)
