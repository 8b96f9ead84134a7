"""What pnm_tools_cases has to tell: of tools and their options, of heads and messages, of sweeps over made images, and
of the texts of chains."""

import re
from array import array
from functools import lru_cache

from case_text import Sweep, Together, changes, handed_in, is_row, numbers_in, one_by_one, parts_in, text_of
from chain_text import ChainFault, read_chain
from slow_heads import Tool, is_row_wise, named_tool, result_head
from slow_reader import Fault, tell, tell_head
from slow_tools import Filter, is_lawful, printed, written_tool

# the kind of an image, its maxval and its planes; how samples are held is no matter here
TYPES = [("Bit", 1, 1)] * 3 + [("Pam", 1, 2)] * 3 + [("Pam", 1, 3)] * 3 + [("Gray", 200, 1)] * 2
TYPES += [("Color", 255, 3)] * 2 + [("Gray", 256, 1), ("Color", 1000, 3)]
TYPES += [("Pam", maxval, depth) for maxval in (1, 200, 1000) for depth in range(1, 6)]

FAULTS = {
    "tools": "CutOutside ChannelOutside TooLarge OutOfOrder Memory",
    "chain": "Empty TooLong TooMany EmptyStage UnknownTool UnknownOption MissingValue BadValue Conflict "
    "MissingArgument ExtraArgument Memory",
}

# the words that are about the tools so far
OF_TOOLS = ("head", "run", "lane", "held", "images", "types")

# what each way to hold a row has room for
ROOM = {"bits": 1, "bytes": 255, "words": 65_535}


class Lines:
    """Works out the lines of the program one after another."""

    def __init__(self):
        # the tools that the next lines are about, and the axes so far
        self.tools, self.axes = [], []

    def want(self, line):
        """What is told of a line."""
        word, _, rest = line.partition(" ")
        if word == "none":
            self.tools.clear()
            return ""
        if word in ("judge", "copy", "tool"):
            tool = written_tool(text_of(rest).decode("latin-1"))
            self.tools += [tool] if word == "tool" else []
            return f" {printed(tool)}" * 2 if word == "copy" else judged_tool(tool)
        if word == "axis":
            axis = [None if it == "_" else int(it) for it in rest.split()]
            self.axes.append(axis)
            return heads_of_axis(axis)
        if word == "axes":
            short = [axis for axis in self.axes if axis[0] <= 5]
            return Sweep(cut_image(across, down) for across in short for down in short)
        if word == "chain":
            return named_by(text_of(rest))
        if word == "names":
            return f" {FAULTS[rest]}"
        return self.want_of_each(word, rest)

    def want_of_each(self, word, rest):
        """What is told of each tool."""
        if word not in OF_TOOLS:
            raise ValueError("no such word")
        wants = [want_of_tool(tool, word, rest) for tool in self.tools]
        if len(wants) == 1:
            return wants[0]
        if word == "held":
            return HeldByEach(wants)
        return changes([str(it) for it in wants])


def want_of_tool(tool, word, rest):
    """What is told of a tool."""
    if not is_lawful(tool):
        return " unlawful"
    if word == "types":
        return Sweep(sweep_types(tool, *numbers_in(rest)))
    if word == "images":
        return f"{Sweep(sweep_images(tool, numbers_in(rest)))} StreamEnd"
    text = text_of(rest).decode("latin-1")
    if word == "head":
        return told_head(tool, next(parts_in(text)))
    if word == "held":
        return Held(steps_of(tool, text))
    if word == "lane" and not is_row_wise(tool):
        return " no case"
    return tell(steps_of(tool, text))


def judged_tool(tool):
    return (" lawful" if is_lawful(tool) else " unlawful") + (" row-wise" if is_row_wise(tool) else "")


def told_head(tool, head):
    """The head of a result, or the refusal."""
    try:
        return tell_head(*result_head(tool, head))
    except Fault as fault:
        return f" {fault}"


def named_by(text):
    """The tools that a text names, or the number of the stage at fault and the fault."""
    try:
        tools = read_chain(text.decode("utf-8", "surrogateescape"))
    except ChainFault as fault:
        return f"{fault.stage} {fault}"
    return f"[{', '.join(printed(named_tool(tool)) for tool in tools)}]"


# --- cuts


def cut_tool(across, down):
    """The cut by the options of an axis across and of one down."""
    return Tool("cut", (*across[1:3], *down[1:3], across[3], down[3]))


def heads_of_axis(axis):
    """What is kept of so many columns of three rows, and of so many rows of three columns."""
    told = ""
    for across, down in ((axis, (3, None, None, None)), ((3, None, None, None), axis)):
        tool, head = cut_tool(across, down), ("Gray", across[0], down[0], 1, 9, b"")
        told += told_head(tool, head) if is_lawful(tool) else " unlawful"
    return told


def cut_image(across, down):
    """What a cut makes of an image of colours, each of whose samples tells its plane, its column and its row."""
    return told_image(cut_tool(across, down), "Color", 65_535, across[0], down[0], 3)


# --- steps


def steps_of(tool, text):
    """What a tool gives by steps: a message after ! isn't followed by a look at what is given, of one after ~ a fault
    alone is told, and ? takes an answer."""
    at_work, told, mark = Filter(tool), [], ""
    for it in handed_in(text):
        if it in ("!", "~"):
            mark = it
        elif it == "?":
            answer = at_work.next() or "nothing"
            told += ["{", *answer, "}"] if isinstance(answer, list) else [answer]
        else:
            for messages in handed_to(at_work, it):
                fault = at_work.feed(*messages)
                given = [fault] if fault else [] if mark == "!" else at_work.all()
                told += given if fault or not mark else []
            mark = ""
    return told


def handed_to(at_work, it):
    """How messages are fed that are handed over together: so, or one by one if not all of them may come; a tool that
    has refused is handed them together."""
    is_fed_so = isinstance(it, Together) and (at_work.fault or at_work.may_come(it))
    return [it] if is_fed_so else [[message] for message in one_by_one([it])]


class Held:
    """How the rows of these answers are held: in a way that has room for them."""

    OPEN = "how rows are held, since each way may be that has room for their samples"

    def __init__(self, given):
        self.most = [max(row) for row in given if is_row(row)]

    def __str__(self):
        return "".join(f" room-for-{most}" for most in self.most)

    def allows(self, told):
        words = told.split()
        return len(words) == len(self.most) and all(most <= ROOM.get(it, -1) for it, most in zip(words, self.most))


class HeldByEach:
    """The same by several tools."""

    OPEN = Held.OPEN

    # the number from which on this is told
    CHANGE = re.compile(r" \| (\d+):([^|]*)(?= \||$)")

    def __init__(self, wants):
        self.wants = wants

    def __str__(self):
        return changes([str(it) for it in self.wants])

    def allows(self, told):
        found = self.CHANGE.findall(told)
        numbers = [int(number) for number, _ in found]
        is_told = "".join(f" | {number}:{words}" for number, words in found) == told
        if not is_told or numbers != sorted(set(numbers)) or numbers[:1] != [0] or numbers[-1] >= len(self.wants):
            return False
        ends = numbers[1:] + [len(self.wants)]
        each = [words for (_, words), start, end in zip(found, numbers, ends) for _ in range(start, end)]
        return all(want.allows(words) for want, words in zip(self.wants, each))


# --- sweeps


@lru_cache(maxsize=1 << 16)
def made_row(is_color, maxval, width, depth, y):
    """A row of a made image."""
    columns = [(x, plane) for x in range(width) for plane in range(depth)]
    if maxval == 65_535:
        across, down = (10, 100) if is_color else (300, 10_000)
        return array("H", [(across * x + down * y + plane) % 65_536 for x, plane in columns])
    places = [(40_503 * x + 30_011 * y + 50_021 * plane) % 2**32 for x, plane in columns]
    return array("H", [place // 128 % (maxval + 1) for place in places])


def told_image(tool, kind, maxval, width, height, depth):
    """What a tool gives for a made image."""
    head = (kind, width, height, depth, maxval, b"A B" if kind == "Pam" else b"")
    at_work = Filter(tool)
    fault = at_work.feed(head)
    if fault:
        return f" {fault}"
    rows = [made_row(kind == "Color", maxval, width, depth, y) for y in range(height)]
    given = at_work.all()
    for message in [*rows, "ImageEnd"]:
        at_work.feed(message)
        given += at_work.all()
    return tell(given)


def sweep_types(tool, first, last, least_width, most_width, least_height, most_height):
    """A sweep over made images of these types and sizes, each with the end of its stream."""
    for width in range(least_width, most_width + 1):
        for height in range(least_height, most_height + 1):
            known = {}
            for kind, maxval, depth in TYPES[first : last + 1]:
                image = (kind, maxval, width, height, depth)
                if image not in known:
                    known[image] = told_image(tool, *image) + " StreamEnd"
                yield known[image]


def sweep_images(tool, numbers):
    """A sweep over made images of these sizes, one after another."""
    for width, height, depth in zip(*[iter(numbers)] * 3):
        yield told_image(tool, "Pam", 65_535, width, height, depth)
