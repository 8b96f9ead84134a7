"""What each tool makes of an image's head, worked out slowly from its manual page: the head of the result, or the
refusal. The judges of the program's answers and `pnmpipe-explain` use it."""

import re
import typing

from slow_reader import Fault, judged
from tool_table import TOOLS


class Tool(typing.NamedTuple):
    """A tool's name, and its options in the order in which they are written."""

    name: str
    options: tuple


WAYS = ("null", "leftright", "topbottom", "transpose", "r90", "r180", "r270")

# names of chains, and those that mean the same way to flip
NAMES = {**{name: name[3:] for name in TOOLS}, "pamchannel": "planes"}
SHORT_WAYS = {"lr": "leftright", "tb": "topbottom", "xy": "transpose"}


def named_tool(stage):
    """The tool that a stage of a chain's text names."""
    name, options = NAMES[stage.name], stage.options
    if name == "cut":
        return Tool(name, tuple(map(options.get, ("left", "right", "top", "bottom", "width", "height"))))
    if name == "planes":
        return Tool(name, (tuple(stage.arguments), options.get("tupletype", "").encode("utf-8", "surrogateescape")))
    if name == "enlarge":
        both = stage.arguments[0] if stage.arguments else 1
        return Tool(name, (options.get("xscale", both), options.get("yscale", both)))
    if name == "flip":
        return Tool(name, (SHORT_WAYS.get(options["way"], options["way"]),))
    return Tool(name, tuple(stage.arguments))


def is_row_wise(tool):
    """Whether each row of the result shows one row of the image, and no row another."""
    if tool.name == "enlarge":
        return tool.options[1] == 1
    return tool.name in ("invert", "depth", "planes") or tool.name == "flip" and tool.options[0] in WAYS[:2]


def span(length, start, end, size):
    """The first and the last column that a cut keeps, wherever they lie. Negative ones count from the end."""
    start, end = (it if it is None or it >= 0 else it + length for it in (start, end))
    if start is None:
        start = 0 if end is None or size is None else end + 1 - size
    if end is None:
        end = length - 1 if size is None else start + size - 1
    return start, end


def kept(length, start, end, size):
    """The first column that a cut keeps, and how many; none where it lies outside."""
    first, last = span(length, start, end, size)
    return (first, last + 1 - first) if 0 <= first <= last < length else None


def result_head(tool, head):
    """The head of what a tool makes of an image; a Fault where it refuses the head."""
    kind, width, height, depth, maxval, tuple_type = head
    options = tool.options
    if not height and not is_row_wise(tool):
        raise Fault("OutOfOrder")
    if tool.name == "cut":
        left, right, top, bottom, columns, rows = options
        across, down = kept(width, left, right, columns), kept(height, top, bottom, rows)
        if not across or not down:
            raise Fault("CutOutside")
        width, height = across[1], down[1]
    elif tool.name == "depth":
        maxval = options[0]
        if maxval != 1:
            kind = "Gray" if kind == "Bit" else kind
            tuple_type = re.sub(rb"\ABLACKANDWHITE(_ALPHA)?\Z", rb"GRAYSCALE\1", tuple_type)
    elif tool.name == "planes":
        if max(options[0]) >= depth:
            raise Fault("ChannelOutside")
        kind, depth, tuple_type = "Pam", len(options[0]), options[1]
    elif tool.name == "enlarge":
        width, height = width * options[0], height * options[1]
    elif tool.name == "tile":
        width, height = options
    elif options and options[0] in ("transpose", "r90", "r270"):
        width, height = height, width
    # (the height may be 0 here, and everything else is judged)
    judged(kind, width, height or 1, depth, maxval, tuple_type)
    return kind, width, height, depth, maxval, tuple_type
