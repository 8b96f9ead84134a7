"""The table of the tools: their names, options and arguments, and what Netpbm's tools of these names take beside that.

The helpers read chains and scripts by it. `make tables` writes what completions and stand-ins have of it. Run, it
prints the names of all tools that have a stand-in.
"""

import typing

# what an option or an argument takes: a number from and to, or a text
OFFSET, EXTENT, MAXVAL, PLANE, TYPE = (-16_777_216, 16_777_216), (1, 16_777_216), (1, 65_535), (0, 255), "text"

# the names of each way to flip, and those that Netpbm has beside them
WAYS = {"lr": ["leftright"], "tb": ["topbottom"], "xy": ["transpose"], "r90": [], "r180": [], "r270": [], "null": []}
OTHER_WAYS = {"r90": ["rotate90", "ccw"], "r180": ["rotate180"], "r270": ["rotate270", "cw"]}
ALL_WAYS = {name: way for way in WAYS for name in [way, *WAYS[way], *OTHER_WAYS.get(way, [])]}


class Form(typing.NamedTuple):
    """What a tool takes: the least and the most arguments, what each is, and its options; None: it has no value. Then
    the arguments that completions offer, and the options that Netpbm's tool has beside these, with a value and without.
    """

    least: int = 0
    most: int = 0
    argument: typing.Optional[tuple] = None
    options: dict = {}
    offered: tuple = ()
    with_value: tuple = ()
    without: tuple = ()


TOOLS = {
    "pnminvert": Form(),
    "pamcut": Form(
        options={**dict.fromkeys(("left", "right", "top", "bottom"), OFFSET), "width": EXTENT, "height": EXTENT},
        with_value=("cropleft", "cropright", "croptop", "cropbottom"),
        without=("pad", "verbose"),
    ),
    "pamdepth": Form(1, 1, MAXVAL, offered=(1, 255, 65_535)),
    "pamchannel": Form(1, 256, PLANE, {"tupletype": TYPE}, offered=(0, 1, 2, 3), with_value=("infile",)),
    "pamenlarge": Form(0, 1, EXTENT, {"xscale": EXTENT, "yscale": EXTENT}, offered=(2, 3, 4), with_value=("scale",)),
    "pamflip": Form(
        options={name: None for way, others in WAYS.items() for name in (way, *others)},
        with_value=("xform", "memsize", "pagesize"),
        without=(*(name for others in OTHER_WAYS.values() for name in others), "verbose"),
    ),
    "pnmtile": Form(2, 2, EXTENT),
}

# the options of Netpbm's tools, with a value and without; pnmflip has rules of its own for its options
OPTIONS = {
    tool: (
        [*(name for name, taken in form.options.items() if taken), *form.with_value],
        [*(name for name, taken in form.options.items() if not taken), *form.without],
    )
    for tool, form in {**TOOLS, "pnmflip": Form()}.items()
}
# those that make PGM or PPM of PAM, which pnmpipe leaves as it is
LEAVING_PAM = ("pnminvert", "pnmtile")
OLD_NAMES = {"pnmcut": "pamcut", "pnmdepth": "pamdepth", "pnmenlarge": "pamenlarge"}


if __name__ == "__main__":
    print(*OPTIONS, *OLD_NAMES, sep="\n")
