"""Stages of chains by which scripts try each tool. Nearly every image may come to them, of any kind, and the first
stage of a tool makes no image much larger. A tool that isn't here is tried with the numbers that completions offer.
"""

import places  # first, since it finds the other

from tool_table import TOOLS

OWN = {
    "pnminvert": ["pnminvert"],
    "pamcut": [
        "pamcut -left 1",
        "pamcut -top 1",
        "pamcut -left 1 -right -2",
        "pamcut -width 3",
        "pamcut -width 2 -top 1",
    ],
    "pamdepth": ["pamdepth 200", "pamdepth 1000", "pamdepth 255", "pamdepth 3"],
    "pamchannel": ["pamchannel 0"],
    "pamenlarge": ["pamenlarge 2", "pamenlarge -yscale 2", "pamenlarge -xscale 3"],
    "pamflip": [f"pamflip -{way}" for way in ("lr", "tb", "xy", "r90", "r180", "r270", "null")],
    "pnmtile": ["pnmtile 7 5", "pnmtile 11 5"],
}

EXAMPLES = {name: OWN.get(name) or [f"{name} {it}" for it in form.offered] for name, form in TOOLS.items()}
STAGES = [stage for stages in EXAMPLES.values() for stage in stages]


def untried(chains):
    """The first stage of each tool that none of these chains names. A script whose chains fit its own images has to
    name no tool that needs none of these."""
    words = " ".join(chains).split()
    return [stages[0] for name, stages in EXAMPLES.items() if name not in words]
