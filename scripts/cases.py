#!/usr/bin/env python3
"""Works out slowly, from the manual pages and the project's rules, what the programs of cases have to tell, and wants
their stored output to say that, line by line: each text and image that is read or written, also where calls fail
(`judge_formats`); each tool, head, sweep and text of a chain, and what is given for messages one by one
(`judge_tools`); each run, stage, dealing and gathering (`judge_flow`, `judge_rings`). A line that begins with an
unknown word, or has no line of output, is a fault.

With --counts the lines are counted by their words, with those of which a part is left open, and why. With --each the
answers of a sweep's cases are printed one by one, for a line that is given with its crate's name.
"""

import argparse
import concurrent.futures
import sys
from collections import Counter

from places import read  # first, since the judges use modules of helpers

import judge_flow
import judge_formats
import judge_tools
from case_text import allows
from slow_tools import written_tool

JUDGES = {"pnm_tools_cases": judge_tools, "pnm_format_cases": judge_formats, "pnm_flow_cases": judge_flow}


def stored(crate, name):
    return read(f"crates/{crate}/{name}").split("\n")[:-1]


def judge(crate):
    """How many lines of each word are worked out, how many of these but for a part, and those of which something else
    is stored."""
    lines, tells = stored(crate, "stdin"), stored(crate, "stdout")
    judged, open_parts, faults = Counter(), Counter(), []
    if len(lines) != len(tells):
        faults.append(f"{crate}: {len(lines)} lines of stdin and {len(tells)} of stdout")
    at_work = JUDGES[crate].Lines()
    for number, (line, told) in enumerate(zip(lines, tells), 1):
        try:
            want = line if line.startswith("#") else at_work.want(line)
        except (ValueError, LookupError) as fault:
            faults.append(f"{crate}: line {number}: {line}\n  {type(fault).__name__}: {fault}")
            continue
        if not line.startswith("#"):
            word = line.partition(" ")[0]
            judged[word] += 1
            open_parts[word, getattr(want, "OPEN", None)] += 1
        if not allows(want, told):
            faults.append(f"{crate}: line {number}: {line}\n  {told}\n  is stored in place of\n  {want}")
    return judged, open_parts, faults


def print_counts(crate, judged, open_parts):
    """Prints how many lines of each word are worked out, and what of them is left open."""
    print(f"{crate}: {sum(judged.values())} lines are worked out, none is left")
    for word, count in judged.most_common():
        parts = [f", {open_parts[it]} of them but for {it[1]}" for it in open_parts if it[0] == word and it[1]]
        print(f"  {word:<10}{count:>5}{''.join(parts)}")


def print_each(crate, line, tool):
    """Prints the answers of a sweep's cases one by one."""
    at_work = JUDGES[crate].Lines()
    if crate == "pnm_tools_cases":
        at_work.tools.append(written_tool(tool))
    told = at_work.want(line)
    for number, answer in enumerate(told if isinstance(told, list) else [told]):
        print(f"{number}:{answer}")


def main():
    parser = argparse.ArgumentParser(description=__doc__.split("\n\n", maxsplit=1)[0])
    parser.add_argument("--counts", action="store_true")
    parser.add_argument("--each", nargs=2, metavar=("CRATE", "LINE"))
    parser.add_argument("--tool", default="invert", help="the tool of the line that is given")
    args = parser.parse_args()
    if args.each:
        print_each(*args.each, args.tool)
        return 0
    with concurrent.futures.ProcessPoolExecutor() as pool:
        found = dict(zip(JUDGES, pool.map(judge, JUDGES)))
    for _, _, faults in found.values():
        print("".join(f"{fault}\n" for fault in faults), end="", file=sys.stderr)
    if args.counts:
        for crate, (judged, open_parts, _) in found.items():
            print_counts(crate, judged, open_parts)
    counts = (f"{sum(judged.values())} lines of {crate}" for crate, (judged, _, _) in found.items())
    is_as_stored = not any(faults for _, _, faults in found.values())
    print(f"cases: {', '.join(counts)} are worked out, {'as' if is_as_stored else 'not all as'} stored")
    return 0 if is_as_stored else 1


if __name__ == "__main__":
    sys.exit(main())
