#!/usr/bin/env python3
"""Times the program that make has left and prints a table, for a quiet machine: `bench.py TABLE`, and `bench.py TABLE
--help` for what a table measures and its options.

The tables: `tools`, `turns` and `plain`, each tool beside Netpbm's own; `narrow`, chains over narrow rows and small
images; `curves`, rows of other widths and chains of more tools; `waits`, beside busy processes; `files`, many files in
each way; `library`, calls of the C library; `streams`, its streams; `lanes`, numbers of lanes; and `sweep`, all
tools by kinds of images and by options.
"""

import argparse
import os
import sys
import tempfile

import curves
import files
import lanes
import library_calls
import measure
import narrow
import streams
import sweep
import tools
import waits

TABLES = {
    "tools": tools,
    "turns": tools,
    "plain": tools,
    "narrow": narrow,
    "curves": curves,
    "waits": waits,
    "files": files,
    "library": library_calls,
    "streams": streams,
    "lanes": lanes,
    "sweep": sweep,
}


def main():
    parser = argparse.ArgumentParser(description=__doc__, formatter_class=argparse.RawDescriptionHelpFormatter)
    tables = parser.add_subparsers(dest="table", required=True, metavar="TABLE")
    for name, table in TABLES.items():
        form = argparse.RawDescriptionHelpFormatter
        words = tables.add_parser(name, description=table.__doc__, formatter_class=form)
        measure.add_options(words, table.RUNS)
        table.add_options(words)
    args = parser.parse_args()
    if not os.access(args.program, os.X_OK):
        return f"bench: there is no {args.program}: run make first"
    with tempfile.TemporaryDirectory(dir=args.folder) as folder:
        return TABLES[args.table].run(args, folder)


if __name__ == "__main__":
    sys.exit(main())
