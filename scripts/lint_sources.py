"""The layout of rt fmt, where the toolchain is there, and what rt fmt doesn't keep: lines, functions and files of the
crates that are not too long. `lint.py` runs this.

Code, clauses and definitions have at most 120 columns, proofs at most 160; a line with a text of more than 60
characters passes, since a text isn't broken. A file has at most 500 lines, a function's body, which is what its braces
hold but for the clauses of closures, at most 40.
"""

import os
import re
import shutil
import subprocess

from places import ROOT
from rust_places import functions, without_clauses

COLUMNS, COLUMNS_OF_PROOFS, LINES, LINES_OF_BODY = 120, 160, 500, 40

LONG_TEXT = re.compile(r'"(?:[^"\\]|\\.){60,}"')


def bodies(text):
    """The name of each function, the number of its first line, and how many lines its body has."""
    for it in functions(text):
        inside = text[it.body : it.end].split("\n")[1:-1]
        yield it.name, text.count("\n", 0, it.start) + 1, len(without_clauses(inside))


def findings(path, text):
    """What is too long in a file."""
    lines = text.split("\n")
    if lines and not lines[-1]:
        lines.pop()
    if len(lines) > LINES:
        yield f"{path} has {len(lines)} lines, more than {LINES}"
    limit = COLUMNS_OF_PROOFS if "/proofs/" in path else COLUMNS
    for number, line in enumerate(lines, 1):
        if len(line) > limit and not LONG_TEXT.search(line):
            yield f"{path}:{number} has {len(line)} columns, more than {limit}"
    if path.endswith(".rt"):
        for name, number, count in bodies(text):
            if count > LINES_OF_BODY:
                yield f"{path}:{number}: the body of {name} has {count} lines, more than {LINES_OF_BODY}"


def sources(folder):
    for at, folders, files in os.walk(folder):
        folders[:] = sorted(it for it in folders if it != "out")
        for file in sorted(files):
            if file.endswith((".rt", ".antt")):
                yield os.path.join(at, file)


def formatter():
    """The command by which rt fmt lays out files: it stands beside rt. None where there is no toolchain."""
    rt = shutil.which("rt")
    rattle = os.path.join(os.path.dirname(os.path.realpath(rt)), "rattle") if rt else ""
    return rattle if os.access(rattle, os.X_OK) else None


def not_laid_out(rattle, paths):
    """What rt fmt would change of these files, which stay as they are, or can't read."""
    made = subprocess.run([rattle, "fmt", "--check", *paths], capture_output=True, text=True, check=False)
    told = (made.stdout + made.stderr).strip()
    return told.split("\n") if made.returncode else []


def faults(folders):
    """How many sources these folders have, and what is wrong with them."""
    paths = [it for folder in folders for it in sources(folder)]
    found = [] if paths else ["there is no source to read"]
    for path in paths:
        with open(path, encoding="utf-8") as file:
            found += findings(os.path.relpath(path, ROOT), file.read())
    rattle = formatter()
    if rattle:
        found += not_laid_out(rattle, paths)
    else:
        print("lint: there is no toolchain, so the layout of rt fmt isn't looked at")
    return len(paths), found
