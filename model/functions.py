#!/usr/bin/env python3
"""Wants each function that the model restates to be as it was when the model was last compared with it.

    functions.py [--accept]

`functions.txt` has a line for each: its file, its name, and a sum of its code, without comments, contracts and layout.
Where the code of one has changed, or is gone, this fails. Whoever changes such a function compares the model with it,
changes the model where they differ, and writes the sums anew by --accept. To add a function, add a line with any sum.
"""

import argparse
import hashlib
import os
import re
import sys

sys.dont_write_bytecode = True

HERE = os.path.dirname(os.path.abspath(__file__))
ROOT = os.path.dirname(HERE)
LIST = os.path.join(HERE, "functions.txt")

sys.path.append(os.path.join(ROOT, "scripts"))

import rust_places  # pylint: disable=wrong-import-position


def without_comments(text):
    """A source without its comments: those of a line, and those of several; texts stay."""
    part = re.compile(r'"(?:\\.|[^"\\])*"|//[^\n]*|/\*.*?\*/', re.S)
    return part.sub(lambda found: found[0] if found[0].startswith('"') else "", text)


def joined(lines):
    """Lines of code as one, without the blanks and the commas that only lay it out."""
    code = re.sub(r" ?([^\w ]) ?", r"\1", " ".join(" ".join(lines).split()))
    return re.sub(r",(?=[)\]}>])", "", code)


def functions(text):
    """The name of each function of a source, with that of its type, and its code."""
    for it in rust_places.functions(text):
        begin = text.rfind("\n", 0, it.start) + 1
        lines = without_comments(text[begin : it.end]).split("\n")
        yield f"{it.owner}::{it.name}" if it.owner else it.name, joined(rust_places.without_clauses(lines))


def sum_of(code):
    return hashlib.sha256(code.encode()).hexdigest()[:16]


def sums(path):
    """The sum of each function of a file; none where there is no such file."""
    try:
        with open(path, encoding="utf-8") as file:
            return {name: sum_of(code) for name, code in functions(file.read())}
    except FileNotFoundError:
        return {}


def entries(text):
    """The file, the function and the sum of each line of the list."""
    return [line.split() for line in text.split("\n") if line and not line.startswith("#")]


def models_gone(text):
    """What a heading of the list names that is no model of this folder."""
    return [name for name in re.findall(r"^# (\w+\.pml):", text, re.M) if not os.path.exists(os.path.join(HERE, name))]


def compare(text, root):
    """The list with the sums of what stands below the root, and what differs from it."""
    anew, found, files = [], [], {}
    for line in text.split("\n"):
        if not line or line.startswith("#"):
            anew.append(line)
            continue
        path, name, known = line.split()
        if path not in files:
            files[path] = sums(os.path.join(root, path))
        now = files[path].get(name)
        anew.append(f"{path} {name} {now or known}")
        if now is None:
            found.append(f"{name} of {path} is gone")
        elif now != known:
            found.append(f"{name} of {path} has changed")
    return "\n".join(anew), found


def main():
    parser = argparse.ArgumentParser(description=__doc__, formatter_class=argparse.RawDescriptionHelpFormatter)
    parser.add_argument("--accept", action="store_true", help="write the sums anew, once the model was compared")
    asked = parser.parse_args()
    with open(LIST, encoding="utf-8") as file:
        text = file.read()
    anew, found = compare(text, ROOT)
    gone = [line for line in found if line.endswith("is gone")]
    count = len(entries(text))
    if asked.accept:
        with open(LIST, "w", encoding="utf-8") as file:
            file.write(anew)
        changed = len(found) - len(gone)
        print(f"model: the sums of {count - len(gone)} functions are written, of which {changed} have changed")
        found = gone
    gone = models_gone(text)
    for name in gone:
        print(f"model: functions.txt names {name}, which isn't there")
    for line in found:
        print(f"model: {line}: compare the model with it (model/README.md), and run model/functions.py --accept")
    if not found and not gone and not asked.accept:
        print(f"model: the {count} functions that it restates are as they were when it was compared with them")
    return 1 if found or gone else 0


if __name__ == "__main__":
    sys.exit(main())
