#!/usr/bin/env python3
"""Writes what stands in many files and is known from one, as `make tables` does.

The table of the tools is tool_table.py of helpers. The options of the program and its helpers stand below. The numbers
of faults are those of codes.rt of pnm_memory, but for the ones that pnmpipe.c has itself. Written lines stand below one
that names the rows of a table, and gives the form that each takes. `make lint` tells of files whose lines are others.
"""

import os
import re
import sys

sys.dont_write_bytecode = True

from places import ROOT, read
from tool_table import ALL_WAYS, OLD_NAMES, OPTIONS, TOOLS, WAYS, Form

BASH, ZSH, FISH = "completions/pnmpipe.bash", "completions/_pnmpipe", "completions/pnmpipe.fish"
CODES = "crates/pnm_memory/src/codes.rt"

# the most columns of what a stand-in knows of a tool, if it stands in one line
WIDE = 80

RUNS = ("pnmpipe", "pnmpipe-explain", "pnmpipe-files")
PROGRAMS = (*RUNS, "pnmpipe-split", "pnmpipe-translate")


# the options of programs, beside --help and --version: the name of each, what it means, what its value is, and values
# that completions offer
PROGRAM_OPTIONS = {
    RUNS: [
        ("ring", "rows between two tools", "rows", "1 16 64 256 1024"),
        ("lanes", "threads of a row-wise tool", "threads", "1 2 4 8"),
        ("plain", "write plain images", "", ""),
    ],
    ("pnmpipe-explain",): [("brief", "one line", "", ""), ("no-input", "judge the chain alone", "", "")],
    ("pnmpipe-files",): [
        ("jobs", "files at a time", "files", ""),
        ("small", "the most bytes of a small file", "bytes", ""),
        ("machines", "machines that files go to", "machines", ""),
        ("resume", "leave out files that are done", "", ""),
        ("keep-folders", "keep the folders of the files", "", ""),
        ("suffix", "name results by their kind", "", ""),
        ("bar", "show the progress", "", ""),
        ("names", "a list of files", "file", ""),
        ("names0", "a list of names that end in a byte 0", "file", ""),
    ],
    ("pnmpipe-split",): [
        ("start", "the first number", "number", ""),
        ("digits", "digits of a number", "digits", ""),
        ("names", "a list of names", "file", ""),
        ("force", "replace files", "", ""),
    ],
    ("pnmpipe-translate",): [("file", "a script", "file", "")],
}

# the numbers of pnmpipe.c, of a null pointer and of a descriptor that can't be written
OF_C = {4: ("NULL", "Null"), 401: ("OUTPUT_WRITE_FAILED", "WriteFailed")}


# --- what is told of them: rows, and what each has for the form by which a file has them


def tools():
    """What may stand next in a chain, by the tool before it."""
    yield {"name": "''", "words": " ".join(TOOLS)}
    for name, form in TOOLS.items():
        words = [*map(str, form.offered), *(f"-{option}" for option in form.options)]
        if words:
            yield {"name": name, "words": " ".join(words)}


def options():
    """The options of the programs that have them."""
    for programs, own in PROGRAM_OPTIONS.items():
        told = {"either": "|".join(programs), "commands": " ".join(f"-c {it}" for it in programs)}
        for name, what, value, words in own:
            fish = {"": "", "file": " -r"}.get(value, f" -x -a '{words}'" if words else " -x")
            zsh = {"": "", "file": ":file:_files"}.get(value, f":{value}:{words and f'({words})'}")
            yield {**told, "name": name, "what": what, "fish": fish, "zsh": zsh}


def programs():
    for those, own in PROGRAM_OPTIONS.items():
        yield {"either": " | ".join(those), "options": " ".join(f"--{name}" for name, *_ in own)}


def values():
    """The options that have the same values, which are no files."""
    found = {}
    for name, _, value, words in sum(PROGRAM_OPTIONS.values(), []):
        if value not in ("", "file"):
            found.setdefault(words, []).append(f"--{name}")
    for words, names in sorted(found.items(), reverse=True):
        yield {"words": words, "either": " | ".join(names), "all": " ".join(names)}


def stand_ins():
    """Netpbm's tools, and what the stand-in for each has to know: its options, and which numbers it takes alone."""
    for tool, (valued, flags) in OPTIONS.items():
        form = TOOLS.get(tool, Form())
        words = [f"base={tool}"]
        words += [f"{name}='{' '.join(some)}'" for name, some in (("known", valued), ("flags", flags)) if some]
        if 0 < form.most <= 2:
            words.append("wanted={} least={} most={}".format(form.most, *form.argument))
        line = f" {' '.join(words)} "
        names = " | ".join([tool, *(name for name, own in OLD_NAMES.items() if own == tool)])
        yield {"names": names, "words": line if len(line) <= WIDE else "\n    ".join(["", *words, ""])}


def ways():
    for way in WAYS:
        yield {"way": way, "names": " | ".join(name for name, own in ALL_WAYS.items() if own == way)}


def codes():
    """The numbers of faults, their constants in C, and the names that they are printed by."""
    text, found = read(CODES), {**OF_C}
    for constant, number in re.findall(r"pub const (\w+): u32 = (\d+);", text):
        name = {"WELL": "OK"}.get(constant, constant)
        found[int(number)] = name, "".join(word.capitalize() for word in name.split("_"))
    for part, body in re.findall(r"fn (\w+)_code\([^)]*\) -> u32\n.*?\n\{\n(.*?)\n\}\n", text, re.S):
        for name, number in re.findall(r"\w+::(\w+) => (\d+),", body):
            # (in memory a failed write is want of it)
            name = "Memory" if int(number) // 100 == 5 else name
            found[int(number)] = part.upper() + re.sub("([A-Z])", r"_\1", name).upper(), name
    last = 0
    for number, (constant, printed) in sorted(found.items()):
        told = {"number": number, "constant": constant, "printed": printed}
        yield {**told, "gap": "\n" * (number // 100 > last), "comma": "," * (number < max(found))}
        last = number // 100


# --- files

ROWS = {rows.__name__: rows for rows in (tools, options, programs, values, stand_ins, ways, codes)}
FILES = {
    BASH: ["tools", "values", "programs"],
    ZSH: ["tools", "options"],
    FISH: ["tools", "values", "options"],
    "helpers/netpbm-shim": ["ways", "stand_ins"],
    "library/pnmpipe.h": ["codes"],
    "library/pnmpipe.c": ["codes"],
}
WRITTEN = re.compile(r"^( *)(\S+ make tables writes (\w+): (.*?)(| \*/)\n)(?:.*\n)*?(\1\S+ up to here\5)$", re.M)


def written(text):
    """A file's text with its written lines as they have to be."""

    def lines(found):
        indent, begin, name, form, _, end = found.groups()
        made = "\n".join(form.format(**row) for row in ROWS[name]()).split("\n")
        return indent + begin + "".join(f"{indent}{line}".rstrip() + "\n" for line in made) + end

    return WRITTEN.sub(lines, text)


def faults(reading=read):
    """Files whose lines are others than those that are written, where a function reads the project's files."""
    for path, names in FILES.items():
        text = reading(path)
        if [found[3] for found in WRITTEN.finditer(text)] != names or written(text) != text:
            yield f"{path} hasn't what `make tables` writes: {', '.join(names)}"


def main():
    for path in FILES:
        text = read(path)
        made = written(text)
        if made != text:
            with open(os.path.join(ROOT, path), "w", encoding="utf-8") as file:
                file.write(made)
            print(f"tables: {path} is written anew")


if __name__ == "__main__":
    main()
