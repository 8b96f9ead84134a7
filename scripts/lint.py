#!/usr/bin/env python3
"""Checks sources, pages, documents and scripts against each other (`make lint`): layout and length limits of sources
(`lint_sources.py`); pages, completions and documents against the sources (`lint_documents.py`); the tools' names,
options and ranges everywhere (`lint_tools.py`); what `make tables` writes (`tables.py`); the folder of each word of a
contract (`lint_words.py`); an edit that must fail for each exported function (`lint_edits.py`); and scripts, which
python3, sh and, where they are installed, shellcheck, zsh and fish have to read, with lines of at most 120 columns.
With folders as arguments, it checks only the sources in these.
"""

import glob
import os
import shutil
import subprocess
import sys

import lint_documents
import lint_edits
import lint_sources
import lint_tools
import lint_words
import tables
from places import ROOT

FOLDERS = ["helpers", "scripts", "scripts/judge", "scripts/tests", "bench", "model", ".ci"]
COMPLETIONS = {"bash": tables.BASH, "zsh": tables.ZSH, "fish": tables.FISH}
# other files whose lines have a limit
IN_C = ["scripts/*.c", "bench/*.c", "library/*.[ch]", "library/*/*.c*"]
COLUMNS = 120


def scripts():
    """The scripts in Python, and those for sh."""
    pythons, shells = [], []
    paths = (path for folder in FOLDERS for path in glob.glob(os.path.join(ROOT, folder, "*")))
    for path in sorted(os.path.relpath(path, ROOT) for path in paths if os.path.isfile(path)):
        first = lint_documents.read(path).partition("\n")[0]
        if path.endswith(".py") or first.startswith("#!") and first.endswith("python3"):
            pythons.append(path)
        elif first == "#!/bin/sh":
            shells.append(path)
    return pythons, shells


def faults_in_python(path):
    # (no file is left of what is compiled)
    try:
        compile(lint_documents.read(path), path, "exec")
    except SyntaxError as fault:
        yield f"{path}:{fault.lineno}: {fault.msg}"


def faults_by(words, paths):
    """What a program that reads scripts has to say of these."""
    made = subprocess.run([*words, *paths], cwd=ROOT, capture_output=True, text=True, check=False)
    said = (made.stdout + made.stderr).strip()
    return said.split("\n") if made.returncode else []


def faults_in_scripts():
    pythons, shells = scripts()
    found = [fault for path in pythons for fault in faults_in_python(path)]
    for path in shells:
        found += faults_by(["sh", "-n"], [path])
    for shell in ("zsh", "fish"):
        if shutil.which(shell):
            found += faults_by([shell, "-n"], [COMPLETIONS[shell]])
    if shutil.which("shellcheck"):
        found += faults_by(["shellcheck", "-s", "sh"], shells)
        found += faults_by(["shellcheck", "-s", "bash"], [COMPLETIONS["bash"]])
    else:
        print("lint: shellcheck isn't installed, so the shell's scripts are only read by sh")
    in_c = [os.path.relpath(path, ROOT) for form in IN_C for path in sorted(glob.glob(os.path.join(ROOT, form)))]
    for path in [*pythons, *shells, *COMPLETIONS.values(), *in_c]:
        for number, line in enumerate(lint_documents.read(path).split("\n"), 1):
            if len(line) > COLUMNS:
                found.append(f"{path}:{number} has {len(line)} columns, more than {COLUMNS}")
    return len(pythons) + len(shells), found


def main():
    count, found = lint_sources.faults(sys.argv[1:] or [os.path.join(ROOT, "crates")])
    told = f"{count} sources"
    if not sys.argv[1:]:
        scripts_read, of_scripts = faults_in_scripts()
        documents, of_documents = lint_documents.faults()
        found += of_scripts + of_documents + lint_tools.faults() + [*tables.faults(), *lint_words.faults(ROOT)]
        found += lint_edits.faults(ROOT)
        told += f", {scripts_read} scripts, {documents} pages and documents"
    for fault in found:
        print(f"lint: {fault}")
    print(f"lint: {told}, {len(found)} findings")
    return 1 if found else 0


if __name__ == "__main__":
    sys.exit(main())
