"""The crates of crates.txt, what each stands on, and what stands on it. For scripts that prove some of them."""

import os
import shutil
import signal

from places import ROOT

# what a check reads of a crate
SOURCES = ("src", "specs", "proofs")

# where tests of heads, devices and the like stand, and those of want of memory, of the crates that it names
OF_UNITS = "pnm_unit_tests"

# libraries with no tests of their name: those of runs are of rings, stages, lanes and callers too; those of the command
# line, and the commands that are stored, stand beside the program
OF_RUNS = ["pnm_flow_tests", "pnm_flow_cases"]
TESTED_IN = {
    "pnm_image": [OF_UNITS],
    "pnm_stages": OF_RUNS,
    "pnm_lanes": OF_RUNS,
    "pnm_serial": OF_RUNS,
    "pnm_io_loop": OF_RUNS,
    "pnm_command_line": ["pnmpipe"],
}

SIGNALS = (signal.SIGINT, signal.SIGTERM, signal.SIGHUP)


class Ended(Exception):
    """One of the signals came: what was begun is ended, and copies are removed, on the way out."""


def end_by_signals():
    """Has the first of the signals raise Ended."""

    def end(number, _):
        for other in SIGNALS:
            signal.signal(other, signal.SIG_IGN)
        raise Ended(number)

    for number in SIGNALS:
        signal.signal(number, end)


def read_lines():
    """Each crate with the words of its line: the crates that it names, of this repository and of the toolchain."""
    lines = {}
    with open(os.path.join(ROOT, "crates.txt"), encoding="utf-8") as file:
        for line in file:
            name, bar, words = line.partition("#")[0].partition(":")
            if bar:
                lines[name.split()[0]] = words.split()
    return lines


def read_crates():
    """Each crate with the crates of this repository that its line names, those that others stand on before these."""
    lines = read_lines()
    named = {name: [word for word in words if word in lines] for name, words in lines.items()}
    return {name: named[name] for name in sorted(named, key=lambda it: len(below(named, it)))}


def copied(name, folder, parts):
    """A copy of these parts of a crate."""
    source, target = os.path.join(ROOT, "crates", name), os.path.join(folder, "crates", name)
    os.makedirs(target)
    for part in parts:
        path = os.path.join(source, part)
        if os.path.isdir(path):
            shutil.copytree(path, os.path.join(target, part))
        elif os.path.isfile(path):
            shutil.copy(path, target)
    return target


def lay_out(folder, crates, parts_of):
    """A copy of these crates that rt ci takes, with the parts of each that parts_of gives."""
    # (rt ci wants crates.txt at the top of a repository, and a folder of each crate that a line names)
    os.mkdir(os.path.join(folder, ".git"))
    shutil.copy(os.path.join(ROOT, "HANDLES"), folder)
    with open(os.path.join(ROOT, "crates.txt"), encoding="utf-8") as file:
        lines = [line for line in file if line.partition(":")[0].split()[:1] in [[name] for name in crates]]
    with open(os.path.join(folder, "crates.txt"), "w", encoding="utf-8") as file:
        file.writelines(lines)
    for name in crates:
        copied(name, folder, parts_of(name))


def below(crates, name):
    """All crates that this one stands on."""
    found = set(crates[name])
    return found.union(*(below(crates, it) for it in found))


def above(crates, names):
    """All crates that stand on one of these, lowest first."""
    return [it for it in crates if it not in names and below(crates, it) & set(names)]


def tests_of(crates, name):
    """Where a crate's tests stand: as TESTED_IN says; in those of its name, with the tests of want of memory that name
    it; else in those that name it; or in itself, as the program's. `NAME_cases` is a program, whose output is stored
    beside it."""
    if name in TESTED_IN:
        return TESTED_IN[name]
    own = [it for it in (f"{name}_tests", f"{name}_cases") if it in crates]
    if own:
        return own + [it for it in (OF_UNITS,) if it not in own and name in crates.get(it, ())]
    named = [it for it in crates if it.endswith(("_tests", "_cases")) and name in crates[it]]
    return named or [name]
