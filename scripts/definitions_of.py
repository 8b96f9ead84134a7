#!/usr/bin/env python3
"""Counts what a reader of a function's promise has to read: `definitions_of.py pnm_flow::run`, or CRATE::TYPE::METHOD.

From the clauses of the function's contract it follows each name to its definition in crates/*/specs, or to the
`ghost` member of a trait in crates/*/src, and from there the names in that definition, over all crates. The types and
constants that the code declares, and the toolchain's own definitions, aren't counted. It tells how many definitions
there are, in how many files, and how many such members.
--names tells the definitions. The count goes by names alone: a variable that has a definition's name counts as that.
"""

import argparse
import glob
import os
import re
import sys
import typing

from places import ROOT

HEAD = re.compile(r"(?:abbrev|unfoldable)(?: pub)? (?!use\b)(\S+)|(?:pub )?(?:record|data) (\S+)")
USE = re.compile(r"(?:pub |ghost )?use Rattle\.(\w+)\.specs\.([\w.]+?)(?:\.\{([^}]*)\}|( as \w+)|);?$")
WORD = re.compile(r"[^\W\d][\w']*(?:\.[^\W\d][\w']*)*|[^\w\s(){}\[\],.;:|\"']+")
CLAUSE = re.compile(r" *(?:requires|ensures)\b")


class Name(typing.NamedTuple):
    """A definition: its crate, its file and what it is called there."""

    crate: str
    file: str
    name: str


def without_comments(lines):
    return [re.sub(r"(?:\A|\s)--.*", "", line) for line in lines]


def symbol_of(name):
    """How a name is written where it is used: an operator without its places."""
    return name.replace("◌", "")


def imported(lines):
    """What each name of a file stands for, where it comes from the specs of a crate."""
    names = {}
    for line in lines:
        found = USE.match(line.strip())
        if found and "declared" not in found[2].split("."):
            for item in (found[3] or "").split(","):
                name, _, own = item.strip().partition(" as ")
                names[symbol_of(own or name)] = Name(found[1], found[2], symbol_of(name))
    return names


class Specs:
    """All definitions of a tree, and the words that stand in each."""

    def __init__(self, root):
        self.root = root
        # by crate and file, the lines of each definition, what the file imports, and constructors
        self.bodies, self.imports, self.makers = {}, {}, {}
        for path in sorted(glob.glob(os.path.join(root, "crates/*/specs/**/*.antt"), recursive=True)):
            crate, _, *folders = os.path.relpath(path, os.path.join(root, "crates"))[: -len(".antt")].split(os.sep)
            self.read(crate, ".".join(folders), read_lines(path))

    def read(self, crate, file, lines):
        lines, name = without_comments(lines), None
        self.imports[crate, file] = imported(lines)
        for line in lines:
            found = HEAD.match(line)
            if found:
                name = Name(crate, file, symbol_of(found[1] or found[2]))
                self.bodies[name] = []
            elif re.match(r"(pub )?(use|mod|infix)", line):
                name = None
            elif name:
                made = re.match(r"  ([A-Z]\w*) :", line)
                if made and not line.startswith("  pub"):
                    self.makers[Name(crate, file, made[1])] = name
            if name:
                self.bodies[name].append(line)

    def definition(self, name):
        """The definition that a name of a file is, or hands on; None where it is no definition of specs."""
        while name not in self.bodies:
            if name in self.makers:
                return self.makers[name]
            further = self.imports.get(name[:2], {}).get(name.name)
            if further is None or further == name:
                return None
            name = further
        return name

    def named_by(self, words, crate, file, imports):
        """The definitions that these words name in a file."""
        for word in words:
            for part in dict.fromkeys((word, word.split(".")[0])):
                found = self.definition(imports.get(part) or Name(crate, file, part))
                if found:
                    yield found

    def reached(self, starts):
        """All definitions that are reached from some."""
        found, left = set(), list(starts)
        while left:
            name = left.pop()
            if name in found:
                continue
            found.add(name)
            if name in self.bodies:
                words = WORD.findall("\n".join(self.bodies[name]))
                left += self.named_by(words, name.crate, name.file, self.imports[name[:2]])
        return found


def read_lines(path):
    with open(path, encoding="utf-8") as file:
        return file.read().split("\n")


def contract(lines, at):
    """The lines of the function that begins here, through the last of its clauses."""
    indent = re.match(" *", lines[at])[0]
    for end in range(at, len(lines)):
        if lines[end] in (indent + "{", indent + "{}") or lines[end].endswith(";"):
            return lines[at : end + 1]
        if lines[end].endswith("{") and (end == at or lines[end].startswith(indent + ")")):
            return lines[at : end + 1]
    return lines[at:]


class Function:
    """A function of a crate: the file that has it, its lines through its clauses, and what these may name."""

    def __init__(self, root, path):
        crate, *owner, function = path.split("::")
        self.found = []
        for file in sorted(glob.glob(os.path.join(root, "crates", crate, "src/**/*.rt"), recursive=True)):
            lines, inside = read_lines(file), ""
            for at, line in enumerate(lines):
                if re.match(r"(pub )?(impl|trait)\b", line):
                    inside = line
                is_owned = re.search(rf"\b{owner[-1]}\b", inside) and line[:1] == " " if owner else line[:1] != " "
                if is_owned and re.match(rf" *(?:pub )?(?:const )?fn {function}\b", line):
                    self.found.append((lines, inside if owner else "", contract(lines, at)))
        if len(self.found) != 1:
            sys.exit(f"definitions_of: {path} is the name of {len(self.found)} functions")
        self.crate = crate
        self.lines, self.inside, self.head = self.found[0]

    def clauses(self):
        """The words of its clauses."""
        first = next((at for at, line in enumerate(self.head) if CLAUSE.match(line)), len(self.head))
        text = "\n".join(re.sub(r"//.*", "", line) for line in self.head[first:])
        return WORD.findall(re.sub(r"\b(?:requires|ensures)(?: \w+)? \{", "", text))

    def bounds(self):
        """The traits of each type parameter."""
        text = self.inside + "\n" + "\n".join(self.head)
        return {name: set(re.findall(r"\w+", traits)) for name, traits in re.findall(r"\b([A-Z]\w*): ([\w +]+)", text)}


def ghost_members(root):
    """The `ghost` members of each trait, with the words of each and what its file imports."""
    members = {}
    for path in sorted(glob.glob(os.path.join(root, "crates/*/src/**/*.rt"), recursive=True)):
        lines, trait = read_lines(path), None
        crate, file = os.path.relpath(path, os.path.join(root, "crates")).split(os.sep)[0], os.path.basename(path)
        imports = imported(lines)
        for line in lines:
            found = re.match(r"pub trait (\w+)", line)
            trait = found[1] if found else None if line == "}" else trait
            member = re.match(r" +ghost (\w+): \{(.*)", line)
            if trait and member:
                members[trait, member[1]] = Name(crate, file, f"{trait}.{member[1]}"), WORD.findall(member[2]), imports
    return members


def definitions_of(root, path):
    """The definitions that a function's contract reaches."""
    specs, function, members = Specs(root), Function(root, path), ghost_members(root)
    words, imports = function.clauses(), imported(function.lines)
    starts = list(specs.named_by(words, function.crate, "", imports))
    bounds, of_traits = function.bounds(), set()
    for word in words:
        owner, _, member = word.partition(".")
        for trait in bounds.get(owner, ()):
            if (trait, member) in members:
                name, more, known = members[trait, member]
                of_traits.add(name)
                starts += specs.named_by(more, name.crate, "", known)
    return specs.reached(starts) | of_traits


def main():
    parser = argparse.ArgumentParser(description=__doc__, formatter_class=argparse.RawDescriptionHelpFormatter)
    parser.add_argument("function", metavar="CRATE::FUNCTION")
    parser.add_argument("--root", default=ROOT, help="the folder that has crates")
    parser.add_argument("--names", action="store_true")
    args = parser.parse_args()
    found = definitions_of(args.root, args.function)
    of_specs = [name for name in found if not name.file.endswith(".rt")]
    if args.names:
        for name in sorted(found):
            print(*name)
    told = f"{len(of_specs)} definitions in {len({name[:2] for name in of_specs})} files of specs"
    print(f"{args.function}: {told} and {len(found) - len(of_specs)} ghost members")


if __name__ == "__main__":
    main()
