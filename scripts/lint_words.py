"""Where the words of contracts stand: those that a contract of an exported function reaches in crates/NAME/specs, and
the others, which stand between functions inside and in proofs, in its specs/Internal, so that who reads a promise meets
no other. `lint.py` calls it."""

import glob
import os
import re

from definitions_of import CLAUSE, WORD, Specs, contract, imported, read_lines

INTERNAL = "Internal"
# files of specs that PROMISES.md names for functions that no other crate calls
NAMED = {("pnm_io_loop", "IoLoop")}
# what no contract names by itself: the arrow of `do`
UNNAMED = {">>="}


def exported(lib):
    """The names that a crate's root file hands on, by their module: None stands for all of a module's."""
    found = {name: None for name in re.findall(r"^pub mod (\w+);", lib, re.M)}
    for module, names in re.findall(r"^pub use (\w+)::\{?([^;}]*)\}?;", lib, re.M):
        found[module] = {name.split("::")[-1] for name in re.findall(r"[\w:]+", names)}
    # the program's functions are called by the system, and the library's by C
    return found or {name: None for name in re.findall(r"^mod (\w+);", lib, re.M)}


def owner_of(line):
    """The type of an `impl`, or the trait of a `trait`."""
    without = re.sub(r"<(?:[^<>]|<[^<>]*>)*>", "", line.split(" for ")[-1])
    return re.findall(r"\w+", re.sub(r"^(pub )?(impl|trait)\b", "", without))[0]


def known_items(lines, names):
    """The lines of a file where its exported functions and `ghost` members begin, with the type or trait that these are
    of, and the name of the function, or none."""
    inside = ""
    for at, line in enumerate(lines):
        if re.match(r"(pub )?(impl|trait)\b", line):
            inside = line
        inside = "" if line == "}" else inside
        owner = owner_of(inside) if inside else ""
        if inside and names is not None and owner not in names:
            continue
        function = re.match(r" *(pub )?(?:const )?(?:extern \"C\" )?fn (\w+)", line)
        ghost = re.match(r" +ghost (\w+)(?: =|:)", line)
        if function and (inside or names is None or function[2] in names):
            if " for " in inside or "trait " in inside or function[1]:
                yield at, owner, function[2]
        elif ghost and inside and ghost[1] != "invariant":
            yield at, owner, ""


def promises(lines, names):
    """The text of each clause and each `ghost` member of a file by which its exported items are known."""
    for at, _, function in known_items(lines, names):
        end = at
        if function:
            head = contract(lines, at)
            first = next((number for number, it in enumerate(head) if CLAUSE.match(it)), len(head))
            yield "\n".join(head[first:])
            continue
        while "\n".join(lines[at : end + 1]).count("{") > "\n".join(lines[at : end + 1]).count("}"):
            end += 1
        yield "\n".join(lines[at : end + 1])


def promised(root, crate, specs):
    """The definitions that the promises of a crate name."""
    src = os.path.join(root, "crates", crate, "src")
    modules = exported("\n".join(read_lines(os.path.join(src, "lib.rt"))))
    for path in glob.glob(os.path.join(src, "**/*.rt"), recursive=True):
        module = os.path.relpath(path, src)[: -len(".rt")].split(os.sep)[0]
        if module in modules:
            lines = read_lines(path)
            for text in promises(lines, modules[module]):
                words = WORD.findall(re.sub(r"//.*", "", text))
                yield from specs.named_by(words, crate, "", imported(lines))


def faults(root):
    """Each word that stands in the wrong folder."""
    specs = Specs(root)
    libraries = sorted(glob.glob(os.path.join(root, "crates/*/src/lib.rt")))
    starts = [name for path in libraries for name in promised(root, path.split(os.sep)[-3], specs)]
    reached = specs.reached(starts)
    for name in sorted(specs.bodies):
        is_apart = name.file.startswith(INTERNAL + ".")
        if name[:2] in NAMED or name.name in UNNAMED or (name in reached) != is_apart:
            continue
        told = "a promise reaches it" if is_apart else f"no promise reaches it, so it belongs in {INTERNAL}"
        yield f"crates/{name.crate}/specs/{name.file.replace('.', '/')}.antt: {name.name}: {told}"
