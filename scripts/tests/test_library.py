#!/usr/bin/env python3
"""Tests of the C library: that its header says what the sources do, and, where there is a C compiler, what the library
does that is made of the static library of pnm_c.

The header, its map and the names of its codes are compared with the sources of pnm_memory and pnm_c, field by field.
The library is linked, and exports the functions of its header alone. Each stored command of crates/pnmpipe/commands
that names a run is run through it, in memory and between descriptors, and has to be answered as the program answers it.
Streams take little memory and time, and are answered at once (library_streams.py).
Rows of all sizes go through each tool (test_rows.py). Each allocation is refused in turn; threads make calls at once,
on a small stack; a C++ file and the examples are built; valgrind, where it is there, finds nothing; and the Python
module passes its tests, where pytest is there. mypy judges its types and those of a caller. `--archive` names the
static library, and `--program` a program beside which random cases are tried.
"""

import argparse
import os
import re
import shutil
import subprocess
import sys
import tempfile
import zipfile

sys.dont_write_bytecode = True

import support  # first, since it finds the others

import library
import library_streams
import refused
import test_commands
import wheel
from library import ROOT, SHARED, SOURCE, WARNINGS
from places import read

TESTS = os.path.join(SOURCE, "tests")
EXAMPLES = os.path.join(SOURCE, "examples")

# a library whose names are those of the header
ARCHIVE = os.path.join(ROOT, "crates/pnm_c/out/libpnm_c.a")
PROGRAM = os.path.join(ROOT, "bin/pnmpipe")

SECONDS = 120

# what stands around the README's line
AROUND = b"""#include <pnmpipe.h>
#include <stdio.h>
int main(void) {
    static char image[999], room[999];
    const char chain[] = "pamflip -r90";
    const size_t length = sizeof chain - 1, room_size = sizeof room, size = fread(image, 1, sizeof image, stdin);
    struct pnmpipe_answer answer;
    %s
    return answer.code || fwrite(room, 1, answer.size, stdout) != answer.size;
}
"""

# chains that valgrind watches, and how each ends
WATCHED = [
    (0, "pamflip -r90 | pamdepth 18 | pnmtile 5 5"),
    (0, "pamchannel 0 -tupletype T | pamenlarge 3"),
    (1, "pnminvert | pamcut -left 9"),
]

# what a thread's stack has, as the manual page says
STACK = 128 << 10

# columns and rows of a page
SIDE = 300

# random cases that are tried beside the program
CASES = 1000

# the type of a field or parameter in C
TYPES = {
    "u32": "uint32_t",
    "u64": "uint64_t",
    "usize": "size_t",
    "i32": "int32_t",
    "*mut u8": "uint8_t *",
    "&mut usize": "size_t *",
    "&mut Answer": "struct pnmpipe_answer *",
    "&mut Bytes": "struct pnmpipe_bytes *",
    "&[u8]": "const uint8_t *",
    "&mut [u8]": "uint8_t *",
}
# and as the header has those of the functions, which take any pointer
OF_HEADER = {"const char *": "const uint8_t *", "const void *": "const uint8_t *", "void *": "uint8_t *"}


def without_comments(text):
    return re.sub(r"/\*.*?\*/", " ", text, flags=re.S)


# ---- the header


def faults_of_forms(header):
    forms = re.findall(r"PNMPIPE_(\w+) = (\d+)", re.search(r"enum pnmpipe_form \{(.*?)\}", header, re.S)[1])
    source = read("crates/pnm_memory/src/run.rt")
    if forms != [(name.upper(), number) for number, name in re.findall(r"(\d+) => Some\(Form::(\w+)\)", source)]:
        yield f"the header has the forms {forms}"


def fields_of_header(header, name):
    body = re.search(rf"struct {name} \{{(.*?)\}}", header, re.S)[1]
    return [(field, kind.strip()) for kind, field in re.findall(r"(\w[\w ]*?[ *]+)(\w+);", body)]


def fields_of_source(path, name):
    body = re.search(rf"#\[repr\(C\)\]\n(?:#\[.*\]\n)*pub struct {name} \{{(.*?)\n\}}", read(path), re.S)[1]
    return [(field, TYPES[kind]) for field, kind in re.findall(r"pub (\w+): ([^,]+),", body)]


def parameters_of_source(text):
    """The parameters of an export as C has them: an allocator takes no place, and a slice has a length beside it."""
    found = []
    for name, kind in re.findall(r"(\w+): (&mut \[u8\]|&\[u8\]|&mut \w+|\w+)", text):
        if kind == "Global":
            continue
        found.append((name, TYPES[kind]))
        if kind.endswith("[u8]"):
            found.append((f"{name}_length", "size_t"))
    return found


def parameters_of_c(text):
    found = []
    for part in " ".join(text.split()).split(","):
        kind, name = re.fullmatch(r"(.*?[ *])(\w+)", part.strip()).groups()
        kind = kind.strip()
        found.append((name, OF_HEADER.get(kind, kind)))
    return found


def functions_of_c(text, prefix):
    found = re.findall(rf"uint32_t {prefix}(\w+)\(([^;{{]*?)\);", text, re.S)
    return {name: parameters_of_c(words) for name, words in found if words.strip() != "void" and name != "code_name"}


def faults_of_header():
    header, code = (without_comments(read(f"library/pnmpipe.{it}")) for it in "hc")
    yield from faults_of_forms(header)
    structs = [("pnmpipe_answer", "crates/pnm_memory/src/answer.rt", "Answer")]
    structs.append(("pnmpipe_bytes", "crates/pnm_c/src/bytes.rt", "Bytes"))
    for name, path, own in structs:
        if fields_of_header(header, name) != fields_of_source(path, own):
            yield f"{name} isn't {own}: {fields_of_header(header, name)}, {fields_of_source(path, own)}"
    exports = read("crates/pnm_c/src/exports.rt")
    found = re.findall(r'#\[unsafe\(no_mangle\)\]\npub extern "C" fn pnm_c_(\w+)\((.*?)\) -> u32', exports, re.S)
    wanted = {name: parameters_of_source(words) for name, words in found}
    if len(wanted) != exports.count("no_mangle") or not wanted:
        yield "an export isn't read"
    given = functions_of_c(header, "pnmpipe_")
    if functions_of_c(code, "pnm_c_") != wanted:
        yield f"pnmpipe.c has other functions or parameters: {functions_of_c(code, 'pnm_c_')}, {wanted}"
    # (descriptors are pnmpipe.c's own matter, and where an image ends is told to it alone)
    if given.pop("run_fd", None) is None or wanted.pop("image_end", None) is None or given != wanted:
        yield f"the header has other functions or parameters: {given}, {wanted}"
    declared = sorted(set(re.findall(r"(pnmpipe_\w+)\(", header)))
    if declared != sorted(library.exports()):
        yield f"pnmpipe.map has {library.exports()}, the header {declared}"
    if re.search(r"PNMPIPE_ABI (\d+)", header)[1] != SHARED.rpartition(".")[2]:
        yield "PNMPIPE_ABI isn't the number of the shared library"


# ---- the library


class Built:
    """The library in a folder, and programs that are linked with it."""

    def __init__(self, folder):
        self.folder = folder
        os.symlink(SHARED, os.path.join(folder, "libpnmpipe.so"))

    def write(self, name, data):
        path = os.path.join(self.folder, name)
        with open(path, "wb") as file:
            file.write(data)
        return path

    def compile(self, source, *flags, language="c99", cc=None):
        """A program over the shared library, from a file of C or C++."""
        made = os.path.join(self.folder, os.path.splitext(os.path.basename(source))[0])
        words = [cc or library.compiler(), f"-std={language}", "-O1", "-g", *WARNINGS, "-I", self.folder]
        words += ["-o", made, source, "-L", self.folder, "-lpnmpipe", f"-Wl,-rpath,{self.folder}", *flags]
        subprocess.run(words, check=True)
        return made


def ran(words, given=b"", **how):
    return subprocess.run(words, input=given, capture_output=True, timeout=SECONDS, check=False, **how)


def ended_well(what, words, given=b"", **how):
    """Each line that a run told of a fault."""
    made = ran(words, given, **how)
    if made.returncode:
        told = (made.stdout + made.stderr).decode(errors="replace").strip()
        yield f"{what}: status {made.returncode}: {told[-2000:]}"


def exported(folder):
    """Names of the shared library that others see, and whether it has data that is written."""
    told = ran(["nm", "-D", "--defined-only", os.path.join(folder, SHARED)]).stdout.decode()
    names = [line.split()[-1].partition("@")[0] for line in told.splitlines() if " A " not in line]
    if sorted(names) != sorted(library.exports()):
        yield f"{SHARED} exports {names}"
    told = ran(["nm", "-g", "--defined-only", os.path.join(folder, library.ARCHIVE)]).stdout.decode()
    names = [line.split()[-1] for line in told.splitlines() if len(line.split()) == 3]
    if sorted(names) != sorted(library.exports()):
        yield f"{library.ARCHIVE} exports {names}"
    writable = [line for line in told.splitlines() if re.search(r" [BbDd] ", line)]
    told = ran(["readelf", "-d", os.path.join(folder, SHARED)]).stdout.decode()
    if f"soname: [{SHARED}]" not in told:
        yield f"{SHARED} has another soname"
    if writable:
        yield f"data that can be written: {writable}"


def runs_of(stored):
    """The stored commands whose words name a run, as the driver takes them; lanes and rings mean nothing to it."""
    for command in stored:
        words, form = [os.fsdecode(word) for word in command.words[1:]], "raw"
        while words and re.fullmatch(r"--(ring|lanes|plain)", words[0]):
            form = "plain" if words[0] == "--plain" else form
            del words[: 1 if words[0] == "--plain" else 2]
        is_run = len(words) == 1 and not words[0].startswith("-") and b"usage" not in command.printed
        if is_run and command.printed_room is None:
            yield command, form, words[0]


def faults_of_commands(driver):
    stored = test_commands.stored_commands()
    count = 0
    for command, form, chain in runs_of(stored):
        for how in ("fd", "memory"):
            # (in memory nothing limits the results)
            if how == "memory" and command.room is not None:
                continue
            count += 1
            run = command._replace(words=[driver.encode(), how.encode(), form.encode(), os.fsencode(chain)])
            for found in test_commands.differences(run, test_commands.answered(driver, run)):
                yield f"{command.place}, {how}: {chain}: {found}"
    print(f"test_library: {count} runs of stored commands, of {len(stored)}")
    # those that ask for help or the version, or have wrong words, aren't runs
    if count < len(stored) / 2:
        yield f"only {count} runs of {len(stored)} commands"


def faults_of_memory(built):
    """Refused allocations, of chains that keep rows, columns, whole images, names and plain rows."""
    program = built.compile(f"{TESTS}/refused.c", language="gnu99")
    for chain in ("pamflip -lr", "pamflip -xy", "pamflip -r180", "pnmtile 3 3", "pamcut -left 1", "pamenlarge 2"):
        yield from ended_well(f"refused: {chain}", [program, "raw", chain], refused.STREAM)
    chain = "pamchannel 0 0 -tupletype T | pamflip -tb | pnminvert | pamdepth 18"
    yield from ended_well(f"refused: {chain}", [program, "raw", chain], refused.STREAM)
    yield from ended_well("refused, plain", [program, "plain", "pnminvert"], refused.gray(300, [1, 2], [3, 300]))
    yield from ended_well("refused, cut", [program, "raw", "pamflip -tb"], refused.STREAM[:-1])


def faults_of_heap(built):
    """Calls over a page, whose memory the heap keeps from one to the next."""
    program = built.compile(f"{TESTS}/heap.c")
    page = refused.gray(255, *[[(x * y) % 256 for x in range(SIDE)] for y in range(SIDE)])
    for chain in ("pnminvert", "pamflip -r90", "pamcut -left 8 | pamflip -lr | pnminvert"):
        yield from ended_well(f"the heap: {chain}", [program, chain], page)


def faults_of_cases(program, shared):
    script = os.path.join(ROOT, "scripts/soak_library.py")
    words = ["--cases", str(CASES), "--program", program, "--library", shared]
    yield from ended_well("random cases", [sys.executable, script, *words])


def faults_of_rows(shared):
    script = os.path.join(ROOT, "scripts/tests/test_rows.py")
    yield from ended_well("rows of all sizes", [sys.executable, script, "--library", shared])


def faults_of_threads(built):
    program = built.compile(f"{TESTS}/threads.c", "-pthread")
    many = " | ".join(["pamflip -r90"] * refused.MOST_TOOLS)
    wide = refused.gray(255, *[[(x * y) % 256 for x in range(80)] for y in range(60)])
    for number in (1, 4, 16):
        for chain in ("pamflip -r90 | pnminvert | pamcut -left 1", many):
            words = [program, str(STACK), str(number), str(200 // number), "raw", chain]
            yield from ended_well(f"{number} threads: {chain}", words, refused.STREAM + wide)
        words = [program, str(STACK), str(number), "20", "plain", "pamenlarge 2"]
        yield from ended_well(f"{number} threads, plain", words, wide)


def faults_of_valgrind(built, driver):
    if not shutil.which("valgrind"):
        print("test_library: valgrind isn't installed, so no memory is watched")
        return
    watched = ["valgrind", "-q", "--error-exitcode=9", "--leak-check=full", "--show-leak-kinds=all"]
    for how in ("memory", "fd"):
        for status, chain in WATCHED:
            made = ran([*watched, driver, how, "raw", chain], refused.STREAM)
            if made.returncode != status:
                told = made.stderr.decode(errors="replace")
                yield f"valgrind: {how} {chain}: status {made.returncode}: {told[-2000:]}"
    yield from ended_well("valgrind", [*watched, os.path.join(built.folder, "nulls"), library.version()])


def written_by(what, words, given, wanted, **how):
    made = ran(words, given, **how)
    if (made.returncode, made.stdout) != (0, wanted):
        told, due = made.stdout[:500], wanted[:500]
        yield f"{what}: status {made.returncode}, {told!r}, wanted {due!r}; {made.stderr!r}"


def example_of_page():
    """The program of the manual page, and what it prints, each a literal block."""
    blocks = re.findall(r"\.Bd -literal -offset indent\n(.*?)\.Ed\n", read("man/pnmpipe.3"), re.S)
    return [block.replace(r"\e", "\\") for block in blocks]


def faults_of_examples(built):
    """The examples that users copy, and that of the page."""
    # (a system's header is found by its name)
    flags = ["-D_POSIX_C_SOURCE=200809L"]
    invert, frontend, chained = (
        built.compile(f"{EXAMPLES}/{name}.c", *flags) for name in ("invert", "frontend", "filter")
    )
    image, inverted = refused.gray(9, [1, 2], [3, 4]), refused.gray(9, [8, 7], [6, 5])
    turned = refused.gray(9, [2, 4], [1, 3])
    yield from written_by("invert", [invert], image, inverted)
    yield from written_by("frontend", [frontend, "pamflip -r90"], image, turned)
    if ran([frontend, "pamcut -left 2"], image).returncode != 1:
        yield "frontend: a fault isn't told"
    job, words = {"env": {**os.environ, "CHAIN": "pamflip -r90"}}, [chained, "7", "user", "title", "1", ""]
    yield from written_by("filter", words, image, turned, **job)
    pages = built.write("pages.pgm", image + image)
    yield from written_by("filter, of a file", [*words, pages], b"", turned + turned, **job)
    program, printed = example_of_page()
    example = built.compile(built.write("example.c", program.encode()))
    yield from written_by("the page's example", [example], b"", printed.encode())
    call = re.search(r"^ +(pnmpipe_run\(.*\);)$", read("README.md"), re.M)[1]
    line = built.compile(built.write("line.c", AROUND % call.encode()))
    yield from written_by("the README's line", [line], image, turned)


def faults_of_types():
    """What mypy says of the Python module and of a caller of it."""
    if not shutil.which("mypy"):
        print("test_library: mypy isn't installed, so the types of the Python module aren't judged")
        return
    with tempfile.TemporaryDirectory() as folder:
        words = ["mypy", "--strict", "--ignore-missing-imports", "--cache-dir", folder, "pnmpipe", f"{TESTS}/caller.py"]
        yield from ended_well("types", words, cwd=os.path.join(SOURCE, "python"))


def faults_of_module(folder):
    """The tests of the Python module, by a Python that has pytest, and of the module in a wheel."""
    pythons = [it for it in (sys.executable, "/usr/bin/python3") if os.path.exists(it)]
    python = next((it for it in pythons if ran([it, "-c", "import pytest"]).returncode == 0), None)
    if python is None:
        print("test_library: pytest isn't installed, so the Python module isn't looked at")
        return
    shared = os.path.join(folder, SHARED)
    with zipfile.ZipFile(wheel.make(shared, folder)) as made:
        made.extractall(os.path.join(folder, "wheel"))
    modules = [os.path.join(SOURCE, "python"), os.path.join(folder, "wheel")]
    # (a wheel has its own library, and what is said of it)
    for module, of_system, has_metadata in zip(modules, (shared, ""), ("", "yes")):
        own = {"PYTHONPATH": module, "PNMPIPE_LIBRARY": of_system, "PNMPIPE_METADATA": has_metadata}
        own["PYTHONDONTWRITEBYTECODE"] = "1"
        words = [python, "-m", "pytest", "-q", "-p", "no:cacheprovider", f"{TESTS}/test_pnmpipe.py"]
        yield from ended_well("the Python module", words, env={**os.environ, **own})


def faults_of_library(folder, program):
    built = Built(folder)
    yield from exported(folder)
    driver = built.compile(f"{TESTS}/command.c")
    yield from ended_well("nulls", [built.compile(f"{TESTS}/nulls.c"), library.version()])
    yield from ended_well("interrupted", [built.compile(f"{TESTS}/interrupted.c", language="gnu99")])
    if shutil.which("c++"):
        yield from ended_well("plus", [built.compile(f"{TESTS}/plus.cpp", language="c++11", cc="c++")])
    header = ["-x", "c", "-std=c89", "-fsyntax-only", *WARNINGS, os.path.join(folder, library.HEADER)]
    yield from ended_well("the header as C89", [library.compiler(), *header])
    yield from faults_of_examples(built)
    yield from faults_of_commands(driver)
    yield from faults_of_memory(built)
    yield from library_streams.faults_of_streams(driver)
    yield from faults_of_heap(built)
    if os.path.exists(program):
        yield from faults_of_cases(program, os.path.join(folder, SHARED))
    yield from faults_of_rows(os.path.join(folder, SHARED))
    yield from faults_of_threads(built)
    yield from faults_of_valgrind(built, driver)
    yield from faults_of_module(folder)


def main():
    parser = argparse.ArgumentParser(description=__doc__.split("\n")[0])
    parser.add_argument("--archive", default=ARCHIVE)
    parser.add_argument("--program", default=PROGRAM)
    parser.add_argument("--header", action="store_true", help="look at the header alone")
    words = parser.parse_args()
    archive, found = words.archive, [*faults_of_header(), *faults_of_types()]
    if words.header:
        pass
    elif not library.compiler():
        print("test_library: there is no C compiler, so the header alone is looked at")
    elif not os.path.exists(archive):
        print(f"test_library: there is no {archive}, so the header alone is looked at")
    else:
        told = subprocess.run(["rt", "doc"], stdout=subprocess.PIPE, check=True, text=True).stdout.strip()
        with tempfile.TemporaryDirectory() as folder:
            if library.make(archive, folder, os.path.join(os.path.dirname(told), "c")):
                found.append("the library can't be made")
            else:
                found += faults_of_library(folder, words.program)
    for fault in found:
        print(f"test_library: {fault}")
    print(f"test_library: {len(found)} faults")
    return 1 if found else 0


if __name__ == "__main__":
    sys.exit(main())
