#!/usr/bin/env python3
"""Makes libpnmpipe of the static library of the crate pnm_c: `library.py ARCHIVE FOLDER` leaves libpnmpipe.a,
libpnmpipe.so.1 and pnmpipe.h in the folder.

The archive has one object: the proved functions, what they need of the toolchain's C code, and library/pnmpipe.c before
them. Its global names are those of pnmpipe.h alone, as in the shared library. A C compiler and binutils make both; CC
names the compiler, and CPPFLAGS, CFLAGS and LDFLAGS are added to its calls, as by make.
"""

import os
import shlex
import shutil
import subprocess
import sys
import tempfile

from places import ROOT, read

SOURCE = os.path.join(ROOT, "library")

HEADER, ARCHIVE, SHARED = "pnmpipe.h", "libpnmpipe.a", "libpnmpipe.so.1"

# the toolchain's C code that the proved functions may call: memory, and errno
OF_TOOLCHAIN = ["liblibc_c.a", "libos_c.a"]

WARNINGS = ["-Wall", "-Wextra", "-Werror", "-pedantic"]


def compiler():
    """The C compiler, if there is one; as for make, CC names it."""
    return shutil.which(os.environ.get("CC", "cc"))


def lacks_tools():
    """Whether a program is missing that makes the library. Names those that are."""
    names = [os.environ.get("CC", "cc"), "ld", "objcopy", "ar", "strip"]
    missing = [name for name in names if not shutil.which(name)]
    if missing:
        print(f"library: not found: {', '.join(missing)}. A C compiler and binutils make the library: install them")
    return bool(missing)


def flags(*names):
    """The words of variables like CFLAGS."""
    return [word for name in names for word in shlex.split(os.environ.get(name, ""))]


def version():
    return read("VERSION").strip()


def exports():
    """The names that pnmpipe.map has."""
    with open(os.path.join(SOURCE, "pnmpipe.map"), encoding="ascii") as file:
        return [line.strip(" ;\n") for line in file if line.strip().startswith("pnmpipe_")]


def commands(archive, work, folder, toolchain):
    """What makes the library, one command after another."""
    cc, own, whole = compiler(), f"{work}/pnmpipe.o", f"{work}/libpnmpipe.o"
    build = [cc, "-std=c99", "-O2", "-fPIC", *WARNINGS, f'-DPNMPIPE_VERSION="{version()}"']
    yield [*build, *flags("CPPFLAGS", "CFLAGS"), "-c", f"{SOURCE}/pnmpipe.c", "-o", own]
    libraries = [os.path.join(toolchain, it) for it in OF_TOOLCHAIN]
    yield ["ld", "-r", "-o", whole, own, "--whole-archive", archive, "--no-whole-archive", *libraries]
    yield ["objcopy", *(f"--keep-global-symbol={name}" for name in exports()), whole]
    yield ["ar", "rcD", f"{work}/{ARCHIVE}", whole]
    link = [cc, *flags("CFLAGS", "LDFLAGS"), "-shared", "-o", f"{work}/{SHARED}", whole]
    link += ["-Wl,-soname," + SHARED, "-Wl,-z,defs,-z,relro,-z,now"]
    yield [*link, "-Wl,--gc-sections", f"-Wl,--version-script={SOURCE}/pnmpipe.map"]
    yield ["strip", "--strip-unneeded", f"{work}/{SHARED}"]


def make(archive, folder, toolchain):
    """Leaves the library and its header in the folder. Gives the status."""
    if lacks_tools():
        return 1
    os.makedirs(folder, exist_ok=True)
    with tempfile.TemporaryDirectory(dir=folder) as work:
        for words in commands(os.path.abspath(archive), work, folder, toolchain):
            status = subprocess.run(words, check=False).returncode
            if status:
                print(f"library: FAILED, status {status}: {' '.join(words)}")
                return 1
        for name in (ARCHIVE, SHARED):
            os.replace(os.path.join(work, name), os.path.join(folder, name))
    shutil.copy(os.path.join(SOURCE, HEADER), folder)
    return 0


def main():
    if len(sys.argv) != 3:
        sys.exit("library: say ARCHIVE FOLDER")
    told = subprocess.run(["rt", "doc"], stdout=subprocess.PIPE, check=True, text=True).stdout.strip()
    return make(sys.argv[1], sys.argv[2], os.path.join(os.path.dirname(told), "c"))


if __name__ == "__main__":
    sys.exit(main())
