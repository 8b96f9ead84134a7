#!/usr/bin/env python3
"""Tests of what is built and packed around the program: that `make library` looks for its tools first, and takes the
flags of C that it is given; and that archives and Debian packages have what they should, are the same from call to
call, and come of an archive of the source as of a checkout. They pack the program, and a library that does nothing.
"""

import glob
import os
import re
import shutil
import subprocess
import sys
import unittest
from unittest import mock

import support  # first, since it finds the others

import library
from library import ARCHIVE, HEADER, SHARED, SOURCE
from support import GRAY, ROOT, Folder, Program, parser_of, read, run, run_tests

FLAGS = {"CPPFLAGS": "-DGIVEN", "CFLAGS": "-g -fstack-protector-strong", "LDFLAGS": "-Wl,-z,relro '-Wl,-rpath,/a b'"}


class Library(Folder):
    def test_tools_are_looked_for_first(self):
        """Before a crate is proved: the toolchain isn't even asked where it stands."""
        self.write("bin/rt", b"#!/bin/sh\n: > \"${0%/*}/called\"\nexit 1\n", 0o755)
        words = [sys.executable, f"{ROOT}/scripts/build.py", "library"]
        done = run(words, env={"PATH": self.path("bin"), "CC": "no-such-cc"})
        self.assertEqual(done.returncode, 1, done.stderr)
        for name in (b"no-such-cc", b"ld", b"objcopy", b"ar", b"strip"):
            self.assertRegex(done.stdout, rb"not found: .*\b%s\b" % name)
        self.assertFalse(os.path.exists(self.path("bin/called")))

    def test_flags(self):
        with mock.patch.dict(os.environ, FLAGS), mock.patch("library.compiler", lambda: "cc"):
            compiling, *others = library.commands("a", self.folder, self.folder, "c")
        linking = next(words for words in others if "-shared" in words)
        self.assertLess({"-DGIVEN", "-g", "-fstack-protector-strong"}, set(compiling))
        self.assertLess({"-fstack-protector-strong", "-Wl,-z,relro", "-Wl,-rpath,/a b"}, set(linking))

    @unittest.skipUnless(shutil.which("dpkg-buildflags") and library.compiler(), "dpkg-dev or a compiler is missing")
    def test_hardening_flags(self):
        """The library's own file is compiled by those without a warning."""
        told = {"DEB_BUILD_MAINT_OPTIONS": "hardening=+all"}
        for name in ("CPPFLAGS", "CFLAGS"):
            words = ["dpkg-buildflags", "--get", name]
            told[name] = subprocess.check_output(words, env={**os.environ, **told}, text=True)
        with mock.patch.dict(os.environ, told):
            compiling = next(library.commands("a", self.folder, self.folder, "c"))
        self.assertLess({"-D_FORTIFY_SOURCE=2", "-fstack-protector-strong"}, set(compiling))
        self.assertEqual(run(compiling).stderr, b"")
        self.assertTrue(os.path.exists(self.path("pnmpipe.o")))

    def test_symbols(self):
        """The Debian package's list of symbols has each function of the library."""
        listed = re.findall(r"^ (pnmpipe_\w+)@", read("debian/libpnmpipe1.symbols"), re.M)
        self.assertEqual(sorted(listed), sorted(library.exports()))


# in place of the proved functions
NOTHING = """
#include "pnmpipe.h"
uint32_t pnm_c_check(void) { return 0; }
uint32_t pnm_c_run(void) { return 0; }
uint32_t pnm_c_run_new(void) { return 0; }
"""

# what was built, and what takes long to pack
LEFT_OUT = shutil.ignore_patterns(".git", "__pycache__", "bin", "dist", "out", "proofs", "specs", "must-fail")


@unittest.skipUnless(library.compiler(), "there is no C compiler")
class Packages(Program):
    """A checkout that was built, and its archives."""

    def setUp(self):
        super().setUp()
        shutil.copytree(ROOT, self.path("checkout"), ignore=LEFT_OUT)
        self.write("checkout/LICENSE", b"Nobody may\n\ncopy it.\n")
        self.build()
        if shutil.which("git"):
            self.done(["git", "init", "-q"], "checkout")
            self.done(["git", "add", "-A"], "checkout")
            # (git's list doesn't have this)
            self.write("checkout/stray", b"")
        self.done(["make", "-s", "dist"], "checkout")
        self.archives = sorted(os.path.basename(path) for path in glob.glob(self.path("checkout/dist/*.gz")))
        for name in self.archives:
            self.done(["tar", "-xf", f"checkout/dist/{name}"])
        self.built, self.source = (name.removesuffix(".tar.gz") for name in self.archives)
        shutil.copytree(self.path("checkout/bin"), self.path(f"{self.source}/bin"))

    def done(self, words, folder="."):
        made = run(words, cwd=self.path(folder))
        self.assertEqual(made.returncode, 0, made.stderr.decode(errors="replace"))
        return made.stdout

    def build(self):
        """Leaves what `make library` would leave."""
        os.makedirs(self.path("checkout/bin"))
        shutil.copy(self.PROGRAM, self.path("checkout/bin/pnmpipe"))
        shutil.copy(os.path.join(SOURCE, HEADER), self.path("checkout/bin"))
        self.write("nothing.c", NOTHING.encode())
        words = [library.compiler(), "-O2", "-fPIC", f"-I{SOURCE}", f'-DPNMPIPE_VERSION="{library.version()}"', "-c"]
        self.done([*words, f"{SOURCE}/pnmpipe.c", "nothing.c"])
        self.done(["ar", "rcD", f"checkout/bin/{ARCHIVE}", "pnmpipe.o", "nothing.o"])
        words = [library.compiler(), "-shared", "-o", f"checkout/bin/{SHARED}", "pnmpipe.o", "nothing.o"]
        words += [f"-Wl,-soname,{SHARED}", "-Wl,-z,relro,-z,now", f"-Wl,--version-script={SOURCE}/pnmpipe.map"]
        self.done(words)

    def same_files(self, names):
        """The checkout and the archive of the source have made the same."""
        for name in names:
            made = [self.read(f"{folder}/dist/{name}") for folder in ("checkout", self.source)]
            self.assertTrue(made[0] == made[1], name)

    def test_packages(self):
        """An archive of the source makes the same archives and packages, which have all that was built, for whoever has
        another umask, too."""
        how = {"stdout": subprocess.DEVNULL, "stderr": subprocess.PIPE}
        goals = ["dist", "deb"] if shutil.which("dh") else ["dist"]
        calls = [subprocess.Popen(["make", "-s", *goals], cwd=self.path(self.source), umask=0o077, **how)]
        calls.append(subprocess.Popen(["make", "-s", *goals[1:], "built"], cwd=self.path("checkout"), **how))
        for call in calls:
            told = call.communicate()[1].decode(errors="replace")
            self.assertEqual(call.returncode, 0, told)
        self.same_files(self.archives)
        self.look_at_archive()
        if "deb" in goals:
            self.look_at_debs()
        else:
            print("test_packages: debhelper isn't installed, so no Debian package is made")

    def look_at_archive(self):
        for name in (f"lib/{ARCHIVE}", f"lib/{SHARED}", f"include/{HEADER}", "share/man/man3/pnmpipe.3", "LICENSE"):
            self.assertTrue(os.path.exists(self.path(f"{self.built}/{name}")), name)
        self.assertFalse(os.path.exists(self.path(f"{self.source}/stray")))
        self.assertEqual(run([self.path(f"{self.built}/bin/pnmpipe"), "pamcut"], GRAY).stdout, GRAY)
        self.done(["sha256sum", "-c", "--quiet", "SHA256SUMS"], self.built)
        told = self.read(f"{self.built}/lib/pkgconfig/pnmpipe.pc")
        self.assertRegex(told, rb"(?m)^prefix=\$\{pcfiledir\}/\.\./\.\.$")
        self.assertRegex(told, rb"(?m)^libdir=\$\{prefix\}/lib$")

    def look_at_debs(self):
        debs = sorted(os.path.basename(path) for path in glob.glob(self.path("checkout/dist/*.deb")))
        names = [deb.partition("_")[0] for deb in debs]
        self.assertEqual(names, ["libpnmpipe-dev", "libpnmpipe1", "pnmpipe", "python3-pnmpipe"])
        self.same_files(debs)
        for name, deb in zip(names, debs):
            self.done(["dpkg-deb", "-x", f"checkout/dist/{deb}", "root"])
            told = self.read(f"root/usr/share/doc/{name}/copyright")
            self.assertIn(b"\nLicense: as-stated\n Nobody may\n .\n copy it.\n", told)
        wanted = f"libpnmpipe1 (= {library.version()}), shfmt\n".encode()
        self.assertEqual(self.done(["dpkg-deb", "-f", f"checkout/dist/{debs[2]}", "Recommends"]), wanted)
        self.assertEqual(run([self.path("root/usr/bin/pnmpipe"), "pamcut"], GRAY).stdout, GRAY)
        if shutil.which("lintian"):
            words = ["lintian", "--allow-root", "--fail-on", "error,warning"]
            told = run([*words, *(self.path(f"checkout/dist/{deb}") for deb in debs)])
            self.assertEqual(told.returncode, 0, told.stdout.decode())


if __name__ == "__main__":
    run_tests(parser_of(__doc__))
