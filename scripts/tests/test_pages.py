#!/usr/bin/env python3
"""Pastes each example of the manual pages into a shell, as it shows at 80 columns, and the README's first one, whose
result stands below it.

An example is a block of text as it is, `.Bd -literal`. The page is made by mandoc, or by groff where that isn't there.
A pasted one has to end with its status below, and to leave what is named beside it; those that no row names fail.
Quotes in examples are \\(aq, since `'` shows as a typographic one in PDF.
"""

import glob
import os
import re
import shutil
import sys
import unittest

sys.dont_write_bytecode = True

# pylint: disable=wrong-import-position
from support import HELPERS, ROOT, Program, parser_of, read, run, run_tests

# where an example begins, its status, and the beginning of what each of its files holds
EXAMPLES = [
    ("pnmpipe 'pamcut -left 99", 0, {"out.pgm": b"P5\n4 4\n255\n\xff"}),
    ("cat *.pgm |", 0, {"all.out": b"P5\n"}),
    ("pnmpipe 'pamchannel 1", 0, {"green.pgm": b"P5\n2 1\n255\n\x02\x05"}),
    ("left=8\n", 0, {"out.pgm": b"P5\n4 193\n255\n"}),
    (".DELETE_ON_ERROR:\n", 2, {"page.out": b"P5\n201 4\n", "cut.out": None}),
    ("pnmpipe 'pamcut -left 8 | pamflip -xy' < /dev/null", 1, {}),
    ("pamcut < plain.ppm", 0, {"raw.ppm": b"P6\n1 1\n9\n\x01\x02\x03"}),
    ("SystemCallFilter=", None, {}),
    ("pnmpipe-files 'pamcut -left 8", 0, {"out/scan.pgm": b"P5\n193 4\n"}),
    ("pnmpipe pnminvert < pages.pgm", 0, {"page-000001.pgm": b"P5\n201 4\n"}),
    ("mkdir -p out\n", 0, {"out/page.pgm": b"P5\n193 4\n"}),
    ("pnmpipe-explain 'pnminvert | pamcut -lft 8'", 1, {}),
    ("for file in *.pgm; do\n", 0, {}),
    ("pnmpipe-translate 'pamcut -l 8 a.pgm", 0 if shutil.which("shfmt") else 1, {}),
    ("pnmpipe 'pamcut -left 8 | pamflip -xy' > b.pgm < a.pgm", 0, {"b.pgm": b"P5\n4 193\n"}),
]


def shown(page):
    """The page's lines, at 80 columns, without overstriking."""
    words = ["mandoc", "-Tascii", "-Owidth=80"] if shutil.which("mandoc") else ["groff", "-mdoc", "-Tascii", "-P-c"]
    made = run([*words, page])
    return [re.sub(".\b", "", line) for line in made.stdout.decode().expandtabs().split("\n")]


def sources(page):
    """The blocks of a page's source."""
    with open(page, encoding="utf-8") as file:
        return re.findall(r"^\.Bd -literal.*\n((?:.*\n)*?)\.Ed$", file.read(), re.M)


def pasted(lines, source):
    """A block's lines as they show: those from its first line on, as far as they are indented as deep as that."""
    first = source.replace("\\(aq", "'").replace("\\e", "\\").replace("\\&", "").split("\n")[0]
    start = next((at for at, line in enumerate(lines) if line.strip() and first.startswith(line.strip())), None)
    if start is None:
        return None
    depth = len(lines[start]) - len(lines[start].lstrip())
    block = []
    for line in lines[start:]:
        if line.strip() and len(line) - len(line.lstrip()) < depth or not line.strip():
            break
        block.append(line[depth:])
    return "\n".join(block) + "\n"


FORMATS = shutil.which("mandoc") or shutil.which("groff")


@unittest.skipUnless(FORMATS, "neither mandoc nor groff is installed")
class Width(unittest.TestCase):
    def test_pages_fit(self):
        """No line of a page, as it shows, is wider than 80 columns."""
        for page in sorted(glob.glob(f"{ROOT}/man/*.[13]")):
            for line in shown(page):
                self.assertLessEqual(len(line), 80, f"{os.path.basename(page)}: {line}")


@unittest.skipUnless(FORMATS, "neither mandoc nor groff is installed")
class Examples(Program):
    def setUp(self):
        super().setUp()
        for name in ("pnmpipe-explain", "pnmpipe-files", "pnmpipe-split", "pnmpipe-translate"):
            self.write(f"bin/{name}", f'#!/bin/sh\nexec {HELPERS}/{name} "$@"\n'.encode(), 0o755)
        os.symlink(self.PROGRAM, self.path("bin/pnmpipe"))
        # Netpbm's own, which are no part of what is tried
        self.write("bin/pamtopnm", b"#!/bin/sh\nsed -n 's/WIDTH 2/P5\\n2 1\\n255/p' > h; cat h; printf '\\2\\5'", 0o755)
        self.write("bin/pamcut", b"#!/bin/sh\nexec pnmpipe pamcut\n", 0o755)

    def fill(self, folder):
        page = b"P5\n201 4\n255\n" + bytes(804)
        for name in ("page.pgm", "pages.pgm", "a.pgm", "scans/scan.pgm"):
            self.write(f"{folder}/{name}", page)
        self.write(f"{folder}/in.ppm", b"P6\n2 1\n255\n\1\2\3\4\5\6")
        self.write(f"{folder}/plain.ppm", b"P3 1 1 9 1 2 3\n")

    def paste(self, text, folder, files):
        self.fill(folder)
        words = ["sh", "-c", text]
        if text.startswith(".DELETE"):
            self.write(f"{folder}/makefile", text.encode())
            self.write(f"{folder}/cut.pgm", b"P5\n9 9\n255\n")
            words = ["make", "-k", *files]
        path = f"{self.path('bin')}:{os.environ['PATH']}"
        environment = {**os.environ, "PATH": path, "PNMPIPE": self.PROGRAM}
        return run(words, cwd=self.path(folder), env=environment, timeout=60)

    def test_pasted(self):
        rows = {row[0] for row in EXAMPLES}
        for page in sorted(glob.glob(f"{ROOT}/man/*.1")):
            lines = shown(page)
            for number, source in enumerate(sources(page)):
                text = pasted(lines, source)
                self.assertIsNotNone(text, f"{page} doesn't show the line of {source}")
                found = [row for row in EXAMPLES if text.startswith(row[0])]
                self.assertEqual(len(found), 1, f"{page}: no row, or several, for {text}")
                start, status, files = found[0]
                rows.discard(start)
                if status is None:
                    continue
                folder = f"{os.path.basename(page)}-{number}"
                done = self.paste(text, folder, files)
                self.assertEqual(done.returncode, status, f"{text}\n{done.stderr.decode()}")
                for name, beginning in files.items():
                    self.assertEqual(os.path.exists(self.path(f"{folder}/{name}")), beginning is not None, text)
                    if beginning is not None:
                        self.assertTrue(self.read(f"{folder}/{name}").startswith(beginning), text)
        self.assertEqual(rows, set(), "examples that no page has")

    def test_readme(self):
        text, printed = re.search(r"^    \$ (.*)\n((?:    .*\n)+)", read("README.md"), re.M).groups()
        done = self.paste(text, "readme", {})
        self.assertEqual((done.returncode, done.stderr), (0, b""))
        self.assertEqual(done.stdout.decode(), re.sub("^    ", "", printed, flags=re.M))

    def test_quotes(self):
        for page in glob.glob(f"{ROOT}/man/*.1"):
            with open(page, encoding="utf-8") as file:
                displayed = re.findall(r"^\.Dl (.*)", file.read(), re.M)
            for text in sources(page) + displayed:
                self.assertNotRegex(text, "['`^~]", f"{page}: it shows as a typographic one in PDF")

    def test_displayed_lines_fit(self):
        """A line that isn't in a block may be broken anywhere: none is so long."""
        for page in glob.glob(f"{ROOT}/man/*.1"):
            with open(page, encoding="utf-8") as file:
                for text in re.findall(r"^\.Dl (.*)", file.read(), re.M):
                    self.assertLess(len(text), 60, f"{page}: {text}")


if __name__ == "__main__":
    run_tests(parser_of(__doc__))
