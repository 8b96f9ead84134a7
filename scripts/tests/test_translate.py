#!/usr/bin/env python3
"""Tests of pnmpipe-translate: pipelines and what becomes of them, and scripts at random that are run before and after.

The scripts at random (--scripts, from --seed on) are read by `sh -n`, and have to give the same bytes and statuses when
they are translated. Netpbm's tools run the ones before where they are installed, else the stand-ins that call pnmpipe.
"""

import os
import random
import re
import shlex
import shutil
import sys

sys.dont_write_bytecode = True

# pylint: disable=wrong-import-position
from support import GRAY, HELPERS, SHIMS, Folder, Program, parser_of, run, run_tests, wants

import netpbm_words
import translation
from random_scripts import random_call, random_script
from tool_examples import STAGES

COUNT, SEED = 24, 0

# how many calls of each tool by random words, of which more than so many are taken
CALLS, LEAST = 60, 4

# pipelines, and what they become
TRANSLATED = [
    ("pamcut -l 8 in.pgm | pnminvert > out", "pnmpipe 'pamcut -left 8 | pnminvert' > out < in.pgm"),
    ("pamflip -r90 a", "pnmpipe 'pamflip -r90' < a"),
    ("pamflip --r270 | pamflip -r180", "pnmpipe 'pamflip -r270 | pamflip -r180'"),
    ("pnmcut 1 2 0 -3 'a b'", "pnmpipe 'pamcut -left 1 -top 2 -right -1 -bottom -4' < 'a b'"),
    ("pamcut -cropl 5 --cropright=9", "pnmpipe 'pamcut -left 5 -right -10'"),
    ("pnmenlarge -scale 3 - | cat", "pnmpipe 'pamenlarge 3' | cat"),
    ("pamenlarge -xs 3 -ys=2 f", "pnmpipe 'pamenlarge -xscale 3 -yscale 2' < f"),
    ("pamflip -xform=leftright,transpose", "pnmpipe 'pamflip -lr | pamflip -xy'"),
    ("pnmflip -tr -cw f", "pnmpipe 'pamflip -xy | pamflip -r270' < f"),
    ("pamchannel -infile='a b' -tuple X 0 1", "pnmpipe 'pamchannel -tupletype=X 0 1' < 'a b'"),
    ("pnmcut 0 0 12000000 -16777215", "pnmpipe 'pamcut -left 0 -top 0 -width 12000000 -bottom -16777216'"),
    ("pnmtile 7 8 f -quiet 2>/dev/null", "pnmpipe 'pnmtile 7 8' 2>/dev/null < f"),
    ("pamdepth 9 f | pnmtile -plain 3 3", "pnmpipe --plain 'pamdepth 9 | pnmtile 3 3' < f"),
    ("a | pamcut -left 1 f|pamflip -lr", "a | pnmpipe 'pamcut -left 1 | pamflip -lr' < f"),
    ('x="$(pamcut -left 1 < "$f" | pamflip -tb)"', "x=\"$(pnmpipe 'pamcut -left 1 | pamflip -tb' < \"$f\")\""),
    ("pamcut -left 1 |\n  pamflip -lr", "pnmpipe 'pamcut -left 1 | pamflip -lr'"),
    ('for f in *; do pnminvert "$f"; done', "for f in *; do pnmpipe 'pnminvert' < \"$f\"; done"),
    ("cat <<E | pnminvert\npnminvert\nE", "cat <<E | pnmpipe 'pnminvert'\npnminvert\nE"),
    ("case $x in a) pnminvert ;; esac", "case $x in a) pnmpipe 'pnminvert' ;; esac"),
    ("pamchannel 0 | pnminvert | pamflip -lr", "pnmpipe 'pamchannel 0' | pnminvert | pnmpipe 'pamflip -lr'"),
    ("pamcut -left 8 a | { pnminvert; }", "pnmpipe 'pamcut -left 8' < a | { pnmpipe 'pnminvert'; }"),
    ("pnminvert | if pnminvert; then :; fi", "pnmpipe 'pnminvert' | if pnmpipe 'pnminvert'; then :; fi"),
    ("pnminvert | while pnminvert; do :; done", "pnmpipe 'pnminvert' | while pnmpipe 'pnminvert'; do :; done"),
    ("while :; do { pnminvert; } done", "while :; do { pnmpipe 'pnminvert'; } done"),
    ("pnminvert | (pnminvert)", "pnmpipe 'pnminvert' | (pnmpipe 'pnminvert')"),
    ("pnminvert | # pnminvert |\n pnminvert", "pnmpipe 'pnminvert' | # pnminvert |\n pnmpipe 'pnminvert'"),
    ("a <<E | pnminvert |\nx\nE\npnminvert", "a <<E | pnmpipe 'pnminvert' |\nx\nE\npnmpipe 'pnminvert'"),
    ("pamcut -left $l f | pnminvert", 'pnmpipe "pamcut -left $l | pnminvert" < f'),
    ('pamcut -left="$l" -top ${t} f', 'pnmpipe "pamcut -left $l -top ${t}" < f'),
    ("pamcut $a $1 $w 9", 'pnmpipe "pamcut -left $a -top $1 -width $w -height 9"'),
    ("pnmtile $((w * 2)) 3", 'pnmpipe "pnmtile $((w * 2)) 3"'),
    ("LC_ALL=C pamcut -left 1 f", "LC_ALL=C pnmpipe 'pamcut -left 1' < f"),
    ("nice -n 9 pnminvert | pnminvert", "nice -n 9 pnmpipe 'pnminvert' | pnmpipe 'pnminvert'"),
    ("/usr/bin/pamcut -left 1", "pnmpipe 'pamcut -left 1'"),
    ("cmp <(pnminvert a) b", "cmp <(pnmpipe 'pnminvert' < a) b"),
    ("pamcut -left 1 <(pnminvert a)", "pnmpipe 'pamcut -left 1' < <(pnmpipe 'pnminvert' < a)"),
    ("pamcut -left 1 2> e | pnminvert", "pnmpipe 'pamcut -left 1' 2> e | pnmpipe 'pnminvert'"),
    ("pamcut < a | pnminvert > b", "pnmpipe 'pamcut | pnminvert' > b < a"),
    ("pamcut -left 1 $f", "pnmpipe 'pamcut -left 1' < $f"),
    ("pamcut ${d}/a$1.pgm", "pnmpipe 'pamcut' < ${d}/a$1.pgm"),
    ("if a; then b; elif pnminvert f; then c; fi", "if a; then b; elif pnmpipe 'pnminvert' < f; then c; fi"),
    ("x='caf\u00e9 | pamcut' && pnminvert f", "x='caf\u00e9 | pamcut' && pnmpipe 'pnminvert' < f"),
    ("(( n << 1 )); pnminvert f", "(( n << 1 )); pnmpipe 'pnminvert' < f"),
]

# what is kept as it is
KEPT = [
    "pamcut -pad -left 1",
    "pamcut -left $(expr 1 + 2)",
    'pamcut -left "$n$m"',
    "pamcut -left ${n:=1}",
    "pamcut -left $((n += 1))",
    "pamcut -left $@",
    "pamcut -$side 1",
    "pamcut -cropright $n",
    "pamflip $way f",
    "PATH=/old pamcut",
    "./pamcut -left 1",
    "env pamcut -left 1",
    "pamcut -left 8 in.pgm\r\npnminvert\r\n",
    "#!/usr/bin/perl\npnminvert\n",
    "pamcut -left 1 $(ls)",
    "pamcut -left 1 *.pgm",
    "cat f | pamcut $opts",
    "pamcut $opts f",
    "pamcut -left 1 a b",
    "pamcut -left 1 -left 2",
    "pamcut -left 1 -right 2 -width 2",
    "pamcut -cropleft -1",
    "pamcut 0 0 +3 3",
    "pamflip -lr -tb",
    "pamflip -xform=left",
    "pamflip -l",
    "pamdepth 0",
    "pamdepth 65536",
    "pamchannel -tupletype 'two words' 0",
    "pamchannel 0 -plain",
    "pamenlarge -scale 2 -xscale 3",
    "pnmtile 3",
    "pnmtile 1 16777217",
    "pnminvert -version",
    "pnminvert |& cat",
    "pnminvert f < g",
    "pnminvert << E\nE",
    "pamcut() { :; }\npamcut -left 1",
    "case pamcut in pamcut) ;; (pnminvert|pamcut) ;; esac",
    "a=(pnminvert)",
    "sh -c 'pnminvert' # pnminvert",
    "echo pnminvert; xargs pnminvert",
    "echo `pnminvert`",
    'pnminvert "$@"',
    "pnminvert 'a",
]

# what names tools and surely calls none, and the lines of the tools that are named as kept
NO_CALLS = [
    ("[[ $t =~ ^(pamcut|pnminvert)$ ]]", "1 pamcut: it isn't surely a call", "1 pnminvert: it isn't surely a call"),
    ("[[ x == @(pamcut|pnminvert) ]]", "1 pamcut: it isn't surely a call", "1 pnminvert: it isn't surely a call"),
    ("case $t in\npamcut | pnminvert) ;; esac", "2 pamcut: it isn't", "2 pnminvert: it isn't"),
    ("x=`pamcut f`", "1 pamcut: it stands in backquotes"),
    ("\neval \"pamcut -left 1 f\"", "2 pamcut: it is an argument of eval"),
    ("X=1 sh -c 'pnminvert f' # pamcut", "1 pnminvert: it is an argument of sh"),
    ("trap 'pamcut f' EXIT", "1 pamcut: it is an argument of trap"),
    ("find . | xargs -0 pamcut", "1 pamcut: it is an argument of xargs"),
    ("cat <<E\na\npamcut $(pamcut f)\nE", "3 pamcut: it stands in a here document", "3 pamcut: it stands in a here"),
    ("$D/pamcut f", "1 $D/pamcut: another program may stand there"),
    ("nice \"$D\"/pamcut f", '1 "$D"/pamcut: another program may stand there'),
    ("${D}pamcut f", "1 ${D}pamcut: another program may stand there"),
    ("alias x=y pnminvert=cat", "1 pnminvert: it is an argument of alias"),
    ("alias x=y pnminvert=cat\npnminvert f", "1 pnminvert: it is", "2 pnminvert: a function or an alias"),
    ("pnminvert() { cat; }; pnminvert f", "1 pnminvert: a function", "1 pnminvert: it isn't surely a call"),
    ("a >pamcut.log # pamcut\n: pnminvert.c",),
]

# texts that aren't the shell's, the names of their files, and what is said
OTHERS = [
    ("out.pgm: in.pgm\n\tpamcut $< | pnminvert > $@\n", "makefile", "a Makefile"),
    ("\tpamcut a | pnminvert > b\n", "rules.mk", "a Makefile"),
    ("out.pgm: in.pgm\n\tpamcut in.pgm | pnminvert > $@\n", "-", "out.pgm: is no command's name"),
    ("run: pamcut a | pnminvert > b\n", "a.yml", "YAML"),
    ("jobs:\n  - pamcut a | pnminvert > b\n", "-", "jobs: is no command's name"),
    ("- pamcut a | pnminvert > b\n", "-", "- is no command's name"),
    ("Call it\n\n    pamcut a | pnminvert > b\n", "README.md", "Markdown"),
    ("Call it\n```sh\npamcut a | pnminvert > b\n```\n", "-", "```sh is no command's name"),
    ("#!/usr/bin/python3\npamcut\n", "-", "a script of python3"),
]


@wants("shfmt")
class Translate(Folder):
    def translated(self, text):
        made, said = translation.translated(text)
        return made, "\n".join(note for _, note in said)

    def test_translates(self):
        for text, wanted in TRANSLATED:
            made, said = self.translated(text)
            self.assertEqual(made, wanted)
            self.assertIn("in one call", said)

    def test_keeps(self):
        for text in KEPT:
            self.assertEqual(self.translated(text)[0], text)

    def test_names_what_is_no_call(self):
        for text, *wanted in NO_CALLS:
            made, said = translation.translated(text)
            self.assertEqual((made, len(said)), (text, len(wanted)), said)
            for (line, note), each in zip(sorted(said), sorted(wanted)):
                self.assertTrue(f"{line} {note.removeprefix('kept ')}".startswith(each), (text, note))

    def test_keeps_other_texts(self):
        for text, name, why in OTHERS:
            self.write("text/" + name, text.encode())
            done = run([f"{HELPERS}/pnmpipe-translate", "-f", name], text.encode(), cwd=self.path("text"))
            self.assertEqual((done.returncode, done.stdout), (0, text.encode()))
            self.assertIn("line 1: kept all: ", done.stderr.decode())
            self.assertIn(why, done.stderr.decode())

    def test_opens_a_file_after_the_outputs(self):
        """Where a file isn't there, the message goes where the tool's went, and the outputs are made."""
        made, _ = self.translated("pamcut nofile 2>err >o")
        for shell in filter(shutil.which, ("sh", "bash")):
            done = run([shell, "-c", made], cwd=self.folder)
            self.assertEqual((done.returncode == 0, done.stderr, self.read("o")), (False, b"", b""))
            self.assertIn(b"nofile", self.read("err"))
            os.remove(self.path("o"))

    def test_tells_what_differs(self):
        for text, note in [
            ("pnminvert", "pnmpipe treats every image of a stream"),
            ("pnmtile 2 2", "stays PAM"),
            ("pamdepth 1", "stay as they are"),
            ("pamcut -left 1", "several plain images"),
            ("pamchannel -tupletype RGB 0", "doesn't fit the planes"),
            ('pnminvert "$f"', "begins with a dash"),
            ("pnminvert", "pnmpipe ends with BadMagic"),
            ("pamcut -left $n", "holds one decimal number"),
            ("pamcut 1 2 $w $h", "is above 0"),
            ("pamdepth $n", "that holds 1"),
            ("pamcut -left $(expr 1 + 2)", "kept pamcut: -left is $(expr 1 + 2), which is more than a variable"),
            ("pamcut $opts f", "kept pamcut: $opts may be an option"),
            ("cat f | pamcut $opts", "kept pamcut: $opts may be an option"),
            ("pamcut -left 1 $f", "assumed: $f without quotes is one file's name, and no option"),
            ("pnminvert f <> g", "kept pnminvert: pnmpipe-translate doesn't know what the redirection <> g does"),
            ("pamcut -- f", "kept pamcut: the word -- isn't translated"),
            ("pamflip -r f", "kept pamflip: -r may be any of -r90, -r180, -r270, -rotate90, -rotate180, -rotate270"),
            ("pamcut -x 1", "kept pamcut: pamcut has no option -x"),
            ("pamflip $way f", "kept pamflip: $way may be a way to flip"),
            ("PATH=/old pamcut", "kept pamcut: PATH=/old stands before it"),
            ("./pamcut", "kept ./pamcut: another program"),
            ("pnminvert\r\n", "CR LF"),
            ("#!/usr/bin/env perl\n", "a script of perl"),
            ("pnminvert -plain", "other blanks and line ends"),
        ]:
            self.assertIn(note, self.translated(text)[1])

    def test_says_the_same_once(self):
        script = self.write("script", b"pamcut -left $n a | pnminvert\n" * 3)
        said = run([f"{HELPERS}/pnmpipe-translate", "-f", script]).stderr.decode().splitlines()
        self.assertEqual(sum("holds one decimal number" in line for line in said), 1)
        self.assertEqual(sum("2 tools in one call" in line for line in said), 3)

    def test_keeps_bytes(self):
        """What ends its lines with CR LF comes out as it was, and the fault of what isn't whole spares what is."""
        script = self.write("script", b"#!/bin/sh\r\npnminvert a\r\n")
        self.assertEqual(run([f"{HELPERS}/pnmpipe-translate", "-f", script]).stdout, self.read("script"))
        made, said = self.translated("pnminvert a\n{ pnminvert b; } \"\n")
        self.assertEqual(made, "pnmpipe 'pnminvert' < a\n{ pnminvert b; } \"\n")
        self.assertIn("kept what follows: shfmt can't parse line 2: ", said)

    def test_script(self):
        script = self.write("script", b"#!/bin/sh\n# caf\xe9\npnminvert < a\n")
        done = run([f"{HELPERS}/pnmpipe-translate", "-f", script])
        self.assertEqual(done.stdout, b"#!/bin/sh\n# caf\xe9\npnmpipe 'pnminvert' < a\n")
        self.assertIn(b"line 3: 1 tool in one call", done.stderr)

    def test_long_runs(self):
        made, _ = self.translated(" | ".join(["pnminvert"] * 66))
        self.assertEqual([call.count("pnminvert") for call in made.split("pnmpipe")[1:]], [64, 2])


class Lacking(Folder):
    def test_says_what_it_needs(self):
        for _ in range(2):
            done = run([sys.executable, f"{HELPERS}/pnmpipe-translate", "pamcut"], env={"PATH": self.folder})
            self.assertEqual((done.returncode, done.stdout), (1, b""))
            self.assertEqual(done.stderr.count(b"\n"), 1)
            self.assertIn(b"pnmpipe-translate: it needs shfmt", done.stderr)
            # an old one, which doesn't know the option
            self.write("shfmt", b"#!/bin/sh\necho 'flag provided but not defined' >&2\nexit 2\n", 0o755)
        os.chmod(self.path("shfmt"), 0o644)
        done = run([sys.executable, f"{HELPERS}/pnmpipe-translate", "pamcut"], env={"PATH": self.folder})
        self.assertEqual((done.returncode, done.stdout), (1, b""))
        self.assertEqual(done.stderr, b"pnmpipe-translate: shfmt can't be run: Permission denied\n")


class StandIns(Folder):
    """netpbm-shim makes of a tool's words what netpbm_words.py makes of them. It is a script for sh: one is started for
    each call, and python3 takes longer to start."""

    def setUp(self):
        super().setUp()
        self.write("in.pgm", GRAY)
        self.write("bin/pnmpipe", b'#!/bin/sh\nprintf %s "$2"\n', 0o755)
        os.mkdir(self.path("shims"))
        for name in SHIMS:
            self.write(f"netpbm/{name}", b"#!/bin/sh\n", 0o755)
            os.symlink(f"{HELPERS}/netpbm-shim", self.path(f"shims/{name}"))

    def stood_in(self, words):
        """The chain that pnmpipe gets of a call, with single blanks and no zeros before numbers; none: it goes to the
        tool."""
        path = ":".join([*map(self.path, ("shims", "bin", "netpbm")), "/usr/bin", "/bin"])
        done = run([self.path(f"shims/{words[0]}"), *words[1:]], cwd=self.folder, env={"PATH": path})
        self.assertEqual((done.returncode, done.stderr), (0, b""), words)
        chain = " ".join(done.stdout.decode().split())
        return re.sub(r"(?<= )-?\d+(?= |$)", lambda it: str(int(it[0])), chain)

    def translated(self, words):
        """The chain of the call that words become; none where they stay as they are, or a stand-in hands them on: plain
        output, `pamdepth 1`, and what isn't there."""
        call = shlex.split(translation.translated_words([words]))
        is_there = call[2:3] != ["<"] or os.path.isfile(self.path(call[3]))
        is_taken = call[0] == "pnmpipe" and call[1] not in ("--plain", "pamdepth 1") and is_there
        return call[1] if is_taken else ""

    def compare(self, calls):
        chains = [self.translated(words) for words in calls]
        self.assertEqual([(words, self.stood_in(words)) for words in calls], [*zip(calls, chains)])
        return [chain for chain in chains if chain]

    def test_examples(self):
        """A stage of pnmpipe is a call of Netpbm's tool too, and means the same."""
        self.assertEqual(self.compare([stage.split() for stage in STAGES]), STAGES)

    def test_each_option(self):
        arguments = {"pamchannel": ["1"]}
        for tool, (values, flags) in netpbm_words.OPTIONS.items():
            given = [[f"-{name}", "in.pgm" if name == "infile" else "3"] for name in values]
            given += [["-xform", names] for names in ("leftright", "transpose,topbottom") if tool == "pamflip"]
            calls = [[tool, *words, *arguments.get(tool, [])] for words in [*given, *([f"-{name}"] for name in flags)]]
            # (-pad and -verbose, -memsize and -pagesize aren't taken, nor is -xform 3)
            lacking = {"pamcut": 2, "pamflip": 4}.get(tool, 0)
            self.assertEqual(len(self.compare(calls)), len(calls) - lacking, tool)

    def test_random_words(self):
        for tool in SHIMS:
            numbers = random.Random(tool)
            chains = self.compare([random_call(numbers, tool) for _ in range(CALLS)])
            self.assertGreater(len(chains), LEAST, tool)


@wants("shfmt")
class RandomScripts(Program):
    """Scripts before and after they are translated."""

    def setUp(self):
        super().setUp()
        os.mkdir(self.path("bin"))
        os.symlink(self.PROGRAM, self.path("bin/pnmpipe"))
        tools = shutil.which("pamcut")
        for name in SHIMS if tools is None else []:
            os.symlink(f"{HELPERS}/netpbm-shim", self.path(f"bin/{name}"))
        path = f"{self.path('bin')}:{os.environ['PATH']}"
        self.environment = {**os.environ, "PATH": path, "PNMPIPE": self.PROGRAM, "LC_ALL": "C"}

    def outcome(self, name, shell, script):
        """What a script writes and leaves, in a folder of its own, and its status."""
        for kind, header, count in [("pgm", b"P5\n9 7\n255\n", 63), ("ppm", b"P6\n9 7\n255\n", 189)]:
            self.write(f"{name}/in.{kind}", header + bytes(at * 41 % 256 for at in range(count)))
        self.write(f"{name}/in.pbm", b"P4\n9 7\n" + bytes([0x5A, 0x80] * 7))
        done = run([shell, "-c", script], cwd=self.path(name), env=self.environment, timeout=60)
        left = {file: self.read(f"{name}/{file}") for file in sorted(os.listdir(self.path(name)))}
        return done.stdout, done.returncode, left

    def test_gives_the_same(self):
        calls = 0
        for seed in range(SEED, SEED + COUNT):
            shell = "bash" if seed % 4 == 3 and shutil.which("bash") else "sh"
            script = random_script(seed, shell == "bash")
            made, _ = translation.translated(script)
            calls += made.count("pnmpipe ")
            read = run([shell, "-n", "-c", made])
            self.assertEqual((read.returncode, read.stderr), (0, b""), f"seed {seed}:\n{script}\nbecame\n{made}")
            before, after = self.outcome(f"{seed}-", shell, script), self.outcome(f"{seed}+", shell, made)
            self.assertEqual(before, after, f"seed {seed}:\n{script}\nbecame\n{made}")
        self.assertGreater(calls, 4 * COUNT)


def take(options):
    global COUNT, SEED
    COUNT, SEED = options.scripts, options.seed


def main():
    parser = parser_of(__doc__)
    parser.add_argument("--scripts", type=int, default=COUNT, metavar="N", help=f"random scripts, {COUNT} by default")
    parser.add_argument("--seed", type=int, default=SEED, metavar="N", help="the first one's number, 0 by default")
    run_tests(parser, take)


if __name__ == "__main__":
    main()
