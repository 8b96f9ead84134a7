#!/usr/bin/env python3
"""Tests of helpers, of the stand-ins for Netpbm's tools, and of long rows through the program, in seconds.

They want python3 and sh alone. The program is named by --program; where it isn't there, what wants it is passed over.
The stand-ins are tried over scripts that only tell how they were called.
"""

import contextlib
import os
import pty
import random
import select
import shutil
import signal
import subprocess
import sys
import tempfile
import time
import unittest

sys.dont_write_bytecode = True

# pylint: disable=wrong-import-position
from support import COLOR, GRAY, HELPERS, PATIENCE, ROOT, SHIMS, SIGNALS, Folder, Program
from support import heed_signals, loaded, parser_of, read, run, run_tests, wants


def random_header(numbers):
    """A header of a raw image, most of whose parts are as they should be."""

    def some(good, bad):
        return numbers.choice(good if numbers.random() < 0.93 else bad)

    def blank():
        return some([b" ", b"\n", b"\t", b"\r", b"\r\n", b" # c\n", b"#\r "], [b"\v", b"\f", b"", b"#c\n", b"\0", b"x"])

    def word():
        return some([b"1", b"2", b"007", b"19", b"1#\n3", b"255"], [b"0", b"x", b"-1", b"65536", b"16777217", b"\xb2"])

    kind = numbers.choice([b"P4", b"P5", b"P6", b"P7"])
    if kind != b"P7":
        return kind + b"".join(blank() + word() for _ in range(2 if kind == b"P4" else 3)) + blank()
    blanks = ([b" ", b"\t", b"\r"], [b"\v", b"\f", b"", b"\0"])
    fields = [b"WIDTH", b"HEIGHT", b"DEPTH", b"MAXVAL"] + [some([b"# c", b"TUPLTYPE", b""], [b"WIDTH", b"X"])]
    numbers.shuffle(fields)
    lines = [field + some(*blanks) + some([b"1", b"05", b"9"], [b"0", b"", b"x", b"300"]) for field in fields]
    return b"\n".join([b"P7", *(some([b"", b" "], [b"\f"]) + line for line in lines), some([b"ENDHDR"], [b"END"]), b""])


class Split(Folder):
    def split(self, given, *words):
        return run([f"{HELPERS}/pnmpipe-split", *words, self.path("x-")], given)

    def test_all_kinds(self):
        bits = b"P4 # c\n9 #d\n2\n" + bytes(4)
        deep = b"P5\n1 1\n256\n\x01\x00"
        pam = b"P7\nWIDTH 1\nHEIGHT 1\n# c\nDEPTH 2\nMAXVAL 255\nTUPLTYPE A\nENDHDR\nab"
        self.assertEqual(self.split(bits + GRAY + COLOR + deep + pam).returncode, 0)
        names = ["x-000001.pbm", "x-000002.pgm", "x-000003.ppm", "x-000004.pgm", "x-000005.pam"]
        self.assertEqual(sorted(os.listdir(self.folder)), names)
        self.assertEqual([self.read(name) for name in names], [bits, GRAY, COLOR, deep, pam])

    def test_faults(self):
        for given, words in [
            (GRAY + GRAY[:-1], b"image 2 ends in its raster"),
            (GRAY + b"P5\n3", b"image 2 ends in a header"),
            (GRAY + b"P2 1 1 9 3", b"image 2 is plain"),
            (GRAY + b"\n", b"image 2 doesn't begin with P4 to P7"),
            (GRAY + b"P5 x", b"image 2 has a header's number that isn't decimal"),
        ]:
            done = self.split(given)
            self.assertEqual(done.returncode, 1)
            self.assertIn(words, done.stderr)
            self.assertEqual(os.listdir(self.folder), ["x-000001.pgm"])
            os.remove(self.path("x-000001.pgm"))
        done = self.split(b"")
        self.assertEqual((done.returncode, done.stderr), (1, b"pnmpipe-split: input: EmptyInput\n"))

    def test_white_space(self):
        """White space is blank, TAB, CR and LF, in the words of a PAM line too; a digit after the magic isn't."""
        pam = b"P7\nWIDTH%b1\nHEIGHT 1\nDEPTH 1\nMAXVAL 9%bx\n%bENDHDR\n\x02"
        for good in (b" ", b"\t", b"\r"):
            self.assertEqual(self.split(pam % (good, good, good), "--force").returncode, 0, good)
        for bad in (b"\v", b"\f"):
            for given in [
                *(b"P5%b2%b1%b9%b\x01\x02" % tuple(bad if at == it else b" " for it in range(4)) for at in range(4)),
                *(pam % tuple(bad if at == it else b" " for it in range(3)) for at in range(3)),
            ]:
                self.assertEqual(self.split(given, "--force").returncode, 1, given)
        self.assertEqual(self.split(b"P52 1 9\n\x01\x02", "--force").returncode, 1)

    def test_headers_as_the_program_reads_them(self):
        """Of random headers those are taken that the program takes, with the same length of the raster."""
        if Program.PROGRAM is None:
            self.skipTest("there is no program")
        split, numbers, taken = loaded("pnmpipe-split"), random.Random(7), 0
        for _ in range(300):
            given = random_header(numbers)
            source, target = os.pipe()
            os.write(target, given + bytes(20_000))
            os.close(target)
            try:
                header, _, length = split.Stream(source).next_image()
            except split.Fault:
                header, length = given, 0
            finally:
                os.close(source)
            done = run([Program.PROGRAM, "pamcut"], header + bytes(length))
            self.assertEqual(done.returncode == 0, length > 0, (given, done.stderr))
            # (a byte less is a cut raster)
            cut = run([Program.PROGRAM, "pamcut"], header + bytes(max(length - 1, 0)))
            self.assertTrue(length == 0 or cut.stderr == b"pnmpipe: input: RasterCut\n", (given, cut.stderr))
            taken += length > 0
        self.assertTrue(60 < taken < 240, taken)

    def test_full_disk(self):
        """A file that can't be written is named, and not standard input."""
        words = ["sh", "-c", 'trap "" XFSZ; ulimit -f 0; exec "$@"', "sh", f"{HELPERS}/pnmpipe-split", self.path("x-")]
        done = run(words, GRAY)
        self.assertEqual(done.returncode, 1)
        self.assertIn(f"image 1 can't be written: {self.path('x-000001.pgm')}: ".encode(), done.stderr)
        self.assertEqual(os.listdir(self.folder), [])

    def test_files_that_are_there(self):
        self.write("x-000002.pgm", b"old")
        done = self.split(GRAY + GRAY)
        self.assertEqual((done.returncode, self.read("x-000002.pgm")), (1, b"old"))
        self.assertIn(b"--force would replace it", done.stderr)
        self.assertEqual(self.split(GRAY + GRAY, "--force").returncode, 0)
        self.assertEqual(self.read("x-000002.pgm"), GRAY)

    def test_files_of_the_users(self):
        """A file that is there stays, whatever its name is, also one that has come while the image was read."""
        for name in ("x-000001.pgm.part", "x-000002.pgm.part"):
            self.write(name, b"mine")
        names = self.write("names", b"a.part\na\n" + b"n" * 253 + b"\n")
        self.assertEqual(self.split(GRAY + COLOR).returncode, 0)
        self.assertEqual(self.split(GRAY + COLOR + GRAY, "--names", names).returncode, 0)
        self.assertEqual([self.read(name) for name in ("x-a.part", "x-a", "x-" + "n" * 253)], [GRAY, COLOR, GRAY])
        for name in ("x-000001.pgm.part", "x-000002.pgm.part"):
            self.assertEqual(self.read(name), b"mine")
        child = self.begun("--start", "7")
        self.write("x-000007.pgm", b"mine")
        _, told = child.communicate(b"\0", timeout=PATIENCE)
        self.assertEqual((child.returncode, self.read("x-000007.pgm")), (1, b"mine"))
        self.assertIn(b"x-000007.pgm is there, and --force would replace it", told)
        self.write("names", b".pnmpipe-split.0\n")
        done = run([f"{HELPERS}/pnmpipe-split", "--names", names, self.folder + "/"], GRAY)
        self.assertEqual((done.returncode, os.path.exists(self.path(".pnmpipe-split.0"))), (1, False))

    def begun(self, *words):
        """A call that has begun to write an image, which lacks its last byte, beside what is there."""
        before = os.listdir(self.folder)
        words = [f"{HELPERS}/pnmpipe-split", *words, self.path("x-")]
        child = subprocess.Popen(words, stdin=subprocess.PIPE, stderr=subprocess.PIPE, preexec_fn=heed_signals)
        child.stdin.write(b"P5\n1000 1\n9\n" + bytes(999))
        child.stdin.flush()
        end = time.monotonic() + PATIENCE
        while os.listdir(self.folder) == before:
            self.assertTrue(child.poll() is None and time.monotonic() < end)
            time.sleep(0.01)
        return child

    def test_signals(self):
        """A signal ends it, and leaves no image that isn't whole."""
        for number in SIGNALS:
            child = self.begun()
            child.send_signal(number)
            child.communicate(timeout=PATIENCE)
            self.assertEqual((child.returncode, os.listdir(self.folder)), (-number, []))

    def test_refuses(self):
        for words in (["--digits", "-3"], ["--digits", "256"], ["--start", "-1"]):
            self.assertEqual((self.split(GRAY, *words).returncode, os.listdir(self.folder)), (2, []), words)

    def test_numbers_sort(self):
        """The names of more than 9,999 images stand in the order of the images."""
        self.assertEqual(self.split(GRAY + COLOR, "--start", "9999").returncode, 0)
        self.assertEqual(sorted(os.listdir(self.folder)), ["x-009999.pgm", "x-010000.ppm"])
        self.assertEqual(self.split(COLOR, "--digits", "2").returncode, 0)
        self.assertEqual(self.read("x-01.ppm"), COLOR)

    def test_names(self):
        names = self.write("names", b"in/a b.pgm\nc.ppm\n")
        self.assertEqual(self.split(GRAY + COLOR, "--names", names).returncode, 0)
        self.assertEqual((self.read("x-a b.pgm"), self.read("x-c.ppm")), (GRAY, COLOR))
        self.assertIn(b"image 2 is missing", self.split(GRAY, "--force", "--names", names).stderr)
        self.assertIn(b"image 3 has no name", self.split(GRAY * 3, "--force", "--names", names).stderr)
        for text in (b"a/c\nb/c\n", b"d\n\n", b"d\0\ne\n", b"d/\ne\n"):
            self.write("names", text)
            done = self.split(GRAY + COLOR, "--names", names)
            self.assertEqual((done.returncode, done.stderr.count(b"\n")), (1, 1), done.stderr)
            self.assertIn(b"names has an empty name, a name twice, or one with a byte 0: ", done.stderr)
        self.assertEqual(len(os.listdir(self.folder)), 3)


# tells how it was called, and hands its input on
TELLS = b"#!/bin/sh\nprintf '%s:' \"${0##*/}\" \"$@\"\nexec cat\n"


# a call, and the chain that pnmpipe gets
STOOD_IN = [
    (["pnminvert", "F"], "pnminvert"),
    (["pamcut", "-l", "3", "--right=-4", "F"], "pamcut  -left 3 -right -4"),
    (["pamcut", "F", "-cropright", "09", "-croptop=2"], "pamcut  -right -10 -top 2"),
    (["pnmcut", "1", "2", "0", "-3", "F"], "pamcut -left 1 -top 2 -right -1 -bottom -4"),
    (["pamcut", "0", "0", "7", "5", "F"], "pamcut -left 0 -top 0 -width 7 -height 5"),
    (["pnmcut", "0", "05", "-1", "-09", "F"], "pamcut -left 0 -top 05 -right -2 -bottom -10"),
    (["pamcut", "-3", "00", "010", "00", "F"], "pamcut -left -3 -top 00 -width 010 -bottom -1"),
    (["pnmdepth", "-quiet", "9", "F"], "pamdepth 9"),
    (["pamchannel", "-infile=F", "-tupl", "-quiet", "RGB", "2", "1", "0"], "pamchannel -tupletype=RGB 2 1 0"),
    (["pamenlarge", "3", "F"], "pamenlarge 3"),
    (["pnmenlarge", "-x", "3", "-ys=2", "F"], "pamenlarge  -xscale 3 -yscale 2"),
    (["pamflip", "-r90", "F"], "pamflip -r90"),
    (["pamflip", "-xform", "leftright,topbottom", "F"], "pamflip -lr | pamflip -tb"),
    (["pnmflip", "-tr", "-lr", "F"], "pamflip -xy | pamflip -lr"),
    (["pnmtile", "4", "5", "F"], "pnmtile 4 5"),
    (["pnmtile", "12000000", "16777215", "F"], "pnmtile 12000000 16777215"),
]

# calls that go to the tool itself
HANDED_ON = [
    ["pamcut", "-pad", "-left", "3", "F"],
    ["pamcut", "-left", "1", "-right", "2", "-width", "3", "F"],
    ["pamcut", "0", "0", "7", "+5", "F"],
    ["pamcut", "0", "0", "7x", "5", "F"],
    ["pamflip", "-lr", "-tb", "F"],
    ["pamflip", "-l", "F"],
    ["pamflip", "-xform=left", "F"],
    ["pamdepth", "1", "F"],
    ["pamdepth", "65536", "F"],
    ["pamchannel", "0", "-"],
    ["pnmtile", "3", "0", "F"],
    ["pamchannel", "-tupletype", "two 'words'", "0", "-infile", "F"],
    ["pnminvert", "-plain", "F"],
    ["pnminvert", "-version"],
    ["pnmtile", "3", "F"],
    ["pnmtile", "3", "16777216", "F"],
    ["pnminvert", "no such file"],
]


class StandIns(Folder):
    def setUp(self):
        super().setUp()
        self.write("bin/pnmpipe", TELLS, 0o755)
        os.mkdir(self.path("shims"))
        for name in SHIMS:
            self.write(f"netpbm/{name}", TELLS, 0o755)
            os.symlink(f"{HELPERS}/netpbm-shim", self.path(f"shims/{name}"))
        self.file = self.write("a 'b'.pgm", b"the image")

    def call(self, words, folders=("shims", "bin", "netpbm")):
        words = [word.replace("F", self.file) if word in ("F", "-infile=F") else word for word in words]
        path = ":".join([self.path(folder) for folder in folders] + ["/usr/bin", "/bin"])
        return words, run([self.path("shims/" + words[0]), *words[1:]], b"given", env={"PATH": path})

    def test_stands_in(self):
        for words, chain in STOOD_IN:
            _, done = self.call(words)
            self.assertEqual(done.stdout.decode(), f"pnmpipe:--:{chain}:the image", words)
            _, done = self.call([word for word in words if "F" not in word])
            self.assertEqual(done.stdout.decode(), f"pnmpipe:--:{chain}:given", words)

    def test_hands_on(self):
        for words in HANDED_ON:
            words, done = self.call(words)
            self.assertEqual(done.stdout.decode(), ":".join([*words, "given"]))

    def test_nobody_to_hand_on_to(self):
        tools = self.path("tools")
        os.mkdir(tools)
        for name in ("sh", "sed", "cat"):
            os.symlink(shutil.which(name), f"{tools}/{name}")
        done = run([self.path("shims/pamcut"), "-pad"], env={"PATH": f"{self.path('shims')}:{tools}"})
        self.assertEqual(done.returncode, 1)
        self.assertIn(b"pnmpipe does not take -pad", done.stderr)


class LongRows(Program):
    """Rows that the program writes past its output's buffer, between some that it keeps back."""

    WIDTHS = (3, 16_384, 7, 16_383, 16_385, 40_000, 70_000, 1)

    def setUp(self):
        super().setUp()
        images, inverted = [], []
        for width in self.WIDTHS:
            samples = bytes((at * at + width) % 251 for at in range(3 * width))
            header = b"P5\n%d 3\n255\n" % width
            images.append(header + samples)
            inverted.append(header + bytes(255 - sample for sample in samples))
        self.images, self.inverted = b"".join(images), b"".join(inverted)

    def test_all_is_written_in_order(self):
        ran = subprocess.run([self.PROGRAM, "pnminvert"], input=self.images, stdout=subprocess.PIPE)
        self.assertEqual((ran.returncode, ran.stdout == self.inverted), (0, True))
        with tempfile.TemporaryFile() as file:
            subprocess.run([self.PROGRAM, "pnminvert"], input=self.images, stdout=file, check=True)
            file.seek(0)
            self.assertTrue(file.read() == self.inverted)

    def test_failed_write_is_told(self):
        with open("/dev/full", "wb") as full:
            ran = subprocess.run([self.PROGRAM, "pnminvert"], input=self.images, stdout=full, stderr=subprocess.PIPE)
        self.assertEqual((ran.returncode, ran.stderr), (1, b"pnmpipe: output: WriteFailed\n"))


class HelpAndVersion(unittest.TestCase):
    def test_answers(self):
        version = read("VERSION").strip()
        for name in ("pnmpipe-explain", "pnmpipe-files", "pnmpipe-split", "pnmpipe-translate"):
            for words, beginning in [("--version", f"{name} {version}\n"), ("-V", f"{name} {version}\n")] + [
                (option, f"usage: {name} ") for option in ("--help", "-h")
            ]:
                done = run([f"{HELPERS}/{name}", words])
                self.assertEqual((done.returncode, done.stderr), (0, b""))
                self.assertTrue(done.stdout.startswith(beginning.encode()), done.stdout)


class Completion(Folder):
    def replies(self, *words):
        code = f'. {ROOT}/completions/pnmpipe.bash; COMP_WORDS=("$@"); COMP_CWORD=$(($# - 1)); _pnmpipe; '
        code += 'printf "%s\\n" "${COMPREPLY[@]}"'
        return run(["bash", "--norc", "-c", code, "bash", *words]).stdout.decode().splitlines()

    @wants("bash")
    def test_bash(self):
        self.assertIn("'pamcut", self.replies("pnmpipe", "pam"))
        self.assertEqual(self.replies("pnmpipe", "--l"), ["--lanes"])
        self.assertEqual(self.replies("pnmpipe", "--lanes", ""), ["1", "2", "4", "8"])
        self.assertEqual(self.replies("pnmpipe", "'pamcut -wi"), ["pamcut -width ", "pamcut -width |"])
        ways = ["pamcut -left 8|pamflip -lr", "pamcut -left 8|pamflip -leftright"]
        self.assertEqual(self.replies("pnmpipe", '"pamcut -left 8|pamflip -l'), ways)
        self.assertEqual(self.replies("pnmpipe-files", "--jobs", "2", "--res"), ["--resume"])
        self.assertEqual(self.replies("pnmpipe-files", "--jobs", "2", "'pamd"), ["pamdepth ", "pamdepth |"])
        self.assertEqual(self.replies("pnmpipe-files", "--machines", "a,:", "'pamd"), ["pamdepth ", "pamdepth |"])
        self.assertEqual(self.replies("pnmpipe-files", "pnminvert", "out", f"{ROOT}/VERS"), [f"{ROOT}/VERSION"])
        self.assertEqual(self.replies("pnmpipe-split", "--fo"), ["--force"])

    @wants("fish")
    def test_fish(self):
        for typed, wanted in [
            ("pnmpipe --l", ["--lanes"]),
            ("pnmpipe 'pamcut -wi", ["pamcut -width ", "pamcut -width |"]),
            ("pnmpipe 'pamcut -left 8|pamflip -l", ["pamcut -left 8|pamflip -leftright", "pamcut -left 8|pamflip -lr"]),
            ("pnmpipe-files --jobs 2 pnmt", ["pnmtile"]),
            ("pnmpipe-files --machines host,: --suffix 'pnmt", ["pnmtile ", "pnmtile |"]),
            ("pnmpipe-files --res", ["--resume"]),
            ("pnmpipe-split --fo", ["--force"]),
        ]:
            code = f"source {ROOT}/completions/pnmpipe.fish; complete -C $argv[1]"
            made = run(["fish", "-N", "-c", code, typed], cwd=ROOT).stdout.decode().splitlines()
            self.assertEqual([line.split("\t")[0] for line in made], wanted, typed)

    @wants("fish")
    def test_fish_on_a_terminal(self):
        """A chain whose opening quote is typed goes on in its quote, which closes where the user closes it."""
        start = 'function pnmpipe; echo (count $argv)="$argv"; end; '
        for typed, completed, rest, wanted in [
            ("pnmpipe 'pamcut -wi", "'pamcut -width ", "5'", "1=pamcut -width 5"),
            ('pnmpipe "pamcut|pamflip -nu', '"pamcut|pamflip -null ', '"', "1=pamcut|pamflip -null"),
            ("pnmpipe --lanes 2 'pamcut|pnmt", "'pamcut|pnmtile ", "4 5'", "3=--lanes 2 pamcut|pnmtile 4 5"),
        ]:
            with self.terminal("fish", start) as terminal:
                self.assertIn(completed.encode(), self.typed(terminal, typed + "\t", completed.encode()))
                shown = self.typed(terminal, rest + "\n", b"\n" + wanted.encode())
            self.assertIn(wanted.encode(), shown, typed)

    @wants("zsh")
    def test_zsh(self):
        """A word that one alone goes on from is completed on a terminal."""
        for typed, wanted in [
            ("pnmpipe --la", "pnmpipe --lanes "),
            ("pnmpipe 'pamcut -left 8 | pamflip -nu", "pnmpipe 'pamcut -left 8 | pamflip -null "),
            ("pnmpipe-files --res", "pnmpipe-files --resume "),
            ("pnmpipe-split --fo", "pnmpipe-split --force "),
        ]:
            with self.terminal("zsh") as terminal:
                self.assertIn(wanted.encode(), self.typed(terminal, typed + "\t", wanted.encode()))

    @wants("bash")
    def test_files_in_bash(self):
        self.completes_files("bash")

    @wants("zsh")
    def test_files_in_zsh(self):
        self.completes_files("zsh")

    @wants("fish")
    def test_files_in_fish(self):
        self.completes_files("fish")

    def completes_files(self, shell):
        """Behind redirections stand files, of any of the programs, whatever the chain is."""
        self.write("scan one/page.pgm", b"")
        self.write("scans.pgm", b"")
        for typed, wanted in [
            ("pnmpipe pnminvert < scans", " < scans.pgm "),
            ("pnmpipe pnminvert <scans", "<scans.pgm "),
            ("pnmpipe 'pamcut -left 8 | pnminvert' >scans", ">scans.pgm "),
            ("pnmpipe pnminvert 2>> scans", ">> scans.pgm "),
            ("pnmpipe pnminvert &> scans", "&> scans.pgm "),
            ("pnmpipe < scans", "pnmpipe < scans.pgm "),
            ("pnmpipe pnminvert < scan\\ one/", "< scan\\ one/page.pgm "),
            ("pnmpipe-split x < scans", "< scans.pgm "),
            ("pnmpipe-explain 'pnminvert' < scans", "< scans.pgm "),
        ]:
            with self.terminal(shell) as terminal:
                self.assertIn(wanted.encode(), self.typed(terminal, typed + "\t", wanted.encode()), typed)

    @contextlib.contextmanager
    def terminal(self, shell, start=""):
        """A terminal in which a shell runs that has the completions."""
        words, code = {
            "bash": (["--noprofile", "--norc"], f"PS1=; . {ROOT}/completions/pnmpipe.bash; "),
            "zsh": (["-f"], f"PS1=; fpath=({ROOT}/completions $fpath); autoload -U compinit; compinit -u -D; "),
            "fish": (["-N"], f"source {ROOT}/completions/pnmpipe.fish; "),
        }[shell]
        process, terminal = pty.fork()
        if process == 0:
            os.chdir(self.folder)
            home = dict.fromkeys(("HOME", "XDG_CONFIG_HOME", "XDG_DATA_HOME"), "/nonexistent")
            os.execvpe(shell, [shell, *words, "-i"], {**os.environ, **home, "TERM": "dumb"})
        try:
            self.typed(terminal, f"{code}{start}echo rea''dy\n", b"\nready")
            yield terminal
        finally:
            os.kill(process, signal.SIGKILL)
            os.waitpid(process, 0)
            os.close(terminal)

    def typed(self, terminal, text, wanted):
        """What a terminal shows after a text, until something is there or ten seconds have passed."""
        os.write(terminal, text.encode())
        shown, end = b"", time.monotonic() + 10
        while wanted not in shown and time.monotonic() < end:
            if select.select([terminal], [], [], 0.1)[0]:
                shown += os.read(terminal, 65536)
        return shown


class Install(Program):
    def translates(self, path):
        """What is installed finds its modules, and translates where shfmt is installed."""
        done = run([path, "pamcut"])
        if shutil.which("shfmt"):
            self.assertEqual(done.stdout, b"pnmpipe 'pamcut'\n")
        else:
            self.assertIn(b"it needs shfmt", done.stderr)

    def readable(self, folder):
        """All that was installed is for whoever comes."""
        for at, _, names in os.walk(self.path(folder)):
            modes = {os.stat(os.path.join(at, name)).st_mode & 0o777 for name in [".", *names]}
            self.assertLessEqual(modes, {0o755, 0o644}, at)

    def test_installs(self):
        target = ["-s", "-C", ROOT, f"BUILT={self.PROGRAM}", f"DESTDIR={self.folder}/x y", "PREFIX=/usr"]
        self.assertEqual(run(["make", "install", *target], umask=0o077).returncode, 0)
        self.readable("x y")
        bin_folder = self.path("x y/usr/bin")
        path = {"PATH": f"{bin_folder}:{os.environ['PATH']}"}
        self.assertEqual(run([f"{bin_folder}/pnmpipe", "pnminvert"], GRAY).stdout, GRAY[:-2] + b"\x08\x07")
        self.translates(f"{bin_folder}/pnmpipe-translate")
        self.assertCountEqual(os.listdir(self.path("x y/usr/libexec/pnmpipe/netpbm")), SHIMS)
        self.assertEqual(run([self.path("x y/usr/libexec/pnmpipe/netpbm/pamcut")], GRAY, env=path).stdout, GRAY)
        self.assertNotIn(b"@VERSION@", self.read("x y/usr/share/man/man1/pnmpipe.1"))
        for name in ("pnmpipe", "pnmpipe-files"):
            self.assertIn(b"compgen", self.read(f"x y/usr/share/bash-completion/completions/{name}"))
            self.assertIn(b"complete -c", self.read(f"x y/usr/share/fish/vendor_completions.d/{name}.fish"))
        self.assertIn(b"#compdef", self.read("x y/usr/share/zsh/site-functions/_pnmpipe"))
        self.assertEqual(run(["make", "uninstall", *target]).returncode, 0)
        self.assertEqual([names for _, _, names in os.walk(self.path("x y")) if names], [])

    def test_archive(self):
        """install.sh puts all that the archive of the built program has elsewhere, twice too, and takes it away, and of
        the folders those that it made."""
        target = ["-s", "-C", ROOT, f"BUILT={self.PROGRAM}", f"DESTDIR={self.folder}/archive", "PREFIX="]
        self.assertEqual(run(["make", "install", *target]).returncode, 0)
        shutil.copy(f"{HELPERS}/install.sh", self.path("archive"))
        words = ["sh", self.path("archive/install.sh")]
        for _ in range(2):
            self.assertEqual(run([*words, "x y"], cwd=self.folder, umask=0o077).returncode, 0)
        self.readable("x y")
        self.assertEqual(run([self.path("x y/bin/pnmpipe"), "pnminvert"], GRAY).stdout, GRAY[:-2] + b"\x08\x07")
        self.translates(self.path("x y/bin/pnmpipe-translate"))
        self.assertEqual(run([*words, "--uninstall", self.path("x y")]).returncode, 0)
        self.assertFalse(os.path.exists(self.path("x y")))
        os.makedirs(self.path("x y/bin"))
        self.assertEqual(run([*words, self.path("x y")]).returncode, 0)
        self.write("x y/share/man/man1/other.1", b"")
        self.assertEqual(run([*words, "--uninstall", self.path("x y")]).returncode, 0)
        left = {os.path.relpath(at, self.folder): names for at, _, names in os.walk(self.path("x y"))}
        man = {"x y/share": [], "x y/share/man": [], "x y/share/man/man1": ["other.1"]}
        self.assertEqual(left, {"x y": [], "x y/bin": [], **man})
        os.mkdir(self.path("there"))
        for options in ([], ["--uninstall"]):
            self.assertEqual(run([*words, *options, self.path("there/a b/c/d/")]).returncode, 0)
        self.assertEqual(os.listdir(self.path("there")), [])
        self.assertEqual(run([*words, "--unknown"]).returncode, 2)


if __name__ == "__main__":
    run_tests(parser_of(__doc__))
