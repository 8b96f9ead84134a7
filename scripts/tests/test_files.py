#!/usr/bin/env python3
"""Tests of pnmpipe-files: each file by a call of the program, and small files in process by the C library.

They want python3 and sh alone. The program is named by --program, the library by --library, which has to be of the same
sources; what wants one that isn't there is passed over, and said. A full disk is one of a few pages, where unshare(1)
may mount one.
"""

import os
import pty
import random
import select
import shutil
import signal
import subprocess
import sys
import time

sys.dont_write_bytecode = True

# pylint: disable=wrong-import-position
from support import COLOR, GRAY, HELPERS, PATIENCE, ROOT, SIGNALS, Program
from support import has_ended, heed_signals, parser_of, run, run_tests

from random_runs import stream_of
from test_commands import stored_commands

LIBRARY = None
FILES = f"{HELPERS}/pnmpipe-files"
NOWHERE = "/nonexistent/libpnmpipe.so.1"


# chains of the random files, with options
CHAINS = [
    ("pamcut -left 1 | pamflip -lr | pnminvert",),
    ("pamflip -r90 | pamdepth 65535", "--suffix"),
    ("pamchannel 0 0 -tupletype A | pamenlarge -xscale=3 | pamenlarge 2",),
    ("pamdepth 300", "--plain"),
    ("pnmtile 9 7 | pamflip -xy", "--lanes", "2", "--suffix"),
]


# what is told of inputs through chains
FAULTS = {
    ("pnminvert",): {
        "input: EmptyInput": b"",
        "input: BadMagic": b"X",
        "input: HeaderCut": b"P5 1 ",
        "input: TooLong": b"P5" + b" " * 65_535 + b"1",
        "input: BadNumber": b"P5 x",
        "input: ZeroSize": b"P5 0 1 9\n",
        "input: TooLarge": b"P5 16777217 1 9\n",
        "input: BadMaxval": b"P5 1 1 65536\n",
        "input: BadPamLine": b"P7\nX\n",
        "input: DuplicateField": b"P7\nWIDTH 1\nWIDTH 1\n",
        "input: MissingField": b"P7\nWIDTH 1\nENDHDR\n",
        "input: RasterCut": GRAY[:-1],
        "input: SampleAboveMaxval": GRAY[:-1] + b"\x0a",
        "input: BadSample": b"P2 1 1 9 x",
        "input: PlainInStream": GRAY + b"P2 1 1 9 1",
    },
    ("pamflip -lr | pamcut -left 2",): {"tool 2: CutOutside": GRAY},
    ("pamchannel 1",): {"tool 1: ChannelOutside": GRAY},
    ("pamenlarge -xscale 1000",): {"tool 1: TooLarge": b"P4 17000 1\n" + bytes(2125)},
    ("--plain", "pnminvert"): {"output: SecondPlain": GRAY + GRAY},
    ("--plain", "pamchannel 0"): {"output: PlainPam": GRAY},
}


def loaded_workers():
    import file_workers  # pylint: disable=import-outside-toplevel

    return file_workers


def children_of(process):
    with open(f"/proc/{process}/task/{process}/children", encoding="ascii") as file:
        return list(map(int, file.read().split()))


class Runs(Program):
    """Runs of pnmpipe-files."""

    LIBRARY = NOWHERE

    def setUp(self):
        super().setUp()
        for name, data in [("a b.pgm", GRAY), ("c.ppm", COLOR), ("cut.pgm", GRAY[:-1]), ("-d.pgm", GRAY)]:
            self.write("in/" + name, data)

    def program(self):
        return self.PROGRAM

    def environment(self, program=None):
        return {**os.environ, "PNMPIPE": program or self.PROGRAM, "PNMPIPE_LIBRARY": self.LIBRARY}

    def files(self, *words):
        return run([FILES, *words], cwd=self.folder, env=self.environment(), timeout=PATIENCE)

    def parts(self):
        """What is left of results that aren't whole, and of the folder where they stand."""
        return [name for name in os.listdir(self.path("out")) if name == ".pnmpipe-files"]

    def log(self):
        """The lines of the log but the first, sorted."""
        return sorted(self.read("out/pnmpipe-files.log").split(b"\n")[1:-1])


class Files(Runs):
    """Each file by a call of the program."""

    def test_some(self):
        done = self.files("pnminvert", "out", *["in/" + name for name in os.listdir(self.path("in"))])
        self.assertEqual(done.returncode, 1)
        self.assertIn(b"in/cut.pgm: pnmpipe: input: RasterCut", done.stderr)
        self.assertEqual(sorted(os.listdir(self.path("out"))), ["-d.pgm", "a b.pgm", "c.ppm", "pnmpipe-files.log"])
        self.assertEqual(self.read("out/a b.pgm"), GRAY[:-2] + b"\x08\x07")
        self.write("in/cut.pgm", GRAY)
        made = os.stat(self.path("out/c.ppm"))
        done = self.files("--resume", "pnminvert", "out", *["in/" + name for name in os.listdir(self.path("in"))])
        self.assertEqual((done.returncode, done.stderr), (0, b"1 files, 0 failed, 3 left out\n"))
        self.assertEqual(os.stat(self.path("out/c.ppm")), made)
        self.assertEqual(self.files("--resume", "pamcut", "out", "in/c.ppm").returncode, 2)
        self.write("list", b"in/a b.pgm\nin/c.ppm")
        self.assertEqual(self.files("pamflip -lr", "out", "--names", "list").returncode, 0)
        self.assertEqual(self.read("out/a b.pgm"), GRAY[:-2] + b"\x02\x01")

    def test_changed_file(self):
        """A file that has changed since its result was made is done again, one that was put there as well."""
        self.files("pnminvert", "out", "in/c.ppm", "in/-d.pgm", "in/a b.pgm")
        self.write("in/c.ppm", COLOR[:-1] + b"\x06")
        self.write("other", GRAY[:-1] + b"\x03")
        os.utime(self.path("other"), (1, 1))
        os.rename(self.path("other"), self.path("in/-d.pgm"))
        done = self.files("--resume", "pnminvert", "out", "in/c.ppm", "in/-d.pgm", "in/a b.pgm")
        self.assertEqual(done.stderr, b"2 files, 0 failed, 1 left out\n")
        self.assertEqual((self.read("out/c.ppm")[-1], self.read("out/-d.pgm")[-1]), (3, 6))

    def test_folders_and_suffixes(self):
        self.write("in/1/x.pbm", b"P4\n1 1\n\x80")
        self.write("in/2/x.pbm", b"P4\n1 1\n\x00")
        names = ["in/1/x.pbm", "./in//2/x.pbm"]
        self.assertEqual(self.files("pamdepth 255", "out", *names).returncode, 2)
        self.assertEqual(self.files("--keep-folders", "pamcut", "out", *names).returncode, 0)
        self.assertEqual(self.read("out/in/2/x.pbm"), b"P4\n1 1\n\x00")
        self.assertEqual(self.files("--suffix", "pamdepth 255", "out", *names[:1], "in/c.ppm").returncode, 0)
        self.assertEqual(sorted(os.listdir(self.path("out"))), ["c.ppm", "in", "pnmpipe-files.log", "x.pgm"])
        self.assertEqual(self.read("out/x.pgm"), b"P5\n1 1\n255\n\x00")
        done = self.files("--resume", "--suffix", "pamdepth 255", "out", *names[:1])
        self.assertEqual(done.stderr, b"0 files, 0 failed, 1 left out\n")

    def test_signals(self):
        """A signal ends it and its calls within a second, and leaves no part; --resume goes on."""
        slow = f"[ ! -c /dev/stdin ] || exec {self.PROGRAM} \"$@\"\nprintf P5\necho $$ >> calls\nexec sleep 60\n"
        self.write("slow", b"#!/bin/sh\n" + slow.encode(), 0o755)
        names = ["in/c.ppm", "in/-d.pgm", "in/a b.pgm"]
        words = [FILES, "--jobs", "2", "--small", "0", "pnminvert", "out", *names]
        environment = self.environment(self.path("slow"))
        how = {"cwd": self.folder, "env": environment, "stderr": subprocess.DEVNULL, "preexec_fn": heed_signals}
        for number in SIGNALS:
            self.assert_within(1, lambda number=number: self.seconds_to_end(words, how, number))
        self.assertEqual(self.files("--resume", "pnminvert", "out", *names).stderr, b"3 files, 0 failed, 0 left out\n")

    def seconds_to_end(self, words, how, number):
        """How long a signal takes to end a run and its two calls."""
        self.write("calls", b"")
        with subprocess.Popen(words, **how) as child:
            while len(self.read("calls").split()) < 2:
                time.sleep(0.01)
            start = time.monotonic()
            child.send_signal(number)
            self.assertEqual(child.wait(timeout=PATIENCE), -number)
        for process in self.read("calls").split():
            self.assertTrue(has_ended(int(process)))
        seconds = time.monotonic() - start
        self.assertEqual(os.listdir(self.path("out")), ["pnmpipe-files.log"])
        return seconds

    def test_refuses(self):
        self.write("zero", b"in/c.ppm\0\n")
        for words in [
            ("pnmscale 2", "out", "in/c.ppm"),
            ("pnminvert", "in", "in/c.ppm"),
            ("pnminvert", "out", "in/c.ppm", "./in/c.ppm"),
            ("pnminvert", "out", "in/pnmpipe-files.log"),
            ("--keep-folders", "pnminvert", "out", "../in/c.ppm"),
            ("--keep-folders", "pnminvert", ".", "in/c.ppm"),
            ("--suffix", "pnminvert", "out", "in/c.ppm", "in/c.pgm"),
            ("pnminvert", "out"),
            ("pnminvert", "out", "--names", "no list"),
            ("pnminvert", "out", "--names", "zero"),
            ("pnminvert", "out", "in/two\nlines"),
            ("--jobs", "x", "pnminvert", "out", "in/c.ppm"),
        ]:
            done = self.files(*words)
            self.assertEqual((done.returncode, b"Traceback" in done.stderr), (2, False), words)
            self.assertEqual(self.read("in/c.ppm"), COLOR)

    def test_closed_streams(self):
        """Closed standard streams change nothing."""
        for closed in ("<&-", ">&-", "2>&-", "<&- >&- 2>&-"):
            words = ["sh", "-c", f"exec {sys.executable} {FILES} pnminvert out in/c.ppm {closed}"]
            self.assertEqual(run(words, cwd=self.folder, env=self.environment()).returncode, 0, closed)
            self.assertEqual((self.log(), self.read("out/c.ppm")[-3:]), ([b"0\tin/c.ppm\t"], b"\x06\x05\x04"), closed)

    def test_faults_of_two_lines(self):
        """The log has one line for each file, whatever stands in place of the program."""
        text = f"#!/bin/sh\n[ ! -c /dev/stdin ] || exec {self.PROGRAM} \"$@\"\nprintf 'a\\nb\\n' >&2\nexit 3\n"
        words = [FILES, "--small", "0", "pnminvert", "out", "in/c.ppm"]
        environment = self.environment(self.write("says two", text.encode(), 0o755))
        self.assertEqual(run(words, cwd=self.folder, env=environment).returncode, 1)
        self.assertEqual(self.log(), [b"3\tin/c.ppm\ta b"])

    def test_full_disk(self):
        """What doesn't fit has no result, and the fault that the program tells."""
        if run(["unshare", "-rm", "mount", "-t", "tmpfs", "none", self.folder]).returncode:
            self.skipTest("unshare(1) can't mount a disk here")
        image = b"P5\n64 64\n255\n" + bytes(4096)
        names = [self.write(f"in/{number:02}.pgm", image) for number in range(40)]
        script = f"mkdir out full && mount -t tmpfs -o size=100k none full && {FILES} \"$@\"; status=$?; "
        script += "cp -p full/* out; exit $status"
        words = ["unshare", "-rm", "sh", "-c", script, "sh", "pnminvert", "full", *names]
        done = run(words, cwd=self.folder, env=self.environment())
        self.assertEqual(done.returncode, 1)
        made = [name for name in os.listdir(self.path("out")) if name.endswith(".pgm")]
        self.assertTrue(5 < len(made) < 35 and not self.parts(), made)
        self.assertEqual({self.read("out/" + name) for name in made}, {image[:13] + b"\xff" * 4096})
        told = [line for line in done.stderr.split(b"\n") if line.endswith(b": pnmpipe: output: WriteFailed")]
        self.assertEqual(len(told) + len(made), 40)

    def test_names_of_two_lines(self):
        """A list with ends of 0 has any names; in the log and on standard error they stand in one line."""
        for name in ("two\nlines.pgm", "back\\slash.pgm", "both\\ \n.pgm"):
            self.write("in/" + name, GRAY[:-1] if "both" in name else GRAY)
        given = b"in/two\nlines.pgm\0in/back\\slash.pgm\0in/both\\ \n.pgm"
        words = [FILES, "pnminvert", "out", "--names0", "-"]
        done = run(words, given, cwd=self.folder, env=self.environment())
        self.assertEqual(done.returncode, 1)
        self.assertEqual(self.read("out/two\nlines.pgm"), GRAY[:-2] + b"\x08\x07")
        self.assertIn(b"\\in/both\\\\ \\n.pgm: pnmpipe: input: RasterCut\n", done.stderr)
        log = [b"0\t\\in/two\\nlines.pgm\t", b"0\tin/back\\slash.pgm\t"]
        log += [b"1\t\\in/both\\\\ \\n.pgm\tpnmpipe: input: RasterCut"]
        self.assertEqual(self.log(), sorted(log))
        self.assertEqual(self.files("pnminvert", "out", "--names0", "list", "in/c.ppm").returncode, 2)

    def test_bar(self):
        """On a terminal a line shows the progress, the rate and the time that is left."""
        ours, theirs = pty.openpty()
        words = [FILES, "--bar", "pnminvert", "out", "in/c.ppm", "in/cut.pgm"]
        with subprocess.Popen(words, cwd=self.folder, env=self.environment(), stderr=theirs) as child:
            os.close(theirs)
            shown = b""
            while b" left out" not in shown and select.select([ours], [], [], PATIENCE)[0]:
                shown += os.read(ours, 65536)
            self.assertEqual(child.wait(timeout=PATIENCE), 1)
        os.close(ours)
        self.assertRegex(shown, rb"\r\x1b\[K2 of 2 files, [0-9]+ a second, 0:00 left\r\n")
        self.assertIn(b"\r\x1b[Kin/cut.pgm: pnmpipe: input: RasterCut", shown)


class SmallFiles(Files):
    """Small files in process."""

    def setUp(self):
        super().setUp()
        if LIBRARY is None:
            self.skipTest("there is no library")
        self.LIBRARY = LIBRARY  # pylint: disable=invalid-name

    def calls(self, version, *words):
        """How often the program is called, where one stands in its place that has this version."""
        text = f"#!/bin/sh\necho call >> calls\n[ \"$1\" != --version ] || exec echo {version}\n"
        text += f"exec {self.PROGRAM} \"$@\"\n"
        self.write("counts", text.encode(), 0o755)
        self.write("calls", b"")
        run([FILES, *words], cwd=self.folder, env=self.environment(self.path("counts")))
        return len(self.read("calls").split())

    def test_calls(self):
        """The program is called for what isn't small or comes to too much, and for all where its version is another."""
        version = run([self.PROGRAM, "--version"]).stdout.decode().strip()
        files = ("out", "in/a b.pgm", "in/c.ppm", "in/cut.pgm", "in/-d.pgm")
        self.assertEqual(self.calls(version, "pnminvert", *files), 2)
        self.assertEqual(self.calls("pnmpipe 0", "pnminvert", *files), 6)
        self.assertEqual(self.calls(version, "--small", "0", "pnminvert", *files), 5)
        self.assertEqual(self.calls(version, "--small", str(len(GRAY) - 1), "pnminvert", *files), 4 + (len(COLOR) > 10))
        self.assertEqual(self.calls(version, "pamenlarge 1000 | pamcut -width 1 -height 1", *files), 6)

    def test_each_fault(self):
        """Each fault that a file may have is told in process as the program tells it."""
        version = run([self.PROGRAM, "--version"]).stdout.decode().strip()
        for words, given in FAULTS.items():
            names = [self.write(f"in/{at:03}", data) for at, data in enumerate(given.values())]
            calls = self.calls(version, *words, "out", *names)
            self.assertEqual(calls, 2, words)
            told = [os.fsencode(f"1\t{name}\tpnmpipe: {line}") for name, line in zip(names, given)]
            self.assertEqual(self.log(), told)
            self.calls("pnmpipe 0", *words, "out", *names)
            self.assertEqual(self.log(), told)

    def test_stored_commands(self):
        """Each stored input in a file gets the line and the result that are stored."""
        groups, stored = {}, [it for it in stored_commands() if it.words[1:]]
        for command in stored:
            words = tuple(map(os.fsdecode, command.words[1:]))
            is_run = command.room is None and command.status < 2 and not command.is_unread
            if is_run and words[:-1] in [(), ("--lanes", "1"), ("--plain",)]:
                groups.setdefault(words, []).append(command)
        told = set()
        for words, commands in groups.items():
            names = [self.write(f"in/{at:03}", command.given) for at, command in enumerate(commands)]
            done = self.files(*words[:-1], words[-1], "out", *names)
            self.assertEqual(done.returncode, int(any(command.status for command in commands)), words)
            log = [os.fsencode(f"{it.status}\t{name}\t") + it.printed[:-1] for name, it in zip(names, commands)]
            self.assertEqual(self.log(), sorted(log), words)
            for name, command in zip(names, commands):
                result = "out/" + os.path.basename(name)
                self.assertEqual(os.path.exists(self.path(result)), command.status == 0)
                self.assertTrue(command.status or self.read(result) == command.written, (words, command.given))
            shutil.rmtree(self.path("out"))
            told |= {command.printed for command in commands if command.status}
        self.assertEqual(told, {it.printed for it in stored if it.status == 1 and it.room is None})
        self.assertGreater(len(told), 10)

    def test_same_as_the_program(self):
        """Random files get the same results and lines in process as by calls."""
        numbers = random.Random(11)
        for chain, *options in CHAINS:
            names = [self.write(f"in/{at:03}", stream_of(numbers)[0]) for at in range(300 // len(CHAINS))]
            names += ["in/none", "in"]
            told, made = [], []
            for small in ("16000", "0"):
                shutil.rmtree(self.path("out"), ignore_errors=True)
                done = self.files("--small", small, *options, chain, "out", *names)
                told.append((done.returncode, sorted(done.stderr.split(b"\n")), self.log()))
                names_made = [name for name in os.listdir(self.path("out")) if not name.endswith(".log")]
                made.append({name: self.read("out/" + name) for name in names_made})
            self.assertEqual(told[0], told[1])
            self.assertTrue(made[0] == made[1], chain)
            growth = loaded_workers().growth_of(chain, "--plain" in options)
            for name, result in made[0].items():
                size = os.path.getsize(self.path("in/" + name.split(".")[0]))
                self.assertLessEqual(len(result), growth * size + 400, (chain, name))

    def slow_run(self, count=120):
        """A run that takes some seconds, which has begun."""
        names = [self.write(f"in/{at:03}.pgm", b"P5\n32 32\n255\n" + bytes(1024)) for at in range(count)]
        words = [FILES, "--jobs", "3", "pamenlarge 60 | pamflip -xy | pamflip -xy | pamcut -width 1", "out", *names]
        child = subprocess.Popen(words, cwd=self.folder, env=self.environment(), stderr=subprocess.PIPE)
        while not os.path.isdir(self.path("out")) or len(os.listdir(self.path("out"))) < 10:
            time.sleep(0.01)
        return child, words, names

    def test_killed(self):
        """A signal ends it within a second, with no part left; the log has what is there, --resume does the rest."""

        def seconds_to_end():
            shutil.rmtree(self.path("out"), ignore_errors=True)
            child, words, names = self.slow_run()
            start = time.monotonic()
            child.send_signal(signal.SIGTERM)
            said = child.communicate(timeout=PATIENCE)[1]
            seconds = time.monotonic() - start
            self.assertEqual(child.returncode, -signal.SIGTERM)
            self.assertIn(b", ended by SIGTERM: --resume goes on\n", said)
            made = sorted(name for name in os.listdir(self.path("out")) if name.endswith(".pgm"))
            self.assertEqual(self.parts(), [])
            self.assertEqual([line.split(b"/")[-1] for line in self.log()], [os.fsencode(f"{name}\t") for name in made])
            self.assertLess(len(made), len(names))
            done = run([words[0], "--resume", *words[1:]], cwd=self.folder, env=self.environment())
            self.assertEqual((done.returncode, len(self.log())), (0, len(names)))
            self.assertTrue(f"files, 0 failed, {len(made)} left out\n".encode() in done.stderr, done.stderr)
            return seconds

        self.assert_within(1, seconds_to_end)

    def test_lost_worker(self):
        """Where a worker is killed, others do its files; where the run itself is, a next one clears what is left."""
        child, _, names = self.slow_run()
        os.kill(children_of(child.pid)[0], signal.SIGKILL)
        self.assertEqual(child.communicate(timeout=PATIENCE)[1], b"120 files, 0 failed, 0 left out\n")
        self.assertEqual((len(self.log()), self.parts()), (len(names), []))

        def seconds_to_end():
            shutil.rmtree(self.path("out"))
            child, words, names = self.slow_run()
            workers = children_of(child.pid)
            child.kill()
            start = time.monotonic()
            child.communicate(timeout=PATIENCE)
            self.assertTrue(all(map(has_ended, workers)))
            seconds = time.monotonic() - start
            done = run([words[0], "--resume", *words[1:]], cwd=self.folder, env=self.environment())
            self.assertEqual((done.returncode, self.parts()), (0, []))
            self.assertEqual(len(os.listdir(self.path("out"))), len(names) + 1)
            return seconds

        self.assert_within(5, seconds_to_end)


class OddLibrary(Runs):
    """A module stands in for the library's, so that a file ends its process, or has no memory there."""

    MODULE = b"""import os, signal
class Fault(Exception):
    pass
def version():
    return "VERSION"
def run(chain, data, plain):
    if data[-1] in (2, 3):
        os.kill(os.getpid(), signal.SIGKILL)
    if data[-1] == 5:
        raise MemoryError
    if data[-1] == 6:
        raise ZeroDivisionError
    if data[-1] == 7:
        raise Fault("input: Odd")
    return b"P5 odd"
"""

    def environment(self, program=None):
        module = self.MODULE.replace(b"VERSION", run([self.PROGRAM, "--version"]).stdout.split()[1])
        self.write("module/pnmpipe/__init__.py", module)
        return {**super().environment(program), "PYTHONPATH": self.path("module")}

    def test_some(self):
        names = [self.write(f"in/{at}.pgm", GRAY[:-1] + bytes([at])) for at in range(9)]
        done = self.files("--jobs", "2", "pnminvert", "out", *names)
        self.assertEqual(done.returncode, 1)
        log = [os.fsencode(f"{int(at == 7)}\t{name}\t") for at, name in enumerate(names)]
        log[7] += b"pnmpipe: input: Odd"
        self.assertEqual((self.log(), self.parts()), (sorted(log), []))
        for at in range(9):
            wanted = GRAY[:-2] + bytes([8, 9 - at]) if at in (2, 3, 5, 6) else b"P5 odd"
            self.assertTrue(at == 7 or self.read(f"out/{at}.pgm") == wanted, at)

    def test_no_worker(self):
        """Where workers die before they begin a file, the run ends, and tells that of each."""
        self.write("module/ctypes.py", b"raise RuntimeError\n")
        names = [self.write(f"in/{at}.pgm", GRAY) for at in range(9)]
        done = self.files("--jobs", "2", "pnminvert", "out", *names)
        self.assertEqual((done.returncode, self.parts()), (1, []))
        self.assertEqual(self.log(), [os.fsencode(f"1\t{name}\tno worker is left: status 1") for name in names])

    def test_all_die(self):
        """Where each file ends its worker, and the program too, each is told, and the run ends."""
        dies = f"[ ! -c /dev/stdin ] || exec {self.PROGRAM} \"$@\"\nkill -9 $PPID\nsleep 9\n"
        self.write("dies", b"#!/bin/sh\n" + dies.encode(), 0o755)
        names = [self.write(f"in/{at}.pgm", GRAY) for at in range(9)]
        words = [FILES, "--jobs", "2", "pnminvert", "out", *names]
        done = run(words, cwd=self.folder, env=self.environment(self.path("dies")), timeout=PATIENCE)
        self.assertEqual((done.returncode, self.parts()), (1, []))
        self.assertEqual(self.log(), [os.fsencode(f"137\t{name}\tstatus -9") for name in names])


def take(options):
    global LIBRARY
    if os.path.exists(options.library):
        LIBRARY = os.path.abspath(options.library)
    else:
        print(f"test_files.py: there is no {options.library}, so tests of files in process are passed over")


def parser(doc):
    """What reads the words of a script that wants the library, too."""
    made = parser_of(doc)
    made.add_argument("--library", default=f"{ROOT}/bin/libpnmpipe.so.1")
    return made


def main():
    run_tests(parser(__doc__), take)


if __name__ == "__main__":
    main()
