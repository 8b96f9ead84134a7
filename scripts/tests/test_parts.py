#!/usr/bin/env python3
"""Tests of what pnmpipe-files makes and removes in OUTDIR: results, the log, and .pnmpipe-files, where parts of results
stand under a lock. Nothing else is touched, whatever the user has there, and however a run ends.

They want python3 and sh alone; what wants unshare(1) is passed over where that may not be called. The program is named
by --program, the library by --library.
"""

import os
import resource
import shutil
import signal
import subprocess
import sys
import time

sys.dont_write_bytecode = True

# pylint: disable=wrong-import-position
from support import COLOR, GRAY, PATIENCE, SIGNALS, has_ended, heed_signals, run, run_tests

import test_files
from test_files import FILES, Runs, children_of

OWN, LOCK = "out/.pnmpipe-files", "out/.pnmpipe-files/lock"
INVERTED = GRAY[:-2] + b"\x08\x07"

# reads its input, and goes on once a file `go` is there; the chain's check has no file
WAITS = """#!/bin/sh
[ ! -c /dev/stdin ] || exec {program} "$@"
cat > given.$$
echo >> begun
while [ ! -e go ] && [ -e begun ]; do sleep 0.02; done
exec {program} "$@" < given.$$
"""

# waits when it is asked for its version
LATE = """#!/bin/sh
[ "$1" = --version ] || exec {program} "$@"
echo > begun
while [ -e begun ]; do sleep 0.02; done
"""


class Waiting(Runs):
    """Runs whose calls can be made to wait."""

    def setUp(self):
        super().setUp()
        for name, text in (("waits", WAITS), ("late", LATE)):
            self.write(name, text.format(program=self.PROGRAM).encode(), 0o755)

    def begun(self, *words, before=(), program="waits"):
        """A run in which a call has begun, and waits."""
        how = {"cwd": self.folder, "env": self.environment(self.path(program)), "preexec_fn": heed_signals}
        child = subprocess.Popen([*before, FILES, "--jobs", "1", *words], stderr=subprocess.PIPE, **how)
        self.addCleanup(child.stderr.close)
        self.addCleanup(child.wait)
        self.addCleanup(child.kill)
        end = time.monotonic() + PATIENCE
        while not os.path.exists(self.path("begun")):
            self.assertTrue(child.poll() is None and time.monotonic() < end)
            time.sleep(0.01)
        return child

    def tree(self, folder="out"):
        """All that stands in a folder: folders, what links lead to, and files with their bytes and times."""
        found = {}
        for top, folders, names in os.walk(self.path(folder)):
            for path in (os.path.join(top, name) for name in folders + names):
                status = os.lstat(path)
                is_file = not os.path.islink(path) and os.path.isfile(path)
                text = self.read(path) if is_file else os.readlink(path) if os.path.islink(path) else None
                found[path] = (status.st_mode, text, status.st_ino, is_file and status.st_mtime_ns)
        return found

    def kept(self, folder, *words, cwd=None):
        """Wants a run to leave all that stands in a folder as it is, and gives the run."""
        before = self.tree(folder)
        done = run([FILES, *words], cwd=cwd or self.folder, env=self.environment(), timeout=PATIENCE)
        after = self.tree(folder)
        self.assertEqual({path: after.get(path) for path in before}, before)
        return done


class Users(Waiting):
    """Files and folders of the user's stay."""

    def test_names_of_parts(self):
        """What ends as parts of results once did stays, in OUTDIR and in the working folder."""
        for name in ("album.2019.part/keep", "notes.4000000.part", "pnmpipe-files.4000001.part/1.in/keep"):
            self.write("out/" + name, b"x")
            self.write("in/" + name, b"x")
        self.assertEqual(self.kept("out", "pnminvert", "out", "in/c.ppm").returncode, 0)
        self.write("c2.ppm", COLOR)
        self.assertEqual(self.kept("in", "pnminvert", ".", "../c2.ppm", cwd=self.path("in")).returncode, 0)
        self.write("in/scan.99999999.part", GRAY)
        self.files("pnminvert", "out", "in/scan.99999999.part")
        done = self.files("--resume", "pnminvert", "out", "in/scan.99999999.part")
        self.assertEqual(done.stderr, b"0 files, 0 failed, 1 left out\n")

    def test_folder_of_that_name(self):
        """A run refuses .pnmpipe-files where it isn't one that a run has made, and follows no link."""
        for make in (
            lambda: os.symlink(self.path("mine"), self.path(OWN)),
            lambda: os.symlink("nowhere", self.path(OWN)),
            lambda: self.write(OWN, b"x"),
            lambda: os.mkdir(self.path(OWN)),
            lambda: self.write(OWN + "/run-0123456789abcdef/1", b"x"),
            lambda: self.write(LOCK, b"x"),
            lambda: (os.mkdir(self.path(OWN)), os.symlink(self.path("mine/lock"), self.path(LOCK))),
            lambda: os.makedirs(self.path(LOCK)),
            lambda: (os.mkdir(self.path(OWN)), os.mkfifo(self.path(LOCK))),
        ):
            shutil.rmtree(self.path("out"), ignore_errors=True)
            os.mkdir(self.path("out"))
            for name in ("lock", "1", "run-0123456789abcdef/1"):
                self.write("mine/" + name, b"x")
            make()
            mine = self.tree("mine")
            done = self.kept("out", "pnminvert", "out", "in/c.ppm")
            self.assertEqual((done.returncode, done.stderr.count(b"\n"), self.tree("mine")), (2, 1, mine), done.stderr)
            self.assertIn(b"out/.pnmpipe-files", done.stderr)

    def test_log_of_that_name(self):
        """A file of the log's name that isn't one stays."""
        for text in (b"notes\n", b"# Notes\n\nmilk\n", b"# 1\n2\n", b"# 1\n2 3\t\n", b"#notes"):
            self.write("out/pnmpipe-files.log", text)
            for words in ([], ["--resume"]):
                self.assertEqual(self.kept("out", *words, "pnminvert", "out", "in/c.ppm").returncode, 2, text)
            self.assertEqual(self.parts(), [])

    def test_logs_that_were_cut(self):
        """A log may be cut anywhere."""
        log = b"# pnminvert\n0\tin/c.ppm\t\n"
        for end in (0, 1, 2, 7, 11, 12, 13, 14, 20, len(log)):
            for words in ([], ["--resume"]):
                self.write("out/pnmpipe-files.log", log[:end])
                self.assertEqual(self.files(*words, "pnminvert", "out", "in/c.ppm").returncode, 0, log[:end])
                self.assertEqual(self.read("out/pnmpipe-files.log"), log)

    def test_results_of_those_names(self):
        """No result stands in .pnmpipe-files, or takes its name."""
        self.write("in/.pnmpipe-files", GRAY)
        self.write(".pnmpipe-files/x.pgm", GRAY)
        for options, name in (([], "in/.pnmpipe-files"), (["--keep-folders"], ".pnmpipe-files/x.pgm")):
            done = self.files(*options, "pnminvert", "out", name)
            self.assertEqual((done.returncode, os.path.exists(self.path("out"))), (2, False), done.stderr)
        done = self.files("--suffix", "pnminvert", "out", "in/.pnmpipe-files")
        self.assertEqual((done.returncode, self.read(OWN + ".pgm")), (0, INVERTED))


class Locks(Waiting):
    """One run at a time has OUTDIR."""

    def test_two_runs(self):
        """A run that goes on keeps its parts, also from a run in another namespace of processes."""
        for before in ([], ["unshare", "-rpf", "--kill-child"]):
            if before and run([*before, "true"]).returncode:
                self.skipTest("unshare(1) can't make a namespace here")
            child = self.begun("pnminvert", "out", "in/c.ppm", before=before)
            done = self.kept("out", "pnminvert", "out", "in/-d.pgm")
            self.assertEqual(done.returncode, 2)
            self.assertRegex(done.stderr, rb"\Apnmpipe-files: out is in use by a run that process [0-9]+ on .*\n\Z")
            self.write("go", b"")
            self.assertEqual(child.communicate(timeout=PATIENCE)[1], b"1 files, 0 failed, 0 left out\n")
            self.assertEqual((self.parts(), self.read("out/c.ppm")[-3:]), ([], b"\x06\x05\x04"))
            for name in ("go", "begun"):
                os.remove(self.path(name))

    def test_other_machine(self):
        """A lock of another machine, or one that says nothing, stays, and what its run has there."""
        told = b"far\t1\t2026-11-28 10:00:00 +0000\tother-boot\trun-0123456789abcdef\n"
        remedy = b"a run that process 1 on far began at 2026-11-28 10:00:00 +0000: once that has ended, remove out/.pnm"
        for text, said in ((told, remedy), (b"", b"move it away\n"), (told[:-1], b"move it away\n")):
            self.write(LOCK, text)
            self.write(OWN + "/run-0123456789abcdef/7", b"P5")
            done = self.kept("out", "pnminvert", "out", "in/c.ppm")
            self.assertEqual((done.returncode, os.path.exists(self.path("out/c.ppm"))), (2, False))
            self.assertIn(said, done.stderr)

    def test_killed_run(self):
        """What a run has left that was killed goes with the next one's, once its last process has ended; nothing else
        does."""
        child = self.begun("pnminvert", "out", "in/c.ppm", "in/-d.pgm")
        workers = children_of(child.pid)
        child.kill()
        child.wait(timeout=PATIENCE)
        self.assertIn(b"in use", self.kept("out", "pnminvert", "out", "in/c.ppm").stderr)
        self.assertEqual(len(os.listdir(self.path(OWN))), 2)
        for worker in workers:
            os.kill(worker, signal.SIGKILL)
        self.assertTrue(all(map(has_ended, workers)))
        keep, given = self.write(OWN + "/run-album/keep", b"x"), self.tree("in")
        for name in os.listdir(self.path(OWN)):
            if name not in ("lock", "run-album"):
                # (a folder of files for a machine has links to them)
                os.symlink(self.path("in"), self.path(f"{OWN}/{name}/1.in"))
        done = self.files("pnminvert", "out", "in/c.ppm", "in/-d.pgm")
        self.assertEqual((done.returncode, self.read("out/-d.pgm"), self.tree("in")), (0, INVERTED, given))
        self.assertEqual(list(self.tree(OWN)), [self.path(OWN + "/run-album"), keep])

    def test_ended_before_it_begins(self):
        """A signal ends it where it has the lock and no workers yet, and leaves nothing."""
        for number in SIGNALS:
            child = self.begun("pnminvert", "out", "in/c.ppm", program="late")
            self.assertEqual(len(os.listdir(self.path(OWN))), 2)
            child.send_signal(number)
            self.assertEqual((child.wait(timeout=PATIENCE), self.parts()), (-number, []))
            os.remove(self.path("begun"))


class Results(Waiting):
    """Results that are whole, and that the log has."""

    def test_long_names(self):
        """A file may have as long a name as a file system takes."""
        for length in (239, 255):
            name = self.write("in/" + "n" * (length - 4) + ".pgm", GRAY)
            self.assertEqual(self.files("pnminvert", "out", name).returncode, 0)
            self.assertEqual(self.read("out/" + os.path.basename(name)), INVERTED)

    def test_file_replaced_while_it_was_run(self):
        """A result of a file that was replaced after it was read is made again."""
        child = self.begun("pnminvert", "out", "in/-d.pgm")
        os.rename(self.write("other", GRAY[:-1] + b"\x03"), self.path("in/-d.pgm"))
        self.write("go", b"")
        self.assertEqual((child.wait(timeout=PATIENCE), self.read("out/-d.pgm")), (0, INVERTED))
        done = self.files("--resume", "pnminvert", "out", "in/-d.pgm")
        self.assertEqual((done.stderr, self.read("out/-d.pgm")[-1]), (b"1 files, 0 failed, 0 left out\n", 6))
        done = self.files("--resume", "pnminvert", "out", "in/-d.pgm")
        self.assertEqual(done.stderr, b"0 files, 0 failed, 1 left out\n")

    def test_folder_on_another_disk(self):
        """Where a result can't be renamed into its folder, that is told, and nothing is left."""
        if run(["unshare", "-rm", "mount", "-t", "tmpfs", "none", self.folder]).returncode:
            self.skipTest("unshare(1) can't mount a disk here")
        script = f"mkdir -p out/in && mount -t tmpfs none out/in && {FILES} \"$@\"; "
        script += "status=$?; ls -A out/in; exit $status"
        words = ["--keep-folders", "pnminvert", "out", "in/c.ppm", self.write("c.ppm", COLOR)]
        done = run(["unshare", "-rm", "sh", "-c", script, "sh", *words], cwd=self.folder, env=self.environment())
        self.assertEqual((done.returncode, done.stdout, self.parts()), (1, b"", []))
        self.assertIn(b"in/c.ppm: its result can't be renamed: Invalid cross-device link; all of OUTDIR", done.stderr)
        self.assertEqual(self.read("out" + self.path("c.ppm"))[-3:], b"\x06\x05\x04")

    def limited(self, limit, most, *words):
        """A run under a limit of the system's."""

        def heed():
            resource.setrlimit(limit, (most, most))

        words = [sys.executable, FILES, *words]
        return run(words, cwd=self.folder, env=self.environment(), timeout=PATIENCE, preexec_fn=heed)

    def test_log_without_room(self):
        """No line of the log is cut, or joined with another one; each file whose line is lost has failed, once."""
        for data, failed in ((GRAY, 0), (GRAY[:-1], 100)):
            shutil.rmtree(self.path("out"), ignore_errors=True)
            names = [self.write(f"in/{at:02}.pgm", data) for at in range(100)]
            done = self.limited(resource.RLIMIT_FSIZE, 600, "pnminvert", "out", *names)
            log = self.read("out/pnmpipe-files.log")
            fault = b"pnmpipe: input: RasterCut" if failed else b""
            lines = [b"%d\t%s\t%s" % (failed > 0, os.fsencode(name), fault) for name in names]
            self.assertTrue(log.endswith(b"\n") and set(self.log()) < set(lines) and len(self.log()) > 1, log)
            said = f"100 files, {failed or 100 - len(self.log())} failed, 0 left out".encode()
            self.assertEqual((done.returncode, done.stderr.splitlines()[-1]), (1, said))
            self.files("--resume", "pnminvert", "out", *names)
            self.assertEqual(set(self.log()), set(lines))

    def test_log_of_a_killed_run(self):
        """The log of a resumed run has a line for each file, also for those that a killed run did and didn't tell."""
        child = self.begun("pnminvert", "out", "in/c.ppm")
        workers = children_of(child.pid)
        child.kill()
        child.wait(timeout=PATIENCE)
        self.write("go", b"")
        self.assertTrue(all(map(has_ended, workers)))
        self.assertEqual((self.log(), self.read("out/c.ppm")[-3:]), ([], b"\x06\x05\x04"))
        done = self.files("--resume", "pnminvert", "out", "in/c.ppm", "in/-d.pgm")
        self.assertEqual(done.stderr, b"1 files, 0 failed, 1 left out\n")
        self.assertEqual(self.log(), [b"0\tin/-d.pgm\t", b"0\tin/c.ppm\t"])
        self.write("out/pnmpipe-files.log", self.read("out/pnmpipe-files.log")[:-4])
        self.assertEqual(self.files("--resume", "pnminvert", "out", "in/c.ppm", "in/-d.pgm").returncode, 0)
        self.assertEqual(self.log(), [b"0\tin/-d.pgm\t", b"0\tin/c.ppm\t"])
        # (a log that ends in its first line is one of the same chain, where it has that line's beginning)
        self.write("out/pnmpipe-files.log", b"# pnm")
        self.assertEqual(self.files("--resume", "pnminvert", "out", "in/c.ppm").returncode, 0)
        self.assertEqual(self.read("out/pnmpipe-files.log"), b"# pnminvert\n0\tin/c.ppm\t\n")

    def test_few_descriptors(self):
        """Without a descriptor for what it needs it ends with a line, and leaves nothing."""
        failed, want = 0, rb"Too many open files\n"
        for most in range(6, 20):
            done = self.limited(resource.RLIMIT_NOFILE, most, "pnminvert", "out", "in/c.ppm")
            if done.returncode:
                of_file = rb"in/c.ppm: [^\n]*" + want + rb"1 files, 1 failed, 0 left out\n"
                self.assertRegex(done.stderr, rb"\A(pnmpipe-files: [^\n]*" + want + rb"|" + of_file + rb")\Z")
                failed += 1
            self.assertTrue(not os.path.exists(self.path("out")) or self.parts() == [], most)
        self.assertTrue(2 < failed < 14, failed)

    def test_too_large_for_a_limit(self):
        """A result that is larger than a file may be is told alike in process and by the program."""
        name = self.write("in/large.pgm", b"P5\n64 64\n255\n" + bytes(4096))
        for library in (test_files.NOWHERE, test_files.LIBRARY):
            if library:
                self.LIBRARY = library  # pylint: disable=invalid-name
                done = self.limited(resource.RLIMIT_FSIZE, 2048, "pnminvert", "out", name)
                self.assertEqual((done.returncode, self.parts()), (1, []))
                self.assertEqual(self.log(), [os.fsencode(f"1\t{name}\tpnmpipe: output: WriteFailed")])


def main():
    run_tests(test_files.parser(__doc__), test_files.take)


if __name__ == "__main__":
    main()
