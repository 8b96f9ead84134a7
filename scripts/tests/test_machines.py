#!/usr/bin/env python3
"""Tests of pnmpipe-files over several machines, one of which is this one by an sshd on the loopback, which is started
for the tests alone. They want GNU parallel, rsync and an sshd; where these aren't installed they are passed over, and
that is said. The program is named by --program.
"""

import os
import shutil
import signal
import subprocess
import sys
import time
import unittest

sys.dont_write_bytecode = True

# pylint: disable=wrong-import-position
from support import GRAY, PATIENCE, parser_of, run, run_tests

from recipes import Host
from test_files import FILES, Runs

WANTED = ("parallel", "rsync", "ssh", "ssh-keygen", "sshd")
LACKING = [name for name in WANTED if not shutil.which(name, path=f"{os.environ['PATH']}:/usr/sbin:/sbin")]


# with words that parallel would replace, and that a shell would read
CHAIN = "pamcut -left 1 | pamchannel 0 -tupletype {}{#}\\173$PATH'%s'"


@unittest.skipIf(LACKING, "some programs aren't installed")
class Machines(Runs):
    def setUp(self):
        super().setUp()
        os.mkdir(self.path("bin"))
        self.host = Host(self.folder, os.environ["PATH"])
        self.addCleanup(self.host.end)
        if not self.host.child:
            self.skipTest("no sshd can be entered")
        for name in ("two\nlines.pgm", "back\\slash 'quote' $(touch x).pgm", "{}.pgm", "-x.pgm"):
            self.write("in/" + name, GRAY)
        names = sorted(os.listdir(self.path("in")))
        self.write("list", b"\0".join(os.fsencode("in/" + name) for name in [*names, "none"]))

    def environment(self, program=None):
        path = f"{self.path('bin')}:{os.environ['PATH']}"
        return {**super().environment(program), "PATH": path, "HOME": self.path("home")}

    def over(self, machines, *words):
        os.makedirs(self.path("home"), exist_ok=True)
        return self.files("--machines", machines, "--jobs", "2", *words)

    def test_same_as_here(self):
        """Files get the same results and lines by machines as here, whatever their names are."""
        told = []
        for machines in ("host", "host,:", None):
            shutil.rmtree(self.path("out"), ignore_errors=True)
            words = ("--suffix", CHAIN, "out", "--names0", "list")
            done = self.over(machines, *words) if machines else self.files(*words)
            self.assertEqual(done.returncode, 1)
            names = [name for name in os.listdir(self.path("out")) if not name.endswith(".log")]
            made = {name: self.read("out/" + name) for name in names}
            told.append((made, self.log(), sorted(done.stderr.split(b"\n"))))
        self.assertEqual(told[0], told[2])
        self.assertEqual(told[1], told[2])
        self.assertEqual((len(told[0][0]), len(told[0][1]), os.path.exists(self.path("x"))), (6, 9, False))

    def test_no_machine(self):
        """Where no machine does a file, that is told of it, and --resume does it."""
        done = self.over("no.invalid", "pnminvert", "out", "in/-x.pgm")
        self.assertIn(b"in/-x.pgm: no machine has done it", done.stderr)
        self.assertEqual((done.returncode, os.listdir(self.path("out"))), (1, ["pnmpipe-files.log"]))
        done = self.over("host", "--resume", "pnminvert", "out", "in/-x.pgm")
        self.assertEqual((done.returncode, self.read("out/-x.pgm")), (0, GRAY[:-2] + b"\x08\x07"))

    def test_killed(self):
        """A signal ends it within a second, with no part left."""
        os.mkdir(self.path("home"))
        slow = f"[ ! -c /dev/stdin ] || exec {self.program()} \"$@\"\necho $$ >> {self.path('calls')}\nexec sleep 60\n"
        slow = self.write("slow", b"#!/bin/sh\n" + slow.encode(), 0o755)
        words = [FILES, "--machines", "host,:", "--jobs", "2", "pnminvert", "out", "in/-x.pgm", "in/{}.pgm"]

        def seconds_to_end():
            self.write("calls", b"")
            with subprocess.Popen(words, cwd=self.folder, env=self.environment(slow), stderr=subprocess.PIPE) as child:
                while not self.read("calls"):
                    time.sleep(0.01)
                start = time.monotonic()
                child.send_signal(signal.SIGTERM)
                child.communicate(timeout=PATIENCE)
                seconds = time.monotonic() - start
            for process in self.read("calls").split():
                run(["kill", process])
            self.assertEqual(child.returncode, -signal.SIGTERM)
            self.assertEqual(os.listdir(self.path("out")), ["pnmpipe-files.log"])
            return seconds

        self.assert_within(1, seconds_to_end)


def main():
    if LACKING:
        print(f"test_machines.py: there is no {', '.join(LACKING)}, so nothing is handed to machines")
    run_tests(parser_of(__doc__))


if __name__ == "__main__":
    main()
