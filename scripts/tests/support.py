"""What the tests share: where the modules stand that they try, which are found once this one is imported; a folder of a
test's own, the program, images, and how a helper is run and loaded."""

import argparse
import functools
import os
import shutil
import signal
import subprocess
import sys
import tempfile
import time
import unittest

sys.dont_write_bytecode = True
sys.path.append(os.path.dirname(os.path.dirname(os.path.abspath(__file__))))

# pylint: disable=unused-import,wrong-import-position
from places import HELPERS, ROOT, SCRIPTS, read

from chain_text import loaded
from tool_table import OLD_NAMES, OPTIONS

GRAY = b"P5\n2 1\n9\n\x01\x02"
COLOR = b"P6\n1 1\n9\n\x03\x04\x05"

# seconds after which a test ends that hangs: more than what a busy machine takes for any step
PATIENCE = 600

# the signals that end a helper
SIGNALS = (signal.SIGTERM, signal.SIGINT, signal.SIGHUP)

# the tools that have a stand-in
SHIMS = [*OPTIONS, *OLD_NAMES]


def run(words, given=b"", **others):
    return subprocess.run(words, input=given, capture_output=True, check=False, **others)


def has_ended(process):
    """Whether a process has ended, or does soon: the kernel may still have to end one that was killed, and whoever it
    is left to may not have taken its status yet."""
    end = time.monotonic() + PATIENCE
    while time.monotonic() < end:
        try:
            with open(f"/proc/{process}/stat", encoding="ascii", errors="replace") as file:
                if file.read().rpartition(")")[2].split()[0] == "Z":
                    return True
        except OSError:
            return True
        time.sleep(0.01)
    return False


def heed_signals():
    """Has a process heed the signals that end it, some of which nohup, or a shell that runs the tests in the
    background, has ignored."""
    for number in SIGNALS:
        signal.signal(number, signal.SIG_DFL)


class Folder(unittest.TestCase):
    """A test that has a folder of its own."""

    def setUp(self):
        self.folder = tempfile.mkdtemp()
        self.addCleanup(shutil.rmtree, self.folder)

    def path(self, name):
        return os.path.join(self.folder, name)

    def write(self, name, data, mode=0o644):
        os.makedirs(os.path.dirname(self.path(name)), exist_ok=True)
        with open(self.path(name), "wb") as file:
            file.write(data)
        os.chmod(self.path(name), mode)
        return self.path(name)

    def read(self, name):
        with open(self.path(name), "rb") as file:
            return file.read()

    def assert_within(self, seconds, attempt):
        """Wants an attempt to tell fewer seconds than these, a second one where the first has not: a machine that is
        busy with other things may be late once."""
        if attempt() >= seconds:
            self.assertLess(attempt(), seconds)


def program_of(path):
    """The program's path as a whole; None, which is said, where it isn't there."""
    if os.access(path, os.X_OK):
        return os.path.abspath(path)
    print(f"{os.path.basename(sys.argv[0])}: there is no {path}, so tests that want it are passed over")
    return None


@functools.cache
def wants(name):
    """Passes what it decorates over, which is said, where a program isn't installed."""
    if shutil.which(name):
        return lambda tested: tested
    print(f"{os.path.basename(sys.argv[0])}: {name} isn't installed, so tests that want it are passed over")
    return unittest.skip(f"{name} isn't installed")


class Program(Folder):
    """A test that wants the program. It is passed over if there is none."""

    PROGRAM = None

    def setUp(self):
        super().setUp()
        if self.PROGRAM is None:
            self.skipTest("there is no program")


def parser_of(doc):
    """What reads the words of a script of tests that has this docstring."""
    parser = argparse.ArgumentParser(description=doc.split("\n", maxsplit=1)[0])
    parser.add_argument("--program", default=f"{ROOT}/bin/pnmpipe")
    return parser


def run_tests(parser, take=lambda options: None):
    """Runs the tests of the script, which takes its own options first. Words that name no option name tests."""
    options, tests = parser.parse_known_args()
    Program.PROGRAM = program_of(options.program)
    take(options)
    unittest.main(argv=[sys.argv[0], *tests])
