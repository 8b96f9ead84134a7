#!/usr/bin/env python3
"""Proves the crates that the program stands on, and no more, and builds it as bin/pnmpipe; as `build.py library` those
that the C library stands on, too, and builds that beside it, as bin/libpnmpipe.a and bin/libpnmpipe.so.1, with its
header.

Each crate is checked from nothing by `rattle build`, over the statements of the crates below it, as the gate checks it:
the proofs of libraries aren't loaded, as `rt check` loads them to begin with what it kept. Crates that don't stand on
one another are checked side by side. What is proved stands in bin/proved beside the sum of all that its check has read,
so that the next call takes what is the same: the statements of a crate as an archive, since they have copies of its
sources, and `rt` stops at a source of which it knows no crate. What each check printed stands in bin/log. RT_JOBS says
on how many processors, by default all that there are.
"""

import contextlib
import fcntl
import hashlib
import os
import shutil
import signal
import subprocess
import sys
import tempfile
import time

import library
from crates import ROOT, SIGNALS, SOURCES, Ended, below, end_by_signals, read_crates, read_lines

PROGRAM = "pnmpipe"
# the static library that the C library is made of
LIBRARY = "pnm_c"
PROVED = os.path.join(ROOT, "bin/proved")
TOLD = "from nothing 9 to 16 minutes on 4 cores, by the machine, and more on 2"

# how much memory a check wants, and how many processors it makes use of
MEMORY_OF_ONE = 4 << 30
MOST_JOBS = 4

# parts of the longest chain of crates: with a chain above it of at least the first one a crate has two processors where
# there are four, and gives no way; with less than the second one it takes none from others
LONG = 0.95
SHORT = 0.05

EVERY = 60
LAST_LINES = 30


def say(text):
    print(f"build: {text}", flush=True)


def given_jobs():
    """How many processors RT_JOBS gives; 0 if it gives none."""
    given = os.environ.get("RT_JOBS", "")
    return int(given) if given.isdigit() else 0


def processors():
    return given_jobs() or len(os.sched_getaffinity(0))


def free_memory():
    with open("/proc/meminfo", encoding="ascii") as file:
        return next(1024 * int(line.split()[1]) for line in file if line.startswith("MemAvailable"))


def most_checks():
    """How many checks may run side by side: as many as RT_JOBS says, or one a processor, as far as there is memory."""
    return given_jobs() or max(1, min(processors(), free_memory() // MEMORY_OF_ONE))


def told_by_rt(word):
    return subprocess.run(["rt", word], stdout=subprocess.PIPE, check=True, text=True).stdout.strip()


def files_of(name):
    """The files that a check reads of the crate."""
    folder = os.path.join(ROOT, "crates", name)
    walked = [it for part in SOURCES for it in os.walk(os.path.join(folder, part))]
    return sorted(os.path.join(at, file) for at, _, files in walked for file in files)


def lines_of(name):
    """How many lines of code the crate has, but for its tests: a check's time goes by these, and not by those of its
    proofs."""
    count = 0
    for path in files_of(name):
        if path.endswith(".rt") and "/src/tests" not in path:
            with open(path, "rb") as text:
                count += text.read().count(b"\n")
    return count


def proved(file):
    return os.path.join(PROVED, file)


def kept(name):
    """What is kept of a crate that is proved: the program, the static library, or an archive of its statements."""
    return proved({PROGRAM: PROGRAM, LIBRARY: f"lib{LIBRARY}.a"}.get(name, f"{name}.tar"))


def made_of(name, at):
    """What a check leaves in the folder: the program's object file, the static library, or statements."""
    return os.path.join(at, {PROGRAM: f"{PROGRAM}.o", LIBRARY: f"lib{LIBRARY}.a"}.get(name, f"{name}.rlib"))


def text_of(path):
    with contextlib.suppress(OSError), open(path, encoding="utf-8") as file:
        return file.read()
    return None


@contextlib.contextmanager
def alone():
    """Waits until no other call builds in this checkout."""
    os.makedirs(PROVED, exist_ok=True)
    folder = os.open(PROVED, os.O_RDONLY)
    try:
        try:
            fcntl.flock(folder, fcntl.LOCK_EX | fcntl.LOCK_NB)
        except BlockingIOError:
            say("waits until another build in this checkout has ended")
            fcntl.flock(folder, fcntl.LOCK_EX)
        yield
    finally:
        os.close(folder)


class Toolchain:
    """Where the toolchain stands, and its commands for a crate."""

    def __init__(self):
        self.folder = os.path.dirname(told_by_rt("doc"))
        self.version = told_by_rt("version")
        self.lines = read_lines()

    def path(self, file):
        return os.path.join(self.folder, file)

    def sum(self, name, sums):
        """A sum of all that the crate's check reads, given those of the crates that it names."""
        words = self.lines[name]
        made = hashlib.sha256(repr((self.version, name, words, [sums.get(it) for it in words])).encode())
        for path in files_of(name):
            with open(path, "rb") as file:
                made.update(repr((os.path.relpath(path, ROOT), file.read())).encode())
        return made.hexdigest()

    def words(self, verb, name, jobs, at):
        """The words of rattle for a check of the crate over what the folder has of those below it."""
        words = [self.path("bin/rattle"), verb, "--crate-name", name]
        words += ["src/main.rt" if name == PROGRAM else "src/lib.rt"]
        for library in ["std", *self.lines[name]]:
            own = library in self.lines
            folder = made_of(library, at) if own else self.path(f"rlibs/{library}.rlib")
            words += ["--extern", f"{library}={folder}"]
        words += ["-L", f"dependency={at}", "-L", f"dependency={self.path('rlibs')}"]
        words += ["--antt-project", self.path("rattle/logic/antt-project.json")]
        words += ["--logic-built", self.path("logic_built"), "--jobs", str(jobs), "--links", f"{name}="]
        return words + (["--crate-type", "staticlib"] if name == LIBRARY else [])

    def build(self, name, jobs, at):
        """Checks the crate over what the folder has of those below it, and writes there its statements, the program's
        object file, or the static library."""
        more = ["--toolchain", self.path("toolchain")] if name in (PROGRAM, LIBRARY) else ["--statements"]
        return [*self.words("build", name, jobs, at), *more, "-o", made_of(name, at)]

    def link(self, program, at):
        """Links the program's object file with what the standard library needs of C."""
        words = [self.path("bin/rattle-link"), "--target", "x86_64-unknown-linux-gnu"]
        words += ["--toolchain", self.path("toolchain"), "-o", program, made_of(PROGRAM, at)]
        return [*words, self.path("c/libos_c.a"), self.path("c/liblibc_c.a")]


@contextlib.contextmanager
def signals_held():
    """Has signals wait, so that none comes between the start of a process and the note of it. Gives those that waited
    before."""
    before = signal.pthread_sigmask(signal.SIG_BLOCK, SIGNALS)
    try:
        yield before
    finally:
        signal.pthread_sigmask(signal.SIG_SETMASK, before)


class Run:
    """A command for a crate, one of `runs` from its start on, with processes of its own that give way by so much, its
    output in a file of bin/log."""

    def __init__(self, runs, name, words, jobs=1, way=0, **streams):
        self.name = name
        self.jobs = jobs
        self.start = time.monotonic()
        self.path = os.path.join(ROOT, "bin/log", name)
        with open(self.path, "w", encoding="utf-8") as log:
            streams = {"stdin": subprocess.DEVNULL, "stdout": log, "stderr": log, **streams}
            folder = os.path.join(ROOT, "crates", name)
            words = ["nice", "-n", str(way), *words] if way else words
            with signals_held() as before:

                def be_alone():
                    # (no session of its own, since sessions share the processors alike, whatever gives way in them)
                    os.setpgrp()
                    signal.pthread_sigmask(signal.SIG_SETMASK, before)

                self.child = subprocess.Popen(words, cwd=folder, preexec_fn=be_alone, **streams)
                runs.append(self)

    def seconds(self):
        return time.monotonic() - self.start

    def stop(self):
        if self.child.poll() is None:
            with contextlib.suppress(ProcessLookupError):
                os.killpg(self.child.pid, signal.SIGKILL)
            self.child.wait()

    def fault(self):
        """Says that it failed, with what it printed last."""
        with open(self.path, encoding="utf-8", errors="replace") as log:
            last = log.read().splitlines()[-LAST_LINES:]
        print("\n".join(last), flush=True)
        say(f"{self.name} FAILED, status {self.child.returncode}: above are the last lines of bin/log/{self.name}")
        return 1


class Build:
    """The crates that are left, the checks that run, and a folder for what they read and leave."""

    def __init__(self, toolchain, most, room, targets=(PROGRAM,)):
        crates = read_crates()
        self.toolchain = toolchain
        self.room = room
        self.targets = targets
        # how many checks may run at a time
        self.most = most
        wanted = set(targets).union(*(below(crates, it) for it in targets))
        self.crates = {name: below(crates, name) for name in crates if name in wanted}
        self.sums = {}
        for name in self.crates:
            self.sums[name] = toolchain.sum(name, self.sums)
        self.done = set()
        for name in self.crates:
            if self.crates[name] <= self.done and self.is_proved(name):
                self.done.add(name)
        self.left = [name for name in self.crates if name not in self.done]
        self.begun = len(self.done)
        self.runs = []
        self.behind = {}
        for name in reversed(self.crates):
            above = [self.behind[it] for it in self.crates if name in self.crates[it]]
            self.behind[name] = lines_of(name) + max(above, default=0)
        # the program's check takes as long as those of the crates that are the library's alone, which have more lines
        others = set(self.crates) - below(crates, PROGRAM)
        self.behind[PROGRAM] = max(self.behind[it] for it in others)

    def is_proved(self, name):
        """Whether what an earlier call made of the crate is there, and still the same would be made."""
        return os.path.exists(kept(name)) and text_of(proved(f"{name}.sum")) == self.sums[name]

    def unpack(self):
        """Lays out the statements of crates that were proved, where something is left to prove over them."""
        for name in self.done.intersection(set().union(*(self.crates[it] for it in self.left))):
            shutil.unpack_archive(kept(name), self.room)

    def ready(self):
        """What can be checked now, first what the longest chain stands on."""
        names = [name for name in self.left if self.crates[name] <= self.done]
        return sorted(names, key=lambda it: -self.behind[it])

    def part(self, name):
        """The chain above the crate, as a part of the longest one above a crate that is being checked or can be now."""
        return self.behind[name] / max(self.behind[it] for it in [*(run.name for run in self.runs), *self.ready()])

    def free(self):
        """How many processors no check was given; fewer than none where the longest chains have one too many."""
        return processors() - sum(run.jobs for run in self.runs)

    def jobs(self, name):
        """How many processors the crate's check gets: what others that can begin now leave it. A check takes more time
        of all processors together the more of them it has."""
        if self.part(name) < SHORT:
            return 1
        others = [it for it in self.ready() if it != name and self.part(it) >= SHORT]
        others = others[: max(0, self.most - len(self.runs) - 1)]
        least = 2 if processors() >= 4 and self.part(name) >= LONG else 1
        return max(least, min(MOST_JOBS, self.free() - len(others)))

    def way(self, name):
        """By how much the crate's check gives way (nice(1)): not at all on the longest chain, else by how short its own
        chain is."""
        part = self.part(name)
        return 0 if part >= LONG else 5 + round(10 * (1 - part))

    def fill(self):
        """Begins what can be. A check makes use of one processor at its ends, so of four processors one is given out
        twice."""
        over = 1 if processors() >= 4 else 0
        for name in self.ready():
            may_wait = self.part(name) < SHORT
            if len(self.runs) < self.most and self.free() + (0 if may_wait else over) > 0:
                self.begin(name, self.jobs(name), self.way(name))

    def begin(self, name, jobs, way):
        self.left.remove(name)
        self.begun += 1
        with contextlib.suppress(FileNotFoundError):
            os.remove(proved(f"{name}.sum"))
        Run(self.runs, name, self.toolchain.build(name, jobs, self.room), jobs, way)
        say(f"{self.begun} of {len(self.crates)}: {name}" + (f", on {jobs} processors" if jobs > 1 else ""))

    def keep(self, name):
        """Keeps what a check has left of the crate."""
        if name == LIBRARY:
            shutil.copy(made_of(name, self.room), kept(name))
        elif name != PROGRAM:
            shutil.make_archive(proved(name), "tar", self.room, f"{name}.rlib")

    def note(self, name):
        """Notes that what was made of the crate is whole, and from which files, if these are still as they were."""
        if self.toolchain.sum(name, self.sums) == self.sums[name]:
            with open(proved(f"{name}.sum"), "w", encoding="utf-8") as file:
                file.write(self.sums[name])

    def prove(self):
        """Proves the crates, the program and the library last. Gives the status."""
        told = time.monotonic()
        self.unpack()
        while self.left or self.runs:
            self.fill()
            time.sleep(0.1)
            for run in [it for it in self.runs if it.child.poll() is not None]:
                self.runs.remove(run)
                if run.child.returncode:
                    return run.fault()
                self.done.add(run.name)
                if run.name != PROGRAM:
                    self.keep(run.name)
                    self.note(run.name)
                say(f"{run.name} is proved, {run.seconds():.0f} s")
            if self.runs and time.monotonic() - told > EVERY:
                told = time.monotonic()
                say("at work: " + ", ".join(f"{run.name} for {run.seconds():.0f} s" for run in self.runs))
        return 0

    def ended(self, run):
        """Waits until a command has ended, as a signal to this script ends it too."""
        run.child.wait()
        self.runs.remove(run)
        return run

    def finish(self):
        """Makes of what was built what is left in bin. Gives the status."""
        if LIBRARY not in self.targets:
            return self.link()
        return self.link() or library.make(kept(LIBRARY), os.path.join(ROOT, "bin"), self.toolchain.path("c"))

    def link(self):
        """Links the program where it was built anew, and has it pass its stored run. Gives the status."""
        folder, program = os.path.join(ROOT, "crates", PROGRAM), proved(PROGRAM)
        if text_of(proved(f"{PROGRAM}.sum")) != self.sums[PROGRAM]:
            run = self.ended(Run(self.runs, PROGRAM, self.toolchain.link(program, self.room)))
            if run.child.returncode:
                return run.fault()
            self.note(PROGRAM)
        written = os.path.join(ROOT, "bin/stored-run")
        with open(os.path.join(folder, "stdin"), "rb") as given, open(written, "wb") as made:
            run = self.ended(Run(self.runs, PROGRAM, [program, "pnminvert"], stdin=given, stdout=made))
            if run.child.returncode:
                return run.fault()
        with open(written, "rb") as made, open(os.path.join(folder, "stdout"), "rb") as wanted:
            if made.read() != wanted.read():
                say(f"{PROGRAM} FAILED: bin/stored-run isn't crates/{PROGRAM}/stdout")
                return 1
        os.remove(written)
        shutil.copy(program, os.path.join(ROOT, "bin/new"))
        os.replace(os.path.join(ROOT, "bin/new"), os.path.join(ROOT, "bin", PROGRAM))
        return 0

    def stop(self):
        for run in self.runs:
            run.stop()


def build(targets, room):
    start = time.monotonic()
    this = Build(Toolchain(), most_checks(), room, targets)
    taken = f"; {len(this.done)} were proved before" if this.done else ""
    named = "program and the library" if LIBRARY in targets else "program"
    say(f"{len(this.crates)} crates, the {named} among them, on {processors()} processors{taken}")
    if not this.done:
        say(TOLD)
    try:
        status = this.prove() or this.finish()
    finally:
        this.stop()
    if not status:
        minutes, seconds = divmod(round(time.monotonic() - start), 60)
        left = f"bin/{library.SHARED} are" if LIBRARY in targets else "is"
        say(f"bin/{PROGRAM} {'and ' if LIBRARY in targets else ''}{left} built: {minutes} min {seconds} s")
    return status


def main():
    if sys.argv[1:] not in ([], ["library"]):
        sys.exit("build: say nothing, or library")
    if sys.argv[1:] and library.lacks_tools():
        return 1
    end_by_signals()
    os.makedirs(os.path.join(ROOT, "bin/log"), exist_ok=True)
    try:
        with alone(), tempfile.TemporaryDirectory(prefix="pnmpipe-build-") as room:
            return build((PROGRAM, LIBRARY) if sys.argv[1:] else (PROGRAM,), room)
    except Ended as ended:
        say("ended by a signal; a next call goes on with what is proved")
        return 128 + ended.args[0]


if __name__ == "__main__":
    sys.exit(main())
