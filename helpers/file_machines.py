"""Files that GNU parallel hands to several machines, some at a time: each machine gets a folder of them, calls the
program for each, and its results come back. `pnmpipe-files --machines` uses it.

The folders stand where parts of results do, and have a link to each file under its number, so that no machine sees what
a file is called.
"""

import os
import re
import shutil
import signal
import stat
import subprocess

from end_signals import heed
from file_tasks import refuse

# the most files that are handed over together, and the most bytes; and how many turns of a machine's there are at least
MOST_TOGETHER, MOST_BYTES, TURNS = 64, 64 << 20, 8

# what a machine does with a folder: $0 is its number, $1 where the folders stand here, and then comes the call, all of
# which are escaped. It tells each file's number, status and fault.
SCRIPT = r"""
for word do
    shift
    set -- "$@" "$(printf '%b' "$word")"
done
[ -d "$0.in" ] || cd "$1" || exit
shift
mkdir -p "$0.out"
trap '' XFSZ
for file in "$0.in"/*; do
    name=${file##*/}
    said=$("$@" 2>&1 < "$file" > "$0.out/$name")
    status=$?
    [ "$status" -eq 0 ] || rm -f "$0.out/$name"
    printf '\n%s\t%s\t' "$name" "$status"
    printf '%s' "$said" | tr '\n' ' '
    echo
done
"""
TOLD = re.compile(rb"([0-9]+)\t([0-9]+)\t(.*?) *\n")


def escaped(word):
    """A word as printf(1) reads it, in which GNU parallel finds nothing to replace."""
    return word.replace("\\", "\\\\").replace("{", "\\0173").replace("}", "\\0175")


def checked():
    """Wants GNU parallel to be there, and what it copies files with."""
    for name in ("parallel", "rsync"):
        if not shutil.which(name):
            refuse(f"{name} isn't there, and --machines wants it")
    said = subprocess.run(["parallel", "--version"], stdout=subprocess.PIPE, stderr=subprocess.DEVNULL, check=False)
    if not said.stdout.startswith(b"GNU parallel"):
        refuse("parallel isn't GNU parallel, which --machines wants")


class Machines:
    """A run over the machines, each of which is named as GNU parallel's option -S has it."""

    def __init__(self, worker, tell):
        self.tasks, self.words, self.options, self.tell = worker.tasks, worker.words, worker.options, tell
        self.explained, self.parts = worker.explained, worker.parts
        self.work = os.path.abspath(self.parts.path())
        # a time before any file is read
        self.began = os.stat(self.work).st_mtime_ns
        self.part_of, self.is_told = {}, bytearray(len(self.tasks))
        self.child = self.signal = None
        # how it is ended that hasn't ended yet
        self.ways = []

    def fail(self, number, status, fault):
        """Tells that a file has failed."""
        self.is_told[number] = 1
        explained = self.explained(self.tasks[number]) if fault.startswith("pnmpipe: ") else ""
        self.tell([], [(number, status, fault, explained)])

    def fill(self):
        """Makes the folders, and gives how many there are."""
        most = max(1, min(MOST_TOGETHER, len(self.tasks) // (TURNS * len(self.options.machines.split(",")))))
        at = count = size = 0
        for number, task in enumerate(self.tasks):
            try:
                found = os.stat(task.file)
                if not stat.S_ISREG(found.st_mode):
                    raise OSError(0, "is no file")
                os.close(os.open(task.file, os.O_RDONLY))
            except OSError as error:
                self.fail(number, 1, error.strerror)
                continue
            if at == 0 or count == most or size + found.st_size > MOST_BYTES:
                at, count, size = at + 1, 0, 0
                os.makedirs(os.path.join(self.work, f"{at}.in"))
            os.symlink(os.path.abspath(task.file), os.path.join(self.work, f"{at}.in", str(number)))
            self.part_of[number] = f"{at}.out/{number}"
            count, size = count + 1, size + found.st_size
        return at

    def command(self, count):
        """The call of GNU parallel."""
        words = ["parallel", "-S", self.options.machines, "--workdir", "...", "--rsync-opts", "-rLDzR"]
        words += ["--transferfile", "./{}.in", "--return", "./{}.out", "--cleanup", "--retries", "3"]
        words += [] if self.options.jobs is None else ["--jobs", str(self.options.jobs)]
        call = ["sh", "-c", SCRIPT, "{}", *map(escaped, [self.work, *self.words])]
        with open(os.path.join(self.work, "folders"), "w", encoding="ascii") as file:
            file.writelines(f"{number}\n" for number in range(1, count + 1))
        return [*words, "-a", "folders", "-q", *call]

    def end_by(self, number, _):
        """Ends the run, for a signal: GNU parallel begins nothing more after a first one, and ends its calls after a
        second one."""
        self.signal = self.signal or number
        if self.child:
            self.kill(signal.SIGTERM)
            self.ways = [signal.SIGTERM, signal.SIGKILL]
            signal.signal(signal.SIGALRM, self.go_on_ending)
            signal.setitimer(signal.ITIMER_REAL, 0.1, 0.5)

    def go_on_ending(self, *_):
        if self.ways:
            self.kill(self.ways.pop(0))

    def kill(self, number):
        try:
            os.killpg(self.child.pid, number)
        except ProcessLookupError:
            pass

    def all(self):
        """Runs all files until a signal comes, which is given."""
        heed(self.end_by)
        count = self.fill()
        if count and not self.signal:
            self.hand_over(count)
        return self.signal

    def hand_over(self, count):
        """Has GNU parallel hand the folders over, and takes what comes back."""
        words = {"cwd": self.work, "stdin": subprocess.DEVNULL, "stdout": subprocess.PIPE, "start_new_session": True}
        with subprocess.Popen(self.command(count), **words) as self.child:
            if self.signal:
                self.end_by(self.signal, None)
            for line in self.child.stdout:
                told = TOLD.fullmatch(line)
                if told and int(told[1]) in self.part_of:
                    self.take(int(told[1]), int(told[2]), told[3].decode(errors="replace"))
        signal.setitimer(signal.ITIMER_REAL, 0)
        if not self.signal:
            for number in [it for it in self.part_of if not self.is_told[it]]:
                self.fail(number, 1, f"no machine has done it: parallel's status is {self.child.returncode}")

    def take(self, number, status, fault):
        """Takes what a machine tells of a file, and its result."""
        if self.is_told[number]:
            return
        if status:
            self.fail(number, status, fault or f"status {status}")
            return
        part = self.part_of[number]
        try:
            os.utime(os.path.join(self.work, part), ns=(self.began, self.began), follow_symlinks=False)
            self.parts.finish(part, self.tasks[number].result, self.options.suffix)
        except OSError as error:
            self.fail(number, 1, "its result hasn't come back" if error.errno == 2 else error.strerror)
            return
        self.is_told[number] = 1
        self.tell([number], [])
