"""The folder that a run has in OUTDIR, `.pnmpipe-files`, where its results stand until they are whole. A lock in it
keeps other runs away. Elsewhere in OUTDIR a run writes results and the log alone, and removes nothing. `pnmpipe-files`
uses it."""

import contextlib
import errno
import fcntl
import os
import re
import shutil
import stat
import time

from file_tasks import KINDS, OWN, refuse

# the lock, and what it tells: a run's machine, process, start, start of the kernel, and folder
LOCK = "lock"
TOLD = re.compile(r"([^\t\n]*)\t([0-9]+)\t([^\t\n]*)\t([^\t\n]*)\t(run-[0-9a-f]{16})\n")
FLAGS = os.O_RDWR | os.O_NOFOLLOW | os.O_NONBLOCK


def quietly(call, *words, **others):
    """Calls what may fail, and is no worse for it."""
    with contextlib.suppress(OSError):
        call(*words, **others)


def boot():
    """What tells this start of this machine's kernel from all others; nothing where it can't be read."""
    try:
        with open("/proc/sys/kernel/random/boot_id", encoding="ascii") as file:
            return file.read().strip()
    except OSError:
        return ""


class Parts:
    """The parts of a run: results that aren't whole, in a folder of the run's own.

    Whoever makes .pnmpipe-files has it. A lock in it tells who that is, and the kernel has a lock on that file until
    the run's last process has ended: so it is known on one machine, whatever namespaces processes have, whether the run
    goes on. Then the next run takes over what is left.
    """

    def __init__(self, folder):
        self.folder, self.own, self.run = folder, os.path.join(folder, OWN), f"run-{os.urandom(8).hex()}"
        # the descriptors of .pnmpipe-files and of the lock, and whether this run has them
        self.place = self.lock = None
        self.is_held = False

    def path(self):
        """The run's folder."""
        return os.path.join(self.own, self.run)

    def begin(self):
        """Takes .pnmpipe-files, or refuses what isn't surely free, and makes the run's folder there."""
        try:
            for _ in range(100):
                if self.make() or self.take_over():
                    break
                # another run begins or ends just now
                self.end()
                time.sleep(0.01)
            else:
                refuse(f"{self.own} isn't a folder of a run of pnmpipe-files: move it away")
            began = time.strftime("%Y-%m-%d %H:%M:%S %z")
            told = f"{os.uname().nodename}\t{os.getpid()}\t{began}\t{boot()}\t{self.run}\n".encode()
            os.pwrite(self.lock, told, 0)
            os.ftruncate(self.lock, len(told))
            os.mkdir(self.run, dir_fd=self.place)
        except OSError as error:
            refuse(f"{self.own}: {error.strerror or error}")

    def end(self):
        """Removes the parts, the lock and the folders, where nothing else stands in them."""
        if self.is_held:
            shutil.rmtree(self.path(), ignore_errors=True)
            # (which wants no descriptor)
            quietly(os.rmdir, self.path())
            if self.lock is not None and not os.path.lexists(self.path()):
                quietly(os.unlink, LOCK, dir_fd=self.place)
        for descriptor in (self.lock, self.place):
            if descriptor is not None:
                quietly(os.close, descriptor)
        if self.is_held:
            quietly(os.rmdir, self.own)
        self.place = self.lock = None
        self.is_held = False

    def make(self):
        """Makes .pnmpipe-files; tells whether it wasn't there."""
        try:
            os.mkdir(self.own)
        except FileExistsError:
            return False
        self.is_held = True
        self.place = os.open(self.own, os.O_RDONLY | os.O_DIRECTORY | os.O_NOFOLLOW)
        self.lock = os.open(LOCK, FLAGS | os.O_CREAT | os.O_EXCL, 0o666, dir_fd=self.place)
        # (whoever looks at it just now lets it go)
        quietly(fcntl.flock, self.lock, fcntl.LOCK_EX)
        return True

    def take_over(self):
        """Takes .pnmpipe-files where it is of a run on this machine that has ended, and removes what that has left;
        tells whether it was there and said who has it."""
        try:
            if not stat.S_ISDIR(os.lstat(self.own).st_mode):
                return False
            self.place = os.open(self.own, os.O_RDONLY | os.O_DIRECTORY | os.O_NOFOLLOW)
            self.lock = os.open(LOCK, FLAGS, dir_fd=self.place)
            is_over = self.is_over()
            told = TOLD.match(os.read(self.lock, 1024).decode(errors="replace"))
            of_path = os.stat(LOCK, dir_fd=self.place, follow_symlinks=False)
        except FileNotFoundError:
            return False
        if told is None or not os.path.samestat(of_path, os.fstat(self.lock)):
            return False
        who = f"a run that process {told[2]} on {told[1]} began at {told[3]}"
        if is_over is False:
            refuse(f"{self.folder} is in use by {who}")
        if is_over is None or told[4] != boot() or not told[4]:
            refuse(f"{self.folder} is locked by {who}: once that has ended, remove {self.own}")
        with contextlib.suppress(FileNotFoundError):
            shutil.rmtree(os.path.join(self.own, told[5]))
        self.is_held = True
        return True

    def is_over(self):
        """Whether no process on this machine has the lock; None on a file system where that isn't known."""
        try:
            fcntl.flock(self.lock, fcntl.LOCK_EX | fcntl.LOCK_NB)
            return True
        except BlockingIOError:
            return False
        except OSError:
            return None

    def create(self, name):
        """A descriptor of a new part."""
        try:
            return os.open(f"{self.run}/{name}", os.O_WRONLY | os.O_CREAT | os.O_EXCL, 0o666, dir_fd=self.place)
        except OSError as error:
            raise OSError(error.errno, f"its result can't be written: {error.strerror}") from error

    def finish(self, name, result, suffix):
        """Gives a part its name as a result, in a folder that is made where it isn't there; with a suffix that of its
        kind."""
        part, kind = f"{self.run}/{name}", ""
        try:
            if suffix:
                with open(os.open(part, os.O_RDONLY, dir_fd=self.place), "rb", buffering=0) as file:
                    kind = KINDS.get(file.read(2), "")
            try:
                os.rename(part, result + kind, src_dir_fd=self.place)
            except FileNotFoundError:
                os.makedirs(os.path.dirname(result), exist_ok=True)
                os.rename(part, result + kind, src_dir_fd=self.place)
        except OSError as error:
            hint = "; all of OUTDIR has to be one file system" if error.errno == errno.EXDEV else ""
            raise OSError(error.errno, f"its result can't be renamed: {error.strerror}{hint}") from error

    def remove(self, name):
        """Takes a part away, if it is there."""
        quietly(os.unlink, f"{self.run}/{name}", dir_fd=self.place)

    def is_there(self, name):
        """Whether a part is there."""
        try:
            os.stat(f"{self.run}/{name}", dir_fd=self.place, follow_symlinks=False)
            return True
        except OSError:
            return False
