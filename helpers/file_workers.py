"""Processes side by side that run a chain over files: small files through the C library in the process itself, each as
a run of its own, and others by a call of the program. `pnmpipe-files` uses it.

The files are handed out some at a time, by a pipe that all workers read. What becomes of each stands in memory that
they share, so that it is known of a worker that was killed, too.
"""

import marshal
import math
import mmap
import os
import select
import signal
import stat
import struct
import sys
import time

from end_signals import SIGNALS, heed

HERE = os.path.dirname(os.path.abspath(__file__))

# the most bytes that the results of a small file may come to, and of bytes of results to one of the file: a pixel of
# PBM may become a sample of 16 bits, and that six characters
MOST_RESULTS = 64 << 20
MOST_OF_DEPTH, MOST_OF_PLAIN = 16, 3

# the first file of some that are handed out together, and the one behind the last one; the most of them; and how many
# turns of each worker are left while it is handed so many
SPAN = struct.Struct("II")
LENGTH = struct.Struct("I")
MOST_TOGETHER, TURNS = 32, 8

# what becomes of a file: it is begun, and again, by the program, once a worker has died of it; its result gets its
# name, and is there
WAITS, BEGUN, FAILED_ONCE, BEGUN_AGAIN, FINISHING, DONE = range(6)

# seconds after which a worker tells what it has done
EVERY = 0.1


def call(words, source, target=None):
    """Calls a program: its status, less than 0 for a signal, and what it has said; with no target all of it."""
    said, errors = os.pipe()
    try:
        try:
            places = enumerate((source, errors if target is None else target, errors))
            moves = [(os.POSIX_SPAWN_DUP2, descriptor, place) for place, descriptor in places]
            # python3 ignores this one; it ignores XFSZ, too, and so the program tells what is too large for a limit
            own = [signal.SIGPIPE]
            process = os.posix_spawnp(words[0], words, os.environ, file_actions=moves, setsigdef=own)
        finally:
            os.close(errors)
        _, status = os.waitpid(process, 0)
        # what is there: a program that the call started may still hold the pipe
        os.set_blocking(said, False)
        try:
            text = os.read(said, 65536).decode(errors="replace").strip()
        except BlockingIOError:
            text = ""
        return os.waitstatus_to_exitcode(status), text
    finally:
        os.close(said)


def growth_of(chain, is_plain):
    """A bound of the bytes that a good chain, or any beginning of it, makes of one byte of its input."""
    growth = MOST_OF_DEPTH * (MOST_OF_PLAIN if is_plain else 1)
    for stage in chain.split("|"):
        name, *words = stage.replace("=", " ").split()
        numbers = math.prod(int(word) for word in words if word.isdecimal())
        if name == "pamenlarge":
            growth *= numbers if "-" in stage else numbers * numbers
        elif name == "pnmtile":
            growth *= numbers
        elif name == "pamchannel":
            # (an image has 8 bytes at least, and a header of PAM some 80 beside the tuple type)
            growth *= len(words) + len(stage) // 8 + 10
    return growth


def module_of(version):
    """The Python module over the C library, where both are there and the library has the program's version."""
    places = [os.path.join(HERE, "../bin/libpnmpipe.so.1"), os.path.join(HERE, "../../lib/libpnmpipe.so.1")]
    found = [place for place in places if os.path.exists(place)]
    if found and not os.environ.get("PNMPIPE_LIBRARY"):
        os.environ["PNMPIPE_LIBRARY"] = found[0]
    # the module stands beside this file, in the source elsewhere, or where python3 finds it
    sys.path.append(os.path.join(HERE, "../library/python"))
    try:
        import pnmpipe  # pylint: disable=import-outside-toplevel

        return pnmpipe if f"pnmpipe {pnmpipe.version()}" == version else None
    except (ImportError, OSError, AttributeError):
        return None


def keep_memory():
    """Has the C library's heap keep what is freed, as mallopt(3) says it: else pages of each file come anew from the
    kernel, which takes longer than a chain."""
    import ctypes  # pylint: disable=import-outside-toplevel

    try:
        mallopt = ctypes.CDLL(None).mallopt
    except AttributeError:
        return
    trim_threshold, mmap_threshold = -1, -3
    mallopt(mmap_threshold, 32 << 20)
    mallopt(trim_threshold, 4 * MOST_RESULTS)


class Worker:
    """A process that runs the chain over the files that it is handed."""

    def __init__(self, tasks, parts, words, options):
        self.tasks, self.parts, self.words, self.options = tasks, parts, words, options
        self.chain = words[-1]
        # what becomes of each file, in memory that all workers have
        self.states = None
        self.module, self.most = None, -1
        # what pnmpipe-explain says, once a file has failed
        self.explain = None
        self.done, self.failed, self.told = [], [], time.monotonic()

    def use(self, module):
        """Has small files run in the process."""
        if module is not None:
            self.module = module
            self.most = min(self.options.small, MOST_RESULTS // growth_of(self.chain, self.options.plain))

    def work(self, own, queue, report, place):
        """Runs some files of its own, and takes others until there are none."""
        if self.module:
            keep_memory()
        for number in own:
            self.one(number)
            self.tell(report)
        while len(span := os.read(queue, SPAN.size)) == SPAN.size:
            self.states[place : place + SPAN.size] = span
            for number in range(*SPAN.unpack(span)):
                self.one(number)
                if time.monotonic() - self.told > EVERY:
                    self.tell(report)
            self.tell(report)

    def tell(self, report):
        """Tells what has become of the files since it was told last."""
        text = marshal.dumps((self.done, self.failed))
        text = LENGTH.pack(len(text)) + text
        while text:
            text = text[os.write(report, text) :]
        self.done, self.failed, self.told = [], [], time.monotonic()

    def one(self, number):
        """Runs the chain over a file."""
        task, states = self.tasks[number], self.states
        is_again = states[number] == FAILED_ONCE
        states[number] = BEGUN_AGAIN if is_again else BEGUN
        try:
            status, fault = self.run(number, is_again)
            if status == 0:
                states[number] = FINISHING
                self.parts.finish(number, task.result, self.options.suffix)
                states[number] = DONE
                self.done.append(number)
                return
        except OSError as error:
            status, fault = 1, error.strerror
            states[number] = BEGUN
            self.parts.remove(number)
        explained = self.explained(task) if fault.startswith("pnmpipe: ") else ""
        self.failed.append((number, status, fault, explained))

    def run(self, number, is_again):
        """Leaves the results of a file in its part, which isn't there after a fault: the status, and the fault."""
        file = self.tasks[number].file
        found = os.stat(file)
        if not stat.S_ISREG(found.st_mode):
            raise OSError(0, "is no file")
        target = self.parts.create(number)
        status = 1
        try:
            # a result has the time at which its file isn't read yet, so that a change of that since then is seen
            began = os.fstat(target).st_mtime_ns
            source = os.open(file, os.O_RDONLY)
            try:
                told = None if found.st_size > self.most or is_again else self.in_process(source, target, found.st_size)
                status, fault = told or self.by_program(source, target)
            finally:
                os.close(source)
            os.utime(target, ns=(began, began))
            return status, fault
        finally:
            os.close(target)
            if status:
                self.parts.remove(number)

    def in_process(self, source, target, size):
        """Runs the chain over a small file; None where that is left to the program: the file has changed, it can't be
        read, or there is no memory."""
        try:
            given = os.read(source, size + 1)
            if len(given) != size:
                return None
            made = self.module.run(self.chain, given, self.options.plain)
        except (OSError, MemoryError):
            return None
        except self.module.Fault as fault:
            return 1, f"pnmpipe: {fault}"
        try:
            while made:
                made = made[os.write(target, made) :]
        except OSError:
            return 1, "pnmpipe: output: WriteFailed"
        return 0, ""

    def by_program(self, source, target):
        """Calls the program."""
        os.lseek(source, 0, os.SEEK_SET)
        status, said = call(self.words, source, target)
        # a shell's number of a signal
        return (128 - status if status < 0 else status), said or (f"status {status}" if status else "")

    def explained(self, task):
        """What pnmpipe-explain says of a file that failed, in one line, where it finds what is wrong."""
        try:
            if self.explain is None:
                from chain_text import loaded  # pylint: disable=import-outside-toplevel

                self.explain = loaded("pnmpipe-explain")
            with open(task.file, "rb", buffering=0) as file:
                text, status = self.explain.said(["--brief", *self.words[1:]], file.fileno())
                return text if status else ""
        except (ImportError, OSError):
            return ""


class Process:
    """A worker's process, as the one that started it has it: what it tells, where it says which files it has, and which
    it began with."""

    def __init__(self, number, report, place, own):
        self.number, self.report, self.place, self.own = number, report, place, own
        self.held = b""

    def told(self):
        """What it has told and wasn't taken yet; None once it has ended."""
        text = os.read(self.report, 65536)
        if not text:
            return None
        self.held += text
        found = []
        while len(self.held) >= LENGTH.size:
            end = LENGTH.size + LENGTH.unpack_from(self.held)[0]
            if len(self.held) < end:
                break
            found.append(marshal.loads(self.held[LENGTH.size : end]))
            self.held = self.held[end:]
        return found

    def kill(self):
        """Ends it, and the call of the program that it waits for."""
        for kill in (os.killpg, os.kill):
            try:
                kill(self.number, signal.SIGTERM)
                return
            except ProcessLookupError:
                pass


def spans_of(count, jobs):
    """Which files are handed out together: fewer, the fewer are left."""
    start = 0
    while start < count:
        end = start + max(1, min(MOST_TOGETHER, (count - start) // (jobs * TURNS)))
        yield start, end
        start = end


class Workers:
    """The workers, and which files wait for them."""

    def __init__(self, worker, tell):
        self.worker, self.tell = worker, tell
        self.count = len(worker.tasks)
        self.jobs = min(worker.options.jobs or len(os.sched_getaffinity(0)), self.count)
        # a byte for each file, and which files each worker has
        self.places = -(-self.count // SPAN.size) * SPAN.size
        self.states = worker.states = mmap.mmap(-1, self.places + SPAN.size * max(1, self.jobs))
        self.is_told = bytearray(self.count)
        self.spans = b"".join(SPAN.pack(*span) for span in spans_of(self.count, self.jobs))
        self.queue, self.feed = os.pipe()
        os.set_blocking(self.feed, False)
        self.processes = {}
        self.poll = select.poll()
        # the signal that ends the run, how a worker ended that has died, and how many more may die that did nothing
        self.signal, self.died, self.spare = None, None, 2 * self.jobs + 8

    def end_by(self, number, _):
        """Ends all workers, for a signal."""
        self.signal = number
        for process in list(self.processes.values()):
            process.kill()

    def start(self, place, own):
        """Starts a worker, which begins with these files."""
        report, told = os.pipe()
        signal.pthread_sigmask(signal.SIG_BLOCK, SIGNALS)
        try:
            number = os.fork()
            if number == 0:
                self.become(told, place, own, [report, self.feed, *self.processes])
            self.processes[report] = Process(number, report, place, own)
            self.poll.register(report, select.POLLIN)
        except OSError:
            os.close(report)
            raise
        finally:
            os.close(told)
            signal.pthread_sigmask(signal.SIG_UNBLOCK, SIGNALS)

    def become(self, told, place, own, others):
        """Makes a worker of this process, which a signal ends at once."""
        status = 1
        try:
            os.setpgid(0, 0)
            for descriptor in others:
                if descriptor is not None:
                    os.close(descriptor)
            heed(signal.SIG_DFL)
            signal.pthread_sigmask(signal.SIG_UNBLOCK, SIGNALS)
            self.worker.work(own, self.queue, told, place)
            status = 0
        except BrokenPipeError:
            # whoever is told has gone
            pass
        except BaseException:  # pylint: disable=broad-exception-caught
            sys.excepthook(*sys.exc_info())
            sys.stderr.flush()
        finally:
            os._exit(status)

    def all(self):
        """Runs all files, and tells what becomes of them, some at a time, until a signal comes, which is given."""
        signal.signal(signal.SIGCHLD, signal.SIG_DFL)
        heed(self.end_by)
        self.poll.register(self.feed, select.POLLOUT)
        self.hand_out()
        for at in range(self.jobs):
            if self.signal:
                break
            try:
                self.start(self.places + SPAN.size * at, [])
            except OSError as error:
                self.died = error.strerror
                break
        while self.processes:
            for descriptor, _ in self.poll.poll():
                if descriptor == self.feed:
                    self.hand_out()
                else:
                    self.hear(self.processes[descriptor])
        left = [number for number in range(self.count) if not self.is_told[number]]
        if left and not self.signal:
            self.note([], [(number, 1, f"no worker is left: {self.died}", "") for number in left])
        return self.signal

    def hand_out(self):
        """Hands files out, as many as there is room for."""
        try:
            while self.spans and not self.signal:
                # (so many bytes are written as a whole)
                os.write(self.feed, self.spans[: select.PIPE_BUF])
                self.spans = self.spans[select.PIPE_BUF :]
        except BlockingIOError:
            return
        self.poll.unregister(self.feed)
        os.close(self.feed)
        self.feed = None

    def note(self, done, failed):
        """Notes and tells what has become of files."""
        for number in done + [it[0] for it in failed]:
            self.is_told[number] = 1
        self.tell(done, failed)

    def hear(self, process):
        """Hears what a worker tells, or that it has ended."""
        told = process.told()
        if told is not None:
            for done, failed in told:
                self.note(done, failed)
            return
        self.poll.unregister(process.report)
        os.close(process.report)
        del self.processes[process.report]
        ended = os.waitid(os.P_PID, process.number, os.WEXITED | os.WNOWAIT)
        if ended.si_status:
            # (the program that it waited for, in its group, which stands as long as its status wasn't taken)
            process.kill()
        os.waitpid(process.number, 0)
        if ended.si_status:
            self.go_on(process, ended.si_status if ended.si_code == os.CLD_EXITED else -ended.si_status)

    def go_on(self, process, status):
        """Goes on with the files of a worker that was killed, or has died of one of them, which the program tries."""
        self.died = f"status {status}"
        done, failed, left, has_begun = [], [], [], False
        for number in [*process.own, *range(*SPAN.unpack_from(self.states, process.place))]:
            if self.is_told[number]:
                continue
            state, parts = self.states[number], self.worker.parts
            if state == DONE or (state == FINISHING and not parts.is_there(number)):
                done.append(number)
            elif state == BEGUN_AGAIN and not self.signal:
                failed.append((number, 128 - status if status < 0 else status, self.died, ""))
            else:
                left.append(number)
            has_begun |= state not in (WAITS, FAILED_ONCE)
            if state in (BEGUN, BEGUN_AGAIN, FINISHING):
                parts.remove(number)
                self.states[number] = FAILED_ONCE
        self.note(done, failed)
        SPAN.pack_into(self.states, process.place, 0, 0)
        # (one that had begun none has died of other things than files, and so may the next ones)
        self.spare -= not has_begun
        if self.spare > 0 and not self.signal:
            try:
                self.start(process.place, left)
            except OSError as error:
                self.died = error.strerror
