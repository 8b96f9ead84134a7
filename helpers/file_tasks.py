"""Files that a chain is run over: how their results are named, and the log, which has a line for each. `pnmpipe-files`
uses it."""

import os
import re
import sys

# what a run has in OUTDIR beside results: the log, and the folder where results stand until they are whole
LOG, OWN = "pnmpipe-files.log", ".pnmpipe-files"

# how a log begins, which may be cut anywhere: what was asked for, and a status
IS_LOG = re.compile(rb"(?:# [^\n]*\n[0-9]+\t)|(?:# [^\n]*(?:\n[0-9]*)?|#?)\Z")

# the kinds of images by how they begin, and the suffixes that a file's name may have
KINDS = {b"P1": ".pbm", b"P2": ".pgm", b"P3": ".ppm", b"P4": ".pbm", b"P5": ".pgm", b"P6": ".ppm", b"P7": ".pam"}
OF_KINDS = sorted(set(KINDS.values()))
SUFFIXES = (".pbm", ".pgm", ".ppm", ".pnm", ".pam")


def refuse(reason):
    print(f"pnmpipe-files: {reason}", file=sys.stderr)
    sys.exit(2)


class Task:
    """A file and its result."""

    __slots__ = ("file", "result")

    def __init__(self, file, result):
        self.file = file
        # the result's name, without the suffix where that comes from its kind
        self.result = result

    def name(self):
        """The file's name in one line, as sha256sum(1) tells one of several lines."""
        if "\n" not in self.file:
            return self.file
        return "\\" + self.file.replace("\\", "\\\\").replace("\n", "\\n")

    def line(self, status, fault=""):
        """What the log says of the file."""
        return os.fsencode(f"{status}\t{self.name()}\t{' '.join(fault.split())}\n")

    def results(self, suffix):
        """The names that the result may have."""
        return [self.result + kind for kind in OF_KINDS] if suffix else [self.result]

    def is_done(self, suffix):
        """Whether a result is there that was made after its file was changed or put there."""
        for result in self.results(suffix):
            try:
                file = os.stat(self.file)
                if os.stat(result).st_mtime_ns > max(file.st_mtime_ns, file.st_ctime_ns):
                    return True
            except OSError:
                continue
        return False


def files_of(words):
    """The files that are named, or those of a list."""
    if words[:1] not in (["--names"], ["--names0"]):
        for word in words:
            if "\n" in word:
                refuse("a file's name has two lines: --names0 takes it")
        return words
    if len(words) != 2:
        refuse(f"{words[0]} wants a list, and nothing behind it")
    end = b"\n" if words[0] == "--names" else b"\0"
    try:
        is_given = words[1] == "-"
        with open(0 if is_given else words[1], "rb", closefd=not is_given) as file:
            text = file.read()
    except OSError as error:
        refuse(f"{words[1]} can't be read: {error.strerror}")
    if end == b"\n" and b"\0" in text:
        refuse(f"{words[1]} has a byte 0, which no name has: --names0 takes names that end in one")
    names = text.split(end)
    return [os.fsdecode(name) for name in names[: -1 if names[-1] == b"" else None]]


def result_of(file, folder, options):
    """Where a file's result stands, without the suffix where that comes from its kind."""
    name = os.path.basename(file)
    if options.keep_folders:
        name = os.path.normpath(file).lstrip("/")
        if name.split("/")[0] == "..":
            refuse(f"{file} is outside of this folder, so its own folders can't be kept")
    if options.suffix:
        stem, suffix = os.path.splitext(name)
        if suffix.lower() in SUFFIXES:
            name = stem
    return os.path.join(folder, name)


def tasks_of(files, folder, options):
    """A task for each file; no result replaces another one, a file or what the run has beside results."""
    tasks, seen = [], {}
    kept = tuple(os.path.join(folder, name) for name in (LOG, OWN))
    for file in files:
        task = Task(file, result_of(file, folder, options))
        other = seen.setdefault(task.result, file)
        if len(seen) == len(tasks):
            hint = "" if options.keep_folders else " (--keep-folders keeps files of several folders apart)"
            refuse(f"{other} and {file} would have one result{hint}")
        if task.result.startswith(kept):
            for result in task.results(options.suffix):
                if result in kept or result.startswith(kept[1] + "/"):
                    refuse(f"the result of {file} would be {result}, which pnmpipe-files has for itself")
        tasks.append(task)
    refuse_replaced(tasks, options.suffix)
    return tasks


def refuse_replaced(tasks, suffix):
    """Refuses a result that is there and is one of the files."""
    there = {folder: names_in(folder) for folder in folders_of(tasks)}
    replaced = {}
    for task in tasks:
        for result in task.results(suffix):
            folder, _, name = result.rpartition("/")
            if name in there[folder]:
                replaced.setdefault(identity(result), (task, result))
    if not replaced:
        return
    for file in (task.file for task in tasks):
        task, result = replaced.get(identity(file), (None, None))
        if task:
            refuse(f"the result of {task.file} would replace the file {result}")


def folders_of(tasks):
    """The folders that the results stand in."""
    return {task.result.rpartition("/")[0] for task in tasks}


def names_in(folder):
    """The names of what is in a folder, if it can be seen."""
    try:
        return set(os.listdir(folder or "/"))
    except OSError:
        return set()


def identity(path):
    """Which file a name stands for; another value for each that can't be seen."""
    try:
        status = os.stat(path)
        return status.st_dev, status.st_ino
    except OSError:
        return object()


class Log:
    """OUTDIR/pnmpipe-files.log: what was asked for, and a line for each file."""

    def __init__(self, folder, asked, resume):
        """Opens the log, which is resumed only where the same was asked for."""
        path = os.path.join(folder, LOG)
        self.file = open(path, "ab+", buffering=0)
        self.file.seek(0)
        text = self.file.read() if resume else self.file.read(65536)
        if not IS_LOG.match(text):
            refuse(f"{path} isn't a log of pnmpipe-files: rename it")
        if resume and not asked.startswith(text[: len(asked)]):
            refuse(f"{path} is of another chain, so nothing is resumed")
        self.lines = set(text.split(b"\n")[:-1])
        # (a last line that was cut goes)
        self.length = text.rfind(b"\n") + 1 if resume else 0
        if self.file.seek(0, os.SEEK_END) > self.length:
            self.file.truncate(self.length)
        if not self.length:
            _, failure = self.write([asked])
            if failure:
                raise OSError(0, failure, path)

    def write(self, lines):
        """Writes lines; gives how many it has written, of which no other one begins, and why not all of them."""
        text, written, failure = b"".join(lines), 0, None
        try:
            while written < len(text):
                written += self.file.write(text[written:])
        except OSError as error:
            failure = error.strerror
        count = whole = 0
        while count < len(lines) and whole + len(lines[count]) <= written:
            whole += len(lines[count])
            count += 1
        self.length += whole
        if written > whole:
            self.file.truncate(self.length)
        return count, failure
