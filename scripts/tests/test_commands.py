#!/usr/bin/env python3
"""Runs the stored commands of crates/pnmpipe/commands with the built program, and compares what it writes and prints to
the byte, its status, and whether its input was read. A line has to come in one write.

A file there has groups of lines, parted by empty ones. `$` and words, as a shell reads them and the first of them the
program's own name, is a command. What stands before a group's first command holds for each of them, and what is
indented below one for that alone:

  given BYTES      its input; none: an empty one
  written BYTES    its whole output; none: nothing
  helped           its output is the help text, as `help.rt` of the program's tests has it
  versioned        it is the program's name and the version that the file VERSION has, as a line
  printed LINE     its line on standard error; none: nothing
  status N         none: 0
  unread           nothing of the input is read
  room N           the output takes so many bytes, and then fails
  printed-room N   so does standard error
  lanes N N ..     it is run with `--lanes N` before its other words, for each N

Bytes and words have the escapes of the stored cases (scripts/judge/case_text.py), as \\x0a and \\63(pnminvert|). A line
that begins with `#` says what the next ones show.
"""

import argparse
import glob
import os
import re
import resource
import shlex
import signal
import socket
import subprocess
import sys
import tempfile
import typing

sys.dont_write_bytecode = True

from support import ROOT

from case_text import text_of

STORED = f"{ROOT}/crates/pnmpipe/commands"
HELP = f"{ROOT}/crates/pnmpipe/src/tests/help.rt"

# what each topic of the help text has to fit, in lines and columns
SCREEN = (24, 80)

# how it names each limit, a constant of the sources
LIMITS = {
    "MAX_TOOLS": "1 to {} tools",
    "MAX_RING_CAPACITY": "two tools, 1 to {} [",
    "MAX_LANES": "row-wise tool, 1 to {} [",
}
CONSTANT = re.compile(r"pub const (\w+): \w+ = ([0-9_]+);")

# how long a run may take, in seconds
LONGEST = 20

KEYS = {"given", "written", "helped", "versioned", "printed", "status", "unread", "room", "printed-room", "lanes"}


class Command(typing.NamedTuple):
    """A stored command: where it stands, its words with the program's name, its input, and what is wanted of it."""

    place: str
    words: list
    given: bytes
    written: bytes
    printed: bytes
    status: int
    is_unread: bool
    room: typing.Optional[int]
    printed_room: typing.Optional[int]


class Answer(typing.NamedTuple):
    """What a run wrote, and what it printed, write by write; how it ended, and how much of its input it read."""

    written: bytes
    printed: list
    status: int
    read: int


def fact_of(place, line):
    """What a line says, by its key."""
    key, _, value = line.partition(" ")
    if key not in KEYS:
        sys.exit(f"test_commands: {place}: unknown: {line}")
    return key, value


def output_of(place, facts, texts):
    """The whole output that is wanted."""
    told = [key for key in ("written", *texts) if key in facts]
    if len(told) > 1:
        sys.exit(f"test_commands: {place}: both {' and '.join(told)}")
    return next((texts[key] for key in told if key in texts), text_of(facts.get("written", "")))


def commands_of(place, words, facts, texts):
    """A command over each number of lanes."""
    name, *others = [text_of(word) for word in shlex.split(words)]
    wanted = Command(
        place,
        [],
        text_of(facts.get("given", "")),
        output_of(place, facts, texts),
        text_of(facts["printed"]) + b"\n" if "printed" in facts else b"",
        int(facts.get("status", "0")),
        "unread" in facts,
        int(facts["room"]) if "room" in facts else None,
        int(facts["printed-room"]) if "printed-room" in facts else None,
    )
    if "lanes" not in facts:
        return [wanted._replace(words=[name, *others])]
    return [wanted._replace(words=[name, b"--lanes", lanes.encode(), *others]) for lanes in facts["lanes"].split()]


def read_commands(name, texts):
    """All commands of a file."""
    common, pending = {}, None
    with open(f"{STORED}/{name}", encoding="latin-1") as file:
        lines = [*file.read().split("\n"), ""]
    for number, line in enumerate(lines, 1):
        place = f"{name}:{number}"
        if line.startswith("#"):
            continue
        if pending and not line.startswith("  "):
            yield from commands_of(*pending, texts)
            pending = None
        if not line:
            common = {}
        elif line.startswith("$ "):
            pending = (place, line[2:], dict(common))
        elif pending:
            pending[2].update([fact_of(place, line[2:])])
        else:
            common.update([fact_of(place, line)])


def limited(room):
    """What a process does before the program begins, where a file that it writes takes so many bytes alone."""

    def limit():
        signal.signal(signal.SIGXFSZ, signal.SIG_IGN)
        resource.setrlimit(resource.RLIMIT_FSIZE, (room, room))

    return limit


def writes_to(end):
    """What came to this end of a socket that keeps each write apart."""
    return list(iter(lambda: end.recv(65536), b""))


def answered(program, command):
    """Runs the command. Its input is a file, of which is known how far it was read."""
    rooms = (command.room, command.printed_room)
    if None not in rooms:
        sys.exit(f"test_commands: {command.place}: one limit holds for both")
    room = next((it for it in rooms if it is not None), None)
    here, there = socket.socketpair(socket.AF_UNIX, socket.SOCK_SEQPACKET)
    with here, there, tempfile.TemporaryFile() as given, tempfile.TemporaryFile() as limited_file:
        given.write(command.given)
        given.flush()
        given.seek(0)
        # (the limit holds for files, and neither for pipes nor for sockets)
        ran = subprocess.run(
            command.words,
            executable=program,
            stdin=given,
            stdout=subprocess.PIPE if command.room is None else limited_file,
            stderr=there if command.printed_room is None else limited_file,
            timeout=LONGEST,
            preexec_fn=None if room is None else limited(room),
        )
        there.close()
        limited_file.seek(0)
        limited_text = limited_file.read()
        written = ran.stdout if command.room is None else limited_text
        printed = writes_to(here) if command.printed_room is None else [limited_text] if limited_text else []
        return Answer(written, printed, ran.returncode, os.lseek(given.fileno(), 0, os.SEEK_CUR))


def differences(command, answer):
    """Each difference between what is wanted and what came."""
    line = command.printed[: command.printed_room]
    wanted = [
        ("written", command.written[: command.room], answer.written),
        ("printed", [line] if line else [], answer.printed),
        ("status", command.status, answer.status),
    ]
    if command.is_unread:
        wanted.append(("bytes read", 0, answer.read))
    return [f"{what} {came!r}, wanted {want!r}" for what, want, came in wanted if came != want]


def constants():
    """The numbers that are constants of the crates' sources."""
    found = {}
    for path in glob.glob(f"{ROOT}/crates/*/src/**/*.rt", recursive=True):
        with open(path, encoding="utf-8") as file:
            found.update((name, int(number)) for name, number in CONSTANT.findall(file.read()))
    return found


def faults_of_help(text):
    """What is wrong with the help text: each topic, between empty lines, has to fit a screen, and it has to
    name the limits that the words are held to."""
    known = constants()
    for topic in text.split("\n\n"):
        lines = topic.splitlines()
        if len(lines) > SCREEN[0] or any(len(line) > SCREEN[1] for line in lines):
            yield f"a topic doesn't fit a screen: {lines[0]}"
    for name, form in LIMITS.items():
        if name not in known or form.format(known[name]) not in text:
            yield f"it doesn't name {name}, {known.get(name, 'which is nowhere')}"


def stored_help():
    with open(HELP, "rb") as file:
        return re.search(rb'HELP: &str =\s+"([^"]*)";', file.read())[1]


def stored_commands():
    """The commands of all files."""
    with open(f"{ROOT}/VERSION", "rb") as file:
        texts = {"helped": stored_help(), "versioned": b"pnmpipe " + file.read()}
    return [command for name in sorted(os.listdir(STORED)) for command in read_commands(name, texts)]


def main():
    parser = argparse.ArgumentParser(description=__doc__.split("\n")[0])
    parser.add_argument("--program", default=f"{ROOT}/bin/pnmpipe")
    program = os.path.abspath(parser.parse_args().program)
    commands = stored_commands()
    faults = list(faults_of_help(stored_help().decode("ascii")))
    for fault in faults:
        print(f"test_commands: the help text: {fault}")
    if not os.access(program, os.X_OK):
        print(f"test_commands: there is no {program}, so {len(commands)} commands are passed over")
        return 1 if faults else 0
    failed = 0
    for command in commands:
        try:
            found = differences(command, answered(program, command))
        except subprocess.TimeoutExpired:
            found = [f"not ended after {LONGEST} seconds"]
        for difference in found:
            print(f"test_commands: {command.place}: {shlex.join(map(os.fsdecode, command.words))}: {difference}")
        failed += bool(found)
    print(f"test_commands: {len(commands)} commands, {failed} failed")
    return 1 if faults or failed else 0


if __name__ == "__main__":
    sys.exit(main())
