#!/usr/bin/env python3
"""Runs every tool over rows of all critical sizes, in blocks of all critical shapes. The bytes, the status and the line
have to be those that slow_rasters.py works out; nothing is compared with what a program has written before.

The cases (row_cases.py) come in groups: few rows, rows for more than a block, turned images, pairs of tools, samples
above the maxval and rasters that end too soon, plain texts, images of all formats mixed, and refusals. Most cases are
run with one lane and rings of 64 places. About half of all are run in a second way: with other lanes or rings, or with
an input that comes in pieces, each of which is written once the one before it was read. With --library, the path of a
libpnmpipe.so.1, the library runs each case in one thread, and no program runs.

Each difference comes with the words of its run. --only takes the words with which names of groups begin, and --keep a
folder for the input of each difference, for what is wanted and for what came. --self-test runs programs that are wrong
in one way each (wrong_rows.py), and wants each to be found.
"""

import argparse
import concurrent.futures
import contextlib
import fcntl
import functools
import io
import os
import shlex
import subprocess
import sys
import tempfile
import termios
import time
import typing

sys.dont_write_bytecode = True

# pylint: disable=wrong-import-position
from support import ROOT, program_of

import wrong_rows
from row_cases import Group, group_names

# how long a run may take, in seconds, and between two looks whether a piece was read
LONGEST, PAUSE = 20, 0.00002

# how many differences of a group are told
MOST_TOLD = 5


class Answer(typing.NamedTuple):
    """How a run ended, and what it wrote and printed."""

    status: int
    written: bytes
    printed: bytes


def words_of(case, way):
    """The words of a run, without the program's name."""
    words = ["--plain"] if case.form == "plain" else []
    words += ["--lanes", str(way.lanes)] if way.lanes > 1 else []
    return [*words, *(["--ring", str(way.ring)] if way.ring != 64 else []), case.chain]


def give(child, file, text, piece):
    """Writes the text to a pipe, each piece once the one before it was read, as long as the program runs."""
    late = time.monotonic() + LONGEST
    for at in range(0, len(text), piece):
        file.write(text[at : at + piece])
        while any(fcntl.ioctl(file, termios.FIONREAD, bytes(4))):
            if child.poll() is not None:
                return
            if time.monotonic() > late:
                raise subprocess.TimeoutExpired(child.args, LONGEST)
            time.sleep(PAUSE)


def answer_to_pieces(words, text, piece, output):
    """How a run ends whose input comes in pieces, and what it prints."""
    begin, end = os.pipe()
    with subprocess.Popen(words, stdin=begin, stdout=output, stderr=subprocess.PIPE) as child:
        os.close(begin)
        try:
            with open(end, "wb", 0) as file, contextlib.suppress(BrokenPipeError):
                give(child, file, text, piece)
            _, printed = child.communicate(timeout=LONGEST)
        except subprocess.TimeoutExpired:
            child.kill()
            raise
    return child.returncode, printed


def answer_of(program, case, way):
    """Runs a case by the program."""
    words = [program, *words_of(case, way)]
    with tempfile.TemporaryFile() as given, tempfile.TemporaryFile() as output:
        if way.piece:
            status, printed = answer_to_pieces(words, case.text, way.piece, output)
        else:
            given.write(case.text)
            given.seek(0)
            pipe = subprocess.PIPE
            ran = subprocess.run(words, stdin=given, stdout=output, stderr=pipe, timeout=LONGEST, check=False)
            status, printed = ran.returncode, ran.stderr
        output.seek(0)
        return Answer(status, output.read(), printed)


@functools.lru_cache(maxsize=None)
def library(path):
    """The Python module over the C library."""
    os.environ["PNMPIPE_LIBRARY"] = path
    sys.path.insert(0, os.path.join(ROOT, "library/python"))
    import pnmpipe  # pylint: disable=import-outside-toplevel,import-error

    return pnmpipe


def answer_of_library(path, case):
    """Runs a case by the C library, and tells of it as the program would."""
    module = library(path)
    try:
        return Answer(0, module.run(case.chain, case.text, case.form == "plain"), b"")
    except module.Fault as fault:
        return Answer(1, fault.results, f"pnmpipe: {fault}\n".encode())


def difference(wanted, came):
    """What differs, if anything does."""
    told = []
    if wanted.status != came.status:
        told.append(f"status {came.status}, wanted {wanted.status}")
    if wanted.printed != came.printed:
        told.append(f"printed {came.printed!r}, wanted {wanted.printed!r}")
    if wanted.written != came.written:
        at = len(os.path.commonprefix([wanted.written, came.written]))
        told.append(f"{len(came.written)} bytes, wanted {len(wanted.written)}, and byte {at} is the first other one")
    return "; ".join(told)


def keep(folder, name, case, wanted, came):
    """Leaves the files of a difference in the folder."""
    for ending, text in (("in", case.text), ("wanted", wanted.written), ("came", came.written)):
        with open(os.path.join(folder, f"{name.replace(' ', '-')}.{ending}"), "wb") as file:
            file.write(text)


def runs_of(words, case):
    """Each run of a case, by what it is called, and what answers it."""
    if words.library:
        yield f"{shlex.quote(case.chain)} by the library", functools.partial(answer_of_library, words.library, case)
    for way in [] if words.library else case.ways:
        called = shlex.join(["pnmpipe", *words_of(case, way)])
        called += f", the input in pieces of {way.piece} bytes" if way.piece else ""
        yield called, functools.partial(answer_of, words.program, case, way)


def judged(words, name):
    """How many runs a group has, and what differs in which of them. After one that doesn't end there is none."""
    count, told = 0, []
    for number, case in enumerate(Group(name).cases()):
        written, fault = case.wanted()
        wanted = Answer(1 if fault else 0, written, f"pnmpipe: {fault}\n".encode() if fault else b"")
        for called, answer in runs_of(words, case):
            count += 1
            try:
                came = answer()
            except subprocess.TimeoutExpired:
                return count, [*told, f"case {number}: {called}: it hasn't ended after {LONGEST} seconds"]
            found = difference(wanted, came)
            if found:
                told.append(f"case {number}: {called}: {found}")
                if words.keep:
                    keep(words.keep, f"{name} {number}", case, wanted, came)
    return count, told


def judge(words, names):
    """Runs groups, several at a time, and tells what differs. Gives how many runs there were, and how many differ."""
    runs = differing = 0
    with concurrent.futures.ProcessPoolExecutor(os.cpu_count()) as pool:
        for name, (count, told) in zip(names, pool.map(functools.partial(judged, words), names)):
            for line in told[:MOST_TOLD]:
                print(f"test_rows: {name}, {line}", flush=True)
            if told:
                more = f"{len(told) - MOST_TOLD} more differ; " if len(told) > MOST_TOLD else ""
                by = ["--library", words.library] if words.library else ["--program", words.program]
                again = ["scripts/tests/test_rows.py", *by, "--only", name, "--keep", "FOLDER"]
                print(f"test_rows: {name}: {more}to repeat it: python3 {shlex.join(again)}", flush=True)
            runs += count
            differing += len(told)
    return runs, differing


def test_itself(program):
    """How many programs that are wrong in one way are told from the right one, or the right one is taken for wrong."""
    failed = 0
    for flaw, (_, group) in wrong_rows.FLAWS.items():
        with tempfile.TemporaryDirectory() as folder, contextlib.redirect_stdout(io.StringIO()):
            wrong = wrong_rows.stand_in(os.path.join(folder, "pnmpipe"), flaw, program)
            runs, differing = judge(argparse.Namespace(program=wrong, library=None, keep=None), [group])
        is_right = (differing == 0) == (flaw == "none")
        failed += not is_right
        print(f"test_rows: {flaw}: {differing} of {runs} runs differ{'' if is_right else ': WRONG'}", flush=True)
    return failed


def main():
    parser = argparse.ArgumentParser(description=__doc__.split("\n\n", maxsplit=1)[0])
    parser.add_argument("--program", default=os.path.join(ROOT, "bin/pnmpipe"))
    others = parser.add_mutually_exclusive_group()
    others.add_argument("--library", help="a libpnmpipe.so.1 that runs each case in place of the program")
    others.add_argument("--self-test", action="store_true", help="wants wrong programs to be found")
    parser.add_argument("--only", help="the words with which names of groups begin")
    parser.add_argument("--keep", help="a folder for the files of differences")
    words = parser.parse_args()
    words.program = None if words.library else program_of(words.program)
    if not words.program and not words.library:
        return 0
    if words.self_test:
        return 1 if test_itself(words.program) else 0
    if words.keep:
        os.makedirs(words.keep, exist_ok=True)
    names = [name for name in group_names() if not words.only or f"{name} ".startswith(f"{words.only} ")]
    runs, differing = judge(words, names)
    print(f"test_rows: {runs} runs in {len(names)} groups, {differing} differ")
    return 1 if differing or not runs else 0


if __name__ == "__main__":
    sys.exit(main())
