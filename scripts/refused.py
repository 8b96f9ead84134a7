#!/usr/bin/env python3
"""Refuses each allocation, and each start of a thread, of stored commands in turn, until a run meets no refusal.

`scripts/refused.c`, compiled here and loaded before the program, refuses the Nth one that the program itself asks for;
N goes upward from 1, once with that one alone refused and once with all after it too. A run that met a refusal has to
say so by the line that fits and to have written a prefix of the whole output: nothing if the status is 2 or a thread
couldn't be started. It has to end in time, and with no thread left. Where the input is silent (`silent`), each refused
start has to be answered before the silence ends. Tests of crates are refused each allocation too, since they reach what
no command does. Where there is no C compiler, the stored run alone is refused, by the toolchain, which builds the
program anew for each turn, and starts of threads by the room that the process may take.
"""

import argparse
import collections
import concurrent.futures
import os
import re
import resource
import shlex
import shutil
import subprocess
import sys
import tempfile
import textwrap
import typing

from places import ROOT, SCRIPTS

from chain_text import read_chain
from slow_rasters import Image, answer, unpacked
from slow_heads import is_row_wise, named_tool
from tool_examples import untried

PROGRAM = os.path.join(ROOT, "crates/pnmpipe")

MEMORY = re.compile(r"pnmpipe: (command line: Memory|chain: Memory|NoStart|input: Memory|tool [0-9]+: Memory)\n")

# crates whose tests are refused, if their names have this word, and don't end so
TESTED = ["pnm_unit_tests", "pnm_flow_tests", "pnmpipe"]
OF_MEMORY = "memory::"
WITH_MEMORY = "_with_memory"

# no command makes more allocations than this, and none has more tools
MOST = 2000
MOST_TOOLS = 64

# how many seconds the input is silent at most: a refused start has to be answered before that, but a machine that is
# shared may let no process run for more than one
PROMPT = 10.0


class Command(typing.NamedTuple):
    """A call of the program, what it writes and prints if nothing is refused, and how many threads it starts at
    least."""

    words: list
    given: bytes
    whole: bytes
    starts: int
    line: str = ""


class Answer(typing.NamedTuple):
    """How a run ended, what it wrote and printed, and what the loaded code told: refusals, at the end threads that are
    left, and how many starts of threads it has counted."""

    status: int
    written: bytes
    printed: str
    refusals: int
    left: typing.Optional[int]
    starts: int = 0


class Fault(Exception):
    """A refusal that isn't answered as it has to be."""


def bits(*rows):
    """A raw PBM image of at most 8 columns, its rows in the characters of a plain one."""
    raster = bytes(int(row.ljust(8, "0"), 2) for row in rows)
    return b"P4\n%d %d\n" % (len(rows[0]), len(rows)) + raster


def raster_of(maxval, rows):
    return b"".join(sample.to_bytes(1 if maxval < 256 else 2, "big") for row in rows for sample in row)


def gray(maxval, *rows):
    return b"P5\n%d %d\n%d\n" % (len(rows[0]), len(rows), maxval) + raster_of(maxval, rows)


def pam(maxval, depth, tuple_type, *rows):
    """A PAM image, each row given as all its samples."""
    typed = b"TUPLTYPE %s\n" % tuple_type if tuple_type else b""
    numbers = (len(rows[0]) // depth, len(rows), depth, maxval)
    return b"P7\nWIDTH %d\nHEIGHT %d\nDEPTH %d\nMAXVAL %d\n" % numbers + typed + b"ENDHDR\n" + raster_of(maxval, rows)


# an image of each form in which rows are held: bits, bytes and words; what is due of them the judge works out
RASTERS = [(("Bit", 2, 2, 1, 1, b""), unpacked(b"\xc0\x40", 2)), (("Gray", 2, 2, 1, 9, b""), bytes([1, 2, 3, 4]))]
RASTERS += [(("Gray", 2, 2, 1, 300, b""), raster_of(300, [[1, 2], [3, 300]]))]
IMAGES = [Image(*it) for it in RASTERS]
STREAM = answer([], IMAGES)[0]

# the tools
EACH = [
    "pnminvert",
    "pamdepth 18",
    "pamchannel 0 0 -tupletype T",
    "pamenlarge -xscale 2",
    "pamflip -null",
    "pamflip -lr",
    "pamcut -left 1",
    "pamcut -top 1 -height 1",
    "pamenlarge 2",
    "pamenlarge -yscale 2",
    "pamflip -tb",
    "pamflip -xy",
    "pamflip -r90",
    "pamflip -r180",
    "pamflip -r270",
    "pnmtile 3 3",
]
EACH += untried(EACH)

# rows of eight pixels, and what is made of them
EIGHT = bits("00110101", "11110000", "01000001")
TURNED = bits("10101100", "00001111", "10000010")
CUT_AND_TURNED = bits("10101", "00001", "10000")

# a tool that isn't row-wise, alone, has one thread over any lanes: it does over the last number what it does over two
LANES = [1, 2, 8]

TYPED = b"P7\n# c\nTUPLTYPE A\nDEPTH 1\n\nMAXVAL 1\nTUPLTYPE  B \nWIDTH 1\nHEIGHT 1\nENDHDR\n\x01"


def threads_of(row_wise, others, lanes):
    """How many threads a chain starts: one for each tool, and over lanes two more than these for each row-wise one."""
    return others + row_wise * (1 if lanes == 1 else lanes + 2)


def commands_over(lanes):
    """The commands that stand at each number of lanes."""

    def command(chain, given, whole, row_wise, others, ring=1, line="", form=()):
        words = ["--ring", str(ring), "--lanes", str(lanes), *form, chain]
        return Command(words, given, whole, threads_of(row_wise, others, lanes), line)

    def plain(*facts, **options):
        return command(*facts, form=["--plain"], **options)

    for chain in EACH:
        tool = named_tool(*read_chain(chain))
        if lanes > LANES[1] and not is_row_wise(tool):
            continue
        whole, _ = answer([tool], IMAGES)
        yield command(chain, STREAM, whole, is_row_wise(tool), not is_row_wise(tool))
    yield command("pamflip -lr", EIGHT, TURNED, 1, 0)
    yield command("pamcut -left 3 | pamflip -lr", EIGHT, CUT_AND_TURNED, 1, 1)
    yield command("pamenlarge 2 | pnminvert", gray(9, [7]), gray(9, [2, 2], [2, 2]), 1, 1)
    # a long row that the first tool gives once, with the number of its copies, which the second tool's thread makes,
    # two at a time, and the dealer one by one
    often = gray(9, *[[2] * 30000] * 5)
    yield command("pamenlarge -xscale 30000 -yscale 5 | pnminvert", gray(9, [7]), often, 1, 1)
    if lanes <= LANES[1]:
        yield command("pamflip -xy", gray(9, [1, 2], [3, 4], [5, 6]), gray(9, [1, 3, 5], [2, 4, 6]), 0, 1)
    yield command("pamflip -null", TYPED, pam(1, 1, b"A B", [1]), 1, 0)
    yield command("pnminvert", gray(9, [1], [2]), gray(9, [8], [7]), 1, 0, ring=64)
    pixel, picked = b"P3 1 1 255 10 20 30", pam(255, 2, b"RGB", [30, 10])
    inverted = pam(255, 2, b"RGB", [225, 245])
    yield command("pamchannel 2 0 -tupletype RGB", pixel, picked, 1, 0)
    yield command("pamchannel 2 0 -tupletype RGB | pamflip -tb | pnminvert", pixel, inverted, 2, 1)
    # over lanes the most tools start so many threads that refusing each would take too long
    count = MOST_TOOLS if lanes == 1 else 16
    yield command(" | ".join(["pnminvert"] * count), STREAM, STREAM, count, 0)
    # an input that is cut, after whose fault no tool's want of memory is answered, and one that the second tool refuses
    cut = bits("11", "10") + gray(9, [2, 1], [4, 3]) + gray(300, [2, 1], [0, 0])[:-4]
    yield command("pamflip -lr | pamflip -lr | pamflip -lr", STREAM[:-1], cut, 3, 0, line="pnmpipe: input: RasterCut\n")
    yield command("pnminvert | pamcut -left 2 | pnminvert", STREAM, b"", 2, 1, line="pnmpipe: tool 2: CutOutside\n")
    # plain text, of which a stream's second image is none, nor is PAM
    yield plain("pnminvert", gray(300, [1, 2], [3, 300]), b"P2\n2 2\n300\n299 298\n297 0\n", 1, 0)
    yield plain("pamflip -tb | pnminvert", STREAM, b"P1\n2 2\n1 0\n0 0\n", 1, 1, line="pnmpipe: output: SecondPlain\n")
    yield plain("pamchannel 0", gray(9, [1], [2]), b"", 1, 0, line="pnmpipe: output: PlainPam\n")


def stored_run():
    """The run that is stored beside the program."""
    with open(os.path.join(PROGRAM, "stdin"), "rb") as given, open(os.path.join(PROGRAM, "stdout"), "rb") as whole:
        return Command(["pnminvert"], given.read(), whole.read(), 1)


def commands(program):
    """All commands."""
    yield stored_run()
    # a stored command says what the text of help is
    text = subprocess.run([program, "--help"], stdin=subprocess.DEVNULL, stdout=subprocess.PIPE, check=True).stdout
    yield Command(["--help"], b"", text, 0)
    with open(os.path.join(ROOT, "VERSION"), "rb") as version:
        yield Command(["--version"], b"", b"pnmpipe " + version.read(), 0)
    for lanes in LANES:
        yield from commands_over(lanes)


def ended(words, given, seconds, how):
    """What a run left. Where nothing is given, not even an end, its input is silent, and it has to end before the
    silence does."""
    if given is not None:
        return subprocess.run(words, input=given, capture_output=True, timeout=seconds, **how)
    pipes = dict.fromkeys(("stdin", "stdout", "stderr"), subprocess.PIPE)
    with subprocess.Popen(words, **pipes, **how) as child:
        try:
            child.wait(PROMPT)
            return subprocess.CompletedProcess(words, child.returncode, *child.communicate())
        except subprocess.TimeoutExpired:
            # (this closes the input)
            _, printed = child.communicate(timeout=seconds)
            told = printed.decode(errors="replace")
            raise Fault(f"no answer while the input was silent for {PROMPT} s; {told!r} after that") from None
        finally:
            child.kill()


def run(words, given, seconds, loaded, variables):
    """Runs these words with the code loaded before them."""
    told, teller = os.pipe()
    try:
        environment = dict(os.environ, LD_PRELOAD=loaded, REFUSED_REPORT=str(teller), **variables)
        try:
            ran = ended(words, given, seconds, {"env": environment, "pass_fds": [teller]})
        except subprocess.TimeoutExpired:
            raise Fault(f"it hasn't ended after {seconds} seconds") from None
        os.close(teller)
        teller = None
        with os.fdopen(told, "r", closefd=False) as report:
            lines = report.read().split("\n")
    finally:
        os.close(told)
        if teller is not None:
            os.close(teller)
    # (the first of each kind counts)
    counts = dict(line.split() for line in reversed(lines) if " " in line)
    refusals = sum(line.startswith("refused ") for line in lines)
    left = int(counts["left"]) if "left" in counts else None
    told = refusals, left, int(counts.get("starts", 0))
    return Answer(ran.returncode, ran.stdout, ran.stderr.decode(errors="replace"), *told)


def place_of(line):
    """The place of a run's fault in the order in which the first is answered; want of memory before a run comes
    first."""
    number = re.match(r"pnmpipe: tool ([0-9]+):", line)
    if number:
        return 2 + int(number[1])
    if line.startswith("pnmpipe: output:"):
        return MOST_TOOLS + 3
    return 2 if line.startswith("pnmpipe: input:") else 1


def judge(command, answer):
    """Wants the answer to fit the command, whether or not something was refused."""
    if answer.left != 0:
        raise Fault(f"threads are left: {answer.left}; status {answer.status}, {answer.printed!r}")
    if not command.whole.startswith(answer.written):
        raise Fault(f"what is written is no prefix of the output: {answer.written!r}")
    if not answer.refusals:
        if (answer.status, answer.written, answer.printed) != (1 if command.line else 0, command.whole, command.line):
            raise Fault(f"nothing is refused, and status {answer.status}, {answer.printed!r}, {answer.written!r}")
        return
    if command.line and answer.printed == command.line and answer.status == 1:
        return
    if not MEMORY.fullmatch(answer.printed):
        raise Fault(f"no line that names want of memory: status {answer.status}, {answer.printed!r}")
    is_before_run = "command line" in answer.printed or "chain" in answer.printed
    if answer.status != (2 if is_before_run else 1):
        raise Fault(f"status {answer.status} with {answer.printed!r}")
    if answer.written and (is_before_run or "NoStart" in answer.printed):
        raise Fault(f"{answer.written!r} was written at {answer.printed!r}")
    if command.line and place_of(answer.printed) > place_of(command.line):
        raise Fault(f"{answer.printed!r} before {command.line!r}")


def refuse_each(kind, is_for_good, run_once, last=MOST):
    """Refuses the first, the second and so on through the last, or until a run meets no refusal. Gives the answers
    that met one."""
    met = []
    for number in range(1, last + 1):
        variables = {f"REFUSED_{kind}": str(number)}
        if is_for_good:
            variables["REFUSED_FOR_GOOD"] = "1"
        try:
            answer = run_once(variables)
        except Fault as fault:
            raise Fault(f"{kind.lower()} {number}{' and all after it' if is_for_good else ''}: {fault}") from None
        if not answer.refusals:
            return met
        met.append(answer)
    if last == MOST:
        raise Fault(f"{kind.lower()}: no run without a refusal")
    return met


def refuse_command(program, command, kinds, seconds, loaded):
    """Refuses all of these kinds of a command. Gives how many of each were met, and how often each line was printed."""

    def run_once(variables):
        answer = run([program, *command.words], command.given, seconds, loaded, variables)
        judge(command, answer)
        return answer

    counts, lines = [], collections.Counter()
    for kind in kinds:
        least = 1 if kind == "GROWTH" else command.starts
        for is_for_good in (False, True):
            if is_for_good and kind == "START" and counts[-1][1] < 2:
                # nothing comes after the only one
                break
            met = refuse_each(kind, is_for_good, run_once)
            if len(met) < least:
                raise Fault(f"{kind.lower()}: only {len(met)} were refused, of {least} at least")
            counts.append((kind, len(met)))
            lines.update(shown(answer) for answer in met)
    return counts, lines


def refuse_silent(program, command, seconds, loaded):
    """Refuses each start of a command's threads while its input is silent. Gives what refuse_command does."""

    def run_silent(variables):
        answer = run([program, *command.words], None, seconds, loaded, variables)
        if (answer.status, answer.written, answer.printed, answer.left) != (1, b"", "pnmpipe: NoStart\n", 0):
            left = f"{answer.left} threads are left, {answer.written!r}"
            raise Fault(f"status {answer.status}, {answer.printed!r}, {left}")
        return answer

    # how many there are is told by a run over its input, to which none is refused
    starts = run([program, *command.words], command.given, seconds, loaded, {"REFUSED_START": str(MOST)}).starts
    if starts < command.starts:
        raise Fault(f"only {starts} threads are started, of {command.starts} at least")
    counts, lines = [], collections.Counter()
    for is_for_good in (False, True)[:starts]:
        met = refuse_each("START", is_for_good, run_silent, starts)
        counts.append(("SILENT", len(met)))
        lines.update(shown(answer) for answer in met)
    return counts, lines


def shown(answer):
    return re.sub("tool [0-9]+:", "tool K:", answer.printed.strip()) or "it ended well"


def refuse_test(program, name, seconds, loaded):
    """Refuses each allocation of a test, and each start of a thread, alone, since tests want memory to be there
    again."""

    def run_once(variables):
        answer = run([program, name], b"", seconds, loaded, variables)
        if answer.status or b"test result: ok" not in answer.written or answer.left != 0:
            raise Fault(f"status {answer.status}, {answer.left} threads are left: {answer.printed}")
        return answer

    counts = [(kind, len(refuse_each(kind, False, run_once))) for kind in ("GROWTH", "START")]
    if not counts[0][1]:
        raise Fault("no allocation was refused")
    return counts, collections.Counter({"answered as the test wants": sum(count for _, count in counts)})


def tests():
    """The program of each crate's tests, as `rt test` leaves it, and the names of those that are to be refused. One
    whose name says that there is memory makes the calls of another, and has to pass only if nothing is refused, as it
    did when all tests ran."""
    for crate in TESTED:
        program = os.path.join(ROOT, "crates", crate, "out", f"{crate}_tests")
        if not os.path.exists(program):
            sys.exit(f"refused: there is no {program}: run rt test in crates/{crate}")
        listed = subprocess.run([program, "--list"], capture_output=True, text=True, check=True).stdout
        for line in listed.split("\n"):
            name = line.removesuffix(": test")
            if name != line and OF_MEMORY in name and not name.endswith(WITH_MEMORY):
                yield program, crate, name


def compiled(folder):
    """The code to be loaded; none if there is no C compiler."""
    words = shlex.split(os.environ.get("CC") or "cc")
    if not shutil.which(words[0]):
        return None
    loaded = os.path.join(folder, "refused.so")
    source = os.path.join(SCRIPTS, "refused.c")
    subprocess.run([*words, "-O2", "-shared", "-fPIC", "-o", loaded, source], check=True)
    return loaded


def refuse_all(args, loaded):
    """Refuses what was asked for, as much at a time as there are processors. Gives how many faults there were."""
    kinds = [kind for kind in ("GROWTH", "START") if kind.lower() in args.what]
    jobs = {}
    totals, lines, faults = collections.Counter(), collections.Counter(), []
    with concurrent.futures.ThreadPoolExecutor(args.jobs) as pool:
        for command in commands(args.program) if kinds or "silent" in args.what else ():
            name = textwrap.shorten(shlex.join(command.words), 90, placeholder=" ..")
            if kinds:
                jobs[pool.submit(refuse_command, args.program, command, kinds, args.seconds, loaded)] = name
            if "silent" in args.what and command.starts:
                jobs[pool.submit(refuse_silent, args.program, command, args.seconds, loaded)] = f"{name}, silent"
        for program, crate, name in tests() if "tests" in args.what else ():
            jobs[pool.submit(refuse_test, program, name, args.seconds, loaded)] = f"{crate} {name}"
        for job, name in jobs.items():
            try:
                counts, met = job.result()
            except Fault as fault:
                faults.append(f"{name}: {fault}")
                continue
            print(f"refused: {name}: " + ", ".join(f"{kind.lower()} {count}" for kind, count in counts))
            for kind, count in counts:
                totals[kind] += count
            lines.update(met)
    for line, count in sorted(lines.items()):
        print(f"refused: {count} times: {line}")
    for fault in faults:
        print(f"refused: {fault}", file=sys.stderr)
    met = ", ".join(f"{count} of {kind.lower()}" for kind, count in totals.items())
    print(f"refused: {met or 'nothing'} refused in turn; {len(jobs) - len(faults)} passed, {len(faults)} failed")
    return len(faults) if any(totals.values()) else 1


def refuse_by_builds(step, seconds):
    """Refuses each step-th allocation of the stored run by the toolchain, which builds the program for each turn."""
    command = stored_run()
    for number in range(1, MOST, step):
        words = ["rt", "try", "--fail-alloc", str(number), "--", *command.words]
        ran = subprocess.run(words, input=command.given, capture_output=True, cwd=PROGRAM, timeout=seconds)
        said = MEMORY.search(ran.stderr.decode(errors="replace"))
        refusals = 1 if ran.returncode else 0
        judge(command, Answer(ran.returncode, ran.stdout, said[0] if said else "", refusals, 0))
        if not refusals:
            print(f"refused: allocations 1 to {number - 1} of the stored run by steps of {step}, each answered by name")
            return 0 if number > 1 else 1
    raise Fault("no run without a refusal")


def refuse_by_room(program, seconds):
    """Refuses starts of threads by the room that the process may take: that of one stack more each turn."""
    stack = 64 << 20
    for command in (stored_run(), *(it for it in commands_over(1) if it.starts == MOST_TOOLS)):
        refused = 0
        for room in range(stack, 4 * MOST_TOOLS * stack, stack):

            def narrow():
                resource.setrlimit(resource.RLIMIT_STACK, (stack, stack))
                resource.setrlimit(resource.RLIMIT_AS, (room, room))

            how = {"capture_output": True, "timeout": seconds, "preexec_fn": narrow}
            ran = subprocess.run([program, *command.words], input=command.given, **how)
            if ran.returncode == 0 or (ran.returncode == 1 and ran.stderr):
                judge(command, Answer(ran.returncode, ran.stdout, ran.stderr.decode(), 1 if ran.returncode else 0, 0))
            if ran.returncode == 0:
                break
            refused += ran.stderr == b"pnmpipe: NoStart\n"
        else:
            raise Fault(f"{shlex.join(command.words)}: no run could be started")
        if refused < command.starts:
            raise Fault(f"{shlex.join(command.words)}: only {refused} runs were refused")
        print(f"refused: {refused} runs that may start more threads each, answered by name")
    return 0


def main():
    parser = argparse.ArgumentParser(description=__doc__.split("\n")[0])
    kinds = "growth, start, silent or tests; by default growth, start and silent"
    parser.add_argument("what", nargs="*", metavar="WHAT", help=kinds)
    parser.add_argument("--program", default=os.path.join(ROOT, "bin/pnmpipe"))
    parser.add_argument("--seconds", type=float, default=20, help="how long a run may take")
    parser.add_argument("--jobs", type=int, default=os.cpu_count())
    parser.add_argument("--step", type=int, default=10, help="with no C compiler, each how many-th allocation")
    args = parser.parse_args()
    if set(args.what) - {"growth", "start", "silent", "tests"}:
        parser.error("WHAT is growth, start, silent or tests")
    args.what = args.what or ["growth", "start", "silent"]
    args.program = os.path.abspath(args.program)
    if set(args.what) != {"tests"} and not os.path.exists(args.program):
        sys.exit(f"refused: there is no {args.program}: make builds it")
    with tempfile.TemporaryDirectory() as folder:
        loaded = compiled(folder)
        if loaded:
            sys.exit(1 if refuse_all(args, loaded) else 0)
    print("refused: with no C compiler the toolchain refuses allocations of the stored run; the others are left out")
    try:
        faults = refuse_by_builds(args.step, 600) if "growth" in args.what else 0
        faults += refuse_by_room(args.program, args.seconds) if "start" in args.what else 0
    except Fault as fault:
        sys.exit(f"refused: {fault}")
    sys.exit(1 if faults else 0)


if __name__ == "__main__":
    main()
