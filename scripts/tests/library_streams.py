"""What pnmpipe_run_fd does with streams, for test_library.py: the memory and the time that they take, and what is
answered while the input stays open. `driver` is library/tests/command.c."""

import os
import resource
import selectors
import subprocess
import tempfile
import time

import refused

# streams of so many images of so many columns and rows go from descriptor to descriptor in so much memory
IMAGES, SIDE, MEMORY = 600, 300, 16 << 20

# the header of images of each raw kind, the same as it may be written, too, and the bytes of a row
RAW_KINDS = [
    (f"P4\n{8 * SIDE} {SIDE}\n", f"P4 # wide\r{8 * SIDE}\t{SIDE}\n", SIDE),
    (f"P5\n{SIDE} {SIDE}\n255\n", "P5\n3#x\n00 30#y\r0\n25#\n5\n", SIDE),
    (f"P6\n{SIDE} {SIDE}\n65535\n", f"P6{' ' * 9999}{SIDE} {SIDE} #{'-' * 9999}\n0065535\t", 6 * SIDE),
    (
        f"P7\nWIDTH {SIDE}\nHEIGHT {SIDE}\nDEPTH 2\nMAXVAL 255\nENDHDR\n",
        f"P7\n WIDTH\t{SIDE}\r\n#\nMAXVAL 255 x\nHEIGHT  {SIDE}\n\nDEPTH 2\nENDHDR \r\n",
        2 * SIDE,
    ),
]

# the bytes of a short stream, and how many times as long another is; how many times as long that may take, and the
# seconds that don't count
SHORT, TIMES, MOST_TIMES, LITTLE = 16 << 20, 8, 16, 0.1

# the longest that an answer is waited for, which comes at once; and how long the input pauses behind a packet
PATIENCE, PAUSE = 30, 0.1


def gray(*rows):
    return refused.gray(9, *rows)


GOOD, INVERTED = gray([1, 2, 3]), gray([8, 7, 6])
NARROW = gray([1])
CUT = "pamcut -left 1 | pnminvert"
CUT_GOOD = gray([7, 6])


def ran(words, given, **how):
    return subprocess.run(words, input=given, capture_output=True, timeout=300, check=False, **how)


def differing(what, made, wanted, line):
    """Whether a run has ended otherwise than with these results, and with this line if any."""
    told = (made.stdout, made.stderr.decode(errors="replace"), made.returncode)
    if told != (wanted, line, 1 if line else 0):
        yield f"{what}: status {made.returncode}, {made.stdout[:200]!r}, wanted {wanted[:200]!r}; {made.stderr!r}"


# ---- memory


def faults_of_memory(driver):
    """Streams that are longer than the memory that there is for them."""
    little = {"preexec_fn": lambda: resource.setrlimit(resource.RLIMIT_AS, (MEMORY, MEMORY))}
    words, plain = ([driver, "fd", form, "pamflip -r180 | pnminvert"] for form in ("raw", "plain"))
    for header, other, row in RAW_KINDS:
        count = IMAGES * SIDE // row
        for it in (header, other):
            image, due = it.encode() + bytes(row * SIDE), header.encode() + b"\xff" * (row * SIDE)
            yield from differing(f"a long stream of {it[:40]!r}", ran(words, image * count, **little), due * count, "")
    long = image * count
    made = ran([driver, "fd", "raw", "pamflip -r180 | pamcut -left 2"], GOOD + NARROW + long, **little)
    line = "pnmpipe: tool 2: CutOutside\n"
    yield from differing("a long stream behind an image that is refused", made, gray([1]), line)
    line = "pnmpipe: output: SecondPlain\n"
    made = ran(plain, gray([1], [2]) + long, **little)
    yield from differing("a long stream for a plain file", made, b"P2\n1 2\n9\n7\n8\n", line)
    line = "pnmpipe: input: BadMagic\n"
    made = ran(words, GOOD + b"PX" + long, **little)
    yield from differing("a long text behind a fault", made, gray([6, 7, 8]), line)


# ---- verdicts over several parts


def faults_of_verdicts(driver):
    """Faults of images that aren't run together, since one of them is large."""
    large = gray(*[[1] * 1000] * 1000)
    large_cut = gray(*[[8] * 999] * 1000)
    wide = gray([1] * 4)
    runs = [
        ("a later image, refused by an earlier tool", [wide, gray([1] * 3), NARROW]),
        ("a later image, refused by a later tool", [wide, NARROW, gray([1] * 3)]),
    ]
    for what, images in runs:
        made = ran([driver, "fd", "raw", "pamcut -left 1 | pamcut -right 2"], large.join([b"", *images]))
        # (columns 1 to 3 of the images that are wide enough)
        results = gray(*[[1] * 3] * 1000) + gray([1] * 3) + gray(*[[1] * 3] * 1000)
        yield from differing(what, made, results, "pnmpipe: tool 1: CutOutside\n")
    made = ran([driver, "fd", "raw", CUT], GOOD + large + NARROW + large + b"P5 1 1 9\n")
    line = "pnmpipe: input: RasterCut\n"
    yield from differing("a fault of the input behind one of a tool", made, CUT_GOOD + large_cut, line)
    above = b"P5 2 1 9\n\x01\x0a"
    made = ran([driver, "fd", "raw", CUT], GOOD + large + above + large)
    line = "pnmpipe: input: SampleAboveMaxval\n"
    # (the head of the image at fault is written before its row is read)
    yield from differing("a sample above the maxval", made, CUT_GOOD + large_cut + b"P5\n1 1\n9\n", line)


# ---- time


def stream_kinds(size):
    """Streams of about so many bytes."""
    page = b"P5\n300 300\n255\n" + bytes(90_000)
    tiny = b"P6\n3 3\n255\n" + bytes(27)
    side = b"P5 %d 1000 255\n" % (size // 2000)
    yield "images behind a large one", side + bytes(size // 2000 * 1000) + page * (size // 2 // len(page))
    yield "small images", tiny * (size // len(tiny))
    odd = b"P7\nWIDTH\t100\nHEIGHT 100\nDEPTH 1\nMAXVAL 255\nENDHDR \n" + bytes(10_000)
    yield "PAM images", odd * (size // len(odd))
    yield "a plain image", b"P2 1000 %d 255\n" % (size // 4000) + b"  1  22 133   0\n" * (size // 4000 * 250)
    yield "images of many sizes", b"".join(
        b"P5 %d 1000 255\n" % it + bytes(1000 * it) for it in range(1, int((size / 500) ** 0.5))
    )


def seconds_of(words, stream):
    """The processor's time for a stream in a file."""
    with tempfile.TemporaryFile() as file:
        file.write(stream)
        file.seek(0)
        before = resource.getrusage(resource.RUSAGE_CHILDREN)
        subprocess.run(words, stdin=file, stdout=subprocess.DEVNULL, timeout=600, check=True)
        after = resource.getrusage(resource.RUSAGE_CHILDREN)
    return after.ru_utime + after.ru_stime - before.ru_utime - before.ru_stime


def faults_of_time(driver):
    """Streams that take more than their share of time if they are longer."""
    words = [driver, "fd", "raw", "pamflip -null"]
    for (what, short), (_, long) in zip(stream_kinds(SHORT), stream_kinds(TIMES * SHORT)):
        for _ in range(2):
            few, many = seconds_of(words, short), seconds_of(words, long)
            if many <= MOST_TIMES * few + LITTLE:
                break
        else:
            yield f"{what}: {len(short):,} bytes took {few:.2f} s, {len(long):,} bytes {many:.2f} s"


# ---- an input that stays open


def read_within(process, count):
    """So many bytes of the output, or fewer if they don't come."""
    taken, until = b"", time.monotonic() + PATIENCE
    with selectors.DefaultSelector() as selector:
        selector.register(process.stdout, selectors.EVENT_READ)
        while len(taken) < count and selector.select(max(0, until - time.monotonic())):
            part = os.read(process.stdout.fileno(), count - len(taken))
            if not part:
                break
            taken += part
    return taken


def answered_open(what, words, packets, due, line):
    """What differs if an input stays open after these packets: the results have to come, and then the line, with the
    end of the call; `None` if the call has to go on."""
    with subprocess.Popen(words, stdin=subprocess.PIPE, stdout=subprocess.PIPE, stderr=subprocess.PIPE) as process:
        try:
            for packet in packets:
                process.stdin.write(packet)
                process.stdin.flush()
                time.sleep(PAUSE)
            taken = read_within(process, len(due))
            if taken != due:
                yield f"{what}: {taken[:200]!r} came of {due[:200]!r}, while the input stayed open"
            elif line is None:
                if process.poll() is not None:
                    yield f"{what}: the call has ended: {process.stderr.read()!r}"
            else:
                status = process.wait(PATIENCE)
                told = (status, process.stdout.read(), process.stderr.read().decode())
                if told != (1 if line else 0, b"", line):
                    yield f"{what}: {told}, wanted {line!r}"
        except subprocess.TimeoutExpired:
            yield f"{what}: the call goes on, while the input stays open"
        finally:
            process.kill()


def faults_of_open_input(driver):
    words, cut = ([driver, "fd", "raw", chain] for chain in ("pnminvert", CUT))
    large = b"P5\n1000 1000\n255\n" + bytes(1_000_000)
    inverted = large.replace(b"\x00", b"\xff")
    runs = [
        ("an image", words, [GOOD], INVERTED, None),
        ("a large image", words, [large, GOOD], inverted + INVERTED, None),
        ("the last byte of a large image", words, [large[:-1], large[-1:]], inverted, None),
        ("an image, byte by byte", words, [GOOD[at : at + 1] for at in range(len(GOOD))], INVERTED, None),
        ("an image and one that is refused", cut, [GOOD + NARROW], CUT_GOOD, None),
        ("images behind one that is refused", cut, [GOOD + NARROW, GOOD, b"x"], CUT_GOOD, "input: BadMagic"),
        ("a fault behind an image", words, [GOOD + b"x"], INVERTED, "input: BadMagic"),
        ("a fault in a header", words, [GOOD, b"P5 1 y"], INVERTED, "input: BadNumber"),
        ("a fault of a header's numbers", words, [b"P6 1 0 9\n"], b"", "input: ZeroSize"),
        ("a PAM line", words, [GOOD + b"P7\nWIDTH 1\nWIDTH 1\n"], INVERTED, "input: DuplicateField"),
        ("a plain image behind a raw one", words, [GOOD + b"P2"], INVERTED, "input: PlainInStream"),
        ("a plain image", words, [b"P2 1 1 9 1", b"\n"], gray([8]), ""),
        ("a plain image, in digits", words, [b"P2 1 1 99 1", b"1", b" P5"], refused.gray(99, [88]), ""),
        ("a fault of a plain image", words, [b"P2 1 2 9 1 x"], gray([8]).replace(b"1 1", b"1 2"), "input: BadSample"),
        ("a sample above the maxval", words, [b"P5 1 2 9\n\x01\x0a"], b"P5\n1 2\n9\n\x08", "input: SampleAboveMaxval"),
    ]
    for what, call, packets, due, fault in runs:
        line = f"pnmpipe: {fault}\n" if fault else fault
        yield from answered_open(what, call, packets, due, line)


def faults_of_streams(driver):
    yield from faults_of_memory(driver)
    yield from faults_of_verdicts(driver)
    yield from faults_of_time(driver)
    yield from faults_of_open_input(driver)
