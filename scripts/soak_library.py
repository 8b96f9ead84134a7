#!/usr/bin/env python3
"""Random chains over random texts, whole and cut, by the C library, in memory and between descriptors, and by the
program, which have to agree on the results, also before a fault, and on the fault's line. The gate tries a few cases,
with the program and library that it has built; without these words both are those that make has left."""

import argparse
import collections
import os
import random
import socket
import sys

from places import ROOT
from random_runs import SHARED, by_library, by_program, library
from tool_examples import STAGES

PROGRAM = os.path.join(ROOT, "bin/pnmpipe")

# (an image of three planes alone has the third one)
TOOLS = [*STAGES, "pamchannel 2 0"]
FAULTY = ["pamflop", "pamdepth", "pamdepth 0", "", "pamcut -left 1 -left", "pamflip -lr 3", "pamcut -left 1 -left 2"]


def image(source):
    """An image of any kind, now and then with a size, a maxval or a sample that isn't allowed."""
    kind = source.choice("1234567")
    width, height = source.randint(int(source.random() > 0.05), 9), source.randint(1, 7)
    depth = {"3": 3, "6": 3, "7": source.randint(1, 4)}.get(kind, 1)
    maxval = 1 if kind in "14" else source.choice([1, 7, 255, 256, 65535, source.choice([65536, 9])])
    head = f"P{kind}\n{width} {height}\n" + ("" if kind in "14" else f"{maxval}\n")
    if kind == "7":
        lines = f"WIDTH {width}\nHEIGHT {height}\nDEPTH {depth}\nMAXVAL {maxval}\nTUPLTYPE X\n"
        head = f"P7\n{lines}ENDHDR\n"
    count = width * height * depth
    if kind == "4":
        return head.encode() + source.randbytes((width + 7) // 8 * height)
    samples = [source.randint(0, maxval + (source.random() < 0.01)) for _ in range(count)]
    if kind in "123":
        return (head + " ".join(map(str, samples)) + "\n").encode()
    size = 1 if maxval < 256 else 2
    return head.encode() + b"".join(min(it, 256**size - 1).to_bytes(size, "big") for it in samples)


def case(source):
    """A text, a chain and a form."""
    text = b"".join(image(source) for _ in range(source.choice([0, 1, 1, 1, 2, 3])))
    if source.random() < 0.3:
        text = text[: source.randint(0, len(text))]
    if source.random() < 0.1:
        text += b"x"
    tools = TOOLS if source.random() < 0.8 else TOOLS + FAULTY
    chain = "|".join(source.choice(tools) for _ in range(source.choice([1, 1, 2, 3, 5])))
    return text, chain, source.random() < 0.3


def by_descriptors(module, text, chain, plain, source):
    """The same from a socket, each packet of which is what one read gives, to a file."""
    cuts = sorted(source.randint(0, len(text)) for _ in range(source.choice([0, 1, 2, 9])))
    packets = [text[at:end] for at, end in zip([0, *cuts], [*cuts, len(text)]) if at < end]
    given, taken = socket.socketpair(socket.AF_UNIX, socket.SOCK_SEQPACKET)
    with given, taken, open(os.memfd_create("results"), "w+b") as target:
        for packet in packets:
            given.send(packet)
        given.close()
        line = ""
        try:
            module.run_fd(chain, taken.fileno(), target.fileno(), plain)
        except module.Fault as fault:
            line = f"pnmpipe: {fault}\n"
        target.seek(0)
        return target.read(), line


def main():
    parser = argparse.ArgumentParser(description=__doc__.split("\n")[0])
    parser.add_argument("--cases", type=int, default=100000)
    parser.add_argument("--seed", type=int, default=1)
    parser.add_argument("--program", default=PROGRAM)
    parser.add_argument("--library", default=SHARED)
    words = parser.parse_args()
    pnmpipe = library(words.library)
    if not (pnmpipe and os.path.exists(words.program)):
        sys.exit(f"soak_library: there is no {words.program} or {words.library}: run make and make library first")
    source, lines = random.Random(words.seed), collections.Counter()
    for number in range(words.cases):
        given = case(source)
        wanted, made = by_program(words.program, *given), by_library(pnmpipe, *given)
        if made != wanted:
            sys.exit(f"soak_library: case {number} differs: {given}: {made}, wanted {wanted}")
        made = by_descriptors(pnmpipe, *given, source)
        if made != wanted:
            sys.exit(f"soak_library: case {number} differs between descriptors: {given}: {made}, wanted {wanted}")
        lines[made[1].rpartition(": ")[2].strip() or "well"] += 1
    told = dict(lines.most_common())
    print(f"soak_library: {words.cases} cases, seed {words.seed}, none differs: {told}")


if __name__ == "__main__":
    main()
