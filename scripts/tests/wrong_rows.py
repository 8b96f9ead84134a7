#!/usr/bin/env python3
"""A program that is wrong in one way: it runs another one and spoils what that writes, as a fault in the handling of
blocks of rows would. The words are the flaw, the program that is right, and the words of the run. `test_rows.py
--self-test` wants each flaw to be found."""

import dataclasses
import os
import shlex
import subprocess
import sys

sys.dont_write_bytecode = True

import support  # first, since it finds the others

from slow_reader import magic, read_head
from slow_reading import BUFFER, raw_row


@dataclasses.dataclass
class Written:
    """An image that was written: its header, its head, its rows, and how many of them a block has at most."""

    header: bytes
    head: tuple
    rows: list
    block: int


@dataclasses.dataclass
class Run:
    """What a run was asked for, wrote and printed, and how it ended."""

    chain: str
    images: list
    printed: bytes
    status: int


def images_of(text):
    """The raw images of a text, the last of which may lack rows."""
    images = []
    while text:
        head, length = read_head(magic(text, False)[0], text)
        row = raw_row(head)
        raster = text[length : length + row * head[2]]
        rows = [raster[at : at + row] for at in range(0, len(raster), row)]
        images.append(Written(text[:length], head, rows, BUFFER // row))
        text = text[length + len(raster) :]
    return images


def drops_a_last_row(run):
    for image in run.images:
        if image.block > 1 and len(image.rows) > 1:
            del image.rows[min(image.block, len(image.rows)) - 1]


def starts_a_row_late(run):
    for image in run.images:
        if 1 < image.block < len(image.rows):
            image.rows[image.block :] = image.rows[image.block + 1 :] + image.rows[-1:]


def enlarges_once_too_often(run):
    for image in run.images if "pamenlarge" in run.chain else []:
        image.rows += image.rows[-1:]


def leaves_spare_bits(run):
    for image in run.images:
        if image.head[0] == "Bit" and image.head[1] % 8:
            image.rows = [row[:-1] + bytes([row[-1] | 1]) for row in image.rows]


def turns_a_bit(run):
    for image in run.images[-1:]:
        image.rows[-1:] = [row[:-1] + bytes([row[-1] ^ 128]) for row in image.rows[-1:]]


def writes_less_before_a_fault(run):
    for image in run.images[-1:] if run.status else []:
        del image.rows[-1:]


def writes_more_before_a_fault(run):
    for image in run.images[-1:] if run.status else []:
        image.rows += image.rows[-1:]


def ends_well(run):
    run.status = 0


def prints_nothing(run):
    run.printed = b""


def names_another_tool(run):
    run.printed = run.printed.replace(b"tool 1", b"tool 2")


# each flaw, and a group of cases in which it shows
FLAWS = {
    "none": (lambda run: None, "tall bits 9"),
    "drops-a-last-row": (drops_a_last_row, "tall bytes 511"),
    "starts-a-row-late": (starts_a_row_late, "tall words 512"),
    "enlarges-once-too-often": (enlarges_once_too_often, "few flags-2 7"),
    "leaves-spare-bits": (leaves_spare_bits, "few bits 9"),
    "turns-a-bit": (turns_a_bit, "pairs bytes-3 513"),
    "writes-less-before-a-fault": (writes_less_before_a_fault, "bad words 513"),
    "writes-more-before-a-fault": (writes_more_before_a_fault, "bad flags 9"),
    "ends-well": (ends_well, "bad bytes-4 16384"),
    "prints-nothing": (prints_nothing, "bad words-3 9"),
    "names-another-tool": (names_another_tool, "refused"),
}


def stand_in(path, flaw, program):
    """Makes a program of this flaw. Gives its path."""
    words = [sys.executable, os.path.abspath(__file__), flaw, program]
    with open(path, "w", encoding="utf-8") as file:
        file.write(f'#!/bin/sh\nexec {shlex.join(words)} "$@"\n')
    os.chmod(path, 0o755)
    return path


def main():
    flaw, *words = sys.argv[1:]
    ran = subprocess.run(words, stdout=subprocess.PIPE, stderr=subprocess.PIPE, check=False)
    run = Run(words[-1], images_of(ran.stdout), ran.stderr, ran.returncode)
    FLAWS[flaw][0](run)
    for image in run.images:
        sys.stdout.buffer.write(image.header + b"".join(image.rows))
    sys.stderr.buffer.write(run.printed)
    return run.status


if __name__ == "__main__":
    sys.exit(main())
