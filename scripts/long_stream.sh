#!/bin/sh
# Passes a stream of 4 GiB, made as it goes, through the program that make has left, and wants each byte of the result
# and less than 32 MB of memory. An image of 65,536 rows of 65,536 bytes, all 0, is inverted: each byte of the result
# is 255.
set -eu
cd "$(dirname "$0")/.."
python3 - bin/pnmpipe << 'END'
import os
import subprocess
import sys
import threading

HEADER = b"P5\n65536 65536\n255\n"
ROW = bytes(65536)
INVERTED = b"\xff" * 65536
ROWS = 65536

child = subprocess.Popen([sys.argv[1], "pnminvert"], stdin=subprocess.PIPE, stdout=subprocess.PIPE)


def feed():
    with child.stdin as to:
        to.write(HEADER)
        for _ in range(ROWS):
            to.write(ROW)


feeder = threading.Thread(target=feed)
feeder.start()
assert child.stdout.read(len(HEADER)) == HEADER, "another header"
for row in range(ROWS):
    assert child.stdout.read(len(INVERTED)) == INVERTED, f"row {row} is another"
assert child.stdout.read() == b"", "bytes after the image"
feeder.join()
_, status, usage = os.wait4(child.pid, 0)
child.returncode = status
megabytes = usage.ru_maxrss / 1024
print(f"4 GiB: {usage.ru_utime + usage.ru_stime:.1f} s of the processor, at most {megabytes:.0f} MB")
sys.exit(status != 0 or megabytes >= 32)
END
