#!/usr/bin/env python3
"""Runs each block of docs/RECIPES.md, with the program that make has left and the real programs beside it.

A block begins with a line like ```sh wants=gs,pnmtops leaves=pages.ps:284x396: the programs that it wants, and the
files that it has to leave, each with the size of its images, in points on a printed page, or a text, in small or
large letters. `says` has the first word of each line that it writes. Each is run by bash in a folder of its own, after
`make install` into another one. `ssh host` goes to this machine, by an sshd that is started on the loopback for this
run alone.
"""

import getpass
import os
import re
import shutil
import socket
import struct
import subprocess
import sys
import tempfile
import time

from places import ROOT, read

BLOCK = re.compile(r"^```sh(.*)\n((?:.*\n)*?)```$", re.M)
SECONDS = 120

# what a folder has beside the images
SCRIPT = """#!/bin/sh
pamcut -l 8 in.pgm | pamflip -r90 | pnminvert | pnmtopng > old.png
"""


def gray(width, height, seed):
    raster = bytes((x * seed + y) % 256 for y in range(height) for x in range(width))
    return b"P5\n%d %d\n255\n" % (width, height) + raster


def pdf():
    """A document of two pages of text, written by hand."""
    objects = [b"<</Type/Catalog/Pages 2 0 R>>", b"<</Type/Pages/Kids[3 0 R 5 0 R]/Count 2>>"]
    for number, text in [(3, b"First page"), (5, b"Second page")]:
        page = b"<</Type/Page/Parent 2 0 R/MediaBox[0 0 288 400]/Contents %d 0 R" % (number + 1)
        page += b"/Resources<</Font<</F 7 0 R>>>>>>"
        drawing = b"BT /F 40 Tf 30 200 Td (%s) Tj ET" % text
        objects += [page, b"<</Length %d>>stream\n%s\nendstream" % (len(drawing), drawing)]
    objects.append(b"<</Type/Font/Subtype/Type1/BaseFont/Helvetica>>")
    made, places = b"%PDF-1.4\n", []
    for number, text in enumerate(objects, 1):
        places.append(len(made))
        made += b"%d 0 obj%s endobj\n" % (number, text)
    table = b"xref\n0 %d\n0000000000 65535 f \n" % (len(objects) + 1)
    table += b"".join(b"%010d 00000 n \n" % place for place in places)
    return made + table + b"trailer<</Size %d/Root 1 0 R>>\nstartxref\n%d\n%%%%EOF\n" % (len(objects) + 1, len(made))


def fill(folder):
    """What each block finds."""
    os.makedirs(f"{folder}/scans")
    files = {"in.pgm": gray(120, 90, 3), "cut.pgm": gray(120, 90, 5)[:-1], "old.sh": SCRIPT.encode(), "file.pdf": pdf()}
    pixels = bytes((x * 3 + y * 5 + plane * 60) % 256 for y in range(90) for x in range(120) for plane in range(3))
    files["in.ppm"] = b"P6\n120 90\n255\n" + pixels
    for number in range(1, 101):
        files[f"scans/scan-{number:03}.pgm"] = gray(40, 30, number)
    for name, data in files.items():
        with open(f"{folder}/{name}", "wb") as file:
            file.write(data)


def sizes(data):
    """The sizes of the image in a file, or of each printed page."""
    if data.startswith((b"P4", b"P5", b"P6")):
        words = data[:64].split()
        return [(int(words[1]), int(words[2]))]
    if data.startswith(b"\x89PNG"):
        return [struct.unpack(">II", data[16:24])]
    if data.startswith(b"\xff\xd8"):
        at = 2
        while data[at + 1] not in (0xC0, 0xC1, 0xC2):
            at += 2 + struct.unpack(">H", data[at + 2 : at + 4])[0]
        return [struct.unpack(">HH", data[at + 5 : at + 9])[::-1]]
    boxes = re.findall(rb"^%%BoundingBox: (\d+) (\d+) (\d+) (\d+)", data, re.M)
    return [(int(right) - int(left), int(top) - int(bottom)) for left, bottom, right, top in boxes]


def has(data, wanted):
    """Whether a file has images of a size, or a text."""
    size = re.fullmatch(r"(\d+)x(\d+)", wanted)
    return set(sizes(data)) == {(int(size[1]), int(size[2]))} if size else wanted.lower().encode() in data.lower()


class Host:
    """An sshd on the loopback, and a command `ssh` that finds it under the name `host`."""

    def __init__(self, folder, path):
        self.child = None
        sshd = shutil.which("sshd", path=f"{path}:/usr/sbin:/sbin")
        if not sshd or not shutil.which("ssh-keygen"):
            return
        os.makedirs(f"{folder}/ssh", mode=0o700)
        for key in ("host", "user"):
            subprocess.run(["ssh-keygen", "-q", "-t", "ed25519", "-N", "", "-f", f"{folder}/ssh/{key}"], check=True)
        shutil.copy(f"{folder}/ssh/user.pub", f"{folder}/ssh/authorized")
        with socket.socket() as free:
            free.bind(("127.0.0.1", 0))
            port = free.getsockname()[1]
        with open(f"{folder}/ssh/sshd_config", "w", encoding="utf-8") as file:
            file.write(
                f"Port {port}\nListenAddress 127.0.0.1\nHostKey {folder}/ssh/host\n"
                f"PidFile none\nStrictModes no\nUsePAM no\n"
                f"AuthorizedKeysFile {folder}/ssh/authorized\nPasswordAuthentication no\nPermitRootLogin yes\n"
                f"MaxStartups 100\nSetEnv PATH={path}\n"
            )
        with open(f"{folder}/ssh/config", "w", encoding="utf-8") as file:
            file.write(
                f"Host host\n  HostName 127.0.0.1\n  Port {port}\n  User {getpass.getuser()}\n"
                f"  IdentityFile {folder}/ssh/user\n"
                f"  StrictHostKeyChecking no\n  UserKnownHostsFile {folder}/ssh/known\n  LogLevel ERROR\n"
            )
        with open(f"{folder}/bin/ssh", "w", encoding="utf-8") as file:
            file.write(f'#!/bin/sh\nexec {shutil.which("ssh")} -F {folder}/ssh/config "$@"\n')
        os.chmod(f"{folder}/bin/ssh", 0o755)
        if os.geteuid() == 0:
            os.makedirs("/run/sshd", exist_ok=True)
        self.log = open(f"{folder}/ssh/log", "w", encoding="utf-8")
        self.child = subprocess.Popen([sshd, "-D", "-e", "-f", f"{folder}/ssh/sshd_config"], stderr=self.log)
        for _ in range(100):
            words = [f"{folder}/bin/ssh", "host", "true"]
            if subprocess.run(words, check=False, stderr=subprocess.DEVNULL).returncode == 0:
                return
            time.sleep(0.1)
        self.end()

    def end(self):
        if self.child:
            self.child.terminate()
            self.child.wait()
            self.log.close()
            self.child = None


def is_there(name, env):
    """Whether a program is, or the C library that make library leaves, or the Python module Pillow."""
    if name == "libpnmpipe":
        return os.path.exists(f"{env['PREFIX']}/lib/libpnmpipe.so.1")
    if name == "pillow":
        return subprocess.run(["python3", "-c", "import PIL"], env=env, stderr=subprocess.DEVNULL).returncode == 0
    return shutil.which(name, path=f"{env['PATH']}:/usr/sbin:/sbin") is not None


def lacking(wants, env, host):
    """What a block wants and isn't there."""
    lacks = [name for name in wants if not is_there(name, env)]
    if "sshd" in wants and not host.child and not lacks:
        lacks.append("an sshd that can be entered")
    return lacks


def run_block(script, leaves, says, folder, env):
    """What is wrong with a block; None where all is well."""
    fill(folder)
    words = ["bash", "-e", "-u", "-o", "pipefail", "-c", script]
    try:
        done = subprocess.run(
            words, cwd=folder, env=env, stdin=subprocess.DEVNULL, capture_output=True, timeout=SECONDS, check=False
        )
    except subprocess.TimeoutExpired:
        return f"it didn't end in {SECONDS} seconds"
    faults = [] if done.returncode == 0 else [f"status {done.returncode}"]
    if says and [line.split()[0].decode() for line in done.stdout.splitlines()] != says.split(","):
        faults.append(f"it doesn't say {says}")
    for name, wanted in (each.split(":", 1) for each in leaves):
        if not os.path.isfile(f"{folder}/{name}"):
            faults.append(f"there is no {name}")
            continue
        with open(f"{folder}/{name}", "rb") as file:
            data = file.read()
        if not has(data, wanted):
            faults.append(f"{name} has no {wanted}, but {sizes(data) or data[:40]}")
    if not faults:
        return None
    return ", ".join(faults) + "\n" + (done.stdout + done.stderr).decode(errors="replace")


def main():
    blocks = BLOCK.findall(read("docs/RECIPES.md"))
    failed = left_out = 0
    with tempfile.TemporaryDirectory() as work:
        prefix = f"{work}/prefix"
        subprocess.run(["make", "-s", "-C", ROOT, "install", f"PREFIX={prefix}"], check=True)
        os.mkdir(f"{work}/bin")
        os.makedirs(f"{work}/home/.parallel")
        with open(f"{work}/home/.parallel/will-cite", "w", encoding="utf-8"):
            pass
        path = f"{work}/bin:{prefix}/bin:{os.environ['PATH']}"
        host = Host(work, path)
        env = {**os.environ, "PATH": path, "PREFIX": prefix, "HOME": f"{work}/home"}
        env["EXAMPLES"], env["PYTHONPATH"] = f"{ROOT}/library/examples", f"{ROOT}/library/python"
        env["PNMPIPE_LIBRARY"], env["PYTHONDONTWRITEBYTECODE"] = f"{prefix}/lib/libpnmpipe.so.1", "1"
        try:
            for number, (words, script) in enumerate(blocks, 1):
                given = dict(word.split("=", 1) for word in words.split())
                name = script.strip().split("\n")[0]
                lacks = lacking(given.get("wants", "").split(",") if "wants" in given else [], env, host)
                if lacks:
                    left_out += 1
                    print(f"left out: {name}: it wants {', '.join(lacks)}")
                    continue
                leaves = given["leaves"].split(",") if "leaves" in given else []
                if not leaves and "says" not in given:
                    sys.exit(f"recipes.py: {name}: it names nothing that the block leaves or says")
                fault = run_block(script, leaves, given.get("says"), f"{work}/{number}", env)
                failed += fault is not None
                print(f"ran: {name}" if fault is None else f"FAILED: {name}: {fault}", flush=True)
        finally:
            host.end()
    print(f"{len(blocks)} blocks, {failed} failed, {left_out} left out")
    sys.exit(failed > 0)


if __name__ == "__main__":
    main()
