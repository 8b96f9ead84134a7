#!/usr/bin/env python3
"""Makes a wheel of the Python module with the C library in it, from library/python and bin/libpnmpipe.so.1, into dist/.

A wheel is an archive (PEP 427): the module's files, and what is said of them. It fits one machine and any Python 3.
`--metadata` prints what is said of the module, for another package of it.
"""

import base64
import hashlib
import os
import platform
import sys
import time
import zipfile

from library import ROOT, SHARED, version
from places import read

NAME = "pnmpipe"
SOURCE = os.path.join(ROOT, "library/python", NAME)
PYTHON = ">=3.8"


def metadata():
    """What is said of the module, in the form of PEP 566."""
    lines = ["Metadata-Version: 2.1", f"Name: {NAME}", f"Version: {version()}"]
    lines += ["Summary: Netpbm tools over images in memory, in one call", f"Requires-Python: {PYTHON}"]
    lines += ["Provides-Extra: numpy", "Requires-Dist: numpy; extra == 'numpy'"]
    lines += ["Description-Content-Type: text/markdown"]
    return "\n".join([*lines, "", read("library/python/README.md")])


def said(tag):
    """The files that say what the wheel is."""
    yield "METADATA", metadata()
    yield "WHEEL", f"Wheel-Version: 1.0\nGenerator: {NAME}\nRoot-Is-Purelib: false\nTag: {tag}\n"


def files(shared):
    for name in sorted(os.listdir(SOURCE)):
        path = os.path.join(SOURCE, name)
        if os.path.isfile(path):
            with open(path, "rb") as file:
                yield f"{NAME}/{name}", file.read(), 0o644
    with open(shared, "rb") as file:
        yield f"{NAME}/{SHARED}", file.read(), 0o755


def make(shared, folder):
    """Leaves the wheel in the folder, and gives its path."""
    tag = f"py3-none-linux_{platform.machine()}"
    about = f"{NAME}-{version()}.dist-info"
    path = os.path.join(folder, f"{NAME}-{version()}-{tag}.whl")
    # the time of the source, so that one source makes one wheel
    stamp = time.gmtime(max(315532800, int(os.environ.get("SOURCE_DATE_EPOCH", "315532800"))))[:6]
    record = []
    os.makedirs(folder, exist_ok=True)
    with zipfile.ZipFile(path, "w", zipfile.ZIP_DEFLATED) as wheel:
        told = [(f"{about}/{name}", text.encode(), 0o644) for name, text in said(tag)]
        for name, data, mode in [*files(shared), *told]:
            digest = base64.urlsafe_b64encode(hashlib.sha256(data).digest()).rstrip(b"=").decode()
            record.append(f"{name},sha256={digest},{len(data)}\n")
            write(wheel, name, data, mode, stamp)
        record.append(f"{about}/RECORD,,\n")
        write(wheel, f"{about}/RECORD", "".join(record).encode(), 0o644, stamp)
    return path


def write(wheel, name, data, mode, stamp):
    entry = zipfile.ZipInfo(name, stamp)
    entry.compress_type, entry.external_attr = zipfile.ZIP_DEFLATED, (0o100000 | mode) << 16
    wheel.writestr(entry, data)


def main():
    if sys.argv[1:] == ["--metadata"]:
        sys.stdout.write(metadata())
        return
    shared = os.path.join(ROOT, "bin", SHARED)
    if not os.path.exists(shared):
        sys.exit(f"wheel: there is no bin/{SHARED}: run make library first")
    print(os.path.relpath(make(shared, os.path.join(ROOT, "dist")), ROOT))


if __name__ == "__main__":
    main()
