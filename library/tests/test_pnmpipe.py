"""Tests of the Python module, for pytest. Expected values are worked out by hand from the tools' manual pages."""

import gc
import importlib.metadata
import os
import signal
import subprocess
import sys
import threading
import weakref

import pytest

import pnmpipe

IMAGE = b"P5\n2 3\n9\n\x01\x02\x03\x04\x05\x06"


def test_results():
    assert pnmpipe.run("pamflip -r90", IMAGE) == b"P5\n3 2\n9\n\x02\x04\x06\x01\x03\x05"
    assert pnmpipe.run("pnminvert | pamflip -lr", IMAGE) == b"P5\n2 3\n9\n\x07\x08\x05\x06\x03\x04"
    assert pnmpipe.run("pnminvert", b"P6\n1 1\n255\nABC", plain=True) == b"P3\n1 1\n255\n190 189 188\n"
    assert pnmpipe.run("pamflip -null", IMAGE + IMAGE) == IMAGE + IMAGE


@pytest.mark.parametrize("kind", [bytes, bytearray, memoryview, lambda it: memoryview(bytearray(it))])
def test_inputs(kind):
    given = kind(IMAGE)
    assert pnmpipe.run("pamflip -null", given) == IMAGE
    assert bytes(given) == IMAGE


def test_parts_of_buffers():
    twice = bytearray(IMAGE + IMAGE)
    assert pnmpipe.run("pamflip -null", memoryview(twice)[len(IMAGE) :]) == IMAGE
    assert pnmpipe.run("pamflip -null", memoryview(bytes(b for it in IMAGE for b in (it, 0)))[::2]) == IMAGE
    with pytest.raises(TypeError):
        pnmpipe.run("pnminvert", "P1 1 1 0")


class Data(bytearray):
    """A bytearray of which it can be told whether it is still there."""


def test_inputs_are_let_go():
    """Once a call has ended, its input can grow and goes with its last name, without the collector of cycles."""
    gc.disable()
    try:
        data = Data(IMAGE)
        pnmpipe.run("pnminvert", data)
        data.extend(b"P")
        with pytest.raises(pnmpipe.InputHeaderCut):
            pnmpipe.run("pnminvert", data)
        data.extend(b"5")
        there = weakref.ref(data)
        del data
        assert there() is None
    finally:
        gc.enable()


@pytest.mark.parametrize("empty", [b"", bytearray(), memoryview(b"")])
def test_empty_inputs(empty):
    with pytest.raises(pnmpipe.InputEmptyInput):
        pnmpipe.run("pnminvert", empty)


def test_chains():
    assert pnmpipe.check("pnminvert | pamflip -lr") is None
    with pytest.raises(pnmpipe.ChainUnknownTool) as caught:
        pnmpipe.check("pnminvert | pamflop -lr")
    assert (caught.value.stage, caught.value.tool, caught.value.name) == (2, 0, "UnknownTool")
    assert str(caught.value) == "chain: stage 2: UnknownTool"
    assert isinstance(caught.value, pnmpipe.ChainFault) and isinstance(caught.value, ValueError)
    with pytest.raises(pnmpipe.ChainEmpty, match="^chain: Empty$"):
        pnmpipe.run("", IMAGE)
    with pytest.raises(pnmpipe.ChainTooLong):
        pnmpipe.check(" " * 4097)
    with pytest.raises(pnmpipe.Fault, match="^BadText$"):
        pnmpipe.check("\udcff")


def test_chains_in_bytes():
    pnmpipe.check(b"pnminvert")
    assert pnmpipe.run(b"pamflip -null", IMAGE) == IMAGE
    with pytest.raises(pnmpipe.ChainUnknownTool):
        pnmpipe.check(b"pamflop")
    for call in (pnmpipe.check, lambda it: pnmpipe.run(it, IMAGE), lambda it: pnmpipe.run_fd(it, 0, 1)):
        with pytest.raises(TypeError, match="^a chain is a str, or bytes of UTF-8, and no list$"):
            call(["pnminvert"])


def test_faults():
    with pytest.raises(pnmpipe.InputRasterCut) as caught:
        pnmpipe.run("pnminvert", IMAGE[:-1])
    assert caught.value.results == b"P5\n2 3\n9\n\x08\x07\x06\x05"
    with pytest.raises(pnmpipe.ToolCutOutside) as caught:
        pnmpipe.run("pnminvert | pamcut -left 7", IMAGE)
    assert (caught.value.tool, caught.value.stage, caught.value.results) == (2, 0, b"")
    assert str(caught.value) == "tool 2: CutOutside"
    with pytest.raises(pnmpipe.OutputSecondPlain) as caught:
        pnmpipe.run("pamflip -null", b"P5 1 1 9 \x05" + b"P5 1 1 9 \x06", plain=True)
    assert caught.value.results == b"P2\n1 1\n9\n5\n"


def test_descriptors(tmp_path):
    path = tmp_path / "image"
    path.write_bytes(IMAGE)
    with open(path, "rb") as source, open(tmp_path / "turned", "w+b") as target:
        assert pnmpipe.run_fd("pamflip -r90", source.fileno(), target.fileno()) == (1, 2)
        target.seek(0)
        assert target.read() == b"P5\n3 2\n9\n\x02\x04\x06\x01\x03\x05"
    with pytest.raises(pnmpipe.InputReadFailed):
        pnmpipe.run_fd("pnminvert", -1, 1)
    with open(path, "rb") as source, open("/dev/full", "wb") as full:
        with pytest.raises(pnmpipe.OutputWriteFailed):
            pnmpipe.run_fd("pnminvert", source.fileno(), full.fileno())


def test_files(tmp_path):
    (tmp_path / "image").write_bytes(IMAGE)
    with open(tmp_path / "image", "rb") as source, open(tmp_path / "same", "wb") as target:
        assert pnmpipe.run_fd("pamflip -null", source, target) == (1, 3)
        assert not source.closed and os.fstat(target.fileno()).st_size == len(IMAGE)
    assert (tmp_path / "same").read_bytes() == IMAGE


@pytest.mark.parametrize("number", [1 << 32, 1 << 31, -2, -(1 << 32)])
def test_numbers_of_no_descriptor(number):
    for words in ((number, 1), (0, number)):
        with pytest.raises(ValueError, match=f"^{number} is no file descriptor$"):
            pnmpipe.run_fd("pnminvert", *words)


@pytest.mark.parametrize("file", [None, 1.5, "path"])
def test_what_has_no_descriptor(file):
    for words in ((file, 1), (0, file)):
        with pytest.raises(TypeError, match=f"^a file is a descriptor, or has one, and is no {type(file).__name__}$"):
            pnmpipe.run_fd("pnminvert", *words)


INTERRUPTED = """
import os, signal, sys, pnmpipe
try:
    pnmpipe.run_fd("pnminvert", 0, 1)
except KeyboardInterrupt:
    os.fstat(0), os.fstat(1)
    sys.exit(7 if signal.getsignal(signal.SIGINT) is signal.default_int_handler else 8)
"""


@pytest.mark.parametrize("side", [1, 1000])
def test_interrupted(side):
    """SIGINT ends a call that waits for more input, or for room for its results, and leaves the descriptors open."""
    pipes = {"stdin": subprocess.PIPE, "stdout": subprocess.PIPE, "bufsize": 0}
    with subprocess.Popen([sys.executable, "-c", INTERRUPTED], **pipes) as running:
        try:
            running.stdin.write(b"P5 %d %d 9 " % (side, side) + bytes(side * side))
            # (it has begun to write, so it is in its call)
            assert running.stdout.read(2) == b"P5"
            running.send_signal(signal.SIGINT)
            assert running.wait(60) == 7
        finally:
            running.kill()


SIGNALED = """
import threading
threading.Timer(0.5, lambda: signal.pthread_kill(threading.get_ident(), signal.SIGINT)).start()
"""


def test_interrupted_by_a_signal_to_another_thread():
    """SIGINT ends a call, whichever thread it came to."""
    code = INTERRUPTED.replace("try:", SIGNALED.strip() + "\ntry:", 1)
    with subprocess.Popen([sys.executable, "-c", code], stdin=subprocess.PIPE, stdout=subprocess.PIPE) as running:
        try:
            assert running.wait(20) == 7
        finally:
            running.kill()


def test_interrupted_before_it_begins(tmp_path, monkeypatch):
    """A call whose thread begins after it was interrupted touches no file, whoever has its descriptors by then."""
    late, start = [], threading.Thread.start

    def interrupted(thread):
        late.append(thread)
        raise KeyboardInterrupt

    (tmp_path / "image").write_bytes(IMAGE)
    with open(tmp_path / "image", "rb") as source, open(tmp_path / "result", "wb") as target:
        with monkeypatch.context() as patched:
            patched.setattr(threading.Thread, "start", interrupted)
            with pytest.raises(KeyboardInterrupt):
                pnmpipe.run_fd("pnminvert", source, target)
        others = [os.dup(it.fileno()) for it in (source, target)]
        start(late[0])
        late[0].join(10)
        assert (late[0].is_alive(), os.lseek(others[0], 0, os.SEEK_CUR), os.fstat(others[1]).st_size) == (False, 0, 0)
        for it in others:
            os.close(it)


def test_interpreters_lock_is_free():
    """A call that waits for its input leaves another thread to write it."""
    source, sink = os.pipe()
    back, target = os.pipe()
    waiting = threading.Thread(target=pnmpipe.run_fd, args=("pnminvert", source, target))
    waiting.start()
    os.write(sink, b"P5 1 1 9 \x03")
    os.close(sink)
    waiting.join(10)
    assert not waiting.is_alive()
    assert os.read(back, 99) == b"P5\n1 1\n9\n\x06"
    for it in (source, back, target):
        os.close(it)


def test_arrays():
    numpy = pytest.importorskip("numpy")
    gray = numpy.array([[1, 2], [3, 4], [5, 6]], numpy.uint8)
    assert pnmpipe.run_array("pamflip -r90", gray).tolist() == [[2, 4, 6], [1, 3, 5]]
    color = numpy.arange(12, dtype=numpy.uint8).reshape(2, 2, 3)
    assert pnmpipe.run_array("pamflip -tb", color).tolist() == color[::-1].tolist()
    assert pnmpipe.run_array("pamchannel 2", color).tolist() == color[:, :, 2].tolist()
    wide = numpy.array([[0, 258, 65535]], numpy.uint16)
    turned = pnmpipe.run_array("pnminvert", wide)
    assert turned.dtype == numpy.uint16 and turned.tolist() == [[65535, 65277, 0]]
    bits = numpy.array([[True, False, False]])
    flipped = pnmpipe.run_array("pamflip -lr", bits)
    assert flipped.dtype == numpy.bool_ and flipped.tolist() == [[False, False, True]]
    assert pnmpipe.run_array("pamflip -lr", gray[:, ::-1]).tolist() == gray.tolist()
    for other in (numpy.zeros((2, 2)), numpy.zeros(2, numpy.uint8), [[1, 2]], None):
        with pytest.raises(TypeError, match="^an image is an array of bool, uint8 or uint16"):
            pnmpipe.run_array("pnminvert", other)


@pytest.mark.parametrize("order", ["<u2", ">u2"])
def test_arrays_of_both_orders(order):
    numpy = pytest.importorskip("numpy")
    turned = pnmpipe.run_array("pnminvert", numpy.array([[0, 258, 65535]], order))
    assert turned.dtype == numpy.uint16 and turned.tolist() == [[65535, 65277, 0]]


@pytest.mark.parametrize("name", ["ENDHDR", "XENDHDR", "WIDTH", "ENDHDR=ENDHDR"])
def test_arrays_of_types_like_headers(name):
    numpy = pytest.importorskip("numpy")
    gray = numpy.array([[1, 2], [3, 4]], numpy.uint8)
    assert pnmpipe.run_array(f"pamchannel 0 -tupletype {name}", gray).tolist() == [[1, 2], [3, 4]]


def test_version():
    assert pnmpipe.version().count(".") == 2
    assert pnmpipe.__version__ == pnmpipe.version()
    if os.environ.get("PNMPIPE_METADATA"):
        assert importlib.metadata.version("pnmpipe") == pnmpipe.__version__
