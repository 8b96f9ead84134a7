"""The tools of pnmpipe over images in memory.

    >>> import pnmpipe
    >>> pnmpipe.run("pamflip -lr", b"P5\\n2 1\\n9\\n\\x01\\x02")
    b'P5\\n2 1\\n9\\n\\x02\\x01'

A chain has one or more tools with bars between them, as for pnmpipe(1). Calls may be made at once from any number of
threads: the interpreter's lock is free while the tools run. What goes wrong is raised as a Fault.
"""

from __future__ import annotations

import ctypes
import errno
import os
import signal
import threading
import typing

if typing.TYPE_CHECKING:
    import numpy
    from typing_extensions import TypeAlias

    # (an alias that says so is one where numpy isn't installed, too)
    Array: TypeAlias = numpy.ndarray[typing.Any, typing.Any]

    def __getattr__(name: str) -> type[Fault]:
        """The class of a fault: they are made of what the library has."""

__all__ = ["Fault", "ChainFault", "InputFault", "ToolFault", "OutputFault", "MemoryFault", "Summary"]
__all__ += ["__version__", "check", "run", "run_array", "run_fd", "version"]

Chain = typing.Union[str, bytes]
Buffer = typing.Union[bytes, bytearray, memoryview, "Array"]

_ABI = 1


class Fault(Exception):
    """What went wrong. Each fault has a class of its own, as ChainUnknownTool, below one of those that follow.

    name is the one that pnmpipe(1) prints, as UnknownTool, and code its number in pnmpipe.h. stage and tool are numbers
    from 1, or 0: of the stage of the chain's text, or the tool, that is at fault. results are the bytes that were
    written before the fault."""

    def __init__(self, code: int, name: str, number: int = 0, results: bytes = b"") -> None:
        super().__init__(code, name, number, results)
        self.code = code
        self.name = name
        self.stage = number if code // 100 == 1 else 0
        self.tool = number if code // 100 == 3 or code == 503 else 0
        self.results = results

    def __str__(self) -> str:
        return self.name

    def _at(self, place: str) -> str:
        return f"{place}: {self.name}"


class ChainFault(Fault, ValueError):
    """The text of the chain is at fault."""

    def __str__(self) -> str:
        return self._at(f"chain: stage {self.stage}" if self.stage else "chain")


class InputFault(Fault, ValueError):
    """The input is at fault."""

    def __str__(self) -> str:
        return self._at("input")


class ToolFault(Fault, ValueError):
    """A tool refuses an image."""

    def __str__(self) -> str:
        return self._at(f"tool {self.tool}")


class OutputFault(Fault, ValueError):
    """The results can't be written in the form that was asked for, or to the descriptor."""

    def __str__(self) -> str:
        return self._at("output")


class MemoryFault(Fault, MemoryError):
    """There was no memory."""


class HasDescriptor(typing.Protocol):
    """A file that has a descriptor."""

    def fileno(self) -> int:
        """The descriptor."""


class Summary(typing.NamedTuple):
    """The whole images and the rows that were written."""

    images: int
    rows: int


_CLASSES = {1: ChainFault, 2: InputFault, 3: ToolFault, 4: OutputFault, 5: MemoryFault}
_PLACES = {1: "Chain", 2: "Input", 3: "Tool", 4: "Output"}


class _Answer(ctypes.Structure):
    _fields_ = [
        ("code", ctypes.c_uint32),
        ("reserved", ctypes.c_uint32),
        ("number", ctypes.c_size_t),
        ("images", ctypes.c_uint64),
        ("rows", ctypes.c_uint64),
        ("size", ctypes.c_size_t),
        ("reserved_1", ctypes.c_uint64),
        ("reserved_2", ctypes.c_uint64),
    ]


class _Bytes(ctypes.Structure):
    _fields_ = [("at", ctypes.c_void_p), ("length", ctypes.c_size_t)]


def _loaded() -> ctypes.CDLL:
    """The library: that of the environment, the one in a wheel, or that of the system."""
    own = os.path.join(os.path.dirname(os.path.abspath(__file__)), "libpnmpipe.so.1")
    found = os.environ.get("PNMPIPE_LIBRARY") or (own if os.path.exists(own) else "libpnmpipe.so.1")
    library = ctypes.CDLL(found)
    chain = [ctypes.c_char_p, ctypes.c_size_t]
    whole = [*chain, ctypes.c_uint32]
    library.pnmpipe_abi_version.restype = ctypes.c_uint32
    library.pnmpipe_version.restype = ctypes.c_char_p
    library.pnmpipe_code_name.restype = ctypes.c_char_p
    library.pnmpipe_code_name.argtypes = [ctypes.c_uint32]
    library.pnmpipe_check.restype = ctypes.c_uint32
    library.pnmpipe_check.argtypes = [*chain, ctypes.POINTER(ctypes.c_size_t)]
    library.pnmpipe_run_new.restype = ctypes.c_uint32
    library.pnmpipe_run_new.argtypes = [*whole, ctypes.c_void_p, ctypes.c_size_t]
    library.pnmpipe_run_new.argtypes += [ctypes.POINTER(_Bytes), ctypes.POINTER(_Answer)]
    library.pnmpipe_run_fd.restype = ctypes.c_uint32
    library.pnmpipe_run_fd.argtypes = [*whole, ctypes.c_int, ctypes.c_int, ctypes.POINTER(_Answer)]
    if library.pnmpipe_abi_version() != _ABI:
        raise ImportError(f"{found} has another interface than {_ABI}")
    return library


_LIBRARY = _loaded()
_FREE = ctypes.CDLL(None).free
_FREE.argtypes, _FREE.restype = [ctypes.c_void_p], None


def _name(code: int) -> str:
    name: bytes = _LIBRARY.pnmpipe_code_name(code)
    return name.decode("ascii")


def _fault_classes() -> dict[int, type[Fault]]:
    """A class for each code that the library has, which the module has under its name."""
    found: dict[int, type[Fault]] = {}
    for code in range(101, 600):
        name = _name(code)
        if name != "Unknown":
            base = _CLASSES[code // 100]
            own = _PLACES[code // 100 if code < 500 else code - 500] + name
            found[code] = type(own, (base,), {"__module__": __name__, "__doc__": f"{name}, as pnmpipe(1) has it."})
    return found


_FAULTS = _fault_classes()
globals().update({it.__name__: it for it in _FAULTS.values()})
__all__ += [it.__name__ for it in _FAULTS.values()]


def _fault(code: int, number: int, results: bytes = b"") -> Fault:
    return _FAULTS.get(code, Fault)(code, _name(code), number, results)


def _text(chain: Chain) -> bytes:
    if isinstance(chain, bytes):
        return chain
    if isinstance(chain, str):
        return chain.encode("utf-8", "surrogateescape")
    raise TypeError(f"a chain is a str, or bytes of UTF-8, and no {type(chain).__name__}")


def version() -> str:
    """The version of the library."""
    told: bytes = _LIBRARY.pnmpipe_version()
    return told.decode("ascii")


__version__ = version()


def check(chain: Chain) -> None:
    """Raises a ChainFault where the chain's text is at fault."""
    text, stage = _text(chain), ctypes.c_size_t()
    code = _LIBRARY.pnmpipe_check(text, len(text), ctypes.byref(stage))
    if code:
        raise _fault(code, stage.value)


def run(chain: Chain, data: Buffer, plain: bool = False) -> bytes:
    """Passes the images of data through the tools of the chain. Gives the results: raw images, or a plain one."""
    code, number, made = _run_new(_text(chain), data, plain)
    if code:
        raise _fault(code, number, made)
    return made


def _run_new(text: bytes, data: Buffer, plain: bool) -> tuple[int, int, bytes]:
    """The code, the number and the results of a call. It holds data until it returns, and no fault holds it longer."""
    view = memoryview(typing.cast(bytes, data))
    given: typing.Any = data
    if not isinstance(data, bytes):
        held = ctypes.c_char.from_buffer(view) if view.nbytes and view.c_contiguous and not view.readonly else None
        given = view.tobytes() if held is None else ctypes.addressof(held)
    answer, results = _Answer(), _Bytes()
    try:
        code = _LIBRARY.pnmpipe_run_new(
            text, len(text), int(plain), given, view.nbytes, ctypes.byref(results), ctypes.byref(answer)
        )
        return code, answer.number, ctypes.string_at(results.at, results.length) if results.length else b""
    finally:
        _FREE(results.at)


def run_fd(chain: Chain, source: int | HasDescriptor, target: int | HasDescriptor, plain: bool = False) -> Summary:
    """Passes the images that one file gives through the tools, and writes the results to another: descriptors, or files
    that have one, whose own buffers it passes by. Both stay open. In the main thread handlers of signals run meanwhile,
    and one that raises, as that of SIGINT does, ends the call."""
    text, answer = _text(chain), _Answer()
    files = [_descriptor(source), _descriptor(target)]

    def work(source: int, target: int) -> None:
        _LIBRARY.pnmpipe_run_fd(text, len(text), int(plain), source, target, ctypes.byref(answer))

    if threading.current_thread() is threading.main_thread():
        _beside(work, files)
    else:
        work(*files)
    if answer.code:
        raise _fault(answer.code, answer.number)
    return Summary(answer.images, answer.rows)


def _descriptor(file: int | HasDescriptor) -> int:
    if not isinstance(file, int) and not hasattr(file, "fileno"):
        raise TypeError(f"a file is a descriptor, or has one, and is no {type(file).__name__}")
    number = file if isinstance(file, int) else file.fileno()
    if not -1 <= number < 1 << 31:
        raise ValueError(f"{number} is no file descriptor")
    return number


def _duplicate(descriptor: int) -> int:
    """Another descriptor of the same file; -1, at which a read or a write fails, where there is no such file."""
    try:
        return os.dup(descriptor)
    except OSError as error:
        if error.errno != errno.EBADF:
            raise
        return -1


class _End:
    """The end of a thread's work, which another thread awaits. One that is interrupted may wait again, which it can't at
    an Event: that has a lock, which an interrupted thread may leave locked."""

    def __init__(self) -> None:
        self.lock, self.is_there = threading.Lock(), False
        self.lock.acquire()

    def tell(self) -> None:
        """The work has ended."""
        self.is_there = True
        self.lock.release()

    def wait(self) -> None:
        """Waits, and wakes at times, since a signal that another thread has taken, or that came just before the wait,
        wakes nobody."""
        while not self.is_there:
            self.lock.acquire(timeout=0.2)


def _beside(work: typing.Callable[[int, int], None], files: list[int]) -> None:
    """Works over files in another thread, while handlers of signals run in this one."""
    own = [_duplicate(it) for it in files]
    ended, left = _End(), _End()
    # whether the thread began before this one was interrupted: the first that is said counts
    has_begun: list[bool] = []

    def run() -> None:
        has_begun.append(True)
        try:
            if has_begun[0]:
                work(*own)
        finally:
            ended.tell()
            # (it is there as long as a signal may be sent to it)
            left.wait()

    thread = threading.Thread(target=run, daemon=True)
    try:
        thread.start()
        ended.wait()
    except BaseException:
        has_begun.append(False)
        if has_begun[0] and thread.ident is not None:
            _end(thread.ident, own, ended)
        raise
    finally:
        left.tell()
        for it in own:
            if it >= 0:
                os.close(it)


def _end(thread: int, files: list[int], ended: _End) -> None:
    """Ends a thread's work over files: reads find the end from now on, writes fail, and a signal interrupts the one that
    waits."""
    null = os.open(os.devnull, os.O_RDONLY)
    for it in files:
        if it >= 0:
            os.dup2(null, it)
    os.close(null)
    handler = signal.signal(signal.SIGINT, lambda *_: None)
    signal.pthread_kill(thread, signal.SIGINT)
    ended.wait()
    signal.signal(signal.SIGINT, handler or signal.SIG_DFL)


def run_array(chain: Chain, array: Array) -> Array:
    """Passes one image through the tools: an array of bool, uint8 or uint16 by row and column, and by plane where there
    are several. True is white. The result has as many dimensions as its planes want."""
    import numpy

    array = numpy.asarray(array)
    shape = array.shape if array.ndim == 3 else (*array.shape, 1)
    kind = array.dtype.newbyteorder("=")
    if len(shape) != 3 or kind not in (numpy.bool_, numpy.uint8, numpy.uint16):
        raise TypeError("an image is an array of bool, uint8 or uint16 in two or three dimensions")
    maxval = {1: 255, 2: 65_535}[kind.itemsize] if kind != numpy.bool_ else 1
    raster = numpy.ascontiguousarray(array, dtype=">u2" if maxval > 255 else numpy.uint8)
    lines = (b"P7", b"WIDTH %d" % shape[1], b"HEIGHT %d" % shape[0], b"DEPTH %d" % shape[2], b"MAXVAL %d" % maxval)
    return _array_of(run(chain, b"\n".join([*lines, b"ENDHDR\n"]) + raster.tobytes()), kind == numpy.bool_)


def _array_of(image: bytes, is_bool: bool) -> Array:
    """The samples of a PAM image that the library has written."""
    import numpy

    head, _, raster = image.partition(b"\nENDHDR\n")
    facts = {key: value for key, _, value in (line.partition(b" ") for line in head.split(b"\n"))}
    height, width, depth, maxval = (int(facts[key]) for key in (b"HEIGHT", b"WIDTH", b"DEPTH", b"MAXVAL"))
    samples = numpy.frombuffer(raster, dtype=">u2" if maxval > 255 else numpy.uint8)
    samples = samples.reshape((height, width) if depth == 1 else (height, width, depth))
    if is_bool and maxval == 1:
        return samples.astype(numpy.bool_)
    return samples.astype(numpy.uint16 if maxval > 255 else numpy.uint8)
