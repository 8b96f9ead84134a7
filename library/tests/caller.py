"""A caller of the Python module with all its types: `mypy --strict` finds nothing in it."""

import sys
import typing

import numpy

import pnmpipe


def turned(path: str, data: typing.Union[bytes, bytearray, memoryview]) -> bytes:
    """What run and run_fd give and take."""
    with open(path, "rb") as source, open(path + ".turned", "wb") as target:
        summary: pnmpipe.Summary = pnmpipe.run_fd("pamflip -r90", source, target.fileno())
        print(summary.images + summary.rows)
    try:
        pnmpipe.check(b"pnminvert")
        return pnmpipe.run("pamflip -r90", data, plain=True)
    except pnmpipe.InputRasterCut as fault:
        return fault.results
    except pnmpipe.Fault as fault:
        raise SystemExit(f"{fault.code} {fault.name} {fault.stage} {fault.tool}") from fault


def corner(image: "numpy.ndarray[typing.Any, numpy.dtype[numpy.uint8]]") -> int:
    """What run_array gives and takes."""
    return int(pnmpipe.run_array("pnminvert", image)[0, 0])


if __name__ == "__main__":
    print(pnmpipe.__version__, turned(sys.argv[1], b"P1 1 1 0"), corner(numpy.zeros((1, 1), numpy.uint8)))
