"""Sets of cells, packed as the laboratory packs them, and as arrays of numpy.

A row of `width` cells is `width / 8` bytes; the left cell is the highest bit of the first byte. A plane is
its rows from the top, one after the other. An array of cells is of truth values, of shape (height, width).
"""
import numpy
from numpy.typing import ArrayLike, NDArray

from ..protocol.commands import SIDES

Cells = NDArray[numpy.bool_]
"""Truth values, of shape (height, width)."""


def check_sides(width: object, height: object) -> None:
    """Raises `ValueError` unless a lattice may be so wide and so high."""
    if width not in SIDES or height not in SIDES:
        raise ValueError("sides are multiples of 64 from 64 to 4,096, and not "
                         f"{width!r} by {height!r} (width by height)")


def as_truth(given: ArrayLike, what: str) -> Cells:
    """An array of truth values, of any shape, from truth values or the whole numbers 0 and 1.

    Raises `ValueError` for anything else, which `what` names there.
    """
    try:
        found = numpy.asarray(given)
    except ValueError:
        raise ValueError(f"{what} has rows of several widths") from None
    if found.ndim == 0:
        raise ValueError(f"{what} is an array of truth values, and not {str(given)[:40]}")
    if found.size and found.dtype.kind not in "biu":
        raise ValueError(f"{what} has truth values, or whole numbers 0 and 1, and not {found.dtype}: "
                         "a comparison gives them, as in numbers > 0.5")
    if found.dtype.kind in "iu" and found.size and (found.min() < 0 or found.max() > 1):
        place = tuple(numpy.argwhere((found < 0) | (found > 1))[0].tolist())
        raise ValueError(f"{what} has truth values, or whole numbers 0 and 1, and not {found[place]} "
                         f"at {place}")
    return found.astype(bool)


def as_cells(cells: ArrayLike, what: str = "the array") -> Cells:
    """Rows of cells as an array of truth values of shape (height, width).

    They are truth values, or the whole numbers 0 and 1. Raises `ValueError`, with the rule, for anything
    else, and for sides that no lattice has. `what` names the array there.
    """
    found = as_truth(cells, what)
    if found.ndim != 2 or found.shape[0] not in SIDES or found.shape[1] not in SIDES:
        raise ValueError(f"{what} has shape (height, width), both multiples of 64 from 64 to 4,096, and not "
                         f"{found.shape}")
    return found


def direction(place: int, tick: int) -> int:
    """Which way a particle in this column moves at a tick: 1 to the right, -1 to the left.

    By its row it moves 1 downwards or -1 upwards.
    """
    return 1 - 2 * ((place + tick) % 2)


def directions(side: int, tick: int) -> NDArray[numpy.int64]:
    """The same of all columns or rows of a lattice, from 0 on."""
    return 1 - 2 * ((numpy.arange(side, dtype=numpy.int64) + tick) % 2)


def plane_of(cells: Cells) -> bytes:
    """The packed plane, or row, of an array of truth values."""
    return numpy.packbits(cells, axis=-1).tobytes()


def array_of(plane: bytes, width: int) -> Cells:
    """A packed plane as an array of truth values of shape (height, width), which can't be written."""
    bits = numpy.unpackbits(numpy.frombuffer(plane, dtype=numpy.uint8))
    found = bits.reshape(-1, width).view(bool)
    found.flags.writeable = False
    return found
