"""Counts of particles and sums of their momentum, from packed planes: eight cells at a time."""
from math import gcd
from typing import Any, NamedTuple, SupportsIndex

import numpy
from numpy.typing import NDArray

from ..protocol.commands import SIDES
from ..protocol.numbers import whole
from .cells import array_of, direction, directions

Counts = NDArray[numpy.int64]

_BITS = numpy.unpackbits(numpy.arange(256, dtype=numpy.uint8)[:, None], axis=1).astype(numpy.int16)
_COUNT = _BITS.sum(axis=1, dtype=numpy.int16)  # the cells of each byte
_SLANT = (_BITS * numpy.array(4 * [1, -1], numpy.int16)).sum(axis=1, dtype=numpy.int16)
# (of each byte, the cells in even columns less those in odd ones: their momentum to the right at even ticks)
_ROWS = 64  # that are added in 16 bits: 64 rows of 8 cells are 512


class Sums(NamedTuple):
    """Counts of particles, and their momentum to the right and downwards: arrays of one shape."""
    count: Counts  # type: ignore[assignment]  # it hides a method of tuples
    px: Counts
    py: Counts


def side_of_squares(mean: SupportsIndex, width: int, height: int) -> int:
    """`mean` as an `int`. Raises `ValueError` unless it is 1 or more and divides both sides of a lattice."""
    side = whole("mean", mean, 1, SIDES[-1])
    if width % side or height % side:
        raise ValueError(f"mean divides both sides, {width} and {height} (width and height), and not {side}")
    return side


def in_squares(plane: bytes, width: int, mean: int, tick: int) -> Sums:
    """The sums in squares of `mean` by `mean` cells, of shape (height / mean, width / mean).

    `mean` divides both sides. A particle in (x, y) moves to the right if x + tick is even, and downwards if
    y + tick is.
    """
    if mean % 8:
        cells = array_of(plane, width).view(numpy.int8)
        right, down = (directions(side, tick).astype(numpy.int8) for side in cells.shape[::-1])
        parts = cells, cells * right, cells * down[:, None]
        return Sums(*(_columns_added(_rows_added(part, mean), mean) for part in parts))
    packed = numpy.frombuffer(plane, numpy.uint8).reshape(-1, width // 8)
    pairs = _COUNT[packed].reshape(-1, 2, width // 8)
    even, odd = (_columns_added(_rows_added(pairs[:, k], mean // 2), mean // 8) for k in (0, 1))
    slant = _columns_added(_rows_added(_SLANT[packed], mean), mean // 8)
    sign = direction(0, tick)
    return Sums(even + odd, sign * slant, sign * (even - odd))


def count_in_squares(plane: bytes, width: int, mean: int) -> Counts:
    """How many cells of a plane each square of `mean` by `mean` cells has."""
    if mean % 8:
        return _columns_added(_rows_added(array_of(plane, width).view(numpy.int8), mean), mean)
    packed = numpy.frombuffer(plane, numpy.uint8).reshape(-1, width // 8)
    return _columns_added(_rows_added(_COUNT[packed], mean), mean // 8)


def in_columns(plane: bytes, width: int, tick: int) -> Sums:
    """The sums of each column, of shape (width,)."""
    bits = array_of(plane, width).view(numpy.uint8)
    few = numpy.add.reduce(bits.reshape(-1, _ROWS // 2, 2, width), axis=1, dtype=numpy.uint8)
    even, odd = few.sum(axis=0, dtype=numpy.int64)
    count = even + odd
    return Sums(count, directions(width, tick) * count, direction(0, tick) * (even - odd))


def in_rows(plane: bytes, width: int, tick: int) -> Sums:
    """The sums of each row, of shape (height,)."""
    packed = numpy.frombuffer(plane, numpy.uint8).reshape(-1, width // 8)
    count, slant = (table[packed].sum(axis=1, dtype=numpy.int64) for table in (_COUNT, _SLANT))
    return Sums(count, direction(0, tick) * slant, directions(len(count), tick) * count)


def _rows_added(numbers: NDArray[Any], rows: int) -> NDArray[Any]:
    """Each `rows` rows added to one. What is added at once has room in 16 bits."""
    few, length = gcd(rows, _ROWS), numbers.shape[1]
    added: NDArray[Any] = numpy.add.reduce(numbers.reshape(-1, few, length), axis=1, dtype=numpy.int16)
    if few == rows:
        return added
    squares: Counts = numpy.add.reduce(added.reshape(-1, rows // few, length), axis=1, dtype=numpy.int64)
    return squares


def _columns_added(numbers: NDArray[Any], columns: int) -> Counts:
    """Each `columns` columns added to one."""
    added = numbers[:, ::columns].astype(numpy.int64)
    for k in range(1, columns):
        added += numbers[:, k::columns]
    return added
