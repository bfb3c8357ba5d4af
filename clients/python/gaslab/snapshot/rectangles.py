"""Few rectangles that cover a set of cells."""
from typing import Any

import numpy
from numpy.typing import NDArray

from ..protocol.commands import MOST_ENTRIES
from .cells import Cells

Rectangle = tuple[int, int, int, int]
"""x, y, w and h in cells: the left upper corner, width and height."""
_MOST_TRIED = 64  # rectangles round a cell, the largest ones
_Numbers = NDArray[Any]


def cover(needed: Cells, allowed: Cells) -> list[Rectangle]:
    """Rectangles that have all `needed` cells and else only `allowed` ones. They may overlap.

    Both are arrays of truth values of one shape. Each next rectangle begins with the first cell that is still
    needed, and is the one that has most of the needed cells. That is the fewest for rectangles, crosses and
    discs, but not for each shape.
    """
    edges = numpy.diff(needed.astype(numpy.int8), axis=1, prepend=0, append=0)
    if numpy.count_nonzero(edges) > 2 * MOST_ENTRIES:  # no journal has room for them: each run is one
        runs = zip(numpy.argwhere(edges == 1).tolist(), numpy.argwhere(edges == -1)[:, 1].tolist())
        return [(x, y, end - x, 1) for (y, x), end in runs]
    left, may, places = needed.copy(), needed | allowed, numpy.arange(needed.shape[1], dtype=numpy.int16)
    # for each cell, where its run in its row begins, and where it has ended
    first = numpy.maximum.accumulate(numpy.where(may, 0, places + 1), axis=1)
    last = numpy.minimum.accumulate(numpy.where(may, places.size, places)[:, ::-1], axis=1)[:, ::-1]
    done: list[Rectangle] = []
    for y in numpy.flatnonzero(needed.any(axis=1)).tolist():
        columns = numpy.flatnonzero(left[y])
        while columns.size:
            at, most = int(columns[0]), 0
            for x, top, w, h in _around(first[:, at], last[:, at], at, y):
                count = numpy.count_nonzero(left[top:top + h, x:x + w]) if w * h > most else 0
                if count > most:
                    best, most = (x, top, w, h), count
            done.append(best)
            left[best[1]:best[1] + best[3], best[0]:best[0] + best[2]] = False
            columns = numpy.flatnonzero(left[y])
    return sorted(done, key=lambda it: (it[1], it[0]))


def _around(first: _Numbers, last: _Numbers, x: int, y: int) -> list[Rectangle]:
    """The largest allowed rectangles round the cell (x, y). The runs are those of its column."""
    up, a, b = _blocks(first[y::-1], last[y::-1], x)
    down, c, d = _blocks(first[y:], last[y:], x)
    low, high = numpy.maximum(a[:, None], c), numpy.minimum(b[:, None], d)
    rows = up[:, None] + down - 1
    chosen = numpy.argsort(-(high - low) * rows, axis=None)[:_MOST_TRIED]
    tops = numpy.broadcast_to(y + 1 - up[:, None], rows.shape)
    return list(zip(*(it.ravel()[chosen].tolist() for it in (low, tops, high - low, rows))))


def _blocks(first: _Numbers, last: _Numbers, x: int) -> tuple[_Numbers, _Numbers, _Numbers]:
    """How many rows in turn can be taken, with the columns that are allowed in all of them."""
    number = int(numpy.argmax(numpy.append(first > x, True)))
    low, high = numpy.maximum.accumulate(first[:number]), numpy.minimum.accumulate(last[:number])
    ends = numpy.flatnonzero(numpy.append((numpy.diff(low) != 0) | (numpy.diff(high) != 0), True))
    return ends + 1, low[ends].astype(int), high[ends].astype(int)
