"""Where the inputs and outputs of gates are: cells, rectangles, or several of these."""
from collections.abc import Sequence
from typing import Any, SupportsIndex, Union

from ..protocol.numbers import whole
from ..snapshot.rectangles import Rectangle

Area = Sequence[SupportsIndex]
"""A cell (x, y) or a rectangle (x, y, w, h), in cells."""
Areas = Union[Area, Sequence[Area]]
"""A cell, a rectangle, or a list of cells and rectangles."""


def rectangles_of(areas: Areas) -> list[Rectangle]:
    """The rectangles of a cell, a rectangle, or a list of both.

    Raises `ValueError` if it is none of these, or if two overlap: a particle there would count twice.
    """
    parts: Sequence[Any] = areas
    if len(parts) and not isinstance(parts[0], Sequence):
        parts = [areas]
    found = [_rectangle(part) for part in parts]
    for k, (x, y, w, h) in enumerate(found):
        for left, top, width, height in found[:k]:
            if x < left + width and left < x + w and y < top + height and top < y + h:
                raise ValueError(f"({left}, {top}, {width}, {height}) and ({x}, {y}, {w}, {h}) overlap, so a "
                                 "particle there would count twice")
    return found


def _rectangle(area: Any) -> Rectangle:
    if not isinstance(area, Sequence) or len(area) not in (2, 4):
        raise ValueError(f"a cell is (x, y) and a rectangle (x, y, w, h), and not {area}")
    x, y, w, h = (whole(name, number) for name, number in zip("xywh", (*area, 1, 1)))
    return x, y, w, h
