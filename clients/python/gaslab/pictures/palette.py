"""The colours of pictures. Readers who are colour-blind can tell them apart.

They are from the palette of Okabe and Ito, with greys and two light tints. The tests see them as people with
each of the three common kinds of colour blindness do. colours.json has them, with those of the page.
"""
import json
from collections.abc import Sequence
from pathlib import Path
from typing import Union

import numpy
from numpy.typing import NDArray

Colour = tuple[int, int, int]
"""Red, green and blue, each from 0 to 255."""

EMPTY, PARTICLE, WALL, OBSTACLE, SOURCE, DRAIN, HIT = range(7)
RIGHT_DOWN, LEFT_DOWN, RIGHT_UP, LEFT_UP = range(7, 11)

_DATA = json.loads(Path(__file__).with_name("colours.json").read_text("ascii"))


def _parts(colour: str) -> Colour:
    red, green, blue = bytes.fromhex(colour[1:])
    return red, green, blue


COLOURS: dict[str, str] = {**_DATA["page"], **_DATA["cells"]}
"""Each colour of the page and of cells by its name, as #rrggbb."""
DARK: dict[str, str] = {**COLOURS, **_DATA["dark"]}
"""The same of the page's dark theme. Cells have no other colours there: they are as on paper."""
CURVES: list[str] = _DATA["curves"]
"""The page's colours of curves."""
SHADES: list[str] = _DATA["ramp"]
"""The shades of densities, as #rrggbb, from empty to full, with others between them."""
CELLS: tuple[Colour, ...] = tuple(map(_parts, _DATA["cells"].values()))
"""The palette of pictures that show each cell: index to colour."""
RAMP: tuple[Colour, ...] = tuple(map(_parts, SHADES))
"""The `SHADES` as numbers."""
_FIRST = HIT + 1  # the index of the first shade; marks have those before
WALL_INSIDE, OBSTACLE_INSIDE = PARTICLE, HIT
"""In `DENSITIES`: the tints inside the outlines of walls and obstacles."""
_MARKS = {**dict(enumerate(CELLS[:_FIRST])), **dict(zip(
    (WALL, WALL_INSIDE, OBSTACLE_INSIDE, SOURCE, DRAIN), map(_parts, _DATA["marks"].values())))}


def blended(colours: Sequence[Colour], number: int) -> list[Colour]:
    """So many colours from the first to the last of these, by way of those between them."""
    places = numpy.linspace(0, len(colours) - 1, number)
    parts = numpy.rint([numpy.interp(places, range(len(colours)), part) for part in zip(*colours)])
    return [(red, green, blue) for red, green, blue in parts.astype(int).T.tolist()]


DENSITIES: tuple[Colour, ...] = (*_MARKS.values(), *blended(RAMP, 256 - _FIRST))
"""The palette of density pictures: marks, darker for ports, then from empty (white) to full."""


def density_index(count: Union[int, NDArray[numpy.int64]], cells: int) -> NDArray[numpy.uint8]:
    """The indices in `DENSITIES` for `count` particles in `cells` cells, a number or an array."""
    index: NDArray[numpy.uint8] = (_FIRST + numpy.rint(
        numpy.asarray(count) * (255 - _FIRST) / cells)).astype(numpy.uint8)
    return index
