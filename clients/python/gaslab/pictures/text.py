"""A gas as text for a terminal, two pixels in each character."""
from collections.abc import Sequence
from typing import Optional, SupportsIndex

import numpy

from ..lab.gas import Gas, as_snapshot
from . import palette
from .pixels import cell_pixels, checked_mean, density_pixels

_MEANS = (1, 2, 4, 8, 16, 32, 64)


def text_picture(gas: Gas, columns: int = 80, coloured: bool = True, colour: str = "kind",
                 mean: Optional[SupportsIndex] = None, rows: Optional[int] = None,
                 tick: Optional[SupportsIndex] = None) -> str:
    """The gas as text, two pixels in each character.

    With `mean` a pixel is the density of a square of so many cells. Without it each cell is a pixel, unless
    the text would be wider than `columns` characters or higher than `rows`: then it is the density of the
    smallest squares that fit. Without `coloured` there are four characters only: both pixels dark, the upper,
    the lower, or none. `tick` is that of bare cells, which need it for the colours of velocities.
    """
    found = as_snapshot(gas, tick, colour == "velocity")
    asked = checked_mean(found, mean, colour)
    fitting = (it for it in _MEANS if found.width <= it * columns
               and (rows is None or found.height <= 2 * it * rows))
    square: int = next(fitting, _MEANS[-1]) if asked is None else asked
    colours: Sequence[palette.Colour]
    if asked is None and square == 1:
        colours, pixels = palette.CELLS, cell_pixels(found, colour)
    else:
        colours, pixels = palette.DENSITIES, density_pixels(found, square)
    if len(pixels) % 2:
        pixels = numpy.vstack((pixels, numpy.full_like(pixels[:1], palette.EMPTY)))
    write = _coloured if coloured else _plain
    return "\n".join(write([(colours[int(a)], colours[int(b)]) for a, b in zip(upper, lower)])
                     for upper, lower in zip(pixels[::2], pixels[1::2]))


def _coloured(pairs: list[tuple[palette.Colour, palette.Colour]]) -> str:
    """Half blocks: the upper pixel is the character's colour, the lower one its background."""
    parts, last = [], None
    for pair in pairs:
        if pair != last:
            upper, lower = (";".join(map(str, part)) for part in pair)
            parts.append(f"\x1b[38;2;{upper};48;2;{lower}m")
            last = pair
        parts.append("▀")
    return "".join(parts) + "\x1b[0m"


def _plain(pairs: list[tuple[palette.Colour, palette.Colour]]) -> str:
    return "".join(" ▄▀█"[2 * (sum(upper) < 480) + (sum(lower) < 480)] for upper, lower in pairs)
