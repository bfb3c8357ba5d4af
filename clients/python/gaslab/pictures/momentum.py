"""Pictures of momentum: shades from one colour to another, with white where there is none."""
import numpy

from ..snapshot.counting import in_squares
from ..snapshot.files import Snapshot
from . import palette
from .pixels import Pixels

SHOWS = {"px": "momentum to the right", "py": "momentum downwards"}
"""What such a picture can show, and how it is called."""

_FIRST, _LAST = int(palette.density_index(0, 1)), int(palette.density_index(1, 1))
_ENDS = (palette.CELLS[palette.OBSTACLE], palette.CELLS[palette.EMPTY], palette.CELLS[palette.PARTICLE])

COLOURS: tuple[palette.Colour, ...] = (
    *palette.DENSITIES[:_FIRST], *palette.blended(_ENDS, _LAST - _FIRST + 1))
"""The palette of these pictures: marks, then orange (left or up), white (none), and blue (right or down)."""


def momentum_pixels(gas: Snapshot, mean: int, show: str, limit: float) -> Pixels:
    """One pixel for each square of `mean` by `mean` cells: indices into `COLOURS`.

    `show` is "px" or "py". At `limit`, in momentum a cell, and beyond, the colour is full.
    """
    sums = in_squares(gas.particle_bytes, gas.width, mean, gas.tick)
    share = numpy.clip((sums.px if show == "px" else sums.py) / (mean ** 2 * limit), -1, 1)
    pixels: Pixels = numpy.rint(_FIRST + (share + 1) / 2 * (_LAST - _FIRST)).astype(numpy.uint8)
    return pixels
