"""Gases as arrays of indices into a palette, one for each pixel."""
from collections.abc import Iterator
from typing import Optional, SupportsIndex

import numpy
from numpy.typing import NDArray

from ..snapshot.cells import Cells, directions
from ..snapshot.counting import count_in_squares, side_of_squares
from ..snapshot.files import Snapshot
from . import palette

Pixels = NDArray[numpy.uint8]
"""Indices into a palette, of shape (height, width)."""

COLOURS = ("kind", "velocity")
"""What the colour of a particle shows."""

_KINDS = numpy.array([[palette.LEFT_UP, palette.LEFT_DOWN],
                      [palette.RIGHT_UP, palette.RIGHT_DOWN]], numpy.uint8)


def checked_mean(gas: Snapshot, mean: Optional[SupportsIndex], colour: str) -> Optional[int]:
    """`mean` as an `int`, or None.

    Raises `ValueError` unless a gas can be drawn in squares of so many cells and so coloured.
    """
    if colour not in COLOURS:
        raise ValueError(f"colour is one of {', '.join(COLOURS)}, and not {colour!r}")
    if mean is None:
        return None
    if colour != "kind":
        raise ValueError("mean shows densities, which have no velocity")
    return side_of_squares(mean, gas.width, gas.height)


def cell_pixels(gas: Snapshot, colour: str = "kind") -> Pixels:
    """One pixel for each cell: `height` rows of `width` indices into `palette.CELLS`.

    With `colour` "velocity" a particle has the colour of its direction.
    """
    pixels = numpy.full((gas.height, gas.width), palette.EMPTY, numpy.uint8)
    for port, index in _ports(gas):
        pixels[port] = index
    particles, walls, obstacles = gas.particles, gas.walls, gas.obstacles
    kinds = numpy.array(palette.PARTICLE, numpy.uint8)
    if colour == "velocity":
        right, down = ((directions(side, gas.tick) + 1) // 2 for side in (gas.width, gas.height))
        kinds = _KINDS[right[None, :], down[:, None]]
    pixels = numpy.where(particles, kinds, pixels)
    pixels[walls] = palette.WALL
    pixels[obstacles] = palette.OBSTACLE
    pixels[(walls | obstacles) & particles] = palette.HIT
    return pixels


def _ports(gas: Snapshot) -> Iterator[tuple[tuple[slice, slice], int]]:
    """The rows and columns of each source and drain, with its colour."""
    for source in gas.sources:
        yield _area(*source[:4]), palette.SOURCE
    for drain in gas.drains:
        yield _area(*drain), palette.DRAIN


def _area(x: int, y: int, w: int, h: int) -> tuple[slice, slice]:
    return slice(y, y + h), slice(x, x + w)


def density_pixels(gas: Snapshot, mean: int, solids: bool = True) -> Pixels:
    """One pixel for each square of `mean` by `mean` cells: indices into `palette.DENSITIES`.

    With `solids` a square of which at least half is wall or obstacle has the colour of what it has more of.
    """
    particles, walls, obstacles = (count_in_squares(plane, gas.width, mean) for plane in (
        gas.particle_bytes, gas.wall_bytes, gas.obstacle_bytes))
    pixels = palette.density_index(particles, mean * mean)
    if not solids:
        return pixels
    solid = 2 * numpy.maximum(walls, obstacles) >= mean * mean
    pixels[solid] = numpy.where(walls > obstacles, palette.WALL, palette.OBSTACLE)[solid]
    return pixels


def scaled(pixels: Pixels, scale: int) -> Pixels:
    """Each pixel as a square of `scale` by `scale` pixels."""
    return pixels.repeat(scale, axis=0).repeat(scale, axis=1)


def outlined(gas: Snapshot, pixels: Pixels) -> Pixels:
    """A density picture, of any size, with walls and obstacles and lines round them and ports."""
    done = pixels.copy()
    for cells, inside, line in ((gas.walls, palette.WALL_INSIDE, palette.WALL),
                                (gas.obstacles, palette.OBSTACLE_INSIDE, palette.OBSTACLE)):
        _draw(done, cells, inside, line)
    for port, line in _ports(gas):
        area = numpy.zeros((gas.height, gas.width), bool)
        area[port] = True
        _draw(done, area, None, line)
    return done


def _draw(pixels: Pixels, cells: Cells, inside: Optional[int], line: int) -> None:
    """Draws a line, of up to two pixels, along the edge of a set of cells, and fills it."""
    if not cells.any():
        return
    found = inner = _stretched(_stretched(cells, pixels.shape[0]).T, pixels.shape[1]).T
    for _ in range(2 if pixels.shape[0] >= 2 * cells.shape[0] else 1):
        wide = numpy.pad(inner, 1)
        inner = inner & wide[2:, 1:-1] & wide[:-2, 1:-1] & wide[1:-1, 2:] & wide[1:-1, :-2]
    pixels[found & ~inner] = line
    if inside is not None:
        pixels[inner] = inside


def _stretched(cells: Cells, length: int) -> Cells:
    """An array with its rows stretched or pressed to `length`: true where any of its rows is."""
    number, place = cells.shape[0], numpy.arange(length)
    first = place * number // length
    last = numpy.maximum(first + 1, -(-(place + 1) * number // length))
    sums = numpy.zeros((number + 1, cells.shape[1]), int)
    sums[1:] = cells.cumsum(axis=0)
    done: Cells = sums[last] > sums[first]
    return done
