"""Random gases, as the lines that make them."""
from collections.abc import Iterator
from numbers import Real
from typing import Optional, SupportsIndex, Union

import numpy

from ..protocol.numbers import whole, whole_tick
from .cells import Cells, check_sides, directions, plane_of

Drift = Union[float, tuple[float, float]]
"""The mean velocity to the right, or a pair with that downwards, in columns and rows a step."""


def random_gas(width: SupportsIndex, height: SupportsIndex, density: float, drift: Drift = 0.0,
               seed: Optional[SupportsIndex] = None, tick: Optional[SupportsIndex] = None) -> list[str]:
    """The lines `row y HEX` of a random gas, one for each of the `height` rows.

    Each cell holds a particle with probability `density`, independently of the others. `drift` is the mean
    velocity to the right, or a pair with that downwards, in columns and rows a step. A cell whose particle
    would move with (vx, vy) at `tick` is filled with probability density * (1 + drift_x * vx) * (1 + drift_y
    * vy). A drift needs the `tick` at which the lines are done, since a cell's velocity changes from tick to
    tick; `lab.fill` knows it. The same `seed`, 0 to 4,294,967,295, gives the same gas.

    Raises `ValueError` for a size that no lattice has, if a probability would not be from 0 to 1, and for a
    drift without its tick; `TypeError` if the drift is neither a number nor a tuple of two.
    """
    rows = random_rows(width, height, density, drift, seed, tick)
    return [f"row {y} {plane_of(cells).hex()}" for y, cells in enumerate(rows)]


def random_rows(width: SupportsIndex, height: SupportsIndex, density: float, drift: Drift,
                seed: Optional[SupportsIndex], tick: Optional[SupportsIndex]) -> Iterator[Cells]:
    """The rows of that gas from the top, each an array of truth values of shape (width,)."""
    check_sides(width, height)
    drift_x, drift_y = _pair_of(drift)
    if not max(abs(drift_x), abs(drift_y)) <= 1:
        raise ValueError(f"a drift is from -1 to 1, and not {drift}")
    if not (density >= 0 and density * (1 + abs(drift_x)) * (1 + abs(drift_y)) <= 1):
        raise ValueError("a density is from 0 to 1, and so is density * (1 + |drift_x|) * "
                         f"(1 + |drift_y|): not {density}")
    if (drift_x or drift_y) and tick is None:
        raise ValueError("a drift needs tick=, the tick at which the lines are done: 0 for a new gas, "
                         "lab.tick for that of a laboratory")
    # its numbers stay the same in each version of numpy
    draw = numpy.random.RandomState(None if seed is None else whole("seed", seed, 0, 2 ** 32 - 1))
    right, down = (directions(int(side), whole_tick(tick)) for side in (width, height))
    across = 1 + drift_x * right
    return (draw.random_sample(across.size) < share * across for share in density * (1 + drift_y * down))


def _pair_of(drift: Drift) -> tuple[float, float]:
    pair = drift if isinstance(drift, tuple) else (drift, 0.0)
    if len(pair) != 2 or not all(isinstance(it, Real) for it in pair):
        raise TypeError(f"a drift is a number, or a tuple (right, down), and not {drift!r}")
    return pair
