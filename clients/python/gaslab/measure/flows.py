"""The mean velocity of a gas in squares of cells."""
from typing import Any, NamedTuple

import numpy

from .measuring import Fields


class Flow(NamedTuple):
    """Masked arrays of numpy, of the shape of the fields, in columns or rows a tick.

    `vx` is the mean velocity to the right, and `vy` that downwards. A square without particles has no mean
    velocity: it is masked. `flow.vx.filled(0)` puts a number there, and matplotlib leaves it blank.
    """
    vx: "numpy.ma.MaskedArray[Any, Any]"
    vy: "numpy.ma.MaskedArray[Any, Any]"


def flow(fields: Fields) -> Flow:
    """The mean velocity of the particles in each square of `velocity(gas, mean)`."""
    is_empty = numpy.asarray(fields.density) == 0
    count = numpy.where(is_empty, 1, fields.density)
    masked: Any = numpy.ma.masked_array
    return Flow(*(masked(part / count, is_empty) for part in (fields.px, fields.py)))
