"""What can be drawn and measured: a laboratory, a snapshot, or bare cells."""
from typing import Optional, SupportsIndex, Union

from numpy.typing import ArrayLike

from ..protocol.numbers import whole_tick
from ..snapshot.cells import as_cells, plane_of
from ..snapshot.files import Snapshot
from .lab import Lab

Gas = Union[Lab, Snapshot, ArrayLike]
"""A laboratory, a snapshot, or truth values (or whole numbers 0 and 1) of shape (height, width)."""


def as_snapshot(gas: Gas, tick: Optional[SupportsIndex] = None, needs_tick: bool = True) -> Snapshot:
    """The gas as a snapshot. Bare cells are particles at `tick`, without walls.

    Raises `ValueError` for what is no gas, and with `needs_tick` for bare cells without their tick.
    """
    if isinstance(gas, Snapshot):
        return gas
    if isinstance(gas, Lab):
        return gas.look()
    cells = as_cells(gas)
    if tick is None and needs_tick:
        raise ValueError("bare cells need tick=, since a cell's velocity changes from tick to tick")
    now = whole_tick(tick)
    return Snapshot(cells.shape[1], cells.shape[0], now, particle_bytes=plane_of(cells))
