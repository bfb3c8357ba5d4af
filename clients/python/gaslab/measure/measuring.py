"""Measuring: tables over time, profiles over space, and fields."""
from collections.abc import Iterator, Mapping, Sequence
from typing import NamedTuple, Optional, SupportsIndex, Union

import numpy
from numpy.typing import NDArray

from ..lab.gas import Gas, as_snapshot
from ..lab.lab import Lab
from ..lab.progress import Progress, Told
from ..lab.session import of_kind
from ..protocol.commands import MOST_STEPS
from ..protocol.errors import Refused
from ..protocol.numbers import whole, whole_steps
from ..protocol.replies import Ledger, Ok, Probe, Tally
from ..snapshot.cells import directions
from ..snapshot.counting import in_columns, in_rows, in_squares, side_of_squares
from ..snapshot.files import Snapshot
from ..snapshot.rectangles import Rectangle
from .tables import Table, check_columns, table_of, table_of_columns

Numbers = NDArray[numpy.float64]
_AHEAD = 4  # rows of a table that are asked for ahead
_Line = tuple[str, type[Union[Ok, Tally, Ledger, Probe]]]  # and the kind of its reply


def every(lab: Lab, steps: SupportsIndex, times: SupportsIndex, ledger: bool = True,
          probes: Optional[Mapping[str, Rectangle]] = None, columns: Optional[Sequence[str]] = None,
          progress: Progress = None) -> Table:
    """Measures `times` times, each time after `steps` more steps (backwards if negative).

    The columns are the tick; the count and the momentum `px`, `py` of the whole gas; with `ledger` its
    thirteen accounts; and for each of `probes`, a name with a rectangle (x, y, w, h), its `name_count`,
    `name_px` and `name_py`. Then comes the difference of each of these to the row before, or for the first
    row to the start, as `d_` and the name. So `d_obstacles_x` is the drag times `steps`, and `d_injected` and
    `d_drained` are the flux in and out. `columns` is a list of those that are wanted, in their order.
    `progress` is told how many rows are done.

    The steps of the next rows are sent before the replies of a row are read. Raises `Refused` for a probe
    that is not inside before the first step, and for steps when those before are done; `ValueError` for an
    unknown column, or for a probe whose columns have names that others have, before the first step.
    """
    areas = dict(probes or {})
    names = [*Tally._fields, *(Ledger._fields if ledger else ())]
    names += [f"{name}_{part}" for name in areas for part in Probe._fields]
    names += ["d_" + name for name in names[1:]]
    twice = [name for name in names if names.count(name) > 1]
    if twice:
        raise ValueError(f"a probe has another name: {twice[0]} is a column already")
    wanted = names if columns is None else _known(columns, names)
    asked: list[_Line] = [("tally", Tally), *([("ledger", Ledger)] if ledger else []),
                          *(("probe {} {} {} {}".format(*area), Probe) for area in areas.values())]
    moves, number = _moves(whole_steps(steps)), whole("times", times, 0, 10 ** 9)
    before, rows = next(_measured(lab, asked, 1)), []
    with Told("every", number, progress) as tell:
        for now in _measured(lab, [*moves, *asked], number):
            row = dict(zip(names, [*now, *(a - b for a, b in zip(now[1:], before[1:]))]))
            rows.append([row[name] for name in wanted])
            before = now
            tell(len(rows))
    return table_of(wanted, rows)


def _known(columns: Sequence[str], names: list[str]) -> list[str]:
    """The columns that are wanted, if all are known."""
    if isinstance(columns, str):
        raise ValueError(f"columns is a list of names, as in columns=[{columns!r}], and not a text")
    check_columns(columns, names)
    return list(columns)


def _moves(steps: int) -> list[_Line]:
    """The commands that make so many steps."""
    word = "step" if steps >= 0 else "back"
    parts = [MOST_STEPS] * (abs(steps) // MOST_STEPS) + [abs(steps) % MOST_STEPS]
    return [(f"{word} {part}", Ok) for part in parts if part]


def _measured(lab: Lab, lines: list[_Line], times: int) -> Iterator[list[int]]:
    """The numbers of so many rows, for each of which these lines are done. Some rows are sent ahead."""
    replies = lab.send((line for _ in range(times) for line, _ in lines), ahead=_AHEAD * len(lines))
    try:
        for _ in range(times):
            numbers: list[int] = []
            for line, kind in lines:
                reply = next(replies)
                if isinstance(reply, Refused):
                    raise reply
                found = of_kind(kind, line, reply)
                numbers += () if isinstance(found, Ok) else found
            yield numbers
    finally:
        replies.stop()


class Fields(NamedTuple):
    """Arrays of shape (height / mean, width / mean), each number for a square of cells.

    `density` is in particles a cell; `px`, to the right, and `py`, downwards, are the momentum a cell. `flow`
    gives the mean velocity.
    """
    density: Numbers
    px: Numbers
    py: Numbers


def velocity(gas: Gas, mean: SupportsIndex = 8, tick: Optional[SupportsIndex] = None) -> Fields:
    """Density and both momentum densities in squares of `mean` by `mean` cells.

    Wall cells count as cells. `tick` is that of bare cells, which need it. Raises `ValueError` unless `mean`
    divides both sides.
    """
    found = as_snapshot(gas, tick)
    side = side_of_squares(mean, found.width, found.height)
    sums = in_squares(found.particle_bytes, found.width, side, found.tick)
    density, px, py = (part / side ** 2 for part in sums)
    return Fields(density, px, py)


def sums_of(gas: Snapshot) -> Tally:
    """The tick of a gas and its sums, as `tally` gives them."""
    count, px, py = (int(part.sum()) for part in in_rows(gas.particle_bytes, gas.width, gas.tick))
    return Tally(gas.tick, count, px, py)


class Wave(NamedTuple):
    """The amplitudes of a plane wave, in particles or momentum a cell.

    Their absolute values are heights. Their angles tell how far the wave is from a crest in the cell (0, 0).
    """
    density: complex
    px: complex
    py: complex


def wave(gas: Gas, across: SupportsIndex, down: SupportsIndex = 0,
         tick: Optional[SupportsIndex] = None) -> Wave:
    """The plane wave with `across` lengths over the gas's width and `down` over its height.

    If the density is mean + height * cos(2 pi (across * x / width + down * y / height)), then `density` is
    `height`. A random gas of density d adds noise, of some (2 d / cells) ** 0.5 to each amplitude. `tick` is
    that of bare cells, which need it. Raises `ValueError` if both numbers are 0, and `TypeError` if one is
    not whole.
    """
    lengths = whole("across", across, -4096, 4096), whole("down", down, -4096, 4096)
    if lengths == (0, 0):
        raise ValueError("a wave has at least one length, across or down")
    found = as_snapshot(gas, tick)
    right, below = (numpy.exp(-2j * numpy.pi * number * numpy.arange(side) / side) / side
                    for number, side in zip(lengths, (found.width, found.height)))
    cells = found.particles.astype(numpy.int8)
    to_right, to_bottom = (directions(side, found.tick) for side in (found.width, found.height))
    # a wave has two terms, of which a sum finds one; that of columns or rows in turn has one
    is_in_turn = all(2 * number % side == 0 for number, side in zip(lengths, (found.width, found.height)))
    terms = 1 if is_in_turn else 2
    density, px, py = (complex(terms * (below * rows) @ (cells @ (right * columns))) for rows, columns in (
        (1, 1), (1, to_right), (to_bottom, 1)))
    return Wave(density, px, py)


def profile(gas: Gas, along: str = "x", bins: Optional[SupportsIndex] = None,
            tick: Optional[SupportsIndex] = None) -> Table:
    """How particles and momentum are spread along `x` (columns) or `y` (rows).

    The table has `bins` rows, or one for each column or row of cells: the first cell `from`, the cell after
    the last `to`, the `count` of particles, their share of the cells as `density`, and their momentum `px`
    and `py`. `tick` is that of bare cells, which need it. Raises `ValueError` for another axis, or for more
    bins than there are columns or rows.
    """
    if along not in ("x", "y"):
        raise ValueError(f"along is 'x' or 'y', and not {along!r}")
    found = as_snapshot(gas, tick)
    length, breadth = (found.width, found.height)[::1 if along == "x" else -1]
    number = length if bins is None else whole("bins", bins, 1, length)
    edges = numpy.arange(number + 1) * length // number
    sums = (in_columns if along == "x" else in_rows)(found.particle_bytes, found.width, found.tick)
    count, px, py = (numpy.add.reduceat(part, edges[:-1]) for part in sums)
    density = count / (edges[1:] - edges[:-1]) / breadth
    return table_of_columns({"from": edges[:-1], "to": edges[1:], "count": count, "density": density,
                             "px": px, "py": py})
