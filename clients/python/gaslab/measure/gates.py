"""For builders of gates: single particles, their ways, and truth tables."""
import itertools
from collections.abc import Mapping
from typing import Any, SupportsIndex

import numpy

from ..lab.lab import Lab
from ..lab.progress import Progress, Told
from ..protocol.numbers import whole, whole_steps
from ..protocol.replies import Ok
from ..protocol.scripts import ScriptLike, script_of
from ..snapshot.cells import direction
from .areas import Areas, rectangles_of
from .tables import Table, table_of

_MOST_TRACED = 64
_MOST_INPUTS = 10


def shoot(lab: Lab, x: SupportsIndex, y: SupportsIndex, vx: SupportsIndex, vy: SupportsIndex) -> Ok:
    """Puts a particle into the cell (x, y) that flies with (vx, vy), each 1 or -1.

    A cell has one velocity at each tick. Raises `ValueError`, and says why, if it is another at the present
    tick, or if the cell is outside, solid, or holds a particle already.
    """
    (width, height), tick = lab.size, lab.tick
    across, down = whole("x", x, 0, width - 1), whole("y", y, 0, height - 1)
    wanted = whole("vx", vx), whole("vy", vy)
    if set(wanted) - {1, -1}:
        raise ValueError(f"vx and vy are 1 or -1, and not {wanted}")
    flies = direction(across, tick), direction(down, tick)
    if flies != wanted:
        beside = tuple(place if found == asked else place + (1 if place + 1 < side else -1)
                       for place, found, asked, side in zip((across, down), flies, wanted, lab.size))
        raise ValueError(f"at tick {tick} a particle in ({across}, {down}) flies with {flies}; one "
                         f"with {wanted} can start in {beside}")
    scene = lab.scene()
    if scene.walls[down, across] or scene.obstacles[down, across]:
        raise ValueError(f"the cell ({across}, {down}) is a wall or an obstacle")
    if lab.probe(across, down, 1, 1).count:
        raise ValueError(f"the cell ({across}, {down}) holds a particle already")
    return lab.put(across, down, 1, 1)


def trace(lab: Lab, steps: SupportsIndex) -> Table:
    """Makes steps (backwards if negative), and tells where the particles are at each tick.

    The table has a row for each particle at each tick, the present one too: `tick`, `x`, `y` and its
    velocity `vx`, `vy`. At each tick they are in the order of rows. Raises `ValueError` if there are more
    than 64 particles.
    """
    rows, total = [], whole_steps(steps)
    for done in range(abs(total) + 1):
        if done:
            lab.advance(1 if total > 0 else -1)
        tick, count, *_ = lab.tally()
        if count > _MOST_TRACED:
            raise ValueError(f"trace is for at most {_MOST_TRACED} particles, and there are {count}")
        for y, x in numpy.argwhere(lab.particles()).tolist():
            rows.append((tick, x, y, direction(x, tick), direction(y, tick)))
    return table_of(("tick", "x", "y", "vx", "vy"), rows)


def truth_table(script: ScriptLike, inputs: Mapping[str, Areas], outputs: Mapping[str, Areas],
                progress: Progress = None, **options: Any) -> Table:
    """Runs a script once for each choice of inputs, and counts the particles in the outputs.

    Inputs and outputs are cells (x, y), rectangles (x, y, w, h), or lists of both, by name. For each choice a
    new laboratory begins at tick 0; the chosen inputs are filled with particles; then the script's commands
    are done, and the outputs are probed. The table has a column for each input, 0 or 1, and for each output,
    which is the sum of its rectangles. `script` is a text, its lines, or the `Path` of its file; `size W H`
    in it is the size. `progress` is told how many rows are done. `options` are those of `Lab.run`. Raises
    `Refused` as `Lab.do` does, and `ValueError` for more than 10 inputs, or if two rectangles of one name
    overlap.
    """
    if len(inputs) > _MOST_INPUTS or set(inputs) & set(outputs):
        raise ValueError(f"a truth table has at most {_MOST_INPUTS} inputs, and outputs of other names")
    found = script_of(script)
    if found.size:
        options["width"], options["height"] = found.size
    filled, asked = ([rectangles_of(areas) for areas in named.values()] for named in (inputs, outputs))
    rows: list[tuple[int, ...]] = []
    with Told("truth table", 2 ** len(inputs), progress) as tell:
        for choice in itertools.product((0, 1), repeat=len(inputs)):
            with Lab.run(**options) as lab:
                for area in itertools.chain(*itertools.compress(filled, choice)):
                    lab.put(*area)
                lab.play(found)
                counts = [sum(lab.probe(*area).count for area in areas) for areas in asked]
            rows.append((*choice, *counts))
            tell(len(rows))
    return table_of((*inputs, *outputs), rows)
