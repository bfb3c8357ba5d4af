"""Scripts that are moved to another place, with their inputs and outputs."""
import re
from collections.abc import Mapping
from typing import NamedTuple, Optional, SupportsIndex

from ..protocol.commands import RECTANGLES, takes
from ..protocol.limits import Size
from ..protocol.numbers import whole
from ..protocol.scripts import ScriptLike, script_of
from ..snapshot.rectangles import Rectangle
from .areas import Areas, rectangles_of


class Placed(NamedTuple):
    """A script that was moved: its commands, and the rectangles of its inputs and outputs by their names.

    `truth_table(*placed)` tries it, and `lab.do(placed.script)` does it.
    """
    script: list[str]
    inputs: dict[str, list[Rectangle]]
    outputs: dict[str, list[Rectangle]]


def place(script: ScriptLike, dx: SupportsIndex, dy: SupportsIndex,
          inputs: Optional[Mapping[str, Areas]] = None, outputs: Optional[Mapping[str, Areas]] = None,
          size: Optional[Size] = None) -> Placed:
    """Moves a script, its inputs and its outputs by dx columns and dy rows, which are even.

    At an odd offset the particles would fly in other directions. Rectangles and the row of `read` are moved,
    and all other commands stay. `script` is a text, its lines, or the `Path` of its file; `repeat` is carried
    out. A line `size` is left out, since the script can be one of several in a larger lattice: `size` is the
    (width, height) of that, in cells. Inputs and outputs are those of `truth_table`. Raises `ValueError`,
    with the line or the name, for what can't be moved: a command, an input or an output that would leave the
    lattice at its left or upper edge, or with `size` at its right or lower one, and the command `row`, which
    fills a whole row.
    """
    across, down = whole("dx", dx, -4096, 4096), whole("dy", dy, -4096, 4096)
    if across % 2 or down % 2:
        raise ValueError(f"an offset is even in both directions, and not ({across}, {down}): at an odd "
                         "one particles fly in other directions")
    move = _Move(across, down, size)
    lines = [move.line(line, number) for number, line in script_of(script).commands()]
    return Placed(lines, move.areas("input", inputs or {}), move.areas("output", outputs or {}))


class _Move:
    """How far a script is moved, and the size of its new lattice if that is known."""
    def __init__(self, dx: int, dy: int, size: Optional[Size]) -> None:
        self.offsets, self.size = (dx, dy), size

    def line(self, line: str, number: int) -> str:
        word, *rest = line.split()
        if word == "row":
            raise ValueError(f"line {number}: row fills a whole row and can't be moved: use put")
        is_rectangle, is_row = word in RECTANGLES, word == "read"
        count = 4 if is_rectangle else 1 if is_row else 0
        old = rest[:count]
        if len(old) < count or not all(re.fullmatch("[0-9]{1,10}", it) for it in old):
            raise ValueError(f"line {number}: {takes(word)}")
        numbers = tuple(int(it) for it in old)
        moved: tuple[int, ...] = ()
        if is_rectangle:
            moved = self.rectangle((numbers[0], numbers[1], numbers[2], numbers[3]), f"line {number}: {line}")
        elif is_row:
            moved = self.rectangle((0, numbers[0], 1, 1), f"line {number}: {line}", columns=0)[1:2]
        return " ".join((word, *map(str, moved), *rest[count:]))

    def rectangle(self, area: Rectangle, name: str, columns: int = 1) -> Rectangle:
        """A rectangle that is moved, by no column if `columns` is 0."""
        x, y, w, h = area
        x, y = x + columns * self.offsets[0], y + self.offsets[1]
        is_outside = min(x, y) < 0 or self.size is not None and (x + w > self.size[0] or y + h > self.size[1])
        if is_outside:
            raise ValueError(f"{name} would leave the lattice")
        return x, y, w, h

    def areas(self, kind: str, given: Mapping[str, Areas]) -> dict[str, list[Rectangle]]:
        return {name: [self.rectangle(area, f"{kind} {name}: {area}") for area in rectangles_of(areas)]
                for name, areas in given.items()}
