"""The commands that change the walls and obstacles of a gas into others."""
from collections.abc import Iterator

import numpy

from ..snapshot.cells import Cells
from ..snapshot.rectangles import cover
from ..snapshot.scene import Scene


def edits(scene: Scene, walls: Cells, obstacles: Cells) -> Iterator[str]:
    """The commands that make these the walls and obstacles of a scene, by few rectangles."""
    gone = scene.walls & ~walls | scene.obstacles & ~obstacles
    left = numpy.ones(gone.shape, bool)
    for x, y, w, h in cover(gone, ~(walls | obstacles)):
        left[y:y + h, x:x + w] = False
        yield f"unwall {x} {y} {w} {h}"
    for word, old, new in (("wall", scene.walls, walls), ("block", scene.obstacles, obstacles)):
        for x, y, w, h in cover(new & ~(old & left), new):
            yield f"{word} {x} {y} {w} {h}"
