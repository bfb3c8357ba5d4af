"""Walls, obstacles and ports, replayed from the journal, since no command reads them."""
from ..protocol.commands import MOST_PORTS, SOLIDS, parse_change
from ..protocol.errors import Strange
from .files import Drain, Snapshot, Source


class Scene:
    """The walls, obstacles and ports of a gas, and what entries of its journal do to them.

    `walls` and `obstacles` are arrays of truth values of shape (height, width).
    """
    def __init__(self, start: Snapshot) -> None:
        self.size = start.width, start.height
        self.walls, self.obstacles = start.walls.copy(), start.obstacles.copy()
        self.drains, self.sources = list(start.drains), list(start.sources)

    def enact(self, command: str) -> None:
        """Does what a change does to the scene. The commands that move particles do nothing.

        Raises `Strange` if no laboratory of this size accepts such a change.
        """
        word, numbers = parse_change(command, self.size) or ("", ())
        if word == "unport":
            self.drains, self.sources = [], []
        elif word == "drain":
            self.drains.append(Drain(*numbers))
        elif word == "source":
            self.sources.append(Source(*numbers))
        elif word in SOLIDS:
            x, y, w, h = numbers
            for cells, value in zip((self.walls, self.obstacles), SOLIDS[word]):
                if value is not None:
                    cells[y:y + h, x:x + w] = value
        if not word or max(len(self.drains), len(self.sources)) > MOST_PORTS:
            raise Strange("no change of a gas of {} by {} with at most 16 sources and drains: {!r}"
                          .format(*self.size, command[:80]))
