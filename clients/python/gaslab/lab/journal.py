"""The journal of a laboratory as far as it was read, and the walls and ports that it makes."""
from typing import Optional

from ..protocol.commands import MOST_ENTRIES
from ..protocol.errors import Refused, Strange
from ..protocol.limits import Size
from ..protocol.replies import Entry
from ..snapshot.files import Snapshot
from ..snapshot.scene import Scene
from .session import Session

AHEAD = 512
"""The most entries that are asked for at once."""


class Journal:
    """The entries that were read so far, `known`, and what they do to the `start`, if not to an empty gas."""
    def __init__(self, session: Session, start: Optional[Snapshot] = None) -> None:
        self._session, self.start = session, start
        self.known: list[Entry] = []
        self._scene: Optional[Scene] = None
        self._enacted = 0

    def read(self) -> list[Entry]:
        """All entries so far. Those that are known are not asked for again."""
        ahead = 1
        while not self.read_on(ahead):
            ahead = min(2 * ahead, AHEAD)
        return list(self.known)

    def read_on(self, most: int) -> bool:
        """Reads the next entries, so many at most. Returns whether all are known then."""
        is_whole, first = False, len(self.known)
        lines = [f"entry {k}" for k in range(first, first + most)]
        for line, reply in zip(lines, self._session.send(lines)):
            if isinstance(reply, Refused) and reply.number == 9:
                is_whole = True
            elif not is_whole:
                self.known.append(self._session.checked(Entry, line, reply))
        if len(self.known) > MOST_ENTRIES:
            raise Strange(f"the journal has more than {MOST_ENTRIES} entries")
        return is_whole

    def scene(self, size: Size) -> Scene:
        """Walls, obstacles and ports of a gas of this size after the entries that are known."""
        if self._scene is None:
            start = self.start or Snapshot(*size)
            if (start.width, start.height) != size:
                raise ValueError("the start has {} by {} cells, and this gas {} by {}".format(
                    start.width, start.height, *size))
            self._scene = Scene(start)
        for entry in self.known[self._enacted:]:
            self._scene.enact(entry.command)
            self._enacted += 1
        return self._scene
