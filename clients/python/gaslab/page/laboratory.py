"""The laboratory behind the pages: a program of their own, or a seat of a running server."""
from collections.abc import Iterator
from contextlib import ExitStack, suppress
from pathlib import Path
from typing import NamedTuple, Optional

from ..lab.journal import AHEAD
from ..lab.lab import Lab
from ..protocol.commands import MOST_ENTRIES, canonical
from ..protocol.doors import PathLike
from ..protocol.errors import Refused, Strange
from ..protocol.link import LINE_LIMIT
from ..protocol.programs import is_script
from ..protocol.replies import Ok, Reply, reply_text
from ..protocol.scripts import journal_lines
from ..snapshot.files import Snapshot
from .pictures import LAYOUT, Reading
from .rooms import room

_TRIES = 3  # looks at a gas that others change
_PART = 1 << 15  # characters of a script that are made at once


class Means(NamedTuple):
    """How programs of the pages' own are started."""
    program: PathLike = ""
    cap: int = MOST_ENTRIES
    timeout: float = 60.0


class Laboratory:
    """A gas with its journal, the probes that pages watch, and which page made which entry.

    `start` is the snapshot that it began from, `name` what the pages call it, and `program` what computes it:
    `proved`, `named` if somebody named the program, or `server`. Pages may open another gas in place of one
    that `is_own`. `makers` are those of the entries that were read so far: a page's seat, -1 - k for seat k
    of a server, or None for a step of play. It is for one thread at a time.
    """
    def __init__(self, lab: Lab, start: Optional[Snapshot], name: str, program: str, cap: int) -> None:
        self.lab, self.start, self.name, self.program, self.cap = lab, start, name, program, cap
        self.probes: dict[int, tuple[int, ...]] = {}
        self.keys = 0
        self.makers: list[Optional[int]] = []
        self._made: dict[int, tuple[str, Optional[int]]] = {}
        self._room, self._files, self.is_own = "", ExitStack(), False

    @classmethod
    def own(cls, means: Means, size: tuple[int, int] = (64, 64), start: Optional[Snapshot] = None,
            name: str = "") -> "Laboratory":
        """Starts a program, with a snapshot or an empty lattice. It saves to a file that nobody else sees."""
        with ExitStack() as files:
            folder = files.enter_context(room())
            path = Path(folder, "start.gas")
            if start:
                start.write(path)
            lab = Lab.run(*size, cap=means.cap, load=path if start else None, save=Path(folder, "now.gas"),
                          program=means.program, timeout=means.timeout)
            it = cls(lab, start, name, "proved" if is_script(means.program) else "named", means.cap)
            it._room, it._files, it.is_own = folder, files.pop_all(), True
        return it

    @classmethod
    def joined(cls, host: str, port: int, timeout: float, start: Optional[Snapshot]) -> "Laboratory":
        """Takes a seat of a server, which began from this snapshot if from any."""
        return cls(Lab.join(host, port, timeout, start), start, f"{host} {port}", "server", MOST_ENTRIES)

    def close(self) -> None:
        """Ends the session."""
        self.lab.close(polite=False)
        self._files.close()

    def replies(self, seat: Optional[int], lines: list[str]) -> list[str]:
        """The replies to lines of a page's seat, or of play."""
        ready = [self._ready_reply(line) for line in lines]
        asked = [line for line, reply in zip(lines, ready) if not reply]
        found = (self._noted(seat, *it) for it in zip(asked, self.lab.send(asked)))
        return [reply or next(found) for reply in ready]

    def _noted(self, seat: Optional[int], line: str, reply: Reply) -> str:
        """The text of a reply. Who made an entry is noted."""
        if isinstance(reply, Ok):
            self._made[reply.index] = line, seat
        return reply_text(reply)

    def _ready_reply(self, line: str) -> str:
        """The reply to a line that the laboratory must not get: it would end the session, or save."""
        if len(line.encode()) > LINE_LIMIT:
            return "ERR 1 line"
        replies = {"quit": "BYE", "save": "ERR 15 save" if self.is_own else ""}
        return replies.get(line.strip().partition(" ")[0], "")

    def move(self, steps: int) -> str:
        """Makes steps of play, backwards if negative. Returns the refusal, or an empty text."""
        lines = [f"{'step' if steps > 0 else 'back'} {abs(steps)}"] if steps else []
        return next((reply for reply in self.replies(None, lines) if not reply.startswith("OK")), "")

    def read_on(self) -> bool:
        """Reads the next entries, a thousand at most. Returns whether these are all.

        Raises `Strange` if a server said `OK k` to a line, and entry k is another one.
        """
        ahead, is_whole = 1, False
        while not is_whole and ahead <= AHEAD:
            is_whole, ahead = self.lab.read_on(ahead), 2 * ahead
        for k, entry in enumerate(self.lab.known[len(self.makers):], len(self.makers)):
            line, maker = self._made.pop(k, (entry.command, -1 - entry.seat))
            if not self.is_own and canonical(line) != entry.command:
                raise Strange(f"OK {k} to {line[:60]!r}, and entry {k} is {entry.command[:60]!r}")
            self.makers.append(maker)
        if is_whole and self._made:
            raise Strange(f"OK {min(self._made)} to a line that made no such entry")
        if not self.is_own:
            self.lab.enacted()
        return is_whole

    @property
    def is_owed(self) -> bool:
        """Whether a line was accepted whose entry was not read yet."""
        return bool(self._made)

    def entries(self, first: int, last: int) -> str:
        """These entries as events, a line each, but for the steps of play."""
        lines, named = [], set()
        for k, maker in enumerate(self.makers[first:last], first):
            if maker is not None and maker < 0 and maker not in named:
                lines.append(f"* seat {maker} name seat {-1 - maker} of the server")
                named.add(maker)
            if maker is not None:
                lines.append(f"* entry {k} {maker} {self.lab.known[k].command}")
        return "\n".join(lines)

    def watch(self, words: list[str]) -> str:
        """Watches a rectangle. Returns the page's reply."""
        if len(self.probes) >= LAYOUT["probes"]:
            return "NO probes"
        reply, = self.replies(None, [" ".join(["probe", *words])])
        if not reply.startswith("PROBE"):
            return reply
        self.keys += 1
        self.probes[self.keys] = tuple(int(word) for word in words if word)
        return f"WATCH {self.keys}"

    def look(self) -> Reading:
        """The whole gas and its readings. Raises `Moving` if others change a server's gas all the time."""
        gas, tally, ledger = self.gas(), self.lab.tally(), self.lab.ledger()
        probes = [(key, area, self.lab.probe(*area)) for key, area in self.probes.items()]
        is_mixed = not self.is_own and len(self.lab.known) != len(self.lab.journal())
        return Reading(gas, tally, ledger, probes, len(self.lab.known), is_mixed)

    def gas(self) -> Snapshot:
        """The whole gas. A program of one's own saves it, which is quicker than reading its rows."""
        if self._room:
            with suppress(Refused, OSError):  # there was no room for the file
                self.lab.save()
                return Snapshot.read(Path(self._room, "now.gas"))
        return self.lab.look(tries=_TRIES)

    def script(self) -> Iterator[str]:
        """The entries that were read so far as a script, in parts, with steps joined."""
        known = self.lab.known
        commands = (known[k].command for k in range(len(known)))
        part, size = [], 0
        for line in journal_lines(self.lab.size, commands, self.start is not None):
            part.append(line)
            size += len(line)
            if size > _PART:
                yield "".join(part)
                part, size = [], 0
        yield "".join(part)
