"""The laboratory as an object: a program that is started, or a server that is joined."""
import tempfile
import time
from collections.abc import Callable, Iterable, Iterator, Sized
from functools import partial
from pathlib import Path
from typing import Optional, SupportsIndex, TypeVar, Union

from numpy.typing import ArrayLike

from ..protocol.commands import COMMANDS, MOST_ENTRIES, MOST_STEPS, SIDES
from ..protocol.doors import PathLike, Program, Server
from ..protocol.errors import Moving, Strange
from ..protocol.limits import Size
from ..protocol.link import Door, Replies, lines_of
from ..protocol.numbers import whole, whole_steps
from ..protocol.programs import executable, find_program
from ..protocol.replies import Bye, Entry, Ledger, Ok, Probe, Reply, Row, Saved, Tally
from ..protocol.scripts import Script, ScriptLike, script_of
from ..snapshot.cells import Cells, as_cells, as_truth, check_sides, plane_of
from ..snapshot.files import Snapshot
from ..snapshot.gases import Drift, random_rows
from ..snapshot.scene import Scene
from .edits import edits
from .journal import AHEAD, Journal
from .progress import Progress, Told
from .session import Session

_BURST = 256  # rows that are read at once

Kind = TypeVar("Kind")


class Lab:
    """A running laboratory. Make one by `Lab.run` or `Lab.join`, best in a `with` statement.

    Each command of the laboratory is a method of its name. Coordinates and sizes are whole numbers of cells:
    `x` to the right from 0, and `y` downwards from 0. Steps and periods are in ticks. A refusal raises
    `Refused`, which says which number is wrong, and the laboratory is then as it was. All methods raise
    `Gone` if the other side ended, `Silent` if no reply came in time, and `Strange` for what is no reply.

    A `Lab` is for one thread at a time: another one that asks it meanwhile gets `RuntimeError`. The program
    of a `Lab` that nobody holds any more is ended.

    `known` are the entries of the journal that were read so far; after `look` they are those that made this
    gas. `bursts` are the seconds that each burst of rows of the last look took. With a shelf, a look reads no
    entries and no rows.
    """
    def __init__(self, door: Door, size: Optional[Size] = None, start: Optional[Snapshot] = None,
                 shelf: Optional[PathLike] = None,
                 again: Optional[Callable[[PathLike], Door]] = None) -> None:
        self._session = Session(door, size)
        self._journal = Journal(self._session, start)
        self._shelf, self._again = shelf, again
        self.bursts: list[float] = []
        self._session.greet()

    @classmethod
    def run(cls, width: SupportsIndex = 64, height: SupportsIndex = 64, workers: SupportsIndex = 1,
            cap: SupportsIndex = MOST_ENTRIES, load: Optional[PathLike] = None,
            save: Optional[PathLike] = None, program: Optional[PathLike] = None,
            timeout: float = 60.0) -> "Lab":
        """Starts the built program for one session.

        width, height: cells, multiples of 64 from 64 to 4,096.
        workers: threads, 1 to 16.
        cap: how many changes the journal has room for, 1 to 65,536.
        load: a snapshot to start from, which has the size.
        save: the file that `save` writes.
        program: what is started, or else what the variable GASLAB_PROGRAM of the environment names, or else
            the program of the wheel that this package came in, or else what the script `gaslab` of this
            repository has built, or that on the PATH.
        timeout: how many seconds a reply may take.

        Raises `ValueError` or `TypeError` for other values, and `Unreachable` if there is no built program.
        The first lab of a process asks the script whether its program is built, and later ones don't.
        """
        start = Snapshot.read(load) if load is not None else None
        if start:
            width, height = start.width, start.height
        check_sides(width, height)
        size = int(width), int(height)
        _check_timeout(timeout)
        options = dict(width=size[0], height=size[1], workers=whole("workers", workers, 1, 16),
                       cap=whole("cap", cap, 1, MOST_ENTRIES), save=save)
        begin = partial(_program, executable(find_program(program)), options, timeout)
        return cls(begin(load), size, start, again=begin)

    @classmethod
    def join(cls, host: str, port: SupportsIndex, timeout: float = 60.0, start: Optional[Snapshot] = None,
             shelf: Optional[PathLike] = None) -> "Lab":
        """Joins a server, as one more seat.

        host: its name or address. port: 0 to 65,535.
        timeout: how many seconds a reply may take.
        start: the snapshot that the server was started from, if there was one: its walls are not in the
            journal.
        shelf: the path of the server's `--save`, if it is on this machine. The whole gas is then read by
            snapshot, which writes that file again at each look.

        Raises `Unreachable` if there is no server, and `Silent` if it is full.
        """
        number = whole("port", port, 0, 65535)
        _check_timeout(timeout)
        return cls(Server(host, number, timeout), None, start, shelf)

    def fresh(self) -> None:
        """Goes on from the same gas, at its tick, with a new journal and new accounts.

        It starts the program again from a snapshot of the gas. Raises `ValueError` for the gas of a server,
        whose journal is everybody's.
        """
        if self._again is None:
            raise ValueError("a server's journal is everybody's: save the gas, and start one with --load")
        gas = self.look()
        with tempfile.TemporaryDirectory(prefix="gaslab-") as room:
            path = Path(room, "start.gas")
            gas.write(path)
            new = Lab(self._again(path), self.size, gas)
        self._session.close()
        self._session, self._journal = new._session, new._journal

    # ---- the session

    def __enter__(self) -> "Lab":
        return self

    def __exit__(self, kind: Optional[type], *_: object) -> None:
        self.close(polite=kind is None)

    def __repr__(self) -> str:
        return f"<Lab {'closed' if self.is_closed else 'on'} {self._session.door.name}>"

    @property
    def is_closed(self) -> bool:
        """Whether the session has ended."""
        return self._session.is_closed

    def close(self, polite: bool = True) -> None:
        """Ends the session, after all lines that were sent. Without `polite` it only hangs up.

        Raises `Gone` or `Silent` if lines that were sent get no answer.
        """
        self._session.close(polite)

    def kill(self) -> None:
        """Ends the program at once, or hangs up. Any thread may call it.

        A thread that waits for a reply then gets `Gone`. The lab still has to be closed.
        """
        self._session.kill()

    def ask(self, line: str) -> Reply:
        """Sends one line and returns its reply. Raises `Refused` if it is refused."""
        return self._session.ask(line)

    def do(self, lines: Union[str, Iterable[str]]) -> list[Reply]:
        """Sends the lines of a text, or lines, one after the other, and returns their replies.

        Raises `Refused` at the first refusal, with the line's number as its `place`, from 1. The lines before
        it were carried out, and those behind it are not sent.
        """
        found = lines_of(lines) if isinstance(lines, str) else lines
        return self._session.do(enumerate(found, 1), "lines", len(found) if isinstance(found, Sized) else 0)

    def play(self, script: ScriptLike) -> list[Reply]:
        """Does the commands of a script, as `do`; `place` is then the number of the script's line.

        script: a text, its lines, or the `Path` of its file. It may have `#` comments, blank lines, several
            commands in a line with `;` between them, `repeat`, and `size W H` before the commands.

        Raises `ValueError` if it is no script, or one for another size, `OSError` from the file, and
        `Refused` at the first refusal.
        """
        found = script_of(script)
        self.check_size(found)
        return self._session.do(found.commands(), "script", found.number())

    def check_size(self, script: Script) -> None:
        """Raises `ValueError` if a script names another size than this gas has."""
        if script.size and script.size != self.size:
            raise ValueError("the script is for {} by {} cells, and this gas has {} by {}".format(
                *script.size, *self.size))

    def send(self, lines: Union[str, Iterable[str]], ahead: Optional[int] = None) -> Replies:
        """Sends any number of lines, and returns an iterator over the replies.

        Sending begins at once and goes on while replies are read, `ahead` lines before them at most (16,384).
        A refusal is a `Refused` among the replies: `do` is for lines of which each should be accepted. A text
        is cut into its lines.
        """
        return self._session.send(lines, ahead)

    def advance(self, steps: SupportsIndex, each: SupportsIndex = MOST_STEPS,
                progress: Progress = None) -> None:
        """Makes any number of steps, backwards if it is negative, `each` in a command.

        `progress` is told after each command how many steps are done, and how many there are in all. Raises
        `Refused` as `step` and `back` do, when the steps before are done.
        """
        wanted, most = whole_steps(steps), whole("each", each, 1, MOST_STEPS)
        done, total = 0, abs(wanted)
        with Told("steps", total, progress) as tell:
            while done < total:
                part = min(most, total - done)
                self._ok("step" if wanted >= 0 else "back", part)
                done += part
                tell(done)

    # ---- changes

    def put(self, x: SupportsIndex, y: SupportsIndex, w: SupportsIndex, h: SupportsIndex) -> Ok:
        """Fills a rectangle with particles, one in each cell.

        x, y: its left upper cell, 0 to width - 1 and 0 to height - 1.
        w, h: its width and height, 1 to width - x and 1 to height - y.

        Returns the change's place in the journal. Raises `Refused` for a rectangle that is not inside (5), or
        if the journal is full (13).
        """
        return self._ok("put", x, y, w, h)

    def erase(self, x: SupportsIndex, y: SupportsIndex, w: SupportsIndex, h: SupportsIndex) -> Ok:
        """Empties a rectangle of particles. Walls and obstacles stay.

        x, y: its left upper cell, 0 to width - 1 and 0 to height - 1.
        w, h: its width and height, 1 to width - x and 1 to height - y.

        Returns the change's place in the journal. Raises `Refused` for a rectangle that is not inside (5), or
        if the journal is full (13).
        """
        return self._ok("erase", x, y, w, h)

    def wall(self, x: SupportsIndex, y: SupportsIndex, w: SupportsIndex, h: SupportsIndex) -> Ok:
        """Makes the cells of a rectangle wall cells.

        x, y: its left upper cell, 0 to width - 1 and 0 to height - 1.
        w, h: its width and height, 1 to width - x and 1 to height - y.

        Returns the change's place in the journal. Raises `Refused` for a rectangle that is not inside (5), or
        if the journal is full (13).
        """
        return self._ok("wall", x, y, w, h)

    def block(self, x: SupportsIndex, y: SupportsIndex, w: SupportsIndex, h: SupportsIndex) -> Ok:
        """Makes the cells of a rectangle obstacle cells, whose momentum has an account of its own.

        x, y: its left upper cell, 0 to width - 1 and 0 to height - 1.
        w, h: its width and height, 1 to width - x and 1 to height - y.

        Returns the change's place in the journal. Raises `Refused` for a rectangle that is not inside (5), or
        if the journal is full (13).
        """
        return self._ok("block", x, y, w, h)

    def unwall(self, x: SupportsIndex, y: SupportsIndex, w: SupportsIndex, h: SupportsIndex) -> Ok:
        """Removes the wall cells and obstacle cells of a rectangle. Particles stay.

        x, y: its left upper cell, 0 to width - 1 and 0 to height - 1.
        w, h: its width and height, 1 to width - x and 1 to height - y.

        Returns the change's place in the journal. Raises `Refused` for a rectangle that is not inside (5), or
        if the journal is full (13).
        """
        return self._ok("unwall", x, y, w, h)

    def row(self, y: SupportsIndex, cells: Union[str, ArrayLike]) -> Ok:
        """Replaces the particles of a row.

        y: the row, 0 to height - 1.
        cells: `width` truth values or whole numbers 0 and 1, or width / 4 hexadecimal digits, of which each
            has four cells from the left.

        Returns the change's place in the journal. Raises `ValueError` for other cells, and `Refused` for no
        row (5), other digits (8), or if the journal is full (13).
        """
        place = whole("y", y)
        if not isinstance(cells, str):
            found, width = as_truth(cells, "a row"), self.size[0]
            if found.shape != (width,):
                raise ValueError(f"a row has shape (width,), here ({width},), and not {found.shape}")
            cells = plane_of(found).hex()
        return self._session.expect(Ok, f"row {place} {cells}")

    def source(self, x: SupportsIndex, y: SupportsIndex, w: SupportsIndex, h: SupportsIndex,
               period: SupportsIndex) -> Ok:
        """Adds a source: it fills the cells of a rectangle at each tick that `period` divides.

        x, y: its left upper cell, 0 to width - 1 and 0 to height - 1.
        w, h: its width and height, 1 to width - x and 1 to height - y.
        period: ticks, 1 to 65,535.

        Returns the change's place in the journal. Raises `Refused` for a rectangle that is not inside (5),
        another period (7), a 17th source (10), or if the journal is full (13).
        """
        return self._ok("source", x, y, w, h, period)

    def drain(self, x: SupportsIndex, y: SupportsIndex, w: SupportsIndex, h: SupportsIndex) -> Ok:
        """Adds a drain, which empties the cells of a rectangle at each tick.

        x, y: its left upper cell, 0 to width - 1 and 0 to height - 1.
        w, h: its width and height, 1 to width - x and 1 to height - y.

        Returns the change's place in the journal. Raises `Refused` for a rectangle that is not inside (5), a
        17th drain (10), or if the journal is full (13).
        """
        return self._ok("drain", x, y, w, h)

    def unport(self) -> Ok:
        """Removes all sources and drains.

        Returns the change's place in the journal. Raises `Refused` if that is full (13).
        """
        return self._ok("unport")

    def step(self, n: SupportsIndex) -> Ok:
        """Makes steps forward; `advance` makes any number.

        n: how many, 1 to 4,096.

        Returns the change's place in the journal. Raises `Refused` for another number (6), past tick 2^40
        (12), or if the journal is full (13).
        """
        return self._ok("step", n)

    def back(self, n: SupportsIndex) -> Ok:
        """Makes steps back, which undo as many steps.

        n: how many, 1 to 4,096.

        Returns the change's place in the journal. Raises `Refused` for another number (6), while a source or
        a drain exists (11), past tick -2^40 (12), or if the journal is full (13).
        """
        return self._ok("back", n)

    # ---- readings

    @property
    def size(self) -> Size:
        """Width and height in cells. Of a server, single cells along two edges tell them."""
        if self._session.size is None:
            lines = [f"probe {side - 1} 0 1 1" for side in SIDES]
            lines += [f"probe 0 {side - 1} 1 1" for side in SIDES]
            inside = [isinstance(reply, Probe) for reply in self.send(lines)]
            half = len(SIDES)
            width, height = sum(inside[:half]), sum(inside[half:])
            if inside != [k < side for side in (width, height) for k in range(half)] \
                    or not width or not height:
                raise Strange("no gas of a laboratory: its probes name no width and height")
            self._session.size = 64 * width, 64 * height
        return self._session.size

    @property
    def tick(self) -> int:
        """The present tick, which the laboratory is asked for each time."""
        return self.tally().tick

    def probe(self, x: SupportsIndex, y: SupportsIndex, w: SupportsIndex, h: SupportsIndex) -> Probe:
        """Counts the particles in a rectangle, and sums their momentum.

        x, y: its left upper cell, 0 to width - 1 and 0 to height - 1.
        w, h: its width and height, 1 to width - x and 1 to height - y.

        Returns `Probe(count, px, py)`: particles, and their momentum to the right and downwards, of which
        each particle has 1 or -1. Raises `Refused` for a rectangle that is not inside (5).
        """
        return self._asked(Probe, "probe", x, y, w, h)

    def tally(self) -> Tally:
        """The tick, and the sums of the whole gas.

        Returns `Tally(tick, count, px, py)`: the momentum is to the right and downwards.
        """
        return self._asked(Tally, "tally")

    def ledger(self) -> Ledger:
        """The accounts since the journal began.

        Returns `Ledger`: `start`, `injected` and `drained` are particles. Those that end in `_x` are momentum
        to the right and those in `_y` downwards: of the start, of what sources and drains brought and took,
        and of what walls and obstacles took.
        """
        return self._asked(Ledger, "ledger")

    def read(self, y: SupportsIndex) -> Row:
        """The particles of a row.

        y: the row, 0 to height - 1.

        Returns `Row(hex)`, with four cells in each digit from the left; `.cells` are they as truth values of
        shape (width,). Raises `Refused` for no row (5).
        """
        return self._asked(Row, "read", y)

    def entry(self, k: SupportsIndex) -> Entry:
        """An entry of the journal.

        k: its place, from 0.

        Returns `Entry(seat, command)`. Raises `Refused` if there is none yet (9).
        """
        return self._asked(Entry, "entry", k)

    def save(self) -> Saved:
        """Has the program write a snapshot to the file of `save=`.

        Returns `Saved(entries, length)`: the journal's length at that moment, and the file's in bytes. Raises
        `Refused` without such a file, or if it can't be written (15).
        """
        return self._asked(Saved, "save")

    def quit(self) -> Bye:
        """Ends the session. No other line can be sent."""
        return self._session.quit()

    def _ok(self, word: str, *numbers: SupportsIndex) -> Ok:
        return self._asked(Ok, word, *numbers)

    def _asked(self, kind: type[Kind], word: str, *numbers: SupportsIndex) -> Kind:
        names = COMMANDS[word].words.split()
        told = [str(whole(name, it)) for name, it in zip(names, numbers)]
        return self._session.expect(kind, " ".join((word, *told)))

    # ---- the whole gas

    @property
    def known(self) -> list[Entry]:
        """The entries of the journal that were read so far."""
        return self._journal.known

    def journal(self) -> list[Entry]:
        """All entries of the journal so far. Those that are known are not asked for again."""
        return self._journal.read()

    def read_on(self, most: int = AHEAD) -> bool:
        """Reads the next entries of the journal, so many at most. Returns whether all are known then."""
        return self._journal.read_on(most)

    def scene(self) -> Scene:
        """Walls, obstacles and ports, from the start and the journal."""
        self.enacted()  # which says first if the start doesn't fit
        self.journal()
        return self.enacted()

    def enacted(self) -> Scene:
        """Walls, obstacles and ports after the entries that are known."""
        return self._journal.scene(self.size)

    def particles(self) -> Cells:
        """The particles at one tick: truth values of shape (height, width), which can't be written."""
        return self.look().particles

    def look(self, tries: SupportsIndex = 20, burst: SupportsIndex = _BURST) -> Snapshot:
        """The whole gas at one tick: particles, walls, obstacles and ports.

        With a shelf it is a snapshot. Without, the rows are read, `burst` of them at once. If the journal has
        grown meanwhile, the gas was changed, and all rows are read again. Walls and ports then come from the
        journal and the start. Raises `Moving` after so many `tries`.
        """
        if self._shelf is not None:
            self.save()
            return Snapshot.read(self._shelf)
        number, most = whole("tries", tries, 1, 10 ** 9), whole("burst", burst, 1, SIDES[-1])
        for _ in range(number):
            scene, tally = self.scene(), self.tally()
            rows = self._plane(most)
            known = len(self.known)
            if len(self.journal()) == known:
                planes = rows, plane_of(scene.walls), plane_of(scene.obstacles)
                return Snapshot(*self.size, tally.tick, tuple(scene.drains), tuple(scene.sources), *planes)
        raise Moving(f"the gas was changed during each of {number} looks: others step it without a "
                     "pause; a server on this machine that saves can be looked at by shelf=")

    def _plane(self, burst: int) -> bytes:
        """The packed rows, read in bursts whose times are kept."""
        parts: list[bytes] = []
        height = self.size[1]
        self.bursts = []
        for first in range(0, height, burst):
            began = time.monotonic()
            parts.append(self._rows(range(first, min(first + burst, height))))
            self.bursts.append(time.monotonic() - began)
        return b"".join(parts)

    def _rows(self, rows: range) -> bytes:
        """These rows, packed."""
        width = self.size[0]
        return self.send([f"read {y}" for y in rows]).rows(width)

    def set(self, particles: Optional[ArrayLike] = None, walls: Optional[ArrayLike] = None,
            obstacles: Optional[ArrayLike] = None) -> int:
        """Makes the gas hold exactly these cells at the present tick.

        particles, walls, obstacles: arrays of shape (height, width), of truth values or whole numbers 0 and
            1. What is not given stays.

        Particles are set by one `row` for each row that differs, walls and obstacles by few rectangles.
        Returns the number of changes. Raises `ValueError` for other arrays, and `Refused` if the journal is
        full (13): the gas is then set in part.
        """
        names = ("particles", "walls", "obstacles")
        given = {name: self._fitting(cells, name) for name, cells in
                 zip(names, (particles, walls, obstacles)) if cells is not None}
        scene = self.scene()
        lines = list(edits(scene, given.get("walls", scene.walls), given.get("obstacles", scene.obstacles)))
        return self._session.do_ahead([*lines, *self._row_edits(given.get("particles"))])

    def fill(self, density: float, drift: Drift = 0.0, seed: Optional[SupportsIndex] = None) -> int:
        """Replaces all particles by those of a random gas. Walls and obstacles get none.

        density: the probability of a particle in each cell, 0 to 1.
        drift: the mean velocity to the right, or a pair with that downwards, -1 to 1, in columns and rows a
            step, at the present tick.
        seed: 0 to 4,294,967,295; the same one gives the same gas.

        Returns the number of changes. Raises `ValueError` or `TypeError` for other values, and `Refused` if
        the journal is full (13): the gas is then filled in part.
        """
        rows = random_rows(*self.size, density, drift, seed, self.tick)
        scene = self.scene()
        free = ~(scene.walls | scene.obstacles)
        filled = (plane_of(cells & free[y]).hex() for y, cells in enumerate(rows))
        return self._session.do_ahead(f"row {y} {digits}" for y, digits in enumerate(filled))

    def _fitting(self, cells: ArrayLike, name: str) -> Cells:
        found = as_cells(cells, name)
        if found.shape != self.size[::-1]:
            raise ValueError(f"{name} has shape (height, width), here {self.size[::-1]}, "
                             f"and not {found.shape}")
        return found

    def _row_edits(self, particles: Optional[Cells]) -> Iterator[str]:
        """The lines that make these the particles."""
        if particles is not None:
            old, size = self._rows(range(len(particles))), self.size[0] // 8
            for y, new in enumerate(map(plane_of, particles)):
                if new != old[y * size:(y + 1) * size]:
                    yield f"row {y} {new.hex()}"


def _program(path: Path, options: dict[str, object], timeout: float, load: Optional[PathLike]) -> Program:
    """Starts a program with these options, from a snapshot if one is named."""
    return Program(path, {**options, "load": load}, timeout)


def _check_timeout(seconds: float) -> None:
    if not isinstance(seconds, (int, float)) or not 0.001 <= seconds <= 10 ** 6:
        raise ValueError(f"timeout is 0.001 to 1,000,000 seconds, and not {seconds}")
