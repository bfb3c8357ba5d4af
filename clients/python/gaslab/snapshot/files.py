"""Snapshot files, read whole and checked as the laboratory checks them."""
import struct
from collections.abc import Iterable
from dataclasses import dataclass, field
from functools import cached_property
from typing import Any, NamedTuple, Optional, SupportsIndex

from numpy.typing import ArrayLike

from ..protocol.commands import MOST_PORTS, MOST_SNAPSHOT, MOST_TICK, SIDES
from ..protocol.doors import PathLike
from ..protocol.drafts import draft
from ..protocol.errors import GaslabError
from ..protocol.numbers import whole_tick
from .cells import Cells, array_of, as_cells, check_sides, plane_of
from .counting import count_in_squares

_LARGEST_SIDE = {b"HPPGAS1\n": 2048, b"HPPGAS2\n": 4096}


class SnapshotFault(GaslabError, ValueError):
    """The bytes are no snapshot. `name` is the fault's name in docs/FORMATS.md."""
    name = ""

    def __init__(self, what: str) -> None:
        super().__init__(f"{self.name}: {what}")


class ShortFault(SnapshotFault):
    """A field's bytes are not all there."""
    name = "Short"


class MagicFault(SnapshotFault):
    """The first 8 bytes are those of neither version."""
    name = "Magic"


class SizeFault(SnapshotFault):
    """A side is no multiple of 64, or too long."""
    name = "Size"


class TickFault(SnapshotFault):
    """The tick is not from -2^40 to 2^40."""
    name = "Tick"


class PortFault(SnapshotFault):
    """A count of ports is above 16, a rectangle is not inside, or a period is 0."""
    name = "Port"


class TrailingFault(SnapshotFault):
    """There are bytes after the last field."""
    name = "Trailing"


class Drain(NamedTuple):
    """A rectangle of cells that loses its particles at each tick."""
    x: int
    y: int
    w: int
    h: int


class Source(NamedTuple):
    """A rectangle of cells that is filled at each tick that `period` divides."""
    x: int
    y: int
    w: int
    h: int
    period: int


@dataclass(frozen=True)
class Snapshot:
    """A gas at one tick.

    `width` and `height` are in cells, `tick` in steps. The three sets of cells are packed planes of `width *
    height / 8` bytes; `particles`, `walls` and `obstacles` are the same as arrays of truth values of shape
    (height, width), which are made once and can't be written: `.copy()` can. Drains and sources are in the
    order in which they were added. `version` is that of the file that it was read from; `write` writes 2.
    """
    width: int
    height: int
    tick: int = 0
    drains: tuple[Drain, ...] = ()
    sources: tuple[Source, ...] = ()
    particle_bytes: bytes = field(default=b"", repr=False)
    wall_bytes: bytes = field(default=b"", repr=False)
    obstacle_bytes: bytes = field(default=b"", repr=False)
    version: int = 2

    def __post_init__(self) -> None:
        check_sides(self.width, self.height)
        size = self.width * self.height // 8
        for name in ("particle_bytes", "wall_bytes", "obstacle_bytes"):
            plane = getattr(self, name) or bytes(size)
            if len(plane) != size:
                raise ValueError(f"{name} has {len(plane)} bytes and not {size}")
            object.__setattr__(self, name, plane)

    @classmethod
    def from_arrays(cls, particles: Optional[ArrayLike] = None, walls: Optional[ArrayLike] = None,
                    obstacles: Optional[ArrayLike] = None, tick: Optional[SupportsIndex] = None,
                    drains: Iterable[Iterable[int]] = (), sources: Iterable[Iterable[int]] = ()
                    ) -> "Snapshot":
        """The gas of arrays of shape (height, width), of truth values or whole numbers 0 and 1.

        At least one is given; the others are empty. Particles need their `tick`, since a cell's velocity
        changes from tick to tick: 0 for a new gas. A drain is (x, y, w, h) in cells, and a source has its
        period in ticks behind. Raises `ValueError` if they are no gas, or if the tick is missing.
        """
        if particles is not None and tick is None:
            raise ValueError("particles need tick=, since a cell's velocity changes from tick to tick: "
                             "0 for a new gas, or that of the gas that they are from")
        named = {"particles": particles, "walls": walls, "obstacles": obstacles}
        given = {name: as_cells(cells, name) for name, cells in named.items() if cells is not None}
        shapes = {cells.shape for cells in given.values()}
        if len(shapes) != 1:
            raise ValueError("particles, walls and obstacles have one shape: "
                             + (" and ".join(map(str, sorted(shapes))) or "none is given"))
        (height, width), = shapes
        planes = [plane_of(given[name]) if name in given else b"" for name in named]
        now = whole_tick(tick)
        try:
            gas = cls(width, height, now, tuple(Drain(*it) for it in drains),
                      tuple(Source(*it) for it in sources), planes[0], planes[1], planes[2])
            return cls.from_bytes(gas.to_bytes())
        except (struct.error, TypeError) as fault:
            raise ValueError(f"a drain is (x, y, w, h) and a source (x, y, w, h, period), of whole numbers "
                             f"from 0, and there are at most {MOST_PORTS} of each: {fault}") from None

    @classmethod
    def read(cls, path: PathLike) -> "Snapshot":
        """The snapshot in a file. Raises a `SnapshotFault`, or `OSError` from the file."""
        with open(path, "rb") as file:
            return cls.from_bytes(file.read(MOST_SNAPSHOT + 1))

    @classmethod
    def from_bytes(cls, data: bytes) -> "Snapshot":
        """The snapshot that the bytes spell, or the first fault from the left."""
        return _Reader(data).snapshot()

    def write(self, path: PathLike) -> None:
        """Writes the snapshot to a file, which is replaced whole."""
        with draft(path) as file:
            file.write(self.to_bytes())

    def to_bytes(self) -> bytes:
        """The snapshot in version 2 of the format."""
        head = struct.pack(">HHqBB", self.width, self.height, self.tick, len(self.drains), len(self.sources))
        ports = [struct.pack(f">{len(port)}H", *port) for port in (*self.drains, *self.sources)]
        planes = (self.particle_bytes, self.wall_bytes, self.obstacle_bytes)
        return b"".join((b"HPPGAS2\n", head, *ports, *planes))

    def __reduce__(self) -> tuple[Any, ...]:
        """Pickles the fields alone: arrays that come from a pickle could be written."""
        return Snapshot, tuple(getattr(self, name) for name in self.__dataclass_fields__)

    @cached_property
    def particles(self) -> Cells:
        """Where particles are: truth values of shape (height, width), which can't be written."""
        return array_of(self.particle_bytes, self.width)

    @cached_property
    def walls(self) -> Cells:
        """Where walls are: truth values of shape (height, width), which can't be written."""
        return array_of(self.wall_bytes, self.width)

    @cached_property
    def obstacles(self) -> Cells:
        """Where obstacles are: truth values of shape (height, width), which can't be written."""
        return array_of(self.obstacle_bytes, self.width)

    @property
    def count(self) -> int:
        """How many particles there are."""
        return int(count_in_squares(self.particle_bytes, self.width, 64).sum())


class _Reader:
    """Takes the fields of a snapshot from the left."""
    def __init__(self, data: bytes) -> None:
        self.data, self.at = data, 0

    def take(self, form: str, what: str) -> tuple[Any, ...]:
        size = struct.calcsize(form)
        part = self.data[self.at:self.at + size]
        if len(part) < size:
            raise ShortFault(f"{what} needs {size} bytes, and {len(part)} are there")
        self.at += size
        return struct.unpack(form, part)

    def snapshot(self) -> Snapshot:
        magic, = self.take("8s", "the magic")
        if magic not in _LARGEST_SIDE:
            raise MagicFault(f"a snapshot does not begin with {magic!r}")
        width, height = self.take(">HH", "the size")
        if not all(side in SIDES and side <= _LARGEST_SIDE[magic] for side in (width, height)):
            raise SizeFault(f"{width} by {height} in a snapshot that begins with {magic!r}")
        tick, = self.take(">q", "the tick")
        if abs(tick) > MOST_TICK:
            raise TickFault(f"{tick} is not from -2^40 to 2^40")
        drains, sources = self.take("BB", "the counts of ports")
        if drains > MOST_PORTS or sources > MOST_PORTS:
            raise PortFault(f"{drains} drains and {sources} sources: at most 16 of each")
        found_drains = tuple(Drain(*self.port(4, width, height)) for _ in range(drains))
        found_sources = tuple(Source(*self.port(5, width, height)) for _ in range(sources))
        version, size = int(magic[6:7]), width * height // 8
        planes = {it: self.take(f"{size}s", f"the plane of {it}")[0]
                  for it in ("particles", "walls", "obstacles")[:version + 1]}
        if self.at < len(self.data):
            raise TrailingFault("bytes after the last field")
        return Snapshot(width, height, tick, found_drains, found_sources, planes["particles"],
                        planes["walls"], planes.get("obstacles", b""), version)

    def port(self, length: int, width: int, height: int) -> tuple[int, ...]:
        """The numbers of a drain or a source."""
        port = self.take(f">{length}H", "a port")
        x, y, w, h, *period = port
        if not (w and h and x + w <= width and y + h <= height) or 0 in period:
            raise PortFault(f"{port} in a lattice of {width} by {height}")
        return port
