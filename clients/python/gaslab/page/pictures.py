"""Pictures and files as binary messages, by the layout that the page reads too: static/layout.json."""
import json
import struct
from typing import Any, NamedTuple, Optional

from ..protocol.replies import Ledger, Probe, Tally
from ..snapshot.files import Snapshot
from .one_file import read

_TYPES = {"u8": "B", "u16": "H", "u32": "I", "i64": "q"}


def _form(name: str) -> struct.Struct:
    """The fields of a part of the layout."""
    return struct.Struct(">" + "".join(f"{(*count, 1)[0]}{_TYPES[kind]}" for _, kind, *count in LAYOUT[name]))


LAYOUT: dict[str, Any] = json.loads(read("layout.json"))
"""Kinds, flags and fields of the messages."""
NOBODY: int = LAYOUT["nobody"]
"""The seat that plays while nobody does."""
_WRAPS = 2 ** 32  # what counts in 4 bytes begins anew there
_HEAD, _PROBE, _FILE = _form("head"), _form("probe"), _form("fileHead")


class Play(NamedTuple):
    """Who plays: steps a picture, pictures a second, and the tick to stop at, if there is one."""
    seat: int
    steps: int
    rate: int
    to: Optional[int] = None


class Reading(NamedTuple):
    """The whole gas at one tick, with its sums, its accounts, its probes and the journal's length.

    A probe has its key, its rectangle and its sums. `is_mixed` is whether the sums are of another moment.
    """
    gas: Snapshot
    tally: Tally
    ledger: Ledger
    probes: list[tuple[int, tuple[int, ...], Probe]]
    entries: int
    is_mixed: bool


def picture_message(reading: Reading, number: int, play: Optional[Play], with_solids: bool) -> bytes:
    """The message of a picture. Walls, obstacles and ports are in it if the page doesn't have them yet."""
    gas, flags = reading.gas, LAYOUT["flags"]
    has = {"solids": with_solids, "ports": with_solids, "playing": play, "mixed": reading.is_mixed}
    bits = sum(bit for name, bit in flags.items() if has[name])
    seat, steps, rate, _ = play or Play(NOBODY, 0, 0)
    head = _HEAD.pack(LAYOUT["picture"], bits, len(reading.probes), rate, gas.width, gas.height, gas.tick,
                      number % _WRAPS, reading.entries, steps, seat % _WRAPS, *reading.tally[1:],
                      *reading.ledger)
    parts = [head, *(_PROBE.pack(key % _WRAPS, *area, *sums) for key, area, sums in reading.probes)]
    parts.append(gas.particle_bytes)
    if with_solids:
        parts += [gas.wall_bytes, gas.obstacle_bytes, bytes((len(gas.drains), len(gas.sources)))]
        parts += [struct.pack(f">{len(port)}H", *port) for port in (*gas.drains, *gas.sources)]
    return b"".join(parts)


def file_message(line: int, name: str, contents: bytes) -> bytes:
    """The message of a file that was asked for by the line of this number."""
    word = name.encode()
    return _FILE.pack(LAYOUT["file"], 0, len(word), line) + word + contents
