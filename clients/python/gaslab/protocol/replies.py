"""The replies of a laboratory as named tuples, and how a line is read as one."""
import re
from collections.abc import Iterable
from typing import Any, NamedTuple, Optional, Union

import numpy
from numpy.typing import NDArray

from .commands import LEAST_SNAPSHOT, MOST_ENTRIES, MOST_SEATS, MOST_SNAPSHOT, MOST_TICK, SIDES, parse_change
from .errors import GaslabError, Refused, Strange
from .limits import REFUSALS, Size
from .printable import printable


class Ok(NamedTuple):
    """A change was made. `index` is its place in the journal, from 0."""
    index: int  # type: ignore[assignment]  # it hides a method of tuples, and so does each `count` below


class Probe(NamedTuple):
    """Sums in a rectangle: `count` particles, and their momentum, `px` to the right and `py` downwards."""
    count: int  # type: ignore[assignment]
    px: int
    py: int


class Tally(NamedTuple):
    """The tick, and the sums of the whole gas: `count`, and the momentum `px`, `py`."""
    tick: int
    count: int  # type: ignore[assignment]
    px: int
    py: int


class Ledger(NamedTuple):
    """The accounts: counts of particles, then momentum to the right (x), then downwards (y)."""
    start: int
    injected: int
    drained: int
    start_x: int
    injected_x: int
    drained_x: int
    walls_x: int
    obstacles_x: int
    start_y: int
    injected_y: int
    drained_y: int
    walls_y: int
    obstacles_y: int


class Saved(NamedTuple):
    """A snapshot was written: the journal's entries at that moment, and the file's length in bytes."""
    entries: int
    length: int


class Bye(NamedTuple):
    """The session has ended."""


class Row(NamedTuple):
    """The particles of a row in hexadecimal digits, four cells in each, from the left."""
    hex: str

    @property
    def cells(self) -> NDArray[numpy.bool_]:
        """The row as an array of truth values, of shape (width,)."""
        return numpy.unpackbits(numpy.frombuffer(bytes.fromhex(self.hex), numpy.uint8)).astype(bool)


class Entry(NamedTuple):
    """An entry of the journal: the `seat` that made the change, and its `command`."""
    seat: int
    command: str


Reply = Union[Ok, Probe, Tally, Ledger, Row, Entry, Saved, Bye, Refused]
"""A reply of a laboratory."""

_MOST_CELLS = SIDES[-1] ** 2
_COUNT, _MOMENTUM = (0, _MOST_CELLS), (-_MOST_CELLS, _MOST_CELLS)
_ACCOUNT = (1 - 2 ** 63, 2 ** 63 - 1)
_NUMBERS: dict[str, tuple[Any, tuple[tuple[int, int], ...]]] = {
    "OK": (Ok, ((0, MOST_ENTRIES - 1),)), "PROBE": (Probe, (_COUNT, _MOMENTUM, _MOMENTUM)),
    "TALLY": (Tally, ((-MOST_TICK, MOST_TICK), _COUNT, _MOMENTUM, _MOMENTUM)),
    "LEDGER": (Ledger, 13 * (_ACCOUNT,)),
    "SAVED": (Saved, ((0, MOST_ENTRIES), (LEAST_SNAPSHOT, MOST_SNAPSHOT))), "BYE": (Bye, ())}
_WORDS: dict[type, str] = {Row: "ROW", Entry: "ENTRY", **{kind: word for word, (kind, _) in _NUMBERS.items()}}
_NUMBER = re.compile(r"0|-?[1-9][0-9]{0,18}", re.ASCII)
_ENTRY = re.compile(r"(0|[1-9][0-9]?) (.*)", re.ASCII)


def parse_reply(text: str, asked: str, size: Optional[Size] = None) -> Reply:
    """The reply that a line spells, without its newline. `asked` is the line that was sent.

    A refusal is returned as a `Refused` and not raised; `size` is the lattice's, for what it says. Raises
    `Strange` for any other text: also if a number is one that no laboratory gives, or if an entry is no
    change.
    """
    word, _, rest = text.partition(" ")
    reply: Optional[Reply] = None
    if word in _NUMBERS:
        reply = _numbers(*_NUMBERS[word], text.split(" ")[1:])
    elif word == "ROW" and _is_row(rest):
        reply = Row(rest)
    elif word == "ENTRY":
        reply = _entry(rest)
    elif word == "ERR":
        number, _, name = rest.partition(" ")
        known = _NUMBER.fullmatch(number) and REFUSALS.get(int(number)) == name
        reply = Refused(int(number), name, asked, size=size) if known else None
    if reply is None:
        raise Strange(f"no reply of a laboratory: {text[:80]!r}; asked: {printable(asked[:60])}")
    return reply


def _numbers(kind: Any, ranges: tuple[tuple[int, int], ...], words: list[str]) -> Optional[Reply]:
    if len(words) != len(ranges) or not all(map(_NUMBER.fullmatch, words)):
        return None
    numbers = [int(word) for word in words]
    if not all(least <= number <= most for number, (least, most) in zip(numbers, ranges)):
        return None
    reply: Reply = kind(*numbers)
    return reply


def _is_row(digits: str) -> bool:
    """Whether these are the small hexadecimal digits of a row. To spell them again is the quickest check."""
    try:
        return 4 * len(digits) in SIDES and bytes.fromhex(digits).hex() == digits
    except ValueError:
        return False


def _entry(rest: str) -> Optional[Entry]:
    match = _ENTRY.fullmatch(rest)
    if match is None or int(match[1]) >= MOST_SEATS or parse_change(match[2]) is None:
        return None
    return Entry(int(match[1]), match[2])


def no_answer(line: str, reply: Reply) -> GaslabError:
    """The fault of a reply that is none to this line. Memory can run out at any line: that is a refusal."""
    if isinstance(reply, Refused) and reply.number == 14:
        return reply
    return Strange(f"no answer to {line[:60]!r}: {printable(str(reply))[:80]}")


def reply_text(reply: Reply) -> str:
    """The line that spells a reply, as the laboratory writes it."""
    if isinstance(reply, Refused):
        return f"ERR {reply.number} {reply.word}"
    return " ".join((_WORDS[type(reply)], *map(str, reply)))


def named(reply: Reply) -> str:
    """A reply for people: its word, and each number with its name."""
    if isinstance(reply, Refused):
        return f"ERR {reply.number} {reply.word}: {reply.limit}"
    if isinstance(reply, Row):
        return "ROW " + show_cells(reply.cells)
    fields = ", ".join(f"{name} {value}" for name, value in zip(reply._fields, reply))
    return f"{_WORDS[type(reply)]} {fields}".rstrip()


def show_cells(cells: Iterable[object]) -> str:
    """Cells as text: `#` for a particle, `.` for an empty cell."""
    return "".join("#" if cell else "." for cell in cells)
