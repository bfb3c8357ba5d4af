"""The laboratory's commands: their words, what they do, and what a change in a journal may be."""
import re
from typing import NamedTuple, Optional

SIDES = range(64, 4097, 64)
"""The widths and heights that a lattice may have, in cells."""
MOST_STEPS = 4096
"""The most steps that one command makes."""
MOST_TICK = 2 ** 40
"""The last tick; the first is -2^40."""
MOST_ENTRIES = 65536
"""The most entries that a journal has room for."""
MOST_PORTS = 16
"""The most sources, and the most drains."""
LEAST_SNAPSHOT, MOST_SNAPSHOT = 1558, 6291766
"""The bytes of a snapshot that a laboratory writes: of 64 by 64 cells, and of the largest with all ports."""
MOST_SEATS = 64
"""The most sessions of a server."""


class Command(NamedTuple):
    """A command: the words after its name, what it does, and the refusals of its own."""
    words: str
    what: str
    refusals: tuple[int, ...] = ()


COMMANDS: dict[str, Command] = {
    "put": Command("x y w h", "fills a rectangle with particles", (5, 13)),
    "erase": Command("x y w h", "empties a rectangle of particles", (5, 13)),
    "wall": Command("x y w h", "adds wall cells", (5, 13)),
    "block": Command("x y w h", "adds obstacle cells", (5, 13)),
    "unwall": Command("x y w h", "removes wall cells and obstacle cells", (5, 13)),
    "row": Command("y HEX", "replaces the particles of row y", (5, 8, 13)),
    "source": Command("x y w h period",
                      "adds a source: it fills its cells at each tick that the period divides",
                      (5, 7, 10, 13)),
    "drain": Command("x y w h", "adds a drain, which empties its cells at each tick", (5, 10, 13)),
    "unport": Command("", "removes all sources and drains", (13,)),
    "step": Command("n", "makes n steps forward", (6, 12, 13)),
    "back": Command("n", "makes n steps back", (6, 11, 12, 13)),
    "probe": Command("x y w h", "counts the particles in a rectangle, and sums their momentum", (5,)),
    "tally": Command("", "tells the tick, and the sums of the whole gas"),
    "ledger": Command("", "tells the accounts"),
    "read": Command("y", "shows the particles of row y", (5,)),
    "entry": Command("k", "tells entry k of the journal", (9,)),
    "save": Command("", "writes a snapshot", (15,)),
    "quit": Command("", "ends the session"),
}
"""Each command of the laboratory."""

CHANGES = [name for name, command in COMMANDS.items() if 13 in command.refusals]
"""The commands that a journal has: those that a full one refuses."""
RECTANGLES = [name for name, command in COMMANDS.items() if command.words.startswith("x y w h")]
"""The commands that begin with a rectangle."""
SOLIDS: dict[str, tuple[Optional[bool], Optional[bool]]] = {
    "wall": (True, None), "block": (None, True), "unwall": (False, False)}
"""What commands make of the wall cells and the obstacle cells of a rectangle. None leaves them."""

_WORDS = {"HEX": "[0-9a-f]+"}
_CANONICAL = {name: re.compile(" ".join([name, *(
    f"({_WORDS.get(word, '0|[1-9][0-9]{0,9}')})" for word in COMMANDS[name].words.split())]))
    for name in CHANGES}


def takes(word: str) -> Optional[str]:
    """What a command takes, as "put takes x y w h", or None if there is no such command."""
    return f"{word} takes {COMMANDS[word].words or 'no other word'}" if word in COMMANDS else None


class Change(NamedTuple):
    """A change of a journal: its word, and its numbers in order. A row's digits are left out."""
    word: str
    numbers: tuple[int, ...]


def parse_change(text: str, size: Optional[tuple[int, int]] = None) -> Optional[Change]:
    """The change that a canonical text spells, or None if no laboratory accepts it.

    With `size`, width and height in cells, it is a change of that lattice; without, of any.
    """
    word = text.partition(" ")[0]
    match = _CANONICAL[word].fullmatch(text) if word in CHANGES else None
    if match is None:
        return None
    width, height = size or (SIDES[-1], SIDES[-1])
    numbers = tuple(int(number) for number in match.groups()[:1 if word == "row" else None])
    if word == "row":
        cells = 4 * len(match[2])
        fits = numbers[0] < height and (cells == width if size else cells in SIDES)
    elif word in RECTANGLES:
        x, y, w, h, *period = numbers
        fits = w > 0 and h > 0 and x + w <= width and y + h <= height and \
            all(0 < number < 65536 for number in period)
    else:
        fits = all(0 < steps <= MOST_STEPS for steps in numbers)
    return Change(word, numbers) if fits else None


def canonical(line: str) -> str:
    """The text that a journal has for a change: one space between words, no leading zeros, small digits."""
    word, *rest = [it for it in line.split(" ") if it] or [""]
    if word == "row":
        return " ".join((word, *(it.lstrip("0") or "0" for it in rest[:1]), *(it.lower() for it in rest[1:])))
    return " ".join((word, *(it.lstrip("0") or "0" for it in rest)))
