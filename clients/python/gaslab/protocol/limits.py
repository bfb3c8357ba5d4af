"""The refusals of a laboratory, and what each says of the line that it refuses."""
import re
from collections.abc import Callable
from typing import Optional

from .commands import COMMANDS, MOST_ENTRIES, MOST_STEPS, takes
from .printable import printable

Size = tuple[int, int]
"""Width and height in cells."""

_LIMITS = {
    1: ("line", "a line is UTF-8 and has at most 2,048 bytes; the session has ended"),
    2: ("word", "the first word of a line names a command"),
    3: ("count", "each command has its own number of words"),
    4: ("number", "a number has 1 to 10 decimal digits and is at most 4,294,967,295"),
    5: ("rect", "a rectangle has at least one cell and lies inside the lattice, and so does a row"),
    6: ("steps", "one command makes 1 to 4,096 steps"),
    7: ("period", "a source's period is 1 to 65,535"),
    8: ("row", "a row has exactly width/4 hexadecimal digits"),
    9: ("entry", "the journal has no such entry yet"),
    10: ("full", "there are at most 16 sources and at most 16 drains"),
    11: ("ports", "there is no way back while a source or a drain exists"),
    12: ("tick", "the tick stays from -2^40 to 2^40"),
    13: ("journal", "the journal is full: lab.fresh() (in the shell: fresh) goes on from this gas with a "
         "new one; cap= (--cap) says how many changes it has room for, 65,536 at most"),
    14: ("memory", "memory ran out"),
    15: ("save", "the program saves only with --save, and only where it can write"),
}
REFUSALS: dict[int, str] = {number: word for number, (word, _) in _LIMITS.items()}
"""The number of each refusal, and its word."""
LIMITS: dict[int, str] = {number: limit for number, (_, limit) in _LIMITS.items()}
"""The limit that each refusal stands for, in words."""

_MOST_NUMBER = 2 ** 32 - 1


def limit_of(number: int, line: str, size: Optional[Size] = None) -> str:
    """The limit that a refused line broke: the number that is wrong and its range, if the line tells them.

    With `size`, the lattice's width and height in cells, it can tell more of rectangles and rows.
    """
    word, *rest = line.split() or [""]
    find = _FINDERS.get(number)
    return (find(word, rest, size) if find else "") or LIMITS[number]


def _no_command(word: str, rest: list[str], size: Optional[Size]) -> str:
    return f"there is no command {printable(word[:40])}" if word and word not in COMMANDS else ""


def _count(word: str, rest: list[str], size: Optional[Size]) -> str:
    told = takes(word)
    return f"{told}, and not {len(rest)} word{'' if len(rest) == 1 else 's'}" if told else ""


def _no_entry(word: str, rest: list[str], size: Optional[Size]) -> str:
    is_entry = word == "entry" and len(rest) == 1 and rest[0].isdecimal()
    return f"the journal has no entry {rest[0]} yet" if is_entry else ""


def _digits(word: str, rest: list[str], size: Optional[Size]) -> str:
    digits = rest[-1] if len(rest) == 2 else ""
    if size and len(digits) != size[0] // 4:
        return f"a row of {size[0]} cells has {size[0] // 4} hexadecimal digits, and not {len(digits)}"
    wrong = re.search("[^0-9a-fA-F]", digits)
    return f"a hexadecimal digit is 0 to 9 or a to f, and not {printable(wrong[0])}" if wrong else ""


def _out_of_range(word: str, rest: list[str], size: Optional[Size]) -> str:
    """The first number of a command that is not in its range, or else what goes past an edge."""
    names = COMMANDS[word].words.split() if word in COMMANDS else []
    numbers = {name: int(text) for name, text in zip(names, rest) if re.fullmatch("[0-9]{1,10}", text)}
    for name, text in zip(names, rest):
        least, most = _range(name, size)
        if name != "HEX" and not least <= numbers.get(name, -1) <= most:
            return f"{name} is {least:,} to {most:,}, and not {printable(text[:40])}"
    for first, length, side in (("x", "w", 0), ("y", "h", 1)):
        end = numbers.get(first, 0) + numbers.get(length, 0)
        if size and end > size[side]:
            return (f"{first} + {length} is at most the {('width', 'height')[side]}, {size[side]:,}, and not "
                    f"{numbers[first]:,} + {numbers[length]:,}")
    return ""


def _range(name: str, size: Optional[Size]) -> tuple[int, int]:
    """The range of a number, by its name in `COMMANDS`."""
    width, height = size or (_MOST_NUMBER + 1, _MOST_NUMBER + 1)
    return {"x": (0, width - 1), "y": (0, height - 1), "w": (1, min(width, _MOST_NUMBER)),
            "h": (1, min(height, _MOST_NUMBER)), "n": (1, MOST_STEPS), "period": (1, 65535),
            "k": (0, MOST_ENTRIES - 1)}.get(name, (0, _MOST_NUMBER))


_FINDERS: dict[int, Callable[[str, list[str], Optional[Size]], str]] = {
    2: _no_command, 3: _count, 4: _out_of_range, 5: _out_of_range, 6: _out_of_range, 7: _out_of_range,
    8: _digits, 9: _no_entry}
