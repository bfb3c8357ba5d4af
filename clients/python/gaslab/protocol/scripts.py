"""Scripts as people write them: several commands a line, `#` comments, `repeat`, and a size.

    size 128 64                      # width and height, before the commands
    repeat 30 { step 100; ledger }   # thirty times two commands

A laboratory knows none of these. What comes out of `Script.commands` is one command after another.
"""
import os
import re
import sys
from collections.abc import Iterable, Iterator
from typing import Any, NamedTuple, Optional, Union

from .commands import COMMANDS, MOST_STEPS, RECTANGLES, SIDES
from .doors import PathLike
from .limits import Size
from .link import lines_of

_LONGEST = 2 ** 27  # bytes; the longest journal as a script has less
_DEEPEST = 20
_BLANKS = re.compile("[ \t\r\v\f]+")

Tokens = list[tuple[int, str]]


class Script(NamedTuple):
    """The size that a script names, if it does, and its parts.

    A part is a line number with a command, or with a count and the parts that are repeated.
    """
    size: Optional[Size]
    parts: list[Any]

    @property
    def lattice(self) -> Size:
        """The size that it names, or else the smallest on which all its commands fit.

        A script that the page saved names none: its first command probes the whole lattice.
        """
        return self.size or _fitting(self.parts)

    def number(self) -> int:
        """How many commands there are, with each `repeat` carried out."""
        return _counted(self.parts)

    def commands(self) -> Iterator[tuple[int, str]]:
        """The commands with their line numbers from 1, with each `repeat` carried out."""
        return _unrolled(self.parts)


ScriptLike = Union[str, Iterable[str], "os.PathLike[str]", Script]
"""A script: a text, its lines, the `Path` of its file, or what `parse_script` returns."""


def script_of(given: ScriptLike) -> Script:
    """The script that a text, its lines or the file of a `Path` is.

    Raises `ValueError`, with the line, if it is none, and `OSError` from the file. A text that is one word
    and no command is refused too: it is likely the path of a file.
    """
    if isinstance(given, Script):
        return given
    if isinstance(given, os.PathLike):
        return parse_script(read_text(given))
    if isinstance(given, str) and given.split() == [given] and given not in COMMANDS:
        raise ValueError(f"{given!r} is no command. A text is a script itself, and its file is named by a "
                         f"Path: Path({given!r})")
    return parse_script(given)


def parse_script(text: Union[str, Iterable[str]]) -> Script:
    """The script that a text is, or its lines. Raises `ValueError`, with the line, if it is none."""
    tokens = _tokens(text)[::-1]
    size = _size(*tokens.pop()) if tokens and tokens[-1][1].split(" ")[0] == "size" else None
    parts = _parts(tokens, 0)
    if tokens:
        raise ValueError(f"line {tokens[-1][0]}: there is a }} without its {{")
    return Script(size, parts)


def journal_lines(size: Size, commands: Iterable[str], is_after_snapshot: bool = False) -> Iterator[str]:
    """A journal's script, as lines with their newlines. A laboratory takes each of them.

    Steps that follow one another are joined. The first line probes the whole lattice, which tells its size.
    If the journal began from a snapshot, it asks for the ledger instead. The last two lines ask for tally and
    ledger.
    """
    last = "ledger" if is_after_snapshot else "probe 0 0 {} {}".format(*size)
    for command in commands:
        word, *words = command.split(" ")
        before, *steps = last.split(" ")
        total = int(words[0]) + int(steps[0]) if word == before and word in ("step", "back") else 0
        if 0 < total <= MOST_STEPS:
            last = f"{word} {total}"
        else:
            yield last + "\n"
            last = command
    yield from (last + "\n", "tally\n", "ledger\n")


def is_open(text: str) -> bool:
    """Whether a brace is still open, so that more lines belong to the text."""
    words = [word for _, word in _tokens(text)]
    return words.count("{") > words.count("}")


def _tokens(text: Union[str, Iterable[str]]) -> Tokens:
    """Commands and braces, each with its line."""
    found = []
    for place, line in enumerate(lines_of(text) if isinstance(text, str) else text, 1):
        line = line.partition("#")[0].replace("{", ";{;").replace("}", ";};")
        found += [(place, _BLANKS.sub(" ", part).strip(" ")) for part in line.split(";")]
    return [(place, word) for place, word in found if word]


def _fitting(parts: list[Any]) -> Size:
    """The smallest lattice on which all these parts fit."""
    fits = [_fitting(inner[0]) if inner else _reach(*what.split(" ")) for _, what, *inner in parts]
    width, height = (max(64, *(-(-it[k] // 64) * 64 for it in fits)) if fits else 64 for k in (0, 1))
    return min(width, SIDES[-1]), min(height, SIDES[-1])


def _reach(word: str, *rest: str) -> Size:
    """How many columns and rows a command needs."""
    numbers = [int(text) for text in rest[:4] if re.fullmatch("[0-9]{1,10}", text)]
    if word in ("row", "read"):
        cells = 4 * len(rest[1]) if len(rest) > 1 else 0
        return cells, int(rest[0]) + 1 if rest and re.fullmatch("[0-9]{1,10}", rest[0]) else 0
    if word in RECTANGLES and len(numbers) == 4:
        x, y, w, h = numbers
        return x + w, y + h
    return 0, 0


def _size(place: int, command: str) -> Size:
    words = command.split(" ")[1:]
    if len(words) != 2 or not set(words) <= set(map(str, SIDES)):
        raise ValueError(f"line {place}: size takes width and height, multiples of 64 from 64 to 4,096")
    return int(words[0]), int(words[1])


def _parts(tokens: Tokens, depth: int) -> list[Any]:
    parts: list[Any] = []
    while tokens and tokens[-1][1] != "}":
        place, command = tokens.pop()
        word, *rest = command.split(" ")
        if word == "size":
            raise ValueError(f"line {place}: size comes once, before the commands")
        if command == "{" or depth > _DEEPEST:
            raise ValueError(f"line {place}: a {{ comes after `repeat N`, {_DEEPEST} deep at most")
        if word == "repeat":
            count, inner = _repeat(place, rest, tokens, depth)
            parts += [(place, count, inner)] if count and inner else []
        else:
            parts.append((place, command))
    return parts


def _repeat(place: int, words: list[str], tokens: Tokens, depth: int) -> tuple[int, list[Any]]:
    """How often, and what."""
    number = " ".join(words)
    if not re.fullmatch("[0-9]{1,10}", number):
        raise ValueError(f"line {place}: repeat takes a number, as in repeat 30 {{ step 100 }}")
    if not tokens or tokens.pop()[1] != "{":
        raise ValueError(f"line {place}: a {{ is missing after `repeat {number}`")
    parts = _parts(tokens, depth + 1)
    if not tokens:
        raise ValueError(f"line {place}: the {{ of `repeat {number}` is not closed")
    tokens.pop()
    return int(number), parts


def _unrolled(parts: list[Any]) -> Iterator[tuple[int, str]]:
    for place, what, *inner in parts:
        if inner:
            for _ in range(what):
                yield from _unrolled(inner[0])
        else:
            yield place, what


def _counted(parts: list[Any]) -> int:
    return sum(what * _counted(inner[0]) if inner else 1 for _, what, *inner in parts)


def read_text(path: PathLike) -> str:
    """The text of a file; "-" is standard input. Raises `ValueError` if it is no text."""
    data = _data(path)
    if len(data) > _LONGEST:
        raise ValueError(f"{path}: a script has at most {_LONGEST:,} bytes")
    try:
        return data.decode("utf-8-sig")
    except UnicodeDecodeError as fault:
        place = data.count(b"\n", 0, fault.start) + 1
        raise ValueError(f"{path}: line {place} is not UTF-8") from None


def _data(path: PathLike) -> bytes:
    if path != "-":
        with open(path, "rb") as file:
            return file.read(_LONGEST + 1)
    stream: Any = getattr(sys.stdin, "buffer", sys.stdin)
    data: Union[str, bytes] = stream.read(_LONGEST + 1)
    return data.encode() if isinstance(data, str) else data
