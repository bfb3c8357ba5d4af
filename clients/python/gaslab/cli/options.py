"""The options of the command line, and how words find their gas by them."""
import argparse
import os
import re
from collections.abc import Callable, Iterator
from contextlib import contextmanager
from itertools import takewhile
from typing import Any, Optional, Union

from ..lab.lab import Lab
from ..pictures.momentum import SHOWS
from ..pictures.pixels import COLOURS
from ..protocol.commands import MOST_ENTRIES, SIDES
from ..protocol.scripts import Script, parse_script, read_text
from ..snapshot.files import Snapshot

_MOST = 10 ** 9


def whole_in(least: int, most: int) -> Callable[[str], int]:
    """The type of an option that is a whole number in a range."""
    def number(text: str) -> int:
        if not re.fullmatch("-?[0-9]{1,20}", text) or not least <= int(text) <= most:
            raise argparse.ArgumentTypeError(f"a whole number from {least:,} to {most:,}: not {text[:40]!r}")
        return int(text)
    return number


def seconds(text: str) -> float:
    """The type of an option that is a time in seconds."""
    try:
        number = float(text)
    except ValueError:
        number = -1.0
    if not 0 < number <= 1e6:
        raise argparse.ArgumentTypeError(f"seconds above 0, 1,000,000 at most: not {text[:40]!r}")
    return number


def side(text: str) -> int:
    """The type of a width or a height."""
    if text not in map(str, SIDES):
        raise argparse.ArgumentTypeError(f"sides are multiples of 64 from 64 to 4,096: not {text[:40]!r}")
    return int(text)


def address(text: str) -> tuple[str, int]:
    """The type of the option --join."""
    host, _, number = text.rpartition(":")
    if not host:
        raise argparse.ArgumentTypeError(f"HOST:PORT: not {text[:40]!r}")
    return host.strip("[]"), whole_in(0, 65535)(number)


def probe(text: str) -> tuple[str, tuple[int, ...]]:
    """The type of the option --probe."""
    name, _, area = text.partition("=")
    numbers = tuple(whole_in(0, 4096)(number) for number in area.split(","))
    if not name or len(numbers) != 4:
        raise argparse.ArgumentTypeError(f"NAME=x,y,w,h: not {text[:40]!r}")
    return name, numbers


def _option(what: str, kind: Any = None, default: Any = None, **more: Any) -> dict[str, Any]:
    return {"help": what, "type": kind, "default": default, **more}


_SWITCH = {"action": "store_true"}
_COUNT = whole_in(1, _MOST)
OPTIONS: dict[str, dict[str, Any]] = {
    "host": _option("where the server runs, such as 127.0.0.1"),
    "port": _option("the number that it listens at", whole_in(0, 65535)),
    "file": _option("a script that is run first, or a snapshot; - is standard input", nargs="?"),
    "name": _option("such as 4_tunnel (the names of all)", nargs="?"),
    "snapshot": _option("a snapshot, as the command save writes it"),
    "--script": {"help": "the commands alone, without comments, as ./gaslab run reads them", **_SWITCH},
    "--join": _option("a server that is joined, as a seat", address, metavar="HOST:PORT"),
    "--width": _option("cells, a multiple of 64 (64, or the script's)", side),
    "--height": _option("cells, a multiple of 64 (64, or the script's)", side),
    "--workers": _option("threads of the program (1)", whole_in(1, 16), 1),
    "--cap": _option("how many changes the journal has room for (65536)", whole_in(1, 65536), MOST_ENTRIES),
    "--load": _option("the snapshot to start from, or that the joined server started from", metavar="PATH"),
    "--save": _option("the file that the command save writes", metavar="PATH"),
    "--program": _option("another program than GASLAB_PROGRAM or ./gaslab", metavar="PATH"),
    "--timeout": _option("seconds for a reply (60)", seconds, 60.0),
    "--scale": _option("pixels for each cell's side (some 600 in all)", whole_in(1, 64)),
    "--mean": _option("show the density in squares of N by N cells", whole_in(1, 4096), metavar="N"),
    "--show": _option("show the momentum to the right (px) or downwards (py) in such squares (of 8)", None,
                      choices=tuple(SHOWS)),
    "--colour": _option("what the colour of a particle shows (kind)", None, "kind", choices=COLOURS),
    "--output": _option("a file that ends in .png or .gif (drawn here)", metavar="PATH"),
    "--output!": _option("a file that ends in .png, .apng or .gif", metavar="PATH", required=True),
    "--steps": _option("before each frame (1) or row (100), backwards if negative",
                       whole_in(-_MOST, _MOST), 1),
    "--frames": _option("how many frames (50)", _COUNT, 50),
    "--milliseconds": _option("for each frame (100)", whole_in(1, 65535), 100),
    "--times": _option("how many rows (30) or looks (without end)", _COUNT),
    "--no-ledger": {"help": "without the thirteen accounts", **_SWITCH},
    "--probe": _option("a rectangle to probe; may be given several times", probe, [], action="append",
                       metavar="NAME=x,y,w,h"),
    "--columns": _option("only these columns (all)", metavar="NAME,NAME,.."),
    "--chart": _option("also write a chart over the tick: .svg, .png or .pdf", metavar="PATH"),
    "--column": _option("a column of the chart (d_obstacles_x)", action="append", metavar="NAME"),
    "--along": _option("columns or rows (x)", None, "x", choices=("x", "y")),
    "--bins": _option("how many rows the table has (one a column)", whole_in(1, 4096)),
    "--density": _option("particles in a cell (0.5)", float, 0.5),
    "--drift": _option("mean velocity to the right (0)", float, 0.0),
    "--drift-down": _option("and downwards (0)", float, 0.0),
    "--seed": _option("the same seed gives the same gas", whole_in(0, 2 ** 32 - 1)),
    "--seconds": _option("between two looks (0.25)", seconds, 0.25),
    "gas": _option("a script, a snapshot, or a server's address and port (lesson 4)", nargs="*"),
    "--to": _option("write one HTML file instead, which needs no server", metavar="FILE.html"),
    "--share": _option("bind to this address of the machine, so that others can open the page",
                       metavar="ADDRESS"),
    "--page-port": _option("the page's port (any)", whole_in(0, 65535), 0),
}
"""Each argument and option, as argparse takes it."""

GROUPS = {
    "where the gas comes from":
        "file --join --width --height --workers --cap --load --save --program --timeout",
    "how it looks": "--scale --mean --colour",
}
"""Options that belong together."""


def add(parser: argparse._ActionsContainer, names: str) -> None:
    """Adds options by their names in the table, some with a default of their own: "--steps=100"."""
    for name, _, default in (name.partition("=") for name in names.split()):
        flags = ["-o", "--output"] if name.startswith("--output") else [name]
        own = {"default": default} if default else {} if name.startswith("-") else {"metavar": name.upper()}
        parser.add_argument(*flags, **{**OPTIONS[name], **own})


def is_snapshot(path: Optional[str]) -> bool:
    """Whether a file is a snapshot. A pipe is a script: what is read of it to tell would be lost."""
    if path is None or path == "-" or not os.path.isfile(path):
        return False
    with open(path, "rb") as file:
        return file.read(6) == b"HPPGAS"


def until_quit(script: Script) -> Script:
    """The script up to a line `quit`, which would end the session."""
    return Script(script.size, list(takewhile(lambda part: part[1] != "quit", script.parts)))


@contextmanager
def lab_of(asked: argparse.Namespace) -> Iterator[Lab]:
    """The laboratory that the options name, after the script."""
    load, script = asked.load, Script(None, [])
    if is_snapshot(asked.file):
        load = asked.file
    elif asked.file:
        script = until_quit(parse_script(read_text(asked.file)))
    if asked.join:
        start = Snapshot.read(load) if load else None
        host, port = asked.join
        lab = Lab.join(host, port, asked.timeout, start)
    else:
        width, height = script.lattice
        lab = Lab.run(asked.width or width, asked.height or height, asked.workers, asked.cap, load,
                      asked.save, asked.program, asked.timeout)
    with lab:
        lab.play(script)
        yield lab


@contextmanager
def gas_of(asked: argparse.Namespace) -> Iterator[Union[Lab, Snapshot]]:
    """What the options name: a snapshot as it is in its file, or else a laboratory."""
    if not asked.join and is_snapshot(asked.file):
        yield Snapshot.read(asked.file)
    else:
        with lab_of(asked) as lab:
            yield lab
