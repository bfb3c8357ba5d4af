"""The words of the command line."""
import argparse
import os
import re
import shutil
import sys
import time
from collections.abc import Iterator, Sequence
from contextlib import nullcontext
from typing import Optional, Union

import numpy

from ..lab.lab import Lab
from ..measure.measuring import every, profile, sums_of
from ..measure.tables import chart, csv_text
from ..page.hall import Hall
from ..page.laboratory import Laboratory, Means
from ..page.one_file import one_file
from ..pictures.drawing import picture
from ..pictures.films import film
from ..pictures.text import text_picture
from ..protocol.drafts import draft
from ..protocol.errors import Gone, Moving, Silent, Strange, Unreachable
from ..protocol.places import lesson, lesson_names
from ..protocol.printable import printable
from ..protocol.programs import find_program
from ..protocol.replies import Row, parse_reply, show_cells
from ..protocol.scripts import Script, parse_script, read_text
from ..snapshot.files import Snapshot
from ..snapshot.gases import random_gas
from ..snapshot.rectangles import cover
from .options import gas_of, is_snapshot, lab_of, until_quit
from .serving import serve
from .shell import Shell, columns, is_coloured, prompted

_LAST = 8  # entries that are shown
_CLEAR = "\x1b[H\x1b[2J"
_PIECE = 4096  # bytes of a line that are read at once


def shell(asked: argparse.Namespace) -> int:
    """Commands from a prompt, or from standard input. The status is 1 after a refusal."""
    is_typed = sys.stdin.isatty()
    with lab_of(asked) as lab:
        it = Shell(lab, sys.stdout, is_coloured())
        if is_typed:
            print("help lists the commands, quit ends. This client proves nothing.")
        history = os.path.expanduser("~/.gaslab_history")
        for text in prompted(history) if is_typed else [read_text("-")]:
            with it.stoppable() if is_typed else nullcontext():
                it.do(text)
            if it.has_ended:
                break
    return 0 if is_typed or not it.refusals else 1


def draw(asked: argparse.Namespace) -> None:
    """A picture, as a file or here."""
    with gas_of(asked) as gas:
        if asked.output:
            picture(gas, asked.output, asked.scale, asked.mean, asked.colour, show=asked.show)
        elif asked.show:
            raise ValueError("--show draws a file: name it by --output")
        else:
            print(text_picture(gas, columns(), is_coloured(), asked.colour, asked.mean))


def film_word(asked: argparse.Namespace) -> None:
    """A film."""
    with lab_of(asked) as lab:
        film(lab, asked.output, asked.steps, asked.frames, asked.scale, asked.mean, asked.colour,
             asked.milliseconds, asked.show)


def table(asked: argparse.Namespace) -> None:
    """Measurements over time."""
    wanted = asked.columns.split(",") if asked.columns else None
    with lab_of(asked) as lab:
        found = every(lab, asked.steps, asked.times, not asked.no_ledger, dict(asked.probe), wanted)
    print(csv_text(found), end="")
    if asked.chart:
        chart(found, asked.chart, "tick", asked.column or ["d_obstacles_x"])


def profile_word(asked: argparse.Namespace) -> None:
    """Measurements over space."""
    with gas_of(asked) as gas:
        print(csv_text(profile(gas, asked.along, asked.bins)), end="")


def random_word(asked: argparse.Namespace) -> None:
    """The lines of a random gas."""
    drift = (asked.drift, asked.drift_down)
    for line in random_gas(asked.width, asked.height, asked.density, drift, asked.seed, tick=0):
        print(line)


def lesson_word(asked: argparse.Namespace) -> None:
    """The script of a lesson, or the names of all."""
    print(lesson(asked.name).read_text() if asked.name else "\n".join(lesson_names()) + "\n", end="")


def show(asked: argparse.Namespace) -> None:
    """What is in a snapshot."""
    gas = Snapshot.read(asked.snapshot)
    if not asked.script:
        print(f"# {gas.width} by {gas.height} cells, version {gas.version}, tick {gas.tick}")
        print(f"# {gas.count} particles, {numpy.count_nonzero(gas.walls)} wall cells, "
              f"{numpy.count_nonzero(gas.obstacles)} obstacle cells")
        print(f"# {len(gas.sources)} sources, {len(gas.drains)} drains")
    areas: dict[str, Sequence[tuple[int, ...]]] = {
        "wall": cover(gas.walls, gas.walls), "block": cover(gas.obstacles, gas.obstacles),
        "source": gas.sources, "drain": gas.drains}
    for word, rectangles in areas.items():
        for area in rectangles:
            print(word, *area)


def journal(asked: argparse.Namespace) -> None:
    """A running server's journal as a script."""
    with Lab.join(asked.host, asked.port, asked.timeout) as lab:
        entries = lab.journal()
    for entry in entries:
        print(entry.command)


def page(asked: argparse.Namespace) -> Optional[int]:
    """The laboratory as a page: served, or as one HTML file, with what it opens first."""
    if len(asked.gas) > 2:
        raise ValueError("it takes a script, a snapshot, or an address and a port")
    if len(asked.gas) == 2 and asked.to:
        raise ValueError("--to makes a file of a script or a snapshot, not of a server's gas")
    asked.file = asked.gas[0] if len(asked.gas) == 1 else None
    if asked.to:
        with draft(asked.to) as made:
            made.write(one_file(*_contents(asked)).encode())
        return None
    return serve(asked, _joined if len(asked.gas) == 2 else _own)


def _contents(asked: argparse.Namespace) -> tuple[str, Optional[bytes]]:
    """The name and the contents of a script or a snapshot for a page with an engine of its own."""
    path = asked.file or asked.load
    if path is None:
        return "", None
    if asked.file and asked.load:
        raise ValueError("a file beside --load needs a program")
    if is_snapshot(path):
        with open(path, "rb") as file:
            data = file.read()
        Snapshot.from_bytes(data)  # which raises what is wrong with it
        return os.path.basename(path), data
    script = parse_script(read_text(path))
    first = [f"size {script.size[0]} {script.size[1]}"] if script.size else []
    lines = [*first, *(command for _, command in script.commands())]
    return _name(path), "".join(line + "\n" for line in lines).encode()


def _name(path: str) -> str:
    return "a script" if path == "-" else os.path.basename(path)


def _own(asked: argparse.Namespace, links: tuple[str, str]) -> Union[Hall, tuple[str, Optional[bytes]]]:
    """A program of the page's own, with a script or a snapshot. Without one, what the page opens itself."""
    try:
        means = Means(find_program(asked.program), asked.cap, asked.timeout)
    except Unreachable as fault:
        print(f"NOT PROVED: {fault}. The page computes by an engine of its own.", file=sys.stderr)
        return _contents(asked)
    load, script = asked.load, Script(None, [])
    if is_snapshot(asked.file):
        load = asked.file
    elif asked.file:
        script = parse_script(read_text(asked.file))
    start, name = Snapshot.read(load) if load else None, _name(asked.file or load or "")
    laboratory = Laboratory.own(means, script.lattice, start, name)
    return Hall(laboratory, means, links, until_quit(script))


def _joined(asked: argparse.Namespace, links: tuple[str, str]) -> Hall:
    """A seat of a server for all pages together."""
    host, port = asked.gas
    if not re.fullmatch("[0-9]{1,5}", port):
        raise ValueError(f"{port[:40]!r} is no port")
    start = Snapshot.read(asked.load) if asked.load else None
    return Hall(Laboratory.joined(host, int(port), asked.timeout, start), Means(), links)


def rows(asked: argparse.Namespace) -> None:
    """Replies from standard input, with the rows drawn, and long lines in pieces."""
    stream = getattr(sys.stdin, "buffer", sys.stdin)
    for line in iter(lambda: stream.readline(_PIECE), type(stream.readline(0))()):
        text = (line if isinstance(line, str) else line.decode(errors="replace")).rstrip("\n")
        try:
            reply = parse_reply(text, "read")
        except Strange:
            text = printable(text)
        else:
            text = show_cells(reply.cells) if isinstance(reply, Row) else text
        print(text, flush=True)


def watch(asked: argparse.Namespace) -> None:
    """Shows a server's gas until the server ends, or Ctrl-C."""
    start = Snapshot.read(asked.load) if asked.load else None
    with Lab.join(asked.host, asked.port, asked.timeout, start=start) as lab:
        for text in looks(lab, asked.seconds, asked.times, asked.mean, asked.colour):
            print((_CLEAR if sys.stdout.isatty() else "") + text, flush=True)


def looks(lab: Lab, pause: float, times: Optional[int], mean: Optional[int] = None,
          colour: str = "kind") -> Iterator[str]:
    """What is shown at each look, until the server ends, with a pause of seconds between two."""
    done = 0
    while times is None or done < times:
        if done:
            time.sleep(pause)
        try:
            yield _screen(lab, lab.look(tries=5), mean, colour)
        except Moving:
            yield "others change the gas all the time: no look was of one tick"
        except Silent:
            yield "the server does not answer"
        except Gone:
            yield "the server has ended"
            return
        done += 1


def _screen(lab: Lab, gas: Snapshot, mean: Optional[int], colour: str) -> str:
    """The gas, its sums and the last entries as text, as high as the terminal if it can be."""
    tally, entries = sums_of(gas), lab.known
    first = max(0, len(entries) - _LAST)
    lines = [f"{first + k}: seat {entry.seat}: {entry.command[:60]}"
             for k, entry in enumerate(entries[first:])]
    sums = f"tick {gas.tick}, {tally.count} particles, px {tally.px}, py {tally.py}"
    took = f"read in {len(lab.bursts)} bursts, the longest {1000 * max(lab.bursts):.1f} ms"
    rows = max(4, shutil.get_terminal_size().lines - 3 - _LAST) if sys.stdout.isatty() else None
    drawn = text_picture(gas, columns(), is_coloured(), colour, mean, rows)
    return "\n".join((drawn, sums, took, *lines))
