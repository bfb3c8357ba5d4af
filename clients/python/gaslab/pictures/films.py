"""Films of a laboratory. Each frame is written as it is drawn, so a long film takes little memory."""
import io
import itertools
import struct
from collections.abc import Callable, Iterator
from typing import BinaryIO, Optional, SupportsIndex

from ..lab.lab import Lab
from ..lab.progress import Progress, Told
from ..protocol.doors import PathLike
from ..protocol.drafts import draft
from ..protocol.errors import library
from ..protocol.numbers import whole, whole_steps
from .drawing import Image, drawn, kind_of

_KINDS = {".png": "PNG", ".apng": "PNG", ".gif": "GIF"}
_HEAD = b"\x89PNG\r\n\x1a\n"
"""The bytes of a PNG before its first part."""

Writer = Callable[[Image], None]


def film(lab: Lab, path: PathLike, steps: SupportsIndex, frames: SupportsIndex,
         scale: Optional[SupportsIndex] = None, mean: Optional[SupportsIndex] = None, colour: str = "kind",
         milliseconds: SupportsIndex = 100, show: Optional[str] = None, limit: float = 0.5,
         progress: Progress = None) -> None:
    """Writes a film of `frames` frames that repeats, with `steps` steps between two of them.

    It is a GIF if the path ends in .gif, and an animated PNG if it ends in .png or .apng. The first frame is
    the gas as it is. The laboratory ends at the last one, `steps * (frames - 1)` ticks later. Each frame is
    shown for `milliseconds`, 1 to 65,535; a GIF rounds them to ten. Each frame is written at once and not
    kept, and the file is replaced when the film is whole. `progress` is told how many frames are done. The
    other words are those of `picture`. Raises `ValueError` for other values or another ending, before the
    first step.
    """
    kind = kind_of(path, _KINDS, "a film")
    number, pause = whole("frames", frames, 1, 10 ** 9), whole("milliseconds", milliseconds, 1, 65535)
    between = whole_steps(steps)

    def frame() -> Image:
        return drawn(lab.look(), scale, mean, colour, show, limit)
    first = frame()
    with Told("film", number, progress) as tell, draft(path) as file:
        write, end = (_gif if kind == "GIF" else _animated_png)(file, first, number, pause)
        write(first)
        tell(1)
        for done in range(2, number + 1):
            lab.advance(between)
            write(frame())
            tell(done)
        file.write(end)


def _gif(file: BinaryIO, first: Image, frames: int, milliseconds: int) -> tuple[Writer, bytes]:
    """Writes the head of a GIF that repeats. Returns what writes a frame, and the file's last bytes."""
    plugin = library("PIL.GifImagePlugin")
    head, _ = plugin.getheader(first.copy(), info={"loop": 0, "duration": milliseconds})
    file.write(b"".join(head))

    def write(image: Image) -> None:
        file.write(b"".join(plugin.getdata(image, duration=milliseconds)))
    return write, b";"


def _animated_png(file: BinaryIO, first: Image, frames: int, milliseconds: int) -> tuple[Writer, bytes]:
    """The same for an animated PNG, whose frames are those of single PNGs."""
    put = library("PIL.PngImagePlugin").putchunk
    numbers = itertools.count()
    parts = dict(_parts(first))
    file.write(_HEAD)
    put(file, b"IHDR", parts[b"IHDR"])
    put(file, b"acTL", struct.pack(">II", frames, 0))
    put(file, b"PLTE", parts[b"PLTE"])

    def write(image: Image) -> None:
        number = next(numbers)
        head = struct.pack(">IIIIIHHBB", number, *image.size, 0, 0, milliseconds, 1000, 0, 0)
        put(file, b"fcTL", head)
        data = b"".join(part for name, part in _parts(image) if name == b"IDAT")
        if number == 0:
            put(file, b"IDAT", data)
        else:
            put(file, b"fdAT", struct.pack(">I", next(numbers)) + data)
    tail = io.BytesIO()
    put(tail, b"IEND", b"")
    return write, tail.getvalue()


def _parts(image: Image) -> Iterator[tuple[bytes, bytes]]:
    """The parts of an image's PNG: their names and contents."""
    data = io.BytesIO()
    image.save(data, "PNG")
    at, png = len(_HEAD), data.getvalue()
    while at < len(png):
        length, name = struct.unpack_from(">I4s", png, at)
        yield name, png[at + 8:at + 8 + length]
        at += 12 + length
