"""Reads PNG and GIF files again, single and animated, by Pillow."""
from __future__ import annotations

import io
from typing import Any, NamedTuple

import numpy
from PIL import Image, ImageSequence


class Seen(NamedTuple):
    width: int
    height: int
    frames: list[Any]  # arrays of shape (height, width, 3)
    delays: list[float]  # milliseconds, of an animated file
    format: str

    def pixel(self, x: int, y: int, frame: int = 0) -> tuple[int, ...]:
        return tuple(self.frames[frame][y, x].tolist())

    def cells(self, colour: tuple[int, ...], frame: int = 0) -> set[tuple[int, int]]:
        """The pixels (x, y) of a colour."""
        found = (self.frames[frame] == numpy.array(colour)).all(axis=2)
        return {(x, y) for y, x in numpy.argwhere(found).tolist()}


def read(source: Any) -> Seen:
    """The picture in a file, or in bytes."""
    with Image.open(io.BytesIO(source) if isinstance(source, bytes) else source) as image:
        frames, delays = [], []
        for frame in ImageSequence.Iterator(image):
            frames.append(numpy.array(frame.convert("RGB")))
            delays.append(frame.info.get("duration", 0))
        return Seen(image.width, image.height, frames, delays, image.format)
