"""Pictures of a gas, by Pillow."""
import io
import os
from collections.abc import Sequence
from typing import Any, Optional, SupportsIndex

import numpy

from ..lab.gas import Gas, as_snapshot
from ..protocol.doors import PathLike
from ..protocol.drafts import draft
from ..protocol.errors import library
from ..protocol.numbers import whole
from ..snapshot.files import Snapshot
from . import momentum, palette
from .pixels import Pixels, cell_pixels, checked_mean, density_pixels, outlined, scaled

Image = Any
"""An image of Pillow, `PIL.Image.Image`."""

_LONGER = 600  # pixels of the longer side, more or less, if no scale is given
_MOST = 16384  # pixels a side
_BAR = 12  # pixels: the height of the bar of a density picture
_NARROWEST = 150  # pixels that the bar and its words need
_PICTURES = {".png": "PNG", ".gif": "GIF"}


def picture(gas: Gas, path: Optional[PathLike] = None, scale: Optional[SupportsIndex] = None,
            mean: Optional[SupportsIndex] = None, colour: str = "kind",
            tick: Optional[SupportsIndex] = None, show: Optional[str] = None, limit: float = 0.5) -> Image:
    """A picture of a gas, as an image of Pillow, which a notebook shows.

    With `path` it is also written to that file, a PNG or a GIF by its ending. Each cell is a square of
    `scale` by `scale` pixels, 1 to 64; without it the longer side has some 600 pixels. Particles, walls,
    obstacles, sources and drains have a colour each (`palette.CELLS`). With `colour="velocity"` a particle
    has the colour of its direction. With `mean=8` each square of 8 by 8 cells is one such square of pixels,
    and its shade is the density there, in particles a cell; a bar below shows the shades, and lines go round
    walls, obstacles and ports. With `show="px"` the shade is the momentum to the right in such squares (of 8
    by 8 cells if `mean` isn't given), and with `show="py"` that downwards: blue for right or down, orange for
    left or up, and full at `limit`, in momentum a cell. `tick` is that of bare cells, which need it for
    velocities and momentum. Raises `ValueError` for other values or another ending.
    """
    kind = kind_of(path, _PICTURES, "a picture") if path is not None else ""
    needs_tick = colour == "velocity" or show is not None
    image = drawn(as_snapshot(gas, tick, needs_tick), scale, mean, colour, show, limit)
    if path is not None:
        with draft(path) as file:
            image.save(file, kind)
    return image


def picture_bytes(gas: Gas, scale: Optional[SupportsIndex] = None, mean: Optional[SupportsIndex] = None,
                  colour: str = "kind", tick: Optional[SupportsIndex] = None) -> bytes:
    """The PNG file of `picture` as bytes."""
    data = io.BytesIO()
    picture(gas, None, scale, mean, colour, tick).save(data, "PNG")
    return data.getvalue()


def kind_of(path: PathLike, kinds: dict[str, str], what: str) -> str:
    """The kind of file that a path's ending stands for. Raises `ValueError` for another ending."""
    ending = os.path.splitext(os.fspath(path))[1].lower()
    if ending not in kinds:
        raise ValueError(f"{what}'s path ends in {' or '.join(kinds)}: not {path}")
    return kinds[ending]


def drawn(gas: Snapshot, scale: Optional[SupportsIndex], mean: Optional[SupportsIndex], colour: str,
          show: Optional[str] = None, limit: float = 0.5) -> Image:
    """The picture as an image with a palette: see `picture`."""
    square = checked_mean(gas, _mean_for(show, limit, mean), colour)
    longer = max(gas.width, gas.height) // (square or 1)
    side = whole("scale", min(64, max(1, round(_LONGER / longer))) if scale is None else scale, 1, 64)
    if side * longer > _MOST:
        raise ValueError(f"a picture has at most {_MOST:,} pixels a side: scale {side} is more")
    if square is None:
        return _image(scaled(cell_pixels(gas, colour), side), palette.CELLS)
    if show is not None:
        pixels = outlined(gas, scaled(momentum.momentum_pixels(gas, square, show, limit), side))
        words = (f"{-limit:g}", momentum.SHOWS[show], f"{limit:g}")
        return _with_bar(pixels, momentum.COLOURS, words)
    pixels = outlined(gas, scaled(density_pixels(gas, square, solids=False), side))
    return _with_bar(pixels, palette.DENSITIES, ("0", "particles a cell", "1"))


def _mean_for(show: Optional[str], limit: float, mean: Optional[SupportsIndex]) -> Optional[SupportsIndex]:
    """The sides of the squares: `mean`, or 8 cells for a picture of momentum if it isn't given.

    Raises `ValueError` for another `show` or `limit`.
    """
    if show is None:
        return mean
    if show not in momentum.SHOWS:
        raise ValueError(f"show is one of {', '.join(momentum.SHOWS)}, and not {show!r}")
    if not 0 < limit <= 1:
        raise ValueError(f"limit is above 0, and 1 at most: not {limit}")
    return 8 if mean is None else mean


def _image(pixels: Pixels, colours: Sequence[palette.Colour]) -> Image:
    image = library("PIL.Image").fromarray(pixels, "P")
    # of 256 colours, since Pillow can't write an animated PNG of fewer
    image.putpalette(numpy.array(colours, numpy.uint8).tobytes().ljust(768, b"\0"))
    return image


def _with_bar(pixels: Pixels, colours: Sequence[palette.Colour], words: Sequence[str]) -> Image:
    """A picture of shades with their bar below, and words at its ends and in the middle."""
    height, width = pixels.shape[0], max(pixels.shape[1], _NARROWEST)
    framed = numpy.full((height + 2 * _BAR + 12, width), palette.EMPTY, numpy.uint8)
    framed[:height, :pixels.shape[1]] = pixels
    top, dark = height + 6, palette.density_index(1, 1)
    framed[top - 1:top + _BAR + 1] = dark
    # (the shades of all palettes have the same places)
    framed[top:top + _BAR, 1:-1] = palette.density_index(numpy.arange(width - 2), width - 3)
    done = _image(framed, colours)
    draw = library("PIL.ImageDraw").Draw(done)
    below = top + _BAR + 2
    for text, share in zip(words, (0.0, 0.5, 1.0)):
        size = draw.textlength(text)
        draw.text((1 + share * (width - 2 - size), below), text, fill=int(dark))
    return done
