"""Runs that are recorded: fields, profiles and probes at equal times, as arrays that a file keeps."""
import os
from collections.abc import Iterator, Mapping, Sequence
from typing import Any, Optional, SupportsIndex, Union

import numpy
from numpy.typing import NDArray

from ..lab.lab import Lab
from ..lab.progress import Progress, Told
from ..protocol.doors import PathLike
from ..protocol.drafts import draft
from ..protocol.limits import Size
from ..protocol.numbers import whole, whole_steps
from ..protocol.replies import Probe
from ..snapshot.counting import side_of_squares
from ..snapshot.rectangles import Rectangle
from .measuring import Fields, profile, velocity

Array = NDArray[Any]

FIELDS = Fields._fields
"""The fields that can be recorded."""
_ALONG = ("x", "y")
_SUMS = Probe._fields


class Recording(Mapping[str, Array]):
    """The arrays of a run by their names, as `numpy.load` gives those of the file that `save` writes.

    The first index of each array is the time: `run["tick"][k]` is the tick of `run["density"][k]`.
    """
    def __init__(self, arrays: Mapping[str, Array]) -> None:
        self._arrays = dict(arrays)

    def __getitem__(self, name: str) -> Array:
        if name not in self._arrays:
            raise KeyError(f"no {name!r} was recorded: there are {', '.join(self._arrays)}")
        return self._arrays[name]

    def __iter__(self) -> Iterator[str]:
        return iter(self._arrays)

    def __len__(self) -> int:
        return len(self._arrays)

    def __repr__(self) -> str:
        shapes = ", ".join(f"{name} {array.shape}" for name, array in self._arrays.items())
        return f"<Recording of {shapes}>"

    def save(self, path: PathLike) -> None:
        """Writes the arrays to a file that ends in .npz, which is replaced whole. `numpy.load` reads it too.

        Raises `ValueError` for another ending.
        """
        _check_path(path)
        with draft(path) as file:
            numpy.savez_compressed(file, **self._arrays)

    @classmethod
    def load(cls, path: PathLike) -> "Recording":
        """The recording in a file that `save` wrote. Raises `ValueError` if it is none, or damaged."""
        _check_path(path)
        with open(path, "rb") as file:
            try:
                arrays = numpy.load(file)
                return cls({name: arrays[name] for name in arrays.files})
            except Exception as fault:  # of many kinds, by what is wrong with the file
                raise ValueError(f"{path} can't be read as a recording: {fault}") from fault


def _check_path(path: PathLike) -> None:
    if os.path.splitext(os.fspath(path))[1] != ".npz":
        raise ValueError(f"a recording's path ends in .npz: not {path}")


def record(lab: Lab, steps: SupportsIndex, times: SupportsIndex, mean: SupportsIndex = 8,
           fields: Union[str, Sequence[str]] = FIELDS, profiles: Union[str, Sequence[str]] = (),
           probes: Optional[Mapping[str, Rectangle]] = None, progress: Progress = None) -> Recording:
    """Records a run: the gas as it is, and `times` times after `steps` more steps (backwards if negative).

    The recording has an array `tick`, of shape (times + 1,). `fields` are of `density`, `px` and `py`: each
    is an array of shape (times + 1, height / mean, width / mean), in particles or momentum a cell, as
    `velocity` gives them. `profiles` are along `x` or `y`: `x_count`, `x_px` and `x_py` have shape (times +
    1, width), with the sums of each column; `y_count` and so on have those of each row. `probes` are
    rectangles (x, y, w, h) in cells by their names: `NAME_count`, `NAME_px` and `NAME_py` have shape (times +
    1,). A field takes 8 bytes a square and time. If only probes are asked for, the gas isn't read whole.

    `progress` is told how many of the `times + 1` are done. Raises `ValueError`, before the first step, for
    an unknown name, or unless `times` is 0 or more and `mean` divides both sides.
    """
    between, number = whole_steps(steps), whole("times", times, 0, 10 ** 9) + 1
    asked = _Asked(lab.size, mean, _known("fields", fields, FIELDS), _known("profiles", profiles, _ALONG),
                   dict(probes or {}))
    with Told("record", number, progress) as tell:
        arrays = asked.empty(number)
        for k in range(number):
            if k:
                lab.advance(between)
            for name, values in asked.now(lab).items():
                arrays[name][k] = values
            tell(k + 1)
    return Recording(arrays)


def _known(what: str, given: Union[str, Sequence[str]], known: Sequence[str]) -> tuple[str, ...]:
    names = (given,) if isinstance(given, str) else tuple(given)
    for name in names:
        if name not in known:
            raise ValueError(f"{what} are of {', '.join(known)}, and not {name!r}")
    return names


class _Asked:
    """What is recorded at each time."""
    def __init__(self, size: Size, mean: SupportsIndex, fields: tuple[str, ...], profiles: tuple[str, ...],
                 probes: dict[str, Rectangle]) -> None:
        self.size, self.fields, self.profiles, self.probes = size, fields, profiles, probes
        self.mean = side_of_squares(mean, *size) if fields else 1
        names = [*fields, *(f"{along}_{part}" for along in profiles for part in _SUMS)]
        for name in (f"{probe}_{part}" for probe in probes for part in _SUMS):
            if name in names:
                raise ValueError(f"a probe has another name: {name} is recorded already")

    def empty(self, times: int) -> dict[str, Array]:
        """The arrays, before anything is known."""
        width, height = self.size
        arrays: dict[str, Array] = {"tick": numpy.zeros(times, numpy.int64)}
        for name in self.fields:
            arrays[name] = numpy.zeros((times, height // self.mean, width // self.mean))
        for along in self.profiles:
            shape = times, width if along == "x" else height
            arrays.update({f"{along}_{part}": numpy.zeros(shape, numpy.int64) for part in _SUMS})
        for probe in self.probes:
            arrays.update({f"{probe}_{part}": numpy.zeros(times, numpy.int64) for part in _SUMS})
        return arrays

    def now(self, lab: Lab) -> dict[str, Any]:
        """What is measured at the present tick."""
        found: dict[str, Any] = {}
        if self.fields or self.profiles:
            gas = lab.look()
            found["tick"] = gas.tick
            if self.fields:
                field = velocity(gas, self.mean)
                found.update({name: getattr(field, name) for name in self.fields})
            for along in self.profiles:
                table = profile(gas, along)
                found.update({f"{along}_{part}": table[part] for part in _SUMS})
        else:
            found["tick"] = lab.tick
        for name, area in self.probes.items():
            found.update(zip((f"{name}_{part}" for part in _SUMS), lab.probe(*area)))
        return found
