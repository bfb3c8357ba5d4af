"""Files that take their place when they are whole."""
import os
from collections.abc import Iterator
from contextlib import contextmanager
from secrets import token_hex
from typing import BinaryIO

from .doors import PathLike


@contextmanager
def draft(path: PathLike) -> Iterator[BinaryIO]:
    """A new file beside `path` that takes its place in the end, or goes away after a fault.

    What is no file, such as /dev/stdout, is written to at once.
    """
    place = os.path.realpath(path)
    is_file = os.path.isfile(place) or not os.path.exists(place)
    folder, name = os.path.split(place)
    beside = os.path.join(folder, f".{name}.{token_hex(4)}.tmp") if is_file else place
    try:
        file = open(beside, "xb" if is_file else "wb")
    except OSError as fault:
        fault.filename = os.fspath(path)  # nobody knows the other name
        raise
    try:
        with file:
            yield file
        if is_file:
            os.replace(beside, place)
    except BaseException:
        if is_file:
            os.unlink(beside)
        raise
