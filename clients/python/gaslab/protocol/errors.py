"""What can go wrong. Each kind has a class of its own, and all are a `GaslabError`."""
import importlib
from typing import Any, Optional

from .limits import Size, limit_of
from .printable import printable


class GaslabError(Exception):
    """Anything that this package raises by itself, but for wrong arguments and for calls at the same time.

    Those are `ValueError` and `TypeError`, and `RuntimeError` for a second thread that asks a lab.
    """


class Refused(GaslabError):
    """The laboratory refused a line and is as it was before.

    `number` and `word` are those of the reply, `line` is what was asked, and `limit` says in words which
    limit the line broke: the number that is wrong and its range, if the line tells them. `place` is the
    line's number in its list or its file, from 1, if it came from one. `size` is the lattice's width and
    height in cells, if it was known.
    """
    def __init__(self, number: int, word: str, line: str, place: Optional[int] = None,
                 size: Optional[Size] = None) -> None:
        super().__init__(number, word, line, place, size)
        self.number, self.word, self.line, self.place, self.size = number, word, line, place, size
        self.limit = limit_of(number, line, size)

    def __str__(self) -> str:
        shown = self.line if len(self.line) <= 60 else self.line[:57] + "..."
        where = "" if self.place is None else f"line {self.place}: "
        return f"{where}ERR {self.number} {self.word}: {self.limit}; asked: {printable(shown)}"

    def __eq__(self, other: object) -> bool:
        return isinstance(other, Refused) and self.args[:3] == other.args[:3]

    def __hash__(self) -> int:
        return hash(self.args[:3])

    def at(self, place: int) -> "Refused":
        """The same refusal of the line at this place."""
        return Refused(self.number, self.word, self.line, place, self.size)


class Unreachable(GaslabError, ConnectionError):
    """There is no program to start, or no server at the address."""


class Gone(GaslabError, ConnectionError):
    """The other side ended before it had answered, or the session was closed."""


class Silent(GaslabError, TimeoutError):
    """No reply came within the timeout: the server may be full, or busy with a long step."""


class Strange(GaslabError):
    """The reply is none that a laboratory gives."""


class Moving(GaslabError):
    """The gas was changed during each attempt to read it whole."""


class MissingLibrary(GaslabError, ImportError):
    """A library is not installed. The message says how to install it."""


def library(name: str) -> Any:
    """A module of another package, such as "PIL.Image". Raises `MissingLibrary` without it."""
    try:
        return importlib.import_module(name)
    except ImportError as fault:
        debian = name.partition(".")[0].lower()
        package = "Pillow" if debian == "pil" else debian
        raise MissingLibrary(f"{package} is not installed for this Python: apt-get install "
                             f"python3-{debian}, or pip install {package}") from fault
