"""How far a long call is: told in a terminal or a notebook, once it has taken a second."""
import sys
import threading
import time
from collections.abc import Callable
from types import TracebackType
from typing import Any, ClassVar, Literal, Optional, Protocol, Union

Progress = Union[Literal[False], Callable[[int, int], None], None]
"""Who is told how far a call is.

None tells a person at a terminal or in a notebook, once the call has taken a second. False tells nobody. A
function is called after each part with how many parts are done, and how many there are in all.
"""

_PATIENCE = 1.0  # seconds until the first text
_PAUSE = 0.1  # seconds between two texts
_LOCK = threading.Lock()


class _Place(Protocol):
    """Where a text is shown, in place of the one before."""
    def show(self, text: str) -> None:
        ...


class _Terminal:
    def __init__(self) -> None:
        self._last = 0

    def show(self, text: str) -> None:
        # what is longer than the new text is wiped
        print(f"\r{text:<{self._last}}" + ("" if text else "\r"), end="", file=sys.stderr, flush=True)
        self._last = len(text)


class _Notebook:
    """An output of the cell that runs."""
    def __init__(self, display: Any) -> None:
        self._handle = display({"text/plain": ""}, raw=True, display_id=True)

    def show(self, text: str) -> None:
        self._handle.update({"text/plain": text}, raw=True)


def _place() -> Optional[_Place]:
    """Where a person sees a text now."""
    shell = sys.modules["IPython"].get_ipython() if "IPython" in sys.modules else None
    if hasattr(shell, "kernel"):
        return _Notebook(sys.modules["IPython"].display.display)
    return _Terminal() if sys.stderr is not None and sys.stderr.isatty() else None


class Told:
    """Tells how far a call is, as in `with Told("film", frames, progress) as tell: .. tell(done)`.

    What was told is wiped at the end. A total of 0 isn't known, and not told. A call within another one, or
    beside it in another thread, tells only its own function.
    """
    _outermost: ClassVar[Optional["Told"]] = None

    def __init__(self, what: str, total: int, progress: Progress = None) -> None:
        self._what, self._total, self._progress = what, total, progress
        self._began = self._next = 0.0
        self._done = 0
        self._place: Optional[_Place] = None

    def __enter__(self) -> Callable[[int], None]:
        self._began = time.monotonic()
        self._next = self._began + _PATIENCE
        with _LOCK:
            Told._outermost = Told._outermost or self
        return self._tell

    def __exit__(self, kind: Optional[type[BaseException]], fault: Optional[BaseException],
                 trace: Optional[TracebackType]) -> None:
        if Told._outermost is self:
            Told._outermost = None
        if self._place is not None:
            self._place.show("")

    def _tell(self, done: int) -> None:
        if callable(self._progress):
            if done != self._done:
                self._done = done
                self._progress(done, self._total)
        elif self._progress is None and Told._outermost is self and time.monotonic() >= self._next:
            self._place = self._place or _place()
            self._next = time.monotonic() + _PAUSE
            if self._place is not None:
                seconds = time.monotonic() - self._began
                of = f" of {self._total}" if self._total else ""
                self._place.show(f"{self._what}: {done}{of}, {seconds:.0f} s")
