"""Lines out and lines in, over a pipe or a socket, without a deadlock and with a timeout.

Many lines are sent while their replies are read, so neither side waits for good.
"""
import os
import select
import threading
import time
from collections import deque
from collections.abc import Callable, Iterable, Iterator
from contextlib import suppress
from functools import partial
from typing import Optional, Protocol, TypeVar, Union

from .errors import Gone, Refused, Silent, Strange
from .limits import Size
from .replies import Bye, Reply, Row, no_answer, parse_reply

LINE_LIMIT = 2048
"""The most bytes that a line or a reply has, its newline not counted."""
_CHUNK = 65536
_WINDOW = 65536  # bytes that wait to be written
_MOST_ASKED = 16384  # lines that wait for their replies

Taken = TypeVar("Taken", str, list[bytes])


class Turn:
    """One thread's turn, in a `with` statement. Another thread that comes meanwhile gets `RuntimeError`."""
    def __init__(self) -> None:
        self._lock = threading.RLock()

    def __enter__(self) -> None:
        if not self._lock.acquire(blocking=False):
            raise RuntimeError("a Lab is for one thread at a time, and another thread is asking this one: "
                               "start a Lab in each thread, or ask it while you hold a threading.Lock")

    def __exit__(self, *_: object) -> None:
        self._lock.release()


class Link:
    """Two descriptors, both made non-blocking: `source` is read and `sink` is written.

    `timeout` is in seconds: how long a whole reply may take. `why` returns what else is known when none came
    (True) or when the other side hung up (False), or an empty text. `has_read` is called after each read.
    `unsent` are the bytes that wait to be written.
    """
    def __init__(self, source: int, sink: int, timeout: float, why: Callable[[bool], str],
                 has_read: Callable[[], None] = lambda: None) -> None:
        self.timeout = timeout
        self._source, self._sink, self._why, self._has_read = source, sink, why, has_read
        self._lines: deque[bytes] = deque()
        self._rest, self.unsent, self._at_end = b"", bytearray(), False
        self._reading, self._both = select.poll(), select.poll()
        self._reading.register(source, select.POLLIN)
        self._both.register(source, select.POLLIN)
        self._both.register(sink, select.POLLOUT | (select.POLLIN if sink == source else 0))
        os.set_blocking(source, False)
        os.set_blocking(sink, False)

    def push(self, line: str) -> None:
        """Queues a line. It is written while the next reply is waited for, or by `flush`."""
        self.unsent += line.encode() + b"\n"

    def next_line(self, refill: Callable[[], None] = lambda: None) -> str:
        """The next line that arrives, with U+FFFD for what is no UTF-8: no reply has that."""
        line, = self.next_lines(1, refill)
        return line.decode(errors="replace")

    def next_lines(self, most: int, refill: Callable[[], None] = lambda: None) -> list[bytes]:
        """The lines that have arrived, one to so many. `refill` is called on the way, to queue more lines.

        Raises `Gone` if the other side ends first, and `Silent` if no line is whole after the timeout. The
        time that `refill` takes is not counted.
        """
        if not self._lines:
            self._await(refill)
        return [self._lines.popleft() for _ in range(min(most, len(self._lines)))]

    def _await(self, refill: Callable[[], None]) -> None:
        """Waits until a line has arrived."""
        deadline = time.monotonic() + self.timeout
        while not self._lines:
            if self._at_end:
                raise Gone("the other side left without an answer" + self._because(False))
            began = time.monotonic()
            refill()
            deadline += time.monotonic() - began
            self._pump(deadline)

    def _pump(self, deadline: float) -> None:
        """Waits until something can be read or written, and does it."""
        left = deadline - time.monotonic()
        poll = self._both if self.unsent else self._reading
        ready = dict(poll.poll(1000 * max(0.0, left)))
        can_read = ready.get(self._source, 0) & ~select.POLLOUT
        if not ready or left < 0 and not can_read:
            raise Silent(f"no answer for {self.timeout:g} seconds" + self._because(True))
        if ready.get(self._sink, 0) & ~select.POLLIN:
            self.flush()
        if can_read:
            self._read()

    def _read(self) -> None:
        try:
            data = os.read(self._source, _CHUNK)
        except BlockingIOError:
            return
        except OSError as fault:
            self._at_end = True
            raise Gone(f"the connection broke: {fault}" + self._because(False)) from fault
        self._at_end = not data
        self._has_read()
        *lines, self._rest = (self._rest + data).split(b"\n")
        self._lines.extend(lines)
        if any(len(line) > LINE_LIMIT for line in (*lines, self._rest)):
            raise Strange(f"no reply of a laboratory: it has more than {LINE_LIMIT} bytes")

    def flush(self) -> None:
        """Writes what can be written at once. What a closed side no longer reads is dropped."""
        try:
            count = os.write(self._sink, self.unsent[:_CHUNK])
        except BlockingIOError:
            return
        except OSError:
            count = len(self.unsent)
        del self.unsent[:count]

    def _because(self, is_silent: bool) -> str:
        why = self._why(is_silent)
        if self._rest:
            why = f"in the middle of a reply, {self._rest[:40]!r}; {why}"
        return f": {why}" if why else ""


def lines_of(text: str) -> list[str]:
    """The lines of a text, which is cut at newlines and nowhere else."""
    lines = text.split("\n")
    return lines if lines[-1] else lines[:-1]


class Door(Protocol):
    """A way to a laboratory. What it has started ends when nobody holds it any more."""
    name: str
    link: Link

    def close(self, polite: bool = True) -> None:
        """Ends it. Without `polite` nothing is waited for."""

    def kill(self) -> None:
        """Ends it at once, from any thread. One that waits for a reply then gets `Gone`."""


class Replies(Iterator[Reply]):
    """The replies to lines that are being sent, in order.

    A refusal is a `Refused` among the replies and is not raised. Lines are taken from the iterable as they
    are needed, and sent ahead of the replies, `ahead` of them at most. If the laboratory is asked something
    else in between, the rest is sent first, and its replies are kept here. `size` is the lattice's, for what
    refusals say. `turn` is held while something is sent or read.
    """
    def __init__(self, door: Door, lines: Union[str, Iterable[str]], turn: Turn, size: Optional[Size] = None,
                 ahead: int = _MOST_ASKED) -> None:
        self._door = door  # which lasts as long as this
        self._link, self._turn, self._size = door.link, turn, size
        self._lines = iter(lines_of(lines) if isinstance(lines, str) else lines)
        self._ahead = min(ahead, _MOST_ASKED)
        self._asked: deque[str] = deque()
        self._kept: deque[Reply] = deque()
        self._is_filling = False
        self.has_ended = False

    def begin(self) -> None:
        """Sends what can be sent at once."""
        self._fill()
        self._link.flush()

    def __next__(self) -> Reply:
        if self._kept:
            return self._kept.popleft()
        with self._turn:
            reply = self._take()
        if reply is None:
            raise StopIteration
        return reply

    def stop(self) -> None:
        """Takes no more lines. Those that were sent are still answered."""
        self._lines = iter(())

    def finish(self) -> None:
        """Sends the rest, and keeps the replies for later."""
        while (reply := self._take()) is not None:
            self._kept.append(reply)

    def _take(self) -> Optional[Reply]:
        if self.has_ended:
            return None
        if 2 * len(self._asked) < self._ahead:  # at each reply it would take longer
            self._fill()
        if not self._asked:
            self.has_ended = True
            return None
        text = self._arrived(self._link.next_line)
        reply = parse_reply(text, self._asked.popleft(), self._size)
        # after these the session is over: what else was sent is lost
        self.has_ended = isinstance(reply, Bye) or isinstance(reply, Refused) and reply.number == 1
        if self.has_ended and self._asked:
            self._kept.append(reply)
            raise Gone(f"the session ended with {text}; {len(self._asked)} lines have no answer")
        return reply

    def rows(self, width: int) -> bytes:
        """The packed rows of lines that are all `read y`, which are taken many at once.

        Raises `Strange` for a reply that is no row of `width` cells.
        """
        parts: list[bytes] = []
        with self._turn:
            while not self.has_ended:
                self._fill()
                self.has_ended = not self._asked
                if self._asked:
                    lines = self._arrived(partial(self._link.next_lines, len(self._asked)))
                    parts += self._packed(lines, width)
        return b"".join(parts)

    def _packed(self, lines: list[bytes], width: int) -> Iterator[bytes]:
        asked = [self._asked.popleft() for _ in lines]
        digits = b"".join([line[4:] for line in lines])
        with suppress(ValueError):
            packed = bytes.fromhex(digits.decode("ascii"))
            if packed.hex().encode() == digits and all(
                    len(line) == 4 + width // 4 and line.startswith(b"ROW ") for line in lines):
                return iter([packed])
        return self._checked_rows(asked, lines, width)

    def _checked_rows(self, asked: list[str], lines: list[bytes], width: int) -> Iterator[bytes]:
        """The same, line by line, with the fault of a reply that is none."""
        for line, text in zip(asked, lines):
            reply = parse_reply(text.decode(errors="replace"), line, self._size)
            if not isinstance(reply, Row) or 4 * len(reply.hex) != width:
                raise no_answer(line, reply)
            yield bytes.fromhex(reply.hex)

    def _arrived(self, take: Callable[[Callable[[], None]], Taken]) -> Taken:
        try:
            return take(self._fill)
        except Gone as fault:
            self.has_ended = True
            raise Gone(f"{fault}; {len(self._asked)} lines have no answer") from fault

    def _fill(self) -> None:
        if self._is_filling:
            raise RuntimeError("the lines of send() ask the laboratory themselves")
        self._is_filling = True
        try:
            # one line is asked in any case: a side that answers before it reads leaves no room for more
            while not self._asked or len(self._link.unsent) < _WINDOW and len(self._asked) < self._ahead:
                line = next(self._lines, None)
                if line is None:
                    break
                if "\n" in line:
                    raise ValueError(f"one line has no newline: {line[:60]!r}")
                self._link.push(line)
                self._asked.append(line)
        except BaseException:
            self._lines = iter(())
            raise
        finally:
            self._is_filling = False
