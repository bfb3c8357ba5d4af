"""A session with a laboratory: lines out, replies in."""
from collections.abc import Iterable
from contextlib import suppress
from itertools import tee
from typing import Optional, TypeVar, Union

from ..protocol.errors import GaslabError, Gone, Refused
from ..protocol.limits import Size
from ..protocol.link import Door, Replies, Turn
from ..protocol.replies import Bye, Ok, Reply, Row, Tally, no_answer
from .progress import Told

_LAST_WAIT = 5.0  # seconds

Kind = TypeVar("Kind")


class Session:
    """One seat at a laboratory, behind a door. `size` is the lattice's, once it is known."""
    def __init__(self, door: Door, size: Optional[Size] = None) -> None:
        self.door, self.size, self.is_closed = door, size, False
        self._open: Optional[Replies] = None
        self._turn = Turn()

    def greet(self) -> None:
        """Asks once, so that a program or a server that will not answer is known at once."""
        try:
            self.expect(Tally, "tally")
        except BaseException:
            self.close(polite=False)
            raise

    def close(self, polite: bool = True) -> None:
        """Ends the session, after all lines that were sent. Without `polite` it only hangs up."""
        if self.is_closed:
            return
        with self._turn:
            try:
                if polite:
                    self._finish()
                    self.door.link.timeout = min(self.door.link.timeout, _LAST_WAIT)
                    with suppress(GaslabError):
                        self.quit()
            finally:
                self.is_closed = True
                self.door.close(polite)

    def kill(self) -> None:
        """Ends the program at once, or hangs up. Any thread may call it."""
        self.door.kill()

    def quit(self) -> Bye:
        """Ends the session. No other line can be sent."""
        reply = self.expect(Bye, "quit")
        self.is_closed = True
        self.door.close()
        return reply

    def ask(self, line: str) -> Reply:
        """Sends one line and returns its reply. Raises `Refused` if it is refused."""
        with self._turn:
            reply, = self.send([line])
        if isinstance(reply, Refused):
            raise reply
        return reply

    def do(self, numbered: Iterable[tuple[int, str]], what: str, total: int) -> list[Reply]:
        """Does lines with their places one after the other, up to the first refusal.

        `what` they are and how many, or 0 if that isn't known, is told when it takes long.
        """
        replies = []
        with Told(what, total) as tell:
            for place, line in numbered:
                try:
                    replies.append(self.ask(line))
                except Refused as refused:
                    raise refused.at(place) from None
                tell(len(replies))
        return replies

    def do_ahead(self, lines: Iterable[str]) -> int:
        """Does lines that are sent ahead of their replies, and returns how many there are.

        Each is a change. Raises the first refusal. Lines behind it can be done too.
        """
        first, count = None, 0
        sent, asked = tee(lines)
        for line, reply in zip(asked, self.send(sent)):
            count += 1
            if isinstance(reply, Refused):
                first = first or reply.at(count)
            else:
                self.checked(Ok, line, reply)
        if first:
            raise first
        return count

    def send(self, lines: Union[str, Iterable[str]], ahead: Optional[int] = None) -> Replies:
        """Sends any number of lines, `ahead` of their replies at most, and returns an iterator over these."""
        with self._turn:
            if self.is_closed:
                raise Gone("the session has ended")
            self._finish()
            more = {} if ahead is None else {"ahead": ahead}
            self._open = Replies(self.door, lines, self._turn, self.size, **more)
            self._open.begin()
            return self._open

    def _finish(self) -> None:
        if self._open is not None:
            self._open.finish()
            self._open = None

    def expect(self, kind: type[Kind], line: str) -> Kind:
        """Sends one line, whose reply is of that kind."""
        return self.checked(kind, line, self.ask(line))

    def checked(self, kind: type[Kind], line: str, reply: Reply) -> Kind:
        """The reply, if it is of that kind, and a row as wide as the lattice. Raises `Strange` if not."""
        if isinstance(reply, Row) and self.size is not None and 4 * len(reply.hex) != self.size[0]:
            raise no_answer(line, reply)
        return of_kind(kind, line, reply)


def of_kind(kind: type[Kind], line: str, reply: Reply) -> Kind:
    """The reply to a line, if it is of that kind. Raises `Strange` if not."""
    if not isinstance(reply, kind):
        raise no_answer(line, reply)
    return reply
