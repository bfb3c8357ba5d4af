"""What waits for a page, counted in bytes."""
from collections import deque
from collections.abc import Callable
from typing import Optional, Union

Message = Union[str, bytes]

MOST_WAITING = 16 << 20
"""The most bytes that wait for a page."""
ROOM = 1 << 20
"""A page that has fewer bytes waiting is done more for."""


class Outbox:
    """The messages that a page has not been sent yet. One thread puts them in, one takes them out.

    `wake` is called after each change. An outbox that would hold more than 16 MiB is cut: it then takes
    nothing more.
    """
    def __init__(self, wake: Callable[[], object] = lambda: None) -> None:
        self.wake, self.is_cut = wake, False
        self._waiting: deque[tuple[Message, int]] = deque()
        self._came = self._went = self._under_way = 0  # bytes; each is changed by one thread alone

    @property
    def size(self) -> int:
        """The bytes that wait, with those of the message that is being sent."""
        return self._came - self._went

    def put(self, message: Message) -> None:
        """Adds a message. It comes to nothing after a cut."""
        size = len(message if isinstance(message, bytes) else message.encode()) + 1
        self.is_cut = self.is_cut or self.size + size > MOST_WAITING
        if not self.is_cut:
            self._came += size
            self._waiting.append((message, size))
        self.wake()

    def take(self) -> Optional[Message]:
        """The next message, or None. Texts in a row come as one. The one before no longer waits."""
        self._went += self._under_way
        found: list[Message] = []
        self._under_way = 0
        while self._waiting and self._under_way < ROOM:
            message, size = self._waiting[0]
            if found and not isinstance(found[0], type(message)) or found and isinstance(message, bytes):
                break
            self._waiting.popleft()
            self._under_way += size
            found.append(message)
        return None if not found else found[0] if len(found) == 1 else "\n".join(map(str, found))
