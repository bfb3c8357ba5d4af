"""A server of a few lines, for everything that a real one would never do."""
from __future__ import annotations

import socket
import threading
from collections.abc import Callable
from typing import Optional

Answer = Callable[[str], Optional[bytes]]

REPLIES = {
    "tally": b"TALLY 0 0 0 0\n", "quit": b"BYE\n", "unport": b"OK 3\n", "step 7": b"OK 65535\n",
    "probe 1 2 3 4": b"PROBE 12 -4 0\n",
    "ledger": b"LEDGER 1 2 3 4 -5 6 -7 8 -9 10 -11 12 -13\n",
    "read 5": b"ROW 0000000ff0000000\n", "entry 2": b"ENTRY 63 row 5 0000000ff0000000\n",
    "save": b"SAVED 4 3094\n",
}


def typical(line: str) -> bytes:
    """An answer of the table above."""
    return REPLIES[line]


class Fake:
    """Answers each line by `answer`, which hangs up by None and says nothing by b"".

    `lines` has what was asked. With `cut`, the replies are written a byte at a time.
    """

    def __init__(self, answer: Answer = typical, cut: bool = False) -> None:
        self.answer, self.cut = answer, cut
        self.lines: list[str] = []
        self._listener = socket.create_server(("127.0.0.1", 0))
        self.port = self._listener.getsockname()[1]
        self._threads = [threading.Thread(target=self._accept)]
        self._connections: list[socket.socket] = []
        self._threads[0].start()

    def __enter__(self) -> Fake:
        return self

    def __exit__(self, *_: object) -> None:
        self._listener.shutdown(socket.SHUT_RDWR)
        self._listener.close()
        for connection in self._connections:
            try:
                connection.shutdown(socket.SHUT_RDWR)
            except OSError:
                pass
        for thread in self._threads:
            thread.join()

    def _accept(self) -> None:
        while True:
            try:
                connection, _ = self._listener.accept()
            except OSError:
                return
            connection.setsockopt(socket.IPPROTO_TCP, socket.TCP_NODELAY, 1)
            self._connections.append(connection)
            self._threads.append(threading.Thread(target=self._serve, args=(connection,)))
            self._threads[-1].start()

    def _serve(self, connection: socket.socket) -> None:
        with connection, connection.makefile("rb") as asked:
            try:
                for line in asked:
                    self.lines.append(line.decode()[:-1])
                    reply = self.answer(self.lines[-1])
                    if reply is None:
                        return
                    for part in (reply[at:at + 1] for at in range(len(reply))) if self.cut \
                            else (reply,):
                        connection.sendall(part)
            except OSError:
                pass
