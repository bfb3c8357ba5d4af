"""The two ways to a laboratory: a program that is started, and a server that is joined."""
import os
import select
import signal
import socket
import subprocess
import tempfile
import weakref
from contextlib import suppress
from functools import partial
from pathlib import Path
from typing import IO, Union

from .errors import Unreachable
from .link import Link
from .printable import printable

PathLike = Union[str, "os.PathLike[str]"]
"""How a file is named: by a text, or by a `Path`."""

_PATIENCE, _HURRY = 5.0, 0.1  # seconds that a program gets to end


class _Child:
    """A program that was started, and the file with what it says on standard error."""
    def __init__(self, words: list[str]) -> None:
        self.said: IO[bytes] = tempfile.TemporaryFile()  # it has no name, so nothing of it can be left
        self.maker = os.getpid()
        try:
            self.process = subprocess.Popen(words, stdin=subprocess.PIPE, stdout=subprocess.PIPE,
                                            stderr=self.said, bufsize=0, start_new_session=True)
        except OSError as fault:
            self.said.close()
            raise Unreachable(f"no program to start: {fault}") from fault

    def why(self, is_silent: bool) -> str:
        """The program's status, if it has ended, and the end of what it said."""
        parts = []
        with suppress(subprocess.TimeoutExpired):
            parts.append(f"the program ended with status {self.process.wait(0.2)}")
        self.said.seek(0)
        said = self.said.read().decode(errors="replace").strip()
        if said:
            parts.append(f"it said: {printable(said[-400:])}")
        return "; ".join(parts)

    def end(self, patience: float = _HURRY) -> None:
        """Ends the program's input, and the program if it does not end by itself after so many seconds."""
        for stream in (self.process.stdin, self.process.stdout, self.said):
            if stream:
                stream.close()
        if self.maker != os.getpid():
            return  # a fork of the process that started it only lets go of it
        try:
            with suppress(subprocess.TimeoutExpired):
                _wait(self.process, patience)
        finally:
            if self.process.returncode is None:  # it was too slow, or Ctrl-C came
                os.killpg(self.process.pid, signal.SIGKILL)  # it and what it has started
                self.process.wait()


def _wait(process: "subprocess.Popen[bytes]", seconds: float) -> None:
    """Waits until a program ends. Raises `TimeoutExpired` if it has not after so many seconds.

    `Popen.wait` alone looks again after some milliseconds, which is longer than most programs take to end.
    """
    try:
        number = os.pidfd_open(process.pid)
    except (AttributeError, OSError):  # a system without it, or a program that was waited for before
        process.wait(seconds)
        return
    try:
        ending = select.poll()
        ending.register(number, select.POLLIN)
        ending.poll(1000 * seconds)
    finally:
        os.close(number)
    process.wait(0)


class Program:
    """The program, started for one session on its standard streams. It ends when nobody holds this."""
    def __init__(self, path: Path, options: dict[str, object], timeout: float) -> None:
        self.name = str(path)
        words = [str(path), "run"]
        for name, value in options.items():
            if value is not None:
                words += [f"--{name}", os.fspath(value) if isinstance(value, os.PathLike) else str(value)]
        child = _Child(words)
        self.process = child.process
        assert self.process.stdin and self.process.stdout
        # neither the link nor the finalizer holds this object, so that it goes with who holds it
        self.link = Link(self.process.stdout.fileno(), self.process.stdin.fileno(), timeout, child.why)
        self._end = weakref.finalize(self, child.end)
        self._child = child

    def close(self, polite: bool = True) -> None:
        """Ends the program's input, and the program if it does not end by itself."""
        if self._end.detach():
            self._child.end(_PATIENCE if polite else _HURRY)

    def kill(self) -> None:
        """Ends the program at once, from any thread. One that waits for a reply then gets `Gone`."""
        if self.process.returncode is None:  # another process may have its number once it was reaped
            with suppress(ProcessLookupError):
                os.killpg(self.process.pid, signal.SIGKILL)


def _acknowledge(connection: socket.socket) -> None:
    """Makes the system acknowledge at once what arrives, if it can.

    A server without TCP_NODELAY waits for that before its next reply, up to 40 milliseconds.
    """
    if hasattr(socket, "TCP_QUICKACK"):
        connection.setsockopt(socket.IPPROTO_TCP, socket.TCP_QUICKACK, 1)


def _why_server(name: str, is_silent: bool) -> str:
    if is_silent:
        return f"the server at {name} is full, or busy with long steps of others"
    return f"the server at {name} has ended"


class Server:
    """A server, joined over a socket, which is closed when nobody holds this."""
    def __init__(self, host: str, port: int, timeout: float) -> None:
        self.name = f"{host}:{port}"
        try:
            connection = socket.create_connection((host, port), timeout)
        except (OSError, UnicodeError) as fault:
            raise Unreachable(f"no server at {printable(self.name)}: {fault}") from fault
        connection.setsockopt(socket.IPPROTO_TCP, socket.TCP_NODELAY, 1)
        number = connection.fileno()
        self.link = Link(number, number, timeout, partial(_why_server, self.name),
                         partial(_acknowledge, connection))
        self._end = weakref.finalize(self, connection.close)
        self._connection = connection
        _acknowledge(connection)

    def close(self, polite: bool = True) -> None:
        """Closes the socket."""
        self._end()

    def kill(self) -> None:
        """Hangs up at once, from any thread. One that waits for a reply then gets `Gone`."""
        with suppress(OSError):
            self._connection.shutdown(socket.SHUT_RDWR)
