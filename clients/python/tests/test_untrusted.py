"""A server isn't trusted: whatever it sends is a reply of the grammar, or a fault of the client's."""
import contextlib
import io
import random
import socket
import threading
import time
import unittest
from unittest import mock

from gaslab import GaslabError, Gone, Lab, REFUSALS, Silent, Strange, named
from gaslab import reply_text

from .fake import REPLIES
from .test_shell import said

COUNT = 1000
KINDS = {name: line for name, line in (
    ("Ok", b"OK 4711"), ("Probe", b"PROBE 12 -4 0"), ("Tally", b"TALLY -17 4 2 -2"),
    ("Ledger", REPLIES["ledger"][:-1]), ("Row", b"ROW 0000000ff0000000"),
    ("Entry of a rectangle", b"ENTRY 63 wall 0 20 64 1"),
    ("Entry of a port", b"ENTRY 7 source 4 24 2 8 1"),
    ("Entry of a row", b"ENTRY 0 row 5 0000000ff0000000"),
    ("Entry of steps", b"ENTRY 1 step 4096"), ("Saved", b"SAVED 4 3094"), ("Bye", b"BYE"),
    ("Refused", b"ERR 5 rect"))}
PIECES = (b"0", b"9", b"-", b" ", b"  ", b"\n", b"\r", b"\0", b"\x1b[2J", b"\xff", b"\xc2\x85",
          "\u2028".encode(), "\u0661".encode(), b"4096", b"99999999999", 30 * b"1", 5000 * b"7",
          b"ENTRY 0 ", b"OK 1\n", b"%s%n", b"<b>", b"e5", b"+1", b"0x1", b"_1", b"1_0")


def mutated(line, draw):
    """The line with one to three changes: parts that are lost, doubled, exchanged or put in."""
    data = bytearray(line)
    for _ in range(draw.randint(1, 3)):
        at, end = sorted(draw.randint(0, len(data)) for _ in range(2))
        kind = draw.randrange(5)
        if kind == 0:
            del data[at:end]
        elif kind == 1:
            data[at:at] = data[at:end]
        elif kind == 2:
            data[at:at] = draw.choice(PIECES)
        elif kind == 3:
            data[at:end] = draw.choice(PIECES)
        else:
            data[at:at + 1] = bytes([draw.randrange(256)])
    return bytes(data)


class Server:
    """Answers a session's first line as a laboratory and its second by what it is given."""

    def __init__(self):
        self._listener = socket.create_server(("127.0.0.1", 0), backlog=64)
        self.port = self._listener.getsockname()[1]
        self.answer = b""
        self._thread = threading.Thread(target=self._serve)
        self._thread.start()

    def __enter__(self):
        return self

    def __exit__(self, *_):
        self._listener.shutdown(socket.SHUT_RDWR)
        self._thread.join()
        self._listener.close()

    def _serve(self):
        while True:
            try:
                connection, _ = self._listener.accept()
            except OSError:
                return
            with connection, connection.makefile("rb") as lines, contextlib.suppress(OSError):
                connection.setsockopt(socket.IPPROTO_TCP, socket.TCP_NODELAY, 1)
                lines.readline()
                connection.sendall(b"TALLY 0 0 0 0\n")
                lines.readline()
                connection.sendall(self.answer)
                connection.shutdown(socket.SHUT_WR)
                lines.readline()


class Mutations(unittest.TestCase):
    def check(self, name, line):
        """Asks a server that answers by mutations of the line. Returns how each question ended."""
        draw, ends = random.Random(name), {}
        with Server() as server:
            for number in range(COUNT):
                server.answer = mutated(line, draw) + (b"" if number % 20 == 0 else b"\n")
                with self.subTest(number=number, answer=server.answer[:200]):
                    end = self.end_of(server)
                    ends[end] = ends.get(end, 0) + 1
        return ends

    def end_of(self, server):
        lab = Lab.join("127.0.0.1", server.port, timeout=5)
        try:
            reply, = lab.send(["tally"])
        except (Strange, Gone) as fault:
            self.assertTrue(str(fault).isprintable(), fault)
            first = server.answer.partition(b"\n")[0]
            if isinstance(fault, Gone):
                self.assertTrue(b"\n" not in server.answer or first == b"BYE")
            else:
                shown = repr(first[:20].decode(errors="ignore"))[1:12]
                self.assertTrue(shown in str(fault) or "has more than 2048 bytes" in str(fault)
                                or not first.isascii(), (shown, fault))
            return type(fault).__name__
        finally:
            lab.close(polite=False)
        self.assertEqual(reply_text(reply).encode(), server.answer.partition(b"\n")[0])
        self.assertTrue(named(reply).isprintable())
        return "read"

    def test_each_kind_of_reply(self):
        for name, line in KINDS.items():
            ends = self.check(name, line)
            self.assertEqual(sum(ends.values()), COUNT)
            self.assertGreater(ends["Strange"], 300, (name, ends))

    def test_the_kinds_themselves_are_read(self):
        for line in KINDS.values():
            with Server() as server:
                server.answer = line + b"\n"
                self.assertEqual(self.end_of(server), "read")
        self.assertEqual(len(REFUSALS), 15)


class Words(unittest.TestCase):
    """The words of the command line over a server that answers anything: no traceback."""

    def test_any_answers(self):
        draw = random.Random(11)
        lines = [*KINDS.values(), b"PROBE 0 0 0", b"ERR 9 entry"]
        for number in range(150):
            word = ("journal", "watch", "draw", "table", "profile", "shell")[number % 6]
            answers = [draw.choice(lines) for _ in range(draw.randint(1, 300))]
            answers = [mutated(it, draw) if draw.random() < 0.1 else it for it in answers]
            with Anything(b"TALLY 0 0 0 0\n" + b"\n".join(answers)) as server:
                address = ["127.0.0.1", server.port] if word in ("journal", "watch") else \
                    ["--join", f"127.0.0.1:{server.port}"]
                more = {"watch": ["--times", 1], "table": ["--times", 2]}.get(word, [])
                status, out, errors = said(word, *address, *more, "--timeout", 5,
                                           typed="tally; entry 0; read 3; draw\n")
            self.assertIn(status, (0, 1), (word, errors))
            self.assertNotIn("Traceback", errors)
            self.assertLessEqual(len(errors.splitlines()), 1)
            for text in (out, errors):
                self.assertTrue(all(sign.isprintable() or sign == "\n" for sign in text), text)

    def test_a_server_that_says_nothing_more(self):
        with Anything(b"TALLY 0 0 0 0\n", hangs=True) as server:
            began = time.monotonic()
            status, out, errors = said("watch", "127.0.0.1", server.port, "--times", 1,
                                       "--timeout", "0.3")
        self.assertLess(time.monotonic() - began, 5)
        self.assertEqual((status, out), (1, "the server does not answer\n"))
        self.assertRegex(errors, "^gaslab watch: no answer for 0.3 seconds: [^\n]+\n$")

    def test_a_join_that_is_answered_by_a_drip(self):
        with Anything(b"T", hangs=True) as server:
            self.assertRaises(Silent, Lab.join, "127.0.0.1", server.port, timeout=0.3)


class Anything:
    """A server for one session, which sends its bytes at once, whatever is asked."""

    def __init__(self, data, hangs=False):
        self._data, self._hangs = data, hangs
        self._listener = socket.create_server(("127.0.0.1", 0))
        self.port = self._listener.getsockname()[1]
        self._thread = threading.Thread(target=self._serve)
        self._thread.start()

    def __enter__(self):
        return self

    def __exit__(self, *_):
        self._listener.close()
        self._thread.join()

    def _serve(self):
        connection, _ = self._listener.accept()
        with connection, contextlib.suppress(OSError):
            connection.sendall(self._data)
            if not self._hangs:
                connection.shutdown(socket.SHUT_WR)
            while connection.recv(4096):
                pass


class EveryFault(unittest.TestCase):
    def test_memory_and_recursion_are_said_in_a_line(self):
        """Faults that no test of ours can bring about honestly, raised in place of an answer."""
        for fault in (MemoryError(), GaslabError("x\x1b[2J"), ValueError("two\nlines")):
            errors = io.StringIO()
            with mock.patch("gaslab.snapshot.files.Snapshot.read", side_effect=fault), \
                    contextlib.redirect_stderr(errors):
                status, _, text = said("show", "x.gas")
            self.assertEqual(status, 1)
            self.assertRegex(text, r"^gaslab show: [^\n\x1b]+\n$")
