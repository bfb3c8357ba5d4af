import itertools
import os
import socket
import threading
import time
import unittest

from gaslab.protocol.errors import Gone, Silent, Strange
from gaslab.protocol.limits import REFUSALS
from gaslab.protocol.link import Link, Replies, Turn
from gaslab.protocol.replies import Tally

from .test_replies import EACH

ALL = [text for text, _, _ in EACH] + [f"ERR {n} {word}" for n, word in REFUSALS.items()]
STREAM = "".join(text + "\n" for text in ALL).encode()


class Pair:
    """A link, and the other side of it as a socket."""

    def __init__(self, timeout=5.0, why=lambda is_silent: ""):
        self.ours, self.other = socket.socketpair()
        self.link = Link(self.ours.fileno(), self.ours.fileno(), timeout, why)

    def __enter__(self):
        return self

    def __exit__(self, *_):
        self.ours.close()
        self.other.close()


class CutAtEveryByte(unittest.TestCase):
    def test_byte_by_byte(self):
        with Pair() as pair:
            def drip():
                for at in range(len(STREAM)):
                    pair.other.sendall(STREAM[at:at + 1])
            thread = threading.Thread(target=drip)
            thread.start()
            self.assertEqual([pair.link.next_line() for _ in ALL], ALL)
            thread.join()

    def test_a_link(self):
        with Pair() as pair:
            for at in range(len(STREAM) + 1):
                pair.other.sendall(STREAM[:at])
                whole = STREAM[:at].count(b"\n")
                found = [pair.link.next_line() for _ in range(whole)]
                pair.other.sendall(STREAM[at:])
                found += [pair.link.next_line() for _ in range(len(ALL) - whole)]
                self.assertEqual(found, ALL)

    def test_an_end_at_every_byte(self):
        text = b"PROBE 12 -4 0\n"
        for at in range(len(text)):
            with Pair() as pair:
                pair.other.sendall(text[:at])
                pair.other.close()
                what = "middle of a reply" if at else "without an answer"
                with self.assertRaisesRegex(Gone, what):
                    pair.link.next_line()


class OtherSides(unittest.TestCase):
    def test_silent(self):
        with Pair(0.2, lambda is_silent: f"why {is_silent}") as pair:
            began = time.monotonic()
            with self.assertRaisesRegex(Silent, r"no answer for 0.2 seconds: why True"):
                pair.link.next_line()
            self.assertGreaterEqual(time.monotonic() - began, 0.2)
            self.assertLess(time.monotonic() - began, 10)

    def test_silent_in_the_middle_of_a_reply(self):
        with Pair(0.1) as pair:
            pair.other.sendall(b"PROBE 1")
            with self.assertRaisesRegex(Silent, r"middle of a reply, b'PROBE 1'"):
                pair.link.next_line()
            pair.other.sendall(b"2 0 0\n")
            self.assertEqual(pair.link.next_line(), "PROBE 12 0 0")

    def test_the_timeout_is_for_a_reply_and_not_for_a_byte(self):
        for pause, is_in_time in ((0.02, True), (0.3, False)):
            with Pair(1.0) as pair:
                def drip():
                    for byte in b"TALLY 0 0\n":
                        time.sleep(pause)
                        pair.other.sendall(bytes([byte]))
                thread = threading.Thread(target=drip)
                thread.start()
                began = time.monotonic()
                if is_in_time:
                    self.assertEqual(pair.link.next_line(), "TALLY 0 0")
                else:
                    self.assertRaisesRegex(Silent, "in the middle", pair.link.next_line)
                    self.assertLess(time.monotonic() - began, 1.6)
                thread.join()

    def test_the_time_of_refilling_is_not_counted(self):
        with Pair(0.2) as pair:
            def refill():
                time.sleep(0.5)
                pair.other.sendall(b"BYE\n")
            self.assertEqual(pair.link.next_line(refill), "BYE")

    def test_hangs_up(self):
        with Pair(5, lambda is_silent: f"why {is_silent}") as pair:
            pair.other.close()
            with self.assertRaisesRegex(Gone, "left without an answer: why False"):
                pair.link.next_line()

    def test_hangs_up_while_lines_are_sent(self):
        with Pair() as pair:
            pair.other.sendall(b"BYE\n")
            pair.other.close()
            for _ in range(10000):
                pair.link.push("read 0")
            with self.assertRaises(Gone):
                pair.link.next_line()
                pair.link.next_line()

    def test_a_reply_of_2048_bytes(self):
        with Pair() as pair:
            pair.other.sendall(b"a" * 2048 + b"\n")
            self.assertEqual(pair.link.next_line(), "a" * 2048)

    def test_a_longer_one(self):
        for text in (b"a" * 2049, b"a" * 2049 + b"\n"):
            with Pair() as pair:
                pair.other.sendall(text)
                with self.assertRaisesRegex(Strange, "more than 2048 bytes"):
                    pair.link.next_line()

    def test_no_text(self):
        """It is the reply to its line, so the next line has the next reply."""
        with Pair() as pair:
            pair.other.sendall(b"OK \xff\nTALLY 1 2 0 0\n")
            replies = Replies(Door(pair.link), ["step 1", "tally"], Turn())
            with self.assertRaisesRegex(Strange, "no reply of a laboratory: 'OK \ufffd'; asked: step 1"):
                next(replies)
            self.assertEqual(list(replies), [Tally(1, 2, 0, 0)])


class Door:
    """A way to a laboratory by such a link."""
    name = "there"

    def __init__(self, link):
        self.link = link


class ManyLines(unittest.TestCase):
    def test_rows_many_at_once(self):
        """Cut at any byte, and some of them replies to later lines that came early."""
        rows = [f"{k:016x}" for k in range(300)]
        data = "".join(f"ROW {row}\n" for row in rows).encode()
        for size in (1, 7, 20, 21, 22, 5000):
            with Pair() as pair:
                def drip():
                    for at in range(0, len(data), size):
                        pair.other.sendall(data[at:at + size])
                thread = threading.Thread(target=drip)
                thread.start()
                found = b"".join(Replies(Door(pair.link), ["read 0"] * part, Turn()).rows(64)
                                 for part in (1, 199, 100))
                thread.join()
            self.assertEqual(found.hex(), "".join(rows))

    def test_what_is_no_row(self):
        right = b"ROW 00000000000000ff\n"
        for wrong in (b"ROW 00000000000000FF\n", b"ROW 00000000000000 f\n", b"ROW " + 32 * b"0" + b"\n",
                      b"ROX 00000000000000ff\n", b"OK 1\n", b"ERR 5 rect\n", b"ROW \xff0000000000000ff\n"):
            with Pair() as pair:
                pair.other.sendall(right + wrong + right)
                replies = Replies(Door(pair.link), ["read 0", "read 1", "read 2"], Turn())
                with self.assertRaisesRegex(Strange, "no answer to 'read 1'|asked: read 1"):
                    replies.rows(64)

    def test_a_side_that_answers_before_it_reads(self):
        """It has read nothing of what was sent, so there is room for one line alone at a time."""
        with Pair() as pair:
            for _ in range(500):
                pair.link.push("x" * 2000)
            pair.link.flush()
            self.assertGreater(len(pair.link.unsent), 65536)
            pair.other.sendall(b"TALLY 0 0 0 0\n" * 3)
            found = list(Replies(Door(pair.link), ["tally"] * 3, Turn()))
            self.assertEqual(found, [Tally(0, 0, 0, 0)] * 3)

    def test_neither_side_waits_for_good(self):
        """The other side reads nothing while it cannot write, as a program of one thread does."""
        count, line, reply = 20000, "row 0 " + "0" * 1024, b"ROW " + b"0" * 1024 + b"\n"
        with Pair(20) as pair:
            got = []

            def answer():
                with pair.other.makefile("rb") as lines:
                    for text in itertools.islice(lines, count):
                        got.append(len(text))
                        pair.other.sendall(reply)
            thread = threading.Thread(target=answer)
            thread.start()
            for _ in range(count):
                pair.link.push(line)
            found = {pair.link.next_line() for _ in range(count)}
            thread.join()
        self.assertEqual(found, {reply[:-1].decode()})
        self.assertEqual((len(got), set(got)), (count, {len(line) + 1}))

    def test_over_two_pipes(self):
        their_in, our_out = os.pipe()
        our_in, their_out = os.pipe()

        def answer():
            with os.fdopen(their_in, "rb") as lines, os.fdopen(their_out, "wb", 0) as out:
                for line in lines:
                    out.write(line[::-1][1:] + b"\n")
        thread = threading.Thread(target=answer)
        thread.start()
        link = Link(our_in, our_out, 10, lambda is_silent: "")
        for number in range(10000):
            link.push(str(number))
        self.assertEqual([link.next_line() for _ in range(10000)],
                         [str(number)[::-1] for number in range(10000)])
        os.close(our_out)
        thread.join()
        os.close(our_in)
