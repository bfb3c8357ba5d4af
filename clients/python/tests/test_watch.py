"""The word `watch`: looks at a server's gas in the terminal."""
import unittest
from unittest import mock

from gaslab import Lab
from gaslab.cli.words import looks

from .fake import Fake
from .test_shell import said


class Hall:
    """A gas of 64 by 64 for a fake server: a particle in cell (tick, row 3), and a journal."""

    def __init__(self, entries=()):
        self.entries = list(entries)
        self.tick = 0
        self.has_ended = False

    def step(self):
        self.tick += 1
        self.entries.append("0 step 1")

    def answer(self, line):
        word, *numbers = line.split(" ")
        if self.has_ended:
            return None
        if word == "read":
            row = 1 << 63 - self.tick % 64 if numbers == ["3"] else 0
            return b"ROW %016x\n" % row
        if word == "entry":
            k = int(numbers[0])
            return f"ENTRY {self.entries[k]}\n".encode() if k < len(self.entries) \
                else b"ERR 9 entry\n"
        if word == "probe":
            return b"PROBE 0 0 0\n" if max(map(int, numbers)) < 64 else b"ERR 5 rect\n"
        return b"BYE\n" if word == "quit" else b"TALLY %d 1 1 -1\n" % self.tick


class Terminal(unittest.TestCase):
    def test_looks(self):
        hall = Hall(["0 wall 0 0 64 1", "7 put 0 3 1 1"])
        with Fake(hall.answer) as fake, Lab.join("127.0.0.1", fake.port) as lab:
            found = list(looks(lab, 0, 2))
        lines = found[0].splitlines()
        self.assertEqual(found[0].count("▀") > 0 and len(found), 2)
        self.assertEqual(lines[0], 64 * "▀")
        self.assertEqual(lines[32], "tick 0, 1 particles, px 1, py -1")
        self.assertRegex(lines[33], r"^read in 1 bursts, the longest [0-9.]+ ms$")
        self.assertEqual(lines[34:], ["0: seat 0: wall 0 0 64 1", "1: seat 7: put 0 3 1 1"])

    def test_the_servers_end(self):
        hall = Hall()
        with Fake(hall.answer) as fake, Lab.join("127.0.0.1", fake.port) as lab:
            found = looks(lab, 0, None)
            next(found)
            hall.has_ended = True
            self.assertEqual(list(found), ["the server has ended"])

    def test_control_signs_of_others(self):
        """Of an entry that no laboratory gives, only the escapes are shown."""
        for word in (["watch"], ["journal"]):
            with Fake(Hall(["0 put\x1b[2J\x07\u202e0"]).answer) as fake:
                status, out, errors = said(*word, "127.0.0.1", fake.port)
            self.assertEqual((status, out), (1, ""))
            self.assertIn(r"no reply of a laboratory: 'ENTRY 0 put\x1b[2J\x07\u202e0'", errors)

    def test_the_word(self):
        hall = Hall()
        with Fake(hall.answer) as fake:
            status, out, _ = said("watch", "127.0.0.1", fake.port, "--times", 1)
        self.assertEqual(status, 0)
        self.assertIn("tick 0, 1 particles", out)

    def test_means_and_colours(self):
        hall = Hall()
        with Fake(hall.answer) as fake:
            words = ("watch", "127.0.0.1", fake.port, "--times", 1)
            self.assertEqual(len(said(*words, "--mean", 16)[1].splitlines()), 2 + 2)
            self.assertEqual(said(*words, "--colour", "velocity")[0], 0)
        with Fake(hall.answer) as fake, Lab.join("127.0.0.1", fake.port) as lab, \
                mock.patch("gaslab.cli.words.is_coloured", lambda: True):
            # the particle in the cell (0, 3) flies to the right and upwards
            self.assertIn("86;180;233", next(looks(lab, 0, 1, colour="velocity")))
            self.assertNotIn("86;180;233", next(looks(lab, 0, 1)))

    def test_a_terminal_of_24_lines(self):
        with Fake(Hall(["0 unport"] * 9).answer) as fake, \
                Lab.join("127.0.0.1", fake.port) as lab, \
                mock.patch("sys.stdout.isatty", lambda: True), \
                mock.patch.dict("os.environ", {"LINES": "24", "COLUMNS": "80"}):
            self.assertLess(len(next(looks(lab, 0, 1)).splitlines()), 24)
