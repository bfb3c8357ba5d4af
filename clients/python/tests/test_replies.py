import unittest
from pathlib import Path

from gaslab import (Bye, Entry, LIMITS, Ledger, Ok, Probe, REFUSALS, Refused, Row, Saved, Strange,
                    Tally, named, parse_reply)
from gaslab import reply_text
from gaslab.protocol import commands
from gaslab.protocol.commands import COMMANDS

EACH = [
    ("OK 0", Ok(0), "OK index 0"),
    ("OK 65535", Ok(65535), "OK index 65535"),
    ("PROBE 12 -4 0", Probe(12, -4, 0), "PROBE count 12, px -4, py 0"),
    ("TALLY -1099511627776 1 1 -1", Tally(-2 ** 40, 1, 1, -1),
     "TALLY tick -1099511627776, count 1, px 1, py -1"),
    ("LEDGER 1 2 3 4 -5 6 -7 8 -9 10 -11 12 -13",
     Ledger(1, 2, 3, 4, -5, 6, -7, 8, -9, 10, -11, 12, -13),
     "LEDGER start 1, injected 2, drained 3, start_x 4, injected_x -5, drained_x 6, walls_x -7, "
     "obstacles_x 8, start_y -9, injected_y 10, drained_y -11, walls_y 12, obstacles_y -13"),
    ("ROW 8000000000000001", Row("8000000000000001"), "ROW #" + 62 * "." + "#"),
    ("ENTRY 63 put 0 0 1 1", Entry(63, "put 0 0 1 1"), "ENTRY seat 63, command put 0 0 1 1"),
    ("ENTRY 0 unport", Entry(0, "unport"), "ENTRY seat 0, command unport"),
    ("SAVED 4 3094", Saved(4, 3094), "SAVED entries 4, length 3094"),
    ("BYE", Bye(), "BYE"),
]

STRANGE = [
    "", "OK", "OK ", "OK 1 2", "OK  1", "OK +1", "OK 01", "OK -0", "OK x", "ok 1", " OK 1", "OK 1 ",
    "OK 1\r", "OK ١", "PROBE 1 2", "PROBE 1 2 3 4", "TALLY 1 2 3",
    "LEDGER 1 2 3 4 5 6 7 8 9 10 11 12",
    "ROW", "ROW ", "ROW 0", "ROW 000000000000000G", "ROW 000000000000000F", "ROW 00000000000000000",
    "ROW 0000000000000000 ", "ENTRY 0", "ENTRY 0 ", "ENTRY x put", "ENTRY -1 put 0 0 1 1",
    "ENTRY 00 put", "ENTRY 100 put", "SAVED 1", "BYE 1", "BYE ", "ERR", "ERR 1", "ERR 1 word",
    "ERR 0 line", "ERR 16 line", "ERR x line", "ERR 5 rect ", "HTTP/1.1 400 Bad Request",
    # numbers that no laboratory gives
    "OK 65536", "OK -1", "PROBE -1 0 0", "PROBE 16777217 0 0", "PROBE 1 99999999 0",
    "TALLY 1099511627777 0 0 0", "TALLY 1" + 40 * "0" + " 0 0 0", "SAVED 1 1557",
    "SAVED 65537 1558", "SAVED 1 6291767", "LEDGER " + 12 * "0 " + str(2 ** 63), "OK " + 2000 * "1",
    # rows and entries of no lattice
    "ROW " + 65 * 16 * "0", "ENTRY 64 unport", "ENTRY 0 wall 0 0", "ENTRY 0 wall 0 0 0 1",
    "ENTRY 0 wall 0 0 9999999999 1", "ENTRY 0 wall 0 0 400000000000 1", "ENTRY 0 wall 0 -5 1 1",
    "ENTRY 0 wall 4096 0 1 1", "ENTRY 0 wall 0 4095 1 2", "ENTRY 0 drain -5 -5 3 3",
    "ENTRY 0 put 00 0 1 1", "ENTRY 0 put 0 0 1 1 ", "ENTRY 0 put  0 0 1 1", "ENTRY 0 unport 1",
    "ENTRY 0 tally", "ENTRY 0 step 0", "ENTRY 0 step 4097", "ENTRY 0 source 0 0 1 1 0",
    "ENTRY 0 source 0 0 1 1 65536", "ENTRY 0 row 0 0", "ENTRY 0 row 4096 " + 16 * "0",
    "ENTRY 0 row 0 " + 16 * "F", "ENTRY 0 \x1b]0;owned\x07", "ENTRY 0 put 0 0 1 1\x1b[2J",
]


class Changes(unittest.TestCase):
    def test_a_command_that_is_added_is_one_if_a_full_journal_refuses_it(self):
        text, first = Path(commands.__file__).read_text("utf-8"), '    "put": Command('
        self.assertEqual(text.count(first), 1)
        more = [f'    "{word}": Command("x y w h", "", {refusals}),\n'
                for word, refusals in (("added", (5, 13)), ("look", (5,)))]
        found = {"__name__": "commands"}
        exec(text.replace(first, "".join(more) + first), found)
        self.assertEqual(found["CHANGES"], ["added", *commands.CHANGES])


class EachReply(unittest.TestCase):
    def test_is_read(self):
        for text, reply, _ in EACH:
            found = parse_reply(text, "")
            self.assertEqual((type(found), found), (type(reply), reply))

    def test_is_written_again(self):
        for text, reply, _ in EACH:
            self.assertEqual(reply_text(reply), text)

    def test_is_named(self):
        for _, reply, name in EACH:
            self.assertEqual(named(reply), name)

    def test_ledger_has_thirteen_names(self):
        ledger = EACH[4][1]
        self.assertEqual((ledger.start, ledger.obstacles_x, ledger.walls_y), (1, 8, 12))
        self.assertEqual(len(ledger), 13)

    def test_row_has_cells(self):
        rows = {"0000000000000000": [], "8000000000000000": [0], "0000000000000001": [63],
                "8000000000000001": [0, 63], "0000000ff0000000": list(range(28, 36))}
        for digits, cells in rows.items():
            row = Row(digits).cells
            self.assertEqual((row.shape, [x for x in range(64) if row[x]]), ((64,), cells))
            self.assertEqual(row.dtype, bool)


class EachRefusal(unittest.TestCase):
    def test_is_read(self):
        for number, word in REFUSALS.items():
            found = parse_reply(f"ERR {number} {word}", "step 50")
            self.assertIsInstance(found, Refused)
            limit = "step takes n, and not 1 word" if word == "count" else LIMITS[number]
            self.assertEqual((found.number, found.word, found.line, found.limit),
                             (number, word, "step 50", limit))
            self.assertEqual(reply_text(found), f"ERR {number} {word}")
            self.assertEqual(named(found), f"ERR {number} {word}: {limit}")
            self.assertIn("step 50", str(found))

    def test_the_number_that_is_wrong_and_its_range_are_named(self):
        """Each line is one that a laboratory of 128 by 64 cells refuses with this number."""
        for number, line, limit in (
                (2, "jump 1", "there is no command jump"), (3, "jump", LIMITS[3]),
                (3, "put 10 10", "put takes x y w h, and not 2 words"),
                (3, "unport 1", "unport takes no other word, and not 1 word"),
                (4, "probe -1 0 4 4", "x is 0 to 127, and not -1"),
                (4, "step x", "n is 1 to 4,096, and not x"),
                (4, "probe 0 99999999999 4 4", "y is 0 to 63, and not 99999999999"),
                (5, "probe 128 0 4 4", "x is 0 to 127, and not 128"),
                (5, "wall 0 0 0 4", "w is 1 to 128, and not 0"),
                (5, "read 64", "y is 0 to 63, and not 64"),
                (5, "probe 120 60 10 10", "x + w is at most the width, 128, and not 120 + 10"),
                (5, "probe 0 60 10 10", "y + h is at most the height, 64, and not 60 + 10"),
                (6, "step 0", "n is 1 to 4,096, and not 0"),
                (6, "back 5000", "n is 1 to 4,096, and not 5000"),
                (7, "source 0 0 1 1 70000", "period is 1 to 65,535, and not 70000"),
                (8, "row 0 ff", "a row of 128 cells has 32 hexadecimal digits, and not 2"),
                (8, "row 0 " + 31 * "0" + "g", "a hexadecimal digit is 0 to 9 or a to f, and not g"),
                (9, "entry 7", "the journal has no entry 7 yet"), (11, "back 1", LIMITS[11])):
            found = parse_reply(f"ERR {number} {REFUSALS[number]}", line, (128, 64))
            self.assertEqual(found.limit, limit, line)

    def test_without_a_size_it_says_what_it_can(self):
        for line, limit in (("probe 60 60 10 10", LIMITS[5]),
                            ("probe 0 0 0 1", "w is 1 to 4,294,967,295, and not 0")):
            self.assertEqual(Refused(5, "rect", line).limit, limit)

    def test_any_refusal_of_any_line(self):
        """Also those that no laboratory would give to it."""
        for line in ("", *COMMANDS, *(f"{word} 1" for word in COMMANDS), "entry x", "put 1 1 1 1 1"):
            for number in REFUSALS:
                for size in (None, (128, 64)):
                    self.assertTrue(Refused(number, REFUSALS[number], line, size=size).limit)

    def test_its_place_is_told(self):
        self.assertEqual(str(Refused(6, "steps", "step 0").at(7)),
                         "line 7: ERR 6 steps: n is 1 to 4,096, and not 0; asked: step 0")

    def test_what_steers_a_terminal_is_escaped(self):
        self.assertIn(r"asked: put \x1b[2J\x07", str(Refused(4, "number", "put \x1b[2J\x07")))

    def test_all_fifteen_are_there(self):
        self.assertEqual(list(REFUSALS), list(range(1, 16)))
        self.assertEqual(list(LIMITS), list(range(1, 16)))

    def test_equality_is_of_all_parts(self):
        one = Refused(5, "rect", "read 64")
        self.assertEqual(one, Refused(5, "rect", "read 64"))
        self.assertNotEqual(one, Refused(5, "rect", "read 65"))
        self.assertEqual(len({one, Refused(5, "rect", "read 64")}), 1)


class AnythingElse(unittest.TestCase):
    def test_is_strange(self):
        for text in STRANGE:
            with self.assertRaises(Strange, msg=text):
                parse_reply(text, "tally")

    def test_entries_that_are_changes_are_none(self):
        """So that the list above says something: their neighbours are read."""
        for change in ("wall 0 0 4096 1", "wall 4095 4095 1 1", "source 0 0 1 1 65535",
                       "step 4096", "back 1", "row 4095 " + 1024 * "f", "unport"):
            self.assertEqual(parse_reply(f"ENTRY 63 {change}", ""), Entry(63, change))

    def test_is_shown(self):
        with self.assertRaisesRegex(Strange, r"'HTTP/1.1 400 Bad Request'; asked: tally"):
            parse_reply("HTTP/1.1 400 Bad Request", "tally")
