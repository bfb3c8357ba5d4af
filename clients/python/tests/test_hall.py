"""The pages' server without a network: messages, seats, play and files, over the second implementation."""
import os
import struct
import subprocess
import sys
import tempfile
import unittest
from itertools import count
from pathlib import Path

import numpy

from gaslab import GaslabError, Gone, Lab, Snapshot, Strange
from gaslab.page.hall import Hall
from gaslab.page.laboratory import Laboratory, Means
from gaslab.page.outbox import Outbox
from gaslab.page.rooms import room, rooms_folder, sweep
from gaslab.protocol.scripts import journal_lines

from .fake import Fake
from .test_lab import STAND_IN

MEANS = Means(str(STAND_IN))
NOBODY = 2 ** 32 - 1


def decoded(data):
    """A picture, read by its table of bytes and not by the layout that the server is made from."""
    kind, flags, probes, rate, width, height, tick = struct.unpack_from(">BBBBHHq", data)
    number, journal, steps, player = struct.unpack_from(">IIII", data, 16)
    found = {"kind": kind, "flags": flags, "player": player, "size": (width, height), "tick": tick,
             "number": number, "journal": journal, "speed": (steps, rate),
             "tally": struct.unpack_from(">3q", data, 32), "ledger": struct.unpack_from(">13q", data, 56),
             "probes": [struct.unpack_from(">I4H3q", data, 160 + 36 * k) for k in range(probes)]}
    at, cells = 160 + 36 * probes, width * height // 8
    names = ("particles", "walls", "obstacles") if flags & 1 else ("particles",)
    for name in names:
        plane = numpy.frombuffer(data, numpy.uint8, cells, at)
        found[name] = numpy.unpackbits(plane).reshape(height, width).astype(bool)
        at += cells
    if flags & 2:
        drains, sources = data[at], data[at + 1]
        at += 2
        found["drains"] = [struct.unpack_from(">4H", data, at + 8 * k) for k in range(drains)]
        at += 8 * drains
        found["sources"] = [struct.unpack_from(">5H", data, at + 10 * k) for k in range(sources)]
        at += 10 * sources
    assert at == len(data), (at, len(data))
    return found


class Page:
    """A page of a test: what came, text line by line, and numbered lines."""
    def __init__(self, hall, rights="all", draws=True):
        self.hall, self.draws, self.number, self.out, self._came = hall, draws, 0, Outbox(), []
        self.seat = hall.join(rights, self.out)
        self.draw()

    @property
    def came(self):
        for message in iter(self.out.take, None):
            self._came += message.split("\n") if isinstance(message, str) else [message]
        return self._came

    def draw(self):
        while self.draws and self.seat.undrawn:
            self.send("0 .drawn")

    def send(self, message):
        """Sends a message, and reads all that comes meanwhile. Returns how many slices it took."""
        slices = 1
        for _ in self.hall.said(self.seat, message):
            slices += bool(self.came)
        while self.seat.is_behind and self.came:
            self.hall.give(self.seat)
        return slices

    def ask(self, *lines):
        """The replies to lines that are sent as one message."""
        first, self.number = self.number + 1, self.number + len(lines)
        self.send("\n".join(f"{first + k} {line}" for k, line in enumerate(lines)))
        self.draw()
        told = dict(text.split(" ", 1) for text in self.came if isinstance(text, str))
        return [told.get(str(first + k)) for k in range(len(lines))]

    def events(self, word=""):
        return [text for text in self.came if isinstance(text, str) and text.startswith(f"* {word}")]

    def pictures(self):
        return [decoded(data) for data in self.came if isinstance(data, bytes) and data[0] == 1]

    def last(self):
        return self.pictures()[-1]

    def files(self):
        """Each file that came: the number of the line that asked, the name, the bytes."""
        found = []
        for data in (it for it in self.came if isinstance(it, bytes) and it[0] == 2):
            length, line = struct.unpack_from(">HI", data, 2)
            found.append((line, data[8:8 + length].decode(), data[8 + length:]))
        return found


class Halls(unittest.TestCase):
    def hall(self, size=(64, 64), start=None, cap=65536):
        means = MEANS._replace(cap=cap)
        hall = Hall(Laboratory.own(means, size, start), means, ("a", "b"))
        self.addCleanup(hall.close)
        hall.begin()
        return hall

    def play(self, hall, page):
        """Lets the clock run until it is paused."""
        while hall.player.play:
            hall.player.due = 0
            hall.beat()
            page.draw()


class Messages(Halls):
    def test_greeting(self):
        page = Page(self.hall((128, 64)))
        self.assertEqual(page.came[:3], ["* hello 0 all named 65536 new", "* links a b", "* open 128 64 0"])
        self.assertEqual(len(page.pictures()), 1)
        self.assertEqual(page.last()["size"], (128, 64))

    def test_a_picture_by_its_bytes(self):
        hall = self.hall()
        page = Page(hall)
        page.ask("wall 0 9 64 1", "block 30 20 2 3", "source 5 40 1 2 7", "drain 50 40 1 8", "put 10 50 1 1",
                 "put 12 50 1 1", "step 3", ".watch 0 40 64 24")
        it = page.last()
        rows = [int(reply[4:], 16) for reply in page.ask(*(f"read {y}" for y in range(64)))]
        self.assertEqual([int("".join(map(str, row.astype(int))), 2) for row in it["particles"]], rows)
        walls = numpy.zeros((64, 64), bool)
        walls[9] = True
        blocks = numpy.zeros((64, 64), bool)
        blocks[20:23, 30:32] = True
        self.assertTrue((it["walls"] == walls).all() and (it["obstacles"] == blocks).all())
        self.assertEqual((it["drains"], it["sources"]), ([(50, 40, 1, 8)], [(5, 40, 1, 2, 7)]))
        tally, ledger, probe = page.ask("tally", "ledger", "probe 0 40 64 24")
        self.assertEqual((it["tick"], *it["tally"]), tuple(map(int, tally.split(" ")[1:])))
        self.assertEqual(it["ledger"], tuple(map(int, ledger.split(" ")[1:])))
        self.assertEqual(it["probes"], [(1, 0, 40, 64, 24, *map(int, probe.split(" ")[1:]))])
        self.assertEqual((it["flags"], it["player"], it["journal"], it["speed"]), (3, NOBODY, 7, (0, 0)))

    def test_walls_come_again_only_when_they_changed(self):
        page = Page(self.hall())
        flags = []
        for line in ("put 1 1 1 1", "wall 5 5 1 1", "step 1", "drain 0 0 1 1", "unport", ".pause"):
            page.ask(line)
            flags.append(page.last()["flags"])
        self.assertEqual(flags, [0, 3, 0, 3, 3, 0])

    def test_messages_of_no_page(self):
        hall = self.hall()
        page = Page(hall)
        for text in ("", "tally", "x tally", "-1 tally", "1234567890 tally", "1 tally\n", "² tally", "\n",
                     "1 tally\n" * 70_001):
            with self.assertRaises(ValueError, msg=text[:20]):
                page.send(text)
        self.assertEqual(page.ask("tally"), ["TALLY 0 0 0 0"])

    def test_lines_that_would_end_the_session(self):
        page = Page(self.hall())
        lines = ["quit", " quit", "quit\r", "x" * 2049, "é" * 1025, "save", "", "\0", "quit now"]
        self.assertEqual(page.ask(*lines), ["BYE"] * 3 + ["ERR 1 line"] * 2 + ["ERR 15 save"]
                         + ["ERR 2 word"] * 2 + ["BYE"])
        self.assertEqual(page.ask("put 0 0 1 1"), ["OK 0"])

    def test_words_that_are_refused(self):
        page = Page(self.hall())
        lines = {".jump": "NO word", ".play 0 60": "NO speed", ".play 1 61": "NO speed",
                 ".play 1": "NO speed", ".play x 1": "NO speed", ".play 4097 1": "NO speed",
                 ".goto 1 2": "NO speed",
                 ".open 65 64": "NO size", ".open 64": "NO size", ".open -64 64": "NO size",
                 ".watch 0 0 65 1": "ERR 5 rect", ".watch": "ERR 3 count", ".bring": "NO old",
                 ".watch " + "x" * 3000: "ERR 1 line", ".watch 0 0 1 --1": "ERR 4 number",
                 ".goto --5 1 1": "NO speed", ".unwatch x": "DONE", ".unwatch": "DONE"}
        self.assertEqual(dict(zip(lines, page.ask(*lines))), lines)

    def test_eight_probes(self):
        page = Page(self.hall())
        self.assertEqual(page.ask(*(f".watch {k} 0 1 1" for k in range(9))),
                         [f"WATCH {k}" for k in range(1, 9)] + ["NO probes"])
        self.assertEqual(page.ask(".unwatch 3", ".watch 9 0 1 1"), ["DONE", "WATCH 9"])
        self.assertEqual([it[0] for it in page.last()["probes"]], [1, 2, 4, 5, 6, 7, 8, 9])


class Slices(Halls):
    """A page's message is done in parts, and the others have their turns between two."""
    def test_another_page_is_answered_in_between(self):
        hall = self.hall()
        long, other = Page(hall), Page(hall, "watch")
        work = hall.said(long.seat, "\n".join(f"{k + 1} put 0 0 1 1" for k in range(2000)))
        next(work)
        self.assertEqual(other.ask("tally"), ["TALLY 0 1 1 1"])
        self.assertNotIn("2000 OK 1999", long.came)
        self.assertGreater(sum(1 for _ in work), 1)
        self.assertEqual(long.came[-1] if isinstance(long.came[-1], str) else long.came[-2], "2000 OK 1999")
        self.assertEqual(len(long.events("entry")), 2000)
        self.assertEqual(long.events("entry"), other.events("entry"))

    def test_which_messages_change_the_gas(self):
        hall = self.hall()
        page, watcher = Page(hall), Page(hall, "watch")
        for line in ("tally", "probe 0 0 1 1", "read 0", ".drawn", ".snapshot", ".name put", "entry 0"):
            self.assertFalse(hall.changes(page.seat, f"1 tally\n2 {line}"), line)
        for line in ("put 0 0 1 1", " tally", "", "step 1", "save", ".play 1 1", ".pause", "tallyx"):
            self.assertTrue(hall.changes(page.seat, f"1 tally\n2 {line}"), line)
            self.assertFalse(hall.changes(watcher.seat, f"1 {line}"), line)
        self.assertTrue(hall.changes(page.seat, b""))

    def test_what_a_watcher_asks_at_a_time(self):
        watcher = Page(self.hall(), "watch")
        self.assertEqual(watcher.ask(*["tally"] * 514), ["TALLY 0 0 0 0"] * 512 + ["NO lines"] * 2)
        self.assertEqual(watcher.ask(".name a", ".name b"), ["DONE", "NO busy"])

    def test_many_entries_are_few_messages(self):
        """A page that has not read them meanwhile gets them all."""
        hall = self.hall()
        page, out = Page(hall), Outbox()
        hall.join("all", out)
        while out.take():
            pass
        page.ask(*["put 0 0 1 1"] * 5000)
        texts = [text for text in iter(out.take, None) if isinstance(text, str)]
        self.assertLess(len(texts), 5)
        self.assertEqual("\n".join(texts).count("* entry "), 5000)

    def test_a_page_that_reads_nothing_gets_no_more(self):
        """It is told the entries when it has room, and gets a picture after them."""
        hall = self.hall()
        page, idle = Page(hall), Page(hall, draws=False)
        idle.came
        idle.out.put("x" * (2 << 20))
        page.ask(*["put 0 0 1 1"] * 3000)
        self.assertTrue(idle.seat.is_behind)
        self.assertLess(idle.out.size, (2 << 20) + 1000)
        while idle.seat.is_behind:
            self.assertTrue(idle.came)
            idle.out.take()
            hall.give(idle.seat)
        self.assertEqual(idle.events("entry"), page.events("entry"))
        self.assertEqual(idle.last()["journal"], 3000)

    def test_a_large_script_comes_in_parts(self):
        page = Page(self.hall())
        page.ask(*["put 0 0 1 1", "wall 9 9 1 1"] * 8000)
        slices = page.send("9 .script")
        self.assertGreater(slices, 1)
        parts = [data for _, _, data in page.files()]
        self.assertGreater(len(parts), 1)
        changes = "put 0 0 1 1\nwall 9 9 1 1\n" * 8000
        self.assertEqual(b"".join(parts).decode(), f"probe 0 0 64 64\n{changes}tally\nledger\n")


class Counts(Halls):
    """Nothing that is counted ends a gas."""
    def test_keys_of_probes(self):
        hall = self.hall()
        page = Page(hall)
        for last in (2 ** 16 - 1, 100_000, 2 ** 32 + 4):
            hall.laboratory.keys = last
            self.assertEqual(page.ask(".watch 0 0 2 3"), [f"WATCH {last + 1}"])
            self.assertEqual(page.last()["probes"][0][:5], ((last + 1) % 2 ** 32, 0, 0, 2, 3))
            self.assertEqual(page.ask(f".unwatch {last + 1}"), ["DONE"])

    def test_numbers_of_seats(self):
        hall = self.hall()
        first = Page(hall)
        hall._count = count(100_000)
        late = Page(hall)
        self.assertEqual(late.ask(".play 1 60", "put 0 0 1 1"), ["DONE", "OK 0"])
        self.assertEqual(late.last()["player"], 100_000)
        self.assertEqual(first.events("entry"), ["* entry 0 100000 put 0 0 1 1"])
        hall._number = 2 ** 32 + 7
        self.assertEqual(late.ask(".pause"), ["DONE"])
        self.assertEqual(late.last()["number"], 8)

    def test_an_outbox_that_is_full_is_cut(self):
        out, part = Outbox(), "x" * (1 << 20)
        for _ in range(100):
            out.put(part)
        self.assertTrue(out.is_cut)
        self.assertLessEqual(out.size, 16 << 20)


class Lies(unittest.TestCase):
    def told(self, ok, entry, line="put 00 0  1 1"):
        """What is noted of one line whose reply is `ok` and whose entry is `entry`, or the complaint."""
        sides = {"probe 63 0 1 1": b"PROBE 0 0 0\n", "probe 0 63 1 1": b"PROBE 0 0 0\n"}
        known = {line: ok, "tally": b"TALLY 0 0 0 0\n", "entry 0": entry, **sides}
        other = {"entry": b"ERR 9 entry\n", "probe": b"ERR 5 rect\n"}
        with Fake(lambda it: known.get(it) or other[it.partition(" ")[0]]) as fake:
            laboratory = Laboratory.joined("127.0.0.1", fake.port, 60, None)
            try:
                laboratory.replies(7, [line])
                laboratory.read_on()
                return laboratory.makers
            except Strange as fault:
                return str(fault)
            finally:
                laboratory.close()

    def test_an_ok_is_compared_with_its_entry(self):
        self.assertEqual(self.told(b"OK 0\n", b"ENTRY 3 put 0 0 1 1\n"), [7])
        row = b"ENTRY 3 row 5 00000000000000ff\n"
        self.assertEqual(self.told(b"OK 0\n", row, "row 05 00000000000000FF"), [7])
        self.assertIn("and entry 0 is 'put 0 0 2 1'", self.told(b"OK 0\n", b"ENTRY 3 put 0 0 2 1\n"))
        self.assertIn("OK 5 to a line that made no", self.told(b"OK 5\n", b"ENTRY 3 put 0 0 1 1\n"))


class Rooms(unittest.TestCase):
    def test_a_sweep_takes_what_nobody_uses(self):
        """A folder that a living process holds stays, and so does what is no folder of ours."""
        with room() as held, tempfile.TemporaryDirectory() as beside:
            left, other = (Path(rooms_folder(), f"gaslab-page-test-{it}") for it in ("left", "link"))
            left.mkdir()
            (left / "now.gas").write_bytes(b"x")
            other.symlink_to(beside)
            self.addCleanup(other.unlink)
            found = sweep()
            self.assertIn(str(left), found)
            self.assertFalse(left.exists())
            self.assertNotIn(held, found)
            self.assertTrue(os.path.isdir(held) and os.path.isdir(beside))
        self.assertFalse(os.path.exists(held))


class Seats(Halls):
    def test_two_pages_show_one_gas(self):
        hall = self.hall()
        one, two = Page(hall), Page(hall)
        self.assertEqual(two.events(), ["* hello 1 all named 65536 new", "* links a b", "* open 64 64 0",
                                        "* seat 0 came"])
        one.ask("put 3 3 1 1", ".name <b>Ada</b>", "step 1")
        two.ask(".play 2 60")
        for page in (one, two):
            self.assertEqual(page.events("entry"), ["* entry 0 0 put 3 3 1 1", "* entry 1 0 step 1"])
            self.assertEqual(page.events("play"), ["* play 1 2 60"])
            self.assertEqual(page.events("seat")[-1], "* seat 0 name <b>Ada</b>")
        hall.player.due = 0
        hall.beat()
        self.assertEqual((one.last()["tick"], two.last()["tick"], one.last()["player"]), (3, 3, 1))
        hall.leave(two.seat)
        self.assertEqual(one.events()[-2:], [f"* pause {NOBODY} left", "* seat 1 left"])
        one.draw()
        self.assertEqual(one.last()["flags"] & 4, 0)

    def test_a_page_that_does_not_draw_waits_alone(self):
        """It gets two pictures, and the newest one after the next `.drawn`."""
        hall = self.hall()
        slow, quick = Page(hall, draws=False), Page(hall)
        for _ in range(10):
            quick.ask("step 1")
        self.assertEqual([len(slow.pictures()), len(quick.pictures())], [2, 11])
        slow.send("0 .drawn")
        self.assertEqual([it["tick"] for it in slow.pictures()], [0, 1, 10])
        slow.send("0 .drawn")
        self.assertEqual(len(slow.pictures()), 3)

    def test_a_watcher_changes_nothing(self):
        hall = self.hall()
        page, watcher = Page(hall), Page(hall, "watch")
        self.assertEqual(watcher.came[0], "* hello 1 watch named 65536 new")
        self.assertEqual(watcher.events("links"), [])
        lines = ["put 0 0 1 1", " put 0 0 1 1", "save", "step 1", ".play 1 1", ".goto 5 1 1", ".pause",
                 ".open 64 64", ".fresh", ".bring", ".watch 0 0 1 1", ".unwatch 1"]
        self.assertEqual(watcher.ask(*lines), ["NO watch"] * len(lines))
        watcher.send(Snapshot(64, 64).to_bytes())
        self.assertEqual(watcher.came[-1], "0 NO watch")
        self.assertEqual(watcher.ask("tally", "read 0"), ["TALLY 0 0 0 0", "ROW 0000000000000000"])
        self.assertEqual((page.events("entry"), hall.laboratory.lab.journal()), ([], []))

    def test_who_opens_another_gas(self):
        hall = self.hall()
        first, second = Page(hall), Page(hall)
        self.assertEqual(second.ask(".open 64 64", ".fresh", ".bring"), ["NO first"] * 3)
        first.ask("put 1 1 1 1", "step 2")
        self.assertEqual(first.ask(".open 128 64 4 A tunnel", "put 0 0 2 2"), ["DONE", "OK 0"])
        self.assertEqual(second.events("open")[-1], "* open 128 64 0 4 A tunnel")
        self.assertEqual((first.last()["size"], first.last()["tally"][0]), ((128, 64), 4))
        self.assertEqual(first.ask(".bring", "ledger"), ["DONE", "LEDGER 0 1 0 0 -1 0 0 0 0 -1 0 0 0"])
        self.assertEqual((first.last()["size"], first.last()["tick"]), ((64, 64), 2))
        hall.leave(first.seat)
        self.assertEqual(second.ask(".open 64 64"), ["DONE"])

    def test_a_program_that_does_not_start(self):
        """The gas before stays, with its journal, and the page is told the reason."""
        hall = self.hall()
        page = Page(hall)
        page.ask("put 0 0 1 1")
        for program in ("/bin/false", "/nowhere/gaslab\n"):
            hall.means = Means(program)
            with self.assertRaises(GaslabError) as caught:
                Lab.run(program=program)
            why = str(caught.exception).replace("\n", "\\n")
            self.assertEqual(page.ask(".open 64 64", ".fresh", "entry 0"),
                             [f"NO program {why}"] * 2 + ["ENTRY 0 put 0 0 1 1"])

    def test_a_gas_before_whose_program_has_ended(self):
        hall = self.hall()
        page = Page(hall)
        page.ask("put 0 0 1 1", ".open 64 64")
        hall._old.lab.close()
        reply, = page.ask(".bring")
        self.assertRegex(reply, "^NO program .*(closed|ended)")


class Time(Halls):
    def test_there_and_back_to_0(self):
        hall = self.hall()
        page = Page(hall)
        page.ask("wall 0 9 64 1", "put 3 3 9 2", "put 20 40 1 7")
        start = page.last()["particles"]
        self.assertEqual(page.ask(".goto 130 32 60"), ["DONE"])
        self.play(hall, page)
        self.assertEqual(page.last()["tick"], 130)
        self.assertFalse((page.last()["particles"] == start).all())
        page.ask(".goto 0 32 60")
        self.play(hall, page)
        self.assertEqual((page.last()["tick"], page.events("pause")), (0, [f"* pause {NOBODY} there"] * 2))
        self.assertTrue((page.last()["particles"] == start).all())
        self.assertEqual(len(page.events("entry")), 3, "steps of play are not told")

    def test_no_way_back_with_ports(self):
        page = Page(self.hall())
        self.assertEqual(page.ask("step 5", "drain 0 0 1 1", ".goto 0 1 1", ".goto 9 1 1"),
                         ["OK 0", "OK 1", "ERR 11 ports", "DONE"])

    def test_journal_full(self):
        hall = self.hall(cap=4)
        page = Page(hall)
        page.ask("put 3 3 1 1", "wall 9 9 1 1", ".watch 0 0 8 8", ".play 1 60")
        self.play(hall, page)
        self.assertEqual(page.events("pause"), [f"* pause {NOBODY} ERR 13 journal"])
        before = page.last()
        self.assertEqual((before["tick"], before["journal"]), (2, 4))
        self.assertEqual(page.ask("put 0 0 1 1", ".fresh", "step 1"), ["ERR 13 journal", "DONE", "OK 0"])
        self.assertEqual((page.last()["tick"], page.last()["ledger"][0]), (3, 1))
        self.assertEqual(page.last()["probes"][0][:5], (1, 0, 0, 8, 8))

    def test_a_script_with_the_snapshot_that_it_began_from(self):
        start = Snapshot.from_arrays(numpy.arange(64 * 64).reshape(64, 64) % 5 == 0, tick=7)
        hall = self.hall()
        page = Page(hall)
        page.send(start.to_bytes())
        self.assertIn("0 DONE", page.came)
        page.ask("step 2", "step 3", "wall 0 0 64 1", "step 1", "back 1", "back 1")
        page.ask(".script")
        (line, name, script), (_, other, snapshot) = page.files()
        self.assertEqual((line, name, other), (page.number, "gas.txt", "start.gas"))
        self.assertEqual(snapshot, start.to_bytes())
        self.assertEqual(script.decode().split("\n"), [
            "ledger", "step 5", "wall 0 0 64 1", "step 1", "back 2", "tally", "ledger", ""])
        with tempfile.TemporaryDirectory() as room:
            paths = [os.path.join(room, it) for it in ("gas.txt", "start.gas")]
            for path, data in zip(paths, (script, snapshot)):
                with open(path, "wb") as made:
                    made.write(data)
            with Lab.run(load=paths[1], program=STAND_IN) as lab:
                lab.play(Path(paths[0]))
                page.ask(".snapshot")
                self.assertEqual(page.files()[-1][2], lab.look().to_bytes())

    def test_a_wrong_snapshot(self):
        hall = self.hall()
        page = Page(hall)
        page.ask("put 0 0 1 1")
        for data in (b"", b"HPPGAS2\n", Snapshot(64, 64).to_bytes() + b"x", os.urandom(999)):
            page.send(data)
            self.assertEqual(page.came[-1], "0 NO snapshot")
        self.assertEqual(page.ask("tally"), ["TALLY 0 1 1 1"])


class Scripts(unittest.TestCase):
    def test_a_journal_as_a_script(self):
        """Steps that follow one another are joined, as far as one command makes them."""
        commands = ["step 1", "step 2", "put 0 0 1 1", "step 4095", "step 1", "step 1", "back 1", "back 4096"]
        self.assertEqual("".join(journal_lines((128, 64), commands)),
                         "probe 0 0 128 64\nstep 3\nput 0 0 1 1\nstep 4096\nstep 1\nback 1\nback 4096\n"
                         "tally\nledger\n")
        self.assertEqual(list(journal_lines((64, 64), [], True)), ["ledger\n", "tally\n", "ledger\n"])


class AServersGas(unittest.TestCase):
    def setUp(self):
        words = [sys.executable, STAND_IN, "serve", "--sessions", "2"]
        self.server = subprocess.Popen(words, stdout=subprocess.PIPE, text=True)
        self.addCleanup(self.server.stdout.close)
        self.addCleanup(self.server.wait)
        self.addCleanup(self.server.kill)
        port = int(self.server.stdout.readline().rpartition(":")[2])
        self.other = Lab.join("127.0.0.1", port)
        self.addCleanup(self.other.close, False)
        self.other.do(["wall 0 9 64 1", "put 3 3 1 1"])
        self.hall = Hall(Laboratory.joined("127.0.0.1", port, 60, None), Means())
        self.addCleanup(self.hall.close)
        self.hall.begin()
        self.page = Page(self.hall)

    def test_what_others_do_is_shown(self):
        self.assertEqual(self.page.events("hello"), ["* hello 0 all server 65536 kept"])
        self.assertTrue(self.page.last()["walls"][9].all())
        self.other.step(5)
        self.other.block(1, 2, 3, 4)
        self.hall.beat()
        self.assertEqual(self.page.events()[-3:], [
            "* seat -1 name seat 0 of the server", "* entry 2 -1 step 5",
            "* entry 3 -1 block 1 2 3 4"])
        it = self.page.last()
        self.assertEqual((it["tick"], it["flags"] & 8), (5, 0))
        self.assertTrue((it["particles"] == self.other.particles()).all())
        self.assertEqual(self.page.ask("put 9 9 1 1"), ["OK 4"])
        self.assertEqual(self.page.events("entry")[-1], "* entry 4 0 put 9 9 1 1")

    def test_its_gas_is_not_replaced(self):
        self.assertEqual(self.page.ask(".open 64 64", ".fresh", ".bring"), ["NO server"] * 3)
        self.page.send(Snapshot(64, 64).to_bytes())
        self.assertEqual(self.page.came[-1], "0 NO server")

    def test_a_server_that_goes(self):
        self.server.kill()
        self.server.wait()
        with self.assertRaises(Gone):
            self.hall.beat()


if __name__ == "__main__":
    unittest.main()
