import asyncio
import concurrent.futures
import itertools
import os
import pickle
import tempfile
import threading
import time
import unittest
from pathlib import Path
from unittest import mock

import numpy

from gaslab import (Bye, Drain, Entry, Gone, Lab, Ledger, Moving, Ok, Probe, REFUSALS, Refused, Row,
                    Saved, Silent, Snapshot, Source, Strange, Tally, Unreachable)

from .fake import Fake, typical

STAND_IN = Path(__file__).with_name("stand_in.py")
ROOT = Path(__file__).resolve().parents[3]


def joined(fake, **options):
    return Lab.join("127.0.0.1", fake.port, **options)


def run(**options):
    return Lab.run(program=STAND_IN, **options)


def probed(line):
    """The answer of a gas of 64 by 64 to a probe of one cell."""
    return b"PROBE 0 0 0\n" if max(map(int, line.split(" ")[1:])) < 64 else b"ERR 5 rect\n"


def by_table(table):
    return lambda line: table[line] if line in table else typical(line)


class EachCommand(unittest.TestCase):
    CALLS = [
        ("put", (1, 2, 3, 4), "put 1 2 3 4", Ok(0)),
        ("erase", (1, 2, 3, 4), "erase 1 2 3 4", Ok(0)),
        ("wall", (1, 2, 3, 4), "wall 1 2 3 4", Ok(0)),
        ("block", (1, 2, 3, 4), "block 1 2 3 4", Ok(0)),
        ("unwall", (1, 2, 3, 4), "unwall 1 2 3 4", Ok(0)),
        ("row", (5, "00000000000000Ff"), "row 5 00000000000000Ff", Ok(0)),
        ("row", (5, [x == 63 for x in range(64)]), "row 5 0000000000000001", Ok(0)),
        ("source", (1, 2, 3, 4, 5), "source 1 2 3 4 5", Ok(0)),
        ("drain", (1, 2, 3, 4), "drain 1 2 3 4", Ok(0)),
        ("unport", (), "unport", Ok(3)),
        ("step", (7,), "step 7", Ok(65535)),
        ("back", (7,), "back 7", Ok(0)),
        ("probe", (1, 2, 3, 4), "probe 1 2 3 4", Probe(12, -4, 0)),
        ("tally", (), "tally", Tally(0, 0, 0, 0)),
        ("ledger", (), "ledger", Ledger(1, 2, 3, 4, -5, 6, -7, 8, -9, 10, -11, 12, -13)),
        ("read", (5,), "read 5", Row("0000000ff0000000")),
        ("entry", (2,), "entry 2", Entry(63, "row 5 0000000ff0000000")),
        ("save", (), "save", Saved(4, 3094)),
        ("quit", (), "quit", Bye()),
    ]

    def check_calls(self, **options):
        words = {"put", "erase", "wall", "block", "unwall", "row", "source", "drain", "back"}

        def answer(line):
            if line.startswith("probe") and line != "probe 1 2 3 4":
                return probed(line)
            return b"OK 0\n" if line.split(" ")[0] in words else typical(line)
        with Fake(answer, **options) as fake, joined(fake) as lab:
            self.assertEqual(fake.lines, ["tally"])
            for name, arguments, line, reply in self.CALLS:
                found = getattr(lab, name)(*arguments)
                self.assertEqual((type(found), found), (type(reply), reply))
                self.assertEqual(fake.lines[-1], line)
            self.assertTrue(lab.is_closed)

    def test_sends_its_line(self):
        self.check_calls()

    def test_takes_replies_cut_at_every_byte(self):
        self.check_calls(cut=True)

    def test_each_refusal_is_raised(self):
        for number, word in REFUSALS.items():
            table = {"step 9": f"ERR {number} {word}\n".encode()}
            with Fake(by_table(table), cut=number % 2) as fake, joined(fake) as lab:
                with self.assertRaises(Refused) as caught:
                    lab.step(9)
                self.assertEqual(caught.exception, Refused(number, word, "step 9"))
                self.assertEqual(pickle.loads(pickle.dumps(caught.exception)), caught.exception)

    def test_wrong_arguments_send_nothing(self):
        with Fake() as fake, joined(fake) as lab:
            for call in (lambda: lab.step(1.5), lambda: lab.step("7"), lambda: lab.put(1, 2, 3)):
                self.assertRaises(TypeError, call)
            self.assertRaises(ValueError, lab.ask, "tally\ntally")
            self.assertRaises(ValueError, lab.row, 0, "00\nquit")
            self.assertEqual(fake.lines, ["tally"])

    def test_a_reply_of_another_kind(self):
        with Fake(by_table({"read 5": b"OK 1\n"})) as fake, joined(fake) as lab:
            with self.assertRaisesRegex(Strange, "no answer to 'read 5': Ok"):
                lab.read(5)


class Sending(unittest.TestCase):
    def test_ten_thousand_lines(self):
        numbers = itertools.count()

        def answer(line):
            return typical(line) if line in ("tally", "quit") else b"OK %d\n" % next(numbers)
        lines = [f"put 0 0 1 {k}" for k in range(10000)]
        with Fake(answer) as fake, joined(fake) as lab:
            self.assertEqual(list(lab.send(lines)), [Ok(k) for k in range(10000)])
            self.assertEqual(fake.lines[1:], lines)

    def test_lines_longer_than_any_buffer_both_ways(self):
        row = "ROW " + "0" * 1024
        with Fake(lambda line: typical(line) if line in ("tally", "quit") else row.encode() + b"\n"
                  ) as fake, joined(fake) as lab:
            replies = lab.send("x" * 2048 for _ in range(10000))
            count = sum(reply.hex == "0" * 1024 for reply in replies)
            self.assertEqual((count, len(fake.lines)), (10000, 10001))

    def test_refusals_are_among_the_replies(self):
        with Fake(by_table({"step 0": b"ERR 6 steps\n"})) as fake, joined(fake) as lab:
            self.assertEqual(list(lab.send("step 7\nstep 0\nunport")),
                             [Ok(65535), Refused(6, "steps", "step 0"), Ok(3)])

    def test_sending_begins_at_once(self):
        with Fake() as fake, joined(fake) as lab:
            lab.send(["step 7"])
            for _ in range(100):
                if len(fake.lines) == 2:
                    break
                time.sleep(0.02)
            self.assertEqual(fake.lines, ["tally", "step 7"])

    def test_another_question_in_between(self):
        with Fake() as fake, joined(fake) as lab:
            replies = lab.send(["step 7", "unport", "tally"] * 5000)
            self.assertEqual(next(replies), Ok(65535))
            self.assertEqual(lab.probe(1, 2, 3, 4), Probe(12, -4, 0))
            rest = list(replies)
            self.assertEqual((len(rest), rest[:2]), (14999, [Ok(3), Tally(0, 0, 0, 0)]))
            self.assertEqual((len(fake.lines), fake.lines[-1]), (15002, "probe 1 2 3 4"))
            self.assertEqual(list(replies), [])

    def test_what_nobody_read_was_sent_at_the_end(self):
        with Fake() as fake:
            with joined(fake) as lab:
                lab.send(["step 7"] * 50000)
            self.assertEqual((len(fake.lines), fake.lines[-1]), (50002, "quit"))

    def test_slow_lines_that_nobody_read_are_waited_for(self):
        def answer(line):
            time.sleep(0.3 if line == "step 7" else 0)
            return typical(line)
        with Fake(answer) as fake, mock.patch("gaslab.lab.session._LAST_WAIT", 0.05):
            with joined(fake) as lab:
                lab.send(["step 7", "step 7"])
            self.assertEqual(fake.lines, ["tally", "step 7", "step 7", "quit"])

    def test_lines_that_nobody_read_and_nobody_answered(self):
        with Fake(lambda line: None if line == "unport" else typical(line)) as fake:
            with self.assertRaisesRegex(Gone, "2 lines have no answer"):
                with joined(fake) as lab:
                    lab.send(["step 7", "unport", "step 7"])
            self.assertTrue(lab.is_closed)

    def test_lines_that_ask_the_laboratory(self):
        with Fake() as fake, joined(fake) as lab:
            with self.assertRaisesRegex(RuntimeError, "ask the laboratory themselves"):
                list(lab.send(str(lab.tally()) for _ in range(2)))

    def test_lines_behind_the_end(self):
        with Fake(lambda line: None if line == "" else typical(line)) as fake, joined(fake) as lab:
            replies = lab.send(["unport", "quit", "tally"])
            self.assertEqual(next(replies), Ok(3))
            with self.assertRaisesRegex(Gone, "ended with BYE; 1 lines have no answer"):
                next(replies)
            self.assertEqual(list(replies), [Bye()])

    def test_a_closed_laboratory(self):
        with Fake() as fake, joined(fake) as lab:
            lab.quit()
            self.assertRaises(Gone, lab.tally)
            lab.close()
            self.assertEqual(fake.lines, ["tally", "quit"])

    def test_play(self):
        with tempfile.TemporaryDirectory() as room, Fake(by_table({"x": b"ERR 2 word\n"})) as fake:
            path = os.path.join(room, "script")
            with joined(fake) as lab:
                Path(path).write_text("# first\n\nstep 7  # seven\n \nrepeat 2 { unport }\n")
                self.assertEqual(lab.play(Path(path)), [Ok(65535), Ok(3), Ok(3)])
                Path(path).write_text("step 7\n\nx\nunport\n")
                with self.assertRaisesRegex(Refused, "^line 3: ERR 2 word: .*; asked: x$"):
                    lab.play(Path(path))
                self.assertEqual(fake.lines,
                                 ["tally", "step 7", "unport", "unport", "step 7", "x"])

    def test_play_knows_sizes(self):
        with tempfile.TemporaryDirectory() as room, run(width=128) as lab:
            path = Path(room, "script")
            path.write_text("# wide\nsize 128 64\nput 127 0 1 1\n")
            self.assertEqual(lab.play(path), [Ok(0)])
            path.write_text("size 64 64\nput 0 0 1 1\n")
            with self.assertRaisesRegex(ValueError, "for 64 by 64 cells, and this gas has 128 by"):
                lab.play(path)
            path.write_bytes(b"put 0 0 1 1\n\xff\n")
            with self.assertRaisesRegex(ValueError, "line 2 is not UTF-8"):
                lab.play(path)

    def test_do_raises_at_the_first_refusal(self):
        with run() as lab:
            with self.assertRaisesRegex(Refused, "^line 3: ERR 6 steps") as caught:
                lab.do(["put 0 0 1 1", "tally", "step 0", "put 1 0 1 1", "step 0"])
            self.assertEqual((caught.exception.place, caught.exception.line), (3, "step 0"))
            self.assertEqual([entry.command for entry in lab.journal()], ["put 0 0 1 1"])
            self.assertEqual(lab.do("step 1\ntally\n"), [Ok(1), Tally(1, 1, 1, 1)])
            self.assertEqual(lab.do([]), [])

    def test_lines_are_cut_at_newlines_alone(self):
        """Not at the other signs at which Python's splitlines cuts."""
        for sign in "\v\f\r\x1c\x85\u2028":
            with Fake(lambda line: typical(line) if line in ("tally", "quit") else b"OK 0\n"
                      ) as fake, joined(fake) as lab:
                self.assertEqual(list(lab.send(f"put{sign}1\nput 2\n")), [Ok(0), Ok(0)])
                self.assertEqual(fake.lines, ["tally", f"put{sign}1", "put 2"])

    def test_a_journal_has_room_for_all_rows_of_a_large_gas(self):
        with tempfile.TemporaryDirectory() as room:
            program = Path(room, "program")
            program.write_text('#!/bin/sh\necho "$@" >&2\nexit 2\n')
            program.chmod(0o755)
            with self.assertRaisesRegex(Gone, "--cap 65536$|--cap 65536;"):
                Lab.run(program=program)


class OtherSides(unittest.TestCase):
    def test_no_server(self):
        with Fake() as fake:
            port = fake.port
        with self.assertRaisesRegex(Unreachable, f"no server at 127.0.0.1:{port}"):
            Lab.join("127.0.0.1", port)

    def test_a_full_server(self):
        with Fake(lambda line: b"") as fake:
            with self.assertRaisesRegex(Silent, "no answer for 0.2 seconds: .* is full, or busy"):
                joined(fake, timeout=0.2)

    def test_a_server_that_hangs_up(self):
        with Fake(lambda line: None) as fake:
            with self.assertRaisesRegex(Gone, "has ended; 1 lines have no answer"):
                joined(fake)

    def test_a_server_that_is_none(self):
        with Fake(lambda line: b"HTTP/1.1 400 Bad Request\r\n") as fake:
            with self.assertRaisesRegex(Strange, "HTTP/1.1 400"):
                joined(fake)

    def test_a_late_reply_is_not_taken_for_another(self):
        def answer(line):
            if line == "step 7":
                time.sleep(0.4)
            return typical(line)
        with Fake(answer) as fake, joined(fake) as lab:
            lab._session.door.link.timeout = 0.2
            self.assertRaises(Silent, lab.step, 7)
            lab._session.door.link.timeout = 60
            self.assertEqual(lab.probe(1, 2, 3, 4), Probe(12, -4, 0))

    def test_closing_does_not_wait_for_a_silent_server(self):
        with Fake(lambda line: typical(line) if line == "tally" else b"") as fake:
            lab = joined(fake)
            lab._session.door.link.timeout = 0.3
            began = time.monotonic()
            lab.close()
            self.assertLess(time.monotonic() - began, 10)

    def test_no_program(self):
        for path in ("/no/such/program", "/", __file__):
            with self.assertRaisesRegex(Unreachable, "builds one:\n    ./gaslab --build && export"):
                Lab.run(program=path)

    def test_a_port_that_there_is_not(self):
        for port in (-1, 65536, 99999, 10 ** 20):
            with self.assertRaisesRegex(ValueError, "port is 0 to 65,535, and not"):
                Lab.join("127.0.0.1", port)
        with self.assertRaisesRegex(TypeError, "port is a whole number, and not '7878'"):
            Lab.join("127.0.0.1", "7878")

    def test_a_drip_is_no_reply(self):
        """The timeout is for a reply, however its bytes come."""
        def drip(line):
            time.sleep(0.1)
            return b"T"
        with Fake(drip) as fake:
            began = time.monotonic()
            with self.assertRaisesRegex(Silent, "no answer for 0.5 seconds"):
                joined(fake, timeout=0.5)
            self.assertLess(time.monotonic() - began, 2)

    def test_wrong_options_have_the_rule(self):
        for options, rule in (({"width": 100}, "sides are multiples of 64 from 64 to 4,096"),
                              ({"height": 4160}, "sides are multiples of 64"),
                              ({"width": "64"}, "sides are multiples of 64"),
                              ({"workers": 17}, "workers is 1 to 16"), ({"cap": 0}, "cap is 1 to"),
                              ({"timeout": 0}, "timeout is 0.001 to"),
                              ({"timeout": float("nan")}, "timeout is 0.001 to")):
            with self.assertRaisesRegex(ValueError, rule):
                run(**options)

    def test_nothing_that_a_program_started_is_left(self):
        with tempfile.TemporaryDirectory() as room:
            program, mark = Path(room, "program"), Path(room, "mark")
            program.write_text(f"#!/bin/sh\n(sleep 3; touch {mark}) &\nwait\n")
            program.chmod(0o755)
            self.assertRaises(Silent, Lab.run, program=program, timeout=0.2)
            time.sleep(3.5)
            self.assertFalse(mark.exists())

    def test_a_program_that_says_why(self):
        with tempfile.TemporaryDirectory() as room:
            program = Path(room, "program")
            program.write_text("#!/bin/sh\necho it ends too early >&2\nexit 3\n")
            program.chmod(0o755)
            with self.assertRaisesRegex(Gone, "status 3; it said: it ends too early"):
                Lab.run(program=program)
            program.write_text("#!/bin/sh\necho compiling >&2\nexec sleep 9\n")
            with self.assertRaisesRegex(Silent, "2 seconds: it said: compiling"):
                Lab.run(program=program, timeout=2)

    def test_the_program_gets_its_options(self):
        with tempfile.TemporaryDirectory() as room:
            program = Path(room, "program")
            program.write_text('#!/bin/sh\necho "$@" >&2\nexit 2\n')
            program.chmod(0o755)
            with self.assertRaisesRegex(Gone, "run --width 128 --height 64 --workers 2 --cap 9 "
                                              "--save /x/y$|; 1 lines"):
                Lab.run(128, 64, 2, 9, None, "/x/y", program)


class Looking(unittest.TestCase):
    def test_size(self):
        with run(width=192, height=64) as lab:
            self.assertEqual(lab.size, (192, 64))

    def test_particles_are_those_of_the_rows(self):
        with run(width=128) as lab:
            lab.put(100, 3, 20, 2)
            lab.step(3)
            found = lab.particles()
            for y in range(64):
                self.assertEqual([bool(cell) for cell in found[y]],
                                 [bool(cell) for cell in lab.read(y).cells])
            self.assertEqual(sum(map(sum, found)), 40)

    def test_walls_and_ports_come_from_the_journal(self):
        with run() as lab:
            lab.send("wall 0 0 64 2\nblock 3 1 2 2\nunwall 4 0 1 64\nsource 5 6 7 8 9\n"
                     "drain 1 2 3 4\nput 9 9 1 1\nstep 1")
            gas = lab.look()
            self.assertEqual((gas.width, gas.height, gas.tick), (64, 64, 1))
            self.assertEqual(gas.drains, (Drain(1, 2, 3, 4),))
            self.assertEqual(gas.sources, (Source(5, 6, 7, 8, 9),))
            found = [{(x, y) for y, x in numpy.argwhere(cells).tolist()}
                     for cells in (gas.walls, gas.obstacles)]
            self.assertEqual(found, [{(x, y) for x in range(64) for y in (0, 1) if x != 4},
                                     {(3, 1), (3, 2)}])
            lab.unport()
            self.assertEqual((lab.look().drains, lab.look().sources), ((), ()))

    def test_a_snapshot_is_the_same(self):
        lines = (ROOT / "examples" / "4_tunnel.txt").read_text().replace("step 100", "step 5")
        with tempfile.TemporaryDirectory() as room:
            path = os.path.join(room, "gas")
            with run(save=path) as lab:
                lab.do(lines)
                lab.save()
                self.assertEqual(lab.look(), Snapshot.read(path))

    def test_a_shelf(self):
        """With one, a look is a snapshot and reads no row."""
        with tempfile.TemporaryDirectory() as room:
            path = os.path.join(room, "gas")
            gas = Snapshot(64, 64, 5, particle_bytes=b"\1" + bytes(511))

            def answer(line):
                if line == "save":
                    gas.write(path)
                return typical(line)
            with Fake(answer) as fake, joined(fake, shelf=path) as lab:
                self.assertEqual((lab.look(), lab.bursts), (gas, []))
                self.assertEqual(fake.lines, ["tally", "save"])

    def test_walls_of_a_start(self):
        with tempfile.TemporaryDirectory() as room:
            path = os.path.join(room, "gas")
            with run(save=path) as lab:
                lab.send("wall 0 0 64 1\nblock 9 9 9 9\ndrain 1 1 1 1\nput 30 30 3 3\nstep 2\nsave")
            with run(load=path) as lab:
                lab.unwall(0, 0, 1, 1)
                gas = lab.look()
            self.assertEqual(gas.wall_bytes[:8].hex(), "7" + 15 * "f")
            self.assertEqual((gas.tick, gas.drains, gas.count), (2, (Drain(1, 1, 1, 1),), 9))

    def test_looks_again_if_the_gas_moved(self):
        """Somebody else steps during the first two looks: rows and tick are of the third."""
        state = {"looks": 0, "entries": 0}

        def answer(line):
            word, *numbers = line.split(" ")
            if word == "read":
                if numbers == ["0"]:
                    state["looks"] += 1
                if numbers == ["40"] and state["looks"] < 3:
                    state["entries"] += 1
                return b"ROW %016x\n" % state["entries"]
            if word == "entry":
                is_there = int(numbers[0]) < state["entries"]
                return b"ENTRY 1 step 1\n" if is_there else b"ERR 9 entry\n"
            if word == "probe":
                return b"PROBE 0 0 0\n" if max(map(int, numbers)) < 64 else b"ERR 5 rect\n"
            return b"BYE\n" if word == "quit" else b"TALLY %d 0 0 0\n" % state["entries"]
        with Fake(answer) as fake, joined(fake) as lab:
            gas = lab.look()
            self.assertEqual((gas.tick, gas.particle_bytes), (2, 64 * (2).to_bytes(8, "big")))
            self.assertEqual(state["looks"], 3)

    def test_gives_up_if_the_gas_always_moves(self):
        state = {"entries": 0}

        def answer(line):
            word, *numbers = line.split(" ")
            if word == "read":
                state["entries"] += 1
                return b"ROW %016x\n" % 0
            if word == "entry":
                is_there = int(numbers[0]) < state["entries"]
                return b"ENTRY 1 step 1\n" if is_there else b"ERR 9 entry\n"
            if word == "probe":
                return b"PROBE 0 0 0\n" if max(map(int, numbers)) < 64 else b"ERR 5 rect\n"
            return typical(line)
        with Fake(answer) as fake, joined(fake) as lab:
            with self.assertRaisesRegex(Moving, "during each of 2 looks"):
                lab.look(tries=2)
            self.assertEqual(fake.lines.count("read 0"), 2)

    def test_a_journal_without_end_is_strange(self):
        def answer(line):
            return b"ENTRY 0 unport\n" if line.startswith("entry") else typical(line)
        with Fake(answer) as fake, joined(fake) as lab:
            with self.assertRaisesRegex(Strange, "more than 65536 entries"):
                lab.journal()

    def test_journal_is_asked_for_once(self):
        with run() as lab:
            lab.send(f"put {k} 0 1 1" for k in range(64))
            self.assertEqual(lab.journal(), [Entry(0, f"put {k} 0 1 1") for k in range(64)])
            lab.step(1)
            self.assertEqual(lab.journal()[64:], [Entry(0, "step 1")])

    def test_advance_splits(self):
        with run() as lab:
            lab.put(0, 0, 1, 1)
            told = []
            lab.advance(10, 4, lambda *both: told.append(both))
            lab.advance(-3)
            self.assertEqual([entry.command for entry in lab.journal()],
                             ["put 0 0 1 1", "step 4", "step 4", "step 2", "back 3"])
            self.assertEqual(told, [(4, 10), (8, 10), (10, 10)])
            self.assertEqual(lab.tally().tick, 7)

    def test_what_it_is_on(self):
        with run() as lab:
            self.assertRegex(repr(lab), r"^<Lab on .*stand_in.py>$")
        self.assertRegex(repr(lab), r"^<Lab closed .*stand_in.py>$")

    def test_probes_that_name_no_size(self):
        def all_refused(line):
            return b"ERR 5 rect\n"

        def a_hole(line):
            return b"ERR 5 rect\n" if line == "probe 63 0 1 1" else b"PROBE 0 0 0\n"

        def none_but_changes(line):
            return b"OK 1\n"
        for answer in (all_refused, a_hole, none_but_changes):
            with Fake(lambda line: answer(line) if line.startswith("probe") else typical(line)
                      ) as fake, joined(fake) as lab:
                with self.assertRaisesRegex(Strange, "its probes name no width and height"):
                    lab.look()

    def looked(self, rows, entries=()):
        """A look at a server of 64 by 64 that gives such rows and entries."""
        def answer(line):
            word, *numbers = line.split(" ")
            if word == "read":
                return rows
            if word == "entry":
                is_there = int(numbers[0]) < len(entries)
                return f"ENTRY 0 {entries[int(numbers[0])]}\n".encode() if is_there \
                    else b"ERR 9 entry\n"
            return probed(line) if word == "probe" else typical(line)
        with Fake(answer) as fake, joined(fake) as lab:
            return lab.look()

    def test_rows_of_another_width_are_strange(self):
        row = b"ROW " + 16 * b"0" + b"\n"
        self.assertEqual(self.looked(row).count, 0)
        for other in (b"ROW " + 32 * b"0" + b"\n", b"OK 1\n", b"ERR 5 rect\n"):
            with self.assertRaisesRegex(Strange, "no answer to 'read 0': "):
                self.looked(other)

    def test_memory_that_runs_out_is_a_refusal(self):
        row = b"ROW " + 16 * b"0" + b"\n"
        for rows, entry in ((b"ERR 14 memory\n", b"ERR 9 entry\n"), (row, b"ERR 14 memory\n")):
            def answer(line):
                word = line.split(" ")[0]
                if word in ("read", "entry"):
                    return {"read": rows, "entry": entry}[word]
                return probed(line) if word == "probe" else typical(line)
            with Fake(answer) as fake, joined(fake) as lab:
                with self.assertRaisesRegex(Refused, "^ERR 14 memory: memory ran out; asked: "):
                    lab.look()

    def test_entries_that_the_lattice_forbids_are_strange(self):
        row = b"ROW " + 16 * b"0" + b"\n"
        self.assertEqual(len(self.looked(row, ["drain 0 0 1 1"] * 16).drains), 16)
        for entries, line in ((["put 0 0 1 1", "wall 0 90 1 1"], "wall 0 90 1 1"),
                              (["wall 0 0 65 1"], "wall 0 0 65 1"),
                              (["row 64 " + 16 * "0"], "row 64"), (["row 0 " + 32 * "0"], "row 0"),
                              (["drain 0 0 1 1"] * 17, "drain 0 0 1 1"),
                              (["source 0 0 1 1 1"] * 17, "source 0 0 1 1 1")):
            with self.assertRaisesRegex(Strange, line):
                self.looked(row, entries)

    def test_a_start_of_another_size(self):
        with Fake(lambda line: probed(line) if line.startswith("probe") else typical(line)
                  ) as fake, joined(fake, start=Snapshot(128, 64)) as lab:
            with self.assertRaisesRegex(ValueError, "start has 128 by 64 cells, and this gas 64"):
                lab.look()


class Setting(unittest.TestCase):
    def setUp(self):
        draw = numpy.random.RandomState(2)
        self.sets = draw.random_sample((3, 64, 64)) < 0.2
        y, x = numpy.ogrid[:64, :64]
        self.disc = (x - 30) ** 2 + (y - 30) ** 2 <= 100

    def test_a_whole_gas(self):
        particles, walls, obstacles = self.sets
        with run() as lab:
            lab.wall(0, 0, 64, 3)
            lab.block(5, 5, 20, 20)
            lab.put(0, 0, 64, 64)
            lab.set(particles=particles, walls=walls, obstacles=obstacles)
            gas = lab.look()
        for found, wanted in ((gas.particles, particles), (gas.walls, walls),
                              (gas.obstacles, obstacles)):
            self.assertTrue((found == wanted).all())

    def test_what_is_not_given_stays(self):
        particles, walls, obstacles = self.sets
        with run() as lab:
            lab.set(*self.sets)
            for name, cells in (("walls", self.disc), ("obstacles", self.disc),
                                ("particles", self.disc)):
                lab.set(**{name: cells})
            gas = lab.look()
            self.assertTrue((gas.walls == self.disc).all() and (gas.particles == self.disc).all()
                            and (gas.obstacles == self.disc).all())
            lab.set(walls=walls)
            self.assertTrue((lab.look().obstacles == self.disc).all())

    def test_few_commands(self):
        with run() as lab:
            widths = {int(row.sum()) for row in self.disc if row.any()}
            self.assertLessEqual(lab.set(obstacles=self.disc), len(widths))
            self.assertEqual(lab.set(obstacles=self.disc), 0)
            self.assertEqual(lab.set(particles=self.disc), 21)
            self.assertEqual(lab.set(particles=self.disc), 0)
            self.assertEqual(lab.set(obstacles=numpy.zeros((64, 64), int)), 1)

    def test_replies_that_are_none_to_a_change(self):
        """A server of 64 by 64, with no entries, that answers each row by a tally."""
        def answer(line):
            word = line.split(" ")[0]
            return {"row": b"TALLY 0 0 0 0\n", "entry": b"ERR 9 entry\n"}.get(word) or (
                probed(line) if word == "probe" else typical(line))
        with Fake(answer) as fake, joined(fake) as lab:
            with self.assertRaisesRegex(Strange, "no answer to 'row 0 [0-9a-f]{16}': Tally"):
                lab.fill(0.5, seed=1)

    def test_wrong_shapes(self):
        with run(width=128) as lab:
            for name, shape in (("particles", (64, 64)), ("walls", (128, 64))):
                with self.assertRaisesRegex(ValueError, r"\(height, width\), here \(64, 128\), and not"):
                    lab.set(**{name: numpy.zeros(shape, bool)})
            with self.assertRaisesRegex(ValueError, r"here \(128,\), and not \(3,\)"):
                lab.row(0, [1, 0, 1])
            self.assertEqual(lab.journal(), [])


class Lessons(unittest.TestCase):
    def test_replies_are_those_beside_the_scripts(self):
        from gaslab import reply_text
        for name in ("1_one_particle", "2_head_on", "2_blocks", "3_gate", "4_tunnel"):
            script = ROOT / "examples" / f"{name}.txt"
            with run() as lab:
                found = "".join(reply_text(reply) + "\n" for reply in lab.play(script))
            self.assertEqual(found, script.with_suffix(".out").read_text(), name)


class SeveralThreads(unittest.TestCase):
    def test_an_asyncio_server_can_use_it(self):
        """One laboratory, asked by several tasks through an executor of one thread."""
        async def serve():
            loop = asyncio.get_running_loop()
            with concurrent.futures.ThreadPoolExecutor(1) as one:
                lab = await loop.run_in_executor(one, lambda: run())
                found = await asyncio.gather(*(loop.run_in_executor(one, lab.put, k, 0, 1, 1)
                                               for k in range(20)))
                gas = await loop.run_in_executor(one, lab.look)
                await loop.run_in_executor(one, lab.close)
            return found, gas.count
        self.assertEqual(asyncio.run(serve()), ([Ok(k) for k in range(20)], 20))


class SeveralClients(unittest.TestCase):
    def test_each_has_its_seat_and_its_replies(self):
        lock, journal = threading.Lock(), []

        def answer(line):
            if line in ("tally", "quit"):
                return typical(line)
            with lock:
                journal.append(line)
                return b"OK %d\n" % (len(journal) - 1)
        found = {}

        def work(k, port):
            with Lab.join("127.0.0.1", port) as lab:
                found[k] = list(lab.send(f"put {k} {n} 1 1" for n in range(200)))
        with Fake(answer) as fake:
            threads = [threading.Thread(target=work, args=(k, fake.port)) for k in range(30)]
            for thread in threads:
                thread.start()
            for thread in threads:
                thread.join()
        self.assertEqual(len(journal), 6000)
        for k, replies in found.items():
            self.assertEqual([journal[reply.index] for reply in replies],
                             [f"put {k} {n} 1 1" for n in range(200)])
