import cmath
import csv
import io
import math
import os
import random
import sys
import tempfile
import time
import unittest
import xml.etree.ElementTree
from pathlib import Path
from unittest import mock

import numpy

from gaslab import (Ok, Refused, Snapshot, Tally, chart, csv_text, every, flow, profile, random_gas, velocity,
                    wave)
from gaslab.measure.measuring import _measured, sums_of
from gaslab.measure.tables import columns_of, table_of
from gaslab.snapshot.counting import count_in_squares

from .fake import Fake, typical
from .seen import read
from .test_lab import ROOT, joined, run
from .test_pictures import plane


def rows_of(table):
    return list(zip(*(table[name].tolist() for name in columns_of(table))))


class Every(unittest.TestCase):
    def test_the_drag_of_lesson_4(self):
        """The numbers of the lesson's table, and the flux of its last hundred ticks."""
        script = (ROOT / "examples" / "4_tunnel.txt").read_text()
        with run() as lab:
            list(lab.send(line for line in script.splitlines()[:6]))
            table = every(lab, 100, times=3, ledger=True, probes={"front": (20, 28, 8, 8)})
        for name, numbers in (("tick", [100, 200, 300]), ("obstacles_x", [448, 1048, 1648]),
                              ("walls_x", [40, 40, 40]), ("d_obstacles_x", [448, 600, 600])):
            self.assertEqual(table[name].tolist(), numbers)
        self.assertEqual((table["d_injected"][2], table["d_drained"][2]), (2300, 2300))
        self.assertEqual((table["d_injected_x"][2], table["d_drained_x"][2]), (300, -300))
        self.assertEqual((table["front_count"][2], table["front_px"][2]), (38, 26))
        self.assertEqual(len(columns_of(table)), 1 + 2 * (3 + 13 + 3))

    def test_differences_add_up(self):
        with run() as lab:
            lab.put(3, 3, 9, 9)
            lab.wall(20, 0, 1, 64)
            table = every(lab, -5, times=4)
        self.assertEqual(table["tick"].tolist(), [-5, -10, -15, -20])
        for name in columns_of(table)[1:]:
            if not name.startswith("d_"):
                self.assertEqual(numpy.diff(table[name]).tolist(), table["d_" + name].tolist()[1:])
        self.assertEqual(table["d_count"].tolist(), [0] * 4)

    def test_without_ledger(self):
        with run() as lab:
            table = every(lab, 1, times=2, ledger=False)
        self.assertEqual(columns_of(table), ["tick", "count", "px", "py", "d_count", "d_px", "d_py"])
        self.assertEqual(rows_of(table), [(1,) + 6 * (0,), (2,) + 6 * (0,)])

    def test_chosen_columns(self):
        with run() as lab:
            lab.put(0, 0, 1, 1)
            table = every(lab, 2, 3, columns=["d_count", "tick", "a_count"],
                          probes={"a": (4, 4, 1, 1)})
            self.assertEqual(columns_of(table), ["d_count", "tick", "a_count"])
            self.assertEqual(rows_of(table), [(0, 2, 0), (0, 4, 1), (0, 6, 0)])
            with self.assertRaisesRegex(ValueError, "no column drag: there are tick, count, px"):
                every(lab, 2, 3, columns=["tick", "drag"])
            self.assertEqual(lab.tally().tick, 6)

    def test_a_wrong_probe_is_refused(self):
        with run() as lab:
            self.assertRaises(Refused, every, lab, 1, 1, probes={"out": (60, 0, 5, 1)})
            self.assertEqual(lab.tally().tick, 0)

    def test_a_probe_with_the_name_of_another_column_is_refused(self):
        area = (0, 0, 1, 1)
        with run() as lab:
            for probes, name in (({"d": area}, "d_count"), ({"a": area, "d_a": area}, "d_a_count")):
                with self.assertRaisesRegex(ValueError, f"a probe has another name: {name} is a column"):
                    every(lab, 1, 1, probes=probes)
            self.assertEqual(lab.tick, 0)

    def test_rows_are_sent_ahead(self):
        """While a step is made, the lines of four rows have been sent, and no more."""
        def answer(line):
            time.sleep(0.2 if line.startswith("step") else 0)
            return b"OK 0\n" if line.startswith("step") else typical(line)
        with Fake(answer) as fake, joined(fake) as lab:
            rows = _measured(lab, [("step 3", Ok), ("tally", Tally)], 20)
            next(rows)
            time.sleep(0.1)
            sent = lab._session.door.link.unsent.count(b"\n") + len(lab._session._open._asked)
            self.assertTrue(2 <= sent <= 8, sent)
            rows.close()
            self.assertEqual(lab.tally().tick, 0)
            self.assertLessEqual(fake.lines.count("step 3"), 5)

    def test_a_refusal_on_the_way_leaves_the_lab_usable(self):
        with run(cap=5) as lab:
            with self.assertRaisesRegex(Refused, "the journal is full"):
                every(lab, 1, 10)
            self.assertEqual((lab.tick, len(lab.journal())), (5, 5))
        with run() as lab:
            lab.drain(0, 0, 1, 1)
            self.assertRaisesRegex(Refused, "no way back", every, lab, -1, 10)
            self.assertEqual(lab.tick, 0)

    def test_columns_is_a_list(self):
        with run() as lab:
            with self.assertRaisesRegex(ValueError, r"columns is a list of names, as in columns=\['tick'\]"):
                every(lab, 1, 1, columns="tick")

    def test_more_steps_than_a_command_makes(self):
        with run() as lab:
            self.assertEqual(every(lab, 4100, 1)["tick"].tolist(), [4100])
            self.assertEqual([it.command for it in lab.journal()], ["step 4096", "step 4"])


class Tables(unittest.TestCase):
    TABLE = ("tick", "a,b"), [(1, -2.0), (3, 0.5)]

    def both(self):
        """The table as a frame of pandas, if that is installed, and as numpy records."""
        yield table_of(*self.TABLE)
        with mock.patch.dict(sys.modules, {"pandas": None}):
            yield table_of(*self.TABLE)

    def test_kinds(self):
        kinds = [type(table).__name__ for table in self.both()]
        self.assertEqual(kinds[1], "recarray")
        try:
            import pandas
        except ImportError:
            self.assertEqual(kinds[0], "recarray")
        else:
            self.assertEqual(kinds[0], pandas.DataFrame.__name__)

    def test_columns(self):
        for table in self.both():
            self.assertEqual((table["a,b"].tolist(), len(table)), ([-2, 0.5], 2))

    def test_csv(self):
        text = 'tick,"a,b"\n1,-2.0\n3,0.5\n'
        for table in self.both():
            self.assertEqual(csv_text(table), text)
        self.assertEqual(list(csv.reader(io.StringIO(text))),
                         [["tick", "a,b"], ["1", "-2.0"], ["3", "0.5"]])


class Charts(unittest.TestCase):
    def setUp(self):
        room = tempfile.TemporaryDirectory()
        self.addCleanup(room.cleanup)
        self.room = Path(room.name)
        self.table = table_of(("t<", "a&b", "c"), [(0, 0, 10), (50, 5, 10), (100, 10, 10)])

    def texts(self, *y):
        path = self.room / "it.svg"
        chart(self.table, path, "t<", *y)
        root = xml.etree.ElementTree.parse(path).getroot()
        return [it.text for it in root.iter() if it.tag.endswith("}text")], root

    def test_both_axes_have_titles(self):
        found, _ = self.texts("a&b")
        self.assertIn("t<", found)
        self.assertIn("a&b", found)
        self.assertLessEqual({"0", "100", "10"}, set(found))

    def test_several_lines_have_a_legend(self):
        found, root = self.texts(["a&b", "c"])
        self.assertEqual([found.count("a&b"), found.count("c")], [1, 1])
        marks = [it for it in root.iter() if it.tag.endswith("}use")]
        self.assertGreaterEqual(len(marks), 6)

    def test_the_same_table_gives_the_same_file(self):
        files = []
        for name in ("one.svg", "two.svg"):
            chart(self.table, self.room / name, "t<", "c")
            files.append((self.room / name).read_bytes())
        self.assertEqual(*files)

    def test_a_png(self):
        chart(self.table, self.room / "it.png", "t<", "c")
        seen = read(self.room / "it.png")
        self.assertEqual((seen.format, seen.width > 400), ("PNG", True))

    def test_wrong_wishes_write_nothing(self):
        for path, y, what in (("it.jpg", "c", "ends in .svg"), ("it.svg", "d", "no column d: there"),
                              ("it.svg", [], "at least one line")):
            with self.assertRaisesRegex(ValueError, what):
                chart(self.table, self.room / path, "t<", y)
        with self.assertRaisesRegex(ValueError, "at least one line with one number"):
            chart(table_of(("t", "a"), []), self.room / "it.svg", "t", "a")
        self.assertEqual(os.listdir(self.room), [])


class Fields(unittest.TestCase):
    def test_against_the_cells(self):
        """Each cell's velocity, by the rule for its parity, summed in squares."""
        draw = random.Random(7)
        for tick in (0, -3, 8):
            cells = {(x, y) for x in range(128) for y in range(64) if draw.random() < 0.4}
            gas = Snapshot(128, 64, tick, particle_bytes=plane(cells, 128))
            found = velocity(gas, mean=16)
            wanted = numpy.zeros((3, 4, 8))
            for x, y in cells:
                right, down = (1 if (place + tick) % 2 == 0 else -1 for place in (x, y))
                wanted[:, y // 16, x // 16] += (1, right, down)
            for field, numbers in zip(found, wanted):
                self.assertEqual(field.shape, (4, 8))
                self.assertTrue(numpy.allclose(field, numbers / 256))
            self.assertEqual(sums_of(gas), (tick, *wanted.sum(axis=(1, 2)).astype(int)))

    def test_each_square_against_the_cells(self):
        """Squares of all kinds of sides, at even and odd ticks, by the rule for each cell's velocity."""
        for width, height, tick in ((192, 384, 3), (128, 64, -2), (64, 4096, 1)):
            cells = numpy.random.RandomState(5).random_sample((height, width)) < 0.4
            gas = Snapshot.from_arrays(cells, tick=tick)
            right, down = (1 - 2 * ((numpy.arange(side) + tick) % 2) for side in (width, height))
            parts = cells.astype(int), cells * right, cells * down[:, None]
            for mean in (it for it in range(1, 65) if width % it == 0 and height % it == 0):
                squares = [part.reshape(height // mean, mean, width // mean, mean).sum(axis=(1, 3))
                           for part in parts]
                found = velocity(gas, mean)
                for field, wanted in zip(found, squares):
                    self.assertTrue((field == wanted / mean ** 2).all(), (width, mean, tick))
                count = count_in_squares(gas.particle_bytes, width, mean)
                self.assertTrue((count == squares[0]).all())
            self.assertEqual(gas.count, cells.sum())

    def test_a_full_gas(self):
        """Counts as large as they can be."""
        for side in (64, 4096):
            gas = Snapshot(side, side, particle_bytes=b"\xff" * (side * side // 8))
            for mean in (1, 2, 8, 64):
                field = velocity(gas, mean)
                self.assertTrue((field.density == 1).all() and (field.px == (mean == 1) * field.px).all())
            self.assertEqual(sums_of(gas), (0, side * side, 0, 0))
            self.assertEqual(set(profile(gas)["count"]), {side})
            self.assertEqual(set(profile(gas, "y")["count"]), {side})

    def test_of_a_laboratory(self):
        with run() as lab:
            lab.put(0, 0, 8, 8)
            found = velocity(lab, mean=8)
            self.assertEqual((found.density[0, 0], found.density.sum()), (1, 1))
            self.assertEqual((found.px.any(), found.py.any()), (False, False))
            self.assertRaisesRegex(ValueError, "mean divides both sides, 64 and 64 .*, and not 7",
                                   velocity, lab, 7)

    def test_mean_to_the_sides_of_the_lattice(self):
        """One square is the whole gas: its sums are those of `tally`."""
        for mean, width in ((64, 64), (128, 128)):
            with run(width=width, height=mean) as lab:
                lab.put(3, 3, 5, 7)
                field, tally = velocity(lab, mean=mean), lab.tally()
            self.assertEqual([it.tolist() for it in field], [[[sums / mean ** 2]] for sums in tally[1:]])
        self.assertRaisesRegex(ValueError, "mean divides both sides, 128 and 64 .*, and not 128", velocity,
                               Snapshot(128, 64), 128)
        self.assertRaises(ValueError, velocity, Snapshot(64, 64), 0)

    def test_mean_velocity(self):
        """Two fly right and down in one square, and one left and down in another; two squares are empty."""
        cells = {(0, 0), (2, 2), (33, 0)}
        found = flow(velocity(Snapshot(64, 64, particle_bytes=plane(cells, 64)), mean=32))
        self.assertEqual(found.vx.tolist(), [[1, -1], [None, None]])
        self.assertEqual(found.vy.tolist(), [[1, 1], [None, None]])
        self.assertEqual(found.vx.filled(0).tolist(), [[1, -1], [0, 0]])
        self.assertEqual((found.vx.sum(), found.vy.mean()), (0, 1))


class Waves(unittest.TestCase):
    def test_against_the_cells(self):
        """Each cell's share of the wave, by the rule for its velocity, summed over the cells."""
        draw = random.Random(7)
        cells = {(x, y) for x in range(128) for y in range(64) if draw.random() < 0.4}
        gas = Snapshot(128, 64, -3, particle_bytes=plane(cells, 128))
        for across, down in ((1, 0), (0, 2), (3, -1)):
            wanted = numpy.zeros(3, complex)
            for x, y in cells:
                right, below = (1 if (place - 3) % 2 == 0 else -1 for place in (x, y))
                phase = 2 * cmath.pi * (across * x / 128 + down * y / 64)
                wanted += numpy.array((1, right, below)) * cmath.exp(-1j * phase) / 4096
            self.assertTrue(numpy.allclose(wave(gas, across, down), wanted))

    def test_of_a_gas_whose_left_half_is_full(self):
        """The sum of a half of the 64 roots of unity is 1 / sin(pi / 64)."""
        with run() as lab:
            lab.put(0, 0, 32, 64)
            found = wave(lab, 1)
        self.assertAlmostEqual(abs(found.density), 2 / 64 / math.sin(math.pi / 64))

    def test_of_columns_in_turn(self):
        """The density is 1/2 + 1/2 * cos(pi * x), and of squares in turn 1/2 + 1/2 * cos(pi * (x + y))."""
        y, x = numpy.ogrid[:64, :128]
        for cells, across, down in (((x + 0 * y) % 2 == 0, 64, 0), ((x + y) % 2 == 0, 64, 32)):
            found = wave(cells, across, down, tick=0)
            self.assertAlmostEqual(found.density, 0.5)

    def test_no_wave(self):
        self.assertRaisesRegex(ValueError, "at least one length", wave, numpy.zeros((64, 64)), 0)


class Profiles(unittest.TestCase):
    def setUp(self):
        draw = random.Random(7)
        self.cells = {(x, y) for x in range(128) for y in range(64) if draw.random() < 0.4}
        self.gas = Snapshot(128, 64, -3, particle_bytes=plane(self.cells, 128))

    def expected(self, axis, bins, length, breadth):
        for k in range(bins):
            first, last = k * length // bins, (k + 1) * length // bins
            part = [cell for cell in self.cells if first <= cell[axis] < last]
            px, py = (sum(1 if (cell[a] - 3) % 2 == 0 else -1 for cell in part) for a in (0, 1))
            yield first, last, len(part), len(part) / ((last - first) * breadth), px, py

    def test_along_both(self):
        for along, axis, length, breadth in (("x", 0, 128, 64), ("y", 1, 64, 128)):
            for bins in (None, 1, 8, 7, length):
                found = profile(self.gas, along, bins)
                expected = self.expected(axis, bins or length, length, breadth)
                for row, wanted in zip(rows_of(found), expected):
                    self.assertEqual(row[:3] + row[4:], wanted[:3] + wanted[4:])
                    self.assertAlmostEqual(row[3], wanted[3])
                self.assertEqual(len(found), bins or length)

    def test_bare_truth_values(self):
        self.assertEqual(rows_of(profile(self.gas.particles, tick=-3)), rows_of(profile(self.gas)))

    def test_wrong_wishes(self):
        for wish in ({"along": "z"}, {"bins": 0}, {"bins": 129}):
            self.assertRaises(ValueError, profile, self.gas, **wish)


class RandomGases(unittest.TestCase):
    def sums(self, **options):
        with run(width=256, height=128) as lab:
            for reply in lab.send(random_gas(256, 128, tick=0, **options)):
                self.assertEqual(type(reply).__name__, "Ok")
            return lab.tally()

    def test_the_same_seed(self):
        one = list(random_gas(128, 64, 0.5, seed=1))
        self.assertEqual(one, list(random_gas(128, 64, 0.5, seed=1)))
        self.assertNotEqual(one, list(random_gas(128, 64, 0.5, seed=2)))
        self.assertEqual([line.split(" ")[:2] for line in one],
                         [["row", str(y)] for y in range(64)])
        self.assertEqual({len(line.split(" ")[2]) for line in one}, {32})

    def test_density_and_drift(self):
        """Within five standard deviations, of 32,768 cells."""
        for density, drift in ((0.3, 0.0), (0.3, 0.5), (0.25, (-0.4, 0.6)), (0.2, (0.0, -1.0))):
            dx, dy = drift if isinstance(drift, tuple) else (drift, 0)
            tally = self.sums(density=density, drift=drift, seed=3)
            cells = 256 * 128
            means = ((tally.count, density), (tally.px, density * dx), (tally.py, density * dy))
            for found, mean in means:
                self.assertLess(abs(found - cells * mean), 5 * (cells * density) ** 0.5)

    def test_drift_at_an_odd_tick(self):
        lines = list(random_gas(64, 64, 0.5, 1.0, seed=1, tick=1))
        for line in lines:
            row = bytes.fromhex(line.split(" ")[2])
            self.assertEqual(row, bytes(byte & 0x55 for byte in row))
            self.assertNotEqual(row, bytes(8))

    def test_ends(self):
        self.assertEqual(set(line.split(" ")[2] for line in random_gas(64, 64, 0)), {16 * "0"})
        self.assertEqual(set(line.split(" ")[2] for line in random_gas(64, 64, 1)), {16 * "f"})

    def test_wrong_wishes(self):
        nan = float("nan")
        for density, drift, rule in ((1.1, 0, "a density is from 0 to 1"), (-0.1, 0, "a density"),
                                     (0.6, 0.7, "a density"), (0.2, (0, 1.5), "a drift is"),
                                     (0, 2, "a drift"), (nan, 0, "a density"), (0.1, nan, "a dri")):
            with self.assertRaisesRegex(ValueError, rule):
                random_gas(64, 64, density, drift)
        for drift in ([0.1, 0.2], (0.1,), (0.1, 0.2, 0.3), "0.1", ("0", 0), None):
            with self.assertRaises(TypeError) as caught:
                random_gas(64, 64, 0.5, drift, tick=0)
            self.assertIn(f"a number, or a tuple (right, down), and not {drift!r}",
                          str(caught.exception))
        for drift in (numpy.float32(0.5), numpy.int64(1), (0, numpy.float64(0.5))):
            self.assertEqual(len(random_gas(64, 64, 0.25, drift, tick=0)), 64)
        for size in ((100, 64), (64, 4160), (0, 64)):
            with self.assertRaisesRegex(ValueError, "sides are multiples of 64 from 64 to 4,096"):
                random_gas(*size, 0.5)
