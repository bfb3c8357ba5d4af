import os
import random
import struct
import tempfile
import time
import unittest
from pathlib import Path

import numpy

from gaslab import (Drain, MagicFault, PortFault, ShortFault, SizeFault, Snapshot, SnapshotFault,
                    Source, TickFault, TrailingFault)
from gaslab.protocol.drafts import draft
from gaslab.snapshot.cells import array_of, as_cells, plane_of
from gaslab.snapshot.rectangles import cover

from .stand_in import channel_gas

STORED = Path(__file__).with_name("start.gas")

OLD = b"HPPGAS1\n" + bytes([0, 64, 0, 64]) + bytes(10)
NEW = b"HPPGAS2\n" + bytes([0, 64, 0, 64]) + bytes(10)
# tick -1, the drain 1 1 1 1 and the source 10 10 1 1 of period 2
PORTS = (b"HPPGAS1\n" + bytes([0, 64, 0, 64]) + b"\xff" * 8 + bytes([1, 1])
         + bytes([0, 1, 0, 1, 0, 1, 0, 1]) + bytes([0, 10, 0, 10, 0, 1, 0, 1, 0, 2]))


def with_size(version, width, height):
    head = b"HPPGAS%d\n" % version + struct.pack(">HH", width, height) + bytes(10)
    return head + bytes((version + 1) * width * height // 8)


def changed(data, at, part):
    return data[:at] + part + data[at + len(part):]


class Vectors(unittest.TestCase):
    def test_an_empty_gas_of_each_version(self):
        for version, data in ((1, OLD + bytes(1024)), (2, NEW + bytes(1536))):
            gas = Snapshot.from_bytes(data)
            self.assertEqual(gas, Snapshot(64, 64, version=version))
            self.assertEqual((gas.count, gas.tick, gas.drains, gas.sources), (0, 0, (), ()))
            self.assertEqual(gas.to_bytes(), NEW + bytes(1536))

    def test_ports(self):
        gas = Snapshot.from_bytes(PORTS + bytes(1024))
        self.assertEqual((gas.tick, gas.drains, gas.sources),
                         (-1, (Drain(1, 1, 1, 1),), (Source(10, 10, 1, 1, 2),)))

    def test_rows_of_cells(self):
        rows = {"0000000000000000": [], "8000000000000000": [0], "0000000000000001": [63],
                "8000000000000001": [0, 63], "0000000ff0000000": list(range(28, 36))}
        plane = b"".join(map(bytes.fromhex, rows)).ljust(512, b"\0")
        gas = Snapshot.from_bytes(NEW + plane + bytes(1024))
        for y, cells in enumerate(rows.values()):
            self.assertEqual([x for x in range(64) if gas.particles[y][x]], cells)
        self.assertEqual((gas.count, gas.particle_bytes), (12, plane))

    def test_planes_stand_in_order(self):
        planes = [bytes([value]) * 512 for value in (1, 2, 4)]
        gas = Snapshot.from_bytes(NEW + b"".join(planes))
        self.assertEqual([gas.particle_bytes, gas.wall_bytes, gas.obstacle_bytes], planes)
        old = Snapshot.from_bytes(OLD + planes[0] + planes[1])
        self.assertEqual([old.wall_bytes, old.obstacle_bytes], [planes[1], bytes(512)])

    def test_lengths(self):
        for version, width, height, length in ((1, 64, 64, 1046), (2, 64, 64, 1558),
                                               (1, 2048, 2048, 1048598), (2, 4096, 4096, 6291478)):
            data = with_size(version, width, height)
            self.assertEqual(len(data), length)
            gas = Snapshot.from_bytes(data)
            self.assertEqual((gas.width, gas.height, gas.version), (width, height, version))

    def test_most_ports(self):
        drains = tuple(Drain(k, 0, 1, 64) for k in range(16))
        sources = tuple(Source(0, k, 64, 1, 65535 - k) for k in range(16))
        gas = Snapshot(64, 64, -2 ** 40, drains, sources)
        self.assertEqual(Snapshot.from_bytes(gas.to_bytes()), gas)

    def test_a_snapshot_that_the_program_wrote(self):
        gas = Snapshot.read(STORED)
        self.assertEqual((gas.width, gas.height, gas.tick, gas.count, gas.version),
                         (128, 64, 7, 64, 2))
        self.assertEqual(gas.to_bytes(), STORED.read_bytes())

    def test_the_second_implementation_writes_the_same(self):
        it = channel_gas.Gas(128, 64)
        it.tick = -3
        it.particles, it.walls, it.obstacles = {(0, 0), (127, 63)}, {(5, 6)}, {(64, 1), (65, 1)}
        it.drains, it.sources = [(1, 2, 3, 4)], [(5, 6, 7, 8, 9)]
        gas = Snapshot.from_bytes(channel_gas.snapshot(it))
        for cells, plane in ((it.particles, gas.particles), (it.walls, gas.walls),
                             (it.obstacles, gas.obstacles)):
            self.assertEqual({(x, y) for y in range(64) for x in range(128) if plane[y][x]}, cells)
        self.assertEqual((gas.tick, gas.drains, gas.sources),
                         (-3, ((1, 2, 3, 4),), ((5, 6, 7, 8, 9),)))
        self.assertEqual(gas.to_bytes(), channel_gas.snapshot(it))


class EachDamage(unittest.TestCase):
    def fault(self, data):
        with self.assertRaises(SnapshotFault) as caught:
            Snapshot.from_bytes(data)
        self.assertTrue(str(caught.exception).startswith(caught.exception.name + ": "))
        return type(caught.exception)

    def test_short_at_every_byte(self):
        data = PORTS + bytes(1024)
        for length in range(len(data)):
            self.assertIs(self.fault(data[:length]), ShortFault, length)

    def test_magic(self):
        for at in range(8):
            self.assertIs(self.fault(changed(NEW + bytes(1536), at, b"x")), MagicFault)
        for digit in (b"0", b"3"):
            self.assertIs(self.fault(changed(NEW, 6, digit)), MagicFault)

    def test_size(self):
        for version, largest in ((1, 2048), (2, 4096)):
            for side in (0, 1, 63, 65, 100, largest + 64, 65535, 65472):
                self.assertIs(self.fault(with_size(version, 64, 64)[:8]
                                         + struct.pack(">HH", side, 64)), SizeFault, side)
                self.assertIs(self.fault(with_size(version, 64, 64)[:8]
                                         + struct.pack(">HH", 64, side)), SizeFault, side)

    def test_tick(self):
        for tick in (2 ** 40, -2 ** 40):
            gas = Snapshot.from_bytes(changed(NEW + bytes(1536), 12, struct.pack(">q", tick)))
            self.assertEqual(gas.tick, tick)
        for tick in (2 ** 40 + 1, -2 ** 40 - 1, 2 ** 63 - 1, -2 ** 63):
            self.assertIs(self.fault(changed(NEW + bytes(1536), 12, struct.pack(">q", tick))),
                          TickFault)

    def test_counts_of_ports(self):
        for counts in ((17, 0), (0, 17), (255, 255)):
            self.assertIs(self.fault(changed(NEW + bytes(9999), 20, bytes(counts))), PortFault)

    def test_ports(self):
        data = PORTS + bytes(1024)
        wrong = [(22, 64, 0, 1, 1), (22, 63, 0, 2, 1), (22, 0, 64, 1, 1), (22, 0, 63, 1, 2),
                 (22, 0, 0, 0, 1), (22, 0, 0, 1, 0), (22, 65535, 0, 1, 1), (30, 0, 0, 65, 1, 1),
                 (30, 0, 0, 1, 65, 1), (30, 0, 0, 1, 1, 0), (30, 0, 0, 0, 0, 5)]
        for at, *port in wrong:
            part = struct.pack(f">{len(port)}H", *port)
            self.assertIs(self.fault(changed(data, at, part)), PortFault, port)
        gas = Snapshot.from_bytes(changed(data, 22, struct.pack(">4H", 63, 63, 1, 1)))
        self.assertEqual(gas.drains, (Drain(63, 63, 1, 1),))

    def test_trailing(self):
        for data in (OLD + bytes(1024), NEW + bytes(1536)):
            for rest in (b"\0", bytes(512)):
                self.assertIs(self.fault(data + rest), TrailingFault)

    def test_the_first_from_the_left(self):
        self.assertIs(self.fault(b"HPPGAS3\n" + bytes([0, 1])), MagicFault)
        self.assertIs(self.fault(NEW[:8] + bytes([0, 1, 0, 64])), SizeFault)
        self.assertIs(self.fault(NEW[:12] + b"\x7f" + bytes(7) + b"\xff"), TickFault)
        self.assertIs(self.fault(changed(PORTS, 28, b"\0\0")[:31]), PortFault)

    def test_names(self):
        self.assertEqual({kind.name for kind in SnapshotFault.__subclasses__()},
                         {"Short", "Magic", "Size", "Tick", "Port", "Trailing"})

    def test_a_file_without_end_is_not_read_whole(self):
        self.assertRaises(MagicFault, Snapshot.read, "/dev/zero")

    def test_a_file_that_is_not_there(self):
        with tempfile.TemporaryDirectory() as room:
            self.assertRaises(FileNotFoundError, Snapshot.read, os.path.join(room, "no"))


class Arrays(unittest.TestCase):
    def test_a_plane_and_back(self):
        plane = bytes(range(256)) * 2
        self.assertEqual(plane_of(array_of(plane, 64)), plane)

    def test_lists_of_truth_values(self):
        cells = [[x == y for x in range(64)] for y in range(64)]
        self.assertEqual(plane_of(as_cells(cells)),
                         b"".join((1 << 63 - y).to_bytes(8, "big") for y in range(64)))

    def test_wrong_shapes_have_the_rule(self):
        rule = "multiples of 64 from 64 to 4,096"
        for cells, what in (([[0] * 64, [0] * 65], "rows of several widths"), ([[0] * 63], rule),
                            ([[]], rule), ([], "shape"), ([0] * 64, "shape"),
                            (numpy.zeros((64, 4160), bool), rule)):
            with self.assertRaisesRegex(ValueError, what):
                as_cells(cells)

    def test_shape(self):
        found = Snapshot(128, 64).particles
        self.assertEqual((found.dtype, found.shape), (numpy.dtype(bool), (64, 128)))

    def test_wrong_lengths(self):
        self.assertRaises(ValueError, Snapshot, 64, 64, particle_bytes=bytes(511))
        self.assertRaisesRegex(ValueError, "multiples of 64", Snapshot, 100, 64)

    def test_from_arrays(self):
        """What is written is read again, by the second implementation too."""
        draw = numpy.random.RandomState(5)
        particles, walls, obstacles = draw.random_sample((3, 64, 128)) < 0.3
        gas = Snapshot.from_arrays(particles, walls, obstacles, -7, [(1, 2, 3, 4)],
                                   [(5, 6, 7, 8, 9)])
        with tempfile.TemporaryDirectory() as room:
            path = os.path.join(room, "it.gas")
            gas.write(path)
            self.assertEqual(os.listdir(room), ["it.gas"])
            self.assertEqual(Snapshot.read(path), gas)
            it = channel_gas.from_snapshot(Path(path).read_bytes())
        self.assertEqual((it.width, it.height, it.tick), (128, 64, -7))
        for cells, array in ((it.particles, particles), (it.walls, walls),
                             (it.obstacles, obstacles)):
            self.assertEqual(cells, {(x, y) for y, x in numpy.argwhere(array).tolist()})
        self.assertEqual((gas.drains, gas.sources), ((Drain(1, 2, 3, 4),),
                                                     (Source(5, 6, 7, 8, 9),)))

    def test_from_arrays_that_are_no_gas(self):
        one, other = numpy.zeros((64, 64), bool), numpy.zeros((64, 128), bool)
        self.assertRaisesRegex(ValueError, "one shape", Snapshot.from_arrays, one, other, tick=0)
        self.assertRaisesRegex(ValueError, "none is given", Snapshot.from_arrays)
        self.assertRaises(PortFault, Snapshot.from_arrays, one, drains=[(60, 0, 5, 1)], tick=0)
        for ports in ({"drains": [(0, 0, 5)]}, {"drains": [(0, 0, 5, 1.5)]}, {"drains": [(0, -1, 5, 1)]},
                      {"sources": [(0, 0, 5, 1)]}, {"drains": 300 * [(0, 0, 1, 1)]}, {"drains": [7]}):
            with self.assertRaisesRegex(ValueError, "a drain is .x, y, w, h. and a source"):
                Snapshot.from_arrays(one, tick=0, **ports)
        for wish in ({"tick": 2 ** 41}, {"tick": 2 ** 70}, {"drains": [(-1, 0, 1, 1)]},
                     {"drains": [(0, 0, 1, 1)] * 300}):
            self.assertRaises(ValueError, Snapshot.from_arrays, one, **{"tick": 0, **wish})


class Drafts(unittest.TestCase):
    def setUp(self):
        room = tempfile.TemporaryDirectory()
        self.addCleanup(room.cleanup)
        self.path = Path(room.name, "it")

    def test_the_old_file_stays_until_the_new_one_is_whole(self):
        self.path.write_bytes(b"old")
        with draft(self.path) as file:
            file.write(b"new")
            file.flush()
            self.assertEqual(self.path.read_bytes(), b"old")
        self.assertEqual(self.path.read_bytes(), b"new")
        with self.assertRaises(KeyError), draft(self.path) as file:
            file.write(b"half")
            raise KeyError
        self.assertEqual(self.path.read_bytes(), b"new")
        self.assertEqual(os.listdir(self.path.parent), ["it"])

    def test_a_fault_names_the_path_that_was_given(self):
        path = self.path / "none" / "it"
        with self.assertRaises(FileNotFoundError) as caught, draft(path):
            pass
        self.assertEqual(caught.exception.filename, str(path))

    def test_two_at_a_time(self):
        """Of several threads, or one that a process with the same number left when it was killed."""
        with draft(self.path) as last:
            with draft(self.path) as first:
                first.write(b"first")
            last.write(b"last")
            self.assertEqual(self.path.read_bytes(), b"first")
        self.assertEqual(self.path.read_bytes(), b"last")

    def test_a_link_stays_a_link(self):
        link = self.path.with_name("link")
        link.symlink_to(self.path)
        with draft(link) as file:
            file.write(b"new")
        self.assertTrue(link.is_symlink())
        self.assertEqual(self.path.read_bytes(), b"new")

    def test_a_device_stays_a_device(self):
        with draft("/dev/null") as file:
            file.write(b"new")
        self.assertTrue(Path("/dev/null").is_char_device())


def runs(cells):
    """How many rectangles it takes if each is a run of a row, with the same runs below it."""
    found, above = 0, set()
    for row in cells:
        edges = numpy.flatnonzero(numpy.diff(row, prepend=False, append=False)).tolist()
        now = set(zip(edges[::2], edges[1::2]))
        found += len(now - above)
        above = now
    return found


class Rectangles(unittest.TestCase):
    def cells(self, rectangles):
        found = numpy.zeros((64, 64), bool)
        for x, y, w, h in rectangles:
            self.assertTrue(w and h and x + w <= 64 and y + h <= 64)
            found[y:y + h, x:x + w] = True
        return found

    def test_cover_what_is_needed_and_no_more_than_is_allowed(self):
        draw = random.Random(3)
        planes = [bytes(512), b"\xff" * 512, bytes(range(256)) * 2, b"\x0f\xf0" * 256,
                  b"\xff" * 8 + bytes(496) + b"\xff" * 8, draw.randbytes(512)]
        for plane in planes:
            needed = array_of(plane, 64)
            self.assertTrue((self.cells(cover(needed, needed)) == needed).all())
            allowed = array_of(draw.randbytes(512), 64)
            found = self.cells(cover(needed, allowed))
            self.assertTrue((found >= needed).all() and (found <= (needed | allowed)).all())

    def test_as_few_as_it_takes(self):
        y, x = numpy.ogrid[:64, :64]
        cross = (abs(x - 30) < 4) & (abs(y - 30) < 20) | (abs(x - 30) < 20) & (abs(y - 30) < 4)
        disc = (x - 30) ** 2 + (y - 30) ** 2 <= 100
        ring = disc & ((x - 30) ** 2 + (y - 30) ** 2 > 81)
        widths = {int(row.sum()) for row in disc if row.any()}
        for cells, most in ((x + y >= 0, 1), ((y == 5) & (x > 3), 1), (cross, 2),
                            (disc, len(widths)), (ring, runs(ring)), (x + y < 0, 0)):
            found = cover(cells, cells)
            self.assertLessEqual(len(found), most)
            self.assertTrue((self.cells(found) == cells).all())

    def test_noise_of_more_runs_than_a_journal_has_entries(self):
        cells = numpy.random.RandomState(3).random_sample((1024, 512)) < 0.5
        began = time.monotonic()
        found = cover(cells, cells)
        self.assertLess(time.monotonic() - began, 10)
        self.assertGreater(len(found), 65536)
        seen = numpy.zeros_like(cells)
        for x, y, w, h in found:
            seen[y:y + h, x:x + w] = True
        self.assertTrue((seen == cells).all())

    def test_one_for_one(self):
        cells = array_of(bytes(8) + (b"\x0f" + bytes(7)) * 2 + bytes(488), 64)
        self.assertEqual(cover(cells, cells), [(4, 1, 4, 2)])
