"""Runs that are recorded, of single particles: the rule tells where each is."""
import io
import os
import tempfile
import unittest
from contextlib import suppress
from pathlib import Path
from unittest import mock

import numpy

from gaslab import Recording, record

from .test_lab import run


class OneParticle(unittest.TestCase):
    """At an even place and tick 0 it flies right and down: after k steps it is in (10 + k, 20 + k)."""
    def recorded(self, steps, times, **options):
        with run() as lab:
            lab.put(10, 20, 1, 1)
            return record(lab, steps, times, **options)

    def test_fields(self):
        run_ = self.recorded(3, 4, mean=8)
        self.assertEqual(list(run_), ["tick", "density", "px", "py"])
        self.assertEqual(run_["tick"].tolist(), [0, 3, 6, 9, 12])
        for name in ("density", "px", "py"):
            self.assertEqual(run_[name].shape, (5, 8, 8))
            for k, tick in enumerate(run_["tick"].tolist()):
                wanted = numpy.zeros((8, 8))
                wanted[(20 + tick) // 8, (10 + tick) // 8] = 1 / 64
                self.assertEqual(run_[name][k].tolist(), wanted.tolist())

    def test_backwards(self):
        run_ = self.recorded(-2, 3, mean=1, fields="px")
        self.assertEqual((list(run_), run_["tick"].tolist()), (["tick", "px"], [0, -2, -4, -6]))
        self.assertEqual([numpy.argwhere(it).tolist() for it in run_["px"]],
                         [[[20 - k, 10 - k]] for k in (0, 2, 4, 6)])

    def test_profiles(self):
        run_ = self.recorded(2, 2, fields=(), profiles=["x", "y"])
        self.assertEqual(list(run_), ["tick", "x_count", "x_px", "x_py", "y_count", "y_px", "y_py"])
        for name, first in (("x", 10), ("y", 20)):
            for part in ("count", "px", "py"):
                found = run_[f"{name}_{part}"]
                self.assertEqual((found.shape, found.dtype), ((3, 64), numpy.int64))
                self.assertEqual(numpy.argwhere(found).tolist(), [[k, first + 2 * k] for k in range(3)])
                self.assertEqual(found.max(), 1)

    def test_probes_read_no_whole_gas(self):
        with run() as lab, mock.patch.object(type(lab), "look", side_effect=AssertionError):
            lab.put(10, 20, 1, 1)
            run_ = record(lab, 1, 3, fields=(), probes={"in": (11, 21, 2, 2), "all": (0, 0, 64, 64)})
        self.assertEqual(list(run_), ["tick", *(f"{name}_{part}" for name in ("in", "all")
                                                for part in ("count", "px", "py"))])
        for part in ("count", "px", "py"):
            self.assertEqual(run_[f"in_{part}"].tolist(), [0, 1, 1, 0])
            self.assertEqual(run_[f"all_{part}"].tolist(), [1, 1, 1, 1])

    def test_no_step(self):
        self.assertEqual(self.recorded(5, 0)["density"].shape, (1, 8, 8))


class Files(unittest.TestCase):
    def test_saved_and_read_again(self):
        with tempfile.TemporaryDirectory() as room, run() as lab:
            path = os.path.join(room, "run.npz")
            lab.put(3, 3, 9, 9)
            made = record(lab, 1, 3, mean=16, profiles="x", probes={"in": (0, 0, 8, 8)})
            made.save(path)
            self.assertEqual(os.listdir(room), ["run.npz"])
            with numpy.load(path) as plain:
                for found in (Recording.load(path), plain):
                    self.assertEqual(list(found), list(made))
                    for name in made:
                        self.assertTrue(numpy.array_equal(found[name], made[name]), name)

    def test_other_contents(self):
        with tempfile.TemporaryDirectory() as room:
            path = Path(room, "run.npz")
            self.assertRaises(FileNotFoundError, Recording.load, path)
            Recording({"tick": numpy.arange(500), "px": numpy.arange(500.0)}).save(path)
            whole, plain = path.read_bytes(), io.BytesIO()
            numpy.save(plain, numpy.arange(9))
            for data in (b"", b"tick", plain.getvalue(), whole[:-1], whole[:500], b"#" + whole[1:]):
                path.write_bytes(data)
                with self.assertRaisesRegex(ValueError, "run.npz can't be read as a recording: "):
                    Recording.load(path)
            for at in range(0, len(whole), 50):
                path.write_bytes(whole[:at] + bytes([whole[at] ^ 255]) + whole[at + 1:])
                with suppress(ValueError):  # some bytes, such as those of a date, are not read
                    Recording.load(path)

    def test_other_endings(self):
        for path in ("run", "run.npy", "run.csv"):
            with self.assertRaisesRegex(ValueError, "a recording's path ends in .npz"):
                Recording({}).save(path)
            self.assertRaises(ValueError, Recording.load, path)


class Wishes(unittest.TestCase):
    def test_wrong_ones_are_refused_before_a_step(self):
        with run() as lab:
            for wish, what in (
                    ({"fields": ("density", "pz")}, "fields are of density, px, py, and not 'pz'"),
                    ({"profiles": "z"}, "profiles are of x, y, and not 'z'"),
                    ({"mean": 7}, "mean divides both sides, 64 and 64 .*, and not 7"),
                    ({"mean": 0}, "mean is 1"),
                    ({"times": -1}, "times is 0 to"),
                    ({"profiles": "x", "probes": {"x": (0, 0, 1, 1)}}, "x_count is recorded already")):
                with self.assertRaisesRegex(ValueError, what):
                    record(lab, **{"steps": 1, "times": 2, **wish})
            self.assertEqual(lab.tally().tick, 0)

    def test_an_unknown_array_is_told_which_there_are(self):
        with self.assertRaisesRegex(KeyError, "no 'pz' was recorded: there are tick, px"):
            Recording({"tick": numpy.zeros(1), "px": numpy.zeros(1)})["pz"]

    def test_progress(self):
        told = []
        with run() as lab:
            record(lab, 1, 2, progress=lambda done, total: told.append((done, total)))
        self.assertEqual(told, [(1, 3), (2, 3), (3, 3)])
