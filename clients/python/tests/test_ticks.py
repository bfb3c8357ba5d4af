"""Calls that make cells or read velocities, at odd ticks as at even ones: no default is wrong there."""
import unittest

import numpy

from gaslab import Snapshot, picture_bytes, profile, random_gas, shoot, text_picture, velocity, wave
from gaslab.measure.measuring import sums_of
from gaslab.snapshot.cells import array_of

from .test_lab import run

TICKS = (0, 1, 2, 5, -3)
"""Two even ones and three odd ones."""


def at(tick, **options):
    """A laboratory at this tick."""
    lab = run(**options)
    lab.advance(tick)
    return lab


def moving(tick, vx, vy):
    """The cells of 64 by 64 whose particles move so at a tick, by the rule of the gas."""
    y, x = numpy.ogrid[:64, :64]
    return ((x + tick) % 2 == (vx < 0)) & ((y + tick) % 2 == (vy < 0))


class WhatMakesCells(unittest.TestCase):
    def test_fill(self):
        """A drift of 1 to the right and downwards fills only cells whose particles move so."""
        for tick in TICKS:
            with at(tick) as lab:
                self.assertEqual(lab.fill(0.25, drift=(1.0, 1.0), seed=1), 64)
                self.assertEqual(lab.tick, tick)
                self.assertTrue((lab.particles() == moving(tick, 1, 1)).all(), tick)
                tally = lab.tally()
                self.assertEqual((tally.count, tally.px, tally.py), (1024, 1024, 1024))

    def test_fill_leaves_solid_cells_empty(self):
        with at(1) as lab:
            lab.wall(0, 0, 64, 2)
            lab.block(20, 20, 4, 4)
            lab.fill(1.0)
            scene = lab.scene()
            self.assertTrue((lab.particles() == ~(scene.walls | scene.obstacles)).all())

    def test_fill_is_the_random_gas_of_its_seed(self):
        for tick in TICKS:
            with at(tick) as lab, at(tick) as other:
                lab.fill(0.3, 0.5, seed=7)
                other.do(random_gas(64, 64, 0.3, 0.5, 7, tick))
                self.assertEqual(lab.look().particle_bytes, other.look().particle_bytes)

    def test_a_random_gas_asks_for_the_tick_where_it_matters(self):
        self.assertEqual(random_gas(64, 64, 0.3, seed=1), random_gas(64, 64, 0.3, seed=1, tick=1))
        self.assertIsInstance(random_gas(64, 64, 0.3), list)
        for drift in (0.1, (0.0, -0.1)):
            with self.assertRaisesRegex(ValueError, "a drift needs tick="):
                random_gas(64, 64, 0.3, drift)
        odd = random_gas(64, 64, 0.25, (1.0, -1.0), tick=5)
        plane = b"".join(bytes.fromhex(line.split()[2]) for line in odd)
        self.assertTrue((array_of(plane, 64) == moving(5, 1, -1)).all())

    def test_set(self):
        for tick in TICKS:
            with at(tick) as lab:
                lab.set(particles=moving(tick, -1, 1))
                tally = lab.tally()
                self.assertEqual((tally.count, tally.px, tally.py), (1024, -1024, 1024))

    def test_shoot(self):
        for tick in TICKS:
            for vx, vy in ((1, 1), (-1, 1), (1, -1), (-1, -1)):
                with at(tick) as lab:
                    y, x = numpy.argwhere(moving(tick, vx, vy))[500].tolist()
                    shoot(lab, x, y, vx, vy)
                    self.assertEqual(lab.tally()[1:], (1, vx, vy))
                    with self.assertRaisesRegex(ValueError, f"at tick {tick} a particle"):
                        shoot(lab, x, y, -vx, vy)

    def test_a_snapshot_of_arrays(self):
        cells = moving(5, 1, 1)
        self.assertEqual(sums_of(Snapshot.from_arrays(cells, tick=5))[1:], (1024, 1024, 1024))
        with self.assertRaisesRegex(ValueError, "particles need tick="):
            Snapshot.from_arrays(cells)
        self.assertEqual(Snapshot.from_arrays(walls=cells).tick, 0)

    def test_a_new_journal_keeps_the_tick(self):
        for tick in TICKS:
            with at(tick) as lab:
                lab.fill(0.25, drift=(1.0, 1.0), seed=1)
                lab.fresh()
                tally = lab.tally()
                self.assertEqual((tally.tick, tally.px, tally.py), (tick, 1024, 1024))


class WhatReadsVelocities(unittest.TestCase):
    def test_of_a_laboratory(self):
        for tick in TICKS:
            with at(tick) as lab:
                lab.set(particles=moving(tick, 1, -1))
                field, table = velocity(lab, mean=8), profile(lab)
                self.assertTrue((field.px == 0.25).all() and (field.py == -0.25).all())
                self.assertEqual((table["px"].sum(), table["py"].sum()), (1024, -1024))

    def test_bare_cells_need_their_tick(self):
        for tick in TICKS:
            cells = moving(tick, 1, -1)
            self.assertTrue((velocity(cells, 8, tick).px == 0.25).all())
            self.assertEqual(profile(cells, tick=tick)["px"].sum(), 1024)
            self.assertEqual(wave(cells, 1, tick=tick), wave(Snapshot.from_arrays(cells, tick=tick), 1))
            self.assertEqual(picture_bytes(cells, colour="velocity", tick=tick),
                             picture_bytes(Snapshot.from_arrays(cells, tick=tick), colour="velocity"))
        for call in (lambda: velocity(cells), lambda: profile(cells), lambda: wave(cells, 1),
                     lambda: picture_bytes(cells, colour="velocity"),
                     lambda: text_picture(cells, colour="velocity")):
            with self.assertRaisesRegex(ValueError, "bare cells need tick="):
                call()
        self.assertEqual(picture_bytes(cells), picture_bytes(Snapshot.from_arrays(cells, tick=1)))
