"""What is taken for cells and for whole numbers, and what is refused with the rule."""
import pickle
import unittest

import numpy

from gaslab import Lab, Snapshot, every, picture, profile, random_gas, velocity, wave

from .test_lab import run

ONES = numpy.ones((64, 128), bool)
NAMES = "particles", "walls", "obstacles"


class Cells(unittest.TestCase):
    def test_truth_values_and_whole_numbers(self):
        with run(width=128) as lab:
            whole = ONES.astype(int)
            for cells in (ONES, whole, ONES.astype(numpy.uint8), ONES.tolist(), whole.tolist()):
                for name in NAMES:
                    lab.set(**{name: cells})
                    gas = lab.look()
                    self.assertTrue(getattr(gas, name).all(), name)
                    lab.erase(0, 0, 128, 64)
                    lab.unwall(0, 0, 128, 64)

    def test_anything_else_is_refused_with_the_rule(self):
        two = ONES.astype(int)
        two[3, 5] = 2
        truth = "truth values, or whole numbers 0 and 1, and not "
        with run(width=128) as lab:
            for cells, rule in (
                    (0.3, "is an array of truth values, and not 0.3"), (ONES * 0.5, truth + "float64"),
                    (ONES.astype(float), truth + "float64"), (two, truth + r"2 at \(3, 5\)"),
                    (-ONES.astype(int), truth + r"-1 at \(0, 0\)"), (ONES.astype(str), truth + "<U"),
                    (ONES.T, r"\(height, width\), here \(64, 128\), and not \(128, 64\)"),
                    (ONES[:63], r"\(height, width\), both multiples of 64 .* and not \(63, 128\)"),
                    (ONES[0], r"and not \(128,\)"),
                    ([[True] * 128] * 63 + [[True]], "rows of several widths")):
                for name in NAMES:
                    with self.assertRaisesRegex(ValueError, f"^{name} has .*{rule}|^{name} {rule}"):
                        lab.set(**{name: cells})
            for cells in ([0.5] * 128, ["1"] * 128, 1):
                self.assertRaisesRegex(ValueError, "a row (has|is an array of) truth", lab.row, 0, cells)
            self.assertEqual(lab.journal(), [])

    def test_those_of_a_snapshot_are_made_once_and_stay(self):
        gas = Snapshot.from_arrays(ONES, ONES, ONES, tick=0)
        for it in (gas, pickle.loads(pickle.dumps(gas))):
            for name in ("particles", "walls", "obstacles"):
                cells = getattr(it, name)
                self.assertIs(getattr(it, name), cells)
                with self.assertRaisesRegex(ValueError, "read-only"):
                    cells[0, 0] = False
                self.assertTrue(cells.copy().flags.writeable)
        self.assertEqual(pickle.loads(pickle.dumps(gas)), gas)


class WholeNumbers(unittest.TestCase):
    def test_a_part_of_one_is_a_type_error_that_names_it(self):
        with run() as lab:
            calls = {
                "n": lambda it: lab.step(it), "y": lambda it: lab.read(it),
                "x": lambda it: lab.probe(it, 0, 1, 1),
                "steps": lambda it: every(lab, it, 1), "times": lambda it: every(lab, 1, it),
                "across": lambda it: wave(lab, it), "mean": lambda it: velocity(lab, it),
                "bins": lambda it: profile(lab, bins=it), "scale": lambda it: picture(lab, scale=it),
                "each": lambda it: lab.advance(1, it), "tries": lambda it: lab.look(it),
                "seed": lambda it: random_gas(64, 64, 0.1, seed=it), "cap": lambda it: Lab.run(cap=it),
                "workers": lambda it: Lab.run(workers=it), "port": lambda it: Lab.join("", it)}
            for name, call in calls.items():
                for number in (1.5, 1.0, "1", None):
                    if name in ("bins", "scale", "seed") and number is None:
                        continue
                    with self.assertRaisesRegex(TypeError, f"^{name} is a whole number, and not {number!r}"):
                        call(number)
            self.assertEqual(lab.tally().tick, 0)

    def test_numbers_of_numpy_are_whole(self):
        one = numpy.int64(1)
        with run(width=numpy.int64(64), workers=one) as lab:
            lab.put(one, one, one, one)
            lab.step(one)
            self.assertEqual(lab.probe(numpy.uint8(0), 0, one, 1).count, 1)
            self.assertEqual(len(every(lab, one, one)), 1)
