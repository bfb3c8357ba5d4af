"""What pages say of random and even gases, in short, over the second implementation."""
import csv
import math
import os
import re
import subprocess
import sys
import unittest
from fractions import Fraction

from .test_lab import ROOT, STAND_IN, run


def measured(*words):
    done = subprocess.run([sys.executable, ROOT / "tools" / "measure_lessons", *words, "--side", "64",
                           "--program", STAND_IN], stdout=subprocess.PIPE, text=True, check=True)
    return [{name: float(number) for name, number in row.items()}
            for row in csv.DictReader(done.stdout.splitlines())]


@unittest.skipIf(os.environ.get("WITHOUT_PANDAS"), "the tool's tables are the same without pandas")
class MeasuredLessons(unittest.TestCase):
    def test_two_waves_decay_and_two_do_not(self):
        """An amplitude over n cells deviates by (2 * density / n) ** 0.5, and a share is of two of them."""
        density, height, runs = 0.5, 0.6, 2
        deviation = (2 * density / (64 * 64) * 2 / runs) ** 0.5 / (density * height)
        rows = measured("waves", "--runs", str(runs), "--height", str(height))
        self.assertEqual([row["tick"] for row in rows], list(range(0, 161, 16)))
        for name in ("sound along the axis", "shear along the diagonal"):
            self.assertEqual({(row[name], row[f"error of {name}"]) for row in rows}, {(1, 0)})
        for name in ("sound along the diagonal", "shear along the axis"):
            self.assertEqual(rows[0][name], 1)
            self.assertLess(rows[-1][name], 1 - 4 * deviation)

    def test_a_viscosity(self):
        """At density 1/2 Boltzmann's theory gives 1/2. A wave of 64 columns falls in a tick by the factor
        exp(-viscosity * (2 pi / 64) ** 2), and each height deviates as in the test above."""
        density, height, runs = 0.5, 0.6, 3
        deviation = (2 * density / (64 * 64) / runs) ** 0.5 / (density * height)
        rows = measured("viscosity", "--runs", str(runs), "--height", str(height))
        self.assertEqual([(row["from"], row["to"]) for row in rows],
                         [(0, 32), (32, 64), (64, 96), (96, 128), (128, 160), (32, 128)])
        scale = (64 / (2 * math.pi)) ** 2
        late = math.exp(-0.5 * 128 / scale)
        self.assertLess(abs(rows[-1]["viscosity"] - 0.5), 4 * scale / 96 * 2 ** 0.5 * deviation / late)

    def test_the_drag_at_first(self):
        """At density 1/4 and speed 1, two columns of right-movers with half of their cells full arrive in the
        first 4 ticks, and each particle leaves 2 behind. 18 rows are stopped. In 4 ticks no row hears of an
        edge that is 4 rows away, so in 10 of the 18 the mean is that of an endless plate."""
        runs, arriving = 4, 2 * 0.5
        deviation = 2 * (2 * 18 * 0.5 * 0.5 / runs) ** 0.5 / 4
        row, = measured("drag", "--runs", str(runs), "--speeds", "1")
        least, most = (2 * arriving * rows / 4 for rows in (10, 18))
        self.assertGreater(row["drag in ticks 0 to 4"], least - 4 * deviation)
        self.assertLess(row["drag in ticks 0 to 4"], most + 4 * deviation)


class EvenBackgrounds(unittest.TestCase):
    def test_density_and_momentum(self):
        """Each square holds the density of its row in the table, and the same with full for empty."""
        table = re.findall(r"^\| (\d/\d) \| `([0-9a-f ]{15})` \| (\d/\d) \|$",
                           (ROOT / "examples" / "even_backgrounds.md").read_text(), re.M)
        self.assertEqual([row[0] for row in table], ["1/8", "1/4", "3/8", "1/2"])
        for density, digits, other in table:
            complement = " ".join(f"{15 - int(digit, 16):x}" for digit in digits.split())
            for share, rows in ((density, digits.split()), (other, complement.split())):
                with run() as lab:
                    lab.do(f"row {y} {16 * rows[y % 8]}" for y in range(64))
                    for _ in range(3):
                        squares = {tuple(lab.probe(x, y, 8, 8)) for x in (0, 24, 53) for y in (0, 9, 40)}
                        self.assertEqual(squares, {(64 * Fraction(share), 0, 0)})
                        lab.step(3)
