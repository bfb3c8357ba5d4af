"""What the page does in JavaScript and the client in Python, by one list of cases each."""
import json
import random
import subprocess
import unittest

import numpy

from gaslab import place, truth_table
from gaslab.page.one_file import bundle
from gaslab.snapshot.rectangles import cover

from .stand_in import channel_gas
from .test_lab import ROOT, STAND_IN
from .test_measure import rows_of
from .test_page_engine import NODE, run_node

Y, X = numpy.ogrid[:64, :64]
DISC = (X - 30) ** 2 + (Y - 30) ** 2 <= 100
CROSS = (abs(X - 30) < 4) & (abs(Y - 30) < 20) | (abs(X - 30) < 20) & (abs(Y - 30) < 4)
FEWEST = [(numpy.zeros((64, 64), bool), 0), (X + Y >= 0, 1), ((Y == 5) & (X > 3), 1), (CROSS, 2),
          (DISC, len({int(row.sum()) for row in DISC if row.any()}))]
"""Cells, and the fewest rectangles that cover them."""


def shapes():
    draw = numpy.random.RandomState(3)
    yield from (cells for cells, _ in FEWEST)
    yield DISC & ((X - 30) ** 2 + (Y - 30) ** 2 > 81)
    yield from (draw.random_sample((64, 64)) < share for share in (0.02, 0.3, 0.9))


def by_page(cases):
    """What both.mjs prints of cases, with the modules that it needs."""
    engine = bundle("shapes") + bundle("truth").replace('"use strict";', "")
    done = subprocess.run([NODE, ROOT / "clients/python/tests/both.mjs"], stdout=subprocess.PIPE, text=True,
                          input=json.dumps({"engine": engine, "cases": cases}), check=True)
    return json.loads(done.stdout)


@unittest.skipUnless(NODE, "there is no node")
class Cover(unittest.TestCase):
    def covered(self, rectangles):
        found = numpy.zeros((64, 64), bool)
        for x, y, w, h in rectangles:
            self.assertTrue(x >= 0 and y >= 0 and w > 0 and h > 0 and x + w <= 64 and y + h <= 64)
            found[y:y + h, x:x + w] = True
        return found

    def test_exactly_the_cells_and_the_fewest_rectangles_of_simple_shapes(self):
        cells = list(shapes())
        cases = [{"cover": [64, 64, [[x, y] for y, x in numpy.argwhere(it).tolist()]]} for it in cells]
        for it, page in zip(cells, by_page(cases)):
            for rectangles in (page, cover(it, it)):
                self.assertTrue((self.covered(rectangles) == it).all())
        for (it, fewest), page in zip(FEWEST, by_page(cases)):
            self.assertEqual((len(page), len(cover(it, it))), (fewest, fewest))


def sets_after(lines, steps):
    """Particles, walls and obstacles some steps after lines were done, on 64 by 64 cells."""
    gas = channel_gas.Gas(64, 64)
    books = channel_gas.Books([0, 0, 0])
    for reply in channel_gas.session(0, [*lines, *["step 1"] * steps], gas, books, [], None):
        assert reply[0] == "OK", reply
    return gas.particles, gas.walls, gas.obstacles


@unittest.skipUnless(NODE, "there is no node")
class Places(unittest.TestCase):
    def test_a_script_that_is_placed_is_a_pattern_that_is_put(self):
        """At the same corner, on an empty gas, and some steps later."""
        draw, cases, scripts = random.Random(9), [], []
        for _ in range(30):
            x, y, w, h = draw.randint(0, 40), draw.randint(0, 40), draw.randint(2, 13), draw.randint(2, 13)
            dx, dy = (2 * draw.randint(-(at // 2), (64 - side - at) // 2) for at, side in ((x, w), (y, h)))
            cells = [(x + i, y + j) for i in range(w) for j in range(h)]
            kinds = {name: draw.sample(cells, len(cells) // part)
                     for name, part in (("particles", 3), ("walls", 9), ("obstacles", 9))}
            words = zip(("put", "wall", "block"), kinds.values())
            script = [f"{word} {i} {j} 1 1" for word, some in words for i, j in some]
            scripts.append((script, dx, dy))
            cases.append({"tick": 0, "later": 0, "rect": [x, y, w, h], "wanted": [x + dx, y + dy], **kinds})
        found = run_node("patterns.mjs", cases, "pattern")
        for case, (script, dx, dy), ((corner, lines), *_) in zip(cases, scripts, found):
            self.assertEqual(corner, case["wanted"])
            for steps in (0, 1, 8):
                self.assertEqual(sets_after(place(script, dx, dy).script, steps), sets_after(lines, steps),
                                 case)


@unittest.skipUnless(NODE, "there is no node")
class TruthTables(unittest.TestCase):
    def test_the_same_rows(self):
        """The gate of lesson 3, three inputs at once, and outputs that are rectangles."""
        cases = [([], 11, {"A": (10, 10), "B": (21, 21)}, {"both": (21, 10), "A alone": (21, 21)}),
                 (["wall 30 0 2 64"], 22, {"A": (10, 30), "B": (21, 41), "C": (43, 8)},
                  {"1": (32, 30), "2": (21, 19), "right": (32, 0, 32, 64)}),
                 ([], 1, {"A": (0, 0)}, {"there": (1, 1), "here": (0, 0), "all": (0, 0, 64, 64)})]
        found = by_page([{
            "size": [64, 64], "lines": lines, "cells": list(inputs.values()),
            "asked": [{"rect": [*area, 1, 1][:4], "tick": steps} for area in outputs.values()]}
            for lines, steps, inputs, outputs in cases])
        for (lines, steps, inputs, outputs), page in zip(cases, found):
            table = truth_table([*lines, f"step {steps}"], inputs, outputs, program=STAND_IN)
            self.assertEqual(page, [list(row) for row in rows_of(table)])
        self.assertEqual(found[2], [[0, 0, 0, 0], [1, 1, 0, 1]])  # by the rule: it flies with (1, 1)
