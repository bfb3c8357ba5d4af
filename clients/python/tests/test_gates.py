"""What builders of gates use: shoot, trace, truth tables, and scripts that are moved."""
import unittest

from gaslab import Ok, Refused, place, shoot, trace, truth_table
from gaslab.measure.areas import rectangles_of
from gaslab.measure.tables import columns_of

from .stand_in import channel_gas
from .test_lab import ROOT, STAND_IN, run
from .test_measure import rows_of

# The gate of lesson 3: two particles fly towards each other on a diagonal.
INPUTS = {"A": (10, 10), "B": (21, 21)}
OUTPUTS = {"A and B": (21, 10), "and B too": (10, 21), "A and not B": (21, 21),
           "B and not A": (10, 10)}


class Shooting(unittest.TestCase):
    def test_all_velocities_at_both_parities(self):
        """The particle is where its velocity says after each step, for a tick of each parity."""
        for wait in (0, 1):
            for vx in (1, -1):
                for vy in (1, -1):
                    with run() as lab:
                        if wait:
                            lab.step(wait)
                        x, y = (20 + ((v == 1) != (wait % 2 == 0)) for v in (vx, vy))
                        self.assertEqual(shoot(lab, x, y, vx, vy), Ok(wait))
                        lab.step(3)
                        found = rows_of(trace(lab, 0))
                        self.assertEqual(found, [(wait + 3, x + 3 * vx, y + 3 * vy, vx, vy)])

    def test_the_second_implementation_agrees(self):
        gas = channel_gas.Gas(64, 64)
        with run() as lab:
            for x, y in ((0, 0), (1, 0), (0, 1), (63, 63), (62, 63)):
                vx, vy = gas.velocity((x, y), 0)
                shoot(lab, x, y, vx, vy)
                self.assertRaises(ValueError, shoot, lab, x, y, -vx, vy)
                self.assertRaises(ValueError, shoot, lab, x, y, vx, -vy)

    def test_why_it_can_not(self):
        with run() as lab:
            lab.wall(4, 4, 1, 1)
            lab.block(6, 6, 1, 1)
            lab.put(8, 8, 1, 1)
            for call, why in (
                    ((3, 4, 1, 1), r"at tick 0 a particle in \(3, 4\) flies with \(-1, 1\); one "
                     r"with \(1, 1\) can start in \(4, 4\)"),
                    ((63, 63, 1, 1), r"can start in \(62, 62\)"),
                    ((2, 2, 0, 1), "vx and vy are 1 or -1"), ((2, 2, 1, 2), "vx and vy are 1 or"),
                    ((64, 2, 1, 1), "x is 0 to 63, and not 64"), ((2, -2, 1, 1), "y is 0 to 63, and not -2"),
                    ((4, 4, 1, 1), "is a wall or an obstacle"), ((6, 6, 1, 1), "is a wall or an"),
                    ((8, 8, 1, 1), "holds a particle already")):
                with self.assertRaisesRegex(ValueError, why):
                    shoot(lab, *call)
            self.assertEqual(len(lab.journal()), 3)


class Tracing(unittest.TestCase):
    def test_a_collision(self):
        """Lesson 3: they meet at tick 5 in (15, 15) and (16, 16), and turn by a quarter."""
        with run() as lab:
            lab.do("put 10 10 1 1\nput 21 21 1 1")
            table = trace(lab, 11)
        self.assertEqual(columns_of(table), ["tick", "x", "y", "vx", "vy"])
        found = {}
        for tick, x, y, vx, vy in rows_of(table):
            found.setdefault(tick, []).append((x, y, vx, vy))
        self.assertEqual(sorted(found), list(range(12)))
        self.assertEqual(found[0], [(10, 10, 1, 1), (21, 21, -1, -1)])
        self.assertEqual(found[5], [(15, 15, 1, 1), (16, 16, -1, -1)])
        self.assertEqual(found[11], [(21, 10, 1, -1), (10, 21, -1, 1)])

    def test_against_the_second_implementation(self):
        gas = channel_gas.Gas(64, 64)
        gas.particles = {(3, 3), (10, 8), (30, 31), (41, 5), (63, 0)}
        gas.walls = {(x, 20) for x in range(64)}
        books = channel_gas.Books(gas.sums(gas.particles))
        wanted = []
        for _ in range(31):
            wanted += [(gas.tick, x, y, *gas.velocity((x, y), gas.tick))
                       for x, y in sorted(gas.particles, key=lambda cell: cell[::-1])]
            gas.step(books)
        with run() as lab:
            lab.do(["wall 0 20 64 1", "put 3 3 1 1", "put 10 8 1 1", "put 30 31 1 1",
                    "put 41 5 1 1", "put 63 0 1 1"])
            self.assertEqual(rows_of(trace(lab, 30)), wanted)
            self.assertEqual(rows_of(trace(lab, -30))[-5:], wanted[:5])

    def test_too_many(self):
        with run() as lab:
            lab.put(0, 0, 13, 5)
            self.assertRaisesRegex(ValueError, "at most 64 particles, and there are 65", trace, lab, 3)
            self.assertEqual(lab.tally().tick, 0)


class TruthTables(unittest.TestCase):
    def test_the_gate_of_lesson_3(self):
        """The table is the one that the lesson shows."""
        table = truth_table("step 11", INPUTS, OUTPUTS, program=STAND_IN)
        self.assertEqual(columns_of(table), [*INPUTS, *OUTPUTS])
        self.assertEqual(rows_of(table), [(0, 0, 0, 0, 0, 0), (0, 1, 0, 0, 0, 1),
                                          (1, 0, 0, 0, 1, 0), (1, 1, 1, 1, 0, 0)])

    def test_the_two_gates_of_lesson_3(self):
        inputs = {"A": (10, 30), "B": (21, 41), "C": (43, 8)}
        outputs = {"1": (32, 30), "2": (21, 19), "3": (32, 19), "4": (21, 30), "5": (32, 52)}
        rows = rows_of(truth_table(["step 11", "step 11"], inputs, outputs, program=STAND_IN))
        for row in ((1, 1, 1, 1, 1, 0, 0, 0), (1, 1, 0, 0, 0, 1, 0, 0), (1, 0, 0, 0, 0, 0, 0, 1),
                    (1, 0, 1, 0, 0, 0, 1, 1)):
            self.assertIn(row, rows)
        self.assertEqual(len(rows), 8)

    def test_sizes_and_rectangles(self):
        table = truth_table("size 128 64\nput 100 0 2 1 # always\nstep 2", {"in": (80, 0, 3, 1)},
                            {"out": (64, 0, 64, 64)}, program=STAND_IN)
        self.assertEqual(rows_of(table), [(0, 2), (1, 5)])

    def test_several_rectangles(self):
        """Two particles fly right and down; either output has the sum of its parts."""
        table = truth_table("step 2", {"in": [(0, 0), (10, 0, 1, 1)]},
                            {"first": (2, 2), "both": [(2, 2), (12, 2, 4, 1)],
                             "none": [(20, 20), (30, 30, 2, 2)]}, program=STAND_IN)
        self.assertEqual(rows_of(table), [(0, 0, 0, 0), (1, 1, 2, 0)])

    def test_overlapping_rectangles(self):
        for areas in ([(0, 0, 2, 2), (1, 1)], [(5, 5), (5, 5)], [(0, 0, 9, 1), (3, 0, 1, 4)]):
            with self.assertRaisesRegex(ValueError, "overlap, so a particle there would count twice"):
                truth_table("step 1", {}, {"S": areas}, program=STAND_IN)
        self.assertEqual(rectangles_of([(0, 0, 2, 2), (2, 0), (0, 2, 2, 1)]),
                         [(0, 0, 2, 2), (2, 0, 1, 1), (0, 2, 2, 1)])

    def test_wrong_wishes(self):
        with self.assertRaisesRegex(Refused, "^line 2: ERR 6 steps"):
            truth_table("tally\nstep 0", INPUTS, OUTPUTS, program=STAND_IN)
        for inputs, outputs, what in (
                ({str(n): (n, 0) for n in range(11)}, {}, "at most 10 inputs"),
                (INPUTS, {"A": (1, 1)}, "outputs of other names"),
                ({"A": (1, 2, 3)}, {}, r"a cell is \(x, y\) and a rectangle")):
            with self.assertRaisesRegex(ValueError, what):
                truth_table("step 1", inputs, outputs, program=STAND_IN)


class Placing(unittest.TestCase):
    def test_what_is_moved(self):
        script = ["put 1 2 3 4", "erase 1 2 3 4", "wall 1 2 3 4", "block 1 2 3 4", "unwall 1 2 3 4",
                  "source 1 2 3 4 5", "drain 1 2 3 4", "probe 1 2 3 4", "unport", "step 7", "back 7",
                  "tally", "ledger", "read 9", "entry 3", "save", "quit"]
        self.assertEqual(place(script, 10, -2).script, [
            "put 11 0 3 4", "erase 11 0 3 4", "wall 11 0 3 4", "block 11 0 3 4", "unwall 11 0 3 4",
            "source 11 0 3 4 5", "drain 11 0 3 4", "probe 11 0 3 4", "unport", "step 7", "back 7",
            "tally", "ledger", "read 7", "entry 3", "save", "quit"])
        self.assertEqual(place("size 64 64\n# x\nrepeat 2 { put 0 0 1 1 }\n", 2, 4),
                         (2 * ["put 2 4 1 1"], {}, {}))

    def test_inputs_and_outputs_are_moved_too(self):
        placed = place("step 1", 10, -2, {"A": (0, 2), "B": [(2, 2, 3, 1), (8, 9)]}, {"S": (1, 4, 2, 2)})
        self.assertEqual(placed, (["step 1"], {"A": [(10, 0, 1, 1)], "B": [(12, 0, 3, 1), (18, 7, 1, 1)]},
                                  {"S": [(11, 2, 2, 2)]}))

    def test_a_gate_works_where_it_is_placed(self):
        script = (ROOT / "examples" / "3_gate.txt").read_text()
        with run() as lab, run(width=128, height=128) as other:
            self.assertEqual([reply for reply in other.do(place(script, 62, 70).script)],
                             lab.do(script))

    def test_wrong_wishes(self):
        for script, offset, what in (
                ("put 0 0 1 1", (1, 0), r"an offset is even in both directions, and not \(1, 0\)"),
                ("put 0 0 1 1", (0, -3), "an offset is even"),
                ("tally\nput 0 4 1 1", (-2, 0), "^line 2: put 0 4 1 1 would leave the lattice"),
                ("row 0 " + 16 * "0", (2, 2), "^line 1: row fills a whole row"),
                ("put 1", (2, 2), "^line 1: put takes x y w h"),
                ("put x y 1 1", (2, 2), "^line 1: put takes"), ("read", (2, 2), "read takes y"),
                ("read 0", (0, -2), "^line 1: read 0 would leave")):
            with self.assertRaisesRegex(ValueError, what):
                place(script, *offset)
        for more, what in (({"inputs": {"A": (1, 8)}}, r"^input A: \(1, 8, 1, 1\) would leave the lattice"),
                           ({"outputs": {"S": [(9, 8), (0, 8)]}}, r"^output S: \(0, 8, 1, 1\) would leave"),
                           ({"outputs": {"S": (1, 2, 3)}}, "a cell is")):
            with self.assertRaisesRegex(ValueError, what):
                place("step 1", -2, 0, **more)

    def test_the_edges_of_the_lattice_that_it_is_moved_into(self):
        script = ["put 60 10 4 2", "read 10"]
        self.assertEqual(place(script, 64, 52, size=(128, 64)).script, ["put 124 62 4 2", "read 62"])
        for offset, line in (((66, 52), "line 1: put 60 10 4 2"), ((64, 54), "line 1: put 60 10 4 2")):
            with self.assertRaisesRegex(ValueError, f"^{line} would leave the lattice"):
                place(script, *offset, size=(128, 64))
        with self.assertRaisesRegex(ValueError, "^line 2: read 10 would leave the lattice"):
            place(["step 1", "read 10"], 0, 54, size=(64, 64))
        with self.assertRaisesRegex(ValueError, "^output S: "):
            place("step 1", 2, 0, outputs={"S": (62, 0)}, size=(64, 64))

    def test_a_gate_that_was_placed_has_the_same_truth_table(self):
        placed = place("step 11", 64, 2, INPUTS, OUTPUTS, size=(128, 64))
        self.assertEqual(rows_of(truth_table(*placed, program=STAND_IN, width=128)),
                         rows_of(truth_table("step 11", INPUTS, OUTPUTS, program=STAND_IN)))
