"""Patterns of the page: selected, turned, mirrored, put and undone."""
import json
import random
import subprocess
import sys
import unittest

from .firefox import FIREFOX, Firefox
from .page_case import CALLOUT, PLACES, PageCase
from .stand_in import channel_gas
from .test_browser import Started
from .test_lab import ROOT, STAND_IN
from .test_page_engine import NODE, run_node

SAID = "document.getElementById('said').textContent"
ERASE = "erase 0 0 64 64"
KEYS = {"c": 67, "t": 84, "Enter": 13, "ArrowRight": 39, "ArrowDown": 40}


def after(steps, lines, tick=0):
    """Particles, walls and obstacles some steps after lines were done at a tick, on 64 by 64 cells."""
    gas = channel_gas.Gas(64, 64)
    lines = [*["step 1"] * tick, *lines, *["step 1"] * steps]
    replies = list(channel_gas.session(0, lines, gas, channel_gas.Books([0, 0, 0]), [], None))
    assert all(reply[0] == "OK" for reply in replies), replies
    return gas.particles, gas.walls, gas.obstacles


def turned(cell, size):
    """A cell of a rectangle of that size after a turn by a quarter to the right."""
    (x, y), (_, height) = cell, size
    return height - 1 - y, x


def mirrored(cell, size):
    (x, y), (width, _) = cell, size
    return width - 1 - x, y


def same(cell, _):
    return cell


def mapped(sets, how, size, here, there):
    """Sets of cells on the torus, seen from a corner, mapped, and laid at another one."""
    return tuple({tuple((v + c) % 64 for v, c in zip(how([(v - c) for v, c in zip(cell, here)], size), there))
                  for cell in cells} for cells in sets)


@unittest.skipUnless(NODE, "there is no node")
class Futures(unittest.TestCase):
    def cases(self, count):
        draw = random.Random(5)
        for _ in range(count):
            x, y, w, h = draw.randint(0, 50), draw.randint(0, 50), draw.randint(1, 13), draw.randint(1, 13)
            cells = [(x + i, y + j) for i in range(w) for j in range(h)]
            chosen = [[cell for cell in cells if draw.random() < share] for share in (.4, .06, .06)]
            yield {"tick": draw.randrange(4), "later": draw.randrange(4), "rect": [x, y, w, h],
                   "wanted": [draw.randint(-9, 70), draw.randint(-9, 70)],
                   **dict(zip(("particles", "walls", "obstacles"), chosen))}

    def test_turn_then_run_is_run_then_turn(self):
        """And so for a mirror, and for a pattern put at another tick, with walls and obstacles."""
        cases = list(self.cases(40))
        for case, put in zip(cases, run_node("patterns.mjs", cases, "pattern")):
            x, y, *size = case["rect"]
            lines = [f"{word} {i} {j} 1 1" for word, kind in (("put", "particles"), ("wall", "walls"),
                     ("block", "obstacles")) for i, j in case[kind]]
            for (corner, commands), how in zip(put, (same, turned, mirrored)):
                for steps in (0, 1, 2, 9, 30):
                    wanted = mapped(after(steps, lines, case["tick"]), how, size, (x, y), corner)
                    self.assertEqual(after(steps, commands, case["later"]), wanted, (case, how, steps))

    def test_the_place_is_the_nearest_of_its_parity(self):
        """Of all places on the lattice that lie as the corner did none is nearer by more than a tie."""
        for case, put in zip(cases := list(self.cases(40)), run_node("patterns.mjs", cases, "pattern")):
            (x, y, w, h), ((found, _), *_) = case["rect"], put
            moved = (case["tick"] - case["later"]) % 2
            places = [(i, j) for i in range(65 - w) for j in range(65 - h)
                      if (i - x) % 2 == moved and (j - y) % 2 == moved]
            far = [max(abs(i - case["wanted"][0]), abs(j - case["wanted"][1])) for i, j in places]
            self.assertIn(tuple(found), places)
            self.assertEqual(min(far), far[places.index(tuple(found))])


class Selected(PageCase):
    SETUP = ["put 10 10 3 1", "put 14 12 1 1", "wall 10 14 2 1", "block 15 10 1 2"]
    RECT = [(9, 9), (16, 15)]          # 8 by 7 cells

    def setUp(self):
        self.open("empty")
        self.send(*self.SETUP)
        self.value("laboratory.chooseTool('select')")
        self.start = self.sets()
        self.pull(self.RECT)

    def press(self, name):
        self.value("[...document.querySelectorAll('#options button')]"
                   f".find((it) => it.textContent === '{name}').click()")
        self.settle()

    def sets(self):
        """Particles, walls and obstacles as sets of cells."""
        found = self.value("""(({ view: v }) => [v.picture.particles, v.walls, v.obstacles].map((set) =>
            Array.from({ length: 4096 }, (_, k) => k)
              .filter((k) => set[k >> 3] >> (7 - (k & 7)) & 1)))(laboratory)""")
        return tuple({(k % 64, k // 64) for k in cells} for cells in found)

    def moved(self, how=same, there=(9, 9)):
        return mapped(self.start, how, (8, 7), (9, 9), there)

    def both(self, other):
        return tuple(a | b for a, b in zip(self.start, other))

    def wait(self, sets):
        """Waits until the page shows this gas."""
        self.settle()
        self.assertEqual(self.sets(), sets)

    def test_it_is_said_and_drawn(self):
        self.assertIn("Selected: 8 × 7 cells from 9 9.", self.value(SAID))

    def test_a_copy_snaps_to_the_nearest_place_that_parity_lets(self):
        """Its corner is odd and odd at tick 0, so it is so after the paste. The page says it."""
        self.press("Copy")
        self.press("Paste")
        self.pull([(40, 40)])          # the middle: the corner would be 36 37
        self.wait(self.both(self.moved(there=(37, 37))))
        self.assertIn("Put at 37 37.", self.value(SAID))

    def test_while_it_is_held_only_such_places_are_shown(self):
        self.press("Copy")
        self.press("Paste")
        for cell, corner in (((41, 41), "37 39"), ((44, 41), "41 39"), ((0, 0), "1 1"), ((63, 63), "55 57")):
            place, = self.value(PLACES.replace("CELLS", json.dumps([cell])))
            self.hover(*place)
            self.assertIn(f"Corner {corner}: at tick 0 only in odd columns and odd rows.", self.value(SAID))

    def hover(self, x, y):
        self.value(f"laboratory.view.canvas.dispatchEvent(new PointerEvent('pointermove', "
                   f"{{ clientX: {x}, clientY: {y}, pointerId: 1 }}))")

    def test_at_the_next_tick_the_other_places_are_offered(self):
        self.press("Copy")
        self.send("step 1", ERASE, "unwall 0 0 64 64")
        self.press("Paste")
        self.pull([(40, 40)])
        self.wait(self.moved(there=(36, 38)))

    def test_one_undo_takes_a_paste_back(self):
        self.press("Copy")
        self.press("Paste")
        self.pull([(40, 40)])
        self.assertNotEqual(self.sets(), self.start)
        self.assertEqual(self.undo(), "")
        self.wait(self.start)

    def test_what_is_pulled_moves_and_one_undo_brings_it_back(self):
        self.pull([(12, 12), (20, 20), (33, 35)])
        self.wait(self.moved(there=(31, 33)))
        self.undo()
        self.wait(self.start)

    def test_cut_and_undo(self):
        self.press("Cut")
        self.wait((set(), set(), set()))
        self.undo()
        self.wait(self.start)

    def test_turned_and_mirrored_in_place(self):
        """Turned, it has 7 by 8 cells and another parity: it is a cell beside its old middle at most."""
        self.press("Mirror")
        self.wait(self.moved(mirrored, (9, 9)))
        self.undo()
        self.press("Turn")
        found = self.sets()
        self.assertIn(found, [self.moved(turned, (9 + i, 9 + j)) for i in (0, 1) for j in (-1, 0, 1)])
        self.send("step 12")
        size, here = (8, 7), (9, 9)
        there = next((9 + i, 9 + j) for i in (0, 1) for j in (-1, 0, 1)
                     if self.moved(turned, (9 + i, 9 + j)) == found)
        self.assertEqual(self.sets(), mapped(after(12, self.SETUP), turned, size, here, there))

    def test_by_keys(self):
        """Enter starts the cursor in the middle, 32 32. What is held goes with it, and Enter puts it."""
        self.value("laboratory.view.canvas.focus()")
        for key, code, modifiers in (("c", 67, 2), ("v", 86, 2), ("t", 84, 0), ("Enter", 13, 0),
                                     ("ArrowRight", 39, 0), ("ArrowRight", 39, 0), ("Enter", 13, 0)):
            self.browser.key(key, code, modifiers)
            self.settle()
        corner = [int(v) for v in self.value(SAID).partition("Put at ")[2].partition(".")[0].split()]
        self.wait(self.both(self.moved(turned, corner)))
        self.assertLessEqual(max(abs(corner[0] - 31), abs(corner[1] - 28)), 1)

    def test_selected_and_moved_by_keys_alone(self):
        """The cursor starts in the middle, 32 32. Enter in the selection lifts it, and T turns it."""
        self.open("empty")
        self.send("put 32 32 1 1", "put 34 33 1 1")
        self.value("document.activeElement.blur(), laboratory.view.canvas.focus()")
        keys = ["c", "Enter", "Enter", "ArrowRight", "ArrowRight", "ArrowDown", "Enter"]
        for key in keys:
            self.browser.key(key, KEYS[key])
        self.settle()
        self.assertIn("Selected: 3 × 2 cells from 32 32", self.value(SAID))
        for key in ("Enter", *["ArrowDown"] * 4, "t", "Enter"):
            self.browser.key(key, KEYS[key])
        self.settle()
        # 3 by 2 cells are 2 by 3 now, and their corner is even and even at tick 0, as before
        found = self.sets()[0]
        x, y = (min(cell[k] for cell in found) for k in (0, 1))
        wanted = [turned(cell, (3, 2)) for cell in ((0, 0), (2, 1))]
        self.assertEqual(found, {(x + i, y + j) for i, j in wanted})
        self.assertEqual((x % 2, y % 2), (0, 0))
        self.assertIn("Put at", self.value("document.getElementById('spoken').textContent"))
        self.undo()
        self.assertEqual(self.sets()[0], {(32, 32), (34, 33)})

    def test_a_pattern_of_rows_is_laid_by_rows(self):
        """A random gas has more rectangles than rows. What lies beside it in its rows stays."""
        draw = random.Random(3)
        cells = {(x, y) for x in range(0, 32) for y in range(40, 64) if draw.random() < .5}
        rows = [f"row {y} {channel_gas.row_bits(cells, 64, y):016x}" for y in range(40, 64)]
        self.send(*rows, "put 60 44 1 1")
        self.start = self.sets()
        self.pull([(0, 40), (31, 63)])
        self.pull([(4, 44), (24, 42)])
        self.wait(({((x + 20) if (x, y) in cells else x, y - 2 if (x, y) in cells else y)
                    for x, y in self.start[0]}, *self.start[1:]))
        lines = self.value("laboratory.edits.list.at(-1).lines")
        self.assertEqual({line.split(" ")[0] for line in lines}, {"erase", "row"})
        self.undo()
        self.wait(self.start)

    def test_its_script_is_replayed(self):
        """By the second implementation, with no refusal, to the same tally and ledger."""
        self.press("Turn")
        self.pull([(12, 12), (41, 35)])
        self.send("step 7")
        self.press("Mirror")
        self.press("Cut")
        self.press("Paste")
        self.pull([(20, 20)])
        self.send("step 3")
        script = self.value("laboratory.lab.link.fetch('.script').then(([{ contents }]) =>"
                            " new TextDecoder().decode(contents))")
        done = subprocess.run([sys.executable, ROOT / "tools" / "channel_gas.py"], input=script, text=True,
                              stdout=subprocess.PIPE, check=True)
        self.assertNotIn("ERR", done.stdout)
        shown = self.value("laboratory.lab.link.send(['tally', 'ledger'])")
        self.assertEqual(done.stdout.splitlines()[-2:], shown)

    def test_what_is_too_large_is_refused(self):
        self.open("clap")
        self.value("laboratory.send(['.open 512 256 wide'])")
        self.settle()
        self.value("laboratory.chooseTool('select')")
        self.pull([(1, 1), (400, 200)])
        self.assertIn("A selection has at most 65,536 cells.", self.value(CALLOUT))

    def test_a_button_without_a_selection_says_what_to_do(self):
        self.value("document.getElementById('gas').focus()")
        self.browser.key("Escape", 27)
        for name in ("Copy", "Cut", "Turn", "Mirror"):
            self.press(name)
            self.assertIn("Pull a rectangle first", self.value(CALLOUT))


class ByOthers(PageCase):
    """Select on a phone, and on the page of a server."""
    SETUP = Selected.SETUP
    sets, moved, press = Selected.sets, Selected.moved, Selected.press

    def swipe(self, *cells):
        """Pulls a finger over cells."""
        places = self.value(PLACES.replace("CELLS", json.dumps(cells)))
        self.browser.touch("touchStart", places[0])
        for place in places[1:]:
            self.browser.touch("touchMove", place)
        self.browser.touch("touchEnd")
        self.settle()

    def test_a_finger_selects_and_puts(self):
        """On a phone, where what is held follows the finger, and is put where it is lifted."""
        self.open("empty", size=(390, 844))
        self.send(*self.SETUP)
        self.start = self.sets()
        self.value("laboratory.chooseTool('select')")
        self.swipe((9, 9), (12, 12), (16, 15))
        self.assertIn("Selected: 8 × 7 cells", self.value(SAID))
        self.press("Cut")
        self.press("Paste")
        self.swipe((20, 20), (30, 30), (40, 40))
        self.assertEqual(self.sets(), self.moved(there=(37, 37)))
        heights = self.value("[...document.querySelectorAll('#options button')].map((it) => it.offsetHeight)")
        self.assertGreaterEqual(min(heights), 44)

    def test_two_fingers_put_nothing(self):
        self.open("empty", size=(390, 844))
        self.send(*self.SETUP)
        self.start = self.sets()
        self.value("laboratory.chooseTool('select')")
        self.swipe((9, 9), (16, 15))
        a, b, c = self.value(PLACES.replace("CELLS", "[[12, 12], [30, 30], [40, 50]]"))
        self.browser.touch("touchStart", a)
        self.browser.touch("touchMove", b)
        self.browser.touch("touchStart", b, c)
        self.browser.touch("touchEnd")
        self.settle()
        self.assertEqual(self.sets(), self.start)

    def test_over_a_server(self):
        """The program behind the page gets the same lines, and its gas is the same."""
        with Started("--program", STAND_IN) as server:
            self.open("", server.links[0])
            self.value("laboratory.lab.link.send(['.pause'])")
            self.send("unport", ERASE, "unwall 0 0 64 64", *self.SETUP)
            self.settle()
            tick = self.tick()
            self.start = self.sets()
            self.value("laboratory.chooseTool('select')")
            self.pull(Selected.RECT)
            self.press("Cut")
            self.press("Paste")
            self.pull([(40, 40)])
            self.assertEqual((self.sets(), self.tick()), (self.moved(there=(37, 37)), tick))
            self.assertEqual(self.undo(), "")
            self.undo()
            self.assertEqual(self.sets(), self.start)


class SelectedInFirefox(Selected):
    program, make_browser = FIREFOX, Firefox


if __name__ == "__main__":
    unittest.main()
