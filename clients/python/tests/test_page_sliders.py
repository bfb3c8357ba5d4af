"""A lesson's sliders: it begins anew with their values, by lines that the journal has."""
import cmath
import json
import unittest

from gaslab import random_gas

from .firefox import FIREFOX, Firefox
from .page_case import CALLOUT, LESSON, READY, PageCase
from .test_browser import Started
from .test_lab import ROOT, STAND_IN
from .test_page_engine import NODE, PAGE, run_engine, run_node, run_second, second

CODES = {"Home": 36, "ArrowRight": 39}


def lessons():
    made = json.loads((PAGE / "static" / "lessons.json").read_text())
    return {it["id"]: it for it in made["lessons"] + made["scenes"]}


def starts(*cases):
    """The lines of a lesson's start for each (id, values)."""
    known = lessons()
    asked = [[known[name], values] for name, values in cases]
    return [lines for _, lines in run_node("starts.mjs", asked, "parameters")]


def height_of(rows, length, diagonal):
    """The height of a wave in 128 by 128 cells, as a complex number: a crest in the cell (0, 0) is real."""
    cells = [f"{int(row, 16):0128b}" for row in rows]
    return 2 / 128 ** 2 * sum(cmath.exp(-2j * cmath.pi * (x + diagonal * y) / length)
                              for y in range(128) for x in range(128) if cells[y][x] == "1")


@unittest.skipUnless(NODE, "there is no node")
class Starts(unittest.TestCase):
    def test_with_their_own_values_lessons_begin_as_ever(self):
        """But for scenes that are random, and in no example."""
        fixed = [name for name, it in lessons().items() if not it.get("isRandom")]
        for name, lines in zip(fixed, starts(*((name, {}) for name in fixed))):
            self.assertEqual(lines, lessons()[name]["setup"], name)

    def test_other_values(self):
        """The obstacle of lesson 4 is in the middle of its tunnel, and there is none of 0 rows."""
        tunnel = lessons()["4"]["setup"]
        source = tunnel.index("source 4 18 2 28 1")
        high, thin, box, hole = starts(("4", {"height": 8, "depth": 2}), ("4", {"every": 4}),
                                       ("6", {"width": 8, "height": 0}), ("hole", {"hole": 0}))
        self.assertEqual(high, [*tunnel, "block 30 28 2 8"])
        self.assertEqual(thin, [*tunnel[:source], "source 4 18 2 28 4", *tunnel[source + 1:]])
        self.assertEqual(box[-1], "put 4 4 8 56")
        self.assertEqual([line for line in box if line.startswith("block")], [])
        self.assertEqual(hole[3:5], ["wall 27 17 1 15", "wall 27 32 1 15"])

    def test_starts_that_lessons_speak_of(self):
        """Lesson 10 with its button's wall, and lesson 11 without obstacles: its third script."""
        button = lessons()["10"]["tries"][2]["lines"]
        walled, free = starts(("10", {"height": 16}), ("11", {"height": 0}))
        self.assertEqual(walled, [*lessons()["10"]["setup"], *button])
        script = (ROOT / "examples" / "11_lines.txt").read_text().splitlines()
        self.assertEqual(free, [line for line in script if line.startswith("row")])

    def test_a_random_start_is_the_clients(self):
        wind, = starts(("wind", {"density": 30, "right": -75, "height": 8, "seed": 7}))
        gas = random_gas(128, 64, .3, -.75, seed=7, tick=0)
        self.assertEqual(wind, [*gas, "erase 62 28 4 8", "block 62 28 4 8"])

    def test_a_wave_has_its_length_and_its_height(self):
        """An amplitude over n cells deviates by (2 * density / n) ** 0.5."""
        for length, diagonal in ((32, 0), (64, 1)):
            lines, = starts(("wave", {"length": length, "diagonal": diagonal, "high": 40, "density": 50}))
            rows = [line.split(" ")[2] for line in lines]
            self.assertLess(abs(height_of(rows, length, diagonal) - .5 * .4), 4 * (2 * .5 / 128 ** 2) ** .5)

    def test_a_wave_fades_along_a_diagonal_alone(self):
        """After 512 ticks, 16 wavelengths: along the rows it is as high as at the start."""
        for diagonal in (0, 1):
            lines, = starts(("wave", {"length": 32, "diagonal": diagonal}))
            asks = [f"read {y}" for y in range(128)]
            replies, = run_engine([[128, 128, [[*lines, *asks, "step 512", *asks]], -1]])
            rows = [it.split(" ")[1] for it in replies if it.startswith("ROW")]
            first, last = (height_of(it, 32, diagonal) for it in (rows[:128], rows[128:]))
            if diagonal:
                self.assertLess(abs(last), .25 * abs(first))
            else:
                self.assertAlmostEqual(last, first, 9)

    def test_each_value_of_each_slider_is_taken(self):
        """By the second implementation: no line is refused. Of rows only the form is tried, to save time."""
        cases = [(name, {slider["id"]: value}) for name, it in lessons().items()
                 for slider in it.get("sliders", ()) for value in slider["values"]]
        self.assertGreater(len(cases), 80)
        channel_gas, known, refused = second(), lessons(), []
        for (name, values), lines in zip(cases, starts(*cases)):
            width, height = known[name]["size"]
            rows = [line for line in lines if line.startswith("row ")]
            for line in rows:
                self.assertRegex(line, rf"^row \d+ [0-9a-f]{{{width // 4}}}$")
            replies = run_second(channel_gas, width, height, [line for line in lines if line not in rows])
            refused += [(name, values, it) for it in replies if not it.startswith("OK")]
        self.assertEqual(refused, [])

    def test_a_server_keeps_the_longest_title(self):
        """It cuts what pages call a gas after 80 signs."""
        for it in lessons().values():
            ends = [f" · {slider['id']} {max(map(str, slider['values']), key=len)}"
                    for slider in it.get("sliders", ())]
            self.assertLessEqual(len(it["name"] + "".join(ends)), 80)

    def test_own_values_are_among_those_of_the_slider(self):
        for name, it in lessons().items():
            for slider in it.get("sliders", ()):
                self.assertIn(slider["value"], slider["values"], (name, slider))


class Sliders(PageCase):
    def press(self, name, *keys):
        """Presses keys on the slider of a name, as a person does who can't use a mouse."""
        self.value("[...document.querySelectorAll('.sliders label')]"
                   f".find((e) => e.textContent.startsWith('{name}')).querySelector('input').focus()")
        for key in keys:
            self.browser.key(key, CODES[key])
        self.browser.wait("!laboratory.lab.loading && laboratory.lab.picture != null", True)
        self.settle()

    def text(self, name):
        return self.value("[...document.querySelectorAll('.sliders label')].find((e) => "
                          f"e.textContent.startsWith('{name}')).querySelector('input').ariaValueText")

    def test_the_drag_of_a_higher_obstacle(self):
        """Lesson 4 takes 1 for each of 4 + 2 rows. It plays on, and is the lesson still; the focus stays."""
        self.open("4")
        self.run_to(20)
        self.press("Height", "ArrowRight", "ArrowRight")
        self.assertEqual(self.text("Height"), "4 rows")
        self.assertEqual(self.value(LESSON), "A tunnel")
        self.assertEqual(self.value("document.activeElement.type"), "range")
        self.browser.wait("laboratory.lab.playing", True)
        self.send(".play 2 60")
        self.run_to(130)
        self.assertEqual(self.drag(), "6")
        self.assertEqual(self.value("document.getElementById('banner').hidden"), True)

    def test_its_saved_script_makes_the_same_gas(self):
        """In the second implementation, with no line refused. The first lines are the lesson's start."""
        self.open("wind")
        self.send(".pause")
        self.browser.wait("laboratory.lab.playing", False)
        self.press("Seed", "ArrowRight")
        self.browser.wait("laboratory.lab.playing", False)
        self.send("step 7")
        script = self.value("laboratory.lab.link.fetch('.script')"
                            ".then(([f]) => new TextDecoder().decode(f.contents))").splitlines()
        start, = starts(("wind", {"seed": 2}))
        self.assertEqual(script, ["probe 0 0 128 64", *start, "step 7", "tally", "ledger"])
        replies = run_second(second(), 128, 64, script)
        self.assertEqual([it for it in replies if it.startswith("ERR")], [])
        self.assertEqual(replies[-2:], self.value("laboratory.lab.link.send(['tally', 'ledger'])"))

    def test_start_again_takes_the_lessons_own_values(self):
        self.open("6")
        self.press("Width", "Home")
        self.assertEqual(self.value("laboratory.lab.picture.tally[0]"), 4 * 56)
        self.value("document.querySelector('#lesson .again').click()")
        self.browser.wait("laboratory.lab.picture?.tally[0]", 1120)
        self.assertEqual(self.text("Width"), "20 columns")

    def test_what_was_drawn_can_be_brought_back_with_its_values(self):
        self.open("6")
        self.press("Width", "Home")
        self.send("put 40 50 2 2")
        before = self.state()
        self.press("Width", "ArrowRight")
        self.assertEqual(self.value("laboratory.lab.picture.tally[0]"), 8 * 56)
        self.value("document.querySelector('#banner button').click()")
        self.browser.wait("laboratory.lab.picture?.tally[0]", 4 * 56 + 4)
        self.settle()
        self.assertEqual((self.state(), self.text("Width")), (before, "4 columns"))

    def test_a_reload_keeps_the_values(self):
        self.open("6")
        self.press("Width", "Home")
        self.send("step 3")
        self.value("globalThis.isBefore = true; location.reload()")
        self.browser.wait("globalThis.isBefore", None)
        self.browser.wait(f"({READY}) && document.getElementById('banner').textContent.includes('kept over')",
                          True)
        self.assertEqual((self.tick(), self.text("Width")), (3, "4 columns"))

    def test_seats(self):
        """The page takes the second seat, which may open no gas: it says so, and the slider goes back. The
        first one begins with other values, and the page shows them."""
        self.open("6")
        self.value("window.first = laboratory.lab.link;"
                   "first.on = new Proxy({}, { get: () => () => {} }); laboratory.join()")
        self.settle()
        self.value("first.send(['.open 64 64 A tunnel · height 8'])")
        self.browser.wait(LESSON, "A tunnel")
        self.assertEqual(self.text("Height"), "8 rows")
        self.settle()
        self.press("Height", "Home")
        self.assertIn("A tunnel was not opened", self.value(CALLOUT))
        self.assertEqual(self.text("Height"), "8 rows")


class Served(PageCase):
    def test_a_program_begins_anew_too(self):
        """Over the second implementation: the obstacle is there, and a probe has its profile."""
        with Started("--program", STAND_IN) as server:
            self.browser.navigate(server.links[0])
            self.browser.wait("globalThis.laboratory?.lab.picture != null", True)
            self.browser.wait(LESSON, "A tunnel")
            self.value("laboratory.send(['.watch 26 26 12 12'])")
            self.browser.wait("laboratory.lab.picture?.probes.length", 1)
            self.value("""(() => { const [height] = document.querySelectorAll(".sliders input");
                height.value = 2;
                height.dispatchEvent(new Event("change")); })()""")
            self.browser.wait("laboratory.view.obstacles?.reduce((sum, byte) => sum + byte.toString(2)"
                              ".replaceAll('0', '').length, 0)", 16)
            self.browser.wait("document.querySelector('.sliders input').ariaValueText", "4 rows")
            self.value("document.getElementById('probe-fields').open = true")
            self.browser.wait("document.querySelector('#probe-fields .plot').ariaLabel"
                              "?.startsWith('Profile, Density')", True)
            self.browser.navigate("about:blank")
            self.browser.wait("location.href", "about:blank")


class SlidersInFirefox(Sliders):
    program, make_browser = FIREFOX, Firefox
    test_a_reload_keeps_the_values = None  # its driver loses a page that reloads itself


if __name__ == "__main__":
    unittest.main()
