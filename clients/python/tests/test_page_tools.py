"""What is drawn with the page's tools: strokes, and what builders of gates have."""
import unittest

from .firefox import FIREFOX, Firefox
from .page_case import CALLOUT, PageCase


class Strokes(PageCase):
    def drawn(self, tool, shape, cells):
        """The lines that a gesture through cells sends."""
        self.value(f"laboratory.chooseTool('{tool}'); document.querySelector('[aria-label={shape}]').click()")
        self.pull(cells)
        return self.value("laboratory.edits.list.at(-1).lines")

    def filled(self, lines):
        cells = set()
        for line in lines:
            x, y, w, h = map(int, line.split(" ")[1:])
            cells |= {(i, j) for i in range(x, x + w) for j in range(y, y + h)}
        return cells

    def test_a_circle_has_as_few_rectangles_as_it_has_widths(self):
        """Of 8 by 8 cells: rows of 4, 6 and 8, since a cell is in it if its middle is."""
        self.open("empty")
        lines = self.drawn("wall", "Circle", [(8, 8), (15, 15)])
        self.assertEqual(sorted(lines), ["wall 10 8 4 8", "wall 8 10 8 4", "wall 9 9 6 6"])
        self.undo()
        self.assertEqual(self.value("laboratory.view.walls.every((byte) => byte === 0)"), True)

    def test_freehand_covers_its_way_and_no_more(self):
        self.open("empty")
        lines = self.drawn("put", "Freehand", [(10, 10), (20, 10), (20, 30)])
        self.assertEqual(len(lines), 2)
        way = {(x, 10) for x in range(10, 21)} | {(20, y) for y in range(10, 31)}
        self.assertEqual(self.filled(lines), way)
        self.assertEqual(self.drawn("put", "Freehand", [(40, 40), (43, 43)]),
                         [f"put {k} {k} 1 1" for k in range(40, 44)])

    def test_a_pen_of_eight_cells(self):
        self.open("empty")
        self.value("laboratory.chooseTool('block'); document.querySelector('[aria-label=\"8 × 8\"]').click()")
        self.assertEqual(self.drawn("block", "Freehand", [(3, 3), (30, 3)]), ["block 0 0 32 8"])


class Gates(PageCase):
    def click(self, tool, *cells):
        self.value(f"laboratory.chooseTool('{tool}')")
        self.pull(cells)

    def test_shoot_puts_the_velocity_that_was_pulled(self):
        """At tick 0 a particle in 10 10 moves right and down, and one in 11 10 left and down."""
        self.open("empty")
        self.click("shoot", (10, 10), (14, 14))
        self.click("shoot", (11, 20), (8, 23))
        self.assertEqual(self.value("laboratory.edits.list.map((e) => e.lines.join())"),
                         ["put 10 10 1 1", "put 11 20 1 1"])
        self.assertEqual(self.value("laboratory.lab.picture.tally"), [2, 0, 2])

    def test_shoot_says_why_not_and_where(self):
        self.open("empty")
        self.click("shoot", (10, 10), (14, 6))
        self.assertIn("At tick 0 a particle in 10 10 moves right and down. "
                      "One that moves right and up can start in 10 11.", self.value(CALLOUT))
        self.value("document.querySelector('#callout .does button').click()")
        self.browser.wait("laboratory.lab.picture.tally.join()", "1,1,-1")
        self.click("shoot", (10, 11), (14, 7))
        self.assertIn("moves right and up already", self.value(CALLOUT))

    def test_a_particle_is_followed_there_and_back(self):
        """Alone it flies straight; of two that meet head on each turns to its right."""
        self.open("3")
        for line, cell in (("", [10, 21]), ("erase 21 21 1 1", [21, 21])):
            if line:
                self.send(line)
            self.click("follow", (10, 10))
            self.send("step 11")
            self.assertEqual(self.value("laboratory.view.trail.at(-1)"), cell)
            self.send("step 4", "back 9")
            self.send("back 6")
            self.assertEqual(self.value("laboratory.view.trail.at(-1)"), [10, 10])

    def test_the_particle_of_lesson_1_stays_in_sight(self):
        """Over the edges too, for 70 ticks."""
        self.open("1")
        for tick in range(71):
            if tick:
                self.send("step 1")
                self.settle()
            cell, *seen = self.value("""(({ view: v }) => {
                const [x, y] = v.trail.at(-1), [px, py] = v.box([x + .5, y + .5, 0, 0]), [w, h] = v.size;
                return [[x, y], px > 0 && py > 0 && px < w && py < h, v.has(x, y)]; })(laboratory)""")
            self.assertEqual((cell, seen), ([tick % 64, tick % 64], [1, 1]))
        self.assertLess(self.value("laboratory.view.visible().x1 - laboratory.view.visible().x0"), 64)

    def test_the_button_of_lesson_1_keeps_its_particle(self):
        """It goes back to tick 0 and puts a second one, all at once."""
        self.open("1")
        self.send("step 30")
        self.value("document.querySelector('.tries button').click()")
        self.settle()
        self.browser.wait("laboratory.lab.picture.tick", 1)
        self.assertEqual((self.value("laboratory.view.trail"), self.value(CALLOUT)), ([[0, 0], [1, 1]], ""))

    def test_a_particle_that_is_gone_is_said(self):
        self.open("3")
        self.click("follow", (10, 10))
        self.send("erase 10 10 1 1")
        self.assertIn("the gas was changed", self.value(CALLOUT))

    def test_a_truth_table(self):
        """Lesson 3: both probes hold A and B. In the end the gas is as before."""
        self.open("3")
        before = self.state()
        self.value("document.getElementById('table-open').click()")
        self.assertEqual(self.value("document.querySelector('#popover [aria-label=Inputs]').value"),
                         "10 10, 21 21")
        self.value("document.querySelector('#popover form').requestSubmit()")
        self.browser.wait("document.querySelectorAll('.truth tbody tr').length", 4)
        rows = self.value("[...document.querySelectorAll('.truth tr')].map((r) => [...r.cells]"
                          ".map((c) => c.textContent))")
        self.assertEqual(rows, [["10 10", "21 21", "probe 1", "probe 2"], ["0", "0", "0", "0"],
                                ["0", "1", "0", "0"], ["1", "0", "0", "0"], ["1", "1", "1", "1"]])
        self.assertEqual(self.state(), before)

    def test_a_truth_table_pauses_the_gas_before_it_reads_the_inputs(self):
        """Else it would put back what was there a tick before, and the run undone would not be the start."""
        self.open("3")
        start = self.state()
        self.value("document.getElementById('play').click()")
        self.run_to(2)
        self.value("document.getElementById('table-open').click()")
        # some ticks pass until the pause
        self.value("""(() => {
            const { link } = laboratory.lab, send = link.send.bind(link);
            link.send = async (lines) => {
              if (lines[0] === ".pause") await new Promise((done) => setTimeout(done, 200));
              return send(lines);
            }; })()""")
        self.value("document.querySelector('#popover [aria-label=Inputs]').value = "
                   "'12 12, 13 13, 14 14, 15 15, 16 16'")
        self.value("document.querySelector('#popover form').requestSubmit()")
        self.browser.wait("document.querySelectorAll('.truth tbody tr').length", 32)
        self.settle()
        self.send(f"back {self.tick()}")
        self.assertEqual(self.state(), start)

    def test_a_script_is_placed_by_an_even_offset(self):
        self.open("empty")
        script = list(b"probe 0 0 64 64\nput 10 10 1 1\nrow 3 0000000000000c01\nwall 4 4 2 2\n"
                      b"step 5\nput 0 0 1 1\n")
        place = "laboratory.placed(Uint8Array.from(%s), %s, laboratory.lab.picture)"
        self.assertEqual(self.value(place % (script, [2, 4]))["fault"],
                         "“row 3 0000000000000c01” would reach outside the lattice.")
        self.assertEqual(self.value(place % (script, [-4, 4]))["lines"],
                         ["put 6 14 1 1", "put 48 7 2 1", "put 59 7 1 1", "wall 0 8 2 2"])
        self.assertIn("must be even", self.value(place % (script, [1, 4]))["fault"])
        self.send("step 1")
        self.assertIn("must be odd", self.value(place % (script, [-4, 4]))["fault"])


class CommandLine(PageCase):
    def helped(self, word):
        """How many commands the help to a word tells."""
        self.open("empty")
        self.value("""((line) => {
            const form = document.getElementById("form");
            form.querySelector("input").value = line;
            form.requestSubmit(); })('help %s')""" % word)
        return self.value("document.querySelectorAll('#log .help').length")

    def test_help_tells_one_command_or_all(self):
        """A word that is no command gets all of them, even if each object has something of that name."""
        self.assertEqual(self.helped("wall"), 1)
        self.assertEqual(self.helped("constructor"), self.helped("nonsense"))
        self.assertGreater(self.helped("nonsense"), 15)


class StrokesInFirefox(Strokes):
    program, make_browser = FIREFOX, Firefox


class GatesInFirefox(Gates):
    program, make_browser = FIREFOX, Firefox


if __name__ == "__main__":
    unittest.main()
