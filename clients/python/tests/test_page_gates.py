"""Gates on the page: the shelf, names of inputs and outputs, their truth tables, and a half adder."""
import itertools
import json
import unittest

from gaslab.page.one_file import read

from .firefox import FIREFOX, Firefox
from .page_case import CALLOUT, READY, PageCase
from .stand_in import channel_gas
from .test_browser import Started
from .test_lab import ROOT, STAND_IN
from .test_patterns import SAID

# What an output's name says, where it isn't an expression itself.
MEANS = {"copy 1": "A", "copy 2": "A", "A back": "A", "sum": "A != B", "carry": "A and B"}
TEXTS = json.loads(read("texts_en.json"))["gates"]
GATES = [{**gate, **TEXTS[gate["id"]], "names": [{**it, "name": name} for it, name in
                                                 zip(gate["names"], TEXTS[gate["id"]]["names"])]}
         for gate in json.loads(read("gates.json"))]
SCENE = ROOT / "examples" / "scenes" / "half_adder.txt"


def rows_of(inputs, outputs):
    """A truth table from the names of its outputs."""
    for case in itertools.product((0, 1), repeat=len(inputs)):
        known = dict(zip(inputs, map(bool, case)))
        yield [*map(str, case), *(str(int(eval(MEANS.get(name, name), {}, known))) for name in outputs)]


def named(pattern, kind):
    return [it["name"] for it in pattern["names"] if it["kind"] == kind]


class Meanings(unittest.TestCase):
    def outputs(self, pattern, case):
        """What the second implementation has in a gate's outputs, in the middle of a lattice."""
        corner, inputs = 20, [it for it in pattern["names"] if it["kind"] == "input"]
        gas = channel_gas.Gas(128, 128)
        for kind, cells in (("put", gas.particles), ("wall", gas.walls), ("block", gas.obstacles)):
            for x, y, w, h in pattern[kind]:
                cells |= channel_gas.rectangle(x + corner, y + corner, w, h)
        for it, isFull in zip(inputs, case):
            cell = it["x"] + corner, it["y"] + corner
            gas.particles = gas.particles | {cell} if isFull else gas.particles - {cell}
        found = {}
        for tick in range(64):
            found |= {it["name"]: int((it["x"] + corner, it["y"] + corner) in gas.particles)
                      for it in pattern["names"] if it["kind"] == "output" and it["after"] == tick}
            gas.step(channel_gas.Books([0, 0, 0]))
        return [found[name] for name in named(pattern, "output")]

    def test_each_gate_does_what_its_outputs_are_called(self):
        for gate in GATES:
            inputs = named(gate, "input")
            for row in rows_of(inputs, named(gate, "output")):
                case = [int(v) for v in row[:len(inputs)]]
                self.assertEqual(self.outputs(gate, case), [int(v) for v in row[len(inputs):]], gate["name"])

    def test_the_scene_is_a_half_adder(self):
        """Its script by the second implementation, for all four inputs, and the output that is kept."""
        gas, lines = channel_gas.Gas(64, 64), SCENE.read_text().splitlines()
        replies = channel_gas.session(0, lines, gas, channel_gas.Books([0, 0, 0]), [], None)
        found = [" ".join(map(str, reply)) for reply in replies]
        self.assertEqual(found, SCENE.with_suffix(".out").read_text().splitlines())
        counts = [reply.split(" ")[1] for reply in found if reply.startswith("PROBE")]
        rows = {(a, b): [s, c] for a, b, s, c in rows_of("AB", ["sum", "carry"])}
        self.assertEqual(counts, rows["1", "1"] + rows["1", "0"] + rows["0", "1"] + rows["0", "0"])


class GateCase(PageCase):
    def press(self, find):
        """Clicks on an element by the mouse, once it has its place."""
        self.settle()
        place = self.value(f"""(() => {{ const it = {find}; it.scrollIntoView({{ block: "nearest" }});
            const {{ x, y, width, height }} = it.getBoundingClientRect();
            return [x + width / 2, y + height / 2]; }})()""")
        self.browser.pull(place, place)
        self.settle()

    def option(self, name):
        self.press("[...document.querySelectorAll('#options button')]"
                   f".find((it) => it.textContent === '{name}')")

    def choose(self, name):
        """Clicks on a button of the dialog."""
        self.press("[...document.querySelectorAll('#popover button')]"
                   f".find((it) => (it.ariaLabel ?? it.textContent) === '{name}')")

    def take(self, name, cell, turns=0):
        """Takes a pattern from the shelf, and puts its middle into a cell."""
        self.press("document.querySelector('[data-tool=select]')")
        self.option("Shelf")
        self.choose(f"Take {name}")
        for _ in range(turns):
            self.option("Turn")
        self.pull([cell])
        self.assertIn("Put at", self.value(SAID))

    def filled(self):
        """The truth table, once its button was pressed."""
        self.choose("Fill the table")
        self.browser.wait("document.querySelectorAll('.truth tbody tr').length > 0", True)
        self.settle()
        return self.value("[...document.querySelectorAll('.truth tr')].map((r) => [...r.cells]"
                          ".map((c) => c.textContent))")

    def leave(self):
        self.browser.key("Escape", 27)

    def cells(self):
        return json.loads(self.state())


class Shelf(GateCase):
    def test_a_gate_comes_with_names_and_its_table_is_true(self):
        """Turned or not: its outputs are turned too. In the end the gas is as before."""
        for turns in range(2):
            self.open("empty")
            self.take("And", (30, 30), turns)
            before = self.state()
            self.press("document.getElementById('table-open')")
            outputs = ["A and B", "A and not B", "B and not A"]
            self.assertEqual(self.filled(), [["A", "B", *outputs], *rows_of("AB", outputs)])
            self.assertEqual(self.state(), before)
            self.leave()

    def test_one_undo_takes_the_names_too(self):
        self.open("empty")
        self.take("And", (30, 30))
        self.assertEqual(self.value("document.getElementById('table-open').checkVisibility()"), True)
        self.undo()
        self.assertEqual(self.value("laboratory.lab.picture.tally[0]"), 0)
        self.assertEqual(self.value("document.getElementById('table-open').checkVisibility()"), False)

    def test_a_second_gate_has_names_of_its_own(self):
        self.open("empty")
        self.take("And", (20, 20))
        self.take("And", (20, 50))
        self.option("Name")
        names = self.value("[...document.querySelectorAll('.names b')].map((it) => it.textContent)")
        self.assertEqual(len(set(names)), 10)
        self.assertIn("A 2", names)

    def test_a_table_goes_to_the_tick_of_its_inputs_and_back(self):
        self.open("empty")
        self.take("Not", (30, 30))
        self.send("step 5")
        # the first curve moves what is below it
        self.browser.wait("document.querySelector('#plot-list .plot.empty') === null", True)
        before = self.state()
        self.press("document.getElementById('table-open')")
        outputs = ["not A", "copy 1", "copy 2"]
        self.assertEqual(self.filled(), [["A", *outputs], *rows_of("A", outputs)])
        self.assertEqual((self.state(), self.tick()), (before, 5))

    def test_a_pattern_is_kept_over_a_reload_and_goes_away(self):
        self.open("empty")
        self.take("And", (30, 30))
        self.option("Shelf")
        self.value("document.querySelector('#popover [aria-label=Name]').value = 'Mine, all <b>'")
        self.choose("Keep the selection")
        for _ in range(2):
            heads = self.value("[...document.querySelectorAll('.patterns b')].map((it) => it.textContent)")
            self.assertEqual(heads[-1], "Mine all <b>")
            self.leave()
            self.open("empty")
            self.value("laboratory.chooseTool('select')")
            self.option("Shelf")
        self.choose("Take Mine all <b>")
        self.pull([(40, 40)])
        self.assertEqual(self.value("laboratory.lab.picture.tally[0]"), 2)
        self.option("Shelf")
        self.choose("Remove Mine all <b>")
        self.assertIn("Your own: 0 patterns", self.value("document.getElementById('popover').textContent"))


class Kept(GateCase):
    """In Chromium alone: by Firefox's protocol no page is loaded again, or told what its elements do."""

    def test_names_stay_over_a_reload_and_with_a_new_journal(self):
        """Another gas has none of them."""
        shown = "document.getElementById('table-open').checkVisibility()"
        self.open("empty")
        self.take("And", (30, 30))
        self.value("laboratory.lab.link.send(['.fresh'])")
        self.settle()
        self.assertEqual(self.value(shown), True)
        self.value("globalThis.isBefore = true; location.reload()")
        self.browser.wait(f"!globalThis.isBefore && {READY} && laboratory.lab.picture.tally[0] === 2", True)
        self.settle()
        self.press("document.getElementById('table-open')")
        self.assertEqual(self.filled()[0], ["A", "B", "A and B", "A and not B", "B and not A"])
        self.leave()
        self.value("laboratory.load(laboratory.find('2'))")
        self.browser.wait("laboratory.lab.lesson.id", "2")
        self.settle()
        self.assertEqual(self.value(shown), False)

    def test_a_table_over_a_server(self):
        """The program behind the page goes to the inputs' tick and back, as the page's own engine does."""
        with Started("--program", STAND_IN) as server:
            self.open("", server.links[0])
            self.value("laboratory.load(laboratory.find('half_adder'))")
            self.browser.wait("laboratory.lab.lesson.id === 'half_adder' && !laboratory.lab.loading", True)
            self.send("step 5")
            self.browser.wait("document.querySelector('#plot-list .plot.empty') === null", True)
            before = self.state()
            self.press("document.getElementById('table-open')")
            self.assertEqual(self.filled(), [["A", "B", "sum", "carry"], *rows_of("AB", ["sum", "carry"])])
            self.assertEqual((self.state(), self.tick()), (before, 5))
            self.leave()

    def open_file(self, text):
        """Chooses a file with this text."""
        self.value("""HTMLInputElement.prototype.click = function () {
            const held = new DataTransfer();
            held.items.add(new File([%s], "mine.json"));
            this.files = held.files;
            this.onchange(); }""" % json.dumps(text))
        self.choose("Open a file")

    def test_a_file_takes_patterns_to_another_page(self):
        self.open("empty")
        self.take("And", (30, 30))
        self.option("Shelf")
        self.choose("Keep the selection")
        self.value("URL.createObjectURL = (blob) => { globalThis.saved = blob.text(); return 'data:,'; };"
                   "HTMLAnchorElement.prototype.click = () => {}")
        self.choose("Save to a file")
        text = self.value("saved")
        self.choose("Remove Pattern 1")
        self.open_file(text)
        self.choose("Take Pattern 1")
        self.send("erase 0 0 64 64")
        self.pull([(40, 40)])
        self.assertEqual(self.value("laboratory.lab.picture.tally[0]"), 2)
        self.option("Shelf")
        self.choose("Remove Pattern 1")

    def test_a_file_without_patterns_is_refused(self):
        wrong = {"gaslab": "patterns 1", "patterns": [{**GATES[0], "put": [[11, 11, 2, 1]]}]}
        for text in ("[]", "put 0 0 1 1", json.dumps(wrong)):
            self.open("empty")
            self.value("laboratory.chooseTool('select')")
            self.option("Shelf")
            self.open_file(text)
            self.browser.wait(f"({CALLOUT}).includes('It has no patterns of gaslab.')", True)
            self.leave()


class HalfAdder(GateCase):
    def test_by_mouse_alone(self):
        """Four gates of the shelf, 35 steps and two names: the gas is the scene's, and so is the table."""
        self.open("empty")
        self.take("And", (16, 32))
        self.option("Shelf")
        self.press("document.querySelector('#popover [type=checkbox]')")
        self.choose("Take Not")
        self.pull([(28, 44)])
        self.take("Not", (40, 56))
        self.take("Back", (8, 24), turns=2)
        self.assertEqual(self.cells(), self.scene())
        for _ in range(35):
            self.press("document.getElementById('step')")
        for cell in ((10, 26), (45, 2)):
            self.pull([cell])
            self.option("Name")
            self.choose("Name it")
        self.option("Name")
        for name in ("A and B", "A and not B", "B and not A"):
            self.choose(f"Remove the name {name}")
        self.choose("Truth table")
        self.assertEqual(self.filled(), [["A", "B", "sum", "carry"], *rows_of("AB", ["sum", "carry"])])

    def scene(self):
        """Walls, obstacles, ports and particles of the scene's script before its first step."""
        gas = channel_gas.Gas(64, 64)
        lines = itertools.takewhile(lambda line: not line.startswith("step"), SCENE.read_text().splitlines())
        list(channel_gas.session(0, lines, gas, channel_gas.Books([0, 0, 0]), [], None))
        planes = [[byte for y in range(64) for byte in channel_gas.row_bits(cells, 64, y).to_bytes(8, "big")]
                  for cells in (gas.walls, gas.obstacles, gas.particles)]
        return [planes[0], planes[1], {"drains": [], "sources": []}, planes[2]]

    def test_the_scene_has_its_table(self):
        self.open("half_adder")
        self.assertEqual(self.cells(), self.scene())
        self.press("document.getElementById('table-open')")
        self.assertEqual(self.filled(), [["A", "B", "sum", "carry"], *rows_of("AB", ["sum", "carry"])])


class ShelfInFirefox(Shelf):
    program, make_browser = FIREFOX, Firefox


class HalfAdderInFirefox(HalfAdder):
    program, make_browser = FIREFOX, Firefox


if __name__ == "__main__":
    unittest.main()
