"""Fields of the page: arrows of velocity, profiles and histograms."""
import csv
import io
import json
import math
import statistics
import subprocess
import unittest
from fractions import Fraction

from gaslab import random_gas
from gaslab.page.one_file import bundle

from .firefox import FIREFOX, Firefox
from .page_case import PageCase
from .test_lab import ROOT
from .test_page_engine import NODE, run_second, second

_WIDE, _HIGH = 128, 64
# Pixels of the gas that the arrows make dark, as [column, row] in cells
_CHANGED = """(() => {
  const { view, view: { canvas, canvas: { width, height } } } = laboratory, seen = [];
  const own = Object.assign(document.createElement("canvas"), { width, height });
  const c = own.getContext("2d", { willReadFrequently: true });
  const select = document.getElementById("arrows");
  for (const value of ["0", "8"]) {
    select.value = value;
    select.dispatchEvent(new Event("change"));
    view.draw();
    c.drawImage(canvas, 0, 0);
    seen.push(new Uint32Array(c.getImageData(0, 0, width, height).data.buffer));
  }
  const ratio = devicePixelRatio;
  const isDark = (v) => [0, 8, 16].every((s) => (v >> s & 255) < 90);
  return [...seen[0].keys()].filter((k) => !isDark(seen[0][k]) && isDark(seen[1][k])).map((k) =>
    [view.left + (k % width / ratio) / view.scale, view.top + (Math.floor(k / width) / ratio) / view.scale]);
})()"""


def cells_of(rows):
    """The full cells of rows of digits."""
    return [(x, y) for y, row in enumerate(rows) for x, bit in enumerate(f"{int(row, 16):0{4 * len(row)}b}")
            if bit == "1"]


def sums(cells, tick):
    """Count and momentum of cells: at tick t a particle moves right if x + t is even, down if y + t is."""
    return [len(cells), sum(1 - 2 * ((x + tick) % 2) for x, _ in cells),
            sum(1 - 2 * ((y + tick) % 2) for _, y in cells)]


def gases():
    """[tick, rows] of random gases, some steps on, by the second implementation."""
    channel_gas = second()
    for tick, density in ((0, .3), (3, .5), (8, .1)):
        lines = [*random_gas(_WIDE, _HIGH, density, (.4, -.2), seed=5, tick=0), "block 60 20 4 8"]
        lines += [f"step {tick}"] if tick else []
        asks = [f"read {y}" for y in range(_HIGH)]
        replies = run_second(channel_gas, _WIDE, _HIGH, lines + asks)
        yield tick, [it.split(" ")[1] for it in replies[-_HIGH:]]


@unittest.skipUnless(NODE, "there is no node")
class Numbers(unittest.TestCase):
    def run_fields(self, **cases):
        asked = {"engine": bundle("fields") + bundle("statistics"),
                 "cases": {"gases": [], "binomials": [], "counts": [], "samples": [], **cases}}
        done = subprocess.run([NODE, ROOT / "clients/python/tests/fields.mjs"], stdout=subprocess.PIPE,
                              text=True, input=json.dumps(asked), check=True)
        return json.loads(done.stdout)

    def test_velocities_and_profiles(self):
        """Of squares of 4 to 32 cells, and of columns and rows of a rectangle: each sum by its definition."""
        found_gases, rect = list(gases()), (13, 9, 50, 21)
        cases = [(tick, rows, q) for tick, rows in found_gases for q in (4, 8, 16, 32)]
        found = self.run_fields(gases=[[_WIDE, _HIGH, tick, rows, q, rect] for tick, rows, q in cases])
        left, top, wide, high = rect
        for k, (tick, rows, q) in enumerate(cases):
            cells = cells_of(rows)
            squares = [sums([(x, y) for x, y in cells if (x // q, y // q) == (i, j)], tick)
                       for j in range(_HIGH // q) for i in range(_WIDE // q)]
            self.assertEqual(found["flows"][k], [list(it) for it in zip(*squares)], (tick, q))
            inner = [(x, y) for x, y in cells if left <= x < left + wide and top <= y < top + high]
            self.assertEqual(found["columns"][k], [sums([it for it in inner if it[0] == x], tick)
                                                   for x in range(left, left + wide)])
            self.assertEqual(found["rows"][k], [sums([it for it in inner if it[1] == y], tick)
                                                for y in range(top, top + high)])

    def test_binomials(self):
        """By whole numbers and fractions, up to 400 cells and at the ends."""
        cases = [(n, part, k) for n in (1, 5, 19, 20, 21, 64, 400) for part in (0, 1, 7, 10)
                 for k in sorted({0, 1, n // 3, n // 2, n})]
        found = self.run_fields(binomials=[(n, part / 10, k) for n, part, k in cases])["binomials"]
        for (n, part, k), it in zip(cases, found):
            p = Fraction(part, 10)
            wanted = float(math.comb(n, k) * p ** k * (1 - p) ** (n - k))
            self.assertAlmostEqual(it, wanted, delta=1e-10 * max(wanted, 1e-4))

    def test_bins(self):
        """Of counts from 3 to 390 of 400 cells: at most 40 bins, and none of the counts is lost."""
        times = [(3, 2), (200, 5), (201, 1), (390, 2)]
        total = sum(often for _, often in times)
        p = Fraction(sum(count * often for count, often in times), total * 400)
        bins, = self.run_fields(counts=[(times, 400)])["bins"]
        self.assertLessEqual(len(bins), 40)
        wide = round(bins[1][0] - bins[0][0])
        for k, (middle, share, probability) in enumerate(bins):
            inside = range(3 + k * wide, min(3 + (k + 1) * wide, 401))
            self.assertEqual(middle, (inside[0] + inside[-1]) / 2)
            self.assertAlmostEqual(share, sum(often for count, often in times if count in inside) / total)
            wanted = sum(math.comb(400, it) * p ** it * (1 - p) ** (400 - it) for it in inside)
            self.assertAlmostEqual(probability, float(wanted), 9)
        self.assertAlmostEqual(sum(share for _, share, _ in bins), 1)
        one, = self.run_fields(counts=[([(7, 4)], 7)])["bins"]
        self.assertEqual(one[-1], [7, 1, 1])

    def test_means_and_standard_errors(self):
        samples = [[1, 2, 4], [5, 5], [0.25, -3, 8, 1e6]]
        for sample, found in zip(samples, self.run_fields(samples=samples)["means"]):
            self.assertAlmostEqual(found[0], statistics.mean(sample))
            self.assertAlmostEqual(found[1], statistics.stdev(sample) / len(sample) ** .5, 5)


class Fields(PageCase):
    def saved(self, name):
        """A table that a button saves."""
        self.value("""window.saved = new Promise((done) => {
            const make = URL.createObjectURL;
            URL.createObjectURL = (blob) => {
                URL.createObjectURL = make;
                blob.text().then(done);
                return "#"; }; });
            [...document.querySelectorAll('#probe-fields .does button')]
            .find((e) => e.textContent === %s).click()""" % json.dumps(name))
        head, *rows = csv.reader(io.StringIO(self.value("saved")))
        return head, [[float(it) for it in row] for row in rows]

    def label(self, k):
        return self.value(f"document.querySelectorAll('#probe-fields .plot')[{k}].ariaLabel")

    def test_arrows(self):
        """At tick 0 particles in even columns and rows move right and down, and those in odd columns left.
        Where there is no particle there is no arrow."""
        self.open("empty")
        for y in range(0, 8, 2):
            self.send(*(f"put {x} {y} 1 1" for x in range(0, 8, 2)),
                      *(f"put {x} {y + 16} 1 1" for x in range(17, 24, 2)))
        self.settle()
        changed = self.value(_CHANGED)
        squares = {(x // 8, y // 8) for x, y in changed if 1 < x % 8 < 7 and 1 < y % 8 < 7}
        self.assertEqual(squares, {(0, 0), (2, 2)})
        first = [(x, y) for x, y in changed if x < 12]
        other = [(x - 16, y - 16) for x, y in changed if x > 12]
        self.assertLess(max(abs(x - y) for x, y in first), 2)
        self.assertLess(max(abs(x - 8 + y) for x, y in other), 2)
        for cells, head in ((first, (8, 8)), (other, (0, 8))):
            ends = head, (8 - head[0], 8 - head[1])
            at_head, at_tail = (sum(math.dist(cell, end) < 2 for cell in cells) for end in ends)
            self.assertGreater(at_head, 1.3 * at_tail)
        name = self.value("document.getElementById('gas').ariaLabel")
        self.assertIn("in each square of 8 by 8 cells", name)
        self.assertIn("a square's side", self.value("document.getElementById('key').textContent"))

    def test_a_profile_now_and_in_the_mean(self):
        """Of ticks 0 to 3 by the second implementation, along the columns and along the rows."""
        script = ["put 10 10 20 9", "erase 14 12 3 3", "wall 24 8 2 20", "put 40 4 8 8"]
        x, y, w, h = 8, 6, 24, 16
        self.open("empty")
        self.send(*script, f".watch {x} {y} {w} {h}")
        self.settle()
        self.value("document.getElementById('probe-fields').open = true")
        self.browser.wait("document.querySelector('#probe-fields .number').textContent !== ''", True)
        for _ in range(3):
            self.send("step 1")
        channel_gas, asks, ticks = second(), [f"read {row}" for row in range(64)], []
        for tick in range(4):
            lines = script + ([f"step {tick}"] if tick else []) + asks
            rows = [it.split(" ")[1] for it in run_second(channel_gas, 64, 64, lines)[-64:]]
            inner = [(i, j) for i, j in cells_of(rows) if x <= i < x + w and y <= j < y + h]
            columns = [sums([it for it in inner if it[0] == i], tick) for i in range(x, x + w)]
            ticks.append({"column": columns, "row": [sums([it for it in inner if it[1] == j], tick)
                                                     for j in range(y, y + h)]})
        for way, start, cells in (("column", x, h), ("row", y, w)):
            head, rows = self.saved("Profile as CSV")
            self.assertEqual(head, [way, "density", "px", "py", "mean_density", "mean_px", "mean_py"])
            for k, row in enumerate(rows):
                all_ticks = [it[way][k] for it in ticks]
                wanted = [start + k, *(it / cells for it in all_ticks[-1]),
                          *(sum(it) / cells / 4 for it in zip(*all_ticks))]
                for found, it in zip(row, wanted):
                    self.assertAlmostEqual(found, it, 9)
            self.assertEqual(len(rows), len(ticks[0][way]))
            self.value("document.querySelector('#probe-fields [title=\"along the rows\"]').click()")
        self.assertIn("Profile, Density: particles a cell; mean of 4 pictures: mean ", self.label(0))

    def test_a_histogram_against_the_binomial_distribution(self):
        """A probe of 4 by 2 cells, of which two are wall. Its counts at ticks 0 to 5 are those of the second
        implementation."""
        script = ["wall 20 20 2 1", "put 12 21 12 7"]
        self.open("empty")
        self.send(*script, ".watch 20 20 4 2")
        self.settle()
        self.value("document.getElementById('probe-fields').open = true")
        self.browser.wait("document.querySelector('#probe-fields .number').textContent !== ''", True)
        for _ in range(5):
            self.send("step 1")
        channel_gas = second()
        runs = [[*script, *([f"step {n}"] if n else []), "probe 20 20 4 2"] for n in range(6)]
        counts = [int(run_second(channel_gas, 64, 64, lines)[-1].split(" ")[1]) for lines in runs]
        self.assertGreater(len(set(counts)), 1)
        p = Fraction(sum(counts), 6 * 6)
        head, rows = self.saved("Histogram as CSV")
        self.assertEqual(head, ["count", "share", "binomial"])
        for count, share, binomial in rows:
            self.assertAlmostEqual(share, counts.count(count) / 6)
            k = int(count)
            self.assertAlmostEqual(binomial, float(math.comb(6, k) * p ** k * (1 - p) ** (6 - k)))
        self.assertAlmostEqual(sum(row[1] for row in rows), 1)
        self.browser.wait("document.querySelectorAll('#probe-fields .plot')[1].ariaLabel"
                          ".endsWith('6 pictures')", True)
        mean = f"{sum(counts) / 6:.3f}".rstrip("0").rstrip(".")
        self.assertRegex(self.label(1), rf"^Histogram of counts, .* 6 cells .*: mean {mean}; 6 pictures$")

    def test_without_a_probe_it_asks_for_one(self):
        """And one that is drawn by the mouse has its profile at once."""
        self.open("6")
        self.browser.wait("document.querySelectorAll('#probes .close').length", 1)
        self.value("document.querySelector('#probes .close').click()")
        self.settle()
        self.value("document.getElementById('probe-fields').open = true")
        self.browser.wait("document.querySelector('#probe-fields .plot').textContent",
                          "Choose Probe and draw a rectangle.")
        self.draw("probe", (10, 10), (19, 15))
        self.browser.wait("document.querySelector('#probe-fields .number').textContent", "1")
        self.assertIn("mean 1, most 1 in column 10", self.label(0))

    def test_a_probe_in_a_wall_is_empty(self):
        self.open("empty")
        self.send("wall 20 20 8 8", ".watch 21 21 4 4")
        self.settle()
        self.value("document.getElementById('probe-fields').open = true")
        self.browser.wait("document.querySelectorAll('#probe-fields .plot')[1].ariaLabel"
                          "?.endsWith(': mean 0; 1 picture')", True)
        self.assertEqual(self.value("document.getElementById('banner').hidden"), True)

    def test_figures_have_names_and_controls_too(self):
        self.open("6")
        self.value("for (const id of ['probe-fields', 'repeat']) document.getElementById(id).open = true")
        self.browser.wait("document.querySelector('#probe-fields .number').textContent !== ''", True)
        unnamed = self.value("""(() => {
            const all = document.querySelectorAll(".measure :is(select, input, button, figure, progress,"
                + " [role=img]), .sliders input, #arrows");
            const nameOf = (e) => e.getAttribute("aria-label") || e.labels?.[0]?.textContent.trim()
                || e.matches("button") && e.textContent.trim();
            return [...all].filter((e) => e.checkVisibility() && !nameOf(e)).map((e) => e.nodeName); })()""")
        self.assertEqual(unnamed, [])


class OnAPhone(PageCase):
    def test_all_is_large_enough_and_nothing_overflows(self):
        """What is opened and what a finger taps: 44 pixels, on a narrow phone too."""
        for width in (390, 320):
            self.open("4", size=(width, 844))
            self.value("for (const id of ['probe-fields', 'repeat']) document.getElementById(id).open = true;"
                       "laboratory.send(['.watch 20 20 8 8', '.watch 2 20 8 8'])")
            self.browser.wait("document.querySelectorAll('#probe-fields option').length > 3", True)
            for tab in ("lesson", "readings"):
                self.value(f"document.getElementById('tab-{tab}').click()")
                small = self.value("""(() => {
                    const all = document.querySelectorAll("#arrows, :is(.measure, .sliders) "
                        + ":is(button, select, input, summary)");
                    return [...all].filter((e) => e.checkVisibility()).map((e) => e.getBoundingClientRect())
                        .filter(({ width, height }) => width < 44 || height < 44); })()""")
                self.assertEqual(small, [], (width, tab))
                self.assertLessEqual(self.value("document.documentElement.scrollWidth"), width)


class FieldsInFirefox(Fields):
    program, make_browser = FIREFOX, Firefox


if __name__ == "__main__":
    unittest.main()
