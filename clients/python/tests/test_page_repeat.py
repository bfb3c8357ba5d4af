"""Repeated runs of the page: the same gases and the same numbers as the Python client's."""
import csv
import io
import json
import math
import statistics
import unittest

from gaslab import every, random_gas

from .firefox import FIREFOX, Firefox
from .page_case import PageCase
from .test_browser import Started
from .test_lab import STAND_IN, run
from .test_page_engine import NODE, run_node

SOLID = ["wall 0 0 64 2", "block 30 20 4 16"]
PORTS = ["drain 60 2 4 30", "source 4 40 2 6 3"]
PROBE = (20, 20, 8, 16)


def rows_of(lines, density, drift, seed, steps, times):
    """What the client measures in a run: [count, px, py, drag, count in the probe, its px, its py]."""
    columns = ["count", "px", "py", "d_obstacles_x", "it_count", "it_px", "it_py"]
    with run(width=64, height=64) as lab:
        lab.do(random_gas(64, 64, density, drift, seed, 0))
        lab.do([f"erase {line.split(' ', 1)[1]}" for line in SOLID] + lines)
        table = every(lab, steps, times, probes={"it": PROBE}, columns=columns)
    found = [[float(table[name][n]) for name in columns] for n in range(times)]
    return [[*row[:3], row[3] / steps, *row[4:]] for row in found]


@unittest.skipUnless(NODE, "there is no node")
class Gases(unittest.TestCase):
    def test_random_gases_are_the_clients(self):
        """Bit for bit, for a seed."""
        cases = [(64, 64, .25, .5, 0, 1), (128, 64, .3, -.2, .6, 4294967295), (192, 128, .5, 0, 0, 7),
                 (64, 64, 0, 0, 0, 0), (64, 64, 1, 0, 0, 3), (64, 128, .25, 1, -1, 12)]
        gases = [[width, height, dict(density=density, right=right, down=down, seed=seed)]
                 for width, height, density, right, down, seed in cases]
        found = run_node("repeats.mjs", {"gases": gases, "runs": []}, "worker")["rows"]
        for (width, height, density, right, down, seed), rows in zip(cases, found):
            self.assertEqual(rows, list(random_gas(width, height, density, (right, down), seed, 0)))

    def test_runs_are_the_clients(self):
        """Each number of each gas: with walls and an obstacle, and with a drain and a source too."""
        runs = [[64, 64, lines, {"look": {"density": density, "right": right, "down": 0}, "steps": steps,
                                 "times": 4, "probes": [PROBE]}, 3]
                for lines, density, right, steps in ((SOLID, .25, .5, 5), (SOLID + PORTS, .4, -.3, 6))]
        found = run_node("repeats.mjs", {"gases": [], "runs": runs}, "worker")["runs"]
        for (_, _, lines, asked, gases), results in zip(runs, found):
            look = asked["look"]
            for seed in range(1, gases + 1):
                wanted = rows_of(lines, look["density"], look["right"], seed, asked["steps"], 4)
                self.assertEqual(results[seed - 1], wanted, (lines, seed))


@unittest.skipUnless(NODE, "there is no node")
class Wind(unittest.TestCase):
    def test_what_the_scene_says(self):
        """The drag falls to nothing in some 500 ticks, and turns round when sound comes round 124 columns: in
        the mean of 20 gases, within four standard errors."""
        asked = {"look": {"density": .25, "right": .5, "down": 0}, "steps": 20, "times": 34, "probes": []}
        runs = [[128, 64, ["block 62 24 4 16"], asked, 20]]
        found, = run_node("repeats.mjs", {"gases": [], "runs": runs}, "worker")["runs"]

        def drag(first, last):
            """Mean and standard error of the drag between two ticks."""
            all_gases = [statistics.mean(row[3] for row in rows[first // 20:last // 20]) for rows in found]
            return statistics.mean(all_gases), statistics.stdev(all_gases) / len(found) ** .5

        for (first, last), sign in (((0, 20), 1), ((60, 120), 1), ((120, 140), -1)):
            mean, error = drag(first, last)
            self.assertGreater(sign * mean, 4 * error, (first, last))
        mean, error = drag(500, 680)
        self.assertLess(mean, .1 * drag(0, 20)[0] + 4 * error)


class Page(PageCase):
    asked = {"gases": 5, "density": 25, "right": 50, "down": 0, "steps": 5, "times": 3}

    def begin(self, **changed):
        self.value("document.getElementById('repeat').open = true")
        for name, value in {**self.asked, **changed}.items():
            self.value(f"document.querySelector('#repeat [name={name}]').value = '{value}'")
        self.value("document.querySelector('#repeat form').requestSubmit()")

    def told(self):
        return self.value("document.querySelector('#repeat .told').textContent")

    def saved(self, name):
        """A table that a button saves."""
        self.value("""window.saved = new Promise((done) => {
            const make = URL.createObjectURL;
            URL.createObjectURL = (blob) => {
                URL.createObjectURL = make;
                blob.text().then(done);
                return "#"; }; }); [...document.querySelectorAll('#repeat .does button')]
            .find((e) => e.textContent === %s).click()""" % json.dumps(name))
        return list(csv.reader(io.StringIO(self.value("saved"))))

    def lay(self):
        self.open("empty")
        self.send(*SOLID, "probe 20 20 8 16", ".watch 20 20 8 16")
        self.settle()


class Repeat(Page):
    def test_fields_stay_in_line_when_one_is_wrong(self):
        """In each row of them, with names and hints of one or more lines."""
        for size in ((1440, 900), (768, 1024), (844, 390), (390, 844)):
            self.open("wind", size=size)
            self.value("""document.getElementById('repeat').open = true;
                (({ e }) => { e.value = 99; e.dispatchEvent(new Event("input")); })(
                    { e: document.querySelector("#repeat [name=gases]") })""")
            lines = self.value("""[...document.querySelectorAll("#repeat form label")].map((label) =>
                [label, ...label.children].map((e) => Math.round(e.getBoundingClientRect().top)))""")
            for top in {line[0] for line in lines}:
                row = [line for line in lines if line[0] == top]
                self.assertGreater(len(row), 1, lines)
                self.assertEqual({line[2] for line in row}, {row[0][2]}, lines)
                self.assertEqual({line[3] for line in row}, {row[0][3]}, lines)

    def test_means_and_errors_are_those_of_the_client(self):
        """Of five gases, on the plot, in the table and in the file. The page's own gas is as before."""
        self.lay()
        self.send("put 5 40 3 3")
        before = self.state()
        self.begin()
        self.browser.wait("document.querySelector('#repeat .told').textContent", "Done: 5 runs.")
        wanted = [rows_of(SOLID, .25, .5, seed, 5, 3) for seed in range(1, 6)]
        drag = [[rows[n][3] for rows in wanted] for n in range(3)]
        mean, error = statistics.mean(drag[2]), statistics.stdev(drag[2]) / math.sqrt(5)
        label = self.value("document.querySelector('#repeat .plot').ariaLabel")
        shown = f"{mean:.3f}".rstrip("0").rstrip("."), f"{error:.3f}".rstrip("0").rstrip(".")
        self.assertIn(f"{shown[0]} ± {shown[1]} at tick 15", label)
        self.value("document.querySelector('#repeat .result summary').click()")
        self.assertEqual(self.value("[...document.querySelectorAll('#repeat tbody tr')].at(-1)"
                                    ".innerText.split(/\\s+/).join(' ')"), f"15 {shown[0]} {shown[1]}")
        head, *rows = self.saved("Means as CSV")
        names = ["count", "px", "py", "drag", "probe_1_count", "probe_1_px", "probe_1_py"]
        ends = "", "_error"
        self.assertEqual(head, ["tick", "gases", *(f"{name}{end}" for name in names for end in ends)])
        for n, row in enumerate(rows):
            columns = list(zip(*(rows[n] for rows in wanted)))
            means = [it for column in columns
                     for it in (statistics.mean(column), statistics.stdev(column) / math.sqrt(5))]
            for found, it in zip(map(float, row), [5 * (n + 1), 5, *means]):
                self.assertAlmostEqual(found, it, 9)
        head, *rows = self.saved("All gases as CSV")
        self.assertEqual(head, ["seed", "tick", *names])
        every = [[seed, 5 * (n + 1), *wanted[seed - 1][n]] for seed in range(1, 6) for n in range(3)]
        self.assertEqual([[float(it) for it in row] for row in rows], every)
        self.assertEqual(self.state(), before)

    def test_other_quantities_are_shown_on_request(self):
        self.lay()
        self.begin()
        self.browser.wait("document.querySelector('#repeat .told').textContent", "Done: 5 runs.")
        self.value("""(() => { const select = document.querySelector("#repeat select");
            select.value = "probe_1_count"; select.dispatchEvent(new Event("change")); })()""")
        counts = [rows_of(SOLID, .25, .5, seed, 5, 3)[2][4] for seed in range(1, 6)]
        self.assertIn(f"{statistics.mean(counts):g} ± ",
                      self.value("document.querySelector('#repeat .number').textContent"))
        chosen = "document.querySelector('#repeat select').selectedOptions[0].textContent"
        self.assertEqual(self.value(chosen), "Probe 1: particles")

    def test_the_page_plays_while_it_computes_and_stops_it(self):
        """A run of many minutes: the gas of the page goes on, and after Stop other runs can be made."""
        self.lay()
        self.send("put 5 40 3 3")
        self.begin(gases=50, steps=4096, times=100)
        self.assertEqual(self.value("[...document.querySelectorAll('#repeat progress')].map((e) => "
                                    "[e.hidden, e.getAttribute('aria-label')])"),
                         [[False, "Gases that are done"]])
        self.send(".play 1 60")
        self.run_to(10)
        self.browser.wait("document.querySelector('#repeat progress').value > 0", True)
        self.value("[...document.querySelectorAll('#repeat button')].find((e) => e.textContent === 'Stop')"
                   ".click()")
        self.assertRegex(self.told(), r"^Stopped after \d+ runs?\.$")
        self.assertEqual(self.value("document.querySelector('#repeat progress').hidden"), True)
        self.begin(gases=5)
        self.browser.wait("document.querySelector('#repeat .told').textContent", "Done: 5 runs.")

    def test_stop_keeps_the_runs_that_are_done(self):
        """It is pressed as soon as two are shown."""
        self.lay()
        self.value("""new MutationObserver((_, it) => {
            if (document.querySelector("#repeat .result").hidden) return;
            it.disconnect();
            [...document.querySelectorAll("#repeat button")].find((e) => e.textContent === "Stop").click();
            }).observe(document.querySelector("#repeat .result"), { attributes: true }); 0""")
        self.begin(gases=50)
        self.browser.wait("document.querySelector('#repeat .told').textContent", "Stopped after 2 runs.")
        mean = statistics.mean(rows_of(SOLID, .25, .5, seed, 5, 3)[2][3] for seed in (1, 2))
        label = self.value("document.querySelector('#repeat .plot').ariaLabel")
        self.assertIn("mean of 2 runs", label)
        self.assertIn(f": {mean:g} ± ", label.replace("−", "-"))

    def test_a_gas_that_would_be_too_full_is_said(self):
        self.lay()
        self.begin(density=80, right=50)
        self.assertIn("more than full", self.told())


class RepeatInFirefox(Repeat):
    program, make_browser = FIREFOX, Firefox


class Served(PageCase):
    def test_a_page_over_a_program_says_why_it_repeats_nothing(self):
        with Started("--program", STAND_IN) as server:
            self.browser.navigate(server.links[0])
            self.browser.wait("globalThis.laboratory?.lab.picture != null", True)
            text = self.value("document.getElementById('repeat').textContent")
            self.assertIn("one gas at a time", text)
            self.assertEqual(self.value("document.querySelectorAll('#repeat input').length"), 0)
            self.browser.navigate("about:blank")
            self.browser.wait("location.href", "about:blank")


if __name__ == "__main__":
    unittest.main()
