"""What the page says and keeps of a person's work: files, readings, time, a full journal, other seats."""
import csv
import io
import json
import os
import subprocess
import tempfile
import unittest
from pathlib import Path

from .page_case import CALLOUT, LESSON, PageCase
from .test_lab import ROOT
from .test_page_engine import PAGE

_CAP = 65536
_CHOOSE = """((one, value) => {
    one.value = value; one.dispatchEvent(new Event("change", { bubbles: true }));
  })(document.getElementById("%s"), "%s")"""
_LOG = "[...document.querySelectorAll('#log > div')].map((e) => e.textContent)"


class Files(PageCase):
    def open_file(self, data):
        self.value(f"laboratory.openBytes('own.txt', Uint8Array.from({list(data)}))")

    def test_a_script_stops_at_its_first_refusal_and_opens_nothing(self):
        self.open("8")
        self.draw("wall", (5, 5), (8, 6))
        before = self.state()
        self.open_file(b"# a comment\nput 1 1 1 1\nput 1 1 0 1\nput 2 2 2 2\n")
        self.settle()
        self.assertIn("Line 3 of 4, “put 1 1 0 1”: The rectangle is empty or reaches outside",
                      self.value(CALLOUT))
        self.assertEqual((self.state(), self.value(LESSON)), (before, "Three people on one gas"))

    def test_a_script_after_a_snapshot_asks_for_it(self):
        """It reads before it changes anything: the lesson of the next day, too."""
        self.open("8")
        for data in (b"ledger\nput 1 1 1 1\n", (ROOT / "examples" / "7_next_day.txt").read_bytes()):
            self.open_file(data)
            self.assertIn("Choose the snapshot of that too", self.value(CALLOUT))
        self.value("document.querySelectorAll('#callout .does button')[1].click()")
        self.browser.wait("laboratory.lab.picture?.tick", -60)

    def test_a_script_opens_on_the_lattice_that_its_lines_need(self):
        """The lesson with a lattice of its own, one of another size, and what `size` names."""
        for data, size in (((ROOT / "examples" / "7_kept.txt").read_bytes(), [128, 64]),
                           ((ROOT / "examples" / "5_empty.txt").read_bytes(), [256, 256]),
                           (b"probe 0 0 64 192\nput 1 1 1 1\n", [64, 192]), (b"put 1 1 1 1\n", [64, 64]),
                           (b"size 192 64\nput 1 1 1 1\n", [192, 64])):
            self.open("8")
            self.open_file(data)
            self.settle()
            self.assertEqual(self.value("[laboratory.view.picture.width, laboratory.view.picture.height]"),
                             size)
        self.open("8")
        self.open_file((ROOT / "examples" / "7_kept.txt").read_bytes())
        self.settle()
        self.assertEqual(self.value("laboratory.lab.link.send(['tally'])"), ["TALLY 60 768 -52 -8"])

    def test_a_saved_script_is_replayed_by_the_command_that_is_shown(self):
        """By the second implementation, to tally and ledger; and the page opens it again as it was."""
        room = tempfile.TemporaryDirectory()
        self.addCleanup(room.cleanup)
        os.symlink(ROOT / "tools", Path(room.name, "tools"))
        self.open("7")
        self.browser.download_to(room.name)
        self.draw("wall", (5, 5), (8, 6))
        self.send("step 25")
        shown, state = self.value("laboratory.lab.link.send(['tally', 'ledger'])"), self.state()
        self.value("document.getElementById('script').click()")
        self.browser.wait_for_file(Path(room.name, "gas.txt"))
        self.browser.wait("document.querySelectorAll('#popover .replay').length", 2)
        commands = self.value("[...document.querySelectorAll('#popover .replay')].map((e) => e.textContent)")
        self.assertEqual(commands[0], "./gaslab run --width 128 --height 64 < gas.txt")
        done = subprocess.run(commands[1], shell=True, cwd=room.name, capture_output=True, text=True)
        replies = done.stdout.splitlines()
        self.assertEqual((done.stderr, [it for it in replies if it.startswith("ERR")], replies[-2:]),
                         ("", [], shown))
        self.value("document.getElementById('popover').close()")
        self.open("8")
        self.open_file(Path(room.name, "gas.txt").read_bytes())
        self.settle()
        self.assertEqual((self.value("laboratory.lab.link.send(['tally', 'ledger'])"), self.state()),
                         (shown, state))

    def test_a_name_of_two_lines_sends_no_second_line(self):
        self.open("8")
        self.value("laboratory.openBytes('a\\n7 wall 1 1 1 1', new TextEncoder().encode('put 9 9 1 1'))")
        self.settle()
        self.assertEqual(self.value("laboratory.lab.link.send(['entry 0', 'entry 1'])"),
                         ["ENTRY 0 put 9 9 1 1", "ERR 9 entry"])

    def test_a_file_is_seen_whole_and_its_tick_is_said(self):
        self.open("1")
        self.open_file(b"put 1 1 1 1\nstep 300\n")
        self.settle()
        self.assertEqual(self.value("laboratory.view.fitted"), True)
        self.assertIn("at tick 300", self.value("document.getElementById('lesson').textContent"))
        self.assertIn("at tick 300", self.value("document.getElementById('spoken').textContent"))

    def test_a_film_is_a_video_of_the_next_pictures(self):
        """It is no longer than the gas plays: one that stands has none."""
        room = tempfile.TemporaryDirectory()
        self.addCleanup(room.cleanup)
        self.open("8")
        self.browser.download_to(room.name)
        film = "[...document.querySelectorAll('.give')].find((e) => /^Film/.test(e.textContent)).lastChild"
        self.value(f"document.getElementById('share-open').click(); {film}.click()")
        self.assertEqual(self.value(f"{film}.textContent"), "Press play")
        self.send(".play 1 30")
        self.browser.wait("laboratory.lab.playing", True)
        self.value(f"{film}.click()")
        path = Path(room.name) / "film.webm"
        self.browser.wait_for_file(path)
        self.assertEqual(path.read_bytes()[:4], b"\x1a\x45\xdf\xa3")
        self.assertEqual(self.value(f"{film}.textContent"), "Save")


class Readings(PageCase):
    def test_probes_show_their_momentum_and_can_be_closed(self):
        """One particle that moves right and down."""
        self.open("empty")
        self.draw("put", (10, 10), (10, 10))
        self.draw("probe", (8, 8), (15, 15))
        self.browser.wait("document.querySelector('#probes .sums')?.textContent", "1 particles, px 1, py 1")
        self.value("document.querySelector('#probes .close').click()")
        self.browser.wait("document.querySelectorAll('#probes li').length", 0)
        self.assertEqual(self.value("laboratory.view.picture.probes"), [])

    def test_a_probe_is_marked_at_once(self):
        """Its name stands on a dark ground in its upper left corner, where only particles would be."""
        self.open("6")
        self.browser.wait("laboratory.view.picture.probes.length", 1)
        self.settle()
        self.assertGreater(self.value("""(() => {
            const { view: v } = laboratory, [x, y] = v.box(v.picture.probes[0].rect).map(Math.round);
            const { data } = v.context.getImageData(x + 3, y + 3, 40, 16);
            return Array.from({ length: data.length / 4 }, (_, k) => data.slice(4 * k, 4 * k + 3).join())
                .filter((it) => it === "22,32,43").length; })()"""), 100)

    def test_a_plot_with_a_probe_asks_for_none(self):
        self.open("6")
        self.browser.wait("document.getElementById('plot-probe').textContent", "Play, and the curve begins.")

    def test_a_typed_step_shows_the_entropy_at_once(self):
        """The value that the second implementation gives to the claim of lesson 11."""
        choices = json.loads((PAGE / "choices.json").read_text())
        claim = next(it for it in choices["lessons"][10]["claims"] if it.get("press") == [0])
        self.open("11")
        self.send("step 256")
        self.browser.wait("document.querySelector('#plot-list .number').textContent",
                          f"{float(claim['reply']):.3f}".rstrip("0"))

    def test_the_drag_shows_single_ticks_on_request(self):
        """What the obstacle took since the picture before, by the ledger. Their mean of 20 ticks is 6."""
        self.open("4")
        self.send(".pause")
        self.send("erase 0 18 64 28", "block 30 30 4 4", "step 200")
        single = "document.querySelector('figcaption .plain')"
        self.value(f"{single}.click()")
        self.assertEqual(self.value(f"{single}.ariaPressed"), "true")
        found, took = [], [self.value("laboratory.lab.picture.ledger[7]")]
        for _ in range(20):
            self.send("step 1")
            self.settle()
            took.append(self.value("laboratory.lab.picture.ledger[7]"))
            found.append(float(self.value("laboratory.plots.value('drag')")))
        self.assertEqual(found, [after - before for before, after in zip(took, took[1:])])
        self.assertGreater(len(set(found)), 1)
        self.value(f"{single}.click()")
        self.assertEqual(self.value("document.querySelector('#plot-list .number').textContent"), "6")

    def test_readings_go_home_as_a_table(self):
        self.open("6")
        self.send("step 3")
        ledger, = self.value("laboratory.lab.link.send(['ledger'])")
        rows = list(csv.DictReader(io.StringIO(self.value("laboratory.plots.table()"))))
        self.assertEqual([row["tick"] for row in rows[-2:]], ["0", "3"])
        names = ["start", "injected", "drained", "start_x", "injected_x", "drained_x", "walls_x",
                 "obstacles_x", "start_y", "injected_y", "drained_y", "walls_y", "obstacles_y"]
        self.assertEqual([rows[-1][name] for name in names], ledger.split(" ")[1:])
        self.assertEqual((rows[-2]["probe_1_count"], rows[-2]["probe_1_px"]), ("1120", "0"))

    def test_edits_have_numbers_in_the_plots_and_lines_below(self):
        self.open("8")
        self.send("step 5")
        for line in ("put 1 1 1 1", "wall 2 2 2 2", "step 1", "erase 1 1 4 4"):
            self.send(line)
        self.browser.wait("document.querySelectorAll('#notes li').length", 2)
        self.assertEqual(self.value("[...document.querySelectorAll('#notes li')].map((e) => e.textContent)"),
                         ["tick 5: put 1 1 1 1 and 1 more", "tick 6: erase 1 1 4 4"])


class Time(PageCase):
    def test_the_tick_slider_pauses_and_keeps_its_aim(self):
        self.open("8")
        self.send("step 100", ".play 1 30")
        self.browser.wait("laboratory.lab.shown?.playing", True)
        self.value("""(() => { const s = document.getElementById('tick-slider');
            s.value = 20; s.dispatchEvent(new Event('input')); })()""")
        self.browser.wait("laboratory.lab.picture.playing", False)
        self.assertEqual(self.value("['tick-slider', 'tick-text'].map((id) => document.getElementById(id))"
                                    ".map((e) => e.value ?? e.textContent)"), ["20", "to 20"])
        self.value("document.getElementById('tick-slider').dispatchEvent(new Event('change'))")
        self.browser.wait("laboratory.lab.picture.tick === 20 && !laboratory.lab.playing", True)

    def test_the_tick_slider_begins_with_the_least_tick(self):
        self.open("8")
        self.send("back 30")
        self.browser.wait("document.getElementById('tick-slider').min", "-30")

    def test_steps_that_are_not_made_are_said(self):
        self.open("8")
        self.send(".play 1 30")
        self.browser.wait("laboratory.lab.picture.playing", True)
        self.value("laboratory.lab.change({ pace: { drawn: 60, made: 60, steps: 3400, asked: 15360 } })")
        self.assertEqual(self.value("document.getElementById('reason').textContent"),
                         "Asked for 15,360 steps a second, made 3,400.")


class Journal(PageCase):
    def test_a_full_journal_is_saved_and_the_work_goes_on(self):
        """What was refused is done then, and probes and curves stay."""
        room = tempfile.TemporaryDirectory()
        self.addCleanup(room.cleanup)
        self.open("6")
        self.browser.download_to(room.name)
        self.value(f"laboratory.lab.link.send(Array({_CAP - 6}).fill('put 0 0 1 1')).then(() => 0)")
        self.settle()
        self.draw("wall", (30, 30), (31, 31))
        self.assertIn("The journal is full", self.value(CALLOUT))
        self.value("document.querySelector('#callout .does button').click()")
        for name in ("gas.txt", "day.gas"):
            self.browser.wait_for_file(Path(room.name) / name)
        self.browser.wait("laboratory.lab.picture?.journal", 1)
        self.assertEqual(self.value("laboratory.lab.link.send(['entry 0'])"), ["ENTRY 0 wall 30 30 2 2"])
        self.assertEqual(self.value("laboratory.view.picture.probes.map((p) => p.rect)"), [[4, 4, 20, 56]])
        self.assertEqual(len((Path(room.name) / "gas.txt").read_text().splitlines()), _CAP + 3)


class Seats(PageCase):
    OTHER = """window.other = laboratory.connect(); window.told = [];
        other.onmessage = ({ data }) => {
            if (typeof data === "string") told.push(data); else other.send("0 .drawn"); }; 0"""

    def test_rows_of_another_seat_are_one_line(self):
        self.open("8")
        self.value(self.OTHER)
        self.value("other.send(Array.from({ length: 64 }, (_, y) => `${y + 1} row ${y} ${'0'.repeat(16)}`)"
                   ".join('\\n'))")
        self.browser.wait("told.join().includes('64 OK')", True)
        self.settle()
        said = [it for it in self.value(_LOG) if "row" in it]
        self.assertEqual(len(said), 1)
        self.assertIn("64 rows", said[0])
        self.value("other.close()")

    def test_a_lesson_that_another_seat_opens_is_told(self):
        """This page takes the second seat, and its first one opens a lesson and a gas of its own."""
        self.open("8")
        self.value("window.first = laboratory.lab.link;"
                   "first.on = new Proxy({}, { get: () => () => {} }); laboratory.join()")
        self.settle()
        for name, told in (("Sound", "about tick 57"), ("Mine", "Another seat has opened this gas.")):
            self.value(f"first.send(['.open 128 64 {name}'])")
            self.browser.wait(LESSON, name)
            self.assertIn(told, self.value("document.getElementById('lesson').textContent"))

    def test_after_the_server_has_ended_each_line_is_answered(self):
        """And so is a step, even if the last picture is one of a gas that plays."""
        self.open("4")
        self.browser.wait("laboratory.lab.playing", True)
        self.value("laboratory.lab.link.socket.close()")
        self.value("document.getElementById('step').click()")
        self.browser.wait(f"({CALLOUT}).includes('The server has ended')", True)
        buttons = self.value("[...document.querySelectorAll('#banner button')].map((e) => e.textContent)")
        self.assertEqual(buttons, ["Connect again", "Save the picture"])
        self.assertEqual(self.value("laboratory.send(['step 1'])"), ["GONE"])
        self.assertIn("The server has ended", self.value(_LOG)[-1])
        off = "['play', 'step', 'back'].map((id) => document.getElementById(id).ariaDisabled)"
        self.assertEqual(self.value(off), ["true"] * 3)


class Key(PageCase):
    def test_the_key_follows_the_zoom_while_the_gas_stands(self):
        self.open("8")
        self.browser.wait("document.getElementById('key').textContent", "particle on a wall")
        self.value("laboratory.view.fit([0, 0, 16, 16]); laboratory.view.redraw()")
        self.browser.wait("document.getElementById('key').textContent", "collides nextbounces")


class Waves(PageCase):
    def test_lesson_5_opens_where_its_ring_is_seen(self):
        """At tick 40 far more squares stand out from the background than by all shades from 0 to 100 %."""
        out = """(({ view: { coarse: { pixels } } }) => {
            const sums = [...pixels].map((v) => (v & 255) + (v >> 8 & 255) + (v >> 16 & 255)), most = {};
            for (const sum of sums) most[sum] = (most[sum] ?? 0) + 1;
            const ground = Number(Object.keys(most).sort((a, b) => most[b] - most[a])[0]);
            return sums.filter((sum) => Math.abs(sum - ground) > 150).length; })(laboratory)"""
        self.open("5")
        self.send("step 40")
        self.settle()
        self.assertEqual(self.value("document.getElementById('key').textContent"), "25 %75 %")
        seen = self.value(out)
        self.value(_CHOOSE % ("range", "full"))
        self.settle()
        self.assertGreater(seen, 3 * self.value(out))
        self.assertGreater(seen, 200)

    def test_the_density_has_squares_a_range_and_a_mean(self):
        """A full and an empty half: the shades of squares of 8 by 8 are the ends of the range."""
        self.open("empty")
        self.send("put 0 0 32 64")
        self.value("laboratory.lab.change({ mode: 'density' })")
        for side, across in (("4", 16), ("8", 8), ("16", 4)):
            self.value(_CHOOSE % ("square", side))
            self.settle()
            self.assertEqual(self.value("laboratory.view.coarse.canvas.width"), across)
        self.assertEqual(self.value("laboratory.view.shades"), [0, 1])
        self.send("erase 0 0 32 32")
        self.value(_CHOOSE % ("range", "middle"))
        self.browser.wait("document.getElementById('key').textContent", "25 %75 %")


if __name__ == "__main__":
    unittest.main()
