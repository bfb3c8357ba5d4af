"""The page as one file, in a real browser, from a folder."""
import json
import os
import re
import shutil
import subprocess
import time
import unittest
from unittest import mock

from gaslab.page.one_file import STATIC, bare_style, bundle, one_file, read
from gaslab.pictures import palette

from .firefox import FIREFOX, Firefox
from .page_case import CALLOUT, LESSON, READY, PageCase
from .test_lab import ROOT
from .test_page_engine import run_second, second

# How bright each second pixel of each second row is, in the pictures of 1.5 seconds, and in at least three:
# [how many pictures, pixels that flash, pixels that change, pictures that were skipped]. A flash is two
# changes by a tenth, to and fro. Those pixels are counted that flash more than three times in a second, in
# the 341 by 256 that have most of them. Time is that of the browser's frames, by which the page goes too.
# To try the count itself on any machine, `isCounted` has each drawn picture take the time of one at its rate.
_FLASHES = """(async (isCounted) => {
  const { view: { canvas }, lab } = laboratory, seen = [];
  const [width, height] = [canvas.width, canvas.height].map((side) => side >> 1);
  const own = Object.assign(document.createElement("canvas"), { width, height });
  const c = own.getContext("2d", { willReadFrequently: true });
  c.imageSmoothingEnabled = false;
  const part = Float32Array.from({ length: 256 }, (_, v) => (v /= 255) <= .04045 ? v / 12.92
    : ((v + .055) / 1.055) ** 2.4);
  const { scale } = laboratory.view;
  for (let last = lab.shown.number; seen.length < 3 || seen.at(-1)[0] < seen[0][0] + 1500;) {
    if (laboratory.view.scale !== scale) throw new Error("what is beside the gas has moved it");
    const frame = await new Promise(requestAnimationFrame);
    if (lab.shown.number === last) continue;
    last = lab.shown.number;
    c.drawImage(canvas, 0, 0, width, height);
    const now = isCounted ? seen.length * 1000 / lab.shown.rate : frame;
    seen.push([now, c.getImageData(0, 0, width, height).data, last]);
  }
  const bright = (d, k) => .2126 * part[d[4 * k]] + .7152 * part[d[4 * k + 1]] + .0722 * part[d[4 * k + 2]];
  const sums = Array.from({ length: height + 1 }, () => new Uint32Array(width + 1));
  let changing = 0;
  for (let k = 0; k < width * height; k++) {
    const x = k % width, y = Math.floor(k / width);
    let low = bright(seen[0][1], k), high = low;
    const turns = [];
    for (const [at, data] of seen) {
      const now = bright(data, k);
      low = Math.min(low, now); high = Math.max(high, now);
      if (high - low >= .1) { turns.push(at); low = high = now; }
    }
    sums[y + 1][x + 1] = sums[y][x + 1] + sums[y + 1][x] - sums[y][x]
      + (turns.some((at, j) => turns[j + 6] - at < 1000) ? 4 : 0);
    if (turns.length) changing += 4;
  }
  let flashing = 0;
  for (let y = Math.min(128, height); y <= height; y++) for (let x = Math.min(170, width); x <= width; x++) {
    const [left, top] = [Math.max(0, x - 170), Math.max(0, y - 128)];
    flashing = Math.max(flashing, sums[y][x] - sums[top][x] - sums[y][left] + sums[top][left]);
  }
  return [seen.length, flashing, changing, seen.at(-1)[2] - seen[0][2] - seen.length + 1];
})"""
# Pixels of what is seen that are another colour after a second's ticks, and after those of one more. On a
# slow machine ticks are lost between two pictures, so each second begins with the tick that was seen last.
_MOVES = """(async (ticks) => {
  const { view: { canvas: { width, height }, canvas }, lab } = laboratory, seen = [];
  const own = Object.assign(document.createElement("canvas"), { width, height });
  const c = own.getContext("2d", { willReadFrequently: true });
  for (let k = 0, due = lab.shown.tick; k < 3; k++, due = lab.shown.tick + ticks) {
    do await new Promise(requestAnimationFrame); while (lab.shown.tick < due);
    c.drawImage(canvas, 0, 0);
    seen.push(new Uint32Array(c.getImageData(0, 0, width, height).data.buffer));
  }
  const far = (a, b) => [0, 8, 16].some((s) => Math.abs((a >> s & 255) - (b >> s & 255)) > 40);
  return [1, 2].map((k) => seen[k].filter((v, n) => far(v, seen[k - 1][n])).length);
})"""
# Loses pictures as a slow machine does: three of four for a while, then all for as long as a mean has one
_SKIPS = """(() => {
  const { link } = laboratory.lab, { takeParts } = link;
  const isLost = (n) => n % 56 < 24 ? n % 4 > 0 : n % 28 < 20;
  globalThis.keepAll = () => { link.takeParts = takeParts; };
  link.takeParts = (parts) => {
    if (parts.number && isLost(parts.number)) link.socket.send("0 .drawn");
    else takeParts.call(link, parts);
  };
})()"""
# Steps and pictures a second: from 1 to 120 steps a second
_SPEEDS = (1, 1), (1, 5), (1, 10), (1, 20), (1, 30), (1, 60), (2, 60)
_MODES = ("particles", "velocity", "density")
_AREA = 341 * 256 // 4  # pixels that may flash: a quarter of ten degrees of sight, as WCAG 2.3.1 has it
_PARTICLES = """(() => {
  const { width: w, height: h } = laboratory.view.picture;
  const d = laboratory.view.full.canvas.getContext("2d").getImageData(0, 0, w, h).data;
  const full = ["0 114 178", "240 228 66"];
  return Array.from({ length: h }, (_, y) => Array.from({ length: w }, (_, x) =>
    full.includes([0, 1, 2].map((k) => d[4 * (y * w + x) + k]).join(" ")) ? 1 : 0).join("")); })()"""


class Main:
    """What holds in each browser."""

    def test_lesson_4(self):
        """It moves and has no drag. A drawn obstacle takes 6, and twice as high 10, at once and for ever."""
        self.open()
        self.run_to(70)
        self.assertEqual((self.drag(), self.value("laboratory.lab.playing")), ("0", True))
        self.draw("block", (30, 30), (33, 33))
        self.assertRegex(self.said(), r"^sentblock 30 30 4 4OK \d+$")
        self.run_to(self.tick() + 130)
        self.assertEqual(self.drag(), "6")
        self.value("[...document.querySelectorAll('.tries button')][1].click()")
        self.run_to(self.tick() + 130)
        self.assertEqual(self.drag(), "10")
        self.assertEqual(self.value("document.getElementById('balance').className"), "even")

    def test_pixels_and_ledger_are_the_replies(self):
        self.open()
        self.run_to(40)
        self.draw("wall", (30, 24), (31, 40))
        self.send(".pause")
        self.browser.wait("laboratory.lab.picture.playing", False)
        self.send("step 1")                      # a pause shows a mean until then
        self.value("new Promise((done) => requestAnimationFrame(() => requestAnimationFrame(() => done(0))))")
        rows, ledger = (self.value(f"laboratory.lab.link.send({json.dumps(it)})") for it in
                        ([f"read {y}" for y in range(64)], ["ledger"]))
        self.assertEqual(self.value(_PARTICLES), [f"{int(row[4:], 16):064b}" for row in rows])
        rows = self.value("[...document.querySelectorAll('#ledger tr')].map((row) =>"
                          "[...row.cells].slice(1).map((e) => e.textContent"
                          ".replace(',', '').replace('−', '-')))")
        numbers = [int(it) for it in ledger[0].split(" ")[1:]]
        signs, places = [1, 1, -1, -1, -1], [[0, 3, 8], [1, 4, 9], [2, 5, 10], [None, 6, 11], [None, 7, 12]]
        wanted = [[None if place is None else numbers[place] for place in row] for row in places]
        self.assertEqual([[int(it) if it else None for it in row] for row in rows[:5]], wanted)
        self.assertEqual([int(it) for it in rows[5]],
                         [sum(sign * (it or 0) for sign, it in zip(signs, it)) for it in zip(*wanted)])
        names = self.value("[...document.querySelectorAll('#ledger th')].map((e) => e.textContent[0])")
        self.assertEqual(names, ["s", *("+" if sign > 0 else "−" for sign in signs[1:]), "="])

    def test_undo_takes_the_last_edit(self):
        self.open("8")
        start = self.state()
        self.draw("wall", (5, 5), (8, 6))
        walled = self.state()
        self.draw("put", (2, 2), (7, 7))
        self.assertNotEqual(self.state(), walled)
        self.undo()
        self.assertEqual(self.state(), walled)
        self.undo()
        self.assertEqual(self.state(), start)

    def test_undo_of_unport_and_of_a_source(self):
        self.open()
        self.send(".pause")
        start = self.value("JSON.stringify(laboratory.view.ports)")
        self.send("unport")
        self.undo()
        self.assertEqual(self.value("JSON.stringify(laboratory.view.ports)"), start)
        self.draw("source", (30, 20), (31, 21))
        self.undo()
        self.assertEqual(self.value("JSON.stringify(laboratory.view.ports)"), start)

    def test_undo_keeps_no_whole_plane(self):
        """Of a 64 by 64 gas a plane has 512 bytes."""
        self.open("8")
        self.send("source 1 1 2 2 3")
        self.send("wall 5 5 2 2")
        kept = self.value("laboratory.edits.list.map(({ before }) => Object.entries(before)"
                          ".flatMap(([name, it]) => name === 'ports' ? [] : [it.byteLength]))")
        self.assertEqual(kept, [[], [16, 16]])

    def test_undo_of_erase_unwall_and_rows(self):
        self.open("6")
        for tool in ("erase", "unwall", "block", "random"):
            start = self.state()
            self.draw(tool, (0, 20), (45, 35))
            self.assertNotEqual(self.state(), start, tool)
            self.undo()
            self.assertEqual(self.state(), start, tool)

    def test_curves_of_two_runs_stay_apart(self):
        """Lesson 6: the gas comes home, and the spoilt one stays above 0.5 all the way."""
        self.open("6")
        for line, tick in ((".goto 320 16 60", 320), (".goto 0 16 60", 0), (".goto 320 16 60", 320)):
            self.send(line)
            self.browser.wait(f"laboratory.lab.picture.tick === {tick} && !laboratory.lab.playing", True)
        self.send("put 33 24 1 1")
        self.send(".goto 0 16 60")
        self.browser.wait("laboratory.lab.picture.tick === 0 && !laboratory.lab.playing", True)
        names = self.value("laboratory.plots.curves('entropy').names")
        self.assertEqual(names, ["run 2, back", "run 3", "run 4, back"])
        rows = self.value("laboratory.plots.curves('entropy').rows")
        home, spoilt = ([row[k] for row in rows if row[k] is not None] for k in (1, 3))
        self.assertGreater(min(spoilt), 0.5)
        self.assertLess(min(home), 0.4)
        self.assertGreater(min(len(home), len(spoilt)), 4)

    def test_a_wrong_file_opens_nothing(self):
        self.open("8")
        self.draw("wall", (5, 5), (8, 6))
        before = self.state()
        for data, words in ((b"\x89PNG\r\n\x1a\n\0\0", "neither a script nor a snapshot"),
                            (b"put 1 2 3 4\nbogus 1\n", "Line 2"),
                            (b"HPPGAS2\n\0\0", "damaged"), (b"size 65 64\n", "multiples of 64")):
            self.value(f"laboratory.openBytes('it', Uint8Array.from({list(data)}))")
            self.assertIn(words, self.value(CALLOUT))
            self.assertEqual(self.state(), before)
        self.assertEqual(self.value(LESSON), "Three people on one gas")

    def test_the_gas_before_can_be_brought_back(self):
        self.open("8")
        self.draw("wall", (5, 5), (8, 6))
        self.send("step 7")
        before, ledger = self.state(), self.value("laboratory.lab.link.send(['ledger', 'entry 4'])")
        self.value("laboratory.load(laboratory.find('1'))")
        self.browser.wait("document.getElementById('banner').hidden", False)
        self.assertNotEqual(self.state(), before)
        self.value("document.querySelector('#banner button').click()")
        self.browser.wait(LESSON, "Three people on one gas")
        self.browser.wait("laboratory.lab.picture?.tick", 7)
        self.assertEqual(self.state(), before)
        self.assertEqual(self.value("laboratory.lab.link.send(['ledger', 'entry 4'])"), ledger)

    def test_who_joins_changes_nothing_and_sees_that_it_plays(self):
        self.open()
        self.run_to(30)
        self.value("laboratory.join()")
        self.browser.wait(READY + " && laboratory.lab.playing", True)
        self.assertGreaterEqual(self.tick(), 30)
        self.assertEqual(self.value("document.getElementById('play').textContent"), "Pause")

    def test_another_seat(self):
        """Its speed is shown, its edits stop undo, and it can't open another gas."""
        self.open()
        self.value("""window.told = []; window.other = laboratory.connect();
            other.onmessage = ({ data }) => typeof data === "string" ? told.push(data)
                : other.send("0 .drawn");
            other.send("1 .open 64 64"); other.send("2 .play 1 5"); other.send("3 wall 9 19 2 2"); 0""")
        self.browser.wait("told.some((t) => t.startsWith('3 OK'))", True)
        self.assertIn("1 NO first", self.value("told"))
        self.browser.wait("document.getElementById('speed-text').textContent", "5 steps a second")
        self.assertIn("Seat 1 made the last change", self.undo())
        self.value("other.close()")

    def test_a_lesson_has_its_own_speed(self):
        self.open()
        self.run_to(10)
        self.value("laboratory.load(laboratory.find('1'))")
        self.browser.wait(READY + " && !laboratory.lab.picture.playing", True)
        self.assertEqual(self.value("document.getElementById('speed-text').textContent"), "5 steps a second")

    def test_start_again(self):
        self.open("8")
        start = self.state()
        self.draw("wall", (5, 5), (8, 6))
        self.value("document.querySelector('#lesson .again').click()")
        self.browser.wait(READY + " && laboratory.edits.list.length === 0", True)
        time.sleep(.3)
        self.assertEqual(self.state(), start)

    def test_all_lessons_open(self):
        self.open()
        for lesson in self.value("laboratory.all()"):
            self.value(f"laboratory.load(laboratory.find('{lesson}'))")
            self.browser.wait(READY, True)
            self.assertIn("OK", self.said(), lesson)

    def test_a_script_comes_in_and_goes_home(self):
        """The script that the page hands out makes the same gas in the second implementation."""
        script = (ROOT / "examples" / "4_tunnel.txt").read_bytes()
        self.open("", self.written("tunnel.html", one_file("<b>tunnel</b>.txt", script)))
        self.assertEqual(self.value(LESSON), "<b>tunnel</b>.txt")
        truth = self.value("document.getElementById('truth').textContent.trim()")
        self.assertEqual(truth, "Nothing is proved here")
        self.draw("block", (20, 24), (21, 25))
        self.send("step 40")
        home = self.value("laboratory.lab.link.fetch('.script')"
                          ".then(([f]) => new TextDecoder().decode(f.contents))")
        first, *lines = home.splitlines()
        self.assertEqual((first, lines[-4:]),
                         ("probe 0 0 64 64", ["block 20 24 2 2", "step 40", "tally", "ledger"]))
        asks = ["tally", "ledger", *(f"read {y}" for y in range(64))]
        found = self.value(f"laboratory.lab.link.send({json.dumps(asks)})")
        self.assertEqual(run_second(second(), 64, 64, [*lines, *asks])[len(lines):], found)

    def test_buttons_of_a_lesson_act_at_their_tick(self):
        """Lesson 6: pressed at tick 0, the particle is put at tick 320, and the gas stays spread out. The
        scene clap: there is no way back from tick 120, so it starts again without drains and sources."""
        self.open("6")
        for k, tick in enumerate((320, 0, 320, 0)):
            self.press(k)
            self.browser.wait(f"laboratory.lab.picture.tick === {tick} && !laboratory.lab.playing", True)
        self.assertEqual(self.value("laboratory.lab.link.send(['probe 4 4 20 56'])"), ["PROBE 335 39 3"])
        self.open("clap")
        for k, tick in ((0, 120), (1, 0), (2, 80)):
            self.press(k)
            self.browser.wait(f"laboratory.lab.picture?.tick === {tick} && !laboratory.lab.playing", True)
        self.settle()
        self.assertEqual(self.value("laboratory.lab.link.send(['probe 96 56 8 16'])"), ["PROBE 75 -9 -3"])

    def test_buttons_that_are_pressed_at_once(self):
        """They act one after the other, each at its tick, in lesson 6 with two clicks each."""
        self.open("6")
        self.value("[0, 2, 2, 3, 3, 2].forEach((k) => document.querySelectorAll('.tries button')[k].click())")
        self.browser.wait("laboratory.lab.picture.tick === 320 && !laboratory.lab.playing", True)
        self.settle()
        tally, probe = self.value("laboratory.lab.link.send(['tally', 'probe 33 24 1 1'])")
        self.assertEqual((tally.split(" ")[1:3], probe.split(" ")[1]), (["320", "1121"], "1"))

    def test_the_stream_does_not_flash_at_any_speed_or_in_any_mode(self):
        self.open()
        self.run_to(110)
        for mode in _MODES:
            self.value(f"laboratory.lab.change({{ mode: '{mode}' }})")
            for steps, rate in _SPEEDS:
                self.send(f".play {steps} {rate}")
                flashing = self.flashes()[1]
                self.assertLess(flashing, _AREA / 2, (mode, steps, rate))

    def test_the_stream_is_seen_to_move_at_every_speed(self):
        """Its period is 4 ticks, and at 20 steps a second or 60 a second is a multiple of that."""
        self.open()
        self.run_to(110)
        for mode in _MODES:
            self.value(f"laboratory.lab.change({{ mode: '{mode}' }})")
            for steps, rate in _SPEEDS:
                self.send(f".play {steps} {rate}")
                self.run_to(self.tick() + 2)
                moves = self.value(f"{_MOVES}({steps * rate})")
                self.assertGreater(min(moves), 300, (mode, steps, rate))

    def flashes(self, is_counted=False):
        return self.value(f"{_FLASHES}({json.dumps(is_counted)})")

    def press(self, k):
        self.value(f"document.querySelectorAll('.tries button')[{k}].click()")
        self.settle()


class OneFile(Main, PageCase):
    """In Chromium, with what Firefox can't be asked by its protocol."""

    def test_the_stream_does_not_flash(self):
        """From tick 110 on: the front is through the tunnel at 70, and a mean holds nothing 20 ticks old.
        The followed particles alone move, on far fewer pixels than may flash. If the machine is too slow for
        each picture, cells change, but they don't flash."""
        self.open()
        self.run_to(110)
        _, flashing, changing, skipped = self.flashes()
        self.assertLess(flashing, _AREA / 2)
        if not skipped:
            self.assertLess(changing, 4 * _AREA)
        self.assertTrue(self.value("laboratory.view.isCalm"))
        self.value("laboratory.view.remember = function (p) { this.recent = [p]; this.isCalm = false; }")
        flashing = self.flashes(is_counted=True)[1]
        self.assertGreater(flashing, 2 * _AREA, "single ticks flash, so the count counts")

    def test_a_stream_with_skipped_pictures_does_not_flash(self):
        """On a slow machine, and when most pictures are lost: drawn as they come, those would flash.
        About half of what may flash was found once, where means and followed particles meet."""
        self.open()
        self.run_to(110)
        self.addCleanup(self.browser.slow_down, 1)
        for times in (8, 16, 32):
            self.browser.slow_down(times)
            _, flashing, _, skipped = self.flashes()
            self.assertLess(flashing, _AREA / 2)
            if skipped:
                break
        self.assertGreater(skipped, 0, "it was slow enough")
        self.browser.slow_down(1)
        for mode in _MODES:
            self.value(f"laboratory.lab.change({{ mode: '{mode}' }})")
            for steps, rate in _SPEEDS[1:]:
                self.send(f".play {steps} {rate}")
                self.value(_SKIPS)
                flashing = self.flashes()[1]
                self.assertLess(flashing, _AREA, (mode, steps, rate))
                self.value("keepAll()")

    def test_pause_shows_the_same_kind_of_picture_until_a_step(self):
        """The key says of how many pictures it is the mean, and a pause shows the last that played. If the
        machine is too slow for that one, it is still a mean: most of its colours are not those of a tick."""
        self.open()
        self.run_to(110)
        key = "document.getElementById('key').textContent"
        self.assertRegex(self.value(key), "mean of 4 pictures.*followed")
        is_same = self.value("""(async () => {
            const { view, lab } = laboratory, kept = new Map();
            document.getElementById("play").click();
            for (; lab.shown.playing; await new Promise(requestAnimationFrame))
                kept.set(lab.shown.tick, view.full.pixels.join());
            globalThis.paused = view.full.pixels.slice();
            return kept.has(lab.shown.tick) ? kept.get(lab.shown.tick) === paused.join() : null; })()""")
        self.assertIn(is_same, (True, None))
        self.assertRegex(self.value(key), "mean of 4 pictures.*followed")
        self.value("document.getElementById('step').click()")
        self.settle()
        self.assertNotIn("mean", self.value(key))
        self.assertGreater(self.value("""(({ view: { full: { pixels } } }) => {
            const single = new Set(pixels);
            return paused.filter((v) => !single.has(v)).length; })(laboratory)"""), 1000)

    def test_a_mean_is_named_where_the_key_has_no_room(self):
        """On a phone, on a low screen and with larger text, in the corner of the gas."""
        named = ("['key', 'blend'].map((id) => document.getElementById(id))"
                 ".filter((e) => e.checkVisibility())"
                 ".map((e) => [e.id, e.textContent.match(/mean of 8 pictures/)?.[0]])")
        for size, is_large, place in (((1440, 900), False, "key"), ((390, 844), False, "blend"),
                                      ((844, 390), False, "blend"), ((1440, 900), True, "blend")):
            self.open(size=size)
            if is_large:
                self.value("document.getElementById('larger').click()")
                self.addCleanup(self.value, "document.getElementById('larger').click()")
            self.value("laboratory.lab.change({ mode: 'density', isMean: true })")
            self.browser.wait("laboratory.view.past.length", 8)
            self.settle()
            self.assertEqual(self.value(named), [[place, "mean of 8 pictures"]], (size, is_large))

    def test_styles_have_the_same_rules_without_their_spaces(self):
        """As Chromium reads them. Where a value has a variable, it keeps all spaces between the words."""
        self.open("8")
        rules = """.map((text) => { const it = new CSSStyleSheet(); it.replaceSync(text);
            return [...it.cssRules].map(({ cssText }) => cssText.replace(/("[^"]*")|,?\\s+/g,
                (space, string) => string ?? (space[0] === "," ? "," : " "))); })"""
        for name, least in (("page.css", 100), ("print.css", 2)):
            whole, bare = self.value(json.dumps([read(name), bare_style(read(name))]) + rules)
            self.assertEqual(bare, whole, name)
            self.assertGreaterEqual(len(whole), least)

    def test_nothing_moves_by_itself_when_motion_is_reduced(self):
        self.browser.reduce_motion(True)
        self.open()
        time.sleep(.5)
        self.assertEqual((self.tick(), self.value("laboratory.lab.playing")), (0, False))

    def test_undo_stops_at_what_cannot_be_undone(self):
        self.open("8")
        self.draw("wall", (5, 5), (8, 6))
        self.draw("put", (2, 2), (7, 7))
        self.send("step 1")
        before = self.state()
        for _ in range(2):
            self.assertIn("put 2 2 6 6 can't be undone: its particles have moved on", self.undo())
            self.assertEqual(self.state(), before)

    def test_a_reload_keeps_the_gas(self):
        self.open("8")
        self.draw("wall", (5, 5), (8, 6))
        self.send("step 7")
        before = self.state()
        self.value("globalThis.isBefore = true; location.reload()")
        self.browser.wait("globalThis.isBefore", None)
        self.browser.wait(READY + " && laboratory.lab.picture.tick === 7", True)
        self.assertEqual(self.state(), before)
        self.assertIn("kept over the reload", self.value("document.getElementById('banner').textContent"))

    def test_sizes_and_taps(self):
        """No sideways scrolling, and on a phone both tabs can be tapped."""
        for size in ((1440, 900), (1024, 768), (390, 844)):
            self.open(size=size)
            self.assertLessEqual(self.value("document.documentElement.scrollWidth"), size[0])
        for name in ("lesson", "readings"):
            tab = f"document.getElementById('tab-{name}')"
            self.value(tab + ".scrollIntoView({ block: 'center' })")
            box = self.value(tab + ".getBoundingClientRect().toJSON()")
            self.browser.tap(box["x"] + box["width"] / 2, box["y"] + box["height"] / 2)
            self.browser.wait("document.body.dataset.tab", name)
            below = f"document.getElementById('{name}').getBoundingClientRect().top"
            self.assertGreater(self.value(f"{below} - {tab}.getBoundingClientRect().top"), 0)

    def test_pasted_lines_are_sent_one_by_one(self):
        self.open("8")
        self.value("""(() => { const data = new DataTransfer();
            data.setData("text", "put 0 0 1 1\\n# a comment\\nbogus\\nput 9 9 1 1\\n");
            document.getElementById("entry").dispatchEvent(new ClipboardEvent("paste",
                { clipboardData: data, cancelable: true })); })()""")
        self.browser.wait("document.getElementById('last').textContent.includes('bogus')", True)
        self.assertEqual(self.value("laboratory.edits.list.map((e) => e.lines.join())"), ["put 0 0 1 1"])

    def test_a_broken_picture_is_said(self):
        """It ends the connection, the last picture stays, and joining again shows the gas."""
        self.open("8")
        before = self.state()
        self.value("laboratory.lab.link.socket.onmessage("
                   "{ data: Uint8Array.from({ length: 170 }, (_, k) => k ? 7 : 1).buffer })")
        self.assertEqual(self.state(), before)
        self.assertEqual(self.value("document.body.dataset.status"), "gone")
        self.assertIn("can't read", self.value("document.getElementById('banner').textContent"))
        self.assertEqual([it["type"] for it in self.browser.errors], ["warning"])
        self.browser.errors.clear()
        self.value("laboratory.join()")
        self.browser.wait("document.body.dataset.status", "open")
        self.browser.wait("document.getElementById('banner').hidden", True)


class InFirefox(Main, PageCase):
    program, make_browser = FIREFOX, Firefox


class Style(unittest.TestCase):
    @unittest.skipUnless(shutil.which("eslint"), "there is no eslint")
    def test_scripts_are_clean_under_eslint(self):
        """The rules are in .eslintrc.json: no innerHTML, and lines of at most 110 characters."""
        found = subprocess.run(["eslint", "--format", "unix", STATIC], cwd=STATIC.parent, text=True,
                               env={**os.environ, "NODE_PATH": "/usr/share/nodejs"}, stdout=subprocess.PIPE)
        self.assertEqual((found.stdout, found.returncode), ("", 0))

    def test_each_module_is_short(self):
        """See DECISIONS.md of the client: one subject each, at most 250 lines."""
        for path in STATIC.glob("*.js"):
            if not path.name.startswith("dygraph"):
                self.assertLessEqual(len(path.read_text("utf-8").splitlines()), 250, path.name)

    def test_painting_reads_no_form(self):
        """What is painted comes from the gas and from the page's state. `at` finds elements."""
        for name in ("cells", "fields", "flow", "painter", "viewport", "view"):
            text = read(f"{name}.js")
            self.assertLessEqual(set(re.findall(r"(?<![.\w])at\((\".*?\")\)", text)), {'"gas"'}, name)
            self.assertNotRegex(text, r"\.(checked|value)\b|querySelector|getElementById", name)

    def test_the_server_has_no_more_code(self):
        """Lines that are neither blank nor comment nor in a docstring."""
        names = "hall", "web", "laboratory", "pictures", "outbox", "rooms"
        parts = [STATIC.parent / f"{it}.py" for it in names]
        text = "".join(it.read_text("utf-8") for it in parts)
        bare = re.sub(r'^ *"""[\s\S]*?"""\n', "", text, flags=re.M)
        self.assertLessEqual(len(re.findall(r"^ *[^\s#]", bare, re.M)), 790)

    def test_lines_are_short(self):
        for path in (STATIC / "page.css", STATIC / "print.css", STATIC / "index.html"):
            self.assertLessEqual(max(map(len, path.read_text("utf-8").splitlines())), 110, path.name)


class Once(unittest.TestCase):
    """What both sides need stands in one file, from which both are made."""
    def test_colours(self):
        """They are in gaslab/pictures/colours.json."""
        for path in (*STATIC.parent.parent.rglob("*.py"), *STATIC.iterdir()):
            if not path.name.startswith("dygraph"):
                found = re.findall(r"#(?:[0-9a-fA-F]{3,4}){1,2}\b|\brgba?\(\s*\d", path.read_text("utf-8"))
                self.assertEqual(found, [], path.name)

    def test_keys(self):
        """They are in facts.json, by which the keyboard, the help and the buttons' titles go."""
        known = json.loads((STATIC / "facts.json").read_text("utf-8"))
        keys = [*known["keys"], *known["always"].values()]
        names = {part for key in keys for part in (*key["shown"].split(), key["key"])} | set(known["moves"])
        words = "|".join(re.escape(name) for name in sorted(names) if len(name) > 1)
        for path in (*STATIC.glob("*.js"), STATIC / "index.html"):
            if not path.name.startswith("dygraph"):
                text = re.sub(r"^ *//.*|/\*\*[\s\S]*?\*/", "", path.read_text("utf-8"), flags=re.M)
                self.assertNotRegex(text, rf"\b({words})\b|\bkey\b(\.toLowerCase\(\))? === [\"']", path.name)


class Contrast(unittest.TestCase):
    """In both themes, as WCAG 2.2 has it: 4.5 for text (1.4.3), and 3 for a focus ring (1.4.11)."""
    TEXTS = {"white": "ink soft task accent bad good", "ground": "ink soft task accent", "hover": "ink soft",
             "accent": "white", "ink": "white", "warnSoft": "warn", "badSoft": "bad", "goodSoft": "good",
             "accentSoft": "ink task", "off": "soft offInk", "track": "ink", "line": "ink",
             "consoleGround": "consoleInk consoleSoft consoleGood consoleBad",
             "consoleBadGround": "consoleInk consoleBad", "consoleButton": "consoleInk"}

    def contrast(self, one, other):
        def light(colour):
            parts = [int(colour[k:k + 2], 16) / 255 for k in (1, 3, 5)]
            red, green, blue = (it / 12.92 if it <= .04045 else ((it + .055) / 1.055) ** 2.4 for it in parts)
            return .2126 * red + .7152 * green + .0722 * blue + .05

        low, high = sorted((light(one), light(other)))
        return high / low

    def test_texts(self):
        for name, colours in (("light", palette.COLOURS), ("dark", palette.DARK)):
            for ground, texts in self.TEXTS.items():
                for text in texts.split():
                    self.assertGreaterEqual(self.contrast(colours[text], colours[ground]), 4.5,
                                            (name, text, ground))

    def test_focus_rings(self):
        for name, colours in (("light", palette.COLOURS), ("dark", palette.DARK)):
            for ground in ("white", "ground", "mat", "hover", "track", "consoleGround"):
                ring = colours["consoleFocus" if ground == "consoleGround" else "focus"]
                self.assertGreaterEqual(self.contrast(ring, colours[ground]), 3, (name, ground))


class Bundle(unittest.TestCase):
    def test_one_file_is_closed(self):
        text = one_file()
        self.assertNotRegex(text, r"""(src|href)=["'](?!data:)[^#"']""")
        self.assertIn("default-src 'none'", text)

    def test_each_module_is_once_in_its_bundle(self):
        for entry in ("page", "worker"):
            text = bundle(entry)
            self.assertEqual(text.count("const module_frame = "), 1)
            self.assertNotRegex(text, r"(?m)^(import|export)\b")

    def test_modules_that_import_each_other_are_refused(self):
        """In the page there are none: its bundle is made. Here gas.js imports engine.js, which imports it."""
        text, gas = read("gas.js"), 'import { Lab } from "./engine.js";\n'

        def changed(name):
            return gas + text if name == "gas.js" else read(name)

        with mock.patch("gaslab.page.one_file.read", changed):
            with self.assertRaisesRegex(ValueError, "import each other: engine.js gas.js engine.js"):
                bundle("engine")
