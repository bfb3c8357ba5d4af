"""The page by keys, by fingers, by a screen reader, and on small screens."""
import json
import unittest

from .firefox import FIREFOX, Firefox
from .page_case import CALLOUT, PLACES, READY, PageCase

_SMALL = """(() => {
  const small = [...document.querySelectorAll("button, select, input:not([type=checkbox])")].filter((e) => {
    const box = e.getBoundingClientRect();
    return box.width > 0 && (box.height < 44 || box.width < 44);
  });
  return small.map((e) => e.id || e.textContent || e.outerHTML);
})()"""
_SPOKEN = """(async () => {
  let spoken = 0;
  const seen = new MutationObserver((changes) => {
    for (const { target } of changes) {
      const region = (target.nodeType === 1 ? target : target.parentElement)
        ?.closest("[role=status], [role=alert], [role=log], [aria-live], output");
      if (region && region.getAttribute("aria-live") !== "off" && region.checkVisibility()) spoken += 1;
    }
  });
  seen.observe(document.body, { subtree: true, childList: true, characterData: true });
  await new Promise((done) => setTimeout(done, 3000));
  return spoken;
})()"""
_TYPE = """Math.min(...["#readings", "#lesson", "#tools", "#viewbar", "#hover", "#time", "header"]
  .flatMap((part) => [...document.querySelectorAll(`${part} *`)])
  .filter((e) => e.checkVisibility() && e.textContent.trim() && ![...e.children].length
    && !e.closest("svg, .unseen"))
  .map((e) => parseFloat(getComputedStyle(e).fontSize)))"""


class Keys(PageCase):
    def press(self, *keys):
        for key in keys:
            self.browser.key(*key) if isinstance(key, tuple) else self.browser.key(key, ord(key[0].upper()))

    def test_drawing_by_keys_alone(self):
        self.open("8")
        self.value("document.getElementById('gas').focus(); laboratory.chooseTool('wall')")
        self.press(("Enter", 13), ("Enter", 13), ("ArrowRight", 39), ("ArrowDown", 40), ("Enter", 13))
        self.settle()
        self.assertEqual(self.value("laboratory.edits.list.map((e) => e.lines.join())"), ["wall 32 32 2 2"])

    def test_the_cursor_stays_in_view_and_is_said(self):
        self.open("8")
        self.value("laboratory.view.zoom(8, 0, 0); document.getElementById('gas').focus()")
        self.press(("Enter", 13), *[("ArrowRight", 39, 8)] * 5)
        x, width = self.value("[laboratory.view.box([...laboratory.view.cursor, 1, 1])[0],"
                              "laboratory.view.size[0]]")
        self.assertTrue(0 <= x < width, (x, width))
        said = self.value("document.getElementById('spoken').textContent")
        self.assertIn("Cell " + " ".join(map(str, self.value("laboratory.view.cursor"))), said)

    def test_single_keys_can_be_turned_off(self):
        self.open("8")
        self.value("document.getElementById('help-open').click()")
        self.value("document.querySelector('#popover [type=checkbox]').click()")
        self.value("document.getElementById('popover').close(); document.activeElement.blur()")
        self.press("w")
        self.assertEqual(self.value("laboratory.lab.tool"), "put")
        self.value("document.getElementById('gas').focus()")
        self.press("w")
        self.assertEqual(self.value("laboratory.lab.tool"), "wall")
        self.value("document.getElementById('help-open').click()")
        self.value("document.querySelector('#popover [type=checkbox]').click()")
        self.value("document.getElementById('popover').close(); document.activeElement.blur()")
        self.press("e")
        self.assertEqual(self.value("laboratory.lab.tool"), "erase")

    def test_arrows_move_in_toolbar_and_tabs(self):
        """Each is one stop of the Tab key."""
        self.open("8", size=(1024, 768))
        self.assertEqual(self.value("document.querySelectorAll('#tools [tabindex=\"0\"]').length"), 1)
        self.value("document.querySelector('#tools [tabindex=\"0\"]').focus()")
        self.press(("ArrowDown", 40))
        self.assertEqual(self.value("document.activeElement.dataset.tool"), "erase")
        self.assertEqual(self.tick(), 0, "an arrow in the toolbar makes no step")
        self.value("document.getElementById('tab-readings').focus()")
        self.press(("ArrowRight", 39))
        self.assertEqual(self.value("[document.activeElement.id, document.body.dataset.tab]"),
                         ["tab-lesson", "lesson"])

    def test_a_dialog_keeps_the_focus_and_gives_it_back(self):
        self.open("8")
        self.value("document.getElementById('help-open').focus()")
        self.value("document.getElementById('help-open').click()")
        self.assertEqual(self.value("[document.getElementById('popover').matches(':modal'),"
                                    "document.getElementById('popover-name').textContent]"), [True, "Keys"])
        self.press(("Escape", 27))
        self.browser.wait("document.getElementById('popover').open", False)
        self.assertEqual(self.value("document.activeElement.id"), "help-open")

    def test_the_answer_takes_the_focus(self):
        self.open("4")
        self.value("document.querySelector('.expect .choice').click()")
        self.assertEqual(self.value("document.activeElement.className"), "answer")


class KeysInFirefox(Keys):
    program, make_browser = FIREFOX, Firefox


class Spoken(PageCase):
    def test_play_is_quiet(self):
        """A screen reader is told nothing while numbers change, and of a pause once."""
        self.open("4")
        self.run_to(30)
        self.assertLessEqual(self.value(_SPOKEN), 1)
        self.value("document.getElementById('play').click()")
        self.browser.wait("document.getElementById('spoken').textContent === "
                          "`Paused at tick ${laboratory.lab.picture.tick}.`", True)

    def test_no_way_back_is_said(self):
        self.open("4")
        self.value("document.getElementById('back').click()")
        self.assertEqual(self.value("document.getElementById('spoken').textContent"),
                         "No way back: 1 source, 2 drains.")

    def test_names_and_roles(self):
        self.open("4")
        self.assertEqual(self.value("document.getElementById('gas').getAttribute('role')"), "application")
        unnamed = self.value("[...document.querySelectorAll('button, input:not(.dygraph-roller), select')]"
                             ".filter((e) => "
                             "!(e.ariaLabel || e.textContent.trim() || e.title || e.labels?.length))"
                             ".map((e) => e.id)")
        self.assertEqual(unnamed, [])
        plots = self.value("[...document.querySelectorAll('#plots :is(figure, .plot)')]"
                           ".map((e) => [e.role, e.ariaLabel])")
        self.assertEqual([role for role, _ in plots], [None, "img"])
        self.assertEqual(plots[0][1], "Drag")
        self.assertRegex(plots[1][1], r"^Drag, momentum to the right per tick, mean of about 20 ticks: ")

    def test_a_watcher_is_answered(self):
        self.open("8")
        self.value("laboratory.lab.change({ rights: 'watch' });"
                   "laboratory.lab.link.send = async (lines) => lines.map(() => 'NO watch')")
        for act in ("document.getElementById('play').click()", "document.getElementById('step').click()"):
            self.value("document.querySelector('#callout .close')?.click()")
            self.value(act)
            self.assertIn("Your seat only watches", self.value(CALLOUT))


class Themes(PageCase):
    GROUND = "getComputedStyle(document.querySelector('.panel')).backgroundColor"
    MAT = "(({ view: { context } }) => [...context.getImageData(2, 2, 1, 1).data].join())(laboratory)"

    def test_the_system_asks_and_a_person_chooses(self):
        """What was chosen stays over a reload. The gas is as on paper, on a mat of the theme."""
        light, dark = "rgb(255, 255, 255)", "rgb(24, 33, 43)"
        self.addCleanup(self.value, "localStorage.removeItem('gaslab-theme')")
        self.addCleanup(self.browser.prefer, "light")
        self.browser.prefer("dark")
        self.open("8")
        self.assertEqual((self.value(self.GROUND), self.value(self.MAT)), (dark, "38,49,61,255"))
        self.assertEqual(self.value("document.getElementById('theme').ariaPressed"), "true")
        self.browser.prefer("light")
        self.browser.wait(self.GROUND, light)
        self.value("document.getElementById('theme').click()")
        self.assertEqual(self.value(self.GROUND), dark)
        self.open("8")
        self.assertEqual(self.value(self.GROUND), dark)
        self.value("document.getElementById('theme').click()")
        self.settle()
        self.assertEqual((self.value(self.GROUND), self.value(self.MAT)), (light, "227,231,236,255"))

    def test_the_focus_ring_is_seen(self):
        """It has the colour whose contrast is measured."""
        self.open("8")
        self.value("document.getElementById('play').focus()")
        self.browser.key("Tab", 9)
        self.assertEqual(self.value("(({ outlineColor, outlineWidth }) => [outlineColor, outlineWidth])("
                                    "getComputedStyle(document.activeElement))"), ["rgb(179, 107, 0)", "3px"])


class Fingers(PageCase):
    def places(self, *cells):
        return self.value(PLACES.replace("CELLS", json.dumps(cells)))

    def touch(self, tool="wall"):
        self.open("8", size=(390, 844))
        self.assertEqual(self.value("laboratory.lab.tool"), "look")
        self.value(f"laboratory.chooseTool('{tool}')")

    def edits(self):
        self.settle()
        return self.value("laboratory.edits.list.map((e) => e.lines.join())")

    def swipe(self, start, *others):
        self.browser.touch("touchStart", start)
        for place in others:
            self.browser.touch("touchMove", place)
        self.browser.touch("touchEnd")

    def test_a_swipe_draws_at_once(self):
        """And so does a tap, in one cell. The page stays where it is."""
        self.touch()
        self.swipe(*self.places([20, 20], [22, 20], [23, 21]))
        self.settle()
        self.browser.tap(*self.places([30, 30])[0])
        self.assertEqual(self.edits(), ["wall 20 20 4 2", "wall 30 30 1 1"])
        self.assertEqual(self.value("scrollY"), 0)

    def test_a_swipe_without_a_drawing_tool_scrolls_the_page(self):
        self.touch("look")
        self.value("document.getElementById('mat').scrollIntoView()")
        before = self.value("scrollY")
        start, = self.places([30, 60])
        self.swipe(start, [start[0], start[1] - 20], [start[0], start[1] - 60])
        self.assertEqual(self.edits(), [])
        self.assertGreater(self.value("scrollY"), before + 30)

    def test_two_fingers_zoom_and_draw_nothing(self):
        """Also if one of them came first and had begun to draw."""
        self.touch()
        a, b, c = self.places([20, 20], [40, 40], [22, 22])
        before = self.value("laboratory.view.scale")
        self.browser.touch("touchStart", a)
        self.browser.touch("touchMove", c)
        self.assertEqual(self.value("laboratory.view.selection.line"), "wall 20 20 3 3")
        self.browser.touch("touchStart", c, b)
        self.browser.touch("touchMove", a, [b[0] + 30, b[1] + 30])
        self.browser.touch("touchEnd")
        self.assertGreater(self.value("laboratory.view.scale"), before)
        self.assertEqual(self.edits(), [])

    def test_the_hint_speaks_of_fingers(self):
        said = "document.getElementById('said').textContent"
        self.touch()
        self.assertIn("One finger draws. Two move and zoom.", self.value(said))
        self.touch("look")
        self.assertRegex(self.value(said), "One finger scrolls the page.* Choose a tool to draw")
        self.open("4", size=(390, 844))
        self.assertRegex(self.value(said), "Watch the drag. Choose a tool to draw with a finger.")
        self.open("4", size=(1280, 800))
        self.assertNotIn("finger", self.value(said))

    def test_a_finger_that_stays_after_a_pinch_draws_nothing(self):
        self.touch()
        a, b, c = self.places([20, 20], [40, 40], [30, 25])
        before = self.value("laboratory.view.scale")
        self.browser.touch("touchStart", a, b)
        self.browser.touch("touchMove", [a[0] - 20, a[1] - 20], b)
        self.assertGreater(self.value("laboratory.view.scale"), before)
        self.browser.touch("touchEnd", b)
        self.browser.touch("touchMove", c)
        self.browser.touch("touchEnd")
        self.assertEqual(self.edits(), [])

    def test_targets_are_large(self):
        self.open("4", size=(390, 844))
        self.assertEqual(self.value(_SMALL), [])


_COVERED = """[...document.querySelectorAll("%s")].filter((e) => e.checkVisibility()).filter((e) => {
  const { x, y, width, height } = e.getBoundingClientRect();
  const ends = [[4, 4], [width / 2, height / 2], [width - 4, height - 4]];
  return !ends.every(([a, b]) => e.contains(document.elementFromPoint(x + a, y + b)));
}).map((e) => e.id || e.textContent)"""


class Sizes(PageCase):
    def test_every_tool_is_in_reach(self):
        """Nothing covers a tool, what it has to choose, or Play, and the gas is so many pixels high. Nothing
        has to be scrolled, but on a phone with the sliders of Random or the fields of Source."""
        for size, tall in (((1280, 800), 400), ((960, 540), 220), ((844, 390), 200), ((390, 844), 380),
                           ((768, 1024), 400)):
            self.open("4", size=size)
            rows = self.value("[...new Set([...document.querySelectorAll('header button')]"
                              ".map((e) => e.getBoundingClientRect()).filter(({ width }) => width)"
                              ".map(({ y, height }) => Math.round(y + height / 2)))]")
            self.assertEqual(len(rows), 2 if size[0] < 500 else 1, size)
            self.assertEqual(self.value(_COVERED % "header button:not(.round)"), [], size)
            for tool in ("look", "block", "random", "source"):
                self.value(f"laboratory.chooseTool('{tool}')")
                if tool in ("random", "source"):
                    self.value("document.getElementById('play').scrollIntoView({ block: 'nearest' })")
                parts = "#tools button, #play, #options :is(button, input)"
                self.assertEqual(self.value(_COVERED % parts), [], (size, tool))
                self.assertGreaterEqual(self.value("laboratory.view.size[1]"), tall, (size, tool))

    def test_nothing_overflows(self):
        for size in ((1024, 768), (390, 844), (320, 640), (720, 450)):
            for lesson in ("4", "5", "6"):
                self.open(lesson, size=size)
                width = self.value("document.documentElement.scrollWidth")
                self.assertLessEqual(width, size[0], (size, lesson))

    def test_a_plot_that_begins_unseen_fits_its_place(self):
        """Its curve begins while the lesson is shown in the place of the readings."""
        self.open("4", size=(390, 844))
        self.value("document.getElementById('tab-lesson').click(); laboratory.plots.choose(['count'])")
        self.browser.wait("Boolean(laboratory.plots.graphs.count)", True)
        self.assertFalse(self.value("document.getElementById('plot-count').checkVisibility()"))
        self.value("document.getElementById('tab-readings').click()")
        self.settle()
        plot, place = self.value("['plot-count', 'plot-list']"
                                 ".map((id) => document.getElementById(id).clientWidth)")
        self.assertEqual((plot, self.value("document.documentElement.scrollWidth")), (place, 390))
        self.assertEqual(self.value("laboratory.plots.graphs.count.size().width"), plot)

    def test_what_is_shown_and_time_are_in_reach(self):
        """In lesson 5, which has a density to choose and a slider of ticks."""
        for size in ((1280, 800), (960, 540), (844, 390)):
            self.open("5", size=size)
            self.settle()
            parts = ", ".join(f"#{it} :is(button, select, input)" for it in ("viewbar", "time"))
            self.assertEqual(self.value(_COVERED % parts), [], size)
            self.assertGreaterEqual(self.value("laboratory.view.size[1]"), 120, size)

    def test_play_and_gas_are_seen_together_on_a_low_screen(self):
        self.open("4", size=(1000, 450))
        parts = self.value("['play', 'mat'].map((id) => document.getElementById(id).getBoundingClientRect())"
                           ".map(({ top, bottom }) => [top, bottom])")
        for top, bottom in parts:
            self.assertTrue(0 <= top < bottom <= 450, parts)
        self.assertLess(parts[0][1], parts[1][0] + 1)

    def test_play_and_gas_are_seen_together_at_200_percent(self):
        """Of 1440 by 900: the page is scrolled until Play is at the top."""
        self.open("4", size=(720, 450))
        self.value("document.getElementById('time').scrollIntoView({ block: 'start', behavior: 'instant' })")
        (top, _), (gas_top, gas_bottom) = self.value(
            "['play', 'mat'].map((id) => document.getElementById(id).getBoundingClientRect())"
            ".map((box) => [box.top, box.bottom])")
        self.assertGreaterEqual(top, 0)
        self.assertLess(top, gas_top)
        self.assertLessEqual(gas_bottom, 450)

    def test_larger_text_has_18_pixels(self):
        self.open("4", size=(1024, 768))
        self.value("document.getElementById('larger').click()")
        self.assertGreaterEqual(self.value(_TYPE), 18)
        self.assertLessEqual(self.value("document.documentElement.scrollWidth"), 1024)
        self.value("document.getElementById('larger').click()")

    def test_the_task_stands_beside_the_plots_where_the_lesson_does_not(self):
        for width, is_seen in ((1440, False), (1024, True)):
            self.open("4", size=(width, 768))
            self.browser.wait(READY, True)
            self.assertEqual(self.value("document.getElementById('task').checkVisibility()"), is_seen)


if __name__ == "__main__":
    unittest.main()
