"""What the page asks before it is closed, and what it tells of a journal that fills."""
import json
import tempfile
import unittest
from pathlib import Path

from .page_case import CALLOUT, PLACES, READY, PageCase

_BANNER = "(({ hidden, textContent }) => hidden ? '' : textContent)(document.getElementById('banner'))"
_MIDDLE = "(({ x, y, width, height }) => [x + width / 2, y + height / 2])(%s.getBoundingClientRect())"


class Closing(PageCase):
    def closed(self):
        """What the browser asks when the page is left."""
        self.browser.asked.clear()
        self.value("laboratory.lab.worked = false")        # else the next page of this tab finds the gas
        self.browser.navigate("about:blank")
        self.browser.wait("location.href", "about:blank")
        return self.browser.asked

    def click(self, element):
        """A person's click, after which a browser lets a page ask."""
        self.value(f"{element}.scrollIntoView({{ block: 'center' }})")
        place = self.value(_MIDDLE % element)
        self.browser.pull(place, place)

    def test_a_lesson_that_was_only_watched_is_closed(self):
        self.open("4")
        self.click("document.getElementById('play')")
        self.browser.wait("laboratory.lab.playing", False)
        self.click("document.getElementById('step')")
        self.settle()
        self.assertEqual(self.closed(), [])

    def test_a_lesson_whose_buttons_were_pressed_is_closed(self):
        """The page has what they do."""
        self.open("4")
        self.run_to(3)
        self.click("document.querySelector('.tries button')")
        self.run_to(self.tick() + 3)
        self.assertGreater(self.value("laboratory.edits.list.length"), 0)
        self.assertEqual(self.closed(), [])

    def test_what_was_drawn_is_asked_for_until_the_script_is_saved(self):
        room = tempfile.TemporaryDirectory()
        self.addCleanup(room.cleanup)
        self.open("8")
        self.draw("wall", (5, 5), (8, 6))
        self.assertEqual(self.closed(), ["beforeunload"])
        self.open("8")
        self.browser.download_to(room.name)
        self.draw("wall", (5, 5), (8, 6))
        self.click("document.getElementById('script')")
        self.browser.wait_for_file(Path(room.name, "gas.txt"))
        self.assertEqual(self.closed(), [])
        self.open("8")
        self.draw("wall", (5, 5), (8, 6))
        self.click("document.getElementById('script')")
        self.browser.wait("document.getElementById('popover').open", True)
        self.value("document.getElementById('popover').close()")
        self.draw("wall", (15, 15), (18, 16))
        self.assertEqual(self.closed(), ["beforeunload"])

    def test_a_file_that_was_opened_is_closed_and_changes_of_it_are_not(self):
        for line, asked in ((None, []), ("put 9 9 1 1", ["beforeunload"])):
            self.open("8")
            self.value("laboratory.openBytes('own.txt', new TextEncoder().encode('put 1 1 1 1\\nstep 3\\n'))")
            self.browser.wait(f"{READY} && laboratory.lab.picture.tick", 3)
            self.click("document.getElementById('step')")
            if line:
                self.send(line)
            self.assertEqual(self.closed(), asked)

    def test_a_reload_asks_and_the_gas_that_it_keeps_is_asked_for_again(self):
        self.open("8")
        self.draw("wall", (5, 5), (8, 6))
        for _ in range(2):
            before = self.state()
            self.browser.asked.clear()
            self.value("globalThis.isBefore = true; location.reload()")
            self.browser.wait(f"globalThis.isBefore !== true && ({READY})", True)
            self.assertEqual(self.browser.asked, ["beforeunload"])
            self.assertEqual(self.state(), before)
            place, = self.value(PLACES.replace("CELLS", json.dumps([[40, 40]])))
            self.browser.pull(place, place)
            self.settle()


class Filling(PageCase):
    def fill(self, count):
        self.value(f"laboratory.lab.link.send(Array({count}).fill('step 1')).then(() => 0)")
        self.settle()

    def open_small(self):
        """Lesson 6 with 6 entries in its journal, on a page that takes a journal for one of 200."""
        self.open("6")
        self.value("laboratory.lab.change({ cap: 200 })")

    def test_a_tenth_that_is_left_is_told_with_what_to_do(self):
        """One press saves both files, and the gas goes on with its probes. Then the next journal counts."""
        room = tempfile.TemporaryDirectory()
        self.addCleanup(room.cleanup)
        self.open_small()
        self.browser.download_to(room.name)
        journal = self.value("laboratory.lab.picture.journal")
        self.fill(179 - journal)
        self.assertEqual(self.value(_BANNER), "")
        self.fill(1)
        self.browser.wait(f"{_BANNER} !== ''", True)
        self.assertIn("A tenth of the journal is left: 180 of 200 entries are made. Save script and "
                      "snapshot, and go on with a new journal.", self.value(_BANNER))
        before = self.state()
        self.value("document.querySelector('#banner button').click()")
        for name in ("gas.txt", "day.gas"):
            self.browser.wait_for_file(Path(room.name) / name)
        self.browser.wait("laboratory.lab.picture?.journal", 0)
        self.settle()
        self.assertEqual((self.state(), self.value(_BANNER), self.value(CALLOUT)), (before, "", ""))
        self.assertEqual(self.value("laboratory.view.picture.probes.map((p) => p.rect)"), [[4, 4, 20, 56]])
        self.fill(181)
        self.browser.wait(f"{_BANNER}.startsWith('A tenth of the journal is left: 181 of 200')", True)

    def test_later_is_not_told_again(self):
        self.open_small()
        self.fill(180)
        self.browser.wait(f"{_BANNER} !== ''", True)
        self.value("document.querySelectorAll('#banner button')[1].click()")
        self.fill(2)
        self.assertEqual(self.value(_BANNER), "")


if __name__ == "__main__":
    unittest.main()
