"""Links to a lesson and to a small gas: what Share gives, and what a page does that is opened by one."""
import base64
import gzip
import json
import os
import unittest

from .browser import CHROMIUM, Browser
from .firefox import FIREFOX, Firefox
from .page_case import CALLOUT, LESSON, READY, PageCase
from .test_browser import Started
from .test_lab import STAND_IN
from .test_page_engine import run_second, second

_BANNER = "(({ hidden, textContent }) => hidden ? '' : textContent)(document.getElementById('banner'))"
_DIALOG = "(({ open, textContent }) => open ? textContent : '')(document.getElementById('popover'))"
_LINKS = ("Object.fromEntries([...document.querySelectorAll('#popover .link')]"
          ".map((e) => [e.ariaLabel ?? e.getAttribute('aria-label'), e.value]))")
_DAMAGED = "This link is damaged. Nothing was opened."


def packed(text):
    data = text if isinstance(text, bytes) else text.encode()
    return base64.urlsafe_b64encode(gzip.compress(data)).decode().rstrip("=")


def unpacked(text):
    return gzip.decompress(base64.urlsafe_b64decode(text + "=" * (-len(text) % 4))).decode()


def pressed(name):
    return f"[...document.querySelectorAll('button')].find((e) => e.textContent === '{name}').click()"


class Links(PageCase):
    def follow(self, fragment, lesson=None):
        """Opens a link in a page that keeps nothing of the one before."""
        self.open(None, f"{self.address}#{fragment}")
        if lesson:
            self.browser.wait(f"{READY} && {LESSON}", lesson)

    def shared(self, count):
        """The links of Share, when there are so many."""
        self.value("document.getElementById('share-open').click()")
        self.browser.wait("document.querySelectorAll('#popover .gives > .give').length", count)
        found = self.value(_LINKS)
        self.value("document.getElementById('popover').close()")
        return found

    def readings(self):
        return self.value("laboratory.lab.link.send(['tally', 'ledger'])")

    def test_a_link_opens_a_lesson_or_a_scene(self):
        for name, lesson in (("6", "There and back"), ("hole", "A hole"), ("5", "Sound"),
                             ("wave", "Wave of density")):
            self.follow(f"lesson={name}", lesson)
            self.assertEqual(self.tick(), 0)

    def test_share_links_to_a_lesson_at_its_start(self):
        """The last one begins with a random gas. With another value of a slider there is also a link to the
        gas."""
        for lesson, name in (("6", "Link to lesson 6"), ("hole", "Link to the scene"),
                             ("wave", "Link to the scene")):
            self.open(lesson)
            self.assertEqual(self.shared(1), {name: f"{self.address}#lesson={lesson}"})
        self.open("6")
        self.value("((one) => { one.value = 0; one.dispatchEvent(new Event('change')); })"
                   "(document.querySelector('.sliders input'))")
        self.browser.wait("laboratory.lab.picture?.tally[0]", 4 * 56)
        self.settle()
        links = self.shared(2)
        self.assertEqual(list(links), ["Link to lesson 6", "Link to this gas"])
        self.follow(links["Link to this gas"].partition("#")[2], "A gas from a link")
        self.assertEqual(self.value("laboratory.lab.picture.tally[0]"), 4 * 56)

    def test_share_links_to_a_gas_by_its_script(self):
        """The link has the journal. Whoever opens it has the gas, its tally and its ledger."""
        self.open("6")
        self.send("wall 40 40 4 4", "step 20", "step 5")
        links, state, readings = self.shared(2), self.state(), self.readings()
        self.assertEqual(links["Link to lesson 6"], f"{self.address}#lesson=6")
        address, _, fragment = links["Link to this gas"].partition("#")
        self.assertEqual((address, fragment[:7]), (self.address, "script="))
        lines = unpacked(fragment[7:]).splitlines()
        self.assertEqual((lines[0], lines[-4:]),
                         ("probe 0 0 64 64", ["wall 40 40 4 4", "step 25", "tally", "ledger"]))
        replies = run_second(second(), 64, 64, lines)
        self.assertEqual(([it for it in replies if it.startswith("ERR")], replies[-2:]), ([], readings))
        self.follow(fragment, "A gas from a link")
        self.assertEqual((self.state(), self.readings()), (state, readings))

    def test_a_gas_that_began_from_a_snapshot_is_linked_with_it(self):
        """As after a reload."""
        self.open("8")
        self.send("wall 5 5 4 2", "step 7", ".fresh")
        self.send("put 40 40 3 3", "step 3")
        fragment = self.shared(2)["Link to this gas"].partition("#")[2]
        state, readings = self.state(), self.readings()
        self.assertIn("&start=", fragment)
        self.follow(fragment, "A gas from a link")
        self.assertEqual((self.state(), self.readings()), (state, readings))

    def test_a_gas_that_is_too_large_has_to_be_a_file(self):
        """Random rows can't be packed: 256 of 64 signs are 8,192 bytes and more."""
        self.open("5")
        rows = [f"row {y} {os.urandom(32).hex()}" for y in range(256)]
        self.send(*rows)
        self.value("document.getElementById('share-open').click()")
        self.browser.wait("document.querySelectorAll('#popover .gives > .give').length", 2)
        said = self.value("document.querySelector('#popover .gives > :last-child').textContent")
        self.assertRegex(said, r"^Link to this gasIts script needs 1\d,\d\d\d signs, and a link has at most "
                               r"8,192\. Save the script as a file")
        self.assertEqual(list(self.value(_LINKS)), ["Link to lesson 5"])
        self.value("document.getElementById('popover').close()")

    def test_a_damaged_link_is_said_and_the_page_goes_on(self):
        whole = packed("probe 0 0 64 64\nput 1 1 1 1\nstep 5\n")
        other = whole[:30] + ("A" if whole[30] != "A" else "B") + whole[31:]
        bomb = packed(bytes(1 << 24))
        snapshot = packed(b"HPPGAS2\n" + bytes(9))
        for fragment, said in (
                (f"script={whole[:-9]}", _DAMAGED), (f"script={other}", _DAMAGED), ("script=*", _DAMAGED),
                ("script=", _DAMAGED), (f"script={bomb}", _DAMAGED),
                (f"script={whole}&start={whole}", _DAMAGED),
                (f"script={snapshot}", "This snapshot is damaged"),
                (f"script={packed('put 1 1 1 1' + chr(10) + '<img src=x onerror=alert(1)> 1')}",
                 "Line 2, “<img src=x onerror=alert(1)> 1”, is no command. Nothing was opened."),
                ("lesson=12", "This link names a lesson that the page doesn't have: “12”.")):
            self.follow(fragment, "A tunnel")
            self.browser.wait(f"({_BANNER}).startsWith({json.dumps(said)})", True)
            self.assertEqual(self.value("document.querySelectorAll('img').length"), 0)
            self.assertEqual(self.send("put 1 30 1 1")[0][:2], "OK")

    def test_a_refused_line_opens_nothing(self):
        self.follow(f"script={packed('put 1 1 1 1' + chr(10) + 'put 1 1 0 1' + chr(10))}", "A tunnel")
        self.browser.wait(f"({CALLOUT}).includes('Line 2 of 2, “put 1 1 0 1”: The rectangle is empty')", True)

    def ask(self, fragment):
        """Opens a link in the page that is there. Returns what it asks."""
        self.value(f"location.hash = '#{fragment}'; 0")
        self.browser.wait(f"{_DIALOG} !== ''", True)
        return self.value(_DIALOG)

    def test_over_unsaved_work_it_says_what_it_holds_and_asks(self):
        """Lesson 6 puts 20 by 56 particles, and the script 3 by 2. Nothing adds to them."""
        script = "size 128 64\nput 10 10 3 2\nstep 20\nstep 6\nback 1\n"
        for fragment, what, lesson in (
                (f"script={packed(script)}", "It has 128 by 64 cells, 4 lines, tick 25, 6 particles.",
                 "A gas from a link"),
                ("lesson=6", "It has lesson 6, “There and back”: 64 by 64 cells, 6 lines, tick 0, 1,120 "
                 "particles.", "There and back")):
            self.open("8")
            self.draw("wall", (5, 5), (8, 6))
            before = self.state()
            asked = self.ask(fragment)
            self.assertIn(what, asked)
            self.assertIn("Your changes of “Three people on one gas” are in no file yet.", asked)
            self.value(pressed("Keep this gas"))
            self.settle()
            self.assertEqual((self.state(), self.value(_DIALOG)), (before, ""))
            self.value("location.hash = ''; 0")
            self.ask(fragment)
            self.value(pressed("Open the link"))
            self.browser.wait(f"{READY} && {LESSON}", lesson)
            self.browser.wait(f"({_BANNER}).includes('Bring it back')", True)
            self.value(pressed("Bring it back"))
            self.browser.wait(f"{READY} && {LESSON}", "Three people on one gas")
            self.settle()
            self.assertEqual(self.state(), before)

    def test_without_work_a_second_link_opens_at_once(self):
        """The same link opens once more after another gas was opened from the page's list."""
        self.follow("lesson=6", "There and back")
        for fragment, lesson in (("lesson=5", "Sound"), ("lesson=2", "Two head on")):
            self.value(f"location.hash = '#{fragment}'; 0")
            self.browser.wait(f"{READY} && {LESSON}", lesson)
        self.value("laboratory.load(laboratory.find('8'))")
        self.browser.wait("location.hash", "")
        self.value("location.hash = '#lesson=2'; 0")
        self.browser.wait(f"{READY} && {LESSON}", "Two head on")

    def test_a_script_that_takes_long_is_asked_for(self):
        self.follow(f"script={packed('size 2048 2048' + chr(10) + 'step 4096' + chr(10))}")
        self.browser.wait(f"{_DIALOG} !== ''", True)
        self.assertIn("2,048 by 2,048 cells, 1 line, tick 4,096, particles not counted, since that takes "
                      "long", self.value(_DIALOG))
        self.value(pressed("Keep this gas"))
        self.assertEqual(self.value(LESSON), "A tunnel")

    def test_a_link_comes_before_what_the_tab_kept(self):
        """The gas that was kept can still be had."""
        for link, lesson in (("?lesson=5", "Sound"), ("#lesson=6", "There and back")):
            self.open("8")
            self.draw("wall", (5, 5), (8, 6))
            before = self.state()
            self.browser.navigate("about:blank")
            self.browser.wait("location.href", "about:blank")
            self.browser.navigate(self.address + link)
            self.browser.wait(f"({READY}) && {LESSON}", lesson)
            self.browser.wait(f"({_BANNER}).startsWith('The gas that you had here was kept.')", True)
            self.value(pressed("Open it"))
            self.browser.wait(f"{READY} && {LESSON}", "Three people on one gas")
            self.settle()
            self.assertEqual(self.state(), before)

    def test_a_damaged_link_loses_nothing_that_the_tab_kept(self):
        self.open("8")
        self.draw("wall", (5, 5), (8, 6))
        before = self.state()
        self.browser.navigate("about:blank")
        self.browser.wait("location.href", "about:blank")
        self.browser.navigate(f"{self.address}#script=AAAA")
        self.browser.wait(f"({READY}) && ({_BANNER}).startsWith('{_DAMAGED}')", True)
        self.assertEqual((self.state(), self.value(LESSON)), (before, "Three people on one gas"))

    def test_the_link_that_skips_to_the_gas_opens_none(self):
        self.open("6")
        self.send("step 3")
        self.value("document.querySelector('.skip').click()")
        self.browser.wait("location.hash", "#gas")
        self.settle()
        self.assertEqual((self.tick(), self.value(_DIALOG)), (3, ""))

    def test_a_reload_keeps_what_was_made_of_a_link(self):
        self.follow("lesson=8", "Three people on one gas")
        self.draw("wall", (5, 5), (8, 6))
        before = self.state()
        self.value("globalThis.isBefore = true; location.reload()")
        self.browser.wait("globalThis.isBefore", None)
        self.browser.wait(f"({READY}) && ({_BANNER}).includes('kept over the reload')", True)
        self.assertEqual(self.state(), before)


class LinksInFirefox(Links):
    program, make_browser = FIREFOX, Firefox
    test_a_reload_keeps_what_was_made_of_a_link = None  # its driver loses a page that reloads itself


@unittest.skipUnless(CHROMIUM and not os.environ.get("WITHOUT_PAGE"), "no chromium, or WITHOUT_PAGE")
class Served(unittest.TestCase):
    def test_a_server_makes_no_links_and_opens_them(self):
        """Its own address lets people draw. The first page opens a link; over a gas that is there it asks."""
        with Started("--program", STAND_IN) as server, Browser(f"{server.links[0]}#lesson=6") as browser:
            browser.wait(f"({READY}) && {LESSON}", "There and back")
            browser.value("document.getElementById('share-open').click()")
            self.assertIn("Only gaslab.html, the page in one file, makes these", browser.value(_DIALOG))
            self.assertEqual(sorted(browser.value(_LINKS)), ["Link to draw", "Link to watch"])
            browser.value("document.getElementById('popover').close(); location.hash = '#lesson=2'; 0")
            browser.wait(f"{_DIALOG} !== ''", True)
            self.assertIn("It takes the place of this gas for all who are here.", browser.value(_DIALOG))
            browser.value(pressed("Open the link"))
            browser.wait(f"({READY}) && {LESSON}", "Two head on")
            browser.value("location.hash = '#lesson=3'; globalThis.isBefore = true; location.reload()")
            browser.wait(f"globalThis.isBefore === undefined && ({READY}) && {LESSON}", "Two head on")
            self.assertEqual((browser.value(_DIALOG), browser.errors), ("", []))


if __name__ == "__main__":
    unittest.main()
