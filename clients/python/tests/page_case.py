"""What the tests of the page share: the page as one file in a real browser."""
import json
import os
import tempfile
import unittest
from pathlib import Path

from gaslab.page.one_file import one_file

from .browser import CHROMIUM, Browser

READY = ("globalThis.laboratory?.lab.picture != null && laboratory.lab.link.waiting.size === 0 "
         "&& !laboratory.lab.loading")
PLACES = """(() => { const v = laboratory.view, box = v.canvas.getBoundingClientRect();
  return CELLS.map(([x, y]) => [box.left + (x + .5 - v.left) * v.scale,
    box.top + (y + .5 - v.top) * v.scale]); })()"""
CALLOUT = "(({ hidden, textContent }) => hidden ? '' : textContent)(document.getElementById('callout'))"
LESSON = "document.getElementById('lesson-name').textContent"


class PageCase(unittest.TestCase):
    """One browser for all tests of a class. Skipped if it isn't installed, or by WITHOUT_PAGE=1."""
    program, make_browser = CHROMIUM, Browser

    @classmethod
    def setUpClass(cls):
        if not cls.program or os.environ.get("WITHOUT_PAGE"):
            raise unittest.SkipTest("the browser is not installed, or WITHOUT_PAGE")
        room = tempfile.TemporaryDirectory()
        cls.addClassCleanup(room.cleanup)
        cls.room = Path(room.name)
        cls.address = cls.written("page.html", one_file())
        cls.browser = cls.make_browser("about:blank")
        cls.addClassCleanup(cls.browser.__exit__)

    @classmethod
    def written(cls, name, text):
        (cls.room / name).write_text(text, "utf-8")
        return (cls.room / name).as_uri()

    def tearDown(self):
        self.assertEqual(self.browser.errors, [])
        self.browser.reduce_motion(False)

    def open(self, lesson="4", address=None, size=(1440, 900)):
        """Opens a lesson on a page that keeps nothing of the one before."""
        self.browser.value("""(() => {
            const { link } = window.laboratory?.lab ?? {};
            if (!link) return;
            link.socket.onclose = null;
            link.socket.close();
            laboratory.lab.worked = false; })()""")
        self.browser.resize(*size)
        self.browser.navigate("about:blank")
        self.browser.wait("location.href", "about:blank")
        self.browser.navigate(f"{address or self.address}{f'?lesson={lesson}' if lesson else ''}")
        self.browser.wait(READY, True)
        self.settle()

    def value(self, script):
        return self.browser.value(script)

    def tick(self):
        return self.value("laboratory.lab.picture.tick")

    def send(self, *lines):
        """Sends lines as a person does, and waits until the picture after them is drawn."""
        number = self.value("laboratory.lab.picture.number")
        replies = self.value(f"laboratory.send({json.dumps(lines)})")
        self.browser.wait(f"laboratory.lab.shown?.number > {number}", True)
        return replies

    def pull(self, cells):
        """Pulls the mouse over cells, and waits until what this sends is done and drawn."""
        self.browser.pull(*self.value(PLACES.replace("CELLS", json.dumps(cells))))
        self.settle()

    def draw(self, tool, start, end):
        """Draws from a cell to a cell by mouse events, once the tool's choices have their room."""
        self.value(f"laboratory.chooseTool('{tool}')")
        self.settle()
        self.pull([start, end])

    def settle(self):
        """Waits until all replies and the picture after them have come."""
        self.browser.wait("laboratory.lab.link.waiting.size", 0)
        self.value("laboratory.lab.link.send(['tally']).then(() => new Promise((done) =>"
                   " requestAnimationFrame(() => requestAnimationFrame(done)))).then(() => 0)")
        self.browser.wait("laboratory.lab.link.waiting.size", 0)

    def undo(self):
        """Ctrl+Z, and what the page says about it."""
        self.value("document.activeElement.blur()")
        self.browser.key("z", 90, 2)
        self.settle()
        return self.value(CALLOUT)

    def said(self):
        return self.value("document.getElementById('last').textContent")

    def drag(self):
        return self.value("document.querySelector('#plot-list .number').textContent")

    def state(self):
        """Walls, obstacles, ports and particles."""
        return self.value("(({ walls, obstacles, ports, picture }) => JSON.stringify([[...walls], "
                          "[...obstacles], ports, [...picture.particles]]))(laboratory.view)")

    def run_to(self, tick):
        self.browser.wait(f"laboratory.lab.picture.tick >= {tick}", True)
