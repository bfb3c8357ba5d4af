"""The page of a server in Debian's Chromium without a window, over the second implementation."""
import json
import os
import subprocess
import sys
import unittest

from .browser import CHROMIUM, Browser
from .page_case import CALLOUT, READY
from .test_lab import ROOT, STAND_IN

MARKUP = "<img src=x onerror=alert(1)>"


class Started:
    """`gaslab-client page` with these words, in a `with` statement: its two links, and its process."""
    def __init__(self, *words):
        start = [sys.executable, str(ROOT / "clients" / "python"), "page", *map(str, words)]
        self._process = subprocess.Popen(start, stdout=subprocess.PIPE, text=True)
        self.process = self._process.pid
        self.links = [self._process.stdout.readline().split()[1] for _ in range(2)]

    def __enter__(self):
        return self

    def __exit__(self, *_):
        self.stop()

    def stop(self):
        """Ends it as Ctrl-C does. Returns its status."""
        if self._process.stdout.closed:
            return self._process.returncode
        self._process.terminate()
        self._process.stdout.close()
        return self._process.wait(60)


@unittest.skipUnless(CHROMIUM and not os.environ.get("WITHOUT_PAGE"), "no chromium, or WITHOUT_PAGE")
class InABrowser(unittest.TestCase):
    def test_what_others_type_is_text(self):
        """A name and a refused line with markup stay text, and no rule of the page is broken."""
        with Started("--program", STAND_IN) as server, Browser(server.links[0]) as browser:
            browser.wait("document.body?.dataset.status", "open")
            browser.value(f"""new Promise((done) => {{
                const socket = new WebSocket({json.dumps(server.links[1].replace('http', 'ws') + 'socket')});
                socket.onopen = () => socket.send({json.dumps('1 .name ' + MARKUP)});
                socket.onmessage = ({{ data }}) => {{
                    if (/^1 /m.test(data)) {{ socket.close(); done(0); }} }}; }})""")
            browser.value(f"laboratory.send([{json.dumps(MARKUP)}])")
            browser.wait("document.getElementById('log').textContent.includes('onerror=alert')", True)
            self.assertEqual(browser.value("document.querySelectorAll('img').length"), 0)
            self.assertEqual(browser.errors, [])

    def test_a_watcher_is_answered(self):
        """The server refuses what would change the gas, and the page says whom to ask."""
        with Started("--program", STAND_IN) as server, Browser(server.links[1]) as browser:
            browser.wait("globalThis.laboratory?.lab.picture != null", True)
            for name in ("play", "step", "rewind"):
                browser.value(f"document.querySelector('#callout .close')?.click();"
                              f"document.getElementById('{name}').click()")
                browser.wait(f"({CALLOUT}).includes('Your seat only watches')", True)
            self.assertEqual(browser.value("laboratory.lab.picture.tick"), 0)
            self.assertEqual(browser.errors, [])

    def test_a_link_is_copied_where_there_is_no_clipboard(self):
        """A page that is shared by HTTP has no `navigator.clipboard`."""
        with Started("--program", STAND_IN) as server, Browser(server.links[0]) as browser:
            browser.wait(READY, True)
            browser.value("Object.defineProperty(navigator, 'clipboard', {});"
                          "document.getElementById('share-open').click()")
            copy = "document.querySelector('.give:has(.link) button')"
            place = browser.value(f"{copy}.scrollIntoView(), (({{ x, y, width, height }}) => [x + width / 2, "
                                  f"y + height / 2])({copy}.getBoundingClientRect())")
            browser.pull(place, place)
            browser.wait(f"{copy}.textContent", "Copied")
            self.assertEqual(browser.errors, [])

    def test_a_server_that_goes(self):
        """The last picture stays, and the page says what happened."""
        started = Started("--program", STAND_IN)
        try:
            with Browser(started.links[0]) as browser:
                browser.wait("document.body?.dataset.status", "open")
                browser.wait("laboratory.lab.picture?.tick > 0", True)
                self.assertEqual(started.stop(), 143)
                browser.wait("document.body.dataset.status", "gone")
                self.assertIn("has ended", browser.value("document.getElementById('banner').textContent"))
                self.assertGreater(browser.value("laboratory.view.picture.tick"), 0)
        finally:
            started.stop()

    def test_complaints_are_noticed(self):
        """So that a console without errors says something."""
        with Browser("data:text/html,<p>it</p>") as browser:
            browser.value("console.error('it'); setTimeout(() => { throw new Error('it'); })")
            browser.value("new Promise((done) => setTimeout(done, 200))")
            self.assertEqual(len(browser.errors), 2)


if __name__ == "__main__":
    unittest.main()
