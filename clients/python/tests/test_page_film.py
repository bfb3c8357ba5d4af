"""The page's film: it has every picture, however slow the machine is."""
import os
import tempfile
import unittest
from pathlib import Path

from .browser import CHROMIUM, Browser
from .page_case import PageCase
from .test_browser import Started
from .test_lab import STAND_IN

_FILM = "[...document.querySelectorAll('.give')].find((e) => /^Film/.test(e.textContent)).lastChild"
_INTO = {0x18538067, 0x1F43B675, 0x1654AE6B, 0xAE, 0xE0, 0xA0}  # elements that have elements
_BLOCK, _GROUPED, _TIME = 0xA3, 0xA1, 0xE7


def number(data, at, keep_mark):
    """A number of WebM: its first byte tells its length. Returns it and the place behind it."""
    length = 9 - data[at].bit_length()
    value = int.from_bytes(data[at:at + length], "big")
    return value if keep_mark else value - (1 << 7 * length), at + length


def pictures(data):
    """The times of all pictures in a film, in milliseconds."""
    at, cluster, times = 0, 0, []
    while at < len(data):
        kind, at = number(data, at, True)
        size, at = number(data, at, False)
        if kind == _TIME:
            cluster = int.from_bytes(data[at:at + size], "big")
        if kind in (_BLOCK, _GROUPED):
            times.append(cluster + int.from_bytes(data[at + 1:at + 3], "big", signed=True))
        if kind not in _INTO:
            at += size
    return times


class Films(PageCase):
    def filmed(self, lesson, play):
        """What `film` returns of a gas that plays so."""
        room = tempfile.TemporaryDirectory()
        self.addCleanup(room.cleanup)
        self.open(lesson)
        self.browser.download_to(room.name)
        self.send(".pause")
        self.send(play)
        self.browser.wait("laboratory.lab.playing", True)
        return self.film(Path(room.name, "film.webm"))

    def film(self, path):
        """Of a film: the times of its pictures, the steps between those shown, their number, and its path."""
        self.value("""(() => {
            window.ticks = [];
            laboratory.lab.on(["shown"], () => {
                const { film, shown } = laboratory.lab;
                if (film && shown.playing) ticks.push(shown.tick); }); })()""")
        self.value(f"document.getElementById('share-open').click(); {_FILM}.click()")
        self.browser.wait_for_file(path)
        ticks = self.value("ticks")
        self.browser.wait(f"{_FILM}.textContent", "Save")
        return pictures(path.read_bytes()), {b - a for a, b in zip(ticks, ticks[1:])}, len(ticks), path

    def check(self, found, rate, steps):
        times, made, count, path = found
        self.assertEqual((len(times), made, count), (60, {steps}, 60))
        self.assertEqual(times, [round(k * 1000 / rate) for k in range(60)])

    def test_a_film_has_60_pictures_at_their_times(self):
        """It has the size of the gas as it is seen. Then the gas plays on."""
        found = self.filmed("4", ".play 2 30")
        self.check(found, 30, 2)
        self.browser.wait("laboratory.lab.playing", True)
        size = self.value("[laboratory.view.canvas.width & ~1, laboratory.view.canvas.height & ~1]")
        head = found[3].read_bytes()[:400]
        shown = [int.from_bytes(head[head.index(mark) + 9:][:2], "big")
                 for mark in (b"\xb0\x01", b"\xba\x01")]
        self.assertEqual(shown, size)

    def test_a_slow_machine_takes_longer_and_misses_no_picture(self):
        """Five times slower than this one."""
        self.open("4")
        self.browser.slow_down(5)
        self.addCleanup(self.browser.slow_down, 1)
        self.check(self.filmed("4", ".play 1 60"), 60, 1)

    def test_a_browser_without_an_encoder_for_pages_records_as_many(self):
        """It keeps its own times."""
        self.open("4")
        room = tempfile.TemporaryDirectory()
        self.addCleanup(room.cleanup)
        self.browser.download_to(room.name)
        self.value("VideoEncoder.isConfigSupported = async () => ({ supported: false }); 0")
        self.browser.wait("laboratory.lab.playing", True)
        self.browser.slow_down(4)
        self.addCleanup(self.browser.slow_down, 1)
        times, made, count, _ = self.film(Path(room.name, "film.webm"))
        self.assertEqual((len(times), count, len(made)), (60, 60, 1))

    def test_a_pause_ends_the_film(self):
        """It has the pictures up to then, and the gas stands."""
        room = tempfile.TemporaryDirectory()
        self.addCleanup(room.cleanup)
        self.open("4")
        self.browser.download_to(room.name)
        self.browser.wait("laboratory.lab.playing", True)
        self.value(f"document.getElementById('share-open').click(); {_FILM}.click()")
        self.browser.wait(f"/^[1-9].* of 60/.test({_FILM}.textContent)", True)
        self.value("document.getElementById('popover').close(); document.getElementById('play').click()")
        path = Path(room.name, "film.webm")
        self.browser.wait_for_file(path)
        self.browser.wait("document.getElementById('play').textContent", "Play")
        self.assertTrue(1 <= len(pictures(path.read_bytes())) < 60)
        tick = self.tick()
        self.settle()
        self.assertEqual(self.tick(), tick)


@unittest.skipUnless(CHROMIUM and not os.environ.get("WITHOUT_PAGE"), "no chromium, or WITHOUT_PAGE")
class Served(unittest.TestCase):
    def test_films_of_a_page_that_draws_and_of_one_that_watches(self):
        """Who watches steps nothing: its film has the pictures that come."""
        with Started("--program", STAND_IN) as server, tempfile.TemporaryDirectory() as room, \
                Browser(server.links[0]) as draws, Browser(server.links[1]) as watches:
            for name, browser in (("draws", draws), ("watches", watches)):
                folder = Path(room, name)
                folder.mkdir()
                browser.download_to(str(folder))
                browser.wait("globalThis.laboratory?.lab.playing", True)
                browser.value(f"document.getElementById('share-open').click(); {_FILM}.click()")
                browser.wait_for_file(folder / "film.webm")
                self.assertEqual(len(pictures((folder / "film.webm").read_bytes())), 60)
                self.assertEqual(browser.errors, [])


if __name__ == "__main__":
    unittest.main()
