"""What the page is on paper, printed by Chromium and read again by poppler's tools."""
import shutil
import subprocess
import tempfile
import unittest
from pathlib import Path

import numpy
from PIL import Image

from .page_case import PageCase

_TOOLS = ["Undo", "Share", "Play", "Script", "Density", "Clear walls", "Speed", "type a command",
          "Start again"]


@unittest.skipUnless(shutil.which("pdftotext") and shutil.which("pdftoppm"), "no poppler")
class Paper(PageCase):
    def printed(self):
        """The text of all sheets, and each of them as an array of pixels at 50 dots an inch."""
        with tempfile.TemporaryDirectory() as room:
            path = Path(room, "sheet.pdf")
            self.browser.print_to(path)
            text = subprocess.run(["pdftotext", "-layout", path, "-"], capture_output=True, check=True).stdout
            subprocess.run(["pdftoppm", "-r", "50", "-png", path, Path(room, "sheet")], check=True)
            sheets = [numpy.array(Image.open(it).convert("RGB")) for it in sorted(Path(room).glob("*.png"))]
        return " ".join(text.decode().split()), sheets

    def lessons(self):
        """Lessons in both themes and in three sizes, with the question, its choices and its answer."""
        for lesson, size, scheme in (("6", (1280, 800), "light"), ("4", (390, 844), "dark"),
                                     ("2", (960, 540), "dark")):
            self.browser.prefer(scheme)
            self.addCleanup(self.browser.prefer, "light")
            self.open(lesson, size=size)
            self.value("document.querySelectorAll('.choice')[0].click()")
            self.settle()
            yield self.value("(({ name, text, expect, tries }) => ({ name, text, expect, tries }))"
                             "(laboratory.lab.lesson)")

    def test_a_lesson_is_a_worksheet_without_its_answer(self):
        """It has the text, the question, the tasks and lines for answers, on two sheets at most."""
        for lesson in self.lessons():
            text, sheets = self.printed()
            expect = lesson["expect"]
            wanted = [lesson["name"], "Name and date:", lesson["text"][0].replace("`", "")[:40],
                      expect["ask"][:60], *expect["choices"], "I think so, since", "What I saw, and why:",
                      *(one["say"] for one in lesson["tries"])]
            self.assertEqual([it for it in wanted if it not in text], [], text)
            hidden = [expect["answer"][:25], "Your guess", *_TOOLS]
            self.assertEqual([it for it in hidden if it in text], [])
            self.assertLessEqual(len(sheets), 2)
            self.assertGreater(text.count("." * 60), 10)

    def test_it_is_black_on_white_with_the_picture(self):
        """In the dark theme too: most of a sheet is white, and the blue of particles is on the first."""
        for _ in self.lessons():
            _, sheets = self.printed()
            for sheet in sheets:
                self.assertGreater((sheet.min(axis=2) > 220).mean(), 0.75)
            blue = (sheets[0][..., 2].astype(int) - sheets[0][..., 0] > 100).sum()
            self.assertGreater(blue, 20)

    def test_the_screen_is_as_before_afterwards(self):
        self.browser.prefer("dark")
        self.addCleanup(self.browser.prefer, "light")
        self.open("6")
        pixels = "laboratory.view.canvas.toDataURL()"
        self.value("laboratory.view.redraw()")
        self.settle()
        before = self.value(pixels)
        self.printed()
        self.settle()
        self.assertEqual(self.value("document.querySelectorAll('.paper').length"), 0)
        self.assertEqual(self.value(pixels), before)

    def test_a_gas_of_ones_own_has_its_readings(self):
        self.open("empty")
        self.send("put 3 3 20 20")
        text, sheets = self.printed()
        for it in ("particles 400", "Ledger", "= balance"):
            self.assertIn(it, text)
        self.assertEqual(([it for it in _TOOLS if it in text], len(sheets)), ([], 1))


if __name__ == "__main__":
    unittest.main()
