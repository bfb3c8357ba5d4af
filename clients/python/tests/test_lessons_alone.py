"""The lessons for somebody without the kit: each run by tools/channel_gas.py too, and the answers to
exercises, by the page's engine."""
import re
import subprocess
import sys
import unittest

from gaslab import random_gas

from .test_page_engine import EXAMPLES, NODE, OBSTACLES_X, run_engine

PAGES = sorted(EXAMPLES.glob("[0-9]*.md"), key=lambda it: int(it.stem.partition("_")[0]))
LESSONS = [page.read_text("utf-8") for page in PAGES]
TEXT = "\n".join(LESSONS)
RUN, ALONE = "./gaslab run", "python3 tools/channel_gas.py"


def code(text):
    return re.findall(r"^    (.+)$", text, re.M)


def block(first):
    """The indented block that begins with this line."""
    lines = TEXT[TEXT.index(f"\n    {first}\n") + 1:].split("\n")
    end = next(k for k, it in enumerate(lines) if it and not it.startswith("    "))
    return "\n".join(it[4:] for it in lines[:end]).rstrip().split("\n")


def taken(replies):
    """What obstacles have taken, by each ledger."""
    return [int(it.split(" ")[OBSTACLES_X]) for it in replies if it.startswith("LEDGER")]


def cells(replies):
    """The full cells of the rows that were read, one row after another."""
    rows = [it[4:] for it in replies if it.startswith("ROW")]
    return {(x, y) for y, row in enumerate(rows) for x in range(4 * len(row))
            if int(row[x // 4], 16) >> (3 - x % 4) & 1}


class Text(unittest.TestCase):
    def test_the_index_has_each_page(self):
        """By its title, with its first sentence, in order."""
        page = (EXAMPLES / "README.md").read_text("utf-8")
        index = re.findall(r"^\| \[(.+)\]\((.+)\) \| (.+) \|$", page, re.M)
        titles = [(text[2:text.index("\n")], text.partition("**What it is.** ")[2].partition("\n")[0])
                  for text in LESSONS]
        self.assertEqual(index, [(title, it.name, about) for it, (title, about) in zip(PAGES, titles)])
        numbers = [int(title.partition(".")[0]) for title, _ in titles]
        self.assertEqual(numbers, list(range(1, len(LESSONS) + 1)))

    def test_each_run_has_both_forms(self):
        count = 0
        for lesson in LESSONS:
            body = lesson.partition("**Run it.**")[2].partition("**What to notice")[0]
            runs = [it for it in code(body) if it.startswith(RUN)]
            others = [it for it in code(body) if it.startswith(ALONE)]
            missing = [it for it in runs if it.replace(RUN, ALONE) not in others]
            self.assertEqual(missing, [], lesson[:20])
            count += len(runs)
        self.assertGreater(count, 18)

    def test_no_line_needs_sed_or_awk(self):
        self.assertEqual([it for it in code(TEXT) if re.search(r"\b(sed|awk)\b", it)], [])

    def test_entropy(self):
        """The program of lesson 11, over the outputs beside the scripts."""
        program = "\n".join(block("import sys"))
        for name in ("11_forget", "11_spoiled", "11_lines"):
            output = (EXAMPLES / f"{name}.out").read_text()
            found = subprocess.run([sys.executable, "-c", program], input=output, stdout=subprocess.PIPE,
                                   text=True, check=True).stdout.split()
            self.assertTrue(found and all(it in TEXT for it in found), found)


@unittest.skipUnless(NODE, "there is no node")
class Exercises(unittest.TestCase):
    def run_lines(self, lines, size=(64, 64)):
        replies, = run_engine([[*size, [lines], -1]])
        self.assertEqual([it for it in replies if it.startswith("ERR")], [])
        return replies

    def test_two_obstacles_in_a_long_tunnel(self):
        lines = block("wall 0 16 192 2")
        self.assertEqual(len(lines), 7)
        sums = taken(self.run_lines([*lines, *["step 100", "ledger"] * 10], (192, 64)))
        found = [late - early for early, late in zip([0, *sums], sums)]
        self.assertIn(f"(c) {', '.join(map(str, found))}. ", TEXT)

    def test_a_drifting_gas(self):
        form = r"(random .+) > drift.txt\n    printf '(.+)' >> drift.txt"
        line, more = re.search(form, TEXT).groups()
        self.assertEqual(line, "random --width 512 --height 256 --density 0.25 --drift 0.5 --seed 1")
        lines = [*random_gas(512, 256, density=0.25, drift=0.5, seed=1, tick=0), *more.split("\\n")[:-1]]
        first, second, third = taken(self.run_lines(lines, (512, 256)))
        self.assertIn(f"have {first}, {second} and {third} as their eighth numbers", TEXT)

    def test_a_bar(self):
        background = [it for it in (EXAMPLES / "5_sound.txt").read_text().splitlines() if "row" in it]
        more = re.search(r"printf '(put 112.+)' >> bar.txt", TEXT)[1].split("\\n")[:-1]
        for first in ([], ["put 112 112 32 32"]):        # the page's lesson has its square too
            *_, left, right = self.run_lines([*background, *first, *more], (256, 256))
            self.assertEqual([it.split(" ")[1] for it in (left, right)], ["6144", "6144"])
        self.assertIn("## Answers\n\n6144 each", LESSONS[4])

    def test_one_more_or_one_less(self):
        six = (EXAMPLES / "6_spoiled.txt").read_text().splitlines()[:6]
        changes = {"(a) (28, 19) taken out": "erase 28 19 1 1", "(b) (62, 3) put in": "put 62 3 1 1"}
        for name, change in changes.items():
            self.assertIn(change, TEXT)
            replies = [self.run_lines([*six, f"step {n}", change, f"back {n}", "probe 4 4 20 56"])
                       for n in (10, 20, 40, 80, 160, 320)]
            found = [it[-1].split(" ")[1] for it in replies]
            self.assertIn(f"| {name} | {' | '.join(found)} |", TEXT)

    def test_a_light_cone(self):
        """The table of lesson 9, whose program for the client needs some seconds for each row."""
        script = (EXAMPLES / "9_light_cone.txt").read_text().splitlines()
        rows = [f"read {y}" for y in range(128)]
        self.assertEqual(script[5::4], ["step 40", "step 40"])
        for n in (10, 20, 40):
            lines = [*script[:5], f"step {n}", *rows, f"back {n}", "put 64 64 1 1", f"step {n}", *rows]
            replies = self.run_lines(lines, (128, 128))
            half = len(replies) - 128
            differ = cells(replies[:half]) ^ cells(replies[half:])
            columns, lengths = ([it[axis] for it in differ] for axis in (0, 1))
            self.assertIn(f"| {n} | {len(differ)} | {min(columns)} to {max(columns)} | "
                          f"{min(lengths)} to {max(lengths)} |", TEXT)


if __name__ == "__main__":
    unittest.main()
