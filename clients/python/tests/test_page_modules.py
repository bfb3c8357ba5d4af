"""Modules of the page that need no browser, in node: shapes, words, and the file of a film."""
import base64
import itertools
import json
import random
import unittest

from gaslab.page.one_file import one_file

from .test_page_engine import NODE, PAGE, run_node
from .test_page_film import number, pictures

TEXTS = json.loads((PAGE / "static" / "texts_en.json").read_text("utf-8"))
SIZE = {"width": 128, "height": 64}


def called(module, function, *cases):
    """What a function of a module returns for each list of arguments."""
    return run_node("calls.mjs", [[module, function, case] for case in cases], module)


def cells_of(*rectangles):
    return {(i, j) for x, y, w, h in rectangles for i in range(x, x + w) for j in range(y, y + h)}


@unittest.skipUnless(NODE, "node is not installed")
class Shapes(unittest.TestCase):
    def test_a_rectangle_has_the_squares_of_both_cells_and_all_between(self):
        draw, cases = random.Random(1), []
        for _ in range(300):
            ends = [[draw.randrange(-9, 140), draw.randrange(-9, 75)] for _ in range(2)]
            cases.append([*ends, SIZE, draw.choice([1, 2, 8])])
        for (a, b, _, snap), found in zip(cases, called("shapes", "rectangle", *cases)):
            inside = [[min(max(v, 0), side - 1) for v, side in zip(end, (128, 64))] for end in (a, b)]
            wanted = []
            for low, high in (sorted(pair) for pair in zip(*inside)):
                first = low - low % snap
                wanted.append((first, high - high % snap + snap - first))
            self.assertEqual(found, [wanted[0][0], wanted[1][0], wanted[0][1], wanted[1][1]])

    def test_an_ellipse_has_the_cells_whose_middles_are_in_it(self):
        cases = [[[3, 5, w, h]] for w, h in itertools.product((1, 2, 3, 8, 13), (1, 2, 7, 10))]
        for ((x, y, w, h),), found in zip(cases, called("shapes", "ellipse", *cases)):
            wanted = {(i, j) for i, j in cells_of((x, y, w, h))
                      if ((i + .5 - x) / w * 2 - 1) ** 2 + ((j + .5 - y) / h * 2 - 1) ** 2 <= 1}
            self.assertEqual(cells_of(*found), wanted, (w, h))

    def test_a_stroke_is_a_way_of_the_pen_through_its_cells(self):
        draw = random.Random(2)
        cases = [[[[draw.randrange(128), draw.randrange(64)] for _ in range(draw.randrange(1, 4))],
                  SIZE, snap] for snap in (1, 1, 2) for _ in range(30)]
        for (cells, _, snap), found in zip(cases, called("shapes", "stroke", *cases)):
            squares = {(x // snap, y // snap) for x, y in cells_of(*found)}
            self.assertEqual(len(cells_of(*found)), snap ** 2 * len(squares))
            self.assertLessEqual({(x // snap, y // snap) for x, y in cells}, squares)
            # all are reached by neighbours, and there are no more than steps lead from cell to cell
            reached, rest = set(), [next(iter(squares))]
            while rest:
                x, y = rest.pop()
                if (x, y) in squares - reached:
                    reached.add((x, y))
                    rest += itertools.product((x - 1, x, x + 1), (y - 1, y, y + 1))
            self.assertEqual(reached, squares)
            steps = sum(max(abs(x - a), abs(y - b)) for (x, y), (a, b) in zip(cells, cells[1:]))
            self.assertLessEqual(len(squares), steps + 1)

    def test_around_is_the_least_rectangle_with_both(self):
        draw = random.Random(3)
        cases = [[[draw.randrange(50) + 1 for _ in range(4)] for _ in range(2)] for _ in range(100)]
        for rectangles, found in zip(cases, called("shapes", "around", *cases)):
            both = cells_of(*rectangles)
            columns, rows = zip(*both)
            self.assertEqual(found, [min(columns), min(rows), max(columns) - min(columns) + 1,
                                     max(rows) - min(rows) + 1])
        self.assertEqual(called("shapes", "around", [[1, 2, 3, 4], None]), [[1, 2, 3, 4]])


@unittest.skipUnless(NODE, "node is not installed")
class Words(unittest.TestCase):
    def test_numbers(self):
        said = {0: "0", 7: "7", -7: "\u22127", 1234567: "1,234,567", -1234: "\u22121,234", 0.5: "0.5",
                2 / 3: "0.667"}
        self.assertEqual(called("wording", "say", *([it] for it in said)), list(said.values()))

    def test_one_and_many(self):
        cases = [[n, kind] for kind in TEXTS["plurals"] for n in (0, 1, 2, 1000)]
        for (n, kind), found in zip(cases, called("wording", "plural", *cases)):
            form = TEXTS["plurals"][kind]["one" if n == 1 else "other"]
            self.assertEqual(found, form.replace("{n}", f"{n:,}"))

    def test_each_refusal_has_plain_words_without_a_gap(self):
        picture = {"width": 128, "height": 64}
        values = {"word": "source", "shape": "source x y w h period", "width": "128", "height": "64",
                  "last": "63", "digits": "32"}
        refusals = {it: text for it, text in TEXTS["refusals"].items() if it.isdigit()}
        found = called("wording", "plainWords",
                       *([f"ERR {it} x", "source 1 2 3 4 5", picture] for it in refusals))
        for text, wanted in zip(found, refusals.values()):
            for name, value in values.items():
                wanted = wanted.replace("{" + name + "}", value)
            self.assertEqual(text, wanted)
            self.assertNotIn("{", text)
        rows = called("wording", "plainWords", ["ERR 5 rect", "read 64", picture],
                      ["ERR 5 rect", " row 64 0", picture])
        self.assertEqual(rows, 2 * [TEXTS["refusals"]["5 row"].replace("{last}", "63")])

    def test_why_no_program_was_started(self):
        reply = "NO program /x/$& y: there is no such file"
        text, = called("wording", "plainWords", [reply])
        self.assertIn("(/x/$& y: there is no such file)", text)

    def test_what_a_refusal_is(self):
        found = called("wording", "isRefusal", ["ERR 5 rect"], ["NO watch"], ["GONE"], ["OK 0"], ["ROW ff"],
                       ["TALLY 0"])
        self.assertEqual(found, [True, True, True, False, False, False])


@unittest.skipUnless(NODE, "node is not installed")
class Lessons(unittest.TestCase):
    def test_rows_of_one_digit_are_short_in_the_file_and_whole_on_the_page(self):
        made = json.loads((PAGE / "static" / "lessons.json").read_text("utf-8"))
        lessons = [it for kind in made.values() for it in kind]
        self.assertEqual(called("lessons", "find", *([it["id"]] for it in lessons)), lessons)
        self.assertIn("row 0 " + 64 * "a", made["lessons"][4]["setup"])
        self.assertNotRegex(one_file(), r"row \d+ ([0-9a-f])\1{7}")


@unittest.skipUnless(NODE, "node is not installed")
class FilmFiles(unittest.TestCase):
    def made(self, keys, rate):
        """A film of pictures of one byte each, of which those in `keys` need no other."""
        shots = [{"bytes": {"$bytes": [k]}, "isKey": k in keys} for k in range(7)]
        text, = called("webm", "webm", [shots, {"width": 320, "height": 200, "rate": rate}])
        return base64.b64decode(text)

    def test_each_picture_has_its_time(self):
        for keys, rate in (({0}, 25), ({0, 3, 5}, 30)):
            self.assertEqual(pictures(self.made(keys, rate)), [int(k * 1000 / rate + .5) for k in range(7)])

    def test_each_key_begins_a_cluster(self):
        data, keys, at, clusters = self.made({0, 3, 5}, 25), [], 0, 0
        while at < len(data):
            kind, at = number(data, at, True)
            size, at = number(data, at, False)
            clusters += kind == 0x1F43B675
            if kind == 0xA3:
                keys.append(data[at + 3])  # its flags: 0x80 for a key
            if kind not in (0x18538067, 0x1F43B675):
                at += size
        self.assertEqual((clusters, keys), (3, [0x80, 0, 0, 0x80, 0, 0x80, 0]))
