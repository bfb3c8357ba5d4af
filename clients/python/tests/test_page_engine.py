"""The page's engine in JavaScript, by node, against the second implementation; and what its lessons claim."""
import importlib.machinery
import importlib.util
import itertools
import json
import math
import random
import shutil
import subprocess
import sys
import unittest

from gaslab.page.one_file import bundle
from gaslab.protocol.commands import COMMANDS

from .test_lab import ROOT

EXAMPLES = ROOT / "examples"
PAGE = ROOT / "clients" / "python" / "gaslab" / "page"
NODE = shutil.which("node")
SIZES = {"5_sound": (256, 256), "5_empty": (256, 256), "9_light_cone": (128, 128), "7_kept": (128, 64),
         "clap": (128, 128), "seams": (128, 128)}
SESSIONS = ["8_first", "8_second", "8_third"]
OBSTACLES_X = 8  # its place in a LEDGER reply
PORTS = ["source", "drain", "unport"]
ROWS = [f"read {y}" for y in range(64)]


def run_node(name, cases, entry="engine"):
    """What a script beside this one prints of cases, with a module of the page."""
    done = subprocess.run([NODE, ROOT / "clients/python/tests" / name], stdout=subprocess.PIPE, text=True,
                          input=json.dumps({"engine": bundle(entry), "cases": cases}), check=True)
    return json.loads(done.stdout)


def run_engine(cases):
    """The replies to each case: width, height, the lines of each session, and a case to start from or -1."""
    return run_node("engine.mjs", cases)


def lines_pressed(lesson, pressed):
    """The lines of a lesson after some of its buttons, the tick, and which of them changed the gas.

    A button that acts at a tick goes there first. If ports let no way back, the lesson starts again.
    """
    lines, tick, changes = list(lesson["setup"]), 0, set()
    for k in pressed:
        at = lesson["tries"][k].get("at", tick)
        has_ports = any(line.startswith(("source", "drain")) for line in lines) and "unport" not in lines
        if at < tick and has_ports:
            lines, tick, changes = list(lesson["setup"]), 0, set()
        for line in ([f".goto {at}"] if at != tick else []) + lesson["tries"][k]["lines"]:
            word, *words = line.split(" ")
            aim = {".goto": 0, "step": tick, "back": tick}.get(word)
            if aim is None:
                lines.append(line)
                changes.add(k)
                continue
            to = aim + int(words[0]) * (-1 if word == "back" else 1)
            lines += [f"{'step' if to > tick else 'back'} {abs(to - tick)}"] if to != tick else []
            tick = to
    return lines, tick, sorted(changes)


def second():
    """tools/channel_gas.py as a module."""
    loader = importlib.machinery.SourceFileLoader("channel_gas", str(ROOT / "tools" / "channel_gas.py"))
    module = importlib.util.module_from_spec(importlib.util.spec_from_loader("channel_gas", loader))
    loader.exec_module(module)
    return module


def run_second(channel_gas, width, height, lines):
    gas = channel_gas.Gas(width, height)
    books = channel_gas.Books(gas.sums(gas.particles))
    return [" ".join(map(str, reply)) for reply in channel_gas.session(0, lines, gas, books, [], "")]


def random_script(draw, width, height, has_ports):
    def area():
        x, y = draw.randrange(width), draw.randrange(height)
        return f"{x} {y} {draw.randint(1, min(20, width - x))} {draw.randint(1, min(20, height - y))}"

    def line():
        left_out = {"save", "quit", *(["back"] if has_ports else PORTS)}
        word = draw.choice(["put", "step", *(it for it in COMMANDS if it not in left_out)])
        if word in ("step", "back"):
            return f"{word} {draw.randint(1, 9)}"
        if word == "row":
            return f"row {draw.randrange(height)} {draw.getrandbits(width):0{width // 4}x}"
        if word == "source":
            return f"source {area()} {draw.randint(1, 5)}"
        fixed = {"tally": "", "ledger": "", "unport": "", "read": f" {draw.randrange(height)}", "entry": " 0"}
        return word + (fixed[word] if word in fixed else f" {area()}")
    lines = ["put 3 5 9 9", *(line() for _ in range(30))]
    return [*lines, "step 5", "tally", "ledger", *(f"read {y}" for y in range(height))]


@unittest.skipUnless(NODE, "there is no node")
class Engine(unittest.TestCase):
    @classmethod
    def setUpClass(cls):
        cls.channel_gas = second()

    def test_200_random_scripts(self):
        draw, cases = random.Random(61), []
        for k in range(200):
            width, height = draw.choice([(64, 64), (64, 64), (128, 64), (64, 128), (192, 64)])
            cases.append([width, height, [random_script(draw, width, height, k % 2)], -1])
        lines = 0
        for (width, height, (script,), _), found in zip(cases, run_engine(cases)):
            wanted = run_second(self.channel_gas, width, height, script)
            differ = [it for it in zip(script, found, wanted) if it[1] != it[2]]
            self.assertEqual((differ[:3], len(found)), ([], len(wanted)))
            lines += len(found)
        self.assertGreater(lines, 15000)

    def test_all_lessons_and_scenes(self):
        """Each script gives the output beside it."""
        scripts = [it for it in sorted(EXAMPLES.glob("**/*.txt")) if it.stem not in (*SESSIONS, "7_next_day")]
        self.assertGreaterEqual(len(scripts), 25)
        cases = [[*SIZES.get(it.stem, (64, 64)), [it.read_text().splitlines()], -1] for it in scripts]
        outputs = [it.with_suffix(".out").read_text() for it in scripts]
        kept = next(k for k, it in enumerate(scripts) if it.stem == "7_kept")
        cases.append([128, 64, [(EXAMPLES / "7_next_day.txt").read_text().splitlines()], kept])
        cases.append([64, 64, [(EXAMPLES / f"{name}.txt").read_text().splitlines() for name in SESSIONS], -1])
        outputs.append((EXAMPLES / "7_next_day.out").read_text())
        outputs.append("".join((EXAMPLES / f"{name}.out").read_text() for name in SESSIONS))
        names = [it.stem for it in scripts] + ["7_next_day", "8"]
        for name, found, wanted in zip(names, run_engine(cases), outputs):
            self.assertEqual("\n".join(found) + "\n", wanted, name)

    def test_refusals(self):
        lines = {"": "2 word", "jump": "2 word", "put 1": "3 count", "step x": "4 number",
                 "put 0 0 65 1": "5 rect", "read 64": "5 rect", "step 0": "6 steps", "back 4097": "6 steps",
                 "source 0 0 1 1 0": "7 period", "row 0 0": "8 row", "entry 0": "9 entry"}
        found, = run_engine([[64, 64, [[*lines, *["drain 0 0 1 1"] * 17, "back 1"]], -1]])
        self.assertEqual(found[:len(lines)], [f"ERR {it}" for it in lines.values()])
        self.assertEqual(found[-2:], ["ERR 10 full", "ERR 11 ports"])


def entropy(rows):
    """The mean of -p ln p - (1 - p) ln (1 - p) over squares of 8 by 8 cells."""
    cells = [f"{int(row[4:], 16):0{4 * (len(row) - 4)}b}" for row in rows]
    squares = [sum(cells[y + k][x:x + 8].count("1") for k in range(8)) / 64
               for y in range(0, len(cells), 8) for x in range(0, len(cells[0]), 8)]
    return -sum(p * math.log(p) + (1 - p) * math.log(1 - p) for p in squares if 0 < p < 1) / len(squares)


class Claims(unittest.TestCase):
    """Each number that a lesson or one of its buttons claims."""

    @classmethod
    def setUpClass(cls):
        cls.channel_gas = second()
        made = json.loads((PAGE / "static" / "lessons.json").read_text())
        choices = json.loads((PAGE / "choices.json").read_text())
        cls.lessons = {it["id"]: it for it in made["lessons"] + made["scenes"]}
        cls.claims = [(it["id"], claim) for it in choices["lessons"] + choices["scenes"]
                      for claim in it["claims"]]

    def script(self, lesson, claim):
        if "press" in claim:
            pressed = lines_pressed(self.lessons[lesson], claim["press"])[0]
            lines = pressed + ([claim["ask"]] if "ask" in claim else [])
        else:
            lines = self.lessons[lesson]["setup"] + claim["lines"]
        lines = [it for line in lines for it in (ROWS if line == "entropy" else [line])]
        return lines + (["step 200", "ledger", "step 100", "ledger"] if "drag" in claim else [])

    def check(self, lesson, claim, replies):
        self.assertEqual([it for it in replies if it.startswith("ERR")], [], (lesson, claim))
        if "drag" in claim:
            early, late = (int(replies[k].split(" ")[OBSTACLES_X]) for k in (-3, -1))
            self.assertEqual(late - early, 100 * claim["drag"], claim)
        elif isinstance(claim["reply"], list):
            self.assertEqual([it for it in replies if not it.startswith("OK")], claim["reply"], lesson)
        elif "entropy" in (claim.get("ask"), *claim.get("lines", [])):
            self.assertEqual(f"{entropy(replies[-64:]):.8f}", claim["reply"], claim)
        else:
            self.assertEqual(replies[-1], claim["reply"], (lesson, claim))

    def test_second_implementation(self):
        self.assertGreater(len(self.claims), 25)
        for lesson, claim in self.claims:
            size, lines = self.lessons[lesson]["size"], self.script(lesson, claim)
            self.check(lesson, claim, run_second(self.channel_gas, *size, lines))

    @unittest.skipUnless(NODE, "there is no node")
    def test_engine(self):
        cases = [[*self.lessons[lesson]["size"], [self.script(lesson, claim)], -1]
                 for lesson, claim in self.claims]
        for (lesson, claim), replies in zip(self.claims, run_engine(cases)):
            self.check(lesson, claim, replies)

    @unittest.skipUnless(NODE, "there is no node")
    def test_buttons_in_any_order(self):
        """What is claimed at a tick, after some buttons that change the gas, holds in whatever order they and
        others are pressed: 5 at most, and one of them while the run of another is under way."""
        lessons = [{"setup": it["setup"], "size": it["size"], "tries": it["tries"],
                    "claims": [claim for name, claim in self.claims if name == it["id"] and "ask" in claim]}
                   for it in self.lessons.values()]
        lessons = [it for it in lessons if it["claims"]]
        for lesson in lessons:
            for claim in lesson["claims"]:
                _, claim["tick"], claim["changes"] = lines_pressed(lesson, claim["press"])
            lesson["asks"] = sorted({line for claim in lesson["claims"] for line in
                                     (ROWS if claim["ask"] == "entropy" else [claim["ask"]])})
        for lesson, states in zip(lessons, run_node("presses.mjs", lessons)):
            held = dict.fromkeys(range(len(lesson["claims"])), 0)
            for changes, tick, replies in states:
                said = dict(zip(lesson["asks"], replies))
                for k, claim in enumerate(lesson["claims"]):
                    if (claim["tick"], claim["changes"]) == (tick, changes):
                        held[k] += 1
                        found = (f"{entropy([said[row] for row in ROWS]):.8f}" if claim["ask"] == "entropy"
                                 else said[claim["ask"]])
                        self.assertEqual(found, claim["reply"], (claim, lesson["tries"]))
            self.assertGreater(min(held.values()), 0, (held, lesson["claims"]))

    @unittest.skipUnless(NODE, "there is no node")
    def test_obstacles_of_lesson_4_in_any_order(self):
        lesson = self.lessons["4"]
        drags = {claim["press"][-1]: claim["drag"] for name, claim in self.claims
                 if name == "4" and "press" in claim}
        self.assertEqual(sorted(drags), list(range(len(lesson["tries"]))))
        orders = list(itertools.permutations(drags))
        cases = []
        for order in orders:
            lines = list(lesson["setup"])
            for k in order:
                lines += ["step 23", *lesson["tries"][k]["lines"]]
            cases.append([64, 64, [[*lines, "step 200", "ledger", "step 100", "ledger"]], -1])
        for order, replies in zip(orders, run_engine(cases)):
            early, late = (int(replies[k].split(" ")[OBSTACLES_X]) for k in (-3, -1))
            self.assertEqual(late - early, 100 * drags[order[-1]], order)

    def test_each_lesson_with_an_answer_claims_something(self):
        for lesson in (it["id"] for it in self.lessons.values() if "expect" in it):
            self.assertTrue([it for it in self.claims if it[0] == lesson], lesson)

    def test_texts_name_nothing_that_the_page_lacks(self):
        """The examples have scripts, tables and seats, and the page of one file has none."""
        for lesson in self.lessons.values():
            expect = lesson.get("expect", {})
            told = [*lesson["text"], lesson["about"], expect.get("ask", ""), expect.get("answer", ""),
                    *(one["say"] for one in lesson["tries"])]
            self.assertNotRegex(" ".join(told), r"(?i)(the|first|second|third|this) script (?!home)|\w+\.txt"
                                r"|first \d+ lines|\btables?\b|\bseats?\b|the picture")

    def test_lessons_are_made_from_the_examples(self):
        done = subprocess.run([sys.executable, ROOT / "tools" / "page_lessons", "--check"],
                              stderr=subprocess.PIPE, text=True)
        self.assertEqual((done.returncode, done.stderr), (0, ""))
