"""The numbers of docs/TEACH.md, by the commands in its tables, and the names that it has from the page."""
import json
import math
import re
import unittest
from fractions import Fraction

from .test_lab import ROOT
from .test_page_engine import (NODE, OBSTACLES_X, PAGE, ROWS, entropy, lines_pressed, run_engine, run_second,
                               second)

TEXT = (ROOT / "docs" / "TEACH.md").read_text("utf-8")
SHORT = 130     # steps of a row that the second implementation runs too, but for lesson 5, which is large
MOST = 800      # steps within which a box has to be back
BOX = [f"read {y}" for y in range(20, 26)]


def spans(mark, text):
    return re.findall(rf"{mark}([^*`\n]+?){mark}", text)


def periods():
    """The text of each period, and the rows of the table at its end."""
    for part in re.split(r"^# (?=Period|Glossary)", TEXT, flags=re.M)[1:-1]:
        text, _, table = part.partition("## How the numbers of ")
        rows = [line.strip("| ").split(" | ") for line in table.splitlines() if line.startswith("| **")]
        yield text, [(spans(r"\*\*", number), start, spans("`", commands), reply.strip("` "))
                     for number, start, commands, reply in rows]


def started():
    made = json.loads((PAGE / "static" / "lessons.json").read_text("utf-8"))
    found = {f"lesson {it['id']}": it for it in made["lessons"]}
    found.update({f"scene {it['id']}": it for it in made["scenes"]})
    return {**found, "empty": {"size": [64, 64], "setup": [], "tries": []}}


def the_box():
    return re.findall(r"^    (wall .+)$", TEXT, re.M)


def case(lesson, commands):
    """The size and the lines of a row. Its last command reads."""
    says = [it["say"] for it in lesson["tries"]]
    count = next(k for k, it in enumerate(commands) if it not in says)
    lines, _, _ = lines_pressed(lesson, [says.index(it) for it in commands[:count]])
    for it in commands[count:]:
        word, *rest = it.split(" ")
        lines += {"the box": the_box(), "entropy": ROWS,
                  "return": [*BOX, *["step 2", *BOX] * (MOST // 2)]}.get(
                      it, ["ledger", f"step {rest[0]}", "ledger"] if word == "drag" else [it])
    return lesson["size"], lines


def told(command, replies):
    """What a row's last command finds, as TEACH.md writes it."""
    if command == "entropy":
        return f"{entropy(replies[-len(ROWS):]):.8f}"
    if command == "return":
        rows = [it for it in replies if it.startswith("ROW")]
        states = [rows[k:k + len(BOX)] for k in range(0, len(rows), len(BOX))]
        return str(2 * states.index(states[0], 1))
    if command.startswith("drag"):
        first, last = (int(replies[k].split(" ")[OBSTACLES_X]) for k in (-3, -1))
        return str(Fraction(last - first, int(command.split(" ")[1])))
    return replies[-1]


def formula(what):
    if " choose " in what:
        return str(math.comb(*map(int, what.split(" choose "))))
    if " / " in what:
        above, below = what.split(" / ")
        return f"{math.prod(map(int, above.split(' × '))) / int(below):.4f}"
    p = float(Fraction(what.removeprefix("p = ")))
    return f"{-p * math.log(p) - (1 - p) * math.log(1 - p):.7f}"


def is_said(number, commands, reply):
    """Whether a bold number is what the reply has: rounded, one of its numbers, or the cell of a particle."""
    plain = number.replace("−", "-")
    if re.fullmatch(r"\d+\.\d+", reply):
        return f"{float(reply):.{len(plain.partition('.')[2])}f}" == plain
    if " " in plain:
        return plain == reply or f"probe {plain} 1 1" == commands[-1] and reply.startswith("PROBE 1 ")
    return plain in reply.split(" ")


class Numbers(unittest.TestCase):
    @classmethod
    def setUpClass(cls):
        cls.lessons = started()
        cls.rows = [row for _, rows in periods() for row in rows]
        cls.runs = [(case(cls.lessons[start], commands), commands, reply)
                    for _, start, commands, reply in cls.rows if start in cls.lessons]

    def test_each_bold_number_is_in_its_table(self):
        for text, rows in periods():
            inside = {number for numbers, *_ in rows for number in numbers}
            outside = {it for it in spans(r"\*\*", text) if not it.endswith(".")}
            self.assertEqual(outside, inside)
        self.assertGreater(len(self.rows), 50)

    def test_each_row_has_its_numbers(self):
        for numbers, start, commands, reply in self.rows:
            for number in numbers:
                self.assertTrue(is_said(number, commands, reply), (number, reply))
            if start == "formula":
                self.assertEqual(formula(commands[0]), reply)
            elif start == "text":
                self.assertIn(reply, (ROOT / commands[0]).read_text("utf-8"))
            else:
                self.assertIn(start, self.lessons)

    @unittest.skipUnless(NODE, "there is no node")
    def test_engine(self):
        cases = [[*size, [lines], -1] for (size, lines), _, _ in self.runs]
        for (_, commands, reply), replies in zip(self.runs, run_engine(cases)):
            self.assertEqual([it for it in replies if it.startswith("ERR")], [], commands)
            self.assertEqual(told(commands[-1], replies), reply, commands)

    def test_second_implementation(self):
        """The short runs. Other tests compare the engine with it, too."""
        channel_gas, count = second(), 0
        for (size, lines), commands, reply in self.runs:
            steps = sum(int(it.split(" ")[1]) for it in lines if it.startswith(("step", "back")))
            if size == [64, 64] and steps <= SHORT or commands[-1] == "return":
                self.assertEqual(told(commands[-1], run_second(channel_gas, *size, lines)), reply, commands)
                count += 1
        self.assertGreater(count, 15)


class Words(unittest.TestCase):
    def test_names_are_on_the_page(self):
        """All that is in quotes, but for what pupils say: a table's row begins with that."""
        page = (ROOT / "gaslab.html").read_text("utf-8")
        names = re.findall(r'"([^"\n]+)"', re.sub(r'^\| "[^"]+"', "", TEXT, flags=re.M))
        self.assertGreater(len(names), 40)
        self.assertEqual([it for it in names if it not in page], [])

    def test_minutes(self):
        """Each period has 45, without a gap."""
        for text, _ in periods():
            spent = re.findall(r"^\| (\d+) to (\d+) \|", text, re.M)
            self.assertEqual([first for first, _ in spent] + ["45"], ["0"] + [last for _, last in spent])

    def test_glossary(self):
        words = re.findall(r"^\| ([\w ]+) \| .+ \|$", TEXT[TEXT.index("# Glossary"):], re.M)[1:]
        self.assertEqual((len(words), words), (30, sorted(words, key=str.lower)))

    def test_worksheets_have_no_answers(self):
        """Nothing is bold on them: the bold numbers are the answers."""
        sheets = re.findall(r"^## Worksheet \d\n(?:(?!^##? ).*\n)+", TEXT, re.M)
        self.assertEqual([spans(r"\*\*", it) for it in sheets], [[], [], []])


if __name__ == "__main__":
    unittest.main()
