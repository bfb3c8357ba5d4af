"""One grammar of scripts: the client's reader and the page's, by one list of cases, scripts.json."""
import json
import random
import re
import tempfile
import unittest
from pathlib import Path

from gaslab import place, truth_table
from gaslab.protocol.scripts import parse_script, script_of

from .test_lab import STAND_IN
from .test_page_engine import NODE, run_node

CASES = json.loads(Path(__file__).with_name("scripts.json").read_text("utf-8"))
DEEPEST = "repeat 1 {\n" * 20 + "step 1" + "}" * 20
SIGNS = ["step 1", "tally", " ", "\t", "\n", "\n", ";", "#", "{", "}", "repeat 2 {", "repeat 2", "repeat 0 {",
         "}", "size 128 64", "put 90 0 1 1", "put 90 70 1", "read 70", "row 0 ff", "x", "\r\n", "repeat", "2"]


def by_client(text):
    """What the client reads, in the form of a case."""
    try:
        found = parse_script(text)
    except ValueError as fault:
        return {"fault": int(re.match("line ([0-9]+): ", str(fault))[1])}
    size = list(found.size) if found.size else None
    return {"size": size, "commands": [list(it) for it in found.commands()], "lattice": list(found.lattice)}


def by_page(texts):
    for found in run_node("scripts.mjs", texts, "script"):
        if "fault" not in found:
            assert found.pop("count") == len(found["commands"])
        yield found


def wanted(case):
    """What is to be read of a case."""
    return {key: case.get(key) for key in (["fault"] if "fault" in case else ["size", "commands", "lattice"])}


class Cases(unittest.TestCase):
    def test_by_the_client(self):
        for case in CASES:
            self.assertEqual(by_client(case["text"]), wanted(case), case["text"])

    @unittest.skipUnless(NODE, "there is no node")
    def test_by_the_page(self):
        for case, found in zip(CASES, by_page([case["text"] for case in CASES])):
            self.assertEqual(found, wanted(case), case["text"])

    @unittest.skipUnless(NODE, "there is no node")
    def test_both_read_texts_drawn_at_random_alike(self):
        draw = random.Random(8)
        texts = ["".join(draw.choice(SIGNS) for _ in range(draw.randint(1, 12))) for _ in range(5000)]
        found = [by_client(text) for text in texts]
        for text, client, page in zip(texts, found, by_page(texts)):
            self.assertEqual(client, page, text)
        faults = sum("fault" in it for it in found)
        self.assertTrue(1000 < faults < 4000, faults)

    def test_how_deep(self):
        texts = [DEEPEST, "repeat 1 {\n" + DEEPEST + "}"]
        wanted = [{"size": None, "commands": [[21, "step 1"]], "lattice": [64, 64]}, {"fault": 22}]
        self.assertEqual([by_client(text) for text in texts], wanted)
        if NODE:
            self.assertEqual(list(by_page(texts)), wanted)

    @unittest.skipUnless(NODE, "there is no node")
    def test_many_are_counted_without_being_made(self):
        text = "repeat 4000000000 { repeat 4000000000 { step 1; tally } }"
        found = run_node("counts.mjs", [text, "repeat 3 { step 1; repeat 2 { tally } }"], "script")
        self.assertEqual(found, [32 * 10 ** 18, 9])


class Texts(unittest.TestCase):
    """What is taken for a script: a text, its lines, or the `Path` of its file, everywhere."""
    def test_each_kind(self):
        script = "put 10 10 1 1 # one\nrepeat 2 { step 1 }\n"
        room = tempfile.TemporaryDirectory()
        self.addCleanup(room.cleanup)
        path = Path(room.name, "script.txt")
        path.write_bytes(b"\xef\xbb\xbf" + script.encode())
        for given in (script, script.splitlines(), iter(script.splitlines()), path, parse_script(script)):
            commands = [command for _, command in script_of(given).commands()]
            self.assertEqual(commands, ["put 10 10 1 1", "step 1", "step 1"])
        for given in (script, script.splitlines(), path, parse_script(script)):
            self.assertEqual(place(given, 2, 2).script, ["put 12 12 1 1", "step 1", "step 1"])
            table = truth_table(given, {"A": (20, 20)}, {"B": (0, 0, 64, 64)}, program=STAND_IN)
            self.assertEqual(table["B"].tolist(), [1, 2])

    def test_a_path_as_a_text_is_refused_with_what_to_write(self):
        for call in (script_of, lambda it: place(it, 0, 0), lambda it: truth_table(it, {}, {})):
            with self.assertRaisesRegex(ValueError, r"'a/b.txt' is no command.* Path\('a/b.txt'\)"):
                call("a/b.txt")
        self.assertEqual(list(script_of("tally").commands()), [(1, "tally")])
