"""Each script that the page saves is replayed by the commands that its dialog shows, to the page's gas."""
import base64
import json
import os
import random
import subprocess
import tempfile
import unittest
from pathlib import Path

from gaslab.page.one_file import read

from .test_lab import ROOT
from .test_page_engine import NODE, PAGE, random_script, run_node

_PICTURES = 4  # that a button's run has before the next button


def lessons():
    """Each lesson and scene, opened and with its buttons pressed, and the run of each cut off."""
    made = json.loads((PAGE / "static" / "lessons.json").read_text())
    for lesson in made["lessons"] + made["scenes"]:
        pressed = [part for one in lesson["tries"] for part in (one["lines"], _PICTURES, [".pause"])]
        yield [[f".open {' '.join(map(str, lesson['size']))} {lesson['name']}", *lesson["setup"]],
               *pressed, [".play 2 30"], _PICTURES]


def drawn(draw, size):
    """A random session: commands, refused ones too, play both ways, a new journal, and a snapshot opened."""
    parts = [[f".open {size[0]} {size[1]} drawn"]]
    for _ in range(draw.randint(1, 4)):
        lines = [line for line in random_script(draw, *size, draw.randrange(2))[:-size[1]]
                 if not line.startswith("row")]
        parts += [[*lines, "put 1 1 1 99999", "jump", "back 1"], [f".play {draw.randint(1, 9)} 60"],
                  draw.randint(1, 5), [".pause", f".goto {draw.randint(-9, 30)} 3 60"], draw.randint(1, 5)]
        parts += [[[".pause", draw.choice([".fresh", ".bring"])]], ["reopen"], [], []][draw.randrange(4)]
    return parts


def sessions(count):
    """Those of the lessons, and random ones of all sizes that the page offers; small ones come more often."""
    draw, sides = random.Random(16), json.loads(read("facts.json"))["sides"]
    sizes = [size for side in sides for size in ((side, draw.choice(sides)), (draw.choice(sides), side))]
    sizes += [(draw.choice(sides[:3]), draw.choice(sides[:3])) for _ in range(count - len(sizes))]
    full = [[".open 64 64 long"], [f"put {k % 64} {k // 64 % 64} 1 1" for k in range(1500)], ["step 9"]]
    return [*lessons(), *(drawn(draw, size) for size in sizes), full]


def faults(count, programs):
    """What is wrong with the replays by these programs: (command, found, wanted). And how many were tried.

    `programs` are the paths of a command's beginnings: "./gaslab" and "tools".
    """
    wrong, tried = [], 0
    for session in run_node("saved.mjs", sessions(count), "worker"):
        with tempfile.TemporaryDirectory() as room:
            for name, path in programs.items():
                os.symlink(path, Path(room, name))
            for name, contents in session["files"].items():
                Path(room, name).write_bytes(base64.b64decode(contents))
            for command in session["commands"]:
                if any(name in command.partition("<")[0] for name in programs):
                    done = subprocess.run(command, shell=True, cwd=room, capture_output=True, text=True)
                    replies = done.stdout.splitlines()
                    refused = [it for it in replies if it.startswith("ERR")]
                    found = refused[:1], done.stderr, replies[-2:]
                    wanted = [], "", session["shown"]
                    wrong += [(command, found, wanted)] if found != wanted else []
                    tried += 1
    return wrong, tried


@unittest.skipUnless(NODE, "there is no node")
class Replayed(unittest.TestCase):
    def test_by_the_second_implementation(self):
        """tools/try_client replays them by the program too."""
        wrong, tried = faults(50, {"tools": ROOT / "tools"})
        self.assertEqual(wrong[:2], [])
        self.assertEqual(tried, len(list(lessons())) + 50 + 1)


if __name__ == "__main__":
    unittest.main()
