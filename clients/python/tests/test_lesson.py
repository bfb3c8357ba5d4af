"""The notebooks. lesson.ipynb is executed by nbconvert over the second implementation.

The others take too long for that: tools/try_client executes them over the built program.
"""
import importlib.util
import json
import os
import subprocess
import sys
import tempfile
import unittest
from pathlib import Path

from .test_lab import ROOT, STAND_IN

CLIENT = ROOT / "clients" / "python"


def executed(program, room, name="lesson"):
    """What a notebook's cells write, one after the other, and how many pictures they show."""
    environment = {**os.environ, "GASLAB_PROGRAM": str(program), "PYTHONPATH": str(CLIENT),
                   "HOME": room, "IPYTHONDIR": room, "JUPYTER_PLATFORM_DIRS": "1"}
    done = subprocess.run([sys.executable, "-m", "nbconvert", "--to", "notebook", "--execute",
                           "--ExecutePreprocessor.timeout=600", "--output-dir", room,
                           str(CLIENT / f"{name}.ipynb")], env=environment, cwd=room,
                          stdout=subprocess.PIPE, stderr=subprocess.STDOUT, text=True)
    assert done.returncode == 0, done.stdout
    cells = json.loads(Path(room, f"{name}.ipynb").read_text())["cells"]
    outputs = [output for cell in cells for output in cell.get("outputs", [])]
    text = "".join("".join(output.get("text", "")) for output in outputs)
    return text, sum("image/png" in output.get("data", {}) for output in outputs)


@unittest.skipIf(os.environ.get("WITHOUT_PANDAS"), "its kernel is another Python, with pandas")
@unittest.skipIf(os.environ.get("WITHOUT_NOTEBOOK"), "tools/try_client executes it over the program")
@unittest.skipUnless(importlib.util.find_spec("nbconvert") and importlib.util.find_spec("ipykernel"),
                     "nbconvert or ipykernel is not installed")
class Executed(unittest.TestCase):
    def test_by_the_second_implementation(self):
        with tempfile.TemporaryDirectory() as room:
            text, pictures = executed(STAND_IN, room)
        self.assertIn("drag at the end: 6.0\n", text)
        self.assertRegex(text, "three times the speed gives ([4-9]|1[0-9]) times the drag\n")
        self.assertIn("first and last entropy are equal: True\n", text)
        self.assertIn("first and last gas are equal: True\n", text)
        self.assertEqual(pictures, 6)


class Kept(unittest.TestCase):
    TITLES = {"lesson": ["The tunnel", "Drag against speed", "A pulse", "There and back"],
              "sound": ["One gas", "Many gases", "What is wrong with this gas"],
              "drag": ["One gas", "Twelve gases", "Drag against speed", "Drag against height"]}

    def test_they_are_kept_without_outputs(self):
        self.assertEqual({it.stem for it in CLIENT.glob("*.ipynb")}, set(self.TITLES))
        for name, wanted in self.TITLES.items():
            cells = json.loads((CLIENT / f"{name}.ipynb").read_text())["cells"]
            self.assertTrue(all(not cell.get("outputs") for cell in cells))
            titles = [line[3:].rstrip() for cell in cells if cell["cell_type"] == "markdown"
                      for line in cell["source"] if line.startswith("## ")]
            self.assertEqual(titles, wanted)
