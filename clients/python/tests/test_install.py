"""The package installed in an empty folder, as a person would, and what is said without a library."""
import importlib.util
import os
import shutil
import subprocess
import sys
import tempfile
import unittest
from pathlib import Path

import gaslab

from .seen import read
from .test_lab import ROOT, STAND_IN

CLIENT = ROOT / "clients" / "python"
FIRST = """
from pathlib import Path
from gaslab import Lab, chart, every, film, picture
with Lab.run() as lab:
    lab.play(Path("4_tunnel.txt"))
    picture(lab, "tunnel.png", mean=4)
    chart(every(lab, 20, times=3), "drag.svg", "tick", "d_obstacles_x")
    film(lab, "tunnel.gif", steps=2, frames=3)
"""


def is_there(*modules):
    return all(importlib.util.find_spec(name) for name in modules)


@unittest.skipUnless(is_there("pip", "setuptools", "venv"), "pip or setuptools is not installed")
class Installed(unittest.TestCase):
    """A copy of the client, installed with what is on this machine alone."""

    @classmethod
    def setUpClass(cls):
        room = tempfile.TemporaryDirectory()
        cls.addClassCleanup(room.cleanup)
        cls.room = Path(room.name)
        source = cls.room / "source"
        shutil.copytree(CLIENT, source, ignore=shutil.ignore_patterns("build", "*.egg-info"))
        venv = cls.room / "venv"
        cls.python = venv / "bin" / "python"
        subprocess.run([sys.executable, "-m", "venv", "--system-site-packages", "--without-pip",
                        venv], check=True)
        done = subprocess.run([cls.python, "-m", "pip", "install", "--no-index",
                               "--no-build-isolation", source], stdout=subprocess.PIPE,
                              stderr=subprocess.STDOUT, text=True)
        assert done.returncode == 0, done.stdout
        cls.empty = cls.room / "empty"
        cls.empty.mkdir()
        cls.environment = {**os.environ, "GASLAB_PROGRAM": str(STAND_IN), "PYTHONWARNINGS": "error"}

    def run_there(self, *words):
        done = subprocess.run(words, cwd=self.empty, env=self.environment, text=True,
                              stdout=subprocess.PIPE, stderr=subprocess.PIPE)
        self.assertEqual((done.returncode, done.stderr), (0, ""), words)
        return done.stdout

    def test_module(self):
        text = ("import gaslab, importlib.metadata as m\n"
                "print(gaslab.__version__, m.version('gaslab'), gaslab.__file__)")
        version, installed, place = self.run_there(self.python, "-c", text).split()
        self.assertEqual((version, installed), 2 * (gaslab.__version__,))
        self.assertTrue(place.startswith(str(self.room / "venv")), place)
        for name in ("py.typed", "page/static/index.html", "page/static/lessons.json"):
            self.assertTrue(Path(place).parent.joinpath(name).exists(), name)

    def test_command(self):
        command = self.python.with_name("gaslab-client")
        self.assertIn("usage: gaslab-client", self.run_there(command, "--help"))
        self.assertEqual(self.run_there(command, "--version"), f"gaslab-client {gaslab.__version__}\n")
        self.assertEqual(len(self.run_there(command, "random", "--seed", "1").splitlines()), 64)

    def test_a_first_script(self):
        """The tunnel with its obstacle outlined, the drag, and a GIF."""
        self.assertEqual(len(FIRST.strip().splitlines()), 7)
        shutil.copy(ROOT / "examples" / "4_tunnel.txt", self.empty)
        self.run_there(self.python, "-c", FIRST)
        seen = read(self.empty / "tunnel.png")
        line = seen.cells(gaslab.palette.DENSITIES[gaslab.palette.OBSTACLE])
        self.assertEqual((min(line), max(line)), ((285, 285), (322, 322)))
        self.assertIn("d_obstacles_x", (self.empty / "drag.svg").read_text())
        self.assertEqual(len(read(self.empty / "tunnel.gif").frames), 3)


class WithoutALibrary(unittest.TestCase):
    def said(self, missing, text):
        """What a script says, where these modules can't be imported."""
        block = f"import sys\nfor name in {missing!r}:\n    sys.modules[name] = None\n"
        return subprocess.run([sys.executable, "-c", block + text], cwd=CLIENT, text=True,
                              stdout=subprocess.PIPE, stderr=subprocess.PIPE)

    def test_the_protocol_needs_numpy_alone(self):
        text = ("from gaslab import *\n"
                f"with Lab.run(program={str(STAND_IN)!r}) as lab:\n"
                "    lab.do('put 0 0 1 1'); lab.set(walls=lab.particles()); print(lab.look().count)\n"
                "    print(type(every(lab, 1, 1)).__name__, velocity(lab).density.sum() * 64)\n")
        done = self.said(("PIL", "matplotlib", "pandas", "aiohttp"), text)
        self.assertEqual((done.stdout, done.stderr), ("1\nrecarray 1.0\n", ""))

    def test_the_protocol_imports_nothing_else(self):
        text = ("import gaslab.protocol, gaslab.snapshot, gaslab.lab\n"
                "print([name for name in ('PIL', 'matplotlib', 'pandas', 'aiohttp') "
                "if name in sys.modules])\n")
        self.assertEqual(self.said((), "import sys\n" + text).stdout, "[]\n")

    def test_the_debian_package_and_the_pip_line_are_named(self):
        for name, text, package, debian in (
                ("PIL", "picture(Snapshot(64, 64))", "Pillow", "python3-pil"),
                ("matplotlib", "chart(Table, 'it.svg', 'x', 'x')", "matplotlib",
                 "python3-matplotlib"),
                ("aiohttp", "from gaslab.page.web import Web; Web(None)", "aiohttp", "python3-aiohttp"),
                ("numpy", "", "numpy", "python3-numpy")):
            text = text.replace("Table", "__import__('numpy').rec.fromarrays([[1]], names='x')")
            done = self.said((name,), f"from gaslab import *\n{text}\n")
            self.assertEqual(done.returncode, 1)
            self.assertTrue(done.stderr.rstrip().endswith(
                f"{package} is not installed for this Python: apt-get install {debian}, or pip "
                f"install {package}"), done.stderr)

    def test_the_command_says_it_in_a_line(self):
        for name, words in (("PIL", ["draw", "-o", "it.png", "tests/start.gas"]),
                            ("numpy", ["draw"])):
            run = ("import runpy\nsys.argv = ['clients/python', *{!r}]\n"
                   "runpy.run_path('.', run_name='__main__')\n").format(words)
            done = self.said((name,), run)
            self.assertEqual(done.returncode, 1)
            self.assertRegex(done.stderr, r"^gaslab[a-z ]*: [A-Za-z]+ is not installed [^\n]+\n$")
