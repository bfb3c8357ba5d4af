"""What is built from this folder: a wheel, a wheel with a program in it, and the sources."""
import email
import importlib.util
import os
import shutil
import stat
import subprocess
import sys
import tarfile
import tempfile
import unittest
import zipfile
from pathlib import Path
from unittest import mock

import gaslab
from gaslab import lesson
from gaslab.protocol import programs

from .test_lab import ROOT

CLIENT = ROOT / "clients" / "python"
EXAMPLES = ROOT / "examples"
HAS_WHEEL = all(importlib.util.find_spec(it) for it in ("pip", "setuptools", "venv", "wheel"))
SCRIPT = '#!/bin/sh\necho "$0" "$@"\n'
LINE = "import sys, setuptools.build_meta as it; it.build_{}(sys.argv[1])"


def copied(room):
    """A copy of this folder beside the lessons, without what others built there."""
    source = Path(room, "clients", "python")
    shutil.copytree(EXAMPLES, Path(room, "examples"))
    shutil.copytree(CLIENT, source, ignore=shutil.ignore_patterns("build", "*.egg-info", "__pycache__"))
    return source


def built(kind, source, room, **environment):
    """The one file that was built, in a new folder."""
    to = Path(tempfile.mkdtemp(dir=room))
    done = subprocess.run([sys.executable, "-c", LINE.format(kind), str(to)], cwd=source, text=True,
                          stdout=subprocess.PIPE, stderr=subprocess.STDOUT,
                          env={**os.environ, **environment})
    assert done.returncode == 0, done.stdout
    path, = to.iterdir()
    return path


def metadata(wheel):
    name, = (it for it in wheel.namelist() if it.endswith(".dist-info/METADATA"))
    return email.message_from_bytes(wheel.read(name))


@unittest.skipUnless(HAS_WHEEL, "pip, setuptools or wheel is not installed")
class OfTheClient(unittest.TestCase):
    """Without a program there is a wheel for any system."""
    @classmethod
    def setUpClass(cls):
        room = tempfile.TemporaryDirectory()
        cls.addClassCleanup(room.cleanup)
        cls.source = copied(room.name)
        for licence in ("LICENSE-MIT", "LICENSE-APACHE", "NOTICE"):
            cls.source.joinpath(licence).write_text(licence)
        cls.path = built("wheel", cls.source, room.name)
        cls.wheel = zipfile.ZipFile(cls.path)
        cls.addClassCleanup(cls.wheel.close)
        cls.told = metadata(cls.wheel)
        cls.names = set(cls.wheel.namelist())
        with tarfile.open(built("sdist", cls.source, room.name)) as sources:
            cls.sources = {it.partition("/")[2] for it in sources.getnames()}

    def test_it_is_for_any_system(self):
        self.assertEqual(self.path.name, f"gaslab-{gaslab.__version__}-py3-none-any.whl")
        self.assertFalse([it for it in self.names if "/scripts/" in it or "/program/" in it])

    def test_numpy_alone_is_needed(self):
        needs = [it.replace(" ", "").replace("(", "").replace(")", "").split(";")
                 for it in self.told.get_all("Requires-Dist")]
        self.assertEqual([it for it, *when in needs if not when], ["numpy>=1.20"])
        self.assertEqual(sorted(self.told.get_all("Provides-Extra")),
                         ["all", "notebook", "page", "pictures", "tables"])
        named = {it.partition(">=")[0] for it, *when in needs if when and not it.startswith("gaslab[")}
        self.assertEqual(named, {"Pillow", "matplotlib", "aiohttp", "pandas", "ipykernel"})

    def test_licence(self):
        self.assertEqual(self.told["License"], "MIT OR Apache-2.0")
        for licence in ("LICENSE-MIT", "LICENSE-APACHE", "NOTICE"):
            found = [self.wheel.read(it) for it in self.names if it.endswith("/" + licence)]
            self.assertEqual(found, [licence.encode()])

    def test_a_build_leaves_no_folder(self):
        self.assertFalse(self.source.joinpath("build").exists())

    def test_lessons_and_the_page_are_in_it(self):
        lessons = {str(it.relative_to(EXAMPLES)) for it in EXAMPLES.rglob("*") if it.is_file()}
        page = {it.name for it in (CLIENT / "gaslab" / "page" / "static").iterdir()}
        for folder, files in (("lessons", lessons), ("page/static", page)):
            found = {it.partition(f"gaslab/{folder}/")[2] for it in self.names}
            self.assertEqual(found - {""}, files)

    def test_tests_are_with_the_sources_alone(self):
        tests = {f"tests/{it.name}" for it in (CLIENT / "tests").iterdir() if it.is_file()}
        more = {"lesson.ipynb", "bin/gaslab", "pictures/tunnel.png", "setup.cfg", "__main__.py"}
        lessons = {f"gaslab/lessons/{it.relative_to(EXAMPLES)}" for it in EXAMPLES.rglob("*") if it.is_file()}
        self.assertEqual((tests | more | lessons) - self.sources, set())
        self.assertFalse([it for it in self.names if "tests/" in it])


@unittest.skipUnless(HAS_WHEEL, "pip, setuptools or wheel is not installed")
class WithAProgram(unittest.TestCase):
    """A script stands for the program, and says what it was called with."""
    @classmethod
    def setUpClass(cls):
        room = tempfile.TemporaryDirectory()
        cls.addClassCleanup(room.cleanup)
        cls.room, source = Path(room.name), copied(room.name)
        lib = source / "gaslab" / "program" / "lib"
        lib.mkdir(parents=True)
        for script in (lib / "gaslab_program", lib.parent / "gaslab"):
            script.write_text(SCRIPT)
            script.chmod(0o755)
        lib.with_name("platform").write_text("manylinux_2_17_x86_64\n")
        cls.paths = [built("wheel", source, cls.room, SOURCE_DATE_EPOCH="946684800") for _ in range(2)]

    def test_it_is_for_one_system(self):
        name = f"gaslab-{gaslab.__version__}-py3-none-manylinux_2_17_x86_64.whl"
        self.assertEqual([it.name for it in self.paths], [name, name])
        with zipfile.ZipFile(self.paths[0]) as wheel:
            modes = {it.filename: stat.S_IMODE(it.external_attr >> 16) for it in wheel.infolist()}
            told, = (wheel.read(it).decode() for it in modes if it.endswith("/WHEEL"))
        self.assertIn("Root-Is-Purelib: false\n", told)
        self.assertEqual(modes["gaslab/program/lib/gaslab_program"], 0o755)

    def test_the_same_files_give_the_same_bytes(self):
        self.assertEqual(*(it.read_bytes() for it in self.paths))

    def test_installed_it_has_both_commands_and_finds_its_program(self):
        venv = self.room / "venv"
        subprocess.run([sys.executable, "-m", "venv", "--system-site-packages", "--without-pip", venv],
                       check=True)
        subprocess.run([venv / "bin" / "python", "-m", "pip", "install", "--quiet", "--no-index",
                        self.paths[0]], check=True)
        environment = {"PATH": "/usr/bin:/bin"}

        def said(*words):
            return subprocess.run(words, cwd=self.room, env=environment, text=True, check=True,
                                  stdout=subprocess.PIPE).stdout
        place, = venv.glob("lib/python3*/site-packages/gaslab")
        self.assertEqual(said(venv / "bin" / "gaslab", "run", "--cap", "a b"),
                         f"{place}/program/gaslab run --cap a b\n")
        self.assertEqual(said(venv / "bin" / "gaslab-client", "--version"),
                         f"gaslab-client {gaslab.__version__}\n")
        line = "from gaslab.protocol.programs import find_program as it; print(it())"
        self.assertEqual(said(venv / "bin" / "python", "-c", line),
                         f"{place}/program/lib/gaslab_program\n")


class TheOrder(unittest.TestCase):
    """Which program is started, where several could be."""
    def setUp(self):
        room = tempfile.TemporaryDirectory()
        self.addCleanup(room.cleanup)
        self.room = Path(room.name)
        for name in ("given", "named", "wheel", "repository/gaslab", "path/gaslab"):
            program = self.room / name
            program.parent.mkdir(exist_ok=True)
            program.write_text("#!/bin/sh\n")
            program.chmod(0o755)

    def found(self, *there, program=None, named=None):
        """The name of the program that is found, if these are there."""
        environment = {"PATH": str(self.room / "path") if "path" in there else "/usr/bin:/bin"}
        if named:
            environment["GASLAB_PROGRAM"] = str(self.room / named)
        wheel = self.room / ("wheel" if "wheel" in there else "nothing")
        root = self.room / ("repository" if "repository" in there else "nothing")
        with mock.patch.dict(os.environ, environment, clear=True), \
                mock.patch.object(programs, "WHEEL_PROGRAM", wheel), \
                mock.patch.object(programs, "_ROOT", root):
            return str(programs.find_program(program and self.room / program).relative_to(self.room))

    def test_what_is_named_comes_before_what_is_found(self):
        everywhere = ("wheel", "repository", "path")
        self.assertEqual(self.found(*everywhere, program="given", named="named"), "given")
        self.assertEqual(self.found(*everywhere, named="named"), "named")

    def test_the_wheel_comes_first_then_the_repository_then_the_path(self):
        self.assertEqual(self.found("wheel", "repository", "path"), "wheel")
        self.assertEqual(self.found("repository", "path"), "repository/gaslab")
        self.assertEqual(self.found("path"), "path/gaslab")
        with self.assertRaises(gaslab.Unreachable):
            self.found()


class Lessons(unittest.TestCase):
    def test_a_lesson_is_its_script(self):
        self.assertEqual(lesson("4_tunnel").read_bytes(), (EXAMPLES / "4_tunnel.txt").read_bytes())
        self.assertTrue(lesson("4_tunnel").with_suffix(".out").exists())

    def test_another_name_is_told_which_there_are(self):
        for name in ("tunnel", "", "../lessons/4_tunnel", "4_tunnel.txt"):
            with self.assertRaisesRegex(ValueError, "no lesson .* there are 1_one_particle, .*4_tunnel, "):
                lesson(name)
