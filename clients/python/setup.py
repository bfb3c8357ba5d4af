"""What pyproject.toml can't say: a build leaves no folder here, brings the lessons, and can have the program.

The lessons are the repository's `examples`, which are copied as gaslab/lessons/. What is built from the
sources that pip builds from has them there already.

`./gaslab --package` puts the program into a copy of this folder, as gaslab/program/. The file `platform`
there has the tag of the systems on which it runs. The wheel is then for these, and has the command `gaslab`.
"""
import atexit
import shutil
import tempfile
from pathlib import Path

from setuptools import Distribution, setup
from setuptools.command.build_py import build_py
from setuptools.command.sdist import sdist

EXAMPLES = Path(__file__).resolve().parents[2] / "examples"
PLATFORM = Path(__file__).parent / "gaslab" / "program" / "platform"


class WithProgram(Distribution):
    def has_ext_modules(self):
        return True


def copy_lessons(folder):
    """Copies the lessons into a folder that has the package, if they are beside this one."""
    if EXAMPLES.is_dir():
        shutil.copytree(EXAMPLES, Path(folder, "gaslab", "lessons"), dirs_exist_ok=True)


class WithLessons(build_py):
    def run(self):
        super().run()
        copy_lessons(self.build_lib)


class SourcesWithLessons(sdist):
    def make_release_tree(self, base_dir, files):
        super().make_release_tree(base_dir, files)
        copy_lessons(base_dir)


def wheel_for(platform):
    """The command that makes a wheel for one platform and any Python 3."""
    try:
        from setuptools.command.bdist_wheel import bdist_wheel
    except ImportError:  # setuptools before 70.1
        from wheel.bdist_wheel import bdist_wheel

    class Wheel(bdist_wheel):
        def get_tag(self):
            return "py3", "none", platform

    return Wheel


room = tempfile.mkdtemp()
atexit.register(shutil.rmtree, room, ignore_errors=True)
commands, own = {"build_py": WithLessons, "sdist": SourcesWithLessons}, {}
if PLATFORM.exists():
    commands["bdist_wheel"] = wheel_for(PLATFORM.read_text().strip())
    own = {"distclass": WithProgram, "scripts": ["bin/gaslab"]}
setup(options={"build": {"build_base": room}}, cmdclass=commands, **own)
