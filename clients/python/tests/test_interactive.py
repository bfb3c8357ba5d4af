"""What a person sees who works with the package: help, completion, pictures in a notebook, and types."""
import ast
import importlib.util
import inspect
import os
import re
import shutil
import subprocess
import sys
import tempfile
import unittest
from pathlib import Path
from types import FunctionType

from gaslab import Lab
from gaslab.protocol.commands import COMMANDS

from .test_lab import STAND_IN

CLIENT = Path(__file__).resolve().parents[1]
SHELL = """
import sys
sys.path.insert(0, {client!r})
from IPython.core.completer import provisionalcompleter
from IPython.core.interactiveshell import InteractiveShell
shell = InteractiveShell.instance()
shell.Completer.use_jedi = True
from gaslab import Lab, Snapshot
shell.user_ns["lab"] = lab = Lab.run(program={program!r})
for shown in (lab, lab.look()):
    print(shell.display_formatter.format(shown)[0]["image/png"][:8])
for text in ("lab.probe(0, 0, 4, 4).", "lab.ledger().", "lab.look()."):
    with provisionalcompleter():
        print(text, *(it.text for it in shell.Completer.completions(text, len(text))))
"""
LAYERS = "protocol", "snapshot", "lab", "measure", "pictures", "page", "cli"


class Help(unittest.TestCase):
    def test_each_command_says_its_numbers_what_it_returns_and_what_it_raises(self):
        for word, command in COMMANDS.items():
            method = getattr(Lab, word)
            names = list(inspect.signature(method).parameters)[1:]
            self.assertEqual(names, [{"HEX": "cells"}.get(name, name) for name in command.words.split()])
            if word == "quit":
                continue
            text = " ".join(method.__doc__.split())
            self.assertIn("Returns ", text, word)
            for name in names:
                self.assertRegex(text, rf"\b{name}(, [a-z])*: ", f"{word} {name}")
            for number in set(command.refusals) - {13}:
                self.assertRegex(text, rf"Raises `(Value|Refused).*\({number}\)", f"{word} {number}")

    def test_all_that_is_public_is_annotated(self):
        import gaslab
        for name in gaslab.__all__:
            it = getattr(gaslab, name)
            calls = [getattr(it, each) for each, kind in vars(it).items()
                     if not each.startswith("_") and isinstance(kind, (FunctionType, classmethod))] \
                if inspect.isclass(it) else [it] if isinstance(it, FunctionType) else []
            for call in calls:
                hints = inspect.signature(call)
                self.assertIsNot(hints.return_annotation, inspect.Signature.empty, (name, call))
                for parameter in hints.parameters.values():
                    if parameter.name not in ("self", "cls"):
                        self.assertIsNot(parameter.annotation, inspect.Parameter.empty, (name, call))


@unittest.skipUnless(importlib.util.find_spec("IPython") and importlib.util.find_spec("jedi"),
                     "IPython or jedi is not installed")
class InIPython(unittest.TestCase):
    def test_pictures_and_completion(self):
        text = SHELL.format(client=str(CLIENT), program=str(STAND_IN))
        done = subprocess.run([sys.executable, "-c", text], stdout=subprocess.PIPE, text=True, check=True)
        *pictures, probe, ledger, look = done.stdout.splitlines()
        self.assertEqual(pictures, 2 * [str(b"\x89PNG\r\n\x1a\n")])
        for told, names in ((probe, "count px py"), (ledger, "obstacles_x drained"),
                            (look, "particles walls tick write")):
            self.assertLessEqual(set(names.split()), set(told.split()), told)


TYPED = """
from gaslab import Lab, every, velocity
lab = Lab.run()
reveal_type(lab.probe(0, 0, 4, 4).count)
reveal_type(lab.look().particles)
reveal_type(velocity(lab).px)
lab.probe("a", 2)
lab.wall(0, 0, 1.5, 1)
every(lab, "20", 3)
"""


@unittest.skipUnless(shutil.which("mypy"), "mypy is not installed")
class Types(unittest.TestCase):
    def test_what_a_checker_sees(self):
        """Replies and arrays have their types, and wrong arguments are errors."""
        with tempfile.TemporaryDirectory() as room:
            Path(room, "it.py").write_text(TYPED)
            done = subprocess.run(["mypy", "--strict", "--cache-dir=/dev/null", "it.py"], cwd=room, text=True,
                                  env={**os.environ, "MYPYPATH": str(CLIENT)}, stdout=subprocess.PIPE)
        told = done.stdout.splitlines()
        for line, what in ((4, '"builtins.int"'), (5, r'"numpy.ndarray\[.*numpy.bool_'),
                           (6, r'"numpy.ndarray\[.*numpy.floating'), (7, 'incompatible type "str"'),
                           (7, "Missing positional arguments"), (8, 'incompatible type "float"'),
                           (9, 'incompatible type "str"')):
            self.assertTrue(any(re.match(f"it.py:{line}: .*{what}", it) for it in told), (line, what, told))


class Imports(unittest.TestCase):
    def test_none_is_in_a_function_or_goes_upwards(self):
        """Not of ours, that is: some functions import a module that not each system has."""
        for path in sorted((CLIENT / "gaslab").rglob("*.py")):
            tree, layer = ast.parse(path.read_text()), path.relative_to(CLIENT / "gaslab").parts[0]
            functions = (it for it in ast.walk(tree) if isinstance(it, ast.FunctionDef))
            for it in (it for function in functions for it in ast.walk(function)):
                is_ours = isinstance(it, ast.ImportFrom) and it.level > 0
                self.assertFalse(is_ours, f"{path}:{getattr(it, 'lineno', 0)}")
            for it in ast.walk(tree):
                if isinstance(it, ast.ImportFrom) and it.level == 2 and layer in LAYERS:
                    other = it.module.partition(".")[0]
                    self.assertLess(LAYERS.index(other), LAYERS.index(layer), f"{path}:{it.lineno}")

    def test_no_name_is_in_two_modules(self):
        found = {}
        for path in sorted((CLIENT / "gaslab").rglob("*.py")):
            for it in ast.parse(path.read_text()).body:
                if isinstance(it, (ast.FunctionDef, ast.ClassDef)) and not it.name.startswith("_"):
                    self.assertEqual(found.setdefault(it.name, path), path, it.name)
