"""How far a long call is: who is told, when, and that nothing is left."""
import io
import os
import sys
import tempfile
import time
import types
import unittest
from unittest import mock

from gaslab import ensemble, every, film, record, truth_table
from gaslab.lab import progress
from gaslab.lab.progress import Told
from gaslab.protocol.scripts import parse_script

from .test_lab import STAND_IN, run


class Terminal(io.StringIO):
    def isatty(self):
        return True


class ToPeople(unittest.TestCase):
    def shown(self, stream, waits, told=None):
        """What a call of so many parts writes to a stream, with waits in seconds before each part."""
        clock = [100.0]
        with mock.patch.object(sys, "stderr", stream), \
                mock.patch.object(time, "monotonic", lambda: clock[0]), \
                Told("film", len(waits), told) as tell:
            for done, wait in enumerate(waits, 1):
                clock[0] += wait
                tell(done)
        return stream.getvalue()

    def test_a_short_call_says_nothing(self):
        self.assertEqual(self.shown(Terminal(), [0.3, 0.3, 0.3]), "")

    def test_a_long_call_is_told_in_a_line_that_is_wiped(self):
        self.assertEqual(self.shown(Terminal(), [0.6, 0.6, 1.0]),
                         "\rfilm: 2 of 3, 1 s\rfilm: 3 of 3, 2 s\r                 \r")

    def test_texts_are_not_more_than_ten_a_second(self):
        self.assertEqual(self.shown(Terminal(), [1.0] + 19 * [0.01]).count("film"), 2)

    def test_a_total_that_is_not_known(self):
        stream = Terminal()
        with mock.patch.object(sys, "stderr", stream), mock.patch.object(progress, "_PATIENCE", 0.0), \
                Told("lines", 0) as tell:
            tell(7)
        self.assertTrue(stream.getvalue().startswith("\rlines: 7, 0 s\r"), stream.getvalue())

    def test_nobody_sees_a_file(self):
        self.assertEqual(self.shown(io.StringIO(), [5.0, 5.0]), "")

    def test_false_tells_nobody(self):
        self.assertEqual(self.shown(Terminal(), [5.0, 5.0], told=False), "")

    def test_a_line_is_wiped_after_a_fault(self):
        stream = Terminal()
        with mock.patch.object(sys, "stderr", stream), mock.patch.object(progress, "_PATIENCE", 0.0):
            with self.assertRaises(KeyError), Told("film", 2) as tell:
                tell(1)
                raise KeyError
        self.assertTrue(stream.getvalue().endswith(" \r"))

    def test_in_a_notebook_it_is_an_output_that_is_emptied(self):
        shown = []
        handle = types.SimpleNamespace(update=lambda text, raw: shown.append(text["text/plain"]))
        notebook = types.SimpleNamespace(
            get_ipython=lambda: types.SimpleNamespace(kernel=1),
            display=types.SimpleNamespace(display=lambda text, raw, display_id: handle))
        stream = Terminal()
        with mock.patch.dict(sys.modules, {"IPython": notebook}):
            self.assertEqual(self.shown(stream, [1.5, 1.0]), "")
        self.assertEqual(shown, ["film: 1 of 2, 2 s", "film: 2 of 2, 2 s", ""])

    def test_a_call_within_another_is_silent(self):
        stream = Terminal()
        with mock.patch.object(sys, "stderr", stream), mock.patch.object(progress, "_PATIENCE", 0.0):
            with Told("film", 2) as tell, Told("steps", 9) as inner:
                inner(1)
                self.assertEqual(stream.getvalue(), "")
                tell(1)
                self.assertIn("film: 1 of 2", stream.getvalue())
            with Told("steps", 9) as inner:
                inner(1)
        self.assertIn("steps: 1 of 9", stream.getvalue())


class LongCalls(unittest.TestCase):
    """Each call that can take over a second says how far it is, if a person sees it."""
    def told_by(self, call):
        stream = Terminal()
        with run() as lab, mock.patch.object(progress, "_PATIENCE", 0.0), \
                mock.patch.object(progress, "_PAUSE", 0.0), mock.patch.object(sys, "stderr", stream):
            call(lab)
        return [text.rpartition(",")[0] for text in stream.getvalue().split("\r") if text.strip()]

    def test_each(self):
        script = parse_script("tally\nrepeat 2 { put 0 0 1 1 }")
        for call, wanted in (
                (lambda lab: lab.advance(5, each=2), ["steps: 2 of 5", "steps: 4 of 5", "steps: 5 of 5"]),
                (lambda lab: lab.do(["tally", "tally"]), ["lines: 1 of 2", "lines: 2 of 2"]),
                (lambda lab: lab.do(iter(["tally", "tally"])), ["lines: 1", "lines: 2"]),
                (lambda lab: lab.play(script), ["script: 1 of 3", "script: 2 of 3", "script: 3 of 3"]),
                (lambda lab: every(lab, 1, times=2), ["every: 1 of 2", "every: 2 of 2"]),
                (lambda lab: record(lab, 1, times=1), ["record: 1 of 2", "record: 2 of 2"]),
                (lambda lab: ensemble(lambda lab, seed: 0, 2, workers=1, program=STAND_IN)["value"],
                 ["ensemble: 2 of 2"]),
                (lambda lab: truth_table("step 1", {"A": (0, 0)}, {"B": (1, 1)}, program=STAND_IN),
                 ["truth table: 1 of 2", "truth table: 2 of 2"])):
            told = self.told_by(call)
            self.assertEqual(told[-1:] if wanted[0].startswith("ensemble") else told, wanted)

    def test_a_film(self):
        with tempfile.TemporaryDirectory() as room:
            told = self.told_by(lambda lab: film(lab, os.path.join(room, "it.gif"), 1, 2))
        self.assertEqual(told, ["film: 1 of 2", "film: 2 of 2"])


class ToAFunction(unittest.TestCase):
    def test_each_part_is_told(self):
        told = []
        with Told("film", 3, lambda done, total: told.append((done, total))) as tell:
            for done in (1, 2, 3):
                tell(done)
        self.assertEqual(told, [(1, 3), (2, 3), (3, 3)])

    def test_a_wait_is_no_part(self):
        told = []
        with Told("ensemble", 2, lambda done, total: told.append(done)) as tell:
            for done in (0, 0, 1, 1, 2):
                tell(done)
        self.assertEqual(told, [1, 2])
