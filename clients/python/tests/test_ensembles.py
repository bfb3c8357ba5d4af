"""Many gases that are measured: means and errors of numbers that are known, faults, and Ctrl-C."""
import math
import os
import signal
import subprocess
import sys
import threading
import time
import unittest
from pathlib import Path

from gaslab import Lab, SeedFault, Unreachable, ensemble, every, random_gas
from gaslab.measure.tables import columns_of, table_of

from .test_lab import ROOT, STAND_IN
from .test_measure import rows_of

OPTIONS = {"program": STAND_IN}
# A program of its own, which is stopped by Ctrl-C while each of its laboratories steps.
STOPPED = """
import signal, sys
from gaslab import ensemble
signal.signal(signal.SIGINT, signal.default_int_handler)
def f(lab, seed):
    print("begun\\n", end="", flush=True)  # in one write, so that no other comes between
    while True:
        lab.step(4096)
try:
    ensemble(f, 4, workers=2, program=sys.argv[1])
except KeyboardInterrupt:
    print("stopped", flush=True)
"""


class Means(unittest.TestCase):
    def test_a_number(self):
        """1, 2, 3, 4: the mean is 2.5, the variance 5/3, and the error the root of 5/12."""
        table = ensemble(lambda lab, seed: seed, 4, **OPTIONS)
        self.assertEqual(columns_of(table), ["value", "value_error"])
        (mean, error), = rows_of(table)
        self.assertEqual(mean, 2.5)
        self.assertAlmostEqual(error, math.sqrt(5 / 12))

    def test_numbers_by_their_names(self):
        """Each run has a laboratory of its own, and of the size that was asked for."""
        def f(lab, seed):
            lab.put(0, 0, seed, 1)
            return {"count": lab.tally().count, "width": lab.size[0]}
        table = ensemble(f, [3, 5], width=128, **OPTIONS)
        self.assertEqual(columns_of(table), ["count", "count_error", "width", "width_error"])
        self.assertEqual(rows_of(table), [(4, 1, 128, 0)])

    def test_tables(self):
        def f(lab, seed):
            return table_of(("tick", "n"), [(10, seed), (20, 2 * seed)])
        table = ensemble(f, [1, 3], **OPTIONS)
        self.assertEqual(columns_of(table), ["tick", "n", "n_error"])
        self.assertEqual(rows_of(table), [(10, 2, 1), (20, 4, 2)])

    def test_a_measurement_over_time(self):
        """The count stays, and is the mean of the gases' own counts."""
        gases = {seed: list(random_gas(64, 64, 0.3, seed=seed)) for seed in (1, 2, 3)}
        counts = [sum(bin(int(line.split()[2], 16)).count("1") for line in gas) for gas in gases.values()]

        def f(lab, seed):
            lab.do(gases[seed])
            return every(lab, 2, times=2, columns=["tick", "count"])
        table = ensemble(f, 3, **OPTIONS)
        self.assertEqual(table["tick"].tolist(), [2, 4])
        for mean in table["count"].tolist():
            self.assertAlmostEqual(mean, sum(counts) / 3)

    def test_so_many_at_a_time(self):
        lock, now, most = threading.Lock(), [0], [0]

        def f(lab, seed):
            with lock:
                now[0] += 1
                most[0] = max(most[0], now[0])
            time.sleep(0.2)
            with lock:
                now[0] -= 1
            return 0
        ensemble(f, 6, workers=2, **OPTIONS)
        self.assertEqual((now[0], most[0]), (0, 2))

    def test_progress(self):
        told = []
        ensemble(lambda lab, seed: 0, 3, progress=lambda done, total: told.append((done, total)), **OPTIONS)
        self.assertEqual(told[-1], (3, 3))
        self.assertEqual(told, sorted(told))


class Faults(unittest.TestCase):
    def test_an_exception_is_named_by_its_seed(self):
        with self.assertRaisesRegex(SeedFault, "^seed 3: ZeroDivisionError: division by zero$") as caught:
            ensemble(lambda lab, seed: 1 / (seed - 3), 4, **OPTIONS)
        self.assertEqual(caught.exception.seed, 3)
        self.assertIsInstance(caught.exception.__cause__, ZeroDivisionError)

    def test_a_refusal_too(self):
        with self.assertRaisesRegex(SeedFault, "^seed 7: Refused: ERR 6 steps"):
            ensemble(lambda lab, seed: lab.step(0 if seed == 7 else 1).index, [6, 7], **OPTIONS)

    def test_without_a_program(self):
        with self.assertRaises(SeedFault) as caught:
            ensemble(lambda lab, seed: 0, 2, program="/no/program")
        self.assertIsInstance(caught.exception.__cause__, Unreachable)

    def test_one_exception_ends_the_others(self):
        """The other run would step for good: its program is ended, and it gets an exception."""
        ended, is_stepping = [], threading.Event()

        def f(lab, seed):
            if seed == 1:
                is_stepping.wait(30)
                raise KeyError("one")
            is_stepping.set()
            try:
                while True:
                    lab.tally()
            except Exception as fault:
                ended.append(type(fault).__name__)
                raise
        with self.assertRaisesRegex(SeedFault, "^seed 1: KeyError"):
            ensemble(f, 2, workers=2, **OPTIONS)
        self.assertEqual(ended, ["Gone"])

    def test_ctrl_c_ends_all_programs(self):
        environment = {**os.environ, "PYTHONPATH": str(ROOT / "clients" / "python")}
        with subprocess.Popen([sys.executable, "-c", STOPPED, str(STAND_IN)], stdout=subprocess.PIPE,
                              text=True, env=environment) as stopped:
            self.assertEqual([stopped.stdout.readline() for _ in range(2)], 2 * ["begun\n"])
            children = Path(f"/proc/{stopped.pid}/task/{stopped.pid}/children")
            threads = Path(f"/proc/{stopped.pid}/task").iterdir()
            programs = [int(it) for thread in threads for it in (thread / "children").read_text().split()]
            self.assertTrue(children.exists())
            self.assertEqual(len(programs), 2)
            began = time.monotonic()
            stopped.send_signal(signal.SIGINT)
            self.assertEqual(stopped.communicate(timeout=30)[0], "stopped\n")
        self.assertLess(time.monotonic() - began, 10)
        self.assertEqual([it for it in programs if Path(f"/proc/{it}").exists()], [])

    def test_wrong_wishes(self):
        for seeds in (1, 0, [5], [], [1, 2, 1]):
            with self.assertRaisesRegex(ValueError, "at least two seeds, each once"):
                ensemble(lambda lab, seed: 0, seeds, **OPTIONS)
        with self.assertRaisesRegex(ValueError, "workers is 1 to"):
            ensemble(lambda lab, seed: 0, 2, workers=0, **OPTIONS)
        self.assertRaises(TypeError, ensemble, lambda lab, seed: 0, [1, 1.5], **OPTIONS)

    def test_a_name_of_a_standard_error_is_not_a_name_of_a_mean(self):
        with self.assertRaisesRegex(ValueError, "a_error is the standard error of a: no run returns it"):
            ensemble(lambda lab, seed: {"a_error": 5, "a": seed}, 2, **OPTIONS)

    def test_runs_that_cannot_be_compared(self):
        for f, what in (
                (lambda lab, seed: {str(seed): 0}, "seeds 1 and 2 returned other columns"),
                (lambda lab, seed: [0] * seed, "seeds 1 and 2 returned other columns"),
                (lambda lab, seed: {"tick": seed, "n": 0}, "tick is not the same in all runs"),
                (lambda lab, seed: math.nan, "seed 1: value has a value that is no finite number"),
                (lambda lab, seed: "drag", "seed 1: value has a value that is no finite number"),
                (lambda lab, seed: None, "seed 1: value has a value that is no finite number"),
                (lambda lab, seed: [[1, 2]], "seed 1: a run returns a number"),
                (lambda lab, seed: {"a": 1, "b": [1, 2]}, "seed 1: a run returns a number")):
            with self.assertRaisesRegex(ValueError, what):
                ensemble(f, 2, **OPTIONS)


class Killed(unittest.TestCase):
    def test_a_lab_that_was_killed_is_closed_without_a_wait(self):
        lab = Lab.run(**OPTIONS)
        began = time.monotonic()
        lab.kill()
        lab.close()
        self.assertLess(time.monotonic() - began, 5)
