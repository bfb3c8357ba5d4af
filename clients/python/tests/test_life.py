"""How labs begin and end: those that nobody holds, those of two threads, and those with a full journal."""
import gc
import os
import subprocess
import sys
import tempfile
import threading
import time
import unittest
from pathlib import Path

from gaslab import Gone, Refused

from .fake import Fake, typical
from .test_lab import joined, run

CLIENT = Path(__file__).resolve().parents[1]
CELLS = """
import sys, warnings
sys.path.insert(0, {client!r})
from pathlib import Path
from gaslab import Lab
warnings.simplefilter("error")
for _ in range({count}):
    lab = Lab.run(program={program!r})
    lab.put(0, 0, 1, 1)
children = Path("/proc/self/task", str(__import__("os").getpid()), "children").read_text().split()
print(len(children), lab.tally().count)
"""


class NobodyHolds(unittest.TestCase):
    def test_a_lab_that_is_let_go_ends_its_process(self):
        for use in (lambda lab: None, lambda lab: lab.send(["tally"] * 3), lambda lab: lab.journal(),
                    lambda lab: self.assertRaises(Refused, lab.step, 0)):
            lab = run()
            use(lab)
            pid = lab._session.door.process.pid
            gc.disable()  # it goes at once, and not only when cycles are looked for
            del lab
            gc.enable()
            self.assertRaises(ProcessLookupError, os.kill, pid, 0)

    def test_cells_that_are_run_again_leave_no_child_and_no_warning(self):
        """A hundred labs by one name, of which the last is left; warnings are errors there."""
        text = CELLS.format(client=str(CLIENT), count=100, program=str(self.program()))
        done = subprocess.run([sys.executable, "-W", "error", "-c", text], stdout=subprocess.PIPE,
                              stderr=subprocess.PIPE, text=True)
        self.assertEqual((done.stdout, done.stderr, done.returncode), ("1 1\n", "", 0))

    def program(self):
        """A program that starts at once, and answers each `tally` and `put`."""
        room = tempfile.TemporaryDirectory()
        self.addCleanup(room.cleanup)
        path = Path(room.name, "program")
        path.write_text("#!/bin/sh\nwhile read word rest; do case $word in\n"
                        "put) echo OK 0 ;; quit) echo BYE ;; *) echo TALLY 0 1 1 1 ;; esac; done\n")
        path.chmod(0o755)
        return path

    def test_replies_keep_what_answers_them(self):
        replies = run().send(["put 0 0 1 1", "tally"])
        self.assertEqual([type(it).__name__ for it in replies], ["Ok", "Tally"])

    def test_a_socket_that_nobody_holds_is_closed(self):
        with Fake() as fake:
            lab = joined(fake)
            socket_number = lab._session.door.link._source
            del lab
            self.assertRaises(OSError, os.fstat, socket_number)


class TwoThreads(unittest.TestCase):
    def test_the_second_is_told_in_a_sentence(self):
        def answer(line):
            time.sleep(1 if line == "step 7" else 0)
            return typical(line)
        with Fake(answer) as fake, joined(fake) as lab:
            thread = threading.Thread(target=lab.step, args=(7,))
            thread.start()
            while "step 7" not in fake.lines:
                time.sleep(0.01)
            for call in (lab.tally, lambda: lab.send(["tally"]), lab.look, lab.close):
                with self.assertRaisesRegex(RuntimeError, "a Lab is for one thread at a time, and another"):
                    call()
            thread.join()
            self.assertEqual(lab.tally().tick, 0)  # and the first was not disturbed
            self.assertEqual(fake.lines, ["tally", "step 7", "tally"])

    def test_many_threads_get_right_replies_or_that_sentence(self):
        with run() as lab:
            wrong = []

            def work(k):
                for n in range(50):
                    try:
                        found = lab.probe(k, n, 1, 1)
                    except RuntimeError as fault:
                        if "one thread at a time" not in str(fault):
                            wrong.append(fault)
                    except BaseException as fault:
                        wrong.append(fault)
                    else:
                        if found.count != k % 2:
                            wrong.append(found)
            for k in (1, 3):
                lab.put(k, 0, 1, 64)
            threads = [threading.Thread(target=work, args=(k,)) for k in range(4)]
            for thread in threads:
                thread.start()
            for thread in threads:
                thread.join()
            self.assertEqual(wrong, [])


class FullJournals(unittest.TestCase):
    def test_the_refusal_names_what_goes_on(self):
        with run(cap=2) as lab:
            lab.put(0, 0, 1, 1)
            lab.put(2, 0, 1, 1)
            with self.assertRaisesRegex(Refused, r"the journal is full: lab.fresh\(\)"):
                lab.step(1)

    def test_a_fresh_one_has_the_same_gas(self):
        with run(cap=6, width=128) as lab:
            lab.do(["wall 0 0 128 2", "block 40 30 3 3", "source 4 4 2 9 3", "drain 100 4 2 9", "put 9 9 8 8",
                    "step 3"])
            before, tally, size = lab.look(), lab.tally(), lab.size
            old = lab._session.door.process
            lab.fresh()
            self.assertEqual((lab.look(), lab.tally(), lab.size), (before, tally, size))
            self.assertEqual((lab.journal(), lab.ledger().start), ([], tally.count))
            self.assertIsNotNone(old.poll())
            for _ in range(6):
                lab.step(1)
            self.assertRaises(Refused, lab.step, 1)
            lab.fresh()
            self.assertEqual(lab.tick, 9)
            self.assertEqual((lab.look().walls, lab.look().drains)[1], before.drains)

    def test_it_goes_on_as_the_gas_would_have(self):
        with run() as lab, run() as other:
            for it in (lab, other):
                it.fill(0.3, 0.2, seed=4)
                it.step(5)
            lab.fresh()
            for it in (lab, other):
                it.step(9)
            self.assertEqual(lab.look(), other.look())

    def test_a_program_that_does_not_start_again_leaves_the_lab_as_it_was(self):
        with run() as lab:
            lab.put(0, 0, 1, 1)

            def fails(path):
                raise Gone("no")
            lab._again = fails
            self.assertRaises(Gone, lab.fresh)
            self.assertEqual((lab.tally().count, len(lab.journal())), (1, 1))

    def test_a_servers_journal_is_everybodys(self):
        with Fake() as fake, joined(fake) as lab:
            self.assertRaisesRegex(ValueError, "a server's journal is everybody's", lab.fresh)
