"""The program that is started: which it is, whether it is built, and what is left of it."""
import json
import os
import signal
import subprocess
import sys
import tempfile
import time
import unittest
from pathlib import Path
from unittest import mock

from gaslab import Lab, Tally, Unreachable
from gaslab.protocol import programs

from .test_lab import STAND_IN

CLIENT = Path(__file__).resolve().parents[1]


class WhichProgram(unittest.TestCase):
    def setUp(self):
        room = tempfile.TemporaryDirectory()
        self.addCleanup(room.cleanup)
        self.room = Path(room.name)
        environment = mock.patch.dict(os.environ)
        environment.start()
        self.addCleanup(environment.stop)
        os.environ.pop("GASLAB_PROGRAM", None)
        programs._built.cache_clear()

    def script(self, status):
        """A script `gaslab`, which has this status when it is asked where its program is, and notes that."""
        script = self.room / "gaslab"
        told = f"echo {STAND_IN}" if status == 0 else ":"
        script.write_text(f'#!/bin/sh\n[ "$*" = "--is-built --path" ] || exit 9\n'
                          f'echo asked >>"{self.room}/asked"\n{told}\nexit {status}\n')
        script.chmod(0o755)
        return script

    def own(self):
        return mock.patch("gaslab.protocol.programs._ROOT", self.room)

    def test_the_build_is_checked_once(self):
        self.script(0)
        for _ in range(3):
            with self.own(), Lab.run() as lab:
                self.assertEqual(lab.tally(), Tally(0, 0, 0, 0))
                self.assertEqual(lab._session.door.name, str(STAND_IN))
        self.assertEqual((self.room / "asked").read_text(), "asked\n")

    def test_a_build_that_was_missing_is_asked_for_again(self):
        self.script(2)
        with self.own():
            self.assertRaises(Unreachable, Lab.run)
            self.script(0)
            Lab.run().close()

    def test_the_one_of_the_repository(self):
        self.script(0)
        with self.own(), Lab.run() as lab:
            self.assertEqual(lab.tally(), Tally(0, 0, 0, 0))

    def test_a_missing_or_stale_build_is_said_at_once(self):
        for status, what in ((1, "was built from other sources"), (2, "is not built"),
                             (3, "does not say whether it is built")):
            script = self.script(status)
            for options in ({}, {"program": script}):
                began = time.monotonic()
                with self.own(), self.assertRaises(Unreachable) as caught:
                    Lab.run(**options)
                self.assertLess(time.monotonic() - began, 2)
                first, line, last = str(caught.exception).split("\n")
                self.assertEqual(first, f"the program {what}. This line builds it:")
                self.assertEqual(line, f"    (cd {self.room} && ./gaslab --build)")
                self.assertIn("program= (--program) or GASLAB_PROGRAM", last)

    def test_a_script_that_the_system_cannot_start(self):
        script = self.script(0)
        script.write_text("#!/no/such/interpreter --is-built\n")
        with self.own(), self.assertRaisesRegex(Unreachable, "does not say whether it is built. This line"):
            Lab.run()

    def test_the_line_that_builds_it_can_be_pasted(self):
        """By a shell, in a folder whose name has a blank and a quote."""
        self.room = self.room / "a clone's"
        self.room.mkdir()
        self.script(1)
        with self.own(), self.assertRaises(Unreachable) as caught:
            Lab.run()
        self.room.joinpath("gaslab").write_text("#!/bin/sh\necho built by $1 in $PWD\n")
        line = str(caught.exception).split("\n")[1]
        told = subprocess.run(["sh", "-c", line], stdout=subprocess.PIPE, text=True, check=True).stdout
        self.assertEqual(told, f"built by --build in {self.room}\n")

    def test_a_named_one_needs_no_build(self):
        self.script(2)
        with self.own(), Lab.run(program=STAND_IN) as lab:
            self.assertEqual(lab.tally(), Tally(0, 0, 0, 0))
        os.environ["GASLAB_PROGRAM"] = str(STAND_IN)
        with self.own(), Lab.run() as lab:
            self.assertEqual(lab.tally(), Tally(0, 0, 0, 0))

    def test_an_installed_one_is_found_on_the_path(self):
        self.script(0)
        os.environ["PATH"] = f"{self.room}:{os.environ['PATH']}"
        with mock.patch("gaslab.protocol.programs._ROOT", self.room / "nothing"), Lab.run() as lab:
            self.assertEqual(lab.tally(), Tally(0, 0, 0, 0))

    def test_none_at_all(self):
        os.environ["PATH"] = str(self.room)
        with mock.patch("gaslab.protocol.programs._ROOT", self.room):
            self.assertRaisesRegex(Unreachable, "builds one:\n    ./gaslab --build && export", Lab.run)

    def test_the_repository_that_it_was_installed_from(self):
        """By what pip notes of a folder that it installs: see `tests.test_install` for an installation."""
        self.script(0)
        folder = self.room / "clients" / "python"
        noted = json.dumps({"url": folder.as_uri(), "dir_info": {}})
        distribution = mock.Mock(read_text=lambda name: noted if name == "direct_url.json" else None)
        with mock.patch("gaslab.protocol.programs._ROOT", self.room / "nothing"), \
                mock.patch("importlib.metadata.distribution", lambda name: distribution):
            with Lab.run() as lab:
                self.assertEqual(lab.tally(), Tally(0, 0, 0, 0))
            noted = json.dumps({"url": folder.as_uri() + ".whl", "archive_info": {}})
            os.environ["PATH"] = "/usr/bin:/bin"
            self.assertRaises(Unreachable, Lab.run)


ENDLESS = """
import sys
sys.path.insert(0, {client!r})
from gaslab import Lab
lab = Lab.run(program={program!r})
print(lab._session.door.process.pid, flush=True)
sys.stdin.read()
"""


def children_of(process):
    return Path(f"/proc/{process}/task/{process}/children").read_text().split()


class WhatIsLeft(unittest.TestCase):
    """The child and its files are gone after the client was killed, by any signal."""

    def setUp(self):
        room = tempfile.TemporaryDirectory()
        self.addCleanup(room.cleanup)
        self.environment = {**os.environ, "TMPDIR": room.name}
        self.room = room.name

    def wait_for_nothing(self, is_alive):
        deadline = time.monotonic() + 20
        while os.listdir(self.room) or is_alive():
            self.assertLess(time.monotonic(), deadline, (os.listdir(self.room), is_alive()))
            time.sleep(0.05)

    def test_of_a_laboratory(self):
        text = ENDLESS.format(client=str(CLIENT), program=str(STAND_IN))
        for number in (signal.SIGTERM, signal.SIGHUP, signal.SIGKILL):
            with subprocess.Popen([sys.executable, "-c", text], env=self.environment, text=True,
                                  stdin=subprocess.PIPE, stdout=subprocess.PIPE) as client:
                child = client.stdout.readline().strip()
                self.assertTrue(Path("/proc", child).exists())
                client.send_signal(number)
                self.assertEqual(client.wait(20), -number)
                self.wait_for_nothing(lambda: Path("/proc", child).exists())

    def test_of_a_close_that_is_interrupted(self):
        """By Ctrl-C, while a program that is in a long sleep gets its time to end."""
        program = Path(self.room, "program")
        program.write_text("#!/bin/sh\nread line; echo TALLY 0 0 0 0; read line; echo BYE; exec sleep 99\n")
        program.chmod(0o755)
        lab = Lab.run(program=program)
        child = lab._session.door.process
        with mock.patch("gaslab.protocol.doors._wait", side_effect=KeyboardInterrupt):
            self.assertRaises(KeyboardInterrupt, lab.close)
        self.assertEqual((child.returncode, lab.is_closed), (-signal.SIGKILL, True))

    def test_of_the_command_line(self):
        """The stand-in is in a long sleep, so only a signal ends it."""
        program = Path(self.room, "program")
        for number in (signal.SIGTERM, signal.SIGHUP):
            program.write_text("#!/bin/sh\nread line; echo $$ >&2; echo TALLY 0 0 0 0\nsleep 99\n")
            program.chmod(0o755)
            words = [sys.executable, str(CLIENT), "table", "--program", str(program)]
            with subprocess.Popen(words, env=self.environment, stdout=subprocess.PIPE,
                                  stderr=subprocess.PIPE, text=True) as client:
                deadline, children = time.monotonic() + 20, []
                while not (children and children_of(children[0])):  # until it sleeps
                    self.assertLess(time.monotonic(), deadline)
                    time.sleep(0.05)
                    children = children_of(client.pid)
                self.assertEqual(len(children), 1)
                client.send_signal(number)
                out, errors = client.communicate(timeout=20)
                self.assertEqual((client.returncode, out, errors), (128 + number, "", ""))
                program.unlink()
                self.wait_for_nothing(lambda: Path("/proc", children[0]).exists())
