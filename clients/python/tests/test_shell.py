import contextlib
import io
import os
import pty
import select
import signal
import subprocess
import sys
import tempfile
import time
import unittest
from pathlib import Path
from unittest import mock

from gaslab import LIMITS, Lab, REFUSALS, Snapshot
from gaslab.__main__ import WORDS, main
from gaslab.cli.shell import Shell, help_text, prompted
from gaslab.page.one_file import one_file
from gaslab.protocol.commands import COMMANDS
from gaslab.protocol.scripts import is_open, parse_script

from .fake import Fake, typical
from .seen import read
from .test_lab import ROOT, STAND_IN, run

PROGRAM = ["--program", str(STAND_IN)]


def said(*words, typed=""):
    """Status, output and errors of the command line with these words."""
    out, errors = io.StringIO(), io.StringIO()
    with contextlib.redirect_stdout(out), contextlib.redirect_stderr(errors), \
            mock.patch("sys.stdin", io.StringIO(typed)):
        try:
            status = main([str(word) for word in words])
        except SystemExit as end:
            status = end.code
    return status, out.getvalue(), errors.getvalue()


class Scripts(unittest.TestCase):
    def test_commands(self):
        scripts = {
            "": [], " \n ;; # nothing": [], "step 1": ["step 1"],
            "  put 0  0 1 1 # one\ntally; ledger": ["put 0 0 1 1", "tally", "ledger"],
            "repeat 3 { step 100; ledger }": ["step 100", "ledger"] * 3,
            "repeat 2{step 1}tally": ["step 1", "step 1", "tally"],
            "repeat 2 {\n repeat 2 { step 1 }\n tally # {\n}": ["step 1", "step 1", "tally"] * 2,
            "repeat 0 { quit }": [], "repeat 2 { }": [],
        }
        for text, wanted in scripts.items():
            found = [command for _, command in parse_script(text).commands()]
            self.assertEqual(found, wanted, text)

    def test_lines_are_told(self):
        text = "# one\nput 0 0 1 1\n\nrepeat 2 {\n step 1; tally\n}\n"
        self.assertEqual(list(parse_script(text).commands()),
                         [(2, "put 0 0 1 1"), *2 * [(5, "step 1"), (5, "tally")]])

    def test_sizes(self):
        self.assertEqual(parse_script("# x\n size  128 64 \nput 0 0 1 1"),
                         ((128, 64), [(3, "put 0 0 1 1")]))
        self.assertIs(parse_script("put 0 0 1 1").size, None)
        for text in ("size 100 64", "size 64", "size 64 64 64", "size 064 64", "size x 64", "size",
                     "put 0 0 1 1\nsize 64 64", "size 64 64\nsize 64 64",
                     "repeat 1 { size 64 64 }"):
            with self.assertRaisesRegex(ValueError, "^line [12]: size ", msg=text):
                parse_script(text)

    def test_faults(self):
        for text in ("}", "{", "{ step 1 }", "repeat 2", "repeat { step 1 }", "repeat x { step 1 }",
                     "repeat -1 { }", "repeat 2 { step 1", "repeat 2 step 1 { }", "repeat 1 2 { }",
                     "step 1 }", "repeat 1 {" * 22 + "}" * 22):
            with self.assertRaisesRegex(ValueError, "^line 1: ", msg=text):
                parse_script(text)

    def test_many_repeats_take_no_memory(self):
        found = parse_script("repeat 1000000 { repeat 1000000 { step 1 } }").commands()
        self.assertEqual([next(found) for _ in range(3)], [(1, "step 1")] * 3)

    def test_open_braces(self):
        for text, wanted in (("repeat 2 {", True), ("repeat 2 { }", False), ("# {", False),
                             ("repeat 2 { repeat 3 { }", True), ("step 1", False)):
            self.assertIs(is_open(text), wanted)


class Helps(unittest.TestCase):
    def test_each_command(self):
        for word in COMMANDS:
            text = help_text(word)
            self.assertTrue(text.startswith(word) and len(text.splitlines()) >= 2)
            for number in COMMANDS[word][2]:
                self.assertIn(f"ERR {number} {REFUSALS[number]}: {LIMITS[number]}", text)
            self.assertIn(f"  {word} ", help_text())

    def test_put(self):
        self.assertEqual(help_text("put").splitlines()[:2],
                         ["put x y w h", "  fills a rectangle with particles"])

    def test_other_words(self):
        self.assertIn("repeat 30 { step 100; ledger }", help_text("repeat"))
        self.assertEqual(help_text("x"), "there is no word x: help lists them")


class Shells(unittest.TestCase):
    def done(self, *texts):
        out = io.StringIO()
        with run() as lab:
            shell = Shell(lab, out, coloured=False)
            for text in texts:
                shell.do(text)
        return out.getvalue(), shell

    def test_replies_have_names(self):
        out, _ = self.done("put 0 0 1 1; step 1 # a tick", "probe 1 1 1 1; tally")
        self.assertEqual(out, "OK index 0\nOK index 1\nPROBE count 1, px 1, py 1\n"
                         "TALLY tick 1, count 1, px 1, py 1\n")

    def test_names_can_be_off(self):
        out, _ = self.done("names off; put 0 0 1 1; tally; entry 0")
        self.assertEqual(out, "OK 0\nTALLY 0 1 1 1\nENTRY 0 put 0 0 1 1\n")

    def test_names_are_on_or_off(self):
        out, _ = self.done("names of", "unport")
        self.assertEqual(out, "names takes on or off, and not of\nOK index 0\n")

    def test_limits_stand_beside_refusals(self):
        out, shell = self.done("step 5000; step 0")
        self.assertEqual(out, "ERR 6 steps: n is 1 to 4,096, and not 5000\n"
                         "ERR 6 steps: n is 1 to 4,096, and not 0\n")
        self.assertEqual(shell.refusals, 2)

    def test_repeat(self):
        out, _ = self.done("repeat 3 { step 2; tally }")
        self.assertEqual(out.splitlines()[1::2], [f"TALLY tick {t}, count 0, px 0, py 0"
                                                  for t in (2, 4, 6)])

    def test_run_tells_how_far_it_is(self):
        out, _ = self.done("run 130; run -1; tally")
        self.assertEqual(out, "\r64 of 130 steps\r128 of 130 steps\r130 of 130 steps\n"
                         "\r1 of 1 steps\nTALLY tick 129, count 0, px 0, py 0\n")

    def test_draw(self):
        out, _ = self.done("names off; put 0 0 2 2; draw")
        self.assertEqual(out.splitlines()[1], "██" + 62 * " ")
        self.assertEqual(len(out.splitlines()), 33)

    def test_picture(self):
        with tempfile.TemporaryDirectory() as room:
            path = os.path.join(room, "it.png")
            out, _ = self.done(f"picture {path}", "picture it.jpg")
            self.assertEqual(out, f"wrote {path}\n"
                             "a picture's path ends in .png or .gif: not it.jpg\n")
            self.assertEqual(read(path).width, 576)

    def test_words_of_a_command(self):
        out, _ = self.done("put 10 10", "jump")
        self.assertEqual(out, "ERR 3 count: put takes x y w h, and not 2 words\n"
                         "ERR 2 word: there is no command jump\n")

    def test_shoot_and_trace(self):
        out, _ = self.done("names off; shoot 2 2 1 1; trace 1", "shoot 3 2 1 1", "shoot 1")
        self.assertEqual(out, "OK 0\ntick,x,y,vx,vy\n0,2,2,1,1\n1,3,3,1,1\n"
                         "at tick 1 a particle in (3, 2) flies with (1, -1); one with (1, 1) can "
                         "start in (3, 3)\n" + help_text("shoot") + "\n")

    def played(self, text):
        with tempfile.TemporaryDirectory() as room:
            path = os.path.join(room, "script")
            Path(path).write_bytes(text)
            return self.done("names off", f"play {path}", "tally")

    def test_play(self):
        out, shell = self.played(b"# one\nsize 64 64\n\nput 0 0 1 1  # two\nstep 1\ntally\n")
        self.assertEqual((out, shell.refusals), ("OK 0\nOK 1\nTALLY 1 1 1 1\nTALLY 1 1 1 1\n", 0))

    def test_play_stops_at_the_first_refusal_and_names_its_line(self):
        out, shell = self.played(b"put 0 0 1 1\n\n# x\nput 64 0 1 1\nstep 1\n")
        self.assertEqual(out.splitlines()[0::2], ["OK 0", "TALLY 0 1 1 1"])
        self.assertEqual(out.splitlines()[1],
                         "line 4: ERR 5 rect: x is 0 to 63, and not 64; asked: put 64 0 1 1")
        self.assertEqual(shell.refusals, 1)

    def test_play_of_what_is_no_script(self):
        for text, what in ((b"size 128 64\n", "the script is for 128 by 64 cells, and this gas has "
                            "64 by 64"), (b"put 0 0 1 1\n\xff", "line 2 is not UTF-8"),
                           (b"repeat 2 {\n", "line 1: the { of"),
                           (b"\x1b]0owned\x07\n", r"asked: \\x1b\]0owned\\x07")):
            out, shell = self.played(text)
            self.assertRegex(out, what)
            self.assertEqual((out.splitlines()[-1], shell.has_ended), ("TALLY 0 0 0 0", False))

    def test_a_script_that_plays_itself(self):
        with tempfile.TemporaryDirectory() as room:
            path = os.path.join(room, "script")
            Path(path).write_text(f"play {path}\n")
            out, shell = self.done(f"play {path}", "tally")
        self.assertEqual((len(out.splitlines()), shell.has_ended), (2, False))

    def test_faults_leave_the_shell(self):
        out, shell = self.done("repeat 2 {", "draw red", "picture /no/such/file", "run x",
                               "picture", "tally")
        self.assertIn("is not closed", out)
        self.assertIn("colour is one of kind, velocity", out)
        self.assertIn("'x' is no whole number\n", out)
        self.assertTrue(out.endswith("TALLY tick 0, count 0, px 0, py 0\n"))
        self.assertFalse(shell.has_ended)

    def test_quit_ends(self):
        out, shell = self.done("quit; tally")
        self.assertEqual((out, shell.has_ended), ("BYE\n", True))

    def test_a_server_that_ends(self):
        out = io.StringIO()
        with Fake(lambda line: typical(line) if line == "tally" else None) as fake:
            with Lab.join("127.0.0.1", fake.port) as lab:
                shell = Shell(lab, out, False)
                shell.do("step 7; tally")
        self.assertIn("has ended", out.getvalue())
        self.assertTrue(shell.has_ended)


class Interrupts(unittest.TestCase):
    """Ctrl-C ends the line or the run, and not the shell. The program is not interrupted."""

    def interrupted(self, text, when, times=1):
        """What is said if Ctrl-C comes after the text `when` was written."""
        class Out(io.StringIO):
            def write(self, text):
                super().write(text)
                for _ in range(times if when in text else 0):
                    signal.raise_signal(signal.SIGINT)
        out = Out()
        with run() as lab:
            shell = Shell(lab, out, coloured=False)
            with shell.stoppable():
                shell.do(text)
            shell.do("tally")
            self.assertIs(signal.getsignal(signal.SIGINT), signal.default_int_handler)
            return out.getvalue(), shell

    def test_a_run(self):
        out, shell = self.interrupted("run 100000", "128 of")
        self.assertEqual(out, "\r64 of 100000 steps\r128 of 100000 steps\nstopped\n"
                         "TALLY tick 128, count 0, px 0, py 0\n")
        self.assertFalse(shell.has_ended)

    def test_a_line(self):
        out, _ = self.interrupted("repeat 1000 { put 0 0 1 1; step 1 }", "OK index 4")
        self.assertEqual(out.splitlines()[-3:], ["OK index 4", "stopped",
                                                 "TALLY tick 2, count 3, px 1, py 1"])

    def test_twice_ends_the_shell(self):
        with self.assertRaises(KeyboardInterrupt):
            self.interrupted("run 1000", "128 of", times=2)

    def test_at_the_prompt(self):
        typed = iter(["put 0 0 1 1", KeyboardInterrupt, "repeat 2 {", KeyboardInterrupt, "tally",
                      EOFError])

        def answer(prompt):
            it = next(typed)
            if isinstance(it, str):
                return it
            raise it
        with mock.patch("builtins.input", answer), contextlib.redirect_stderr(io.StringIO()):
            with tempfile.TemporaryDirectory() as room:
                found = list(prompted(os.path.join(room, "history")))
        self.assertEqual(found, ["put 0 0 1 1", "tally"])

    def test_in_a_terminal(self):
        """A shell in a terminal of its own: Ctrl-C in a long run, then another command."""
        words = [sys.executable, str(ROOT / "clients" / "python"), "shell", *PROGRAM]
        child, terminal = pty.fork()
        if child == 0:
            os.environ.update(HOME="/nonexistent", TERM="dumb")
            os.execv(words[0], words)
        said = b""

        def until(what):
            nonlocal said
            while what not in said:
                self.assertTrue(select.select([terminal], [], [], 30)[0], said)
                said += os.read(terminal, 4096)
            said = said.partition(what)[2]
        until(b"gas> ")
        os.write(terminal, b"run 1000000\n")
        until(b"128 of 1000000 steps")
        os.write(terminal, b"\x03")
        until(b"stopped")
        until(b"gas> ")
        time.sleep(0.5)  # until the prompt waits for a key
        os.write(terminal, b"step\x03")
        until(b"gas> ")
        os.write(terminal, b"unport\n")
        until(b"OK index")
        os.write(terminal, b"quit\n")
        until(b"BYE")
        status = os.waitpid(child, 0)[1]
        os.close(terminal)
        self.assertEqual(os.waitstatus_to_exitcode(status), 0)


class Words(unittest.TestCase):
    def setUp(self):
        room = tempfile.TemporaryDirectory()
        self.addCleanup(room.cleanup)
        self.room = Path(room.name)

    def path(self, name, text=None):
        if text is not None:
            (self.room / name).write_text(text)
        return self.room / name

    def test_each_help_has_an_example(self):
        for word in WORDS:
            status, out, _ = said(word, "--help")
            self.assertEqual(status, 0)
            self.assertIn(f"PROGRAM {word}", WORDS[word][4])
            example = WORDS[word][4].replace("PROGRAM", "python3 clients/python")
            self.assertIn(f"example:\n  {example}", out)
            with mock.patch("sys.argv", ["/usr/bin/gaslab-client"]):
                self.assertIn(f"gaslab-client {word}", said(word, "--help")[1])
        self.assertEqual(set(WORDS), {"shell", "draw", "film", "table", "profile", "random", "lesson", "show",
                                      "journal", "page", "rows", "watch"})

    def test_no_word(self):
        self.assertEqual(said()[0], 2)
        status, out, _ = said("--help")
        self.assertIn("It proves nothing", " ".join(out.split()))

    def test_shell(self):
        status, out, _ = said("shell", *PROGRAM, typed="put 0 0 1 1\nrepeat 2 {\nstep 1\n}\n")
        self.assertEqual((status, out), (0, "OK index 0\nOK index 1\nOK index 2\n"))
        self.assertEqual(said("shell", *PROGRAM, typed="step 0")[0], 1)

    def test_draw_a_script(self):
        script, png = self.path("script", "put 1 2 1 1\n\nquit\n"), self.path("it.png")
        self.assertEqual(said("draw", script, "-o", png, "--scale", 2, *PROGRAM), (0, "", ""))
        self.assertEqual(read(png).cells((0, 114, 178)), {(2, 4), (3, 4), (2, 5), (3, 5)})

    def test_draw_a_script_from_a_pipe(self):
        source, sink = os.pipe()
        os.write(sink, b"put 0 0 64 64\n")
        os.close(sink)
        try:
            status, out, _ = said("draw", f"/dev/fd/{source}", *PROGRAM)
        finally:
            os.close(source)
        self.assertEqual((status, set(out)), (0, {"\u2588", "\n"}))

    def test_a_page_that_is_not_made_leaves_the_file_as_it_was(self):
        kept = self.path("gas.html", "kept")
        status, _, errors = said("page", "--to", kept, self.path("none.txt"))
        self.assertEqual((status, kept.read_text(), os.listdir(self.room)), (1, "kept", ["gas.html"]))
        self.assertIn("none.txt", errors)
        self.assertEqual(said("page", "--to", kept), (0, "", ""))
        self.assertEqual(kept.read_text("utf-8"), one_file())

    def test_a_script_names_the_size(self):
        script, png = self.path("script", "size 128 64 # wide\nput 1 2 1 1\n"), self.path("it.png")
        self.assertEqual(said("draw", script, "-o", png, "--scale", 1, *PROGRAM), (0, "", ""))
        self.assertEqual((read(png).width, read(png).height), (128, 64))
        status, _, errors = said("draw", script, "-o", png, "--width", 64, *PROGRAM)
        self.assertEqual((status, errors), (1, "gaslab draw: the script is for 128 by 64 cells, and "
                                            "this gas has 64 by 64\n"))

    def test_draw_a_snapshot(self):
        gas = Snapshot(64, 64, particle_bytes=b"\xff" * 512)
        self.path("day.gas").write_bytes(gas.to_bytes())
        png = self.path("it.png")
        self.assertEqual(said("draw", self.path("day.gas"), "-o", png, "--mean", 16)[0], 0)
        self.assertEqual(read(png).pixel(99, 99), (0, 30, 70))
        status, out, _ = said("draw", self.path("day.gas"))
        self.assertEqual((status, out), (0, 32 * (64 * "█" + "\n")))
        status, out, _ = said("draw", self.path("day.gas"), "--mean", 8)
        self.assertEqual((status, out), (0, 4 * (8 * "█" + "\n")))

    def test_lesson(self):
        scripts = list((ROOT / "examples").glob("*.txt"))
        for path in scripts:
            self.assertEqual(said("lesson", path.stem), (0, path.read_text(), ""))
        status, out, errors = said("lesson")
        self.assertEqual((status, errors), (0, ""))
        self.assertEqual(sorted(out.splitlines()), sorted(it.stem for it in scripts))
        self.assertTrue(out.startswith("1_one_particle\n2_"), out)
        status, out, errors = said("lesson", "tunnel")
        self.assertEqual((status, out), (1, ""))
        self.assertIn("gaslab lesson: no lesson 'tunnel': there are 1_one_particle, ", errors)

    def test_draw_momentum(self):
        """Each second column is full: all fly to the right at tick 0, and as many down as up."""
        gas = Snapshot(64, 64, particle_bytes=512 * b"\xaa")
        day, png = self.path("day.gas"), self.path("it.png")
        day.write_bytes(gas.to_bytes())
        for show, colour in (("px", (0, 114, 178)), ("py", (255, 255, 255))):
            self.assertEqual(said("draw", day, "-o", png, "--show", show), (0, "", ""))
            self.assertEqual(read(png).pixel(99, 99), colour)
        status, _, errors = said("draw", day, "--show", "px")
        self.assertEqual((status, errors), (1, "gaslab draw: --show draws a file: name it by --output\n"))

    def test_film(self):
        script = self.path("script", "put 1 2 1 1\n")
        for name in ("it.png", "it.gif"):
            status = said("film", script, "-o", self.path(name), "--frames", 3, "--steps", 4,
                          "--scale", 1, *PROGRAM)
            self.assertEqual(status, (0, "", ""))
            found = read(self.path(name))
            self.assertEqual([found.cells((0, 114, 178), n) for n in range(len(found.frames))],
                             [{(1, 2)}, {(61, 6)}, {(57, 10)}])
        self.assertEqual(said("film", script, "-o", self.path("it.mp4"), *PROGRAM)[0], 1)

    def test_table(self):
        script, svg = self.path("script", "put 1 2 1 1\n"), self.path("it.svg")
        words = ["table", script, "--steps", 2, "--times", 2, "--no-ledger", "--probe",
                 "a=0,0,4,5", *PROGRAM]
        status, out, _ = said(*words, "--chart", svg, "--column", "a_count")
        self.assertEqual((status, out.splitlines()), (0, [
            "tick,count,px,py,a_count,a_px,a_py,d_count,d_px,d_py,d_a_count,d_a_px,d_a_py",
            "2,1,-1,1,0,0,0,0,0,0,-1,1,-1", "4,1,-1,1,0,0,0,0,0,0,0,0,0"]))
        self.assertIn("a_count", svg.read_text())
        self.assertEqual(said(*words, "--columns", "tick,d_a_px")[1], "tick,d_a_px\n2,1\n4,0\n")
        out = said("table", script, "--columns", "tick", *PROGRAM)[1]
        self.assertEqual(out.splitlines()[1:], [str(100 * n) for n in range(1, 31)])
        status, out, errors = said(*words, "--columns", "drag")
        self.assertEqual((status, out), (1, ""))
        self.assertIn("gaslab table: no column drag: there are tick, count", errors)

    def test_profile(self):
        script = self.path("script", "put 0 0 64 32\n")
        status, out, _ = said("profile", script, "--along", "y", "--bins", 2, *PROGRAM)
        self.assertEqual((status, out), (0, "from,to,count,density,px,py\n0,32,2048,1.0,0,0\n"
                                            "32,64,0,0.0,0,0\n"))

    def test_random(self):
        from gaslab import random_gas
        words = ("random", "--width", 128, "--density", 0.2, "--drift", 0.5, "--seed", 9)
        lines = "".join(line + "\n" for line in random_gas(128, 64, 0.2, (0.5, 0.0), 9, 0))
        self.assertEqual(said(*words), (0, lines, ""))
        self.assertEqual(said("random", "--density", 2)[0], 1)

    def test_show(self):
        lines = ["wall 0 0 64 2", "wall 5 9 1 3", "block 30 30 4 4", "source 4 18 2 28 1",
                 "drain 60 18 4 28", "drain 0 18 2 28"]
        gas = self.path("day.gas")
        with run(save=gas) as lab:
            list(lab.send([*lines, "put 9 9 2 1", "step 3", "save"]))
            whole = lab.look()
        status, out, _ = said("show", gas)
        self.assertEqual((status, out.splitlines()), (0, [
            "# 64 by 64 cells, version 2, tick 3", f"# {whole.count} particles, 131 wall cells, "
            "16 obstacle cells", "# 1 sources, 2 drains", *lines]))
        self.assertEqual(said("show", gas, "--script")[1].splitlines(), lines)

    def test_show_no_snapshot(self):
        status, out, errors = said("show", self.path("x", "HPPGAS9\n"))
        self.assertEqual((status, out), (1, ""))
        self.assertTrue(errors.startswith("gaslab show: Magic: "), errors)
        self.assertEqual(said("show", self.path("nothing"))[0], 1)

    def test_journal(self):
        def answer(line):
            entries = {"entry 0": b"ENTRY 0 put 0 0 1 1\n", "entry 1": b"ENTRY 5 step 3\n"}
            if line.startswith("entry"):
                return entries.get(line, b"ERR 9 entry\n")
            return typical(line)
        with Fake(answer) as fake:
            self.assertEqual(said("journal", "127.0.0.1", fake.port),
                             (0, "put 0 0 1 1\nstep 3\n", ""))
            self.assertEqual(fake.lines[-1], "quit")

    def test_journal_of_a_full_server(self):
        with Fake(lambda line: b"") as fake:
            status, out, errors = said("journal", "127.0.0.1", fake.port, "--timeout", "0.2")
        self.assertEqual((status, out), (1, ""))
        self.assertIn("gaslab journal: no answer for 0.2 seconds", errors)

    def test_rows(self):
        typed = "OK 0\nROW 0000000ff0000000\nROW\nROW xy\nERR 6 steps"
        row = 28 * "." + "########" + 28 * "."
        self.assertEqual(said("rows", typed=typed)[1],
                         f"OK 0\n{row}\nROW\nROW xy\nERR 6 steps\n")

    def test_rows_of_any_bytes(self):
        words = [sys.executable, str(ROOT / "clients" / "python"), "rows"]
        done = subprocess.run(words, input=b"\x1b[2J\xff\r" + 5000 * b"x" + b"\nBYE\n",
                              stdout=subprocess.PIPE, stderr=subprocess.PIPE)
        self.assertEqual((done.returncode, done.stderr), (0, b""))
        self.assertTrue(done.stdout.startswith(rb"\x1b[2J"), done.stdout[:40])
        self.assertTrue(done.stdout.endswith(b"x\nBYE\n"))
        self.assertNotIn(b"\x1b", done.stdout)

    def test_rows_of_lesson_2(self):
        out = said("rows", typed=(ROOT / "examples" / "2_blocks.out").read_text())[1]
        for line in ("....#....#..##......#...#...##.......#...#..##......#....#..##..",
                     ".....#..#...##.......#..#...##.......#..#...##.......#..#...##.."):
            self.assertIn(line + "\n", out)

    def test_wrong_options_are_said_in_a_line(self):
        endless = 5000 * "1"
        for words in (("draw", "--join", "x"), ("draw", "--join", ":5"),
                      ("draw", "--join", "127.0.0.1:x"), ("draw", "--join", "127.0.0.1:65536"),
                      ("draw", "--scale", "0"), ("draw", "--width", "100"), ("draw", "--mean", "0"),
                      ("draw", "--cap", "0"), ("draw", "--workers", endless),
                      ("draw", "--timeout", "nan"), ("draw", "--timeout", "-1"),
                      ("draw", "--timeout", "inf"), ("film", "-o", "x.gif", "--frames", "0"),
                      ("film", "-o", "x.gif", "--milliseconds", "70000"),
                      ("table", "--times", "0"), ("table", "--probe", "a=1,2"),
                      ("table", "--probe", "a=1,2,3,x"), ("profile", "--bins", endless),
                      ("random", "--seed", "-1"), ("random", "--width", endless),
                      ("watch", "127.0.0.1", "99999"), ("watch", "127.0.0.1", "-1"),
                      ("page", "--page-port", "99999"), ("page", "--cap", "65537"),
                      ("watch", "127.0.0.1", "1", "--seconds", "nan"),
                      ("watch", "127.0.0.1", "1", "--colour", "red"),
                      ("journal", "127.0.0.1", "x")):
            status, out, errors = said(*words)
            self.assertEqual((status, out), (2, ""), words)
            self.assertRegex(errors.splitlines()[-1], "^python3 clients/python [a-z]+: error: ")
            self.assertLess(len(errors.splitlines()[-1]), 200)

    def test_files_of_any_kind_are_said_in_a_line(self):
        damaged = self.path("damaged.gas")
        damaged.write_bytes(b"HPPGAS2\n\xff")
        script = self.path("script", "put 0 0 1 1\n")
        for words in (("draw", self.path("nothing")), ("draw", self.room), ("draw", damaged),
                      ("draw", "/dev/zero"), ("draw", "/dev/null", "--load", script),
                      ("show", "/dev/zero"), ("show", self.room), ("show", script),
                      ("draw", script, "-o", "/no/such/folder/it.png"),
                      ("draw", script, "-o", self.room / "it.jpg"),
                      ("draw", script, "--program", "/bin/false"),
                      ("random", "--density", "nan"), ("random", "--drift", "2"),
                      ("watch", "127.0.0.1", "1"), ("watch", "no.such.host.example", "1"),
                      ("watch", "127.0.0.1", "1", "--load", script),
                      ("journal", "a" * 70 + ".example", "1"), ("journal", "\udc80", "1")):
            status, out, errors = said(*words, *(PROGRAM if "--program" not in words and words[0]
                                                 == "draw" else ()))
            self.assertEqual((status, out), (1, ""), words)
            self.assertRegex(errors, f"^gaslab {words[0]}: [^\n]+\n$")

    def test_a_refused_script(self):
        status, _, errors = said("draw", self.path("script", "step 0\n"), *PROGRAM)
        self.assertEqual(status, 1)
        self.assertEqual(errors, "gaslab draw: line 1: ERR 6 steps: n is 1 to 4,096, and not 0; "
                         "asked: step 0\n")

    def test_without_a_program_there_is_a_line_to_paste(self):
        status, _, errors = said("draw", "--program", "/no/such")
        self.assertEqual(status, 1)
        self.assertEqual(errors.splitlines()[1], "    ./gaslab --build && export GASLAB_PROGRAM=$PWD/gaslab")

    def test_as_a_module(self):
        done = subprocess.run([sys.executable, "-m", "gaslab", "random", "--seed", "1"],
                              cwd=ROOT / "clients" / "python", stdout=subprocess.PIPE, text=True)
        self.assertEqual((done.returncode, len(done.stdout.splitlines())), (0, 64))

    def test_a_reader_that_leaves(self):
        words = [sys.executable, "-m", "gaslab", "random", "--width", "4096", "--height", "4096"]
        with subprocess.Popen(words, cwd=ROOT / "clients" / "python", stdout=subprocess.PIPE,
                              stderr=subprocess.PIPE) as client:
            client.stdout.readline()
            client.stdout.close()
            self.assertEqual((client.stderr.read(), client.wait()), (b"", 1))
