"""The shell: a prompt for commands, with names in the replies and the limit beside each `ERR`."""
import inspect
import os
import re
import shutil
import signal
import sys
from collections.abc import Callable, Iterator
from contextlib import contextmanager, suppress
from typing import Any, Optional, TextIO, Union

from ..lab.lab import Lab
from ..measure.gates import shoot, trace
from ..measure.tables import csv_text
from ..pictures.drawing import picture
from ..pictures.text import text_picture
from ..protocol.commands import COMMANDS, Command
from ..protocol.errors import GaslabError, Gone, Refused, Strange
from ..protocol.limits import LIMITS, REFUSALS
from ..protocol.printable import printable
from ..protocol.replies import Bye, Reply, named, reply_text
from ..protocol.scripts import Script, is_open, parse_script, read_text

_PIECE = 64  # steps of a command of `run`


def is_coloured() -> bool:
    """Whether standard output is a terminal that shows colours."""
    return sys.stdout.isatty() and not os.environ.get("NO_COLOR")


def columns() -> int:
    """How many characters a line of the terminal has, or 128 if there is no terminal."""
    return shutil.get_terminal_size().columns if sys.stdout.isatty() else 128


def help_text(word: str = "") -> str:
    """What the shell says about a word, or about all."""
    own = {name: Command(" ".join(list(inspect.signature(it).parameters)[1:]), it.__doc__ or "")
           for name, it in Shell.WORDS.items()}
    own["repeat"] = Command("N { .. }", "as in: repeat 30 { step 100; ledger }")
    if not word:
        lines = [[f"  {name + ' ' + words:<24} {what}" for name, (words, what, _) in table.items()]
                 for table in (COMMANDS, own)]
        return "\n".join(["the laboratory's commands:", *lines[0], "of the shell, with ; between "
                          "commands and # before a comment; Ctrl-C ends a run:", *lines[1]])
    if word not in {**COMMANDS, **own}:
        return f"there is no word {word}: help lists them"
    words, what, numbers = {**COMMANDS, **own}[word]
    limits = [f"  ERR {number} {REFUSALS[number]}: {LIMITS[number]}" for number in numbers]
    return "\n".join((f"{word} {words}".rstrip(), f"  {what}", *limits))


class _Stopped(GaslabError):
    """Somebody pressed Ctrl-C: no more of what was typed is done."""


class Shell:
    """Carries out lines of a script on a laboratory, and writes what comes to `out`."""
    WORDS: dict[str, Callable[..., None]] = {}
    """The words of the shell itself: its methods whose names begin with `word_`."""

    def __init__(self, lab: Lab, out: TextIO, coloured: bool) -> None:
        self.lab, self.out, self.coloured = lab, out, coloured
        self.with_names = True
        self.has_ended = self.is_stopped = False
        self.refusals = 0

    def do(self, text: str) -> None:
        """Carries out a text. Faults are said, and end the text but not the shell."""
        try:
            self._carry_out(parse_script(text), stops=False)
        except (Gone, Strange) as fault:
            self._fail(fault)
            self.has_ended = True
        except (GaslabError, ValueError, OSError, MemoryError, RecursionError) as fault:
            self._fail(fault)

    def _carry_out(self, script: Script, stops: bool) -> None:
        """Does the commands. With `stops` it raises the first refusal, with its line."""
        self.lab.check_size(script)
        for place, command in script.commands():
            reply = self._one(command)
            if stops and isinstance(reply, Refused):
                raise reply.at(place)
            if reply is not None:
                self._say(reply)
            if self.has_ended:
                break
            if self.is_stopped:
                raise _Stopped("stopped")

    def _fail(self, fault: BaseException) -> None:
        self._say(printable(str(fault)))
        self.refusals += 1

    @contextmanager
    def stoppable(self) -> Iterator[None]:
        """Ctrl-C then ends what is done, after the present command. Twice, it ends the shell."""
        def stop(*_: Any) -> None:
            if self.is_stopped:
                raise KeyboardInterrupt
            self.is_stopped = True
        before = signal.signal(signal.SIGINT, stop)
        try:
            yield
        finally:
            signal.signal(signal.SIGINT, before)
            self.is_stopped = False

    def _one(self, command: str) -> Optional[Reply]:
        """Does a command. Returns the laboratory's reply, if it was asked."""
        word, *rest = command.split(" ")
        if word not in self.WORDS:
            reply, = self.lab.send([command])
            self.has_ended = isinstance(reply, Bye) or reply == Refused(1, "line", command)
            return reply
        try:
            inspect.signature(self.WORDS[word]).bind(self, *rest)
        except TypeError:
            self._say(help_text(word))
        else:
            self.WORDS[word](self, *rest)
        return None

    def word_run(self, n: str) -> None:
        """makes n steps in commands of 64 and tells how far it is; -n goes back"""
        def tell(done: int, total: int) -> None:
            print(f"\r{done} of {total} steps", end="", file=self.out, flush=True)
            is_stopped = self.is_stopped and done < total
            if is_stopped or done == total:
                self._say("")
            if is_stopped:
                raise _Stopped("stopped")
        self.lab.advance(_whole(n), _PIECE, tell)

    def word_play(self, FILE: str) -> None:
        """does the commands of a script, up to the first ERR"""
        self._carry_out(parse_script(read_text(FILE)), stops=True)

    def word_shoot(self, x: str, y: str, vx: str, vy: str) -> None:
        """puts a particle that flies with (vx, vy), each 1 or -1"""
        self._say(shoot(self.lab, *(_whole(it) for it in (x, y, vx, vy))))

    def word_trace(self, n: str) -> None:
        """makes n steps, and tells where the particles are at each tick"""
        self._say(csv_text(trace(self.lab, _whole(n))).rstrip("\n"))

    def word_fresh(self) -> None:
        """goes on from the same gas with a new journal and new accounts"""
        self.lab.fresh()

    def word_draw(self, velocity: str = "kind") -> None:
        """draws the gas here; the colours may be those of velocities"""
        self._say(text_picture(self.lab, columns(), self.coloured, velocity))

    def word_picture(self, PATH: str) -> None:
        """writes a PNG or GIF file"""
        picture(self.lab, PATH)
        self._say(f"wrote {PATH}")

    def word_names(self, on_or_off: str) -> None:
        """replies with names, or as they come"""
        if on_or_off not in ("on", "off"):
            raise ValueError(f"names takes on or off, and not {on_or_off[:40]}")
        self.with_names = on_or_off == "on"

    def word_help(self, word: str = "") -> None:
        """tells about a word, or which words there are"""
        self._say(help_text(word))

    def _say(self, what: Union[str, Reply]) -> None:
        """Writes a text, or a reply with names or as it came."""
        self.refusals += isinstance(what, Refused)
        if not isinstance(what, str):
            what = named(what) if self.with_names else reply_text(what)
        print(what, file=self.out, flush=True)


def _whole(text: str) -> int:
    """The number that a text is. Raises `ValueError`."""
    if not re.fullmatch("-?[0-9]{1,20}", text):
        raise ValueError(f"{text[:40]!r} is no whole number")
    return int(text)


Shell.WORDS = {name[len("word_"):]: method for name, method in vars(Shell).items()
               if name.startswith("word_")}


def prompted(history: str) -> Iterator[str]:
    """What is typed at a prompt, a whole text at a time, with a history in this file if Python has readline.

    Ctrl-C drops what is typed, and Ctrl-D ends.
    """
    with suppress(ImportError):
        import readline
        with suppress(OSError):
            readline.read_history_file(history)
    try:
        while True:
            try:
                text = input("gas> ")
                while is_open(text):
                    text += "\n" + input("...> ")
            except KeyboardInterrupt:
                print(file=sys.stderr)
            else:
                yield text
    except EOFError:
        print(file=sys.stderr)
    finally:
        with suppress(ImportError, OSError):
            import readline
            readline.write_history_file(history)
