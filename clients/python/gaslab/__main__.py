"""The command line: `gaslab-client WORD ..`, or `python3 clients/python WORD ..`."""
import argparse
import os
import signal
import sys
from collections.abc import Callable, Sequence
from typing import Optional

from . import __version__
from .cli import options, words
from .protocol.errors import GaslabError, Unreachable
from .protocol.printable import printable

SOURCES, LOOKS = options.GROUPS

WORDS: dict[str, tuple[Callable[..., Optional[int]], str, tuple[str, ...], str, str]] = {
    "shell": (words.shell, "", (SOURCES,), "a prompt for commands, with pictures",
              "PROGRAM shell --width 128 --height 64"),
    "draw": (words.draw, "--output --show", (SOURCES, LOOKS), "a picture of a gas, as a file or here",
             "PROGRAM draw examples/4_tunnel.txt -o tunnel.png --mean 4"),
    "film": (words.film_word, "--output! --steps --frames --milliseconds --show", (SOURCES, LOOKS),
             "a film of a gas, a GIF or an animated PNG",
             "PROGRAM film examples/4_tunnel.txt -o tunnel.gif --steps 2 --frames 50"),
    "table": (words.table, "--steps=100 --times=30 --no-ledger --probe --columns --chart --column",
              (SOURCES,), "a table over time, as CSV",
              "PROGRAM table examples/4_tunnel.txt --steps 100 --times 30 "
              "--probe front=20,28,8,8 --chart drag.svg"),
    "profile": (words.profile_word, "--along --bins", (SOURCES,), "a table over columns or rows, as CSV",
                "PROGRAM profile examples/4_tunnel.txt --along x --bins 8"),
    "random": (words.random_word, "--width=64 --height=64 --density --drift --drift-down --seed", (),
               "a random gas, as lines for ./gaslab run",
               "PROGRAM random --density 0.3 --drift 0.2 --seed 1 | ./gaslab run"),
    "lesson": (words.lesson_word, "name", (), "the script of a lesson, or the names of all",
               "PROGRAM lesson 4_tunnel | ./gaslab run"),
    "show": (words.show, "snapshot --script", (),
             "what is in a snapshot, and its walls as a script", "PROGRAM show day.gas"),
    "journal": (words.journal, "host port --timeout", (), "the journal of a running server, as a script",
                "PROGRAM journal 127.0.0.1 7878 > journal.txt"),
    "page": (words.page, "gas --to --share --page-port --cap --load --program --timeout", (),
             "the laboratory in a browser: lesson 4, a script, a snapshot or a server's gas",
             "PROGRAM page examples/4_tunnel.txt"),
    "rows": (words.rows, "", (), "draws the rows among replies as dots and marks",
             "./gaslab run < examples/2_blocks.txt | PROGRAM rows"),
    "watch": (words.watch, "host port --timeout --seconds --times --mean --colour --load", (),
              "shows the gas of a server in the terminal", "PROGRAM watch 127.0.0.1 7878"),
}
"""Each word: what runs it, its options, groups of options, what it is for, and an example."""


def parser() -> argparse.ArgumentParser:
    """The parser of the command line."""
    is_command = os.path.basename(sys.argv[0]) == "gaslab-client"
    program = "gaslab-client" if is_command else "python3 clients/python"
    whole = argparse.ArgumentParser(
        prog=program, description="A client for gaslab. It proves nothing: what is proved is the "
        "program that it talks to: GASLAB_PROGRAM, or else the wheel's, or else ./gaslab of the repository.",
        epilog="WORD --help lists the options of a word, with an example for the top of the repository.")
    whole.add_argument("--version", action="version", version=f"gaslab-client {__version__}")
    parts = whole.add_subparsers(dest="word", metavar="WORD", required=True)
    for word, (run, names, groups, what, example) in WORDS.items():
        part = parts.add_parser(word, help=what, description=what[0].upper() + what[1:] + ".",
                                epilog="example:\n  " + example.replace("PROGRAM", program),
                                formatter_class=argparse.RawDescriptionHelpFormatter)
        options.add(part, names)
        for title in groups:
            options.add(part.add_argument_group(title), options.GROUPS[title])
        part.set_defaults(run=run)
    return whole


def _take_signals() -> None:
    """Has signals end what was started too."""
    if signal.getsignal(signal.SIGINT) == signal.SIG_DFL:
        signal.signal(signal.SIGINT, signal.default_int_handler)
    for number in (signal.SIGTERM, signal.SIGHUP):
        if signal.getsignal(number) == signal.SIG_DFL:
            signal.signal(number, lambda number, _: sys.exit(128 + number))


def main(arguments: Optional[Sequence[str]] = None) -> int:
    """Runs a word. The status is 0, 1 after a fault, which is said, or 2 for wrong options."""
    asked = parser().parse_args(arguments)
    if asked.word != "page":  # whose server takes signals by its loop
        _take_signals()
    try:
        status = asked.run(asked)
        sys.stdout.flush()
        return status or 0
    except BrokenPipeError:
        os.dup2(os.open(os.devnull, os.O_WRONLY), sys.stdout.fileno())
        return 1
    except (GaslabError, OSError, ValueError, MemoryError) as fault:
        # (a program that can't be reached has a line to paste in what it says)
        lines = str(fault).split("\n") if isinstance(fault, Unreachable) else [str(fault)]
        told = "\n".join(map(printable, lines)) or type(fault).__name__
        print(f"gaslab {asked.word}: {told}", file=sys.stderr)
        return 1
    except KeyboardInterrupt:
        return 130


if __name__ == "__main__":
    sys.exit(main())
