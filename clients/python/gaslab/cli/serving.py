"""The server of the page as a command: it begins, and ends by a signal or a fault."""
import argparse
import asyncio
import os
import signal
import sys
import time
import traceback
from collections.abc import Callable
from pathlib import Path
from tempfile import gettempdir
from typing import Any, Optional, Union

from ..page.hall import Hall
from ..page.laboratory import Laboratory
from ..page.rooms import sweep
from ..page.web import Web
from ..protocol.errors import GaslabError, Gone, Silent, Strange

_SHARED = """\
Whoever reaches {} and has the first link draws, plays and opens another gas. With the second they
watch. Nothing is encrypted: others on the network can read the links. Ctrl-C ends it."""

_TURN = 0.0005  # seconds after which the desk's thread lets the loop's run

Begun = Union[Hall, tuple[str, Optional[bytes]]]


def serve(asked: argparse.Namespace, begin: Callable[[argparse.Namespace, tuple[str, str]], Begun]) -> int:
    """Serves until a signal, or until the laboratory is gone. Returns 128 and the signal's number.

    `begin` makes the hall, or returns what a page with an engine of its own opens. After a fault the script
    so far is saved in a new file, and `GaslabError` names it.
    """
    numbers = [it for it in (signal.SIGINT, signal.SIGTERM, signal.SIGHUP)
               if signal.getsignal(it) != signal.SIG_IGN]
    for number in numbers:
        signal.signal(number, signal.SIG_DFL)  # until the loop has them there is nothing to end
    sys.setswitchinterval(_TURN)
    served = _Served(asked, begin)
    status = asyncio.run(served.until_signal(numbers))
    if served.web.is_stuck:
        sys.stdout.flush()
        sys.stderr.flush()
        os._exit(status)
    return status


class _Served:
    """The server that the options ask for."""
    def __init__(self, asked: argparse.Namespace, begin: Callable[..., Begun]) -> None:
        self.asked, self.begin, self.is_ready = asked, begin, False
        self.web: Any = None

    async def until_signal(self, numbers: list[signal.Signals]) -> int:
        """Serves. A signal is taken by the loop from before anything is started, and none is lost."""
        loop = asyncio.get_running_loop()
        ended: "asyncio.Future[int]" = loop.create_future()

        def end(number: int) -> None:
            if not ended.done():
                ended.set_result(128 + number)

        for number in numbers:
            loop.add_signal_handler(number, end, number)
        self.web = Web(self.make_hall, self.asked.share or "127.0.0.1")
        task = loop.create_task(self.web.run(self.asked.page_port, self.ready))
        both: list["asyncio.Future[Any]"] = [task, ended]
        await asyncio.wait(both, return_when=asyncio.FIRST_COMPLETED)
        if not ended.done():
            self._fail(task.exception())
        task.cancel()
        await asyncio.wait([task])
        return ended.result()

    def make_hall(self, links: tuple[str, str]) -> Optional[Hall]:
        for path in sweep():
            print(f"An earlier page was killed and left {path}. It is removed now.", file=sys.stderr)
        begun = self.begin(self.asked, links)
        if isinstance(begun, Hall):
            return begun
        self.web.opened = begun
        return None

    def ready(self, web: Web) -> None:
        """Prints the links."""
        self.is_ready = True
        print(f"PAGE {web.link('all')}", flush=True)
        if web.hall:
            print(f"WATCH {web.link('watch')}", flush=True)
        if self.asked.share:
            print(_SHARED.format(self.asked.share), flush=True)
        elif sys.stdout.isatty():
            print("Open the first link in a browser. Ctrl-C ends the page.")

    def _fail(self, fault: Optional[BaseException]) -> None:
        """Raises what has ended the server. A fault while it served is told with where the script is."""
        if fault is None or not self.is_ready or not isinstance(fault, Exception):
            raise fault or GaslabError("the server of the page has ended")
        is_expected = isinstance(fault, (Gone, Silent, Strange))
        what = str(fault)
        if not is_expected:
            place = traceback.extract_tb(fault.__traceback__)[-1]
            what = f"a fault of this program, {type(fault).__name__} in {place.name} of " \
                   f"{os.path.basename(place.filename)}:{place.lineno}: {fault}"
        laboratory = self.web.hall and self.web.hall.laboratory
        if laboratory and laboratory.makers and (laboratory.is_own or not is_expected):
            what += f"; {save(laboratory)}"
        raise GaslabError(what) from fault


def save(laboratory: Laboratory) -> str:
    """Saves the script so far to a new file, here or where there is room, and says so."""
    name = time.strftime("gaslab-%Y%m%d-%H%M%S")
    for folder in (os.getcwd(), gettempdir()):
        path = Path(folder, name + ".txt")
        try:
            with open(path, "x", encoding="utf-8") as made:
                made.writelines(laboratory.script())
            if laboratory.start:
                laboratory.start.write(path.with_suffix(".gas"))
            began = f", and {path.with_suffix('.gas')} is what it began from" if laboratory.start else ""
            return f"the script so far is in {path}{began}"
        except OSError as fault:
            why = fault
    return f"the script so far could not be saved: {why}"
