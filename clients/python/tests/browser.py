"""A headless Chromium, driven over a pipe by its own protocol: enough to look at one page."""
from __future__ import annotations

import base64
import json
import os
import select
import shlex
import shutil
import subprocess
import tempfile
import time
from pathlib import Path
from typing import Any

CHROMIUM = shutil.which("chromium")
_PATIENCE = 120.0  # seconds


class Browser:
    """One page. `errors` has what its console and its scripts complained about.

    `asked` has the kinds of dialogs that the browser showed, as `beforeunload`. Each is answered with yes.
    """

    def __init__(self, address: str) -> None:
        self.errors: list[Any] = []
        self.asked: list[str] = []
        self._room = tempfile.mkdtemp(prefix="chromium-")
        self._number, self._rest = 0, b""
        self._session: Any = None
        theirs_in, self._out = os.pipe()
        self._in, theirs_out = os.pipe()
        words = [CHROMIUM, "--headless=new", "--no-sandbox", "--disable-gpu", "--no-first-run",
                 "--disable-extensions", "--window-size=1280,720", "--remote-debugging-pipe",
                 f"--user-data-dir={self._room}", "about:blank"]
        line = f"exec {shlex.join(map(str, words))} 3<&{theirs_in} 4>&{theirs_out}"
        self._process = subprocess.Popen(
            ["/bin/bash", "-c", line], pass_fds=(theirs_in, theirs_out), stdin=subprocess.DEVNULL,
            stdout=subprocess.DEVNULL, stderr=subprocess.DEVNULL)
        os.close(theirs_in)
        os.close(theirs_out)
        target = self._ask("Target.createTarget", url="about:blank")["targetId"]
        joined = self._ask("Target.attachToTarget", targetId=target, flatten=True)
        self._session = joined["sessionId"]
        for part in ("Runtime", "Log", "Page"):
            self._ask(f"{part}.enable")
        self._ask("Page.navigate", url=address)

    def __enter__(self) -> Browser:
        return self

    def __exit__(self, *_: object) -> None:
        self._process.terminate()
        self._process.wait()
        os.close(self._in)
        os.close(self._out)
        shutil.rmtree(self._room, ignore_errors=True)

    def _send(self, method: str, **what: Any) -> int:
        """Sends a command. Returns its number."""
        self._number += 1
        asked = {"id": self._number, "method": method, "params": what}
        if self._session:
            asked["sessionId"] = self._session
        os.write(self._out, json.dumps(asked).encode() + b"\0")
        return self._number

    def _ask(self, method: str, **what: Any) -> Any:
        number = self._send(method, **what)
        while True:
            told = self._told()
            if told.get("id") == number:
                assert "error" not in told, told
                return told["result"]

    def _told(self) -> Any:
        """The next message, with complaints noted on the way."""
        deadline = time.monotonic() + _PATIENCE
        while b"\0" not in self._rest:
            ready, _, _ = select.select([self._in], [], [], max(0, deadline - time.monotonic()))
            assert ready, "the browser says nothing"
            data = os.read(self._in, 1 << 20)
            assert data, "the browser has ended"
            self._rest += data
        text, _, self._rest = self._rest.partition(b"\0")
        told = json.loads(text)
        about, what = told.get("method"), told.get("params", {})
        if about == "Runtime.exceptionThrown" \
                or about == "Runtime.consoleAPICalled" and what["type"] in ("error", "warning") \
                or about == "Log.entryAdded" and what["entry"]["level"] in ("error", "warning"):
            self.errors.append(what)
        elif about == "Page.javascriptDialogOpening":
            self.asked.append(what["type"])
            self._send("Page.handleJavaScriptDialog", accept=True)
        return told

    def value(self, script: str) -> Any:
        """What an expression is on the page."""
        found = self._ask("Runtime.evaluate", expression=script, returnByValue=True,
                          awaitPromise=True)
        assert "exceptionDetails" not in found, found
        return found["result"].get("value")

    def wait(self, script: str, value: Any) -> None:
        """Waits until an expression has a value."""
        deadline = time.monotonic() + _PATIENCE
        while self.value(script) != value:
            assert time.monotonic() < deadline, (script, self.value(script), value)
            time.sleep(0.02)

    def navigate(self, address: str) -> None:
        """Opens another page, and forgets what was complained about."""
        self.errors.clear()
        self._ask("Page.navigate", url=address)

    def resize(self, width: int, height: int) -> None:
        """Makes the window as large as a person's; below 500 pixels it is a phone's."""
        self._ask("Emulation.setDeviceMetricsOverride", width=width, height=height, deviceScaleFactor=1,
                  mobile=width < 500)
        self._ask("Emulation.setTouchEmulationEnabled", enabled=width < 500)

    def reduce_motion(self, is_asked: bool) -> None:
        """Sets what a person asks of moving pictures."""
        value = "reduce" if is_asked else "no-preference"
        self._ask("Emulation.setEmulatedMedia",
                  features=[{"name": "prefers-reduced-motion", "value": value}])

    def prefer(self, scheme: str) -> None:
        """Sets the colours that a person asks of all pages: dark or light."""
        self._ask("Emulation.setEmulatedMedia", features=[{"name": "prefers-color-scheme", "value": scheme}])

    def slow_down(self, times: float) -> None:
        """Lets the page compute as if on a slower machine; 1 is as it is."""
        self._ask("Emulation.setCPUThrottlingRate", rate=times)

    def pull(self, *places: tuple[float, float]) -> None:
        """Moves the mouse with its button held, from a place over others."""
        start, end = places[0], places[-1]
        moves = [("mouseMoved", it, 1) for it in places[1:]]
        for kind, (x, y), held in (("mouseMoved", start, 0), ("mousePressed", start, 1), *moves,
                                   ("mouseReleased", end, 0)):
            button = "none" if kind == "mouseMoved" and not held else "left"
            self._ask("Input.dispatchMouseEvent", type=kind, x=x, y=y, button=button, buttons=held,
                      clickCount=int(kind != "mouseMoved"))

    def touch(self, kind: str, *places: tuple[float, float]) -> None:
        """Puts fingers down, moves or lifts them: touchStart, touchMove, touchEnd with those that stay."""
        self._ask("Input.dispatchTouchEvent", type=kind, touchPoints=[{"x": x, "y": y} for x, y in places])

    def tap(self, x: float, y: float) -> None:
        """Touches a place with a finger."""
        self.touch("touchStart", (x, y))
        self.touch("touchEnd")

    def key(self, key: str, code: int, modifiers: int = 0) -> None:
        """Presses a key; 2 is Ctrl, 8 Shift."""
        for kind in ("keyDown", "keyUp"):
            self._ask("Input.dispatchKeyEvent", type=kind, key=key, windowsVirtualKeyCode=code,
                      modifiers=modifiers)

    def heap(self) -> int:
        """Bytes of the page's heap, after its garbage was collected."""
        self._ask("HeapProfiler.collectGarbage")
        return self._ask("Runtime.getHeapUsage")["usedSize"]

    def download_to(self, folder: str) -> None:
        """Lets the page save files in a folder."""
        self._ask("Browser.setDownloadBehavior", behavior="allow", downloadPath=folder)

    def wait_for_file(self, path: Path) -> None:
        """Waits until a file is saved whole: Chromium renames it then."""
        deadline = time.monotonic() + _PATIENCE
        while not path.exists():
            assert time.monotonic() < deadline, path
            time.sleep(0.02)

    def print_to(self, path: Path) -> None:
        """Prints the page to a PDF file, as a person does."""
        path.write_bytes(base64.b64decode(self._ask("Page.printToPDF", preferCSSPageSize=False)["data"]))

    def screenshot(self, path: str) -> None:
        """Writes what is seen to a PNG file."""
        with open(path, "wb") as file:
            file.write(base64.b64decode(self._ask("Page.captureScreenshot")["data"]))
