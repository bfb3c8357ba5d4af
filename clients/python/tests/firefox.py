"""A headless Firefox, driven by its own protocol, Marionette: enough to look at one page."""
from __future__ import annotations

import json
import shutil
import socket
import subprocess
import tempfile
import time
from pathlib import Path
from typing import Any

FIREFOX = shutil.which("firefox-esr") or shutil.which("firefox")
_PATIENCE = 60.0  # seconds
_PREFERENCES = {"marionette.port": 0, "browser.shell.checkDefaultBrowser": False,
                "datareporting.policy.dataSubmissionEnabled": False, "app.update.auto": False,
                "network.captive-portal-service.enabled": False, "browser.startup.page": 0,
                "network.connectivity-service.enabled": False,
                "browser.sessionstore.resume_from_crash": False}
_FAULT = "document.body?.dataset.status === 'gone' ? 1 : 0"
_KEYS = {"Enter": "\ue007", "Escape": "\ue00c", "ArrowLeft": "\ue012", "ArrowUp": "\ue013",
         "ArrowRight": "\ue014", "ArrowDown": "\ue015", "Home": "\ue011"}
_HELD = {2: "\ue009", 8: "\ue008"}  # Ctrl and Shift, by the bits of Browser.key


class Firefox:
    """One page, with the methods of Browser that its tests use. `errors` has why its connection ended."""

    def __init__(self, address: str) -> None:
        self.errors: list[Any] = []
        self._number = 0
        self._room = Path(tempfile.mkdtemp(prefix="firefox-"))
        lines = [f"user_pref({json.dumps(name)}, {json.dumps(it)});" for name, it in _PREFERENCES.items()]
        (self._room / "user.js").write_text("\n".join(lines))
        self._process = subprocess.Popen(
            [FIREFOX, "--headless", "--marionette", "--no-remote", "--profile", str(self._room)],
            stdin=subprocess.DEVNULL, stdout=subprocess.DEVNULL, stderr=subprocess.DEVNULL)
        self._socket = socket.create_connection(("127.0.0.1", self._port()), _PATIENCE)
        self._stream = self._socket.makefile("rb")
        self._message()
        self._ask("WebDriver:NewSession", capabilities={"alwaysMatch": {}})
        self._ask("WebDriver:SetTimeouts", script=int(1000 * _PATIENCE))
        self.navigate(address)

    def __enter__(self) -> Firefox:
        return self

    def __exit__(self, *_: object) -> None:
        self._stream.close()
        self._socket.close()
        self._process.terminate()
        self._process.wait()
        shutil.rmtree(self._room, ignore_errors=True)

    def _port(self) -> int:
        """The port that Firefox has written into its profile."""
        path, deadline = self._room / "MarionetteActivePort", time.monotonic() + _PATIENCE
        while not (path.exists() and path.read_text()):
            assert self._process.poll() is None and time.monotonic() < deadline, "Firefox has not begun"
            time.sleep(0.05)
        return int(path.read_text())

    def _message(self) -> Any:
        length = b""
        while (byte := self._stream.read(1)) != b":":
            assert byte, "Firefox has ended"
            length += byte
        return json.loads(self._stream.read(int(length)))

    def _ask(self, command: str, **what: Any) -> Any:
        self._number += 1
        text = json.dumps([0, self._number, command, what]).encode()
        self._socket.sendall(b"%d:%s" % (len(text), text))
        _, number, error, result = self._message()
        assert number == self._number and error is None, (command, error)
        return result

    def value(self, script: str) -> Any:
        """What the last of some statements is on the page, when it has come if it is a promise."""
        text = """const [script, done] = arguments;
            Promise.resolve().then(() => eval(script))
                .then((it) => done({ it }), (fault) => done({ fault: `${fault}` }));"""
        found = self._ask("WebDriver:ExecuteAsyncScript", script=text, args=[script], sandbox=None)["value"]
        assert "fault" not in found, (script, found)
        return found.get("it")

    def wait(self, script: str, value: Any) -> None:
        """Waits until an expression has a value."""
        deadline = time.monotonic() + _PATIENCE
        while self.value(script) != value:
            assert time.monotonic() < deadline, (script, self.value(script), value)
            time.sleep(0.02)
        if self.value(_FAULT):
            self.errors.append(self.value("document.getElementById('banner').textContent"))

    def navigate(self, address: str) -> None:
        """Opens another page, and forgets what was complained about."""
        self.errors.clear()
        self._ask("WebDriver:Navigate", url=address)

    def resize(self, width: int, height: int) -> None:
        """Makes the window as large as a person's."""
        self._ask("WebDriver:SetWindowRect", width=width, height=height)

    def reduce_motion(self, is_asked: bool) -> None:
        """Firefox moves as its system asks."""
        assert not is_asked

    def pull(self, *places: tuple[float, float]) -> None:
        """Moves the mouse with its button held, from a place over others."""
        moves = [{"type": "pointerMove", "x": round(x), "y": round(y), "duration": 0} for x, y in places]
        self._perform({"type": "pointer", "id": "mouse", "parameters": {"pointerType": "mouse"}, "actions": [
            moves[0], {"type": "pointerDown", "button": 0}, *moves[1:], {"type": "pointerUp", "button": 0}]})

    def key(self, key: str, _: int, modifiers: int = 0) -> None:
        """Presses a key; 2 is Ctrl, 8 Shift."""
        held = [it for bit, it in _HELD.items() if modifiers & bit] + [_KEYS.get(key, key)]
        self._perform({"type": "key", "id": "keys", "actions": [
            *({"type": "keyDown", "value": it} for it in held),
            *({"type": "keyUp", "value": it} for it in reversed(held))]})

    def _perform(self, source: Any) -> None:
        self._ask("WebDriver:PerformActions", actions=[source])
