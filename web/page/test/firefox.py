"""Drives a headless Firefox by Marionette, the protocol that Firefox itself has for tests."""
from __future__ import annotations

import base64
import json
import re
import shutil
import socket
import subprocess
import tempfile
import time
from pathlib import Path
from typing import Any

from installed import program_there

SECONDS = 300.0
# How long is waited for a session to begin, the first time and each further one.
STARTS = (60.0, 120.0, SECONDS)
KEYS = {
    "Tab": "\ue004",
    "Enter": "\ue007",
    "ArrowRight": "\ue014",
    "ArrowDown": "\ue015",
    "ArrowUp": "\ue013",
    "Escape": "\ue00c",
}
# What the protocol calls an element in its messages.
ELEMENT = "element-6066-11e4-a52e-4f735466cecf"
# Firefox stores what it downloads in one folder, and asks nobody.
PREFERENCES = {
    "datareporting.policy.dataSubmissionEnabled": "false",
    "browser.download.folderList": "2",
    "browser.download.alwaysOpenPanel": "false",
}
OWN_FAULT = re.compile(r'\{file: "(resource|chrome):')
DARK = "layout.css.prefers-color-scheme.content-override"


def free_port() -> int:
    """Returns a port of this machine that nobody listens to."""
    with socket.socket() as one:
        one.bind(("127.0.0.1", 0))
        return int(one.getsockname()[1])


class Firefox:
    """One page in a headless Firefox."""

    def __init__(self) -> None:
        """Starts Firefox. Raises `NotThere` if none is installed."""
        program = program_there("firefox-esr", "firefox")
        for seconds in STARTS:
            try:
                self.start(program, seconds)
                return
            except OSError:
                # (on a busy machine a Firefox now and then answers nothing: another one is started)
                self.process.kill()
                self.process.wait()
                shutil.rmtree(self.room, ignore_errors=True)
        raise RuntimeError("Firefox doesn't begin a session")

    def start(self, program: str, seconds: float) -> None:
        """Starts Firefox and begins a session, for whose answer it waits so many seconds."""
        self.room = tempfile.mkdtemp(prefix="firefox-")
        port = free_port()
        self.downloads = Path(self.room) / "downloads"
        self.downloads.mkdir()
        preferences = {**PREFERENCES, "marionette.port": str(port)}
        preferences["browser.download.dir"] = json.dumps(str(self.downloads))
        lines = [f'user_pref("{name}", {value});' for name, value in preferences.items()]
        (Path(self.room) / "user.js").write_text("\n".join(lines), encoding="ascii")
        words = [program, "--headless", "--marionette", "--remote-allow-system-access"]
        words += ["--no-remote", "--profile", self.room]
        none = subprocess.DEVNULL
        self.process = subprocess.Popen(words, stdin=none, stdout=none, stderr=none)
        self.socket = self.connected(port, seconds)
        self.buffer = b""
        self.number = 0
        self.received()
        self.ask("WebDriver:NewSession", capabilities={})
        self.socket.settimeout(SECONDS)

    def connected(self, port: int, seconds: float) -> socket.socket:
        """Returns the connection, once Firefox listens. It waits so many seconds for an answer."""
        end = time.monotonic() + seconds
        while time.monotonic() < end:
            try:
                return socket.create_connection(("127.0.0.1", port), timeout=seconds)
            except OSError:
                time.sleep(0.2)
        raise TimeoutError("Firefox doesn't listen")

    def received(self) -> Any:
        """Returns the next message: its length, a colon, and JSON."""
        while b":" not in self.buffer:
            self.buffer += self.more()
        length, self.buffer = self.buffer.split(b":", 1)
        while len(self.buffer) < int(length):
            self.buffer += self.more()
        text, self.buffer = self.buffer[: int(length)], self.buffer[int(length) :]
        return json.loads(text)

    def more(self) -> bytes:
        """Returns further bytes of the connection."""
        found = self.socket.recv(1 << 16)
        if not found:
            raise RuntimeError("Firefox ended")
        return found

    def ask(self, command: str, **values: Any) -> Any:
        """Returns the answer to a command."""
        self.number += 1
        text = json.dumps([0, self.number, command, values]).encode()
        self.socket.sendall(str(len(text)).encode() + b":" + text)
        number = 0
        while number != self.number:
            # (the answer to an earlier command may come later than it was waited for)
            _, number, fault, answer = self.received()
        if fault:
            raise RuntimeError(str(fault))
        return answer

    def open(self, address: str) -> None:
        """Opens an address."""
        self.ask("WebDriver:Navigate", url=address)

    def value(self, script: str) -> Any:
        """Returns what a script gives in the page, by its `return`."""
        return self.ask("WebDriver:ExecuteScript", script=script, args=[])["value"]

    def of_browser(self, script: str) -> Any:
        """Returns what a script gives in Firefox itself, by its `return`."""
        self.ask("Marionette:SetContext", value="chrome")
        try:
            return self.value(script)
        finally:
            self.ask("Marionette:SetContext", value="content")

    def resize(self, width: int) -> None:
        """Makes the page as wide as this. A window of Firefox has at least 500 pixels."""
        self.ask("WebDriver:SetWindowRect", width=1400, height=900)
        self.of_browser(f"window.gBrowser.selectedBrowser.style.maxWidth = '{width}px'")
        end = time.monotonic() + SECONDS
        while self.value("return innerWidth") != width and time.monotonic() < end:
            time.sleep(0.05)
        # (the page draws its maps again a little after the window has its width)
        time.sleep(0.4)

    def act(self, kind: str, *actions: dict[str, Any]) -> None:
        """Does what a reader does with the pointer or with the keys."""
        source = {"type": kind, "id": kind, "actions": list(actions)}
        self.ask("WebDriver:PerformActions", actions=[source])

    def press(self, key: str) -> None:
        """Presses a key once."""
        value = KEYS.get(key, key)
        self.act("key", *({"type": kind, "value": value} for kind in ("keyDown", "keyUp")))

    def point(self, x: float, y: float) -> None:
        """Moves the pointer to a place of the window."""
        self.act("pointer", {"type": "pointerMove", "x": round(x), "y": round(y), "duration": 0})

    def click(self, x: float, y: float) -> None:
        """Clicks at a place of the window."""
        move = {"type": "pointerMove", "x": round(x), "y": round(y), "duration": 0}
        self.act("pointer", move, *({"type": f"pointer{it}", "button": 0} for it in ("Down", "Up")))

    def give_files(self, selector: str, paths: list[str]) -> None:
        """Has a reader choose files of the disk in the input of a selector."""
        found = self.ask("WebDriver:FindElement", using="css selector", value=selector)
        element = found["value"][ELEMENT]
        self.ask("WebDriver:ElementSendKeys", id=element, text="\n".join(paths))

    def told(self, path: str) -> list[str]:
        """Returns the lines of Firefox's console that name a file of the disk.

        Errors in files of Firefox itself are left out.
        """
        script = "return Services.console.getMessageArray().map((one) => one.message)"
        lines = [line for line in self.of_browser(script) if path in line]
        return [line for line in lines if not OWN_FAULT.search(line)]

    def set_dark(self, is_dark: bool) -> None:
        """Has pages be dark or light."""
        self.of_browser(f"Services.prefs.setIntPref('{DARK}', {0 if is_dark else 1})")

    def downloaded(self) -> bytes:
        """Waits for the one file that is downloaded, takes it away, and returns its bytes."""
        end = time.monotonic() + SECONDS
        while time.monotonic() < end:
            for path in self.downloads.iterdir():
                if path.suffix != ".part" and not list(self.downloads.glob("*.part")):
                    content = path.read_bytes()
                    if content:
                        path.unlink()
                        return content
            time.sleep(0.02)
        raise RuntimeError("nothing was downloaded")

    def printed(self) -> bytes:
        """Returns the page as it is printed, as PDF."""
        return base64.b64decode(self.ask("WebDriver:Print", background=True)["value"])

    def close(self) -> None:
        """Ends Firefox."""
        try:
            self.ask("Marionette:Quit")
            self.process.wait(timeout=20)
        except (RuntimeError, OSError, subprocess.TimeoutExpired):
            self.process.kill()
            self.process.wait()
        self.socket.close()
        shutil.rmtree(self.room, ignore_errors=True)
