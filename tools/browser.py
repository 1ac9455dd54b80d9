"""Drives a headless Chromium over a pipe, for tests of pages. It opens no port."""
from __future__ import annotations

import base64
import json
import os
import select
import shutil
import subprocess
import tempfile
import time
from collections import deque
from typing import Any

from installed import program_there

SECONDS = 300
NAMES = ("chromium", "chromium-browser", "google-chrome")
KEYS = {
    "Tab": 9,
    "Enter": 13,
    "Escape": 27,
    " ": 32,
    "ArrowLeft": 37,
    "ArrowUp": 38,
    "ArrowRight": 39,
    "ArrowDown": 40,
}
NO_WORDS = {" ": "Space"}
SHIFT = 8
# Chromium lets a page start ten downloads within a second of the first of them, and drops each
# further one without a word. So one waits that would be the tenth within somewhat more than that.
MOST_DOWNLOADS = 9
DOWNLOAD_SECONDS = 1.1


class DownloadPace:
    """The times of the last downloads, by which the next one waits for its turn."""

    def __init__(self) -> None:
        """Has no download yet."""
        self.ends: deque[float] = deque(maxlen=MOST_DOWNLOADS)

    def left(self, now: float) -> float:
        """Returns for how many seconds from `now` on no download may start."""
        if len(self.ends) < MOST_DOWNLOADS:
            return 0.0
        return max(0.0, self.ends[0] + DOWNLOAD_SECONDS - now)

    def note(self, now: float) -> None:
        """Keeps `now` as the time of a download that ended. It started before, so that the next
        ones wait long enough."""
        self.ends.append(now)


class Browser:
    """One page in a headless Chromium. What went wrong on its console is in `faults`, and each
    address that the page asked for in `events`."""

    def __init__(self) -> None:
        """Starts the browser. Raises `NotThere` if no Chromium is installed."""
        program = program_there(*NAMES)
        self.room = tempfile.mkdtemp(prefix="browser-")
        to_browser, self.to = os.pipe()
        self.back, from_browser = os.pipe()
        words = [program, "--headless=new", "--no-sandbox", "--disable-gpu", "--no-first-run"]
        words += ["--remote-debugging-pipe", f"--user-data-dir={self.room}", "about:blank"]

        def join_pipes() -> None:
            """Has the browser read from its file 3, and write to its file 4."""
            spare = os.dup(to_browser), os.dup(from_browser)
            os.dup2(spare[0], 3)
            os.dup2(spare[1], 4)

        none = subprocess.DEVNULL
        self.process = subprocess.Popen(
            words, preexec_fn=join_pipes, close_fds=False, stdin=none, stdout=none, stderr=none
        )
        os.close(to_browser)
        os.close(from_browser)
        self.number, self.buffer = 0, b""
        self.session: str | None = None
        self.faults: list[str] = []
        self.events: list[str] = []
        self.pace = DownloadPace()
        target = self.ask("Target.createTarget", url="about:blank")["targetId"]
        self.session = self.ask("Target.attachToTarget", targetId=target, flatten=True)["sessionId"]
        for domain in ("Page", "Runtime", "Log", "Network", "DOM"):
            self.ask(f"{domain}.enable")

    def close(self) -> None:
        """Ends the browser."""
        os.close(self.to)
        try:
            self.process.wait(timeout=10)
        except subprocess.TimeoutExpired:
            self.process.kill()
            self.process.wait()
        os.close(self.back)
        time.sleep(0.2)
        shutil.rmtree(self.room, ignore_errors=True)

    def ask(self, method: str, **values: Any) -> Any:
        """Returns the answer to one command of the browser's protocol."""
        self.number += 1
        message = {"id": self.number, "method": method, "params": values}
        if self.session:
            message["sessionId"] = self.session
        self.send(json.dumps(message).encode() + b"\0")
        end = time.monotonic() + SECONDS
        while time.monotonic() < end:
            answer = self.next_message()
            if answer.get("id") == self.number:
                if "error" in answer:
                    raise RuntimeError(f"{method}: {answer['error']}")
                return answer["result"]
            self.note(answer)
        raise RuntimeError(f"{method}: no answer")

    def send(self, message: bytes) -> None:
        """Writes a whole message."""
        while message:
            message = message[os.write(self.to, message) :]

    def next_message(self) -> Any:
        """Returns the next message that the browser sends."""
        while b"\0" not in self.buffer:
            if not select.select([self.back], [], [], SECONDS)[0]:
                raise RuntimeError("the browser is silent")
            more = os.read(self.back, 1 << 16)
            if not more:
                raise RuntimeError("the browser ended")
            self.buffer += more
        text, self.buffer = self.buffer.split(b"\0", 1)
        return json.loads(text)

    def note(self, event: Any) -> None:
        """Keeps what went wrong, and each address that was asked for."""
        method, values = event.get("method"), event.get("params", {})
        if method == "Runtime.exceptionThrown":
            details = values["exceptionDetails"]
            told = details.get("exception", {}).get("description")
            self.faults.append(told or details["text"])
        elif method == "Runtime.consoleAPICalled" and values["type"] in ("error", "warning"):
            self.faults.append(str(values["args"]))
        elif method == "Log.entryAdded" and values["entry"]["level"] in ("error", "warning"):
            self.faults.append(values["entry"]["text"])
        elif method == "Network.requestWillBeSent":
            self.events.append(values["request"]["url"])
        elif method == "Page.loadEventFired":
            self.events.append("loaded")

    def open(
        self,
        path: str,
        width: int = 1200,
        height: int = 900,
        has_scripts: bool = True,
        dark: bool = False,
        mark: str = "",
    ) -> None:
        """Opens a file in a window of this size, at a mark of its address such as `#proof`."""
        self.ask(
            "Emulation.setDeviceMetricsOverride",
            width=width,
            height=height,
            deviceScaleFactor=1,
            mobile=width < 600,
        )
        self.ask("Emulation.setScriptExecutionDisabled", value=not has_scripts)
        scheme = {"name": "prefers-color-scheme", "value": "dark" if dark else "light"}
        self.ask("Emulation.setEmulatedMedia", features=[scheme])
        # (an address that differs by its mark alone would not load the page anew)
        self.ask("Page.navigate", url="about:blank")
        self.wait_loaded()
        self.events = []
        self.ask("Page.navigate", url=f"file://{os.path.abspath(path)}{mark}")
        self.wait_loaded()

    def wait_loaded(self) -> None:
        """Waits until the page is loaded."""
        end = time.monotonic() + SECONDS
        while "loaded" not in self.events and time.monotonic() < end:
            self.note(self.next_message())
        self.events.remove("loaded")

    def value(self, script: str) -> Any:
        """Returns what a script gives in the page."""
        answer = self.ask(
            "Runtime.evaluate",
            expression=script,
            returnByValue=True,
            awaitPromise=True,
            userGesture=True,
        )
        if "exceptionDetails" in answer:
            raise RuntimeError(str(answer["exceptionDetails"]))
        return answer["result"].get("value")

    def press(self, key: str, is_shifted: bool = False) -> None:
        """Presses a key once, with the shift key or without it."""
        code = KEYS[key]
        more = {"text": "\r" if key == "Enter" else key} if key in ("Enter", " ") else {}
        for kind in ("keyDown", "keyUp"):
            self.ask(
                "Input.dispatchKeyEvent",
                type=kind,
                key=key,
                code=NO_WORDS.get(key, key),
                windowsVirtualKeyCode=code,
                modifiers=SHIFT if is_shifted else 0,
                **(more if kind == "keyDown" else {}),
            )

    def point(self, x: float, y: float) -> None:
        """Moves the pointer to a place of the window."""
        self.ask("Input.dispatchMouseEvent", type="mouseMoved", x=x, y=y)

    def click(self, x: float, y: float) -> None:
        """Clicks at a place of the window."""
        self.point(x, y)
        for kind in ("mousePressed", "mouseReleased"):
            self.ask("Input.dispatchMouseEvent", type=kind, x=x, y=y, button="left", clickCount=1)

    def tap(self, x: float, y: float) -> None:
        """Taps a place of the window with a finger."""
        self.ask("Emulation.setTouchEmulationEnabled", enabled=True)
        self.ask("Input.dispatchTouchEvent", type="touchStart", touchPoints=[{"x": x, "y": y}])
        self.ask("Input.dispatchTouchEvent", type="touchEnd", touchPoints=[])

    def drop_files(self, x: float, y: float, paths: list[str]) -> None:
        """Drags files of the disk to a place of the window, and drops them there."""
        carried = {"items": [], "files": paths, "dragOperationsMask": 1}
        for kind in ("dragEnter", "dragOver", "drop"):
            self.ask("Input.dispatchDragEvent", type=kind, x=x, y=y, data=carried)

    def give_files(self, selector: str, paths: list[str]) -> None:
        """Has a reader choose files of the disk in the input of a selector."""
        root = self.ask("DOM.getDocument")["root"]["nodeId"]
        node = self.ask("DOM.querySelector", nodeId=root, selector=selector)["nodeId"]
        self.ask("DOM.setFileInputFiles", nodeId=node, files=paths)

    def download(self, script: str, folder: str) -> str:
        """Returns the path of the one file that a script downloads to a folder."""
        self.allow_downloads(folder)
        self.value(script)
        return self.downloaded(folder)

    def allow_downloads(self, folder: str) -> None:
        """Has the next download stored in a folder, and waits until it may start."""
        os.makedirs(folder, exist_ok=True)
        time.sleep(self.pace.left(time.monotonic()))
        self.ask("Browser.setDownloadBehavior", behavior="allow", downloadPath=folder)

    def downloaded(self, folder: str) -> str:
        """Waits for the one file that is downloaded to a folder, and returns its path."""
        end = time.monotonic() + SECONDS
        while time.monotonic() < end:
            names = [
                name
                for name in os.listdir(folder)
                if not name.endswith(".crdownload") and not name.startswith(".")
            ]
            if names and os.path.getsize(path := os.path.join(folder, names[0])):
                self.pace.note(time.monotonic())
                return path
            time.sleep(0.02)
        raise RuntimeError("nothing was downloaded")

    def save_picture(self, path: str, is_whole: bool = True) -> None:
        """Stores a picture of the page."""
        self.save(path, "Page.captureScreenshot", captureBeyondViewport=is_whole)

    def save_print(self, path: str, width: float, height: float) -> None:
        """Stores the page as it is printed on paper of this size in inches."""
        size = {"paperWidth": width, "paperHeight": height}
        self.save(path, "Page.printToPDF", printBackground=True, preferCSSPageSize=True, **size)

    def save(self, path: str, method: str, **values: Any) -> None:
        """Stores the data with which a command of the browser's protocol answers."""
        data = self.ask(method, **values)["data"]
        with open(path, "wb") as file:
            file.write(base64.b64decode(data))
