"""A reader with Firefox, who does what the tests of either browser ask."""
from __future__ import annotations

import json
import time
from pathlib import Path
from typing import Any

from page_setting import MOST_TABS, PLACE_OF, SECONDS, page
from class_room import InRoom
from firefox import Firefox


class FirefoxReader(InRoom):
    """Tests of a class that have one Firefox and one folder."""

    firefox: Firefox

    @classmethod
    def setUpClass(cls) -> None:
        page()
        super().setUpClass()
        cls.firefox = Firefox()
        cls.addClassCleanup(cls.firefox.close)

    def open(self, mark: str = "", **how: Any) -> None:
        """Opens the page anew at a mark of its address, in a window of a `width`, `dark` or not."""
        width = how.get("width", 1400)
        self.firefox.open("about:blank")
        self.firefox.set_dark(how.get("dark", False))
        if self.firefox.value("return innerWidth") != width:
            self.firefox.resize(width)
        self.firefox.open(page().as_uri() + mark)

    def go(self, mark: str) -> None:
        """Goes to a mark of the page, as a link does."""
        self.firefox.value(f"location.hash = {json.dumps(mark)}")
        time.sleep(0.1)

    def value(self, script: str) -> Any:
        """Returns what an expression gives."""
        return self.firefox.value(f"return {script.strip()}")

    def text(self, selector: str) -> str:
        """Returns the words of an element as they are shown."""
        return str(self.value(f"document.querySelector({json.dumps(selector)}).innerText"))

    def click(self, selector: str) -> None:
        """Clicks an element by the pointer."""
        self.firefox.click(*self.value(PLACE_OF.replace("SELECTOR", json.dumps(selector))))

    def press_button(self, selector: str) -> None:
        """Presses a button or another control by a script."""
        self.value(f"document.querySelector({json.dumps(selector)}).click()")

    def press(self, key: str) -> None:
        """Presses a key once."""
        self.firefox.press(key)

    def type_text(self, text: str) -> None:
        """Types a text into what has the focus."""
        for letter in text:
            self.firefox.press(letter)

    def tab_to(self, selector: str) -> None:
        """Presses the Tab key until an element of the selector has the focus."""
        for _ in range(MOST_TABS):
            if self.value(f"document.activeElement.matches({json.dumps(selector)})"):
                return
            self.firefox.press("Tab")
        raise AssertionError(f"the Tab key never comes to {selector}")

    def wait(self, script: str, seconds: float = SECONDS) -> float:
        """Waits until an expression gives true, and returns how long it took, in seconds."""
        start = time.monotonic()
        while time.monotonic() - start < seconds:
            if self.value(script):
                return time.monotonic() - start
            time.sleep(0.05)
        raise AssertionError(f"never so: {script}")

    def wait_words(self, selector: str, words: str, seconds: float = SECONDS) -> str:
        """Waits until an element has words, and returns its text."""
        start = time.monotonic()
        while time.monotonic() - start < seconds:
            if words in self.text(selector):
                return self.text(selector)
            time.sleep(0.05)
        raise AssertionError(f"{selector} says {self.text(selector)!r}, not {words!r}")

    def give(self, selector: str, *paths: Path) -> None:
        """Has a reader choose files."""
        self.firefox.give_files(selector, [str(path) for path in paths])

    def stored(self, kind: str) -> bytes:
        """Returns what a button of the menu stores."""
        self.press_button(f"[data-download={kind}]")
        return self.firefox.downloaded()

    def check_quiet(self) -> None:
        """Wants nothing on the console."""
        self.assertEqual(self.firefox.told(page().name), [])
