"""The page in Firefox: what is tested in Chromium, as far as it depends on the browser."""

import json
import socket
import tempfile
import time
import unittest
from pathlib import Path
from typing import Any

from page_setting import CONTRAST, SECONDS, SIDEWAYS, TINTED, page
from firefox import Firefox
from printed_page import LEAST_LINES, lines_drawn
from installed import NotThere
from native_texts import COUNTS, GROUP_OF, OPTIONS, option_texts, pairs_of_one_tint

WIDTHS = (360, 390, 768, 1024, 1400)
MARKS = ("#senate/6", "#house/1", "#proof/senate", "#whatif/house", "#files")
NAMES = """return [...document.querySelectorAll("#map text.name")].map((one) => (
  [one.textContent, parseFloat(one.style.fontSize) * Number(one.closest("svg").dataset.scale)]))"""
ENGINE = "return typeof WebAssembly === 'object'"
PILL = """const { x, y, width, height } = document.querySelector(
  '#map .badge[aria-label^="Wake and Granville"]').getBoundingClientRect();
return [x + width / 2, y + height / 2];"""


class Answers(unittest.TestCase):
    """The answers to commands, without a Firefox."""

    def test_a_late_answer_is_of_its_command_alone(self) -> None:
        firefox = object.__new__(Firefox)
        firefox.socket, other = socket.socketpair()
        self.addCleanup(firefox.socket.close)
        self.addCleanup(other.close)
        firefox.number, firefox.buffer = 7, b""
        for number, value in ((7, "late"), (8, "own")):
            text = json.dumps([1, number, None, {"value": value}]).encode()
            other.sendall(str(len(text)).encode() + b":" + text)
        self.assertEqual(firefox.value("return 1"), "own")


class InFirefox(unittest.TestCase):
    """One page in Firefox."""

    firefox: Firefox

    @classmethod
    def setUpClass(cls) -> None:
        page()
        cls.firefox = Firefox()
        cls.addClassCleanup(cls.firefox.close)
        cls.firefox.resize(1400)

    def open(self, mark: str) -> None:
        """Opens the page anew at a mark of its address."""
        self.firefox.open("about:blank")
        self.firefox.open(page().as_uri() + mark)

    def value(self, script: str) -> Any:
        """Returns what a script gives, by its `return`."""
        return self.firefox.value(script)

    def text(self, selector: str) -> str:
        """Returns the words of an element."""
        return str(self.value(f"return document.querySelector('{selector}').innerText"))

    def wait(self, selector: str, words: str = "", seconds: float = SECONDS) -> str:
        """Waits until an element has words, and returns its text."""
        end = time.monotonic() + seconds
        while time.monotonic() < end:
            if (found := self.text(selector).strip()) and words in found:
                return found
            time.sleep(0.1)
        raise AssertionError(f"{selector} says {self.text(selector)!r}, not {words!r}")

    def stored(self, kind: str) -> bytes:
        """Returns what a button of the menu stores."""
        self.value(f"document.querySelector('[data-download={kind}]').click()")
        return self.firefox.downloaded()

    def can_run(self) -> bool:
        """Returns whether this Firefox has WebAssembly."""
        return bool(self.value(ENGINE))

    def test_each_option(self) -> None:
        self.open("")
        with tempfile.TemporaryDirectory() as room:
            for key, option in OPTIONS:
                with self.subTest(f"{key} {option}"):
                    self.value(f"location.hash = '#{key}/{option}'")
                    self.wait("#option", f"Option {option} of {COUNTS[key]}")
                    self.assertEqual(pairs_of_one_tint(self.value(f"return {GROUP_OF}")), [])
                    grouping, table = option_texts(Path(room), key, option)
                    self.assertEqual(self.stored("grouping"), grouping)
                    self.assertEqual(self.stored("csv"), table)

    def test_names(self) -> None:
        for mark in ("#senate/6", "#house/7"):
            self.open(mark)
            names = self.value(NAMES)
            self.assertEqual(len({name for name, _ in names}), 100)
            self.assertGreaterEqual(min(size for _, size in names), 10.7)

    def test_no_sideways_scrolling(self) -> None:
        self.addCleanup(self.firefox.resize, 1400)
        for width in WIDTHS:
            self.firefox.resize(width)
            for mark in MARKS:
                with self.subTest(f"{width} {mark}"):
                    self.open(mark)
                    self.assertLessEqual(self.value(f"return {SIDEWAYS}"), 0)

    def test_contrast(self) -> None:
        self.open("#senate/6")
        for is_dark in (True, False):
            self.firefox.set_dark(is_dark)
            ratios = self.value(f"return {CONTRAST.strip().replace('PAIRS', str(TINTED))}")
            for pair, ratio in zip(TINTED, ratios):
                self.assertGreaterEqual(ratio, 4.5, f"{pair} dark={is_dark}")

    def test_pointer_keys_and_switches(self) -> None:
        self.open("#senate/6")
        self.firefox.point(*self.value(PILL))
        self.assertIn("1,190,402", self.text("#told"))
        self.value("document.querySelector('#next').focus()")
        self.firefox.press("Enter")
        self.assertEqual(self.text("#option"), "Option 7 of 16")
        in_map = "return document.activeElement.closest('#map') !== null"
        while not self.value(in_map):
            self.firefox.press("Tab")
        seen = set()
        for _ in range(6):
            self.firefox.press("ArrowRight")
            seen.add(self.value("return document.activeElement.getAttribute('aria-label')"))
        self.assertGreater(len(seen), 3)
        letter = "#map .letter[data-area='1'][aria-pressed='false']"
        self.value(f'document.querySelector("{letter}").focus()')
        self.firefox.press("Enter")
        self.assertNotEqual(self.text("#option"), "Option 7 of 16")

    def test_print(self) -> None:
        self.open("#senate/6")
        self.assertGreater(lines_drawn(self.firefox.printed()), LEAST_LINES)

    def test_the_check(self) -> None:
        for key, button in (("senate", "#check"), ("house", "#check"), ("house", "#spoil")):
            self.open(f"#proof/{key}")
            # (line 6 has a group of the target)
            self.value("document.querySelector('#spoil-line').value = '6'")
            self.value(f"document.querySelector('{button}').click()")
            told = self.wait("#check-verdict")
            wanted = "The certificate proves it." if button == "#check" else "The checker says no."
            self.assertIn(wanted if self.can_run() else "This browser can't run the program", told)

    def test_a_what_if(self) -> None:
        self.open("#whatif/senate/cut=37023-37109")
        if not self.can_run():
            self.wait("#whatif-progress", "This browser can't run the program")
            return
        self.wait("#whatif-progress", "Solved in")
        self.assertIn("Eight of the 16 best groupings are left.", self.text("#whatif-result"))

    def test_a_border_that_decides(self) -> None:
        self.open("#whatif/senate")
        if self.value("return document.querySelector('#deciding').hidden"):
            raise NotThere("this page was made without the tables of borders (--tables)")
        self.assertIn("52 of them change the list", self.text("#deciding-borders p"))
        if not self.can_run():
            return
        self.value("document.querySelector('#deciding a[data-cut=\"37023 37109\"]').click()")
        self.wait("#whatif-result", "Eight of the 16 best groupings are left.")

    def test_a_pair_by_keys(self) -> None:
        self.open("#whatif/senate")
        self.value("document.querySelector('#other-pair').open = true")
        self.value("document.querySelector('#other-pair label + label select').focus()")
        self.firefox.press("ArrowDown")
        self.wait("#pair-note", "Alamance and Alexander don’t count as neighbors here.")
        self.value("document.querySelector('#change-pair').focus()")
        self.firefox.press("Enter")
        self.wait("#changed-pairs", "Alamance–Alexander counted")

    def test_the_files_of_the_page(self) -> None:
        self.open("#files")
        if not self.can_run():
            self.wait("#dropped", "This browser can't run the program")
            return
        self.value("document.querySelector('#use-own').click()")
        end = time.monotonic() + SECONDS
        while self.value("return document.querySelector('#solve-files').disabled"):
            self.assertLess(time.monotonic(), end)
        self.value("document.querySelector('#solve-files').click()")
        self.wait("#files-result", "16 best groupings")

    def test_nothing_on_the_console(self) -> None:
        for mark in MARKS:
            self.open(mark)
        self.assertEqual(self.firefox.told(page().name), [])
