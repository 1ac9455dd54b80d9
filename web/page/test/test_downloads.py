"""Downloads in a row, more of them than Chromium lets a page start within a second."""
from __future__ import annotations

import unittest

import page_setting  # noqa: F401  (so that the modules of tools/ are found)
from browser import DOWNLOAD_SECONDS, MOST_DOWNLOADS, DownloadPace
from browser_trial import InBrowser

NUMBER = 22
PAGE = '<!doctype html><title>Test</title><a download="word" href="data:text/plain,word">a</a>'


class Pace(unittest.TestCase):
    """When the next download may start."""

    def test_the_tenth_waits(self) -> None:
        pace = DownloadPace()
        for at in range(MOST_DOWNLOADS):
            self.assertEqual(pace.left(at / 100), 0)
            pace.note(at / 100)
        self.assertAlmostEqual(pace.left(0.5), DOWNLOAD_SECONDS - 0.5)
        self.assertEqual(pace.left(DOWNLOAD_SECONDS), 0)
        pace.note(DOWNLOAD_SECONDS)
        self.assertAlmostEqual(pace.left(DOWNLOAD_SECONDS), 0.01)


class InARow(InBrowser):
    """Downloads as fast as the browser stores them."""

    def test_none_is_dropped(self) -> None:
        path = self.room / "page.html"
        path.write_text(PAGE, encoding="ascii")
        self.browser.open(str(path))
        for number in range(NUMBER):
            folder = str(self.room / f"stored-{number}")
            stored = self.browser.download("document.querySelector('a').click(); null", folder)
            with open(stored, encoding="ascii") as file:
                self.assertEqual(file.read(), "word")
