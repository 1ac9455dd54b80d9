"""Tests that run in a browser."""
from __future__ import annotations

from browser import Browser
from class_room import InRoom


class InBrowser(InRoom):
    """Tests of a class that have one Chromium and one folder."""

    browser: Browser

    @classmethod
    def setUpClass(cls) -> None:
        super().setUpClass()
        cls.browser = Browser()
        cls.addClassCleanup(cls.browser.close)
