"""Tests that share a folder."""
from __future__ import annotations

import tempfile
import unittest
from pathlib import Path


class InRoom(unittest.TestCase):
    """Tests of a class that have the folder `room`, which is gone when the last of them has run."""

    room: Path

    @classmethod
    def setUpClass(cls) -> None:
        room = tempfile.TemporaryDirectory()
        cls.addClassCleanup(room.cleanup)
        cls.room = Path(room.name)
