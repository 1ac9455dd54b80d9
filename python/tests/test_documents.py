"""Runs the Python of README.md as it stands, and compares what it prints."""
from __future__ import annotations

import contextlib
import importlib.util
import io
import os
import re
import sys
import tempfile
import unittest
import warnings
from pathlib import Path
from typing import Any

from tests.setting import needs_program
from tests.test_packages import needs

TOP = Path(__file__).resolve().parents[2]
STAND_IN = Path(__file__).resolve().parent / "stand_in"
BLOCK = re.compile(r"^```python\n(.*?)^```\n(?:\n```text\n(.*?)^```\n)?", re.M | re.S)


def printed(source: str, names: dict[str, Any]) -> str:
    """Returns what Python prints that is run with these names."""
    written = io.StringIO()
    with contextlib.redirect_stdout(written):
        exec(compile(source, "a document", "exec"), names)
    return written.getvalue()


@needs_program
@needs("geopandas", "networkx", "matplotlib")
class Documents(unittest.TestCase):
    """Tests each document in a folder that has the data of the repository."""

    def run_document(self, name: str) -> None:
        """Runs the blocks of a document one after the other."""
        blocks = BLOCK.findall((TOP / name).read_text(encoding="utf-8"))
        names: dict[str, Any] = {}
        here = os.getcwd()
        with tempfile.TemporaryDirectory() as room, warnings.catch_warnings():
            warnings.simplefilter("ignore", ResourceWarning)
            os.symlink(TOP / "data", Path(room) / "data")
            os.chdir(room)
            try:
                for source, wanted in blocks:
                    self.assertEqual(printed(source, names), wanted)
            finally:
                os.chdir(here)
        self.assertGreaterEqual(len(blocks), 3)

    def test_readme(self) -> None:
        self.run_document("python/README.md")

    def test_gerrychain(self) -> None:
        """Runs the tutorial by GerryChain, or else by what stands in for it."""
        if importlib.util.find_spec("gerrychain") is None:
            print("gerrychain isn't installed: its calls are those of tests/stand_in")
            sys.path.insert(0, str(STAND_IN))
            self.addCleanup(sys.path.remove, str(STAND_IN))
        self.run_document("python/gerrychain.md")


if __name__ == "__main__":
    unittest.main()
