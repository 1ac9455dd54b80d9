"""Tests that a caller that ends leaves no program and no folder, and that time is bounded."""
from __future__ import annotations

import os
import signal
import subprocess
import sys
import tempfile
import time
import unittest
from pathlib import Path

from countygroups import TimeLimitError, find_program
from countygroups.running import HAS_TERMINALS

PACKAGE = Path(__file__).resolve().parents[1]
# Runs a program that doesn't end, as a caller of this package. Its working folder is told.
# (a caller that is started in the background may have been told to ignore interrupts)
CALLER = """
import signal, sys, tempfile
from pathlib import Path
import countygroups
signal.signal(signal.SIGINT, signal.default_int_handler)
with tempfile.TemporaryDirectory(dir=sys.argv[2]) as room:
    tell = print if sys.argv[3] == "tell" else None
    countygroups.find_program(sys.argv[1]).run([], Path(room), tell)
"""
ENDLESS = """#!/bin/sh
echo $$ >"$STARTED"
exec sleep 600
"""


def lives(process: int) -> bool:
    """Returns whether a process is there and isn't only waited for."""
    try:
        state = Path(f"/proc/{process}/stat").read_text(encoding="ascii").rsplit(")", 1)[1].split()
    except OSError:
        return False
    return state[0] != "Z"


@unittest.skipUnless(Path("/proc/self/stat").is_file(), "the system has no /proc")
class Callers(unittest.TestCase):
    """Runs callers in processes of their own, and ends them."""

    def setUp(self) -> None:
        room = tempfile.TemporaryDirectory()
        self.addCleanup(room.cleanup)
        self.room = Path(room.name)
        self.program = self.room / "program"
        self.program.write_text(ENDLESS, encoding="ascii")
        self.program.chmod(0o755)
        self.folders = self.room / "folders"
        self.folders.mkdir()
        self.started = self.room / "started"

    def wait_for(self, what: str, is_so: object) -> None:
        """Waits until `is_so` gives true, and fails after 20 seconds."""
        ends_at = time.monotonic() + 20
        while not is_so():  # type: ignore[operator]
            self.assertLess(time.monotonic(), ends_at, what)
            time.sleep(0.02)

    def end_caller(self, number: signal.Signals, tell: str) -> None:
        """Ends a caller by a signal, and waits until its program and its folder are gone."""
        words = [sys.executable, "-c", CALLER, str(self.program), str(self.folders), tell]
        env = {**os.environ, "STARTED": str(self.started), "PYTHONPATH": str(PACKAGE)}
        with subprocess.Popen(words, env=env, stderr=subprocess.DEVNULL) as caller:
            self.wait_for("it starts", lambda: self.started.exists() and self.started.read_text())
            program = int(self.started.read_text(encoding="ascii"))
            self.assertTrue(lives(program))
            caller.send_signal(number)
            caller.wait(20)
        self.wait_for("the program is gone", lambda: not lives(program))
        self.wait_for("the folder is gone", lambda: not list(self.folders.iterdir()))
        self.started.unlink()

    def test_ended(self) -> None:
        for number in (signal.SIGTERM, signal.SIGKILL, signal.SIGINT):
            with self.subTest(signal=number):
                self.end_caller(number, "silent")

    @unittest.skipUnless(HAS_TERMINALS, "the system has no pseudo terminals")
    def test_ended_while_it_tells(self) -> None:
        for number in (signal.SIGKILL, signal.SIGINT):
            with self.subTest(signal=number):
                self.end_caller(number, "tell")

    def test_time_is_over(self) -> None:
        os.environ["STARTED"] = str(self.started)
        self.addCleanup(os.environ.pop, "STARTED")
        for tell in [None, print] if HAS_TERMINALS else [None]:
            begun = time.monotonic()
            room = tempfile.mkdtemp(dir=self.folders)
            with self.assertRaisesRegex(TimeLimitError, "no answer after 0.3 seconds"):
                find_program(self.program).run([], Path(room), tell, 0.3)
            self.assertLess(time.monotonic() - begun, 10)
            program = int(self.started.read_text(encoding="ascii"))
            self.wait_for("the program is gone", lambda: not lives(program))


if __name__ == "__main__":
    unittest.main()
