"""Tests of progress, by a program that writes what the real one writes to a terminal."""
from __future__ import annotations

import tempfile
import time
import unittest
from pathlib import Path

from countygroups.program import CLEAR, Progress, Run, TerminalText, find_program
from countygroups.running import HAS_TERMINALS

LINE = "countygroups: groups of up to 9 counties, best counts so far 2 0 1 .., 50 of 100 steps"
WANTED = Progress(9, (2, 0, 1), 50, 100, LINE)
WARNING = b"countygroups: warning: an older file stays\n"


class Texts(unittest.TestCase):
    """Tests how what a terminal gets is taken apart."""

    def test_pieces_of_any_length(self) -> None:
        whole = WARNING + CLEAR + LINE.encode() + CLEAR + LINE.encode() + CLEAR + WARNING
        for length in (1, 2, 7, len(whole)):
            told: list[Progress] = []
            text = TerminalText(told.append)
            for place in range(0, len(whole), length):
                text.write(whole[place : place + length])
            self.assertEqual(told, [WANTED, WANTED])
            self.assertEqual(text.text(), WARNING + WARNING)

    def test_no_counts_yet(self) -> None:
        told: list[Progress] = []
        line = "countygroups: groups of up to 1 counties, best counts so far, 1 of 2 steps"
        TerminalText(told.append).write(CLEAR + line.encode())
        self.assertEqual(told, [Progress(1, (), 1, 2, line)])


class Stopped(Exception):
    """Is raised by a callback."""


@unittest.skipUnless(HAS_TERMINALS, "the system has no pseudo terminals")
class Runs(unittest.TestCase):
    """Tests runs of a program on a terminal."""

    def run_script(self, script: str, tell: object) -> Run:
        """Runs a shell script as the program."""
        with tempfile.TemporaryDirectory() as room:
            path = Path(room) / "program"
            path.write_text(f"#!/bin/sh\n{script}\n", encoding="ascii")
            path.chmod(0o755)
            return find_program(path).run([], Path(room), tell)  # type: ignore[arg-type]

    def test_told(self) -> None:
        script = f"""[ -t 2 ] || exit 9
            printf '\\r\\033[K%s' '{LINE}' >&2; printf '\\r\\033[K' >&2
            echo 'a warning' >&2; echo 'answer best'; exit 3"""
        told: list[Progress] = []
        self.assertEqual(
            self.run_script(script, told.append), Run(3, "answer best\n", ("a warning",))
        )
        self.assertEqual([one for one in told if one.line], [WANTED])
        self.assertEqual(self.run_script(script, None).status, 9)

    def test_told_while_the_program_tells_nothing(self) -> None:
        """The callback can end a program that writes no progress."""
        told: list[Progress] = []

        def stop(progress: Progress) -> None:
            """Raises `Stopped` the second time."""
            told.append(progress)
            if len(told) == 2:
                raise Stopped

        self.assertRaises(Stopped, self.run_script, "exec sleep 30", stop)
        self.assertEqual(told, [Progress(0, (), 0, 0, "")] * 2)

    def test_stopped_by_the_callback(self) -> None:
        def stop(_: Progress) -> None:
            """Raises `Stopped` at the first call."""
            raise Stopped

        begun = time.monotonic()
        script = f"printf '\\r\\033[K%s' '{LINE}' >&2; exec sleep 30"
        self.assertRaises(Stopped, self.run_script, script, stop)
        self.assertLess(time.monotonic() - begun, 20)


if __name__ == "__main__":
    unittest.main()
