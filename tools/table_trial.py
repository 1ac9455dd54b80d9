"""What the tests of the tools that read tables share: a folder of files, runs, and small DBFs."""
from __future__ import annotations

import contextlib
import io
import os
import struct
import subprocess
import tempfile
import unittest
from typing import Callable, List, NamedTuple, Optional, Sequence, Tuple, Union

from help_texts import PROGRAM_OF_DIST
from tested_program import TESTED

TOP = os.path.dirname(os.path.dirname(os.path.abspath(__file__)))
DATA = os.path.join(TOP, "data", "nc2020")


class Ran(NamedTuple):
    """The status of a run, what it printed, and the lines of standard error."""

    status: int
    text: str
    told: List[str]


class DbfColumn(NamedTuple):
    """A column of a DBF: its name, its kind (C, N, F), its width and its decimals."""

    name: str
    kind: str
    width: int
    decimals: int = 0


class Room(unittest.TestCase):
    """Runs over files of a folder."""

    def setUp(self) -> None:
        room = tempfile.TemporaryDirectory()
        self.addCleanup(room.cleanup)
        self.room = room.name

    def file(self, name: str, held: Union[str, bytes]) -> str:
        """Stores bytes, or a text in UTF-8, and returns the path."""
        path = os.path.join(self.room, name)
        with open(path, "wb") as file:
            file.write(held.encode("utf-8") if isinstance(held, str) else held)
        return path

    def run_tool(self, main: Callable[[List[str]], int], *words: str) -> Ran:
        """Returns what a tool does. The folder's path is taken out of what it tells."""
        out, said = io.StringIO(), io.StringIO()
        with contextlib.redirect_stdout(out), contextlib.redirect_stderr(said):
            status = main(list(words))
        told = said.getvalue().replace(self.room + os.sep, "").splitlines()
        return Ran(status, out.getvalue(), told)

    def run_program(self, *words: str, given: Optional[str] = None) -> Tuple[int, str]:
        """Returns the status of the program and what it prints, with `given` as its input."""
        ran = subprocess.run(
            [TESTED.program, *words], input=given, capture_output=True, text=True, check=False
        )
        return ran.returncode, ran.stdout


class WithProgram(Room):
    """Runs of the program over what tools make, passed over if there is none in `dist/`."""

    def setUp(self) -> None:
        super().setUp()
        if TESTED.program == PROGRAM_OF_DIST and not os.path.isfile(PROGRAM_OF_DIST):
            self.skipTest("there is no program in dist/")


def dbf(columns: Sequence[DbfColumn], records: Sequence[Sequence[str]], deleted: int = -1) -> bytes:
    """Returns a dBase III table in Latin-1. The record at the place `deleted` is a deleted one.

    Numbers stand at the right of their fields, and texts at the left.
    """
    record_bytes = 1 + sum(column.width for column in columns)
    header_bytes = 32 + 32 * len(columns) + 1
    parts = [struct.pack("<B3BIHH20x", 3, 123, 8, 24, len(records), header_bytes, record_bytes)]
    for column in columns:
        name, kind = column.name.encode("latin-1"), column.kind.encode("latin-1")
        parts.append(struct.pack("<11sc4xBB14x", name, kind, column.width, column.decimals))
    parts.append(b"\r")
    for place, record in enumerate(records):
        parts.append(b"*" if place == deleted else b" ")
        for column, field in zip(columns, record):
            text = field.rjust(column.width) if column.kind in "NF" else field.ljust(column.width)
            parts.append(text.encode("latin-1"))
    parts.append(b"\x1a")
    return b"".join(parts)
