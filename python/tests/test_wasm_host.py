"""Tests the WebAssembly by wasmtime, if it is installed, and else over what stands in for it."""
from __future__ import annotations

import importlib.util
import os
import re
import shutil
import subprocess
import sys
import tempfile
import unittest
from pathlib import Path
from typing import Any
from unittest import mock

import countygroups
from countygroups import ProgramNotFound, wasm_host
from countygroups.program import DIST, NATIVE, Program, find_program
from tests import setting

STAND_IN = Path(__file__).resolve().parent / "wasm_stand_in"
WEB = Path(__file__).resolve().parents[2] / "web" / "host"
LAUNCHER = DIST / "countygroups.mjs"
IS_THERE = importlib.util.find_spec("wasmtime") is not None
CENSUS = ["--geo", str(setting.DATA / "nc2020geo.pl")]
CENSUS += ["--segment", str(setting.DATA / "nc000012020.pl")]


def without_node() -> Any:
    """Returns a context in which no program is on the path."""
    return mock.patch("countygroups.program.shutil.which", return_value=None)


class Names(unittest.TestCase):
    """Compares the calls and the errors of this host with those of the other hosts."""

    def test_calls(self) -> None:
        names = (WEB / "calls.txt").read_text(encoding="ascii").split()
        self.assertEqual(set(wasm_host.CALLS), set(names))

    def test_errors(self) -> None:
        text = (WEB / "errno.mjs").read_text(encoding="utf-8")
        found = re.findall(r"^  (E[A-Z0-9]+): ([0-9]+),$", text, re.M)
        self.assertEqual({name: int(number) for name, number in found}, wasm_host.LINUX)


@unittest.skipUnless(IS_THERE or shutil.which("node"), "there is neither wasmtime nor Node")
@unittest.skipUnless((DIST / NATIVE).is_file(), "there is no program to compare with")
class Host(unittest.TestCase):
    """Compares the WebAssembly that this package runs with the program of dist/."""

    @classmethod
    def setUpClass(cls) -> None:
        if not IS_THERE:
            print("wasmtime isn't installed: its calls are those of tests/wasm_stand_in")
            sys.path.insert(0, str(STAND_IN))
            cls.addClassCleanup(sys.path.remove, str(STAND_IN))

    def setUp(self) -> None:
        room = tempfile.TemporaryDirectory()
        self.addCleanup(room.cleanup)
        self.room = Path(room.name)
        with without_node():
            self.program = find_program(LAUNCHER)

    def ran(self, program: Program, words: list[str]) -> tuple[int, str, str, list[bytes]]:
        """Returns the status, both outputs, and the files that a run leaves in its folder."""
        folder = Path(tempfile.mkdtemp(dir=self.room))
        (folder / "folder").mkdir()
        (folder / "people.csv").write_text("37001,5,Alamance\n37183,6,Wake\n", encoding="ascii")
        (folder / "borders").write_text("|37001||37183\n", encoding="ascii")
        (folder / "link").symlink_to("certificate")
        whole = [*program.command, *words]
        done = subprocess.run(
            whole, cwd=folder, capture_output=True, text=True, input="37001,7,x\n", check=False
        )
        left = [path.read_bytes() for path in sorted(folder.iterdir()) if path.is_file()]
        return done.returncode, done.stdout, done.stderr, left

    def test_command(self) -> None:
        command = self.program.command
        self.assertEqual(
            (command[0], command[-1]), (sys.executable, str(DIST / "countygroups.wasm"))
        )

    def test_runs_are_equal(self) -> None:
        """Files that are read, missing, folders, stored, linked and refused, and standard input."""
        people = ["--people", "people.csv", "--chamber", "2", "--adjacency", "borders"]
        for words in (
            ["--version"],
            ["size", "--people", "people.csv", "--chamber", "1"],
            ["size", "--people", "/dev/stdin", "--chamber", "1"],
            ["size", "--people", "missing.csv", "--chamber", "1"],
            ["size", "--people", "folder", "--chamber", "1"],
            ["solve", *people, "--certificate", "certificate", "--table", "table"],
            ["solve", *people, "--certificate", "link"],
            ["solve", *people, "--certificate", "missing/certificate"],
            ["solve", *people, "--certificate", "folder"],
            ["solve", *people, "--certificate", "people.csv"],
            ["solve", *CENSUS, "--chamber", "50", "--adjacency", str(setting.BORDERS)],
            ["no", "such", "command"],
        ):
            with self.subTest(words=words):
                wanted = self.ran(Program((str(DIST / NATIVE),)), words)
                self.assertEqual(self.ran(self.program, words), wanted)

    def test_solve(self) -> None:
        with without_node():
            answer = setting.solved_path(program=LAUNCHER)
        self.assertEqual((answer.counts, answer.check()), ((2, 1), "best"))
        self.assertEqual(answer.problem.program.command[0], sys.executable)

    def test_closed_pipe(self) -> None:
        reader, writer = os.pipe()
        os.close(reader)
        words = [*self.program.command, "--help"]
        ends = [
            subprocess.run(whole, stdout=writer, stderr=subprocess.DEVNULL, check=False).returncode
            for whole in (words, [str(DIST / NATIVE), "--help"])
        ]
        os.close(writer)
        self.assertEqual(ends[0], ends[1])


class NoHost(unittest.TestCase):
    """Tests a system that has neither Node nor wasmtime."""

    @unittest.skipIf(IS_THERE, "wasmtime is there")
    @unittest.skipUnless(LAUNCHER.is_file(), "there is no launcher")
    def test_told(self) -> None:
        told = "needs Node 20 or later, or the Python module wasmtime"
        with without_node(), self.assertRaisesRegex(ProgramNotFound, told):
            countygroups.find_program(LAUNCHER)


if __name__ == "__main__":
    unittest.main()
