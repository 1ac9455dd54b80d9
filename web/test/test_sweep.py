"""The sweep of memory over a heap that refuses the request that it is told to refuse."""
from __future__ import annotations

import base64
import json
import subprocess
import tempfile
import unittest
from collections.abc import Mapping
from pathlib import Path
from typing import Any

from web_setting import DATA, HOST, SETTING, TOP, WEB, chosen, make_launcher
from test_cases import all_cases

from cases import Case
from installed import NotThere, program_there
from program_runs import Followed, Refusal
from sweeps import Sweep

FOLDERS = ("size", "judge", "audit", "solve", "check", "list", "share", "piece", "table", "record")
PROBLEM = ["--geo", str(DATA / "nc2020geo.pl"), "--segment", str(DATA / "nc000012020.pl")]
PROBLEM += ["--adjacency", str(DATA / "county_borders.txt")]
# The number of a module's section for its memory, the pages that it begins with, and enough.
MEMORY_SECTION = 5
FIRST_PAGES, MOST_PAGES = 260, 400
SAMPLE = 24
MOST = 150


class Server:
    """Runs the program in one Node, again and again."""

    def __init__(self, wasm: Path) -> None:
        words = [program_there("node"), str(WEB / "test" / "run_server.mjs"), str(wasm), str(HOST)]
        pipes: Mapping[str, Any] = {"stdin": subprocess.PIPE, "stdout": subprocess.PIPE}
        self.process: subprocess.Popen[str] = subprocess.Popen(words, text=True, **pipes)
        assert self.process.stdin and self.process.stdout
        self.to, self.back = self.process.stdin, self.process.stdout

    def ask(self, asked: dict[str, object]) -> dict[str, Any]:
        """Returns what a run did."""
        self.to.write(json.dumps(asked) + "\n")
        self.to.flush()
        answer: dict[str, Any] = json.loads(self.back.readline())
        return answer

    def close(self) -> None:
        """Ends Node."""
        self.to.close()
        self.process.wait()
        self.back.close()


class HostSweep(Sweep):
    """A sweep whose runs are those of a server."""

    def __init__(self, case: Case, room: str, server: Server) -> None:
        super().__init__(case, "", room, MOST)
        self.server = server

    def run_once(
        self,
        words: list[str],
        folder: str,
        given: bytes,
        follow: str = "",
        refuse: "Refusal | None" = None,
    ) -> Followed:
        """Returns one run, in which the request of this number is refused."""
        answer = self.server.ask(
            {
                "words": words,
                "folder": folder,
                "input": base64.b64encode(given).decode(),
                "refuse": refuse[0] if refuse else 0,
            }
        )
        made = Followed()
        made.status, made.allocations = answer["status"], answer["requests"]
        made.wrote, made.told = (base64.b64decode(answer[it]) for it in ("output", "errors"))
        for name, held, requests in answer["renamed"]:
            made.stored.setdefault(name, []).append(base64.b64decode(held))
            made.puts.append((name, 0, requests))
        return made


def with_limit(module: bytes, pages: int) -> bytes:
    """Returns the module, whose memory has at most `pages` pages of 64 KB."""
    at = 8
    while module[at] != MEMORY_SECTION:
        length, begin = number_at(module, at + 1)
        at = begin + length
    length, begin = number_at(module, at + 1)
    held = module[begin : begin + length]
    assert held[:2] == b"\1\0", "one memory of 32 bits, without a limit"
    limit = bytes((pages >> shift & 127) | (128 if shift < 28 else 0) for shift in range(0, 35, 7))
    new = b"\1\1" + held[2:] + limit
    return module[: at + 1] + bytes([len(new)]) + new + module[begin + length :]


def number_at(module: bytes, at: int) -> tuple[int, int]:
    """Returns the number in LEB128 at a place of the module, and the place behind it."""
    number = shift = 0
    while True:
        number |= (module[at] & 127) << shift
        at, shift = at + 1, shift + 7
        if module[at - 1] < 128:
            return number, at


class LimitedMemory(unittest.TestCase):
    """The program's own module, with memories that can't grow as far as a run needs."""

    def test_memory_that_cannot_grow_is_refused(self) -> None:
        room = Path(self.enterContext(tempfile.TemporaryDirectory()))
        program = make_launcher(room)
        module = room / "dist" / "countygroups.wasm"
        whole, ordinary = module.read_bytes(), self.solve(program)
        self.assertEqual((ordinary[1], len(ordinary[2])), (0, 1))
        found = []
        for pages in range(FIRST_PAGES, MOST_PAGES, 64):
            module.write_bytes(with_limit(whole, pages))
            found.append(self.solve(program))
        self.assertEqual((found[0], found[-1]), ((b"memory\n", 5, {}), ordinary))
        for text, status, stored in found:
            self.assertIn((text, status), ((b"memory\n", 5), ordinary[:2]))
            self.assertIn(stored, ({}, ordinary[2]))

    def solve(self, program: Path) -> tuple[bytes, int, dict[str, bytes]]:
        """Returns the text, the status and the stored files of a run over the House."""
        with tempfile.TemporaryDirectory() as folder:
            words = [str(program), "solve", *PROBLEM, "--chamber", "120", "--certificate", "c"]
            done = subprocess.run(words, cwd=folder, capture_output=True, check=False)
            stored = {path.name: path.read_bytes() for path in Path(folder).iterdir()}
            return done.stdout, done.returncode, stored


class MemorySweep(unittest.TestCase):
    """Each request of a run refused in turn, the first ones of each case."""

    def test_refused_memory_is_answered_as_natively(self) -> None:
        if SETTING.refusing is None:
            raise NotThere("no module with a heap that refuses was named (--refusing)")
        server = Server(SETTING.refusing)
        self.addCleanup(server.close)
        tried = met = 0
        fit = [one for one in all_cases() if Path(one).parent.name in FOLDERS]
        for name in chosen(fit, SAMPLE, "sweep"):
            with self.subTest(Path(name).relative_to(TOP)), tempfile.TemporaryDirectory() as room:
                case = Case(name.rsplit(".", 1)[0])
                sweep = HostSweep(case, str(Path(room).resolve()), server)
                sweep.memory()
                self.assertEqual(sweep.faults, [])
                tried, met = tried + sweep.tried, met + sweep.met
        print(f"{tried} runs with a refusal, of which {met} answered otherwise", flush=True)
        self.assertGreater(met, 100)
