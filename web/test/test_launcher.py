"""The launcher by Node beside what docs/reference says, and beside the program of this machine."""
from __future__ import annotations

import os
import signal
import subprocess
import sys
import tempfile
import threading
import time
from pathlib import Path
from typing import IO

from web_setting import CASES, DATA, SETTING, TOP, make_launcher, native, run_node

from class_room import InRoom
from installed import NotThere

PROBLEM = ["--geo", "nc2020geo.pl", "--segment", "nc000012020.pl"]
BORDERS = ["--adjacency", "county_borders.txt"]
MOST_BESIDE_NODE = 64 << 20


class Launched(InRoom):
    """Runs by the launcher, in a folder with the files of North Carolina 2020."""

    program: Path

    @classmethod
    def setUpClass(cls) -> None:
        super().setUpClass()
        cls.program = make_launcher(cls.room)

    def setUp(self) -> None:
        self.folder = self.fresh_folder()

    def fresh_folder(self) -> Path:
        """Returns a new folder of the room, with the files of North Carolina 2020."""
        folder = Path(tempfile.mkdtemp(dir=self.room))
        for name in ("nc2020geo.pl", "nc000012020.pl", "county_borders.txt"):
            (folder / name).write_bytes((DATA / name).read_bytes())
        return folder

    def run_in(
        self,
        folder: Path,
        program: Path,
        *words: str | bytes,
        given: bytes | None = None,
        to: int | IO[bytes] = subprocess.PIPE,
    ) -> "subprocess.CompletedProcess[bytes]":
        """Runs a program in a folder, and returns what it wrote and its status.

        `given` is what standard input gives, and `to` is where standard output goes.
        """
        called: list[str | bytes] = [str(program), *words]
        environment: dict[str, str] = {}
        return subprocess.run(
            called,
            cwd=folder,
            env=environment,
            stdin=subprocess.DEVNULL if given is None else None,
            input=given,
            stdout=to,
            stderr=subprocess.PIPE,
            check=False,
        )

    def launch(
        self,
        *words: str | bytes,
        given: bytes | None = None,
        to: int | IO[bytes] = subprocess.PIPE,
    ) -> "subprocess.CompletedProcess[bytes]":
        """Runs the launcher in the folder of this test."""
        return self.run_in(self.folder, self.program, *words, given=given, to=to)


class Natively(Launched):
    """The same words by the launcher and by the program of this machine."""

    def runs(self, chamber: str) -> list[list[str]]:
        """Returns the words of runs over a chamber. The later ones read what is stored first."""
        problem = [*PROBLEM, *BORDERS, "--chamber", chamber]
        given = ["--certificate", "certificate"]
        stored = ["--out", "grouping", "--table", "table", "--record"]
        return [
            ["solve", *problem, *given, *stored, "solve.record"],
            ["check", *problem, *given, "--table", "check.table", "--record", "check.record"],
            ["list", *problem, *given, "--record", "list.record"],
            ["judge", *problem, "--grouping", "grouping", *given],
            ["size", *PROBLEM, "--chamber", chamber],
        ]

    def test_both_chambers_have_the_same_bytes(self) -> None:
        for chamber in ("120", "50"):
            folders = [self.fresh_folder(), self.fresh_folder()]
            programs = [self.program, native()]
            for words in self.runs(chamber):
                both = [self.run_in(*pair, *words) for pair in zip(folders, programs)]
                one, other = [(done.returncode, done.stdout, done.stderr) for done in both]
                self.assertEqual(one, other, words)
                self.assertEqual(one[0], 0, words)
            held = [{path.name: path.read_bytes() for path in it.iterdir()} for it in folders]
            self.assertEqual(held[0], held[1])
            self.assertEqual(len(held[0]), 10)


class Words(Launched):
    """Words that no case has, since a case is text."""

    def test_a_word_that_is_no_utf8(self) -> None:
        done = self.launch("size", b"--geo=\xff", "--chamber", "50")
        self.assertEqual((done.returncode, done.stdout), (2, b""))
        self.assertIn(b"a word isn't UTF-8", done.stderr)

    def test_a_word_with_the_mark_for_no_utf8(self) -> None:
        (self.folder / "nc2020geo.pl").rename(self.folder / "\ufffd.pl")
        done = self.launch("size", "--geo", "\ufffd.pl", *PROBLEM[2:], "--chamber", "50")
        self.assertEqual((done.returncode, done.stdout[:7]), (0, b"people "))

    def test_a_name_in_other_letters(self) -> None:
        name = "Gruppe \u00e4\u03b2\U0001f5fa 'x'\n.pl"
        (self.folder / "nc2020geo.pl").rename(self.folder / name)
        done = self.launch("size", "--geo", name, *PROBLEM[2:], "--chamber", "50")
        self.assertEqual((done.returncode, done.stdout[:7]), (0, b"people "))

    def test_a_name_that_is_too_long(self) -> None:
        for length in (300, 5_000, 100_000):
            done = self.launch("size", "--geo", "a" * length, *PROBLEM[2:], "--chamber", "50")
            self.assertEqual(done.returncode, 5)
            told = b"device %s Device\n" % (b"a" * length)
            self.assertTrue(done.stdout == told, f"{len(done.stdout)}: {done.stdout[-40:]!r}")
            self.assertTrue(b"the name is too long or not allowed" in done.stderr)

    def test_options_of_node_are_no_words(self) -> None:
        done = self.launch("--version")
        self.assertEqual((done.returncode, done.stdout[:13]), (0, b"countygroups "))


class Streams(Launched):
    """Pipes, devices and signals."""

    def size(
        self, geo: str, given: bytes | None = None, to: int | IO[bytes] = subprocess.PIPE
    ) -> "subprocess.CompletedProcess[bytes]":
        """Runs `size` over the header `geo`, with `given` as its input, and writes to `to`."""
        words = ["size", "--geo", geo, *PROBLEM[2:], "--chamber", "50"]
        return self.launch(*words, given=given, to=to)

    def test_pipes_are_read_as_files(self) -> None:
        wanted = self.size("nc2020geo.pl").stdout
        self.assertEqual(wanted.count(b"\n"), 103)
        held = (self.folder / "nc2020geo.pl").read_bytes()
        self.assertEqual(self.size("/dev/stdin", given=held).stdout, wanted)
        os.mkfifo(self.folder / "fifo")
        writer = threading.Thread(target=(self.folder / "fifo").write_bytes, args=(held,))
        writer.start()
        self.assertEqual(self.size("fifo").stdout, wanted)
        writer.join()

    def test_a_reader_that_waits(self) -> None:
        name, length = "a" * 100_000, 100_015
        for is_blocking in (True, False):
            back, to = os.pipe()
            os.set_blocking(to, is_blocking)
            words = ["size", "--geo", name, *PROBLEM[2:], "--chamber", "50"]
            called = [str(self.program), *words]
            null = subprocess.DEVNULL
            process = subprocess.Popen(called, cwd=self.folder, stdin=null, stdout=to, stderr=null)
            os.close(to)
            time.sleep(0.7)
            with open(back, "rb") as pipe:
                self.assertEqual(len(pipe.read()), length)
            self.assertEqual(process.wait(), 5)

    def test_a_writer_that_waits(self) -> None:
        case = CASES / "size" / "four_counties_sized.case"
        held = case.read_bytes()
        back, to = os.pipe()
        os.set_blocking(back, False)
        process = subprocess.Popen([str(self.program)], stdin=back, stdout=subprocess.PIPE)
        os.close(back)
        with open(to, "wb", buffering=0) as pipe:
            for part in (held[:100], held[100:]):
                time.sleep(0.4)
                pipe.write(part)
        wanted = case.with_suffix(".out").read_bytes()
        self.assertEqual(process.communicate()[0] + b"exit %d\n" % process.returncode, wanted)

    def test_a_closed_pipe(self) -> None:
        back, to = os.pipe()
        os.close(back)
        done = self.size("nc2020geo.pl", to=to)
        os.close(to)
        self.assertEqual(done.returncode, 5)

    def test_a_full_device(self) -> None:
        if not os.path.exists("/dev/full"):
            raise NotThere("this machine has no /dev/full")
        with open("/dev/full", "wb") as full:
            self.assertEqual(self.size("nc2020geo.pl", to=full).returncode, 5)

    def test_closed_standard_input_is_empty(self) -> None:
        called = f'exec "{self.program}" <&-'
        done = subprocess.run(["/bin/sh", "-c", called], capture_output=True, check=False)
        self.assertEqual(done.returncode, self.launch().returncode)

    def test_closed_standard_output_is_an_error(self) -> None:
        launcher = self.room / "dist" / "countygroups.mjs"
        called = f'exec "{launcher}" --version >&-'
        done = subprocess.run(["/bin/sh", "-c", called], capture_output=True, check=False)
        self.assertEqual((done.returncode, done.stdout), (5, b""))
        self.assertIn(b"could not be written whole to standard output", done.stderr)

    def test_signals_end_it(self) -> None:
        for number in (signal.SIGTERM, signal.SIGINT, signal.SIGKILL, signal.SIGHUP):
            os.mkfifo(self.folder / f"fifo{number}")
            words = ["size", "--geo", f"fifo{number}", *PROBLEM[2:], "--chamber", "50"]
            environment: dict[str, str] = {}
            called = [str(self.program), *words]
            process = subprocess.Popen(called, cwd=self.folder, env=environment)
            with open(self.folder / f"fifo{number}", "wb"):
                time.sleep(0.1)
                process.send_signal(number)
                self.assertEqual(process.wait(timeout=120), -number)


class Alone(Launched):
    """What the launcher says where the program can't run."""

    def test_without_the_module(self) -> None:
        module = self.room / "dist" / "countygroups.wasm"
        held = module.read_bytes()
        try:
            module.unlink()
            self.check_refused()
            module.write_bytes(held[:-100])
            self.check_refused()
        finally:
            module.write_bytes(held)

    def check_refused(self) -> None:
        """Wants the launcher to refuse the module beside it."""
        done = self.launch("--version")
        self.assertEqual((done.returncode, done.stdout), (126, b""))
        self.assertRegex(done.stderr, b"\\Acountygroups: countygroups.wasm beside .*\n\\Z")

    def version_by(self, *options: str) -> "subprocess.CompletedProcess[str]":
        """Returns what the launcher says of its version, by a Node with these options."""
        return run_node(*options, self.room / "dist" / "countygroups.mjs", "--version")

    def test_a_node_without_a_flag(self) -> None:
        done = self.version_by()
        self.assertEqual((done.returncode, done.stdout[:13]), (0, "countygroups "))

    def test_a_node_without_webassembly(self) -> None:
        done = self.version_by("--import", "data:text/javascript,delete globalThis.WebAssembly")
        self.assertEqual((done.returncode, done.stdout), (126, ""))
        self.assertRegex(done.stderr, r"\Acountygroups: countygroups.wasm beside .*\n\Z")

    def test_the_launcher_for_windows(self) -> None:
        text = (self.room / "dist" / "countygroups.cmd").read_bytes()
        self.assertIn(b'node "%~dp0countygroups.mjs" %*\r\n', text)


class Memory(Launched):
    """The peak of memory over files of full size, which are read as they come."""

    def peak(self, *words: str) -> int:
        """Returns the greatest memory in use of a run in bytes, and checks its status."""
        script = (
            "import resource, subprocess, sys\n"
            "done = subprocess.run(sys.argv[1:], stdout=subprocess.DEVNULL)\n"
            "used = resource.getrusage(resource.RUSAGE_CHILDREN).ru_maxrss\n"
            "print(done.returncode, used)\n"
        )
        called = [sys.executable, "-c", script, str(self.program), *words]
        done = subprocess.run(called, capture_output=True, text=True, check=True)
        status, kilobytes = done.stdout.split()
        self.assertEqual(status, "0")
        return int(kilobytes) << 10

    def test_a_full_state_is_read_as_it_comes(self) -> None:
        if not SETTING.is_all:
            raise NotThere("the files of a full state are made with --all alone")
        made = [sys.executable, str(TOP / "bench" / "full_state.py"), str(self.folder)]
        subprocess.run(made, check=True)
        files = [str(self.folder / name) for name in ("geo.pl", "segment1.pl")]
        held = sum(os.path.getsize(file) for file in files)
        self.assertGreater(held, 360_000_000)
        alone = self.peak("--version")
        used = self.peak("size", "--geo", files[0], "--segment", files[1], "--chamber", "50")
        megabytes = (used - alone) >> 20
        print(f"full state of {held} bytes: {megabytes} MB beside Node's own", flush=True)
        self.assertLess(used - alone, MOST_BESIDE_NODE)
