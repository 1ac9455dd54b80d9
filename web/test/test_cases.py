"""The cases of cases/ by the launcher, and by hosts in which a fault is planted."""
from __future__ import annotations

import shutil
import subprocess
import sys
import tempfile
import unittest
from pathlib import Path

from web_setting import CASES, HOST, SETTING, chosen, make_launcher, native

from cases import Case
from program_runs import files_below, fresh_folder, run

SAMPLE = 120
BESIDE_SAMPLE = 60
LARGE = ("huge", "carolina")
# What is planted in the host's calls, and the folder whose cases find it.
FAULTS = {
    "read gives one byte less at the end": (
        "solve_files",
        "    answer(process, -1n, () => BigInt(store.read(file, bytesAt(process, at, length))));",
        "    answer(process, -1n, () => {\n"
        "      const count = store.read(file, bytesAt(process, at, length));\n"
        "      return BigInt(count < Number(length) ? Math.max(0, count - 1) : count);\n"
        "    });",
    ),
    "rename does nothing": (
        "solve_files",
        "store.rename(nameAt(process, from), nameAt(process, to))",
        "[nameAt(process, from), nameAt(process, to)]",
    ),
    "each error is EIO": ("files", "process.errno = error.errno;", "process.errno = 5;"),
    "statx finds no file": (
        "person",
        "store.statusOfName(path)",
        "store.statusOfName(path.slice(1))",
    ),
}


def all_cases() -> list[str]:
    """Returns a file of each case that the program itself runs: NAME.words, else NAME.case."""
    files = [path for path in CASES.glob("*/**/*") if path.suffix in (".case", ".words")]
    return sorted(
        str(path)
        for path in files
        if not path.with_suffix(".program").exists()
        and (path.suffix == ".words" or not path.with_suffix(".words").exists())
        and not any(part.endswith((".files", ".stored")) for part in path.parts)
    )


def some_cases(count: int, what: str) -> list[str]:
    """Returns `count` of the cases that aren't large, by the seed and by `what`.

    With `--all` it returns all cases.
    """
    found = all_cases()
    assert len(found) > 900
    small = [one for one in found if Path(one).parent.name not in LARGE]
    return found if SETTING.is_all else chosen(small, count, what)


def run_cases(program: Path, cases: list[str]) -> "subprocess.CompletedProcess[str]":
    """Runs cases.py over these cases with this program."""
    words = [sys.executable, str(CASES / "cases.py"), "--program", str(program)]
    words += ["--jobs", str(SETTING.jobs), *cases]
    return subprocess.run(words, capture_output=True, text=True, check=False)


class InRoom(unittest.TestCase):
    """Runs of cases in a folder. Each class of these is run beside the others."""

    def setUp(self) -> None:
        room = tempfile.TemporaryDirectory()
        self.addCleanup(room.cleanup)
        self.room = Path(room.name)


class Cases(InRoom):
    """Cases byte for byte, standard error among them."""

    def test_cases(self) -> None:
        done = run_cases(make_launcher(self.room), some_cases(SAMPLE, "cases"))
        print(done.stdout[-2_000:], flush=True)
        self.assertEqual(done.returncode, 0, done.stderr)


class Beside(InRoom):
    """Cases by the launcher and by the program of this machine."""

    def test_all_that_is_written_is_that_of_the_machine(self) -> None:
        program = make_launcher(self.room)
        for name in some_cases(BESIDE_SAMPLE, "beside"):
            with self.subTest(name):
                case = Case(name.rsplit(".", 1)[0])
                self.assertEqual(self.left_by(program, case), self.left_by(native(), case))

    def left_by(self, program: Path, case: Case) -> list[object]:
        """Returns what the runs of a case write, their statuses, and the files that they leave."""
        left: list[object] = []
        for given, _ in case.cut():
            folder = fresh_folder(str(self.room), case.files)
            for words in case.runs:
                made = run(str(program), words, folder, given)
                left.append((made.status, made.wrote, made.told))
        return [*left, files_below(folder)]


class Planted(InRoom):
    """A host for Node in which a fault is planted."""

    def planted(self, name: str, old: str, new: str) -> Path:
        """Returns a launcher over a copy of the host's calls in which a text is replaced."""
        host = self.room / name.replace(" ", "_")
        shutil.copytree(HOST, host)
        calls = host / "calls.mjs"
        text = calls.read_text(encoding="utf-8")
        self.assertEqual(text.count(old), 1, name)
        calls.write_text(text.replace(old, new), encoding="utf-8")
        return make_launcher(host, host)

    def test_planted_faults_are_found(self) -> None:
        folders = {folder: str(CASES / folder) for folder, _, _ in FAULTS.values()}
        done = run_cases(make_launcher(self.room), list(folders.values()))
        self.assertEqual(done.returncode, 0, done.stdout + done.stderr)
        for name, (folder, old, new) in FAULTS.items():
            with self.subTest(name):
                done = run_cases(self.planted(name, old, new), [folders[folder]])
                self.assertEqual(done.returncode, 1, done.stdout + done.stderr)
                self.assertIn("FAILED cases/", done.stdout)
