#!/usr/bin/env python3
"""Tests the files that a run stores, and what reaches the terminal.

usage: python3 tools/test_outputs.py [--program FILE]

--program FILE: a build of the program; by default that of `dist/`.

A device or a pipe is reached through links of a folder of the test alone. The problem is three
counties in a row, of which the middle one has half of the people. Of its two seats each outer
county would need half a one, so by hand the only lawful grouping is all three together.
"""
from __future__ import annotations

import fcntl
import os
import pty
import stat
import subprocess
import sys
import tempfile
import threading
import unittest
from pathlib import Path
from typing import IO, Union

from tested_program import TESTED, run_tests

sys.path.insert(0, str(Path(__file__).resolve().parent.parent / "cases"))
import program_runs  # noqa: E402  (it lies beside the cases)

MOST_SECONDS = 60
GEO = "".join(f"||050||00|||{i}||x|||37||{code}\n" for i, code in enumerate(("001", "003", "005")))
SEGMENT = "||||0|50\n||||1|100\n||||2|50\n"
ADJACENCY = "x|GEOID|y|GEOID\nx|37001|y|37003\nx|37003|y|37005\n"
PROBLEM = ["--geo", "geo", "--segment", "segment", "--chamber", "2", "--adjacency", "adjacency"]
SOLVE = ["solve", *PROBLEM]
# The first lines of its certificate by `docs/formats.md`, behind the head.
ORDER, GROUP = "order 37001 37003 37005\n", "group 2 37001 37003 37005\n"
# The bytes of a name that file systems take, by POSIX's NAME_MAX on Linux.
LONGEST = 255
PART = ".countygroups.part"
NAMES = [PART, *(f".countygroups{i}.part" for i in range(2, 10))]

Done = subprocess.CompletedProcess[str]


class OfAFolder(unittest.TestCase):
    """Runs in a folder of their own, which has the files of the problem."""

    def setUp(self) -> None:
        it = tempfile.TemporaryDirectory()
        self.addCleanup(it.cleanup)
        self.folder = Path(it.name)
        for name, text in (("geo", GEO), ("segment", SEGMENT), ("adjacency", ADJACENCY)):
            (self.folder / name).write_text(text)

    def run_words(
        self, *words: str, to: Union[int, IO[str]] = subprocess.PIPE, fds: tuple[int, ...] = ()
    ) -> Done:
        """Runs the program in the folder. `to` is standard output, and `fds` are open too."""
        return subprocess.run(
            [TESTED.program, *words],
            cwd=self.folder,
            stdin=subprocess.DEVNULL,
            stdout=to,
            stderr=subprocess.PIPE,
            text=True,
            timeout=MOST_SECONDS,
            pass_fds=fds,
            check=False,
        )

    def check_solved(self, done: Done) -> None:
        """Wants the run to have solved the problem, and to have told nothing on standard error."""
        self.assertEqual((done.returncode, done.stderr), (0, ""))

    def check_certificate(self, text: str) -> None:
        """Wants `text` to be a whole certificate of the problem."""
        self.assertRegex(text, r"\Acounty-groups (wide )?certificate 1\n")
        self.assertIn(ORDER, text)
        self.assertIn(GROUP, text)
        self.assertTrue(text.endswith("\nend\n"), text)

    def parts(self) -> list[str]:
        """Returns the names in the folder of files beside outputs."""
        return sorted(it for it in os.listdir(self.folder) if it.endswith(".part"))


class Through(OfAFolder):
    """Names that lead to what is no regular file."""

    def link(self, name: str, target: str) -> Path:
        """Makes a link in the folder, and returns its path."""
        (self.folder / name).symlink_to(target)
        return self.folder / name

    def test_a_link_to_standard_output_that_is_a_pipe(self) -> None:
        link = self.link("out", "/proc/self/fd/1")
        done = self.run_words(*SOLVE, "--certificate", "out")
        self.check_solved(done)
        certificate, mark, answer = done.stdout.partition("\nend\n")
        self.check_certificate(certificate + mark)
        self.assertTrue(answer.startswith("people 200\n"), answer)
        self.assertEqual(os.readlink(link), "/proc/self/fd/1")
        self.assertEqual(self.parts(), [])

    def test_a_link_to_standard_output_that_is_a_file(self) -> None:
        """The answer stands behind the certificate, and neither is lost."""
        self.link("out", "/proc/self/fd/1")
        with open(self.folder / "told", "w") as told:
            self.check_solved(self.run_words(*SOLVE, "--certificate", "out", to=told))
        certificate, mark, answer = (self.folder / "told").read_text().partition("\nend\n")
        self.check_certificate(certificate + mark)
        self.assertTrue(answer.startswith("people 200\n"), answer)

    def test_an_open_pipe(self) -> None:
        """As a shell gives one for `>(gzip)`."""
        back, to = os.pipe()
        done = self.run_words(*SOLVE, "--certificate", f"/dev/fd/{to}", fds=(to,))
        os.close(to)
        self.check_solved(done)
        with open(back, encoding="ascii") as pipe:
            self.check_certificate(pipe.read())

    def test_a_named_pipe(self) -> None:
        path, told = self.folder / "fifo", []
        os.mkfifo(path)
        reader = threading.Thread(target=lambda: told.append(path.read_text()), daemon=True)
        reader.start()
        self.check_solved(self.run_words(*SOLVE, "--certificate", "fifo"))
        reader.join(MOST_SECONDS)
        self.check_certificate(told[0])
        self.assertTrue(stat.S_ISFIFO(path.stat().st_mode))

    def test_the_null_device(self) -> None:
        link = self.link("null", "/dev/null")
        self.check_solved(self.run_words(*SOLVE, "--certificate", "null", "--out", "null"))
        self.assertEqual(os.readlink(link), "/dev/null")

    def test_a_full_device(self) -> None:
        self.link("full", "/dev/full")
        done = self.run_words(*SOLVE, "--certificate", "full")
        self.assertEqual((done.returncode, done.stdout), (5, "device full Device\n"))
        self.assertIn("no space is left", done.stderr)

    def test_links_to_files_are_followed(self) -> None:
        (self.folder / "below").mkdir()
        self.link("first", "below/second")
        self.link("below/second", "../third")
        for old in (None, "older\n"):
            if old is not None:
                (self.folder / "third").write_text(old)
            self.check_solved(self.run_words(*SOLVE, "--certificate", "first"))
            self.check_certificate((self.folder / "third").read_text())
            self.assertEqual(os.readlink(self.folder / "first"), "below/second")
            self.assertEqual(os.readlink(self.folder / "below/second"), "../third")

    def test_links_in_a_circle(self) -> None:
        self.link("a", "b")
        self.link("b", "a")
        done = self.run_words(*SOLVE, "--certificate", "a")
        self.assertEqual((done.returncode, done.stdout), (5, "device a Device\n"))
        self.assertIn("its links lead in a circle", done.stderr)


class Replaced(OfAFolder):
    """What becomes of the file that was there, and of those beside it."""

    def test_the_mode_stays(self) -> None:
        path = self.folder / "c"
        for mode in (0o600, 0o640, 0o664, 0o755):
            path.write_text("older\n")
            path.chmod(mode)
            self.check_solved(self.run_words(*SOLVE, "--certificate", "c"))
            self.assertEqual(stat.S_IMODE(path.stat().st_mode), mode)
            self.check_certificate(path.read_text())

    def test_the_owner_stays(self) -> None:
        if os.geteuid() != 0:
            self.skipTest("only root may give a file away")
        path = self.folder / "c"
        path.write_text("older\n")
        path.chmod(0o600)
        os.chown(path, 1234, 2345)
        self.check_solved(self.run_words(*SOLVE, "--certificate", "c"))
        found = path.stat()
        self.assertEqual((found.st_uid, found.st_gid), (1234, 2345))
        self.assertEqual(stat.S_IMODE(found.st_mode), 0o600)

    def test_a_read_only_file_is_refused(self) -> None:
        (self.folder / "c").write_text("older\n")
        (self.folder / "c").chmod(0o444)
        done = self.run_words(*SOLVE, "--certificate", "c")
        self.assertEqual((done.returncode, done.stdout), (5, "device c Device\n"))
        self.assertEqual((self.folder / "c").read_text(), "older\n")

    def test_names_of_the_greatest_length(self) -> None:
        for length in (251, LONGEST):
            name = "c" * length
            self.check_solved(self.run_words(*SOLVE, "--certificate", name, "--out", name[:-1]))
            self.check_certificate((self.folder / name).read_text())
        letters = "\u00e4" * (LONGEST // 2)
        self.check_solved(self.run_words(*SOLVE, "--certificate", letters))
        self.check_certificate((self.folder / letters).read_text())
        self.assertEqual(self.parts(), [])

    def test_what_killed_runs_left_is_taken_over(self) -> None:
        for name in NAMES:
            (self.folder / f"c{name}").write_text("a beginning")
        self.check_solved(self.run_words(*SOLVE, "--certificate", "c"))
        self.check_certificate((self.folder / "c").read_text())
        self.assertEqual(self.parts(), sorted(f"c{name}" for name in NAMES[1:]))

    def test_a_file_of_another_program_stays(self) -> None:
        for suffix in (".part", ".part2", ".part3", ".part4"):
            (self.folder / f"c{suffix}").write_text("mine\n")
        self.check_solved(self.run_words(*SOLVE, "--certificate", "c"))
        self.check_certificate((self.folder / "c").read_text())
        for suffix in (".part", ".part2", ".part3", ".part4"):
            self.assertEqual((self.folder / f"c{suffix}").read_text(), "mine\n")

    def test_a_file_of_a_run_that_goes_on_stays(self) -> None:
        with open(self.folder / f"c{PART}", "w") as other:
            fcntl.flock(other, fcntl.LOCK_EX)
            self.check_solved(self.run_words(*SOLVE, "--certificate", "c"))
            self.assertEqual(self.parts(), [f"c{PART}"])
        self.check_certificate((self.folder / "c").read_text())

    def test_a_link_in_the_place_of_a_part_is_left_alone(self) -> None:
        (self.folder / "precious").write_text("precious\n")
        (self.folder / f"c{PART}").symlink_to("precious")
        self.check_solved(self.run_words(*SOLVE, "--certificate", "c"))
        self.assertEqual((self.folder / "precious").read_text(), "precious\n")
        self.assertFalse((self.folder / "c").is_symlink())

    def test_the_folder_is_synced_behind_the_rename(self) -> None:
        followed = program_runs.run(
            os.path.realpath(TESTED.program),
            [*SOLVE, "--certificate", "c"],
            str(self.folder),
            b"",
            follow="calls",
        )
        calls = [call.split(" ")[0] for call, _ in followed.calls]
        self.assertIn("rename", calls)
        self.assertIn("fsync", calls[calls.index("rename") :])


class BeforeASearch(OfAFolder):
    """What is opened and told before the run reads its first file, which is a pipe here."""

    def started(self, *words: str) -> "subprocess.Popen[str]":
        """Starts the program where `geo` is a pipe, so that it waits for the first county."""
        (self.folder / "geo").unlink()
        os.mkfifo(self.folder / "geo")
        process = subprocess.Popen(
            [TESTED.program, *words],
            cwd=self.folder,
            stdin=subprocess.DEVNULL,
            stdout=subprocess.PIPE,
            stderr=subprocess.PIPE,
            text=True,
        )
        assert process.stdout is not None and process.stderr is not None
        self.addCleanup(process.stdout.close)
        self.addCleanup(process.stderr.close)
        self.addCleanup(process.wait)
        self.addCleanup(process.kill)
        return process

    def first_line(self, process: "subprocess.Popen[str]") -> str:
        """Returns the first line on standard error, while the program waits."""
        assert process.stderr is not None
        line: list[str] = []
        errors = process.stderr
        reader = threading.Thread(target=lambda: line.append(errors.readline()), daemon=True)
        reader.start()
        reader.join(MOST_SECONDS)
        self.assertIsNone(process.poll())
        return line[0] if line else ""

    def test_a_killed_run_leaves_nothing_that_lasts(self) -> None:
        process = self.started(*SOLVE, "--certificate", "c")
        # (the pipe opens once the program has it open, and that is behind the file beside)
        with open(self.folder / "geo", "w"):
            self.assertEqual(self.parts(), [f"c{PART}"])
            process.kill()
            process.wait()
        self.assertEqual(self.parts(), [f"c{PART}"])
        (self.folder / "geo").unlink()
        (self.folder / "geo").write_text(GEO)
        self.check_solved(self.run_words(*SOLVE, "--certificate", "c"))
        self.assertEqual(self.parts(), [])

    def test_a_run_that_stores_nothing_leaves_nothing(self) -> None:
        (self.folder / "segment").write_text("")
        done = self.run_words(*SOLVE, "--certificate", "c", "--out", "g")
        self.assertEqual((done.returncode, done.stdout), (4, "refused geo NoRecord line 1\n"))
        self.assertEqual(self.parts(), [])

    def test_a_name_that_is_too_long(self) -> None:
        process = self.started(*SOLVE, "--certificate", "c" * (LONGEST + 1))
        line = self.first_line(process)
        self.assertIn("can't be stored: the name is too long", line)

    def test_names_that_are_taken(self) -> None:
        held = []
        for name in NAMES:
            held.append(open(self.folder / f"c{name}", "w"))
            fcntl.flock(held[-1], fcntl.LOCK_EX)
        process = self.started(*SOLVE, "--certificate", "c")
        line = self.first_line(process)
        for file in held:
            file.close()
        self.assertIn("can't be stored: all names of files beside it are taken", line)

    def test_a_folder_that_takes_no_file(self) -> None:
        """`/proc` takes none, not even of root, and its mode doesn't say so."""
        process = self.started(*SOLVE, "--certificate", "/proc/c")
        self.assertIn("--certificate /proc/c can't be stored: ", self.first_line(process))

    def test_an_adjacency_file_of_another_state(self) -> None:
        text = "x|GEOID|y|GEOID\nx|13001|y|13003\nx|13003|y|13001\n"
        (self.folder / "adjacency").write_text(text)
        line = self.first_line(self.started(*SOLVE))
        self.assertIn("has counties of other states, as 13001 and 13003, and --state is 37", line)
        self.assertIn("no border was read from it", line)


class Borders(OfAFolder):
    """An adjacency file without one pair of listed counties."""

    def check_kind(self, held: bytes, words: str) -> None:
        """Wants the first line on standard error to say that the adjacency file is this."""
        (self.folder / "adjacency").write_bytes(held)
        done = self.run_words(*SOLVE)
        self.assertEqual((done.returncode, done.stdout.splitlines()[-1]), (1, "answer impossible"))
        first = done.stderr.splitlines()[0]
        self.assertIn(f"countygroups: warning: --adjacency adjacency {words}", first)
        self.assertIn("no border was read", first)
        self.assertEqual(done.stderr.count("no border was read"), 1)

    def test_what_the_file_seems_to_be(self) -> None:
        self.check_kind(b'{"37001": ["37003"]}\n', "seems to be JSON")
        self.check_kind(b"[]\n", "seems to be JSON")
        # dBASE III: version 3, changed on 1 July 2020.
        dbase = bytes([3, 120, 7, 1]) + bytes(28) + b"\r"
        self.check_kind(dbase, "seems to be a table of a shapefile (dBASE)")
        self.check_kind(b"county,neighbor\n", "seems to have commas")
        self.check_kind(b"x|GEOID|y|GEOID\n", "has no line behind its header")
        self.check_kind(b"", "is empty")
        self.check_kind(b"PK\3\4", "seems to be a zip")

    def test_a_pipe_is_read_once(self) -> None:
        """Nothing is known of it before the run, but the warning comes first behind it."""
        back, to = os.pipe()
        os.write(to, b"{}\n")
        os.close(to)
        words = [f"/dev/fd/{back}" if it == "adjacency" else it for it in SOLVE]
        done = self.run_words(*words, fds=(back,))
        os.close(back)
        self.assertEqual(done.returncode, 1)
        self.assertIn("not one pair of listed counties", done.stderr.splitlines()[0])

    def test_a_file_that_is_refused_has_no_warning(self) -> None:
        (self.folder / "adjacency").write_text("[\n[]]\n")
        done = self.run_words(*SOLVE)
        self.assertEqual((done.returncode, done.stdout[:17]), (4, "refused adjacency"))
        self.assertNotIn("warning", done.stderr)

    def test_no_word_of_a_file_of_the_state(self) -> None:
        self.check_solved(self.run_words(*SOLVE))


class Texts(OfAFolder):
    """What is told of words, names and texts."""

    def test_marks_that_turn_the_direction_of_text(self) -> None:
        marks = [0x61C, 0x200E, 0x200F, *range(0x202A, 0x202F), *range(0x2066, 0x206A)]
        for mark in marks:
            done = self.run_words("size", "--geo", f"g{chr(mark)}x", *PROBLEM[2:6])
            self.assertNotIn(chr(mark), done.stderr)
            self.assertIn(f"g\\u{mark:04x}x", done.stderr)

    def check_one_file(self, first: str, second: str) -> None:
        """Wants a warning that both are one file."""
        done = self.run_words(*SOLVE, "--certificate", first, "--out", second)
        self.assertIn(
            f"warning: --certificate {first} and --out {second} are one file: a grouping takes"
            " the place of the certificate",
            done.stderr,
        )

    def test_one_file_by_two_names(self) -> None:
        for _ in ("while there is none", "where there is one"):
            self.check_one_file("c1", "./c1")
            self.check_one_file("c1", f"{self.folder}/c1")
        (self.folder / "link").symlink_to("c1")
        self.check_one_file("c1", "link")
        done = self.run_words(*SOLVE, "--out", "./geo")
        self.assertIn("--out ./geo is the file of --geo too", done.stderr)

    def check_by(self, text: str) -> Done:
        """Checks a certificate of this text."""
        (self.folder / "c").write_text(text)
        return self.run_words("check", *PROBLEM, "--certificate", "c")

    def test_the_advice_to_an_auditor(self) -> None:
        head = "county-groups certificate 1\n"
        done = self.check_by(f"{head}ordre 37001 37003 37005\n")
        self.assertEqual(done.returncode, 1)
        self.assertIn("its first word is `ordre`; there may stand: order CODE", done.stderr)
        self.assertNotIn("make it again", done.stderr)
        self.assertNotIn("solve", done.stderr)
        self.assertIn("the text is that of whoever made it", done.stderr)
        whole = f"{head}{ORDER}limit 3\ntarget 1\n{GROUP}stuk 37001\nend\n"
        self.assertIn("there may stand: branch CODE, take CODE", self.check_by(whole).stderr)

    def test_no_words_at_a_terminal_are_help(self) -> None:
        ours, theirs = pty.openpty()
        command = [TESTED.program]
        done = subprocess.run(
            command, stdin=theirs, capture_output=True, text=True, timeout=MOST_SECONDS, check=False
        )
        os.close(theirs)
        os.close(ours)
        help_text = self.run_words("--help").stdout
        self.assertEqual((done.returncode, done.stdout, done.stderr), (0, help_text, ""))

    def test_no_words_at_a_pipe_are_a_case(self) -> None:
        case = f"size --geo g --segment s --chamber 2\nfile g\n{GEO}file s\n{SEGMENT}"
        done: Done = subprocess.run(
            [TESTED.program], input=case, capture_output=True, text=True, check=False
        )
        self.assertEqual(done.returncode, 0)
        self.assertIn("people 200\n", done.stdout)


if __name__ == "__main__":
    run_tests(__doc__)
