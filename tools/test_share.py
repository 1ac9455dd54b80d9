#!/usr/bin/env python3
"""Tests of `tools/share.py`, which shares a proof among workers of Dask.

usage: python3 tools/test_share.py [--program FILE] [--long] [TEST ..]

--program FILE: a build of the program; by default that of `dist/`.
--long: also twenty kills at random and ten changed bits, which take some minutes.

Two workers prove that North Carolina's Senate of 2023 is a best grouping. Of these one has a false
program, in 21 ways. Each certificate has to be best by `check`, within ten times the seconds of two
honest workers, or a minute if that is more, because a machine may be busy with other tests. The
coordinator's memory stays below 300 MB. In most tests threads stand in for
the workers of Dask. Those with Dask are passed over if it isn't installed, which a line tells.
"""
from __future__ import annotations

import argparse
import contextlib
import fcntl
import io
import os
import random
import resource
import shutil
import signal
import subprocess
import sys
import tempfile
import time
import unittest
from concurrent.futures import ThreadPoolExecutor
from typing import Any, Optional

from help_texts import TOP
from machine_pace import allowed
from refusal import Refused
from share import begin, head_of, problem_words
from share_worker import Prover, end_tests, prove, prove_with
from tested_program import TESTED, run_tests

SHARE = os.path.join(TOP, "tools", "share.py")
DATA = os.path.join(TOP, "data", "nc2020")
PROBLEM = ["--geo", f"{DATA}/nc2020geo.pl", "--segment", f"{DATA}/nc000012020.pl"]
PROBLEM += ["--adjacency", f"{DATA}/county_borders.txt", "--chamber", "50"]
GROUPING = f"{DATA}/senate2023.grouping"
MOST_SECONDS, MOST_KILOBYTES = 600, 300_000
# What two honest workers take where a minute is allowed against a false program.
HONEST_SECONDS = 6.0
# What stands in for Dask.
STAND_INS = {
    "__init__": "from test_share import LocalCluster, StandIn as Client\n",
    "diagnostics/__init__": "",
    "diagnostics/progressbar": "TextProgressBar = None\n",
}

# What a worker answers to each piece, N being its number, and what the coordinator says of that.
PART = "part 1 N\nbranch 37001 1\n"
LIES = {
    "a number that nobody gave": ("result 1 999999\nseats\n", "is left out"),
    "another round": ("result 0 N\nseats\n", "is left out"),
    "a tree that proves nothing": ("result 1 N\nseats\n", "is left out"),
    "a tree cut short": ("result 1 N\nbranch 37001 1\n", "its tree is cut short"),
    "a line behind a tree": ("result 1 N\nseats\nseats\n", "its tree has the line"),
    "a number out of range": ("result 1 N\nbound 999\n" + 999 * "room\n", "is left out"),
    "a part that proves nothing": (PART + "take 37001\nopen\nmark\nopen\n", "is left out"),
    "a leaf at no state": (PART + "take 99999\nopen\nmark\nseats\n", "is left out"),
    "many open leaves": (PART + 60_000 * "take 37001\nopen\n" + "mark\nopen\n", ""),
    "a grouping that isn't lawful": ("better 1 1\ngroup 50 37001\n", "its `better` isn't so"),
    "a greater limit": ("wider 1\n", "its `wider` isn't so"),
    "too few steps": ("open\n", "its `open` isn't so"),
    "no piece": ("no such piece\n", "is left out"),
    "another event": ("hand 1\n", "is left out"),
    "no text": ("\0 no words\n", "is left out"),
}
# A program that tells such a lie, and what stands in its place in others.
LIAR = """
for line in sys.stdin:
    if line.startswith("open "):
        sys.stdout.write(LIE.replace("N", line.split()[2]) + "end\\n")
        sys.stdout.flush()
"""
PROGRAMS = {
    "an end without an answer": ("", "its program ended"),
    "no answer": ("time.sleep(10**6)", ""),
    "a byte each second": ("while True: time.sleep(1), os.write(1, b'r')", ""),
    "lines without end": ("while True: os.write(1, 9999 * b'room\\n')", "too many bytes"),
    "a line without end": ("while True: os.write(1, 9999 * b'weigh ')", "too many bytes"),
    "an honest worker's answer is wrong": (
        "if sys.argv[1] != 'share': os.execv(REAL, [REAL, *sys.argv[1:]])\nprint('not a proof')",
        "it found a right answer wrong",
    ),
}


class Shared(unittest.TestCase):
    """Tests of whole proofs by the script, where threads stand in for the workers of Dask."""

    python = sys.executable

    def setUp(self) -> None:
        it = tempfile.TemporaryDirectory()
        self.addCleanup(it.cleanup)
        self.room, self.folder = it.name, f"{it.name}/work"
        os.makedirs(f"{self.room}/distributed/diagnostics")
        for name, text in STAND_INS.items():
            with open(f"{self.room}/distributed/{name}.py", "w") as file:
                file.write(text)

    def setting(self) -> dict[str, str]:
        """Returns the environment of the script."""
        paths = os.pathsep.join([self.room, os.path.dirname(SHARE)])
        return {**os.environ, "COUNTYGROUPS": TESTED.program, "PYTHONPATH": paths}

    def start(self, *words: str) -> subprocess.Popen[str]:
        """Starts the script with two workers."""
        command = [self.python, SHARE, "--folder", self.folder, "--grouping", GROUPING]
        command += ["--jobs", "2", *words, "--", *PROBLEM]
        return subprocess.Popen(
            command,
            env=self.setting(),
            stderr=subprocess.PIPE,
            stdout=subprocess.DEVNULL,
            text=True,
        )

    def end(self, process: subprocess.Popen[str]) -> tuple[int, str, int]:
        """Returns the status of a process, what it told, and the kilobytes of its memory."""
        assert process.stderr
        with process.stderr:
            told = process.stderr.read()
        _, status, usage = os.wait4(process.pid, 0)
        process.returncode = os.waitstatus_to_exitcode(status)
        return process.returncode, told, usage.ru_maxrss

    def expect_best(self, process: subprocess.Popen[str]) -> str:
        """Expects that a process proves the grouping best, and returns what it told."""
        status, told, kilobytes = self.end(process)
        self.assertEqual(status, 0, told)
        self.assertLess(kilobytes, MOST_KILOBYTES)
        words = [TESTED.program, "check", *PROBLEM, "--certificate", f"{self.folder}/certificate"]
        done = subprocess.run(words, capture_output=True, text=True, timeout=MOST_SECONDS)
        self.assertIn("\nanswer best\n", done.stdout)
        return told

    def answers(self) -> list[str]:
        """Returns the paths of the stored answers."""
        folder = f"{self.folder}/answers"
        names = os.listdir(folder) if os.path.isdir(folder) else []
        return [f"{folder}/{it}" for it in sorted(names) if not it.endswith(".part")]

    def started(self, count: int) -> subprocess.Popen[str]:
        """Returns a process that has stored some answers, or has ended."""
        process = self.start()
        until = time.monotonic() + MOST_SECONDS
        while len(self.answers()) < count and process.poll() is None:
            self.assertLess(time.monotonic(), until)
            time.sleep(0.01)
        return process


class LocalCluster:
    """A stand-in for Dask's cluster, where each worker has the same program."""

    def __init__(self, n_workers: int, **_: object) -> None:
        self.programs = {str(it): os.environ["COUNTYGROUPS"] for it in range(n_workers)}

    def close(self) -> None:
        """Does nothing."""


class StandIn:
    """A stand-in for Dask's client: workers that are threads, each with a program of its own."""

    def __init__(self, cluster: LocalCluster) -> None:
        self.programs = cluster.programs
        self.threads = {name: ThreadPoolExecutor(1) for name in self.programs}
        self.provers: dict[str, Any] = {name: {} for name in self.programs}

    def upload_file(self, _: str) -> None:
        """Does nothing."""

    def close(self) -> None:
        """Does nothing."""

    def scheduler_info(self) -> dict[str, dict[str, dict[str, object]]]:
        """Returns what workers there are, as Dask does."""
        return {"workers": {name: {"name": name, "nthreads": 1} for name in self.programs}}

    def submit(self, act: Any, *words: Any, workers: list[str], key: str, pure: bool) -> Any:
        """Has a worker call `prove` or `replies`, with its own program."""
        name, (first, *more) = workers[0], words
        if act is prove:
            first = first._replace(command=[self.programs[name], *first.command[1:]])
            return self.threads[name].submit(prove_with, self.provers[name], name, first)
        return self.threads[name].submit(act, [self.programs[name], *first[1:]], *more)

    def run(self, _: Any, run: str) -> None:
        """Ends the processes of the workers."""
        for name, threads in self.threads.items():
            threads.shutdown(wait=False, cancel_futures=True)
            for prover in list(self.provers[name].values()):
                prover.process.kill()
        end_tests()


class Workers(unittest.TestCase):
    """Tests of one worker that lies beside an honest one. They need no Dask."""

    honest_seconds = 0.0

    def setUp(self) -> None:
        it = tempfile.TemporaryDirectory()
        self.addCleanup(it.cleanup)
        self.room = it.name

    def shared(self, folder: str, programs: dict[str, str]) -> tuple[float, str]:
        """Returns the seconds of a proof by these workers, and what it told."""
        os.environ["COUNTYGROUPS"] = TESTED.program
        os.makedirs(f"{folder}/answers")
        words = {"folder": folder, "grouping": GROUPING, "events": None, "problem": PROBLEM}
        told, began = io.StringIO(), time.monotonic()
        with contextlib.redirect_stderr(told):
            coordinator = begin(argparse.Namespace(**words, steps=1_000_000))
            cluster = LocalCluster(0)
            cluster.programs = programs
            coordinator.client = StandIn(cluster)
            try:
                coordinator.run()
            finally:
                coordinator.stop()
        seconds = time.monotonic() - began
        checked = [TESTED.program, "check", *PROBLEM, "--certificate", f"{folder}/certificate"]
        done = subprocess.run(checked, capture_output=True, text=True, timeout=MOST_SECONDS)
        self.assertIn("\nanswer best\n", done.stdout, told.getvalue())
        return seconds, told.getvalue()

    def expect_against(self, program: str, expected: str) -> None:
        """Expects that a proof ends in time although one of two workers has a false program."""
        path = f"{self.room}/liar"
        with open(path, "w") as file:
            file.write(f"#!{sys.executable} -S\nimport os, sys, time\n{program}\n")
        os.chmod(path, 0o755)
        for _ in range(4):
            folder = tempfile.mkdtemp(dir=self.room)
            seconds, told = self.shared(folder, {"liar": path, "honest": TESTED.program})
            # (a proof may end before the false program is heard often enough)
            if expected in told:
                break
        if seconds > allowed(60, self.honest_seconds, HONEST_SECONDS):
            # (the machine may have become busier since)
            self.honest_seconds = self.honest()
        self.assertLess(seconds, allowed(60, self.honest_seconds, HONEST_SECONDS), told)
        self.assertIn(expected, told)
        self.assertNotIn("worker honest", told)
        usage = resource.getrusage(resource.RUSAGE_SELF)
        self.assertLess(usage.ru_maxrss, MOST_KILOBYTES)

    def honest(self) -> float:
        """Returns the seconds of two honest workers."""
        honest = {"one": TESTED.program, "two": TESTED.program}
        return self.shared(tempfile.mkdtemp(dir=self.room), honest)[0]

    def test_lies(self) -> None:
        """One answers lies, or doesn't answer, or finds what is right wrong."""
        self.honest_seconds = self.honest()
        for name, (lie, told) in LIES.items():
            with self.subTest(name):
                self.expect_against(f"LIE = {lie!r}\n{LIAR}", told)
        for name, (program, told) in PROGRAMS.items():
            with self.subTest(name):
                self.expect_against(f"REAL = {TESTED.program!r}\n{program}", told)


class Folders(Shared):
    """Tests of the folder, and of stops."""

    def test_a_proved_folder(self) -> None:
        """A folder that has the proof is proved again from its answers alone."""
        self.expect_best(self.start())
        times = {it: os.stat(it).st_mtime_ns for it in self.answers()}
        self.expect_best(self.start())
        self.assertEqual(times, {it: os.stat(it).st_mtime_ns for it in self.answers()})

    def test_a_stop(self) -> None:
        """A signal ends it with 3, without files that are half written, and it goes on."""
        for number in (signal.SIGINT, signal.SIGTERM):
            process = self.started(len(self.answers()) + 3)
            process.send_signal(number)
            status, told, _ = self.end(process)
            self.assertEqual(status, 3, told)
        self.expect_best(self.start())

    def test_two_at_once(self) -> None:
        """A folder in which another one is at work is refused."""
        os.makedirs(self.folder)
        with open(f"{self.folder}/lock", "wb") as lock:
            fcntl.flock(lock, fcntl.LOCK_EX)
            status, told, _ = self.end(self.start())
        self.assertEqual(status, 2)
        self.assertIn("another run is at work", told)

    def test_another_problem(self) -> None:
        """The folder of another grouping is refused."""
        os.makedirs(self.folder)
        with open(f"{self.folder}/grouping", "w") as file:
            file.write("1|37001\n")
        status, told, _ = self.end(self.start())
        self.assertEqual(status, 2)
        self.assertIn("belongs to another problem", told)

    def test_a_changed_answer(self) -> None:
        """A file with a changed bit is told, and proved again as it was."""
        self.expect_best(self.start())
        path = max(self.answers(), key=os.path.getsize)
        change_bit(path, 100)
        os.remove(f"{self.folder}/certificate")
        self.assertIn(f"{path} was changed", self.expect_best(self.start()))

    def test_events_of_solve(self) -> None:
        """It goes on from what `solve` proved."""
        grouping, events = f"{self.room}/grouping", f"{self.room}/events"
        words = ["solve", *PROBLEM, "--steps", "50000", "--out", grouping, "--events", events]
        subprocess.run([TESTED.program, *words], capture_output=True)
        self.expect_best(self.start("--events", events, "--grouping", grouping))

    def test_false_events(self) -> None:
        """Events that prove nothing are refused."""
        events = f"{self.room}/events"
        with open(events, "w") as file:
            file.write("part 1 1\nbranch 37001 1\ntake 37001\nseats\nmark\nopen\n")
        status, told, _ = self.end(self.start("--events", events))
        self.assertEqual((status, "not a proof" in told), (2, True), told)

    @unittest.skipUnless("--long" in sys.argv, "it takes minutes: --long")
    def test_twenty_kills_and_ten_changed_bits(self) -> None:
        """Workers and coordinators are killed, and files changed, at random. It still joins."""
        chance = random.Random(1)
        for kill in range(20):
            process = self.started(len(self.answers()) + chance.randrange(4))
            workers = children_of(process.pid)
            if chance.random() < 0.5 and workers:
                kill_softly(chance.choice(workers))
                time.sleep(chance.random())
            kill_softly(process.pid)
            self.end(process)
            if kill % 2 and self.answers():
                path = chance.choice(self.answers())
                change_bit(path, chance.randrange(8 * os.path.getsize(path)))
        self.expect_best(self.start())


class Dask(Shared):
    """Tests with Dask itself, in which the coordinator's memory is that of a scheduler, too."""

    @classmethod
    def setUpClass(cls) -> None:
        for cls.python in (sys.executable, "/usr/bin/python3"):
            if cls.can_import("distributed"):
                return
        what = "the tests with Dask, which Debian has as the package python3-distributed"
        print(f"not run: {what}")
        if path := os.environ.get("COUNTYGROUPS_NOT_RUN"):
            with open(path, "a") as file:
                file.write(f"{what}\n")
        raise unittest.SkipTest(what)

    @classmethod
    def can_import(cls, module: str) -> bool:
        """Returns whether the Python of the script has a module."""
        return not subprocess.run(
            [cls.python, "-c", f"import {module}"], capture_output=True
        ).returncode

    def setting(self) -> dict[str, str]:
        """Returns the environment of the script."""
        return {**os.environ, "COUNTYGROUPS": TESTED.program}

    def test_this_machine(self) -> None:
        """Workers of this machine prove it. A signal ends it with 3 before, and it goes on."""
        process = self.started(3)
        process.send_signal(signal.SIGINT)
        status, told, _ = self.end(process)
        self.assertEqual(status, 3, told)
        self.expect_best(self.start())

    def test_a_scheduler(self) -> None:
        """Workers of a scheduler that runs prove it."""
        file = f"{self.room}/scheduler"
        for name in ("scheduler --port 0", "worker --nworkers 2 --nthreads 1"):
            module, *words = name.split()
            command = [self.python, "-m", f"distributed.cli.dask_{module}", *words]
            command += ["--no-dashboard", "--scheduler-file", file]
            started = subprocess.Popen(command, stderr=subprocess.DEVNULL, cwd="/")
            self.addCleanup(started.wait)
            self.addCleanup(started.terminate)
            while not os.path.exists(file):
                time.sleep(0.05)
        with open(file) as opened:
            address = opened.read().split('"address": "')[1].split('"')[0]
        self.expect_best(self.start("--scheduler", address))

    def test_slurm_without_its_package(self) -> None:
        """Without dask-jobqueue `--slurm` says what it needs."""
        if self.can_import("dask_jobqueue"):
            self.skipTest("a machine without dask-jobqueue")
        status, told, _ = self.end(self.start("--slurm"))
        self.assertEqual(status, 2)
        self.assertIn("--slurm needs the Python module dask_jobqueue", told)


class Words(unittest.TestCase):
    """Tests of the words of the command."""

    def test_a_people_file(self) -> None:
        """Its path is made whole, as the paths of the other files are."""
        words = problem_words(["--people", "p.csv", "--tolerance=5%", "--chamber", "2"])
        path = os.path.abspath("p.csv")
        self.assertEqual(words, ["--people", path, "--tolerance=5%", "--chamber", "2"])

    def test_a_tolerance(self) -> None:
        """The head of the certificate has it in lowest terms, unless it is one twentieth."""
        plain = "county-groups wide certificate 1\norder 37001\n"
        tenth = "county-groups wide certificate 2\nwindow 1 10\norder 37001\n"
        heads = {
            "": plain,
            "--tolerance 5%": plain,
            "--part 2 --of 40": plain,
            "--tolerance=0.1": tenth,
            "--part=1 --of=10": tenth,
        }
        for words, head in heads.items():
            with self.subTest(words):
                self.assertEqual(head_of(words.split(), [b"37001"]), head)
        with self.assertRaises(Refused):
            head_of(["--tolerance", "much"], [b"37001"])

    def test_no_dask(self) -> None:
        """Without Dask a sentence says what is missing."""
        with tempfile.TemporaryDirectory() as room:
            with open(f"{room}/distributed.py", "w") as file:
                file.write("raise ModuleNotFoundError(name='distributed')\n")
            done = subprocess.run(
                [sys.executable, SHARE, "--folder", f"{room}/work"],
                env={**os.environ, "PYTHONPATH": room},
                capture_output=True,
                text=True,
            )
        self.assertEqual(done.returncode, 2)
        self.assertIn("python3-distributed", done.stderr)
        self.assertNotIn("Traceback", done.stderr)


def change_bit(path: str, at: int) -> None:
    """Changes a bit of a file."""
    with open(path, "r+b") as file:
        file.seek(at // 8)
        byte = file.read(1)[0]
        file.seek(at // 8)
        file.write(bytes([byte ^ 1 << at % 8]))


def children_of(process: int) -> list[int]:
    """Returns the processes that a process started."""
    try:
        with open(f"/proc/{process}/task/{process}/children") as file:
            return [int(it) for it in file.read().split()]
    except FileNotFoundError:
        return []


def kill_softly(process: int) -> None:
    """Kills a process, if it is still there."""
    try:
        os.kill(process, signal.SIGKILL)
    except ProcessLookupError:
        pass


if __name__ == "__main__":
    if "--long" in sys.argv:
        sys.argv.remove("--long")
    run_tests(__doc__)
