#!/usr/bin/python3
"""Proves on many processors or machines that a grouping is best, by workers of Dask.

usage: tools/share.py --folder FOLDER [--grouping FILE] [--events FILE] [--jobs N] [--steps N]
                      [--scheduler ADDRESS | --slurm | --ssh HOST ..] [-- WORDS OF THE PROBLEM]

FOLDER/certificate is there once `check` calls it that of a best grouping. You may stop this at any
moment. Started again with the folder, it goes on where it was.

  --folder FOLDER      the folder for its files; it is made if it isn't there
  --grouping FILE      the grouping that is to be proved best, as `solve --out` stores it
  --events FILE        what was proved before, as `solve --events` stores it
  -- WORDS             --geo and --segment or --people, --chamber, --adjacency and the others that
                       say what the problem is; a later start may leave out these words and
                       both files
  --jobs N             how many workers there are (without it, as many as processors)
  --steps N            the most steps for one piece (without it 1000000); what is left is split

Without a further word the workers are processes of this machine. Else they are on machines where
the program and the files of the problem lie under the same paths:

  --scheduler ADDRESS  the workers of a Dask scheduler that runs, such as tcp://node1:8786
  --slurm              N jobs of Slurm; it needs the Python package dask-jobqueue. Without that, run
                       `dask scheduler &` and `srun dask worker --nthreads 1 ADDRESS` in one job of
                       Slurm, and name its scheduler by --scheduler
  --ssh HOST           a machine that `ssh HOST` reaches without a password, with N workers; it may
                       stand several times, and the first has the scheduler. It needs asyncssh,
                       which Debian has as python3-asyncssh

The program is `countygroups` on the path, or what COUNTYGROUPS names. All forms need Dask's package
`distributed`, of one version on all machines, which Debian has as python3-distributed. Whoever
reaches a scheduler can run programs at its workers, so keep it within your network.
Statuses: 0 it is proved, 2 it can't go on, 3 stopped.
"""
from __future__ import annotations

import argparse
import contextlib
import fcntl
import heapq
import importlib
import importlib.util
import logging
import os
import queue
import re
import shutil
import signal
import subprocess
import sys
import threading
import time
import uuid
import warnings
import zlib
from collections import Counter
from concurrent.futures import ThreadPoolExecutor
from dataclasses import dataclass, field
from fractions import Fraction
from typing import Any, BinaryIO, Callable, Optional

import share_worker
from refusal import Refused
from script_words import ScriptWords, tolerance_from
from share_proof import Event, Piece, Proof, judged, store, tell
from share_worker import Answer, Prover, Task, end_provers, end_tests, prove, prove_with
from share_worker import read_answer, replies

# The steps of the first piece. They double until this many pieces wait for each worker.
FIRST_STEPS, ENOUGH_WAITING = 2000, 16
# How often a worker may be at fault, and how many pieces a round may have.
MOST_FAULTS, MOST_PIECES = 3, 65_536
# How many times the most steps a piece may get whose parts would have too many open leaves.
MOST_LONGER = 16
# Seconds: when a piece is late, and between two lines that tell how far the proof is.
LATE, SHOWN_EACH = 1.0, 10.0
# How many seconds the way of an answer from a worker may take, else it is lost.
RESULT_SECONDS = 30.0
# How many seconds the last check has for itself before workers test answers beside it.
CHECK_ALONE = 10.0
# The budget of the last check. A certificate bounds its steps, so that this number stops nobody.
CHECK_STEPS = 2**64 - 1
NUMBERS = ("--chamber", "--state", "--tolerance", "--part", "--of")
PATHS = ("--geo", "--segment", "--people", "--adjacency", "--links", "--withdrawn")


@dataclass(eq=False)
class Asked:
    """What a worker was asked: to prove a piece by `steps`, or to test these `events`."""

    piece: Piece
    address: str
    name: str
    steps: int = 0
    events: list[Event] = field(default_factory=list)
    future: Any = None
    began: float = field(default_factory=time.monotonic)

    def result(self) -> Any:
        """Returns what the worker answered, None if it was lost, or a fault if it failed."""
        with contextlib.suppress(Exception):
            if not self.future.cancelled():
                if error := self.future.exception(RESULT_SECONDS):
                    return Answer(self.name, "fault", str(error).encode())
                return self.future.result(RESULT_SECONDS)
        return None


class Coordinator:
    """Hands the pieces of a proof out to the workers of Dask, and joins their answers."""

    def __init__(self, folder: str, words: list[str], steps: int, head: str) -> None:
        self.folder, self.words, self.steps, self.head = folder, words, steps, head
        self.run_name, self.number, self.proved_at = uuid.uuid4().hex, 0, 0.0
        self.inbox: queue.Queue[Callable[[], None]] = queue.Queue()
        self.threads = ThreadPoolExecutor(2)
        self.provers: dict[tuple[str, int], Prover] = {}
        self.workers: dict[str, tuple[str, int]] = {}
        self.faults: Counter[str] = Counter()
        self.tested: Counter[str] = Counter()
        self.asked: list[Asked] = []
        self.proof: Proof
        self.check: Optional[subprocess.Popen[bytes]] = None
        self.is_proved = self.is_long = False
        self.client: Any = None
        self.bar: Any = None

    def begin_round(self, limit: int, groups: list[bytes]) -> None:
        """Begins the round of a limit and a target, or the last one that followed it before."""
        self.proof = Proof(f"{self.folder}/answers", limit, groups)
        self.level, self.parts = FIRST_STEPS, 0
        ended = self.proof.read(self.proof.root)
        if ended and ended.kind in ("better", "wider"):
            self.begin_next(ended)
        else:
            tell(f"a round of {len(groups)} groups of at most {limit} counties")
            self.look_through()

    def begin_next(self, answer: Answer) -> None:
        """Begins the round after an answer `better` or `wider`."""
        self.proof.clear(self.proof.root)
        self.proof.root.is_needed = False
        groups = [it[6:] for it in answer.text.splitlines()]
        self.begin_round(self.proof.limit + (not groups), groups or self.proof.groups)

    def look_through(self) -> None:
        """Finds which pieces wait and which answers aren't tested, as after one was dropped."""
        self.heaps: dict[str, list[tuple[int, int, Piece]]] = {}
        self.untested = []
        for piece in self.proof.pieces():
            self.wait(piece)
            if piece.answer and not piece.tested_by:
                self.untested.append(piece)
        if self.check:
            self.check.kill()
            self.check = None

    def wait(self, piece: Piece) -> None:
        """Has a piece wait, unless it has an answer or a task, for the worker of its parent."""
        if piece.is_needed and not piece.answer and not piece.tasks:
            self.number += 1
            by = piece.parent.answer.by if piece.parent and piece.parent.answer else ""
            closed = zlib.decompress(piece.state).partition(b"least ")[0].count(b" ")
            heapq.heappush(self.heaps.setdefault(by, []), (closed, self.number, piece))

    def waiting(self) -> int:
        """Returns how many pieces wait."""
        return sum(map(len, self.heaps.values()))

    def slots(self) -> int:
        """Returns how many pieces the workers prove at once."""
        return sum(it for _, it in self.workers.values()) or 1

    # ---- answers ----

    def beside(self, then: Callable[[Any], None], act: Callable[..., Any], *words: Any) -> None:
        """Has a thread call `act`, and then has the loop call `then` with what it returned."""
        done = self.threads.submit(act, *words)
        done.add_done_callback(lambda it: self.inbox.put(lambda: then(it.result())))

    def hear(self, asked: Asked, answer: Any) -> None:
        """Takes the answer of a worker, None if it was lost, unless its piece is needless now."""
        if asked not in self.asked:
            return
        self.asked.remove(asked)
        # (so that Dask frees the answer at once)
        asked.future = None
        asked.piece.tasks -= not asked.events
        if answer is None or not asked.piece.is_needed or self.faults[asked.name] >= MOST_FAULTS:
            pass
        elif isinstance(answer, Answer):
            self.take(asked.piece, answer, asked.steps)
        else:
            self.hear_test(asked, *judged(asked.events, answer))
        self.wait(asked.piece)

    def take(self, piece: Piece, answer: Answer, steps: int) -> None:
        """Takes an answer of so many steps. A whole tree replaces a part, else the first stays."""
        is_part = piece.answer and piece.answer.kind == "part"
        if not piece.is_needed or piece.answer and not (is_part and answer.kind == "result"):
            return
        if answer.leaves and len(answer.leaves) + len(list(self.proof.pieces())) > MOST_PIECES:
            piece.steps = min(2 * steps, MOST_LONGER * self.steps)
        elif answer.kind in ("result", "part"):
            self.proof.keep(piece, answer)
            self.proof.settle(piece, answer)
            self.untested.append(piece)
            self.parts += answer.kind == "part"
            if is_part or any(it.answer for it in piece.children):
                self.look_through()
            for child in piece.children:
                self.wait(child)
        elif answer.kind in ("better", "wider", "open"):
            self.test_claim(piece, answer, steps)
        elif answer.kind == "no such piece" and piece.parent:
            self.confirm(piece.parent, answer.by, piece)
        else:
            self.blame(answer.by, answer.text.decode(errors="replace") or answer.kind)

    def test_claim(self, piece: Piece, claim: Answer, steps: int) -> None:
        """Has `share` test a `better`, and has any other claim tested by the same search here."""
        piece.tasks += 1
        proof, head = self.proof, b"better 1 %d\n" % claim.text.count(b"\n")
        words: tuple[Any, ...] = self.provers, "here", self.task(piece, steps)
        act: Callable[..., Any] = prove_with
        if claim.kind == "better":
            act, words = replies, (self.words, proof.limit, proof.grouping, head + claim.text)
        self.beside(lambda it: self.hear_claim(piece, claim, steps, it), act, *words)

    def hear_claim(self, piece: Piece, claim: Answer, steps: int, found: Any) -> None:
        """Follows a claim that was right. Else its worker is blamed, and the answer here taken."""
        piece.tasks -= 1
        is_answer = isinstance(found, Answer)
        if not piece.is_needed or piece.answer:
            return
        if found.kind != claim.kind if is_answer else found[:1] != ["new round 2"]:
            if not is_answer or found.kind in ("result", "part"):
                self.blame(claim.by, f"its `{claim.kind}` isn't so")
            if is_answer:
                self.take(piece, found, steps)
        elif claim.kind == "open":
            piece.steps = 2 * steps
        else:
            self.proof.keep(self.proof.root, claim)
            self.begin_next(claim)
        self.wait(piece)

    def hear_test(self, asked: Asked, is_tested: bool, wrong: Optional[Piece]) -> None:
        """Takes what a worker found of answers. What it finds wrong is tested here, too."""
        if wrong:
            self.confirm(asked.piece, asked.name, asked.piece)
        elif is_tested:
            for owner, _, _ in asked.events:
                if owner.answer and owner.answer.by != asked.name:
                    owner.tested_by = asked.name
                    self.tested[owner.answer.by] += 1

    def confirm(self, piece: Piece, accuser: str, waits: Piece) -> None:
        """Tests here whether an answer, or one above it, is wrong, as a worker found.

        Meanwhile the piece `waits` isn't given to a worker.
        """
        waits.tasks += 1
        events, text = self.proof.events(piece)
        words = self.words, self.proof.limit, self.proof.grouping, text

        def decide(said: list[str]) -> None:
            waits.tasks -= 1
            is_tested, wrong = judged(events, said)
            if wrong:
                self.reject(wrong)
            elif is_tested:
                self.blame(accuser, "it found a right answer wrong")
            self.wait(waits)

        self.beside(decide, replies, *words)

    def reject(self, piece: Piece) -> None:
        """Drops an answer that is wrong, and blames its worker."""
        by = piece.answer.by if piece.answer else ""
        self.proof.drop(piece)
        self.blame(by, "its answer proves nothing")
        self.look_through()

    def blame(self, name: str, why: str) -> None:
        """Counts a fault of a worker. After the last one its untested answers are left out, too."""
        self.faults[name] += 1
        tell(f"worker {name}: {why}")
        if name == "here":
            raise Refused("the program itself answers what isn't right")
        if self.faults[name] == MOST_FAULTS:
            tell(f"worker {name} is left out")
            for piece in list(self.proof.pieces()):
                if piece.tested_by == name:
                    piece.tested_by = ""
                if piece.answer and piece.answer.by == name and not piece.tested_by:
                    self.proof.drop(piece)
            self.look_through()

    # ---- workers ----

    def task(self, piece: Piece, steps: int) -> Task:
        """Returns the task to prove a piece."""
        self.number += 1
        text, number = self.proof.round_text, self.number % 2**32
        return Task(self.run_name, self.words, steps, text, number, piece.state)

    def ask(self, asked: Asked, act: Any, *words: Any) -> None:
        """Has a worker of Dask call `act`."""
        self.asked.append(asked)
        self.number += 1
        key = f"{act.__name__}-{self.run_name}-{self.number}"
        asked.future = self.client.submit(act, *words, workers=[asked.address], key=key, pure=False)
        asked.future.add_done_callback(
            lambda _: self.inbox.put(lambda: self.hear(asked, asked.result()))
        )

    def prove_at(self, address: str, name: str, piece: Piece) -> None:
        """Has a worker prove a piece, by few steps while few pieces wait."""
        slots, waiting = self.slots(), self.waiting()
        self.is_long = waiting >= ENOUGH_WAITING * slots / (4 if self.is_long else 1)
        if self.parts >= slots and not self.is_long:
            self.level, self.parts = min(2 * self.level, self.steps), 0
        piece.tasks += 1
        steps = max(piece.steps, self.steps if self.is_long else self.level)
        self.ask(Asked(piece, address, name, steps), prove, self.task(piece, steps))

    def test_at(self, address: str, name: str, piece: Piece) -> None:
        """Has a worker test an answer, with those above it."""
        self.untested.remove(piece)
        events, text = self.proof.events(piece)
        words = self.words, self.proof.limit, self.proof.grouping, text
        self.ask(Asked(piece, address, name, events=events), replies, *words)

    def occupy(self, address: str, name: str, is_idle: bool) -> bool:
        """Gives a worker what is to be done next, and returns whether there was something.

        That is an answer of a worker of which few were tested, or the largest piece that waits, at
        best one whose parent it had. If it is idle, it is a late piece or an untested answer, too.
        """
        for piece in self.untested:
            by = piece.answer.by if piece.answer else name
            if by != name and not piece.tested_by and self.tested[by] < MOST_FAULTS:
                self.test_at(address, name, piece)
                return True
        while heap := self.heaps.get(name, []) or max(self.heaps.values(), key=len, default=[]):
            piece = heapq.heappop(heap)[2]
            if piece.is_needed and not piece.answer and not piece.tasks:
                self.prove_at(address, name, piece)
                return True
        if self.check and time.monotonic() < self.proved_at + CHECK_ALONE:
            return False
        for asked in self.asked if is_idle else []:
            is_late = time.monotonic() > asked.began + LATE and asked.piece.tasks == 1
            is_late = is_late and asked.piece.is_needed and not asked.piece.answer
            if is_late and not asked.events and asked.address != address:
                self.prove_at(address, name, asked.piece)
                return True
        for piece in self.untested if is_idle else []:
            if piece.answer and piece.answer.by != name and not piece.tested_by:
                self.test_at(address, name, piece)
                return True
        return False

    def hand_out(self) -> None:
        """Gives each worker something, and one more piece for each thread while many wait."""
        load = Counter(it.address for it in self.asked)
        for deep in (1, 2) if self.waiting() >= 4 * self.slots() else (1,):
            for address, (name, threads) in self.workers.items():
                is_full = self.faults[name] >= MOST_FAULTS
                while not is_full and load[address] < deep * threads:
                    is_full = not self.occupy(address, name, load[address] == 0)
                    load[address] += 1

    def look_around(self) -> None:
        """Looks which workers there are. What those that are gone had waits again."""
        found = self.client.scheduler_info()["workers"]
        self.workers = {at: (str(it["name"]), int(it["nthreads"])) for at, it in found.items()}
        for asked in [it for it in self.asked if it.address not in self.workers]:
            asked.future.cancel()
            self.hear(asked, None)
        names = [name for name, _ in self.workers.values()]
        if names and all(self.faults[it] >= MOST_FAULTS for it in names):
            raise Refused("no worker is left")

    # ---- the end ----

    def judge(self) -> None:
        """Joins the answers, and has `check` test the certificate."""
        proof, path = self.proof, f"{self.folder}/certificate.part"
        head = f"{self.head}limit {proof.limit}\ntarget {len(proof.groups)}\n".encode()
        head += b"".join(b"group %s\n" % it for it in proof.groups)
        with open(path, "wb") as file:
            file.write(head)
            file.writelines(lines for _, lines in proof.chunks(proof.root))
            file.write(b"end\n")
            file.flush()
            os.fsync(file.fileno())
        words = [self.words[0], "check", *self.words[1:], "--certificate", path]
        words += ["--budget", str(CHECK_STEPS)]
        self.proved_at = time.monotonic()
        check = subprocess.Popen(words, stdout=subprocess.PIPE, stderr=subprocess.DEVNULL)
        self.check, above = check, head.count(b"\n")
        self.beside(lambda it: self.hear_check(check, above, it[0]), check.communicate)

    def hear_check(self, check: subprocess.Popen[bytes], above: int, told: bytes) -> None:
        """Ends the proof if the certificate is right. Else drops the answer that has the line."""
        if check is not self.check:
            return
        self.check = None
        path, found = f"{self.folder}/certificate", re.match(rb"no .*line (\d+)\n", told)
        if check.returncode == 0:
            os.rename(f"{path}.part", path)
            self.is_proved = True
            return
        line = int(found[1]) - above if found else 0
        for piece, lines in self.proof.chunks(self.proof.root) if line > 0 else ():
            line -= lines.count(b"\n")
            if line <= 0:
                return self.reject(piece)
        raise Refused(f"`check` ended with {check.returncode}: {told[:200]!r}")

    def show(self) -> None:
        """Tells how far the proof is: by Dask's bar at a terminal, else by a line at times."""
        answered = sum(1 for it in self.proof.pieces() if it.answer)
        waiting, asked = self.waiting(), len(self.asked)
        if self.bar:
            self.bar._draw_bar(remaining=waiting + asked, all=answered + waiting + asked)
        else:
            workers = len(self.workers)
            tell(f"{answered} pieces answered, {waiting} wait, {asked} at {workers} workers")

    def run(self) -> None:
        """Runs the loop until the grouping is proved best."""
        looked_at = shown_at = 0.0
        while not self.is_proved:
            if time.monotonic() > looked_at + 1:
                self.look_around()
                looked_at = time.monotonic()
            if time.monotonic() > shown_at + (0.5 if self.bar else SHOWN_EACH):
                self.show()
                shown_at = time.monotonic()
            self.hand_out()
            is_waiting = self.check or self.waiting()
            if not is_waiting and all(it.answer for it in self.proof.pieces()):
                self.judge()
            with contextlib.suppress(queue.Empty):
                self.inbox.get(timeout=0.5)()

    def stop(self) -> None:
        """Ends the programs here and at the workers."""
        if self.check:
            self.check.kill()
        for prover in self.provers.values():
            prover.process.kill()
        end_tests()
        if self.client:
            words = end_provers, self.run_name
            ending = threading.Thread(target=self.client.run, args=words, daemon=True)
            ending.start()
            ending.join(5)


def cluster_of(asked: argparse.Namespace) -> Any:
    """Returns the cluster that is started for the words of the command, or None."""
    distributed = importlib.import_module("distributed")
    if asked.slurm:
        jobqueue = importlib.import_module("dask_jobqueue")
        cluster = jobqueue.SLURMCluster(cores=1, processes=1, memory="2GB")
        cluster.scale(jobs=asked.jobs)
        return cluster
    if asked.ssh:
        options = {"n_workers": asked.jobs, "nthreads": 1}
        return distributed.SSHCluster([asked.ssh[0], *asked.ssh], worker_options=options)
    if asked.scheduler:
        return None
    return distributed.LocalCluster(
        n_workers=asked.jobs, threads_per_worker=1, silence_logs=logging.CRITICAL
    )


def problem_words(words: list[str]) -> list[str]:
    """Returns the words of a problem with whole paths."""
    found: list[str] = []
    for word in words:
        option, equals, path = word.partition("=")
        before = found[-1] if found else ""
        if option in PATHS and equals:
            word = f"{option}={os.path.abspath(path)}"
        elif before in PATHS:
            word = os.path.abspath(word)
        elif word.startswith("-") and option not in PATHS + NUMBERS:
            raise Refused(f"`{word}` is no word of the problem")
        found.append(word)
    return found


def kept(folder: str, name: str, given: Optional[bytes]) -> bytes:
    """Returns a file of the folder, which is stored if it isn't there. It has to be as given."""
    path = f"{folder}/{name}"
    if not os.path.exists(path):
        if given is None:
            raise Refused(f"{folder} has no {name} yet: give it as --help says")
        store(path, given)
    text = read(path)
    if given not in (None, text):
        raise Refused(f"{folder} belongs to another problem, by its {name}")
    return text or b""


def tolerance_of(words: list[str]) -> Fraction:
    """Returns the tolerance that the words of a problem give, one twentieth without one."""
    told = {}
    for word, after in zip(words, [*words[1:], ""]):
        option, equals, number = word.partition("=")
        told[option] = number if equals else after
    if "--tolerance" in told:
        try:
            return tolerance_from(told["--tolerance"])
        except argparse.ArgumentTypeError as fault:
            raise Refused(str(fault)) from fault
    return Fraction(int(told.get("--part", 1)), int(told.get("--of", 20)))


def head_of(words: list[str], codes: list[bytes]) -> str:
    """Returns the first lines of a certificate: the tolerance, and the order of the counties."""
    tolerance = tolerance_of(words)
    is_plain = tolerance == Fraction(1, 20)
    head = f"county-groups wide certificate {1 if is_plain else 2}\n"
    head += "" if is_plain else f"window {tolerance.numerator} {tolerance.denominator}\n"
    return head + f"order {b' '.join(sorted(codes)).decode()}\n"


def begin(asked: argparse.Namespace) -> Coordinator:
    """Returns the coordinator of the folder's proof, in the round that it came to."""
    program = shutil.which(os.environ.get("COUNTYGROUPS", "countygroups"))
    if not program:
        raise Refused("there is no program `countygroups`: name its path in COUNTYGROUPS")
    given = problem_words(asked.problem)
    text = "\n".join(given).encode() if given else None
    words = kept(asked.folder, "words", text).decode().split("\n")
    grouping = kept(asked.folder, "grouping", read(asked.grouping))
    lines = [it.split(b"|") for it in grouping.removeprefix(b"\xef\xbb\xbf").split()]
    if not all(it[0].isdigit() and it[1:] for it in lines):
        raise Refused("the grouping has a line that isn't `SEATS|CODE|CODE..`")
    groups = [b"%d %s" % (int(seats), b" ".join(codes)) for seats, *codes in lines]
    command = [os.path.abspath(program), *words]
    limit = max((it.count(b" ") for it in groups), default=1)
    events = read(asked.events) or b""
    said = replies(command, limit, grouping, events)
    if not said or not said[0].startswith("split into " if events else "left "):
        raise Refused(f"it can't begin: {' '.join(said[:1]) or 'the program says nothing'}")
    proof = Proof(f"{asked.folder}/answers", limit, groups)
    if events and not proof.root.answer:
        proof.keep(proof.root, read_answer("--events", 1, proof.root.state, events))
    codes = [code for it in groups for code in it.split()[1:]]
    coordinator = Coordinator(asked.folder, command, asked.steps, head_of(words, codes))
    coordinator.begin_round(limit, groups)
    return coordinator


def read(path: Optional[str]) -> Optional[bytes]:
    """Returns the bytes of a file, None without one."""
    if path is None:
        return None
    with open(path, "rb") as file:
        return file.read()


def positive(word: str) -> int:
    """Returns the whole number from 1 that a word has."""
    if not re.fullmatch("[1-9][0-9]{0,17}", word):
        raise ValueError
    return int(word)


def asked_of() -> argparse.Namespace:
    """Returns what the words of the command ask for."""
    parser = ScriptWords(__doc__)
    parser.add_argument("--folder", required=True)
    for word in ("--grouping", "--events"):
        parser.add_argument(word)
    parser.add_argument("--jobs", type=positive, default=os.cpu_count() or 1)
    parser.add_argument("--steps", type=positive, default=1_000_000)
    form = parser.add_mutually_exclusive_group()
    form.add_argument("--scheduler")
    form.add_argument("--slurm", action="store_true")
    form.add_argument("--ssh", action="append")
    parser.add_argument("problem", nargs="*")
    asked: argparse.Namespace = parser.parse_args()
    asked.folder = os.path.realpath(asked.folder)
    return asked


def stop_by_signal(*_: object) -> None:
    """Stops the script, as a signal asks."""
    for number in (signal.SIGINT, signal.SIGTERM):
        signal.signal(number, signal.SIG_IGN)
    raise KeyboardInterrupt


def locked(folder: str) -> BinaryIO:
    """Returns the open lock of a folder, which is made. Raises `Refused` if another run has it."""
    os.makedirs(f"{folder}/answers", exist_ok=True)
    lock = open(f"{folder}/lock", "wb")
    try:
        fcntl.flock(lock, fcntl.LOCK_EX | fcntl.LOCK_NB)
    except OSError:
        raise Refused(f"another run is at work in {folder}") from None
    return lock


def share(asked: argparse.Namespace) -> None:
    """Does what the words ask for."""
    distributed = importlib.import_module("distributed")
    for form, module in (("slurm", "dask_jobqueue"), ("ssh", "asyncssh")):
        if getattr(asked, form) and not importlib.util.find_spec(module):
            raise Refused(f"--{form} needs the Python module {module}: see --help")
    lock = locked(asked.folder)
    began = time.monotonic()
    coordinator = begin(asked)
    # (so that Ctrl-C at a terminal comes to this process alone)
    signal.signal(signal.SIGINT, signal.SIG_IGN)
    cluster = cluster_of(asked)
    signal.signal(signal.SIGINT, stop_by_signal)
    try:
        coordinator.client = distributed.Client(cluster or asked.scheduler)
        coordinator.client.upload_file(share_worker.__file__)
        if importlib.util.find_spec("bokeh"):
            tell(f"Dask's dashboard is {coordinator.client.dashboard_link}")
        if sys.stdout.isatty():
            bars = importlib.import_module("distributed.diagnostics.progressbar")
            coordinator.bar = bars.TextProgressBar([], start=False)
        ready = time.monotonic()
        coordinator.run()
        if coordinator.bar:
            coordinator.bar._draw_stop()
        checked, proved = time.monotonic(), coordinator.proved_at
        tell(
            f"proved: start {ready - began:.1f} s, proof {proved - ready:.1f} s, "
            f"check {checked - proved:.1f} s; the certificate is {asked.folder}/certificate"
        )
    finally:
        coordinator.stop()
        if coordinator.client:
            coordinator.client.close()
        if cluster:
            cluster.close()
        lock.close()


def main() -> int:
    """Runs the script, and returns its status."""
    asked = asked_of()
    logging.disable(logging.CRITICAL)
    warnings.simplefilter("ignore")
    signal.signal(signal.SIGTERM, stop_by_signal)
    try:
        share(asked)
        return 0
    except ModuleNotFoundError as fault:
        tell(f"there is no Python module `{fault.name}`: Debian's python3-distributed has Dask's")
    except KeyboardInterrupt:
        tell(f"stopped; started again with --folder {asked.folder} it goes on")
        return 3
    except (Refused, OSError) as fault:
        tell(f"it can't go on: {fault}")
    return 2


if __name__ == "__main__":
    # (no thread is waited for that still tests an answer)
    os._exit(main())
