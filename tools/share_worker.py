"""What runs at the workers of `tools/share.py`: a process of the program, and what it answers."""
from __future__ import annotations

import importlib
import os
import re
import select
import subprocess
import tempfile
import threading
import time
import zlib
from typing import Any, Iterator, NamedTuple

# The most bytes and lines of an answer, and the bytes that it may have of few steps and of each.
MOST_BYTES, MOST_LINES, FEWEST_BYTES, BYTES_EACH = 1 << 24, 1 << 20, 1 << 22, 64
# How many seconds an answer may take, besides those of each step.
MOST_SECONDS, SECONDS_EACH = 60.0, 0.0005
# The most steps and seconds of a test of texts.
TEST_STEPS, TEST_SECONDS = 1_000_000_000, 600.0
END = b"\nend\n"
TREE_LINE = re.compile(
    rb"branch \d{5} [1-9]\d{0,2}|take( \d{5})+|mark|stuck \d{5}|seats|bound \d{1,3}|open|room"
    rb"|weigh \d+( \d{5}:\d+)*"
)
# The words that may begin a tree, that stand in a bound leaf, and that go on with a branch.
BEGINS, ROWS = (b"branch", b"stuck", b"seats", b"bound", b"open"), (b"room", b"weigh")
NEXT = (b"take", b"mark")
# The tests of answers that this process runs.
TESTS: set[subprocess.Popen[bytes]] = set()
GROUPS = re.compile(rb"(group \d+( \d{5})+\n)*")


class Fault(Exception):
    """What is wrong with an answer."""


class Answer(NamedTuple):
    """An answer: who gave it, its kind, its text, and the packed states of a part's open leaves.

    `seconds` are those of the processor for it, or of the clock where the system doesn't tell them.
    """

    by: str
    kind: str
    text: bytes = b""
    leaves: tuple[bytes, ...] = ()
    seconds: float = 0.0


def packed(closed: tuple[bytes, ...], least: dict[bytes, int]) -> bytes:
    """Returns the lines of a state, compressed: its groups, and the least sizes of the rest."""
    rest = {*least} - {code for group in closed for code in group.split()}
    lines = [*(b"closed " + it for it in closed)]
    lines += [b"least %s %d" % (code, least[code]) for code in sorted(rest)]
    return zlib.compress(b"".join(it + b"\n" for it in lines), 1)


def open_leaves(text: bytes, state: bytes) -> Iterator[bytes]:
    """Yields the state of each line `open` of a tree at a state. Raises `Fault` if it is none."""
    known = [it.split(b" ", 1) for it in zlib.decompress(state).splitlines()]
    closed = tuple(rest for word, rest in known if word == b"closed")
    least = {rest[:5]: int(rest[6:]) for word, rest in known if word == b"least"}
    taken = {code for group in closed for code in group.split()}
    branches: list[tuple[tuple[bytes, ...], set[bytes], dict[bytes, int], bytes, int]] = []
    rows, is_due = 0, True
    for line in text.splitlines():
        word, _, rest = line.partition(b" ")
        expected = BEGINS if is_due else ROWS if rows else NEXT if branches else ()
        if word not in expected or not TREE_LINE.fullmatch(line):
            raise Fault(f"its tree has the line {line[:60]!r}")
        if rows:
            rows -= 1
        elif word == b"branch":
            county, limit = rest[:5], int(rest[6:])
            # (so each state below is another, and no piece stands below itself)
            if limit < least.get(county, 0) or county in taken:
                raise Fault(f"its tree has the line {line!r} where it can't be")
            branches.append((closed, taken, least, county, limit))
        elif word == b"take":
            closed, taken, least = branches[-1][:3]
            if not taken.isdisjoint(rest.split()):
                raise Fault(f"its tree has the line {line[:60]!r} where it can't be")
            closed, taken = (*closed, rest), taken.union(rest.split())
        elif word == b"mark":
            closed, taken, least, county, limit = branches.pop()
            least = {**least, county: limit + 1}
        elif word == b"bound":
            rows = int(rest)
        elif word == b"open":
            yield packed(closed, least)
        is_due = word in (b"take", b"mark")
    if is_due or branches or rows:
        raise Fault("its tree is cut short")


def read_answer(by: str, number: int, state: bytes, text: bytes) -> Answer:
    """Returns the answer that a `text` spells. Raises `Fault` if it spells none."""
    head, _, body = text.partition(b"\n")
    kind = head.split(b" ")[0].decode(errors="replace")
    if text == b"no such piece\n":
        return Answer(by, "no such piece")
    if text in (b"open\n", b"wider 1\n"):
        return Answer(by, kind)
    if kind == "better" and GROUPS.fullmatch(body):
        return Answer(by, kind, body)
    if head not in (b"result 1 %d" % number, b"part 1 %d" % number):
        raise Fault(f"it answered {head[:60]!r}")
    leaves = tuple(open_leaves(body, state))
    if bool(leaves) != (kind == "part") or body.startswith(b"open\n"):
        raise Fault(f"its {kind} has {len(leaves)} open leaves")
    return Answer(by, kind, body, leaves)


class Prover:
    """A process of the program that proves one piece after the other, with `steps` for each."""

    def __init__(self, command: list[str], steps: int) -> None:
        self.steps, self.round_text, pipe = steps, b"", subprocess.PIPE
        words = [command[0], "worker", *command[1:], "--steps", str(steps)]
        self.process = subprocess.Popen(
            words, bufsize=0, stdin=pipe, stdout=pipe, stderr=subprocess.DEVNULL
        )

    def seconds(self) -> float:
        """Returns the processor's seconds of the process so far, or those of the clock."""
        try:
            with open(f"/proc/{self.process.pid}/schedstat") as file:
                return int(file.read().split()[0]) / 1e9
        except OSError:
            return time.monotonic()

    def ask(self, round_text: bytes, number: int, state: bytes) -> bytes:
        """Returns the answer to a piece. Raises `Fault` if it is too long, late or cut short."""
        assert self.process.stdin and self.process.stdout
        told = round_text if round_text != self.round_text else b""
        told += b"open 1 %d\n%send\n" % (number, zlib.decompress(state))
        self.round_text = round_text
        until = time.monotonic() + MOST_SECONDS + SECONDS_EACH * self.steps
        most = min(MOST_BYTES, FEWEST_BYTES + BYTES_EACH * self.steps)
        output, text = self.process.stdout.fileno(), bytearray(b"\n")
        try:
            self.process.stdin.write(told)
        except BrokenPipeError:
            raise Fault("its program ended") from None
        while not text.endswith(END):
            if not select.select([output], [], [], max(0.0, until - time.monotonic()))[0]:
                raise Fault("it is too late")
            more = os.read(output, 1 << 20)
            text += more
            if not more:
                raise Fault(f"its program ended behind {bytes(text[-80:])!r}")
            if len(text) > most:
                raise Fault("its answer has too many bytes")
        if text.count(b"\n") > MOST_LINES:
            raise Fault("its answer has too many lines")
        return bytes(text[1 : 1 - len(END)])

    def end(self) -> None:
        """Ends the process."""
        self.process.kill()
        self.process.communicate()


class Task(NamedTuple):
    """What a worker is asked: a piece of a round, to be proved within `steps`."""

    run: str
    command: list[str]
    steps: int
    round_text: bytes
    number: int
    state: bytes


def prove_with(provers: dict[tuple[str, int], Prover], by: str, task: Task) -> Answer:
    """Returns the answer of this thread's prover, which is started anew if its steps differ."""
    key = task.run, threading.get_ident()
    if key in provers and provers[key].steps != task.steps:
        provers.pop(key).end()
    if key not in provers:
        provers[key] = Prover(task.command, task.steps)
    try:
        began = provers[key].seconds()
        text = provers[key].ask(task.round_text, task.number, task.state)
        answer = read_answer(by, task.number, task.state, text)
        return answer._replace(seconds=provers[key].seconds() - began)
    except Fault as fault:
        provers.pop(key).end()
        return Answer(by, "fault", str(fault).encode())


def prove(task: Task) -> Answer:
    """Proves a piece at a worker of Dask, which keeps its provers.

    Raises `Fault` if it is called after the end of the run.
    """
    worker = importlib.import_module("distributed").get_worker()
    if task.run in vars(worker).get("ended", ()):
        raise Fault("the run has ended")
    return prove_with(vars(worker).setdefault("provers", {}), str(worker.name), task)


def end_provers(run: str, dask_worker: Any) -> None:
    """Ends the programs that a worker of Dask runs for a `run` of this script, and starts none."""
    vars(dask_worker).setdefault("ended", set()).add(run)
    for key, prover in list(vars(dask_worker).get("provers", {}).items()):
        if key[0] == run:
            prover.process.kill()
    end_tests()


def end_tests() -> None:
    """Ends the tests of answers that this process runs, which then count for nothing."""
    for process in list(TESTS):
        process.kill()


def replies(command: list[str], limit: int, grouping: bytes, events: bytes) -> list[str]:
    """Returns what `share` says of each event, a line for each.

    `accepted` and `split into` show that a text proves its piece, since the board makes the states
    itself, of the events before. No command tests a piece at less cost: `check` takes only a whole
    tree of the empty state, and `piece` proves anew.
    """
    with tempfile.TemporaryDirectory() as room:
        words = ["nice", command[0], "share", *command[1:], "--limit", str(limit)]
        words += ["--budget", str(TEST_STEPS)]
        for option, text in (("grouping", grouping), ("events", events)):
            with open(f"{room}/{option}", "wb") as file:
                file.write(text)
            words += [f"--{option}", f"{room}/{option}"]
        pipe, null = subprocess.PIPE, subprocess.DEVNULL
        with subprocess.Popen(words, stdin=null, stdout=pipe, stderr=null) as process:
            timer = threading.Timer(TEST_SECONDS, process.kill)
            timer.start()
            TESTS.add(process)
            assert process.stdout
            told = process.stdout.read(MOST_LINES)
            TESTS.discard(process)
            timer.cancel()
            process.kill()
    return told.decode(errors="replace").splitlines()
