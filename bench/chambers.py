"""What chambers have in common that benchmarks solve: the words of a problem, runs with their
processor time, and a row of a table."""
from __future__ import annotations

import os
import subprocess
from typing import Sequence

DATA = os.path.join(os.path.dirname(os.path.dirname(os.path.abspath(__file__))), "data")
DEFAULT_STEPS = 10_000_000


def words_of(files: Sequence[str], state: int, chamber: int) -> list[str]:
    """Returns the words that name a problem's files, its state and its chamber.

    The files are the geographic header, segment 1 and the adjacency.
    """
    geo, segment, adjacency = files
    words = ["--geo", geo, "--segment", segment, "--adjacency", adjacency]
    return [*words, "--state", str(state), "--chamber", str(chamber)]


def run(program: str, command: str, words: Sequence[str]) -> tuple[str, float]:
    """Returns what a command prints, and its seconds of processor time."""
    called = [program, command, *words]
    with subprocess.Popen(called, stdout=subprocess.PIPE, stderr=subprocess.DEVNULL) as process:
        assert process.stdout is not None
        text = process.stdout.read().decode()
        _, status, used = os.wait4(process.pid, 0)
        process.returncode = os.waitstatus_to_exitcode(status)
    return text, used.ru_utime + used.ru_stime


def line_of(text: str, word: str) -> str:
    """Returns the rest of the line that begins with the word, or "none"."""
    begins = f"{word} "
    found = (line[len(begins) :] for line in text.split("\n") if line.startswith(begins))
    return next(found, "none")


def is_open(program: str, words: Sequence[str], steps: int) -> bool:
    """Returns whether so few steps don't suffice."""
    text, _ = run(program, "solve", [*words, "--steps", str(steps)])
    return line_of(text, "answer").startswith("open")


def least_steps(program: str, words: Sequence[str], enough: int) -> int:
    """Returns the least number of steps that suffices, to within a hundredth.

    `enough` steps have to suffice.
    """
    low, high = 0, 1000
    while high < enough and is_open(program, words, high):
        low, high = high, 4 * high
    high = min(high, enough)
    while high - low > max(1, high // 100):
        middle = (low + high) // 2
        if is_open(program, words, middle):
            low = middle
        else:
            high = middle
    return high


def lines_in(path: str) -> int:
    """Returns the number of lines of a file."""
    with open(path, "rb") as file:
        return file.read().count(b"\n")


def solve_and_check(
    program: str,
    words: Sequence[str],
    folder: str,
    steps: int = DEFAULT_STEPS,
    least: bool = True,
) -> tuple[str, str, str, str, str]:
    """Returns five cells of a row, as text.

    They are the answer, the least steps, the seconds, the lines of the certificate, and what
    `check` says of it with its seconds. Without `least` no least steps are told. Where no
    certificate is stored, the steps are those allowed, and the last cell is what `judge` says.
    """
    certificate = os.path.join(folder, "certificate")
    grouping = os.path.join(folder, "grouping")
    for stored in (certificate, grouping):
        if os.path.exists(stored):
            os.remove(stored)
    stores = ["--certificate", certificate, "--out", grouping]
    text, seconds = run(program, "solve", [*words, "--steps", str(steps), *stores])
    answer = line_of(text, "answer").split(" ")[0]
    if not os.path.exists(certificate):
        judged, _ = run(program, "judge", [*words, "--grouping", grouping])
        return answer, f"{steps:,}", f"{seconds:.2f}", "-", line_of(judged, "answer")
    lines = lines_in(certificate)
    with_budget = ["--certificate", certificate, "--budget", "1000000000"]
    checked, check_seconds = run(program, "check", [*words, *with_budget])
    found = f"{least_steps(program, words, steps):,}" if least else "-"
    said = f"{'same' if checked == text else 'DIFFERS'}, {check_seconds:.2f}"
    return answer, found, f"{seconds:.2f}", f"{lines:,}", said
