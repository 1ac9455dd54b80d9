"""Measures `solve` and `check` on the Senate and the House of North Carolina 2020: the steps that
the solver takes (the least that suffice), the lines and bytes of the certificate, the seconds of
processor time and the peak memory; and the same of checking, with the least budget that suffices.
Each certificate is checked to give the report that `solve` gave.

python3 bench/solve_speed.py crates/countygroups/out/countygroups
"""
from __future__ import annotations

import os
import resource
import subprocess
import sys
import tempfile
from typing import Callable, NamedTuple

DATA = os.path.abspath("data/nc2020")
FILES = {
    "--geo": "nc2020geo.pl",
    "--segment": "nc000012020.pl",
    "--adjacency": "county_borders.txt",
}
PROBLEM = [word for option, name in FILES.items() for word in (option, os.path.join(DATA, name))]
CERTIFICATE = ["--certificate", "certificate"]
ENOUGH = 10_000_000


class Run(NamedTuple):
    """What a command printed, its seconds of processor time, and the peak of its memory in MB."""

    text: bytes
    seconds: float
    memory: float


class Solver(NamedTuple):
    """The program, the folder where it runs, and the seats of the chamber."""

    program: str
    folder: str
    seats: int

    def run(self, command: str, words: list[str]) -> Run:
        """Runs a command, and returns what came of it."""
        before = resource.getrusage(resource.RUSAGE_CHILDREN)
        called = ["/usr/bin/env", "time", "-f", "%M", self.program, command, *PROBLEM]
        called += ["--chamber", str(self.seats), *words]
        done = subprocess.run(called, cwd=self.folder, capture_output=True)
        after = resource.getrusage(resource.RUSAGE_CHILDREN)
        seconds = after.ru_utime + after.ru_stime - before.ru_utime - before.ru_stime
        return Run(done.stdout, seconds, int(done.stderr.split()[-1]) / 1024)

    def is_solved(self, steps: int) -> bool:
        """Returns whether `steps` steps suffice."""
        return b"answer open" not in self.run("solve", ["--steps", str(steps)]).text

    def check(self, budget: int) -> Run:
        """Runs `check` within a budget."""
        return self.run("check", [*CERTIFICATE, "--budget", str(budget)])


def least(enough: int, suffices: Callable[[int], bool]) -> int:
    """Returns the least number up to one that is enough."""
    few, most = 0, enough
    while few + 1 < most:
        middle = (few + most) // 2
        few, most = (few, middle) if suffices(middle) else (middle, most)
    return most


def measure(solver: Solver) -> None:
    """Prints a line of `solve` and a line of `check`."""
    report, seconds, memory = solver.run("solve", CERTIFICATE)
    steps = least(ENOUGH, solver.is_solved)
    with open(os.path.join(solver.folder, "certificate"), "rb") as file:
        text = file.read()
    told = f"{text.count(10)} lines, {len(text)} bytes, {seconds:.2f} seconds, {memory:.0f} MB"
    print(f"{solver.seats} seats: {steps} steps, {told}")
    said, seconds, memory = solver.check(ENOUGH)
    budget = least(ENOUGH, lambda tried: solver.check(tried).text != b"budget\n")
    same = "the same report" if said == report else "ANOTHER REPORT"
    print(f"checked: {same}, least budget {budget}, {seconds:.2f} seconds, {memory:.0f} MB")


def main() -> None:
    """Measures both chambers."""
    if len(sys.argv) != 2:
        sys.exit(__doc__)
    with tempfile.TemporaryDirectory() as folder:
        for chamber in (50, 120):
            measure(Solver(os.path.abspath(sys.argv[1]), folder, chamber))


if __name__ == "__main__":
    main()
