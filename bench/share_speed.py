"""Times `tools/share.py` beside `solve`, in one run.

usage: python3 bench/share_speed.py PROGRAM [--only WORD] [--jobs N,N,..] [--steps N]

The chambers are Kansas 40, Kentucky 38 and Georgia 180. For each, `solve` finds the grouping, and
`tools/share.py` proves it best from there, with each number of workers. A row has the workers, the
seconds of wall time of Dask's start, of the proof, and of its join and check, the last two together
as a part of the seconds of `solve`, and the seconds of the processor for all answers.
"""
from __future__ import annotations

import argparse
import os
import re
import subprocess
import tempfile
import time
from typing import Iterator

from chambers import DATA, words_of
from schedule import shared_proof

CHAMBERS = [("Kansas", 20, 40), ("Kentucky", 21, 38), ("Georgia", 13, 180)]
SCRIPT = os.path.join(os.path.dirname(os.path.abspath(__file__)), "..", "tools", "share.py")
TOLD = re.compile(r"proved: start ([\d.]+) s, proof ([\d.]+) s, check ([\d.]+) s")


def seconds_of(command: list[str], **more: str) -> tuple[float, str]:
    """Runs a command. Returns the seconds it took, and what it told."""
    began = time.monotonic()
    done = subprocess.run(
        command, env={**os.environ, **more}, capture_output=True, text=True, check=True
    )
    return time.monotonic() - began, done.stderr


def rows(asked: argparse.Namespace, chamber: tuple[str, int, int]) -> Iterator[str]:
    """Yields the rows of a chamber."""
    name, state, seats = chamber
    program = os.path.abspath(asked.program)
    files = [f"{DATA}/states/{name.lower()}.{kind}" for kind in ("geo", "segment", "adjacency")]
    words = words_of(files, state, seats)
    with tempfile.TemporaryDirectory() as folder:
        grouping = os.path.join(folder, "grouping")
        solved, _ = seconds_of([program, "solve", *words, "--out", grouping])
        yield f"| {name} {seats}, `solve` | | {solved:.1f} | | | |"
        for jobs in asked.jobs.split(","):
            work = os.path.join(folder, f"work{jobs}")
            command = [SCRIPT, "--folder", work, "--grouping", grouping, "--jobs", jobs]
            command += ["--steps", str(asked.steps), "--", *words]
            found = TOLD.search(seconds_of(command, COUNTYGROUPS=program)[1])
            assert found
            start, proof, check = (float(it) for it in found.groups())
            part, taken = (proof + check) / solved, sum(shared_proof(work).seconds.values())
            yield f"| {jobs} | {start} | {proof} | {check} | {part:.2f} | {taken:.1f} |"


def main() -> None:
    """Prints the table."""
    parser = argparse.ArgumentParser(usage=__doc__, add_help=False)
    parser.add_argument("program")
    parser.add_argument("--only", default="")
    parser.add_argument("--jobs", default="1,4")
    parser.add_argument("--steps", type=int, default=1_000_000)
    asked = parser.parse_args()
    print("| Workers | Start | Proof | Join, check | Of `solve` | Answers, seconds |")
    print("|---|---|---|---|---|---|")
    for chamber in CHAMBERS:
        if asked.only in f"{chamber[0]} {chamber[2]}":
            for row in rows(asked, chamber):
                print(row, flush=True)


if __name__ == "__main__":
    main()
