"""Simulates how long a shared proof takes with other numbers of workers, from recorded times.

usage: python3 bench/schedule.py FOLDER [--workers N,N,..] [--solve SECONDS]

FOLDER is that of `tools/share.py`, where a proof was joined. The first line of each answer there
has the seconds of its piece, of the processor, and which piece opened it. Only the last round
counts. A piece may begin once the one that opened it was answered. Each worker takes the open piece
that took longest, and 5 milliseconds more for the way of its texts. The start of Dask, the last
check and the tests of answers are left out. The pieces are those of the recorded run. With more
workers others would be split.
A row has the workers, the seconds until the last piece is answered, how many times as fast that is
as one worker, the share of the time in which workers are idle, and the seconds as a part of those
of `solve`, if they are given.
"""
from __future__ import annotations

import argparse
import heapq
import os
from typing import Iterator, NamedTuple

# The seconds for the way of a piece and its answer.
WAY = 0.005


class Shared(NamedTuple):
    """The pieces of a proof: the seconds of each, which pieces each opened, and the root."""

    seconds: dict[str, float]
    opened: dict[str, list[str]]
    root: str


def shared_proof(folder: str) -> Shared:
    """Returns the pieces of the last round of the proof in `folder`."""
    seconds: dict[str, float] = {}
    opened: dict[str, list[str]] = {}
    kinds = {}
    for name in os.listdir(os.path.join(folder, "answers")):
        with open(os.path.join(folder, "answers", name), "rb") as file:
            kinds[name], taken, above, _ = file.readline().decode().split(" ", 3)
        seconds[name] = float(taken)
        opened.setdefault(above, []).append(name)
    (root,) = (it for it in opened.pop("-") if kinds[it] in ("result", "part"))
    # (a whole tree may have come behind a part, whose pieces no longer count)
    return Shared(seconds, {it: opened[it] for it in opened if kinds[it] == "part"}, root)


def finished_at(shared: Shared, workers: int) -> tuple[float, list[float]]:
    """Returns the seconds until all pieces are answered by so many `workers`, and those of each."""
    waiting = [(-shared.seconds[shared.root], shared.root)]
    working: list[tuple[float, str]] = []
    now, taken = 0.0, []
    while waiting or working:
        while waiting and len(working) < workers:
            seconds, piece = heapq.heappop(waiting)
            taken.append(WAY - seconds)
            heapq.heappush(working, (now + taken[-1], piece))
        now, done = heapq.heappop(working)
        for piece in shared.opened.get(done, []):
            heapq.heappush(waiting, (-shared.seconds[piece], piece))
    return now, taken


def rows(shared: Shared, numbers: list[int], solve: float) -> Iterator[str]:
    """Yields the rows of the table."""
    alone = sum(finished_at(shared, 1)[1])
    for workers in numbers:
        taken = finished_at(shared, workers)[0]
        idle = max(0.0, 1 - alone / (workers * taken))
        part = f"{taken / solve:.2f}" if solve else ""
        yield f"| {workers} | {taken:.2f} | {alone / taken:.1f} | {100 * idle:.0f} % | {part} |"


def main() -> None:
    """Prints the table."""
    parser = argparse.ArgumentParser(usage=__doc__, add_help=False)
    parser.add_argument("folder")
    parser.add_argument("--workers", default="1,4,16,64")
    parser.add_argument("--solve", type=float, default=0.0)
    asked = parser.parse_args()
    shared = shared_proof(asked.folder)
    taken = finished_at(shared, 1)[1]
    print(f"{len(taken)} pieces, {sum(taken):.2f} s together, the longest {max(taken):.2f} s")
    print("| Workers | Seconds | Times as fast | Idle | Of `solve` |")
    print("| --- | --- | --- | --- | --- |")
    for row in rows(shared, [int(word) for word in asked.workers.split(",")], asked.solve):
        print(row)


if __name__ == "__main__":
    main()
