"""Solves problems like those of North Carolina 2020 and prints for each its seats, the lines of its
certificate or `open`, and the seconds; then how many were answered within the steps that are
allowed. People are moved by up to a tenth, some pairs of adjacent counties are cut and some
counties two steps apart are joined, and a chamber has 30 to 170 seats. Each certificate is checked,
and has to give the report that `solve` gave.

python3 bench/perturbed.py crates/countygroups/out/countygroups [PROBLEMS [STEPS]]
"""
from __future__ import annotations

import os
import random
import subprocess
import sys
import tempfile
import time
from typing import Optional

DATA = "data/nc2020"
GEO, SEGMENT, ADJACENCY = "nc2020geo.pl", "nc000012020.pl", "county_borders.txt"
FILES = ["--geo", GEO, "--segment", SEGMENT, "--adjacency", ADJACENCY]
PATIENCE = 600

Link = tuple[str, str]


def lines(name: str) -> list[str]:
    """Returns the lines of a file of data/nc2020."""
    with open(os.path.join(DATA, name), encoding="latin1", newline="") as file:
        return file.read().split("\n")


def with_people_moved(chance: random.Random) -> str:
    """Returns segment 1 with each record's people changed by up to a tenth."""
    changed = []
    for line in lines(SEGMENT):
        fields = line.split("|")
        if len(fields) > 5 and fields[4] != "0000001":
            fields[5] = str(round(int(fields[5]) * chance.uniform(0.9, 1.1)))
        changed.append("|".join(fields))
    return "\n".join(changed)


def link(one: str, other: str) -> Link:
    """Returns a pair of counties in the order of their codes."""
    return (one, other) if one < other else (other, one)


def pairs() -> set[Link]:
    """Returns the pairs of adjacent counties of North Carolina."""
    split = [line.rstrip("\r").split("|") for line in lines(ADJACENCY)]
    rows = [row for row in split if len(row) >= 4]
    codes = {row[1] for row in rows if row[1].startswith("37")}
    return {link(row[1], row[3]) for row in rows if {row[1], row[3]} <= codes and row[1] != row[3]}


def two_steps_apart(known: set[Link]) -> list[Link]:
    """Returns the pairs of counties that have a neighbour in common and aren't adjacent."""
    beside: dict[str, set[str]] = {}
    for one, other in known:
        beside.setdefault(one, set()).add(other)
        beside.setdefault(other, set()).add(one)
    far = {
        link(one, other)
        for one, near in beside.items()
        for middle in near
        for other in beside[middle]
        if other != one
    }
    return sorted(far - known)


def with_links_changed(chance: random.Random) -> str:
    """Returns the adjacency of the state, with up to twelve pairs cut and up to twelve added."""
    known = pairs()
    cut = set(chance.sample(sorted(known), chance.randint(0, 12)))
    added = set(chance.sample(two_steps_apart(known), chance.randint(0, 12)))
    rows = ["County Name|County GEOID|Neighbor Name|Neighbor GEOID|Length"]
    changed = sorted((known - cut) | added)
    rows += [f"{one}|{one}|{other}|{other}|1" for one, other in changed]
    return "\n".join(rows) + "\n"


def write_problem(folder: str, chance: random.Random) -> None:
    """Writes the three files of a problem."""
    texts = {
        GEO: "\n".join(lines(GEO)),
        SEGMENT: with_people_moved(chance),
        ADJACENCY: with_links_changed(chance),
    }
    for name, text in texts.items():
        with open(os.path.join(folder, name), "w", encoding="latin1", newline="") as file:
            file.write(text)


def run(program: str, command: str, seats: int, words: list[str], folder: str) -> bytes:
    """Returns what a command prints of the problem in the folder."""
    called = [program, command, *FILES, "--chamber", str(seats), *words]
    return subprocess.run(called, cwd=folder, capture_output=True, timeout=PATIENCE).stdout


def solved(program: str, folder: str, seats: int, steps: int) -> tuple[Optional[int], float]:
    """Returns the lines of the certificate, or None where it is open, and the seconds of `solve`.

    Ends the script if `check` says another thing.
    """
    words = ["--certificate", "certificate"]
    begun = time.monotonic()
    report = run(program, "solve", seats, ["--steps", str(steps), *words], folder)
    seconds = time.monotonic() - begun
    if b"\nanswer open" in report:
        return None, seconds
    said = run(program, "check", seats, [*words, "--budget", str(2**64 - 1)], folder)
    if said != report:
        told = f"the checker says another thing than the solver: {said[:200]!r}"
        sys.exit(f"{seats} seats: {told}")
    with open(os.path.join(folder, "certificate"), "rb") as file:
        return file.read().count(b"\n"), seconds


def main(program: str, count: int = 100, steps: int = 10_000_000) -> None:
    """Prints a line for each problem, and how many were answered."""
    answered, slowest = 0, 0.0
    for number in range(count):
        chance = random.Random(number)
        seats = chance.randint(30, 170)
        with tempfile.TemporaryDirectory() as folder:
            write_problem(folder, chance)
            found, seconds = solved(os.path.abspath(program), folder, seats, steps)
        answered += found is not None
        slowest = max(slowest, seconds)
        told = "open" if found is None else found
        print(number, seats, told, f"{seconds:.2f}", flush=True)
    told = f"{answered} of {count} answered within {steps} steps"
    print(f"{told}; at most {slowest:.1f} seconds each")


if __name__ == "__main__":
    if not 2 <= len(sys.argv) <= 4:
        sys.exit(__doc__)
    main(sys.argv[1], *(int(word) for word in sys.argv[2:]))
