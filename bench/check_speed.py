"""Measures the checker over the counties of North Carolina, whose codes are the odd ones, and
prints for each made certificate the steps and the millions of steps a second of processor time,
from the best of three runs of `check`, less the time at budget 0. The steps are the least budget
that suffices.

python3 bench/county_graph.py data/nc2020 > graph.txt
python3 bench/check_speed.py crates/countygroups/out/countygroups graph.txt
"""
from __future__ import annotations

import os
import resource
import subprocess
import sys
import tempfile
from typing import Sequence

MOST = 1 << 40
NARROW = "county-groups certificate 1"
WIDE = "county-groups wide certificate 1"


def code_of(place: int) -> int:
    """Returns the code of a county by its place."""
    return 37001 + 2 * place


def write_problem(folder: str, people: Sequence[int], pairs: Sequence[Sequence[int]]) -> None:
    """Writes the three files of a problem."""
    geo = [
        f"||050||00|||{place}|||||37||{code_of(place) % 1000:03}" for place in range(len(people))
    ]
    files = {
        "geo": geo,
        "segment": [f"||||{place}|{count}" for place, count in enumerate(people)],
        "adjacency": [f"|{code_of(first)}||{code_of(second)}" for first, second in pairs],
    }
    for name, lines in files.items():
        with open(os.path.join(folder, name), "w") as file:
            file.write("\n".join(lines) + "\n")


def write_text(folder: str, lines: list[str]) -> None:
    """Writes a certificate of these lines and the end."""
    with open(os.path.join(folder, "certificate"), "w") as file:
        file.write("\n".join(lines + ["end"]) + "\n")


def weighed(head: str, codes: list[str], limit: int) -> list[str]:
    """Returns a certificate of groups of one county each.

    Its leaf bounds the sizes up to `limit`, where each county weighs one.
    """
    lines = [head, "order " + " ".join(codes), f"limit {limit}", f"target {len(codes)}"]
    lines += [f"group 1 {code}" for code in codes]
    lines += [f"bound {limit}", "room"]
    return lines + ["weigh 1 " + " ".join(f"{code}:1" for code in codes)] * (limit - 1)


def branched(code: str, codes: list[str], limit: int) -> list[str]:
    """Returns a text whose only branch lists the groups of a county.

    It has none of them as a take.
    """
    lines = [WIDE, "order " + " ".join(codes), f"limit {limit}", "target none"]
    return lines + [f"branch {code} {limit}", "mark", "seats"]


def run(program: str, folder: str, chamber: int, budget: int) -> tuple[str, float]:
    """Returns what `check` says, and its seconds of processor time.

    It is the first line that tells an answer, or all of the text if it has no such line.
    """
    words = ["check", "--chamber", str(chamber), "--budget", str(budget)]
    for option in ("geo", "segment", "adjacency", "certificate"):
        words += [f"--{option}", option]
    before = resource.getrusage(resource.RUSAGE_CHILDREN)
    said = subprocess.run(
        [program, *words],
        cwd=folder,
        stdout=subprocess.PIPE,
        stderr=subprocess.DEVNULL,
        text=True,
    ).stdout
    after = resource.getrusage(resource.RUSAGE_CHILDREN)
    told = (it for it in said.split("\n") if it.startswith(("answer", "no ", "budget")))
    seconds = after.ru_utime + after.ru_stime - before.ru_utime - before.ru_stime
    return next(told, said), seconds


def least_budget(program: str, folder: str, chamber: int) -> int:
    """Returns the least budget that suffices."""
    low, high = 0, 1
    while run(program, folder, chamber, high)[0] == "budget":
        low, high = high, 4 * high
    while high - low > 1:
        middle = (low + high) // 2
        if run(program, folder, chamber, middle)[0] == "budget":
            low = middle
        else:
            high = middle
    return high


def measure(program: str, folder: str, chamber: int, name: str) -> None:
    """Prints the line of a certificate."""
    count = least_budget(program, folder, chamber)
    base = min(run(program, folder, chamber, 0)[1] for _ in range(3))
    runs = [run(program, folder, chamber, MOST) for _ in range(3)]
    seconds = max(min(time for _, time in runs) - base, 0.001)
    speed = f"{count / seconds / 1e6:.2f} million a second"
    print(f"{name}: {count} steps in {seconds:.3f} s, {speed}: {runs[0][0]}", flush=True)


def main(program: str, graph: str) -> None:
    """Measures all certificates."""
    program = os.path.abspath(program)
    with open(graph) as file:
        rows = [[int(word) for word in line.split()] for line in file]
    people, pairs = rows[1], rows[2:]
    codes = [str(code_of(place)) for place in range(len(people))]
    with tempfile.TemporaryDirectory() as folder:
        write_problem(folder, [1] * len(people), pairs)
        for head in [NARROW, WIDE]:
            for limit in [4, 5, 6]:
                write_text(folder, weighed(head, codes, limit))
                name = f"{head}, weights of at most {limit} counties"
                measure(program, folder, len(people), name)
        write_problem(folder, people, pairs)
        write_text(folder, branched("37183", codes, 8))
        for name, chamber in [("Senate", 50), ("House", 120)]:
            measure(program, folder, chamber, f"{name}, a branch of 37183 of at most 8 counties")


if __name__ == "__main__":
    if len(sys.argv) != 3:
        sys.exit(__doc__)
    main(sys.argv[1], sys.argv[2])
