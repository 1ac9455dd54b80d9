#!/usr/bin/env python3
"""Which single borders change the list of best groupings of North Carolina 2020.

usage: python3 bench/single_borders.py PROGRAM [--chamber SEATS]

Solves and lists the Senate and the House (or one chamber) over data/nc2020, first as the files are,
then with one pair of counties added or cut by a links file:

- each pair that isn't adjacent and meets in a corner of the outlines is added, if it has no edge in
  common there, and so are Catawba and Cleveland, which don't meet in the outlines;
- Burke and Lincoln are cut, whose common edge is short, and so is each pair of
  borders_without_an_edge.txt;
- all pairs of point_contacts.links are added at once.

A row has the change, the counts, the number of best groupings, the number of groups that all of
them share, with the seats of these groups, and whether the grouping enacted in 2023 is best.
"""
from __future__ import annotations

import argparse
import os
import subprocess
import sys
import tempfile
from typing import Dict, Iterator, List, NamedTuple, Tuple

TOP = os.path.dirname(os.path.dirname(os.path.abspath(__file__)))
sys.path.insert(0, os.path.join(TOP, "tools"))
from border_check import Pair, contacts_of, read_borders, read_reasons  # noqa: E402
from county_outlines import read_rings  # noqa: E402

DATA = os.path.join(TOP, "data", "nc2020")
CHAMBERS = {50: "senate", 120: "house"}
BURKE_LINCOLN = Pair("37023", "37109")
CATAWBA_CLEVELAND = Pair("37035", "37045")
HEADS = ["Chamber", "Change", "Counts", "Best", "Shared", "Their seats", "Enacted"]


class Answer(NamedTuple):
    """What a list says, and whether the enacted grouping is among the best."""

    counts: str
    best: int
    shared: int
    shared_seats: int
    has_enacted: bool


def data(name: str) -> str:
    """Returns the path of a file of data/nc2020."""
    return os.path.join(DATA, name)


def text_of(path: str) -> str:
    """Returns the text of a file."""
    with open(path, encoding="utf-8") as file:
        return file.read()


def changes() -> Iterator[Tuple[str, str]]:
    """Yields the name and the links of each run."""
    borders = read_borders(data("county_borders.txt"))
    contacts = contacts_of(read_rings(data("county_outlines.geojson")))
    points = contacts.corners - contacts.edges.keys() - borders.pairs
    added = [*sorted(points), CATAWBA_CLEVELAND]
    cut = [BURKE_LINCOLN, *sorted(read_reasons(data("borders_without_an_edge.txt")))]
    yield "as it is", ""
    for sign, pairs in (("+", added), ("-", cut)):
        for pair in pairs:
            names = " and ".join(borders.names[code].split(" County")[0] for code in pair)
            yield f"{sign} {names}", f"{sign}|{pair.first}|{pair.second}\n"
    yield "+ all of point_contacts.links", text_of(data("point_contacts.links"))


def ran(program: str, *words: str) -> str:
    """Returns what a command prints. Raises `CalledProcessError` if its status isn't 0."""
    return subprocess.run([program, *words], capture_output=True, text=True, check=True).stdout


def facts(listed: str) -> Tuple[str, int, int, int]:
    """Returns counts, best groupings, shared groups and their seats of the text of a list."""
    lines = listed.splitlines()
    told: Dict[str, str] = {}
    for name in ("counts ", "best groupings ", "shared groups "):
        told[name] = next(line for line in lines if line.startswith(name))[len(name) :]
    first = next(place for place, line in enumerate(lines) if line.startswith("shared groups ")) + 1
    shared = lines[first : first + int(told["shared groups "])]
    seats = sum(int(line.split()[2]) for line in shared)
    return told["counts "], int(told["best groupings "]), len(shared), seats


def answer(program: str, chamber: int, links: str, folder: str) -> Answer:
    """Returns the answer for a chamber with these links. Its files are stored in `folder`."""
    path, certificate = os.path.join(folder, "links"), os.path.join(folder, "certificate")
    with open(path, "w", encoding="utf-8") as file:
        file.write(links)
    problem = ["--geo", data("nc2020geo.pl"), "--segment", data("nc000012020.pl")]
    problem += ["--adjacency", data("county_borders.txt"), "--chamber", str(chamber)]
    problem += ["--links", path, "--certificate", certificate]
    ran(program, "solve", *problem)
    listed = facts(ran(program, "list", *problem))
    words = [program, "judge", *problem, "--grouping", data(f"{CHAMBERS[chamber]}2023.grouping")]
    judged = subprocess.run(words, capture_output=True, text=True, check=False).stdout
    return Answer(*listed, "\nanswer best\n" in judged)


def main(words: List[str]) -> int:
    """Prints a row for each run, and returns the status."""
    parser = argparse.ArgumentParser(
        description=__doc__, formatter_class=argparse.RawDescriptionHelpFormatter
    )
    parser.add_argument("program")
    parser.add_argument("--chamber", type=int, choices=CHAMBERS)
    asked = parser.parse_args(words)
    print(f"| {' | '.join(HEADS)} |\n{'|---' * len(HEADS)}|")
    with tempfile.TemporaryDirectory() as folder:
        for chamber in [asked.chamber] if asked.chamber else CHAMBERS:
            for name, links in changes():
                found = answer(os.path.abspath(asked.program), chamber, links, folder)
                enacted = "best" if found.has_enacted else "not best"
                cells = [chamber, name, *found[:4], enacted]
                print(f"| {' | '.join(map(str, cells))} |", flush=True)
    return 0


if __name__ == "__main__":
    sys.exit(main(sys.argv[1:]))
