"""What the tests share: the files of North Carolina, small problems, and the program."""
from __future__ import annotations

import unittest
from pathlib import Path
from typing import Any

import countygroups
from countygroups.codes import Label

DATA = Path(__file__).resolve().parents[2] / "data" / "nc2020"
BORDERS = DATA / "county_borders.txt"
NO_EDGE = DATA / "borders_without_an_edge.txt"
OUTLINES = DATA / "county_outlines.geojson"

SENATE, HOUSE = 50, 120
# The counts of the enacted Senate grouping, and what Cooper, Esselstyn, Herschlag, Mattingly and
# Tippett published in 2021: best groupings, groups in all of them, and the seats of these.
SENATE_COUNTS = (2, 9, 9, 1, 0, 0, 2, 1, 0, 1, 0, 0, 0, 0, 0, 0, 1)
HOUSE_COUNTS = (11, 16, 6, 4, 1, 0, 0, 0, 2)
PUBLISHED = {SENATE: (16, 17, 36), HOUSE: (8, 33, 107)}

# A path of four counties for 4 seats. A district has 95 to 105 people, so that C has 1 seat, D has
# 2, and A and B need each other.
PATH_PEOPLE = {"A": 50, "B": 50, "C": 100, "D": 200}
PATH_PAIRS = [("A", "B"), ("B", "C"), ("C", "D")]


def has_program() -> bool:
    """Returns whether there is a program."""
    try:
        countygroups.find_program()
    except countygroups.ProgramNotFound:
        return False
    return True


needs_program = unittest.skipUnless(has_program(), "there is no program: see COUNTYGROUPS")


def carolina() -> dict[str, dict[str, Any]]:
    """Returns people and names of the counties of North Carolina by the census of 2020."""
    return countygroups.read_census(DATA / "nc2020geo.pl", DATA / "nc000012020.pl")


def solved_path(**words: Any) -> countygroups.Answer:
    """Returns the answer of the path of four counties, or of what `words` change."""
    whole: dict[str, Any] = {"adjacency": PATH_PAIRS, **words}
    return countygroups.solve(PATH_PEOPLE, 4, **whole)


def sets_of(groups: countygroups.Grouping) -> set[frozenset[Label]]:
    """Returns the sets of counties of a grouping."""
    return {frozenset(group.counties) for group in groups}


def enacted(name: str) -> countygroups.Grouping:
    """Returns the grouping that was enacted in 2023, of `senate` or `house`."""
    lines = (DATA / f"{name}2023.grouping").read_text(encoding="ascii").splitlines()
    rows = [line.split("|") for line in lines]
    return tuple(countygroups.Group(tuple(codes), int(seats), 0) for seats, *codes in rows)


def pairs_without_edge() -> list[tuple[str, str]]:
    """Returns the adjacent pairs that have no edge in common in the outlines."""
    rows = [line.split("|") for line in NO_EDGE.read_text(encoding="utf-8").splitlines()[1:]]
    return [(row[1], row[3]) for row in rows]
