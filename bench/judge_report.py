#!/usr/bin/env python3
"""The report of a grouping, or nothing where it isn't lawful:
judge_report.py GEO SEGMENT ADJACENCY GROUPING CHAMBER"""
from __future__ import annotations

import sys
from collections import Counter
from fractions import Fraction
from typing import NamedTuple

Groups = list[tuple[int, list[str]]]


class Problem(NamedTuple):
    """The people of each county, the pairs of adjacent counties, and the seats of the chamber."""

    people: dict[str, int]
    beside: set[tuple[str, str]]
    chamber: int


def rows(name: str) -> list[list[str]]:
    """Returns the fields of each line that isn't blank."""
    with open(name, encoding="latin-1") as lines:
        return [line.rstrip("\n").split("|") for line in lines if line.strip()]


def people_of(geo: str, segment: str) -> dict[str, int]:
    """Returns the people of each county of North Carolina, by its code."""
    people_by_record = {row[4]: int(row[5]) for row in rows(segment)}
    return {
        row[12] + row[14]: people_by_record[row[7]]
        for row in rows(geo)
        if row[2] == "050" and row[4] == "00" and row[12] == "37"
    }


def pairs_of(adjacency: str) -> set[tuple[str, str]]:
    """Returns the pairs of adjacent counties, each in both orders. The first line is a head."""
    pairs = [(row[1], row[3]) for row in rows(adjacency)[1:]]
    return {(a, b) for one, other in pairs for a, b in [(one, other), (other, one)] if a != b}


def connected(codes: list[str], beside: set[tuple[str, str]]) -> bool:
    """Returns whether the counties are one part."""
    found, left = [codes[0]], set(codes[1:])
    for code in found:
        more = {other for other in left if (code, other) in beside}
        found += more
        left -= more
    return not left


def suits(problem: Problem, seats: int, codes: list[str]) -> bool:
    """Returns whether the people of the counties suit `seats` seats."""
    count = sum(problem.people[code] for code in codes)
    share = Fraction(count * problem.chamber, sum(problem.people.values()) * seats)
    return Fraction(19, 20) <= share <= Fraction(21, 20)


def is_lawful(problem: Problem, groups: Groups) -> bool:
    """Returns whether the groups are a lawful grouping of all counties and all seats."""
    if sorted(code for _, codes in groups for code in codes) != sorted(problem.people):
        return False
    if not all(
        connected(codes, problem.beside) and suits(problem, seats, codes) for seats, codes in groups
    ):
        return False
    return sum(seats for seats, _ in groups) == problem.chamber


def print_report(problem: Problem, groups: Groups) -> None:
    """Prints the report of a lawful grouping."""
    people, chamber = problem.people, problem.chamber
    sizes = Counter(len(codes) for _, codes in groups)
    print(f"people {sum(people.values())}\nchamber {chamber}\nseats left {chamber}")
    print(f"counties {len(people)}\nanswer lawful")
    print("counts", *(sizes[size] for size in range(1, max(sizes) + 1)))
    for number, (seats, codes) in enumerate(groups, 1):
        count = sum(people[code] for code in codes)
        print(f"group {number} seats {seats} people {count} counties", *codes)


def main() -> None:
    """Prints the report of the grouping that the words name."""
    if len(sys.argv) != 6:
        sys.exit("usage: judge_report.py GEO SEGMENT ADJACENCY GROUPING CHAMBER")
    geo, segment, adjacency, grouping, chamber = sys.argv[1:]
    problem = Problem(people_of(geo, segment), pairs_of(adjacency), int(chamber))
    groups = [(int(row[0]), row[1:]) for row in rows(grouping)]
    if not is_lawful(problem, groups):
        sys.exit("the grouping is not lawful")
    print_report(problem, groups)


if __name__ == "__main__":
    main()
