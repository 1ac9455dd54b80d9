#!/usr/bin/env python3
"""The size table of a state, computed with fractions and by trying each number of seats: what
`size` writes is compared with it. Usage: size_table.py GEO SEGMENT1 CHAMBER [STATE]"""
from __future__ import annotations

import sys
from fractions import Fraction
from typing import Iterator


def fields(path: str) -> Iterator[list[str]]:
    """Yields the fields of each line of a file."""
    with open(path, encoding="latin1") as lines:
        for line in lines:
            yield line.rstrip("\r\n").split("|")


def counties(geo: str, segment: str, state: str) -> Iterator[tuple[str, int]]:
    """Yields the code and the people of each county of the state."""
    people = {int(row[4]): int(row[5]) for row in fields(segment)}
    for row in fields(geo):
        if row[2] == "050" and row[4] == "00" and row[12] == state:
            yield row[12] + row[14], people[int(row[7])]


def suits(people: int, seats: int, ideal: Fraction) -> bool:
    """Returns whether `people` suit `seats` seats of `ideal` people each, within five percent."""
    return Fraction(19, 20) * seats * ideal <= people <= Fraction(21, 20) * seats * ideal


def district_sizes(total: int, ideal: Fraction) -> list[int]:
    """Returns all numbers of people that suit one seat, in ascending order."""
    tried = range(total + 1)
    if total >= 10**6:
        tried = range(int(ideal * 9 / 10), int(ideal * 11 / 10) + 2)
    return [people for people in tried if suits(people, 1, ideal)]


def main(geo: str, segment: str, chamber: int, state: str) -> None:
    """Prints the table."""
    listed = sorted(counties(geo, segment, state))
    total = sum(people for _, people in listed)
    ideal = Fraction(total, chamber)
    district = district_sizes(total, ideal)
    print("people", total)
    print("chamber", chamber)
    print("district", f"{district[0]} to {district[-1]}" if district else "none")
    for code, people in listed:
        seats = [count for count in range(1, 2 * chamber + 1) if suits(people, count, ideal)]
        print(f"{code}|{people}|{seats[0]}|{seats[-1]}" if seats else f"{code}|{people}|none")


if __name__ == "__main__":
    if len(sys.argv) not in (4, 5):
        sys.exit("usage: size_table.py GEO SEGMENT1 CHAMBER [STATE]")
    main(sys.argv[1], sys.argv[2], int(sys.argv[3]), sys.argv[4] if len(sys.argv) == 5 else "37")
