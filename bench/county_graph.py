"""Writes the counties of a folder of Census files as a graph: their number and that of their
adjacent pairs, the people of each by code, and the pairs by places. `bench/grow.cpp` reads it.

python3 bench/county_graph.py data/nc2020 > graph.txt
"""
from __future__ import annotations

import sys

from census_files import counties, fields


def pairs_of(folder: str, codes: list[str]) -> list[tuple[int, int]]:
    """Returns the pairs of adjacent counties, by their places among the codes."""
    place = {code: i for i, code in enumerate(codes)}
    pairs = set()
    for row in fields(folder + "/county_borders.txt"):
        if len(row) >= 4 and row[1] in place and row[3] in place and row[1] != row[3]:
            first, second = sorted((place[row[1]], place[row[3]]))
            pairs.add((first, second))
    return sorted(pairs)


def main(folder: str) -> None:
    """Prints the graph."""
    people = counties(folder)
    codes = sorted(people)
    pairs = pairs_of(folder, codes)
    print(len(codes), len(pairs))
    print(*[people[code] for code in codes])
    for first, second in pairs:
        print(first, second)


if __name__ == "__main__":
    if len(sys.argv) != 2:
        sys.exit(__doc__)
    main(sys.argv[1])
