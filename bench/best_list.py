"""Prints the list of all best groupings that a complete certificate proves, from the Census files
and the certificate's text, with code of its own: an end of the tree is a bound leaf at which no
county is left and the closed groups have the target's counts. The seat windows are those of the
rule, in whole numbers. It does not check the certificate.

python3 bench/best_list.py data/nc2020 120 house.certificate
"""
from __future__ import annotations

import sys
from collections import Counter
from typing import Iterable, NamedTuple

from census_files import counties

Group = tuple[str, ...]
Grouping = list[Group]


class Region(NamedTuple):
    """Counties that are grouped by themselves, and all ways in which best groupings do so."""

    inside: set[str]
    choices: list[Grouping]


class Problem(NamedTuple):
    """The people of each county, those of all counties, and the seats of the chamber."""

    people: dict[str, int]
    total: int
    chamber: int


def counts(groups: Iterable[Group]) -> Counter[int]:
    """Returns how many groups there are of each number of counties."""
    return Counter(len(group) for group in groups)


class Tree:
    """The tree of a certificate, read in the order of the text."""

    def __init__(self, lines: list[str], codes: Iterable[str]) -> None:
        self.words = [line.split(" ") for line in lines]
        groups = int(self.words[3][1])
        self.target = counts([tuple(word[2:]) for word in self.words[4 : 4 + groups]])
        self.at = 4 + groups
        self.county_count = len(list(codes))
        self.found: list[Grouping] = []

    def read(self, closed: Grouping) -> None:
        """Reads the tree that begins here, below these closed groups, and notes its ends."""
        while self.words[self.at][0] == "branch":
            self.at += 1
            while self.words[self.at][0] == "take":
                taken = tuple(self.words[self.at][1:])
                self.at += 1
                self.read(closed + [taken])
            assert self.words[self.at][0] == "mark"
            self.at += 1
        if self.words[self.at][0] == "bound":
            self.at += int(self.words[self.at][1])
            if sum(map(len, closed)) == self.county_count and counts(closed) == self.target:
                self.found.append(closed)
        self.at += 1


def ends(lines: list[str], codes: Iterable[str]) -> list[Grouping]:
    """Returns the closed groups at each end, in the order of the text."""
    sys.setrecursionlimit(10_000)
    tree = Tree(lines, codes)
    tree.read([])
    assert tree.words[tree.at] == ["end"]
    return tree.found


def seats(people: int, problem: Problem) -> str:
    """Returns the numbers of seats that these people suit."""
    _, total, chamber = problem
    least = max(1, -(-20 * chamber * people // (21 * total)))
    most = 20 * chamber * people // (19 * total)
    assert least <= most
    return str(least) if least == most else f"{least} to {most}"


def group_key(group: Group) -> tuple[int, Group]:
    """Returns what groups are ordered by."""
    return len(group), group


def in_order(found: list[Grouping]) -> list[Grouping]:
    """Returns the groupings in the order of their lists of groups."""
    listed = [sorted([tuple(sorted(group)) for group in end], key=group_key) for end in found]
    return sorted(listed, key=lambda end: [group_key(group) for group in end])


def print_groups(groups: Iterable[Group], problem: Problem) -> None:
    """Prints a line for each group."""
    for group in groups:
        count = sum(problem.people[code] for code in group)
        told = f"group seats {seats(count, problem)} people {count}"
        print(f"{told} counties {' '.join(group)}")


def choices_inside(listed: list[Grouping], inside: set[str]) -> list[Grouping]:
    """Returns the different ways in which the groupings group these counties."""
    choices: list[Grouping] = []
    for end in listed:
        choice = [group for group in end if set(group) <= inside]
        if choice not in choices:
            choices.append(choice)
    return choices


def regions_of(listed: list[Grouping], shared: Grouping, codes: Iterable[str]) -> list[Region]:
    """Returns the regions of the counties that no shared group has, by their first counties."""
    left = sorted(code for code in codes if all(code not in group for group in shared))
    first = {code: code for code in left}
    for group in [group for end in listed for group in end if group not in shared]:
        met = {first[code] for code in group}
        first = {code: min(met) if at in met else at for code, at in first.items()}
    regions = []
    for head in [code for code in left if first[code] == code]:
        inside = {code for code in left if first[code] == head}
        regions.append(Region(inside, choices_inside(listed, inside)))
    return regions


def print_head(listed: list[Grouping], shared: Grouping, problem: Problem) -> None:
    """Prints the lines before the regions."""
    chamber, size = problem.chamber, counts(listed[0])
    print(f"people {problem.total}\nchamber {chamber}\nseats left {chamber}")
    print(f"counties {len(problem.people)}\nanswer all")
    print("counts", *[size[number] for number in range(1, max(size) + 1)])
    print(f"best groupings {len(listed)}\nshared groups {len(shared)}")
    print_groups(shared, problem)


def print_region(number: int, region: Region, problem: Problem) -> None:
    """Prints a region and its alternatives."""
    inside, choices = region
    print(f"region {number} counties {len(inside)} alternatives {len(choices)}")
    for place, choice in enumerate(choices, 1):
        print(f"alternative {place}")
        print_groups(choice, problem)


def print_choices(number: int, end: Grouping, regions: list[Region]) -> None:
    """Prints which alternative a grouping has in each region."""
    chosen = []
    for inside, choices in regions:
        chosen.append(choices.index([group for group in end if set(group) <= inside]) + 1)
    print(f"grouping {number} alternatives", *chosen)


def main(folder: str, chamber: int, certificate: str) -> None:
    """Prints the list."""
    people = counties(folder)
    problem = Problem(people, sum(people.values()), chamber)
    with open(certificate) as file:
        lines = file.read().split("\n")
    listed = in_order(ends(lines, people))
    shared = [group for group in listed[0] if all(group in end for end in listed)]
    print_head(listed, shared, problem)
    regions, product = regions_of(listed, shared, people), 1
    for number, region in enumerate(regions, 1):
        print_region(number, region, problem)
        product *= len(region.choices)
    if product == len(listed):
        print("every choice")
        return
    for number, end in enumerate(listed, 1):
        print_choices(number, end, regions)


if __name__ == "__main__":
    if len(sys.argv) != 4:
        sys.exit(__doc__)
    main(sys.argv[1], int(sys.argv[2]), sys.argv[3])
