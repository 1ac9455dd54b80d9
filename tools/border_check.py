#!/usr/bin/env python3
"""Compares the pairs of an adjacency file with the edges that county outlines have in common.

usage: python3 tools/border_check.py ADJACENCY OUTLINES [--without-edge FILE]

ADJACENCY is a file as `countygroups --adjacency` reads it (docs/reference/formats.md), such as the
Census Bureau's county adjacency file or data/nc2020/county_borders.txt. OUTLINES is GeoJSON with a
GEOID for each county. Only counties that both files name are compared. Each of these is a finding,
and has a line:

- two counties have an edge in common in the outlines, and aren't adjacent in the file;
- two counties are adjacent in the file and have no edge in common, and no reason is given for it.

--without-edge FILE names the pairs that need no edge, with the reason of each. Its lines have the
layout of the adjacency file, with the reason in the fifth field. A reason is `over water` or `a
point in the generalised shapes`, perhaps with a colon and more words. It is a finding, too, if a
listed pair isn't adjacent or has an edge, or if its reason is a point and there is no corner in
common.

The fifth field of ADJACENCY may be a length. If some length is above 0, a pair of length 0 meets in
a point by the file's own words, and needs no reason.

The last line has the numbers of pairs. Statuses: 0 nothing was found, 1 something was, 2 these
words or files can't be used, with a sentence on standard error.
"""
from __future__ import annotations

import itertools
import math
import re
import sys
from collections import defaultdict
from dataclasses import dataclass
from typing import Dict, Iterator, List, NamedTuple, Set, Tuple

from county_outlines import Outlines, Ring, Spot, read_rings
from number_words import counted
from refusal import Refused
from script_words import ScriptWords

EARTH_RADIUS_KM = 6371.0088
CODE = re.compile(r"[0-9]{5}")
LENGTH = re.compile(r"[0-9]+(\.[0-9]+)?")
OVER_WATER = "over water"
AT_A_POINT = "a point in the generalised shapes"


class Pair(NamedTuple):
    """Two different counties by their codes, the lesser code first."""

    first: str
    second: str


@dataclass(frozen=True)
class Row:
    """A line of an adjacency file or of a list in its layout: `field` is the fifth field."""

    line: int
    names: Tuple[str, str]
    codes: Tuple[str, str]
    field: str

    @property
    def pair(self) -> Pair:
        """Returns the two counties in the order of their codes."""
        return Pair(min(self.codes), max(self.codes))


@dataclass(frozen=True)
class Borders:
    """The pairs of an adjacency file.

    `names` has the name of each county by its code, `points` the pairs of length 0.
    """

    names: Dict[str, str]
    pairs: Set[Pair]
    points: Set[Pair]


@dataclass(frozen=True)
class Contacts:
    """How outlines meet.

    `edges` has the kilometres of the common edges of a pair, `corners` the pairs with a common
    corner.
    """

    edges: Dict[Pair, float]
    corners: Set[Pair]


def read_rows(path: str) -> Iterator[Row]:
    """Yields the rows of a file in the layout of an adjacency file.

    Blank lines are skipped, and so is a header. Raises `Refused` if the file can't be read, or if a
    line has fewer than four fields, or a code that is none.
    """
    try:
        with open(path, encoding="utf-8-sig", errors="replace", newline="") as file:
            lines = file.read().split("\n")
    except OSError as fault:
        raise Refused(f"The file {path} can't be read: {fault.strerror}.") from fault
    is_first = True
    for number, line in enumerate(lines, 1):
        fields = line[:-1].split("|") if line.endswith("\r") else line.split("|")
        if fields == [""]:
            continue
        is_header = is_first and (len(fields) < 2 or not CODE.fullmatch(fields[1]))
        is_first = False
        if not is_header:
            yield row_of(path, number, fields)


def row_of(path: str, number: int, fields: List[str]) -> Row:
    """Returns the row of a line's fields.

    Raises `Refused` if there are fewer than four, or if a code is none.
    """
    if len(fields) < 4:
        told = "has fewer than four fields: take the adjacency file of 2023 or later, with pipes"
        raise Refused(f"Line {number} of {path} {told}.")
    codes = fields[1], fields[3]
    if not all(map(CODE.fullmatch, codes)):
        raise Refused(f"Line {number} of {path} has a county code that isn't five digits.")
    return Row(number, (fields[0], fields[2]), codes, fields[4] if len(fields) > 4 else "")


def read_borders(path: str) -> Borders:
    """Returns the pairs of an adjacency file.

    Raises `Refused` if a line isn't one, or if a length is no number.
    """
    names: Dict[str, str] = {}
    longest: Dict[Pair, float] = {}
    for row in read_rows(path):
        names.update(zip(row.codes, row.names))
        if row.field and not LENGTH.fullmatch(row.field):
            raise Refused(f"Line {row.line} of {path} has a length that isn't a number.")
        if row.codes[0] != row.codes[1]:
            length = float(row.field) if row.field else math.inf
            longest[row.pair] = max(length, longest.get(row.pair, 0.0))
    points = {pair for pair, length in longest.items() if length == 0}
    return Borders(names, set(longest), points if len(points) < len(longest) else set())


def read_reasons(path: str) -> Dict[Pair, str]:
    """Returns the reason of each pair that needs no edge: `OVER_WATER` or `AT_A_POINT`.

    Raises `Refused` if a line isn't one, if its reason is another, or if a pair stands twice.
    """
    reasons: Dict[Pair, str] = {}
    for row in read_rows(path):
        reason = row.field.split(":")[0]
        if reason not in (OVER_WATER, AT_A_POINT):
            told = f"`{OVER_WATER}` or `{AT_A_POINT}`"
            raise Refused(f"Line {row.line} of {path} has a reason that isn't {told}.")
        if row.pair in reasons or row.codes[0] == row.codes[1]:
            told = "has no pair, or one that stands on a line before"
            raise Refused(f"Line {row.line} of {path} {told}.")
        reasons[row.pair] = reason
    return reasons


def ring_edges(ring: Ring) -> Iterator[Tuple[Spot, Spot]]:
    """Yields each edge of a ring with its ends in order, so that both its sides give the same."""
    for place, spot in enumerate(ring):
        before = ring[place - 1]
        if before != spot:
            yield min(before, spot), max(before, spot)


def kilometres(start: Spot, end: Spot) -> float:
    """Returns the length of an edge in km on a sphere.

    Each end has a longitude and a latitude in degrees.
    """
    (west, south), (east, north) = (tuple(map(math.radians, spot)) for spot in (start, end))
    across = math.cos(south) * math.cos(north) * math.sin((east - west) / 2) ** 2
    return 2 * EARTH_RADIUS_KM * math.asin(math.sqrt(math.sin((north - south) / 2) ** 2 + across))


def contacts_of(outlines: Outlines) -> Contacts:
    """Returns how counties meet. An edge is common if both outlines have it, corner to corner."""
    owners_of_edge: Dict[Tuple[Spot, Spot], Set[str]] = defaultdict(set)
    owners_of_corner: Dict[Spot, Set[str]] = defaultdict(set)
    for code, rings in outlines.items():
        for start, end in itertools.chain.from_iterable(map(ring_edges, rings)):
            owners_of_edge[start, end].add(code)
            owners_of_corner[start].add(code)
            owners_of_corner[end].add(code)
    edges: Dict[Pair, float] = defaultdict(float)
    for (start, end), owners in owners_of_edge.items():
        for one, other in itertools.combinations(sorted(owners), 2):
            edges[Pair(one, other)] += kilometres(start, end)
    corners = {
        Pair(one, other)
        for owners in owners_of_corner.values()
        for one, other in itertools.combinations(sorted(owners), 2)
    }
    return Contacts(dict(edges), corners)


def kept(borders: Borders, outlines: Outlines) -> Borders:
    """Returns the borders between counties that have an outline."""
    pairs = {pair for pair in borders.pairs if pair.first in outlines and pair.second in outlines}
    return Borders(borders.names, pairs, borders.points & pairs)


def edge_findings(borders: Borders, contacts: Contacts) -> Dict[Pair, str]:
    """Returns what is found of the pairs with a common edge that aren't adjacent."""
    return {
        pair: f"not adjacent, with a common edge of {length:.1f} km"
        for pair, length in contacts.edges.items()
        if pair not in borders.pairs and borders.names.keys() >= set(pair)
    }


def reason_findings(
    borders: Borders, contacts: Contacts, reasons: Dict[Pair, str]
) -> Dict[Pair, str]:
    """Returns what is found of the pairs without a common edge, and of the list of reasons."""
    found: Dict[Pair, str] = {}
    for pair in borders.pairs - contacts.edges.keys() - borders.points - reasons.keys():
        found[pair] = "adjacent, without a common edge and without a reason"
    for pair, reason in reasons.items():
        if pair not in borders.pairs:
            found[pair] = "listed without an edge, and not adjacent"
        elif pair in contacts.edges:
            found[pair] = f"listed without an edge, with one of {contacts.edges[pair]:.1f} km"
        elif reason == AT_A_POINT and pair not in contacts.corners:
            found[pair] = "listed as a point, without a common corner"
    return found


def summary(borders: Borders, contacts: Contacts, reasons: Dict[Pair, str], findings: int) -> str:
    """Returns the last line: the numbers of pairs by how they meet, and of findings."""
    pairs, bare = borders.pairs, borders.pairs - contacts.edges.keys()
    kinds = [reasons.get(pair) for pair in bare]
    by_length = len(bare & borders.points - reasons.keys())
    parts = [
        f"{counted(len(pairs), 'pair')}: {len(pairs) - len(bare):,} with a common edge",
        f"{kinds.count(OVER_WATER):,} over water",
        f"{kinds.count(AT_A_POINT):,} at a point in the outlines",
        *([f"{by_length:,} of length 0"] if by_length else []),
    ]
    return f"{', '.join(parts)}; {counted(findings, 'finding')}"


def checked(adjacency: str, outlined: str, listed: str | None) -> Tuple[List[str], str]:
    """Returns the findings, each as a line, and the last line.

    Raises `Refused` if a file can't be used.
    """
    outlines = read_rings(outlined)
    borders = kept(read_borders(adjacency), outlines)
    if not borders.pairs:
        told = f"has no pair of counties of the outlines {outlined}"
        remedy = "take the adjacency file of 2023 or later, with pipes"
        raise Refused(f"The file {adjacency} {told}: {remedy}.")
    reasons = read_reasons(listed) if listed else {}
    contacts = contacts_of(outlines)
    found = {**edge_findings(borders, contacts), **reason_findings(borders, contacts, reasons)}
    named = {code: f"{code} ({borders.names.get(code, 'not named')})" for code in outlines}
    lines = [
        f"{named.get(pair.first, pair.first)}, {named.get(pair.second, pair.second)}: {words}"
        for pair, words in sorted(found.items())
    ]
    return lines, summary(borders, contacts, reasons, len(lines))


def main(words: List[str]) -> int:
    """Prints the findings and the numbers of pairs, and returns the status."""
    parser = ScriptWords(__doc__)
    parser.add_argument("adjacency", metavar="ADJACENCY")
    parser.add_argument("outlines", metavar="OUTLINES")
    parser.add_argument("--without-edge", metavar="FILE")
    asked = parser.parse_args(words)
    try:
        lines, last = checked(asked.adjacency, asked.outlines, asked.without_edge)
    except Refused as fault:
        print(fault, file=sys.stderr)
        return 2
    print("\n".join([*lines, last]))
    return 1 if lines else 0


if __name__ == "__main__":
    sys.exit(main(sys.argv[1:]))
