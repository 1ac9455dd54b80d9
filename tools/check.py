#!/usr/bin/env python3
"""A second checker of certificates, in plain Python.
It is for whoever doesn't trust the proof tool and reads this file in its place.

usage: check.py (--geo FILE --segment FILE | --people FILE) [--state CODE] --chamber SEATS
                --adjacency FILE --certificate FILE [--links FILE] [--withdrawn FILE]
                [--tolerance TOLERANCE | [--part PART] [--of WHOLE]] [--names] [--json]

It reads the files of `countygroups check` and prints the same text with the same exit status, or
with --json the same object. It has no budget and stores no file, so it takes no words for these.
TOLERANCE is a fraction, a decimal or a percentage, as 1/20, 0.05 or 5%. With --names the names of
the counties stand behind their codes. The FILE `-` is standard input, which is read once.

What it shares with the program: nothing. What is a proof it has from
`docs/reference/definitions.md`, whose words it uses, and the texts from
`docs/reference/formats.md`, with the order of the faults ("Faults of a certificate").
It reads both kinds of certificate, plain and wide, of both versions. What it trusts: Python, its
whole numbers without limit, and the files that it is given. No number is rounded.

How it goes: the files are read (`read_..`), the problem is built, and the certificate is read whole
(`Lines`). Then `judge` goes through its tree once, with one `State` at each branch and leaf. A set
of counties is a whole number: the county at place p of the order is its bit p.

Statuses: 0 best, 1 impossible or no certificate, 2 these are no words of the command, 4 a file or
the problem is refused, 5 a file can't be read.
"""
from __future__ import annotations

import fractions
import functools
import itertools
import json
import os
import re
import sys
from typing import (
    Any,
    BinaryIO,
    Callable,
    Dict,
    FrozenSet,
    Iterator,
    List,
    NamedTuple,
    Optional,
    Set,
    Tuple,
    TypeVar,
)

LINE_BYTES, TEXT_LINES, FILE_BYTES = 65_536, 16_777_216, 1_073_741_824
MOST_COUNTIES, MOST_NUMBER = 256, 4_294_967_295

# The codes of two counties, and those of a group or a withdrawn set behind its seats.
Pair = FrozenSet[str]
SeatsAndCodes = Tuple[int, List[str]]
Fields = List[bytes]
Read = TypeVar("Read")


class End(Exception):
    """The run ends: a line in the place of a report, and a status."""

    def __init__(self, text: str, status: int) -> None:
        super().__init__(text, status)
        self.text, self.status = text, status


class Fault(Exception):
    """A kind of fault, and its line, which is None if the caller knows it."""

    def __init__(self, kind: str, line: Optional[int] = None) -> None:
        super().__init__(kind, line)
        self.kind, self.line = kind, line


def need(holds: object, kind: str, line: Optional[int] = None) -> None:
    """Raises the fault of this kind unless `holds` is true."""
    if not holds:
        raise Fault(kind, line)


def number(word: bytes, least: int = 0, most: int = MOST_NUMBER, kind: str = "BadNumber") -> int:
    """Returns the decimal number of a word, which may begin with zeros.

    Raises a fault of this kind if the word is no number from `least` to `most`.
    """
    digits = word.lstrip(b"0") or b"0"
    is_number = re.fullmatch(rb"[0-9]+", word) and len(digits) <= 20
    need(is_number and least <= int(digits) <= most, kind)
    return int(digits)


def is_code(word: bytes) -> bool:
    """Returns whether a word is five digits."""
    return re.fullmatch(rb"[0-9]{5}", word) is not None


def code(word: bytes, kind: str = "BadCode") -> str:
    """Returns the county code of a word. Raises a fault of this kind if it isn't five digits."""
    need(is_code(word), kind)
    return word.decode()


def is_utf8(word: bytes) -> bool:
    """Returns whether a word is UTF-8."""
    return word.decode(errors="ignore").encode() == word


# ---- the files ----


def no_header(_: Fields) -> bool:
    """Returns False, for a file that has no header."""
    return False


def cut_lines(file: str, text: bytes) -> Iterator[Tuple[int, bytes]]:
    """Yields the number and the bytes of each line of a text that isn't blank.

    Ends the run at a line that is too long, and at the first past the limit of lines.
    """
    pieces = text.split(b"\n")
    for line, piece in enumerate(pieces if pieces[-1] else pieces[:-1], 1):
        if line > TEXT_LINES:
            raise End(f"refused {file} TooManyLines line 0", 4)
        if len(piece) > LINE_BYTES:
            raise End(f"refused {file} LineTooLong line {line}", 4)
        piece = piece[3:] if line == 1 and piece.startswith(b"\xef\xbb\xbf") else piece
        piece = piece[:-1] if piece.endswith(b"\r") else piece
        if piece:
            yield line, piece


def read_file(
    file: str,
    text: bytes,
    least: int,
    read_fields: Callable[[Fields], Read],
    is_header: Callable[[Fields], bool] = no_header,
) -> List[Read]:
    """Reads each line of a text that isn't blank, but for a header in front.

    A line has to have `least` fields or more. Ends the run at the first line with a fault.
    """
    found, is_first = [], True
    for line, piece in cut_lines(file, text):
        fields = piece.split(b"|")
        try:
            if not (is_first and is_header(fields)):
                need(len(fields) >= least, "TooFewFields")
                found.append(read_fields(fields))
        except Fault as fault:
            raise End(f"refused {file} {fault.kind} line {line}", 4) from None
        is_first = False
    return found


def read_named_counties(
    geo: bytes, segment: bytes, state: int, has_names: bool
) -> Dict[str, Tuple[int, bytes]]:
    """Reads the people and the name of each listed county of the census's files, by its code.

    If the names are used (`has_names`), they have to be UTF-8.
    """
    people_of: Dict[int, int] = {}
    counties: Dict[str, Tuple[int, bytes]] = {}

    def read_record(fields: Fields) -> None:
        """Notes the people of a record of segment 1."""
        record, people = number(fields[4]), number(fields[5])
        need(record not in people_of, "DoubleRecord")
        people_of[record] = people

    def read_county(fields: Fields) -> None:
        """Notes the county of a geographic record, if it is one of the state."""
        if (fields[2], fields[4], fields[12]) == (b"050", b"00", b"%02d" % state):
            county, record = code(fields[12] + fields[14]), number(fields[7])
            need(record in people_of, "NoRecord")
            need(county not in counties, "DoubleCounty")
            counties[county] = people_of[record], b"".join(fields[87:88])
            need(not has_names or is_utf8(counties[county][1]), "BadName")

    read_file("segment1", segment, 6, read_record)
    read_file("geo", geo, 15, read_county)
    if not counties:
        raise End("refused geo NoCounties line 0", 4)
    return counties


def people_alone(counties: Dict[str, Tuple[int, bytes]]) -> Dict[str, int]:
    """Returns the people of counties without their names."""
    return {county: people for county, (people, _) in counties.items()}


def read_counties(geo: bytes, segment: bytes, state: int) -> Dict[str, int]:
    """Reads the people of each listed county of the census's files, by its code.

    Ends the run as `read_named_counties` does, whatever the names are.
    """
    return people_alone(read_named_counties(geo, segment, state, False))


def quoted_fields(line: bytes, mark: bytes) -> Fields:
    """Returns the fields of a line that is cut at each comma or pipe (`mark`), as RFC 4180 says.

    Raises `BadLine` if a quote isn't closed on the line, if something else than a mark follows a
    closed one, or if a quote stands in a field that doesn't begin with one.
    """
    field = re.compile(rb'"((?:[^"]|"")*)"|([^"%s]*)' % mark)
    fields: Fields = []
    place = 0
    while True:
        found = field.match(line, place)
        assert found is not None
        is_quoted = found[1] is not None
        fields.append(found[1].replace(b'""', b'"') if is_quoted else found[2])
        place = found.end() + 1
        if found.end() == len(line):
            return fields
        need(line[found.end() : place] == mark, "BadLine")


def read_named_people(text: bytes, state: int) -> Dict[str, Tuple[int, bytes]]:
    """Reads the people and the name of each county of the state in a people file, by its code.

    Fields are cut at pipes if the first line has a pipe and no comma, and else at commas. The first
    line is a header if its first field is no code. The name is empty without a third field.
    Counties of other states are read in the same way, and passed over.
    Ends the run at the first line with a fault, or if no county of the state is left.
    """
    counties: Dict[str, Tuple[int, bytes]] = {}

    def read_county(fields: Fields) -> None:
        """Notes the county of a line, if it is one of the state."""
        need(2 <= len(fields) <= 3, "BadLine")
        county, people, name = code(fields[0]), number(fields[1]), b"".join(fields[2:])
        need(is_utf8(name), "BadName")
        if county.startswith(f"{state:02}"):
            need(county not in counties, "DoubleCounty")
            counties[county] = people, name

    mark = b""
    for line, piece in cut_lines("people", text):
        is_first = not mark
        mark = mark or (b"|" if b"|" in piece and b"," not in piece else b",")
        try:
            fields = quoted_fields(piece, mark)
            if not is_first or is_code(fields[0]):
                read_county(fields)
        except Fault as fault:
            raise End(f"refused people {fault.kind} line {line}", 4) from None
    if not counties:
        raise End("refused people NoCounties line 0", 4)
    return counties


def read_people(text: bytes, state: int) -> Dict[str, int]:
    """Reads the people of each county of the state in a people file, by its code.

    Ends the run as `read_named_people` does.
    """
    return people_alone(read_named_people(text, state))


def read_pairs(text: bytes) -> Set[Pair]:
    """Reads the pairs of the adjacency file, whatever counties they name.

    A first line without a code is a header.
    """

    def is_header(fields: Fields) -> bool:
        """Returns whether a line has no code as its second field."""
        return not is_code(b"".join(fields[1:2]))

    def read_pair(fields: Fields) -> Pair:
        """Reads the pair of a line."""
        return frozenset((code(fields[1]), code(fields[3])))

    return {*read_file("adjacency", text, 4, read_pair, is_header)}


def read_link(fields: Fields) -> Tuple[Pair, bool]:
    """Reads a pair, and whether the link adds it."""
    need(fields[0] in (b"+", b"-"), "BadSign")
    return frozenset((code(fields[1]), code(fields[2]))), fields[0] == b"+"


def read_withdrawn(fields: Fields) -> SeatsAndCodes:
    """Reads the seats and the codes of a withdrawn set."""
    return number(fields[0], 1, 1000, "BadSeats"), [code(it) for it in fields[1:]]


class Problem(NamedTuple):
    """What a certificate is judged by."""

    people: Dict[str, int]  # the people of each county of the problem, by its code
    total: int  # the people of all listed counties
    pairs: Set[Pair]  # the adjacent counties
    chamber: int  # the seats of the chamber
    seats_left: int  # the seats that the withdrawn sets leave
    window: Tuple[int, int]  # the tolerance, a fraction


def build_problem(
    listed: Dict[str, int],
    pairs: Set[Pair],
    withdrawn: List[SeatsAndCodes],
    chamber: int,
    window: Tuple[int, int],
) -> Problem:
    """Builds the problem of the listed counties. Ends the run at its first fault."""
    total, gone = sum(listed.values()), [county for _, codes in withdrawn for county in codes]
    unknown = [county for county in gone if county not in listed]
    twice = [county for place, county in enumerate(gone) if county in gone[:place]]
    foreign = sorted(sorted(pair) for pair in pairs if not all(it in listed for it in pair))
    seats_left = chamber - sum(seats for seats, _ in withdrawn)
    faults = [
        (2 * window[0] > window[1], "BadWindow"),
        (len(listed) > MOST_COUNTIES, "TooManyCounties"),
        (total == 0, "NoPeople"),
        (unknown, f"UnknownWithdrawn {''.join(unknown[:1])}"),
        (twice, f"WithdrawnTwice {''.join(twice[:1])}"),
        (seats_left < 0, "WithdrawnSeats"),
        (foreign, f"UnknownPair {' '.join(foreign[0] if foreign else [])}"),
    ]
    for stands, fault in faults:
        if stands:
            raise End(f"refused problem {fault}", 4)
    people = {county: count for county, count in listed.items() if county not in gone}
    return Problem(people, total, pairs, chamber, seats_left, window)


# ---- the text of a certificate ----


def plain(least: int, most: int) -> Callable[[bytes], int]:
    """Returns a reader of plain decimal numbers from `least` to `most`."""

    def read(word: bytes) -> int:
        """Returns the number of a word, which has no zero in front."""
        need(re.fullmatch(rb"[0-9]+", word), "BadNumber")
        need(word == b"0" or not word.startswith(b"0"), "NotCanonical")
        return number(word, least, most)

    return read


def county(word: bytes) -> str:
    """Returns the county code of a word."""
    return code(word, "BadNumber")


def weight(word: bytes) -> Tuple[str, int]:
    """Returns the county code and the weight of a word."""
    need(word.count(b":") == 1, "BadNumber")
    of, heavy = word.split(b":")
    return county(of), plain(1, 1_000_000)(heavy)


def groups(word: bytes) -> Optional[int]:
    """Returns the number of the groups of a target, or None if the certificate has no target."""
    return None if word == b"none" else plain(0, MOST_COUNTIES)(word)


# What follows the first word of a line: a word for each reader (`FORMS`), and then words for one
# reader, with their least and greatest number (`REPEATED`).
FORMS: Dict[str, List[Callable[[bytes], Any]]] = {
    "window": [plain(0, 500), plain(1, 1000)],
    "limit": [plain(0, MOST_COUNTIES)],
    "target": [groups],
    "group": [plain(0, 65_535)],
    "branch": [county],
    "wide branch": [county, plain(1, MOST_COUNTIES)],
    "stuck": [county],
    "bound": [plain(0, MOST_COUNTIES)],
    "weigh": [plain(1, 256_000_000)],
}
REPEATED: Dict[str, Tuple[Callable[[bytes], Any], int, int]] = {
    "order": (county, 0, MOST_COUNTIES),
    "group": (county, 1, MOST_COUNTIES),
    "take": (county, 1, MOST_COUNTIES),
    "weigh": (weight, 0, LINE_BYTES),
}
LEAVES = ("stuck", "seats", "bound")


class Line(NamedTuple):
    """A line of a certificate."""

    number: int
    form: str  # its first word
    values: List[Any]  # what its readers return for the others; of a bound leaf, its lines


class Branch(NamedTuple):
    """A branch of a tree."""

    line: Line
    takes: List[Tuple[Line, Tree]]  # its takes, each with its tree
    mark: Line


class Tree(NamedTuple):
    """Branches, each at the state where the counties of those before it are raised, and a leaf."""

    branches: List[Branch]
    leaf: Line  # the leaf behind the last mark


class Certificate(NamedTuple):
    """A certificate as it is written, with nothing judged."""

    is_wide: bool
    window: Optional[List[int]]  # None if none is named
    order: List[str]
    limit: int
    target: Optional[List[SeatsAndCodes]]  # the seats and the codes of each group
    tree: Tree


class Lines:
    """The lines of a certificate, read one after the other.

    `number` is that of the last one that was looked at.
    """

    def __init__(self, text: bytes) -> None:
        self.pieces, self.number, self.is_wide = text.split(b"\n"), 0, False

    def piece(self) -> bytes:
        """Returns the bytes of the next line. A line of a certificate ends with a line feed."""
        piece = self.pieces[self.number] if self.number < len(self.pieces) else b""
        self.number += 1
        need(len(piece) <= LINE_BYTES, "BadWord")
        need(self.number < len(self.pieces), "CutShort")
        return piece

    def next(self, *wanted: str) -> Line:
        """Reads the next line, whose first word has to be one of those wanted."""
        piece = self.piece()
        need(re.fullmatch(rb"[!-~]+( [!-~]+)*", piece), "NotCanonical")
        first, *words = piece.split(b" ")
        form = first.decode()
        need(form in wanted, "BadWord")
        once = FORMS.get("wide branch" if form == "branch" and self.is_wide else form, [])
        repeated, least, most = REPEATED.get(form, (county, 0, 0))
        need(least <= len(words) - len(once) <= most, "BadWord")
        values = [read(word) for read, word in zip(once + [repeated] * len(words), words)]
        need(form != "window" or 2 * values[0] <= values[1], "BadNumber")
        if form == "weigh":
            codes = [of for of, _ in values[1:]]
            need(all(one < other for one, other in zip(codes, codes[1:])), "NotCanonical")
        return Line(self.number, form, values)

    def certificate(self) -> Certificate:
        """Reads the certificate, which has to be the whole text."""
        head = re.fullmatch(rb"county-groups (wide )?certificate ([12])", self.piece())
        if head is None:
            raise Fault("BadHead")
        self.is_wide = head[1] is not None
        window = self.next("window").values if head[2] == b"2" else None
        order = self.next("order").values
        (limit,) = self.next("limit").values
        (count,) = self.next("target").values
        named = [self.next("group").values for _ in range(count or 0)]
        target = None if count is None else [(it[0], it[1:]) for it in named]
        tree = self.tree(len(order), 0)
        self.next("end")
        self.number += 1
        need(self.pieces[self.number - 1 :] == [b""], "AfterEnd")
        return Certificate(self.is_wide, window, order, limit, target, tree)

    def tree(self, counties: int, depth: int) -> Tree:
        """Reads the tree whose first branch stands so deep.

        A take adds to the depth, and in a plain text a mark does. The depth of a branch has to be
        below `counties`.
        """
        branches, line = [], self.next("branch", *LEAVES)
        while line.form == "branch":
            need(depth < counties, "TooDeep")
            takes, following = [], self.next("take", "mark")
            while following.form == "take":
                takes.append((following, self.tree(counties, depth + 1)))
                following = self.next("take", "mark")
            branches.append(Branch(line, takes, following))
            depth += 0 if self.is_wide else 1
            line = self.next("branch", *LEAVES)
        if line.form == "bound":
            bounds = [self.next("room", "weigh") for _ in range(line.values[0])]
            line = line._replace(values=bounds)
        return Tree(branches, line)


def read_certificate(text: bytes) -> Certificate:
    """Reads a certificate. Raises its first fault, with its line, if the text is none."""
    lines = Lines(text)
    try:
        return lines.certificate()
    except Fault as fault:
        raise Fault(f"Text {fault.kind}", lines.number) from None


# ---- whether a certificate is a proof ----


def bits(counties: int) -> Iterator[int]:
    """Yields the counties of a set one by one, each as the set of it alone."""
    while counties:
        yield counties & -counties
        counties &= counties - 1


def size(counties: int) -> int:
    """Returns how many counties a set has."""
    return bin(counties).count("1")


class Round:
    """The problem by the places of a certificate's order."""

    def __init__(self, problem: Problem, certificate: Certificate) -> None:
        self.problem = problem
        self.limit, self.is_wide = certificate.limit, certificate.is_wide
        self.bit = {it: 1 << place for place, it in enumerate(certificate.order)}
        self.people = {self.bit[it]: people for it, people in problem.people.items()}
        self.by_people = sorted(self.people, key=self.people.__getitem__, reverse=True)
        self.neighbours = {
            bit: sum(self.bit[other] for other in self.bit if {it, other} in problem.pairs)
            for it, bit in self.bit.items()
        }

    @functools.lru_cache(maxsize=100_000)
    def people_of(self, counties: int) -> int:
        """Returns the people of a set."""
        return sum(self.people[it] for it in bits(counties))

    def seats_between(self, fewest: int, most: int) -> Optional[Tuple[int, int]]:
        """Returns the least and the greatest number of seats that numbers of people suit.

        The numbers of people go from the fewest to the most. Returns None if there is no such
        number of seats. People suit k seats if they miss k ideal districts by no more than the
        tolerance. The ideal district has total / chamber people.
        """
        numerator, denominator = self.problem.window
        chamber, total = self.problem.chamber, self.problem.total
        least = max(1, -(-denominator * chamber * fewest // ((denominator + numerator) * total)))
        greatest = denominator * chamber * most // ((denominator - numerator) * total)
        return (least, greatest) if least <= greatest else None

    def seats_of(self, counties: int) -> Optional[Tuple[int, int]]:
        """Returns the least and the greatest number of seats that a set's people suit, or None."""
        return self.seats_between(self.people_of(counties), self.people_of(counties))

    def part_around(self, county: int, inside: int) -> int:
        """Returns the connected part of a set that has the county."""
        part, new = 0, county
        while new:
            it = new & -new
            part |= it
            new = (new | self.neighbours[it] & inside) & ~part
        return part

    @functools.lru_cache(maxsize=100_000)
    def parts_of(self, counties: int) -> List[int]:
        """Returns the connected parts of a set."""
        parts = []
        while counties:
            parts.append(self.part_around(counties & -counties, counties))
            counties &= ~parts[-1]
        return parts

    def may_fit(self, part: int, group: int, free: int = 0, more: int = 0) -> bool:
        """Returns whether some set may fit that grows from `group`, inside `part`.

        It has the group, at most `more` of the free counties besides, and no others. Its people are
        between those of the group, and these with those of the most populous free counties.

        In the wide language each part that it leaves suits some seats. Take a connected part of
        what the group leaves. If some of it isn't free, some of it is left. What is left of it
        suits the sum of such seats. Its people are then between those of what isn't free, and those
        of all of it.
        """
        grown = (self.people[it] for it in self.by_people if it & free)
        most = self.people_of(group) + sum(itertools.islice(grown, more))
        if not self.seats_between(self.people_of(group), most):
            return False
        left = self.parts_of(part & ~group) if self.is_wide else []
        return all(
            self.seats_between(self.people_of(it & ~free), self.people_of(it))
            for it in left
            if it & ~free
        )

    @functools.lru_cache(maxsize=100_000)
    def sets_of(self, part: int, free: int, most: int) -> Dict[int, List[int]]:
        """Returns for each size up to `most` all connected sets of free counties that may fit.

        The free counties are of `part`, a connected part of the rest. A set grows by a county that
        touches it. This county is then out of all sets that are grown later from the same one, so
        that each set is met once.
        """
        found: Dict[int, List[int]] = {count: [] for count in range(1, most + 1)}
        waiting: List[Tuple[int, int, int]] = []
        for it in self.by_people if most else []:
            if it & free:
                free &= ~it
                waiting.append((it, self.neighbours[it], free))
        while waiting:
            group, touching, free = waiting.pop()
            more = most - size(group)
            if self.may_fit(part, group, free, more):
                if self.may_fit(part, group):
                    found[size(group)].append(group)
                for it in bits(touching & free if more else 0):
                    free &= ~it
                    waiting.append((group | it, touching | self.neighbours[it], free))
        return found


class State(NamedTuple):
    """Closed groups, the rest, and for each J the counties that were raised past J."""

    round: Round
    closed: List[int]
    rest: int
    raised: Dict[int, int]

    def close(self, group: int) -> State:
        """Returns the state where a group of the rest is closed too."""
        return self._replace(closed=[*self.closed, group], rest=self.rest & ~group)

    def raise_past(self, most: int, county: int) -> State:
        """Returns the state where a county is raised past `most` too."""
        return self._replace(raised={**self.raised, most: self.raised.get(most, 0) | county})

    def open_to(self, count: int) -> int:
        """Returns the counties of the rest that may lie in a group of `count` counties."""
        is_open = self.rest
        for most, counties in self.raised.items():
            is_open &= ~counties if most >= count else is_open
        return is_open

    def is_stuck(self, part: int) -> bool:
        """Returns whether a connected part suits no number of seats, or is too small.

        It is too small if some county in it asks for a greater group.
        """
        return not self.round.seats_of(part) or part & ~self.open_to(size(part)) != 0

    def fits(self, group: int) -> bool:
        """Returns whether a connected group of the rest is lawful and open to its size.

        In the wide language it has to be live too. A lawful group that is open to its size is one
        that isn't stuck.
        """
        left = self.round.parts_of(self.rest & ~group) if self.round.is_wide else []
        return not any(map(self.is_stuck, [group, *left]))


def groups_at(state: State, line: int, county: int, most: int) -> List[List[int]]:
    """Returns the groups of a branch, each by its places, sorted by size and then by places.

    They are all that fit, have the county and have at most `most` counties.
    """
    is_open = state.open_to(most)
    need(is_open, "NoLeaf", line)
    is_right = county & is_open if state.round.is_wide else county == is_open & -is_open
    need(is_right and most <= state.round.limit, "WrongCounty", line)
    part = state.round.part_around(county, state.rest)
    sets = itertools.chain(*state.round.sets_of(part, part & is_open, most).values())
    found = [[*bits(it)] for it in sets if it & county and state.fits(it)]
    return sorted(found, key=lambda group: (len(group), group))


# For each size, the number of the target's groups that have it; None without a target.
Counts = Optional[List[int]]


def judge_stuck(state: State, leaf: Line, _: Counts) -> None:
    """Refuses a stuck leaf unless its county lies in a part of the rest that is stuck."""
    county = state.round.bit.get(leaf.values[0], 0)
    need(county & state.rest, "WrongCounty", leaf.number)
    is_stuck = state.is_stuck(state.round.part_around(county, state.rest))
    need(is_stuck, "NotStuck", leaf.number)


def judge_seats(state: State, leaf: Line, _: Counts) -> None:
    """Refuses a seats leaf unless closed groups and parts miss the seats left.

    They do if their least numbers of seats are more in all, or their greatest fewer. If one of them
    suits no number, the leaf is refused too.
    """
    suited = [state.round.seats_of(it) for it in [*state.closed, *state.round.parts_of(state.rest)]]
    seats = [it for it in suited if it is not None]
    left = state.round.problem.seats_left
    is_between = sum(it[0] for it in seats) <= left <= sum(it[1] for it in seats)
    need(len(seats) == len(suited) and not is_between, "SeatsOpen", leaf.number)


def weighed(
    state: State, line: int, count: int, most: int, quota: int, *weights: Tuple[str, int]
) -> int:
    """Returns what the counties open to a group of `count` weigh, divided by the quota.

    Refuses the line if some group of this size that fits weighs less than the quota.
    """
    need(all(it in state.round.bit for it, _ in weights), "WrongCounty", line)
    weight_of = {state.round.bit[it]: heavy for it, heavy in weights}

    def weigh(counties: int) -> int:
        """Returns the weight of a set."""
        return sum(heavy for it, heavy in weight_of.items() if it & counties)

    for part in state.round.parts_of(state.rest):
        sets = state.round.sets_of(part, part & state.open_to(most), most)[count]
        is_light = any(weigh(it) < quota and state.fits(it) for it in sets)
        need(not is_light, "LightGroup", line)
    return weigh(state.open_to(count)) // quota


def judge_bound(state: State, leaf: Line, counts: Counts) -> None:
    """Refuses a bound leaf that allows more than the target, or whose lines end too early or late.

    Line i is to allow no more groups of i counties than the target has, with those that are closed.
    The last line allows fewer, or it is that of the limit.
    """
    if counts is None:
        raise Fault("BoundWithoutTarget", leaf.number)
    lines: List[Line] = leaf.values
    need(len(lines) <= state.round.limit, "BoundLength", leaf.number)
    weighing = [count for count, line in enumerate(lines, 1) if line.form == "weigh"]
    used, most = 0, max(weighing, default=0)
    for count, line in enumerate(lines, 1):
        allowed = max(0, size(state.open_to(count)) - used) // count
        if line.form == "weigh":
            allowed = min(allowed, weighed(state, line.number, count, most, *line.values))
        of_size = allowed + sum(size(group) == count for group in state.closed)
        need(of_size <= counts[count], "BoundOver", line.number)
        if of_size < counts[count]:
            need(count == len(lines), "BoundLength", leaf.number)
            return
        used += count * allowed
    need(len(lines) == state.round.limit, "BoundLength", leaf.number)


JUDGES: Dict[str, Callable[[State, Line, Counts], None]] = {
    "stuck": judge_stuck,
    "seats": judge_seats,
    "bound": judge_bound,
}


def judge_tree(state: State, tree: Tree, counts: Counts) -> None:
    """Refuses a tree that is no proof tree at the state.

    A branch of a plain text has the limit of the round.
    """
    for line, takes, mark in tree.branches:
        code_of_county, most, *_ = [*line.values, state.round.limit]
        county = state.round.bit.get(code_of_county, 0)
        waiting = groups_at(state, line.number, county, most)
        for take, below in takes:
            group = [state.round.bit.get(it, 0) for it in take.values]
            need(group in waiting, "StrayGroup", take.number)
            need(group == waiting.pop(0), "MissingGroup", take.number)
            judge_tree(state.close(sum(group)), below, counts)
        need(not waiting, "MissingGroup", mark.number)
        state = state.raise_past(most, county)
    JUDGES[tree.leaf.form](state, tree.leaf, counts)


def judge_target(its_round: Round, target: List[SeatsAndCodes], line: int) -> None:
    """Refuses a target that isn't lawful."""
    named = [it for _, codes in target for it in codes]
    need(all(it in its_round.bit for it in named), "TargetFault UnknownCounty", line)
    need(len({*named}) == len(named), "TargetFault Twice", line)
    need(len(named) == len(its_round.bit), "TargetFault Missing", line)
    sets = [(seats, sum(its_round.bit[it] for it in codes)) for seats, codes in target]
    need(all(its_round.parts_of(it) == [it] for _, it in sets), "TargetFault NotConnected", line)
    suited = [(its_round.seats_of(it) or (1, 0), seats) for seats, it in sets]
    is_inside = all(least <= seats <= most for (least, most), seats in suited)
    need(is_inside, "TargetFault OutOfWindow", line)
    seats_of_all = sum(seats for seats, _ in target)
    need(seats_of_all == its_round.problem.seats_left, "TargetFault SeatsTotal", line)


def judge(problem: Problem, certificate: Certificate) -> None:
    """Refuses a certificate that is no proof.

    Else its target is best, or no grouping is lawful if it has none.
    """
    line, window = (1, [1, 20]) if certificate.window is None else (2, certificate.window)
    is_same = window[0] * problem.window[1] == problem.window[0] * window[1]
    need(is_same, "WrongWindow", line)
    need(sorted(certificate.order) == sorted(problem.people), "WrongOrder", line + 1)
    its_round, counts = Round(problem, certificate), None
    if certificate.target is not None:
        sizes = [len(codes) for _, codes in certificate.target]
        counts = [sizes.count(it) for it in range(MOST_COUNTIES + 1)]
        need(max(sizes, default=0) <= certificate.limit, "LimitTooSmall", line + 2)
        judge_target(its_round, certificate.target, line + 3)
    start = State(its_round, [], sum(its_round.bit.values()), {})
    judge_tree(start, certificate.tree, counts)


# ---- the command ----


def codes_alone(codes: List[str]) -> str:
    """Returns the codes of counties as a group's line has them."""
    return " ".join(codes)


def with_names(names: Dict[str, str]) -> Callable[[List[str]], str]:
    """Returns a writer of the codes of counties, with the name of each behind its code.

    A name that is empty is left out. A control character of ASCII in a name becomes a blank.
    """

    def write(codes: List[str]) -> str:
        """Returns the codes and the names of a group's line."""
        shown = (re.sub("[\0-\x1f\x7f]", " ", names[it]) for it in codes)
        return ", ".join(f"{it} {name}" if name else it for it, name in zip(codes, shown))

    return write


def report(
    problem: Problem,
    grouping: Optional[List[SeatsAndCodes]],
    write: Callable[[List[str]], str] = codes_alone,
) -> str:
    """Returns the text of a best grouping, or that there is none.

    `write` returns the counties of a group by their codes.
    """
    part, whole = problem.window
    text = f"people {problem.total}\nchamber {problem.chamber}\n"
    text += f"window {part} {whole}\n" * (part * 20 != whole)
    text += f"seats left {problem.seats_left}\ncounties {len(problem.people)}\n"
    if grouping is None:
        return text + "answer impossible\n"
    sizes = [len(codes) for _, codes in grouping]
    counts = [str(sizes.count(it)) for it in range(1, max(sizes, default=0) + 1)]
    text += f"answer best\ncounts {' '.join(counts) or 'none'}\n"
    for place, (seats, codes) in enumerate(grouping, 1):
        people = sum(problem.people[it] for it in codes)
        text += f"group {place} seats {seats} people {people} counties {write(codes)}\n"
    return text


def report_object(
    problem: Problem, grouping: Optional[List[SeatsAndCodes]], names: Dict[str, str]
) -> Dict[str, object]:
    """Returns the members of the object of a best grouping, or of that there is none.

    It has the names of all listed counties, by their codes.
    """
    made: Dict[str, object] = {"answer": "impossible" if grouping is None else "best"}
    made.update(people=problem.total, chamber=problem.chamber, tolerance=problem.window)
    made.update(seats_left=problem.seats_left, counties=len(problem.people))
    if grouping is not None:
        sizes = [len(codes) for _, codes in grouping]
        made["counts"] = [sizes.count(it) for it in range(1, max(sizes, default=0) + 1)]
        made["groups"] = [
            {
                "group": place,
                "seats": seats,
                "people": sum(problem.people[it] for it in codes),
                "counties": codes,
            }
            for place, (seats, codes) in enumerate(grouping, 1)
        ]
    made["names"] = {it: names[it] for it in sorted(names)}
    return made


def object_line(members: Dict[str, object]) -> str:
    """Returns the line of an object, without blanks."""
    return json.dumps(members, separators=(",", ":"), ensure_ascii=False) + "\n"


class Machine:
    """The files of the machine. The name `-` is standard input, which can be read once."""

    def __init__(self) -> None:
        self.is_input_read = False

    def open(self, name: str) -> BinaryIO:
        """Opens a file. Raises an `OSError` if it can't, or if standard input was read before."""
        if name != INPUT:
            return open(name, "rb")
        if self.is_input_read:
            raise OSError("standard input was read before")
        self.is_input_read = True
        return open(0, "rb", closefd=False)

    def load(self, name: str) -> bytes:
        """Reads the bytes of a file. Ends the run if it can't, or if the file is too large."""
        try:
            with self.open(name) as file:
                text = file.read(FILE_BYTES + 1)
        except OSError as error:
            kind = "Missing" if isinstance(error, FileNotFoundError) else "Device"
            raise End(f"device {name} {kind}", 5) from None
        if len(text) > FILE_BYTES:
            raise End(f"device {name} TooLarge", 5)
        return text


NEEDED = ("adjacency", "certificate")
CENSUS_FILES = ("geo", "segment")
FILES = (*NEEDED, *CENSUS_FILES, "people", "links", "withdrawn")
PARTS, WHOLES = (0, 500), (1, 1000)
RANGES = {"chamber": (1, 1000), "state": (0, 99), "part": PARTS, "of": WHOLES}
TOLERANCE = "tolerance"
# The options without a value.
OBJECT, NAMES = "--json", "--names"
FLAGS = (OBJECT, NAMES)
# The name of standard input.
INPUT = "-"


def tolerance(text: str) -> Tuple[int, int]:
    """Returns the part and the whole of the tolerance that a text writes, in lowest terms.

    Raises a fault if the text writes none.
    """
    digits = "([0-9]{1,9})"
    found = re.fullmatch(rf"{digits}(?:/{digits}|(?:\.{digits})?(%?))", text)
    if found is None:
        raise Fault("")
    before, below, behind, percent = found.groups("")
    whole = int(below) if below else 10 ** len(behind) * (100 if percent else 1)
    need(whole > 0, "")
    value = fractions.Fraction(int(before + behind), whole)
    need(value.numerator <= PARTS[1] and value.denominator <= WHOLES[1], "")
    return value.numerator, value.denominator


def values_of(words: List[str]) -> Dict[str, str]:
    """Returns the values of the command's words by their options.

    Each option has one value and stands once. Each flag may stand among them once, without a value.
    Raises a fault if these are no words of the command.
    """
    values: Dict[str, str] = {}
    need(all(words.count(flag) <= 1 for flag in FLAGS), "")
    left = iter(words)
    for word in left:
        if word in FLAGS:
            continue
        name, equals, behind = word[2:].partition("=")
        value: Optional[str] = behind
        if not equals:
            value = next(left, None)
        need(word.startswith("--") and name not in values, "")
        if value is None or value in FLAGS or name not in (*FILES, *RANGES, TOLERANCE):
            raise Fault("")
        values[name] = value
    return values


def options_of(words: List[str]) -> Tuple[Dict[str, str], Dict[str, int]]:
    """Returns the names of the files and the numbers of the command, by their options.

    The tolerance is the numbers `part` and `of`. Raises a fault if these are no words of the
    command.
    """
    values = values_of(words)
    needed = (*NEEDED, "chamber", *(() if "people" in values else CENSUS_FILES))
    need(values.keys() >= {*needed}, "")
    need("people" not in values or values.keys().isdisjoint(CENSUS_FILES), "")
    files = {name: value for name, value in values.items() if name in FILES}
    numbers = {"state": 37, "part": 1, "of": 20}
    for name in RANGES:
        if name in values:
            numbers[name] = number(re.sub(r"^\+", "", values[name]).encode(), *RANGES[name])
    if TOLERANCE in values:
        need(values.keys().isdisjoint(("part", "of")), "")
        numbers["part"], numbers["of"] = tolerance(values[TOLERANCE])
    return files, numbers


def adjacent_pairs(pairs: Set[Pair], links: Dict[Pair, bool], listed: Dict[str, int]) -> Set[Pair]:
    """Returns the pairs of two counties, listed ones or of a link that adds them."""
    of_listed = {it for it in pairs if all(county in listed for county in it)}
    kept = of_listed - {*links} | {it for it in links if links[it]}
    return {it for it in kept if len(it) == 2}


def read_listed(
    files: Dict[str, str], state: int, load: Callable[[str], bytes], has_names: bool
) -> Dict[str, Tuple[int, bytes]]:
    """Loads and reads the people and the name of each listed county, by its code."""
    if "people" in files:
        return read_named_people(load(files["people"]), state)
    geo, segment = load(files["geo"]), load(files["segment"])
    return read_named_counties(geo, segment, state, has_names)


def read_problem(
    files: Dict[str, str],
    numbers: Dict[str, int],
    load: Callable[[str], bytes],
    has_names: bool,
) -> Tuple[Problem, Dict[str, str]]:
    """Loads and reads the files of the problem in one order, and builds it.

    Beside it stands the name of each listed county, which means nothing unless names are read.
    """
    named = read_listed(files, numbers["state"], load, has_names)
    listed, pairs = people_alone(named), read_pairs(load(files["adjacency"]))
    links: Dict[Pair, bool] = {}
    if "links" in files:
        links = dict(read_file("links", load(files["links"]), 3, read_link))
    withdrawn: List[SeatsAndCodes] = []
    if "withdrawn" in files:
        withdrawn = read_file("withdrawn", load(files["withdrawn"]), 2, read_withdrawn)
    adjacent = adjacent_pairs(pairs, links, listed)
    window = (numbers["part"], numbers["of"])
    problem = build_problem(listed, adjacent, withdrawn, numbers["chamber"], window)
    return problem, {it: name.decode(errors="replace") for it, (_, name) in named.items()}


def answer(
    words: List[str], load: Callable[[str], bytes], has_names: bool = False
) -> Tuple[str, int]:
    """Returns the text, or the object, and the exit status for the words of the command.

    The files are loaded and read in one order, and the first fault is the answer. With `has_names`
    the names in the geographic header are read too, as the program does for a table. They are read
    for an object, and for a text that shows them.
    """
    try:
        files, numbers = options_of(words)
    except Fault:
        return "", 2
    has_object, shows_names = OBJECT in words, NAMES in words
    has_names = has_names or has_object or shows_names
    try:
        problem, names = read_problem(files, numbers, load, has_names)
        certificate = read_certificate(load(files["certificate"]))
        judge(problem, certificate)
    except Fault as fault:
        line, status = f"no {fault.kind} line {fault.line}", 1
    except End as end:
        line, status = end.text, end.status
    else:
        target, status = certificate.target, 0 if certificate.target is not None else 1
        if has_object:
            return object_line(report_object(problem, target, names)), status
        write = with_names(names) if shows_names else codes_alone
        return report(problem, target, write), status
    return object_line({"message": line}) if has_object else f"{line}\n", status


def main() -> int:
    """Runs the command, and returns its exit status."""
    if not {"--help", "-h"}.isdisjoint(sys.argv[1:]):
        print(__doc__, end="")
        return 0
    text, status = answer(sys.argv[1:], Machine().load)
    sys.stdout.buffer.write(os.fsencode(text))
    if status == 2:
        sys.stderr.write(__doc__.split("\n\n")[1] + "\n")
    return status


if __name__ == "__main__":
    sys.exit(main())
