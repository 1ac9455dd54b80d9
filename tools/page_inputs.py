"""Reads what a page is made of besides a table: a list of groupings, and the record of a run.

`docs/reference/formats.md` has the forms of both. A text that isn't of its form is refused with one
sentence.
"""
from __future__ import annotations

import math
import re
from dataclasses import dataclass, field

from refusal import Refused

GROUP = r"group seats ([0-9]+)(?: to ([0-9]+))? people ([0-9]+) counties((?: [0-9]{5})+)"
SHOWN = 60


@dataclass(frozen=True)
class ListedGroup:
    """A group of a list, with the least and the greatest number of seats that its people suit."""

    codes: tuple[str, ...]
    least: int
    most: int
    people: int


@dataclass
class Listing:
    """What `list` says of a problem. Each region has its alternatives, and `combinations` those
    that are listed, or None for all."""

    people: int = 0
    chamber: int = 0
    window: tuple[int, int] = (1, 20)
    seats_left: int = 0
    counties: int = 0
    number: int = 0
    shared: list[ListedGroup] = field(default_factory=list)
    regions: list[list[list[ListedGroup]]] = field(default_factory=list)
    combinations: list[tuple[int, ...]] | None = None


@dataclass(frozen=True)
class FileLine:
    """A file of a run: its word or option, its bytes and sum, its name, and whether it was left
    before its end."""

    option: str
    size: int
    total: str
    name: str
    is_left: bool = False


@dataclass
class Record:
    """The record of a run."""

    version: str
    words: list[str]
    read: list[FileLine]
    stored: list[FileLine]
    answer: str


class Lines:
    """The lines of a text, one after the other."""

    def __init__(self, what: str, path: str) -> None:
        self.what, self.path, self.place = what, path, 0
        try:
            with open(path, encoding="utf-8", newline="") as file:
                self.lines = file.read().split("\n")
        except OSError as fault:
            raise Refused(f"The {what} {path} can't be read: {fault.strerror}.") from fault
        except UnicodeDecodeError as fault:
            raise Refused(f"The {what} {path} isn't a text in UTF-8.") from fault
        if self.lines.pop() != "":
            raise Refused(f"The {what} {path} has no end of its last line.")

    def may_take(self, form: str) -> "re.Match[str] | None":
        """Returns the parts of the next line, if it has this form."""
        is_there = self.place < len(self.lines)
        found = re.fullmatch(form, self.lines[self.place]) if is_there else None
        self.place += 1 if found else 0
        return found

    def take(self, form: str, wanted: str) -> "re.Match[str]":
        """Returns the parts of the next line, which has this form: `wanted` tells it in words."""
        found = self.may_take(form)
        if not found:
            raise Refused(f"{self._said()}, where {wanted} has to stand.")
        return found

    def end(self) -> None:
        """Refuses what stands behind the last line."""
        if self.place != len(self.lines):
            raise Refused(f"{self._said()}, where the text has to end.")

    def _said(self) -> str:
        """Returns what the next line says."""
        if self.place == len(self.lines):
            return f"The {self.what} {self.path} ends with line {self.place}"
        line = "".join(sign if sign.isprintable() else " " for sign in self.lines[self.place])
        shown = line if len(line) <= SHOWN else line[:SHOWN] + ".."
        return f"Line {self.place + 1} of the {self.what} {self.path} says `{shown}`"


def read_list(path: str) -> Listing:
    """Returns the list of all best groupings."""
    lines = Lines("list", path)
    found = Listing()
    found.people = _number(lines, "people")
    found.chamber = _number(lines, "chamber")
    window = lines.may_take(r"window ([0-9]+) ([0-9]+)")
    found.window = (int(window[1]), int(window[2])) if window else (1, 20)
    found.seats_left = _number(lines, "seats left")
    found.counties = _number(lines, "counties")
    lines.take(r"answer all", "`answer all`")
    lines.take(r"counts (?:none|[0-9]+(?: [0-9]+)*)", "`counts`")
    found.number = _number(lines, "best groupings")
    found.shared = [_group(lines) for _ in range(_number(lines, "shared groups"))]
    while region := lines.may_take(r"region [0-9]+ counties [0-9]+ alternatives ([0-9]+)"):
        found.regions.append([_alternative(lines) for _ in range(int(region[1]))])
    found.combinations = _combinations(lines, found)
    lines.end()
    return found


def _number(lines: Lines, word: str) -> int:
    """Returns the number of a line of a word and a number."""
    return int(lines.take(rf"{word} ([0-9]+)", f"`{word}` with a number")[1])


def _group(lines: Lines) -> ListedGroup:
    """Returns the group of a line."""
    found = lines.take(GROUP, "a group")
    least = int(found[1])
    return ListedGroup(tuple(found[4].split()), least, int(found[2] or least), int(found[3]))


def _alternative(lines: Lines) -> list[ListedGroup]:
    """Returns the groups of an alternative."""
    lines.take(r"alternative [0-9]+", "an alternative")
    groups = [_group(lines)]
    while lines.place < len(lines.lines) and re.fullmatch(GROUP, lines.lines[lines.place]):
        groups.append(_group(lines))
    return groups


def _combinations(lines: Lines, found: Listing) -> list[tuple[int, ...]] | None:
    """Returns None if each combination of alternatives is listed, else the alternatives of each
    listed grouping, counted from 0."""
    product = math.prod(len(region) for region in found.regions)
    if lines.may_take(r"every choice"):
        if product != found.number:
            has = f"{product} choices and {found.number} groupings"
            raise Refused(f"The list {lines.path} says every choice, and has {has}.")
        return None
    wanted = "`every choice` or the alternatives of a grouping"
    form = r"grouping [0-9]+ alternatives((?: [0-9]+)+)"
    taken = [lines.take(form, wanted) for _ in range(found.number)]
    rows = [tuple(int(word) - 1 for word in row[1].split()) for row in taken]
    sizes = [len(region) for region in found.regions]
    for row in rows:
        if len(row) != len(sizes) or not all(0 <= one < size for one, size in zip(row, sizes)):
            named = "names an alternative that isn't there"
            raise Refused(f"A grouping of the list {lines.path} {named}.")
    return rows


def read_record(path: str) -> Record:
    """Returns the record of a run that ended with status 0."""
    lines = Lines("record", path)
    lines.take(r"countygroups record 1", "`countygroups record 1`")
    version = lines.take(r"version (.*)", "`version`")[1]
    words: list[str] = []
    read: list[FileLine] = []
    stored: list[FileLine] = []
    while word := lines.may_take(r"word (.*)"):
        words.append(plain(word[1]))
    while one := lines.may_take(r"read (\S+) ([0-9]+) ([0-9a-f]{64}) (.*)"):
        read.append(_file_line(one, words))
    while one := lines.may_take(r"stored (\S+) ([0-9]+) ([0-9a-f]{64}) (.*)"):
        stored.append(FileLine(one[1], int(one[2]), one[3], plain(one[4])))
    status = lines.take(r"status ([0-9]+)", "`status`, a file or a word")[1]
    answer = lines.take(r"answer (.*)", "`answer`")[1]
    lines.end()
    if status != "0":
        ended = f"ended with status {status}, and not with 0"
        raise Refused(f"The record {path} is of a run that {ended}.")
    return Record(plain(version), words, read, stored, plain(answer))


def _file_line(found: "re.Match[str]", words: list[str]) -> FileLine:
    """Returns a file that was read. ` left` behind its name isn't of the name, if the words don't
    name such a file."""
    name = plain(found[4])
    is_named = any(word == name or word.endswith(f"={name}") for word in words)
    is_left = name.endswith(" left") and not is_named
    plain_name = name[: -len(" left")] if is_left else name
    return FileLine(found[1], int(found[2]), found[3], plain_name, is_left)


def plain(text: str) -> str:
    """Returns the text with each escaped byte as it was."""
    parts = re.split(r"\\x([0-9A-F]{2})", text)
    raw = b"".join(
        bytes.fromhex(part) if place % 2 else part.encode() for place, part in enumerate(parts)
    )
    return raw.decode("utf-8", "replace")
