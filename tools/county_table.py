"""Reads a table of the counties: a line for each listed county, with its group.

`docs/reference/formats.md` has the form of a table. One that isn't of this form is refused with one
sentence.
"""
from __future__ import annotations

import csv
import re
from dataclasses import dataclass

from refusal import Refused

HEADER = ["GEOID", "NAME", "POPULATION", "GROUP", "SEATS", "GROUP_POPULATION"]
GEOID = re.compile(r"[0-9]{5}")
NUMBER = re.compile(r"[0-9]{1,12}")
GROUP = re.compile(r"W?[1-9][0-9]{0,5}")


@dataclass(frozen=True)
class County:
    """A listed county. `group` is the number of its group, or `W` and that of its withdrawn set."""

    geoid: str
    name: str
    people: int
    group: str


@dataclass(frozen=True)
class Group:
    """A group, or a withdrawn set, with its counties by code."""

    label: str
    seats: int
    people: int
    counties: tuple[County, ...]

    @property
    def is_withdrawn(self) -> bool:
        """Returns whether the set was taken out beforehand, so that it is no group."""
        return self.label.startswith("W")

    @property
    def words(self) -> str:
        """Returns the group's name in a sentence."""
        return f"withdrawn set {self.label[1:]}" if self.is_withdrawn else f"group {self.label}"


def read_table(path: str) -> list[Group]:
    """Returns the groups of a table in their order, and behind them its withdrawn sets."""
    rows = [_checked(path, number, row) for number, row in _rows_below_header(path)]
    if not rows:
        raise Refused(f"The table {path} lists no county.")
    return _groups(path, rows)


def _rows_below_header(path: str) -> list[tuple[int, list[str]]]:
    """Returns the numbered rows of the table, if its first line is the header."""
    try:
        with open(path, encoding="utf-8", newline="") as file:
            reader = csv.reader(file, strict=True)
            if next(reader, None) != HEADER:
                header = ",".join(HEADER)
                raise Refused(f"The table {path} doesn't begin with its header {header}.")
            return [(reader.line_num, row) for row in reader]
    except OSError as fault:
        raise Refused(f"The table {path} can't be read: {fault.strerror}.") from fault
    except (UnicodeDecodeError, csv.Error) as fault:
        raise Refused(f"The table {path} isn't a comma-separated text in UTF-8.") from fault


def _checked(path: str, number: int, row: list[str]) -> tuple[County, int, int]:
    """Returns the row with its numbers, if each field has its form."""
    forms = [GEOID, None, NUMBER, GROUP, NUMBER, NUMBER]
    if len(row) != len(HEADER):
        fields = f"{len(row)} fields and not {len(HEADER)}"
        raise Refused(f"Line {number} of the table {path} has {fields}.")
    for name, form, field in zip(HEADER, forms, row):
        if form and not form.fullmatch(field):
            raise Refused(f"Line {number} of the table {path} has no {name}.")
    geoid, name, people, group, seats, group_people = row
    return County(geoid, _printable(name), int(people), group), int(seats), int(group_people)


def _printable(name: str) -> str:
    """Returns the name with a blank in the place of each run of signs that can't be printed."""
    return " ".join("".join(sign if sign.isprintable() else " " for sign in name).split())


def _groups(path: str, rows: list[tuple[County, int, int]]) -> list[Group]:
    """Returns the groups, if no county stands twice and each group's numbers are its counties'."""
    members: dict[str, list[County]] = {}
    numbers: dict[str, tuple[int, int]] = {}
    seen: set[str] = set()
    for county, seats, people in rows:
        if county.geoid in seen:
            raise Refused(f"The table {path} lists county {county.geoid} twice.")
        seen.add(county.geoid)
        members.setdefault(county.group, []).append(county)
        if numbers.setdefault(county.group, (seats, people)) != (seats, people):
            two = f"gives group {county.group} two numbers of seats or of people"
            raise Refused(f"The table {path} {two}.")
    groups = [
        Group(label, *numbers[label], tuple(sorted(held, key=lambda one: one.geoid)))
        for label, held in members.items()
    ]
    for group in groups:
        if group.people != sum(county.people for county in group.counties):
            counties = f"The people of the counties of {group.words} in the table {path}"
            raise Refused(f"{counties} don't add up to GROUP_POPULATION.")
    return sorted(groups, key=lambda one: (one.is_withdrawn, int(one.label.lstrip("W"))))
