"""What the program's reports say, as values: the one place that reads them. Counties are codes.

The program writes them with `--json`: one object on a line.
"""
from __future__ import annotations

import csv
import io
import json
from dataclasses import dataclass, field
from typing import Any, Mapping, Tuple

from .errors import CountyGroupsError

# The seats and the codes of a group.
CodedSet = Tuple[int, Tuple[str, ...]]
# The least and the greatest number.
Bounds = Tuple[int, int]

AS_JSON = "--json"
# With which words the message of a judge begins that has found a fault.
FAULT = "fault "


@dataclass(frozen=True)
class CodedGroup:
    """Is a group: its codes, its people, and the least and the greatest number of its seats."""

    codes: tuple[str, ...]
    people: int
    least: int
    most: int


@dataclass
class Report:
    """Is a report. `counts` are empty without groups."""

    answer: str = ""
    counts: tuple[int, ...] = ()
    groups: list[CodedGroup] = field(default_factory=list)


@dataclass
class Listing:
    """Is a list of groupings: their number, the shared groups, and the alternatives by region."""

    number: int = 0
    shared: list[CodedGroup] = field(default_factory=list)
    regions: list[list[list[CodedGroup]]] = field(default_factory=list)


@dataclass
class CodedSizes:
    """Has how many seats counties suit.

    `district` has the least and the greatest people of a district, or is `None` if none suits.
    `seats` has the same of seats for each code, or `None`.
    """

    district: Bounds | None = None
    seats: dict[str, Bounds | None] = field(default_factory=dict)


@dataclass(frozen=True)
class CodedVerdict:
    """Is what a judge says. Of `answer` and `fault` one is empty."""

    answer: str
    fault: str
    greater: tuple[int, ...]


@dataclass(frozen=True)
class CodedFinding:
    """Is a finding of an audit: its kind, and the words behind it."""

    kind: str
    words: tuple[str, ...]


class NotUnderstood(CountyGroupsError):
    """Says which text of the program isn't one that this package knows."""


def object_of(text: str) -> Mapping[str, Any]:
    """Returns the object of a text, or an empty one if the text has none."""
    try:
        found = json.loads(text)
    except ValueError:
        return {}
    return found if isinstance(found, dict) else {}


def message_of(text: str) -> str:
    """Returns the line of a text that isn't an answer."""
    return str(object_of(text).get("message", text.strip()))


def has_answer(text: str) -> bool:
    """Returns whether a text has an answer, as which a fault counts that a judge has found."""
    return "answer" in object_of(text) or message_of(text).startswith(FAULT)


def _answer_in(text: str, *answers: str) -> Mapping[str, Any]:
    """Returns the object of a text. Raises `NotUnderstood` unless it has one of some answers."""
    found = object_of(text)
    if found.get("answer") not in answers:
        raise NotUnderstood(f"The program's text isn't one that is known: {text[:200]!r}")
    return found


def _bounds_of(found: Mapping[str, int] | None) -> Bounds | None:
    """Returns the least and the greatest number of a run."""
    return None if found is None else (found["least"], found["greatest"])


def _listed(groups: list[Mapping[str, Any]]) -> list[CodedGroup]:
    """Returns the groups of a list, whose seats are runs."""
    return [
        CodedGroup(
            tuple(one["counties"]), one["people"], one["seats"]["least"], one["seats"]["greatest"]
        )
        for one in groups
    ]


def read_report(text: str) -> Report:
    """Returns what a report says. Raises `NotUnderstood` if the text is none."""
    found = _answer_in(text, "best", "lawful", "impossible", "open")
    groups = [
        CodedGroup(tuple(one["counties"]), one["people"], one["seats"], one["seats"])
        for one in found.get("groups") or ()
    ]
    return Report(found["answer"], tuple(found.get("counts", ())), groups)


def read_list(text: str) -> Listing:
    """Returns what a list says. Raises `NotUnderstood` if the text is none."""
    found = _answer_in(text, "all")
    regions = [
        [_listed(one["groups"]) for one in region["alternatives"]] for region in found["regions"]
    ]
    return Listing(found["best_groupings"], _listed(found["shared_groups"]), regions)


def read_groupings(text: str) -> list[list[CodedSet]]:
    """Returns the seats and the codes of each group of each grouping of the program's table.

    The groups stand in the order of their numbers. Withdrawn sets, such as W1, are left out.
    """
    found: dict[int, dict[int, tuple[int, list[str]]]] = {}
    for row in csv.DictReader(io.StringIO(text)):
        groups = found.setdefault(int(row["GROUPING"]), {})
        if not row["GROUP"].startswith("W"):
            _, codes = groups.setdefault(int(row["GROUP"]), (int(row["SEATS"]), []))
            codes.append(row["GEOID"])
    ordered = [groups for _, groups in sorted(found.items())]
    return [
        [(seats, tuple(codes)) for _, (seats, codes) in sorted(groups.items())]
        for groups in ordered
    ]


def read_sizes(text: str) -> CodedSizes:
    """Returns what a size table says. Raises `NotUnderstood` if the text is none."""
    found = _answer_in(text, "sizes")
    seats = {one["county"]: _bounds_of(one["seats"]) for one in found["sizes"]}
    return CodedSizes(_bounds_of(found["district"]), seats)


def read_verdict(text: str) -> CodedVerdict:
    """Returns what a judge says. Raises `NotUnderstood` if the text isn't one of a judge."""
    message = message_of(text)
    if message.startswith(FAULT):
        return CodedVerdict("", message[len(FAULT) :], ())
    found = _answer_in(text, "best", "lawful")
    return CodedVerdict(found["answer"], "", tuple(found.get("greater_counts", ())))


def read_findings(text: str) -> list[CodedFinding]:
    """Returns the findings of an audit. Raises `NotUnderstood` if the text is none."""
    found = _answer_in(text, "findings")["findings"]
    return [CodedFinding(one["finding"], tuple(_words_of(one))) for one in found]


def _words_of(finding: Mapping[str, Any]) -> list[str]:
    """Returns the words behind the kind of a finding, as the program's text has them."""
    words: list[str] = []
    for name, value in finding.items():
        if name in ("fault", "block", "district"):
            words += str(value).split(" ")
        elif name in ("set", "sets"):
            for one in value if name == "sets" else [value]:
                words += [str(part) for item in one.items() for part in item]
        elif name != "finding":
            words += [name, str(value)]
    return words
