"""What else the program is asked of a problem: seats by county, a grouping, a plan."""
from __future__ import annotations

import os
from dataclasses import dataclass
from typing import Any, Iterable, Mapping, Sequence

from . import files, tables, texts
from .adjacency import Adjacency
from .answer import Answer
from .best_groupings import UNBOUNDED
from .codes import Label, codes_of, plain
from .counties import PEOPLE_FIELD, People, is_table, rows_of, whole_people
from .errors import InputError
from .groups import Group
from .plans import plan_of
from .precincts import LabelFinder, field_of
from .problem import MOST_SEATS, Problem, Tolerance, table_of, tolerance_of, whole_number
from .program import find_program


# A grouping, for whoever gave something else.
GROUPS = '[(["37001", "37135"], 2), (["37183"], 6)]'


@dataclass(frozen=True)
class Sizes:
    """Has how many seats each county's people suit.

    `district` has the least and the greatest number of people of a district, or is `None` if none
    suits. `seats` has for each label the least and the greatest number of seats, or `None` if the
    county needs others.
    """

    district: tuple[int, int] | None
    seats: Mapping[Label, tuple[int, int] | None]


def size(
    counties: Any,
    seats: int,
    *,
    people: People = None,
    label: str | None = None,
    name: str | None = None,
    county: str | None = None,
    tolerance: Tolerance | None = None,
    program: str | None = None,
) -> Sizes:
    """Returns how many seats each county's people suit. The words are those of `solve`."""
    table = table_of(counties, people, label, name, county)
    problem = Problem(
        table,
        whole_number(seats, 1, MOST_SEATS, "seats"),
        Adjacency(frozenset(), "of none"),
        (),
        tolerance_of(tolerance),
        codes_of([one.label for one in table.counties]),
        find_program(program),
    )
    found = texts.read_sizes(problem.run("size", []).run.output)
    label_of = problem.codes.label_of
    return Sizes(found.district, {label_of[code]: suited for code, suited in found.seats.items()})


@dataclass(frozen=True)
class Verdict:
    """Says what a grouping is.

    `outcome` is "best", "lawful" or "fault". A fault is in `fault`, and its reasons in `messages`.
    `greater` has the counts of the answer's best grouping if they are greater than those of a
    lawful grouping: by place, how many groups of 1, 2, .. counties it has. Else it is empty.
    """

    outcome: str
    fault: str
    messages: tuple[str, ...]
    greater: tuple[int, ...] = ()


def judge(grouping: Iterable[Any], of: Answer | Problem) -> Verdict:
    """Judges whether a grouping is lawful, and by the certificate of an answer whether it is best.

    `grouping` has groups, each a `Group` or the labels and the seats. `of` is the answer whose
    problem and certificate count, or a problem, which has no certificate. Raises `InputError` if
    there are no groups, or if one names no county.
    """
    problem = of.problem if isinstance(of, Answer) else of
    if isinstance(grouping, (str, os.PathLike)) or is_table(grouping):
        told = "A path or a table is no grouping: give a list of the groups, each its counties and"
        raise InputError(f"{told} their seats, as {GROUPS}.")
    groups = [one if isinstance(one, Group) else _group_of(one, problem) for one in grouping]
    given = {files.GROUPING: files.text_of(tables.grouping_lines(problem, groups))}
    words = ["--grouping", files.GROUPING]
    if isinstance(of, Answer) and of.certificate is not None and of.outcome == "best":
        given[files.CERTIFICATE] = of.certificate
        words += ["--certificate", files.CERTIFICATE, "--budget", UNBOUNDED]
    run = problem.run("judge", words, given).run
    found = texts.read_verdict(run.output)
    if not found.fault:
        return Verdict(found.answer, "", run.messages, found.greater)
    legend = problem.codes.legend("\n".join(run.messages))
    return Verdict("fault", found.fault, (*run.messages, *legend))


def _group_of(given: Any, problem: Problem) -> Group:
    """Returns the group of its labels and its seats. Raises `InputError` if it is none."""
    if isinstance(given, str) or not hasattr(given, "__len__") or len(given) != 2:
        raise InputError(f"{given!r} is no group: give its counties and their seats.")
    people = {county.label: county.people for county in problem.counties}
    labels = tuple(plain(one) for one in given[0])
    lacking = [label for label in labels if label not in people]
    if lacking:
        told = f"The group {given!r}: no county is {lacking[0]!r}"
        raise InputError(f"{told}. A group has counties, such as {next(iter(people))!r}.")
    return Group(labels, plain(given[1]), sum(people[label] for label in labels))


@dataclass(frozen=True)
class Finding:
    """Is something that a plan has against a grouping.

    `kind` is the program's word: "Crosses", "WrongNumber", "DistrictSize", "Unassigned" or
    "Grouping". `told` is its line by your own labels.
    """

    kind: str
    told: str


def audit(
    plan: Any,
    answer: Answer,
    *,
    precincts: Any,
    county: str,
    people: str = PEOPLE_FIELD,
    number: int | None = None,
) -> tuple[Finding, ...]:
    """Returns what a plan has against the groups of an answer, their seats, and the bounds.

    The bounds of a district are those of the chamber.

    `plan` is a dict or a Series from precincts to districts, a `Partition` of GerryChain, what the
    JSON of Districtr has, or the path of a file: of that JSON, or of a text with two columns, such
    as a block assignment file. A file may be packed by gzip, or alone in a zip archive. `precincts`
    is the graph, table or dict that has their people and counties, in the attributes or columns
    `people` and `county`. Blocks do as well. `number` picks one of the best groupings, as in
    `Answer.grouping`.

    Raises `InputError` if the plan can't be read or names no precinct, or if the people of a
    county's precincts aren't those of the answer.
    """
    units = _Units(precincts, answer.problem, county, people)
    districts = plan_of(plan, units.code_of)
    names = [one for one in dict.fromkeys(districts.values()) if one is not None]
    number_of = {name: str(place) for place, name in enumerate(names, 1)}
    lines = [
        f"{units.code_of[unit]}|{number_of[name]}"
        for unit, name in districts.items()
        if name is not None
    ]
    groups = answer.grouping(number)
    given = {
        **units.texts(),
        files.GROUPING: files.text_of(tables.grouping_lines(answer.problem, groups)),
        files.ASSIGNMENTS: files.text_of(lines),
    }
    words = ["--grouping", files.GROUPING, "--assignments", files.ASSIGNMENTS]
    found = texts.read_findings(answer.problem.run("audit", words, given).run.output)
    return tuple(_finding_of(one, names, units) for one in found)


def _finding_of(found: texts.CodedFinding, names: Sequence[Label], units: _Units) -> Finding:
    """Returns a finding with the labels of districts and precincts."""
    first, *more = found.words
    if found.kind in ("Crosses", "DistrictSize"):
        first = str(names[int(first) - 1])
    if found.kind in ("UnknownBlock", "BlockTwice", "Unassigned"):
        first = str(units.unit_of[first])
    return Finding(found.kind, " ".join([first, *more]))


class _Units:
    """Has the precincts of a plan as blocks of the program's files, with codes that are made up."""

    def __init__(self, given: Any, problem: Problem, county: str, people: str) -> None:
        rows = rows_of(given)
        finder = LabelFinder(one.label for one in problem.counties)
        self.problem = problem
        self.code_of: dict[Any, str] = {}
        self.people: list[int] = []
        sums = dict.fromkeys((one.label for one in problem.counties), 0)
        numbers = field_of(rows, people)
        for (unit, _), value, given_people in zip(rows, field_of(rows, county), numbers):
            label = finder.label(value)
            if label is None:
                raise InputError(f"Precinct {unit!r} lies in {value!r}, which is no county.")
            self.people.append(whole_people(unit, given_people))
            sums[label] += self.people[-1]
            self.code_of[unit] = f"{problem.codes.code_of[label]}{len(self.people):010d}"
        self.unit_of = {code: unit for unit, code in self.code_of.items()}
        for one in problem.counties:
            if sums[one.label] != one.people:
                told = f"The precincts of {one.name} have {sums[one.label]:,} people"
                raise InputError(f"{told}, and the county has {one.people:,}.")

    def texts(self) -> dict[str, str]:
        """Returns the geographic header and segment 1 with counties and blocks."""
        counties, codes = self.problem.counties, self.problem.codes
        geo, segment = files.county_lines(counties, codes)
        first = len(counties) + 1
        for record, (code, people) in enumerate(zip(self.code_of.values(), self.people), first):
            geo.append(files.block_line(record, code))
            segment.append(files.people_line(record, people))
        return {files.GEO: files.text_of(geo), files.SEGMENT: files.text_of(segment)}
