"""A problem: counties, seats, adjacency, withdrawn sets and the tolerance."""
from __future__ import annotations

import math
import os
import re
import tempfile
from dataclasses import dataclass
from decimal import Decimal
from fractions import Fraction
from pathlib import Path
from typing import Any, Hashable, Iterable, Mapping, Sequence, Union

from . import files, texts
from .adjacency import Adjacency, adjacency_of
from .codes import Codes, Label, codes_of, plain
from .counties import County, CountyTable, People, read_counties
from .errors import CertificateError, InputError, ProgramError, warn
from .groups import Group
from .precincts import counties_of
from .program import Program, Run, Tell, find_program

FIVE_PERCENT = Fraction(1, 20)
MOST_PART, MOST_WHOLE = 500, 1000
MOST_SEATS = 1000
MOST_STEPS = 2**64 - 1

# The option and the file that a warning of the program begins with.
OPTION_AND_FILE = re.compile(r"^--([a-z]+) [a-z]+\.txt:? ")

# A percentage such as 4.5%.
PERCENTAGE = re.compile(r"([0-9]+(?:\.[0-9]+)?)%")

# The exit statuses with which the program gives an answer, and the one of a text that is none.
WITH_ANSWER = (0, 1, 3)
NO_CERTIFICATE = 1

Tolerance = Union[Fraction, Decimal, float, str]


@dataclass(frozen=True)
class Stored:
    """Is a run of the program with the texts of the files that it stored, by their names."""

    run: Run
    texts: Mapping[str, str]


@dataclass(frozen=True, eq=False, repr=False)
class Problem:
    """Is a problem, and the program that is asked."""

    table: CountyTable
    seats: int
    adjacency: Adjacency
    withdrawn: tuple[Group, ...]
    tolerance: Fraction
    codes: Codes
    program: Program

    @property
    def counties(self) -> tuple[County, ...]:
        """Returns the counties in their order."""
        return self.table.counties

    @property
    def people(self) -> int:
        """Returns the people of all counties."""
        return sum(county.people for county in self.counties)

    @property
    def ideal(self) -> Fraction:
        """Returns the ideal population of a district: the people over the seats of the chamber."""
        return Fraction(self.people, self.seats)

    @property
    def district_bounds(self) -> tuple[int, int]:
        """Returns the least and the greatest number of people that a district may have."""
        low, high = (self.ideal * (1 + sign * self.tolerance) for sign in (-1, 1))
        return math.ceil(low), math.floor(high)

    def __repr__(self) -> str:
        """Returns the summary in one line."""
        return f"<countygroups.Problem: {'; '.join(self.summary())}>"

    def group_line(self, group: Group) -> str:
        """Returns the seats, the people and the counties' names of a group."""
        seats = "1 seat" if group.seats == 1 else f"{group.seats} seats"
        return f"{seats}, {group.people:,} people: {self._names(group.counties)}"

    def summary(self) -> list[str]:
        """Returns what is asked, in lines. Counties without a neighbour are named."""
        size = f"{self.seats} seats, {len(self.counties)} counties, {self.people:,} people"
        near = self.adjacency.neighbours()
        alone = [county.label for county in self.counties if county.label not in near]
        return [
            f"{size}, tolerance {self.tolerance}",
            f"adjacency: {self.adjacency}",
            *([f"without a neighbour: {self._names(alone)}"] if alone else []),
            *(f"withdrawn: {self.group_line(one)}" for one in self.withdrawn),
        ]

    def _names(self, labels: Iterable[Label]) -> str:
        """Returns the names of labels, with commas between."""
        name_of = {county.label: county.name for county in self.counties}
        return ", ".join(name_of[label] for label in labels)

    def write(self, folder: Path) -> None:
        """Writes the files of the problem to `folder`, in the layouts of the program."""
        files.write_people(folder, self.counties, self.codes)
        files.write_adjacency(folder, self.adjacency, self.codes)
        if self.withdrawn:
            lines = [
                "|".join([str(one.seats), *(self.codes.code_of[label] for label in one.counties)])
                for one in self.withdrawn
            ]
            files.write(folder, files.WITHDRAWN, lines)

    def words(self, command: str = "solve") -> list[str]:
        """Returns the words of the problem for a command. Its files lie in the working folder.

        An audit reads the counties with the blocks, and other commands read the people file.
        """
        words = ["--people", files.PEOPLE]
        if command == "audit":
            words = ["--geo", files.GEO, "--segment", files.SEGMENT]
        words += ["--state", self.codes.state, "--chamber", str(self.seats)]
        return words + self._tolerance_words() + (self._border_words() if command != "size" else [])

    def _tolerance_words(self) -> list[str]:
        """Returns the words of the tolerance, if it isn't the usual one."""
        if self.tolerance == FIVE_PERCENT:
            return []
        return ["--part", str(self.tolerance.numerator), "--of", str(self.tolerance.denominator)]

    def _border_words(self) -> list[str]:
        """Returns the words of the borders and of the withdrawn sets."""
        words = ["--adjacency", files.ADJACENCY]
        if self.adjacency.added or self.adjacency.cut:
            words += ["--links", files.LINKS]
        if self.withdrawn:
            words += ["--withdrawn", files.WITHDRAWN]
        return words

    def run(
        self,
        command: str,
        words: Sequence[str],
        given: Mapping[str, str] | None = None,
        tell: Tell | None = None,
        seconds: float | None = None,
    ) -> Stored:
        """Runs a command over the problem in a folder of its own, with the texts of `given`.

        `given` has a text for each name of a file. What the program warns of is warned of as
        `CountyGroupsWarning`. Raises `CertificateError` or `ProgramError` if the program gives no
        answer, and `TimeLimitError` if it gives none in `seconds`.
        """
        with tempfile.TemporaryDirectory(prefix="countygroups") as room:
            folder = Path(room)
            self.write(folder)
            for name, text in (given or {}).items():
                files.write_text(folder / name, text)
            whole = [command, *self.words(command), *words, texts.AS_JSON]
            done = self.program.run(whole, folder, tell, seconds)
            self._refuse_no_answer(done)
            stored = [folder / name for name in files.STORED]
            found = {path.name: path.read_bytes().decode() for path in stored if path.is_file()}
        self._warn(done)
        return Stored(done, found)

    def _warn(self, done: Run) -> None:
        """Warns of what the program warned of, with the labels of its codes.

        The package itself has warned of counties without any border.
        """
        for message in done.messages:
            _, is_warning, told = message.partition("countygroups: warning: ")
            if is_warning and not told.startswith("--adjacency "):
                told = OPTION_AND_FILE.sub(r"\1: ", told)
                legend = self.codes.legend(told)
                warn(f"{told} ({', '.join(legend)})" if legend else told)

    def _refuse_no_answer(self, done: Run) -> None:
        """Raises an error unless the text of the run has an answer."""
        if done.status in WITH_ANSWER and texts.has_answer(done.output):
            return
        line = texts.message_of(done.output)
        legend = self.codes.legend("\n".join([line, *done.messages]))
        is_no_certificate = done.status == NO_CERTIFICATE and line.startswith("no ")
        kind = CertificateError if is_no_certificate else ProgramError
        raise kind(done.status, line, done.messages, legend)


def table_of(
    counties: Any, people: People, label: str | None, name: str | None, county: str | None
) -> CountyTable:
    """Returns the counties of the words of `solve`, also those of precincts.

    Raises `InputError` if they can't be read, or if `county` is given beside `label` or `name`.
    """
    if county is None:
        return read_counties(counties, people, label, name)
    if label is not None or name is not None:
        raise InputError("With county= the counties have its labels: leave out label= and name=.")
    return counties_of(counties, county, people)


def problem_of(
    counties: Any,
    seats: int,
    *,
    people: People = None,
    adjacency: Any = None,
    added: Iterable[Any] = (),
    cut: Iterable[Any] = (),
    withdrawn: Iterable[Any] = (),
    tolerance: Tolerance | None = None,
    label: str | None = None,
    name: str | None = None,
    county: str | None = None,
    program: str | os.PathLike[str] | None = None,
) -> Problem:
    """Returns the problem of the words of `solve`.

    Raises `InputError` if something can't be used, and `ProgramNotFound` if there is no program.
    """
    table = table_of(counties, people, label, name, county)
    codes = codes_of([county.label for county in table.counties])
    return Problem(
        table,
        whole_number(seats, 1, MOST_SEATS, "seats"),
        adjacency_of(adjacency, table, added, cut),
        tuple(_withdrawn_set(one, table.counties) for one in withdrawn),
        tolerance_of(tolerance),
        codes,
        find_program(program),
    )


def whole_number(given: Any, least: int, most: int, name: str) -> int:
    """Returns a whole number, also one that is given as a float such as 1e6.

    Raises `InputError` if `given` is none from `least` to `most`. `name` says what it is.
    """
    number = plain(given)
    if isinstance(number, float) and number.is_integer():
        number = int(number)
    if isinstance(number, bool) or not isinstance(number, int):
        raise InputError(f"The {name} are {given!r}, which is no whole number.")
    if not least <= number <= most:
        raise InputError(f"The {name} are {given!r}, and have to be {least:,} to {most:,}.")
    return number


def tolerance_of(given: Tolerance | None) -> Fraction:
    """Returns the tolerance as a fraction of at most 1/2, in lowest terms.

    A float is taken as it is written: 0.05 is 1/20. A text may be a percentage such as "5%". Raises
    `InputError` if it is no fraction from 0 to 1/2 of at most 500 over at most 1000.
    """
    if given is None:
        return FIVE_PERCENT
    percent = PERCENTAGE.fullmatch(given) if isinstance(given, str) else None
    try:
        if percent:
            exact = Fraction(percent[1]) / 100
        else:
            exact = Fraction(repr(given)) if isinstance(given, float) else Fraction(given)
    except (ValueError, TypeError, ArithmeticError) as fault:
        raise InputError(f"The tolerance {given!r} is no fraction.") from fault
    if not 0 <= exact <= Fraction(1, 2):
        raise InputError(
            f"The tolerance is {given!r}, and has to be 0 to 1/2; 0.05 is five percent."
        )
    if exact.numerator > MOST_PART or exact.denominator > MOST_WHOLE:
        told = f"is no fraction from 0 on of at most {MOST_PART} over at most {MOST_WHOLE}"
        raise InputError(f"The tolerance {given!r} {told}: give Fraction(1, 3) for a third.")
    return exact


def _withdrawn_set(given: Any, counties: Sequence[County]) -> Group:
    """Returns a withdrawn set of its labels, or of one label, and its seats."""
    if isinstance(given, str) or not hasattr(given, "__len__") or len(given) != 2:
        raise InputError(f"{given!r} is no withdrawn set: its counties, and their seats.")
    people = {county.label: county.people for county in counties}
    named, seats = given
    is_label = isinstance(named, Hashable) and named in people
    labels = [plain(one) for one in ([named] if is_label or isinstance(named, str) else named)]
    for label in labels:
        if label not in people:
            raise InputError(f"The withdrawn set {given!r}: no county is {label!r}.")
    if isinstance(seats, bool) or not isinstance(plain(seats), int):
        raise InputError(f"The withdrawn set {given!r} has seats that are no whole number.")
    return Group(tuple(labels), plain(seats), sum(people[label] for label in labels))
