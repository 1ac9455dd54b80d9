"""The answer to a problem."""
from __future__ import annotations

import math
from dataclasses import dataclass
from fractions import Fraction
from functools import cached_property
from os import PathLike
from pathlib import Path
from typing import Any

from . import files, maps, pages, tables, texts
from .best_groupings import UNBOUNDED, BestGroupings
from .adjacency import Adjacency
from .codes import Label
from .errors import InputError, NoBestGrouping
from .groups import Group, Grouping
from .problem import Problem, Stored

BEST, IMPOSSIBLE, OPEN = "best", "impossible", "open"
README = "README.txt"


@dataclass(frozen=True, eq=False, repr=False)
class Answer:
    """Is what the program says of a problem.

    `outcome` is "best" if no lawful grouping is greater, "impossible" if none is lawful, and "open"
    if the steps ran out. `groups` has the groups of the grouping, or none, and `counts` how many of
    them have one county, two, and so on. `certificate` is the text that proves the outcome, or
    `None` if it is open. `messages` are the lines of the program's standard error.
    """

    problem: Problem
    outcome: str
    counts: tuple[int, ...]
    groups: Grouping
    certificate: str | None
    messages: tuple[str, ...]

    @property
    def adjacency(self) -> Adjacency:
        """Returns which counties are adjacent, and where that comes from."""
        return self.problem.adjacency

    @property
    def people(self) -> int:
        """Returns the people of all counties."""
        return self.problem.people

    @property
    def ideal(self) -> Fraction:
        """Returns the ideal population of a district of the chamber: its people over its seats.

        The law bounds each district by this number, and not by the mean of its group.
        """
        return self.problem.ideal

    @property
    def district_bounds(self) -> tuple[int, int]:
        """Returns the least and the greatest number of people that a district may have."""
        return self.problem.district_bounds

    def epsilon_of(self, group: Group) -> float:
        """Returns by which part of its mean a district of `group` may miss it, rounded down.

        This is the greatest such part with which each district stays within `district_bounds`, as
        `epsilon` of GerryChain takes it.
        """
        least, greatest = self.district_bounds
        exact = min(1 - least / group.mean, greatest / group.mean - 1)
        return math.nextafter(float(exact), -math.inf)

    def margin_of(self, group: Group) -> tuple[int, int]:
        """Returns how many people fewer, and how many more, a group may have for its seats.

        The ideal population is taken as it is. A number below 0 says how many are too many, or too
        few.
        """
        low, high = (
            self.ideal * group.seats * (1 + sign * self.problem.tolerance) for sign in (-1, 1)
        )
        return group.people - math.ceil(low), math.floor(high) - group.people

    @cached_property
    def group_of(self) -> dict[Label, Group]:
        """Returns the group of each county, by its label, also the withdrawn sets.

        Raises `NoBestGrouping` if there is no grouping.
        """
        return group_of(self.grouping(), self.problem)

    @cached_property
    def best_groupings(self) -> BestGroupings:
        """Returns all best groupings. Raises `NoBestGrouping` if the outcome isn't best."""
        if self.outcome != BEST or self.certificate is None:
            raise NoBestGrouping(f"The outcome is {self.outcome}, so no grouping is known as best.")
        return BestGroupings(self.problem, self.certificate)

    def check(self) -> str:
        """Checks the certificate and returns its outcome: "best" or "impossible".

        Raises `NoBestGrouping` if there is no certificate, `CertificateError` if it is none of the
        problem, and `ProgramError` if the program gives no answer.
        """
        if self.certificate is None:
            raise NoBestGrouping("The steps ran out, so there is no certificate.")
        return checked(self.problem, self.certificate).outcome

    def grouping(self, number: int | None = None) -> Grouping:
        """Returns the best grouping of a number, from 1, or without a number that of the answer.

        Raises `NoBestGrouping` if there is none, and `InputError` if none has the number.
        """
        if number is None:
            if self.outcome == IMPOSSIBLE or not (self.groups or self.problem.withdrawn):
                raise NoBestGrouping(f"The outcome is {self.outcome}, and there is no grouping.")
            return self.groups
        if not 1 <= number <= len(self.best_groupings):
            told = f"There are {len(self.best_groupings)} best groupings"
            raise InputError(f"{told}, numbered from 1, and none has the number {number}.")
        return self.best_groupings[number - 1]

    def to_rows(self, number: int | None = None) -> list[dict[str, Any]]:
        """Returns a row for each county, as `to_dataframe` has them, without any other package."""
        return tables.rows_of(self.problem, self.grouping(number))

    def to_dataframe(self, number: int | None = None) -> Any:
        """Returns a DataFrame of pandas with a row for each county.

        It is a copy of the table that was given, if one was, with these columns: GROUP (1 on; if
        sets are withdrawn, the texts "1" on for groups and "W1" on for these sets), SEATS and
        GROUP_POPULATION of the group, and COLOUR, a number from 0 on that differs for adjacent
        groups. If the table has a column of such a name, that column stays, and the new one is
        called COUNTYGROUPS_GROUP and so on. `number` is as in `grouping`.
        """
        return tables.frame_of(self.problem, self.to_rows(number))

    def to_geodataframe(self, number: int | None = None, shapes: Any = None) -> Any:
        """Returns a GeoDataFrame of geopandas with a row for each county, as `to_dataframe` does.

        `shapes` is a GeoSeries or a dict that has the shape of each label. It may be left out if
        the counties came as a GeoDataFrame. Raises `InputError` if a county has no shape.
        """
        return tables.geo_frame_of(self.problem, self.to_dataframe(number), shapes)

    def plot(self, number: int | None = None, shapes: Any = None, **words: Any) -> Any:
        """Draws a map on which adjacent groups differ, and returns its axes.

        Each group has the number of its seats.

        `number` is as in `grouping`, `shapes` as in `to_geodataframe`. `words` go to the `plot` of
        geopandas. It needs geopandas and matplotlib.
        """
        return maps.draw(self, self.to_geodataframe(number, shapes), words)

    def save(self, folder: str | PathLike[str]) -> None:
        """Writes the files of the problem, the certificate and the grouping to `folder`.

        With them anybody can check the certificate: README.txt has the command, and labels.csv has
        the label of each code. The folder is made if it isn't there.
        """
        place = Path(folder)
        place.mkdir(parents=True, exist_ok=True)
        self.problem.write(place)
        files.write_labels(place, self.problem.counties, self.problem.codes)
        words = " ".join(self.problem.words())
        lines = [str(self), "", "The files of the problem, as the program reads them."]
        if self.groups:
            files.write(place, files.GROUPING, tables.grouping_lines(self.problem, self.groups))
        if self.certificate is not None:
            files.write_text(place / files.CERTIFICATE, self.certificate)
            lines += ["In this folder the certificate is checked by:", ""]
            told = f"--certificate {files.CERTIFICATE} --budget {UNBOUNDED}"
            lines += [f"countygroups check {words} {told}"]
        files.write(place, README, lines)

    def summary(self) -> list[str]:
        """Returns what was asked and what the outcome is, in lines."""
        counts = " ".join(map(str, self.counts)) or "none"
        told = f"{self.outcome}: {len(self.groups)} groups, counts {counts}"
        return [*self.problem.summary(), told if self.groups else self.outcome]

    def _repr_html_(self) -> str:
        """Returns the summary and a table of the groups, as a notebook shows them."""
        return pages.html_of(self)

    def __repr__(self) -> str:
        """Returns the summary in one line."""
        return f"<countygroups.Answer: {'; '.join(self.summary())}>"

    def __str__(self) -> str:
        """Returns the summary, each group by its counties' names, and the program's messages."""
        numbered = enumerate(self.groups, 1)
        lines = [f"{number}: {self.problem.group_line(one)}" for number, one in numbered]
        return "\n".join([*self.summary(), *lines, *self.messages])


def group_of(groups: Grouping, problem: Problem) -> dict[Label, Group]:
    """Returns the group of each county of a grouping, and the withdrawn sets, by labels."""
    return {label: one for one in [*groups, *problem.withdrawn] for label in one.counties}


def answer_of(problem: Problem, stored: Stored, certificate: str | None) -> Answer:
    """Returns the answer of a run whose text is a report."""
    report = texts.read_report(stored.run.output)
    label_of = problem.codes.label_of
    groups = [
        Group(tuple(label_of[code] for code in one.codes), one.least, one.people)
        for one in report.groups
    ]
    messages = stored.run.messages
    return Answer(problem, report.answer, report.counts, tuple(groups), certificate, messages)


def checked(problem: Problem, certificate: str) -> Answer:
    """Checks a certificate of a problem, whoever wrote it, and returns what it proves.

    Raises `CertificateError` if it is no certificate of the problem, and `ProgramError` if the
    program gives no answer.
    """
    words = ["--certificate", files.CERTIFICATE, "--budget", UNBOUNDED]
    stored = problem.run("check", words, {files.CERTIFICATE: certificate})
    return answer_of(problem, stored, certificate)
