"""Solves a problem."""
from __future__ import annotations

import os
from typing import Any, Iterable

from . import files
from .answer import Answer, answer_of
from .counties import People
from .problem import MOST_STEPS, Tolerance, problem_of, whole_number
from .program import Tell


def solve(
    counties: Any,
    seats: int,
    *,
    people: People = None,
    adjacency: Any = None,
    added: Iterable[Any] = (),
    cut: Iterable[Any] = (),
    withdrawn: Iterable[Any] = (),
    tolerance: Tolerance | None = None,
    label: str | None = None,
    name: str | None = None,
    county: str | None = None,
    steps: int | None = None,
    progress: Tell | None = None,
    timeout: float | None = None,
    program: str | os.PathLike[str] | None = None,
) -> Answer:
    """Finds the best grouping of counties for a chamber, with its certificate.

    `counties` is a GeoDataFrame, a DataFrame, a Series of people, a graph of networkx or
    GerryChain, a dict from labels to people, or a dict from labels to dicts of attributes.

    `seats` is the number of seats of the chamber, 1 to 1000.

    `people` names the column or attribute of people, or is a dict from labels to people. It is
    "people" if nothing is said. Commas at each third digit are taken.

    `label` names the column or attribute that labels counties. If nothing is said, it is the first
    of "GEOID", "GEOID20", "GEOID10", "GEO_ID" and "FIPS" that is there, or the state's and the
    county's code in "STATEFP" and "COUNTYFP" or "state" and "county", or else the index of the
    table, the node or the key. Labels that aren't GEOIDs of one state get codes for the program,
    and come back as labels. `name` names that of names for people to read: "NAME".

    `county` says that `counties` are precincts, and names the column or attribute that has the
    county of each: people are added up, and two counties are adjacent if precincts of them are.

    `adjacency` is "edges" (shapes with an edge in common), "points" (also those that touch in a
    point), a path of a file in the layout of the Census Bureau's county adjacency file, a graph of
    labels, weights of libpysal, a dict from labels to neighbours, a square matrix or a list of
    lists of neighbours' places from 0, or pairs of labels, also as a table of two columns. If
    nothing is said, a graph has its edges, counties of North Carolina the border list of this
    package (`borders_source()` says where it comes from), and other shapes those in common. `added`
    and `cut` are pairs of labels that are then added and cut. `Answer.adjacency` says what was
    taken.

    `withdrawn` has for each set that is taken out beforehand its labels, or one label, and its
    seats.

    `tolerance` is how much of the ideal population a district may miss: 1/20 if nothing is said. A
    float is taken as it is written, and a text may be "4%", "0.04" or "1/25".

    `steps` bounds the search; the program has 10,000,000. `timeout` bounds it in seconds.

    `progress` is called about once a second with a `Progress`, where the system has pseudo
    terminals. If it raises an error, the search ends and the error is raised.

    `program` is the path of the program. `find_program` says which one is taken otherwise.

    What may be wrong though there is an answer is warned of as `CountyGroupsWarning`. Raises
    `InputError` if something can't be used, `ProgramNotFound` if there is no program,
    `TimeLimitError` if the time is over, and `ProgramError` with the program's words if it gives no
    answer.
    """
    problem = problem_of(
        counties,
        seats,
        people=people,
        adjacency=adjacency,
        added=added,
        cut=cut,
        withdrawn=withdrawn,
        tolerance=tolerance,
        label=label,
        name=name,
        county=county,
        program=program,
    )
    words = ["--certificate", files.CERTIFICATE]
    if steps is not None:
        words += ["--steps", str(whole_number(steps, 0, MOST_STEPS, "steps"))]
    stored = problem.run("solve", words, tell=progress, seconds=timeout)
    return answer_of(problem, stored, stored.texts.get(files.CERTIFICATE))
