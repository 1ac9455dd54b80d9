"""The best county grouping under Stephenson v. Bartlett, with a certificate.

`solve` finds it. `help(countygroups.solve)` has its words, and README.md a worked example.
"""
from .adjacency import Adjacency
from .answer import Answer, checked
from .asking import Finding, Sizes, Verdict, audit, judge, size
from .best_groupings import BestGroupings
from .borders import borders_source
from .census import read_census
from .errors import (
    CertificateError,
    CountyGroupsError,
    CountyGroupsWarning,
    InputError,
    NoBestGrouping,
    ProgramError,
    ProgramNotFound,
    TimeLimitError,
)
from .groups import Group, Grouping, ListedGroup, Region
from .people_file import read_people
from .problem import Problem, problem_of
from .program import Progress, find_program
from .solving import solve
from .version import VERSION

__version__ = VERSION

__all__ = [
    "Adjacency",
    "Answer",
    "BestGroupings",
    "CertificateError",
    "CountyGroupsError",
    "CountyGroupsWarning",
    "Finding",
    "Group",
    "Grouping",
    "InputError",
    "ListedGroup",
    "NoBestGrouping",
    "Problem",
    "ProgramError",
    "ProgramNotFound",
    "Progress",
    "Region",
    "Sizes",
    "TimeLimitError",
    "Verdict",
    "__version__",
    "audit",
    "borders_source",
    "checked",
    "find_program",
    "judge",
    "problem_of",
    "read_census",
    "read_people",
    "size",
    "solve",
]
