"""Listings of six counties by `docs/reference/formats.md`, for the tests of what reads listings."""
from __future__ import annotations


def region(number: int, people: int, *alternatives: tuple[str, str]) -> str:
    """Returns the region of this number, whose three counties have alternatives of two groups.

    Each alternative has the code of the county that has one seat and 100 people, and the codes of
    the two counties that have two seats and `people` in all.
    """
    lines = [f"region {number} counties 3 alternatives {len(alternatives)}"]
    for place, (alone, both) in enumerate(alternatives, 1):
        lines.append(f"alternative {place}")
        lines.append(f"group seats 1 people 100 counties {alone}")
        lines.append(f"group seats 2 people {people} counties {both}")
    return "\n".join(lines) + "\n"


HEAD = """people 600
chamber 6
seats left 6
counties 6
answer all
counts 2 2
best groupings 2
"""
SHARED = """shared groups 2
group seats 1 people 100 counties 37011
group seats 2 people 210 counties 37007 37009
"""
FIRST_REGION = region(1, 190, ("37001", "37003 37005"), ("37005", "37001 37003"))
SECOND_REGION = region(2, 210, ("37011", "37007 37009"), ("37007", "37009 37011"))
# Two best groupings, which share two groups.
SIX = f"{HEAD}{SHARED}{FIRST_REGION}every choice\n"
# Two regions, in which two of four combinations are listed. A group suits two numbers of seats.
WIDER_REGION = FIRST_REGION.replace("seats 2 people", "seats 2 to 3 people", 1)
COUPLED = (
    f"{HEAD}shared groups 0\n{WIDER_REGION}{SECOND_REGION}"
    "grouping 1 alternatives 1 1\ngrouping 2 alternatives 2 2\n"
)
