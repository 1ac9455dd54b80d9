"""The codes of counties: five digits, the state's two and the county's three, as in a GEOID."""
from __future__ import annotations

import re
from dataclasses import dataclass
from typing import Any, Hashable, Mapping, Sequence

from .errors import InputError

Label = Hashable

# No state has this code. It stands in codes that are made up.
MADE_UP_STATE = "99"
MOST_COUNTIES = 256
# A GEOID, also as data.census.gov writes it: 0500000US37183, where 050 stands for a county.
GEOID = re.compile(r"(?:050[0-9A-Z]{4}US)?([0-9]{5})")
CODE_IN_TEXT = re.compile(r"\b[0-9]{5}\b")


@dataclass(frozen=True)
class Codes:
    """Has the code of each label and the label of each code.

    `state` is the first two digits of all codes. If `are_geoids`, the labels are GEOIDs themselves.
    """

    state: str
    are_geoids: bool
    code_of: Mapping[Label, str]
    label_of: Mapping[str, Label]

    def legend(self, text: str) -> list[str]:
        """Returns a line for each code of `text`, or none if the labels are GEOIDs."""
        if self.are_geoids:
            return []
        found = sorted(set(CODE_IN_TEXT.findall(text)) & self.label_of.keys())
        return [f"{code} is {self.label_of[code]}" for code in found]


def plain(value: Any) -> Any:
    """Returns the plain value of a scalar of numpy, and any other value as it is."""
    return value.item() if hasattr(value, "item") and hasattr(value, "dtype") else value


def geoid_of(label: Label) -> str | None:
    """Returns the five digits of a label that is a GEOID, as a text or as a number, or `None`.

    A text may have what data.census.gov writes before the digits, as in 0500000US37183.
    """
    found = GEOID.fullmatch(label) if isinstance(label, str) else None
    if found:
        return found[1]
    if isinstance(label, int) and not isinstance(label, bool) and 1001 <= label <= 99999:
        return f"{label:05d}"
    return None


def codes_of(labels: Sequence[Label]) -> Codes:
    """Returns the codes of the labels, which have to differ.

    If all are GEOIDs of one state, these are the codes. Else codes are made up, in the order of the
    labels. Raises `InputError` if there are more than 256 labels, or if one stands twice.
    """
    if len(labels) > MOST_COUNTIES:
        told = f"There are {len(labels)} counties, and the program takes at most {MOST_COUNTIES}"
        remedy = "If these are precincts or blocks, say by county= where the county of each stands"
        raise InputError(f"{told}. {remedy}.")
    twice = next((label for place, label in enumerate(labels) if label in labels[:place]), None)
    if twice is not None:
        raise InputError(f"County {twice!r} stands twice.")
    geoids = [geoid_of(label) for label in labels]
    states = {geoid[:2] if geoid else "" for geoid in geoids}
    are_geoids = len(states) == 1 and "" not in states and len(set(geoids)) == len(geoids)
    made_up = [f"{MADE_UP_STATE}{number:03d}" for number in range(1, len(labels) + 1)]
    codes = [geoid or "" for geoid in geoids] if are_geoids else made_up
    state = states.pop() if are_geoids else MADE_UP_STATE
    return Codes(state, are_geoids, dict(zip(labels, codes)), dict(zip(codes, labels)))
