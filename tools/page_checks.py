"""Checks that table, list and record of a page speak of one problem. Each difference is refused
with one sentence."""
from __future__ import annotations

import hashlib
import itertools
import math
import re
from fractions import Fraction

from county_table import Group
from number_words import counted
from page_inputs import ListedGroup, Listing, Record
from refusal import Refused

COMMANDS = ("solve", "check", "list", "judge")
PROBLEM_OPTIONS = [
    "--geo",
    "--segment",
    "--state",
    "--chamber",
    "--part",
    "--of",
    "--adjacency",
    "--links",
    "--withdrawn",
]
WITHOUT_WORD = {"--state": "37", "--part": "1", "--of": "20"}


def in_order(groups: list[ListedGroup]) -> list[ListedGroup]:
    """Returns groups as a grouping text has them: by size, and then by their codes."""
    return sorted(groups, key=lambda group: (len(group.codes), group.codes))


def all_groups(listing: Listing) -> list[ListedGroup]:
    """Returns each group of the list once, in order."""
    every = itertools.chain(listing.shared, *itertools.chain(*listing.regions))
    return in_order(list({group.codes: group for group in every}.values()))


def check_choice(table: str, listing: Listing, groups: list[Group]) -> None:
    """Refuses a table whose grouping the list doesn't have."""
    sets = {
        tuple(county.geoid for county in group.counties)
        for group in groups
        if not group.is_withdrawn
    }
    choice = []
    for number, region in enumerate(listing.regions, 1):
        found = [
            one
            for one, alternative in enumerate(region)
            if all(group.codes in sets for group in alternative)
        ]
        if len(found) != 1:
            raise Refused(f"The table {table} has no alternative of region {number} of the list.")
        choice.append(found[0])
    chosen = [group for region, one in zip(listing.regions, choice) for group in region[one]]
    grouping = in_order([*listing.shared, *chosen])
    if {group.codes for group in grouping} != sets:
        raise Refused(f"The groups of the table {table} aren't those of a grouping of the list.")
    _check_seats(table, grouping, groups)
    if listing.combinations is not None and tuple(choice) not in listing.combinations:
        lacks = f"no grouping with the alternatives of the table {table}"
        raise Refused(f"The list has {lacks}.")


def _check_seats(table: str, listed: list[ListedGroup], groups: list[Group]) -> None:
    """Refuses a table that gives a group seats which its people don't suit by the list."""
    seats_of_set = {
        tuple(county.geoid for county in group.counties): group.seats for group in groups
    }
    for group in listed:
        seats = seats_of_set[group.codes]
        if not group.least <= seats <= group.most:
            told = (
                counted(group.least, "seat")
                if group.least == group.most
                else f"{group.least} to {group.most} seats"
            )
            gives = f"counties {' '.join(group.codes)} {counted(seats, 'seat')}"
            raise Refused(f"The table {table} gives {gives}, and the list gives them {told}.")


def check_numbers(table: str, path: str, listing: Listing, groups: list[Group]) -> None:
    """Refuses table and list if people, chamber, seats left or the people of a group differ."""
    free = [group for group in groups if not group.is_withdrawn]
    facts = {
        "people": (sum(group.people for group in groups), listing.people),
        "a chamber of": (sum(group.seats for group in groups), listing.chamber),
        "seats left": (sum(group.seats for group in free), listing.seats_left),
        "counties": (sum(len(group.counties) for group in free), listing.counties),
    }
    for name, (of_table, of_list) in facts.items():
        if of_table != of_list:
            said = f"has {name} {of_table}, and the list {path} has {name} {of_list}"
            raise Refused(f"The table {table} {said}.")
    people_of = {county.geoid: county.people for group in free for county in group.counties}
    for group in all_groups(listing):
        if sum(people_of.get(code, -math.inf) for code in group.codes) != group.people:
            codes = f"counties {' '.join(group.codes)} in the list {path}"
            raise Refused(f"The people of {codes} aren't those of the table {table}.")


def options_of(record: Record, names: list[str]) -> dict[str, str]:
    """Returns the options of the record that have these names, with their values."""
    words = iter(record.words)
    found: dict[str, str] = {}
    for word in words:
        option, equals, value = word.partition("=")
        if option.startswith("--"):
            value = value if equals else next(words, "")
            found.update({option: value} if option in names else {})
    return found


def check_record(
    path: str, record: Record, table: str, groups: list[Group], listing: Listing
) -> None:
    """Refuses a record that isn't of a run over the problem of table and list."""
    of_run = f"The record {path} isn't of a run"
    if not record.words or record.words[0] not in COMMANDS:
        raise Refused(f"{of_run} of solve, check, list or judge.")
    options = {**WITHOUT_WORD, **options_of(record, PROBLEM_OPTIONS)}
    if not same_number(options.get("--chamber"), listing.chamber):
        raise Refused(f"{of_run} for the chamber of {listing.chamber} seats.")
    if not same_number(options["--state"], int(groups[0].counties[0].geoid[:2])):
        raise Refused(f"{of_run} for the state of the table {table}.")
    if tolerance(options["--part"], options["--of"]) != Fraction(*listing.window):
        window = "/".join(map(str, listing.window))
        raise Refused(f"{of_run} for the tolerance of the list, {window}.")
    has_sets = any(group.is_withdrawn for group in groups)
    if has_sets and all(line.option != "withdrawn" for line in record.read):
        none = f"the run of the record {path} read none"
        raise Refused(f"The table {table} has a withdrawn set, and {none}.")
    check_sum(path, record, table)


def same_number(word: str | None, number: int) -> bool:
    """Returns whether a word of a run is this number."""
    return word is not None and re.fullmatch("[0-9]+", word) is not None and int(word) == number


def tolerance(part: str, whole: str) -> Fraction | None:
    """Returns the tolerance of a run, or None if its words are no numbers."""
    is_one = all(re.fullmatch("[0-9]+", word) for word in (part, whole)) and int(whole) > 0
    return Fraction(int(part), int(whole)) if is_one else None


def check_sum(path: str, record: Record, table: str) -> None:
    """Refuses a table that isn't the one that the run of the record stored, if it stored one."""
    sums = {line.total for line in record.stored if line.option == "table"}
    with open(table, "rb") as file:
        own = hashlib.sha256(file.read()).hexdigest()
    if sums and own not in sums:
        stored = f"the one that the run of the record {path} stored"
        raise Refused(f"The table {table} isn't {stored}.")
