"""Finds the columns of a table that a tool needs, by their names or as the user chose them."""
from __future__ import annotations

from typing import Callable, Dict, List, Optional, Sequence, Tuple

from refusal import Refused
from table_input import Table, is_digits, plain, shown

# The digits of the states whose code begins with a zero.
LOW_STATES = frozenset("1245689")


def joined_name(name: str) -> str:
    """Returns the name of a column in lower case, with its letters and digits alone."""
    return "".join(sign for sign in name.casefold() if sign.isalnum())


class Wanted:
    """A column that a tool needs: what it has, its option, and the names that it goes by.

    If `is_ranked`, the first name that stands counts. Else a second one makes the choice unclear.
    """

    def __init__(self, what: str, option: str, names: Sequence[str], is_ranked: bool) -> None:
        self.what, self.option, self.names, self.is_ranked = what, option, names, is_ranked

    def by_header(self, table: Table, columns: List[str]) -> Optional[int]:
        """Returns the place of the column by the header, or None.

        Raises `Refused` if several columns go by one of the names, and none is to be preferred.
        """
        joined = [joined_name(name) for name in columns]
        ranked = [[i for i, name in enumerate(joined) if name == known] for known in self.names]
        found = [places for places in ranked if places]
        if self.is_ranked:
            found = found[:1]
        places = [place for several in found for place in several]
        if len(places) > 1:
            several = ", ".join(shown(columns[place]) for place in places)
            told = f"has several columns that may have {self.what}: {several}"
            raise Refused(f"{table.name} {told}; choose one by {self.option}.")
        return places[0] if places else None

    def by_choice(self, table: Table, chosen: str) -> int:
        """Returns the place of the column that the user chose by its name or number.

        Raises `Refused` if there is no such column.
        """
        columns = table.columns or []
        if columns.count(chosen) == 1:
            return columns.index(chosen)
        joined = [joined_name(name) for name in columns]
        if joined.count(joined_name(chosen)) == 1:
            return joined.index(joined_name(chosen))
        if is_digits(chosen, 1, 2, 3) and 1 <= int(chosen) <= len(table.first):
            return int(chosen) - 1
        raise Refused(f"{table.name} has no column {shown(chosen)}: {told_columns(table)}.")

    def missing(self, table: Table) -> Refused:
        """Returns the refusal of a table in which the column isn't found."""
        told = f"has no column that goes by a name for {self.what}"
        if table.columns is None:
            told = "has no header"
        help_told = f"choose {self.what} by {self.option}"
        return Refused(f"{table.name} {told}: {told_columns(table)}; {help_told}.")


def told_columns(table: Table) -> str:
    """Returns the columns of a table in words."""
    if table.columns is None:
        return f"its columns have the numbers 1 to {len(table.first)}"
    return f"its columns are {', '.join(map(shown, table.columns))}"


def key_and_value(
    table: Table,
    key: Wanted,
    value: Wanted,
    chosen: Tuple[Optional[str], Optional[str]],
    is_key: Callable[[str], bool],
) -> Tuple[int, int]:
    """Returns the places of the two columns that a tool needs.

    `chosen` has what the user chose for each. Without a header the key is the first field for which
    `is_key` holds, and the value is the other one of two columns.
    Raises `Refused` if a column isn't found, or if both are the same.
    """
    places = [
        wanted.by_choice(table, word) if word is not None else None
        for wanted, word in zip((key, value), chosen)
    ]
    if table.columns is None:
        places = headless_places(table, places, is_key)
    else:
        columns = table.columns
        places = [
            wanted.by_header(table, columns) if place is None else place
            for wanted, place in zip((key, value), places)
        ]
    first, second = places
    if first is None:
        raise key.missing(table)
    if second is None:
        raise value.missing(table)
    if first == second:
        told = f"can't have {key.what} and {value.what} in one column"
        raise Refused(f"{table.name} {told}: choose them by {key.option} and {value.option}.")
    return first, second


def headless_places(
    table: Table, places: List[Optional[int]], is_key: Callable[[str], bool]
) -> List[Optional[int]]:
    """Returns the places of key and value in a table without a header, where they are plain."""
    key, value = places
    if key is None:
        keys = [i for i, field in enumerate(table.first) if is_key(plain(field)) and i != value]
        key = keys[0] if keys else None
    if value is None and key is not None and len(table.first) == 2:
        value = 1 - key
    return [key, value]


class CodeColumn:
    """What the codes of a column have in common: one state, and whether a leading zero was lost.

    `length` is the number of digits of a code, and `noun` what it is the code of.
    """

    def __init__(self, table: Table, length: int, noun: str) -> None:
        self.table, self.length, self.noun = table, length, noun
        self.whole = self.short = self.first_short = 0
        self.states: Dict[str, int] = {}

    def take(self, number: int, code: str) -> None:
        """Counts the code of a row. It has `length` digits, or one fewer."""
        if len(code) == self.length:
            self.whole += 1
            self.states.setdefault(code[:2], number)
            return
        self.first_short = self.first_short or number
        self.short += 1
        self.states.setdefault(code[:1], number)

    def lost_zeros(self) -> int:
        """Returns how many codes lost their leading zero: none or all.

        Raises `Refused` if some codes have a digit fewer and others don't, if a zero makes no
        state's code of them, or if there are codes of several states.
        """
        if self.short:
            self.check_short()
        if len(self.states) > 1:
            (one, first), (other, second) = list(self.states.items())[:2]
            told = f"{self.table.place(second)} has a {self.noun} of state {other.zfill(2)}"
            raise Refused(f"{told}, and {self.table.unit} {first} one of state {one.zfill(2)}.")
        return self.short

    def check_short(self) -> None:
        """Raises `Refused` unless all codes are short, and each would be one of a state."""
        told = f"{self.table.place(self.first_short)} has a code of {self.length - 1} digits"
        if self.whole:
            told += f", as {self.short:,} of {self.short + self.whole:,} {self.table.unit}s have"
            raise Refused(f"{told}, and a {self.noun} has {self.length}: digits were lost.")
        for state, number in self.states.items():
            if state not in LOW_STATES:
                told = f"{self.table.place(number)} has a code of {self.length - 1} digits"
                told += f", and a {self.noun} has {self.length}"
                raise Refused(f"{told}: no leading zero was lost, for no state is 0{state}.")
