"""What scripts have in common that read a folder of Census files: the fields and the counties."""
from __future__ import annotations


def fields(path: str) -> list[list[str]]:
    """Returns the fields of each line of a file."""
    with open(path, encoding="latin1") as file:
        return [line.rstrip("\r\n").split("|") for line in file]


def counties(folder: str) -> dict[str, int]:
    """Returns the people of each county of North Carolina, by its code."""
    people = {row[4]: int(row[5]) for row in fields(f"{folder}/nc000012020.pl")}
    return {
        row[12] + row[14]: people[row[7]]
        for row in fields(f"{folder}/nc2020geo.pl")
        if row[2] == "050" and row[4] == "00" and row[12] == "37"
    }
