"""What the program of this machine stores for an option or a plan, and what a map may not show."""

from __future__ import annotations

import csv
from pathlib import Path
from typing import Any

from page_setting import CENSUS, CHAMBERS, DATA, PROBLEM, run
from plan_sample import Sample

COUNTS = {"senate": 16, "house": 8}
OPTIONS = [(key, option) for key, count in COUNTS.items() for option in range(1, count + 1)]
# The group and the class of each county on the map, by its place in the order of the codes.
GROUP_OF = """Object.fromEntries([...document.querySelectorAll("#map [data-county]")].map((one) => (
  [one.dataset.county, [one.dataset.group, one.getAttribute("class")]])))"""


def certificate_words(room: Path, key: str) -> list[str]:
    """Returns the words of a chamber's problem with its certificate, which is made once."""
    path = room / f"{key}.certificate"
    words = [*PROBLEM, "--chamber", str(CHAMBERS[key]), "--certificate", str(path)]
    if not path.exists():
        run("solve", *words)
    return words


def option_texts(room: Path, key: str, option: int) -> tuple[bytes, bytes]:
    """Returns grouping and table of an option as this machine's program stores them."""
    out, table = room / "grouping", room / "table"
    words = certificate_words(room, key)
    run("list", *words, "--number", str(option), "--out", str(out))
    run("judge", *words[:-2], "--grouping", str(out), "--table", str(table))
    return out.read_bytes(), table.read_bytes()


def audited_plan(room: Path, plan: Sample) -> tuple[list[str], list[dict[str, str]]]:
    """Returns the findings of a plan against the Senate's groups of 2023, and its districts.

    The Census files with the blocks are those that `write_census` left in the room.
    """
    assignments, table = room / "assignments", room / "districts"
    lines = [f"{block}|{label}\n" for block, label in plan.district.items()]
    assignments.write_text("".join(lines), encoding="ascii")
    words = ["--geo", str(room / "ncgeo2020.pl"), "--segment", str(room / "nc000012020.pl")]
    words += ["--adjacency", str(DATA / CENSUS["adjacency"]), "--chamber", str(CHAMBERS["senate"])]
    words += ["--grouping", str(DATA / "senate2023.grouping"), "--assignments", str(assignments)]
    findings = run("audit", *words, "--districts", str(table)).splitlines()[1:]
    with open(table, encoding="ascii", newline="") as file:
        return findings, list(csv.DictReader(file))


def touching_pairs() -> set[tuple[str, str]]:
    """Returns the pairs of counties that touch, over a border or at a point."""
    borders = (DATA / "county_borders.txt").read_text(encoding="utf-8").split("\n")[1:]
    points = (DATA / "point_contacts.links").read_text(encoding="ascii").split()
    rows = [line.split("|") for line in borders if line]
    pairs = {(row[1], row[3]) for row in rows}
    for line in points:
        _, one, other = line.split("|")
        pairs.add((one, other))
    return {pair for pair in pairs if pair[0] != pair[1]}


def pairs_of_one_tint(shown: dict[str, Any]) -> list[tuple[str, str]]:
    """Returns the touching counties of two groups that have one tint. GROUP_OF gives `shown`."""
    pairs = touching_pairs()
    codes = sorted({code for pair in pairs for code in pair})
    found = []
    for pair in pairs:
        (one, tint), (other, other_tint) = (shown[str(codes.index(code))] for code in pair)
        if one != other and tint.split()[1] == other_tint.split()[1]:
            found.append(pair)
    return found
