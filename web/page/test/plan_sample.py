"""Census files with 20,000 blocks, and a plan of 50 districts that keeps to the Senate's groups of
2023. The people of the counties are the census's, the blocks are made up."""
from __future__ import annotations

import random
from dataclasses import dataclass, field
from pathlib import Path

from page_setting import DATA

BLOCKS = 20_000
SEATS = 50


@dataclass
class Sample:
    """Blocks with their people, and the district of each."""

    people: dict[str, int] = field(default_factory=dict)
    district: dict[str, str] = field(default_factory=dict)

    def of_district(self) -> dict[str, int]:
        """Returns the people of each district."""
        found: dict[str, int] = {}
        for block, label in self.district.items():
            found[label] = found.get(label, 0) + self.people.get(block, 0)
        return found


def county_people() -> dict[str, int]:
    """Returns the people of each county by its code."""
    geo = (DATA / "nc2020geo.pl").read_text(encoding="utf-8").split("\n")
    segment = (DATA / "nc000012020.pl").read_text(encoding="utf-8").split("\n")
    people = {line.split("|")[4]: int(line.split("|")[5]) for line in segment if line}
    counties = [line.split("|") for line in geo if "|050|" in line]
    return {row[12] + row[14]: people[row[7]] for row in counties}


def pieces(groups: list[list[str]]) -> list[tuple[str, int, int]]:
    """Returns the counties cut at districts of equal people: county, district, people."""
    people = county_people()
    found = []
    number = 0
    for seats, *codes in groups:
        left = sum(people[code] for code in codes)
        rest = [left // int(seats) + (at < left % int(seats)) for at in range(int(seats))]
        for code in codes:
            of_county = people[code]
            while of_county:
                take = min(of_county, rest[0])
                found.append((code, number + 1, take))
                of_county -= take
                rest[0] -= take
                if not rest[0]:
                    rest.pop(0)
                    number += 1
    return found


def make_sample() -> Sample:
    """Returns the blocks and the plan."""
    text = (DATA / "senate2023.grouping").read_text(encoding="ascii")
    cut = pieces([line.split("|") for line in text.split()])
    total = sum(take for _, _, take in cut)
    sample = Sample()
    count: dict[str, int] = {}
    for code, district, take in cut:
        number = max(1, round(take * BLOCKS / total))
        for at in range(number):
            count[code] = count.get(code, 0) + 1
            block = f"{code}{count[code]:06}{1000 + at % 9000:04}"
            sample.people[block] = take // number + (at < take % number)
            sample.district[block] = str(district)
    return sample


def write_census(sample: Sample, folder: Path) -> tuple[Path, Path]:
    """Writes geographic header and segment 1 with the blocks behind the counties."""
    geo, segment = folder / "ncgeo2020.pl", folder / "nc000012020.pl"
    lines = (DATA / "nc2020geo.pl").read_text(encoding="utf-8").rstrip("\n").split("\n")
    counts = (DATA / "nc000012020.pl").read_text(encoding="utf-8").rstrip("\n").split("\n")
    record = max(int(line.split("|")[4]) for line in counts) + 1
    for at, (block, people) in enumerate(sample.people.items(), record):
        fields = ["PLST", "NC", "750", "00", "00", "000", "00", str(at), f"7500000US{block}", block]
        lines.append("|".join([*fields, "3", "5", "37", "", block[2:5]] + [""] * 82))
        counts.append(f"PLST|NC|000|01|{at}|{people}|" + "|".join(["0"] * 143))
    geo.write_text("\n".join(lines) + "\n", encoding="utf-8")
    segment.write_text("\n".join(counts) + "\n", encoding="utf-8")
    return geo, segment


def write_plan(sample: Sample, path: Path) -> Path:
    """Writes the plan as another tool exports it: quotes, commas, further columns, a header."""
    rows = ['"OBJECTID","GEOID20","County Name","District","Note"']
    blocks = list(sample.district.items())
    random.Random(1).shuffle(blocks)
    for at, (block, label) in enumerate(blocks):
        quoted = label.replace('"', '""')
        rows.append(f'{at},"{block}","County, {block[2:5]}","{quoted}","said ""yes"""')
    path.write_text("\ufeff" + "\r\n".join(rows) + "\r\n", encoding="utf-8")
    return path
