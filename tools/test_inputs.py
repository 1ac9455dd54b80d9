#!/usr/bin/env python3
"""Tests each kind of file that users hold: it works, or a sentence says what to do.

usage: python3 tools/test_inputs.py [--program FILE]

"program" is what it does with the file itself, and "tools" are people.py, assignments.py,
grouping.py and border_check.py, whichever makes something of it. "Python" and "R" are the packages:
what their functions read, or what they say of the path. R reads JSON by the package jsonlite, and
says so without it. "works" and "told" (refused, with what to do) are
tested by the test of the row here; of "warned" there is an answer, and a warning. "-" is no use of
the file. R's test has the row's words behind `inputs: `, in `r/tests/plain.R`. What is dropped on
the page is tested in `web/page/test/test_files.py`. "open": nothing is said, and no test holds it.
`audit` takes a file without a second line as a header alone, and finds that each block has no
district.

What a user holds                       program  tools   Python  R       test
PL 94-171 of 2020, unpacked             works    told    works   works   test_census_files_of_2020
PL 94-171 of 2020, zip or gzip          told     works   works   told    test_packed_census_files
PL 94-171 of 2010                       told     told    works   works   test_census_files_of_2010
JSON of the Census Bureau's API         told     works   works   works   test_api
CSV of data.census.gov, two headings    told     works   told    told    test_two_headings
Population Estimates                    told     works   told    told    test_estimates
projections by counties' names          told     works   works   works   test_projections
CSV of codes and people                 works    works   works   works   test_codes_and_people
CSV of NHGIS                            told     works   works   works   test_nhgis
shapefile or GeoPackage                 told     told    told    told    test_shapes
county adjacency file of 2023           works    told    works   works   test_adjacency_of_2023
county adjacency file with tabs         told     told    works   works   test_adjacency_with_tabs
county adjacency file with commas       told     told    told    told    test_adjacency_with_commas
dual graph in JSON                      warned   told    told    works   test_dual_graph
plan by blocks                          works    works   works   told    test_plan_by_blocks
plan by precincts                       told     told    works   works   test_plan_by_precincts
grouping by counties                    told     works   told    told    test_grouping_by_counties
groups drawn by blocks                  told     works   told    told    test_groups_by_blocks
JSON of Districtr                       open     told    works   told    test_json_of_districtr
CSV of Districtr                        works    works   works   told    test_csv_of_districtr
block assignment files in a zip         open     told    told    told    test_block_assignment_zip
xz, bzip2 or Excel                      told     told    told    told    test_other_packings

Counties and their people are Alamance and Wake of the census of 2020, as in test_people.py.
"""
from __future__ import annotations

import bz2
import gzip
import json
import lzma
import os
import re
import subprocess
import sys
import unittest
from functools import partial
from pathlib import Path
from typing import Any, Callable

import assignments
import grouping
import people
import test_people
from border_check import read_borders
from county_outlines import read_rings
from refusal import Refused
from table_trial import DATA, WithProgram
from test_people import COUNTS, WANTED, zip_of
from tested_program import TESTED, run_tests

TOP = Path(__file__).resolve().parent.parent
sys.path.insert(0, str(TOP / "python"))
import countygroups  # noqa: E402
from countygroups.adjacency import adjacency_of  # noqa: E402
from countygroups.counties import read_counties  # noqa: E402

MARK = r"(works|told|warned|open|-)"
ROW = re.compile(rf"^(\S.*?) {{2,}}{MARK}\s+{MARK}\s+{MARK}\s+{MARK}\s+(test_\w+)$", re.M)
PAIR = {("37001", "37183")}
BORDERS = "County Name|County GEOID|Neighbor Name|Neighbor GEOID|Length\n"
BORDERS += "Alamance County, NC|37001|Wake County, NC|37183|1\n"
GEO, SEGMENT = (Path(DATA, name).read_bytes() for name in ("nc2020geo.pl", "nc000012020.pl"))
BLOCKS = ("370010201001000", "371830501001000")
PLAN = "BLOCKID|DISTRICT\n{}|1\n{}|2\n".format(*BLOCKS)
# What the program says of a people file, of a header, and of a line of blocks.
LINE_OF_PEOPLE = "a line of --people is a county's five digits, its people and"
LINE_OF_GEO = (
    "give --geo a state's geographic header of the Census Bureau's PL 94-171 files of 2020"
)
LINE_OF_BLOCKS = "a line of --assignments is a block's fifteen digits and its district"
NOT_READ = r"is a path, and no counties: read it by geopandas.read_file, pandas.read_csv"


class Inputs(WithProgram):
    """Gives each kind of file to what may read it."""

    def people(self, held: "str | bytes", *words: str) -> None:
        """Wants people.py to make the people file, and the program to read it."""
        found = self.run_tool(people.main, self.file("table", held), *words)
        self.assertEqual((found.status, found.text), (0, WANTED), found.told)
        path = self.file("people.csv", found.text)
        status, text = self.run_program("size", "--people", path, "--chamber", "2")
        self.assertEqual((status, text.splitlines()[0]), (0, f"people {sum(COUNTS.values())}"))

    def ran(self, *words: str) -> "subprocess.CompletedProcess[str]":
        """Returns what the program did with these words."""
        ran = [TESTED.program, *words]
        return subprocess.run(ran, capture_output=True, text=True, check=False)

    def program_told(self, told: str, *words: str) -> None:
        """Wants the program to refuse what the words name, with these words."""
        done = self.ran(*words)
        self.assertEqual((done.returncode, done.stdout[:8]), (4, "refused "), done.stderr)
        self.assertIn(told, done.stderr)

    def people_told(self, held: "str | bytes") -> None:
        """Wants the program to refuse a file as a people file, and to say what one has."""
        words = ["--people", self.file("held", held), "--chamber", "2"]
        self.program_told(LINE_OF_PEOPLE, "size", *words)

    def geo_told(self, held: "str | bytes", told: str = LINE_OF_GEO) -> None:
        """Wants the program to refuse a file as a geographic header with these words."""
        words = ["--geo", self.file("held", held), "--segment", self.file("segment", SEGMENT)]
        self.program_told(told, "size", *words, "--chamber", "50")

    def solve_words(self, borders: "str | bytes") -> list[str]:
        """Returns the words that solve two seats of both counties by this adjacency file."""
        words = ["--people", self.file("people.csv", WANTED), "--chamber", "2", "--adjacency"]
        return ["solve", *words, self.file("borders", borders)]

    def audit_words(self, plan: "str | bytes") -> list[str]:
        """Returns the words that audit a plan of a state that has one block in each county."""
        geo = segment = ""
        for place, (code, count) in enumerate(COUNTS.items()):
            record = 2 * place
            geo += f"||050||00|||{record}||{code}|||37||{code[2:]}\n"
            geo += f"||750||00|||{record + 1}||{BLOCKS[place]}|||37||{code[2:]}\n"
            segment += f"||||{record}|{count}\n||||{record + 1}|{count}\n"
        words = ["audit", "--geo", self.file("geo2", geo), "--chamber", "2"]
        words += ["--segment", self.file("segment2", segment)]
        words += ["--adjacency", self.file("borders", BORDERS)]
        words += ["--grouping", self.file("groups", "2|37001|37183\n")]
        return [*words, "--assignments", self.file("plan", plan)]

    def audited(self, plan: str) -> None:
        """Wants an audit of a district for each county: neither has about half of the people."""
        done = self.ran(*self.audit_words(plan))
        sizes = [f"DistrictSize {n} people {it}" for n, it in enumerate(COUNTS.values(), 1)]
        self.assertEqual((done.returncode, done.stdout.splitlines()[1:]), (1, sizes), done.stderr)

    def told(self, main: Callable[..., int], held: "str | bytes", told: str, *words: str) -> None:
        """Wants a tool to refuse a file with one sentence, which has these words."""
        found = self.run_tool(main, self.file("table", held), *words)
        self.assertEqual((found.status, found.text, len(found.told)), (1, "", 1), found)
        self.assertIn(told, found.told[0])

    def told_by_package(self, read: Callable[[], Any], told: str) -> None:
        """Wants the package for Python to refuse something with this sentence."""
        with self.assertRaisesRegex(countygroups.InputError, told):
            read()

    def borders_told(self, held: str, told: str) -> None:
        """Wants the tools that read an adjacency file to refuse one with these words."""
        with self.assertRaisesRegex(Refused, told):
            read_borders(self.file("borders", held))

    def problem(self) -> countygroups.Problem:
        """Returns the problem of two seats of both counties."""
        return countygroups.problem_of(COUNTS, 2, adjacency=list(PAIR), program=TESTED.program)

    def audit_by_package(self, plan: "str | bytes", units: tuple[str, ...] = BLOCKS) -> Any:
        """Returns what the package finds of the file of a plan, with a unit in each county."""
        words: dict[str, Any] = {"adjacency": list(PAIR), "program": TESTED.program}
        answer = countygroups.solve(COUNTS, 2, **words)
        rows = {
            unit: {"county": code, "people": count}
            for unit, (code, count) in zip(units, COUNTS.items())
        }
        path = self.file("plan", plan)
        return countygroups.audit(path, answer, precincts=rows, county="county")

    def audited_by_package(self, plan: "str | bytes", units: tuple[str, ...] = BLOCKS) -> None:
        """Wants the package to find what `audited` wants of the program."""
        found = [(one.kind, one.told) for one in self.audit_by_package(plan, units)]
        sizes = [f"{number} people {count}" for number, count in enumerate(COUNTS.values(), 1)]
        self.assertEqual(found, [("DistrictSize", told) for told in sizes])

    def paths_told(self, held: "str | bytes") -> None:
        """Wants the package to say of a file's path by what it is read."""
        path = self.file("table", held)
        self.told_by_package(lambda: read_counties(path), NOT_READ)

    def counties(self, rows: Any, **words: Any) -> None:
        """Wants the package to find the people of both counties in rows by number."""
        found = read_counties(dict(enumerate(rows)), **words).counties
        self.assertEqual([county.people for county in found], list(COUNTS.values()))

    def pairs(self, held: "str | bytes") -> Any:
        """Returns the pairs that the package reads in an adjacency file."""
        return set(adjacency_of(self.file("borders", held), read_counties(COUNTS)).pairs)

    def census(self, geo: bytes, segment: bytes) -> Any:
        """Returns the people that the package reads in census files."""
        found = countygroups.read_census(self.file("geo", geo), self.file("segment", segment))
        return {code: found[code]["people"] for code in COUNTS if code in found}

    def test_census_files_of_2020(self) -> None:
        told = "which the program reads: it takes the geographic header by --geo"
        self.told(people.main, GEO, told)
        self.assertEqual(self.census(GEO, SEGMENT), COUNTS)
        words = ["size", "--geo", self.file("geo", GEO), "--segment", self.file("seg", SEGMENT)]
        self.assertEqual(self.run_program(*words, "--chamber", "50")[0], 0)

    def test_packed_census_files(self) -> None:
        """Both files of the state, and one alone, of which a tool says what to do."""
        packed = zip_of({"ncgeo2020.pl": GEO, "nc000012020.pl": SEGMENT})
        found = self.run_tool(people.main, self.file("table", packed))
        self.assertEqual(found.status, 0, found.told)
        path = self.file("people.csv", found.text)
        status, text = self.run_program("size", "--people", path, "--chamber", "50")
        self.assertEqual((status, text.splitlines()[0]), (0, "people 10439388"))
        self.told(people.main, gzip.compress(GEO), "packed file of PL 94-171, which the program ")
        self.geo_told(packed, "the file is a zip: unpack it with `unzip -p FILE > TEXT`")
        self.geo_told(gzip.compress(GEO))
        self.assertEqual(self.census(packed, packed), COUNTS)
        self.assertEqual(self.census(gzip.compress(GEO), gzip.compress(SEGMENT)), COUNTS)

    def test_census_files_of_2010(self) -> None:
        """The header has fixed columns, by the Bureau's technical documentation of 2010."""
        line = list("PLST  NC".ljust(500))
        for place, text in ((9, "050"), (12, "00"), (19, "0000007"), (28, "37183"), (227, "Wake")):
            line[place - 1 : place - 1 + len(text)] = text
        geo, segment = "".join(line) + "\n", "PLST,NC,000,01,0000007,900993,900993\n"
        for held in (geo, segment):
            self.told(people.main, held, "of 2010, which are read together: give the zip")
        self.assertEqual(self.census(geo.encode(), segment.encode()), {"37183": 900_993})
        self.geo_told(geo)

    def test_api(self) -> None:
        self.people(test_people.API)
        self.people_told(test_people.API)
        path = self.file("table", test_people.API)
        told = r"give pandas.DataFrame\(rows\[1:\], columns=rows\[0\]\)"
        self.told_by_package(lambda: read_counties(path), told)
        names, *rows = json.loads(test_people.API)
        self.counties([dict(zip(names, row)) for row in rows], people="P1_001N")

    def test_two_headings(self) -> None:
        self.people(test_people.DECENNIAL)
        self.people_told(test_people.DECENNIAL)
        heading = {"GEO_ID": "Geography", "P1_001N": " !!Total:"}
        rows = {0: heading, 1: {"GEO_ID": "0500000US37001", "P1_001N": "171415"}}
        told = "if this is a second heading, leave that row out"
        self.told_by_package(lambda: read_counties(rows, people="P1_001N"), told)

    def test_estimates(self) -> None:
        self.people(test_people.ESTIMATES.encode("latin-1"))
        self.people_told(test_people.ESTIMATES.encode("latin-1"))
        names = ("STATE", "COUNTY", "POPESTIMATE2024")
        state = dict(zip(names, (37, 0, 11_046_024)))
        rows = [dict(zip(names, (37, int(code[2:]), count))) for code, count in COUNTS.items()]
        self.counties(rows, people="POPESTIMATE2024")
        whole = dict(enumerate([state, *rows]))
        told = "is that of a state, not of a county: leave it out"
        self.told_by_package(lambda: read_counties(whole, people="POPESTIMATE2024"), told)

    def test_projections(self) -> None:
        self.people(test_people.PROJECTIONS, "--year", "2020")
        self.people_told(test_people.PROJECTIONS)
        rows = [{"County": "Alamance", "2020": "171,415"}, {"County": "Wake", "2020": "1,129,410"}]
        self.counties(rows, people="2020", label="County")

    def test_codes_and_people(self) -> None:
        self.people(test_people.TABLE)
        path = self.file("people.csv", WANTED)
        found = countygroups.read_people(path)
        self.assertEqual({code: one["people"] for code, one in found.items()}, COUNTS)
        other = self.file("table.csv", test_people.SURVEY)
        told = "tools/people.py makes a people file of other tables"
        self.told_by_package(lambda: countygroups.read_people(other), told)

    def test_nhgis(self) -> None:
        self.people(test_people.NHGIS_2020)
        self.people_told(test_people.NHGIS_2020)
        codes = [f"0500000US{code}" for code in COUNTS]
        rows = [{"GEOID": code, "U7B001": n} for code, n in zip(codes, COUNTS.values())]
        self.counties(rows, people="U7B001")

    def test_shapes(self) -> None:
        shapes, database = b"\0\0\x27\x0a" + bytes(96), b"SQLite format 3\0" + bytes(96)
        self.told(people.main, shapes, "take the file beside it, with .dbf")
        self.told(people.main, database, "a GeoPackage: export its table as CSV")
        told = "aren't GeoJSON with a list of features: export the counties as GeoJSON"
        for held in (shapes, database):
            with self.assertRaisesRegex(Refused, told):
                read_rings(self.file("outlines", held))
            told_of_borders = "Of shapes give the table that geopandas.read_file reads"
            self.told_by_package(partial(self.pairs, held), told_of_borders)
            self.paths_told(held)
            self.geo_told(held)

    def test_adjacency_of_2023(self) -> None:
        self.told(people.main, BORDERS, "choose the column by --people")
        self.assertEqual(self.pairs(BORDERS), PAIR)
        done = self.ran(*self.solve_words(BORDERS))
        self.assertEqual((done.returncode, "answer best" in done.stdout), (0, True), done.stderr)

    def test_adjacency_with_tabs(self) -> None:
        line = '"Alamance County, NC"\t37001\t'
        text = f'{line}"Alamance County, NC"\t37001\n\t\t"Wake County, NC"\t37183\n'
        self.told(people.main, text, "people by county are expected")
        self.borders_told(text, "take the adjacency file of 2023 or later, with pipes")
        self.assertEqual(self.pairs(text), PAIR)
        told = "give --adjacency the Census Bureau's county adjacency file with pipes"
        self.program_told(told, *self.solve_words(text))

    def test_adjacency_with_commas(self) -> None:
        text = BORDERS.replace("|", ",")
        told = "another number of fields (7) than the first (5): quote a field that has a delimiter"
        self.told(people.main, text, told)
        told = "has fewer than four fields: take the adjacency file of 2023 or later, with pipes"
        self.borders_told(text, told)
        told = "give --adjacency the Census Bureau's county adjacency file with pipes"
        self.program_told(told, *self.solve_words(text))
        told = "has a county's GEOID as the second field, at pipes or tabs: put these there"
        self.told_by_package(lambda: self.pairs(text), told)

    def test_dual_graph(self) -> None:
        nodes = [
            {"GEOID20": code, "TOTPOP": n, "id": i} for i, (code, n) in enumerate(COUNTS.items())
        ]
        text = json.dumps({"nodes": nodes, "adjacency": [[{"id": 1}], [{"id": 0}]]})
        told = "export the table as CSV, as that of a graph's nodes"
        self.told(people.main, text, told)
        told = "Of a dual graph give the graph, by Graph.from_json of GerryChain"
        self.told_by_package(lambda: self.pairs(text), told)
        done = self.ran(*self.solve_words(text))
        self.assertEqual((done.returncode, "impossible" in done.stdout), (1, True), done.stderr)
        self.assertIn("seems to be JSON: no border was read from it", done.stderr)

    def test_plan_by_blocks(self) -> None:
        text = "GEOID20,District\n{},1\n{},2\n".format(*BLOCKS)
        found = self.run_tool(assignments.main, self.file("plan", text))
        self.assertEqual((found.status, found.text), (0, PLAN), found.told)
        self.told(people.main, text, "the counties have a column of codes of five digits")
        self.audited(text)
        self.audited_by_package(text)

    def test_plan_by_precincts(self) -> None:
        """Of the package the units of a plan are what its table of people has."""
        units = ("3700101", "3718301")
        text = "GEOID20,District\n{},1\n{},2\n".format(*units)
        self.audited_by_package(text, units)
        told = "if the lines are precincts, export the plan by blocks"
        self.told(assignments.main, text, told)
        self.program_told(LINE_OF_BLOCKS, *self.audit_words(text))

    def census_words(self) -> list[str]:
        """Returns the words by which grouping.py takes the census files, for a chamber of 50."""
        words = ["--geo", self.file("geo", GEO), "--segment", self.file("segment", SEGMENT)]
        return [*words, "--chamber", "50"]

    def test_grouping_by_counties(self) -> None:
        """Of its own name the column of groups isn't known, and its numbers are no people."""
        with open(os.path.join(DATA, "senate2023.grouping"), encoding="ascii") as file:
            rows = [line.strip().split("|")[1:] for line in file]
        lines = [f"{code},{number}" for number, row in enumerate(rows, 1) for code in row]
        text = "\n".join(["GEOID20,District", *lines, ""])
        self.told(grouping.main, text, "choose the groups by --group", *self.census_words())
        path = self.file("grouping", text)
        found = self.run_tool(grouping.main, path, "--group", "District", *self.census_words())
        self.assertEqual((found.status, len(found.text.splitlines())), (0, len(rows)), found.told)
        self.told(people.main, text, "choose the column by --people")
        told = "if the lines are counties, tools/grouping.py takes them"
        self.told(assignments.main, text, told)
        self.grouping_told(text)
        told = "is no grouping: give a list of the groups, each its counties and their seats"
        self.told_by_package(lambda: countygroups.judge(path, self.problem()), told)

    def grouping_told(self, text: str) -> None:
        """Wants the program to refuse a table as a grouping, and to say what a line has."""
        words = [*self.census_words(), "--adjacency", self.file("borders", BORDERS)]
        told = "a line of --grouping is seats and the codes of the group's counties"
        self.program_told(told, "judge", *words, "--grouping", self.file("grouping", text))

    def test_groups_by_blocks(self) -> None:
        """Those of a county may stand on several lines, in one group."""
        text = "GEOID20,District\n{0},1\n{0},1\n{1},2\n".format(*BLOCKS)
        self.told(grouping.main, text, "choose the groups by --group")
        path = self.file("grouping", text)
        words = ["--group", "District", "--people", self.file("people.csv", WANTED)]
        found = self.run_tool(grouping.main, path, *words, "--chamber", "2")
        self.assertEqual((found.status, found.text), (0, "1|37001\n2|37183\n"), found.told)
        self.told(grouping.main, text + f"{BLOCKS[1]},1\n", "a group has whole counties", *words)
        precincts = "GEOID20,District\n37001000012,1\n"
        self.told(grouping.main, precincts, "export the groups by counties or by blocks", *words)
        self.grouping_told(text)
        given = self.problem()
        told = "no county is '370010201001000'. A group has counties, such as '37001'"
        self.told_by_package(lambda: countygroups.judge([([BLOCKS[0]], 1)], given), told)

    def test_json_of_districtr(self) -> None:
        text = json.dumps({"plan": {"assignment": {BLOCKS[0]: 0}}, "placeId": "northcarolina"})
        self.told(assignments.main, text, "is JSON, and no table: export it as CSV")
        told = "is a path of JSON, and no counties. .* What Districtr stores is a plan, for audit"
        self.told_by_package(lambda: read_counties(self.file("table", text)), told)
        both = {"assignment": {BLOCKS[0]: 1, BLOCKS[1]: 2}, "placeId": "northcarolina"}
        for held in (both, {"plan": both}):
            self.audited_by_package(json.dumps(held))

    def test_csv_of_districtr(self) -> None:
        text = "id-northcarolina-blocks,assignment\n{},1\n{},2\n".format(*BLOCKS)
        self.told(assignments.main, text, "choose the blocks by --block")
        found = self.run_tool(assignments.main, self.file("plan", text), "--block", "1")
        self.assertEqual((found.status, found.text), (0, PLAN), found.told)
        self.audited(text)
        self.audited_by_package(text)

    def test_block_assignment_zip(self) -> None:
        texts = {f"BlockAssign_ST37_NC_{name}.txt": PLAN for name in ("SLDL", "SLDU")}
        self.told(assignments.main, zip_of({**texts}), "choose one by --member NAME: ")
        name = "BlockAssign_ST37_NC_SLDU.txt"
        found = self.run_tool(assignments.main, self.file("a", zip_of({**texts})), "--member", name)
        self.assertEqual((found.status, found.text), (0, PLAN), found.told)
        told = "has 2 files: unpack it, and give that of the chamber's districts. They are Block"
        self.told_by_package(lambda: self.audit_by_package(zip_of({**texts})), told)
        self.audited_by_package(zip_of({name: PLAN}))

    def test_other_packings(self) -> None:
        text = test_people.TABLE.encode()
        for held, told in (
            (lzma.compress(text), "is packed by xz: unpack it first"),
            (bz2.compress(text), "is packed by bzip2: unpack it first"),
            (bz2.compress(text, 1), "is packed by bzip2: unpack it first"),
            (zip_of({"xl/workbook.xml": "<x/>"}), "is a workbook: save its sheet as CSV"),
            (b"\xd0\xcf\x11\xe0", "is an Excel workbook: save its sheet as CSV"),
        ):
            self.told(people.main, held, told)
            self.told(assignments.main, held, told)
            self.paths_told(held)
            is_zip = held.startswith(b"PK")
            self.geo_told(held, "the file is a zip: unpack it" if is_zip else LINE_OF_GEO)


class Rows(unittest.TestCase):
    """Reads the table above."""

    def test_each_row_has_its_tests(self) -> None:
        rows = ROW.findall(__doc__ or "")
        methods = [name for name in dir(Inputs) if name.startswith("test_")]
        self.assertEqual(sorted(row[5] for row in rows), sorted(methods))
        text = (TOP / "r" / "tests" / "plain.R").read_text(encoding="utf-8")
        named = re.findall(r'^test\("inputs: ([^"]*)"', text, re.M)
        self.assertEqual(named, [row[0] for row in rows if row[4] != "-"])


if __name__ == "__main__":
    run_tests(__doc__)
