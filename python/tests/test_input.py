"""Tests of what is given: counties, people, labels, adjacency, withdrawn sets, the tolerance."""
from __future__ import annotations

import os
import tempfile
import unittest
from decimal import Decimal
from fractions import Fraction
from pathlib import Path
from typing import Any
from unittest import mock

from countygroups import InputError, ProgramNotFound, find_program, read_census, read_people
from countygroups.adjacency import adjacency_of
from countygroups.codes import codes_of
from countygroups.colours import colours_of
from countygroups.counties import County, read_counties
from countygroups.files import geo_line
from countygroups.groups import Group
from countygroups.problem import Problem, problem_of, tolerance_of
from countygroups.program import program_without_path
from tests import setting


def path_problem(**words: Any) -> Problem:
    """Returns the problem of the path of four counties, without asking for a program."""
    whole: dict[str, Any] = {"adjacency": setting.PATH_PAIRS, "program": __file__, **words}
    return problem_of(setting.PATH_PEOPLE, 4, **whole)


class Counties(unittest.TestCase):
    """Tests what dicts give; tables and graphs have their own tests."""

    def test_dict_of_people(self) -> None:
        table = read_counties({"Wake": 5, 7: 6})
        self.assertEqual(table.counties, (County("Wake", 5, "Wake"), County(7, 6, "7")))

    def test_dict_of_attributes(self) -> None:
        given = {"a": {"people": 5, "NAME": "Wake", "GEOID": "37183", "votes": 2}}
        self.assertEqual(read_counties(given).counties, (County("37183", 5, "Wake"),))
        named = read_counties(given, people="votes", label="NAME", name="GEOID")
        self.assertEqual(named.counties, (County("Wake", 2, "37183"),))

    def test_people_by_label(self) -> None:
        given: dict[str, dict[str, Any]] = {"a": {}, "b": {}}
        table = read_counties(given, people={"a": 1.0, "b": "2"})
        self.assertEqual([county.people for county in table.counties], [1, 2])

    def test_refused(self) -> None:
        cases: list[tuple[Any, dict[str, Any], str]] = [
            ({}, {}, "no county"),
            ([1, 2], {}, "no table, no graph, no dict and no Series"),
            ({"a": {}}, {}, 'no "people"'),
            ({"a": {}}, {"people": "votes"}, 'no column or attribute "votes"'),
            ({"a": {"people": 1}, "b": {}}, {}, "County 'b' has no \"people\""),
            ({"a": 1.5}, {}, "1.5, which is no whole number"),
            ({"a": -1}, {}, "no whole number"),
            ({"a": True}, {}, "no whole number"),
            ({"a": float("nan")}, {}, "no whole number"),
            ({"a": 1}, {"people": {"b": 1}}, "None, which is no whole number"),
        ]
        for given, words, told in cases:
            with self.subTest(given=given), self.assertRaisesRegex(InputError, told):
                read_counties(given, **words)

    def test_census_files(self) -> None:
        counties = setting.carolina()
        self.assertEqual(len(counties), 100)
        self.assertEqual(sum(county["people"] for county in counties.values()), 10_439_388)
        self.assertEqual(counties["37183"], {"people": 1_129_410, "NAME": "Wake County"})
        with self.assertRaisesRegex(InputError, "has no people"):
            read_census(setting.DATA / "nc2020geo.pl", setting.BORDERS)
        with self.assertRaisesRegex(InputError, "can't be read"):
            read_census("no such file", setting.BORDERS)


class PeopleFiles(unittest.TestCase):
    """Tests the layouts of a people file, and its faults."""

    def read(self, text: bytes) -> dict[str, dict[str, Any]]:
        """Returns what a file with these bytes gives."""
        with tempfile.TemporaryDirectory() as room:
            path = Path(room, "p.csv")
            path.write_bytes(text)
            return read_people(path)

    def test_layouts(self) -> None:
        wanted = {
            "37001": {"people": 171_415, "NAME": "Alamance County"},
            "37183": {"people": 1_129_410, "NAME": 'The "W", 1'},
        }
        text = b'37001,171415,Alamance County\n37183,01129410,"The ""W"", 1"\n'
        pipes = b'37001|171415|Alamance County\n37183|1129410|"The ""W"", 1"'
        for held in (text, b"\xef\xbb\xbfcounty,people,name\r\n" + text, pipes):
            self.assertEqual(self.read(held), wanted)
        self.assertEqual(self.read(b"a|b\n" + pipes), wanted)
        self.assertEqual(self.read(b"\n\r\na|\xff\n\n" + pipes + b"\n\n"), wanted)
        greatest = self.read(b"37001,0004294967295\n45001,0\n")
        people = {"37001": 4_294_967_295, "45001": 0}
        self.assertEqual({code: one["people"] for code, one in greatest.items()}, people)
        bare = {"37001": {"people": 5, "NAME": "37001"}}
        self.assertEqual(self.read(b"37001,5"), bare)
        self.assertEqual(self.read(b"37001,5,\n"), bare)
        self.assertEqual(read_counties(wanted).counties[0].people, 171_415)

    def test_refused(self) -> None:
        form = "Line 2 of .* hasn't a county's code, its people and at most a name"
        for line, told in {
            b"37003": form,
            b"37003,5,a,b": form,
            b'37003,"5': form,
            b'37003,"5"5': form,
            b'37003,5,a"b': form,
            b"3703,5": "Line 2 of .* has '3703', and a county's code has five digits",
            b"37003,1.5": "Line 2 of .* has the people '1.5', which is no whole number up to",
            b"37003,4294967296": "no whole number up to 4,294,967,295",
            b"37003," + b"9" * 5000: "no whole number up to 4,294,967,295",
            b"37003,5,\xff": "Line 2 of .* has a name that isn't UTF-8",
            b"37003,5,\xed\xa0\x80": "Line 2 of .* has a name that isn't UTF-8",
            b"\n37003": form.replace("2", "3"),
            b"37001,5": "Line 2 of .* has county 37001, which stands before",
        }.items():
            with self.subTest(line=line), self.assertRaisesRegex(InputError, told):
                self.read(b"37001,5\n" + line + b"\n")
        with self.assertRaisesRegex(InputError, "Line 1 of .* hasn't a county's code"):
            self.read(b'"county,people\n')
        for text in (b"", b"county,people\n", b"\n\r\n"):
            with self.assertRaisesRegex(InputError, "No line of .* is that of a county"):
                self.read(text)
        with self.assertRaisesRegex(InputError, "can't be read"):
            read_people("no such file")


class Labels(unittest.TestCase):
    """Tests the codes of labels."""

    def test_geoids(self) -> None:
        codes = codes_of(["37001", "37003"])
        self.assertEqual((codes.state, codes.are_geoids), ("37", True))
        self.assertEqual(codes.label_of["37003"], "37003")
        self.assertEqual(codes.legend("fault 37001"), [])

    def test_geoids_as_numbers(self) -> None:
        codes = codes_of([1001, 1003])
        self.assertEqual((codes.state, codes.label_of), ("01", {"01001": 1001, "01003": 1003}))

    def test_made_up(self) -> None:
        mixed: list[list[Any]] = [["Wake", "37001"], ["37001", "45001"], [0, 1], ["37001", 37001]]
        for labels in mixed:
            codes = codes_of(labels)
            self.assertEqual((codes.state, codes.are_geoids), ("99", False))
            self.assertEqual([codes.code_of[label] for label in labels], ["99001", "99002"])
        self.assertEqual(codes_of(["Wake", "Lee"]).legend("refused 99002"), ["99002 is Lee"])

    def test_refused(self) -> None:
        with self.assertRaisesRegex(InputError, "'a' stands twice"):
            codes_of(["a", "b", "a"])
        with self.assertRaisesRegex(InputError, "257 counties, .* at most 256. If these are prec"):
            codes_of(list(range(257)))


class Pairs(unittest.TestCase):
    """Tests which counties are adjacent."""

    table = read_counties(setting.PATH_PEOPLE)

    def test_forms(self) -> None:
        near = {"B": ["A", "C"], "D": {"C"}}
        for given in [setting.PATH_PAIRS, near, (("B", "A"), ["C", "B"], {"D", "C"}, ("A", "A"))]:
            self.assertEqual(adjacency_of(given, self.table).pairs, set(setting.PATH_PAIRS))

    def test_added_and_cut(self) -> None:
        found = adjacency_of(setting.PATH_PAIRS, self.table, [("D", "A")], [("C", "B")])
        self.assertEqual(found.pairs, {("A", "B"), ("C", "D"), ("A", "D")})
        self.assertEqual(str(found), "3 pairs of a list of pairs; 1 added and 1 cut")

    def test_file(self) -> None:
        table = read_counties(setting.carolina())
        found = adjacency_of(setting.BORDERS, table)
        self.assertEqual(str(found), "244 pairs of county_borders.txt")
        self.assertIn(("37023", "37109"), found.pairs)

    def test_refused(self) -> None:
        carolina = read_counties(setting.carolina())
        for given, table, told in [
            ([("A", "X")], self.table, "no county is 'X'"),
            (["AB"], self.table, "'AB' is no pair"),
            (None, self.table, "no shapes and no graph"),
            ("edges", self.table, "the counties have none"),
            (5, self.table, "says nothing"),
            (setting.BORDERS, self.table, "takes GEOIDs"),
            ("no such file", carolina, "can't be read"),
            (setting.OUTLINES, carolina, "is JSON. Of a dual graph give the graph"),
            (setting.DATA / "borders_source.txt", carolina, "second field"),
        ]:
            with self.subTest(told=told), self.assertRaisesRegex(InputError, told):
                adjacency_of(given, table)


class Problems(unittest.TestCase):
    """Tests the words and files of a problem."""

    def test_tolerance(self) -> None:
        for given in [None, 0.05, "1/20", "0.05", "5%", "5.0%", Decimal("0.05"), Fraction(5, 100)]:
            self.assertEqual(tolerance_of(given), Fraction(1, 20))
        equal = {tolerance_of(0.04), tolerance_of("1/25"), tolerance_of("4%")}
        self.assertEqual(equal, {Fraction(1, 25)})
        self.assertEqual(tolerance_of("4.5%"), Fraction(9, 200))
        texts = ["5 %", "-5%", "1/3%", "%", "5%%", "51%", "0.05%", "33.33%"]
        for wrong in [-0.1, *texts, 1 / 3, Fraction(501, 1000), float("nan"), [1]]:
            with self.subTest(given=wrong), self.assertRaisesRegex(InputError, "tolerance"):
                tolerance_of(wrong)  # type: ignore[arg-type]

    def test_refused(self) -> None:
        cases: list[tuple[dict[str, Any], str]] = [
            ({"withdrawn": ["A"]}, "'A' is no withdrawn set"),
            ({"withdrawn": [("X", 1)]}, "no county is 'X'"),
            ({"withdrawn": [("A", 0.5)]}, "no whole number"),
        ]
        for words, told in cases:
            with self.subTest(told=told), self.assertRaisesRegex(InputError, told):
                path_problem(**words)
        with self.assertRaisesRegex(InputError, "seats are 2.5"):
            problem_of({"A": 1}, 2.5, adjacency=[])  # type: ignore[arg-type]

    def test_files(self) -> None:
        changed = {"withdrawn": [("D", 2), (["A", "B"], 1)], "cut": [("B", "A")]}
        problem = path_problem(**changed, tolerance="1/10")
        with tempfile.TemporaryDirectory() as room:
            problem.write(Path(room))
            found = {path.name: path.read_text().splitlines() for path in Path(room).iterdir()}
        self.assertEqual(found["people.csv"][::4], ["county,people,name", "99004,200,D"])
        self.assertIn("--people people.csv --state 99", " ".join(problem.words()))
        self.assertIn("--segment segment1.pl --state 99", " ".join(problem.words("audit")))
        self.assertEqual(found["adjacency.txt"][0], "|99001||99002")
        self.assertEqual(found["links.txt"], ["-|99001|99002"])
        self.assertEqual(found["withdrawn.txt"], ["2|99004", "1|99001|99002"])
        self.assertIn("--part 1 --of 10", " ".join(problem.words()))

    def test_line_of_a_county(self) -> None:
        fields = geo_line(3, "37183", "Wa|ke\n").split("|")
        self.assertEqual(len(fields), 97)
        wanted = ["050", "00", "0000003", "37", "183", "Wa ke "]
        self.assertEqual([fields[place - 1] for place in (3, 5, 8, 13, 15, 88)], wanted)

    def test_colours(self) -> None:
        groups = [Group((label,), 1, 1) for label in "ABCD"]
        near: dict[Any, set[Any]] = {"A": {"B"}, "B": {"A", "C"}, "C": {"B", "D"}, "D": {"C", "A"}}
        colours = colours_of(groups, near)
        self.assertNotEqual(colours[0], colours[1])
        self.assertNotEqual(colours[1], colours[2])
        self.assertEqual(len(set(colours)), 2)

    def test_summary(self) -> None:
        told = repr(path_problem(cut=[("C", "D")], withdrawn=[("D", 2)]))
        self.assertIn("4 seats, 4 counties, 400 people, tolerance 1/20; adjacency: 3 pairs", told)
        self.assertIn("without a neighbour: D; withdrawn: 2 seats, 200 people: D", told)

    def test_command_does_not_start_itself(self) -> None:
        """A package without a program, whose command lies on the path, finds no program."""
        with tempfile.TemporaryDirectory() as room:
            command = Path(room) / "countygroups"
            command.write_text("#!/bin/sh\nexit 7\n", encoding="ascii")
            command.chmod(0o755)
            nowhere = Path(room) / "nowhere"
            with mock.patch.dict("os.environ", {"PATH": room}), mock.patch.multiple(
                "countygroups.program", INSIDE=nowhere, DIST=nowhere
            ):
                os.environ.pop("COUNTYGROUPS", None)
                self.assertIsNone(program_without_path())
                self.assertEqual(find_program().command, (str(command),))

    def test_no_program(self) -> None:
        with self.assertRaisesRegex(ProgramNotFound, "no program /nowhere/countygroups"):
            find_program("/nowhere/countygroups")
        with tempfile.NamedTemporaryFile(suffix=".sh") as file:
            with self.assertRaisesRegex(ProgramNotFound, "can't be started"):
                find_program(file.name).run([], Path(file.name).parent)


if __name__ == "__main__":
    unittest.main()
