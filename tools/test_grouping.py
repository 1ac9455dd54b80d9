"""Tests of `grouping.py`.

usage: python3 tools/test_grouping.py [--program FILE]

With a program, what the tool makes is judged by it. Else these tests are passed over.
"""
from __future__ import annotations

import contextlib
import csv
import io
import os
from fractions import Fraction
from typing import Dict, List, Set, Tuple, Union

import example_plan
import grouping
from seat_numbers import Chamber, choose_seats
from table_trial import DATA, DbfColumn, Ran, Room, WithProgram, dbf
from tested_program import run_tests

GEO = os.path.join(DATA, "nc2020geo.pl")
SEGMENT = os.path.join(DATA, "nc000012020.pl")
BORDERS = os.path.join(DATA, "county_borders.txt")
CHAMBERS = {"senate2023.grouping": "50", "house2023.grouping": "120"}

Sets = Set[Tuple[int, Tuple[str, ...]]]

# Four counties side by side in a chamber of four, whose ideal population is 100. Their people are
# those of the worked example of `docs/reference/commands.md`, "Cases", but for the last county.
PATH_GEO = """||050||00|||1||37001|||37||001{names[0]}
||050||00|||2||37003|||37||003{names[1]}
||050||00|||3||37005|||37||005{names[2]}
||050||00|||4||37007|||37||007{names[3]}
"""
PATH_SEGMENT = "||||1|94\n||||2|95\n||||3|105\n||||4|106\n"
# A people file of the same counties, with other people.
PATH_COUNTIES = (
    "37001,50,Alder County\n37003,50,Birch\n37005,100,Cedar County\n37007,200,Dogwood County\n"
)


def sets_of(text: str) -> Sets:
    """Returns the seats and the counties of each line of a grouping text."""
    rows = [line.split("|") for line in text.splitlines()]
    return {(int(row[0]), tuple(sorted(row[1:]))) for row in rows}


def read(name: str) -> str:
    """Returns the text of a file in data/nc2020."""
    with open(os.path.join(DATA, name), encoding="utf-8") as file:
        return file.read()


def county_names() -> Dict[str, str]:
    """Returns the name of each county of North Carolina by its code, as `Wake County`."""
    rows = [line.split("|") for line in read("nc2020geo.pl").splitlines()]
    return {row[12] + row[14]: row[87] for row in rows if row[2] == "050"}


def path_geo(*names: str) -> str:
    """Returns the geographic header of the four counties, with a name for each or none."""
    empty = "|" * 72
    fields = [f"{empty}{name.rsplit(' ', 1)[0]}|{name}" for name in names] or [""] * 4
    return PATH_GEO.format(names=fields)


class Made(Room):
    """Runs of the tool."""

    def made(self, held: Union[str, bytes], *words: str) -> Ran:
        """Returns the run over a table that holds a text or bytes."""
        return self.run_tool(grouping.main, self.file("table", held), *words)

    def rows(self, name: str) -> List[List[str]]:
        """Returns a row for each county: its code, its name, the label of its group, its seats."""
        names = county_names()
        groups = [line.split("|") for line in read(name).splitlines()]
        return sorted(
            [code, names[code], str(number), group[0]]
            for number, group in enumerate(groups, 1)
            for code in group[1:]
        )

    def table(self, header: str, rows: List[List[str]]) -> str:
        """Returns rows as a table with quotes."""
        return example_plan.csv_text([header.split(","), *rows])

    def refused(self, held: Union[str, bytes], sentence: str, *words: str) -> None:
        """Wants one sentence, and nothing else."""
        self.assertEqual(self.made(held, *words), Ran(1, "", [sentence]), held)


class Enacted(Made):
    """The enacted groupings of data/nc2020 come back from tables."""

    def same(self, name: str, held: Union[str, bytes], *words: str) -> None:
        """Wants the groups of `name` in their order."""
        found = self.made(held, *words)
        self.assertEqual((found.status, found.text), (0, read(name)))
        self.assertEqual(len(found.told), 1)

    def test_seats_of_the_table(self) -> None:
        for name in CHAMBERS:
            rows = self.rows(name)
            text = self.table("GEOID,NAME,GROUP,SEATS", rows)
            self.same(name, text)
            self.same(name, text.encode("utf-16"))
            bare = [[code, label, f"{seats}.0"] for code, _, label, seats in rows]
            self.same(name, self.table("County FIPS,cluster,Number of seats", bare))
            self.same(name, self.table("a,b,c", bare), *"--county a --group b --seats 3".split())

    def test_seats_by_people(self) -> None:
        for name, chamber in CHAMBERS.items():
            problem = ["--geo", GEO, "--segment", SEGMENT, "--chamber", chamber]
            rows = self.rows(name)
            codes = [[code, label] for code, _, label, _ in rows]
            self.same(name, self.table("GEOID,Group", codes), *problem)
            self.same(name, "".join(f"{code};{label}\n" for code, label in codes), *problem)
            short = [[code[2:].lstrip("0"), label] for code, label in codes]
            self.same(name, self.table("COUNTYFP,Group", short), *problem)
            for form in ("{}", "{}, NC", "{}, North Carolina"):
                for end in ("", " County"):
                    named = [
                        [form.format(county.replace(" County", end)), label]
                        for _, county, label, _ in rows
                    ]
                    self.same(name, self.table("County,Group", named).upper(), *problem)

    def test_labels_that_are_no_numbers(self) -> None:
        for name in CHAMBERS:
            rows = [[code, f"Group {label}", seats] for code, _, label, seats in self.rows(name)]
            found = self.made(self.table("GEOID,Group,Seats", rows))
            self.assertEqual(sets_of(found.text), sets_of(read(name)))

    def test_a_dbf(self) -> None:
        columns = [DbfColumn("GEOID", "C", 5), DbfColumn("NAME", "C", 20)]
        columns += [DbfColumn("CLUSTER", "N", 4), DbfColumn("SEATS", "N", 9, 2)]
        for name in CHAMBERS:
            rows = [[*row[:3], f"{row[3]}.00"] for row in self.rows(name)]
            self.same(name, dbf(columns, rows))

    def test_the_example(self) -> None:
        example_plan.write_example(self.room)
        with open(os.path.join(self.room, "groups.csv"), encoding="utf-8") as file:
            text = file.read()
        name = "senate2023.grouping"
        problem = ["--geo", GEO, "--segment", SEGMENT, "--chamber", CHAMBERS[name]]
        self.same(name, text, *problem)
        self.assertEqual(next(csv.reader(io.StringIO(text))), ["County", "Cluster"])


class Judged(WithProgram, Made):
    """What the tool makes is judged by the program."""

    def test_the_enacted_groupings(self) -> None:
        for name, chamber in CHAMBERS.items():
            problem = ["--geo", GEO, "--segment", SEGMENT, "--chamber", chamber]
            text = self.table("GEOID,Group", [[row[0], row[2]] for row in self.rows(name)])
            path = self.file("made", self.made(text, *problem).text)
            words = ["judge", *problem, "--adjacency", BORDERS, "--grouping"]
            status, report = self.run_program(*words, path)
            self.assertEqual((status, report), self.run_program(*words, os.path.join(DATA, name)))
            self.assertIn("\nanswer lawful\n", report)

    def test_a_group_that_suits_no_seats(self) -> None:
        """Bladen County has 29,606 people, too few for a seat, and too many for its old group."""
        rows = [[row[0], row[2]] for row in self.rows("senate2023.grouping")]
        rows = [[code, "30" if code == "37017" else label] for code, label in rows]
        problem = ["--geo", GEO, "--segment", SEGMENT, "--chamber", "50"]
        made = self.made(self.table("GEOID,Group", rows), *problem)
        suits = "suit no number of seats:"
        self.assertEqual(
            made.told[1:],
            [
                f"The 373,979 people of the group of county 37061 {suits} 2 is the nearest.",
                f"The 29,606 people of the group of county 37017 {suits} 1 is the nearest.",
                "The groups have 51 seats in all, and the chamber has 50.",
            ],
        )
        words = ["--adjacency", BORDERS, "--grouping", self.file("made", made.text)]
        judged = self.run_program("judge", *problem, *words)
        self.assertEqual(judged, (1, "fault OutOfWindow group 23\n"))


class Tables(Made):
    """Small tables."""

    def test_order_and_groups(self) -> None:
        text = "GEOID,GROUP,SEATS\n37005,10,1\n37003,2,\n37001,2,3\n37007,x,1\n"
        told = ["table: counties 4, groups 3, seats 5."]
        self.assertEqual(self.made(text), Ran(0, "3|37001|37003\n1|37005\n1|37007\n", told))

    def test_counties_by_their_state(self) -> None:
        text = "County,Group,Seats\n1,1,1\n003,1,1\n5,2,2\n"
        wanted = "1|37001|37003\n2|37005\n"
        self.assertEqual(self.made(text, "--state", "37").text, wanted)
        self.assertEqual(self.made(text, "--state", "1").text, wanted.replace("37", "01"))
        geo = self.file("geo", path_geo())
        self.assertEqual(self.made(text, "--geo", geo).text, wanted)
        told = "Line 2 of table has the county `1` without its state: give the state's FIPS code "
        self.refused(text, told + "by --state.")

    def test_lost_leading_zeros(self) -> None:
        text = "GEOID,Group,Seats\n1001,1,1\n1003,2,1\n1005,,\n"
        told = ["table: counties 2, groups 2, seats 2."]
        told.append("Counties of four digits, which have their lost leading zero again: 3.")
        told.append("Counties without a group, or of a withdrawn set: 01005.")
        self.assertEqual(self.made(text), Ran(0, "1|01001\n1|01003\n", told))
        told_of = "Line 3 of table has a code of 4 digits, as 1 of 2 lines have, and a county's "
        text = "GEOID,Group,Seats\n37001,1,1\n3700,2,1\n"
        self.refused(text, told_of + "code has 5: digits were lost.")

    def test_the_table_of_the_program(self) -> None:
        text = "GEOID,NAME,POPULATION,GROUP,SEATS,GROUP_POPULATION\n37001,Alamance County,100,2,1,"
        text += '100\n37003,"Alexander, the ""first""",200,1,2,200\n37005,,300,W1,3,300\n'
        told = ["table: counties 2, groups 2, seats 3."]
        told.append("Counties without a group, or of a withdrawn set: 37005.")
        self.assertEqual(self.made(text), Ran(0, "2|37003\n1|37001\n", told))

    def test_names(self) -> None:
        geo = self.file(
            "geo",
            path_geo("Doña Ana County", "DeKalb County", "Queens County", "St. Mary's County"),
        )
        text = "County,Group,Seats\nDona Ana,1,1\nDe Kalb county,2,1\nQUEENS,3,1\nKings,4,1\n"
        told = "Line 5 of table has `Kings`, which the geographic header doesn't have."
        self.refused(text, told, "--geo", geo)
        text = text.replace("Kings", "St Marys")
        wanted = "1|37001\n1|37003\n1|37005\n1|37007\n"
        self.assertEqual(self.made(text, "--geo", geo).text, wanted)
        twice = self.file("twice", path_geo("Richmond County", "Richmond city", "A", "B"))
        told = "Line 2 of table has `Richmond`, which is a name of 37001 and 37003."
        self.refused("County,Group,Seats\nRichmond,1,1\n", told, "--geo", twice)
        both = "County,Group,Seats\nRichmond city,1,1\nRICHMOND COUNTY,2,1\n"
        self.assertEqual(self.made(both, "--geo", twice).text, "1|37003\n1|37001\n")

    def test_a_people_file(self) -> None:
        """The ideal is 100: Dogwood suits two seats, and Cedar, and Alder with Birch, one."""
        text = "County,Cluster\nALDER,1\nBirch,1\nCedar county,2\nDogwood,3\n"
        wanted = "1|37001|37003\n1|37005\n2|37007\n"
        told = ["table: counties 4, groups 3, seats 4."]
        for held in (PATH_COUNTIES, "county|people|name\n" + PATH_COUNTIES.replace(",", "|")):
            words = ["--people", self.file("people.csv", held), "--chamber", "4"]
            self.assertEqual(self.made(text, *words), Ran(0, wanted, told))
        other = self.file("people.csv", PATH_COUNTIES + '\n45001,7,"A, ""B"""\n')
        words = ["--people", other, "--chamber", "4", "--state", "37"]
        self.assertEqual(self.made(text, *words), Ran(0, wanted, told))
        seats = "County,Cluster,Seats\nAlder,1,9\n"
        self.assertEqual(self.made(seats, *words[:2], "--state", "37").text, "9|37001\n")

    def test_blocks(self) -> None:
        """The rows of a county's blocks say its group, if they say the same."""
        head = "GEOID20,Group,Seats\n"
        text = head + "370010201001000,1,1\n370010201001001,1,1\n370030201001000,,\n"
        told = ["table: counties 1, groups 1, seats 1."]
        told.append("Counties without a group, or of a withdrawn set: 37003.")
        self.assertEqual(self.made(text), Ran(0, "1|37001\n", told))
        self.assertEqual(self.made("370010201001000,1\n370010201001001,1\n").status, 1)
        zeros = head + "10010201001000,1,1\n10010201001001,1,1\n"
        self.assertEqual(self.made(zeros).text, "1|01001\n")
        for lines, sentence in {
            "370010201001000,1,1\n370010201001001,2,1\n": "Line 3 of table has a block of county "
            "37001 in group `2`, and line 2 has one in `1`: a group has whole counties.",
            "370010201001000,1,1\n37001,1,1\n": "Line 3 of table has county 37001, which line 2 "
            "has already.",
            "37001,1,1\n370010201001000,1,1\n": "Line 3 of table has county 37001, which line 2 "
            "has already.",
            "37001000012,1,1\n": "Line 2 of table has `37001000012`, which is no code of a county "
            "or a block: export the groups by counties or by blocks.",
        }.items():
            self.refused(head + lines, sentence)

    def test_seats_that_dont_suit(self) -> None:
        """The ideal is 100: one seat suits 95 to 105 people, and two suit 190 to 210."""
        files = {"--geo": path_geo(), "--segment": PATH_SEGMENT}
        words = [
            word for option, held in files.items() for word in (option, self.file(option[2:], held))
        ]
        words += ["--chamber", "4"]
        text = "37001,1\n37003,2\n37005,3\n37007,4\n"
        told = ["table: counties 4, groups 4, seats 4."]
        for code, people in (("37001", 94), ("37007", 106)):
            told.append(
                f"The {people} people of the group of county {code} suit no number of "
                "seats: 1 is the nearest."
            )
        wanted = "1|37001\n1|37003\n1|37005\n1|37007\n"
        self.assertEqual(self.made(text, *words), Ran(0, wanted, told))
        tenth: List[List[str]] = [["--part", "1", "--of", "10"]]
        tenth += [["--tolerance", text] for text in ("10%", "0.1", "1/10")]
        for further in tenth:
            wide = self.made(text, *words, *further)
            self.assertEqual(wide, Ran(0, wanted, told[:1]))
        pairs = "37001,1\n37007,1\n37003,2\n37005,2\n"
        found = self.made(pairs, *words)
        self.assertEqual(found.text, "2|37001|37007\n2|37003|37005\n")


class Seats(Made):
    """The choice of seats, by the rule of `docs/reference/definitions.md`."""

    def test_several_numbers_that_suit(self) -> None:
        """The ideal is 100. 1,920 people suit 19 and 20 seats, and 2,080 suit 20 and 21.

        1,040 people and 960 people suit 10 only, and 880 people 9 only.
        """
        chamber = Chamber(40, 4000, Fraction(1, 20))
        self.assertEqual(list(chamber.suited(1920)), [19, 20])
        self.assertEqual(list(chamber.suited(2080)), [20, 21])
        for people, is_whole, wanted in (
            ([1040, 1040, 1920], False, [10, 10, 19]),
            ([1040, 1040, 1920], True, [10, 10, 20]),
            ([960, 2080, 960], False, [10, 21, 10]),
            ([960, 2080, 960], True, [10, 20, 10]),
            ([1040, 1040, 1040, 880], True, [10, 10, 10, 9]),
        ):
            self.assertEqual(choose_seats(chamber, people, is_whole), wanted)

    def test_exact_windows(self) -> None:
        chamber = Chamber(4, 400, Fraction(1, 20))
        for people, seats in {94: [], 95: [1], 105: [1], 106: [], 189: [], 190: [2]}.items():
            self.assertEqual(list(chamber.suited(people)), seats)
        self.assertEqual([chamber.nearest(people) for people in (0, 10, 149, 150)], [1, 1, 1, 2])
        exact = Chamber(3, 100, Fraction(0))
        self.assertEqual([list(exact.suited(people)) for people in (33, 34, 100)], [[], [], [3]])


class Refusals(Made):
    """What can't be used is refused with one sentence."""

    def test_rows(self) -> None:
        head = "GEOID,Group,Seats\n37001,1,1\n"
        no_seats = "where the seats stand, which is no number up to 65,535."
        two_states = "a county's code of state 45, and line 2 one of state 37."
        no_code = "which is no county's code: if it is a name, give the geographic header by --geo"
        no_code += ", or a people file by --people."
        for line, sentence in {
            "37001,2,1": "Line 3 of table has county 37001, which line 2 has already.",
            "37003,1,2": "Line 3 of table gives group `1` 2 seats, and line 2 gives it 1.",
            "37003,2,two": f"Line 3 of table has `two` {no_seats}",
            "37003,2,65536": f"Line 3 of table has `65536` {no_seats}",
            "37003,2,": "Group `2` of table has no seats.",
            ",2,1": "Line 3 of table has no county.",
            "45003,2,1": f"Line 3 of table has {two_states}",
            "Wake,2,1": f"Line 3 of table has `Wake`, {no_code}",
        }.items():
            self.refused(f"{head}{line}\n", sentence)

    def test_tables(self) -> None:
        self.refused("GEOID,Group,Seats\n37001,,\n", "No line of table has a group.")
        told = "table has no column of seats: choose one by --seats, or give --chamber with --geo "
        told += "and --segment or with --people."
        path = self.file("people.csv", PATH_COUNTIES)
        given: List[List[str]] = [[], ["--chamber", "4"], ["--people", path]]
        for words in given:
            self.refused("GEOID,Group\n37001,1\n", told, *words)
        told = "table has no column that goes by a name for the groups: its columns are `GEOID`, "
        self.refused("GEOID,X\n37001,1\n", told + "`X`; choose the groups by --group.")
        told = "table has several columns that may have the groups: `Group`, `Cluster`; choose one "
        self.refused("GEOID,Group,Cluster\n37001,1,1\n", told + "by --group.")

    def test_people_files(self) -> None:
        text = "County,Group\nAlder,1\nElm,2\n"
        remedy = ": tools/people.py makes a people file of other tables."
        line = "Line 2 of people.csv "
        digits = "isn't a county's five digits, its people and at most a name"
        wrong: Dict[Union[str, bytes], str] = {
            PATH_COUNTIES: "Line 3 of table has `Elm`, which the people file doesn't have.",
            "county,people\n": f"The people file people.csv has no county{remedy}",
            "37001,1\n45001,2\n": "The people file people.csv has counties of the states 37, 45: "
            "choose one by --state.",
            "37001,1\n37001,2\n": f"{line}has county 37001, which stands before.",
            "37001,1\n3703,2\n": f"{line}{digits}{remedy}",
            "37001,1\n37003,2,a,b\n": f"{line}{digits}{remedy}",
            "37001,1\n37003,1.5\n": f"{line}has the people `1.5`, which is no whole number up to "
            f"4,294,967,295{remedy}",
            '37001,1\n37003,2,"a\n': f"{line}has wrong quotes{remedy}",
            b"37001,1,\xff\n": f"The people file people.csv is no text in UTF-8{remedy}",
        }
        for held, sentence in wrong.items():
            path = self.file("people.csv", held)
            found = self.made(text, "--people", path, "--chamber", "4")
            told = [one.replace(path, "people.csv") for one in found.told]
            self.assertEqual((found.status, told), (1, [sentence]), held)

    def test_counts_of_two_kinds(self) -> None:
        for word in ("--geo", "--segment"):
            with self.assertRaises(SystemExit) as ended:
                self.made("37001,1\n", "--people", "p", word, "x")
            self.assertEqual(ended.exception.code, 2)

    def test_census_files(self) -> None:
        text = "GEOID,Group\n37001,1\n37009,2\n"
        geo, segment = self.file("geo", path_geo()), self.file("segment", PATH_SEGMENT)
        chamber = ["--geo", geo, "--segment", segment, "--chamber", "4"]
        told = "Line 3 of table has county 37009, which the geographic header doesn't have."
        self.refused(text, told, *chamber)
        text = text.replace("37009", "37003")
        self.file("segment", PATH_SEGMENT.replace("||||3|105\n", ""))
        told = f"The segment {segment} has no record of county 37005."
        self.refused(text, told.replace(self.room + os.sep, ""), *chamber)
        self.file("segment", PATH_SEGMENT.replace("|105", "|many"))
        self.refused(text, "Line 3 of segment has no number of people.", *chamber)
        self.file("segment", "".join(f"||||{record}|0\n" for record in range(1, 5)))
        self.refused(text, "The counties of segment have no people.", *chamber)
        self.file("geo", path_geo() + path_geo().replace("37", "45"))
        told = "The geographic header geo has counties of the states 37, 45: choose one by --state."
        self.refused(text, told, *chamber)
        told = "The geographic header geo has no county of state 02."
        self.refused(text, told, *chamber, "--state", "2")
        self.file("geo", "||050||00|||x||37001|||37||001\n")
        told = "Line 1 of geo has a county without its code or record."
        self.refused(text, told, *chamber)
        self.file("geo", "PLST|NC\n")
        self.refused(text, "The geographic header geo has no county.", *chamber)

    def test_words(self) -> None:
        tolerances = [["a", f"--tolerance={text}"] for text in ("", "5", "51%", "1/1001", "5 %")]
        tolerances += [["a", "--tolerance", "5%", "--part", "1"], ["a", "--part", "11"]]
        for words in ([], ["a", "--chamber", "0"], ["a", "--state", "x"], *tolerances):
            with contextlib.redirect_stderr(io.StringIO()) as said:
                self.assertRaisesRegex(SystemExit, "2", grouping.main, words)
            self.assertIn("error: ", said.getvalue())


if __name__ == "__main__":
    run_tests(__doc__)
