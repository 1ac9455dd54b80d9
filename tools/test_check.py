#!/usr/bin/env python3
"""Tests of the words of the second checker, `check.py`, and of the people files that it reads.

usage: python3 tools/test_check.py

What is a proof is compared with the program by `compare_checkers.py`.
"""
from __future__ import annotations

import json
import os
import re
import subprocess
import sys
import tempfile
import unittest
from typing import Dict, List, Optional, Tuple
from unittest import mock

import check
from compare_checkers import case_parts, words_of_second
from table_trial import TOP

CASE = os.path.join(TOP, "cases", "certificates", "stranding_path_no_step.case")
OPTION = re.compile(r"--[a-z]+")
# The counties of the case, whose middle county strands its neighbours.
PEOPLE = b"37001,50\n37003,100\n37005,50\n"


class Files(unittest.TestCase):
    """Runs of the second checker over files that are given as bytes."""

    def answer(self, words: List[str], files: Dict[str, bytes]) -> Tuple[str, int]:
        """Returns what the second checker prints, and its status."""

        def load(name: str) -> bytes:
            """Returns the bytes of a file. Ends the run if there is no such file."""
            if name not in files:
                raise check.End(f"device {name} Missing", 5)
            return files[name]

        return check.answer(words, load)


class OfTheCase(Files):
    """Runs over the files of the case, with or without a people file."""

    def setUp(self) -> None:
        with open(CASE, "rb") as file:
            words, self.files = case_parts(file.read())
        self.words = words_of_second(words)[0][1:]
        self.by_people = self.words.copy()
        place = self.by_people.index("--geo")
        self.by_people[place : place + 4] = ["--people", "people"]

    def run_with(self, people: Optional[bytes], *words: str) -> Tuple[str, int]:
        """Returns what is said with a people file in place of the census's files."""
        given = {} if people is None else {"people": people}
        others = {name: held for name, held in self.files.items() if name not in ("geo", "seg")}
        return self.answer([*self.by_people, *words], {**others, **given})


class PeopleFiles(OfTheCase):
    """The people file, by the rules of its format."""

    def test_the_same_answer(self) -> None:
        """Every form of the file has the answer of the census's files."""
        wanted = self.answer(self.words, self.files)
        self.assertEqual(wanted[1], 0)
        for text in (
            PEOPLE,
            PEOPLE[:-1],
            PEOPLE.replace(b"\n", b"\r\n"),
            b"\xef\xbb\xbf" + PEOPLE,
            PEOPLE.replace(b",", b"|"),
            b"county,people,name\n" + PEOPLE,
            b"county|people|name\n" + PEOPLE.replace(b",", b"|"),
            b"\xef\xbb\xbfcode\r\n" + PEOPLE,
            b'"37001","50"\n37003,"100","Do\xc3\xb1a ""Ana"" County, N"\n37005,50,\n',
            b"37005,0050\n37001,50,a|b\n37003,100,\n",
            b"37001|50\n37003|100|a, b\n37005|50\n",
            b'"a,b",people\n' + PEOPLE,
            b"\n\r\ncounty,people\n\n" + PEOPLE + b"\r\n\n",
            b"\xef\xbb\xbf\n" + PEOPLE.replace(b",", b"|"),
            b"45001,7\n" + PEOPLE + b"45001,9,a\n00000,4294967295\n",
            b"a,b,c,d\n" + PEOPLE,
        ):
            self.assertEqual(self.run_with(text), wanted, text)
            self.assertEqual(self.run_with(text, "--state", "37"), wanted, text)

    def refused(self, text: bytes, fault: str, *words: str) -> None:
        """Wants the refusal of a people file for a fault."""
        self.assertEqual(self.run_with(text, *words), (f"refused people {fault}\n", 4), text[:200])

    def test_faults_of_lines(self) -> None:
        for line in (b"37007", b"37007,5,a,b", b'"37007,5', b'"37007"x,5', b'37007,5,a"b'):
            self.refused(PEOPLE + line + b"\n", "BadLine line 4")
        self.refused(b'"county,people\n' + PEOPLE, "BadLine line 1")
        self.refused(b'\ncoun"ty,people\n' + PEOPLE, "BadLine line 2")
        self.refused(PEOPLE + b'37007,5,"a\nb"\n', "BadLine line 4")
        self.refused(PEOPLE.replace(b",", b"|") + b"37007,5\n", "BadLine line 4")
        for line in (b"3707,5", b"370071,5", b" 37007,5", b",5", b"0500000US37007,5", b"total,5"):
            self.refused(PEOPLE + line + b"\n", "BadCode line 4")
        for field in (b"", b"-5", b"5.0", b"1 000", b'"1,000"', b"5 ", b"4294967296", b"5\r"):
            text = PEOPLE + b"37007," + field + b",a\n"
            self.refused(text, "BadNumber line 4")
        for name in (b"\xff", b"\xc3", b"\xc0\x80", b"\xed\xa0\x80", b'"\xf4\x90\x80\x80"'):
            self.refused(PEOPLE + b"37007,5," + name + b"\n", "BadName line 4")
        self.refused(PEOPLE + b"37001,50\n", "DoubleCounty line 4")

    def test_blank_lines_count(self) -> None:
        self.refused(b"\n" + PEOPLE + b"\r\n37007\n", "BadLine line 6")
        self.refused(b"\ncounty,people\ncounty,people\n", "BadCode line 3")

    def test_the_order_of_faults(self) -> None:
        self.refused(b"37001,x\n37003\n", "BadNumber line 1")
        self.refused(b"37001,5\n3700,x,a,b\n", "BadLine line 2")
        self.refused(b"37001,5\n3700,x,\xff\n", "BadCode line 2")
        self.refused(b"37001,5\n37001,x,\xff\n", "BadNumber line 2")
        self.refused(b"37001,5\n37001,5,\xff\n", "BadName line 2")
        many = [b"37%03d,1\n" % it for it in range(257)]
        self.refused(b"".join(many) + b"x\n", "BadLine line 258")

    def test_lines_that_cannot_be_read(self) -> None:
        """A line of 65,536 bytes with its CR and its mark is read, and a longer one isn't."""
        long = b"37001,50," + b"a" * (check.LINE_BYTES - 9)
        others = b"\n37003,100\n37005,50\n"
        marked = b"\xef\xbb\xbf" + long[:-4] + b"\r"
        for line in (long, marked):
            self.assertEqual(self.run_with(line + others), self.run_with(PEOPLE))
        for line in (long + b"a", long + b"\r", b"\xef\xbb\xbf" + long):
            self.refused(line + others, "LineTooLong line 1")
            self.refused(b"37001,x\n" + line, "BadNumber line 1")
            self.refused(b"county,people\n" + line, "LineTooLong line 2")

    def test_too_many_lines(self) -> None:
        """Blank lines count, and the first line past the limit is a fault, whatever it holds."""
        with mock.patch.object(check, "TEXT_LINES", 4):
            self.assertEqual(self.run_with(b"\n" + PEOPLE), self.run_with(PEOPLE))
            for line in (b"\n", b"37007", b"a" * (check.LINE_BYTES + 1)):
                self.refused(b"\n" + PEOPLE + line, "TooManyLines line 0")
            self.refused(b"county,people\n\n\n\n\n", "TooManyLines line 0")
            self.refused(PEOPLE + b"37007\n\n", "BadLine line 4")

    def test_other_states(self) -> None:
        """Lines of other states are read as those of the state, but their codes may repeat."""
        other = b"45001,7\n45001,7\n" + PEOPLE
        self.assertEqual(self.run_with(other), self.run_with(PEOPLE))
        for field, fault in ((b"", "BadLine"), (b",x", "BadNumber"), (b",5,\xff", "BadName")):
            self.refused(PEOPLE + b"45001" + field + b"\n", f"{fault} line 4")
        self.refused(other, "DoubleCounty line 2", "--state", "45")
        self.refused(PEOPLE, "NoCounties line 0", "--state", "45")
        self.refused(PEOPLE, "NoCounties line 0", "--state", "3")
        listed = b"03001,5,a\n30001,6\n"
        self.assertEqual(check.read_people(listed, 3), {"03001": 5})
        self.assertEqual(check.read_named_people(listed, 3), {"03001": (5, b"a")})
        self.assertEqual(check.read_named_people(listed, 30), {"30001": (6, b"")})

    def test_faults_of_the_file(self) -> None:
        for text in (b"", b"\xef\xbb\xbf", b"county,people\n", b"x", b"\n\r\n", b"45001,5\n"):
            self.refused(text, "NoCounties line 0")
        self.assertEqual(self.run_with(None), ("device people Missing\n", 5))

    def test_too_many_counties(self) -> None:
        """More than 256 counties of the state are a fault of the problem, not of the file."""
        many = [b"37%03d,1\n" % it for it in range(257)]
        found = self.run_with(b"".join(many))
        self.assertEqual(found, ("refused problem TooManyCounties\n", 4))
        found = self.run_with(b"".join(many[:256]) + b"45001,1\n")
        self.assertNotIn("refused", found[0])

    def test_the_greatest_number(self) -> None:
        text = b"37001,4294967295\n37003,0004294967295\n37005,0\n"
        self.assertEqual(
            check.read_people(text, 37), {"37001": 2**32 - 1, "37003": 2**32 - 1, "37005": 0}
        )

    def test_words_that_exclude_each_other(self) -> None:
        for words in (["--geo", "geo"], ["--segment", "seg"], ["--people", "people"]):
            self.assertEqual(self.run_with(PEOPLE, *words), ("", 2))


BEST = (
    '{"answer":"best","people":200,"chamber":2,"tolerance":[1,20],"seats_left":2,"counties":3,'
    '"counts":[0,0,1],"groups":[{"group":1,"seats":2,"people":200,'
    '"counties":["37001","37003","37005"]}],'
)


class Objects(OfTheCase):
    """The objects of `--json`, written by hand from their format."""

    def said(self, *words: str, **files: bytes) -> Tuple[str, int]:
        """Returns what is said with `--json` and further words over the files of the case."""
        return self.answer([*self.words, "--json", *words], {**self.files, **files})

    def test_a_report(self) -> None:
        names = '"names":{"37001":"","37003":"","37005":""}}\n'
        self.assertEqual(self.said(), (BEST + names, 0))
        self.assertEqual(self.answer(["--json", *self.words], self.files), (BEST + names, 0))
        fortieths = (BEST + names).replace("[1,20]", "[2,40]")
        self.assertEqual(self.said("--part", "2", "--of", "40"), (fortieths, 0))

    def test_names_of_a_people_file(self) -> None:
        people = '37005,50,C\n37003,100,"Do\u00f1a ""B"", \\\t\x7f"\n37001,50\n'.encode()
        names = '"names":{"37001":"","37003":"Do\u00f1a \\"B\\", \\\\\\t\x7f","37005":"C"}}\n'
        self.assertEqual(self.run_with(people, "--json"), (BEST + names, 0))

    def test_names_of_the_census_files(self) -> None:
        """They are read for an object alone."""
        line = self.files["geo"].splitlines()[0]
        for name, wanted in ((b"Ash\xc3\xa9", "Ash\u00e9"), (b"", ""), (b"a|b", "a")):
            geo = self.files["geo"].replace(line, line + b"|" * (87 - line.count(b"|")) + name)
            found, status = self.said(geo=geo)
            self.assertEqual(json.loads(found)["names"]["37001"], wanted)
        geo = geo.replace(b"|a|b", b"|\xff")
        self.assertEqual(self.said(geo=geo), ('{"message":"refused geo BadName line 1"}\n', 4))
        self.assertEqual(self.answer(self.words, {**self.files, "geo": geo})[1], 0)

    def test_impossible_beside_a_withdrawn_set(self) -> None:
        """The names have the withdrawn county, too."""
        held = b"county-groups certificate 1\norder 37001 37003\nlimit 0\ntarget none\n"
        held += b"stuck 37001\nend\n"
        words = ["--withdrawn", "w"]
        found = self.said(*words, w=b"2|37005\n", **{self.certificate(): held})
        wanted = '{"answer":"impossible","people":200,"chamber":2,"tolerance":[1,20],'
        wanted += '"seats_left":0,"counties":2,"names":{"37001":"","37003":"","37005":""}}\n'
        self.assertEqual(found, (wanted, 1))

    def certificate(self) -> str:
        """Returns the name of the certificate."""
        return self.words[self.words.index("--certificate") + 1]

    def test_messages(self) -> None:
        message = '{"message":"no Text CutShort line 1"}\n'
        self.assertEqual(self.said(**{self.certificate(): b""}), (message, 1))
        missing = '{"message":"device x \\"y\\" Missing"}\n'
        self.assertEqual(self.said("--links", 'x "y"'), (missing, 5))
        self.assertEqual(self.said(geo=b""), ('{"message":"refused geo NoCounties line 0"}\n', 4))

    def test_words_that_are_none(self) -> None:
        for words in (["--json"], ["--json=1"], ["--links", "--json"], ["--links"]):
            self.assertEqual(self.said(*words), ("", 2), words)
        self.assertEqual(self.answer([*self.words, "--links", "--json"], self.files), ("", 2))


class Names(OfTheCase):
    """The text of `--names`, written by hand from its rules."""

    HEAD = "people 200\nchamber 2\nseats left 2\ncounties 3\nanswer best\ncounts 0 0 1\n"
    GROUP = "group 1 seats 2 people 200 counties "

    def test_names_behind_codes(self) -> None:
        """A comma follows each county but the last, also behind one without a name."""
        for names, wanted in (
            (("A County", "B", "C"), "37001 A County, 37003 B, 37005 C"),
            (("", "B", ""), "37001, 37003 B, 37005"),
            (("", "", ""), "37001, 37003, 37005"),
            (
                ("a\tb", "\x1b[1m\x7f\x01", "Do\u00f1a\u0085"),
                "37001 a b, 37003  [1m  , 37005 Do\u00f1a\u0085",
            ),
            (("group 1", "37003", " "), "37001 group 1, 37003 37003, 37005  "),
        ):
            lines = zip((37001, 37003, 37005), (50, 100, 50), names)
            people = "".join(f"{it}|{count}|{name}\n" for it, count, name in lines).encode()
            text = f"{self.HEAD}{self.GROUP}{wanted}\n"
            self.assertEqual(self.run_with(people, "--names"), (text, 0), names)

    def test_names_of_the_census_files(self) -> None:
        """A name that isn't UTF-8 is a fault, as for an object."""
        line = self.files["geo"].splitlines()[0]
        for name, wanted in (
            (b"Ash\xc3\xa9", f"{self.HEAD}{self.GROUP}37001 Ash\u00e9, 37003, 37005\n"),
            (b"\xff", "refused geo BadName line 1\n"),
        ):
            geo = self.files["geo"].replace(line, line + b"|" * (87 - line.count(b"|")) + name)
            found = self.answer([*self.words, "--names"], {**self.files, "geo": geo})
            self.assertEqual(found[0], wanted)

    def test_beside_json(self) -> None:
        """The object is the same."""
        wanted = self.run_with(PEOPLE, "--json")
        for words in (["--json", "--names"], ["--names", "--json"]):
            self.assertEqual(self.run_with(PEOPLE, *words), wanted)

    def test_texts_without_groups(self) -> None:
        """Any other text is the same."""
        name = self.words[self.words.index("--certificate") + 1]
        held = self.files[name]
        self.files[name] = b""
        self.assertEqual(self.run_with(PEOPLE, "--names"), ("no Text CutShort line 1\n", 1))
        self.files[name] = held
        found = self.run_with(PEOPLE + b"37007", "--names")
        self.assertEqual(found, ("refused people BadLine line 4\n", 4))

    def test_words_that_are_none(self) -> None:
        for words in (["--names", "--names"], ["--names=1"], ["--links", "--names"]):
            self.assertEqual(self.run_with(PEOPLE, *words), ("", 2), words)


class Tolerances(OfTheCase):
    """The texts of `--tolerance`, by their rules."""

    def test_texts_that_write_a_tolerance(self) -> None:
        for text, wanted in (
            ("5%", (1, 20)),
            ("0.05", (1, 20)),
            ("1/20", (1, 20)),
            ("2/40", (1, 20)),
            ("005/00100", (1, 20)),
            ("5.000%", (1, 20)),
            ("0.045", (9, 200)),
            ("4.5%", (9, 200)),
            ("0", (0, 1)),
            ("0/7", (0, 1)),
            ("0.0%", (0, 1)),
            ("000000000.000000000%", (0, 1)),
            ("1/2", (1, 2)),
            ("101%", (101, 100)),
            ("500", (500, 1)),
            ("50000%", (500, 1)),
            ("1/1000", (1, 1000)),
            ("0.001", (1, 1000)),
            ("0.1%", (1, 1000)),
            ("499/1000", (499, 1000)),
            ("999999999/999999999", (1, 1)),
            ("000000001/000000020", (1, 20)),
            ("0.050000000", (1, 20)),
        ):
            self.assertEqual(check.tolerance(text), wanted, text)

    def test_texts_that_write_none(self) -> None:
        texts = ["", ".05", "5.", "5 %", " 5%", "5% ", "5%\n", "-1/20", "+5%", "5%%", "%", "1/3%"]
        texts += ["1%/3", "1/0", "0/0", "1/", "/20", "1/2/3", "1//2", "0.5/1", "1/0.5", "1.2.3"]
        texts += ["501", "501/1", "50100%", "501/1000", "1/1001", "0.0005", "0.05%", "1/999999999"]
        texts += ["0000000001/20", "1/0000000020", "0000000000", "0.0000000000", "1e-2", "1,5%"]
        texts += ["\u0665%", "\u00b2", "five", "1/20x", "0x1"]
        for text in texts:
            with self.assertRaises(check.Fault, msg=text):
                check.tolerance(text)
            self.assertEqual(self.run_with(PEOPLE, "--tolerance", text), ("", 2), text)

    def test_the_same_as_part_and_of(self) -> None:
        """A twentieth has no line, another tolerance one, and above a half it is refused."""
        wanted = self.run_with(PEOPLE)
        for text in ("5%", "0.05", "1/20", "2/40"):
            self.assertEqual(self.run_with(PEOPLE, "--tolerance", text), wanted)
            self.assertEqual(self.run_with(PEOPLE, f"--tolerance={text}"), wanted)
        tenth = self.run_with(PEOPLE, "--part", "1", "--of", "10")
        self.assertEqual(tenth, ("no WrongWindow line 1\n", 1))
        self.assertEqual(self.run_with(PEOPLE, "--tolerance", "10%"), tenth)
        for text in ("51%", "3/5", "500"):
            found = self.run_with(PEOPLE, "--tolerance", text)
            self.assertEqual(found, ("refused problem BadWindow\n", 4))
        self.assertEqual(self.run_with(PEOPLE, "--tolerance", "1/2")[1], 1)

    def test_lowest_terms_in_a_report_and_an_object(self) -> None:
        """A certificate of two fortieths is one of a twentieth."""
        name = self.words[self.words.index("--certificate") + 1]
        held = self.files[name].replace(b"certificate 1\n", b"certificate 2\nwindow 1 10\n")
        self.files[name] = held
        found = self.run_with(PEOPLE, "--tolerance", "0.10")
        self.assertEqual(found[0].splitlines()[:3], ["people 200", "chamber 2", "window 1 10"])
        found = self.run_with(PEOPLE, "--tolerance", "2/20", "--json")
        self.assertEqual(json.loads(found[0])["tolerance"], [1, 10])

    def test_words_that_are_none(self) -> None:
        for words in (
            ["--tolerance", "5%", "--part", "1"],
            ["--of", "20", "--tolerance", "5%"],
            ["--tolerance", "5%", "--tolerance", "5%"],
            ["--tolerance"],
        ):
            self.assertEqual(self.run_with(PEOPLE, *words), ("", 2), words)


class StandardInput(OfTheCase):
    """The file of the name `-`, which is standard input."""

    def run_given(self, given: bytes, *names: str) -> Tuple[str, int]:
        """Returns what the script prints in a folder with the case's files, and its status.

        Standard input has the bytes `given`, and `-` stands in place of the files of these names.
        """
        words = ["-" if it in names else it for it in self.words]
        with tempfile.TemporaryDirectory(prefix="check-") as folder:
            for name, held in {**self.files, "-": b"no table"}.items():
                with open(os.path.join(folder, name), "wb") as file:
                    file.write(held)
            command = [sys.executable, os.path.realpath(check.__file__), *words]
            ran = subprocess.run(
                command, cwd=folder, input=given, stdout=subprocess.PIPE, check=False
            )
        return ran.stdout.decode(), ran.returncode

    def test_each_file(self) -> None:
        wanted = self.answer(self.words, self.files)
        self.assertEqual(wanted[1], 0)
        for name, held in self.files.items():
            self.assertEqual(self.run_given(held, name), wanted, name)

    def test_a_people_file(self) -> None:
        self.words = self.by_people
        self.assertEqual(self.run_given(PEOPLE, "people"), self.run_with(PEOPLE))

    def test_it_is_read_once(self) -> None:
        for names in (("geo", "seg"), ("seg", "adj")):
            found = self.run_given(self.files["seg"], *names)
            self.assertEqual(found, ("device - Device\n", 5), names)

    def test_it_is_no_file_of_the_folder(self) -> None:
        """What is read is refused as a file is."""
        self.assertEqual(self.run_given(b"", "geo"), ("refused geo NoCounties line 0\n", 4))

    def test_a_file_of_a_case(self) -> None:
        words = ["-" if it == "geo" else it for it in self.words]
        files = {**self.files, "-": self.files["geo"]}
        self.assertEqual(self.answer(words, files), self.answer(self.words, self.files))


class Words(Files):
    """The words of the command, and its help."""

    def run_script(self, *words: str) -> subprocess.CompletedProcess[str]:
        """Returns a run of the script."""
        command = [sys.executable, check.__file__, *words]
        return subprocess.run(command, capture_output=True, text=True, check=False)

    def test_help(self) -> None:
        for words in (["--help"], ["-h"], ["--geo", "x", "--help"]):
            ran = self.run_script(*words)
            self.assertEqual((ran.returncode, ran.stdout, ran.stderr), (0, check.__doc__, ""))

    def test_the_help_names_the_options_that_are_taken(self) -> None:
        names = (*check.FILES, *check.RANGES, check.TOLERANCE)
        taken = {*check.FLAGS, *(f"--{name}" for name in names)}
        self.assertEqual({*OPTION.findall(check.__doc__ or "")}, taken)

    def test_wrong_words(self) -> None:
        """Standard error has the usage, and standard output nothing."""
        ran = self.run_script("--budget", "5")
        self.assertEqual((ran.returncode, ran.stdout), (2, ""))
        self.assertTrue(ran.stderr.startswith("usage: check.py (--geo FILE"))

    def test_options_that_are_not_taken(self) -> None:
        needed = ["--chamber", "2", "--adjacency", "a", "--certificate", "c", "--people", "p"]
        self.assertEqual(self.answer(needed, {}), ("device p Missing\n", 5))
        for option in ("--budget", "--table", "--record"):
            self.assertEqual(self.answer([*needed, option, "5"], {}), ("", 2))


class Comparing(unittest.TestCase):
    """The words of the program, as the second checker is given them."""

    def test_words_of_second(self) -> None:
        for words, wanted, has_names in (
            (["check", "--geo", "g", "--budget", "5"], ["check", "--geo", "g"], False),
            (["check", "--budget=+5", "--geo=g"], ["check", "--geo=g"], False),
            (["check", "--table", "t", "--record=r"], ["check"], True),
            (["check", "--budget", "x"], ["check", "--budget", "x"], False),
            (["check", "--budget"], ["check", "--budget"], False),
            (["check", "--budget", "1", "--budget", "2"], ["check", "--budget", "2"], False),
            (["check", "--budget", str(2**64)], ["check", "--budget", str(2**64)], False),
            (["check", "--geo", "--budget", "5"], ["check", "--geo", "--budget", "5"], False),
            (["check", "--json", "--budget", "5"], ["check", "--json"], False),
            (["check", "--names", "--budget", "5"], ["check", "--names"], False),
            (
                ["check", "--budget", "5", "--tolerance", "5%"],
                ["check", "--tolerance", "5%"],
                False,
            ),
            (["check", "--table", "t", "--json"], ["check", "--json"], True),
        ):
            self.assertEqual(words_of_second(words), (wanted, has_names), words)


if __name__ == "__main__":
    unittest.main(verbosity=0)
