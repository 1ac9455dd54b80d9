#!/usr/bin/env python3
"""Tests of `page.py` without a browser: files that are refused, and what a page is made of.

usage: python3 tools/test_page.py
"""
from __future__ import annotations

import contextlib
import io
import json
import os
import re
import unittest
from typing import Any

from page_samples import GROUPS, OUTLINES, SIX_WITHDRAWN, TWO, TWO_LISTED, WITHDRAWN, Groups
from page_samples import PageRoom, file_line, record_of, small_table, written
from sample_listings import SIX

import page_file
import page as county_page
from county_table import HEADER

LINE = ",".join(HEADER) + "\n"
ENACTED = "1|37001\n1|37011\n2|37003|37005\n2|37007|37009\n"


class Refusals(PageRoom):
    """If a file can't be used, one sentence says why, and nothing is stored."""

    def refuses(
        self,
        sentence: str,
        table: str | bytes | None = None,
        listed: str = SIX,
        record: str | None = None,
        outlines: str | None = None,
    ) -> None:
        """Wants a run that stores nothing, and says `sentence` alone."""
        own = table if table is not None else small_table(GROUPS)
        status, said, out = self.made(own, listed, record or record_of(6), outlines or self.squares)
        self.assertEqual((status, os.path.exists(out)), (1, False))
        self.assertEqual(said.replace(self.folder + os.sep, ""), sentence + "\n")

    def test_a_table_of_another_problem(self) -> None:
        begin = "The table table.csv has "
        other = SIX.replace("chamber 6", "chamber 7")
        self.refuses(
            f"{begin}a chamber of 6, and the list list.txt has a chamber of 7.", listed=other
        )
        other = SIX.replace("people 600", "people 601")
        self.refuses(f"{begin}people 600, and the list list.txt has people 601.", listed=other)
        moved = SIX.replace("people 210", "people 211")
        self.refuses(
            "The people of counties 37007 37009 in the list list.txt aren't those of the "
            "table table.csv.",
            listed=moved,
        )
        turned: Groups = {**GROUPS, 1: (2, ["37001"]), 2: (1, ["37003", "37005"])}
        self.refuses(
            "The table table.csv gives counties 37001 2 seats, and the list gives them 1 seat.",
            table=small_table(turned),
        )
        groups: Groups = {**GROUPS, 1: (2, ["37001", "37005"]), 2: (1, ["37003"])}
        self.refuses(
            "The table table.csv has no alternative of region 1 of the list.",
            table=small_table(groups),
        )
        self.refuses(
            f"{begin}seats left 5, and the list list.txt has seats left 6.",
            table=small_table(WITHDRAWN),
        )

    def test_texts_that_are_no_list(self) -> None:
        says = "Line {} of the list list.txt says `{}`, where {} has to stand."
        ending = "`every choice` or the alternatives of a grouping"
        unended = SIX.removesuffix("every choice\n")
        more = SIX.replace("groupings 2", "groupings 3")
        astray = unended + "grouping 1 alternatives 1\ngrouping 2 alternatives 3\n"
        other = unended.replace("groupings 2", "groupings 1") + "grouping 1 alternatives 2\n"
        cases = {
            SIX.replace("answer all", "answer best"): says.format(5, "answer best", "`answer all`"),
            "open CountiesLeft line 6\n": says.format(
                1, "open CountiesLeft line 6", "`people` with a number"
            ),
            SIX[:-1]: "The list list.txt has no end of its last line.",
            SIX + "more\n": "Line 19 of the list list.txt says `more`, where the text has to end.",
            unended: f"The list list.txt ends with line 17, where {ending} has to stand.",
            more: "The list list.txt says every choice, and has 2 choices and 3 groupings.",
            astray: "A grouping of the list list.txt names an alternative that isn't there.",
            other: "The list has no grouping with the alternatives of the table table.csv.",
        }
        for listed, sentence in cases.items():
            with self.subTest(sentence):
                self.refuses(sentence, listed=listed)

    def test_texts_that_are_no_record(self) -> None:
        says = "Line {} of the record run.record says `{}`, where {} has to stand."
        self.refuses(says.format(1, "no", "`countygroups record 1`"), record="no\n")
        self.refuses(
            says.format(3, "words", "`status`, a file or a word"),
            record="countygroups record 1\nversion 1\nwords\n",
        )
        self.refuses(
            says.format(1, " " + "x" * 59 + "..", "`countygroups record 1`"),
            record="\u202e" + "x" * 99 + "\n",
        )
        other = record_of(6).replace("status 0", "status 3")
        self.refuses(
            "The record run.record is of a run that ended with status 3, and not with 0.",
            record=other,
        )

    def test_a_record_of_another_run(self) -> None:
        begin = "The record run.record isn't of a run "
        of_chamber = f"{begin}for the chamber of 6 seats."
        self.refuses(of_chamber, record=record_of(7))
        self.refuses(of_chamber, record=record_of("many"))
        size = record_of(6).replace("word list", "word size")
        self.refuses(f"{begin}of solve, check, list or judge.", record=size)
        self.refuses(
            f"{begin}for the state of the table table.csv.", record=record_of(6, "--state", "29")
        )
        of_list = f"{begin}for the tolerance of the list, 1/20."
        self.refuses(of_list, record=record_of(6, "--of", "21"))
        self.refuses(of_list, record=record_of(6, "--part", "x", "--of", "0"))

    def test_a_table_of_another_run(self) -> None:
        stored = file_line("stored", "table", b"another", "six.csv") + "\nstatus 0"
        self.refuses(
            "The table table.csv isn't the one that the run of the record run.record stored.",
            record=record_of(6).replace("status 0", stored),
        )
        self.refuses(
            "The table table.csv has a withdrawn set, and the run of the record "
            "run.record read none.",
            table=small_table(WITHDRAWN),
            listed=SIX_WITHDRAWN,
        )

    def test_a_table_with_a_line_at_fault(self) -> None:
        begin = "Line 2 of the table table.csv has "
        no_text = "The table table.csv isn't a comma-separated text in UTF-8."
        head = f"The table table.csv doesn't begin with its header {LINE.strip()}."
        twice = LINE + "37001,A,10,1,1,10\n37001,A,10,1,1,10\n"
        apart = LINE + "37001,A,10,1,1,20\n37003,B,10,1,2,20\n"
        of_sum = "The people of the counties of withdrawn set 1 in the table table.csv"
        wrong: dict[str | bytes, str] = {
            "": head,
            "37001,A,10,1,1,10\n": head,
            "GEOID,NAME\n37001,A\n": head,
            LINE: "The table table.csv lists no county.",
            LINE + "37001,A,10,1,1\n": f"{begin}5 fields and not 6.",
            LINE + "3701,A,10,1,1,10\n": f"{begin}no GEOID.",
            LINE + "37001,A,ten,1,1,10\n": f"{begin}no POPULATION.",
            LINE + "37001,A,10,X,1,10\n": f"{begin}no GROUP.",
            twice: "The table table.csv lists county 37001 twice.",
            apart: "The table table.csv gives group 1 two numbers of seats or of people.",
            LINE + "37001,A,10,W1,1,20\n": f"{of_sum} don't add up to GROUP_POPULATION.",
            LINE + '37001,"A,10,1,1,10\n': no_text,
            LINE.encode() + b"37001,\xff,10,1,1,10\n": no_text,
        }
        for text, sentence in wrong.items():
            with self.subTest(text):
                self.refuses(sentence, table=text)

    def test_outlines_that_cant_be_used(self) -> None:
        texts: list[str | bytes] = [
            "no",
            "",
            "[]",
            '{"type": "Topology"}',
            b"\xff\xfe",
            '{"type": "FeatureCollection"}',
            "[" * 100000,
        ]
        for text in texts:
            path = self.file("o.geojson", text)
            self.refuses(
                "The outlines o.geojson aren't GeoJSON with a list of features: export the "
                "counties as GeoJSON, by a GIS or by ogr2ogr.",
                outlines=path,
            )
        feature: dict[str, Any] = {
            "type": "Feature",
            "properties": {"GEOID": "37001"},
            "geometry": None,
        }
        self.refuses(
            "County 37001 of the outlines o.geojson has no polygon.",
            outlines=self.outlines(feature),
        )
        ring = [[0, 0], [1, 1], [0, 0]]
        feature["geometry"] = {"type": "Polygon", "coordinates": [ring]}
        self.refuses(
            "County 37001 of the outlines o.geojson has a ring that isn't one.",
            outlines=self.outlines(feature),
        )
        feature["properties"] = {"GEOID": 37001}
        self.refuses(
            "Feature 1 of the outlines o.geojson has no GEOID.", outlines=self.outlines(feature)
        )
        self.refuses("The outlines o.geojson have no county 37001.", outlines=self.outlines())

    def outlines(self, *features: dict[str, Any]) -> str:
        """Returns the path of outlines with these features."""
        value = {"type": "FeatureCollection", "features": features}
        return self.file("o.geojson", json.dumps(value))

    def test_files_that_are_not_there(self) -> None:
        said = io.StringIO()
        out = os.path.join(self.folder, "page.html")
        with contextlib.redirect_stderr(said):
            status = county_page.main(["none", "none", OUTLINES, "none", out])
        self.assertEqual(status, 1)
        self.assertEqual(
            said.getvalue(), "The table none can't be read: No such file or directory.\n"
        )
        self.refuses("The outlines none can't be read: No such file or directory.", outlines="none")

    def test_a_page_that_was_there_stays(self) -> None:
        path = self.file("page.html", "old")
        self.assertEqual(self.made("no", SIX, record_of(6), self.squares)[0], 1)
        with open(path, encoding="utf-8") as file:
            self.assertEqual(file.read(), "old")

    def test_the_words(self) -> None:
        wrong = ["a", "b", "c", "d", "e", "--enacted", "last year", "f"]
        for words in (wrong[:0], wrong):
            said = io.StringIO()
            with contextlib.redirect_stderr(said), self.assertRaises(SystemExit) as ended:
                county_page.main(words)
            self.assertEqual(ended.exception.code, 2)
            self.assertIn(
                "usage: python3 tools/page.py TABLE LIST OUTLINES RECORD OUT.html", said.getvalue()
            )

    def test_an_enacted_grouping_of_other_counties(self) -> None:
        begin = "The grouping enacted "
        self.refuses_enacted("1|37001\n", f"{begin}doesn't have each county of the page once.")
        self.refuses_enacted(
            ENACTED.replace("2|37003", "1|37003"), f"{begin}has 5 seats, and the table has 6."
        )

    def refuses_enacted(self, enacted: str, sentence: str) -> None:
        """Wants a run with the grouping `enacted` that says `sentence` alone."""
        status, said, out = self.made(
            small_table(GROUPS),
            SIX,
            record_of(6),
            self.squares,
            ["--enacted", "2023", self.file("enacted", enacted)],
        )
        self.assertEqual((status, os.path.exists(out)), (1, False))
        self.assertEqual(said.replace(self.folder + os.sep, ""), sentence + "\n")


class Made(PageRoom):
    """What a page is made of."""

    def test_its_data(self) -> None:
        table = small_table(GROUPS, {"37001": "</script><b>", "37003": 'A & "B"'})
        status, said, out = self.made(table, SIX, record_of(6), self.squares)
        self.assertEqual((status, said), (0, ""))
        with open(out, encoding="utf-8") as file:
            text = file.read()
        found = re.search(r'<script type="application/json" id="data">(.*?)</script>', text, re.S)
        assert found
        chamber = json.loads(found[1])["chambers"][0]
        self.assertEqual((chamber["table"], chamber["list"]), (table, SIX))
        self.assertEqual(text.count("</script>"), 3)
        plain = re.sub(r'<link rel="icon" href="data:[^"]*">', "", text)
        self.assertNotRegex(plain.replace("http://www.w3.org", ""), r"https?://|<link|@import")

    def test_the_enacted_grouping_and_where_the_borders_come_from(self) -> None:
        more = [
            "--enacted",
            "2023",
            self.file("enacted", ENACTED),
            "--borders",
            self.file("borders", "Made of <outlines>\nby hand.\n"),
        ]
        status, said, out = self.made(small_table(GROUPS), SIX, record_of(6), self.squares, more)
        self.assertEqual((status, said), (0, ""))
        with open(out, encoding="utf-8") as file:
            text = file.read()
        self.assertIn("as the file of borders says. Made of &lt;outlines&gt; by hand.</li>", text)
        found = re.search(r'<script type="application/json" id="data">(.*?)</script>', text, re.S)
        assert found
        data = json.loads(found[1])
        self.assertEqual((data["enactedYear"], data["chambers"][0]["enacted"]), (2023, ENACTED))

    def test_the_same_files_give_the_same_page(self) -> None:
        pages = []
        for _ in range(2):
            out = self.made(small_table(GROUPS), SIX, record_of(6), self.squares)[2]
            with open(out, "rb") as file:
                pages.append(file.read())
        self.assertEqual(*pages)

    def test_a_run_that_stored_its_table(self) -> None:
        table = small_table(GROUPS)
        line = file_line("stored", "table", table.encode(), "six.csv") + "\nstatus 0"
        record = record_of(6).replace("status 0", line)
        self.assertEqual(self.made(table, SIX, record, self.squares)[0], 0)

    def test_borders_by_both_line_ends(self) -> None:
        lines = ("Name|GEOID|Name|GEOID", "A|37001|B|37003", "B|37003|A|37001", "B|37003|C|37005")
        for end in ("\n", "\r\n"):
            text = "".join(line + end for line in lines)
            pairs = page_file.border_lines(text, {"37001", "37003"})
            self.assertEqual(pairs, "37001 37003")

    def test_several_numbers_of_seats(self) -> None:
        self.assertEqual(self.made(written(TWO), TWO_LISTED, record_of(39), self.squares)[0], 0)


if __name__ == "__main__":
    unittest.main(verbosity=0)
