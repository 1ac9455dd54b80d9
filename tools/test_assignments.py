"""Tests of `assignments.py`.

usage: python3 tools/test_assignments.py [--program FILE]

With a program, what the tool makes is audited by it. Else these tests are passed over.
"""
from __future__ import annotations

import contextlib
import gzip
import io
import os
import stat
import subprocess
import sys
import zipfile
from typing import Callable, Dict, Iterator, List, Optional, Tuple, Union

import assignments
import example_plan
from table_trial import DATA, TOP, DbfColumn, Ran, Room, WithProgram, dbf
from tested_program import run_tests

NO_TABLE = "The zip plan has no table, which is a CSV, a text or a DBF: it has "
ONE, TWO, THREE = "370010001001000", "370010001001001", "370030001001000"
WANTED = f"BLOCKID|DISTRICT\n{ONE}|1\n{TWO}|1\n{THREE}|02\n"
SUMMARY = "plan: 3 blocks in 2 districts."
ROWS = [[ONE, "1"], [TWO, "1"], [THREE, "02"]]
CASES = os.path.join(TOP, "cases", "audit")


def text_of(delimiter: str, header: str = "GEOID20,District", quote: str = "") -> str:
    """Returns the plan as a text with a header in the layout of `delimiter` and `quote`."""
    rows = [header.split(",")] if header else []
    lines = [delimiter.join(f"{quote}{field}{quote}" for field in row) for row in [*rows, *ROWS]]
    return "\n".join(lines) + "\n"


@contextlib.contextmanager
def gzip_writer(data: io.BytesIO) -> Iterator[Callable[[bytes], object]]:
    """Yields what adds bytes to the gzip in `data`."""
    with gzip.GzipFile(fileobj=data, mode="wb") as file:
        yield file.write


@contextlib.contextmanager
def zip_writer(data: io.BytesIO) -> Iterator[Callable[[bytes], object]]:
    """Yields what adds bytes to the member `a.csv` of the zip in `data`."""
    with zipfile.ZipFile(data, "w", zipfile.ZIP_DEFLATED) as packed:
        with packed.open("a.csv", "w") as file:
            yield file.write


class Made(Room):
    """Runs of the tool."""

    def made(self, held: Union[str, bytes], *words: str) -> Ran:
        """Returns the run over a file that holds a text or bytes."""
        return self.run_tool(assignments.main, self.file("plan", held), *words)

    def same(self, held: Union[str, bytes], *words: str, told: Optional[List[str]] = None) -> None:
        """Wants the three assignments, and the summary or what is to be told behind it."""
        found = self.made(held, *words)
        self.assertEqual(found, Ran(0, WANTED, [SUMMARY, *(told or [])]), held)

    def refused(self, held: Union[str, bytes], sentence: str, *words: str) -> None:
        """Wants one sentence, and nothing else."""
        self.assertEqual(self.made(held, *words), Ran(1, "", [sentence]), held)


class Texts(Made):
    """Texts as other programs export them."""

    def test_delimiters_and_quotes(self) -> None:
        for delimiter in (",", ";", "\t", "|"):
            for quote in ("", '"'):
                self.same(text_of(delimiter, quote=quote))
                self.same(text_of(delimiter, header="", quote=quote))

    def test_line_ends_and_blank_lines(self) -> None:
        text = text_of(",")
        for end in ("\r\n", "\r", "\n\n", "\r\n\r\n"):
            self.same(text.replace("\n", end))
        self.same("\n\n" + text + ",\n,,\n  \n")
        self.same(text[:-1])
        self.same(text + "\x1a")

    def test_encodings(self) -> None:
        header = "GEOID20,Señor,District".split(",")
        rows = [header, *([block, "Ñandú", label] for block, label in ROWS)]
        text = "".join(",".join(row) + "\n" for row in rows)
        for encoding in ("utf-8", "utf-8-sig", "utf-16", "utf-16-le", "utf-16-be", "latin-1"):
            self.same(text.encode(encoding))
        self.same(b"\xfe\xff" + text.encode("utf-16-be"))

    def test_names_of_columns(self) -> None:
        for block in ("GEOID20", "GEOID", "BLOCKID", "BLOCKID20", "block", "Block ID", "GEOCODE"):
            for district in ("District", "district", "assignment", "DISTRICT", "SLDUST", "CDFP"):
                self.same(text_of("|", header=f"{block},{district}"))

    def test_other_columns(self) -> None:
        rows = [["", "Name", "District", "GEOID20", "BLOCK"]]
        rows += [["7", 'A, "B"', label, block, block[11:]] for block, label in ROWS]
        self.same(example_plan.csv_text(rows))

    def test_row_names_of_r(self) -> None:
        """The layout is that of R's `write.table`, whose header lacks the first column's name."""
        rows = [["GEOID20", "District"], *([block[-2:], block, label] for block, label in ROWS)]
        self.same("".join("\t".join(f'"{field}"' for field in row) + "\n" for row in rows))
        trailing = "".join(f"{block},{label},\n" for block, label in ROWS)
        self.same("GEOID20,District\n" + trailing)

    def test_chosen_columns(self) -> None:
        text = text_of(",", header="Where,Plan A")
        for words in (("Where", "Plan A"), ("where", "plan_a"), ("1", "2"), ("Where", "2")):
            self.same(text, "--block", words[0], "--district", words[1])
        both = "GEOID20,District,SLDUST\n" + "".join(f"{a},9,{b}\n" for a, b in ROWS)
        self.same(both, "--district", "SLDUST")

    def test_three_columns_without_a_header(self) -> None:
        text = "".join(f"Wake,{block},{label}\n" for block, label in ROWS)
        self.same(text, "--district", "3")
        self.same(text, "--block", "2", "--district", "3")

    def test_a_delimiter_within_names(self) -> None:
        text = "GEOID20;Who, when;District\n" + "".join(f"{a};a, b, c;{b}\n" for a, b in ROWS)
        self.same(text)

    def test_fields_as_spreadsheets_protect_them(self) -> None:
        for form in ('="{}"', "'{}", " {} ", '"=""{}"""', "1000000US{}", "7500000US{}", "{}.0"):
            lines = [f"{form.format(block)},{label}\n" for block, label in ROWS]
            self.same("GEOID20,District\n" + "".join(lines))
            self.same("".join(lines))

    def test_labels_that_were_numbers(self) -> None:
        for one in ("1.0", "1.000", "1.", '="1"', "'1", " 1"):
            self.same(f"GEOID20,District\n{ONE},{one}\n{TWO},1\n{THREE},02\n")

    def test_blocks_without_a_district(self) -> None:
        wanted = f"BLOCKID|DISTRICT\n{ONE}|\n{TWO}|5\n"
        told = ["plan: 2 blocks in 1 district.", "Blocks without a district: 1."]
        for none in ("", "ZZZ", "NA", "NaN", "null", "None", "Unassigned"):
            found = self.made(f"GEOID20,District\n{ONE},{none}\n{TWO},5\n")
            self.assertEqual(found, Ran(0, wanted, told), none)
        text = f"GEOID20,District\n{ONE},0\n{TWO},5\n"
        self.assertEqual(self.made(text, "--unassigned", "0"), Ran(0, wanted, told))
        told = [
            "plan: 2 blocks in 2 districts.",
            "Blocks in district `0`: 1; if that says that they have none, add `--unassigned=0`.",
        ]
        self.assertEqual(self.made(text), Ran(0, wanted.replace("|\n", "|0\n"), told))

    def test_lines_that_repeat_a_block(self) -> None:
        told = ["Lines that repeat a block with its district, and were left out: 1."]
        self.same(text_of(",") + f"{TWO},1\n", told=told)

    def test_lost_leading_zeros(self) -> None:
        text = "GEOID20,District\n10010201001000,1\n10030201001000,2\n"
        wanted = "BLOCKID|DISTRICT\n010010201001000|1\n010030201001000|2\n"
        told = ["plan: 2 blocks in 2 districts."]
        told.append("Blocks of 14 digits, which have their lost leading zero again: 2.")
        self.assertEqual(self.made(text), Ran(0, wanted, told))

    def test_standard_input(self) -> None:
        words = [sys.executable, assignments.__file__, "-"]
        held = gzip.compress(text_of(",").encode())
        ran = subprocess.run(words, input=held, capture_output=True, check=False)
        told = SUMMARY.replace("plan", "standard input").encode() + os.linesep.encode()
        self.assertEqual((ran.returncode, ran.stdout, ran.stderr), (0, WANTED.encode(), told))

    def test_a_file_that_is_stored(self) -> None:
        out = os.path.join(self.room, "out")
        self.assertEqual(self.made(text_of(","), "--out", out), Ran(0, "", [SUMMARY]))
        with open(out, encoding="utf-8", newline="") as file:
            self.assertEqual(file.read(), WANTED)


class Packed(Made):
    """DBFs and packed files."""

    def zip_of(self, members: Dict[str, Union[str, bytes]]) -> bytes:
        """Returns a zip with these members."""
        data = io.BytesIO()
        with zipfile.ZipFile(data, "w", zipfile.ZIP_DEFLATED) as packed:
            for name, held in members.items():
                packed.writestr(name, held)
        return data.getvalue()

    def plan_dbf(self) -> bytes:
        """Returns the plan as a DBF, with a column before it and a record that was deleted."""
        columns = [DbfColumn("NAME20", "C", 8), DbfColumn("GEOID20", "C", 15)]
        columns.append(DbfColumn("DISTRICT", "C", 3))
        records = [["Señor", *row] for row in ROWS]
        return dbf(columns, [*records, ["gone", ONE, "7"]], deleted=3)

    def test_a_dbf(self) -> None:
        self.same(self.plan_dbf())

    def test_numbers_in_a_dbf(self) -> None:
        columns = [DbfColumn("BLOCKID", "N", 18), DbfColumn("DISTRICT", "F", 19, 11)]
        records = [[ONE, "1.00000000000"], [TWO, "1.00000000000e+000"]]
        found = self.made(dbf(columns, [*records, [THREE, "1.20000000000e+001"]]))
        wanted = f"BLOCKID|DISTRICT\n{ONE}|1\n{TWO}|1\n{THREE}|12\n"
        self.assertEqual(found, Ran(0, wanted, [SUMMARY]))

    def test_a_number_that_a_dbf_lacks(self) -> None:
        """GDAL stores asterisks where a record has no number."""
        columns = [DbfColumn("GEOID20", "C", 80), DbfColumn("DISTRICT", "N", 24, 15)]
        found = self.made(dbf(columns, [[ONE, "1.000000000000000"], [TWO, "*" * 24]]))
        told = ["plan: 2 blocks in 1 district.", "Blocks without a district: 1."]
        self.assertEqual(found, Ran(0, f"BLOCKID|DISTRICT\n{ONE}|1\n{TWO}|\n", told))

    def test_a_gzip(self) -> None:
        self.same(gzip.compress(text_of(",").encode()))
        self.same(gzip.compress(self.plan_dbf()))

    def test_a_zip_with_one_table(self) -> None:
        inside = Ran(0, WANTED, [SUMMARY.replace("plan", "a/plan.csv in plan")])
        members: Dict[str, Union[str, bytes]] = {"a/plan.csv": text_of(","), "README.txt": "."}
        members["__MACOSX/._plan.csv"] = b"\0"
        self.assertEqual(self.made(self.zip_of(members)), inside)
        shapes: Dict[str, Union[str, bytes]] = {"x.shp": b"\0", "x.dbf": self.plan_dbf()}
        self.assertEqual(self.made(self.zip_of(shapes)).text, WANTED)

    def test_a_zip_with_several_tables(self) -> None:
        packed = self.zip_of({"house.csv": text_of(";"), "b/senate.txt": text_of(",")})
        told = "has several tables, so choose one by --member NAME: house.csv, b/senate.txt"
        self.refused(packed, f"The zip plan {told}.")
        for name in ("house.csv", "b/senate.txt", "senate.txt"):
            self.assertEqual(self.made(packed, "--member", name).text, WANTED)
        told = "has no single member none.csv: it has house.csv, b/senate.txt"
        self.refused(packed, f"The zip plan {told}.", "--member", "none.csv")

    def test_packed_files_that_are_refused(self) -> None:
        packed = self.zip_of({"plan.csv": text_of(",")})
        damaged = packed.replace(b"plan.csv", b"plan.csx")[:-30]
        told = "The file plan is a zip, and it is damaged, or packed in another way."
        self.refused(damaged, told)
        self.refused(self.zip_of({"a.pdf": "."}), NO_TABLE + "a.pdf.")
        workbook = self.zip_of({"xl/workbook.xml": ".", "a.csv": "."})
        self.refused(workbook, "The file plan is a workbook: save its sheet as CSV.")
        cut = gzip.compress(text_of(",").encode())[:-10]
        self.refused(cut, "The file plan is packed by gzip, and it is damaged.")
        told = "The file plan is no zip, so it has no member x."
        self.refused(text_of(","), told, "--member", "x")

    def test_names_of_a_zip_that_are_no_print(self) -> None:
        """Neither an escape nor a mark that turns the direction of text is printed."""
        packed = self.zip_of({"a\x1b[2J.csv": text_of(","), "\u202eb.csv": text_of(",")})
        told = "has several tables, so choose one by --member NAME: a?[2J.csv, ?b.csv"
        self.refused(packed, f"The zip plan {told}.")
        told = "has no single member ?: it has a?[2J.csv, ?b.csv"
        self.refused(packed, f"The zip plan {told}.", "--member", "\x1b")
        other = self.zip_of({"\x1b]0;.pdf": "."})
        self.refused(other, NO_TABLE + "?]0;.pdf.")
        found = self.made(self.zip_of({"a\x1b[2J.csv": text_of(",")}))
        told = SUMMARY.replace("plan", "a?[2J.csv in plan")
        self.assertEqual(found, Ran(0, WANTED, [told]))
        long = self.zip_of({"a" * 60_000 + ".pdf": "."})
        self.refused(long, f"{NO_TABLE}{'a' * 100}...")

    def test_tables_with_an_explanation(self) -> None:
        """NHGIS puts a codebook beside a table, and data.census.gov two further texts."""
        for other in ("a_codebook.txt", "a-Column-Metadata.csv", "a-Table-Notes.txt"):
            packed = self.zip_of({other: ".", "a-Data.csv": text_of(",")})
            self.assertEqual(self.made(packed).text, WANTED)

    def peak_of(self, held: bytes) -> Tuple[str, int]:
        """Returns what the tool tells of a file, and how many MiB it takes at its peak."""
        code = "import assignments, resource, sys\nassignments.main(sys.argv[1:])\n"
        code += "print(resource.getrusage(resource.RUSAGE_SELF).ru_maxrss)\n"
        words = [sys.executable, "-c", code, self.file("plan", held)]
        folder = os.path.dirname(assignments.__file__)
        ran = subprocess.run(words, cwd=folder, capture_output=True, text=True, check=False)
        self.assertEqual(ran.returncode, 0, ran.stderr)
        return ran.stderr.replace(self.room + os.sep, ""), int(ran.stdout) // 1024

    def test_bombs(self) -> None:
        """A packed file that unpacks to 200 MiB is refused, and takes no such memory."""
        piece, pieces = b"370010001001000,1\n" * 58_255, 200
        for writer in (gzip_writer, zip_writer):
            data = io.BytesIO()
            with writer(data) as write:
                for _ in range(pieces):
                    write(piece)
            told, peak = self.peak_of(data.getvalue())
            self.assertIn(" unpacks to more than ", told)
            self.assertEqual(told.count("\n"), 1)
            self.assertLess(peak, 150)

    def test_a_zip_packed_in_another_way(self) -> None:
        data = io.BytesIO()
        with zipfile.ZipFile(data, "w", zipfile.ZIP_BZIP2) as packed:
            packed.writestr("plan.csv", text_of(","))
        told = "The file plan is a zip, and it is damaged, or packed in another way."
        self.refused(data.getvalue(), told)

    def test_dbfs_that_are_refused(self) -> None:
        told = "The DBF plan is cut short: it has 2 of its 4 records."
        self.refused(self.plan_dbf()[:-50], told)
        for size in (8, 40, 100):
            self.refused(self.plan_dbf()[:size], "The DBF plan has a damaged header.")
        columns = [DbfColumn("GEOID20", "F", 19, 11), DbfColumn("DISTRICT", "C", 2)]
        rounded = dbf(columns, [["3.70010001001e+014", "1"]])
        told = "`3.70010001001e+014`, which a spreadsheet rounded: its digits are lost"
        self.refused(
            rounded, f"Record 1 of plan has the block {told}, so export the blocks as text."
        )


class Refusals(Made):
    """What can't be mended is refused with one sentence."""

    def test_blocks(self) -> None:
        head = f"GEOID20,District\n{ONE},1\n"
        digits = "and a census block has 15 digits"
        help_told = "if the lines are precincts, export the plan by blocks"
        lost = "which a spreadsheet rounded: its digits are lost, so export the blocks as text"
        for line, sentence in {
            "3.71010E+14,1": f"Line 3 of plan has the block `3.71010E+14`, {lost}.",
            "37183-01-07,1": f"Line 3 of plan has `37183-01-07`, {digits}: {help_told}.",
            "37001000001,1": f"Line 3 of plan has `37001000001`, {digits}: {help_told}.",
            "37001,1": f"Line 3 of plan has `37001`, {digits}: if the lines are counties, "
            "tools/grouping.py takes them.",
            ",1": "Line 3 of plan has no block.",
            "٣70010001001000,1": f"Line 3 of plan has `٣70010001001000`, {digits}: {help_told}.",
        }.items():
            self.refused(f"{head}{line}\n", sentence)
        told = "Line 2 of plan has the block `3,71010E+14`, " + lost + "."
        self.refused("GEOID20;District\n3,71010E+14;1\n", told)
        self.refused("3.71010E+14,1\n", told.replace("Line 2", "Line 1").replace("3,", "3."))

    def test_digits_that_were_lost(self) -> None:
        told = "Line 3 of plan has a code of 14 digits, as 1 of 2 lines have, and a block has 15: "
        self.refused(f"GEOID20,District\n{ONE},1\n37001000100100,1\n", told + "digits were lost.")
        told = "Line 2 of plan has a code of 14 digits, and a block has 15: no leading zero was "
        self.refused("GEOID20,District\n37001000100100,1\n", told + "lost, for no state is 03.")

    def test_several_states(self) -> None:
        told = "Line 3 of plan has a block of state 45, and line 2 one of state 37."
        self.refused(f"GEOID20,District\n{ONE},1\n450010001001000,1\n", told)
        told = "Line 2 of plan has a block of state 02, and line 1 one of state 01."
        self.refused("10010201001000,1\n20010201001000,1\n", told)

    def test_lines_that_differ(self) -> None:
        told = f"Line 5 of plan gives block {ONE} the district `2`, and line 2 gives it the "
        self.refused(text_of(",") + f"{ONE},2\n", told + "district `1`.")
        told = f"Line 5 of plan gives block {ONE} no district, and line 2 gives it the "
        self.refused(text_of(",") + f"{ONE},\n", told + "district `1`.")

    def test_labels(self) -> None:
        start = "Line 2 of plan has the district"
        for label, told in {
            "Peñasco": "`Peñasco`, which has a sign that isn't printable ASCII",
            "a|b": "`a|b`, which has a pipe, and the program cuts fields at pipes",
            "a" * 33: f"`{'a' * 33}` of 33 bytes, and it may have 32",
            "a" * 99: f"`{'a' * 40}..` of 99 bytes, and it may have 32",
        }.items():
            self.refused(f"GEOID20,District\n{ONE},{label}\n", f"{start} {told}.")
        for label in ("a" * 32, "District 1, north", 'the "first"', "~"):
            text = example_plan.csv_text([["GEOID20", "District"], [ONE, label]])
            self.assertIn(f"\n{ONE}|{label}\n", self.made(text).text)

    def test_no_district(self) -> None:
        self.refused(f"GEOID20,District\n{ONE},\n", "No line of plan has a district.")
        told = "plan has no column that goes by a name for the districts: its columns are "
        told += "`GEOID20`, `People`; choose the districts by --district."
        self.refused(f"GEOID20,People\n{ONE},5\n", told)

    def test_columns(self) -> None:
        told = "plan has no column that goes by a name for the blocks: its columns are "
        told += "`Precinct`, `District`; choose the blocks by --block."
        self.refused("Precinct,District\n37001-01,1\n", told)
        told = "plan has several columns that may have the districts: `District`, `SLDUST`; "
        self.refused(f"GEOID,District,SLDUST\n{ONE},1,1\n", told + "choose one by --district.")
        told = "plan has no header: its columns have the numbers 1 to 3; choose the districts by "
        self.refused(f"a,{ONE},1\n", told + "--district.")
        told = "plan has no column `X`: its columns are `GEOID20`, `District`."
        for word in ("X", "0", "3"):
            self.refused(text_of(","), told.replace("`X`", f"`{word}`"), "--block", word)
        told = "plan can't have the blocks and the districts in one column: choose them by "
        self.refused(text_of(","), told + "--block and --district.", "--district", "GEOID20")
        told = "plan has no column that goes by a name for the blocks: its columns are "
        told += "`GEOID20 District`; choose the blocks by --block."
        self.refused(f"GEOID20 District\n{ONE} 1\n", told)

    def test_lines(self) -> None:
        head = f"GEOID20,District\n{ONE},1\n"
        other = "has another number of fields"
        end = "than the first (2): quote a field that has a delimiter in it."
        self.refused(f"{head}{TWO}\n", f"Line 3 of plan {other} (1) {end}")
        self.refused(f"{head}{TWO},1,2\n", f"Line 3 of plan {other} (3) {end}")
        quote = "has a quote that isn't closed, or that isn't at the end of its field"
        self.refused(f'{head}{TWO},"1\n{THREE},2\n', f"Line 3 of plan {quote}.")
        self.refused(f'{head}{TWO},"1"2\n', f"Line 3 of plan {quote}.")

    def test_long_fields_and_lines(self) -> None:
        """A field has at most 131,072 characters, and a row 1,048,576."""
        head = f"GEOID20,District,Note\n{ONE},1,\n"
        most = "x" * 131_072
        self.assertEqual(self.made(f"{head}{TWO},1,{most}\n").status, 0)
        for field in (f"{most}x", f'"{most}x"'):
            told = "Line 3 of plan has a field of more than 131,072 characters."
            self.refused(f"{head}{TWO},1,{field}\n", told)
        told = "Line 3 of plan has a quote that isn't closed within 131,072 characters."
        self.refused(f'{head}{TWO},1,"' + f"{TWO},1,x\n" * 10_000, told)
        told = "Line 3 of plan begins a row of more than 1,048,576 characters."
        self.refused(f"{head}{TWO},1,{'x,' * 524_288}\n", told)
        lines = '"a\n",' * 220_000
        self.refused(f"{head}{TWO},1,{lines}\n", told)

    def test_files(self) -> None:
        self.refused("", "The file plan has no line.")
        self.refused(" \n,\n", "The file plan has no line.")
        self.refused("GEOID20,District\n", "plan has no line below its header.")
        self.refused('{"type": "Plan"}', "The file plan is JSON, and no table: export it as CSV.")
        told = "The file plan is no text: export the table as CSV."
        self.refused(b"GEOID20,\0District\n", told)
        told = "The file plan is an Excel workbook: save its sheet as CSV."
        self.refused(b"\xd0\xcf\x11\xe0..", told)
        told = "The file plan has the shapes of a shapefile: take the file beside it, with .dbf."
        self.refused(b"\0\0\x27\x0a" + b"\0" * 96, told)
        none = os.path.join(self.room, "none")
        told = "The file none can't be read: No such file or directory."
        self.assertEqual(self.run_tool(assignments.main, none), Ran(1, "", [told]))
        out = os.path.join(none, "out")
        told = "none/out can't be stored: No such file or directory."
        self.assertEqual(self.made(text_of(","), "--out", out), Ran(1, "", [told]))

    def test_an_output_that_is_no_file(self) -> None:
        """A pipe, a folder and a link to either stay. Of a link to a file the file is stored."""
        pipe, folder = os.path.join(self.room, "pipe"), os.path.join(self.room, "folder")
        os.mkfifo(pipe)
        os.mkdir(folder)
        for name, target in (("to_pipe", pipe), ("to_folder", folder)):
            os.symlink(target, os.path.join(self.room, name))
        for name in ("pipe", "folder", "to_pipe", "to_folder"):
            told = f"{name} can't be stored: something that is no file stands there."
            made = self.made(text_of(","), "--out", os.path.join(self.room, name))
            self.assertEqual(made, Ran(1, "", [told]))
        self.assertTrue(stat.S_ISFIFO(os.stat(pipe).st_mode))
        target, link = os.path.join(self.room, "file"), os.path.join(self.room, "to_file")
        os.symlink("file", link)
        for _ in range(2):
            self.assertEqual(self.made(text_of(","), "--out", link).status, 0)
            self.assertTrue(os.path.islink(link))
            with open(target, encoding="utf-8") as file:
                self.assertEqual(file.read(), WANTED)

    def test_an_output_that_is_full(self) -> None:
        if not os.path.exists("/dev/full"):
            self.skipTest("there is no /dev/full")
        words = [sys.executable, assignments.__file__, self.file("plan", text_of(","))]
        with open("/dev/full", "w", encoding="utf-8") as full:
            ran = subprocess.run(words, stdout=full, stderr=subprocess.PIPE, check=False)
        told = b"Standard output can't be written: No space left on device.\n"
        self.assertEqual((ran.returncode, ran.stderr), (1, told))

    def test_words(self) -> None:
        for words in ([], ["a", "b"], ["a", "--blocks", "x"]):
            with contextlib.redirect_stderr(io.StringIO()) as said:
                self.assertRaisesRegex(SystemExit, "2", assignments.main, words)
            self.assertIn("error: ", said.getvalue())


def case_with(assigned: str) -> str:
    """Returns the case of the four-county path with other assignments."""
    with open(os.path.join(CASES, "four_county_path_audited.case"), encoding="utf-8") as file:
        before, _ = file.read().split("file baf\n")
    return f"{before}file baf\n{assigned}"


class Audited(WithProgram, Made):
    """What the tool makes is audited by the program."""

    def test_the_four_county_path(self) -> None:
        """Wants the findings of the case but for the block that stands twice, which is mended."""
        with open(os.path.join(CASES, "four_county_path_audited.case"), encoding="utf-8") as file:
            rows = [line.split("|") for line in file.read().split("file baf\n")[1].splitlines()]
        with open(os.path.join(CASES, "four_county_path_audited.out"), encoding="utf-8") as file:
            findings = [line for line in file.read().splitlines() if "BlockTwice" not in line]
        wanted = "\n".join(["findings 6", *findings[1:-1]]) + "\n"
        text = example_plan.csv_text([["GEOID20", "District"], *rows])
        forms = text.encode(), text.encode("utf-16"), gzip.compress(text.encode("utf-8-sig"))
        for held in forms:
            made = self.made(held).text
            self.assertEqual(self.run_program(given=case_with(made)), (1, wanted))

    def test_labels_that_the_program_reads(self) -> None:
        rows = [["GEOID20", "District"], [ONE, '"a", b'], [TWO, "x" * 32], [THREE, "~ 1"]]
        made = self.made(example_plan.csv_text(rows)).text
        status, text = self.run_program(given=case_with(made))
        self.assertEqual(status, 1)
        self.assertIn('\nDistrictSize "a", b people 94\n', text)

    def test_the_example(self) -> None:
        """Wants what is wrong with the example, which `example_plan.py` tells.

        Group 8, with Wake County, has 1,190,402 people and six seats. So its first district, which
        has the number 11, has 198,400 people and loses a block of 2,000. A district has to have
        198,349 at least. Bladen County stands in group 23, whose only district is number 44.
        """
        example_plan.write_example(self.room)
        plan, made = (os.path.join(self.room, name) for name in ("plan.zip", "plan.txt"))
        self.assertEqual(self.run_tool(assignments.main, plan, "--out", made).status, 0)
        options = {
            "--geo": os.path.join(self.room, "geo.pl"),
            "--segment": os.path.join(self.room, "segment.pl"),
            "--chamber": "50",
            "--adjacency": os.path.join(DATA, "county_borders.txt"),
            "--grouping": os.path.join(DATA, "senate2023.grouping"),
            "--assignments": made,
        }
        words = [word for option in options.items() for word in option]
        wanted = "findings 4\nUnassigned 370170001001000\nCrosses 44 group 8 group 23\n"
        wanted += "WrongNumber group 8 seats 6 districts 7\nDistrictSize 11 people 196400\n"
        self.assertEqual(self.run_program("audit", *words), (1, wanted))


if __name__ == "__main__":
    run_tests(__doc__)
