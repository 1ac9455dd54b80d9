"""The reader's own files: a state, an archive, wrong files of each kind, a grouping, a plan."""
from __future__ import annotations

import subprocess
import zipfile
from pathlib import Path

from page_setting import CENSUS, DATA, PROBLEM, STATES, InPage, native
from native_texts import audited_plan
from page_samples import squares
from plan_sample import Sample, make_sample, write_census, write_plan

ANY = ".drop-zone[data-kind=geo] input"
PLAN = "#plan-file"
DISTRICTS = """[...document.querySelectorAll("#audit-result tbody tr")].map((row) => (
  [...row.cells].map((cell) => cell.innerText)))"""


class Files(InPage):
    """What all parts need."""

    def write(self, name: str, content: "str | bytes") -> Path:
        """Writes a file for the page."""
        path = self.room / name
        path.write_bytes(content if isinstance(content, bytes) else content.encode())
        return path

    def solved(self, seats: int) -> str:
        """Solves the given files, and returns what the page says of it."""
        self.value(f"document.querySelector('#seats').value = {seats}; null")
        self.wait("!document.querySelector('#solve-files').disabled")
        self.press_button("#solve-files")
        self.wait("document.querySelector('#files-result .verdict') !== null")
        return self.text("#files-result")


class State(Files):
    """A state is solved by its files."""

    def machine(self, name: str, code: str, seats: int) -> tuple[str, int]:
        """Returns the list of a state and the number of its best groupings, by this machine."""
        files = [str(STATES / f"{name}.{kind}") for kind in ("geo", "segment", "adjacency")]
        problem = ["--geo", files[0], "--segment", files[1], "--adjacency", files[2]]
        problem += ["--state", code, "--chamber", str(seats)]
        problem += ["--certificate", str(self.room / "certificate")]
        subprocess.run([native(), "solve", *problem], capture_output=True, check=True)
        done = subprocess.run([native(), "list", *problem], capture_output=True, check=True)
        listed = done.stdout.decode()
        return listed, int(listed.split("best groupings ")[1].split("\n")[0])

    def test_states_by_dropping_their_files(self) -> None:
        for name, code, seats, counties in (
            ("alabama", "01", 35, 67),
            ("florida", "12", 40, 67),
            ("wisconsin", "55", 33, 72),
        ):
            with self.subTest(name):
                self.open("#files")
                kinds = ("segment", "adjacency", "geo")
                self.drop("#drop-zones", *(STATES / f"{name}.{kind}" for kind in kinds))
                self.wait_words("#dropped", "is the file of borders")
                self.assertEqual(self.value("document.querySelector('#state').value"), code)
                told = self.solved(seats)
                listed, number = self.machine(name, code, seats)
                self.assertIn(f"{number} best groupings, checked for these files.", told)
                self.assertIn(f"Read {counties} counties", self.text("#files-steps"))
                script = "document.querySelector('[data-store=list]').click(); null"
                path = self.browser.download(script, str(self.room / f"{name}-list"))
                self.assertEqual(Path(path).read_text(encoding="ascii"), listed)
        self.check_quiet()

    def test_the_files_of_the_page(self) -> None:
        self.open("#files")
        self.give(ANY, DATA / "county_outlines.geojson")
        self.wait_words("#dropped", "county_outlines.geojson is outlines")
        self.press_button("#use-own")
        told = self.solved(120)
        self.assertIn("8 best groupings", told)
        filled = "[...document.querySelectorAll('.has-file')].map((one) => one.dataset.kind)"
        self.assertEqual(self.value(filled), ["geo", "segment", "adjacency"])
        self.assertEqual(self.value("document.querySelectorAll('#solved-map .badge').length"), 40)

    def test_a_state_with_outlines(self) -> None:
        geo = (STATES / "alabama.geo").read_text(encoding="utf-8").split("\n")
        rows = [line.split("|") for line in geo if "|050|" in line]
        codes = sorted(row[12] + row[14] for row in rows)
        board = squares(*((code, at % 10, 30 + at // 10) for at, code in enumerate(codes)))
        self.open("#files")
        kinds = ("segment", "adjacency", "geo")
        files = [STATES / f"alabama.{kind}" for kind in kinds]
        self.drop("#drop-zones", *files, self.write("board.geojson", board))
        self.wait_words("#dropped", "board.geojson is outlines")
        self.solved(35)
        groups = self.value("document.querySelectorAll('#files-table tbody tr').length")
        shown = self.value("document.querySelectorAll('#solved-map .badge').length")
        self.assertEqual((shown, groups > 10), (groups, True))
        self.assertIn("region 1, alternative 1", self.text("#files-table"))
        self.check_quiet()

    def test_files_that_miss_the_zones(self) -> None:
        self.open("#files")
        self.drop("#files-head", DATA / CENSUS["geo"], DATA / CENSUS["segment"])
        self.wait_words("#dropped", "nc000012020.pl is the counts.")
        self.drop(".drop-zone[data-kind=adjacency]", DATA / CENSUS["adjacency"])
        self.wait("!document.querySelector('#solve-files').disabled")
        taken = "document.querySelectorAll('.drop-zone.has-file').length"
        self.assertEqual(self.value(taken), 3)
        self.check_quiet()

    def test_an_archive(self) -> None:
        path = self.room / "nc2020.pl.zip"
        with zipfile.ZipFile(path, "w", zipfile.ZIP_DEFLATED) as archive:
            archive.write(DATA / CENSUS["geo"], "ncgeo2020.pl")
            archive.write(DATA / CENSUS["segment"], "nc000012020.pl")
            archive.writestr("nc000022020.pl", "PLST|NC|000|02|0000001|5|6|7\n")
            archive.writestr("readme.pdf", b"%PDF-1.4\n")
        self.open("#files")
        self.give(ANY, path, DATA / CENSUS["adjacency"], DATA / "county_outlines.geojson")
        told = self.wait_words("#dropped", "county_outlines.geojson is outlines")
        self.assertIn("ncgeo2020.pl is the geographic header", told)
        self.assertIn("16 best groupings", self.solved(50))
        self.check_quiet()

    def test_a_damaged_archive(self) -> None:
        path = self.room / "whole.zip"
        with zipfile.ZipFile(path, "w", zipfile.ZIP_DEFLATED) as archive:
            archive.write(DATA / CENSUS["geo"], "ncgeo2020.pl")
        cut = self.write("cut.zip", path.read_bytes()[:1500])
        self.open("#files")
        self.give(ANY, cut)
        self.wait_words("#dropped", "it was cut short on its way")

    def test_a_file_that_the_program_refuses(self) -> None:
        lines = (DATA / CENSUS["segment"]).read_text(encoding="utf-8").split("\n")
        lines[3] = lines[3].replace("|000", "|", 1).replace(lines[3].split("|")[5], "many")
        self.open("#files")
        self.give(
            ANY,
            DATA / CENSUS["geo"],
            self.write("counts.pl", "\n".join(lines)),
            DATA / CENSUS["adjacency"],
        )
        self.wait_words("#dropped", "file of borders")
        told = self.solved(50)
        self.assertIn("A file was refused.", told)
        self.assertIn("4", told)


WRONG = {
    "empty.pl": (b"", "The file is empty."),
    "plan.xlsx": (b"PK\x03\x04" + b"\0" * 60, "Excel workbook"),
    "old.xls": (b"\xd0\xcf\x11\xe0" + b"\0" * 600, "old Excel workbook"),
    "map.pdf": (b"%PDF-1.7\n", "This is a PDF"),
    "counties.shp": (b"\0\0\x27\x0a" + b"\0" * 100, "Convert it to GeoJSON"),
    "counties.dbf": (b"\x03" + b"\0" * 100, "table of a shapefile"),
    "other.json": (b'{"type": "Topology", "arcs": []}', "no GeoJSON"),
    "plain.geojson": (b'{"type": "FeatureCollection", "features": []}', "no GEOID"),
    "nc000022020.pl": (b"PLST|NC|000|02|0000001|10439388|5\n", "This is segment 2"),
    "county_adjacency.txt": (
        b'"Autauga County, AL"\t01001\t"Autauga County, AL"\t01001\n',
        "until 2022, with tabs",
    ),
    "words.txt": (b"some words\nand more\n", "whose layout isn’t known"),
}


class Wrong(Files):
    """A wrong file of each kind is told in a sentence."""

    def test_wrong_files(self) -> None:
        self.open("#files")
        for name, (content, words) in WRONG.items():
            with self.subTest(name):
                self.give(ANY, self.write(name, content))
                told = self.wait_words("#dropped", words)
                self.assertTrue(told.startswith(f"{name}: "), told)
        self.assertFalse(self.value("document.querySelector('.drop-zone.has-file') !== null"))
        self.check_quiet()

    def test_a_file_in_another_slot(self) -> None:
        self.open("#files")
        self.give(".drop-zone[data-kind=outlines] input", DATA / CENSUS["adjacency"])
        self.wait_words("#dropped", "county_borders.txt is the file of borders.")
        taken = "document.querySelector('.drop-zone[data-kind=adjacency]').classList"
        self.assertTrue(self.value(f"{taken}.contains('has-file')"))


class Grouping(Files):
    """A grouping that a reader has."""

    def judged(self, text: str, key: str = "senate") -> str:
        """Returns what the page says of a grouping."""
        self.open("#files")
        self.press_button(f"#judge-chambers [data-chamber={key}]")
        self.value(f"document.querySelector('#grouping-text').value = {text!r}; null")
        self.press_button("#judge")
        self.wait("document.querySelector('#judge-result .verdict') !== null")
        return self.text("#judge-result")

    def enacted(self, key: str) -> str:
        """Returns the grouping that was enacted for the chamber `key` in 2023."""
        return (DATA / f"{key}2023.grouping").read_text(encoding="ascii")

    def test_the_enacted_groupings(self) -> None:
        for key, option, count in (("senate", 6, 16), ("house", 7, 8)):
            told = self.judged(self.enacted(key), key)
            self.assertIn("Lawful, and best.", told)
            self.assertIn(f"option {option} of {count}, the one used for the plan enacted", told)
        self.check_quiet()

    def test_a_table_with_names(self) -> None:
        rows = ["County;Cluster"]
        names = {
            line.split("|")[1]: line.split("|")[0]
            for line in (DATA / CENSUS["adjacency"]).read_text(encoding="utf-8").split("\n")[1:]
            if line
        }
        for at, line in enumerate(self.enacted("senate").split()):
            rows += [f"{names[code][:-4]};{at}" for code in line.split("|")[1:]]
        told = self.judged("\n".join(rows))
        self.assertIn("Lawful, and best.", told)
        self.assertIn("no column of seats", told)

    def test_a_table_of_the_program_by_file(self) -> None:
        table = self.room / "table.csv"
        grouping = str(DATA / "house2023.grouping")
        words = [*PROBLEM, "--chamber", "120", "--grouping", grouping, "--table", str(table)]
        subprocess.run([native(), "judge", *words], capture_output=True, check=True)
        self.open("#files")
        self.press_button("#judge-chambers [data-chamber=house]")
        self.drop("#grouping-text", table)
        self.wait("document.querySelector('#grouping-text').value.startsWith('GEOID')")
        self.press_button("#judge")
        self.wait_words("#judge-result", "option 7 of 8")

    def test_faults(self) -> None:
        lines = self.enacted("senate").split()
        text = "\n".join(lines)
        moved = text.replace("2|37067|37169", "2|37067|37169|37197")
        moved = moved.replace("|37193|37197", "|37193")
        cases = {
            moved: "Forsyth, Stokes and Yadkin: 464,324 people are too many for 2 seats",
            "\n".join(lines[1:]): "No group has Johnston.",
            "\n".join([*lines, "1|37101"]): "Johnston stands in two groups.",
            "\n".join(lines).replace("2|37037|37063", "3|37037|37063"): "too few for 3 seats",
            "1  Jonston, Harnett": "No county of North Carolina is called Jonston.",
            "Johnston, Harnett": "A line begins with the seats",
        }
        for text, words in cases.items():
            with self.subTest(words):
                self.assertIn(words, self.judged(text))
        self.check_quiet()

    def test_one_that_is_not_best(self) -> None:
        # Two groups of the enacted Senate joined: Wake and Granville with Franklin, Nash and Vance
        # have 1,396,523 people, and 7 seats ask for 1,388,439 to 1,534,590.
        lines = [
            line
            for line in self.enacted("senate").split()
            if line not in ("6|37077|37183", "1|37069|37127|37181")
        ]
        told = self.judged("\n".join([*lines, "7|37077|37183|37069|37127|37181"]))
        self.assertIn("Lawful, but not best.", told)
        self.assertIn("It has eight groups of two counties; a best grouping has nine.", told)


def faults_of(district: dict[str, str]) -> str:
    """Returns what is wrong with a district by its line of the program's table."""
    people, least, greatest = (int(district[name]) for name in ("POPULATION", "LEAST", "GREATEST"))
    faults = ["crosses groups"] if " " in district["SETS"] else []
    if people < least:
        faults.append("too few people")
    if people > greatest:
        faults.append("too many people")
    return ", ".join(faults)


class Plan(Files):
    """A plan that a reader has."""

    sample: Sample

    @classmethod
    def setUpClass(cls) -> None:
        super().setUpClass()
        cls.sample = make_sample()

    def given(self, plan: Path, mark: str = "") -> None:
        """Gives the Census files with blocks, and a plan."""
        geo, segment = write_census(self.sample, self.room)
        self.open("#files")
        self.give(ANY, geo, segment, DATA / CENSUS["adjacency"])
        self.wait_words("#dropped", "file of borders")
        self.drop("#plan-zone", plan)

    def audited(self, plan: Path) -> str:
        """Returns what the page finds against the Senate's groups of 2023."""
        self.given(plan)
        self.wait("!document.querySelector('#audit').disabled")
        self.assertEqual(self.value("document.querySelector('#plan-against').value"), "senate")
        self.press_button("#audit")
        self.wait("document.querySelector('#audit-result .verdict') !== null")
        return self.text("#audit-result")

    def kinds(self) -> list[int]:
        """Returns the six counts."""
        script = "[...document.querySelectorAll('.kinds b')].map((one) => Number(one.innerText))"
        return list(self.value(script))

    def districts(self) -> dict[str, int]:
        """Returns the people of each district as the page has them."""
        return {row[0]: int(row[2].replace(",", "")) for row in self.value(DISTRICTS)}

    def test_a_plan_without_a_finding(self) -> None:
        self.assertGreater(len(self.sample.people), 19_900)
        told = self.audited(write_plan(self.sample, self.room / "plan.csv"))
        self.assertIn("Nothing was found.", told)
        self.assertEqual(self.kinds(), [0] * 6)
        self.assertEqual(self.districts(), self.sample.of_district())
        self.check_quiet()

    def test_a_plan_with_findings(self) -> None:
        plan = Sample(self.sample.people, dict(self.sample.district))
        blocks = list(plan.district)
        first = plan.district[blocks[0]]
        last = [block for block in blocks if plan.district[block] == "50"]
        plan.district[last[0]] = first
        for block in blocks[-3:]:
            del plan.district[block]
        plan.district["370019999999999"] = first
        path = write_plan(plan, self.room / "faults.csv")
        with open(path, "a", encoding="utf-8") as file:
            file.write(f'0,"{blocks[5]}","x","{plan.district[blocks[5]]}",""\r\n')
        self.audited(path)
        people = plan.of_district()
        ideal = sum(self.sample.people.values()) / 50
        sizes = [label for label, one in people.items() if not 0.95 * ideal <= one <= 1.05 * ideal]
        # (the moved block gives its group a district more than seats)
        self.assertEqual(self.kinds(), [1, 1, len(sizes), 3, 1, 1])
        told = self.text("#audit-result .kinds")
        self.assertIn(f"District {first} has blocks in", told)
        self.assertEqual(self.districts(), people)
        self.check_quiet()

    def test_the_districts_of_the_program(self) -> None:
        names = {"7": 'West, "A"  10', "8": 'West, "A"  9', "9": "<b>&amp;"}
        district = {block: names.get(one, one) for block, one in self.sample.district.items()}
        blocks = list(district)
        district[blocks[0]] = 'West, "A"  9'
        for block in blocks[1:61]:
            district[block] = ""
        for block in blocks[-60:]:
            district[block] = "ZZZ"
        plan = Sample(self.sample.people, district)
        told = self.audited(write_plan(plan, self.room / "named.csv"))
        findings, stored = audited_plan(self.room, plan)
        self.assertIn(f"{len(findings)} findings.", told)
        shown = self.value(DISTRICTS)
        wanted = [
            [one["DISTRICT"], f"{int(one['POPULATION']):,}", faults_of(one)] for one in stored
        ]
        self.assertEqual(sorted([row[0], row[2], row[6]] for row in shown), sorted(wanted))
        crossing = [shown[0][at] for at in (0, 1, 5)]
        groups = ["Johnston; Pitt and Edgecombe", "Johnston, Pitt and Edgecombe"]
        self.assertEqual(crossing, ['West, "A"  9', *groups])
        # (those with faults stand first, and then each in the natural order of its label)
        labels = [row[0] for row in shown if not row[6]]
        self.assertEqual(labels[-2:], ["49", 'West, "A"  10'])
        self.check_quiet()

    def refused(self, rows: list[str]) -> str:
        """Returns why a plan can't be audited."""
        plan = self.write("plan.csv", "\n".join(rows) + "\n")
        self.given(plan)
        self.wait("!document.querySelector('#audit').disabled")
        self.press_button("#audit")
        self.wait("document.querySelector('#audit-result .verdict') !== null")
        return self.text("#audit-result")

    def test_plans_that_cant_be_read(self) -> None:
        cases = {
            "Excel wrote the codes as numbers": [
                "GEOID20,District",
                "3.71010E+14,1",
                "3.71011E+14,2",
            ],
            "precincts, not blocks": ["Precinct,District", "01-A East,1", "01-B West,2"],
            "tracts or precincts, not blocks": ["GEOID,District", "37001020100,1", "37001020200,2"],
            "block groups, not blocks": ["GEOID,District", "370010201001,1", "370010201002,2"],
            "counties, not blocks": ["GEOID,District", "37001,1", "37003,2"],
            "have 14 digits": ["GEOID20,District", "37001020100101,1", "37001020100102,2"],
        }
        for words, rows in cases.items():
            with self.subTest(words):
                self.assertIn(words, self.refused(rows))
        self.check_quiet()

    def test_an_extract_without_blocks(self) -> None:
        plan = write_plan(self.sample, self.room / "plan.csv")
        self.open("#files")
        self.press_button("#use-own")
        self.wait("!document.querySelector('#solve-files').disabled")
        self.give(PLAN, plan)
        self.wait("!document.querySelector('#audit').disabled")
        self.press_button("#audit")
        self.wait_words("#audit-result", "has no blocks: it is an extract")

    def test_blocks_in_no_district_make_no_district(self) -> None:
        labels = ["", "ZZZ", *map(str, range(1, 121))]
        rows = [f"37001{at:010},{label}" for at, label in enumerate(labels)]
        self.given(self.write("house.csv", "\n".join(["GEOID20,District", *rows])))
        self.wait("!document.querySelector('#audit').disabled")
        self.assertEqual(self.value("document.querySelector('#plan-against').value"), "house")
