#!/usr/bin/env python3
"""Tests of `people.py`, over a file of each layout that it reads, with the header of the real one.

usage: python3 tools/test_people.py

The people of Alamance and Wake County are those of the census of 2020, whatever year a file is of,
so that each layout has the same answer. Other numbers are made up, but for those of whole zips.
What the tool makes is read by the second checker, which has the format from its definition.
"""
from __future__ import annotations

import contextlib
import gzip
import io
import json
import os
import stat
import subprocess
import sys
import unittest
import zipfile
from typing import Dict, List, Optional, Tuple, Union

import check
import people
from table_trial import DATA, DbfColumn, Ran, Room, dbf

WANTED = "county,people,name\n37001,171415,Alamance County\n37183,1129410,Wake County\n"
COUNTS = {"37001": 171_415, "37183": 1_129_410}
TABLE = "GEOID,NAME,POPULATION\n37001,Alamance County,171415\n37183,Wake County,1129410\n"

# The Census Bureau's API, `.../2020/dec/pl?get=NAME,P1_001N&for=county:*&in=state:37`.
API = """[["NAME","P1_001N","state","county"],
["Alamance County, North Carolina","171415","37","001"],
["Wake County, North Carolina","1129410","37","183"]]"""
# The API of the Population Estimates up to 2019, with a row for each date.
API_DATES = """[["NAME","POP","DATE_CODE","DATE_DESC","state","county"],
["Wake County, North Carolina","900993","1","4/1/2010 Census population","37","183"],
["Wake County, North Carolina","901021","2","4/1/2010 population estimates base","37","183"],
["Wake County, North Carolina","1092305","11","7/1/2018 population estimate","37","183"],
["Wake County, North Carolina","1111761","12","7/1/2019 population estimate","37","183"]]"""
# data.census.gov: two headers, and a comma behind each line.
DECENNIAL = """\
"GEO_ID","NAME","P1_001N","P1_002N",
"Geography","Geographic Area Name"," !!Total:"," !!Total:!!Population of one race:",
"0400000US37","North Carolina","10439388","9728379",
"0500000US37001","Alamance County, North Carolina","171415","157868",
"0500000US37183","Wake County, North Carolina","1129410","1033437",
"""
SURVEY = """\
GEO_ID,NAME,B01003_001E,B01003_001M,
Geography,Geographic Area Name,Estimate!!Total,Margin of Error!!Total,
0500000US37001,"Alamance County, North Carolina",171415,*****,
0500000US37183,"Wake County, North Carolina",1129410,*****,
"""
# The Population Estimates of 2024, with the columns that begin and some of those that follow.
ESTIMATES = """\
SUMLEV,REGION,DIVISION,STATE,COUNTY,STNAME,CTYNAME,ESTIMATESBASE2020,POPESTIMATE2020,\
POPESTIMATE2021,POPESTIMATE2022,POPESTIMATE2023,POPESTIMATE2024,NPOPCHG2020,NPOPCHG2024,\
BIRTHS2020,BIRTHS2024,RESIDUAL2024,GQESTIMATESBASE2020,GQESTIMATES2024,RNETMIG2024
040,4,8,35,000,New Mexico,New Mexico,2117525,2118488,2116950,2113476,2121164,2130256,963,9092,\
5224,20000,0,44000,44000,4.1
050,4,8,35,013,New Mexico,Do\u00f1a Ana County,219561,219811,221000,222500,225210,229366,250,4156,\
600,2500,0,5000,5000,9.9
040,3,5,37,000,North Carolina,North Carolina,10439539,10447643,10569800,10710558,10881189,\
11046024,8104,164835,28000,120000,0,283000,283000,13.1
050,3,5,37,001,North Carolina,Alamance County,171415,171500,173000,176000,179000,171415,85,1,\
450,1900,0,4000,4000,20.1
050,3,5,37,183,North Carolina,Wake County,1129410,1132000,1150000,1170000,1190000,1129410,1,1,\
3000,13000,0,21000,21000,20.2
"""
# NHGIS: the redistricting file of 2020 with its second header, that of 2010, and a time series.
NHGIS_2020 = """\
"GISJOIN","YEAR","STUSAB","GEOID","GEOCODE","REGIONA","DIVISIONA","STATE","STATEA","COUNTY",\
"COUNTYA","COUSUBA","BASENAME","NAME","POP100","HU100","LSADC","U7B001","U7B002"
"GIS Join Match Code","Data File Year","State Postal Abbreviation","Geographic Record Identifier",\
"Geographic Code Identifier","Region Code","Division Code","State Name","State Code",\
"County Name","County Code","County Subdivision Code","Area Base Name","Area Name",\
"Population Count (100%)","Housing Unit Count (100%)","Description Code","Total","One race"
"G3700010","2020","NC","0500000US37001","37001","3","5","North Carolina","37","Alamance County",\
"001","","Alamance","Alamance County","171415","72611","06","171415","157868"
"G3701830","2020","NC","0500000US37183","37183","3","5","North Carolina","37","Wake County",\
"183","","Wake","Wake County","1129410","462580","06","1129410","1033437"
"""
NHGIS_2010 = """\
GISJOIN,YEAR,STUSAB,REGIONA,DIVISIONA,STATE,STATEA,COUNTY,COUNTYA,COUSUBA,PLACEA,NAME,H7V001
G3700010,2010,NC,3,5,North Carolina,37,Alamance County,001,,,Alamance County,171415
G3701830,2010,NC,3,5,North Carolina,37,Wake County,183,,,Wake County,1129410
"""
NHGIS_SURVEY = """\
GISJOIN,YEAR,STUSAB,STATE,STATEA,COUNTY,COUNTYA,NAME_E,AMPVE001,NAME_M,AMPVM001
G3700010,2017-2021,NC,North Carolina,37,Alamance County,001,Alamance County,171415,,-555555555
G3701830,2017-2021,NC,North Carolina,37,Wake County,183,Wake County,1129410,,-555555555
"""
NHGIS_SERIES = """\
GISJOIN,STATE,STATEFP,STATENH,COUNTY,COUNTYFP,COUNTYNH,A00AA2000,A00AA2010,A00AA2020
G3700010,North Carolina,37,370,Alamance County,001,0010,130800,151131,171415
G3701830,North Carolina,37,370,Wake County,183,1830,627846,900993,1129410
"""
# A state demographer's projections, by names, with the state's own line first.
PROJECTIONS = """\
County,"April 1, 2020","July 1, 2025","July 1, 2030"
North Carolina,"1,300,825","1,396,000","1,521,104"
Alamance,"171,415","183,000","195,104"
Wake,"1,129,410","1,213,000","1,326,000"
"Source: Office of State Budget and Management",,,
"""


class Made(Room):
    """Runs of the tool."""

    def made(self, held: Union[str, bytes], *words: str, name: str = "table") -> Ran:
        """Returns the run over a file that holds a text or bytes."""
        return self.run_tool(people.main, self.file(name, held), *words)

    def same(self, held: Union[str, bytes], *words: str, wanted: str = WANTED) -> List[str]:
        """Wants the counties that are wanted, and returns what is told besides the summary."""
        found = self.made(held, *words)
        self.assertEqual((found.status, found.text), (0, wanted), found.told)
        self.assertIn(": state ", found.told[0])
        lacking = "Counties of the state that aren't there: "
        return [line for line in found.told[1:] if not line.startswith(lacking)]

    def refused(self, held: Union[str, bytes], sentence: str, *words: str) -> None:
        """Wants one sentence, and nothing else."""
        self.assertEqual(self.made(held, *words), Ran(1, "", [sentence]), held)


def zip_of(members: Dict[str, Union[str, bytes]]) -> bytes:
    """Returns a zip with these members."""
    data = io.BytesIO()
    with zipfile.ZipFile(data, "w", zipfile.ZIP_DEFLATED) as packed:
        for name, held in members.items():
            packed.writestr(name, held)
    return data.getvalue()


class CensusBureau(Made):
    """What the Census Bureau publishes."""

    def test_the_api(self) -> None:
        self.assertEqual(self.same(API), [])
        numbers = API.replace('"171415"', "171415").replace('"1129410"', "1129410")
        self.assertEqual(self.same(numbers), [])

    def test_the_api_with_dates(self) -> None:
        told = "table has the people of several years: 2010, 2018, 2019; choose one by --year."
        self.refused(API_DATES, told)
        wanted = "county,people,name\n37183,1111761,Wake County\n"
        told = "Other years that --year chooses: 2010, 2018."
        self.assertEqual(self.same(API_DATES, "--year", "2019", wanted=wanted), [told])
        told = "Row 3 of table has county 37183, which row 2 has already: one row a county is "
        self.refused(API_DATES, told + "expected.", "--year", "2010")

    def test_the_api_with_years_in_columns(self) -> None:
        text = API.replace('"P1_001N"', '"POP_2020","POP_2021"')
        text = text.replace('"171415"', '"171415","173877"')
        text = text.replace('"1129410"', '"1129410","1150204"')
        told = "Other years that --year chooses: 2021."
        self.assertEqual(self.same(text, "--year", "2020"), [told])
        told = "table has the people of several years: 2020, 2021; choose one by --year."
        self.refused(text, told)

    def test_data_census_gov(self) -> None:
        told = ["Lines of no county, which were left out: 1."]
        self.assertEqual(self.same(DECENNIAL), told)
        self.assertEqual(self.same("\ufeff" + DECENNIAL.replace("\n", "\r\n")), told)
        self.assertEqual(self.same(SURVEY), [])

    def test_the_zip_of_data_census_gov(self) -> None:
        stem = "DECENNIALPL2020.P1_2026-01-02T030405/DECENNIALPL2020.P1"
        members: Dict[str, Union[str, bytes]] = {
            f"{stem}-Column-Metadata.csv": '"Column Name","Label"\n"GEO_ID","Geography"\n',
            f"{stem}-Data.csv": DECENNIAL,
            f"{stem}-Table-Notes.txt": "P1: RACE\n",
        }
        self.assertEqual(len(self.same(zip_of(members))), 1)

    def test_the_estimates(self) -> None:
        """The newest year is taken, and the others are listed."""
        told = ["Other years that --year chooses: 2020, 2021, 2022, 2023."]
        told.append("Counties of other states were left out; --state chooses the state.")
        told.append("Lines of no county, which were left out: 2.")
        text = ESTIMATES.encode("latin-1")
        self.assertEqual(self.same(text), told)
        wanted = "county,people,name\n37001,173000,Alamance County\n37183,1150000,Wake County\n"
        self.assertEqual(len(self.same(text, "--year", "2021", wanted=wanted)), 3)
        wanted = "county,people,name\n35013,229366,Doña Ana County\n"
        self.assertEqual(self.same(text, "--state", "35", wanted=wanted), told)
        wanted = "county,people,name\n35013,219561,Doña Ana County\n"
        words = ("--state", "35", "--people", "ESTIMATESBASE2020")
        self.same(text, *words, wanted=wanted)
        told = ["table has no people of `2010`: it has those of 2020, 2021, 2022, 2023, 2024."]
        self.assertEqual(self.made(text, "--year", "2010"), Ran(1, "", told))
        told = ["table has no county of state 13: it has those of 35, 37."]
        self.assertEqual(self.made(text, "--state", "13"), Ran(1, "", told))

    def census_zip(self, lines: Optional[str] = None, year: str = "2020") -> bytes:
        """Returns a zip as nc2020.pl.zip, with the counties' lines of the repository."""
        with open(os.path.join(DATA, "nc2020geo.pl"), encoding="latin-1") as file:
            geo = file.read() if lines is None else lines
        with open(os.path.join(DATA, "nc000012020.pl"), encoding="latin-1") as file:
            segment = file.read()
        return zip_of(
            {
                f"nc00001{year}.pl": segment,
                f"nc00002{year}.pl": "PLST|NC|000|02|0000001|1\n",
                f"nc00003{year}.pl": "PLST|NC|000|03|0000001|1\n",
                f"ncgeo{year}.pl": geo.encode("latin-1"),
            }
        )

    def test_the_zip_of_a_state(self) -> None:
        """The people of the 100 counties add up to those that the census counted, 10,439,388."""
        found = self.made(self.census_zip(), name="nc2020.pl.zip")
        told = "nc2020.pl.zip: state 37, counties 100, people 10,439,388, by table P1."
        self.assertEqual((found.status, found.told), (0, [told]))
        counties = check.read_people(found.text.encode(), 37)
        self.assertEqual(len(counties), 100)
        self.assertEqual({code: counties[code] for code in COUNTS}, COUNTS)
        self.assertIn("\n37183,1129410,Wake County\n", found.text)

    def test_the_zip_of_a_state_of_2010(self) -> None:
        """Its header has fixed columns: SUMLEV from 9, LOGRECNO from 19, STATE from 28, and NAME
        from 227. Its segments have commas.
        """
        geo = ""
        for record, county, name in ((2, "001", "Alamance"), (93, "183", "Wake")):
            line = f"PLST  NC05000000  {record:07}3537{county}".ljust(226)
            fields = line[8:11], line[18:25], line[27:32]
            self.assertEqual(fields, ("050", f"{record:07}", f"37{county}"))
            geo += line + f"{name} County".ljust(90) + "06S00000000\r\n"
        rows = (("0000001", 9_535_483), ("0000002", 151_131), ("0000093", 900_993))
        segment = "".join(f"PLST,NC,000,01,{one},{count},{count}\r\n" for one, count in rows)
        packed = zip_of({"ncgeo2010.pl": geo, "nc000012010.pl": segment, "nc000022010.pl": "x"})
        many = segment.replace("900993", "4294967296")
        told = "Line 3 of nc000012010.pl in table has more people than 4,294,967,295."
        self.refused(zip_of({"ncgeo2010.pl": geo, "nc000012010.pl": many}), told)
        wanted = "county,people,name\n37001,151131,Alamance County\n37183,900993,Wake County\n"
        self.same(packed, wanted=wanted)

    def test_zips_of_a_state_that_are_refused(self) -> None:
        told = "The zip table has PL 94-171 files of 2030: those of 2010 or 2020 are expected."
        self.refused(self.census_zip(year="2030"), told)
        told = "The geographic header ncgeo2020.pl in table has no county."
        self.refused(self.census_zip("PLST|NC|040\n"), told)
        told = "The geographic header ncgeo2020.pl in table has no county of state 13."
        self.refused(self.census_zip(), told, "--state", "13")
        told = "Line 1 of ncgeo2020.pl in table has more than 65,536 bytes."
        self.refused(self.census_zip("x" * 65_537), told)
        damaged = self.census_zip().replace(b"ncgeo2020.pl", b"ncgeo2020.pm", 1)
        told = "The file table is a zip, and it is damaged, or packed in another way."
        self.refused(damaged, told)

    def test_an_unpacked_file_of_a_state(self) -> None:
        with open(os.path.join(DATA, "nc2020geo.pl"), "rb") as file:
            held = file.read()
        told = "The file table is an unpacked file of PL 94-171, which the program reads: it takes "
        self.refused(held, told + "the geographic header by --geo, segment 1 by --segment.")


class Others(Made):
    """What others publish."""

    def test_nhgis(self) -> None:
        for text in (NHGIS_2020, NHGIS_2010, NHGIS_SURVEY):
            self.assertEqual(self.same(text), [])

    def test_nhgis_without_the_header_fields(self) -> None:
        """Of the tables that an extract has, each has a first column that ends with 001."""
        text = NHGIS_2010.replace("H7V001", "H7V001,H7X001")
        text = text.replace("171415\n", "171415,2\n").replace("1129410\n", "1129410,3\n")
        told = "table has several tables of NHGIS, with the first columns `H7V001`, `H7X001`: the "
        self.refused(text, told + "codebook tells which is the total; choose it by --people.")
        self.assertEqual(self.same(text, "--people", "H7V001"), [])

    def test_the_zip_of_nhgis(self) -> None:
        stem = "nhgis0001_csv/nhgis0001_ds248_2020_county"
        members: Dict[str, Union[str, bytes]] = {
            f"{stem}_codebook.txt": "Codebook for NHGIS data file\n",
            f"{stem}.csv": NHGIS_2020,
        }
        self.assertEqual(self.same(zip_of(members)), [])

    def test_a_time_series(self) -> None:
        told = ["Other years that --year chooses: 2000, 2010."]
        self.assertEqual(self.same(NHGIS_SERIES, "--year", "2020"), told)
        told = ["table has the people of several years: 2000, 2010, 2020; choose one by --year."]
        self.assertEqual(self.made(NHGIS_SERIES), Ran(1, "", told))

    def test_a_demographers_projections(self) -> None:
        told = ["Other years that --year chooses: 2025, 2030."]
        told.append("Lines of no county, which were left out: 2.")
        lines = PROJECTIONS.replace("\n", "\r\n")
        held: Tuple[Union[str, bytes], ...] = (PROJECTIONS, PROJECTIONS.encode("utf-16"), lines)
        for table in held:
            self.assertEqual(self.same(table, "--year", "2020"), told)
        tabs = PROJECTIONS.replace(',"', '\t"').replace(",,,", "\t\t\t")
        self.assertEqual(self.same(tabs, "--year", "2020"), told)
        wanted = "county,people,name\n37001,195104,Alamance County\n37183,1326000,Wake County\n"
        self.assertEqual(len(self.same(PROJECTIONS, "--year", "2030", wanted=wanted)), 2)
        years = "table has the people of several years: 2020, 2025, 2030; choose one by --year."
        self.refused(PROJECTIONS, years)

    def test_a_total_that_is_no_sum(self) -> None:
        text = "County,Population\nAlamance,171415\nWake,1129410\nState Total,1300826\n"
        found = self.made(text.replace("State Total", "Total")).told
        self.assertIn("Line 4 of table has 1300826 people in all, and its counties have ", found[2])
        told = "Line 4 of table has `Other`, which is no county of state 37: --names tells those "
        self.refused(text.replace("State Total", "Other"), told + "of another state.")

    def test_names(self) -> None:
        """A name may have what it is behind it, its state, and dots before it."""
        for one, other in (
            ("Alamance County", "WAKE COUNTY"),
            (".Alamance County, North Carolina", ".Wake County, North Carolina"),
            (" alamance ", "Wake, NC"),
        ):
            self.same(f'Name,Population\n"{one}",171415\n"{other}",1129410\n')

    def test_names_of_another_state(self) -> None:
        text = "County,Population\nAppling,18444\nBacon County,11140\n"
        borders = "County Name|County GEOID|Neighbor Name|Neighbor GEOID|Length\n"
        borders += "Appling County, GA|13001|Bacon County, GA|13005|1\n"
        borders += "Bacon County, GA|13005|Appling County, GA|13001|1\n"
        wanted = "county,people,name\n13001,18444,Appling County\n13005,11140,Bacon County\n"
        names = self.file("borders", borders)
        self.same(text, "--names", names, wanted=wanted)
        line = f"PLST|GA|050|00|00|000|00|0000002|0500000US13001|13001|||13|||001{'|' * 71}"
        self.assertEqual(self.made(text, "--names", names, "--state", "37").status, 1)
        self.assertEqual(self.made(text, "--names", self.file("geo", line)).status, 1)
        found = self.made(text, "--state", "13")
        self.assertIn("Of names, as `Wake County`, --names tells the codes", found.told[0])

    def test_columns_of_codes(self) -> None:
        for name in ("GEOID", "GEOID20", "FIPS", "fips_code", "County FIPS", "county"):
            self.same(TABLE.replace("GEOID", name))
        for form in ('="{}"', "'{}", " {} ", "0500000US{}"):
            text = TABLE.replace("37001", form.format("37001"))
            self.same(text.replace("37183", form.format("37183")))
        parts = TABLE.replace("GEOID", "STATE,COUNTY")
        self.same(parts.replace("37001", "37,001").replace("37183", "37,183"))
        self.same(parts.replace("37001", "37,1").replace("37183", "37,183"))
        parts = TABLE.replace("GEOID", "COUNTYFP").replace("37001", "1").replace("37183", "183")
        self.same(parts, "--state", "37")

    def test_columns_of_people(self) -> None:
        for name in ("people", "Total Population", "POP100", "TOTPOP", "POP20", "P0010001", "2024"):
            self.same(TABLE.replace("POPULATION", name))
        for name in ("July 1, 2024 Estimate", "Pop_2024", "Projection 2030", "DP1_0001C"):
            self.same(TABLE.replace("POPULATION", f'"{name}"'))
        for name in ("X", "3"):
            self.same(TABLE.replace("POPULATION", "X"), "--people", name)

    def test_no_header(self) -> None:
        bare = TABLE.split("\n", 1)[1]
        self.same(bare)
        without = "county,people,name\n37001,171415\n37183,1129410\n"
        self.same("37001,171415\n37183,1129410\n", wanted=without)
        self.same("37183|1129410\n37001|171415\n", wanted=without)

    def test_lost_leading_zeros(self) -> None:
        text = "FIPS,Population\n1001,58805\n1003,231767\n"
        self.same(text, wanted="county,people,name\n01001,58805\n01003,231767\n")

    def test_years_in_lines(self) -> None:
        text = "County,Year,Population\nWake,2020,1129410\nAlamance,2020,171415\n"
        text += "Wake,2030,1326000\nAlamance,2030,195104\n"
        told = ["Other years that --year chooses: 2030."]
        self.assertEqual(self.same(text, "--year", "2020"), told)
        told = ["table has the people of several years: 2020, 2030; choose one by --year."]
        self.assertEqual(self.made(text), Ran(1, "", told))

    def test_what_the_tool_made(self) -> None:
        self.same(WANTED)
        self.same(WANTED.replace(",", "|"))

    def test_packed_tables(self) -> None:
        self.same(gzip.compress(TABLE.encode()))
        self.same(zip_of({"a/t.csv": TABLE, "README.txt": "."}))
        self.same(gzip.compress(API.encode()))
        self.same(zip_of({"a.csv": TABLE, "b.csv": "."}), "--member", "a.csv")
        columns = [DbfColumn("GEOID", "C", 5), DbfColumn("NAMELSAD", "C", 20)]
        columns.append(DbfColumn("POP100", "N", 9))
        rows = [["37001", "Alamance County", "171415"], ["37183", "Wake County", "1129410"]]
        self.same(dbf(columns, rows))


class Refusals(Made):
    """What can't be read is refused with one sentence, which says what is expected."""

    def test_no_counties(self) -> None:
        told = "table has no county in any column that is known: its columns are `Where`, `People`"
        told += ". It is expected that the counties have a column of codes of five digits (GEOID, "
        told += "GEO_ID, FIPS, GISJOIN), or one of the state's and one of the county's code (STATE "
        told += "and COUNTY): choose one by --county. Of names, as `Wake County`, --names tells "
        self.refused("Where,People\nx,5\n", told + "the codes.")
        told = "table has no county: its lines are of other areas."
        text = "GEO_ID,P1_001N\n1400000US37001020100,4000\n0400000US37,10439388\n"
        self.assertIn("table has no county in any column", self.made(text).told[0])
        level = "SUMLEV,STATE,COUNTY,POP100\n140,37,001,4000\n"
        self.refused(level, told)

    def test_no_people(self) -> None:
        told = "table has no column that is known to have the people: its columns are `GEOID`, "
        told += "`Births`, `Deaths`. A name as POPESTIMATE2024, P1_001N, POP100, TOTPOP, "
        told += "Population or 2024 is expected; choose the column by --people."
        self.refused("GEOID,Births,Deaths\n37001,5,6\n", told)
        told = "table has no column `X`: its columns are `GEOID`, `NAME`, `POPULATION`."
        self.refused(TABLE, told, "--people", "X")
        told = "table has no column of people of `2020`."
        self.refused(TABLE, told, "--year", "2020")
        self.refused("GEOID,People\n37001,\n", "Line 2 of table has no people.")

    def test_numbers(self) -> None:
        head = "GEOID,People\n37001,171415\n37183,"
        for field, told in {
            "1.13E+06": "which a spreadsheet rounded: export the people as text",
            "5.5": "which is no whole number: round it as its source says",
            "-5": "which is no whole number",
            "N/A": "which is no whole number",
            '"11,29,410"': "which is no whole number",
        }.items():
            bare = field.strip('"')
            self.refused(f"{head}{field}\n", f"Line 3 of table has the people `{bare}`, {told}.")
        for count, printed in (
            ("4294967296", "4294967296"),
            ("9" * 5000, "9" * 40 + ".."),
        ):
            told = f"Line 3 of table has the people `{printed}`, more than 4,294,967,295."
            self.refused(f"{head}{count}\n", told)
        greatest = "4294967295"
        for field, count in (("5.0", "5"), ("0", "0"), ("007", "7"), (greatest, greatest)):
            wanted = f"county,people,name\n37001,171415\n37183,{count}\n"
            self.same(f"{head}{field}\n", wanted=wanted)

    def test_codes(self) -> None:
        told = "Line 4 of table has `37001020100`, and a county's code has five digits: people by "
        self.refused(f"{TABLE}37001020100,Tract,4000\n", told + "county are expected.")
        told = "Line 4 of table has county 37001, which line 2 has already: one line a county is "
        self.refused(f"{TABLE}37001,Alamance County,171415\n", told + "expected.")
        told = "table has counties of the states 13, 45: choose one by --state."
        self.refused("GEOID,People\n13001,5\n45001,6\n", told)

    def test_too_many_counties(self) -> None:
        rows = [f"48{number:03},5\n" for number in range(1, 260)]
        self.same("GEOID,People\n" + rows[0], wanted="county,people,name\n48001,5\n")
        told = "table has 259 counties of a state, and the program takes 256 at most."
        self.refused("GEOID,People\n" + "".join(rows), told)

    def test_json(self) -> None:
        other = "The file table is JSON, and no list of lists with the names of the columns in the "
        other += "first, as the Census Bureau's API answers: export the table as CSV, as that of a "
        other += "graph's nodes."
        for text in ('{"type": "FeatureCollection"}', "[]", "[5]", '["a"]', "[[]]"):
            self.refused(text, other)
        for text in ("[[", '[["a"', "[" * 100_000):
            self.refused(text, "The file table begins as JSON, and isn't whole: ask for it again.")
        told = "Row 2 of table has another number of fields (1) than the first (2)."
        self.refused('[["GEOID", "POP"], ["37001"]]', told)

    def test_files(self) -> None:
        self.refused("", "The file table has no line.")
        self.refused("GEOID,People\n", "table has no line below its header.")
        told = "The file table is an Excel workbook: save its sheet as CSV."
        self.refused(b"\xd0\xcf\x11\xe0..", told)
        told = "Line 2 of table has a field of more than 131,072 characters."
        self.refused("GEOID,People\n37001," + "5" * 131_073 + "\n", told)
        none = os.path.join(self.room, "none")
        told = "The file none can't be read: No such file or directory."
        self.assertEqual(self.run_tool(people.main, none), Ran(1, "", [told]))

    def test_a_bomb(self) -> None:
        """A packed table of 80 MB of one line, and a zip of a state, are refused early."""
        line = "37001," + "5" * 1_000 + "\n"
        text = "GEOID,People\n" + line * 80_000
        for held in (gzip.compress(text.encode()), zip_of({"a.csv": text})):
            found = self.made(held)
            self.assertEqual((found.status, len(found.told)), (1, 1))
            self.assertIn(" unpacks to more than 100 times its ", found.told[0])
        members: Dict[str, Union[str, bytes]] = {"ncgeo2020.pl": text, "nc000012020.pl": "x"}
        self.assertIn(" unpacks to more than 100 times its ", self.made(zip_of(members)).told[0])

    def test_names_of_members_are_printed_without_escapes(self) -> None:
        packed = zip_of({"a\x1b[2J.csv": "", "\u202eb.csv": ""})
        told = "has several tables, so choose one by --member NAME: a?[2J.csv, ?b.csv"
        self.refused(packed, f"The zip table {told}.")


class Outputs(Made):
    """The people file, as it is printed and stored."""

    def test_names_with_signs(self) -> None:
        """Quotes are doubled, and signs that aren't printable are blanks."""
        text = 'GEOID,NAME,People\n37001,"A ""B"" C\x1b\td",5\n37183,"x\ny",6\n'
        wanted = 'county,people,name\n37001,5,"A ""B"" C d"\n37183,6,x y\n'
        self.same(text, wanted=wanted)
        names = {"37001": (5, b'A "B" C d'), "37183": (6, b"x y")}
        self.assertEqual(check.read_named_people(wanted.encode(), 37), names)

    def test_each_layout_is_read_by_the_second_checker(self) -> None:
        for text in (API, DECENNIAL, SURVEY, ESTIMATES, NHGIS_2020, NHGIS_2010, TABLE):
            made = self.made(text).text.encode()
            self.assertEqual(check.read_people(made, 37), COUNTS, text)

    def test_a_file_that_is_stored(self) -> None:
        out = os.path.join(self.room, "out")
        found = self.made(TABLE, "--out", out)
        self.assertEqual((found.status, found.text), (0, ""))
        with open(out, encoding="utf-8", newline="") as file:
            self.assertEqual(file.read(), WANTED)
        self.assertEqual(stat.S_IMODE(os.stat(out).st_mode), 0o644)

    def test_standard_input_and_output(self) -> None:
        """What is printed is UTF-8 with LF, whatever the machine's encoding is."""
        words = [sys.executable, people.__file__, "-", "--state", "35"]
        held = {**os.environ, "PYTHONIOENCODING": "latin-1", "PYTHONUTF8": "0"}
        text = gzip.compress(ESTIMATES.encode("latin-1"))
        ran = subprocess.run(words, input=text, env=held, capture_output=True, check=False)
        wanted = "county,people,name\n35013,229366,Doña Ana County\n".encode()
        self.assertEqual((ran.returncode, ran.stdout), (0, wanted), ran.stderr)
        self.assertIn(b"standard input: state 35, counties 1, people 229,366", ran.stderr)

    def test_words(self) -> None:
        for words in ([], ["a", "b"], ["a", "--state", "x"], ["a", "--state", "0"], ["a", "--x"]):
            with contextlib.redirect_stderr(io.StringIO()) as said:
                self.assertRaisesRegex(SystemExit, "2", people.main, words)
            self.assertIn("error: ", said.getvalue())

    def test_json_with_other_values(self) -> None:
        held = json.loads(API)
        held[1].append(None)
        held[2].append(5.5)
        held[0].append("x")
        self.same(json.dumps(held))


if __name__ == "__main__":
    unittest.main(verbosity=0)
