"""The answer: every option by link and by click, what can be stored of it, and the keyboard."""
from __future__ import annotations

import json
import re
import subprocess
import xml.etree.ElementTree
from typing import Any

from page_setting import (
    CENSUS,
    DATA,
    FIXED_MILLISECONDS,
    FIXED_WORK,
    PROBLEM,
    InPage,
    native,
    run,
)
from machine_pace import allowed
from native_texts import COUNTS, GROUP_OF, OPTIONS, option_texts, pairs_of_one_tint

AREAS = (
    "[...document.querySelectorAll('#cards fieldset')]"
    ".map((one) => one.querySelectorAll('input').length)"
)


class Options(InPage):
    """Each option of both chambers."""

    def test_each_option_by_link(self) -> None:
        self.open()
        for key, option in OPTIONS:
            with self.subTest(f"{key} {option}"):
                self.go(f"#{key}/{option}")
                self.assertEqual(self.text("#option"), f"Option {option} of {COUNTS[key]}")
                grouping, table = option_texts(self.room, key, option)
                self.assertEqual(self.stored("grouping"), grouping)
                self.assertEqual(self.stored("csv"), table)
        self.check_quiet()

    def test_each_option_opened(self) -> None:
        for key, option in (("senate", 1), ("senate", 16), ("house", 3)):
            self.open(f"#{key}/{option}")
            self.assertEqual(self.text("#option"), f"Option {option} of {COUNTS[key]}")
        self.open()
        self.assertEqual(self.text("#option"), "Option 6 of 16")
        self.assertIn("Used for the plan enacted in 2023", self.text("#option-note"))
        self.check_quiet()

    def test_links_that_name_nothing(self) -> None:
        self.open("#senate/3")
        for mark in (
            "#senate/99",
            "#senate/1.5",
            "#house/0",
            "#senat",
            "#county/99999",
            "#county/37063/senate/37999",
        ):
            with self.subTest(mark):
                self.go(mark)
                self.assertIn("This link can’t be read", self.text("#unreadable"))
                self.assertIn("Nothing was answered.", self.text("#unreadable"))
                self.assertEqual(self.value("location.hash"), mark)
                self.assertTrue(self.value("document.querySelector('#answer').hidden"))
                self.go("#senate/3")
                self.assertEqual(self.text("#option"), "Option 3 of 16")
                self.assertTrue(self.value("document.querySelector('#unreadable').hidden"))
        self.check_quiet()

    def test_each_option_by_click(self) -> None:
        for key, count in COUNTS.items():
            self.open(f"#{key}")
            sizes = self.value(AREAS)
            seen = set()
            for number in range(count):
                left = number
                for area, size in enumerate(sizes):
                    switch = f"#map [data-area='{area}'][data-choice='{left % size}']"
                    card = f"#cards label:has([name='area{area}'][value='{left % size}'])"
                    self.click(card if area % 2 else switch)
                    left //= size
                shown = self.text("#option")
                self.assertEqual(self.value("location.hash"), f"#{key}/{shown.split()[1]}")
                seen.add(shown)
                self.assertEqual(pairs_of_one_tint(self.value(GROUP_OF)), [])
            self.assertEqual(len(seen), count)
            self.check_quiet()

    def test_stepping_and_going_back(self) -> None:
        self.open("#senate/16")
        self.press_button("#next")
        self.assertEqual(self.text("#option"), "Option 1 of 16")
        self.press_button("#previous")
        self.assertEqual(self.text("#option"), "Option 16 of 16")
        self.press_button("#back")
        self.assertEqual(self.text("#option"), "Option 6 of 16")
        self.assertIn("now go", self.text("#told"))
        self.press_button("#chambers [data-chamber=house]")
        self.wait_words("#option", "Option 7 of 8")
        self.check_quiet()

    def test_each_step_can_be_taken_back(self) -> None:
        self.open("#senate/6")
        self.press_button("#next")
        self.press_button("#next")
        self.assertEqual(self.text("#option"), "Option 8 of 16")
        for option in (7, 6):
            self.value("history.back(); null")
            self.wait_words("#option", f"Option {option} of 16")
            self.assertEqual(self.value("location.hash"), f"#senate/{option}")
        self.check_quiet()

    def test_a_step_draws_what_a_fresh_page_draws(self) -> None:
        drawn = (
            "(() => { document.querySelectorAll('#map .flash').forEach((one) => one.remove()); "
            "return ['#map', '#table', '#switches'].map((one) => "
            "document.querySelector(one).innerHTML); })()"
        )
        wanted = {}
        for width in (1400, 390):
            for mark in ("#senate/7", "#house/8", "#senate/8", "#2010/senate/2"):
                self.open(mark, width=width)
                wanted[width, mark] = self.value(drawn)
        for width in (1400, 390):
            self.open("#senate/6", width=width)
            self.click("#map .badge")
            self.press_button("#table tbody tr:nth-child(3)")
            self.press_button("#next")
            self.assertEqual(self.value(drawn), wanted[width, "#senate/7"])
            self.go("#house/7")
            self.press_button("#next")
            self.assertEqual(self.value(drawn), wanted[width, "#house/8"])
            self.go("#senate/7")
            self.press_button("#next")
            self.assertEqual(self.value(drawn), wanted[width, "#senate/8"])
            self.go("#2010/senate/1")
            self.press_button("#next")
            self.assertEqual(self.value(drawn), wanted[width, "#2010/senate/2"])
        self.check_quiet()

    def test_the_next_option_is_quick(self) -> None:
        step = (
            "document.querySelector('#next').click(); "
            "new Promise((done) => requestAnimationFrame(() => setTimeout(done, 20)))"
        )
        for width in (1400, 768, 390):
            self.open("#senate/6", width=width)
            for _ in range(16):
                self.press_button("#next")
            both = [(self.thread_time(step), self.thread_time(FIXED_WORK)) for _ in range(8)]
            took, fixed = (min(times) for times in zip(*both))
            told = f"{took:.0f} ms (the fixed work {fixed:.0f} ms)"
            print(f"the next option at {width} pixels: {told}", flush=True)
            self.assertLess(took, allowed(80, fixed, FIXED_MILLISECONDS))

    def test_the_link_is_copied(self) -> None:
        self.open("#house/3")
        permissions = ["clipboardReadWrite", "clipboardSanitizedWrite"]
        self.browser.ask("Browser.grantPermissions", permissions=permissions)
        self.click("#copy")
        self.wait_words("#toast", "This page lies on your machine, so only #house/3 is copied")
        copied = self.value("navigator.clipboard.readText()")
        self.assertEqual(copied, "#house/3")
        self.check_quiet()


class Stored(InPage):
    """What else the menu stores."""

    def test_certificate_and_record(self) -> None:
        self.open("#house/7")
        path = self.room / "house.certificate"
        words = [*PROBLEM, "--chamber", "120", "--certificate", str(path)]
        run("solve", *words)
        self.assertEqual(self.stored("certificate"), path.read_bytes())
        self.assertEqual(self.stored("record"), self.own_record("house", 120))

    def own_record(self, key: str, seats: int) -> bytes:
        """Returns the record that this machine's program stores for the words of the page's run."""
        folder = self.room / "recorded"
        folder.mkdir()
        (folder / "data").symlink_to(DATA.parent)
        words = [part for it, name in CENSUS.items() for part in (f"--{it}", f"data/nc2020/{name}")]
        words += ["--chamber", str(seats), "--certificate", f"{key}.certificate"]
        words += ["--out", f"{key}.grouping", "--table", f"{key}.csv", "--record", f"{key}.record"]
        subprocess.run([native(), "solve", *words], cwd=folder, capture_output=True, check=True)
        return (folder / f"{key}.record").read_bytes()

    def test_geojson(self) -> None:
        self.open("#senate/6")
        shapes = json.loads(self.stored("geojson"))
        own = json.loads((DATA / "county_outlines.geojson").read_text(encoding="utf-8"))
        places = {one["properties"]["GEOID"]: self.box(one) for one in own["features"]}
        self.assertEqual(len(shapes["features"]), 100)
        groups = {one["properties"]["GROUP"] for one in shapes["features"]}
        self.assertEqual(groups, set(range(1, 27)))
        for one in shapes["features"]:
            wanted = places[one["properties"]["GEOID"]]
            for mine, theirs in zip(self.box(one), wanted):
                self.assertAlmostEqual(mine, theirs, delta=0.02)
            self.check_rings(one)

    def test_dissolved_groups(self) -> None:
        self.open("#senate/6")
        groups = json.loads(self.stored("dissolved"))["features"]
        self.assertEqual(len(groups), 26)
        codes = [code for one in groups for code in one["properties"]["GEOIDS"].split()]
        self.assertEqual((len(codes), len(set(codes))), (100, 100))
        self.assertEqual(sum(one["properties"]["SEATS"] for one in groups), 50)
        counties = json.loads(self.stored("geojson"))["features"]
        areas: dict[int, float] = {}
        for one in counties:
            number = one["properties"]["GROUP"]
            areas[number] = areas.get(number, 0) + self.check_rings(one)
        for one in groups:
            # (the area of a group is the sum of those of its counties)
            wanted = areas[one["properties"]["GROUP"]]
            self.assertAlmostEqual(self.check_rings(one) / wanted, 1, delta=0.001)

    def check_rings(self, feature: dict[str, Any]) -> float:
        """Wants rings as RFC 7946 has them: closed, the outer one counterclockwise, holes
        clockwise. Returns the area of a feature."""
        area = 0.0
        for polygon in feature["geometry"]["coordinates"]:
            for at, ring in enumerate(polygon):
                self.assertEqual(ring[0], ring[-1])
                own = sum(
                    one[0] * other[1] - other[0] * one[1] for one, other in zip(ring, ring[1:])
                )
                self.assertEqual(own > 0, at == 0, feature["properties"])
                area += own / 2
        return area

    def test_all_options_in_a_table(self) -> None:
        self.open("#senate/6")
        path = self.room / "all.csv"
        certificate = ["--certificate", str(self.room / "all.certificate")]
        run("solve", *PROBLEM, "--chamber", "50", *certificate)
        run("list", *PROBLEM, "--chamber", "50", *certificate, "--groupings", str(path))
        self.assertEqual(self.stored("options"), path.read_bytes())

    def test_pictures_are_light_and_say_where_they_come_from(self) -> None:
        self.open("#senate/6", dark=True)
        svg = self.stored("svg").decode()
        self.assertIn('fill="#fff"', svg)
        self.assertRegex(svg, r"page.html#senate/6, \d{4}-\d\d-\d\d\.")
        self.assertIn("nc000012020.pl ", svg)
        self.assertNotIn("rgb(21, 24, 27)", svg)
        png = self.stored("share")
        self.assertEqual(int.from_bytes(png[16:20], "big"), 1200)
        frame = self.stored("embed").decode()
        self.assertIn("page.html#embed/senate/6", frame)
        self.open("#embed/senate/6", width=600)
        self.assertEqual(self.text("#option"), "Option 6 of 16")
        self.assertFalse(self.value("document.querySelector('.top').getClientRects().length > 0"))
        self.check_quiet()

    def box(self, feature: dict[str, Any]) -> list[float]:
        """Returns the box around a feature, in degrees."""
        text = json.dumps(feature["geometry"]["coordinates"])
        numbers = [float(one) for one in re.findall(r"-?\d+\.\d+|-?\d+", text)]
        wide, high = numbers[::2], numbers[1::2]
        return [min(wide), max(wide), min(high), max(high)]

    def test_svg_and_png(self) -> None:
        self.open("#house/3")
        svg = self.stored("svg").decode()
        root = xml.etree.ElementTree.fromstring(svg)
        self.assertIn("option 3 of 8", "".join(root.itertext()))
        self.assertNotIn("<use", svg)
        self.assertNotIn("var(--", re.sub(r"<pattern.*?</pattern>", "", svg, flags=re.S))
        png = self.stored("png")
        self.assertEqual(png[:8], b"\x89PNG\r\n\x1a\n")
        self.assertEqual(int.from_bytes(png[16:20], "big"), 2720)
        self.check_quiet()


class Pointing(InPage):
    """What is told of a group, by pointer, finger, table, name and keyboard."""

    def pill(self, name: str) -> list[float]:
        """Returns the middle of the pill of a group in the window."""
        pill = f"document.querySelector('#map .badge[aria-label^=\"{name}\"]')"
        script = (
            f"(() => {{ const one = {pill}.getBoundingClientRect(); "
            "return [one.x + one.width / 2, one.y + one.height / 2]; })()"
        )
        return list(self.value(script))

    def test_pointer(self) -> None:
        self.open("#senate/6")
        self.browser.point(*self.pill("Wake and Granville"))
        told = self.text("#told")
        # (people of Wake and Granville by the census; 5 percent below an ideal of 208,787.76)
        for words in ("1,190,402", "1,190,091 to 1,315,362", "In all 16 best groupings", "198,349"):
            self.assertIn(words, told)
        self.browser.point(5, 5)
        self.assertIn("Point at a group", self.text("#told"))

    def test_table_and_finder(self) -> None:
        self.open("#senate/6")
        self.value(
            "document.querySelector('#finder').value = '91'; "
            "document.querySelector('#finder')"
            ".dispatchEvent(new Event('change')); null"
        )
        self.wait_words("#told", "Wake and Granville")
        self.assertIn("Wake County", self.text("#county-card"))
        self.press_button("[data-sort=people]")
        self.assertEqual(self.text("#table tbody tr td:nth-child(2)"), "Mecklenburg, Iredell")
        self.press_button("#table tbody tr:nth-child(2)")
        self.assertIn("people per seat", self.text("#told"))
        self.check_quiet()

    def test_keyboard_on_the_cards(self) -> None:
        self.open("#senate/6")
        self.value("document.querySelector('#cards input:checked').focus()")
        self.browser.press("ArrowRight")
        self.assertNotEqual(self.text("#option"), "Option 6 of 16")
        self.assertEqual(self.value("document.activeElement.name"), "area0")
        self.browser.press("ArrowLeft")
        self.assertEqual(self.text("#option"), "Option 6 of 16")
        self.check_quiet()
