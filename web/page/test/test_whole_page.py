"""The page itself: its size, its first picture, its widths, its colors, and that it asks for
nothing."""
from __future__ import annotations

import http.server
import re
import sys
import threading
import unittest
import urllib.request

from page_setting import (
    CONTRAST,
    FIXED_MILLISECONDS,
    FIXED_WORK,
    SETTING,
    SIDEWAYS,
    TINTED,
    TOP,
    InPage,
    page,
)
from machine_pace import allowed
from printed_page import LEAST_LINES, lines_drawn

WIDTHS = (320, 360, 390, 768, 1024, 1400)
MARKS = (
    "#senate/6",
    "#house/1",
    "#county/37137",
    "#proof/senate",
    "#whatif/house",
    "#files",
    "#2010/senate/1",
    "#2000/house",
    "#senate/99",
)
MOST_BYTES = 1_700_000
# Where a browser that can't run the program is told so, and what it can't press.
UNABLE = (
    ("#proof/senate", "#check-verdict", ("#check", "#spoil")),
    ("#whatif/house/add=37087-37089", "#whatif-progress", ("#solve-again", "#try-borders")),
    ("#files", "#dropped", ("#solve-files", "#judge", "#audit")),
)
ASKING = """
Promise.all([
  fetch("ADDRESS").then(() => "answered", () => "refused"),
  new Promise((done) => {
    const one = new Image();
    one.onerror = () => done("refused");
    one.onload = () => done("answered");
    one.src = "ADDRESS/a.png";
  }),
  new Promise((done) => {
    const one = document.createElement("script");
    one.onerror = () => done("refused");
    one.onload = () => done("answered");
    one.src = "ADDRESS/a.js";
    document.body.append(one);
  }),
])
"""


class Counting(http.server.BaseHTTPRequestHandler):
    """Counts what it is asked for."""

    asked: list[str] = []

    def do_GET(self) -> None:
        """Answers, and counts."""
        self.asked.append(self.path)
        self.send_response(200)
        self.send_header("Access-Control-Allow-Origin", "*")
        self.end_headers()

    def log_message(self, *_: object) -> None:
        """Says nothing."""


class Text(unittest.TestCase):
    """The text of the page, for which no browser is needed."""

    def test_it_is_made_of_these_sources(self) -> None:
        sys.path.insert(0, str(TOP / "tools"))
        import page_file

        text = page().read_text(encoding="utf-8")
        wanted = f"<script>{page_file.script_text()}</script>"
        self.assertTrue(wanted in text, "the script is another: tools/make_page.py makes the page")
        style = (page_file.MODULES / "page.css").read_text(encoding="utf-8")
        self.assertTrue(f"<style>{style}</style>" in text, "the style is another")

    def test_the_folder_opens_the_page(self) -> None:
        text = (TOP / "docs" / "index.html").read_text(encoding="utf-8")
        self.assertIn('location.replace("page.html" + location.search + location.hash)', text)
        self.assertIn('<a href="page.html">', text)


class Page(InPage):
    """What holds of the whole page."""

    def test_size_and_first_paint(self) -> None:
        size = page().stat().st_size
        times = []
        for _ in range(5):
            self.open()
            self.wait("performance.getEntriesByName('first-contentful-paint').length > 0")
            script = "performance.getEntriesByName('first-contentful-paint')[0].startTime"
            times.append((self.value(script), self.value(FIXED_WORK)))
        took, fixed = (min(some) for some in zip(*times))
        told = f"first paint {took:.0f} ms (the fixed work {fixed:.0f} ms)"
        print(f"the page: {size:,} bytes, {told}", flush=True)
        self.assertLess(size, MOST_BYTES)
        self.assertLess(took, allowed(1000, fixed, FIXED_MILLISECONDS))

    def test_no_path_of_a_machine(self) -> None:
        text = page().read_text(encoding="utf-8")
        self.assertNotRegex(text, r"/(work|opt|tmp|home|root|usr)/")

    def test_it_asks_for_nothing(self) -> None:
        for mark in MARKS:
            self.open(mark)
            self.check_quiet()
        policy = self.value("document.querySelector('meta[http-equiv]').content")
        self.assertIn("default-src 'none'", policy)
        self.assertNotRegex(policy, r"https?:|\*|script-src[^;]*unsafe-inline| 'unsafe-eval'")

    def test_the_policy_refuses_requests(self) -> None:
        self.open()
        with http.server.HTTPServer(("127.0.0.1", 0), Counting) as server:
            threading.Thread(target=server.serve_forever, daemon=True).start()
            address = f"http://127.0.0.1:{server.server_port}"
            with urllib.request.urlopen(address) as answer:
                self.assertEqual((answer.status, len(Counting.asked)), (200, 1))
            script = ASKING.replace("ADDRESS", address)
            self.assertEqual(self.value(script), ["refused"] * 3)
            server.shutdown()
        self.assertEqual(len(Counting.asked), 1)
        violations = [one for one in self.browser.faults if "Content Security Policy" in one]
        self.assertGreaterEqual(len(violations), 3)

    def test_no_sideways_scrolling(self) -> None:
        for width in WIDTHS:
            self.open(width=width)
            for mark in MARKS:
                with self.subTest(f"{width} {mark}"):
                    self.go(mark)
                    self.assertLessEqual(self.value(SIDEWAYS), 0)
        self.check_quiet()

    def test_no_control_is_cut_off(self) -> None:
        script = """[...document.querySelectorAll("a, button, select, input, summary, textarea")]
            .filter((one) => one.getClientRects().length && !one.closest(".unseen, .skip, svg")
              && !one.matches(".unseen, .skip"))
            .map((one) => [one.getBoundingClientRect(), one])
            .filter(([box]) => box.left < -1 || box.right > innerWidth + 1)
            .map(([box, one]) => one.outerHTML.slice(0, 80))"""
        for width in (320, 390, 500, 690, 768, 1024, 1400):
            self.open(width=width)
            for mark in ("#senate/6", "#county/37137", "#whatif/senate", "#files", "#proof/senate"):
                self.go(mark)
                self.value("document.querySelector('#downloads').open = true; null")
                with self.subTest(f"{width} {mark}"):
                    self.assertEqual(self.value(script), [])

    def test_each_control_has_a_name(self) -> None:
        controls = {"button", "link", "textbox", "combobox", "checkbox", "radio", "spinbutton"}
        for mark in ("#senate/6", "#county/37137", "#whatif/senate", "#files", "#proof/senate"):
            self.open(mark)
            self.value("document.querySelectorAll('details').forEach((one) => one.open = true)")
            found = set()
            for node in self.browser.ask("Accessibility.getFullAXTree")["nodes"]:
                role = node.get("role", {}).get("value")
                if role in controls and not node["ignored"]:
                    found.add(role)
                    self.assertTrue(node.get("name", {}).get("value", "").strip(), (mark, node))
            self.assertLessEqual({"button", "link"}, found)
        self.check_quiet()

    def test_switches_of_long_names(self) -> None:
        # (by the counts of 2010 an area is called "Around Gaston")
        outside = """(() => {
          const place = document.querySelector("#switches");
          const edge = place.getBoundingClientRect().right + 1;
          return [...place.querySelectorAll("button")]
            .filter((one) => one.getBoundingClientRect().right > edge).length;
        })()"""
        for width in (320, 360, 390, 430):
            for mark in ("#2010/senate", "#2000/house", "#senate/6"):
                with self.subTest(f"{width} {mark}"):
                    self.open(mark, width=width)
                    self.assertEqual(self.value(outside), 0)

    def test_contrast(self) -> None:
        for dark in (False, True):
            self.open(dark=dark)
            ratios = self.value(CONTRAST.replace("PAIRS", str(TINTED)))
            for pair, ratio in zip(TINTED, ratios):
                self.assertGreaterEqual(ratio, 4.5, f"{pair} dark={dark}")

    def test_all_names_at_full_width(self) -> None:
        for mark in ("#senate/6", "#house/7"):
            self.open(mark)
            script = (
                "[...document.querySelectorAll('#map text.name')].map((one) => "
                "[one.textContent, "
                "parseFloat(one.style.fontSize) * Number(one.closest('svg').dataset.scale)])"
            )
            names = self.value(script)
            self.assertEqual(len({name for name, _ in names}), 100)
            self.assertGreaterEqual(min(size for _, size in names), 10.7)

    def test_a_phone(self) -> None:
        self.open("#senate/6", width=390, height=844)
        self.assertEqual(self.value("document.querySelectorAll('#map > svg').length"), 2)
        self.press_button("#switches [data-area='1'][aria-pressed='false']")
        self.assertNotEqual(self.text("#option"), "Option 6 of 16")
        script = (
            "(() => "
            "{ const badge = document.querySelector('#map .badge'); "
            "badge.scrollIntoView({ block: 'center', behavior: 'instant' }); "
            "const one = badge.getBoundingClientRect(); "
            "return [one.x + one.width / 2, one.y + one.height / 2]; })()"
        )
        self.browser.tap(*self.value(script))
        self.wait("document.querySelector('#told').classList.contains('has-group')")
        self.browser.ask("Emulation.setTouchEmulationEnabled", enabled=False)
        self.check_quiet()

    def test_without_scripts(self) -> None:
        self.open(has_scripts=False)
        self.browser.ask("Emulation.setScriptExecutionDisabled", value=False)
        self.assertIn("16\u00a0best ways", self.text("h1"))
        self.assertIn("Option 6 of 16", self.text("#option"))
        for place, count in (("#map", 26), ("noscript", 40)):
            shown = self.value(f"document.querySelectorAll('#answer {place} .badge').length")
            self.assertEqual(shown, count)
        self.assertEqual(self.value("document.querySelectorAll('#table tbody tr').length"), 26)
        self.assertEqual(self.value("document.querySelectorAll('#cards .choice').length"), 8)
        self.assertFalse(
            self.value(
                "[...document.querySelectorAll('.needs')].some((one) => "
                "one.getClientRects().length)"
            )
        )

    def test_print(self) -> None:
        self.open("#senate/6")
        path = self.room / "page.pdf"
        self.browser.save_print(str(path), 8.5, 11)
        pages = re.findall(rb"/Type\s*/Page\b", path.read_bytes())
        self.assertIn(len(pages), (3, 4, 5))
        self.assertGreater(lines_drawn(path.read_bytes()), LEAST_LINES)
        self.check_quiet()

    def test_a_browser_without_webassembly(self) -> None:
        self.browser.ask("Page.enable")
        script = "globalThis.WebAssembly = undefined;"
        known = self.browser.ask("Page.addScriptToEvaluateOnNewDocument", source=script)
        for mark, told, buttons in UNABLE:
            self.open(mark)
            self.assertRegex(self.text(told), r"\AThis browser can't run the program: [^.]*\.")
            for button in buttons:
                self.assertTrue(self.value(f"document.querySelector('{button}').disabled"), button)
        self.press_button("#use-own")
        self.wait("document.querySelectorAll('.drop-zone.has-file').length === 3")
        self.assertTrue(self.value("document.querySelector('#solve-files').disabled"))
        self.go("#senate/3")
        self.assertEqual(self.text("#option"), "Option 3 of 16")
        self.assertIn(b"|37101\n", self.stored("grouping"))
        self.browser.ask("Page.removeScriptToEvaluateOnNewDocument", identifier=known["identifier"])
        self.check_quiet()

    def test_what_only_the_page_tells(self) -> None:
        self.open("#senate/6")
        told = self.text("#answer")
        for words in (
            "Stephenson v. Bartlett",
            "16 groupings do this equally well",
            "in four areas",
            "The plan that was enacted into law in 2023, S.L. 2023-146, uses option 6.",
            "Used for the plan enacted in 2023",
            "Not proved:",
            "No lawful grouping",
        ):
            self.assertIn(words, told)
        self.assertIn("it isn’t the Census Bureau’s adjacency file", self.text(".foot"))

    def test_pictures(self) -> None:
        folder = SETTING.pictures
        if folder is None:
            self.skipTest("no folder was named (--pictures)")
        folder.mkdir(parents=True, exist_ok=True)
        for name, mark, width, dark in (
            ("wide", "#senate/6", 1400, False),
            ("dark", "#house/3", 1400, True),
            ("tablet", "#senate/1", 768, False),
            ("phone", "#senate/6", 390, False),
            ("proof", "#proof/senate", 1400, False),
            ("whatif", "#whatif/house", 1400, False),
            ("files", "#files", 1400, False),
        ):
            self.open(mark, width=width, dark=dark)
            self.browser.save_picture(str(folder / f"{name}.png"))
        self.open("#senate/6")
        self.browser.save_print(str(folder / "print.pdf"), 8.5, 11)
