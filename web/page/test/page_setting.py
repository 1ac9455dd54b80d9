"""What the tests of the page work on: the page, the program beside it, and a browser."""
from __future__ import annotations

import json
import re
import subprocess
import sys
import tempfile
import time
from dataclasses import dataclass
from pathlib import Path
from typing import Any

TOP = Path(__file__).resolve().parent.parent.parent.parent
DATA = TOP / "data" / "nc2020"
STATES = TOP / "data" / "states"
CENSUS = {"geo": "nc2020geo.pl", "segment": "nc000012020.pl", "adjacency": "county_borders.txt"}
PROBLEM = [part for word, name in CENSUS.items() for part in (f"--{word}", str(DATA / name))]
CHAMBERS = {"senate": 50, "house": 120}
# How long is waited for what has to come. It is no bar of time: a machine may be slow, and busy.
SECONDS = 300.0
OWN_PAGE = TOP / "docs" / "page.html"
SHOWN = re.compile(r'(<script type="application/json" id="data">)(.*?)(</script>)', re.S)
CARRIED = re.compile(r'(<script type="application/json" id="carried">)(.*?)(</script>)', re.S)

sys.path.insert(0, str(TOP / "tools"))

from browser_trial import InBrowser  # noqa: E402
from installed import NotThere, program_there  # noqa: E402


SIDEWAYS = "document.documentElement.scrollWidth - document.documentElement.clientWidth"
MOST_TABS = 150
# The contrast of pairs of the page's colors, and the pairs of which each has to be legible.
CONTRAST = """
(() => {
  const styles = getComputedStyle(document.documentElement);
  const canvas = document.createElement("canvas").getContext("2d");
  const light = (name) => {
    canvas.fillStyle = styles.getPropertyValue(name);
    const parts = canvas.fillStyle.match(/[0-9a-f]{2}/g).map((part) => {
      const share = parseInt(part, 16) / 255;
      return share <= 0.03928 ? share / 12.92 : ((share + 0.055) / 1.055) ** 2.4;
    });
    return 0.2126 * parts[0] + 0.7152 * parts[1] + 0.0722 * parts[2];
  };
  const ratio = ([one, other]) => {
    const [low, high] = [light(one), light(other)].sort((a, b) => a - b);
    return (high + 0.05) / (low + 0.05);
  };
  return PAIRS.map(ratio);
})()
"""
TINTED = [
    *[["--label", f"--t{tint}"] for tint in range(5)],
    *[["--ink", f"--s{tint}"] for tint in range(5)],
    *[["--soft", f"--t{tint}"] for tint in range(5)],
    ["--soft", "--accent-soft"],
    ["--accent", "--badge"],
    ["--ink", "--paper"],
    ["--soft", "--paper"],
    ["--soft", "--panel"],
    ["--ink", "--panel"],
    ["--accent", "--paper"],
    ["--accent", "--accent-soft"],
    ["--link", "--paper"],
    ["--good", "--paper"],
    ["--badge-ink", "--badge"],
    ["--soft", "--land"],
]
# (the middle first, then further places: a county needn't be where the middle of its box is)
PLACE_OF = """
(() => {
  const one = document.querySelector(SELECTOR);
  one.scrollIntoView({ block: "center" });
  const { x, y, width, height } = one.getBoundingClientRect();
  for (const part of [0.5, 0.4, 0.6, 0.3, 0.7, 0.2, 0.8]) {
    for (const other of [0.5, 0.4, 0.6, 0.3, 0.7, 0.2, 0.8]) {
      const at = [x + width * part, y + height * other];
      if (one.contains(document.elementFromPoint(...at))) return at;
    }
  }
  throw new Error(`${SELECTOR} is covered everywhere`);
})()
"""
IS_SEEN = """
(() => {
  const one = document.activeElement;
  const shown = one.matches("label input") ? one.closest("label") : one;
  const { x, y, width, height } = shown.getBoundingClientRect();
  const isInWindow = width > 4 && height > 4 && y >= 0 && y < innerHeight && x >= 0
    && x < innerWidth;
  const isMarked = [one, shown].map((it) => getComputedStyle(it)).some((style) => (
    style.outlineStyle !== "none" && parseFloat(style.outlineWidth) > 0));
  return isInWindow && (isMarked || one.closest("svg") !== null);
})()
"""


# A fixed piece of work of the page's main thread, which no part of the page takes part in: building
# a table of 1,500 cells in a tree of its own, its style and its layout, three times. It gives the
# milliseconds that it took. FIXED_MILLISECONDS is the least that it took on the machine on which
# the bars of time were written down.
FIXED_WORK = """
(() => {
  const host = document.createElement("div");
  host.style.cssText = "position: fixed; width: 900px; height: 500px; contain: strict";
  const root = host.attachShadow({ mode: "open" });
  document.body.append(host);
  const begin = performance.now();
  for (let round = 0; round < 3; round += 1) {
    const table = document.createElement("table");
    for (let row = 0; row < 300; row += 1) {
      const line = table.insertRow();
      for (let cell = 0; cell < 5; cell += 1) line.insertCell().textContent = `${row} by ${cell}`;
    }
    root.replaceChildren(table);
    table.getBoundingClientRect();
  }
  host.remove();
  return performance.now() - begin;
})()
"""
FIXED_MILLISECONDS = 40.0


@dataclass
class Setting:
    """What a run of the tests was asked for."""

    page: Path = OWN_PAGE
    program: Path | None = None
    wasm: Path = TOP / "dist" / "countygroups.wasm"
    pictures: Path | None = None
    jobs: int = 2


SETTING = Setting()
ROOM = tempfile.TemporaryDirectory()


def native() -> str:
    """Returns the program of this machine."""
    if SETTING.program is None:
        raise NotThere("no program of this machine was named (--program)")
    return str(SETTING.program)


def page() -> Path:
    """Returns the page, which is made first if it isn't there."""
    if SETTING.page.is_file():
        return SETTING.page
    if SETTING.program is None or not SETTING.wasm.is_file():
        raise NotThere(f"{SETTING.page.name} isn't there; --program and --wasm make one")
    program_there("node")
    made = Path(ROOM.name) / "page.html"
    words = [sys.executable, str(TOP / "tools" / "make_page.py"), "--program", native()]
    words += ["--wasm", str(SETTING.wasm), "--out", str(made), *tables_of_the_release()]
    subprocess.run(words, check=True)
    SETTING.page = made
    return made


def tables_of_the_release() -> list[str]:
    """Returns the words by which a page has the tables of closeness and of deciding borders that
    docs/page.html has, since making them takes half an hour. If it has none, there are no words."""
    if not OWN_PAGE.is_file():
        return []
    shown = SHOWN.search(OWN_PAGE.read_text(encoding="utf-8"))
    assert shown
    data = json.loads(shown[2])
    folder = Path(ROOM.name) / "tables"
    folder.mkdir(exist_ok=True)
    for census in (data, *data["further"]):
        before = "" if census is data else f"{census['year']}."
        for chamber in census["chambers"]:
            tables = {f"{before}{chamber['key']}.csv": chamber["close"]}
            if census is data:
                tables[f"{chamber['key']}_borders.csv"] = chamber["deciding"]
            for name, table in tables.items():
                if not table:
                    return []
                (folder / name).write_text(table, encoding="utf-8")
    return ["--tables", str(folder)]


def run(*words: str) -> str:
    """Returns what the program of this machine prints."""
    done = subprocess.run([native(), *words], capture_output=True, check=False)
    return done.stdout.decode()


class InPage(InBrowser):
    """Tests in one browser, each with the page opened anew."""

    @classmethod
    def setUpClass(cls) -> None:
        page()
        super().setUpClass()

    def setUp(self) -> None:
        self.browser.faults = []

    def open(self, mark: str = "", path: Path | None = None, **how: Any) -> None:
        """Opens the page at a mark of its address."""
        how.setdefault("width", 1400)
        self.browser.open(str(path or page()), mark=mark, **how)

    def carried(self) -> tuple[str, Any]:
        """Returns the page's text and what it carries."""
        text = page().read_text(encoding="utf-8")
        found = CARRIED.search(text)
        assert found
        return text, json.loads(found[2])

    def page_with(self, text: str, carried: Any) -> Path:
        """Returns a copy of the page that carries something else."""
        held = json.dumps(carried)
        changed = CARRIED.sub(lambda found: found[1] + held + found[3], text)
        path = self.room / "changed.html"
        path.write_text(changed, encoding="utf-8")
        return path

    def go(self, mark: str) -> None:
        """Goes to a mark of the page, as a link does."""
        self.browser.value(f"location.hash = {json.dumps(mark)}")
        self.browser.value("new Promise((done) => setTimeout(done, 50))")

    def value(self, script: str) -> Any:
        """Returns what a script gives."""
        return self.browser.value(script)

    def text(self, selector: str) -> str:
        """Returns the words of an element as they are shown."""
        return str(self.value(f"document.querySelector({json.dumps(selector)}).innerText"))

    def place(self, selector: str) -> tuple[float, float]:
        """Returns a place of the window where an element lies, and nothing covers it."""
        x, y = self.value(PLACE_OF.replace("SELECTOR", json.dumps(selector)))
        return float(x), float(y)

    def click(self, selector: str) -> None:
        """Clicks an element by the pointer."""
        self.browser.click(*self.place(selector))

    def drop(self, selector: str, *paths: Path) -> None:
        """Has a reader drop files on an element."""
        self.browser.drop_files(*self.place(selector), [str(path) for path in paths])

    def tab_to(self, selector: str) -> None:
        """Presses the Tab key until an element of the selector has the focus, and is seen."""
        focused = f"document.activeElement.matches({json.dumps(selector)})"
        for _ in range(MOST_TABS):
            if self.value(focused):
                break
            self.browser.press("Tab")
        else:
            raise AssertionError(f"the Tab key never comes to {selector}")
        self.assertTrue(self.value(IS_SEEN), f"{selector} has the focus, and isn't seen")

    def press(self, key: str) -> None:
        """Presses a key once: one that `browser` names, or a letter."""
        if len(key) != 1 or not key.isalpha():
            self.browser.press(key)
            return
        for kind in ("keyDown", "keyUp"):
            text = {"text": key} if kind == "keyDown" else {}
            code = f"Key{key.upper()}"
            self.browser.ask("Input.dispatchKeyEvent", type=kind, key=key, code=code, **text)

    def type_text(self, text: str) -> None:
        """Types a text into what has the focus."""
        self.browser.ask("Input.insertText", text=text)

    def press_button(self, selector: str) -> None:
        """Presses a button or another control."""
        self.value(f"document.querySelector({json.dumps(selector)}).click(); null")

    def wait(self, script: str, seconds: float = SECONDS) -> float:
        """Waits until a script gives true, and returns how long it took, in seconds."""
        start = time.monotonic()
        while time.monotonic() - start < seconds:
            if self.value(script):
                return time.monotonic() - start
            time.sleep(0.02)
        raise AssertionError(f"never so: {script}")

    def wait_words(self, selector: str, words: str, seconds: float = SECONDS) -> str:
        """Waits until an element has words, and returns its text."""
        quoted = json.dumps(words)
        element = f"document.querySelector({json.dumps(selector)})"
        try:
            self.wait(f"{element}.innerText.includes({quoted})", seconds)
        except AssertionError as fault:
            said = f"{selector} says {self.text(selector)!r}, not {words!r}"
            raise AssertionError(said) from fault
        return self.text(selector)

    def give(self, selector: str, *paths: Path) -> None:
        """Has a reader choose files."""
        self.browser.give_files(selector, [str(path) for path in paths])

    def stored(self, kind: str) -> bytes:
        """Returns what a button of the menu stores."""
        script = f"document.querySelector('[data-download={kind}]').click(); null"
        with tempfile.TemporaryDirectory(dir=self.room) as folder:
            return Path(self.browser.download(script, folder)).read_bytes()

    def thread_time(self, script: str) -> float:
        """Returns how long the main thread works on a script, in milliseconds."""
        self.browser.ask("Performance.enable", timeDomain="threadTicks")
        before = self.thread_total()
        self.value(script)
        return self.thread_total() - before

    def thread_total(self) -> float:
        """Returns how long the main thread has worked, in milliseconds."""
        metrics = self.browser.ask("Performance.getMetrics")["metrics"]
        return float(next(it["value"] for it in metrics if it["name"] == "TaskDuration") * 1000)

    def check_quiet(self) -> None:
        """Wants nothing on the console, and that the page asked for nothing but itself."""
        self.value("new Promise((done) => setTimeout(done, 50))")
        self.assertEqual(self.browser.faults, [])
        own = ("file:", "blob:", "data:")
        self.assertEqual([one for one in self.browser.events if not one.startswith(own)], [])
        files = {one.split("#")[0] for one in self.browser.events if one.startswith("file:")}
        self.assertLessEqual(len(files), 1)
