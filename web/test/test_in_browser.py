"""The program in a page that is one file, opened from the disk in a headless Chromium."""
from __future__ import annotations

import base64
import gzip
import json
import os
import shutil
import subprocess
import tempfile
from pathlib import Path
from typing import Any

from web_setting import DATA, HOST, WEB, chosen, make_launcher, wasm
from test_cases import all_cases

import bundle
from browser_trial import InBrowser
from cases import Case

FILES = ("nc2020geo.pl", "nc000012020.pl", "county_borders.txt")
PROBLEM = ["--geo", FILES[0], "--segment", FILES[1], "--adjacency", FILES[2]]
STORED = ["--certificate", "certificate", "--out", "grouping", "--table", "table"]
FOLDERS = ("person", "files", "solve_files", "size", "check", "list", "long", "share")
SAMPLE = 40
ENTRY = WEB / "test" / "page_entry.mjs"
PAGE = """<!doctype html><html lang="en"><meta charset="utf-8"><title>Test</title>
<input type="file" id="files" multiple>
<script>{before}</script><script>{script}</script>
<script>const PROGRAM = "{program}";</script></html>"""


def text_of(held: bytes) -> str:
    """Returns bytes as base64."""
    return base64.b64encode(held).decode("ascii")


def page_of(before: str = "", script: str = "") -> str:
    """Returns the page, in which the script `before` runs first. `script` stands for its own."""
    packed = text_of(gzip.compress(wasm().read_bytes(), mtime=0))
    return PAGE.format(before=before, script=script or bundle.page_script(ENTRY), program=packed)


class InPage(InBrowser):
    """Runs in one browser."""

    @classmethod
    def setUpClass(cls) -> None:
        super().setUpClass()
        cls.open_page(page_of())

    @classmethod
    def open_page(cls, text: str) -> None:
        """Opens a page of this text."""
        path = cls.room / "page.html"
        path.write_text(text, encoding="utf-8")
        cls.browser.open(str(path))

    def run_words(self, words: list[str], files: dict[str, bytes], **more: object) -> Any:
        """Returns what a run in the page left, with bytes for base64."""
        named = {name: text_of(held) for name, held in files.items()}
        asked = json.dumps({"words": words, "files": named, "input": "", **more})
        made = self.browser.value(f"unpackModule(PROGRAM).then((it) => run(it, {asked}))")
        for name in ("output", "errors"):
            made[name] = base64.b64decode(made[name])
        made["stored"] = {it: base64.b64decode(held) for it, held in made["stored"].items()}
        return made

    def failure(self, name: str) -> "str | None":
        """Returns what is wrong with a case, or None."""
        case = Case(name.rsplit(".", 1)[0])
        files = case.whole_files()
        stored: dict[str, bytes] = {}
        said, told = b"", b""
        for words in case.runs:
            made = self.run_words(words, {**files, **stored}, input=text_of(case.given))
            said += made["output"] + b"exit %d\n" % made["status"]
            told += made["errors"]
            stored.update(made["stored"])
        if case.lines:
            lines = [it for it in said.split(b"\n") if it.startswith((*case.lines, b"exit "))]
            said = b"".join(it + b"\n" for it in lines)
        kept = {it: held for it, held in stored.items() if it not in case.any}
        if said != case.wanted or (case.told is not None and told != case.told):
            return f"{name}: another text: {said[-300:]!r} {told[-300:]!r}"
        left = {it: held for it, held in kept.items() if case.files.get(it) != held}
        return None if left == case.stored else f"{name}: other files: {sorted(left)}"

    def check_quiet(self) -> None:
        """Wants nothing on the console, and that the page asked for no other file."""
        self.assertEqual(self.browser.faults, [])
        own = ("file:", "blob:", "data:", "loaded")
        self.assertEqual([it for it in self.browser.events if not it.startswith(own)], [])


class Chambers(InPage):
    """Both chambers of 2020 beside the launcher."""

    def files(self) -> dict[str, bytes]:
        """Returns the files of North Carolina 2020 by their names."""
        return {name: (DATA / name).read_bytes() for name in FILES}

    def test_solve_check_and_list(self) -> None:
        program = make_launcher(self.room)
        for chamber in ("120", "50"):
            folder = Path(tempfile.mkdtemp(dir=self.room))
            files = self.files()
            for name, held in files.items():
                (folder / name).write_bytes(held)
            for command, stored in (("solve", STORED), ("check", STORED[:2]), ("list", STORED[:2])):
                words = [command, *PROBLEM, "--chamber", chamber, *stored]
                done = subprocess.run(
                    [str(program), *words], cwd=folder, capture_output=True, check=False
                )
                made = self.run_words(words, files)
                print(f"{command} {chamber}: {made['milliseconds'] / 1000:.2f} s", flush=True)
                wanted = (done.returncode, done.stdout, done.stderr)
                self.assertEqual((made["status"], made["output"], made["errors"]), wanted)
                for name, held in made["stored"].items():
                    self.assertEqual(held, (folder / name).read_bytes(), name)
                self.assertEqual(len(made["stored"]), 3 if command == "solve" else 0)
                files.update(made["stored"])
                self.check_progress(made)
        self.check_quiet()

    def check_progress(self, made: Any) -> None:
        """Wants each line of progress in its form."""
        for line in made["progress"]:
            self.assertRegex(line, r"\Acountygroups: groups of up to \d+ counties, .* steps\Z")

    def test_a_long_search_tells_its_progress(self) -> None:
        # (a line is due for each second of the search, and these steps take more on any machine)
        words = ["solve", "--state", "21", "--chamber", "38", "--steps", "1500000"]
        files = {}
        for kind in ("geo", "segment", "adjacency"):
            words += [f"--{kind}", kind]
            files[kind] = (DATA.parent / "states" / f"kentucky.{kind}").read_bytes()
        made = self.run_words(words, files)
        self.assertEqual((made["status"], made["stored"]), (3, {}))
        self.assertTrue(made["progress"])
        self.check_progress(made)

    def test_a_run_is_stopped(self) -> None:
        script = "unpackModule(PROGRAM).then((it) => stopAtOnce(it, ['--version']))"
        self.assertEqual(self.browser.value(script), "ProcessError true")
        self.assertEqual(self.run_words(["--version"], {})["status"], 0)

    def test_a_file_of_many_pieces(self) -> None:
        held = (DATA / FILES[2]).read_bytes()
        files = {"borders": held + held.split(b"\n", 1)[1] * 70}
        self.assertGreater(len(files["borders"]), 2 << 20)
        files.update({name: (DATA / name).read_bytes() for name in FILES[:2]})
        words = ["solve", *PROBLEM[:4], "--adjacency", "borders", "--chamber", "120"]
        wanted = self.run_words([*words[:5], *PROBLEM[4:], *words[7:]], self.files())
        self.assertEqual(self.run_words(words, files)["output"], wanted["output"])


class PageCases(InPage):
    """Cases in the page, standard error among them."""

    def test_cases(self) -> None:
        fit = [one for one in all_cases() if Path(one).parent.name in FOLDERS]
        fit = [one for one in fit if not self.needs_a_machine(Path(one))]
        self.assertGreater(len(fit), 200)
        for name in chosen(fit, SAMPLE, "page"):
            with self.subTest(name):
                self.assertIsNone(self.failure(name))
        self.check_quiet()

    def needs_a_machine(self, path: Path) -> bool:
        """Returns whether a case needs what a page hasn't: cuts, paths, and files of its input."""
        words = path.with_suffix(".words")
        named = words.read_bytes() if words.exists() else b""
        is_from_input = b"-" in named.split()
        return path.with_suffix(".cuts").exists() or is_from_input or b"/" in named


class Selected(InPage):
    """Files of the disk that a person chose."""

    def choose(self, *paths: Path) -> None:
        """Has a person choose the files at `paths`."""
        root = self.browser.ask("DOM.getDocument")["root"]["nodeId"]
        node = self.browser.ask("DOM.querySelector", nodeId=root, selector="#files")["nodeId"]
        chosen_files = [str(path) for path in paths]
        self.browser.ask("DOM.setFileInputFiles", nodeId=node, files=chosen_files)

    def size(self) -> Any:
        """Runs `size` over the files that were chosen."""
        words = ["size", *PROBLEM[:4], "--chamber", "50"]
        asked = json.dumps({"words": words, "files": {}, "input": ""})
        named = "Object.fromEntries([...files.files].map((it) => [it.name, it]))"
        return self.browser.value(f"unpackModule(PROGRAM).then((it) => run(it, {asked}, {named}))")

    def copies(self) -> list[Path]:
        """Returns the paths of copies of both Census files in the room."""
        paths = [self.room / name for name in FILES[:2]]
        for path in paths:
            path.write_bytes((DATA / path.name).read_bytes())
        return paths

    def test_files_are_read(self) -> None:
        self.choose(*self.copies())
        made = self.size()
        self.assertEqual(made["status"], 0)
        self.assertTrue(base64.b64decode(made["output"]).startswith(b"people 10439388\n"))

    def test_a_file_that_changed_since(self) -> None:
        paths = self.copies()
        self.choose(*paths)
        # The page has looked at the files before the change, whose time is years away from theirs.
        self.browser.value("[...files.files].map((it) => it.size)")
        paths[0].write_bytes(b"another text\n")
        os.utime(paths[0], (0, 0))
        made = self.size()
        self.assertEqual(made["status"], 5)
        self.assertEqual(base64.b64decode(made["output"]), b"device nc2020geo.pl Device\n")


class Unable(InPage):
    """A browser without WebAssembly."""

    def test_it_is_told_in_one_sentence(self) -> None:
        self.assertIsNone(self.browser.value("reasonAgainstRunning()"))
        self.open_page(page_of("globalThis.WebAssembly = undefined;"))
        told = self.browser.value("reasonAgainstRunning()")
        self.assertRegex(told, r"\AThis browser can't run the program: [^.]*\.\Z")
        self.assertEqual(self.browser.faults, [])


class Planted(InPage):
    """A host for pages in which a fault is planted."""

    def page_with(self, old: str, new: str) -> str:
        """Returns a page whose files are those of a host in which a text is replaced."""
        web = Path(tempfile.mkdtemp(dir=self.room))
        shutil.copytree(HOST, web / "host")
        (web / "test").mkdir()
        shutil.copy(ENTRY, web / "test")
        files = web / "host" / "browser_files.mjs"
        text = files.read_text(encoding="utf-8")
        self.assertEqual(text.count(old), 1)
        files.write_text(text.replace(old, new), encoding="utf-8")
        return page_of(script=bundle.page_script(web / "test" / ENTRY.name, web / "host"))

    def test_planted_faults_are_found(self) -> None:
        cases = [one for one in all_cases() if Path(one).parent.name == "solve_files"]
        for name, (old, new) in FAULTS.items():
            with self.subTest(name):
                self.open_page(self.page_with(old, new))
                self.assertTrue(any(self.failure(case) for case in cases))


FAULTS = {
    "read gives one byte less at the end": (
        "    this.at += part.length;\n    return part.length;\n",
        "    this.at += part.length;\n"
        "    const isEnd = this.at >= this.blob.size && part.length > 0;\n"
        "    return isEnd ? part.length - 1 : part.length;\n",
    ),
    "rename does nothing": (
        "    const [old, name] = [textOf(from), textOf(to)];\n",
        "    if (to) return;\n    const [old, name] = [textOf(from), textOf(to)];\n",
    ),
}
