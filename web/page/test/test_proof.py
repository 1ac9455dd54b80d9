"""The proof: the check passes on what is there, and says No to a changed byte of each file."""
from __future__ import annotations

import base64
import gzip
import hashlib
import json
import time
from collections.abc import Callable
from pathlib import Path
from typing import Any

from page_setting import (
    CENSUS,
    DATA,
    OWN_PAGE,
    PROBLEM,
    SETTING,
    SHOWN,
    TOP,
    InPage,
    page,
    run,
)

from machine_pace import allowed

DIST = TOP / "dist"
# The least that the program took to solve the Senate where the bar of its check was written down.
NATIVE_SECONDS = 0.2


def other_digit(content: bytes, place: int) -> bytes:
    """Returns bytes with another digit at a place."""
    digit = content[place : place + 1]
    return content[:place] + (b"1" if digit != b"1" else b"2") + content[place + 1 :]


def sum_of(path: Path) -> str:
    """Returns the SHA-256 of a file."""
    return hashlib.sha256(path.read_bytes()).hexdigest()


def people_changed(content: bytes) -> bytes:
    """Returns the counts with another number of people in Wake County (1,129,410)."""
    return content.replace(b"|1129410|", b"|1129411|", 1)


def code_changed(content: bytes) -> bytes:
    """Returns the geographic header with the record of Ashe County for that of Avery."""
    lines = content.split(b"\n")
    at = next(i for i, line in enumerate(lines) if line.split(b"|")[14:15] == [b"009"])
    fields = lines[at].split(b"|")
    fields[14] = b"010"
    lines[at] = b"|".join(fields)
    return b"\n".join(lines)


def border_changed(content: bytes) -> bytes:
    """Returns the borders without Burke (37023) and Lincoln (37109)."""
    content = content.replace(b"|37023|Lincoln County, NC|37109|", b"|37023|Lincoln|37023|")
    return content.replace(b"|37109|Burke County, NC|37023|", b"|37109|Burke|37109|")


def target_changed(content: bytes) -> bytes:
    """Returns a certificate with another seat in the first group of its target."""
    place = content.index(b"\ngroup ") + len(b"\ngroup ")
    return other_digit(content, place)


CHANGES: dict[str, Callable[[bytes], bytes]] = {
    "geo": code_changed,
    "segment": people_changed,
    "adjacency": border_changed,
    "senate.certificate": target_changed,
}


class Proof(InPage):
    """The second view."""

    def verdict(self, key: str) -> str:
        """Returns what the check says."""
        self.press_button("#check")
        self.wait("document.querySelector('#check-verdict .verdict') !== null")
        return self.text("#check-verdict")

    def test_both_chambers(self) -> None:
        for key, count in (("senate", 16), ("house", 8)):
            self.open(f"#proof/{key}")
            told = self.verdict(key)
            self.assertIn("The certificate proves it.", told)
            self.assertIn(f"better than the {count} on this page", told)
            self.assertIn(f"same {count} groupings", self.text("#check-steps"))
        self.check_quiet()

    def test_another_chamber_while_it_checks(self) -> None:
        self.open("#proof/senate")
        self.press_button("#check")
        self.press_button("#proof-chambers [data-chamber=house]")
        self.wait_words("#check", "Check the House")
        self.assertIn("better than the 8 on this page", self.verdict("house"))
        self.assertEqual(self.value("document.querySelectorAll('#check-steps li').length"), 4)
        self.check_quiet()

    def test_a_name_with_signs(self) -> None:
        text, carried = self.carried()
        geo = {**carried["geo"], "name": "<i>a</i>", "sum": "0" * 64}
        self.open("#proof/senate", self.page_with(text, {**carried, "geo": geo}))
        self.assertIn("<i>a</i> isn’t the file", self.verdict("senate"))
        self.assertEqual(self.value("document.querySelectorAll('#proof i').length"), 1)

    def test_the_senate_within_two_seconds(self) -> None:
        times = []
        for _ in range(3):
            self.open("#proof/senate")
            self.value("new Promise((done) => setTimeout(done, 1000))")
            self.value(
                "globalThis.clicked = performance.now(); "
                "const noted = () => { globalThis.took ??= performance.now() - clicked; }; "
                "new MutationObserver(noted).observe("
                "document.querySelector('#check-verdict'), { childList: true }); null"
            )
            self.verdict("senate")
            times.append((self.value("took"), self.native_seconds()))
        took, fixed = (min(some) for some in zip(*times))
        print(f"the Senate's check: {took / 1000:.2f} s (solved by {fixed:.2f} s)", flush=True)
        self.assertLess(took, allowed(2000, fixed, NATIVE_SECONDS))

    def native_seconds(self) -> float:
        """Returns how long the program of this machine takes to solve the Senate, in seconds."""
        start = time.monotonic()
        run("solve", *PROBLEM, "--chamber", "50")
        return time.monotonic() - start

    def test_a_spoiled_line(self) -> None:
        self.open("#proof/senate")
        # (a group of the target, a county that is taken, and a weight of a leaf)
        for line in (6, 200, 2000):
            self.value(f"document.querySelector('#spoil-line').value = '{line}'; null")
            self.press_button("#spoil")
            self.wait("!document.querySelector('#spoil').disabled")
            self.assertIn(f"Spoiled line {line}:", self.text("#check-steps"))
            self.assertRegex(self.text("#check-verdict"), "The checker (says no|takes it)")
        self.value("document.querySelector('#spoil-line').value = '6'; null")
        self.press_button("#spoil")
        told = self.wait_words("#check-verdict", "The checker says no.")
        self.assertIn("it does read the lines", told)
        self.check_quiet()

    def test_another_enacted_grouping(self) -> None:
        text = page().read_text(encoding="utf-8")
        shown = SHOWN.search(text)
        assert shown
        data = json.loads(shown[2])
        data["chambers"][0]["enacted"] = data["chambers"][1]["enacted"]
        held = json.dumps(data).replace("<", "\\u003c")
        path = self.room / "changed.html"
        changed = SHOWN.sub(lambda found: found[1] + held + found[3], text)
        path.write_text(changed, encoding="utf-8")
        self.open("#proof/senate", path)
        self.assertIn("another enacted grouping than its file", self.verdict("senate"))

    def test_changed_bytes_by_their_sum(self) -> None:
        text, carried = self.carried()
        for key in CHANGES:
            with self.subTest(key):
                file = carried[key]
                content = gzip.decompress(base64.b64decode(file["packed"]))
                packed = gzip.compress(other_digit(content, len(content) // 2), mtime=0)
                total = hashlib.sha256(gzip.decompress(packed)).hexdigest()
                other = {**file, "packed": base64.b64encode(packed).decode(), "sum": total}
                self.open("#proof/senate", self.page_with(text, {**carried, key: other}))
                told = self.verdict("senate")
                self.assertRegex(told, r"\ANo\.\s")
                self.assertIn(file["name"], told)
        self.check_quiet()

    def test_changed_bytes_that_cant_be_unpacked(self) -> None:
        text, carried = self.carried()
        for key in (*CHANGES, "program"):
            with self.subTest(key):
                packed = bytearray(base64.b64decode(carried[key]["packed"]))
                packed[len(packed) // 2] ^= 1
                other = {**carried[key], "packed": base64.b64encode(bytes(packed)).decode()}
                self.open("#proof/senate", self.page_with(text, {**carried, key: other}))
                self.assertRegex(self.verdict("senate"), r"\ANo\.\s")

    def test_changed_bytes_with_their_sum(self) -> None:
        text, carried = self.carried()
        for key, change in CHANGES.items():
            with self.subTest(key):
                content = gzip.decompress(base64.b64decode(carried[key]["packed"]))
                changed = change(content)
                self.assertNotEqual(content, changed)
                packed = base64.b64encode(gzip.compress(changed, mtime=0)).decode()
                total = hashlib.sha256(changed).hexdigest()
                other = {**carried[key], "packed": packed, "sum": total}
                recorded = text.replace(carried[key]["sum"], total)
                self.assertNotEqual(recorded, text)
                self.open("#proof/senate", self.page_with(recorded, {**carried, key: other}))
                self.assertRegex(self.verdict("senate"), r"\A(The checker says no|No)\.\s")
        self.check_quiet()

    def shown_otherwise(self, change: Callable[[Any], None]) -> str:
        """Returns what the check says on a page whose data were changed."""
        text = page().read_text(encoding="utf-8")
        found = SHOWN.search(text)
        assert found
        data = json.loads(found[2])
        before = json.dumps(data)
        change(data)
        self.assertNotEqual(json.dumps(data), before)
        path = self.room / "changed.html"
        held = json.dumps(data).replace("<", "\\u003c")
        path.write_text(SHOWN.sub(lambda one: one[1] + held + one[3], text), encoding="utf-8")
        self.open("#proof/senate", path)
        return self.verdict("senate")

    def test_a_changed_map(self) -> None:
        def without_a_group(data: Any) -> None:
            """Takes a shared group out of the list."""
            chamber = data["chambers"][0]
            lines = chamber["list"].split("\n")
            kept = [it for it in lines if not it.startswith("group seats 1 people 215999")]
            chamber["list"] = "\n".join(kept)

        told = self.shown_otherwise(without_a_group)
        self.assertIn("the page’s map shows other groupings", told)

    def test_a_changed_name(self) -> None:
        def renamed(data: Any) -> None:
            """Gives a county another name."""
            chamber = data["chambers"][0]
            chamber["table"] = chamber["table"].replace("Wake County", "Wade County")

        self.assertIn("The page’s table of counties isn’t", self.shown_otherwise(renamed))

    def test_a_changed_border(self) -> None:
        def without_a_border(data: Any) -> None:
            """Takes a pair of counties out of the borders."""
            data["borders"] = data["borders"].replace("37023 37109\n", "")

        self.assertIn("The page shows other borders", self.shown_otherwise(without_a_border))

    def test_what_the_page_carries(self) -> None:
        _, carried = self.carried()
        sums = {key: file["sum"] for key, file in carried.items()}
        self.assertEqual(sums["program"], sum_of(SETTING.wasm))
        for kind, name in CENSUS.items():
            self.assertEqual(sums[kind], sum_of(DATA / name))
        if page() == OWN_PAGE:
            listed = (DIST / "SHA256SUMS").read_text(encoding="ascii")
            self.assertIn(f"{sums['program']}  countygroups.wasm\n", listed)
            build = (DIST / "BUILD").read_text(encoding="ascii")
            self.assertIn(build.strip(), self.told_build())

    def told_build(self) -> str:
        """Returns what the page says of the build of its program."""
        self.open("#proof/senate")
        return str(self.value("document.querySelector('#run pre').textContent"))

    def test_what_the_view_says(self) -> None:
        self.open("#proof/senate")
        _, carried = self.carried()
        sums = self.value("document.querySelector('#sums').textContent")
        for file in carried.values():
            self.assertIn(file["sum"], sums)
            packed = gzip.decompress(base64.b64decode(file["packed"]))
            self.assertEqual(hashlib.sha256(packed).hexdigest(), file["sum"])
        words = self.value("document.querySelector('#commands').textContent")
        for command in ("solve", "check", "list", "judge", "audit"):
            self.assertIn(f"countygroups {command} ", words)
        self.assertIn("tools/check.py", words)
        self.assertIn("isn’t the Census Bureau’s", self.text("#proof"))
