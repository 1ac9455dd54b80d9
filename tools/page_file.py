"""Puts a page together: the modules of web/page as one script, its style, its data, and the files
that the page carries."""
from __future__ import annotations

import base64
import gzip
import hashlib
import json
import re
from html import escape
from pathlib import Path
from typing import Any

import bundle

MODULES = Path(__file__).resolve().parent.parent / "web" / "page"
POLICY = (
    "default-src 'none'; script-src 'sha256-{sum}' 'wasm-unsafe-eval'; "
    "style-src 'unsafe-inline'; img-src data:; worker-src blob:; base-uri 'none'; "
    "form-action 'none'"
)
# A map of three groups, as the icon of the page.
ICON = (
    "data:image/svg+xml,%3Csvg xmlns='http://www.w3.org/2000/svg' viewBox='0 0 16 16'%3E"
    "%3Cpath d='M1 4h6v8H1z' fill='%23b0cbe2'/%3E%3Cpath d='M7 4h8v4H7z' fill='%23e7d095'/%3E"
    "%3Cpath d='M7 8h8v4H7z' fill='%23dfb1ac'/%3E%3Cpath d='M1 4h14v8H1zM7 4v8M7 8h8' "
    "fill='none' stroke='%231b1b1b'/%3E%3C/svg%3E"
)
WITHOUT_SCRIPTS = (
    ".needs, .bar .right, .step, .seg, .noprint, .choice input, .switches "
    "{ display: none !important } [hidden] { display: none }"
)
PART = re.compile(r"\{([a-z-]+)\}")
DOC_COMMENT = re.compile(r"^[ \t]*/\*\*(?:(?!\*/).)*\*/[ \t]*\n", re.M | re.S)
LINE_COMMENT = re.compile(r"^[ \t]*//.*\n", re.M)
INDENT = re.compile(r"^[ ]+", re.M)
TYPE_COMMENT = re.compile(r"/\*\* @(?:type|param) [^*]*\*/ ?")
PROVED = (
    "<li><b>Proved:</b> for exactly the files that the program read, these groupings are "
    "lawful, none is better, and there are no others as good.</li>"
)
UNKNOWN = (
    "<li><b>If the program’s build was proved:</b> for exactly the files that it read, "
    "these groupings are lawful, none is better, and there are no others as good.</li>"
)
UNPROVED = (
    "<li><b>This copy was built without proof.</b> A proved build proves, for exactly the "
    "files that it reads, that its groupings are lawful, that none is better, and that "
    "there are no others as good.</li>"
)


def carried_file(name: str, content: bytes) -> dict[str, Any]:
    """Returns a file as the page carries it: packed, with its size in bytes and its SHA-256."""
    packed = base64.b64encode(gzip.compress(content, 9, mtime=0)).decode("ascii")
    total = hashlib.sha256(content).hexdigest()
    return {"name": name, "packed": packed, "bytes": len(content), "sum": total}


def as_paragraph(text: str) -> str:
    """Returns a text of a file as one paragraph of a page."""
    return escape(" ".join(text.split()).replace("'", "’"))


def as_script_text(value: Any) -> str:
    """Returns `value` as JSON that can stand in an element of HTML."""
    text = json.dumps(value, separators=(",", ":"), ensure_ascii=False)
    return text.replace("&", "\\u0026").replace("<", "\\u003c").replace("\u2028", "\\u2028")


def slim_outlines(geojson: Any, geoids: set[str]) -> Any:
    """Returns the features of the listed counties with their GEOID and geometry alone."""
    features = []
    for feature in geojson["features"]:
        told = feature.get("properties") or {}
        geoid = str(told.get("GEOID", told.get("GEOID20", "")))
        if geoid in geoids:
            geometry = feature["geometry"]
            kept = {"type": geometry["type"], "coordinates": slim(geometry["coordinates"])}
            features.append({"properties": {"GEOID": geoid}, "geometry": kept})
    return {"type": "FeatureCollection", "features": features}


def packed_outlines(outlines: Any) -> Any:
    """Returns slim outlines with each ring as one text: the steps from point to point, in units of
    a ten-thousandth of a degree, as numbers to the base 36."""
    if not outlines or "features" not in outlines:
        return outlines
    packed: dict[str, list[str]] = {}
    for feature in outlines["features"]:
        shape = feature["geometry"]
        whole = shape["coordinates"]
        polygons = [whole] if shape["type"] == "Polygon" else whole
        rings = [packed_ring(ring) for polygon in polygons for ring in polygon]
        packed.setdefault(feature["properties"]["GEOID"], []).extend(rings)
    return packed


def packed_ring(ring: list[list[float]]) -> str:
    """Returns the steps of a ring from point to point as a text."""
    words, before = [], (0, 0)
    for point in ring:
        at = (round(point[0] * 10000), round(point[1] * 10000))
        words += [base_36(at[0] - before[0]), base_36(at[1] - before[1])]
        before = at
    return " ".join(words)


def base_36(number: int) -> str:
    """Returns a number to the base 36."""
    digits, rest = "", abs(number)
    while rest or not digits:
        rest, digit = divmod(rest, 36)
        digits = "0123456789abcdefghijklmnopqrstuvwxyz"[digit] + digits
    return f"-{digits}" if number < 0 else digits


def slim(value: Any) -> Any:
    """Returns coordinates rounded to some ten meters, without a point that is the one before."""
    if isinstance(value, list) and value and isinstance(value[0], (int, float)):
        return [round(number, 4) for number in value[:2]]
    parts = [slim(part) for part in value]
    is_ring = bool(parts) and bool(parts[0]) and isinstance(parts[0][0], (int, float))
    return [part for at, part in enumerate(parts) if not is_ring or not at or part != parts[at - 1]]


def border_lines(adjacency: str, geoids: set[str]) -> str:
    """Returns each pair of listed neighbors of an adjacency file once, a line of two codes each."""
    found = (line[:-1] if line.endswith("\r") else line for line in adjacency.split("\n"))
    rows = [line.split("|") for line in found]
    pairs = {tuple(sorted((row[1], row[3]))) for row in rows if len(row) >= 4}
    lines = [
        f"{one} {other}"
        for one, other in sorted(pairs)
        if one != other and one in geoids and other in geoids
    ]
    return "\n".join(lines)


def without_comments(script: str) -> str:
    """Returns a script without comments that begin a line, without types, and without indents."""
    plain = LINE_COMMENT.sub("", TYPE_COMMENT.sub("", DOC_COMMENT.sub("", script)))
    return INDENT.sub("", plain)


def script_text() -> str:
    """Returns the page's script: all modules without their comments, and the worker's in them."""
    return bundle.page_script(MODULES / "main.mjs", shortened=without_comments)


def page_html(data: dict[str, Any], carried: dict[str, Any], parts: dict[str, str]) -> str:
    """Returns the page. `parts` are those that stand in it without scripts, by their names."""
    script = script_text()
    total = base64.b64encode(hashlib.sha256(script.encode()).digest()).decode("ascii")
    values = {
        "policy": POLICY.format(sum=total),
        "style": (MODULES / "page.css").read_text(encoding="utf-8"),
        "style-without-scripts": WITHOUT_SCRIPTS,
        "proved": {True: PROVED, False: UNPROVED, None: UNKNOWN}[data["build"]["isProved"]],
        "icon": ICON,
        "data": as_script_text({**data, "outlines": packed_outlines(data["outlines"])}),
        "carried": as_script_text(carried),
        "script": script,
        **parts,
    }
    template = (MODULES / "page.html").read_text(encoding="utf-8")
    return PART.sub(lambda found: values.get(found[1], ""), template)
