#!/usr/bin/env python3
"""Makes docs/page.html: North Carolina's answer, its proof, and the program, in one page.

usage: python3 tools/make_page.py --program FILE [--wasm FILE] [--build-file FILE] [--jobs JOBS]
           [--out FILE] [--maps FOLDER] [--tables FOLDER]

--program is a native build: it makes the certificates, lists, tables and records of both chambers
by the counts of 2020, 2010 and 2000, and tries each border in dispute by those of 2020. --wasm is
the same program for browsers (dist/countygroups.wasm). --build-file says which tree the build was
proved of (dist/BUILD). Without one the page says that its copy was built without proof. --maps
stores senate_map.svg and house_map.svg, too. --tables is a folder with the tables of
tools/closeness.py, senate.csv and house.csv, those of 2010 and 2000 with the year and a dot before,
and of tools/deciding_borders.py, senate_borders.csv and house_borders.csv; one that isn't there is
made and stored, some half an hour of a processor for all. Without a folder the page tells in place
of the first how much room the groups have, and nothing in place of the others. The same inputs give
the same bytes. Node draws what stands in the page without scripts. If something is missing, one
sentence says what, and the status is 1.
"""
from __future__ import annotations

import argparse
import json
import shutil
import subprocess
import sys
import tempfile
from dataclasses import dataclass
from pathlib import Path
from typing import Any, Tuple

import page_file
from refusal import Refused
from script_words import ScriptWords

# A chamber: its key, its name, its seats.
Chamber = Tuple[str, str, int]

TOP = Path(__file__).resolve().parent.parent
DATA = "data/nc2020"
BORDERS = f"{DATA}/county_borders.txt"
CHAMBERS = [("senate", "Senate", 50), ("house", "House", 120)]
# Up to how many people one county gains or loses in the tables of closeness: by the first census,
# and by each further one, of which the House takes longer.
WITHIN = {"senate": 400, "house": 2000}
FURTHER_WITHIN = {"senate": 400, "house": 400}
SOURCES = (
    "Counts: 2020 census, P.L. 94-171, table P1, from the <a "
    'href="https://www.census.gov/programs-surveys/decennial-census/about/rdo.html">Census '
    "Bureau</a>; those of 2010 and 2000 are written down anew: compare them with its files before "
    'you rely on one. Plans: <a href="https://www.ncleg.gov/redistricting">General Assembly</a>. '
    "Borders: <code>county_borders.txt</code> "
    "of this project, the counties that share a line in the outlines, with thirteen pairs over "
    "the sounds and rivers of the coast added, and four that meet in a point of the outlines; "
    "it isn’t the Census Bureau’s adjacency file. "
    "Outlines: Census Bureau, generalized, for pictures only. The rule: <i>Stephenson v. "
    "Bartlett</i>, 355 N.C. 354 (2002) and 357 N.C. 301 (2003). What the program says is "
    "proved, by a proved build, for exactly the files it read; the counts, the borders and "
    "a court’s reading are not."
)
DESCRIPTION = (
    "Every best way to group North Carolina’s counties for the Senate and the House, "
    "with a proof that the page itself can check."
)


@dataclass(frozen=True)
class Census:
    """The counts of a census, and the plans that were enacted by them, if they are known here.

    `acts` has the act of each chamber's plan by the chamber's key.
    """

    year: int
    enacted: int
    acts: dict[str, str]

    @property
    def folder(self) -> str:
        """Returns the folder of the counts."""
        return f"data/nc{self.year}"

    def file(self, kind: str) -> str:
        """Returns the path of the geographic header ("geo") or of the counts ("segment")."""
        names = {"geo": f"nc{self.year}geo.pl", "segment": f"nc00001{self.year}.pl"}
        return f"{self.folder}/{names[kind]}"

    def problem(self, seats: int) -> list[str]:
        """Returns the words of the problem of a chamber."""
        files = ["--geo", self.file("geo"), "--segment", self.file("segment")]
        return [*files, "--adjacency", BORDERS, "--chamber", str(seats)]

    def grouping(self, key: str) -> Path | None:
        """Returns the file of a chamber's enacted grouping, or None."""
        return TOP / self.folder / f"{key}{self.enacted}.grouping" if self.enacted else None

    def named(self, name: str) -> str:
        """Returns a key or a name with the year before it, but for the first census."""
        return name if self is CENSUSES[0] else f"{self.year}.{name}"


CENSUSES = [
    Census(2020, 2023, {"senate": "S.L. 2023-146", "house": "S.L. 2023-149"}),
    Census(2010, 2017, {"senate": "S.L. 2017-207", "house": "S.L. 2017-208"}),
    Census(2000, 0, {}),
]


def run(words: list[str], room: Path) -> str:
    """Returns what a command prints. It runs in `room`."""
    done = subprocess.run(words, cwd=room, capture_output=True, check=False)
    if done.returncode != 0:
        told = done.stderr.decode(errors="replace").strip()
        raise Refused(f"`{Path(words[0]).name}` ended with status {done.returncode}: {told}")
    return done.stdout.decode()


def chamber_texts(program: str, room: Path, census: Census, chamber: Chamber) -> dict[str, str]:
    """Returns the texts of a chamber. Its certificate stays in `room`."""
    key, name, seats = chamber
    problem, own = census.problem(seats), census.named(key)
    certificate = ["--certificate", f"{own}.certificate"]
    stored = ["--out", f"{own}.grouping", "--table", f"{own}.csv", "--record", f"{own}.record"]
    run([program, "solve", *problem, *certificate, *stored], room)
    grouping = census.grouping(key)
    return {
        "key": key,
        "name": name,
        "list": run([program, "list", *problem, *certificate], room),
        "enacted": grouping.read_text(encoding="utf-8") if grouping else "",
        "act": census.acts.get(key, ""),
        "tried": "",
        "close": "",
        "deciding": "",
        "table": (room / f"{own}.csv").read_text(encoding="utf-8"),
        "record": (room / f"{own}.record").read_text(encoding="utf-8"),
    }


def page_data(chambers: list[list[dict[str, str]]], build: str | None) -> dict[str, Any]:
    """Returns the page's data, of the texts of both chambers by each census."""
    table = chambers[0][0]["table"].split("\n")[1:]
    geoids = {line[:5] for line in table if line}
    folder = TOP / DATA
    outlines = json.loads((folder / "county_outlines.geojson").read_text(encoding="utf-8"))
    adjacency = (TOP / BORDERS).read_text(encoding="utf-8")
    first, *further = [
        {"year": census.year, "enactedYear": census.enacted, "chambers": texts}
        for census, texts in zip(CENSUSES, chambers)
    ]
    return {
        "state": {"code": "37"},
        **first,
        "further": further,
        "outlines": page_file.slim_outlines(outlines, geoids),
        "borders": page_file.border_lines(adjacency, geoids),
        "build": {"isProved": build is not None, "text": build or ""},
    }


def carried_files(room: Path, wasm: Path) -> dict[str, Any]:
    """Returns what the page carries: the problems' files, the certificates, the enacted groupings,
    and the program."""
    files = {"adjacency": TOP / BORDERS, "program": wasm}
    for census in CENSUSES:
        for kind in ("geo", "segment"):
            files[census.named(kind)] = TOP / census.file(kind)
        for key, _, _ in CHAMBERS:
            name = census.named(f"{key}.certificate")
            files[name] = room / name
            grouping = census.grouping(key)
            if grouping:
                files[census.named(f"{key}.enacted")] = grouping
    return {
        key: page_file.carried_file(
            "countygroups.wasm" if key == "program" else path.name, path.read_bytes()
        )
        for key, path in files.items()
    }


def tried_borders(program: str, room: Path, seats: int, jobs: int) -> str:
    """Returns the table of what each border in dispute changes by the counts of 2020."""
    words = [sys.executable, str(TOP / "tools" / "what_if.py"), "--program", program]
    words += [*CENSUSES[0].problem(seats), "--borders", "disputed.links", "--jobs", str(jobs)]
    return run(words, room)


def stored_table(path: Path, tool: str, words: list[str], room: Path) -> str:
    """Returns the table at `path`. If it isn't there, a tool makes it, and it is stored."""
    if not path.is_file():
        table = run([sys.executable, str(TOP / "tools" / tool), *words], room)
        path.parent.mkdir(parents=True, exist_ok=True)
        path.write_text(table, encoding="utf-8")
    return path.read_text(encoding="utf-8")


def add_tables(
    texts: dict[str, str], census: Census, chamber: Chamber, given: argparse.Namespace, room: Path
) -> None:
    """Adds to a chamber's texts the tables of the folder: how close its answer is, and by the first
    census which borders decide it."""
    key, _, seats = chamber
    folder = Path(given.tables).resolve()
    words = ["--program", str(Path(given.program).resolve()), *census.problem(seats)]
    words += ["--jobs", str(given.jobs)]
    grouping = census.grouping(key)
    words += ["--grouping", str(grouping)] if grouping else []
    path = folder / f"{census.named(key)}.csv"
    is_first = census is CENSUSES[0]
    within = WITHIN[key] if is_first else FURTHER_WITHIN[key]
    more = ["--within", str(within)]
    texts["close"] = stored_table(path, "closeness.py", [*words, *more], room)
    if is_first:
        path = folder / f"{key}_borders.csv"
        texts["deciding"] = stored_table(path, "deciding_borders.py", words, room)


def made_page(given: argparse.Namespace, room: Path) -> str:
    """Returns the page, made with files in `room`."""
    program = str(Path(given.program).resolve())
    (room / "data").symlink_to(TOP / "data")
    chambers = [
        [chamber_texts(program, room, census, chamber) for chamber in CHAMBERS]
        for census in CENSUSES
    ]
    build = Path(given.build_file).read_text(encoding="utf-8") if given.build_file else None
    data = page_data(chambers, build)
    drawing = ["node", str(TOP / "web" / "page" / "prerender.mjs"), "data.json"]
    (room / "data.json").write_text(json.dumps(data), encoding="utf-8")
    (room / "disputed.links").write_text(run([*drawing, "disputed"], room), encoding="utf-8")
    for texts, chamber in zip(chambers[0], CHAMBERS):
        texts["tried"] = tried_borders(program, room, chamber[2], given.jobs)
    for census, both in zip(CENSUSES, chambers):
        for texts, chamber in zip(both, CHAMBERS) if given.tables else []:
            add_tables(texts, census, chamber, given, room)
    (room / "data.json").write_text(json.dumps(data), encoding="utf-8")
    for key, _, _ in CHAMBERS if given.maps else []:
        drawn = run([*drawing, "map", key], room)
        (Path(given.maps) / f"{key}_map.svg").write_text(drawn, encoding="utf-8")
    parts = json.loads(run(drawing, room))
    borders_note = (TOP / DATA / "borders_source.txt").read_text(encoding="utf-8")
    parts |= {
        "state-name": "North Carolina",
        "sources": SOURCES,
        "description": DESCRIPTION,
        "share-picture": '<meta property="og:image" content="page.png">',
        "borders-note": page_file.as_paragraph(borders_note),
    }
    return page_file.page_html(data, carried_files(room, Path(given.wasm)), parts)


def main(words: list[str]) -> int:
    """Makes the page. 1 if something is missing, 2 if the words are others."""
    parser = ScriptWords(__doc__)
    parser.add_argument("--program", required=True)
    parser.add_argument("--wasm", default=str(TOP / "dist" / "countygroups.wasm"))
    parser.add_argument("--build-file")
    parser.add_argument("--maps")
    parser.add_argument("--tables")
    parser.add_argument("--jobs", type=int, default=2)
    parser.add_argument("--out", default=str(TOP / "docs" / "page.html"))
    given = parser.parse_args(words)
    try:
        if not shutil.which("node"):
            raise Refused("there is no `node`, which draws the page without scripts")
        with tempfile.TemporaryDirectory() as room:
            text = made_page(given, Path(room))
        Path(given.out).write_text(text, encoding="utf-8")
    except (Refused, OSError) as fault:
        print(f"make_page.py: {fault}", file=sys.stderr)
        return 1
    print(f"make_page.py: {given.out} has {len(text.encode()):,} bytes", file=sys.stderr)
    return 0


if __name__ == "__main__":
    sys.exit(main(sys.argv[1:]))
