#!/usr/bin/env python3
"""Puts the vignette of the package for R into a folder of its sources, made of its README.md.

usage: python3 tools/r_vignette.py FOLDER [--plain]

FOLDER   a copy of `r/`, of which DESCRIPTION and `vignettes/` are changed, or `inst/doc/`
--plain  as a plain text in `inst/doc/`, where no knitr is there to build a vignette. Without it
         `vignettes/countygroups.Rmd`, which `R CMD build` builds by knitr and markdown

The lines of R in it aren't run: `r/tests/documents.R` runs README's, and compares what they print.
Pictures and links to files of the repository are left out, since the package hasn't them.
Statuses: 0 it is there, 1 the folder can't be read or written, 2 these words can't be followed.
"""
from __future__ import annotations

import re
import sys
from pathlib import Path
from typing import Optional

from script_words import ScriptWords

TITLE = "Best county groupings in R"
PICTURE = re.compile(r"^!\[[^]]*\]\([^)]*\)\n\n", re.MULTILINE)
LINK = re.compile(r"\[([^]]*)\]\((?!https?:)[^)]*\)")
HEADING = re.compile(r"\A# .*\n\n")
ABOUT_FILES = """\
The lines below read files of `data/nc2020`, a folder of the repository. A test there runs the lines
and compares what they print.

"""
HEAD = f"""\
---
title: "{TITLE}"
output: markdown::html_format
vignette: >
  %\\VignetteIndexEntry{{{TITLE}}}
  %\\VignetteEngine{{knitr::knitr}}
  %\\VignetteEncoding{{UTF-8}}
---

"""
FIELDS = "VignetteBuilder: knitr\n"
SUGGESTS = "Suggests:\n"


def text_of(readme: str) -> str:
    """Returns the text of the vignette: `readme` without its heading, pictures and links."""
    text = HEADING.sub("", readme)
    return ABOUT_FILES + LINK.sub(r"\1", PICTURE.sub("", text))


def with_builder(description: str) -> str:
    """Returns the text of a DESCRIPTION that asks for knitr and markdown to build the vignette."""
    return description.replace(SUGGESTS, f"{SUGGESTS}    knitr,\n    markdown,\n") + FIELDS


def put_vignette(folder: Path, is_plain: bool) -> None:
    """Puts the vignette into a folder of sources. Raises `OSError` if a file can't be used."""
    text = text_of((folder / "README.md").read_text(encoding="utf-8"))
    if is_plain:
        documents = folder / "inst" / "doc"
        documents.mkdir(parents=True, exist_ok=True)
        whole = f"{TITLE}\n\n{text}"
        (documents / "countygroups.txt").write_text(whole, encoding="utf-8")
        return
    vignettes = folder / "vignettes"
    vignettes.mkdir(exist_ok=True)
    (vignettes / "countygroups.Rmd").write_text(HEAD + text, encoding="utf-8")
    path = folder / "DESCRIPTION"
    path.write_text(with_builder(path.read_text(encoding="utf-8")), encoding="utf-8")


def main(words: Optional[list[str]] = None) -> int:
    """Follows the words, and returns the status to end with."""
    parser = ScriptWords(__doc__)
    parser.add_argument("folder", type=Path)
    parser.add_argument("--plain", action="store_true")
    asked = parser.parse_args(words)
    try:
        put_vignette(asked.folder, asked.plain)
    except OSError as fault:
        print(f"r_vignette.py: {fault}", file=sys.stderr)
        return 1
    return 0


if __name__ == "__main__":
    sys.exit(main())
