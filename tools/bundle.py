#!/usr/bin/env python3
"""Packs ES modules into one file: a script for a page, for a worker, or a module for Node.

usage: python3 tools/bundle.py page|script|node ENTRY.mjs

`script` writes one classic script of ENTRY.mjs and all that it imports. `page` does the same, and
puts the script of web/host/worker.mjs into web/host/worker_source.mjs, so that the page can start
a worker without a second file. `node` writes a module that imports nothing but Node's own modules.

A module becomes a function that returns its exports, and stands behind those that it imports. What
is taken is what the modules of web/ need, and anything else is refused. Each import and export
stands at the beginning of a line. An import names what it takes. An export stands in front of a
function, a class or a `const`. No two modules import each other.
"""
from __future__ import annotations

import json
import re
import sys
from collections.abc import Callable
from pathlib import Path

from refusal import Refused, status_of

HOST = Path(__file__).resolve().parent.parent / "web" / "host"

IMPORT = re.compile(r'^import\s+(?P<names>[^"\';]+?)\s+from\s+"(?P<source>[^"]+)";\n', re.M)
NAMED = re.compile(r"\{(?P<names>[^{}]*)\}")
EXPORT = re.compile(r"^export (?P<kind>async function|function|class|const) (?P<name>\w+)", re.M)
LEFT_OVER = re.compile(r"^(?:import|export)\b.*|\bimport\(\"[^\"]*\"\)\s*[;)]", re.M)


class Bundle:
    """The modules that an entry needs, in an order in which each can be run.

    `texts` has modules whose text isn't that of their file. `has_node` says whether Node's own
    modules may be imported.
    """

    def __init__(self, texts: dict[Path, str], has_node: bool) -> None:
        self.texts = texts
        self.has_node = has_node
        self.outer: list[str] = []
        self.parts: list[str] = []
        self.names: dict[Path, str] = {}
        self.waiting: list[Path] = []

    def add(self, module: Path) -> str:
        """Adds `module` behind all that it imports, and returns the name of its exports."""
        if module in self.names:
            return self.names[module]
        if module in self.waiting:
            raise Refused(f"{module.name} imports itself, by other modules")
        self.waiting.append(module)
        text = self.texts[module] if module in self.texts else module.read_text(encoding="utf-8")
        body = IMPORT.sub(lambda found: self.imported(module, found), text)
        exports = [found["name"] for found in EXPORT.finditer(body)]
        body = EXPORT.sub(r"\g<kind> \g<name>", body)
        left_over = LEFT_OVER.search(body)
        if left_over:
            raise Refused(f"{module.name}: `{left_over[0]}` can't be packed")
        self.waiting.pop()
        name = f"module_{re.sub(r'[^A-Za-z0-9]', '_', module.stem)}"
        if name in self.names.values():
            raise Refused(f"two modules are called {module.name}")
        self.names[module] = name
        returned = f"return {{ {', '.join(exports)} }};\n" if exports else ""
        self.parts.append(f"const {name} = (() => {{\n{body.strip()}\n{returned}}})();\n")
        return name

    def imported(self, module: Path, found: re.Match[str]) -> str:
        """Returns the line that stands for the import `found` in `module`."""
        names, source = found["names"], found["source"]
        if source.startswith("node:") and self.has_node:
            if found[0] not in self.outer:
                self.outer.append(found[0])
            return ""
        named = NAMED.fullmatch(names)
        if not source.startswith(".") or not named:
            raise Refused(f"{module.name}: `{found[0].strip()}` can't be packed")
        taken = re.sub(r"(\w+)\s+as\s+(\w+)", r"\1: \2", named["names"].strip())
        return f"const {{ {taken} }} = {self.add((module.parent / source).resolve())};\n"


def script(entry: Path, texts: dict[Path, str] | None = None) -> str:
    """Returns one classic script of `entry` and all that it imports."""
    bundle = Bundle(texts or {}, has_node=False)
    bundle.add(entry.resolve())
    return f'"use strict";\n(() => {{\n{"".join(bundle.parts)}}})();\n'


def page_script(entry: Path, host: Path = HOST, shortened: Callable[[str], str] = str) -> str:
    """Returns the same, with the text of the worker's script in it, which `host` has.

    Both scripts are as `shortened` gives them. No text of them ends a script of HTML.
    """
    worker = json.dumps(shortened(script(host / "worker.mjs"))).replace("</", "<\\/")
    source = (host / "worker_source.mjs").resolve()
    text = shortened(script(entry, {source: f"export const workerSource = {worker};\n"}))
    if "</script" in text.lower():
        raise Refused(f"{entry.name} has the text `</script`, which would end it in a page")
    return text


# The first lines of a module that is called as a program. A shell takes the second one as commands,
# and Node as a text and a comment. Node opens the null device for writing in the place of standard
# output that is closed, and would lose what is written. So the shell opens it for reading alone.
CALLED = """#!/bin/sh
":" //; (: 3>&1) 2>/dev/null || exec 1</dev/null; exec node "$0" "$@"
"""


def node_module(entry: Path) -> str:
    """Returns one module of `entry` and all that it imports, which Node runs as a program."""
    bundle = Bundle({}, has_node=True)
    bundle.add(entry.resolve())
    return f'{CALLED}{"".join(bundle.outer)}{"".join(bundle.parts)}'


def main(words: list[str]) -> int:
    """Writes what the words ask for. 1 if modules can't be packed, 2 if the words are others."""
    kinds: dict[str, Callable[[Path], str]]
    kinds = {"script": script, "page": page_script, "node": node_module}
    if len(words) != 2 or words[0] not in kinds:
        print(__doc__, end="", file=sys.stderr)
        return 2
    return status_of(lambda: print(kinds[words[0]](Path(words[1])), end=""))


if __name__ == "__main__":
    sys.exit(main(sys.argv[1:]))
