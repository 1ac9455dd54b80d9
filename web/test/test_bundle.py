"""What tools/bundle.py packs, and what it refuses."""
import tempfile
import unittest
from pathlib import Path

from web_setting import HOST, run_node

import bundle
from refusal import Refused

MODULES = {
    "one.mjs": 'import { two as second } from "./two.mjs";\n'
    'import { hidden, three } from "./deep/three.mjs";\n'
    "const hidden2 = hidden;\n"
    "globalThis.found = [second(), three, hidden2];\n",
    "two.mjs": 'import { three } from "./deep/three.mjs";\n'
    "const hidden = 20;\n"
    "export function two() {\n  return hidden + three;\n}\n",
    "deep/three.mjs": "export const three = 3;\nexport const hidden = 30;\n",
}
REFUSED = {
    "a default": "export default 1;\n",
    "a list of exports": "const a = 1;\nexport { a };\n",
    "all of a module": 'import * as all from "./two.mjs";\n',
    "an import for its effect": 'import "./two.mjs";\n',
    "a module of Node's": 'import fs from "node:fs";\n',
    "a package": 'import { a } from "package";\n',
    "itself": 'import { a } from "./entry.mjs";\n',
    "a variable": "export let a = 1;\n",
}


class Bundles(unittest.TestCase):
    """Modules in a folder of their own."""

    def setUp(self) -> None:
        room = tempfile.TemporaryDirectory()
        self.addCleanup(room.cleanup)
        self.room = Path(room.name)
        for name, text in MODULES.items():
            self.write(name, text)

    def write(self, name: str, text: str) -> Path:
        """Writes `text` to the file `name` of the room, and returns its path."""
        path = self.room / name
        path.parent.mkdir(exist_ok=True)
        path.write_text(text, encoding="utf-8")
        return path

    def test_modules_keep_their_own_names(self) -> None:
        packed = bundle.script(self.room / "one.mjs")
        path = self.write("packed.cjs", f"{packed}console.log(JSON.stringify(found));\n")
        done = run_node(path)
        self.assertEqual(done.stdout, "[23,3,30]\n", done.stderr)

    def test_what_is_not_packed_is_refused(self) -> None:
        for what, text in REFUSED.items():
            with self.subTest(what):
                self.assertRaises(Refused, bundle.script, self.write("entry.mjs", text))

    def test_a_page_has_the_worker(self) -> None:
        packed = bundle.page_script(HOST / "browser_process.mjs")
        self.assertIn("FileReaderSync", packed)
        self.assertNotIn("</", packed.split("const workerSource = ")[1].split("\n")[0])

    def test_the_launcher_needs_no_other_file(self) -> None:
        packed = bundle.node_module(HOST / "launcher.mjs")
        imports = [line for line in packed.split("\n") if line.startswith("import ")]
        self.assertTrue(imports)
        self.assertTrue(all(' from "node:' in line for line in imports))
