/**
 * Prints the names of the functions that a module imports, one a line.
 *
 * usage: node imported_names.mjs MODULE.wasm
 */

import fs from "node:fs";

const module = new WebAssembly.Module(fs.readFileSync(process.argv[2]));
console.log(WebAssembly.Module.imports(module).map(({ name }) => name).join("\n"));
