/**
 * The program by Node: the same words, files and statuses as the program that is built for a
 * machine. Its module, countygroups.wasm, lies beside this file.
 *
 * One thing differs: Node opens the null device in the place of a standard stream that is closed.
 * So closed standard input is empty. If the launcher is called by its own name, a shell sees before
 * Node that standard output is closed, and the run ends with 5 (`tools/launcher.py`). If Node is
 * called with the launcher's name, what is written to closed standard output is lost.
 */

import fs from "node:fs";
import { NodeFiles } from "./node_files.mjs";
import { runProcess } from "./process.mjs";

// (`process` is the global one: an import of "node:process" would make Node's own standard streams,
// which set pipes not to wait)

/** The status of a shell for a program that was aborted. No answer has it. */
const ABORTED = 134;

/** The status for a Node or a folder that can't run the program. No answer has it. */
const NOT_STARTED = 126;

/** What stands in a word for bytes that are no UTF-8. */
const REPLACED = "\ufffd";

/**
 * Returns the words after the name of this file. Node replaces bytes that are no UTF-8, so where
 * it may have, the words are those that Linux tells.
 *
 * @returns {(string | Uint8Array)[]}
 */
function words() {
  const given = process.argv.slice(2);
  if (!given.some((word) => word.includes(REPLACED)) || process.platform !== "linux") {
    return given;
  }
  const parts = [];
  const told = fs.readFileSync("/proc/self/cmdline");
  for (let begin = 0, end = told.indexOf(0); end >= 0; end = told.indexOf(0, begin)) {
    parts.push(told.subarray(begin, end));
    begin = end + 1;
  }
  return parts.slice(-given.length);
}

/**
 * Says on standard error why the program didn't run, and ends with `status`.
 *
 * @param {string} why
 * @param {number} status
 * @returns {never}
 */
function refuse(why, status) {
  fs.writeSync(2, `countygroups: ${why}\n`);
  process.exit(status);
}

/**
 * Returns the program's module.
 *
 * @returns {WebAssembly.Module}
 */
function readModule() {
  const file = new URL("countygroups.wasm", import.meta.url);
  try {
    return new WebAssembly.Module(fs.readFileSync(file));
  } catch (error) {
    return refuse(`countygroups.wasm beside the launcher can't be used: ${error}`, NOT_STARTED);
  }
}

/** Runs the program with the words of this process, and ends as it ends. */
function main() {
  const module = readModule();
  let status = ABORTED;
  try {
    status = runProcess({ module, words: words(), store: new NodeFiles() });
  } catch (error) {
    refuse(`the program stopped: ${error}`, ABORTED);
  }
  process.exit(status);
}

main();
