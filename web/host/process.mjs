/** A run of the program: a fresh instance of its module, with files and words of its own. */

import { makeCalls } from "./calls.mjs";

/** @typedef {import("./file_store.mjs").FileStore} FileStore */

/** The name by which the program is called. */
const PROGRAM = "countygroups";

/**
 * Runs the program to its end, and returns its exit status.
 *
 * @param {object} run
 * @param {WebAssembly.Module} run.module The program's module.
 * @param {(string | Uint8Array)[]} run.words The words after the program's name.
 * @param {FileStore} run.store The files that it works on, standard input and output among them.
 * @returns {number}
 * @throws {WebAssembly.RuntimeError | RangeError} If the program stops without an end of its own,
 *   as where its stack is used up.
 */
export function runProcess({ module, words, store }) {
  const encoder = new TextEncoder();
  const bytes = [PROGRAM, ...words].map((word) =>
    typeof word === "string" ? encoder.encode(word) : word,
  );
  /** @type {import("./calls.mjs").Process} */
  const process = { store, words: bytes, memory: null, errno: 0 };
  const instance = new WebAssembly.Instance(module, { env: makeCalls(process) });
  const { memory, main } = /** @type {{ memory: WebAssembly.Memory, main: Main }} */ (
    /** @type {unknown} */ (instance.exports)
  );
  process.memory = memory;
  return main(bytes.length, 0n);
}

/** @typedef {(count: number, words: bigint) => number} Main C's `main`. */
