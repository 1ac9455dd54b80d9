/** The script of the test page: gives the test what it needs to start processes. */

import { reasonAgainstRunning, startProcess } from "../host/browser_process.mjs";
import { unpackModule } from "../host/packed_module.mjs";

/**
 * A run that a test asks for. Bytes stand in it as base64.
 *
 * @typedef {object} Asked
 * @property {string[]} words The words after the program's name.
 * @property {Record<string, string>} files The files that the program may read.
 * @property {string} input The bytes of standard input.
 * @property {number} [times] How many times each file is repeated. Without it, once.
 */

/** @param {string} text */
function bytesOf(text) {
  return Uint8Array.from(atob(text), (letter) => letter.charCodeAt(0));
}

/** @param {Uint8Array} bytes */
function textOf(bytes) {
  return btoa(Array.from(bytes, (byte) => String.fromCharCode(byte)).join(""));
}

/**
 * Runs the program, and returns what it left with its milliseconds, or why it has no end.
 *
 * @param {WebAssembly.Module} module
 * @param {Asked} asked
 * @param {Record<string, Blob>} [more] Files that the page has.
 */
async function run(module, { words, files, input, times }, more = {}) {
  const named = Object.entries(files).map(([name, text]) => {
    const part = bytesOf(text);
    return [name, new Blob(Array.from({ length: times ?? 1 }, () => part))];
  });
  const all = { ...Object.fromEntries(named), ...more };
  /** @type {string[]} */
  const progress = [];
  const began = performance.now();
  const started = startProcess({
    module,
    words,
    files: all,
    input: bytesOf(input),
    onProgress: (line) => progress.push(line),
  });
  const { status, output, errors, stored } = await started.result;
  const milliseconds = performance.now() - began;
  const kept = Object.fromEntries([...stored].map(([name, bytes]) => [name, textOf(bytes)]));
  const [wrote, told] = [textOf(output), textOf(errors)];
  return { status, output: wrote, errors: told, stored: kept, progress, milliseconds };
}

/**
 * Starts a run and stops it at once. Returns what its promise says.
 *
 * @param {WebAssembly.Module} module
 * @param {string[]} words
 */
async function stopAtOnce(module, words) {
  const started = startProcess({ module, words });
  started.stop();
  try {
    await started.result;
    return "it ended";
  } catch (error) {
    const { name, wasStopped } = /** @type {{ name: string, wasStopped: boolean }} */ (error);
    return `${name} ${wasStopped}`;
  }
}

Object.assign(globalThis, { reasonAgainstRunning, unpackModule, run, stopAtOnce });
