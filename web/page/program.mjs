// The program and the files that the page carries, packed, with their sums.

import { ProcessError, reasonAgainstRunning, startProcess } from "../host/browser_process.mjs";
import { unpackModule } from "../host/packed_module.mjs";
import { find } from "./dom.mjs";

/**
 * A file of the page: its name, its bytes packed by gzip in base64, how many they are, and their
 * sum.
 * @typedef {{name: string, packed: string, bytes: number, sum: string}} CarriedFile
 */
/** @typedef {{[key: string]: CarriedFile}} Carried */
/** @typedef {import("../host/messages.mjs").Ended} Ended */
/** @typedef {Map<string, Blob>} Files */
/**
 * What a run left, its streams as texts.
 * @typedef {{status: number, output: string, errors: string, stored: Map<string, Uint8Array>}} Run
 */

/** @type {Carried | null} */
let carried = null;
/** @type {Promise<WebAssembly.Module> | null} */
let compiled = null;

/** The words that name the three files of a problem. */
export const PROBLEM_FILES = ["--geo", "geo", "--segment", "segment", "--adjacency", "adjacency"];

/** What the keys of the files of the census that is shown begin with, if it isn't the first. */
let prefix = "";

/** Returns all that the page carries, by key. */
export function carriedFiles() {
  carried ??= /** @type {Carried} */ (JSON.parse(find("#carried").textContent ?? "{}"));
  return carried;
}

/**
 * Has the files be those of a census: their keys then begin with the year, as "2010.geo". What a
 * census doesn't have of its own, as the borders, is that of the first.
 * @param {number} year  0 for the first
 */
export function useCensusFiles(year) {
  prefix = year ? `${year}.` : "";
}

/**
 * Returns a carried file of the census that is shown, or undefined.
 * @param {string} key
 * @returns {CarriedFile | undefined}
 */
export function fileOf(key) {
  return carriedFiles()[`${prefix}${key}`] ?? carriedFiles()[key];
}

/** Returns whether the page carries the program. */
export function hasProgram() {
  return fileOf("program") !== undefined;
}

/** Returns why the program can't run here, or null if it can. */
export function whyNoProgram() {
  if (!hasProgram()) return "This page carries no program: it was made without one.";
  const reason = reasonAgainstRunning();
  return reason ? `${reason} The answer and its downloads don’t need it.` : null;
}

/**
 * Returns the bytes of a carried file. Rejects if they can't be unpacked.
 * @param {string} key
 * @returns {Promise<Uint8Array>}
 */
export async function storedFile(key) {
  const packed = Uint8Array.from(atob(fileOf(key)?.packed ?? ""), (sign) => sign.charCodeAt(0));
  const stream = new Blob([packed]).stream().pipeThrough(new DecompressionStream("gzip"));
  return new Uint8Array(await new Response(stream).arrayBuffer());
}

/**
 * Returns the SHA-256 of bytes, in hexadecimal digits.
 * @param {Uint8Array} bytes
 */
export async function sumOf(bytes) {
  const digest = new Uint8Array(await crypto.subtle.digest("SHA-256", bytes));
  return [...digest].map((byte) => byte.toString(16).padStart(2, "0")).join("");
}

/** Returns the compiled program, compiled once. */
export function compiledProgram() {
  compiled ??= unpackModule(fileOf("program")?.packed ?? "");
  return compiled;
}

/**
 * Returns the files of the problem that the page carries: the geographic header, the counts, the
 * borders, and links and sets if there are any.
 * @returns {Promise<Files>}
 */
export async function carriedProblem() {
  /** @type {Files} */
  const files = new Map();
  for (const key of ["geo", "segment", "adjacency", "links", "withdrawn"]) {
    if (fileOf(key)) files.set(key, new Blob([await storedFile(key)]));
  }
  return files;
}

/**
 * Starts the program with words and files. `stop` ends it; its result is then rejected.
 * @param {string[]} words
 * @param {Files} files
 * @param {(line: string) => void} [onProgress]
 * @returns {Promise<{result: Promise<Run>, stop: () => void}>}
 */
export async function startProgram(words, files, onProgress) {
  const module = await compiledProgram();
  const { result, stop } = startProcess({ module, words, files, onProgress });
  return { result: result.then(textsOf), stop };
}

/**
 * Runs the program to its end.
 * @param {string[]} words
 * @param {Files} files
 * @param {(line: string) => void} [onProgress]
 */
export async function runProgram(words, files, onProgress) {
  const { result } = await startProgram(words, files, onProgress);
  return result;
}

/**
 * Returns what a process left, its streams as texts.
 * @param {Ended} ended
 * @returns {Run}
 */
function textsOf({ status, output, errors, stored }) {
  const text = (/** @type {Uint8Array} */ bytes) => new TextDecoder().decode(bytes);
  return { status, output: text(output), errors: text(errors), stored };
}

/**
 * Returns files with one more.
 * @param {Files} files
 * @param {string} name
 * @param {BlobPart} bytes
 */
export function withFile(files, name, bytes) {
  return new Map(files).set(name, new Blob([bytes]));
}

/**
 * Returns whether a run was rejected because it was stopped.
 * @param {unknown} fault
 */
export function wasStopped(fault) {
  return fault instanceof ProcessError && fault.wasStopped;
}
