/**
 * Runs the program again and again, in folders of the machine, for the sweep of memory.
 *
 * usage: node run_server.mjs REFUSING.wasm HOST
 *
 * HOST is the folder with the modules of the host. Each line of standard input asks for a run, and
 * each line of standard output answers one, both as JSON. Bytes stand there as base64.
 */

import fs from "node:fs";
import readline from "node:readline";
import { pathToFileURL } from "node:url";

/**
 * A run that is asked for.
 *
 * @typedef {object} Asked
 * @property {string[]} words The words after the program's name.
 * @property {string} folder The folder in which it runs.
 * @property {string} input What standard input gives.
 * @property {number} refuse Which request for memory is refused, from 1 on. 0 refuses none.
 */

/**
 * What a run did.
 *
 * @typedef {object} Made
 * @property {number} status Its exit status.
 * @property {string} output What it wrote to standard output.
 * @property {string} errors What it wrote to standard error.
 * @property {number} requests How often it asked for memory.
 * @property {[string, string, number][]} renamed Each file that it renamed: the new name, the
 *   bytes, and how often it had asked for memory before.
 */

/** The status of a run that the engine gave up, as the launcher has it. */
const ABORTED = 134;

/** @param {Uint8Array} bytes */
const base64 = (bytes) => Buffer.from(bytes).toString("base64");

const [wasm, host] = process.argv.slice(2);
const module = new WebAssembly.Module(fs.readFileSync(wasm));
/** @type {(name: string) => Promise<any>} */
const hostModule = (name) => import(pathToFileURL(`${host}/${name}`).href);
const { makeCalls } = await hostModule("calls.mjs");
const { NodeFiles } = await hostModule("node_files.mjs");

/** The machine's files, with standard streams in memory. It notes what is renamed. */
class RecordedFiles extends NodeFiles {
  /**
   * @param {Uint8Array} input
   * @param {() => number} requests
   */
  constructor(input, requests) {
    super();
    this.input = input;
    this.requests = requests;
    /** @type {Uint8Array[][]} */
    this.written = [[], [], []];
    /** @type {[string, string, number][]} */
    this.renamed = [];
    /** @type {Set<number>} */
    this.opened = new Set();
  }

  /** @param {Uint8Array} name */
  openToRead(name) {
    const file = super.openToRead(name);
    this.opened.add(file);
    return file;
  }

  /**
   * @param {Uint8Array} name
   * @param {number} mode
   */
  create(name, mode) {
    const file = super.create(name, mode);
    this.opened.add(file);
    return file;
  }

  /** @param {number} file */
  close(file) {
    super.close(file);
    this.opened.delete(file);
  }

  /**
   * @param {number} file
   * @param {Uint8Array} into
   */
  read(file, into) {
    if (file !== 0) {
      return super.read(file, into);
    }
    const part = this.input.subarray(0, into.length);
    into.set(part);
    this.input = this.input.subarray(part.length);
    return part.length;
  }

  /**
   * @param {number} file
   * @param {Uint8Array} bytes
   */
  write(file, bytes) {
    if (file > 2) {
      return super.write(file, bytes);
    }
    this.written[file].push(bytes.slice());
    return bytes.length;
  }

  /**
   * @param {Uint8Array} from
   * @param {Uint8Array} to
   */
  rename(from, to) {
    const bytes = base64(fs.readFileSync(Buffer.from(from)));
    super.rename(from, to);
    this.renamed.push([Buffer.from(to).toString(), bytes, this.requests()]);
  }

  /** @param {number} file */
  isTerminal(file) {
    return file > 2 && super.isTerminal(file);
  }

  /** Closes what a run left open. */
  closeAll() {
    for (const file of this.opened) {
      super.close(file);
    }
  }
}

/**
 * Runs the program as `asked`.
 *
 * @param {Asked} asked
 * @returns {Made}
 */
function run(asked) {
  process.chdir(asked.folder);
  const words = ["countygroups", ...asked.words].map((word) => Buffer.from(word));
  /** @type {any} */
  let exports = null;
  const requests = () => Number(exports.count_requests());
  const store = new RecordedFiles(Buffer.from(asked.input, "base64"), requests);
  const state = { store, words, memory: null, errno: 0 };
  exports = new WebAssembly.Instance(module, { env: makeCalls(state) }).exports;
  state.memory = exports.memory;
  exports.refuse_request(BigInt(asked.refuse));
  let status = ABORTED;
  try {
    status = exports.main(words.length, 0n);
  } catch (error) {
    store.written[2].push(Buffer.from(String(error)));
  }
  store.closeAll();
  const [, output, errors] = store.written.map((parts) => base64(Buffer.concat(parts)));
  return { status, output, errors, requests: requests(), renamed: store.renamed };
}

for await (const line of readline.createInterface({ input: process.stdin })) {
  fs.writeSync(1, `${JSON.stringify(run(JSON.parse(line)))}\n`);
}
