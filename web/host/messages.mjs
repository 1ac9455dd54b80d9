/** What a page and a worker tell each other. */

/**
 * What a worker is told to run.
 *
 * @typedef {object} Request
 * @property {WebAssembly.Module} module The program's module.
 * @property {string[]} words The words after the program's name.
 * @property {Map<string, Blob>} files The files that the program may read, by name.
 * @property {Uint8Array} input The bytes of standard input.
 */

/**
 * What a process left when it ended.
 *
 * @typedef {object} Ended
 * @property {number} status The exit status.
 * @property {Uint8Array} output What it wrote to standard output.
 * @property {Uint8Array} errors What it wrote to standard error, without the lines of progress.
 * @property {Map<string, Uint8Array>} stored The files that it stored, by name.
 */

/**
 * What a worker tells: a line of progress, the end of the process, or why it has no end.
 *
 * @typedef {{ kind: "progress", line: string }
 *   | { kind: "ended", ended: Ended }
 *   | { kind: "failed", why: string }} Message
 */

export {};
