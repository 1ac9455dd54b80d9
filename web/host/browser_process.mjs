/** The page's side of a process, which runs in a worker of its own. */

import { workerSource } from "./worker_source.mjs";

/**
 * @typedef {import("./messages.mjs").Ended} Ended
 * @typedef {import("./messages.mjs").Message} Message
 */

/**
 * A process that was started.
 *
 * @typedef {object} Started
 * @property {Promise<Ended>} result What it left when it ended. The promise is rejected with a
 *   `ProcessError` if the process has no end: it was stopped, or the engine gave it up.
 * @property {() => void} stop Ends it at once. It leaves nothing.
 */

/** The sentence for a browser that can't run the program. */
const NO_ENGINE =
  "This browser can't run the program: it has no WebAssembly, or can't unpack what the page has.";

/** Why a process has no end of its own. */
export class ProcessError extends Error {
  /**
   * @param {string} why For a person.
   * @param {boolean} wasStopped Whether `stop` was called.
   */
  constructor(why, wasStopped) {
    super(why);
    this.name = "ProcessError";
    this.wasStopped = wasStopped;
  }
}

/**
 * Returns why this browser can't run the program, in one sentence, or null if it can.
 *
 * @returns {string | null}
 */
export function reasonAgainstRunning() {
  const canRun = typeof WebAssembly === "object" && typeof DecompressionStream === "function";
  return canRun ? null : NO_ENGINE;
}

/**
 * Starts a worker, whose script is in this page.
 *
 * @returns {Worker}
 */
function startWorker() {
  const address = URL.createObjectURL(new Blob([workerSource], { type: "text/javascript" }));
  const worker = new Worker(address);
  URL.revokeObjectURL(address);
  return worker;
}

/**
 * Has `worker` tell its messages: lines of progress to `onProgress`, and its end to the others.
 *
 * @param {Worker} worker
 * @param {(line: string) => void} onProgress
 * @param {(ended: Ended) => void} end
 * @param {(error: ProcessError) => void} fail
 */
function listen(worker, onProgress, end, fail) {
  worker.onmessage = (event) => {
    const message = /** @type {Message} */ (event.data);
    if (message.kind === "progress") {
      onProgress(message.line);
    } else if (message.kind === "ended") {
      end(message.ended);
    } else {
      fail(new ProcessError(message.why, false));
    }
  };
  worker.onerror = (event) => {
    fail(new ProcessError(event.message || "the worker could not be started", false));
  };
}

/**
 * Starts the program.
 *
 * @param {object} run
 * @param {WebAssembly.Module} run.module The program's module.
 * @param {string[]} run.words The words after the program's name.
 * @param {Map<string, Blob> | Record<string, Blob>} [run.files] The files that it may read, by
 *   the names that the words give them. They are read as the program asks for their bytes.
 * @param {Uint8Array} [run.input] The bytes of standard input.
 * @param {(line: string) => void} [run.onProgress] Is called with each line of progress.
 * @returns {Started}
 */
export function startProcess({ module, words, files, input, onProgress }) {
  const worker = startWorker();
  const named = files instanceof Map ? files : new Map(Object.entries(files ?? {}));
  /** @type {(error: ProcessError) => void} */
  let fail = () => {};
  const result = new Promise((end, reject) => {
    fail = reject;
    listen(worker, onProgress ?? (() => {}), end, reject);
  });
  const over = () => worker.terminate();
  result.then(over, over);
  worker.postMessage({ module, words, files: named, input: input ?? new Uint8Array(0) });
  const stop = () => fail(new ProcessError("the process was stopped", true));
  return { result, stop };
}
