/**
 * The text of the worker's script. It is empty here: tools/bundle.py puts the packed `worker.mjs`
 * in its place, so that a page of one file can start a worker.
 */
export const workerSource = "";
