/**
 * Prints the names of the host calls, one a line.
 *
 * usage: node call_names.mjs CALLS.mjs
 */

import { pathToFileURL } from "node:url";

const { makeCalls } = await import(pathToFileURL(process.argv[2]).href);
const names = Object.keys(makeCalls({ store: null, words: [], memory: null, errno: 0 }));
console.log(names.join("\n"));
