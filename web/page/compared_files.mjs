// What the page carries and shows, compared before a check with sums, with the record of the run
// that the page was made of, and with each other.

import { bordersOf } from "./geography.mjs";
import { textsFor } from "./page.mjs";
import { fileOf, storedFile, sumOf } from "./program.mjs";

/** @typedef {import("./page.mjs").Page} Page */

/** A reason to end the check, in words for the reader. */
export class Refusal extends Error {}

/**
 * Returns the carried files of a chamber's problem, each with its sum compared: with the page's own
 * list, and with the record. Throws a refusal if something was changed.
 * @param {Page} page
 * @param {string} key  that of the chamber
 */
export async function comparedFiles(page, key) {
  const names = [
    "geo", "segment", "adjacency", "links", "withdrawn", `${key}.certificate`, `${key}.enacted`,
  ];
  const record = page.records.get(key);
  const recorded = new Map([...(record?.read ?? []), ...(record?.stored ?? [])].map((file) => (
    [file.option, file.sum])));
  /** @type {Map<string, Uint8Array>} */
  const files = new Map();
  for (const name of names) {
    const carried = fileOf(name);
    if (!carried) continue;
    const { name: told, sum } = carried;
    const bytes = await storedFile(name).catch(() => null);
    if (!bytes) throw new Refusal(`${told} can’t be unpacked: its bytes were changed.`);
    const option = name === "segment" ? "segment1" : name.replace(/^.*\./, "");
    const known = [sum, recorded.get(option) ?? sum];
    const own = await sumOf(bytes);
    if (known.some((one) => one !== own)) {
      throw new Refusal(
        `${told} isn’t the file that the page was made with: its sum is another.`);
    }
    files.set(name, bytes);
  }
  await compareTable(page, key, recorded.get("table"));
  compareEnacted(page, key, files.get(`${key}.enacted`));
  compareBorders(page, files.get("adjacency"));
  return files;
}

/**
 * Throws a refusal if the table that the page shows isn't the one that the run stored.
 * @param {Page} page
 * @param {string} key
 * @param {string | undefined} sum  that of the stored table, if the record has it
 */
async function compareTable(page, key, sum) {
  const { table } = textsFor(page, key);
  if (sum && await sumOf(new TextEncoder().encode(table)) !== sum) {
    throw new Refusal("The page’s table of counties isn’t the one that it was made with: "
      + "its sum is another.");
  }
}

/**
 * Throws a refusal if the enacted grouping that the page marks isn't that of its file.
 * @param {Page} page
 * @param {string} key  that of the chamber
 * @param {Uint8Array | undefined} grouping
 */
function compareEnacted(page, key, grouping) {
  if (!grouping || new TextDecoder().decode(grouping) === textsFor(page, key).enacted) return;
  throw new Refusal("The page marks another enacted grouping than its file has.");
}

/**
 * Throws a refusal if the borders that the page offers for a what-if aren't those of its file.
 * @param {Page} page
 * @param {Uint8Array | undefined} adjacency
 */
function compareBorders({ geography }, adjacency) {
  if (!adjacency) return;
  const own = new Set(bordersOf(geography, new TextDecoder().decode(adjacency)).map(String));
  const shown = geography.borders.map(String);
  if (shown.length !== own.size || !shown.every((pair) => own.has(pair))) {
    throw new Refusal("The page shows other borders than its file of borders has.");
  }
}
