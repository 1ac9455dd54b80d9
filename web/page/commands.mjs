// The commands that repeat what the page ran, as a shell takes them.

import { fileOf } from "./program.mjs";
import { linksText } from "./what_if.mjs";
import { codesOf } from "./geography.mjs";

/** @typedef {import("./page.mjs").Page} Page */
/** @typedef {import("./answers.mjs").Answer} Answer */
/** @typedef {import("./what_if.mjs").WhatIf} WhatIf */

/**
 * Returns the words of a problem with the names of the files that the page carries.
 * @param {Page} page
 * @param {Answer} answer
 * @param {[number, number]} [tolerance]
 */
export function problemText(page, answer, tolerance = answer.tolerance) {
  const name = (/** @type {string} */ key) => fileOf(key)?.name ?? key.toUpperCase();
  const words = [
    `--geo ${name("geo")}`, `--segment ${name("segment")}`, `--adjacency ${name("adjacency")}`,
    `--chamber ${answer.seats}`,
  ];
  if (page.geography.code !== "37") words.push(`--state ${Number(page.geography.code)}`);
  const [numerator, denominator] = tolerance;
  if (numerator * 20 !== denominator) words.push(`--part ${numerator}`, `--of ${denominator}`);
  for (const key of ["links", "withdrawn"]) if (fileOf(key)) words.push(`--${key} ${name(key)}`);
  return words.join(" \\\n    ");
}

/**
 * Returns the command that writes lines to a file.
 * @param {string[]} lines
 * @param {string} name
 */
function written(lines, name) {
  return `printf '%s\\n' ${lines.map((line) => `'${line}'`).join(" ")} > ${name}\n`;
}

/**
 * Returns the commands of a what-if. With other counts they name the changed Census files, which
 * the page stores.
 * @param {Page} page
 * @param {Answer} base
 * @param {WhatIf} whatIf
 * @param {[number, number]} tolerance
 */
export function whatIfCommands(page, base, whatIf, tolerance) {
  const links = linksText(whatIf).split("\n").filter(Boolean);
  const sets = whatIf.sets.filter((set) => set.counties.length).map(({ seats, counties }) => (
    [seats, ...codesOf(page.geography, counties)].join("|")));
  const before = (links.length ? written(links, "what_if.links") : "")
    + (sets.length ? written(sets, "what_if.withdrawn") : "");
  const counts = whatIf.people.size
    ? "# The geographic header and the counts are the changed ones that the page stores.\n" : "";
  const more = (links.length ? " \\\n    --links what_if.links" : "")
    + (sets.length ? " \\\n    --withdrawn what_if.withdrawn" : "");
  const proof = " \\\n    --certificate what_if.certificate";
  const words = `${problemText(page, base, tolerance)}${more}${proof}`;
  return `${before}${counts}countygroups solve ${words}\ncountygroups check ${words}\n`
    + `countygroups list ${words}`;
}
