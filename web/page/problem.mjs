// The problem of a chamber, as words and files of the program.

import { PROBLEM_FILES, fileOf } from "./program.mjs";

/** @typedef {import("./page.mjs").Page} Page */
/** @typedef {import("./answers.mjs").Answer} Answer */

/**
 * Returns the words of a problem without links and withdrawn sets: its files, seats, tolerance.
 * @param {Page} page
 * @param {Answer} answer
 */
export function plainWords(page, { seats, tolerance: [numerator, denominator] }) {
  const words = [...PROBLEM_FILES, "--chamber", String(seats)];
  words.push("--state", String(Number(page.geography.code)));
  if (numerator !== 1 || denominator !== 20) {
    words.push("--part", String(numerator), "--of", String(denominator));
  }
  return words;
}

/**
 * Returns the words of a chamber's problem, with the links and sets that the page carries.
 * @param {Page} page
 * @param {Answer} answer
 */
export function problemWords(page, answer) {
  const words = plainWords(page, answer);
  for (const key of ["links", "withdrawn"]) {
    if (fileOf(key)) words.push(`--${key}`, key);
  }
  return words;
}
