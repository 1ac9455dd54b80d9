// What the page is about: the state, its chambers and their answers by each census, read from the
// page's data.

import { answerOf } from "./answers.mjs";
import { geographyOf, pairOf, shortName } from "./geography.mjs";
import { unpackedOutlines } from "./outlines.mjs";
import { readRecord, readTable } from "./program_texts.mjs";
import { sheetOf } from "./sheet.mjs";
import { stateName } from "./state_names.mjs";

/** @typedef {import("./geography.mjs").Geography} Geography */
/** @typedef {import("./answers.mjs").Answer} Answer */
/** @typedef {import("./program_texts.mjs").RunRecord} RunRecord */
/**
 * A chamber as the page's data have it: texts of the program, the grouping of the enacted plan with
 * the act that has the plan, what became of each disputed border (a table of `tools/what_if.py`),
 * which changes of people change the answer (a table of `tools/closeness.py`), and which borders
 * do if they are left out (a table of `tools/deciding_borders.py`).
 * @typedef {{key: string, name: string, list: string, table: string, record: string,
 *   recordText?: string, enacted: string, act?: string, tried: string, close?: string,
 *   deciding?: string}} ChamberTexts
 */
/**
 * The answers by the counts of one census. `year` is 0 where it isn't known, and so is
 * `enactedYear` where no enacted grouping is given.
 * @typedef {{year: number, enactedYear: number, chambers: ChamberTexts[]}} CensusTexts
 */
/**
 * The page's data: the first census, and further ones. `borders` has a line of two codes for each
 * pair of neighbors; `build` says what is known of how the program of the page was made.
 * @typedef {{state: {code: string}, year?: number, chambers: ChamberTexts[], outlines: any,
 *   borders: string, enactedYear: number, further?: CensusTexts[],
 *   build: {isProved: boolean | null, text: string}}} PageData
 */
/**
 * What the page shows now: one of its censuses.
 * @typedef {{census: CensusTexts, geography: Geography, answers: Answer[],
 *   records: Map<string, RunRecord>}} Shown
 */
/** @typedef {Shown & {data: PageData, known: Map<number, Shown>}} Page */

/**
 * Returns the page of the page's data, with its first census.
 * @param {PageData} given
 * @param {string} shapeId  what the ids of its shapes begin with
 * @returns {Page}
 */
export function pageOf(given, shapeId) {
  const data = { ...given, outlines: unpackedOutlines(given.outlines) };
  const { chambers, enactedYear, year = 0 } = data;
  const shown = shownCensus(data, { year, enactedYear, chambers });
  if (data.outlines) shown.geography.sheet = sheetOf(shown.geography, data.outlines, shapeId);
  shown.answers = chambers.map((chamber) => answerOf(shown.geography, chamber));
  return { ...shown, data, known: new Map([[year, shown]]) };
}

/**
 * Returns a census of the page, without a sheet and without answers.
 * @param {PageData} data
 * @param {CensusTexts} census
 * @returns {Shown}
 */
function shownCensus(data, census) {
  const rows = readTable(census.chambers[0].table);
  const counties = rows.map(({ geoid, name, people }) => (
    { geoid, name: shortName(name) || geoid, people }));
  const geography = geographyOf(data.state.code, stateName(data.state.code), counties);
  for (const line of data.borders.split("\n")) {
    const [one, other] = line.split(" ").map((code) => geography.placeOf.get(code));
    if (one !== undefined && other !== undefined) geography.borders.push(pairOf(one, other));
  }
  const records = new Map(census.chambers.map(({ key, record }) => [key, readRecord(record)]));
  return { census, geography, answers: [], records };
}

/**
 * Returns the years of the page's censuses, the first one first.
 * @param {Page} page
 */
export function censusYears({ data }) {
  return [data.year ?? 0, ...(data.further ?? []).map((census) => census.year)];
}

/**
 * Has the page show another of its censuses.
 * @param {Page} page
 * @param {number} year
 */
export function showCensus(page, year) {
  const known = page.known.get(year);
  const texts = page.data.further?.find((one) => one.year === year);
  if (!known && !texts) return;
  const shown = known ?? shownCensus(page.data, /** @type {CensusTexts} */ (texts));
  if (!known) {
    shown.geography.sheet = page.geography.sheet;
    shown.answers = shown.census.chambers.map((one) => answerOf(shown.geography, one));
    page.known.set(year, shown);
  }
  Object.assign(page, shown);
}

/**
 * Returns the part of an address behind `#` for a path such as "senate/6", with the year before it
 * if the page doesn't show its first census.
 * @param {Page} page
 * @param {string} path
 */
export function hashOf({ census, data }, path) {
  return census.year === (data.year ?? 0) ? `#${path}` : `#${census.year}/${path}`;
}

/**
 * Returns the address of how close an answer is.
 * @param {Page} page
 * @param {Answer} answer
 */
export function closeHash(page, answer) {
  return hashOf(page, `${answer.key}/${firstOption(answer)}/close`);
}

/**
 * Returns the answer of a chamber.
 * @param {Page} page
 * @param {string} key
 */
export function answerFor(page, key) {
  return page.answers.find((answer) => answer.key === key) ?? page.answers[0];
}

/**
 * Returns the texts of a chamber.
 * @param {Page} page
 * @param {string} key
 */
export function textsFor({ census }, key) {
  return census.chambers.find((one) => one.key === key) ?? census.chambers[0];
}

/**
 * Returns the number of the option that the page opens on: the enacted one, or the one of its
 * table.
 * @param {Answer} answer
 */
export function firstOption(answer) {
  return answer.enacted || answer.ofTable || 1;
}

/**
 * Returns "the Senate", or "the chamber of 34" where it has no name.
 * @param {Answer} answer
 */
export function chamberWords(answer) {
  return `the ${answer.name}`;
}

/**
 * Returns "the groups of 2023", with the act of the plan if it is known.
 * @param {Page} page
 * @param {Answer} answer
 */
export function enactedGroupsWords(page, answer) {
  const { act } = textsFor(page, answer.key);
  return `the groups of ${page.census.enactedYear}${act ? ` (${act})` : ""}`;
}
