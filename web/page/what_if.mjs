// A what-if: counties taken out, borders counted or not, another tolerance, other counts of people.
// What the program is asked, what the address says of it, and how its answer differs from the base
// answer.

import { unescaped } from "./addresses.mjs";
import { answerOf, groupsOf } from "./answers.mjs";
import { judgedEnacted } from "./enacted.mjs";
import { codesOf, placesOf, setKey } from "./geography.mjs";
import { changedGeography, withPeople } from "./other_counts.mjs";
import { startProgram, withFile } from "./program.mjs";
import { messageOf, readReport } from "./program_texts.mjs";
import { plainWords } from "./problem.mjs";

/** @typedef {import("./page.mjs").Page} Page */
/** @typedef {import("./answers.mjs").Answer} Answer */
/** @typedef {import("./geography.mjs").Geography} Geography */
/** @typedef {import("./geography.mjs").Group} Group */
/** @typedef {import("./program.mjs").Files} Files */
/** @typedef {import("./program_texts.mjs").Report} Report */
/**
 * Counties taken out with their seats. `isOwn` says that a person set the seats.
 * @typedef {{counties: number[], seats: number, isOwn: boolean}} OutSet
 */
/**
 * A what-if. `added` and `cut` have pairs of codes with a blank between, `people` the people of
 * counties whose count is another, by their places. `steps` is the most steps, 0 for as many as the
 * program takes by itself.
 * @typedef {{sets: OutSet[], added: Set<string>, cut: Set<string>, percent: number,
 *   people: Map<number, number>, steps: number}} WhatIf
 */
/**
 * What the program answered. `geography` has the people that were asked for. `answer` is there if
 * all best groupings were listed, `enacted` if the enacted groups were judged, and `certificate` if
 * one was stored. `words` and `files` are the problem.
 * @typedef {{status: number, report: Report, answer: Answer | null, said: string,
 *   geography: Geography, enacted: import("./enacted.mjs").Enacted | null,
 *   certificate: Uint8Array | null, words: string[], files: Files}} Outcome
 */

/**
 * Returns a what-if that changes nothing of an answer's problem.
 * @param {Answer} answer
 * @returns {WhatIf}
 */
export function nothingChanged({ taken, tolerance: [numerator, denominator] }) {
  const sets = taken.map(({ counties, seats }) => (
    { counties: [...counties], seats, isOwn: true }));
  const percent = (100 * numerator) / denominator;
  return { sets, added: new Set(), cut: new Set(), percent, people: new Map(), steps: 0 };
}

/**
 * Returns the codes of a pair with a blank between, as a what-if has them.
 * @param {Geography} geography
 * @param {number[]} pair
 */
export function pairCodes(geography, pair) {
  return codesOf(geography, pair).join(" ");
}

// The greatest denominator of a tolerance that the program takes.
const MOST_OF = 1000;

/** Why a percentage is no tolerance. */
export const NO_TOLERANCE = "The program can’t take this percentage: it takes at most 50, "
  + "and only fractions with a denominator of at most 1,000, as 6.25 percent is 1/16.";

/**
 * Returns the fraction that is exactly a percentage, numerator and denominator. Returns null if the
 * program takes no such tolerance.
 * @param {number} percent
 * @returns {[number, number] | null}
 */
export function fractionOf(percent) {
  if (!(percent >= 0 && percent <= 50)) return null;
  for (let whole = 1; whole <= MOST_OF; whole += 1) {
    const part = Math.round((percent * whole) / 100);
    if ((100 * part) / whole === percent) return [part, whole];
  }
  return null;
}

/**
 * Returns the lines of the links file.
 * @param {WhatIf} whatIf
 */
export function linksText({ added, cut }) {
  const line = (/** @type {string} */ sign, /** @type {string} */ pair) => (
    `${sign}|${pair.replace(" ", "|")}\n`);
  return [...added].map((pair) => line("+", pair)).join("")
    + [...cut].map((pair) => line("-", pair)).join("");
}

/**
 * Returns a text whose last line has its end, too.
 * @param {string} text
 */
function withLastEnd(text) {
  return !text || text.endsWith("\n") ? text : `${text}\n`;
}

/**
 * Returns the words and files of a what-if, behind those of the base problem. Throws a sentence if
 * the program takes no such tolerance.
 * @param {Page} page
 * @param {Answer} base
 * @param {WhatIf} whatIf
 * @param {Files} files
 */
async function problemOf(page, base, whatIf, files) {
  const tolerance = fractionOf(whatIf.percent);
  if (!tolerance) throw new Error(NO_TOLERANCE);
  const words = plainWords(page, { ...base, tolerance });
  const links = withLastEnd(await files.get("links")?.text() ?? "") + linksText(whatIf);
  const sets = whatIf.sets.filter((set) => set.counties.length).map((set) => (
    `${[set.seats, ...codesOf(page.geography, set.counties)].join("|")}\n`)).join("");
  let all = whatIf.people.size ? await withPeople(page.geography, files, whatIf.people) : files;
  if (links) {
    all = withFile(all, "links", links);
    words.push("--links", "links");
  }
  if (sets) {
    all = withFile(all, "withdrawn", sets);
    words.push("--withdrawn", "withdrawn");
  }
  return { words, files: all };
}

/**
 * Starts to solve a what-if and to list its best groupings. `stop` ends the run that is at work.
 * @param {Page} page
 * @param {Answer} base
 * @param {WhatIf} whatIf
 * @param {Files} files  those of the base problem
 * @param {(line: string) => void} onProgress
 * @param {boolean} [isJudged]  whether the enacted groups are judged, too
 * @returns {Promise<{outcome: Promise<Outcome>, stop: () => void}>}
 */
export async function startWhatIf(page, base, whatIf, files, onProgress, isJudged = true) {
  const problem = await problemOf(page, base, whatIf, files);
  const proof = ["--certificate", "certificate"];
  const steps = whatIf.steps ? ["--steps", String(whatIf.steps)] : [];
  let isStopped = false;
  let atWork = await startProgram(
    ["solve", ...problem.words, ...proof, ...steps], problem.files, onProgress);
  const run = async (/** @type {string[]} */ words, /** @type {Files} */ some) => {
    atWork = await startProgram(words, some);
    if (isStopped) atWork.stop();
    return atWork.result;
  };
  const outcome = atWork.result.then(async (solved) => {
    const found = foundOf(page, whatIf, problem, solved);
    if (found.status > 1 || !found.certificate) return found;
    const all = withFile(problem.files, "certificate", found.certificate);
    if (found.status === 0) {
      const listed = await run(["list", ...problem.words, ...proof], all);
      const texts = { key: base.key, name: base.name, list: listed.output };
      if (listed.status === 0) found.answer = answerOf(found.geography, texts);
    }
    if (isJudged) found.enacted = await judgedEnacted(page, base, whatIf, found, run);
    return found;
  });
  const stop = () => {
    isStopped = true;
    atWork.stop();
  };
  return { outcome, stop };
}

/**
 * Returns what came of solving, before anything is listed.
 * @param {Page} page
 * @param {WhatIf} whatIf
 * @param {{words: string[], files: Files}} problem
 * @param {import("./program.mjs").Run} solved
 * @returns {Outcome}
 */
function foundOf(page, whatIf, { words, files }, solved) {
  return {
    status: solved.status, report: readReport(solved.output), answer: null,
    said: solved.errors.trim() || messageOf(solved.output), enacted: null, words, files,
    geography: changedGeography(page.geography, whatIf.people),
    certificate: solved.stored.get("certificate") ?? null,
  };
}

/**
 * Returns the groups that a what-if's map shows. If some best grouping has a group that no base
 * answer has, it is one of those; of these it is the one most like `shown`.
 * @param {Geography} geography
 * @param {Answer} base
 * @param {Outcome} outcome
 * @param {Group[]} shown
 * @returns {Group[]}
 */
export function groupsOfOutcome(geography, base, outcome, shown) {
  const { answer, report } = outcome;
  if (!answer) {
    return report.groups.map(({ seats, codes }, id) => {
      const counties = placesOf(geography, codes);
      return { id, seats, counties, area: -1, choice: -1, tint: 0 };
    });
  }
  const known = new Set(base.groups.map((group) => setKey(group.counties)));
  const wanted = new Set(shown.map((group) => setKey(group.counties)));
  const count = (/** @type {Set<string>} */ keys, /** @type {number[]} */ choices) => (
    groupsOf(answer, choices).filter((group) => keys.has(setKey(group.counties))).length);
  const options = answer.options ?? [answer.first];
  const size = groupsOf(answer, answer.first).length;
  const fresh = options.filter((choices) => count(known, choices) < size);
  const from = fresh.length ? fresh : options;
  const best = from.reduce((some, other) => (
    count(wanted, other) > count(wanted, some) ? other : some));
  return groupsOf(answer, best);
}

/**
 * Returns the first size in which two lists of counts differ, or 0.
 * @param {number[]} some
 * @param {number[]} others
 */
export function differingSize(some, others) {
  const length = Math.max(some.length, others.length);
  for (let at = 0; at < length; at += 1) {
    if ((some[at] ?? 0) !== (others[at] ?? 0)) return at + 1;
  }
  return 0;
}

/**
 * Returns what the address says of a what-if.
 * @param {Geography} geography
 * @param {Answer} base
 * @param {WhatIf} whatIf
 */
export function addressOf(geography, base, { sets, added, cut, percent, people }) {
  const pairs = (/** @type {Set<string>} */ some) => (
    [...some].map((pair) => pair.replace(" ", "-")));
  const filled = sets.filter((set) => set.counties.length);
  const out = filled.map((set) => `${codesOf(geography, set.counties).join("-")}:${set.seats}`);
  return [
    out.length ? `out=${out.join(",")}` : "",
    added.size ? `add=${pairs(added).join(",")}` : "",
    cut.size ? `cut=${pairs(cut).join(",")}` : "",
    percent === nothingChanged(base).percent ? "" : `percent=${percent}`,
    people.size ? `people=${peopleText(geography, people)}` : "",
  ].filter(Boolean).join("&");
}

/**
 * Returns what tells apart the problems of which borders are tried: chamber, sets and tolerance.
 * @param {Geography} geography
 * @param {Answer} base
 * @param {WhatIf} whatIf
 */
export function triedProblem(geography, base, whatIf) {
  const plain = { ...whatIf, added: new Set(), cut: new Set() };
  return `${base.key}/${addressOf(geography, base, plain)}`;
}

/**
 * Returns other counts of people as an address has them: the change of each county.
 * @param {Geography} geography
 * @param {Map<number, number>} people
 */
function peopleText(geography, people) {
  return [...people].map(([place, count]) => {
    const { geoid, people: before } = geography.counties[place];
    const change = count - before;
    return `${geoid}:${change < 0 ? "" : "+"}${change}`;
  }).join(",");
}

/** Why an address names no what-if, in a sentence. */
export class Unreadable extends Error {}

/**
 * Returns a text of an address as a sentence quotes it.
 * @param {string} text
 */
function quotedPart(text) {
  return `“${text.slice(0, 40)}”`;
}

/**
 * Returns the county of a code. Throws a sentence if there is none.
 * @param {Geography} geography
 * @param {string} code
 */
function countyOfCode(geography, code) {
  const place = geography.placeOf.get(code);
  if (place === undefined) {
    throw new Unreadable(`No county of ${geography.name} has the code ${quotedPart(code)}.`);
  }
  return place;
}

/**
 * Returns the codes of a pair of an address. Throws a sentence if these aren't two counties.
 * @param {Geography} geography
 * @param {string} text
 */
function pairOfAddress(geography, text) {
  const places = text.split("-").map((code) => countyOfCode(geography, code));
  if (places.length !== 2 || places[0] === places[1]) {
    throw new Unreadable(`${quotedPart(text)} isn’t a pair of counties.`);
  }
  return pairCodes(geography, places);
}

/**
 * Returns the set of an address, such as "37119-37025:6". Throws a sentence if it can't be read.
 * @param {Geography} geography
 * @param {string} text
 * @returns {OutSet}
 */
function setOfAddress(geography, text) {
  const parts = text.match(/^([^:]*):([1-9]\d{0,3})$/);
  if (!parts) throw new Unreadable(`${quotedPart(text)} isn’t a set of counties with its seats.`);
  const counties = parts[1].split("-").map((code) => countyOfCode(geography, code));
  if (new Set(counties).size < counties.length) {
    throw new Unreadable(`${quotedPart(text)} has a county twice.`);
  }
  return { counties, seats: Number(parts[2]), isOwn: true };
}

/**
 * Returns a county and its people of an address, such as "37147:+90" or "37147:172243". Throws a
 * sentence if it can't be read.
 * @param {Geography} geography
 * @param {string} text
 * @returns {[number, number]}
 */
function countOfAddress(geography, text) {
  const parts = text.match(/^(\d{5}):([+-]?)(\d{1,9})$/);
  if (!parts) throw new Unreadable(`${quotedPart(text)} isn’t a county with its people.`);
  const place = countyOfCode(geography, parts[1]);
  const before = parts[2] ? geography.counties[place].people : 0;
  const people = before + (parts[2] === "-" ? -1 : 1) * Number(parts[3]);
  if (people < 0) throw new Unreadable(`${quotedPart(text)} leaves fewer than no people.`);
  return [place, people];
}

/**
 * Returns the percentage of an address. Throws a sentence if it is none.
 * @param {string} text
 */
function percentOfAddress(text) {
  const percent = /^\d+(\.\d+)?$/.test(text) ? Number(text) : NaN;
  if (!fractionOf(percent)) {
    throw new Unreadable(`${quotedPart(text)} percent is no tolerance. ${NO_TOLERANCE}`);
  }
  return percent;
}

/**
 * Returns the what-if of an address. Throws an `Unreadable` if any part of it can't be read.
 * @param {Geography} geography
 * @param {Answer} base
 * @param {string} query
 * @returns {WhatIf}
 */
export function whatIfOf(geography, base, query) {
  const whatIf = { ...nothingChanged(base), sets: /** @type {OutSet[]} */ ([]) };
  for (const part of unescaped(query).split("&")) {
    const [name, value = ""] = part.split("=");
    const items = value.split(",").filter(Boolean);
    if (name === "add") items.forEach((one) => whatIf.added.add(pairOfAddress(geography, one)));
    else if (name === "cut") items.forEach((one) => whatIf.cut.add(pairOfAddress(geography, one)));
    else if (name === "percent") whatIf.percent = percentOfAddress(value);
    else if (name === "out") whatIf.sets.push(...items.map((one) => setOfAddress(geography, one)));
    else if (name === "people") {
      items.forEach((one) => whatIf.people.set(...countOfAddress(geography, one)));
    } else throw new Unreadable(`${quotedPart(name)} names nothing that can be changed.`);
    if (!value) throw new Unreadable(`Behind ${quotedPart(name)} there is nothing.`);
  }
  const taken = whatIf.sets.flatMap((set) => set.counties);
  if (new Set(taken).size < taken.length) throw new Unreadable("A county is taken out twice.");
  return whatIf;
}
