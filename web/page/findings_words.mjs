// The findings of an audit, summed up by kind in plain words.

import { groupName } from "./group_words.mjs";
import { andList, counted, countedInWords, nounFor, numberText } from "./words.mjs";

/** @typedef {import("./program_texts.mjs").Finding} Finding */
/** @typedef {import("./program_texts.mjs").District} District */
/** @typedef {import("./geography.mjs").Geography} Geography */
/** @typedef {{count: number, name: string, told: string}} FindingKind */
/**
 * What a plan is compared with: the groups in the order of the grouping text.
 * @typedef {{geography: Geography, groups: {seats: number, counties: number[]}[],
 *   countyWords: (code: string) => string}} Against
 */

/**
 * Returns the words of a set: "group 3" is the third group.
 * @param {Against} against
 * @param {string} kind
 * @param {string} number
 */
function setWords({ geography, groups }, kind, number) {
  const group = groups[Number(number) - 1];
  return kind === "group" && group ? groupName(geography, group) : `the set ${number} taken out`;
}

/**
 * Returns the words of the sets in which a district has blocks.
 * @param {Against} against
 * @param {District} district
 */
export function setsOfDistrict(against, { sets }) {
  return sets.map((label) => (
    label.startsWith("W") ? setWords(against, "withdrawn", label.slice(1))
      : setWords(against, "group", label)));
}

/**
 * Returns blocks of findings by county, in a sentence.
 * @param {Against} against
 * @param {Finding[]} findings
 */
function blockWords({ countyWords }, findings) {
  if (!findings.length) return "";
  const counties = new Set(findings.map((one) => one.words[0].slice(0, 5)));
  const names = [...counties].slice(0, 4).map(countyWords);
  const more = counties.size > 4 ? [`${counties.size - 4} more counties`] : [];
  return `${counted(findings.length, "block")} in ${andList([...names, ...more])}, first `
    + `${findings[0].words[0]}.`;
}

/**
 * Returns whether a district has too few or too many people.
 * @param {District} district
 */
function hasWrongSize({ people, least, greatest }) {
  return people < least || people > greatest;
}

/**
 * Returns what is wrong with a district itself.
 * @param {District} district
 */
export function districtFaults({ people, least, greatest, sets }) {
  const faults = sets.length > 1 ? ["crosses groups"] : [];
  if (people < least) faults.push("too few people");
  else if (people > greatest) faults.push("too many people");
  return faults;
}

/**
 * Returns the first two districts that cross groups, in sentences.
 * @param {Against} against
 * @param {District[]} districts
 */
function crossingWords(against, districts) {
  const told = districts.filter(({ sets }) => sets.length > 1).slice(0, 2).map((district) => {
    const places = setsOfDistrict(against, district).map((words) => `in ${words}`);
    return `District ${district.label} has blocks ${andList(places)}.`;
  });
  return told.join(" ") || "Each district lies in one group.";
}

/**
 * Returns the first two districts of a wrong size, in sentences, or the size of all.
 * @param {District[]} districts
 */
function sizeWords(districts) {
  const told = districts.filter(hasWrongSize).slice(0, 2).map((district) => {
    const { label, people, least, greatest } = district;
    const needed = people < least
      ? `it needs ${numberText(least)}` : `${numberText(greatest)} are allowed`;
    return `District ${label} has ${numberText(people)} people; ${needed}.`;
  });
  if (told.length || !districts.length) return told.join(" ");
  const [{ least, greatest }] = districts;
  return `Each district has ${numberText(least)} to ${numberText(greatest)} people.`;
}

/**
 * Returns six kinds of findings with their numbers, zeros too.
 * @param {Against} against
 * @param {Finding[]} findings
 * @param {District[]} districts
 * @returns {FindingKind[]}
 */
export function findingKinds(against, findings, districts) {
  const of = (/** @type {string} */ kind) => findings.filter((one) => one.kind === kind);
  const numbers = of("WrongNumber").slice(0, 2).map(({ words: [kind, number, , seats, , has] }) => (
    `${setWords(against, kind, number)}: ${countedInWords(Number(has), "district")} for `
    + `${countedInWords(Number(seats), "seat")}.`));
  const kind = (/** @type {number} */ count, /** @type {string} */ one, /** @type {string} */ many,
    /** @type {string} */ told) => ({ count, name: nounFor(count, one, many), told });
  return [
    kind(districts.filter(({ sets }) => sets.length > 1).length, "district crosses groups",
      "districts cross groups", crossingWords(against, districts)),
    kind(of("WrongNumber").length, "group with a wrong number of districts",
      "groups with a wrong number of districts",
      numbers.join(" ") || "Each group has as many districts as seats."),
    kind(of("DistrictSize").length, "district has too few or too many people",
      "districts have too few or too many people", sizeWords(districts)),
    kind(of("Unassigned").length, "block in no district", "blocks in no district",
      blockWords(against, of("Unassigned"))),
    kind(of("BlockTwice").length, "block named twice", "blocks named twice",
      blockWords(against, of("BlockTwice"))),
    kind(of("UnknownBlock").length, "block that the Census doesn’t have",
      "blocks that the Census doesn’t have", blockWords(against, of("UnknownBlock"))),
  ];
}
