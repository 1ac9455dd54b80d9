// All best groupings of a chamber, with the number of each: the answer of `list` for the page.

import { codesOf, peopleOf, placesOf, setKey } from "./geography.mjs";
import { readGrouping, readList, readTable } from "./program_texts.mjs";
import { tintsFor } from "./tints.mjs";
import { areaName } from "./area_names.mjs";
import { chamberName } from "./state_names.mjs";

/** @typedef {import('./geography.mjs').Geography} Geography */
/** @typedef {import('./geography.mjs').Group} Group */
/** @typedef {import('./program_texts.mjs').ListedGroup} ListedGroup */
/** @typedef {import('./program_texts.mjs').Listing} Listing */
/**
 * A group that some best grouping has.
 * @typedef {{id: number, codes: string[], counties: number[], least: number, most: number,
 *   tint: number}} KnownGroup
 */
/**
 * An area of choice: a region of the list, by its number from 1. Its choices are the alternatives
 * of the list, in order.
 * @typedef {{number: number, name: string, counties: number[], choices: number[][]}} Area
 */
/** @typedef {{label: string, seats: number, counties: number[]}} TakenSet */
/**
 * The answer for a chamber. `areas` name groups by id; `options` has a choice for each area, in the
 * order of `list --number`, or null if they are too many; `enacted` is the number of the option
 * that the enacted plan uses, or 0.
 * @typedef {{key: string, name: string, seats: number, seatsLeft: number, counts: number[],
 *   tolerance: [number, number], number: number, groups: KnownGroup[], shared: number[],
 *   areas: Area[], options: number[][] | null, isEvery: boolean, first: number[],
 *   enacted: number, ofTable: number, taken: TakenSet[]}} Answer
 */

// If there are more best groupings than this, the page doesn't number them.
const MOST_NUMBERED = 20000;

/**
 * Orders groups as a grouping text has them: by size, and groups of one size by their codes.
 * @param {{codes: string[]}} one
 * @param {{codes: string[]}} other
 */
export function inOrder(one, other) {
  const bySize = one.codes.length - other.codes.length;
  return bySize || (one.codes.join() < other.codes.join() ? -1 : 1);
}

/**
 * Returns the answer that a list gives for a chamber.
 * @param {Geography} geography
 * @param {{key: string, name: string, list: string, table?: string, enacted?: string}} texts
 * @returns {Answer}
 */
export function answerOf(geography, texts) {
  const listing = readList(texts.list);
  const { groups, idOf } = knownGroups(geography, listing);
  const idsOf = (/** @type {ListedGroup[]} */ some) => some.map((one) => idOf(one.codes));
  const areas = listing.regions.map((region, at) => {
    const choices = region.map(idsOf);
    const counties = choices[0].flatMap((id) => groups[id].counties);
    return { number: at + 1, name: "", counties, choices };
  });
  /** @type {Answer} */
  const answer = {
    key: texts.key, name: texts.name || chamberName(geography.code, listing.chamber),
    seats: listing.chamber, seatsLeft: listing.seatsLeft,
    counts: listing.counts, tolerance: listing.window, number: listing.number, groups,
    shared: idsOf(listing.shared), areas, options: [], isEvery: !listing.combinations,
    first: areas.map(() => 0), enacted: 0, ofTable: 0,
    taken: takenSets(geography, texts.table ?? ""),
  };
  answer.options = optionsOf(answer, listing.combinations);
  answer.first = answer.options?.[0] ?? answer.first;
  const enacted = readGrouping(texts.enacted ?? "").map((group) => group.codes);
  if (enacted.length) answer.enacted = optionOfSets(geography, answer, enacted);
  const sets = setsOfTable(texts.table ?? "");
  if (sets.length) answer.ofTable = optionOfSets(geography, answer, sets);
  nameAreas(geography, answer);
  tintsFor(geography, answer);
  return answer;
}

/**
 * Gives each area its name.
 * @param {Geography} geography
 * @param {Answer} answer
 */
function nameAreas(geography, answer) {
  const all = answer.areas.map((area) => area.counties);
  for (const area of answer.areas) area.name = areaName(geography, area.counties, all);
}

/**
 * Returns each group of a list once, in order, and what gives its id by its codes.
 * @param {Geography} geography
 * @param {Listing} listing
 */
function knownGroups(geography, listing) {
  /** @type {Map<string, ListedGroup>} */
  const listed = new Map();
  for (const group of [...listing.shared, ...listing.regions.flat(2)]) {
    listed.set(group.codes.join(" "), group);
  }
  const ordered = [...listed.values()].sort(inOrder);
  const ids = new Map(ordered.map((group, id) => [group.codes.join(" "), id]));
  const groups = ordered.map(({ codes, least, most }, id) => (
    { id, codes, counties: placesOf(geography, codes), least, most, tint: 0 }));
  const idOf = (/** @type {string[]} */ codes) => ids.get(codes.join(" ")) ?? 0;
  return { groups, idOf };
}

/**
 * Returns the codes of each group of a table.
 * @param {string} table
 */
function setsOfTable(table) {
  /** @type {Map<string, string[]>} */
  const sets = new Map();
  for (const { geoid, group } of readTable(table)) {
    if (/^\d/.test(group)) sets.set(group, [...(sets.get(group) ?? []), geoid]);
  }
  return [...sets.values()];
}

/**
 * Returns the sets that a table says were taken out beforehand.
 * @param {Geography} geography
 * @param {string} table
 */
function takenSets(geography, table) {
  /** @type {Map<string, TakenSet>} */
  const sets = new Map();
  for (const row of readTable(table).filter((one) => one.group.startsWith("W"))) {
    const set = sets.get(row.group) ?? { label: row.group, seats: row.seats, counties: [] };
    set.counties.push(...placesOf(geography, [row.geoid]));
    sets.set(row.group, set);
  }
  return [...sets.values()];
}

/**
 * Returns the choices of each best grouping in the order of their numbers, or null if there are
 * too many.
 * @param {Answer} answer
 * @param {number[][] | null} combinations
 */
function optionsOf(answer, combinations) {
  if (combinations) return combinations;
  if (answer.number > MOST_NUMBERED) return null;
  /** @type {number[][]} */
  let every = [[]];
  for (const area of answer.areas) {
    every = every.flatMap((some) => area.choices.map((_, choice) => [...some, choice]));
  }
  const keyed = every.map((choices) => ({ choices, groups: groupsOf(answer, choices) }));
  keyed.sort((one, other) => compareGroupings(answer, one.groups, other.groups));
  return keyed.map((one) => one.choices);
}

/**
 * Compares two groupings group by group, in order.
 * @param {Answer} answer
 * @param {Group[]} some
 * @param {Group[]} others
 */
function compareGroupings(answer, some, others) {
  for (let at = 0; at < Math.min(some.length, others.length); at += 1) {
    if (some[at].id !== others[at].id) {
      return inOrder(answer.groups[some[at].id], answer.groups[others[at].id]);
    }
  }
  return some.length - others.length;
}

/**
 * Returns the groups of a choice for each area, in order, each with its seats: each group has the
 * least number that its people suit, and the rest goes to the first groups that have room.
 * @param {Answer} answer
 * @param {number[]} choices
 * @returns {Group[]}
 */
export function groupsOf(answer, choices) {
  /** @type {{id: number, area: number, choice: number}[]} */
  const chosen = answer.shared.map((id) => ({ id, area: -1, choice: -1 }));
  answer.areas.forEach((one, area) => {
    one.choices[choices[area]].forEach((id) => chosen.push({ id, area, choice: choices[area] }));
  });
  chosen.sort((one, other) => one.id - other.id);
  const known = chosen.map((one) => answer.groups[one.id]);
  let rest = answer.seatsLeft - known.reduce((sum, group) => sum + group.least, 0);
  return chosen.map((one, at) => {
    const more = Math.min(rest, known[at].most - known[at].least);
    rest -= more;
    const { counties, least, tint } = known[at];
    return { ...one, seats: least + more, counties, tint };
  });
}

/**
 * Returns the choices of an option, by its number from 1.
 * @param {Answer} answer
 * @param {number} number
 */
export function choicesOf(answer, number) {
  return answer.options?.[number - 1] ?? answer.first;
}

/**
 * Returns whether an answer has an option of this number.
 * @param {Answer} answer
 * @param {number} number
 */
export function isOption(answer, number) {
  return answer.options?.[number - 1] !== undefined;
}

/**
 * Returns the number of the option with these choices, or 0.
 * @param {Answer} answer
 * @param {number[]} choices
 */
export function optionNumber(answer, choices) {
  const key = choices.join(" ");
  return (answer.options?.findIndex((one) => one.join(" ") === key) ?? -1) + 1;
}

/**
 * Returns the number of the option that has exactly the sets of a grouping, or 0.
 * @param {Geography} geography
 * @param {Answer} answer
 * @param {string[][]} sets  the codes of each group
 */
export function optionOfSets(geography, answer, sets) {
  const keys = new Set(sets.map((codes) => setKey(placesOf(geography, codes))));
  const isIn = (/** @type {number} */ id) => keys.has(setKey(answer.groups[id].counties));
  const choices = answer.areas.map((area) => area.choices.findIndex((ids) => ids.every(isIn)));
  if (choices.includes(-1) || !answer.shared.every(isIn)) return 0;
  const isWhole = groupsOf(answer, choices).length === keys.size;
  return isWhole ? optionNumber(answer, choices) : 0;
}

/**
 * Returns the choices with another choice in one area. If not every combination is a best
 * grouping, the other areas change as little as can be.
 * @param {Answer} answer
 * @param {number[]} choices
 * @param {number} area
 * @param {number} choice
 */
export function turned(answer, choices, area, choice) {
  const wanted = choices.map((one, place) => (place === area ? choice : one));
  if (answer.isEvery || !answer.options) return wanted;
  const same = (/** @type {number[]} */ some) => (
    some.filter((one, place) => one === wanted[place]).length);
  const possible = answer.options.filter((some) => some[area] === choice);
  return possible.reduce((best, some) => (same(some) > same(best) ? some : best), possible[0]);
}

/**
 * Returns in how many best groupings a group of an area is, or null if they aren't numbered.
 * @param {Answer} answer
 * @param {Group} group
 */
export function optionsWith(answer, group) {
  if (group.area < 0) return answer.number;
  const has = (/** @type {number[]} */ some) => (
    answer.areas[group.area].choices[some[group.area]].includes(group.id));
  return answer.options ? answer.options.filter(has).length : null;
}

/**
 * Returns the seats of an area.
 * @param {Answer} answer
 * @param {Area} area
 * @param {number} [choice]
 */
export function seatsOfArea(answer, area, choice = 0) {
  return area.choices[choice].reduce((sum, id) => sum + answer.groups[id].least, 0);
}

/**
 * Returns a grouping as `list --out` stores it: a line for each group, its seats and then its
 * codes.
 * @param {Geography} geography
 * @param {{seats: number, counties: number[]}[]} groups
 */
export function groupingText(geography, groups) {
  const lines = groups.map(({ seats, counties }) => (
    { seats, codes: codesOf(geography, counties) }));
  lines.sort(inOrder);
  return lines.map(({ seats, codes }) => `${[seats, ...codes].join("|")}\n`).join("");
}

/**
 * Returns the counties that stand with others than before. A group goes on as the one with which it
 * shares most people.
 * @param {Geography} geography
 * @param {Group[]} before
 * @param {Group[]} after
 * @returns {Set<number>}
 */
export function movedCounties(geography, before, after) {
  /** @type {Set<number>} */
  const moved = new Set();
  const keys = new Set(after.map((group) => setKey(group.counties)));
  for (const group of before.filter((one) => !keys.has(setKey(one.counties)))) {
    const later = mostInCommon(geography, group, after).group;
    for (const county of group.counties) {
      if (!later || !later.counties.includes(county)) moved.add(county);
    }
  }
  return moved;
}

/**
 * Returns the group that shares most people with a group, and the counties that they share.
 * @param {Geography} geography
 * @param {{counties: number[]}} group
 * @param {Group[]} others
 * @returns {{group: Group | null, common: number[]}}
 */
export function mostInCommon(geography, group, others) {
  /** @type {{group: Group | null, common: number[]}} */
  let best = { group: null, common: [] };
  let most = 0;
  for (const other of others) {
    const common = group.counties.filter((county) => other.counties.includes(county));
    const people = peopleOf(geography, common);
    if (people > most) [most, best] = [people, { group: other, common }];
  }
  return best;
}
