// Tints of groups, chosen once over all groups of all options: no two groups that touch, also at a
// point, share one, and the core of a group keeps its tint from one option to the next.

import { peopleOf } from "./geography.mjs";

/** @typedef {import('./geography.mjs').Geography} Geography */
/** @typedef {import('./answers.mjs').Answer} Answer */
/** @typedef {import('./answers.mjs').KnownGroup} KnownGroup */

export const TINTS = 5;
const MOST_STEPS = 60000;

/**
 * Returns the counties around each county: neighbors, and those that touch it in the outlines.
 * @param {Geography} geography
 * @returns {Set<number>[]}
 */
export function countiesAround(geography) {
  /** @type {Set<number>[]} */
  const around = geography.counties.map(() => new Set());
  const sheet = geography.sheet;
  const lines = sheet ? sheet.owners.filter((own) => own.length === 2) : [];
  const pairs = [...geography.borders, ...(sheet?.pointPairs ?? []), ...lines];
  for (const [one, other] of pairs) {
    around[one].add(other);
    around[other].add(one);
  }
  return around;
}

/**
 * Gives each group of an answer its tint.
 * @param {Geography} geography
 * @param {Answer} answer
 */
export function tintsFor(geography, answer) {
  const around = countiesAround(geography);
  const near = answer.groups.map((group) => (
    new Set(group.counties.flatMap((county) => [...around[county]]))));
  const may = mayMeet(answer);
  const apart = answer.groups.map((group) => answer.groups.filter((other) => (
    other !== group && may(group.id, other.id)
    && other.counties.some((county) => near[group.id].has(county))
    && !other.counties.some((county) => group.counties.includes(county)))).map((one) => one.id));
  const overlaps = answer.groups.map((group) => overlapsOf(geography, answer, group));
  const tints = searched(apart, overlaps) ?? greedy(apart, overlaps);
  answer.groups.forEach((group) => {
    group.tint = tints[group.id];
  });
}

/**
 * Returns whether some option can have both groups.
 * @param {Answer} answer
 * @returns {(one: number, other: number) => boolean}
 */
function mayMeet(answer) {
  /** @type {Map<number, {area: number, choices: Set<number>}>} */
  const placeOf = new Map();
  answer.areas.forEach(({ choices }, area) => choices.forEach((ids, choice) => ids.forEach((id) => {
    const place = placeOf.get(id) ?? { area, choices: new Set() };
    place.choices.add(choice);
    placeOf.set(id, place);
  })));
  return (one, other) => {
    const [first, second] = [placeOf.get(one), placeOf.get(other)];
    if (!first || !second || first.area !== second.area) return true;
    return [...first.choices].some((choice) => second.choices.has(choice));
  };
}

/**
 * Returns the groups of other options that share counties with a group, most people in common
 * first.
 * @param {Geography} geography
 * @param {Answer} answer
 * @param {KnownGroup} group
 */
function overlapsOf(geography, answer, group) {
  const shared = answer.groups.map((other) => ({
    id: other.id,
    people: peopleOf(geography, other.counties.filter((one) => group.counties.includes(one))),
  }));
  const others = shared.filter((one) => one.people > 0 && one.id !== group.id);
  return others.sort((one, other) => other.people - one.people).map((one) => one.id);
}

/**
 * Returns tints by a bounded search, or null if it finds none: the group with the fewest tints left
 * comes first, and a group tries the tints of those that it overlaps before others.
 * @param {number[][]} apart
 * @param {number[][]} overlaps
 */
function searched(apart, overlaps) {
  const tints = apart.map(() => -1);
  let steps = 0;
  /** @type {() => boolean} */
  const place = () => {
    const next = hardest(apart, tints);
    if (next < 0) return true;
    for (const tint of triedTints(next, apart, overlaps, tints)) {
      steps += 1;
      if (steps > MOST_STEPS) return false;
      tints[next] = tint;
      if (place()) return true;
      tints[next] = -1;
    }
    return false;
  };
  return place() ? tints : null;
}

/**
 * Returns the group without a tint that has the fewest left, or -1.
 * @param {number[][]} apart
 * @param {number[]} tints
 */
function hardest(apart, tints) {
  let [best, most] = [-1, -1];
  apart.forEach((others, id) => {
    if (tints[id] >= 0) return;
    const taken = new Set(others.map((one) => tints[one]).filter((tint) => tint >= 0)).size;
    const weight = taken * 1000 + others.length;
    if (weight > most) [best, most] = [id, weight];
  });
  return best;
}

/**
 * Returns the tints that a group may have: first those of the groups that it overlaps, then others
 * in turn.
 * @param {number} id
 * @param {number[][]} apart
 * @param {number[][]} overlaps
 * @param {number[]} tints
 */
function triedTints(id, apart, overlaps, tints) {
  const taken = new Set(apart[id].map((one) => tints[one]));
  const turn = Array.from({ length: TINTS }, (_, step) => (id + step) % TINTS);
  const preferred = overlaps[id].map((one) => tints[one]).filter((tint) => tint >= 0);
  return [...new Set([...preferred, ...turn])].filter((tint) => !taken.has(tint));
}

/**
 * Returns tints that may repeat where five aren't enough.
 * @param {number[][]} apart
 * @param {number[][]} overlaps
 */
function greedy(apart, overlaps) {
  const tints = apart.map(() => -1);
  apart.forEach((_, id) => {
    tints[id] = triedTints(id, apart, overlaps, tints)[0] ?? id % TINTS;
  });
  return tints;
}

/**
 * Gives each of `groups` the tint of the group of an answer with which it shares most people,
 * unless a group beside it has that tint.
 * @param {Geography} geography
 * @param {{counties: number[]}[]} known
 * @param {import('./geography.mjs').Group[]} groups
 */
export function tintLike(geography, known, groups) {
  const around = countiesAround(geography);
  const groupAt = new Map(groups.flatMap((group, id) => group.counties.map((one) => [one, id])));
  const apart = groups.map((group, id) => {
    const beside = group.counties.flatMap((one) => [...around[one]]).map((one) => groupAt.get(one));
    return [...new Set(beside)].filter((one) => one !== undefined && one !== id);
  });
  const wanted = groups.map((group) => likest(geography, known, group));
  const tints = groups.map(() => -1);
  const order = groups.map((_, id) => id);
  order.sort((one, other) => wanted[other].share - wanted[one].share);
  for (const id of order) {
    const taken = new Set(apart[id].map((one) => tints[one ?? 0]));
    const free = Array.from({ length: TINTS }, (_, tint) => tint).find((tint) => !taken.has(tint));
    tints[id] = taken.has(wanted[id].tint) ? free ?? wanted[id].tint : wanted[id].tint;
  }
  groups.forEach((group, id) => {
    group.tint = tints[id];
  });
}

/**
 * Returns the tint of the known group that has the largest share of people in common with a group.
 * @param {Geography} geography
 * @param {{counties: number[], tint?: number}[]} known
 * @param {{counties: number[]}} group
 */
function likest(geography, known, group) {
  let best = { share: 0, tint: group.counties[0] % TINTS };
  for (const other of known) {
    const common = other.counties.filter((one) => group.counties.includes(one));
    const both = peopleOf(geography, common);
    const share = both / (peopleOf(geography, other.counties)
      + peopleOf(geography, group.counties) - both);
    if (share > best.share) best = { share, tint: other.tint ?? 0 };
  }
  return best;
}
