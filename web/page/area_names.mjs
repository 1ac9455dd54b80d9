// The names of areas of choice: a small table for North Carolina, else "Around" and the largest
// county.

import { byPeople } from "./geography.mjs";

/** @typedef {import('./geography.mjs').Geography} Geography */

// An area has the name of the first of these counties that lies in it.
/** @type {Record<string, [string, string][]>} */
const NAMES = {
  37: [
    ["37021", "Foothills"], ["37193", "Northwest"], ["37197", "Northwest"],
    ["37163", "Southeast"], ["37139", "Northeast"],
  ],
};

/**
 * Returns the name of an area.
 * @param {Geography} geography
 * @param {number[]} counties  those of the area
 * @param {number[][]} all  the counties of each area of the answer
 */
export function areaName(geography, counties, all) {
  const named = (/** @type {number[]} */ some) => (NAMES[geography.code] ?? []).find(
    ([geoid]) => some.includes(geography.placeOf.get(geoid) ?? -1))?.[1];
  const name = named(counties);
  const isAlone = name && all.filter((some) => named(some) === name).length === 1;
  if (isAlone) return name;
  return `Around ${geography.counties[byPeople(geography, counties)[0]].name}`;
}
