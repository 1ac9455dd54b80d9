// Places the seats of each group on a map, and where counties have no names, the group's name.

import { overlaps, shareOf } from "./county_names.mjs";
import { countyName, setKey } from "./geography.mjs";
import { placesFor } from "./label_places.mjs";
import { textWidth } from "./letters.mjs";
import { cellPoint, clearanceOf } from "./sheet.mjs";

/** @typedef {import('./geography.mjs').Geography} Geography */
/** @typedef {import('./geography.mjs').Group} Group */
/** @typedef {import('./sheet.mjs').Sheet} Sheet */
/** @typedef {import('./sheet.mjs').Box} Box */
/** @typedef {import('./county_names.mjs').Place} Place */
/** @typedef {import('./county_names.mjs').Name} Name */
/**
 * The seats of a group: a pill by its middle and size. `name` stands above it, if there is one.
 * @typedef {{group: number, x: number, y: number, wide: number, high: number, name: string,
 *   nameY: number, nameWide: number}} Badge
 */
/**
 * What badges are placed by. `ownerAt` gives the number of the group of a cell, or -1.
 * @typedef {{geography: Geography, sheet: Sheet, scale: number, box: Box, groups: Group[],
 *   placed: Place[], ownerAt: (cell: number) => number, clearance: () => Float32Array}} Room
 */

const HIGH = 17;
const NAME_SIZE = 10.5;
// The most places of a group that are tried for its badge.
const MOST_TRIED = 1500;

/**
 * Returns the seats of each group that has a county in the box, from west to east.
 * @param {Geography} geography
 * @param {Sheet} sheet
 * @param {number} scale
 * @param {Box} box
 * @param {Group[]} groups
 * @param {{names: Name[], placed: Place[], isNamed: boolean, only: Set<number> | null}} given
 *   names of counties, what is placed already (it grows), and whether groups get names
 * @returns {Badge[]}
 */
export function placeBadges(geography, sheet, scale, box, groups, given) {
  const groupAt = new Map(groups.flatMap((group, at) => group.counties.map((one) => [one, at])));
  const ownerAt = (/** @type {number} */ cell) => (
    cell < 0 ? -1 : groupAt.get(sheet.raster.county[cell]) ?? -1);
  /** @type {Float32Array | null} */
  let away = null;
  const clearance = () => (away ??= clearanceOf(sheet.raster, ownerAt));
  /** @type {Room} */
  const room = {
    geography, sheet, scale, box, groups, placed: given.placed, ownerAt, clearance,
  };
  const fixed = [...given.placed];
  const namedBy = new Map(given.names.map((name) => [name.county, name]));
  const order = groups.map((_, at) => at);
  order.sort((one, other) => groups[one].counties.length - groups[other].counties.length);
  /** @type {Badge[]} */
  const badges = [];
  for (const at of order) {
    const { counties } = groups[at];
    if (given.only && !counties.some((county) => given.only?.has(county))) continue;
    const name = counties.length <= 3 ? namedBy.get(counties[0]) : undefined;
    const badge = name?.badge && !given.isNamed
      ? bareBadge(room, at, name.badge)
      : keptBadge(room, at, given.isNamed, fixed);
    room.placed.push(areaOfBadge(badge));
    badges.push(badge);
  }
  return badges.sort((one, other) => one.x - other.x);
}

/**
 * Returns the rectangle of a badge with its name.
 * @param {Badge} badge
 * @returns {Place}
 */
function areaOfBadge({ x, y, wide, high, name, nameY, nameWide }) {
  if (!name) return { x, y, w: wide, h: high };
  const top = nameY - high * 0.55;
  const bottom = y + high / 2;
  return { x, y: (top + bottom) / 2, w: Math.max(wide, nameWide), h: bottom - top };
}

/**
 * Returns the width of a pill with this number.
 * @param {number} seats
 * @param {number} scale
 */
function pillWidth(seats, scale) {
  return Math.max(HIGH, textWidth(String(seats), 12, true) + 9) / scale;
}

/**
 * Returns a badge without a name, at a point.
 * @param {Room} room
 * @param {number} group
 * @param {import('./outlines.mjs').Point} at
 * @returns {Badge}
 */
function bareBadge({ scale, groups }, group, [x, y]) {
  const wide = pillWidth(groups[group].seats, scale);
  return { group, x, y, wide, high: HIGH / scale, name: "", nameY: 0, nameWide: 0 };
}

/**
 * Returns a badge where its group has room: the place that the names of counties and the switches
 * leave, computed once for each group, or another one if a badge stands there already.
 * @param {Room} room
 * @param {number} at  the number of the group
 * @param {boolean} isNamed
 * @param {Place[]} fixed  names and switches
 * @returns {Badge}
 */
function keptBadge(room, at, isNamed, fixed) {
  const { sheet, scale, box, groups, placed } = room;
  const { seats, counties } = groups[at];
  const key = `badge ${scale} ${box} ${isNamed} ${fixed.length} ${seats} ${setKey(counties)}`;
  const kept = placesFor(sheet, key, () => freeBadge({ ...room, placed: fixed }, at, isNamed));
  const place = areaOfBadge(kept);
  const others = placed.slice(fixed.length);
  if (!others.some((one) => overlaps(one, place, 1 / scale))) return { ...kept, group: at };
  const near = others.filter((one) => isNearGroup(sheet, counties, one));
  const full = `${key} ${near.map(({ x, y, w, h }) => [x, y, w, h])}`;
  const moved = placesFor(sheet, full, () => (
    freeBadge({ ...room, placed: [...fixed, ...near] }, at, isNamed)));
  return { ...moved, group: at };
}

/**
 * Returns whether a place overlaps the box of one of the counties.
 * @param {Sheet} sheet
 * @param {number[]} counties
 * @param {Place} place
 */
function isNearGroup(sheet, counties, place) {
  return counties.some((county) => {
    const [left, top, w, h] = sheet.boxes[county];
    return overlaps({ x: left + w / 2, y: top + h / 2, w, h }, place, place.w);
  });
}

/**
 * Returns a badge where its group has room, with a name if it fits.
 * @param {Room} room
 * @param {number} at  the number of the group
 * @param {boolean} isNamed
 * @returns {Badge}
 */
function freeBadge(room, at, isNamed) {
  const { sheet, scale, groups } = room;
  const { counties, seats } = groups[at];
  const cells = counties.flatMap((county) => sheet.raster.cells[county]);
  const points = cells.map((cell) => cellPoint(sheet.raster, cell));
  const middle = [0, 1].map((axis) => (
    points.reduce((sum, point) => sum + point[axis], 0) / points.length));
  const named = isNamed ? namedBadge(room, at, middle) : null;
  if (named) return named;
  const [wide, high] = [pillWidth(seats, scale), HIGH / scale];
  const gap = 3 / scale;
  const found = bestPlace(room, at, cells, middle, [wide + gap, high + gap], 1)
    ?? bestPlace(room, at, cells, middle, [wide, high], 0.9)
    ?? bestPlace(room, at, cells, middle, [wide, high], 0.6)
    ?? sheet.raster.centers[counties[0]];
  return bareBadge(room, at, [found[0], found[1]]);
}

/**
 * Returns a badge with the name of the group's largest county above it, or of one near the middle
 * of a large group; null if no name fits.
 * @param {Room} room
 * @param {number} at
 * @param {number[]} middle
 * @returns {Badge | null}
 */
function namedBadge(room, at, middle) {
  const { sheet, scale, groups, geography } = room;
  const { counties, seats } = groups[at];
  const order = counties.length > 8 ? nearestFirst(sheet, counties, middle) : counties;
  const [pill, high] = [pillWidth(seats, scale), HIGH / scale];
  /** @type {[number, number[]][]} */
  const tries = [
    [0.97, order.slice(0, 1)], [0.66, order.slice(0, 1)], [0.97, order.slice(1, 5)],
    [0.72, order.slice(1, 5)], [0.42, order.slice(0, 3)],
  ];
  for (const [least, some] of tries) {
    for (const county of some) {
      const name = countyName(geography, county);
      const nameWide = textWidth(name, NAME_SIZE, true) / scale;
      const wide = Math.max(pill, nameWide);
      const tall = high + 12.5 / scale;
      const cells = middleCells(sheet, scale, county);
      const found = bestPlace(room, at, cells, middle, [wide, tall], least);
      if (!found) continue;
      const [x, y] = found;
      const nameY = y - tall / 2 + (11 / scale) * 0.82;
      return { group: at, x, y: y + tall / 2 - high / 2, wide: pill, high, name, nameY, nameWide };
    }
  }
  return null;
}

/**
 * Returns counties with the nearest to a point first.
 * @param {Sheet} sheet
 * @param {number[]} counties
 * @param {number[]} point
 */
function nearestFirst(sheet, counties, [x, y]) {
  const away = (/** @type {number} */ county) => {
    const center = sheet.raster.centers[county];
    return Math.hypot(center[0] - x, center[1] - y);
  };
  return [...counties].sort((one, other) => away(one) - away(other));
}

/**
 * Returns the cells about the middle of a county.
 * @param {Sheet} sheet
 * @param {number} scale
 * @param {number} county
 */
function middleCells({ raster }, scale, county) {
  const [middleX, middleY] = raster.centers[county];
  return raster.cells[county].filter((cell) => {
    const [x, y] = cellPoint(raster, cell);
    return Math.abs(x - middleX) < 14 / scale && Math.abs(y - middleY) < 12 / scale;
  });
}

/**
 * Returns the middle of the best place for a rectangle, or null: far from the edges of the group
 * and near its middle, free of what is placed already.
 * @param {Room} room
 * @param {number} at
 * @param {number[]} cells
 * @param {number[]} middle
 * @param {[number, number]} size
 * @param {number} least  the share that has to lie in the group
 */
function bestPlace(room, at, cells, middle, [w, h], least) {
  const { sheet, scale, box: [left, top, wide, tall], placed, ownerAt } = room;
  const clearance = room.clearance();
  let best = null;
  let most = -Infinity;
  const stride = Math.ceil(cells.length / MOST_TRIED);
  for (let tried = 0; tried < cells.length; tried += stride) {
    const cell = cells[tried];
    const [x, y] = cellPoint(sheet.raster, cell);
    const isIn = x - w / 2 > left + 1 && x + w / 2 < left + wide - 1
      && y - h / 2 > top + 1 && y + h / 2 < top + tall - 1;
    const free = Math.min(clearance[cell] * 4 * scale, 26);
    const utmost = free - Math.hypot(x - middle[0], y - middle[1]) * scale * 0.08;
    if (!isIn || utmost <= most) continue;
    const place = { x, y, w, h };
    if (placed.some((one) => overlaps(one, place, 1.2 / scale))) continue;
    const inside = shareOf(sheet, place, (one) => ownerAt(one) === at);
    const worth = utmost + (inside - 1) * 90;
    if (inside >= least && worth > most) [most, best] = [worth, [x, y]];
  }
  return best;
}
