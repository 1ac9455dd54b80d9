// Places the switches of the areas of choice: in the nearest open space beside the land.

import { isInBox, overlaps, runsThrough, shareOf } from "./county_names.mjs";
import { textWidth } from "./letters.mjs";
import { cellPoint, STEP } from "./sheet.mjs";

/** @typedef {import('./sheet.mjs').Sheet} Sheet */
/** @typedef {import('./sheet.mjs').Box} Box */
/** @typedef {import('./outlines.mjs').Point} Point */
/** @typedef {import('./county_names.mjs').Place} Place */
/** @typedef {import('./county_names.mjs').Name} Name */
/**
 * An area of choice on a map. `number` is that of its region in the list.
 * @typedef {{number: number, name: string, counties: number[], choice: number,
 *   choices: number}} ShownArea
 */
/**
 * A switch: its rectangle, the width of its name and of a letter, and the line to the area if it
 * doesn't lie at it.
 * @typedef {Place & {area: number, nameWidth: number, letterWidth: number,
 *   leader: [Point, Point] | null}} AreaSwitch
 */

const SIZE = 12.5;

/**
 * Returns the switches of areas. An area without room for one has none.
 * @param {Sheet} sheet
 * @param {number} scale
 * @param {Box} box
 * @param {ShownArea[]} areas
 * @param {{names: Name[], placed: Place[], keep: Place | null}} given  `placed` grows
 * @returns {AreaSwitch[]}
 */
export function placeSwitches(sheet, scale, box, areas, given) {
  /** @type {AreaSwitch[]} */
  const switches = [];
  areas.forEach((area, number) => {
    const edge = edgeOf(sheet, area.counties);
    const nameWidth = (textWidth(area.name, SIZE, true) + 16) / scale;
    const letterWidth = 22 / scale;
    const size = { w: nameWidth + letterWidth * area.choices, h: 23 / scale };
    const found = openPlace(sheet, scale, box, edge, size, given);
    if (!found) return;
    const { place, point, away } = found;
    given.placed.push(place);
    const leader = away > 7 / scale ? leaderOf(place, point, scale) : null;
    switches.push({ ...place, area: number, nameWidth, letterWidth, leader });
  });
  return switches;
}

/**
 * Returns the cells on the edge of an area, as points.
 * @param {Sheet} sheet
 * @param {number[]} counties
 */
function edgeOf({ raster }, counties) {
  const own = new Set(counties);
  const { wide, county } = raster;
  const isOutside = (/** @type {number} */ cell) => !own.has(county[cell] ?? -1);
  return counties.flatMap((one) => raster.cells[one])
    .filter((cell) => [cell - 1, cell + 1, cell - wide, cell + wide].some(isOutside))
    .map((cell) => cellPoint(raster, cell));
}

/**
 * Returns the open place nearest to an edge, or null.
 * @param {Sheet} sheet
 * @param {number} scale
 * @param {Box} box
 * @param {Point[]} edge
 * @param {{w: number, h: number}} size
 * @param {{names: Name[], placed: Place[], keep: Place | null}} given
 */
function openPlace(sheet, scale, box, edge, size, given) {
  const middle = [0, 1].map((axis) => edge.reduce((sum, at) => sum + at[axis], 0) / edge.length);
  const isOpen = (/** @type {number} */ cell) => cell < 0 || sheet.raster.county[cell] < 0;
  const sparse = edge.filter((_, at) => at % 2 === 0);
  let best = null;
  let least = Infinity;
  for (let row = 0; row < sheet.raster.high; row += 2) {
    for (let column = 0; column < sheet.raster.wide; column += 3) {
      const [x, y] = [(column + 0.5) * STEP, (row + 0.5) * STEP];
      const place = { x, y, ...size };
      const far = Math.hypot(x - middle[0], y - middle[1]) * 0.3;
      if (far >= least || !isInBox(place, box) || isTaken(place, scale, given)) continue;
      const wider = { ...place, w: size.w + 8 / scale, h: size.h + 8 / scale };
      if (shareOf(sheet, wider, isOpen) < 1) continue;
      const { point, away } = nearestOnEdge(place, sparse);
      if (away + far < least) [least, best] = [away + far, { place, point, away }];
    }
  }
  return best;
}

/**
 * Returns whether something stands at a place already.
 * @param {Place} place
 * @param {number} scale
 * @param {{names: Name[], placed: Place[], keep: Place | null}} given
 */
function isTaken(place, scale, { names, placed, keep }) {
  return (keep !== null && overlaps(keep, place))
    || placed.some((one) => overlaps(one, place, 4 / scale))
    || names.some((name) => name.leader && runsThrough(name.leader, place));
}

/**
 * Returns the point of an edge that lies nearest to a rectangle.
 * @param {Place} place
 * @param {Point[]} edge
 */
function nearestOnEdge({ x, y, w, h }, edge) {
  let [point, away] = [edge[0], Infinity];
  for (const at of edge) {
    const nearX = Math.max(x - w / 2, Math.min(x + w / 2, at[0]));
    const nearY = Math.max(y - h / 2, Math.min(y + h / 2, at[1]));
    const far = Math.hypot(nearX - at[0], nearY - at[1]);
    if (far < away) [point, away] = [at, far];
  }
  return { point, away };
}

/**
 * Returns the line from a switch to a point of its area.
 * @param {Place} place
 * @param {Point} point
 * @param {number} scale
 * @returns {[Point, Point]}
 */
function leaderOf({ x, y, w, h }, point, scale) {
  const inset = w / 2 - 6 / scale;
  const fromX = Math.max(x - inset, Math.min(x + inset, point[0]));
  return [[fromX, y > point[1] ? y - h / 2 : y + h / 2], point];
}
