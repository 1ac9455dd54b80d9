// Places the names of counties on a map: inside, else in two lines, else condensed, else beside the
// land with a line. Where a name stands depends on the scale alone, so that it doesn't move when
// the choice changes.

import { textWidth } from "./letters.mjs";
import { cellAt, cellPoint, STEP } from "./sheet.mjs";

/** @typedef {import('./geography.mjs').Geography} Geography */
/** @typedef {import('./sheet.mjs').Sheet} Sheet */
/** @typedef {import('./sheet.mjs').Box} Box */
/** @typedef {import('./outlines.mjs').Point} Point */
/** @typedef {{x: number, y: number, w: number, h: number}} Place  a rectangle by its middle */
/** @typedef {[number, number, number, number]} Segment */
/**
 * A name: `condensed` is below 1 if it is set narrower; `badge` is where the seats of a group that
 * this county leads stand; `leader` joins a name beside the land to its county.
 * @typedef {Place & {county: number, size: number, lines: string[], condensed: number,
 *   badge: Point | null, leader: Segment | null}} Name
 */
/**
 * A way to set a name. `w` and `h` are of the name, `wide` and `high` with the badge.
 * @typedef {{lines: string[], size: number, w: number, h: number, condensed: number, wide: number,
 *   high: number, mode: 'stack' | 'side' | 'none'}} Setting
 */

const SIZE = 11.2;
const BADGE = 19;
const FARTHEST = 190;

/**
 * Returns whether two rectangles overlap, with `margin` between them.
 * @param {Place} one
 * @param {Place} other
 * @param {number} [margin]
 */
export function overlaps(one, other, margin = 0) {
  return Math.abs(one.x - other.x) < (one.w + other.w) / 2 + margin
    && Math.abs(one.y - other.y) < (one.h + other.h) / 2 + margin;
}

/**
 * Returns the share of a rectangle's cells for which a test holds; -1 is a cell beyond the sheet.
 * Of a large rectangle only some cells are looked at.
 * @param {Sheet} sheet
 * @param {Place} place
 * @param {(cell: number) => boolean} test
 */
export function shareOf(sheet, { x, y, w, h }, test) {
  let [count, held] = [0, 0];
  const stride = Math.max(1, Math.floor(Math.min(w, h) / STEP / 8));
  const bottom = Math.floor((y + h / 2 - 0.01) / STEP);
  const right = Math.floor((x + w / 2 - 0.01) / STEP);
  for (let row = Math.floor((y - h / 2) / STEP); row <= bottom; row += stride) {
    for (let column = Math.floor((x - w / 2) / STEP); column <= right; column += stride) {
      count += 1;
      if (test(cellAt(sheet.raster, (column + 0.5) * STEP, (row + 0.5) * STEP))) held += 1;
    }
  }
  return count ? held / count : 0;
}

/**
 * Returns the names of all counties in a box.
 * @param {Geography} geography
 * @param {Sheet} sheet
 * @param {number} scale  pixels a unit
 * @param {Set<number>} leaders  counties that leave room for the seats of their group
 * @param {Box} box
 * @returns {Name[]}
 */
export function placeCountyNames(geography, sheet, scale, leaders, box) {
  /** @type {Name[]} */
  const names = [];
  /** @type {number[]} */
  const beside = [];
  geography.counties.forEach((county, place) => {
    const [x] = sheet.raster.centers[place];
    if (x < box[0] || x > box[0] + box[2]) return;
    const name = nameInside(sheet, scale, place, county.name, leaders.has(place), names);
    if (name) names.push(name);
    else beside.push(place);
  });
  /** @type {Name[]} */
  const placed = [];
  for (const place of beside) {
    const name = nameBeside(sheet, scale, place, geography.counties[place].name, box, placed);
    if (name) placed.push(name);
  }
  return [...names, ...placed];
}

/**
 * Returns the ways to set a name, the best first.
 * @param {string} name
 * @param {number} scale
 * @param {boolean} isLeader
 * @returns {Setting[]}
 */
function settingsOf(name, scale, isLeader) {
  /** @type {(lines: string[], shrink: number, condensed: number) => Omit<Setting,
   *   "wide" | "high" | "mode">} */
  const plain = (lines, shrink, condensed) => {
    const widths = lines.map((line) => textWidth(line, SIZE));
    const w = (Math.max(...widths) / scale) * shrink * condensed;
    const h = ((lines.length === 1 ? 10 : 22) / scale) * shrink;
    return { lines, size: (SIZE / scale) * shrink, w, h, condensed };
  };
  const words = name.split(" ");
  const forms = [plain([name], 1, 1)];
  if (words.length > 1) forms.push(plain(words, 1, 1));
  forms.push(plain([name], 0.96, 1), plain([name], 0.96, 0.88));
  const badge = BADGE / scale;
  /** @type {Setting[]} */
  const settings = [];
  for (const form of isLeader ? forms : []) {
    const { w, h } = form;
    const gap = 1 / scale;
    settings.push({ ...form, wide: Math.max(w, badge), high: h + badge + gap, mode: "stack" });
    settings.push({ ...form, wide: w + badge + 3 * gap, high: Math.max(h, badge), mode: "side" });
  }
  for (const form of forms) settings.push({ ...form, wide: form.w, high: form.h, mode: "none" });
  return settings;
}

/**
 * Returns the name of a county inside it, or null if it finds no place.
 * @param {Sheet} sheet
 * @param {number} scale
 * @param {number} county
 * @param {string} name
 * @param {boolean} isLeader
 * @param {Name[]} placed  names so far
 * @returns {Name | null}
 */
function nameInside(sheet, scale, county, name, isLeader, placed) {
  const settings = settingsOf(name, scale, isLeader);
  for (const margin of [5, 2.5, 1]) {
    for (const setting of settings) {
      if (setting.mode === "none" && isLeader && margin > 1) continue;
      const at = roomiest(sheet, county, setting, (2 * margin) / scale);
      if (at && !(setting.mode === "none" && isLeader)) return finished(county, setting, at, scale);
    }
  }
  const badged = settings.filter((setting) => setting.mode !== "none");
  const lapping = lappingPlace(sheet, scale, county, badged, 0.9, placed);
  if (lapping) return lapping;
  const bare = settings.filter((setting) => setting.mode === "none");
  for (const setting of isLeader ? bare : []) {
    const at = roomiest(sheet, county, setting, 2 / scale);
    if (at) return finished(county, setting, at, scale);
  }
  return lappingPlace(sheet, scale, county, bare.slice(-1), 0.8, placed);
}

/**
 * Returns the cell nearest to the middle of a county around which a setting fits inside it.
 * @param {Sheet} sheet
 * @param {number} county
 * @param {Setting} setting
 * @param {number} room
 * @returns {Point | null}
 */
function roomiest(sheet, county, setting, room) {
  const { raster } = sheet;
  const [middleX, middleY] = raster.centers[county];
  /** @type {Point | null} */
  let best = null;
  let least = Infinity;
  for (const cell of raster.cells[county]) {
    const [x, y] = cellPoint(raster, cell);
    const away = Math.hypot(x - middleX, (y - middleY) * 1.3);
    if (away >= least) continue;
    const place = { x, y, w: setting.wide + room, h: setting.high + room };
    const inside = shareOf(sheet, place, (one) => one >= 0 && raster.county[one] === county);
    if (inside === 1) [least, best] = [away, [x, y]];
  }
  return best;
}

/**
 * Returns a name that laps a little over the border, if enough of it lies inside.
 * @param {Sheet} sheet
 * @param {number} scale
 * @param {number} county
 * @param {Setting[]} settings
 * @param {number} least  the share that has to lie inside
 * @param {Name[]} placed  names that it may not touch
 * @returns {Name | null}
 */
function lappingPlace(sheet, scale, county, settings, least, placed) {
  const { raster } = sheet;
  const [middleX, middleY] = raster.centers[county];
  /** @type {Name | null} */
  let best = null;
  let most = -Infinity;
  for (const setting of settings) {
    for (const cell of raster.cells[county]) {
      const [x, y] = cellPoint(raster, cell);
      const place = { x, y, w: setting.wide, h: setting.high };
      const inside = shareOf(sheet, place, (one) => one >= 0 && raster.county[one] === county);
      const worth = inside - Math.hypot(x - middleX, y - middleY) * scale * 0.005;
      if (inside < least || worth <= most) continue;
      if (placed.some((one) => overlaps(one, place, 1 / scale))) continue;
      [most, best] = [worth, finished(county, setting, [x, y], scale)];
    }
  }
  return best;
}

/**
 * Returns a setting at its place, with the place of the seats beside or below it.
 * @param {number} county
 * @param {Setting} setting
 * @param {Point} at  the middle of name and seats
 * @param {number} scale
 * @returns {Name}
 */
function finished(county, setting, [x, y], scale) {
  const { lines, size, w, h, condensed, wide, high, mode } = setting;
  const half = BADGE / scale / 2;
  const name = { county, x, y, w, h, size, lines, condensed, badge: null, leader: null };
  if (mode === "stack") {
    return { ...name, y: y - high / 2 + h / 2, badge: [x, y + high / 2 - half] };
  }
  if (mode === "side") {
    return { ...name, x: x - wide / 2 + w / 2, badge: [x + wide / 2 - half, y] };
  }
  return name;
}

/**
 * Returns a county's name beside the land, with a line to the county, or null.
 * @param {Sheet} sheet
 * @param {number} scale
 * @param {number} county
 * @param {string} text
 * @param {Box} box
 * @param {Name[]} placed  names beside the land so far
 * @returns {Name | null}
 */
function nameBeside(sheet, scale, county, text, box, placed) {
  const { raster } = sheet;
  const pole = raster.cells[county].reduce((best, cell) => (
    raster.clearance[cell] > raster.clearance[best] ? cell : best));
  const from = cellPoint(raster, pole);
  const [w, h] = [textWidth(text, SIZE) / scale, 11 / scale];
  /** @type {Name | null} */
  let best = null;
  let least = Infinity;
  const reach = Math.ceil(FARTHEST / STEP);
  const [column, row] = [Math.floor(from[0] / STEP), Math.floor(from[1] / STEP)];
  for (let down = -reach; down <= reach; down += 1) {
    for (let across = -reach; across <= reach; across += 2) {
      const [x, y] = [(column + across + 0.5) * STEP, (row + down + 0.5) * STEP];
      const place = { x, y, w, h };
      const far = Math.hypot(x - from[0], y - from[1]);
      if (far > FARTHEST || far * 0.6 >= least || !isInBox(place, box)) continue;
      const leader = leaderTo(from, place);
      const cost = besideCost(sheet, scale, county, place, leader, placed, least);
      if (cost >= least) continue;
      least = cost;
      best = {
        ...place, county, size: SIZE / scale, lines: [text], condensed: 1, badge: null, leader,
      };
    }
  }
  return best;
}

/**
 * Returns whether a place lies in a box.
 * @param {Place} place
 * @param {Box} box
 * @param {number} [edge]
 */
export function isInBox({ x, y, w, h }, [left, top, wide, high], edge = 2) {
  return x - w / 2 >= left + edge && x + w / 2 <= left + wide - edge
    && y - h / 2 >= top + edge && y + h / 2 <= top + high - edge;
}

/**
 * Returns the line from a point to the nearest point of a rectangle.
 * @param {Point} from
 * @param {Place} place
 * @returns {Segment}
 */
function leaderTo(from, { x, y, w, h }) {
  const toX = Math.max(x - w / 2, Math.min(x + w / 2, from[0]));
  const toY = Math.max(y - h / 2, Math.min(y + h / 2, from[1]));
  return [from[0], from[1], toX, toY];
}

/**
 * Returns what a name beside the land costs: the way, other counties on it, and other names;
 * infinite if the place isn't free.
 * @param {Sheet} sheet
 * @param {number} scale
 * @param {number} county
 * @param {Place} place
 * @param {Segment} leader
 * @param {Name[]} placed
 * @param {number} limit
 */
function besideCost(sheet, scale, county, place, leader, placed, limit) {
  if (placed.some((name) => overlaps(name, place, 4 / scale))) return Infinity;
  const [fromX, fromY, toX, toY] = leader;
  const way = Math.hypot(toX - fromX, toY - fromY);
  if (way >= limit) return Infinity;
  const wider = { ...place, w: place.w + 8 / scale, h: place.h + 4 / scale };
  const isFree = (/** @type {number} */ cell) => cell < 0 || sheet.raster.county[cell] < 0;
  if (shareOf(sheet, wider, isFree) < 1) return Infinity;
  const crossed = placed.filter((name) => name.leader && (cross(name.leader, leader)
    || runsThrough(name.leader, place) || runsThrough(leader, name)));
  const others = countiesOnWay(sheet, county, leader);
  return way + 5 * others + 0.15 * Math.abs(toX - fromX) + 400 * crossed.length;
}

/**
 * Returns how many cells of other counties a line crosses.
 * @param {Sheet} sheet
 * @param {number} county
 * @param {Segment} line
 */
function countiesOnWay({ raster }, county, [fromX, fromY, toX, toY]) {
  const steps = Math.ceil(Math.hypot(toX - fromX, toY - fromY) / STEP);
  let others = 0;
  for (let step = 0; step <= steps; step += 1) {
    const share = steps ? step / steps : 0;
    const cell = cellAt(raster, fromX + (toX - fromX) * share, fromY + (toY - fromY) * share);
    if (cell >= 0 && raster.county[cell] >= 0 && raster.county[cell] !== county) others += 1;
  }
  return others;
}

/**
 * Returns on which side of a line a point lies, as a sign.
 * @param {Segment} line
 * @param {number} x
 * @param {number} y
 */
function sideOf([fromX, fromY, toX, toY], x, y) {
  return (x - fromX) * (toY - fromY) - (toX - fromX) * (y - fromY);
}

/**
 * Returns whether two lines cross.
 * @param {Segment} one
 * @param {Segment} other
 */
function cross(one, other) {
  return sideOf(one, other[0], other[1]) * sideOf(one, other[2], other[3]) < 0
    && sideOf(other, one[0], one[1]) * sideOf(other, one[2], one[3]) < 0;
}

/**
 * Returns whether a line runs through a rectangle or by its edge.
 * @param {Segment} line
 * @param {Place} place
 */
export function runsThrough([fromX, fromY, toX, toY], place) {
  for (let step = 0; step <= 10; step += 1) {
    const x = fromX + ((toX - fromX) * step) / 10;
    const y = fromY + ((toY - fromY) * step) / 10;
    if (overlaps({ x, y, w: 0, h: 0 }, place, 2)) return true;
  }
  return false;
}
