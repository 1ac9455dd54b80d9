// GeoJSON by RFC 7946 of counties and of groups: outer rings run counterclockwise, holes clockwise.

import { peopleOf } from "./geography.mjs";
import { unprojected } from "./sheet.mjs";

/** @typedef {import("./geography.mjs").Geography} Geography */
/** @typedef {import("./geography.mjs").Group} Group */
/** @typedef {import("./outlines.mjs").Point} Point */
/** @typedef {import("./sheet.mjs").Sheet} Sheet */

/** @param {Point} point */
const keyOf = (point) => point.join(" ");

/**
 * Returns twice the area of a closed ring; it is positive if the ring runs counterclockwise.
 * @param {Point[]} ring
 */
function twiceArea(ring) {
  return ring.reduce((sum, [x, y], at) => {
    const [toX, toY] = ring[(at + 1) % ring.length];
    return sum + x * toY - toX * y;
  }, 0);
}

/**
 * Returns whether a point lies inside a ring.
 * @param {Point} point
 * @param {Point[]} ring
 */
function isInside([x, y], ring) {
  let isIn = false;
  ring.forEach(([fromX, fromY], at) => {
    const [toX, toY] = ring[(at + 1) % ring.length];
    const isCrossed = fromY > y !== toY > y
      && x < fromX + ((y - fromY) / (toY - fromY)) * (toX - fromX);
    if (isCrossed) isIn = !isIn;
  });
  return isIn;
}

/**
 * Returns a ring closed, running counterclockwise or clockwise.
 * @param {Point[]} ring
 * @param {boolean} isOuter
 */
function turnedRing(ring, isOuter) {
  const closed = keyOf(ring[0]) === keyOf(ring[ring.length - 1]) ? ring : [...ring, ring[0]];
  return twiceArea(closed) > 0 === isOuter ? closed : [...closed].reverse();
}

/**
 * Returns rings as the coordinates of a MultiPolygon: each outer ring with the holes in it.
 * @param {Point[][]} rings  in degrees
 */
function polygonsOf(rings) {
  const whole = rings.filter((ring) => ring.length > 3);
  const around = whole.map((ring) => whole.filter((other) => (
    other !== ring && isInside(ring[0], other) && isInside(ring[1], other))));
  const outer = whole.filter((_, at) => around[at].length % 2 === 0);
  return outer.map((ring) => {
    const depth = around[whole.indexOf(ring)].length;
    const holes = whole.filter((_, at) => (
      around[at].length === depth + 1 && around[at].includes(ring)));
    return [turnedRing(ring, true), ...holes.map((hole) => turnedRing(hole, false))];
  });
}

/**
 * Returns lines joined to rings. Where several lines leave a point, the ring takes the sharpest
 * turn to one side, so that rings which meet at a point stay apart.
 * @param {Point[][]} lines
 */
function joinedRings(lines) {
  /** @type {Map<string, {line: Point[], number: number}[]>} */
  const leaving = new Map();
  lines.forEach((line, number) => {
    for (const way of [line, [...line].reverse()]) {
      const key = keyOf(way[0]);
      leaving.set(key, [...(leaving.get(key) ?? []), { line: way, number }]);
    }
  });
  const used = new Set();
  /** @type {Point[][]} */
  const rings = [];
  lines.forEach((first, number) => {
    if (used.has(number)) return;
    used.add(number);
    let ring = [...first];
    while (keyOf(ring[0]) !== keyOf(ring[ring.length - 1])) {
      const from = leaving.get(keyOf(ring[ring.length - 1])) ?? [];
      const next = sharpest(ring, from.filter((one) => !used.has(one.number)));
      if (!next) break;
      used.add(next.number);
      ring = [...ring, ...next.line.slice(1)];
    }
    rings.push(ring);
  });
  return rings;
}

/**
 * Returns the line that turns most to one side behind a run of points, or undefined.
 * @param {Point[]} run
 * @param {{line: Point[], number: number}[]} lines
 */
function sharpest(run, lines) {
  const [before, at] = run.slice(-2);
  const back = Math.atan2(before[1] - at[1], before[0] - at[0]);
  const turnOf = (/** @type {Point[]} */ [, to]) => {
    const turn = Math.atan2(to[1] - at[1], to[0] - at[0]) - back;
    return (turn + 4 * Math.PI) % (2 * Math.PI);
  };
  return [...lines].sort((one, other) => turnOf(one.line) - turnOf(other.line))[0];
}

/**
 * Returns the outline of counties as one shape, in degrees.
 * @param {Sheet} sheet
 * @param {number[]} counties
 */
export function dissolvedPolygons(sheet, counties) {
  const own = new Set(counties);
  const lines = sheet.lines.filter((_, line) => (
    sheet.owners[line].filter((county) => own.has(county)).length === 1));
  const rings = joinedRings(lines).map((ring) => (
    ring.map((point) => unprojected(sheet.projection, point))));
  return polygonsOf(rings);
}

/**
 * Returns features as the text of a collection.
 * @param {{properties: Record<string, unknown>, coordinates: Point[][][]}[]} features
 */
function collectionText(features) {
  return JSON.stringify({
    type: "FeatureCollection",
    features: features.map(({ properties, coordinates }) => (
      { type: "Feature", properties, geometry: { type: "MultiPolygon", coordinates } })),
  });
}

/**
 * Returns the properties of a group.
 * @param {Geography} geography
 * @param {Group[]} groups
 * @param {number} at
 */
function groupProperties(geography, groups, at) {
  const { seats, counties, area } = groups[at];
  return {
    GROUP: at + 1, SEATS: seats, GROUP_POPULATION: peopleOf(geography, counties),
    CHOICE: area >= 0,
  };
}

/**
 * Returns the counties with their groups as GeoJSON, in degrees.
 * @param {Geography} geography
 * @param {Group[]} groups
 */
export function geojsonText(geography, groups) {
  const { counties, sheet } = geography;
  if (!sheet) return "";
  return collectionText(counties.map(({ geoid, name, people }, place) => {
    const at = groups.findIndex((group) => group.counties.includes(place));
    const told = at < 0 ? {} : groupProperties(geography, groups, at);
    const rings = sheet.countyRings[place].map((ring) => (
      ring.map((spot) => unprojected(sheet.projection, spot))));
    const properties = { GEOID: geoid, NAME: name, POPULATION: people, ...told };
    return { properties, coordinates: polygonsOf(rings) };
  }));
}

/**
 * Returns the groups as GeoJSON, each as one shape, in degrees.
 * @param {Geography} geography
 * @param {Group[]} groups
 */
export function dissolvedText(geography, groups) {
  const { counties, sheet } = geography;
  if (!sheet) return "";
  return collectionText(groups.map((group, at) => {
    const names = group.counties.map((place) => counties[place].name);
    const codes = group.counties.map((place) => counties[place].geoid).sort();
    const properties = {
      ...groupProperties(geography, groups, at), COUNTIES: names.join(", "),
      GEOIDS: codes.join(" "),
    };
    return { properties, coordinates: dissolvedPolygons(sheet, group.counties) };
  }));
}
