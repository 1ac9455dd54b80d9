// The sheet of a state's map: projection, lines, county shapes, and a raster that says which county
// lies where, by which names and numbers find their places.

import { pairOf } from "./geography.mjs";
import { cutOutlines } from "./outlines.mjs";

/** @typedef {import('./outlines.mjs').Point} Point */
/** @typedef {import('./geography.mjs').Geography} Geography */
/** @typedef {[number, number, number, number]} Box  left, top, width, height */
/**
 * A pair of neighbors without a line in common: they meet over water or at a point.
 * @typedef {{pair: [number, number], from: Point, to: Point, isPoint: boolean}} Tie
 */
/**
 * @typedef {{width: number, height: number, id: string, projection: Projection, lines: Point[][],
 *   owners: number[][], linePaths: string[], countyPaths: string[], countyRings: Point[][][],
 *   boxes: Box[], raster: Raster, ties: Tie[], pointPairs: [number, number][]}} Sheet
 */
/**
 * A Lambert conformal conic projection with the place of the sheet.
 * @typedef {{cone: number, factor: number, middle: number, left: number, top: number,
 *   scale: number}} Projection
 */
/**
 * Cells of `STEP` units. `county` has the place of a county or -1; `cells` those of each county.
 * @typedef {{wide: number, high: number, county: Int16Array, cells: number[][], centers: Point[],
 *   clearance: Float32Array}} Raster
 */

export const STEP = 4;
const SHEET_WIDTH = 1360;
const MOST_HEIGHT = 1150;
const EDGE_X = 18;
const EDGE_TOP = 34;
const EDGE_BOTTOM = 24;
const DEGREE = Math.PI / 180;

/**
 * Returns the rings of a GeoJSON geometry, in degrees, without a repeated last point.
 * @param {any} geometry
 * @returns {Point[][]}
 */
function ringsOf(geometry) {
  const polygons = geometry?.type === "Polygon" ? [geometry.coordinates]
    : geometry?.type === "MultiPolygon" ? geometry.coordinates : [];
  return polygons.flat().map((/** @type {number[][]} */ ring) => ring.slice(0, -1).map((at) => (
    [at[0] > 100 && at[0] <= 180 ? at[0] - 360 : at[0], at[1]])));
}

/**
 * Returns the rings of each listed county of GeoJSON, by its place.
 * @param {Geography} geography
 * @param {any} geojson  a FeatureCollection whose features have a GEOID
 * @returns {Map<number, Point[][]>}
 */
export function outlinesOf(geography, geojson) {
  /** @type {Map<number, Point[][]>} */
  const outlines = new Map();
  for (const feature of geojson.features) {
    const code = feature.properties?.GEOID ?? feature.properties?.GEOID20 ?? feature.id;
    const place = geography.placeOf.get(String(code));
    const rings = ringsOf(feature.geometry);
    if (place === undefined || !rings.length) continue;
    outlines.set(place, [...(outlines.get(place) ?? []), ...rings]);
  }
  return outlines;
}

/**
 * Returns the least and the greatest value of an axis of points.
 * @param {Point[]} points
 * @param {0 | 1} axis
 */
function rangeOf(points, axis) {
  let [least, most] = [Infinity, -Infinity];
  for (const point of points) {
    least = Math.min(least, point[axis]);
    most = Math.max(most, point[axis]);
  }
  return [least, most];
}

/**
 * Returns the projection that fits points in degrees to the sheet, and the size of the sheet.
 * @param {Point[]} points
 */
function projectionFor(points) {
  const [[west, east], [south, north]] = [rangeOf(points, 0), rangeOf(points, 1)];
  const parallels = [south + (north - south) / 6, north - (north - south) / 6];
  const [lower, upper] = parallels.map((latitude) => latitude * DEGREE);
  const steep = (/** @type {number} */ angle) => Math.tan(Math.PI / 4 + angle / 2);
  const cone = upper - lower < 1e-6 ? Math.sin(lower)
    : Math.log(Math.cos(lower) / Math.cos(upper)) / Math.log(steep(upper) / steep(lower));
  const factor = (Math.cos(lower) * steep(lower) ** cone) / cone;
  const middle = (west + east) / 2;
  /** @type {Projection} */
  const plain = { cone, factor, middle, left: 0, top: 0, scale: 1 };
  const placed = points.map((point) => projected(plain, point));
  const [[left, right], [top, bottom]] = [rangeOf(placed, 0), rangeOf(placed, 1)];
  const scale = Math.min((SHEET_WIDTH - 2 * EDGE_X) / (right - left), MOST_HEIGHT / (bottom - top));
  const projection = { ...plain, scale, left: left * scale - EDGE_X, top: top * scale - EDGE_TOP };
  const width = Math.round((right - left) * scale + 2 * EDGE_X);
  const height = Math.round((bottom - top) * scale + EDGE_TOP + EDGE_BOTTOM);
  return { projection, width, height };
}

/**
 * Returns where a point in degrees lies on the sheet.
 * @param {Projection} projection
 * @param {Point} point
 * @returns {Point}
 */
function projected({ cone, factor, middle, left, top, scale }, [longitude, latitude]) {
  const radius = factor / Math.tan(Math.PI / 4 + (latitude * DEGREE) / 2) ** cone;
  const angle = cone * (longitude - middle) * DEGREE;
  return [radius * Math.sin(angle) * scale - left, radius * Math.cos(angle) * scale - top];
}

/**
 * Returns the longitude and latitude of a point of the sheet.
 * @param {Projection} projection
 * @param {Point} point
 * @returns {Point}
 */
export function unprojected({ cone, factor, middle, left, top, scale }, [x, y]) {
  const [across, down] = [(x + left) / scale, (y + top) / scale];
  const radius = Math.sign(cone) * Math.hypot(across, down);
  const angle = Math.atan2(across, down);
  const latitude = 2 * Math.atan((factor / radius) ** (1 / cone)) - Math.PI / 2;
  const digits = (/** @type {number} */ value) => Number(value.toFixed(4));
  return [digits(middle + angle / cone / DEGREE), digits(latitude / DEGREE)];
}

/** @param {Point[]} points */
const openPath = (points) => `M${points.map((at) => at.join(" ")).join("L")}`;

/**
 * Returns the sheet of a geography by outlines, or null if a county has none, or if they aren't in
 * degrees.
 * @param {Geography} geography
 * @param {any} geojson
 * @param {string} id  what the ids of its shapes begin with
 * @returns {Sheet | null}
 */
export function sheetOf(geography, geojson, id) {
  const outlines = outlinesOf(geography, geojson);
  if (outlines.size < geography.counties.length || !outlines.size) return null;
  const points = [...outlines.values()].flat(2);
  if (!points.every(([x, y]) => Math.abs(x) <= 360 && Math.abs(y) < 90)) return null;
  const { projection, width, height } = projectionFor(points);
  const onGrid = (/** @type {Point} */ point) => /** @type {Point} */ (
    projected(projection, point).map((value) => Math.round(value * 10) / 10));
  const placed = new Map([...outlines].map(([place, rings]) => [place, rings.map((ring) => (
    ring.map(onGrid)))]));
  const cuts = cutOutlines(placed, geography.counties.length);
  const countyRings = cuts.rings.map((rings) => rings.map((ring) => ringPoints(ring, cuts.lines)));
  const raster = rasterOf(countyRings, width, height);
  const { ties, pointPairs } = meetings(geography, cuts, countyRings);
  return {
    width, height, id, projection, ties, pointPairs, raster, countyRings,
    lines: cuts.lines, owners: cuts.owners, boxes: countyRings.map(boxAround),
    linePaths: cuts.lines.map(openPath),
    countyPaths: countyRings.map((rings) => rings.map((ring) => `${openPath(ring)}Z`).join("")),
  };
}

/**
 * Returns the points of a ring of lines.
 * @param {number[]} ring
 * @param {Point[][]} lines
 * @returns {Point[]}
 */
function ringPoints(ring, lines) {
  /** @type {Point[]} */
  const points = [];
  for (const number of ring) {
    const line = number < 0 ? [...lines[~number]].reverse() : lines[number];
    for (const point of points.length ? line.slice(1) : line) points.push(point);
  }
  return points;
}

/**
 * Returns the box around rings.
 * @param {Point[][]} rings
 * @returns {Box}
 */
function boxAround(rings) {
  const points = rings.flat();
  const [[left, right], [top, bottom]] = [rangeOf(points, 0), rangeOf(points, 1)];
  return [left, top, right - left, bottom - top];
}

/**
 * Returns the box around counties, with room on each side.
 * @param {Sheet} sheet
 * @param {number[]} counties
 * @param {number} room
 * @returns {Box}
 */
export function boxOfCounties(sheet, counties, room) {
  const boxes = counties.map((place) => sheet.boxes[place]);
  const left = Math.min(...boxes.map((box) => box[0])) - room;
  const top = Math.min(...boxes.map((box) => box[1])) - room;
  const right = Math.max(...boxes.map((box) => box[0] + box[2])) + room;
  const bottom = Math.max(...boxes.map((box) => box[1] + box[3])) + room;
  return [left, top, right - left, bottom - top];
}

/**
 * Returns which counties lie where.
 * @param {Point[][][]} countyRings
 * @param {number} width
 * @param {number} height
 * @returns {Raster}
 */
function rasterOf(countyRings, width, height) {
  const [wide, high] = [Math.ceil(width / STEP), Math.ceil(height / STEP)];
  const county = new Int16Array(wide * high).fill(-1);
  countyRings.forEach((rings, place) => {
    const [, top, , tall] = boxAround(rings);
    const last = Math.min(high - 1, Math.ceil((top + tall) / STEP));
    for (let row = Math.max(0, Math.floor(top / STEP)); row <= last; row += 1) {
      for (const [from, to] of spansAt(rings, (row + 0.5) * STEP)) {
        const end = Math.min(wide - 1, Math.floor(to / STEP - 0.5));
        const start = Math.max(0, Math.ceil(from / STEP - 0.5));
        for (let column = start; column <= end; column += 1) county[row * wide + column] = place;
      }
    }
  });
  /** @type {number[][]} */
  const cells = countyRings.map(() => []);
  county.forEach((place, cell) => place >= 0 && cells[place].push(cell));
  /** @type {Raster} */
  const raster = { wide, high, county, cells, centers: [], clearance: new Float32Array(0) };
  raster.centers = cells.map((own, place) => centerOf(raster, own, countyRings[place]));
  raster.clearance = clearanceOf(raster, (cell) => county[cell]);
  return raster;
}

/**
 * Returns where a level line is inside rings, from left to right.
 * @param {Point[][]} rings
 * @param {number} level
 */
function spansAt(rings, level) {
  const crossings = [];
  for (const ring of rings) {
    for (let at = 0; at + 1 < ring.length; at += 1) {
      const [from, to] = [ring[at], ring[at + 1]];
      if (from[1] <= level !== to[1] <= level) {
        const share = (level - from[1]) / (to[1] - from[1]);
        crossings.push(from[0] + share * (to[0] - from[0]));
      }
    }
  }
  crossings.sort((one, other) => one - other);
  /** @type {[number, number][]} */
  const spans = [];
  for (let at = 0; at + 1 < crossings.length; at += 2) {
    spans.push([crossings[at], crossings[at + 1]]);
  }
  return spans;
}

/**
 * Returns the middle of cells; of a county too small for a cell, its first corner.
 * @param {Raster} raster
 * @param {number[]} cells
 * @param {Point[][]} rings
 * @returns {Point}
 */
function centerOf(raster, cells, rings) {
  if (!cells.length) {
    cells.push(cellAt(raster, rings[0][0][0], rings[0][0][1]));
    return rings[0][0];
  }
  const points = cells.map((cell) => cellPoint(raster, cell));
  const mean = (/** @type {number} */ axis) => (
    points.reduce((sum, point) => sum + point[axis], 0) / points.length);
  return [mean(0), mean(1)];
}

/**
 * Returns the middle of a cell.
 * @param {Raster} raster
 * @param {number} cell
 * @returns {Point}
 */
export function cellPoint(raster, cell) {
  return [((cell % raster.wide) + 0.5) * STEP, (Math.floor(cell / raster.wide) + 0.5) * STEP];
}

/**
 * Returns the cell of a point, or -1 beyond the sheet.
 * @param {Raster} raster
 * @param {number} x
 * @param {number} y
 */
export function cellAt(raster, x, y) {
  const [column, row] = [Math.floor(x / STEP), Math.floor(y / STEP)];
  const isIn = column >= 0 && row >= 0 && column < raster.wide && row < raster.high;
  return isIn ? row * raster.wide + column : -1;
}

/**
 * Returns for each cell how far, in cells, the next cell of another kind lies.
 * @param {Raster} raster
 * @param {(cell: number) => number} kindOf
 */
export function clearanceOf(raster, kindOf) {
  const { wide, high } = raster;
  const kinds = Int32Array.from({ length: wide * high }, (_, cell) => kindOf(cell));
  const away = new Float32Array(wide * high);
  for (let cell = 0; cell < away.length; cell += 1) {
    const [x, y, kind] = [cell % wide, Math.floor(cell / wide), kinds[cell]];
    const isEdge = x === 0 || y === 0 || x === wide - 1 || y === high - 1;
    const isAlone = isEdge || kinds[cell - 1] !== kind || kinds[cell + 1] !== kind
      || kinds[cell - wide] !== kind || kinds[cell + wide] !== kind;
    away[cell] = isAlone ? 0.5 : 1e6;
  }
  relax(away, wide, -1);
  relax(away, wide, 1);
  return away;
}

/**
 * Lowers distances to those of the cells before (-1) or behind (1) and a step more, in that order.
 * @param {Float32Array} away
 * @param {number} wide
 * @param {-1 | 1} way
 */
function relax(away, wide, way) {
  const [first, last] = [wide + 1, away.length - wide - 2];
  for (let step = 0; step <= last - first; step += 1) {
    const cell = way < 0 ? first + step : last - step;
    const beside = Math.min(away[cell + way], away[cell + way * wide]) + 1;
    const across = Math.min(away[cell + way * (wide + 1)], away[cell + way * (wide - 1)]) + 1.41;
    away[cell] = Math.min(away[cell], beside, across);
  }
}

/**
 * Returns the neighbors that share no line, with the shortest line between them, and the pairs that
 * meet at a point in the outlines and aren't neighbors.
 * @param {Geography} geography
 * @param {import('./outlines.mjs').Cuts} cuts
 * @param {Point[][][]} countyRings
 */
function meetings(geography, cuts, countyRings) {
  const shared = new Set(cuts.owners.filter((own) => own.length > 1).map((own) => own.join(" ")));
  /** @type {Map<string, [number, number]>} */
  const touching = new Map();
  /** @type {Map<string, Point>} */
  const touchAt = new Map();
  for (const [corner, places] of cuts.corners) {
    for (const one of places) {
      for (const other of places) {
        const pair = pairOf(one, other);
        if (one >= other || shared.has(pair.join(" "))) continue;
        touching.set(pair.join(" "), pair);
        const [x, y] = corner.split(",").map(Number);
        touchAt.set(pair.join(" "), [x, y]);
      }
    }
  }
  const counted = new Set(geography.borders.map((pair) => pair.join(" ")));
  const apart = geography.borders.filter((pair) => !shared.has(pair.join(" ")));
  const ties = apart.map((pair) => {
    const point = touchAt.get(pair.join(" "));
    if (point) return { pair, from: point, to: point, isPoint: true };
    const [from, to] = nearestPoints(countyRings[pair[0]].flat(), countyRings[pair[1]].flat());
    return { pair, from, to, isPoint: false };
  });
  const uncounted = [...touching].filter(([key]) => !counted.has(key)).map(([, pair]) => pair);
  const pointPairs = uncounted.sort((one, other) => one[0] - other[0] || one[1] - other[1]);
  return { ties, pointPairs };
}

/**
 * Returns the two nearest points of two lists.
 * @param {Point[]} some
 * @param {Point[]} others
 * @returns {[Point, Point]}
 */
function nearestPoints(some, others) {
  /** @type {[Point, Point]} */
  let best = [some[0], others[0]];
  let least = Infinity;
  for (const one of some) {
    for (const other of others) {
      const away = (one[0] - other[0]) ** 2 + (one[1] - other[1]) ** 2;
      if (away < least) [least, best] = [away, [one, other]];
    }
  }
  return best;
}
