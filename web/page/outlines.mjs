// Cuts county outlines into lines that two counties share, each kept once, and smooths them.
// The outlines are for pictures alone: which counties are neighbors is in the file of borders.

/** @typedef {[number, number]} Point */
/** @typedef {Map<number, Point[][]>} Outlines  rings of each county, by its place */
/**
 * A line and the counties on its sides: two, or one on the edge of the land. `ring` has for each
 * county its rings, each a list of lines: `~line` if the line goes backwards.
 * @typedef {{lines: Point[][], owners: number[][], rings: number[][][],
 *   corners: Map<string, Set<number>>}} Cuts
 */

// If a corner lies so near to a side of another county, in units of the sheet, it lies on it.
const NEAR = 0.3;
const CELL = 20;
// Lines lose bends below this size, in units of the sheet.
const NOISE = 0.75;
// Only bends between sides shorter than this are rounded.
const SHORT_SIDE = 12;

/**
 * Returns outlines as GeoJSON. A page has them packed: by the code of a county its rings, each a
 * text of steps from point to point, in ten-thousandths of a degree and to the base 36.
 * @param {any} outlines
 */
export function unpackedOutlines(outlines) {
  if (!outlines || outlines.features) return outlines;
  const features = Object.entries(outlines).map(([geoid, rings]) => {
    const coordinates = /** @type {string[]} */ (rings).map((ring) => [unpackedRing(ring)]);
    return { properties: { GEOID: geoid }, geometry: { type: "MultiPolygon", coordinates } };
  });
  return { type: "FeatureCollection", features };
}

/**
 * Returns the points of a packed ring.
 * @param {string} text
 */
function unpackedRing(text) {
  const steps = text.split(" ").map((word) => parseInt(word, 36));
  /** @type {Point[]} */
  const points = [];
  let [x, y] = [0, 0];
  for (let at = 0; at < steps.length; at += 2) {
    [x, y] = [x + steps[at], y + steps[at + 1]];
    points.push([x / 10000, y / 10000]);
  }
  return points;
}

/** @param {Point} point */
const keyOf = (point) => `${point[0]},${point[1]}`;

/**
 * Returns the share of a side at which a point lies nearest, and its distance.
 * @param {Point} point
 * @param {Point} from
 * @param {Point} to
 */
function footOn(point, from, to) {
  const [long, high] = [to[0] - from[0], to[1] - from[1]];
  const square = long * long + high * high;
  const along = (point[0] - from[0]) * long + (point[1] - from[1]) * high;
  const share = square === 0 ? 0 : Math.min(1, Math.max(0, along / square));
  const away = Math.hypot(point[0] - from[0] - share * long, point[1] - from[1] - share * high);
  return { share, away };
}

/**
 * Returns rings without points that are the one before, closed without a repeated first point.
 * @param {Point[]} ring
 */
function cleanRing(ring) {
  const kept = ring.filter((point, at) => keyOf(point) !== keyOf(ring[(at || ring.length) - 1]));
  return kept.length > 2 ? kept : [];
}

/**
 * Returns all points of rings by the square of the sheet in which they lie.
 * @param {Outlines} outlines
 */
function pointsByCell(outlines) {
  /** @type {Map<string, Map<string, Point>>} */
  const cells = new Map();
  for (const rings of outlines.values()) {
    for (const point of rings.flat()) {
      const cell = `${Math.floor(point[0] / CELL)},${Math.floor(point[1] / CELL)}`;
      let points = cells.get(cell);
      if (!points) cells.set(cell, (points = new Map()));
      points.set(keyOf(point), point);
    }
  }
  return cells;
}

/**
 * Returns the points of any county that lie inside a side, in order.
 * @param {Point} from
 * @param {Point} to
 * @param {Map<string, Map<string, Point>>} cells
 */
function pointsOnSide(from, to, cells) {
  const [west, east] = [Math.min(from[0], to[0]) - NEAR, Math.max(from[0], to[0]) + NEAR];
  const [north, south] = [Math.min(from[1], to[1]) - NEAR, Math.max(from[1], to[1]) + NEAR];
  /** @type {{share: number, point: Point}[]} */
  const found = [];
  for (let x = Math.floor(west / CELL); x <= Math.floor(east / CELL); x += 1) {
    for (let y = Math.floor(north / CELL); y <= Math.floor(south / CELL); y += 1) {
      for (const point of cells.get(`${x},${y}`)?.values() ?? []) {
        const { share, away } = footOn(point, from, to);
        if (away <= NEAR && share > 0 && share < 1) found.push({ share, point });
      }
    }
  }
  found.sort((one, other) => one.share - other.share);
  const ends = [keyOf(from), keyOf(to)];
  return found.map((one) => one.point).filter((point) => !ends.includes(keyOf(point)));
}

/**
 * Returns rings in which each side is cut at the points of other counties that lie on it.
 * @param {Outlines} outlines
 */
function cutSides(outlines) {
  const cells = pointsByCell(outlines);
  /** @type {Outlines} */
  const cut = new Map();
  for (const [place, rings] of outlines) {
    cut.set(place, rings.map((ring) => cleanRing(ring.flatMap((point, at) => (
      [point, ...pointsOnSide(point, ring[(at + 1) % ring.length], cells)])))));
  }
  return cut;
}

/**
 * Returns the sides at each point with the counties that have the side, and the counties at each
 * point.
 * @param {Outlines} outlines
 */
function sidesOf(outlines) {
  /** @type {Map<string, Map<string, Set<number>>>} */
  const sides = new Map();
  /** @type {Map<string, Set<number>>} */
  const corners = new Map();
  /** @type {(from: string, to: string, place: number) => void} */
  const note = (from, to, place) => {
    let around = sides.get(from);
    if (!around) sides.set(from, (around = new Map()));
    around.set(to, (around.get(to) ?? new Set()).add(place));
  };
  for (const [place, rings] of outlines) {
    for (const ring of rings) {
      ring.forEach((point, at) => {
        const [from, to] = [keyOf(point), keyOf(ring[(at + 1) % ring.length])];
        note(from, to, place);
        note(to, from, place);
        corners.set(from, (corners.get(from) ?? new Set()).add(place));
      });
    }
  }
  return { sides, corners };
}

/**
 * Returns the points at which lines end: where not two sides meet, or counties change.
 * @param {Map<string, Map<string, Set<number>>>} sides
 */
function endPoints(sides) {
  const ends = new Set();
  for (const [point, around] of sides) {
    const owners = [...around.values()].map((one) => [...one].sort().join(" "));
    if (around.size !== 2 || owners[0] !== owners[1]) ends.add(point);
  }
  return ends;
}

/**
 * Returns a ring cut at its end points into runs of points. A ring without end points is one run.
 * @param {Point[]} ring
 * @param {Set<unknown>} ends
 */
function runsOf(ring, ends) {
  let start = ring.findIndex((point) => ends.has(keyOf(point)));
  if (start < 0) {
    const least = ring.reduce((some, point) => (keyOf(point) < keyOf(some) ? point : some));
    start = ring.indexOf(least);
  }
  /** @type {Point[][]} */
  const runs = [];
  let run = [ring[start]];
  for (let step = 1; step <= ring.length; step += 1) {
    const point = ring[(start + step) % ring.length];
    run.push(point);
    if (step === ring.length || ends.has(keyOf(point))) {
      runs.push(run);
      run = [point];
    }
  }
  return runs;
}

/**
 * Returns outlines cut into lines, each kept once. Points lie on a grid, so that equal points are
 * equal.
 * @param {Outlines} outlines  rings in units of the sheet
 * @param {number} count  how many counties there are
 * @returns {Cuts}
 */
export function cutOutlines(outlines, count) {
  const cut = cutSides(outlines);
  const { sides, corners } = sidesOf(cut);
  const ends = endPoints(sides);
  /** @type {Cuts} */
  const cuts = { lines: [], owners: [], rings: Array.from({ length: count }, () => []), corners };
  /** @type {Map<string, number>} */
  const known = new Map();
  for (const [place, rings] of cut) {
    for (const ring of rings.filter((one) => one.length)) {
      cuts.rings[place].push(runsOf(ring, ends).map((run) => lineOfRun(run, sides, cuts, known)));
    }
  }
  cuts.lines = cuts.lines.map((line) => rounded(withoutNoise(line, NOISE)));
  return cuts;
}

/**
 * Returns the number of the line of a run, `~number` if the line is kept the other way round.
 * @param {Point[]} run
 * @param {Map<string, Map<string, Set<number>>>} sides
 * @param {Cuts} cuts
 * @param {Map<string, number>} known
 */
function lineOfRun(run, sides, cuts, known) {
  const keys = run.map(keyOf);
  const forward = keys.join(" ");
  const backward = [...keys].reverse().join(" ");
  const same = known.get(forward);
  if (same !== undefined) return same;
  const other = known.get(backward);
  if (other !== undefined) return ~other;
  const number = cuts.lines.length;
  known.set(forward, number);
  cuts.lines.push(run);
  const owners = sides.get(keys[0])?.get(keys[1]) ?? new Set();
  cuts.owners.push([...owners].sort((one, more) => one - more));
  return number;
}

/**
 * Returns a line without points that lie nearer than `limit` to the line through the others.
 * @param {Point[]} line
 * @param {number} limit
 * @returns {Point[]}
 */
function withoutNoise(line, limit) {
  if (line.length < 3) return line;
  const [first, last] = [line[0], line[line.length - 1]];
  const isClosed = keyOf(first) === keyOf(last);
  let [far, at] = [-1, 0];
  for (let place = 1; place < line.length - 1; place += 1) {
    const away = isClosed
      ? Math.hypot(line[place][0] - first[0], line[place][1] - first[1])
      : footOn(line[place], first, last).away;
    if (away > far) [far, at] = [away, place];
  }
  if (far <= limit && !isClosed) return [first, last];
  const before = withoutNoise(line.slice(0, at + 1), limit);
  return [...before.slice(0, -1), ...withoutNoise(line.slice(at), limit)];
}

/**
 * Returns a line whose bends between short sides are rounded. Its ends stay.
 * @param {Point[]} line
 * @returns {Point[]}
 */
function rounded(line) {
  const long = (/** @type {number} */ at) => (
    Math.hypot(line[at + 1][0] - line[at][0], line[at + 1][1] - line[at][1]));
  /** @type {Point[]} */
  const points = [line[0]];
  for (let at = 1; at < line.length - 1; at += 1) {
    if (Math.max(long(at - 1), long(at)) > SHORT_SIDE) points.push(line[at]);
    else points.push(...roundedCorner(line[at - 1], line[at], line[at + 1]));
  }
  points.push(line[line.length - 1]);
  return points.map(([x, y]) => [Math.round(x * 10) / 10, Math.round(y * 10) / 10]);
}

/**
 * Returns three points in the place of a corner.
 * @param {Point} before
 * @param {Point} corner
 * @param {Point} after
 * @returns {Point[]}
 */
function roundedCorner(before, corner, after) {
  /** @type {(one: Point, other: Point, share: number) => Point} */
  const between = (one, other, share) => (
    [one[0] + (other[0] - one[0]) * share, one[1] + (other[1] - one[1]) * share]);
  const [enter, leave] = [between(corner, before, 0.35), between(corner, after, 0.35)];
  return [enter, between(between(enter, leave, 0.5), corner, 0.55), leave];
}
