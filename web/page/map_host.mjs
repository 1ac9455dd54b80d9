// Draws a map into the page, in one sheet or cut into west and east on a phone, and follows
// pointer, finger and keyboard on it.

import { find, findAll } from "./dom.mjs";
import { groupSentence } from "./group_words.mjs";
import { NOTHING, fill, html, refill } from "./html.mjs";
import { mapSvg } from "./map_svg.mjs";

/** @typedef {import("./geography.mjs").Geography} Geography */
/** @typedef {import("./geography.mjs").Group} Group */
/** @typedef {import("./map_svg.mjs").Drawing} Drawing */
/** @typedef {import("./sheet.mjs").Sheet} Sheet */
/**
 * A map in the page. `tell` is called when a group is pointed at, or null when none is; `isLoud`
 * says whether a screen reader should hear it. `turn` is called when a switch is used, `pick` when
 * a county is clicked, in the place of pinning its group. Without `tell`, a line behind the host
 * tells of the group.
 * @typedef {{geography: Geography, drawing: Omit<Drawing, "width" | "labels">, chamber: number,
 *   isPrinted?: boolean, hasKeep?: boolean,
 *   tell?: (group: number | null, isLoud: boolean) => void,
 *   turn?: (area: number, choice: number) => void, pick?: (county: number) => void}} MapShown
 */
/**
 * What is known of a host. `id` begins the ids of its maps, of which `width` is the width.
 * `picking` is called with a county that is clicked, in the place of what else a click does.
 * @typedef {{shown: MapShown, id: string, width: number, hovered: number | null,
 *   pinned: number | null, picking?: ((county: number) => void) | null}} HostState
 */

/** @type {WeakMap<HTMLElement, HostState>} */
const states = new WeakMap();
let hosts = 0;

const PRINT_WIDTH = 1240;
const MOST_TALL = 900;
const PHONE = 640;
const ALL_NAMES = 1100;

/**
 * Draws a map into `host`. Its events are followed from the first time on.
 * @param {HTMLElement} host
 * @param {MapShown} shown
 */
export function showMap(host, shown) {
  const sheet = /** @type {Sheet | null} */ (shown.geography.sheet);
  if (!sheet) {
    fill(host, NOTHING);
    return;
  }
  const known = states.get(host);
  letGo(host);
  if (!known) hosts += 1;
  const id = known?.id ?? `host${hosts}`;
  const tall = (MOST_TALL * sheet.width) / sheet.height;
  const space = Math.min(Math.max(300, host.clientWidth || 1360), tall);
  const width = shown.isPrinted ? PRINT_WIDTH : space;
  states.set(host, { shown, id, width, hovered: null, pinned: null, picking: known?.picking });
  host.style.maxWidth = sheet.height > sheet.width ? `${Math.round(tall)}px` : "";
  // (another option of a chamber differs in few counties)
  const isLike = known?.width === width && known.shown.chamber === shown.chamber;
  (isLike ? refill : fill)(host, svgTexts(shown, sheet, width, id));
  host.classList.toggle("cut", host.children.length > 1);
  const first = host.querySelector(".badge");
  if (first instanceof SVGElement) first.tabIndex = 0;
  if (!known) follow(host);
}

/**
 * Has no group of a host marked, and no stop that the keyboard comes to first.
 * @param {HTMLElement} host
 */
function letGo(host) {
  mark(host, null);
  for (const stop of findAll("svg [tabindex='0']", host)) stop.tabIndex = -1;
}

/**
 * Returns the maps for a width: one, or two where a wide state would be too small.
 * @param {MapShown} shown
 * @param {Sheet} sheet
 * @param {number} width
 * @param {string} id
 */
function svgTexts({ geography, drawing, hasKeep }, sheet, width, id) {
  const isCut = width < PHONE && sheet.width > sheet.height * 1.6;
  if (!isCut) {
    /** @type {"county" | "group"} */
    const labels = width >= ALL_NAMES ? "county" : "group";
    const { width: wide, height: high } = sheet;
    const keep = width >= 1240 && hasKeep
      ? { x: wide * 0.18, y: high * 0.85, w: wide * 0.36, h: high * 0.34 } : null;
    return [mapSvg(geography, { ...drawing, id, width, labels, keep })];
  }
  const half = sheet.width * 0.54;
  const plain = { ...drawing, hasSwitches: false, width, labels: /** @type {const} */ ("group") };
  const high = sheet.height - 20;
  const west = mapSvg(geography, {
    ...plain, id: `${id}w`, box: [0, 20, half, westHeight(geography, half)] });
  const east = mapSvg(geography, {
    ...plain, id: `${id}e`, box: [sheet.width - half, 20, half, high] });
  return [west, east];
}

/**
 * Returns the height of the western half: down to its southernmost county.
 * @param {Geography} geography
 * @param {number} half
 */
function westHeight(geography, half) {
  const sheet = /** @type {Sheet} */ (geography.sheet);
  const boxes = sheet.boxes.filter((box) => box[0] + box[2] < half);
  return Math.max(...boxes.map((box) => box[1] + box[3])) + 12 - 20;
}

/**
 * Draws the map of a host again, for a new width.
 * @param {HTMLElement} host
 */
export function showAgain(host) {
  const state = states.get(host);
  if (!state || !host.children.length) return;
  const { pinned, shown } = state;
  showMap(host, shown);
  if (pinned !== null) pin(host, pinned);
}

/**
 * Empties a host.
 * @param {HTMLElement} host
 */
export function clearMap(host) {
  fill(host, NOTHING);
}

/**
 * Marks a group on a map and pins it, or lets go.
 * @param {HTMLElement} host
 * @param {number | null} group
 * @param {boolean} [isLoud]
 */
export function pin(host, group, isLoud = false) {
  const state = states.get(host);
  if (!state) return;
  state.pinned = group;
  mark(host, group);
  told(host, group, isLoud);
}

/**
 * Marks a group while it is pointed at elsewhere; null goes back to the pinned one.
 * @param {HTMLElement} host
 * @param {number | null} group
 */
export function point(host, group) {
  mark(host, group ?? states.get(host)?.pinned ?? null);
}

/**
 * Has clicks on counties of a host call `pick`, or null to have them do what they did before.
 * @param {HTMLElement} host
 * @param {((county: number) => void) | null} pick
 */
export function pickOnMap(host, pick) {
  const state = states.get(host);
  if (state) state.picking = pick;
}

/**
 * Returns the pinned group of a host.
 * @param {HTMLElement} host
 */
export function pinnedIn(host) {
  return states.get(host)?.pinned ?? null;
}

/**
 * Tells of a group.
 * @param {HTMLElement} host
 * @param {number | null} at
 * @param {boolean} isLoud
 */
function told(host, at, isLoud) {
  const shown = states.get(host)?.shown;
  if (!shown) return;
  if (shown.tell) {
    shown.tell(at, isLoud);
    return;
  }
  const line = host.nextElementSibling;
  if (!line?.classList.contains("told-line")) return;
  const group = at === null ? null : shown.drawing.groups[at];
  line.textContent = group ? groupSentence(shown.geography, group, shown.chamber) : "\u00a0";
}

/**
 * Marks a group: strong tint, a line around it, its pill inverted.
 * @param {HTMLElement} host
 * @param {number | null} at
 */
function mark(host, at) {
  const state = states.get(host);
  if (!state) return;
  const { geography, drawing } = state.shown;
  findAll("[data-group].on", host).forEach((element) => element.classList.remove("on"));
  const group = at === null ? null : drawing.groups[at];
  for (const svg of findAll("svg", host)) {
    const scale = Number(svg.dataset.scale);
    const place = svg.querySelector(".selected");
    if (!place) continue;
    const path = group ? outlineOf(geography, group) : "";
    const line = (/** @type {string} */ kind, /** @type {number} */ width) => (
      html`<path class="line ${kind}" style="stroke-width:${width / scale}" d="${path}"/>`);
    fill(place, path ? [line("casing", 6), line("selected-line", 2.6)] : "");
  }
  if (group) findAll(`[data-group="${at}"]`, host).forEach((one) => one.classList.add("on"));
}

/**
 * Returns the lines around a group.
 * @param {Geography} geography
 * @param {Group} group
 */
function outlineOf(geography, group) {
  const sheet = /** @type {Sheet} */ (geography.sheet);
  const own = new Set(group.counties);
  const paths = sheet.linePaths.filter((_, line) => {
    const inside = sheet.owners[line].filter((county) => own.has(county));
    return inside.length === 1;
  });
  return paths.join("");
}

/**
 * Returns the group of an event, or null.
 * @param {Event} event
 */
function groupOf(event) {
  const target = /** @type {Element | null} */ (event.target);
  const holder = /** @type {HTMLElement | null} */ (target?.closest("[data-group]"));
  const at = Number(holder?.dataset.group ?? -1);
  return at >= 0 ? at : null;
}

/**
 * Follows pointer, clicks, focus and keys on a host.
 * @param {HTMLElement} host
 */
function follow(host) {
  host.addEventListener("pointermove", (event) => {
    const state = states.get(host);
    const group = groupOf(event);
    if (!state || event.pointerType === "touch" || group === state.hovered) return;
    state.hovered = group;
    mark(host, group ?? state.pinned);
    told(host, group ?? state.pinned, false);
  });
  host.addEventListener("pointerleave", () => {
    const state = states.get(host);
    if (!state) return;
    state.hovered = null;
    mark(host, state.pinned);
    told(host, state.pinned, false);
  });
  host.addEventListener("click", (event) => clicked(host, event));
  host.addEventListener("focusin", (event) => {
    const group = groupOf(event);
    if (group === null) return;
    mark(host, group);
    told(host, group, true);
  });
  host.addEventListener("keydown", (event) => pressed(host, event));
}

/**
 * Turns a switch, picks a county or pins a group.
 * @param {HTMLElement} host
 * @param {Event} event
 */
function clicked(host, event) {
  const state = states.get(host);
  const target = /** @type {Element | null} */ (event.target);
  if (!state || !target) return;
  const { turn, pick } = state.shown;
  const letter = /** @type {HTMLElement | null} */ (target.closest("[data-area]"));
  if (letter && turn) {
    turn(Number(letter.dataset.area), Number(letter.dataset.choice));
    return;
  }
  const county = /** @type {HTMLElement | null} */ (target.closest("[data-county]"));
  const take = state.picking ?? pick;
  if (county && take) {
    take(Number(county.dataset.county));
    return;
  }
  const group = groupOf(event);
  pin(host, group === state.pinned ? null : group, true);
}

const ARROWS = new Map([
  ["ArrowRight", [1, 0]], ["ArrowLeft", [-1, 0]], ["ArrowUp", [0, -1]], ["ArrowDown", [0, 1]],
]);

/**
 * Goes to the nearest pill or switch in the direction of an arrow; Enter clicks, Escape lets go.
 * @param {HTMLElement} host
 * @param {KeyboardEvent} event
 */
function pressed(host, event) {
  const stops = findAll(".badge, .letter", host);
  const at = stops.findIndex((one) => one === document.activeElement);
  const way = ARROWS.get(event.key);
  if (way && at >= 0) {
    event.preventDefault();
    const next = nearestStop(stops, at, way);
    if (next) {
      stops[at].tabIndex = -1;
      next.tabIndex = 0;
      next.focus();
    }
  }
  if ((event.key === "Enter" || event.key === " ") && at >= 0) {
    event.preventDefault();
    stops[at].dispatchEvent(new MouseEvent("click", { bubbles: true }));
  }
  if (event.key === "Escape") pin(host, null, true);
}

/**
 * Returns the stop nearest to another in a direction, or null.
 * @param {HTMLElement[]} stops
 * @param {number} at
 * @param {number[]} way
 */
function nearestStop(stops, at, way) {
  const middle = (/** @type {HTMLElement} */ stop) => {
    const box = stop.getBoundingClientRect();
    return [box.x + box.width / 2, box.y + box.height / 2];
  };
  const [x, y] = middle(stops[at]);
  /** @type {HTMLElement | null} */
  let best = null;
  let least = Infinity;
  for (const stop of stops) {
    const [toX, toY] = middle(stop);
    const ahead = (toX - x) * way[0] + (toY - y) * way[1];
    const aside = Math.abs((toX - x) * way[1] + (toY - y) * way[0]);
    if (stop === stops[at] || ahead <= 2 || ahead + aside * 2.2 >= least) continue;
    [least, best] = [ahead + aside * 2.2, stop];
  }
  return best;
}

/**
 * Focuses the switch of an area on a map again, after it was drawn anew.
 * @param {HTMLElement} host
 * @param {number} area
 * @param {number} choice
 */
export function focusSwitch(host, area, choice) {
  const selector = `[data-area="${area}"][data-choice="${choice}"]`;
  if (host.querySelector(selector)) find(selector, host).focus({ preventScroll: true });
}
