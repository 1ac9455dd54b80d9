// Maps as pictures that stand alone: SVG for print and editing, PNG, and a picture to share. They
// are light, whatever the colors of the page.

import { mapSvg } from "./map_svg.mjs";
import { optionDrawing } from "./answer_parts.mjs";
import { find } from "./dom.mjs";
import { fill } from "./html.mjs";
import { hashOf } from "./page.mjs";
import { fileOf } from "./program.mjs";
import { current } from "./view_state.mjs";

/** @typedef {import("./page.mjs").Page} Page */
/** @typedef {import("./sheet.mjs").Sheet} Sheet */
/** @typedef {import("./view_state.mjs").ViewState} ViewState */
/** @typedef {{text: string, size: number, isBold?: boolean}} Caption */

const SVG = "http://www.w3.org/2000/svg";
const PICTURE_WIDTH = 2720;
const SHARED = [1200, 630];
const PAPER = "#fff";
const INK = "#1b1b1b";
const KEPT_STYLES = [
  "fill", "fill-opacity", "fill-rule", "stroke", "stroke-width", "stroke-dasharray",
  "stroke-opacity", "stroke-linejoin", "font-family", "font-size", "font-weight", "text-anchor",
  "paint-order",
];
const DROPPED = [
  "style", "class", "role", "tabindex", "aria-label", "aria-pressed", "data-group", "data-county",
  "data-area", "data-choice", "data-scale",
];

/**
 * Puts the shapes of `use` elements in their place, and styles into attributes.
 * @param {SVGElement} svg
 */
function standAlone(svg) {
  for (const use of svg.querySelectorAll("use")) {
    const path = document.createElementNS(SVG, "path");
    const shape = document.querySelector(use.getAttribute("href") ?? "");
    for (const { name, value } of use.attributes) {
      if (name !== "href") path.setAttribute(name, value);
    }
    path.setAttribute("d", shape?.getAttribute("d") ?? "");
    use.replaceWith(path);
  }
  const styled = [...svg.querySelectorAll("*")].map((element) => {
    const styles = getComputedStyle(element);
    return { element, values: KEPT_STYLES.map((name) => styles.getPropertyValue(name)) };
  });
  for (const { element, values } of styled) {
    const isPlain = /^(g|defs|pattern|tspan)$/.test(element.tagName)
      && !element.getAttribute("fill");
    KEPT_STYLES.forEach((name, at) => {
      const value = values[at].replace(/url\("?[^#]*(#[^")]+)"?\)/, "url($1)");
      if (!isPlain && value) element.setAttribute(name, value);
    });
    DROPPED.forEach((name) => element.removeAttribute(name));
  }
}

/**
 * Returns the first digits of the sum of a carried file, with its name, or nothing.
 * @param {string} key
 */
function sumWords(key) {
  const file = fileOf(key);
  return file ? `${file.name} ${file.sum.slice(0, 16)}` : "";
}

/**
 * Returns lines of text under a map: the option, what the signs mean, the source with its sums, and
 * where it comes from.
 * @param {Page} page
 * @param {ViewState} state
 * @returns {Caption[]}
 */
function captionLines(page, state) {
  const { answer, option } = current(page, state);
  const { name } = page.geography;
  const { year, enactedYear } = page.census;
  const enacted = option === answer.enacted ? `Used for the plan enacted in ${enactedYear}. ` : "";
  const of = answer.options ? `option ${option} of ${answer.number}` : `one of ${answer.number}`;
  const sums = ["segment", "adjacency", `${answer.key}.certificate`].map(sumWords).filter(Boolean);
  const made = new Date().toISOString().slice(0, 10);
  const path = answer.options ? `${answer.key}/${option}` : answer.key;
  return [
    { text: `${name} ${answer.name}: ${of} best county groupings`, size: 17, isBold: true },
    { text: `${enacted}Numbers: seats. Hatched: areas where there is a choice.`, size: 13 },
    { text: `${year ? `${year} census. ` : ""}Outlines are generalized. First digits of SHA-256: `
      + `${sums.join(", ") || "no files carried"}.`, size: 11 },
    { text: `countygroups, page.html${hashOf(page, path)}, ${made}.`, size: 11 },
  ];
}

/**
 * Returns the map of the option as an SVG element that stands alone, without a caption.
 * @param {Page} page
 * @param {ViewState} state
 */
function lightMap(page, state) {
  const { answer, choices } = current(page, state);
  const { width, height } = /** @type {Sheet} */ (page.geography.sheet);
  const room = document.createElement("div");
  room.className = "off-screen light";
  fill(room, mapSvg(page.geography, {
    ...optionDrawing(answer, choices), hasSwitches: true, width, labels: "county",
    keep: { x: width * 0.2, y: height * 0.88, w: width * 0.42, h: height * 0.3 },
  }));
  document.body.append(room);
  const svg = /** @type {SVGElement} */ (/** @type {unknown} */ (find("svg", room)));
  standAlone(svg);
  room.remove();
  return svg;
}

/**
 * Returns the element of a line of text.
 * @param {Caption} caption
 * @param {number} x
 * @param {number} y
 */
function captionElement({ text, size, isBold }, x, y) {
  const line = document.createElementNS(SVG, "text");
  line.textContent = text;
  const values = {
    x, y, "font-size": size, "font-weight": isBold ? 700 : 400, fill: INK,
    "font-family": isBold ? "Palatino, Georgia, serif" : "Arial, sans-serif",
  };
  for (const [name, value] of Object.entries(values)) line.setAttribute(name, String(value));
  return line;
}

/**
 * Returns the element of the paper behind a picture.
 * @param {number} width
 * @param {number} height
 */
function paperElement(width, height) {
  const paper = document.createElementNS(SVG, "rect");
  for (const [name, value] of Object.entries({ width, height, fill: PAPER })) {
    paper.setAttribute(name, String(value));
  }
  return paper;
}

/**
 * Returns the map of the option as SVG that stands alone, with title, source and date.
 * @param {Page} page
 * @param {ViewState} state
 */
export function svgText(page, state) {
  const { width, height } = /** @type {Sheet} */ (page.geography.sheet);
  const svg = lightMap(page, state);
  svg.setAttribute("width", String(width));
  svg.setAttribute("height", String(height));
  svg.prepend(paperElement(width, height));
  captionLines(page, state).forEach((caption, at) => {
    svg.append(captionElement(caption, 18, height - 76 + at * 21));
  });
  return new XMLSerializer().serializeToString(svg);
}

/**
 * Returns the SVG of a picture to share: the title above the map.
 * @param {Page} page
 * @param {ViewState} state
 */
function sharedText(page, state) {
  const { width, height } = /** @type {Sheet} */ (page.geography.sheet);
  const [wide, high] = SHARED;
  const map = lightMap(page, state);
  const scale = Math.min((wide - 40) / width, (high - 130) / height);
  map.setAttribute("x", String((wide - width * scale) / 2));
  map.setAttribute("y", "104");
  map.setAttribute("width", String(width * scale));
  map.setAttribute("height", String(height * scale));
  const svg = document.createElementNS(SVG, "svg");
  svg.setAttribute("viewBox", `0 0 ${wide} ${high}`);
  const [title, , , source] = captionLines(page, state);
  const { answer } = current(page, state);
  const text = `${answer.number} best groupings, proved: no lawful grouping is better.`;
  svg.append(
    paperElement(wide, high), captionElement({ ...title, size: 34 }, 28, 52),
    captionElement({ text, size: 22 }, 28, 86), map,
    captionElement({ ...source, size: 16 }, 28, high - 14));
  return new XMLSerializer().serializeToString(svg);
}

/**
 * Returns an SVG text as a PNG picture.
 * @param {string} text
 * @param {number} width  in pixels
 * @param {number} height
 * @returns {Promise<Blob>}
 */
async function pngOf(text, width, height) {
  const image = new Image();
  image.src = `data:image/svg+xml;charset=utf-8,${encodeURIComponent(text)}`;
  await image.decode();
  const canvas = document.createElement("canvas");
  [canvas.width, canvas.height] = [width, height];
  canvas.getContext("2d")?.drawImage(image, 0, 0, width, height);
  return new Promise((resolve, reject) => {
    canvas.toBlob((blob) => (blob ? resolve(blob) : reject(new Error("no picture"))));
  });
}

/**
 * Returns the map of the option as a PNG picture.
 * @param {Page} page
 * @param {ViewState} state
 */
export function pngPicture(page, state) {
  const { width, height } = /** @type {Sheet} */ (page.geography.sheet);
  const high = Math.round((PICTURE_WIDTH * height) / width);
  return pngOf(svgText(page, state), PICTURE_WIDTH, high);
}

/**
 * Returns the picture to share, a PNG.
 * @param {Page} page
 * @param {ViewState} state
 */
export function sharedPicture(page, state) {
  return pngOf(sharedText(page, state), SHARED[0], SHARED[1]);
}
