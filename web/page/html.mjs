// HTML as the page writes it: one tagged template, which escapes what stands in it by default.

const LAST_TAG = /^<\/\w+>$/;
const KEY = /^<(\w+)(?:[^>]*? (?:data-key|href)="([^"]*)")?/;
const SIGNS = new Map([["&", "&amp;"], ["<", "&lt;"], [">", "&gt;"], ['"', "&quot;"]]);

/**
 * What a piece of HTML is made of if it is one element around a list: its first tag, the list, and
 * its last tag.
 * @typedef {{first: string, list: Part, last: string}} Around
 */

/** A piece of HTML in which every value is escaped. The tag `html` alone makes it. */
export class Html {
  /**
   * @param {string} text
   * @param {Around | null} around
   */
  constructor(text, around) {
    this.text = text;
    this.around = around;
  }

  /** @returns {string} */
  toString() {
    throw new Error("A piece of HTML stands in no plain text.");
  }
}

/**
 * What may stand in a template: a text or a number, which is escaped, a piece of HTML as it is, or
 * a list of such values.
 * @typedef {string | number | boolean | Html} Single
 * @typedef {Single | readonly (Single | readonly Single[])[]} Part
 */

/** @type {WeakMap<TemplateStringsArray, string[]>} */
const joinedLines = new WeakMap();

/**
 * Returns the texts of a template without its line breaks. Beside a tag, and at both ends, a break
 * and the blanks around it are nothing; elsewhere they are one blank.
 * @param {TemplateStringsArray} strings
 */
function plainTexts(strings) {
  let texts = joinedLines.get(strings);
  if (!texts) {
    const last = strings.length - 1;
    const ends = strings.map((text, at) => (
      at === last ? text.replace(/\s*\n\s*$/, "") : text));
    ends[0] = ends[0].replace(/^\s*\n\s*/, "");
    texts = ends.map((text) => text.replace(/(>?)\s*\n\s*(<?)/g, (_, before, behind) => (
      before || behind ? before + behind : " ")));
    joinedLines.set(strings, texts);
  }
  return texts;
}

/**
 * Returns a value as it stands in HTML.
 * @param {Part} part
 * @returns {string}
 */
function partText(part) {
  if (typeof part === "string") return part.replace(/[&<>"]/g, (sign) => SIGNS.get(sign) ?? sign);
  if (part instanceof Html) return part.text;
  return Array.isArray(part) ? part.map(partText).join("") : String(part);
}

/**
 * Returns a piece of HTML: the tag of templates.
 * @param {TemplateStringsArray} strings
 * @param {...Part} parts
 */
export function html(strings, ...parts) {
  const texts = plainTexts(strings);
  let [text, first] = [texts[0], texts[0]];
  parts.forEach((part, at) => {
    first = text;
    text += partText(part) + texts[at + 1];
  });
  const [list, last] = [parts.at(-1), texts[texts.length - 1]];
  // (a sign `<` of a value is escaped, so that one which is found begins a tag)
  const isAround = Array.isArray(list) && LAST_TAG.test(last) && first.lastIndexOf("<") === 0;
  return new Html(text, isAround ? { first, list, last } : null);
}

/** Nothing. */
export const NOTHING = html``;

/**
 * What was put into an element the last time, if it was of pieces alone.
 * @type {WeakMap<Element, Html[]>}
 */
const shown = new WeakMap();

/**
 * Puts a value into an element, in the place of what is there.
 * @param {Element} element
 * @param {Part} part
 */
export function fill(element, part) {
  element.innerHTML = partText(part);
  const pieces = piecesOf(part);
  if (pieces) shown.set(element, pieces);
  else shown.delete(element);
}

/**
 * Puts a value into an element as `fill` does. Of what was put there the last time, it leaves all
 * that is the same, so that a browser need not lay it out again. What was changed there by other
 * means has to be as it was.
 * @param {Element} element
 * @param {Part} part
 */
export function refill(element, part) {
  const wanted = piecesOf(part);
  const known = shown.get(element);
  if (!known || !wanted) {
    fill(element, part);
    return;
  }
  matchPieces(element, known, wanted);
  shown.set(element, wanted);
}

/**
 * Returns the pieces of a value, or null if it isn't of pieces alone.
 * @param {Part} part
 * @returns {Html[] | null}
 */
function piecesOf(part) {
  const parts = [part].flat(3).filter((one) => one instanceof Html ? one.text : one !== "");
  return parts.every((one) => one instanceof Html) ? /** @type {Html[]} */ (parts) : null;
}

/**
 * Returns by what each piece is known among the others: its `data-key` or `href`, or its tag, and
 * how many before it have the same.
 * @param {Html[]} pieces
 */
function keysOf(pieces) {
  /** @type {Map<string, number>} */
  const counts = new Map();
  return pieces.map(({ text }) => {
    const [, tag, key] = text.match(KEY) ?? [];
    const name = key ?? tag;
    const count = counts.get(name) ?? 0;
    counts.set(name, count + 1);
    return `${count} ${name}`;
  });
}

/**
 * Has an element with the nodes of some pieces have those of others.
 * @param {Element} element
 * @param {Html[]} before
 * @param {Html[]} after
 */
function matchPieces(element, before, after) {
  const nodes = Array.from(element.childNodes);
  const placeOf = new Map(keysOf(before).map((key, at) => [key, at]));
  const places = keysOf(after).map((key) => placeOf.get(key) ?? -1);
  const changed = after.map((piece, at) => changedText(before[places[at]], piece));
  const made = nodesOf(element, changed.filter(Boolean));
  if (nodes.length !== before.length || !made) {
    fill(element, after);
    return;
  }
  const kept = new Set(places);
  nodes.forEach((node, at) => kept.has(at) || node.remove());
  let next = element.firstChild;
  after.forEach((piece, at) => {
    const old = nodes[places[at]];
    const fresh = changed[at] ? /** @type {Element} */ (made.shift()) : null;
    const node = old ?? fresh;
    if (node === next) next = next.nextSibling;
    else element.insertBefore(node, next);
    if (old && fresh) matchNode(/** @type {Element} */ (old), fresh, before[places[at]], piece);
  });
}

/**
 * Returns the HTML of a piece if it differs from what was there, and nothing if it doesn't. If it
 * is around a list as before, the list isn't in it.
 * @param {Html | undefined} before
 * @param {Html} after
 */
function changedText(before, after) {
  if (before?.text === after.text) return "";
  return before?.around && after.around ? after.around.first + after.around.last : after.text;
}

/**
 * Returns the nodes of texts as children of an element, or null if a text isn't of one node.
 * @param {Element} element
 * @param {string[]} texts
 */
function nodesOf(element, texts) {
  const parent = /** @type {Element} */ (element.cloneNode(false));
  parent.innerHTML = texts.join("");
  const nodes = Array.from(parent.childNodes);
  return nodes.length === texts.length ? nodes : null;
}

/**
 * Gives an element what a fresh one has.
 * @param {Element} own
 * @param {Element} fresh
 * @param {Html} before
 * @param {Html} after
 */
function matchNode(own, fresh, before, after) {
  for (const { name, value } of Array.from(fresh.attributes)) {
    if (own.getAttribute(name) !== value) own.setAttribute(name, value);
  }
  for (const { name } of Array.from(own.attributes)) {
    if (!fresh.hasAttribute(name)) own.removeAttribute(name);
  }
  if (!before.around || !after.around) {
    own.replaceChildren(...Array.from(fresh.childNodes));
    return;
  }
  const [some, others] = [piecesOf(before.around.list), piecesOf(after.around.list)];
  if (some && others) matchPieces(own, some, others);
  else fill(own, after.around.list);
}

/**
 * Puts a value behind what is in an element.
 * @param {Element} element
 * @param {Part} part
 */
export function append(element, part) {
  element.insertAdjacentHTML("beforeend", partText(part));
}
