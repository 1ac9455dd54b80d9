// Small helpers for the page's elements.

import { NOTHING, fill, html } from "./html.mjs";
/**
 * Returns the element of a selector. Throws if there is none.
 * @param {string} selector
 * @param {ParentNode} [root]
 * @returns {HTMLElement}
 */
export function find(selector, root = document) {
  const element = root.querySelector(selector);
  if (!element) throw new Error(`The page has no ${selector}.`);
  return /** @type {HTMLElement} */ (element);
}

/**
 * Returns all elements of a selector.
 * @param {string} selector
 * @param {ParentNode} [root]
 * @returns {HTMLElement[]}
 */
export function findAll(selector, root = document) {
  return /** @type {HTMLElement[]} */ ([...root.querySelectorAll(selector)]);
}

/**
 * Returns the input or button of a selector.
 * @param {string} selector
 * @param {ParentNode} [root]
 * @returns {HTMLInputElement}
 */
export function findInput(selector, root = document) {
  return /** @type {HTMLInputElement} */ (find(selector, root));
}

/**
 * Scrolls to a part of the page if it doesn't begin in the upper half of the window.
 * @param {HTMLElement} part
 */
export function bringIntoView(part) {
  const { top } = part.getBoundingClientRect();
  if (top < 0 || top > innerHeight / 2) part.scrollIntoView({ behavior: "smooth" });
}

/**
 * Has a screen reader speak `text`.
 * @param {string} text
 */
export function speak(text) {
  find("#live").textContent = text;
}

let toastTimer = 0;

/**
 * Shows `text` for some seconds at the lower edge of the window.
 * @param {string} text
 */
export function showToast(text) {
  const toast = find("#toast");
  toast.textContent = text;
  toast.hidden = false;
  clearTimeout(toastTimer);
  toastTimer = window.setTimeout(() => {
    toast.hidden = true;
  }, 4200);
}

/**
 * Offers bytes as a file to store.
 * @param {string} name
 * @param {BlobPart} data
 * @param {string} type
 */
export function saveFile(name, data, type) {
  const address = URL.createObjectURL(new Blob([data], { type }));
  const link = document.createElement("a");
  link.href = address;
  link.download = name;
  document.body.append(link);
  link.click();
  link.remove();
  setTimeout(() => URL.revokeObjectURL(address), 2000);
}

/**
 * Returns the buttons by which the chamber is chosen.
 * @param {{key: string, name: string, seats: number}[]} chambers
 * @param {string} current
 */
export function chamberButtons(chambers, current) {
  return chambers.map(({ key, name, seats }) => (
    html`
      <button type="button" data-chamber="${key}" aria-pressed="${key === current}">${name} <small>
      ${seats}${key === "chamber" ? "" : " seats"}</small></button>`));
}

/**
 * A list of steps on the page, of which the last may be at work.
 * @param {HTMLElement} list
 */
export function stepList(list) {
  fill(list, NOTHING);
  /** @param {string} text */
  const begin = (text) => {
    const item = document.createElement("li");
    item.className = "doing";
    const told = document.createElement("span");
    const time = document.createElement("time");
    told.textContent = text;
    item.append(told, time);
    list.append(item);
    const start = performance.now();
    return {
      /** @param {string} more */
      tell(more) {
        told.textContent = more;
      },
      /**
       * @param {boolean} isGood
       * @param {import("./html.mjs").Part} [words]
       */
      end(isGood, words) {
        item.className = isGood ? "done" : "bad";
        if (words) fill(told, words);
        time.textContent = `${((performance.now() - start) / 1000).toFixed(2)} s`;
      },
    };
  };
  return { begin };
}

/**
 * Returns a verdict: its head in bold, and what follows.
 * @param {boolean} isGood
 * @param {string} head
 * @param {import("./html.mjs").Part} more
 */
export function verdictHtml(isGood, head, more) {
  return html`<div class="verdict${isGood ? "" : " no"}"><b>${head}</b> ${more}</div>`;
}
