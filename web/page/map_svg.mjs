// Draws a map of groups as SVG text. Line widths and letters are in pixels at the drawn size.

import { placeSwitches } from "./area_switches.mjs";
import { placeBadges } from "./badges.mjs";
import { isInBox, overlaps, placeCountyNames, shareOf } from "./county_names.mjs";
import { countyName } from "./geography.mjs";
import { choiceWords, groupName } from "./group_words.mjs";
import { NOTHING, html } from "./html.mjs";
import { placesFor } from "./label_places.mjs";
import { textWidth } from "./letters.mjs";
import { cellPoint } from "./sheet.mjs";
import { nounFor } from "./words.mjs";

/** @typedef {import('./geography.mjs').Geography} Geography */
/** @typedef {import('./geography.mjs').Group} Group */
/** @typedef {import('./sheet.mjs').Sheet} Sheet */
/** @typedef {import('./sheet.mjs').Box} Box */
/** @typedef {import('./html.mjs').Html} Html */
/** @typedef {import('./county_names.mjs').Name} Name */
/** @typedef {import('./county_names.mjs').Place} Place */
/** @typedef {import('./area_switches.mjs').ShownArea} ShownArea */
/**
 * What a map shows. `labels` are names of counties, of groups, or seats alone. `leaders` are
 * counties that leave room for the seats of their group in some option. `areas` are hatched and
 * outlined; `hasSwitches` places their switches outside the `keep` rectangle. `only` greys all
 * other counties. `moved` counties have the strong tint, `flash` ones flash, `taken` ones are
 * dotted, and groups with `isNew` have the tint of a change. A map that is drawn again has the same
 * `id`, with which the ids of its patterns begin.
 * @typedef {{groups: Group[], width: number, labels: 'county' | 'group' | 'badge', box?: Box,
 *   id?: string,
 *   leaders?: Set<number>, areas?: ShownArea[], hasSwitches?: boolean, keep?: Place | null,
 *   only?: number[], isMini?: boolean, moved?: Set<number>, flash?: Set<number> | null,
 *   taken?: Set<number>, isNew?: (group: Group) => boolean}} Drawing
 */
/**
 * A drawing with what is derived of it: `groupAt` and `areaAt` give the number of the group and the
 * area of a county, or -1; `px` gives a length in pixels as units.
 * @typedef {{geography: Geography, sheet: Sheet, drawing: Drawing, box: Box, scale: number,
 *   id: string, groupAt: Int16Array, areaAt: Int16Array, only: Set<number> | null,
 *   px: (pixels: number) => string}} Canvas
 */

let drawn = 0;

/** @param {number} value */
const short = (value) => value.toFixed(1);

/**
 * Returns the map of a drawing as SVG.
 * @param {Geography} geography  one with a sheet
 * @param {Drawing} drawing
 */
export function mapSvg(geography, drawing) {
  const canvas = canvasOf(geography, drawing);
  const { box, scale } = canvas;
  const role = drawing.isMini ? html`aria-hidden="true"` : html`role="presentation"`;
  const names = drawing.labels === "county" ? namesOn(canvas) : [];
  /** @type {Place[]} */
  const placed = names.filter((name) => !canvas.only || canvas.only.has(name.county));
  const switches = drawing.hasSwitches ? switchesOn(canvas, names) : [];
  placed.push(...switches);
  const parts = [
    patterns(canvas), ...countyShapes(canvas), ...borderLines(canvas),
    html`<g>${waterTies(canvas)}</g>`, html`<g class="selected"></g>`,
    html`<g>${names.flatMap((name) => countyNameText(canvas, name))}</g>`,
    html`<g>${badgeParts(canvas, names, placed)}</g>`,
    html`<g>${switches.flatMap((one) => switchPart(canvas, one))}</g>`,
  ];
  return html`
    <svg viewBox="${box.map(short).join(" ")}" ${role} data-scale="${scale}"
    xmlns="http://www.w3.org/2000/svg">${parts}</svg>`;
}

/**
 * Returns the names of counties on a map.
 * @param {Canvas} canvas
 */
function namesOn({ geography, sheet, drawing, scale, box }) {
  const leaders = drawing.leaders ?? new Set();
  const key = `names ${scale} ${box} ${[...leaders].join()}`;
  return placesFor(sheet, key, () => placeCountyNames(geography, sheet, scale, leaders, box));
}

/**
 * Returns the switches on a map. They don't depend on the option, so that none moves when a choice
 * is made.
 * @param {Canvas} canvas
 * @param {Name[]} names
 */
function switchesOn({ sheet, drawing, scale, box }, names) {
  const areas = drawing.areas ?? [];
  const keep = drawing.keep ?? null;
  const told = areas.map(({ name, counties, choices }) => [name, counties, choices]);
  const key = `switches ${scale} ${box} ${names.length} ${JSON.stringify([keep, told])}`;
  return placesFor(sheet, key, () => (
    placeSwitches(sheet, scale, box, areas, { names, placed: [...names], keep })));
}

/**
 * Returns the shapes that maps of a sheet use, stored once in the page.
 * @param {Sheet} sheet
 */
export function shapesSvg(sheet) {
  const shapes = sheet.countyPaths.map((path, at) => html`
    <path id="${sheet.id}${at}" d="${path}"/>`);
  const lines = sheet.linePaths.map((path, at) => html`
    <path id="${sheet.id}l${at}" d="${path}"/>`);
  return html`
    <svg class="shapes" width="0" height="0" aria-hidden="true"><defs>${shapes}${lines}</defs>
    </svg>`;
}

/**
 * Returns what is derived of a drawing.
 * @param {Geography} geography
 * @param {Drawing} drawing
 * @returns {Canvas}
 */
function canvasOf(geography, drawing) {
  const sheet = /** @type {Sheet} */ (geography.sheet);
  const box = drawing.box ?? [0, 0, sheet.width, sheet.height];
  const scale = drawing.width / box[2];
  const groupAt = new Int16Array(geography.counties.length).fill(-1);
  drawing.groups.forEach((group, at) => group.counties.forEach((county) => {
    groupAt[county] = at;
  }));
  const areaAt = new Int16Array(geography.counties.length).fill(-1);
  (drawing.areas ?? []).forEach((area, at) => area.counties.forEach((county) => {
    areaAt[county] = at;
  }));
  drawn += 1;
  const id = drawing.id ?? `${typeof document === "undefined" ? "s" : "m"}${drawn}`;
  const only = drawing.only ? new Set(drawing.only) : null;
  const px = (/** @type {number} */ pixels) => (pixels / scale).toFixed(2);
  return { geography, sheet, drawing, box, scale, id, groupAt, areaAt, only, px };
}

/**
 * Returns the patterns of areas of choice and of counties taken out.
 * @param {Canvas} canvas
 */
function patterns({ id, px }) {
  const units = html`patternUnits="userSpaceOnUse"`;
  return html`
    <defs><pattern id="${id}h" width="${px(7)}" height="${px(7)}" ${units}
    patternTransform="rotate(45)"><rect width="${px(2.6)}" height="${px(7)}" fill="var(--hatch)"
    fill-opacity=".72"/></pattern><pattern id="${id}d" width="${px(6)}" height="${px(6)}"
    ${units}><rect width="${px(6)}" height="${px(6)}" fill="var(--land)"/><circle cx="${px(2)}"
    cy="${px(2)}" r="${px(1.2)}" fill="var(--soft)"/></pattern></defs>`;
}

/**
 * Returns whether a county lies in or near the box of a drawing.
 * @param {Canvas} canvas
 * @param {number} county
 */
function isNear({ sheet, box }, county) {
  const [left, top, wide, high] = sheet.boxes[county];
  return left + wide > box[0] - 4 && left < box[0] + box[2] + 4
    && top + high > box[1] - 4 && top < box[1] + box[3] + 4;
}

/**
 * Returns the classes of a county's shape.
 * @param {Canvas} canvas
 * @param {number} county
 */
function countyClass({ drawing, groupAt, only }, county) {
  if (drawing.taken?.has(county)) return "county taken";
  const group = drawing.groups[groupAt[county]];
  if (!group || (only && !only.has(county))) return "county plain";
  const isNew = drawing.isNew?.(group) ? " new" : "";
  return `county tint${group.tint}${isNew}${drawing.moved?.has(county) ? " moved" : ""}`;
}

/**
 * Returns the counties, filled, with the hatch of areas and flashes on top.
 * @param {Canvas} canvas
 */
function countyShapes(canvas) {
  const { geography, sheet, drawing, groupAt, areaAt, id } = canvas;
  const use = (/** @type {number} */ county, /** @type {Html} */ more) => (
    html`<use ${more} href="#${sheet.id}${county}"/>`);
  const places = geography.counties.map((_, place) => place);
  const shown = drawing.isMini ? places.filter((place) => isNear(canvas, place)) : places;
  const fills = shown.map((county) => {
    const dots = drawing.taken?.has(county) ? html` style="fill:url(#${id}d)"` : "";
    const told = drawing.isMini ? ""
      : html` data-county="${county}" data-group="${groupAt[county]}"`;
    return use(county, html`class="${countyClass(canvas, county)}"${dots}${told}`);
  });
  const hatched = drawing.isMini ? [] : places.filter((county) => areaAt[county] >= 0);
  const flashing = [...(drawing.flash ?? [])].map((one) => use(one, NOTHING));
  return [
    html`<g>${fills}</g>`,
    html`
      <g class="hatch" fill="url(#${id}h)">${hatched.map((one) => use(one, NOTHING))}</g>`,
    flashing.length ? html`<g data-key="flash ${drawn}" class="flash">${flashing}</g>` : NOTHING,
  ];
}

/**
 * Returns the lines of counties, groups, areas and the coast.
 * @param {Canvas} canvas
 */
function borderLines(canvas) {
  const { sheet, drawing, px } = canvas;
  /** @type {Record<string, number[]>} */
  const lines = { county: [], group: [], coast: [], area: [], areaCoast: [] };
  sheet.owners.forEach((own, line) => {
    if (drawing.isMini && !own.some((county) => isNear(canvas, county))) return;
    for (const kind of lineKinds(canvas, own)) lines[kind].push(line);
  });
  /** @type {(kind: string, width: number, some: number[]) => Html} */
  const drawnLines = (kind, width, some) => {
    if (!some.length) return NOTHING;
    const uses = some.map((line) => html`<use href="#${sheet.id}l${line}"/>`);
    return html`<g class="line ${kind}" style="stroke-width:${px(width)}">${uses}</g>`;
  };
  const [casing, width] = drawing.isMini ? [3.2, 1.1] : [4.4, 1.25];
  return [
    drawnLines("county-line", 0.7, lines.county), drawnLines("coast", 0.9, lines.coast),
    drawnLines("casing", casing, lines.group), drawnLines("group-line", width, lines.group),
    drawnLines("area-line", 1.2, lines.areaCoast),
    drawnLines("casing", 5.6, lines.area), drawnLines("area-line", 2, lines.area),
  ];
}

/**
 * Returns of which kinds a line is, by the counties on its sides.
 * @param {Canvas} canvas
 * @param {number[]} own
 */
function lineKinds({ drawing, groupAt, areaAt, only }, own) {
  const [one, other] = own;
  if (other === undefined) {
    return drawing.isMini || areaAt[one] < 0 ? ["coast"] : ["coast", "areaCoast"];
  }
  if (only && !(only.has(one) && only.has(other))) {
    return only.has(one) || only.has(other) ? ["group"] : ["county"];
  }
  const isSplit = groupAt[one] !== groupAt[other] || groupAt[one] < 0;
  const isArea = !only && areaAt[one] !== areaAt[other];
  return [isSplit ? "group" : "county", ...(isArea ? ["area"] : [])];
}

/**
 * Returns dashed lines between parts of a group that meet over water.
 * @param {Canvas} canvas
 */
function waterTies({ sheet, drawing, only, px }) {
  /** @type {Html[]} */
  const lines = [];
  for (const group of drawing.groups) {
    if (only && !group.counties.some((county) => only.has(county))) continue;
    const part = partsOf(sheet, group.counties);
    for (const { pair: [one, other], from, to, isPoint } of sheet.ties) {
      const [first, second] = [part.get(one), part.get(other)];
      if (first === undefined || second === undefined || first === second) continue;
      part.forEach((value, county) => value === second && part.set(county, first));
      if (isPoint) continue;
      const dash = `stroke-width:${px(1.3)};stroke-dasharray:${px(2)} ${px(2.6)}`;
      lines.push(html`
        <path class="line tie" style="${dash}" d="M${from.join(" ")}L${to.join(" ")}"/>`);
    }
  }
  return lines;
}

/**
 * Returns for each county of a group the number of its part: counties that lines in common join.
 * @param {Sheet} sheet
 * @param {number[]} counties
 */
function partsOf(sheet, counties) {
  const part = new Map(counties.map((county) => [county, county]));
  for (const [one, other] of sheet.owners.filter((own) => own.length === 2)) {
    const [first, second] = [part.get(one), part.get(other)];
    if (first === undefined || second === undefined || first === second) continue;
    part.forEach((value, county) => value === second && part.set(county, first));
  }
  return part;
}

/**
 * Returns the name of a county, with its line and point if it stands beside the land.
 * @param {Canvas} canvas
 * @param {Name} name
 */
function countyNameText({ scale, px }, name) {
  const [x, high] = [short(name.x), 11.4 / scale];
  const top = name.y - ((name.lines.length - 1) * high) / 2 + name.size * 0.35;
  const squeezed = name.condensed < 1
    ? html` textLength="${short(name.w)}" lengthAdjust="spacingAndGlyphs"` : "";
  const lines = name.lines.length === 1 ? name.lines[0]
    : name.lines.map((line, at) => (
      html`<tspan x="${x}"${at ? html` dy="${short(high)}"` : ""}>${line}</tspan>`));
  const style = `font-size:${name.size.toFixed(2)}px;stroke-width:${px(2.2)}`;
  const text = html`
    <text class="name" style="${style}"${squeezed} x="${x}" y="${short(top)}">${lines}</text>`;
  if (!name.leader) return [text];
  const [fromX, fromY, toX, toY] = name.leader.map(short);
  const line = html`
    <path class="leader" style="stroke-width:${px(0.8)}" d="M${fromX} ${fromY}L${toX} ${toY}"/>`;
  return [
    line, html`<circle cx="${fromX}" cy="${fromY}" r="${px(1.5)}" fill="var(--soft)"/>`, text,
  ];
}

/**
 * Returns the seats of groups, with names of groups and of further counties where counties have
 * none.
 * @param {Canvas} canvas
 * @param {Name[]} names
 * @param {Place[]} placed
 */
function badgeParts(canvas, names, placed) {
  const { geography, sheet, drawing, box, scale, only } = canvas;
  const isNamed = drawing.labels === "group";
  const given = { names, placed, isNamed, only };
  const badges = placeBadges(geography, sheet, scale, box, drawing.groups, given);
  const parts = badges.flatMap((badge) => [
    badge.name ? groupNameText(canvas, badge) : "", pillPart(canvas, badge)]);
  if (!isNamed || drawing.isMini || drawing.width < 700) return parts;
  const used = new Set(badges.map((badge) => badge.name));
  const more = geography.counties.map((county, place) => (
    used.has(county.name) ? "" : smallName(canvas, place, placed)));
  return [...parts, ...more];
}

/**
 * Returns the name of a group above its seats.
 * @param {Canvas} canvas
 * @param {import('./badges.mjs').Badge} badge
 */
function groupNameText({ px }, badge) {
  // (so that a name keeps to its place where the browser has a wider typeface)
  const width = html`textLength="${short(badge.nameWide)}" lengthAdjust="spacingAndGlyphs"`;
  const style = `font-size:${px(10.5)}px;stroke-width:${px(2.6)};stroke-opacity:.8`;
  return html`
    <text data-key="name ${badge.name}" class="name of-group" style="${style}" ${width}
    x="${short(badge.x)}" y="${short(badge.nameY)}">${badge.name}</text>`;
}

/**
 * Returns the seats of a group in a pill, which can be reached by the keyboard.
 * @param {Canvas} canvas
 * @param {import('./badges.mjs').Badge} badge
 */
function pillPart({ geography, drawing, scale, px }, { group: at, x, y, wide, high }) {
  const group = drawing.groups[at];
  const isChoice = group.area >= 0 && !drawing.isMini;
  const seats = `${group.seats} ${nounFor(group.seats, "seat")}`;
  const label = `${groupName(geography, group)}: ${seats}`
    + (isChoice ? ", there is a choice" : "");
  const told = drawing.isMini ? ""
    : html` data-key="seats ${group.counties[0]}" data-group="${at}" role="button" tabindex="-1"
      aria-label="${label}"`;
  return html`
    <g class="badge${isChoice ? " choice" : ""}"${told}><rect x="${short(x - wide / 2)}"
    y="${short(y - high / 2)}" width="${short(wide)}" height="${short(high)}"
    rx="${short(high / 2)}" style="stroke-width:${px(1)}"/><text x="${short(x)}"
    y="${short(y + 4.3 / scale)}" style="font-size:${px(12)}px">${group.seats}</text></g>`;
}

/**
 * Returns the small name of a county where it has room, or nothing.
 * @param {Canvas} canvas
 * @param {number} county
 * @param {Place[]} placed  grows by the name
 */
function smallName(canvas, county, placed) {
  const { geography, sheet, box, scale, px } = canvas;
  const name = countyName(geography, county);
  const [left, top, wide, high] = sheet.boxes[county];
  const around = { x: left + wide / 2, y: top + high / 2, w: wide, h: high };
  const near = placed.filter((one) => overlaps(one, around, 60 / scale));
  const key = `small ${scale} ${box} ${county} ${near.map(({ x, y, w, h }) => [x, y, w, h])}`;
  const best = placesFor(sheet, key, () => placeOfSmallName(canvas, county, near));
  if (!best) return NOTHING;
  placed.push(best);
  return html`
    <text data-key="name ${name}" class="name small"
    style="font-size:${px(10.2)}px;stroke-width:${px(2)}" x="${short(best.x)}"
    y="${short(best.y + 3.5 / scale)}">${name}</text>`;
}

/**
 * Returns the place for the small name of a county, or null.
 * @param {Canvas} canvas
 * @param {number} county
 * @param {Place[]} placed  what stands near it already
 */
function placeOfSmallName({ geography, sheet, box, scale }, county, placed) {
  const [w, h] = [textWidth(countyName(geography, county), 10.2) / scale, 9.5 / scale];
  const [middleX, middleY] = sheet.raster.centers[county];
  /** @type {Place | null} */
  let best = null;
  let least = Infinity;
  for (const cell of sheet.raster.cells[county]) {
    const [x, y] = cellPoint(sheet.raster, cell);
    const away = Math.hypot(x - middleX, y - middleY);
    const place = { x, y, w, h };
    if (away >= least || !isInBox(place, box, 0)) continue;
    if (placed.some((one) => overlaps(one, place, 1.5 / scale))) continue;
    const wider = { x, y, w: w + 2 / scale, h: h + 2 / scale };
    const isOwn = (/** @type {number} */ one) => one >= 0 && sheet.raster.county[one] === county;
    if (shareOf(sheet, wider, isOwn) >= 0.97) [least, best] = [away, place];
  }
  return /** @type {Place | null} */ (best);
}

/**
 * Returns the switch of an area of choice.
 * @param {Canvas} canvas
 * @param {import('./area_switches.mjs').AreaSwitch} one
 */
function switchPart({ drawing, scale, px }, one) {
  const areas = drawing.areas ?? [];
  const area = areas[one.area];
  const [left, top] = [one.x - one.w / 2, one.y - one.h / 2];
  const textY = short(one.y + 4.4 / scale);
  const stroke = html`style="stroke-width:${px(1.4)}"`;
  const size = html`style="font-size:${px(12.5)}px" text-anchor="middle"`;
  const leader = one.leader?.map((point) => point.map(short).join(" "));
  const line = leader ? html`
    <path class="line switch-line" style="stroke-width:${px(1.2)}"
    d="M${leader.join("L")}"/>` : "";
  const letters = Array.from({ length: area.choices }, (_, choice) => {
    const x = left + one.nameWidth + one.letterWidth * choice;
    const isOn = choice === area.choice;
    return html`
      <g class="letter${isOn ? " on" : ""}" role="button" tabindex="-1" data-area="${one.area}"
      data-choice="${choice}" aria-pressed="${isOn}" aria-label="${choiceWords(area, choice)}">
      <rect x="${short(x)}" y="${short(top)}"
      width="${short(one.letterWidth)}" height="${short(one.h)}"
      rx="${px(choice === area.choices - 1 ? 4 : 0)}" ${stroke}/><text
      x="${short(x + one.letterWidth / 2)}" y="${textY}" ${size}>${choice + 1}</text></g>`;
  });
  const shown = html`
    <g class="switch"><rect x="${short(left)}" y="${short(top)}" width="${short(one.w)}"
    height="${short(one.h)}" rx="${px(4)}" ${stroke}/><text
    x="${short(left + one.nameWidth / 2)}" y="${textY}" ${size}>${area.name}</text>${letters}
    </g>`;
  return [line, shown];
}
