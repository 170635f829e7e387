/* way.js: pictures of how a position is decoded, over land and a grid of degrees. The library computes all points and
 * zones. Points of the same code beside a position are decoded near references one zone away. */
"use strict";

/** @typedef {{lon: number, lat: number, shape: "place" | "other" | "given", text: string}} Mark */

const VIEW_WIDE = 400, VIEW_HIGH = 250, SVG = "http://www.w3.org/2000/svg";

/** The size of texts in a picture; style.css has it too. A letter is at most this part of it wide. */
const PICTURE_TEXT = 12, LETTER_WIDE = 0.64;

/** How far a mark goes from its middle. */
const MARK_REACH = 7;

/** Returns an SVG element. */
function drawn(name, attributes, ...children) {
  const made = document.createElementNS(SVG, name);
  for (const [key, value] of Object.entries(attributes)) made.setAttribute(key, String(value));
  made.append(...children);
  return made;
}

/** Returns a fraction in lowest terms. */
function reduced({ num, den }) {
  let [a, b] = [num < 0n ? -num : num, den];
  while (b) [a, b] = [b, a % b];
  return a ? { num: num / a, den: den / a } : { num: 0n, den: 1n };
}

const sum = (a, b) => reduced({ num: a.num * b.den + b.num * a.den, den: a.den * b.den });

/** Returns the result of a call, or null for an error of the library. */
function orNull(call) {
  try {
    return call();
  } catch (error) {
    if (!error.code) throw error;
    return null;
  }
}

/** Returns the position with the same code so many zones north and east of another, or null if there is none. The
 * reference is about so many zones away, and the result is exact. */
function zoneAway(library, frame, place, north, east) {
  const { degrees, latZones } = library.localZones(frame, place);
  const lat = sum(place.lat, { num: BigInt(north) * BigInt(degrees), den: BigInt(latZones) });
  const inRow = orNull(() => library.localZones(frame, { lat, lon: place.lon }));
  if (!inRow) return null;
  const share = { num: BigInt(east) * BigInt(degrees), den: BigInt(inRow.lonZones) };
  const lon = aroundTheCircle(sum(place.lon, share));
  return orNull(() => library.local(frame, { lat, lon: reduced(lon) }));
}

/** Returns the height and the width of the zone of a position. */
function zoneOf(library, frame, place) {
  const { degrees, latZones, lonZones } = library.localZones(frame, place), share = (count) =>
    reduced({ num: BigInt(degrees), den: BigInt(count) });
  return { height: share(latZones), width: share(lonZones) };
}

/** Returns the rows about the zones of a position: their indices, their sizes and the steps of their grid. */
function zoneRows(library, frame, place) {
  const { latZone, latZones, zoneCount, lonZone, lonZones } = library.localZones(frame, place);
  const { height, width } = zoneOf(library, frame, place), narrow = Math.cos(place.lat.toNumber() * RADIAN);
  const sizes = (name, angle, factor) => {
    const step = { num: angle.num, den: angle.den * 131072n };
    return [[name, `${library.angleText(angle)} degrees, ${fractionText(angle)}`],
      [`${name}, a step of 131072`, `${billionths(step)} degrees, ${aboutMetres(step, factor)}`]];
  };
  return [["latitude zones", String(latZones)], ["latitude zone (j)", String(latZone)],
    ...sizes("zone height", height, 1),
    ["longitude zones (NL) of the even format", String(zoneCount)],
    ["longitude zones of this format", String(lonZones)],
    ["longitude zone (m)", String(lonZone)], ...sizes("zone width", width, narrow)];
}

/** Returns the positions with a frame's code in the zones around a position. @returns {Mark[]} */
function zoneMarks(library, frame, place, shape, text) {
  const around = [-1, 0, 1].flatMap((north) => [-1, 0, 1].map((east) => [north, east]));
  return around.flatMap(([north, east]) => {
    const found = north || east ? zoneAway(library, frame, place, north, east) : place;
    const spot = found && { lon: found.lon.toNumber(), lat: found.lat.toNumber() };
    return spot ? [{ ...spot, shape, text: north || east ? "" : text }] : [];
  });
}

/** Returns a mark in its shape: a full circle, an empty square or a cross. */
function markShape(shape, x, y) {
  const shapes = {
    place: () => drawn("circle", { cx: x, cy: y, r: 5, class: "way-place" }),
    other: () => drawn("rect", { x: x - 4, y: y - 4, width: 8, height: 8, class: "way-other" }),
    given: () => drawn("path", { d: `M${x - 7} ${y}h14M${x} ${y - 7}v14`, class: "way-given" }),
  };
  return shapes[shape]();
}

/** Returns the labels of a picture: those of marks first, then those of the grid. None overlaps another.
 * @param {{x: number, y: number, text: string, reach?: number}[]} marks
 * @param {{x: number, y: number, text: string}[]} grid with their left and bottom */
function pictureLabels(marks, grid, wide, high) {
  const places = new LabelPlaces(wide, high), parts = [], width = (text) => text.length * PICTURE_TEXT * LETTER_WIDE;
  const put = (box, text, kind) => parts.push(
    drawn("text", { x: box.x, y: box.y + PICTURE_TEXT - 2, ...(kind ? { class: kind } : {}) }, text));
  for (const { x, y, reach = MARK_REACH } of marks) {
    places.block({ x: x - reach, y: y - reach, wide: 2 * reach, high: 2 * reach });
  }
  for (const { x, y, text } of marks) {
    const box = text && places.beside(x, y, width(text), PICTURE_TEXT);
    if (box) put(box, text, "");
  }
  for (const { x, y, text } of grid) {
    const box = { x, y: y - PICTURE_TEXT, wide: width(text), high: PICTURE_TEXT };
    if (places.take(box)) put(box, text, "way-label");
  }
  return parts;
}

/** Returns the lines of a picture's grid, and their labels. */
function pictureGrid(x, y, { middle, wide, high }) {
  const parts = [], labels = [];
  const lonStep = stepOf((degrees) => x(degrees) - x(0) > 60), latStep = stepOf((degrees) => y(0) - y(degrees) > 45);
  for (const lon of multiples(lonStep, middle.lon - wide, middle.lon + wide)) {
    const at = x(lon - middle.lon), turned = lon > 180 ? lon - 360 : lon < -180 ? lon + 360 : lon;
    parts.push(drawn("path", { d: `M${at} 0V${VIEW_HIGH}`, class: "way-line" }));
    labels.push({ x: at + 3, y: VIEW_HIGH - 3, text: degreesLabel(turned, lonStep, "W", "E") });
  }
  for (const lat of multiples(latStep, Math.max(-90, middle.lat - high), Math.min(90, middle.lat + high))) {
    parts.push(drawn("path", { d: `M0 ${y(lat)}H${VIEW_WIDE}`, class: "way-line" }));
    labels.push({ x: 3, y: y(lat) - 2, text: degreesLabel(lat, latStep, "S", "N") });
  }
  return { parts, labels };
}

/**
 * Returns a picture of marks over land and a grid.
 * @param {string} title
 * @param {Mark[]} marks
 * @param {{middle: {lon: number, lat: number}, wide: number, high: number}} view  degrees to each side of the middle
 * @param {{lon: number, lat: number, wide: number, high: number} | null} box  with degrees to each side of its middle
 */
function wayPicture(title, marks, { middle, wide, high }, box = null) {
  const near = (lon) => ((((lon - middle.lon) % 360) + 540) % 360) - 180;
  const x = (lon) => VIEW_WIDE / 2 * (1 + lon / wide), y = (lat) => VIEW_HIGH / 2 * (1 - (lat - middle.lat) / high);
  const scale = { x: x(-middle.lon), y: y(0), right: VIEW_WIDE / 2 / wide, up: VIEW_HIGH / 2 / high };
  const parts = landPicture(scale, { left: middle.lon - wide, right: middle.lon + wide, low: middle.lat - high,
    high: middle.lat + high });
  const grid = pictureGrid(x, y, { middle, wide, high });
  parts.push(...grid.parts);
  if (box) {
    const left = x(near(box.lon) - box.wide), top = y(box.lat + box.high), right = x(near(box.lon) + box.wide);
    const size = { width: right - left, height: y(box.lat - box.high) - top };
    parts.push(drawn("rect", { x: left, y: top, ...size, class: "way-box" }));
  }
  const spots = marks.map(({ lon, lat, shape, text }) => ({ x: x(near(lon)), y: y(lat), shape, text }));
  parts.push(...spots.map((spot) => markShape(spot.shape, spot.x, spot.y)));
  parts.push(...pictureLabels(spots, grid.labels, VIEW_WIDE, VIEW_HIGH));
  const picture = drawn("svg", { viewBox: `0 0 ${VIEW_WIDE} ${VIEW_HIGH}`, role: "img", class: "way" },
    drawn("title", {}, title), ...parts);
  return element("figure", {}, picture, element("figcaption", { class: "small" }, title));
}

/** Returns a picture of one frame and a reference: the points with the code in nine zones, and the box of half a zone
 * around the reference. */
function localPicture(library, frame, place, reference) {
  const { height, width } = zoneOf(library, frame, place), number = ({ num, den }) => Number(num) / Number(den);
  const high = number(height) / 2, wide = number(width) / 2;
  const middle = { lon: number(reference.lon), lat: number(reference.lat) };
  const marks = zoneMarks(library, frame, place, "other", "");
  marks.push({ lon: place.lon.toNumber(), lat: place.lat.toNumber(), shape: "place", text: "position" },
    { ...middle, shape: "given", text: "" });
  const title = "Squares: the points that have this code. Cross: the reference, with the box of half a zone around " +
    "it. Circle: the one point in the box, which is the position.";
  return wayPicture(title, marks, { middle, wide: wide * 3.2, high: high * 3.2 }, { ...middle, wide, high });
}

/** Returns a picture of a pair in the air: the points with both codes, which meet only at the position. */
function pairPicture(library, older, newer, place) {
  const other = orNull(() => library.pair(newer, older)), { height, width } = zoneOf(library, newer, place);
  if (!other) return [];
  const number = ({ num, den }) => Number(num) / Number(den);
  const middle = { lon: place.lon.toNumber(), lat: place.lat.toNumber() };
  const marks = [...zoneMarks(library, older, other, "given", ""), ...zoneMarks(library, newer, place, "other", ""),
    { ...middle, shape: "place", text: "position" }];
  const view = { middle, wide: Math.min(180, number(width) * 1.5), high: number(height) * 1.5 };
  return [wayPicture("Crosses: the points that have the code of the older frame, a zone apart. Squares: those of the " +
    "newer frame. They meet only at the position (circle).", marks, view)];
}

/** Returns a picture of a pair on the ground: its positions for receivers in each quarter of the circle, north and
 * south of the equator. */
function groundPicture(library, older, newer, site, place) {
  const quarter = [0n, 90n, 180n, 270n], marks = [], number = ({ num, den }) => Number(num) / Number(den);
  for (const turn of quarter) {
    const lon = reduced(aroundTheCircle(sum(site.lon, { num: turn, den: 1n })));
    const found = orNull(() => library.pair(older, newer, { lat: site.lat, lon }));
    const south = orNull(() => library.pair(older, newer, { lat: { num: -site.lat.num, den: site.lat.den }, lon }));
    for (const one of [found, south]) {
      if (one) marks.push({ lon: one.lon.toNumber(), lat: one.lat.toNumber(), shape: "other", text: "" });
    }
  }
  const here = { lon: number(site.lon), lat: number(site.lat) };
  marks.push({ lon: place.lon.toNumber(), lat: place.lat.toNumber(), shape: "place", text: "position" },
    { ...here, shape: "given", text: "" });
  return wayPicture("Squares: the points that the pair fits. Cross: the receiver, with the quarter of the circle " +
    "around it. Circle: the one point in it, which is the position.", marks,
    { middle: { lon: 0, lat: 0 }, wide: 180, high: 90 }, { lon: here.lon, lat: here.lat, wide: 45, high: 45 });
}
