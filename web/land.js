/* land.js: the land below the maps, in two levels of detail: on a canvas, or as the path of an SVG picture. */
"use strict";

/** @typedef {{lons: Float64Array, lats: Float64Array}} Ring  an outline in degrees; its end meets its start */
/** @typedef {{xs: Float64Array, ys: Float64Array, isCoast: boolean[], box: Box}} LandShape
 * A ring in the plane of a projection, and for each of its points whether a coast leads to the next one. */
/** @typedef {{moveTo(x: number, y: number): void, lineTo(x: number, y: number): void, closePath(): void}} Pen */
/** @typedef {{x: number, y: number, right: number, up: number}} Scale
 * The point at which the origin of the plane is drawn, and the pixels for a step to the right and a step up. */

/** Maps with at least so many pixels a degree show the detailed coast. */
const NEAR_FROM = 7;

/** Maps with at most so many pixels a degree show land, because the coast is wrong by up to 0.08 degree. */
const LAND_UP_TO = 2500;

/** Points of a coast that are closer together than this (CSS pixels) are left out. */
const COAST_STEP = 0.7;

const VLQ_DIGITS = "ABCDEFGHIJKLMNOPQRSTUVWXYZabcdefghijklmnopqrstuvwxyz0123456789+/";

/** Reads a text of rings, as web/coastlines/make writes it. @param {string} text @returns {Ring[]} */
function ringsOfText(text) {
  const rings = [], last = text.trimEnd().length;
  let from = 0;
  const next = () => {
    let number = 0, shift = 1, digit = 32;
    while (digit & 32) {
      digit = VLQ_DIGITS.indexOf(text[from++]);
      if (digit < 0) digit = 32; // a line feed
      else {
        number += (digit & 31) * shift;
        shift *= 32;
      }
    }
    return number % 2 ? -(number - 1) / 2 : number / 2;
  };
  while (from < last) {
    const count = next(), lons = new Float64Array(count), lats = new Float64Array(count);
    for (let at = 0, lon = 0, lat = 0; at < count; at++) {
      lons[at] = (lon += next()) / 100;
      lats[at] = (lat += next()) / 100;
    }
    rings.push({ lons, lats });
  }
  return rings;
}

/** Returns the part of a ring on one side of the equator. Along the equator it has a point at each degree, because a
 * line there is an arc around the pole.
 * @param {Ring} ring @param {number} side 1 for the north @returns {Ring | null} */
function hemisphere({ lons, lats }, side) {
  const count = lons.length, found = { lons: [], lats: [] };
  const put = (lon, lat) => {
    const end = found.lons.length - 1;
    if (end >= 0 && !lat && !found.lats[end]) {
      const from = found.lons[end], steps = Math.ceil(Math.abs(lon - from));
      for (let step = 1; step < steps; step++) {
        found.lons.push(from + (lon - from) * step / steps);
        found.lats.push(0);
      }
    }
    found.lons.push(lon);
    found.lats.push(lat);
  };
  for (let at = 0; at < count; at++) {
    const next = (at + 1) % count, isIn = lats[at] * side >= 0, isNextIn = lats[next] * side >= 0;
    if (isIn) put(lons[at], lats[at]);
    if (isIn !== isNextIn) put(lons[at] + (lons[next] - lons[at]) * lats[at] / (lats[at] - lats[next]), 0);
  }
  if (found.lons.length < 3) return null;
  put(found.lons[0], found.lats[0]);
  return { lons: Float64Array.from(found.lons), lats: Float64Array.from(found.lats) };
}

/** Projects a ring onto a plane. @param {Ring} ring @returns {LandShape} */
function landShape({ lons, lats }, projection) {
  const count = lons.length, xs = new Float64Array(count), ys = new Float64Array(count), box = noBox(), isCoast = [];
  for (let at = 0; at < count; at++) {
    const x = xs[at] = projection.x(lons[at], lats[at]), y = ys[at] = projection.y(lons[at], lats[at]);
    const next = (at + 1) % count, isEdge = Math.abs(lons[at]) === 180 && Math.abs(lons[next]) === 180;
    isCoast.push(!isEdge && !(lats[at] === 0 && lats[next] === 0));
    box.left = Math.min(box.left, x);
    box.right = Math.max(box.right, x);
    box.low = Math.min(box.low, y);
    box.high = Math.max(box.high, y);
  }
  return { xs, ys, isCoast, box };
}

/** The land in the planes of projections, each made once, when it is first wanted. */
class Land {
  constructor() {
    /** @type {Map<string, LandShape[]>} */
    this.made = new Map();
  }

  /** Returns the level of detail for so many pixels a degree, or "" if the coast is too coarse. */
  level(scale) {
    if (scale > LAND_UP_TO) return "";
    return scale < NEAR_FROM ? "wide" : "near";
  }

  /** @param {string} level @returns {LandShape[]} */
  shapes(level, projection) {
    const key = `${level} ${projection.title}`;
    let shapes = this.made.get(key);
    if (!shapes) {
      const rings = ringsOfText(level === "wide" ? SQUITTER_LAND_WIDE : SQUITTER_LAND_NEAR);
      const parts = projection.isRound ? rings.map((ring) => hemisphere(ring, projection.side)) : rings;
      shapes = parts.flatMap((ring) => (ring ? [landShape(ring, projection)] : []));
      this.made.set(key, shapes);
    }
    return shapes;
  }
}

const LAND = new Land();

/** Returns a bit for each side of a view that a point lies beyond. @param {Box} view */
function sidesOut(x, y, view) {
  return (x < view.left ? 1 : 0) | (x > view.right ? 2 : 0) | (y < view.low ? 4 : 0) | (y > view.high ? 8 : 0);
}

/** Draws the outline of a shape. Leaves out what is too small to be seen, and corners that lie beyond one side of the
 * view with both their neighbours: what is within the view stays the same.
 * @param {Pen} pen @param {LandShape} shape @param {Scale} scale @param {Box} view @param {boolean} isCoastOnly */
function traceShape(pen, { xs, ys, isCoast }, scale, view, isCoastOnly) {
  const last = xs.length - 1;
  let out = sidesOut(xs[0], ys[0], view), x0 = scale.x + xs[0] * scale.right, y0 = scale.y - ys[0] * scale.up;
  pen.moveTo(x0, y0);
  for (let at = 1; at <= last; at++) {
    const x = scale.x + xs[at] * scale.right, y = scale.y - ys[at] * scale.up;
    const isLine = !isCoastOnly || isCoast[at - 1], isNext = !isCoastOnly || isCoast[at];
    const side = sidesOut(xs[at], ys[at], view);
    if (at < last && isLine && isNext) {
      if (out & side && out & side & sidesOut(xs[at + 1], ys[at + 1], view)) continue;
      if (Math.abs(x - x0) < COAST_STEP && Math.abs(y - y0) < COAST_STEP) continue;
    }
    if (isLine) pen.lineTo(x, y);
    else pen.moveTo(x, y);
    [out, x0, y0] = [side, x, y];
  }
  if (!isCoastOnly || isCoast[last]) pen.closePath();
}

/** Draws the land of a view: all of it to be filled, or its coasts to be stroked.
 * @param {Pen} pen @param {LandShape[]} shapes @param {Scale} scale @param {Box} view */
function traceLand(pen, shapes, scale, view, isCoastOnly = false) {
  for (const shape of shapes) {
    const { box } = shape, isOut = box.right < view.left || box.left > view.right || box.high < view.low ||
      box.low > view.high;
    const isSmall = (box.right - box.left) * scale.right < COAST_STEP && (box.high - box.low) * scale.up < COAST_STEP;
    if (!isOut && !isSmall) traceShape(pen, shape, scale, view, isCoastOnly);
  }
}

/** Collects what is drawn as the text of an SVG path. */
class PathText {
  constructor() {
    this.text = "";
  }

  moveTo(x, y) {
    this.text += `M${x.toFixed(1)} ${y.toFixed(1)}`;
  }

  lineTo(x, y) {
    this.text += `L${x.toFixed(1)} ${y.toFixed(1)}`;
  }

  closePath() {
    this.text += "Z";
  }
}

/** Returns sea and land of an SVG picture with equal degrees, or nothing where the coast is too coarse. Longitudes
 * beyond 180 degrees show what is on the other side. @param {Scale} scale @param {Box} view in degrees */
function landPicture(scale, view) {
  const level = LAND.level(Math.max(scale.right, scale.up)), fill = new PathText(), coast = new PathText();
  if (!level) return [];
  const x = scale.x + view.left * scale.right, y = scale.y - Math.min(view.high, 90) * scale.up;
  const width = (view.right - view.left) * scale.right;
  const height = (Math.min(view.high, 90) - Math.max(view.low, -90)) * scale.up;
  const shapes = LAND.shapes(level, PROJECTIONS.plain);
  for (const turn of [-360, 0, 360]) {
    const turned = { ...view, left: view.left - turn, right: view.right - turn };
    const turnedScale = { ...scale, x: scale.x + turn * scale.right };
    traceLand(fill, shapes, turnedScale, turned);
    traceLand(coast, shapes, turnedScale, turned, true);
  }
  return [drawn("rect", { x, y, width, height, class: "way-sea" }),
    drawn("path", { d: fill.text, class: "way-land" }), drawn("path", { d: coast.text, class: "way-coast" })];
}

/** Draws the sea and the land of a map's view, or nothing where the coast is too coarse.
 * @param {CanvasRenderingContext2D} pen @param {TrackMap} map @param {Box} view @param {string[]} colors of sea, land
 * and coast */
function drawLand(pen, map, view, [sea, land, coast]) {
  const { projection, scale } = map, level = LAND.level(scale);
  if (!level) return;
  const x = map.left(0), y = map.top(0), { left, right, low, high } = projection.world;
  pen.beginPath();
  if (projection.isRound) pen.arc(x, y, right * scale, 0, 7);
  else pen.rect(x + left * scale, y - high * scale, (right - left) * scale, (high - low) * scale);
  pen.fillStyle = sea;
  pen.fill();
  const shapes = LAND.shapes(level, projection), fill = new Path2D(), stroke = new Path2D();
  traceLand(fill, shapes, { x, y, right: scale, up: scale }, view);
  traceLand(stroke, shapes, { x, y, right: scale, up: scale }, view, true);
  pen.fillStyle = land;
  pen.fill(fill, "evenodd");
  pen.lineWidth = 1;
  pen.strokeStyle = coast;
  pen.stroke(stroke);
}
