/* projection.js: how degrees become points of a plane: as they are, in the Mercator projection, or around a pole, each
 * position as far from it as on the Earth (azimuthal and equidistant). A step of the plane is a degree, in Mercator a
 * degree of longitude. */
"use strict";

/** @typedef {{lon: number, lat: number}} Degree */
/** @typedef {{x: number, y: number}} Point  of the plane: x to the right and y up */
/** @typedef {{left: number, right: number, low: number, high: number}} Box  of the plane */
/** @typedef {{x: number, y: number, text: string}} Label */
/** @typedef {{lines: Point[][], labels: Label[], step: number}} Graticule */

/** The steps of a graticule, in degrees. The first one with lines far enough apart is used. */
const STEPS = [0.001, 0.002, 0.005, 0.01, 0.02, 0.05, 0.1, 0.2, 0.5, 1, 2, 5, 10, 30, 45];

const RADIAN = Math.PI / 180, LINES_APART = 70;

const noBox = () => ({ left: Infinity, right: -Infinity, low: Infinity, high: -Infinity });

/** Returns the first step that is wide enough. */
const stepOf = (isWide) => STEPS.find(isWide) ?? 90;

/** Returns degrees as text, with the decimals of their step, and with a letter for the hemisphere. */
function degreesLabel(degrees, step, below, above) {
  const decimals = Math.max(0, Math.ceil(-Math.log10(step)));
  const side = degrees === 0 || Math.abs(degrees) === 180 ? "" : degrees < 0 ? below : above;
  return `${Math.abs(degrees).toFixed(decimals)}${side}`;
}

/** Returns the multiples of a step from one number to another. */
function multiples(step, from, to) {
  const first = Math.ceil(from / step - 1e-9), count = Math.max(0, Math.floor(to / step + 1e-9) - first + 1);
  return Array.from({ length: Math.min(count, 2000) }, (_, at) => (first + at) * step);
}

/** The latitude up to which Mercator maps go. */
const MERCATOR_MOST = 85;

/** A log has a Mercator map if all its latitudes are below this one. */
const MERCATOR_SUITS = 80;

/** Degrees as they are: longitudes to the right and latitudes up. */
class Plain {
  constructor() {
    this.title = "equal degrees";
    this.world = { left: -180, right: 180, low: -90, high: 90 };
    /** The farthest point to which the middle of a map can be moved. */
    this.reach = { x: 200, y: 95 };
    /** Whether a track goes on over 180 degrees. */
    this.isRound = false;
    /** The latitude at which the map ends. */
    this.most = 90;
  }

  shows(lat) {
    return Math.abs(lat) <= this.most;
  }

  x(lon) {
    return lon;
  }

  y(lon, lat) {
    return lat;
  }

  /** Returns the latitude at a height of the plane. */
  latitude(y) {
    return y;
  }

  /** Returns an upper bound of the distance in the plane between positions a degree apart, up to a latitude. */
  stretch(lat) {
    return 1;
  }

  /** Returns a box with all positions of a piece. @param {Piece} piece @returns {Box} */
  around({ west, east, south, north }) {
    return { left: west, right: east, low: this.y(west, south), high: this.y(west, north) };
  }

  /** @param {Point} point @returns {Degree} */
  degrees({ x, y }) {
    return { lon: x, lat: this.latitude(y) };
  }

  /** Returns the box of the positions of a track, or of all tracks. @param {Tracks} tracks @returns {Box} */
  box(tracks, address) {
    const { west, east, south, north } = tracks.bounds(address);
    return { left: west, right: east, low: this.y(west, south), high: this.y(west, north) };
  }

  /** @param {Box} view @returns {Graticule} */
  graticule(view, scale) {
    const step = stepOf((degrees) => degrees * scale > LINES_APART), space = 1 / scale;
    const left = Math.max(view.left, -180), right = Math.min(view.right, 180);
    const low = Math.max(view.low, this.world.low), high = Math.min(view.high, this.world.high);
    const lons = multiples(step, left, right), up = (lat) => this.y(0, lat);
    const lats = multiples(step, Math.max(-this.most, this.latitude(low)), Math.min(this.most, this.latitude(high)));
    const lines = [
      ...lons.map((lon) => [{ x: lon, y: low }, { x: lon, y: high }]),
      ...lats.map((lat) => [{ x: left, y: up(lat) }, { x: right, y: up(lat) }]),
    ];
    const bottom = view.low + 5 * space, side = view.left + 3 * space;
    const labels = [
      ...lons.map((lon) => ({ x: lon + 3 * space, y: bottom, text: degreesLabel(lon, step, "W", "E") })),
      ...lats.map((lat) => ({ x: side, y: up(lat) + 3 * space, text: degreesLabel(lat, step, "S", "N") })),
    ];
    return { lines, labels, step };
  }
}

/** The Mercator projection: angles are those on the Earth. */
class Mercator extends Plain {
  constructor() {
    super();
    this.title = "Mercator";
    this.most = MERCATOR_MOST;
    const high = this.y(0, MERCATOR_MOST);
    this.world = { left: -180, right: 180, low: -high, high };
    this.reach = { x: 200, y: high };
  }

  y(lon, lat) {
    const within = Math.min(Math.max(lat, -MERCATOR_MOST), MERCATOR_MOST);
    return Math.asinh(Math.tan(within * RADIAN)) / RADIAN;
  }

  latitude(y) {
    return Math.atan(Math.sinh(y * RADIAN)) / RADIAN;
  }

  stretch(lat) {
    return 1 / Math.cos(Math.min(lat, MERCATOR_MOST) * RADIAN);
  }
}

/** Around a pole, seen from above it: the longitude of 0 degrees goes down from the north pole, and up from the south
 * pole. The other half of the Earth is not shown. */
class Polar {
  /** @param {1 | -1} side 1 for the north pole */
  constructor(side) {
    this.side = side;
    this.title = side > 0 ? "around the north pole" : "around the south pole";
    this.world = { left: -90, right: 90, low: -90, high: 90 };
    this.reach = { x: 95, y: 95 };
    this.isRound = true;
  }

  shows(lat) {
    return lat * this.side >= 0;
  }

  x(lon, lat) {
    return (90 - this.side * lat) * Math.sin(lon * RADIAN);
  }

  y(lon, lat) {
    return -this.side * (90 - this.side * lat) * Math.cos(lon * RADIAN);
  }

  /** @param {Degree} place @returns {Point} */
  point({ lon, lat }) {
    return { x: this.x(lon, lat), y: this.y(lon, lat) };
  }

  /** @param {Point} point @returns {Degree} */
  degrees({ x, y }) {
    return { lon: Math.atan2(x, -this.side * y) / RADIAN, lat: this.side * (90 - Math.hypot(x, y)) };
  }

  /** @param {Tracks} tracks @returns {Box} */
  box(tracks, address) {
    const box = noBox();
    for (const { lons, lats } of tracks.pieces(address)) {
      lats.forEach((lat, at) => {
        if (!this.shows(lat)) return;
        const x = this.x(lons[at], lat), y = this.y(lons[at], lat);
        box.left = Math.min(box.left, x);
        box.right = Math.max(box.right, x);
        box.low = Math.min(box.low, y);
        box.high = Math.max(box.high, y);
      });
    }
    return box;
  }

  stretch() {
    return Math.PI / 2;
  }

  around() {
    return this.world;
  }

  /** Returns what is seen around the pole: the nearest and the farthest step from it, the longitude of the middle,
   * and how far to both sides of it longitudes are seen. @param {Box} view */
  seen({ left, right, low, high }) {
    const isIn = left <= 0 && right >= 0 && low <= 0 && high >= 0;
    const corners = [[left, low], [left, high], [right, low], [right, high]].map(([x, y]) => ({ x, y }));
    const far = Math.min(90, Math.max(...corners.map(({ x, y }) => Math.hypot(x, y))));
    const near = isIn ? 0 : Math.hypot(Math.max(left, -right, 0), Math.max(low, -high, 0));
    const middle = this.degrees({ x: (left + right) / 2, y: (low + high) / 2 });
    const away = ({ lon }) => Math.abs(((lon - middle.lon + 540) % 360) - 180);
    const wide = isIn ? 180 : Math.max(...corners.map((corner) => away(this.degrees(corner))));
    return { near, far, middle, wide, isIn };
  }

  /** @param {Box} view @returns {Graticule} */
  graticule(view, scale) {
    const { near, far, middle, wide, isIn } = this.seen(view), { side } = this;
    const step = stepOf((degrees) => degrees * scale > LINES_APART);
    const from = isIn ? Math.min(view.right - view.left, view.high - view.low) / 2.4 : 90 - side * middle.lat;
    const apart = (degrees) => degrees * RADIAN * Math.min(from, 90) * scale;
    const lonStep = stepOf((degrees) => apart(degrees) > LINES_APART);
    const first = isIn ? -180 + lonStep / 2 : middle.lon - wide, last = isIn ? 180 : middle.lon + wide;
    const lons = multiples(lonStep, first, last), rounds = multiples(step, near, far);
    const along = (round) => Array.from({ length: 129 }, (_, at) => this.point({
      lon: middle.lon + wide * (at / 64 - 1), lat: side * (90 - round),
    }));
    const spoke = (lon) => [near, far].map((round) => this.point({ lon, lat: side * (90 - round) }));
    const name = (lon) => degreesLabel(lon > 180 ? lon - 360 : lon < -180 ? lon + 360 : lon, lonStep, "W", "E");
    const labelAt = (lon, lat, text) => ({ ...this.point({ lon, lat }), text });
    const labels = [
      ...lons.map((lon) => labelAt(lon, side * (90 - Math.min(from, 88)), name(lon))),
      ...rounds.map((round) => labelAt(isIn ? lonStep / 2 : middle.lon, side * (90 - round),
        degreesLabel(side * (90 - round), step, "S", "N"))),
    ];
    return { lines: [...lons.map(spoke), ...rounds.filter(Boolean).map(along)], labels, step };
  }
}

const PROJECTIONS = { plain: new Plain(), mercator: new Mercator(), north: new Polar(1), south: new Polar(-1) };

/** Returns a projection for latitudes: around a pole if all are above 70 degrees, Mercator if none is near a pole. */
function suitingProjection({ south, north }) {
  if (south > north) return PROJECTIONS.plain;
  if (south > 70) return PROJECTIONS.north;
  if (north < -70) return PROJECTIONS.south;
  return Math.max(-south, north) < MERCATOR_SUITS ? PROJECTIONS.mercator : PROJECTIONS.plain;
}
