/* sky.js: the aircraft of the live map, and how the map draws them: by altitude, with tails, and hollow where their
 * position is old or cannot be true. */
"use strict";

/** Milliseconds of a tail, after which a position is old, and after which an aircraft is gone. */
const TAIL = 180_000, OLD = 15_000, GONE = 60_000;

/** A piece of a track has at most so many milliseconds, so that its oldest part can be dropped. */
const PIECE_LONG = 30_000;

/** The altitudes (feet) from which each colour on holds. */
const FEET_STEPS = [-Infinity, 2000, 6000, 12_000, 20_000, 28_000, 34_000, 39_000];

/** Numbers for an altitude that is not one, in the column of lines of a track. */
const ON_GROUND = -9999, NO_FEET = -9998;

const NAUTICAL_MILE = 1 / 60, RINGS = [50, 100, 150, 200, 250];

/** Returns the name of the colour of an altitude. */
function feetName(feet) {
  if (feet <= NO_FEET) return "feet-none";
  return `feet${FEET_STEPS.reduce((step, from, at) => (feet >= from ? at : step), 0)}`;
}

/** An aircraft: what the last event told of it. */
class Plane {
  constructor(address) {
    this.address = address;
    this.lon = this.lat = this.moment = this.doubts = 0;
    this.feet = NO_FEET;
    this.extras = {};
    /** The direction of flight in degrees, by its message, or else from its last two positions. */
    this.heading = NaN;
    this.from = { lon: 0, lat: 0 };
  }

  get name() {
    return this.extras.flight ?? hexadecimal(this.address, 6);
  }

  get rate() {
    return this.extras.baro_rate ?? this.extras.geom_rate;
  }

  move(lon, lat, feet, moment, doubts) {
    const east = (lon - this.from.lon) * Math.cos(lat * RADIAN), north = lat - this.from.lat;
    if (!this.moment || doubts) this.from = { lon, lat };
    else if (Math.hypot(east, north) > 0.002) {
      this.heading = Math.atan2(east, north) / RADIAN;
      this.from = { lon, lat };
    }
    Object.assign(this, { lon, lat, feet, moment, doubts });
  }

  get direction() {
    return this.extras.track ?? this.heading;
  }
}

/** The tracks of the page, with positions that are forgotten. The doubts come with the positions. */
class LiveTracks extends Tracks {
  constructor() {
    super(GONE, /** @type {any} */ ({ doubts: () => this.told }));
    /** The doubts of the position that is added. */
    this.told = 0;
    /** @type {Map<number, Plane>} */
    this.planes = new Map();
  }

  /** Takes a position, as a trail or a row of an event has it. */
  take(address, [moment, lat, lon, feet, doubts]) {
    const plane = this.plane(address);
    if (moment <= plane.moment) return;
    const level = feet === "ground" ? ON_GROUND : feet ?? NO_FEET, piece = this.all.get(address)?.piece;
    plane.move(lon, lat, level, moment, doubts);
    if (piece && !piece.doubts && moment - piece.moments[0] > PIECE_LONG) this.all.get(address).piece = null;
    this.told = doubts;
    this.addPlace(address, lon, lat, moment, level, feet === "ground" ? Kind.GROUND : Kind.AIR);
  }

  plane(address) {
    if (!this.planes.has(address)) this.planes.set(address, new Plane(address));
    return this.planes.get(address);
  }

  forget(now) {
    for (const [address, track] of this.all) {
      while (track.pieces.length > 1 && track.pieces[1].moments[0] < now - TAIL) track.pieces.shift();
      if (now - track.moment > GONE) this.all.delete(address);
    }
    for (const [address, plane] of this.planes) if (now - plane.moment > GONE) this.planes.delete(address);
  }

  /** Returns the aircraft that have a position. */
  shown() {
    return [...this.planes.values()].filter(({ moment }) => moment > 0);
  }
}

/** Returns the point so many nautical miles away in a direction (degrees). */
function awayFrom({ lat, lon }, miles, direction) {
  const arc = miles * NAUTICAL_MILE * RADIAN, at = lat * RADIAN, by = direction * RADIAN;
  const to = Math.asin(Math.sin(at) * Math.cos(arc) + Math.cos(at) * Math.sin(arc) * Math.cos(by));
  const over = Math.atan2(Math.sin(by) * Math.sin(arc) * Math.cos(at), Math.cos(arc) - Math.sin(at) * Math.sin(to));
  return { lat: to / RADIAN, lon: lon + over / RADIAN };
}

/** Returns the nautical miles between two points. */
function milesBetween(a, b) {
  const up = Math.sin((b.lat - a.lat) * RADIAN / 2), over = Math.sin((b.lon - a.lon) * RADIAN / 2);
  const half = Math.sqrt(up * up + Math.cos(a.lat * RADIAN) * Math.cos(b.lat * RADIAN) * over * over);
  return 2 * Math.asin(half) / RADIAN / NAUTICAL_MILE;
}

/** One drawing of the live map. */
class LiveChart extends Chart {
  draw() {
    const { map, pen, ratio } = this, { labels, lines } = map.projection.graticule(this.view, map.scale);
    const colors = ["--sea", "--land", "--coast"].map(this.color);
    map.land.paint(pen, map, ratio, `${map.projection.title} ${colors}`,
      (below, view) => drawLand(below, map, view, colors));
    const legend = byId("legend");
    this.places.block({ x: 0, y: legend.offsetTop, wide: legend.offsetLeft + legend.offsetWidth, high: 80 });
    this.drawGrid(lines);
    const shown = map.tracks.shown();
    if (map.site) this.drawRings(map.site);
    this.drawTails(shown.filter((plane) => plane.address !== map.address), 1.5, 0.6);
    this.drawTails(shown.filter((plane) => plane.address === map.address), 4, 1);
    for (const plane of shown) this.drawPlane(plane);
    this.drawLabels(shown);
    this.drawGridLabels(labels);
  }

  drawRings(site) {
    const { map, pen } = this;
    pen.strokeStyle = pen.fillStyle = this.color("--ring");
    pen.font = LABEL_FONT;
    pen.lineWidth = 1;
    pen.setLineDash([2, 4]);
    for (const miles of RINGS) {
      pen.beginPath();
      for (let by = 0; by <= 360; by += 5) {
        const { x, y } = map.spot(awayFrom(site, miles, by));
        if (by) pen.lineTo(x, y);
        else pen.moveTo(x, y);
      }
      pen.stroke();
      const top = map.spot(awayFrom(site, miles, 0)), text = `${miles} NM`, wide = pen.measureText(text).width;
      const box = { x: top.x - wide / 2, y: top.y - LABEL_HIGH, wide, high: LABEL_HIGH };
      if (this.places.take(box)) pen.fillText(text, box.x, top.y - 2);
    }
    pen.setLineDash([]);
    const { x, y } = map.spot(site);
    pen.fillRect(x - 3, y - 3, 6, 6);
  }

  /** Draws the tails of some aircraft: a path for each colour. Positions that cannot be true are circles. */
  drawTails(planes, wide, alpha) {
    const { map, pen } = this, paths = new Map(), since = map.now - TAIL;
    const pathOf = (feet) => {
      const name = feetName(feet);
      if (!paths.has(name)) paths.set(name, new Path2D());
      return paths.get(name);
    };
    for (const { address } of planes) {
      let last = null;
      for (const piece of map.tracks.pieces(address)) {
        if (!map.tracks.all.has(address)) break;
        if (!piece.joined) last = null;
        last = this.tail(piece, heardBy(piece, since), last, pathOf);
      }
    }
    pen.lineCap = "round";
    pen.globalAlpha = alpha;
    pen.lineWidth = wide;
    for (const [name, path] of paths) {
      pen.strokeStyle = this.color(`--${name}`);
      pen.stroke(path);
    }
    pen.globalAlpha = 1;
  }

  /** Adds the part of a piece from an index on to the paths. Returns its last point. @param {Piece} piece */
  tail(piece, from, last, pathOf) {
    const { lons, lats, lines } = piece;
    for (let at = from; at < piece.count; at++) {
      const here = { ...this.map.spot({ lon: lons[at], lat: lats[at] }), lon: lons[at] }, path = pathOf(lines[at]);
      if (piece.doubts) {
        path.moveTo(here.x + 3, here.y);
        path.arc(here.x, here.y, 3, 0, 7);
      } else if (last && Math.abs(here.lon - last.lon) < 180) {
        path.moveTo(last.x, last.y);
        path.lineTo(here.x, here.y);
      }
      last = here;
    }
    return last;
  }

  /** Draws an aircraft: an arrow, on the ground a square, or a circle without a direction. @param {Plane} plane */
  drawPlane(plane) {
    const { map, pen } = this, { x, y } = map.spot(plane), { width, height } = map.measured;
    if (x < -20 || y < -20 || x > width + 20 || y > height + 20) return;
    const isChosen = plane.address === map.address, size = isChosen || plane.address === map.hovered ? 1.5 : 1;
    const color = this.color(`--${feetName(plane.feet)}`), isHollow = map.now - plane.moment > OLD || plane.doubts > 0;
    pen.save();
    pen.translate(x, y);
    pen.scale(size, size);
    pen.beginPath();
    if (plane.feet === ON_GROUND) pen.rect(-3.5, -3.5, 7, 7);
    else if (Number.isNaN(plane.direction)) pen.arc(0, 0, 4, 0, 7);
    else {
      pen.rotate(plane.direction * RADIAN);
      for (const [right, down] of [[0, -8], [5, 6], [0, 3], [-5, 6]]) pen.lineTo(right, down);
      pen.closePath();
    }
    pen.lineJoin = "round";
    pen.lineWidth = isChosen ? 4 : 3;
    pen.strokeStyle = this.color(isChosen ? "--ink" : "--ground");
    pen.stroke();
    pen.lineWidth = 1.5;
    pen.fillStyle = isHollow ? this.color("--ground") : color;
    pen.strokeStyle = color;
    pen.fill();
    if (isHollow) pen.stroke();
    pen.restore();
    this.places.block({ x: x - 6, y: y - 6, wide: 12, high: 12 });
  }

  /** Writes name and flight level where there is room: those of the selected aircraft first. @param {Plane[]} shown */
  drawLabels(shown) {
    const { map } = this, { width, height } = map.measured, { sprites } = map;
    const isFirst = ({ address }) => address === map.address || address === map.hovered;
    const seen = shown.map((plane) => ({ plane, ...map.spot(plane) }))
      .filter(({ x, y }) => x > 0 && y > 0 && x < width && y < height)
      .sort((a, b) => Number(isFirst(b.plane)) - Number(isFirst(a.plane)) || a.plane.address - b.plane.address);
    map.labels = [];
    for (const { plane, x, y } of seen.slice(0, MOST_LABELS)) {
      const font = isFirst(plane) ? SELECTED_FONT : LABEL_FONT, level = levelOf(plane), name = plane.name;
      const wide = Math.max(sprites.wide(name, font), sprites.wide(level, LABEL_FONT));
      const box = this.places.beside(x, y, wide, level ? 2 * LABEL_HIGH - 2 : LABEL_HIGH);
      if (!box) continue;
      map.labels.push({ text: name, font, box });
      if (level) map.labels.push({ text: level, font: LABEL_FONT, box: { ...box, y: box.y + LABEL_HIGH - 2 } });
    }
    sprites.use(this.ratio, this.color("--ink"), this.color("--ground"));
    sprites.draw(this.pen, map.labels);
  }
}

/** Returns the flight level, with an arrow if the aircraft climbs or descends. @param {Plane} plane */
function levelOf({ feet, rate }) {
  if (feet <= NO_FEET) return "";
  const arrow = rate > 200 ? "↑" : rate < -200 ? "↓" : "";
  return `${String(Math.round(feet / 100)).padStart(3, "0")}${arrow}`;
}

/** The map of the page, over tracks that move. A click selects an aircraft, and not a position of its track. */
class LiveMap extends TrackMap {
  /** @param {HTMLCanvasElement} canvas @param {any} told */
  constructor(canvas, told) {
    super(canvas, told);
    this.now = 0;
    this.site = null;
    this.hovered = NaN;
    canvas.addEventListener("pointermove", ({ offsetX, offsetY, buttons }) => {
      if (!buttons) this.hover(this.nearest(offsetX, offsetY)?.address ?? NaN);
    });
  }

  hover(address) {
    if (Object.is(address, this.hovered)) return;
    this.hovered = address;
    this.canvas.style.cursor = Number.isNaN(address) ? "" : "pointer";
    this.redraw();
  }

  nearest(x, y, within = MEANT_WITHIN) {
    this.measured = this.size;
    let best = within, found = null;
    for (const plane of /** @type {LiveTracks} */ (this.tracks).shown()) {
      const at = this.spot(plane), far = Math.hypot(at.x - x, at.y - y);
      if (far >= best) continue;
      best = far;
      found = plane;
    }
    return /** @type {any} */ (found);
  }

  choose(plane) {
    this.select(plane ? plane.address : NaN);
  }

  chart(pen, ratio) {
    return new LiveChart(this, pen, ratio);
  }
}
