/* map.js: the map of a log: what it shows, and how it is moved. */
"use strict";

/** A click this near to a position (in CSS pixels) selects it. */
const MEANT_WITHIN = 16;

/** The share of the map that tracks fill. A single track has land around it. */
const ROOM_OF_ALL = 0.85, ROOM_OF_ONE = 0.4;

/** The fewest degrees that a map shows when it is fitted to a track. */
const FIT_LEAST = 0.02;

class TrackMap {
  /** @param {HTMLCanvasElement} canvas
   * @param {{say: (text: string) => void, tell: (spot: Spot | null) => void, select: (address: number) => void}} told
   * called with what the map shows, with the chosen position and with the selected aircraft */
  constructor(canvas, told) {
    this.canvas = canvas;
    this.told = told;
    this.said = "";
    this.land = new Layer();
    this.lines = new Layer();
    this.sprites = new LabelSprites();
    /** The labels that are drawn. */
    /** @type {MapLabel[]} */
    this.labels = [];
    this.tracks = new Tracks(0);
    /** The name of the projection that the reader chose, or "". */
    this.wanted = "";
    this.projection = PROJECTIONS.plain;
    /** The point of the plane in the middle, and the CSS pixels for a step of the plane. */
    this.center = { x: 0, y: 0 };
    this.scale = 1;
    this.waiting = false;
    /** The size of the canvas when it was last measured. */
    this.measured = { width: 1, height: 1 };
    /** Whether the reader has moved the map. Then it stays where it is while a log is decoded. */
    this.moved = false;
    /** The selected aircraft. */
    this.address = NaN;
    /** Positions are drawn up to this moment. */
    this.until = Infinity;
    /** @type {Spot | null} */
    this.chosen = null;
    this.drawn = 0;
    this.took = 0;
    this.listen();
  }

  /** Shows the tracks of another log. @param {Tracks} tracks */
  show(tracks) {
    this.tracks = tracks;
    this.until = Infinity;
    this.choose(null);
    this.select(NaN);
    this.fit();
  }

  /** Selects an aircraft, or none. */
  select(address) {
    this.address = address;
    this.told.select(address);
    this.redraw();
  }

  say(text) {
    if (text !== this.said) this.told.say(text);
    this.said = text;
  }

  /** Returns the size of the canvas in CSS pixels. Each call may lay out the page, so a drawing measures once. */
  get size() {
    this.measured = { width: this.canvas.clientWidth || 1, height: this.canvas.clientHeight || 1 };
    return this.measured;
  }

  /** Sets the projection by its name; "" chooses one that suits the tracks. */
  want(name) {
    this.wanted = name;
    this.fit(this.address);
  }

  /** Shows one track and selects it, or shows all of them. */
  fit(address = NaN) {
    const { width, height } = this.size, { tracks } = this, isOne = tracks.all.has(address);
    if (!Object.is(address, this.address)) this.select(address);
    this.moved = false;
    this.projection = PROJECTIONS[this.wanted] ?? suitingProjection(tracks.latitudes(address));
    const box = this.projection.box(tracks, address);
    const isEmpty = box.left > box.right, { left, right, low, high } = isEmpty ? this.projection.world : box;
    const room = isEmpty ? 1 : isOne ? ROOM_OF_ONE : ROOM_OF_ALL, least = FIT_LEAST;
    this.center = { x: (left + right) / 2, y: (low + high) / 2 };
    this.scale = room * Math.min(width / Math.max(right - left, least), height / Math.max(high - low, least));
    this.redraw();
  }

  /** Draws the map while a log is decoded, in at most a tenth of the time. */
  follow() {
    const start = performance.now();
    if (start - this.drawn < 10 * this.took) return;
    if (this.moved) this.redraw();
    else this.fit(this.address);
    this.took = Math.max(this.took, performance.now() - start);
  }

  /** Zooms by a factor, around a point of the canvas. */
  zoom(factor, x = this.size.width / 2, y = this.size.height / 2) {
    this.measured = this.size;
    const before = this.pointAt(x, y);
    this.moved = true;
    this.scale = Math.min(Math.max(this.scale * factor, 0.5), 2_000_000);
    const after = this.pointAt(x, y);
    this.center = { x: this.center.x + before.x - after.x, y: this.center.y + before.y - after.y };
    this.redraw();
  }

  move(x, y) {
    const within = (at, most) => Math.min(Math.max(at, -most), most), { reach } = this.projection;
    this.moved = true;
    this.center = {
      x: within(this.center.x - x / this.scale, reach.x), y: within(this.center.y + y / this.scale, reach.y),
    };
    this.redraw();
  }

  /** Returns the point of the plane at a point of the canvas. */
  pointAt(x, y) {
    const { center, scale, measured: { width, height } } = this;
    return { x: center.x + (x - width / 2) / scale, y: center.y - (y - height / 2) / scale };
  }

  /** Returns the visible part of the plane, with a margin in CSS pixels. @returns {Box} */
  view(margin) {
    const { width, height } = this.measured;
    const from = this.pointAt(-margin.x, height + margin.y), to = this.pointAt(width + margin.x, -margin.y);
    return { left: from.x, right: to.x, low: from.y, high: to.y };
  }

  degreesAt(x, y) {
    return this.projection.degrees(this.pointAt(x, y));
  }

  /** Returns the x of the canvas at which an x of the plane is drawn. */
  left(x) {
    return this.measured.width / 2 + (x - this.center.x) * this.scale;
  }

  top(y) {
    return this.measured.height / 2 - (y - this.center.y) * this.scale;
  }

  /** Returns the point of the canvas at which a position is drawn. */
  spot({ lon, lat }) {
    return { x: this.left(this.projection.x(lon, lat)), y: this.top(this.projection.y(lon, lat)) };
  }

  /** Returns the drawn position nearest to a point of the canvas, or null if all are farther than `within`.
   * @returns {Spot | null} */
  nearest(x, y, within = MEANT_WITHIN) {
    this.measured = this.size;
    let best = within, found = null;
    for (const [address, { pieces }] of this.tracks.all) {
      for (const piece of pieces) {
        const [at, away] = this.nearestOf(piece, x, y);
        if (at < 0 || away > best) continue;
        best = away;
        found = spotOf(address, piece, at);
      }
    }
    return found;
  }

  /** Returns the index of the position of a piece nearest to a point of the canvas, and its distance.
   * @param {Piece} piece */
  nearestOf(piece, x, y) {
    const { lons, lats } = piece, count = heardBy(piece, this.until), { projection, scale } = this;
    const left = this.left(0) - x, top = this.top(0) - y;
    let best = Infinity, found = -1;
    for (let at = 0; at < count; at++) {
      if (!projection.shows(lats[at])) continue;
      const right = left + projection.x(lons[at], lats[at]) * scale;
      const down = top - projection.y(lons[at], lats[at]) * scale, away = right * right + down * down;
      if (away >= best) continue;
      best = away;
      found = at;
    }
    return [found, Math.sqrt(best)];
  }

  /** Marks a position and selects its aircraft. @param {Spot | null} spot */
  choose(spot) {
    this.chosen = spot;
    this.told.tell(spot);
    if (spot) this.select(spot.address);
    this.redraw();
  }

  redraw() {
    if (this.waiting) return;
    this.waiting = true;
    requestAnimationFrame(() => {
      this.waiting = false;
      const start = performance.now();
      this.draw();
      this.drawn = performance.now();
      this.took = this.drawn - start;
    });
  }

  draw() {
    const { width, height } = this.size, ratio = window.devicePixelRatio || 1, { canvas } = this;
    const wide = Math.round(width * ratio), high = Math.round(height * ratio);
    if (width < 2) return;
    if (canvas.width !== wide) canvas.width = wide;
    if (canvas.height !== high) canvas.height = high;
    const pen = canvas.getContext("2d");
    if (!pen) return;
    pen.setTransform(ratio, 0, 0, ratio, 0, 0);
    pen.clearRect(0, 0, width, height);
    this.chart(pen, ratio).draw();
  }

  /** Returns what draws the map once. @param {CanvasRenderingContext2D} pen @returns {Chart} */
  chart(pen, ratio) {
    return new Chart(this, pen, ratio);
  }

  listen() {
    const { canvas } = this;
    /** @type {Map<number, {x: number, y: number}>} */
    const held = new Map();
    let start = { x: 0, y: 0 };
    canvas.addEventListener("pointerdown", (event) => {
      canvas.setPointerCapture(event.pointerId);
      start = { x: event.offsetX, y: event.offsetY };
      held.set(event.pointerId, start);
    });
    canvas.addEventListener("pointermove", (event) => this.drag(held, event));
    canvas.addEventListener("pointerup", ({ offsetX, offsetY }) => {
      if (held.size === 1 && Math.hypot(offsetX - start.x, offsetY - start.y) < 4) {
        this.choose(this.nearest(offsetX, offsetY));
      }
    });
    for (const name of ["pointerup", "pointercancel"]) {
      canvas.addEventListener(name, (event) => held.delete(/** @type {PointerEvent} */ (event).pointerId));
    }
    canvas.addEventListener("wheel", (event) => {
      event.preventDefault();
      this.zoom(Math.exp(-event.deltaY / 400), event.offsetX, event.offsetY);
    }, { passive: false });
    canvas.addEventListener("keydown", (event) => this.press(event));
    window.addEventListener("resize", () => this.redraw());
    matchMedia("(prefers-color-scheme: dark)").addEventListener("change", () => this.redraw());
  }

  /** Moves the map by one finger or the mouse, and zooms by two fingers. */
  drag(held, event) {
    const was = held.get(event.pointerId);
    if (!was) return;
    const now = { x: event.offsetX, y: event.offsetY };
    held.set(event.pointerId, now);
    if (held.size === 1) return this.move(now.x - was.x, now.y - was.y);
    const [other] = [...held].filter(([id]) => id !== event.pointerId).map(([, at]) => at);
    const before = Math.hypot(was.x - other.x, was.y - other.y), after = Math.hypot(now.x - other.x, now.y - other.y);
    if (before > 1) this.zoom(after / before, (now.x + other.x) / 2, (now.y + other.y) / 2);
  }

  press(event) {
    const moves = { ArrowLeft: [40, 0], ArrowRight: [-40, 0], ArrowUp: [0, 40], ArrowDown: [0, -40] };
    const { width, height } = this.size;
    if (event.ctrlKey || event.metaKey || event.altKey) return;
    if (event.key in moves) this.move(...moves[event.key]);
    else if (event.key === "+" || event.key === "=") this.zoom(1.5);
    else if (event.key === "-") this.zoom(1 / 1.5);
    else if (event.key === "Enter") this.choose(this.nearest(width / 2, height / 2, Infinity));
    else if (event.key === "Escape") this.choose(null);
    else return;
    event.preventDefault();
  }
}
