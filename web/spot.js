/* spot.js: a small map to choose a position by dragging or with the arrow keys. */
"use strict";

const SPOT_WIDE = 400, SPOT_HIGH = 200, SPOT_REACH = 12;

class SpotMap {
  /** @param {any} holder @param {(lat: string, lon: string) => void} moved */
  constructor(holder, moved) {
    this.moved = moved;
    this.place = { lon: 0, lat: 0 };
    this.middle = { lon: 0, lat: 0 };
    /** How many degrees of latitude are shown. */
    this.span = 180;
    this.landKey = "";
    /** @type {SVGElement[]} */
    this.landParts = [];
    const label = "The position. The arrow keys move it, with Shift further.";
    this.picture = drawn("svg", {
      viewBox: `0 0 ${SPOT_WIDE} ${SPOT_HIGH}`, role: "application", tabindex: 0, class: "way spot",
      "aria-label": label,
    });
    holder.replaceChildren(this.picture);
    this.listen();
  }

  get scale() {
    return SPOT_HIGH / this.span;
  }

  /** Shows a position. @param {{lon: number, lat: number}} place */
  show(place) {
    this.place = place;
    const { x, y } = this.point(place), isIn = x > 10 && y > 10 && x < SPOT_WIDE - 10 && y < SPOT_HIGH - 10;
    if (!isIn && !this.isHeld) this.middle = this.span === 180 ? { lon: 0, lat: 0 } : { ...place };
    this.draw();
  }

  /** Shows so many degrees of latitude, around the position. */
  zoom(span) {
    this.span = span;
    this.middle = span === 180 ? { lon: 0, lat: 0 } : { ...this.place };
    this.draw();
  }

  point({ lon, lat }) {
    const { middle, scale } = this;
    return { x: SPOT_WIDE / 2 + (lon - middle.lon) * scale, y: SPOT_HIGH / 2 - (lat - middle.lat) * scale };
  }

  draw() {
    const { middle, scale } = this, { projection } = SpotMap;
    const wide = SPOT_WIDE / 2 / scale, high = SPOT_HIGH / 2 / scale;
    const view = { left: middle.lon - wide, right: middle.lon + wide, low: middle.lat - high, high: middle.lat + high };
    const { lines, labels } = projection.graticule(view, scale), at = ({ x, y }) => this.point({ lon: x, lat: y });
    const parts = [...this.land(view), ...lines.map(([from, to]) => {
      const start = at(from), end = at(to);
      return drawn("path", { d: `M${start.x} ${start.y}L${end.x} ${end.y}`, class: "way-line" });
    })];
    const { x, y } = this.point(this.place);
    const mark = { x, y, text: "", reach: SPOT_REACH };
    parts.push(...pictureLabels([mark], labels.map((one) => ({ ...at(one), text: one.text })), SPOT_WIDE, SPOT_HIGH));
    const cross = `M${x - SPOT_REACH} ${y}h${2 * SPOT_REACH}M${x} ${y - SPOT_REACH}v${2 * SPOT_REACH}`;
    parts.push(drawn("path", { d: cross, class: "way-given" }),
      drawn("circle", { cx: x, cy: y, r: 6, class: "way-place" }));
    this.picture.replaceChildren(...parts);
  }

  /** Returns the land of a view. It is kept, because the view stays while the position is dragged. @param {Box} view */
  land(view) {
    const { middle, scale } = this, key = `${middle.lon} ${middle.lat} ${scale}`;
    const { x, y } = this.point({ lon: 0, lat: 0 });
    if (this.landKey !== key) this.landParts = landPicture({ x, y, right: scale, up: scale }, view);
    this.landKey = key;
    return this.landParts;
  }

  /** Moves the position, within -90 to 90 and -180 to 180 degrees. */
  put(lon, lat) {
    const within = (value, most) => Math.min(Math.max(value, -most), most).toFixed(7);
    this.moved(within(lat, 90), within(lon, 180));
  }

  listen() {
    const { picture } = this, drag = (event) => {
      const box = picture.getBoundingClientRect(), factor = SPOT_WIDE / box.width, { middle, scale } = this;
      const x = (event.clientX - box.left) * factor, y = (event.clientY - box.top) * factor;
      this.put(middle.lon + (x - SPOT_WIDE / 2) / scale, middle.lat - (y - SPOT_HIGH / 2) / scale);
    };
    picture.addEventListener("pointerdown", (event) => {
      picture.setPointerCapture(event.pointerId);
      this.isHeld = true;
      drag(event);
    });
    picture.addEventListener("pointermove", (event) => this.isHeld && drag(event));
    for (const name of ["pointerup", "pointercancel"]) picture.addEventListener(name, () => { this.isHeld = false; });
    picture.addEventListener("keydown", (event) => {
      const moves = { ArrowLeft: [-1, 0], ArrowRight: [1, 0], ArrowUp: [0, 1], ArrowDown: [0, -1] };
      if (!(event.key in moves) || event.ctrlKey || event.metaKey || event.altKey) return;
      const step = this.span / (event.shiftKey ? 18 : 180), [east, north] = moves[event.key];
      this.put(this.place.lon + east * step, this.place.lat + north * step);
      event.preventDefault();
    });
  }
}
SpotMap.projection = PROJECTIONS.plain;

/** Returns a picture of a position and of the points of its even and its odd frame. */
function closePicture(library, kind, head, position) {
  const number = ({ num, den }) => Number(num) / Number(den);
  const here = { lon: number(position.lon), lat: number(position.lat) }, Head = kind === "air" ? AirHead : GroundHead;
  const points = PARITIES.map((text, odd) => {
    const point = library.local(library.encode(new Head({ ...head, odd }), position), position);
    return { lon: point.lon.toNumber(), lat: point.lat.toNumber(), shape: odd ? "given" : "other", text };
  });
  const away = (name) => points.map((point) => Math.abs(((point[name] - here[name] + 540) % 360) - 180));
  // a step to the right is as long as one up
  const narrow = Math.max(Math.cos(here.lat * RADIAN), 1e-9), sides = VIEW_WIDE / VIEW_HIGH;
  const high = Math.max(...away("lat"), Math.max(...away("lon")) * narrow / sides, 1e-6) * 1.6;
  const wide = Math.min(high * sides / narrow, 180);
  const tall = aboutMetres({ num: BigInt(Math.round(high * 2e12)), den: 10n ** 12n }, 1);
  const title = "Circle: the position. Square: the point to which the even frame rounds it. Cross: that of the odd " +
    `frame. The picture is ${tall} high.`;
  return wayPicture(title, [...points, { ...here, shape: "place", text: "" }], { middle: here, wide, high });
}
