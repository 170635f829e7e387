/* live.js: the page of the live map: what the server tells, the map, and the list beside it. */
"use strict";

/** More rows than are read cost more than the map. */
const MOST_ROWS = 200;

/** The width of a step of the legend (CSS pixels). */
const STEP_WIDE = 30;

class LivePage {
  constructor() {
    this.tracks = new LiveTracks();
    this.why = new WhyPanel();
    const select = (address) => {
      this.why.ask(address);
      this.list();
    };
    this.map = new LiveMap(byId("map"), { say: () => {}, tell: () => {}, select });
    this.map.tracks = this.tracks;
    this.by = "name";
    /** @type {Map<number, any>} */
    this.rows = new Map();
    this.counts = { squitters: 0, doubtful: {} };
    const does = { in: () => this.map.zoom(1.5), out: () => this.map.zoom(1 / 1.5), fit: () => this.fit() };
    const pressed = (name, then) => document.querySelectorAll(`[data-${name}]`).forEach((button) => {
      button.addEventListener("click", () => then(button.dataset[name]));
    });
    pressed("map", (what) => does[what]());
    pressed("by", (column) => this.order(column));
    this.legend();
    this.start();
  }

  async start() {
    const told = await (await fetch("data/receiver.json")).json();
    if ("lat" in told) this.map.site = { lat: told.lat, lon: told.lon };
    this.order(this.map.site ? "away" : "name");
    const stream = new EventSource("live");
    stream.addEventListener("trails", ({ data }) => this.begin(JSON.parse(data)));
    stream.addEventListener("all", ({ data }) => this.take(JSON.parse(data), true));
    stream.addEventListener("new", ({ data }) => this.take(JSON.parse(data), false));
    stream.onerror = () => this.say("server lost", true);
  }

  /** Begins anew, with the trails. */
  begin(trails) {
    this.tracks = this.map.tracks = new LiveTracks();
    for (const [address, points] of Object.entries(trails)) {
      for (const point of points) this.tracks.take(parseInt(address, 16), point);
    }
  }

  /** Takes the rows of an event: of all aircraft, or of those that were heard since the last. */
  take({ now, state, squitters, doubtful, rows }, isWhole) {
    const { map, tracks } = this;
    map.now = now;
    this.counts = { squitters, doubtful };
    for (const [text, ...point] of rows) {
      const address = parseInt(text, 16);
      if (point[0]) tracks.take(address, point);
      if (tracks.planes.has(address)) tracks.plane(address).extras = point[5];
    }
    tracks.forget(now);
    tracks.change();
    const isBad = state === "not connected";
    this.say(isBad ? "receiver not connected" : state === "ended" ? "ended" : "live", isBad);
    if (!map.moved && (isWhole || !this.isFitted)) this.fit();
    if (rows.some(([text]) => parseInt(text, 16) === map.address)) this.why.ask(map.address);
    this.list();
    map.redraw();
  }

  say(text, isBad) {
    const state = byId("state");
    if (state.textContent !== text) state.textContent = text;
    state.className = isBad ? "bad" : "";
  }

  /** Shows all aircraft whose position may be true, and the receiver. */
  fit() {
    const { map } = this, { width, height } = map.size;
    const points = this.tracks.shown().filter(({ doubts }) => !doubts);
    this.isFitted = points.length > 0;
    if (map.site) points.push(...[0, 90, 180, 270].map((by) => awayFrom(map.site, RINGS[0], by)));
    if (!points.length) return;
    const lats = points.map(({ lat }) => lat);
    map.projection = suitingProjection({ south: Math.min(...lats), north: Math.max(...lats) });
    const xs = points.map(({ lon, lat }) => map.projection.x(lon, lat));
    const ys = points.map(({ lon, lat }) => map.projection.y(lon, lat));
    const left = Math.min(...xs), right = Math.max(...xs), low = Math.min(...ys), high = Math.max(...ys);
    map.center = { x: (left + right) / 2, y: (low + high) / 2 };
    map.scale = ROOM_OF_ALL * Math.min(width / Math.max(right - left, 0.1), height / Math.max(high - low, 0.1));
    map.moved = false;
    map.redraw();
  }

  /** Orders the list by a column. */
  order(by) {
    this.by = by;
    for (const button of document.querySelectorAll("[data-by]")) {
      if (button.dataset.by === by) button.parentElement.setAttribute("aria-sort", "ascending");
      else button.parentElement.removeAttribute("aria-sort");
    }
    this.list();
  }

  /** Shows the list. It keeps its rows, so that a hover or a focus is not lost. */
  list() {
    const { map, tracks } = this, shown = tracks.shown(), body = document.querySelector("#list tbody");
    const keys = {
      feet: (plane) => -plane.feet, speed: (plane) => -(plane.extras.gs ?? -1), age: (plane) => -plane.moment,
      away: (plane) => (map.site ? milesBetween(map.site, plane) : 0), name: () => 0,
    };
    const key = keys[this.by];
    shown.sort((a, b) => key(a) - key(b) || (a.name < b.name ? -1 : 1));
    const listed = shown.slice(0, MOST_ROWS), rows = listed.map((plane) => this.row(plane));
    const addresses = new Set(listed.map(({ address }) => address));
    for (const [address, row] of this.rows) {
      if (addresses.has(address)) continue;
      row.remove();
      this.rows.delete(address);
    }
    rows.forEach((row, at) => { if (body.children[at] !== row) body.insertBefore(row, body.children[at] ?? null); });
    this.tell(shown.length);
    const chosen = tracks.planes.get(map.address);
    byId("chosen").replaceChildren(...(chosen ? this.card(chosen) : []));
    if (!chosen) byId("why").hidden = true;
  }

  /** Tells how many aircraft there are, and how many positions cannot be true. */
  tell(count) {
    const { squitters, doubtful } = this.counts, listed = count > MOST_ROWS ? `, ${MOST_ROWS} listed` : "";
    const doubts = Object.entries(doubtful).filter(([, number]) => number).map(([text, number]) => `${number} ${text}`);
    const told = doubts.length ? `. Positions that cannot be true: ${doubts.join(", ")}` : "";
    byId("counts").textContent = `${count} aircraft${listed}, ${squitters} squitters${told}`;
  }

  /** @param {Plane} plane */
  row(plane) {
    const { map } = this;
    let row = this.rows.get(plane.address);
    if (!row) {
      row = element("tr", { tabindex: 0 }, ...Array.from({ length: 5 }, () => element("td")));
      row.addEventListener("click", () => map.select(plane.address));
      row.addEventListener("keydown", ({ key }) => { if (key === "Enter") map.select(plane.address); });
      row.addEventListener("mouseenter", () => map.hover(plane.address));
      row.addEventListener("mouseleave", () => map.hover(NaN));
      this.rows.set(plane.address, row);
    }
    const age = Math.max(0, map.now - plane.moment), { gs } = plane.extras;
    const isOld = age > OLD || plane.doubts > 0, isOn = plane.address === map.address;
    row.className = `${feetName(plane.feet)} ${isOn ? "on" : ""} ${isOld ? "old" : ""}`;
    const texts = [plane.name, feetShown(plane.feet), gs === undefined ? "" : gs.toFixed(0),
      map.site ? milesBetween(map.site, plane).toFixed(0) : "", (age / 1000).toFixed(0)];
    texts.forEach((text, at) => { if (row.cells[at].textContent !== text) row.cells[at].textContent = text; });
    return row;
  }

  /** Returns what is told of the selected aircraft. @param {Plane} plane */
  card(plane) {
    const { gs, track, squawk, flight } = plane.extras, { rate } = plane;
    const lines = [
      `${plane.lat.toFixed(7)}, ${plane.lon.toFixed(7)}`,
      plane.feet > NO_FEET ? `${plane.feet} ft` : plane.feet === ON_GROUND ? "on the ground" : "no altitude",
      gs === undefined ? "" : `${gs.toFixed(0)} knots${track === undefined ? "" : `, track ${track.toFixed(0)}°`}`,
      rate === undefined ? "" : `${rate} ft/min`, squawk === undefined ? "" : `squawk ${squawk}`,
      `heard ${(Math.max(0, this.map.now - plane.moment) / 1000).toFixed(1)} s ago`,
      plane.doubts & BEYOND_RANGE ? "This position is too far from the receiver to be true." : "",
      plane.doubts & TOO_FAST ? "No aircraft is so fast: this position or the one before is wrong." : "",
    ];
    const title = flight ? `${flight} ${hexadecimal(plane.address, 6)}` : hexadecimal(plane.address, 6);
    return [element("strong", {}, title), ...lines.filter(Boolean).map((line) => element("div", {}, line))];
  }

  legend() {
    const space = "http://www.w3.org/2000/svg", wide = STEP_WIDE * FEET_STEPS.length;
    const drawn = (name, attributes, text = "") => {
      const made = document.createElementNS(space, name);
      for (const [key, value] of Object.entries(attributes)) made.setAttribute(key, String(value));
      made.textContent = text;
      return made;
    };
    const picture = drawn("svg", { width: wide + 56, height: 24, role: "img", "aria-label": "Colours by altitude" });
    FEET_STEPS.forEach((feet, at) => {
      picture.append(drawn("rect", { x: at * STEP_WIDE, width: STEP_WIDE, height: 8, fill: `var(--feet${at})` }));
      const place = { x: at * STEP_WIDE, y: 21, "text-anchor": "middle" };
      if (at) picture.append(drawn("text", place, String(feet / 1000)));
    });
    picture.append(drawn("text", { x: wide + 6, y: 21 }, "1000 ft"));
    byId("legend").replaceChildren(picture);
  }
}

/** Returns an altitude for the list. */
function feetShown(feet) {
  return feet === ON_GROUND ? "ground" : feet === NO_FEET ? "" : String(feet);
}

addEventListener("DOMContentLoaded", () => {
  window.live = new LivePage();
  document.documentElement.dataset.ready = "yes";
});
