/* chart.js: draws the map of a log: land, a grid of degrees, tracks, and labels that do not overlap. */
"use strict";

const LABEL_FONT = "12px system-ui, sans-serif", SELECTED_FONT = `bold 13px system-ui, sans-serif`;

/** A map has at most so many labels. */
const MOST_LABELS = 150;

const TRACK_COLORS = 6, GROUND_DASHES = [3, 3];

/** The widths of lines: a track, one of many, the selected one, and the border of that one (CSS pixels). */
const TRACK_WIDE = 2, CROWDED_WIDE = 1, SELECTED_WIDE = 4, BORDER_WIDE = 7;

/** More aircraft than this are many: thin lines keep them apart, and take half the time. */
const CROWD = 100;

/** The corner of a map in which it has its buttons: no label is below them. */
const BUTTONS_WIDE = 58, BUTTONS_HIGH = 156;

const MARK_SIZE = 4, SELECTED_MARK_SIZE = 6;

/** A position of a track that is less than this (CSS pixels) from the one before is left out. */
const LEAST_STEP = 1.5;

/** @typedef {{address: number, isSilent: boolean, isGround: boolean, color: string, x: number, y: number}} TrackMark */

/** One drawing of a map. */
class Chart {
  /** @param {TrackMap} map @param {CanvasRenderingContext2D} pen @param {number} ratio screen pixels for one of CSS */
  constructor(map, pen, ratio) {
    this.map = map;
    this.pen = pen;
    this.ratio = ratio;
    const style = getComputedStyle(map.canvas);
    /** Colours are read once, because each is used often. @type {Map<string, string>} */
    const colors = new Map();
    this.color = (name) => {
      if (!colors.has(name)) colors.set(name, style.getPropertyValue(name).trim());
      return colors.get(name) ?? "";
    };
    this.tracks = Array.from({ length: TRACK_COLORS }, (_, index) => this.color(`--track${index}`));
    this.places = new LabelPlaces(map.measured.width, map.measured.height);
    this.places.block({ x: map.measured.width - BUTTONS_WIDE, y: 0, wide: BUTTONS_WIDE, high: BUTTONS_HIGH });
    this.view = map.view({ x: 0, y: 0 });
  }

  draw() {
    const { map, pen, ratio } = this, { labels, lines, step } = map.projection.graticule(this.view, map.scale);
    const landColors = ["--sea", "--land", "--coast"].map(this.color), marks = this.marks();
    map.land.paint(pen, map, ratio, `${map.projection.title} ${landColors}`,
      (below, view) => drawLand(below, map, view, landColors));
    this.drawGrid(lines);
    const { tracks, until, address, projection } = map, ink = this.color("--ink");
    map.lines.paint(pen, map, ratio, [tracks.version, until, address, projection.title, ink].join(" "),
      (above, view) => this.drawTracks(above, view, marks));
    this.drawNames(marks);
    this.drawGridLabels(labels);
    if (map.chosen) this.drawChosen(map.chosen);
    const coast = LAND.level(map.scale) ? "" : ", too close for the coast";
    map.say(`${projection.title}, lines every ${step}°${coast}`);
  }

  drawGrid(lines) {
    const { map, pen } = this;
    pen.lineWidth = 1;
    pen.strokeStyle = this.color("--grid");
    pen.beginPath();
    for (const line of lines) {
      pen.moveTo(map.left(line[0].x), map.top(line[0].y));
      for (const { x, y } of line.slice(1)) pen.lineTo(map.left(x), map.top(y));
    }
    pen.stroke();
  }

  /** Draws the labels of the grid that are apart from all other labels. @param {Label[]} labels */
  drawGridLabels(labels) {
    const { map, pen } = this;
    pen.font = LABEL_FONT;
    pen.fillStyle = this.color("--dim");
    for (const { x, y, text } of labels) {
      const left = map.left(x), bottom = map.top(y), wide = pen.measureText(text).width;
      const isFree = this.places.take({ x: left, y: bottom - LABEL_HIGH + 3, wide, high: LABEL_HIGH });
      if (isFree) pen.fillText(text, left, bottom);
    }
  }

  /** Returns the mark of each aircraft, at its latest position. @returns {TrackMark[]} */
  marks() {
    const { map } = this, { projection } = map, marks = [];
    let index = 0;
    for (const [address] of map.tracks.all) {
      const color = this.tracks[index++ % TRACK_COLORS], newest = map.tracks.newest(address, map.until);
      if (!newest || !projection.shows(newest.lat)) continue;
      const isSilent = map.until < Infinity && map.until - newest.moment > map.tracks.window;
      marks.push({ address, isSilent, isGround: newest.kind === Kind.GROUND, color, ...map.spot(newest) });
    }
    return marks;
  }

  /** Draws the tracks and then their marks, the selected one last. @param {TrackMark[]} marks */
  drawTracks(pen, view, marks) {
    const { map } = this, drawing = new TrackDrawing(pen, map, view), isSelected = (one) => one.address === map.address;
    const wide = map.tracks.all.size > CROWD ? CROWDED_WIDE : TRACK_WIDE;
    let index = 0;
    for (const [address, { pieces }] of map.tracks.all) {
      const color = this.tracks[index++ % TRACK_COLORS];
      if (address !== map.address) drawing.track(pieces, color, wide);
    }
    const others = marks.filter((mark) => !isSelected(mark));
    for (const color of this.tracks) drawing.marks(others.filter((mark) => mark.color === color), color, MARK_SIZE);
    const selected = map.tracks.all.get(map.address), found = marks.filter(isSelected), ink = this.color("--ink");
    if (!selected) return;
    const color = this.tracks[[...map.tracks.all.keys()].indexOf(map.address) % TRACK_COLORS];
    drawing.track(selected.pieces, ink, BORDER_WIDE, false);
    drawing.track(selected.pieces, color, SELECTED_WIDE);
    drawing.marks(found.map((mark) => ({ ...mark, isSilent: false })), ink, SELECTED_MARK_SIZE + 1);
    drawing.marks(found, color, SELECTED_MARK_SIZE - 1);
  }

  /** Writes the address of each aircraft beside its mark if there is room; the selected aircraft is first.
   * @param {TrackMark[]} marks */
  drawNames(marks) {
    const { map } = this, { width, height } = map.measured, isSelected = (one) => one.address === map.address;
    const isSeen = ({ x, y }) => x > -MARK_SIZE && y > -MARK_SIZE && x < width + MARK_SIZE && y < height + MARK_SIZE;
    const shown = marks.filter(isSeen);
    map.labels = [];
    for (const mark of [...shown.filter(isSelected), ...shown.filter((mark) => !isSelected(mark))]) {
      if (map.labels.length >= MOST_LABELS) break;
      this.placeName(mark, isSelected(mark) ? SELECTED_FONT : LABEL_FONT);
    }
    map.sprites.use(this.ratio, this.color("--ink"), this.color("--ground"));
    map.sprites.draw(this.pen, map.labels);
  }

  /** Places the label of a mark if there is room. @param {TrackMark} mark */
  placeName({ address, x, y }, font) {
    const { map } = this, text = hexadecimal(address, 6);
    const box = this.places.beside(x, y, map.sprites.wide(text, font), LABEL_HIGH);
    if (!box) return;
    map.labels.push({ text, font, box });
  }

  /** Draws a cross around the chosen position. @param {Spot} spot */
  drawChosen(spot) {
    const { map, pen } = this;
    if (!map.projection.shows(spot.lat)) return;
    const { x, y } = map.spot(spot);
    pen.strokeStyle = this.color("--ink");
    pen.lineWidth = 2;
    pen.beginPath();
    for (const [right, down] of [[-1, 0], [1, 0], [0, -1], [0, 1]]) {
      pen.moveTo(x + 7 * right, y + 7 * down);
      pen.lineTo(x + 14 * right, y + 14 * down);
    }
    pen.stroke();
  }
}

/** Draws tracks and marks with a pen. */
class TrackDrawing {
  /** @param {CanvasRenderingContext2D} pen @param {TrackMap} map @param {Box} view */
  constructor(pen, map, view) {
    this.pen = pen;
    this.map = map;
    this.view = view;
    this.left = map.left(0);
    this.top = map.top(0);
  }

  /** @param {Piece[]} pieces */
  track(pieces, color, wide, isDashed = true) {
    const { pen } = this;
    pen.strokeStyle = pen.fillStyle = color;
    pen.lineWidth = wide;
    pen.miterLimit = 2;
    pieces.forEach((piece, at) => {
      const isGround = isDashed && piece.kind === Kind.GROUND;
      if (isGround) pen.setLineDash(GROUND_DASHES);
      if (piece.joined && at) this.seam(pieces[at - 1], piece);
      this.piece(piece);
      if (isGround) pen.setLineDash([]);
    });
  }

  /** Draws a piece. Leaves out positions that are nearly at the spot of the one before, before it projects them.
   * @param {Piece} piece */
  piece(piece) {
    const { map, pen, view, left, top } = this, { projection, scale } = map, box = projection.around(piece);
    const isOut = box.right < view.left || box.left > view.right || box.high < view.low || box.low > view.high;
    const { lons, lats } = piece, last = heardBy(piece, map.until) - 1;
    if (last < 0 || isOut) return;
    const near = LEAST_STEP / scale / projection.stretch(Math.max(piece.north, -piece.south));
    let lon0 = Infinity, lat0 = Infinity, isDown = false;
    if (piece.doubts) return this.hollow(piece, last);
    pen.beginPath();
    for (let at = 0; at <= last; at++) {
      const lon = lons[at], lat = lats[at], isShown = projection.shows(lat);
      if (isDown && isShown && at < last && Math.abs(lon - lon0) + Math.abs(lat - lat0) < near) continue;
      const x = left + projection.x(lon, lat) * scale, y = top - projection.y(lon, lat) * scale;
      if (isShown && isDown) pen.lineTo(x, y);
      else if (isShown) pen.moveTo(x, y);
      if (isShown && !last) pen.fillRect(x - 2, y - 2, 4, 4);
      isDown = isShown;
      lon0 = lon;
      lat0 = lat;
    }
    pen.stroke();
  }

  /** Draws positions that cannot be true. @param {Piece} piece */
  hollow({ lons, lats }, last) {
    const { map, pen } = this;
    for (let at = 0; at <= last; at++) {
      if (!map.projection.shows(lats[at])) continue;
      const { x, y } = map.spot({ lon: lons[at], lat: lats[at] });
      pen.beginPath();
      pen.arc(x, y, MARK_SIZE, 0, 7);
      pen.stroke();
    }
  }

  /** Draws the line between two pieces. Over 180 degrees it goes to the one side and comes from the other, but around a
   * pole. @param {Piece} before @param {Piece} after */
  seam(before, after) {
    const { map, pen } = this, { projection } = map, end = before.count - 1, lon0 = before.lons[end];
    const lat0 = before.lats[end], lon1 = after.lons[0], lat1 = after.lats[0];
    if (heardBy(after, map.until) < 1 || !projection.shows(lat0) || !projection.shows(lat1)) return;
    const edge = lon0 > 0 ? 180 : -180, part = (edge - lon0) / (lon1 + 2 * edge - lon0);
    const at = lat0 + part * (lat1 - lat0), isWhole = projection.isRound || goesOn(before, after);
    const pairs = isWhole ? [[lon0, lat0, lon1, lat1]] : [[lon0, lat0, edge, at], [-edge, at, lon1, lat1]];
    pen.beginPath();
    for (const [fromLon, fromLat, toLon, toLat] of pairs) {
      const from = map.spot({ lon: fromLon, lat: fromLat }), to = map.spot({ lon: toLon, lat: toLat });
      pen.moveTo(from.x, from.y);
      pen.lineTo(to.x, to.y);
    }
    pen.stroke();
  }

  /** Draws marks of one colour at once: circles, and on the ground squares. A silent aircraft has a hollow one.
   * @param {TrackMark[]} marks */
  marks(marks, color, size) {
    const { pen } = this;
    for (const isSilent of [false, true]) {
      pen.beginPath();
      for (const mark of marks) {
        if (mark.isSilent !== isSilent) continue;
        const { x, y } = mark;
        pen.moveTo(x + size, y);
        if (mark.isGround) pen.rect(x - size, y - size, 2 * size, 2 * size);
        else pen.arc(x, y, size, 0, 7);
      }
      pen.lineWidth = 2;
      pen.strokeStyle = pen.fillStyle = color;
      if (isSilent) pen.stroke();
      else pen.fill();
    }
  }
}
