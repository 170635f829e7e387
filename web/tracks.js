/* tracks.js: the positions of a log by their addresses, in pieces, with their moments and lines. */
"use strict";

/** @typedef {{pieces: Piece[], piece: Piece | null, moment: number, lon: number, lat: number}} Track
 * The last piece, moment and position stand beside the pieces. */
/** @typedef {{address: number, lon: number, lat: number, moment: number, line: number, kind: number}} Spot
 * A position of a track. */

/** Positions of one address and kind, in order, each with its timestamp and line. They share one block that doubles as
 * it fills. Four arrays of numbers took most of the time, because each garbage collection copied them. */
class Piece {
  /** @param {boolean} joined whether the track goes on from the piece before: only 180 degrees or the kind cuts it
   * @param {number} kind
   * @param {number} doubts why its positions cannot be true, or 0 */
  constructor(joined, kind, doubts = 0) {
    this.joined = joined;
    this.kind = kind;
    this.doubts = doubts;
    this.count = 0;
    this.room = 8;
    this.block = new Float64Array(4 * this.room);
    this.west = this.south = Infinity;
    this.east = this.north = -Infinity;
  }

  add(lon, lat, moment, line) {
    if (this.count === this.room) this.grow();
    const { block, room, count } = this;
    block[count] = lon;
    block[room + count] = lat;
    block[2 * room + count] = moment;
    block[3 * room + count] = line;
    this.count = count + 1;
    if (lon < this.west) this.west = lon;
    if (lon > this.east) this.east = lon;
    if (lat < this.south) this.south = lat;
    if (lat > this.north) this.north = lat;
  }

  grow() {
    const block = new Float64Array(8 * this.room);
    for (let column = 0; column < 4; column++) block.set(this.column(column), 2 * column * this.room);
    this.room *= 2;
    this.block = block;
  }

  column(column) {
    return this.block.subarray(column * this.room, column * this.room + this.count);
  }

  get lons() {
    return this.column(0);
  }

  get lats() {
    return this.column(1);
  }

  get moments() {
    return this.column(2);
  }

  get lines() {
    return this.column(3);
  }
}

/** Returns how many positions of a piece are at or before a moment. @param {Piece} piece */
function heardBy(piece, until) {
  if (until === Infinity) return piece.count;
  const { moments } = piece;
  let low = 0, high = moments.length;
  while (low < high) {
    const middle = (low + high) >> 1;
    if (moments[middle] <= until) low = middle + 1;
    else high = middle;
  }
  return low;
}

/** Nautical miles from the receiver, and knots, beyond which a position cannot be true. */
const WATCHED_RANGE = 300, WATCHED_SPEED = 2000;

/** The doubts about positions: further from the site of the receiver than the range, or reached faster than the speed.
 * The library is asked only about those that are further away than all such miles can be short. */
class PlaceWatch {
  /** @param {Library} library @param {{lat: Fraction, lon: Fraction} | null} site */
  constructor(library, site) {
    this.library = library;
    this.site = site;
    const number = ({ num, den }) => Number(num) / Number(den);
    this.here = site && { lat: number(site.lat), lon: number(site.lon) };
  }

  /** Returns why a position cannot be true, by the last one of its aircraft: 0, or BEYOND_RANGE, TOO_FAST or their sum.
   * @param {Track} track */
  doubts(lat, lon, moment, track) {
    const isFar = this.here !== null && PlaceWatch.isAway(lat, lon, this.here, WATCHED_RANGE);
    const hasMoved = track.piece !== null && PlaceWatch.isAway(lat, lon, track, 1);
    if (!isFar && !hasMoved) return 0;
    const at = (place) => ({ lat: place.lat.toFixed(7), lon: place.lon.toFixed(7) });
    const before = hasMoved ? { moment: BigInt(track.moment), position: at(track) } : null;
    const watch = { site: isFar ? this.site : null, range: WATCHED_RANGE, speed: WATCHED_SPEED };
    return this.library.doubts(watch, BigInt(moment), at({ lat, lon }), before);
  }

  /** Whether two positions may be further apart than so many miles: a degree has at most 60. */
  static isAway(lat, lon, from, miles) {
    const least = miles / 60.001, apart = Math.abs(lon - from.lon);
    return Math.abs(lat - from.lat) > least || Math.min(apart, 360 - apart) > least;
  }
}

/** The tracks of a log, cut at 180 degrees, at take-off and landing, at positions that cannot be true, and where an
 * address was silent for longer than the window. */
class Tracks {
  /** @param {PlaceWatch | null} watch */
  constructor(windowMilliseconds, watch = null) {
    this.window = windowMilliseconds;
    this.watch = watch;
    /** How many positions are beyond the range, and how many were reached too fast. */
    this.far = this.fast = 0;
    /** @type {Map<number, Track>} */
    this.all = new Map();
    this.first = Infinity;
    this.last = -Infinity;
    this.change();
  }

  /** Takes a new version number. No other tracks ever have the same, because the map keeps its drawing of a version. */
  change() {
    this.version = Tracks.versions++;
  }

  /** Adds the positions of some answers. @param {Answers} answers */
  add({ whats, addresses, kinds, lons, lats, moments, numbers }) {
    // A BigInt for each timestamp would take longer than everything else. Browsers put the lower half first.
    const halves = new Uint32Array(moments.buffer);
    this.change();
    for (let at = 0; at < whats.length; at++) {
      if (!isPlace(whats[at])) continue;
      const moment = halves[2 * at] + 2 ** 32 * halves[2 * at + 1];
      this.addPlace(addresses[at], lons[at], lats[at], moment, numbers[at], kinds[at]);
    }
  }

  addPlace(address, lon, lat, moment, line, kind) {
    let track = this.all.get(address);
    if (!track) this.all.set(address, (track = { pieces: [], piece: null, moment: -Infinity, lon: 0, lat: 0 }));
    const isSilent = moment - track.moment > this.window, doubts = this.watch?.doubts(lat, lon, moment, track) ?? 0;
    if (doubts & BEYOND_RANGE) this.far++;
    if (doubts & TOO_FAST) this.fast++;
    let { piece } = track;
    const isCut = isSilent || Boolean(doubts || piece?.doubts);
    if (!piece || isCut || Math.abs(lon - track.lon) > 180 || piece.kind !== kind) {
      piece = track.piece = new Piece(!isCut, kind, doubts);
      track.pieces.push(piece);
    }
    piece.add(lon, lat, moment, line);
    Object.assign(track, { moment, lon, lat });
    if (moment < this.first) this.first = moment;
    if (moment > this.last) this.last = moment;
  }

  /** Returns the pieces of one track, or of all. */
  pieces(address = NaN) {
    if (this.all.has(address)) return this.all.get(address)?.pieces ?? [];
    return [...this.all.values()].flatMap(({ pieces }) => pieces);
  }

  /** Returns how many positions are at or before a moment. */
  count(until = Infinity) {
    return this.pieces().reduce((sum, piece) => sum + heardBy(piece, until), 0);
  }

  /** Returns the latest position of a track up to a moment, or null. @returns {Spot | null} */
  newest(address, until = Infinity) {
    const pieces = this.pieces(address);
    for (let at = pieces.length - 1; at >= 0; at--) {
      const last = heardBy(pieces[at], until) - 1;
      if (last >= 0) return spotOf(address, pieces[at], last);
    }
    return null;
  }

  /** Returns the bounds of a track, or of all. For a track that is cut at 180 degrees, those of its longest piece. */
  bounds(address = NaN) {
    const of = (pieces) => {
      const sides = { west: Infinity, east: -Infinity, south: Infinity, north: -Infinity };
      for (const piece of pieces) {
        sides.west = Math.min(sides.west, piece.west);
        sides.east = Math.max(sides.east, piece.east);
        sides.south = Math.min(sides.south, piece.south);
        sides.north = Math.max(sides.north, piece.north);
      }
      return sides;
    };
    const pieces = this.pieces(address), sides = of(pieces);
    if (!this.all.has(address) || sides.east - sides.west < 180) return sides;
    return of([pieces.reduce((longest, piece) => (piece.count > longest.count ? piece : longest))]);
  }

  /** Returns the least and the greatest latitude of a track, or of all, with every piece. */
  latitudes(address = NaN) {
    let south = Infinity, north = -Infinity;
    for (const piece of this.pieces(address)) {
      south = Math.min(south, piece.south);
      north = Math.max(north, piece.north);
    }
    return { south, north };
  }

  /** Returns the tracks as GeoJSON (RFC 7946). Each run of pieces is a line, or a point if it has one position. */
  geojson() {
    const features = [];
    for (const [address, { pieces }] of this.all) {
      for (const run of runsOf(pieces)) {
        const all = (column) => run.flatMap((piece) => Array.from(piece[column]));
        const lons = all("lons"), lats = all("lats"), lines = all("lines"), moments = all("moments");
        const places = lons.map((lon, at) => [lon, lats[at]]), isLine = places.length > 1;
        // (named and in the order as the columns of track are)
        const [line, moment] = isLine ? [lines, moments] : [lines[0], moments[0]];
        const geometry = { type: isLine ? "LineString" : "Point", coordinates: isLine ? places : places[0] };
        const doubtful = run[0].doubts ? { doubtful: true } : {};
        const properties = { line, moment, address: hexadecimal(address, 6), ...doubtful };
        features.push({ type: "Feature", properties, geometry });
      }
    }
    return { type: "FeatureCollection", features };
  }
}

Tracks.versions = 0;

/** Returns a position of a piece. @param {Piece} piece @returns {Spot} */
function spotOf(address, { lons, lats, moments, lines, kind }, at) {
  return { address, lon: lons[at], lat: lats[at], moment: moments[at], line: lines[at], kind };
}

/** Whether a track goes on into a piece without a cut at 180 degrees. @param {Piece} before @param {Piece} piece */
function goesOn(before, piece) {
  return piece.joined && Math.abs(piece.lons[0] - before.lons[before.count - 1]) <= 180;
}

/** Returns the pieces in runs: each run is one line. @param {Piece[]} pieces */
function runsOf(pieces) {
  /** @type {Piece[][]} */
  const runs = [];
  pieces.forEach((piece, at) => {
    if (at && goesOn(pieces[at - 1], piece)) runs[runs.length - 1].push(piece);
    else runs.push([piece]);
  });
  return runs;
}
