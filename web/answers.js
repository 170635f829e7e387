/* answers.js: the results of a log, and the rows of its table. */
"use strict";

/** @typedef {Answers & {first: number}} Chunk  some results, with the number of results before them */

/** The number of results that show the unit of their timestamps. */
const WATCHED = 1 << 14;

/** Returns whether a result has a position. @param {number} what */
const isPlace = (what) => what === What.FIX || what === What.FOLLOWED;

/** The results of a log so far, and those that pass the filter. */
class LogAnswers {
  /** @param {Library} library */
  constructor(library) {
    this.library = library;
    /** @type {Chunk[]} */
    this.chunks = [];
    this.count = 0;
    this.places = 0;
    this.refused = 0;
    this.withoutSite = 0;
    this.withoutTime = 0;
    this.clock = new LogClock(0n);
    this.isTimed = false;
    /** @type {(what: number, address: number) => boolean} */
    this.wanted = () => true;
    /** @type {number[]} */
    this.left = [];
  }

  /** @param {Answers} answers */
  add(answers) {
    if (!answers.numbers.length) return;
    const chunk = { ...answers, first: this.count };
    this.chunks.push(chunk);
    this.count += answers.numbers.length;
    const { whats, codes } = answers;
    for (let at = 0; at < whats.length; at++) {
      if (isPlace(whats[at])) this.places++;
      if (whats[at] === What.WITHOUT_SITE) this.withoutSite++;
      if (whats[at]) continue;
      this.refused++;
      if (codes[at] === Code.BAD_MOMENT) this.withoutTime++;
    }
    if (!this.isTimed) this.startClock(answers);
    this.sift(chunk);
  }

  /** Starts the clock at the first moment. @param {Answers} answers */
  startClock({ whats, moments }) {
    const first = whats.findIndex(Boolean);
    if (first < 0) return;
    this.isTimed = true;
    this.clock = new LogClock(moments[first]);
  }

  /** Returns what the timestamps seem to be if they are not milliseconds, or "". @param {boolean} clocked */
  unitText(clocked) {
    /** @type {bigint[]} */
    const times = [];
    /** @type {number[]} */
    const aircraft = [];
    for (const { whats, moments, addresses } of this.chunks) {
      for (let at = 0; at < whats.length && times.length < WATCHED; at++) {
        if (!whats[at]) continue;
        times.push(moments[at]);
        aircraft.push(addresses[at]);
      }
    }
    return UNIT_TEXTS[this.library.unitOf(times, aircraft, clocked)] ?? "";
  }

  /** @param {Chunk} chunk */
  sift({ whats, addresses, first }) {
    const { wanted, left } = this;
    for (let at = 0; at < whats.length; at++) if (wanted(whats[at], addresses[at])) left.push(first + at);
  }

  /** @param {(what: number, address: number) => boolean} wanted */
  filter(wanted) {
    this.wanted = wanted;
    this.left = [];
    for (const chunk of this.chunks) this.sift(chunk);
  }

  /** Returns the chunk of a result, and its index there. @param {number} index @returns {[Chunk, number]} */
  find(index) {
    let low = 0, high = this.chunks.length - 1;
    while (low < high) {
      const middle = (low + high + 1) >> 1;
      if (this.chunks[middle].first <= index) low = middle;
      else high = middle - 1;
    }
    return [this.chunks[low], index - this.chunks[low].first];
  }

  /** Returns the altitude of a line's frame in feet, or NaN. @param {number} line */
  feetOfLine(line) {
    let low = 0, high = this.count - 1;
    while (low < high) {
      const middle = (low + high) >> 1, [chunk, at] = this.find(middle);
      if (chunk.numbers[at] < line) low = middle + 1;
      else high = middle;
    }
    if (!this.count) return NaN;
    const [chunk, at] = this.find(low);
    return chunk.numbers[at] === line ? chunk.feet[at] : NaN;
  }

  /** Returns the cells of a result. @param {number} index @returns {string[]} */
  row(index) {
    const [chunk, at] = this.find(index), what = chunk.whats[at], number = String(chunk.numbers[at]);
    if (!what) {
      const words = this.library.faultText(chunk.codes[at], chunk.firsts[at]);
      return [number, "", `${HEARD[what]}: ${words}`, "", "", "", ""];
    }
    const heard = what === What.SPLIT ? `${HEARD[what]} ${chunk.evens[at]} ${chunk.odds[at]}` : HEARD[what];
    const place = isPlace(what) ? [chunk.lats[at].toFixed(7), chunk.lons[at].toFixed(7)] : ["", ""];
    const address = hexadecimal(chunk.addresses[at], 6), time = this.clock.text(chunk.moments[at]);
    return [number, time, heard, address, ...place, feetText(chunk.feet[at])];
  }
}

/** Returns an altitude as text, which is empty for NaN. */
const feetText = (feet) => (Number.isNaN(feet) ? "" : `${feet} ft`);
