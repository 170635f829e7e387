/* squitter_tracking.js: the logs and trackers of squitter.js. */

import {
  ANSWER_TEXT_BYTES, AT, AltitudeForm, BYTES, FRAME_BYTES, Format, HEADER_BYTES, What, readAngle, readDone, readLast,
  readTally, writeLast,
} from "./squitter_layout.js";
import { Lent, PIECE_BYTES, ask, bytesOf, heardAt } from "./squitter_memory.js";
import { Angle, WINDOW, fitted, lowest, moment, refuseSettings, whole } from "./squitter_values.js";

/** The most addresses of a log or a tracker: 755 megabytes. */
const MOST_ADDRESSES = 1 << 20;

/** Returns the settings of a log or a tracker, with the defaults. */
function settingsOf(name, { window = WINDOW, limit = 1000, site = null, ...others }) {
  refuseSettings(name, ["window", "limit", "site"], others);
  const number = Number(whole(limit));
  if (number < 0 || number > MOST_ADDRESSES) throw new RangeError(`a limit is from 1 to ${MOST_ADDRESSES}`);
  return { window: moment(window), limit: number, site };
}

/** Creates a log or a tracker of the library, with its memory. */
function listenerOf(owner, library, name, settings) {
  const { memory } = library, { window, limit, site } = settingsOf(name, settings);
  // Reading the degrees of a text overwrites `outAt`, where the block is passed, so that comes first.
  const here = site === null ? null : memory.exactPosition(site);
  return new Lent(owner, library, name, Number(memory.exports[`squitter_${name}_size`](limit)), (slot, block) => {
    if (here) memory.putPosition(memory.placeAt, here);
    const words = [slot, block, limit, window, ...(here ? [BigInt(memory.placeAt)] : [])];
    ask(library, `${name}_new${here ? "_at" : ""}`, ...words);
  });
}

/** Room for so many present aircraft at first. */
const PRESENT_AT_FIRST = 256;

/** An aircraft that is present. Its parts are made when they are read. */
class Present {
  #library;
  #view;

  constructor(library, bytes) {
    this.#library = library;
    this.#view = new DataView(bytes.buffer, bytes.byteOffset, bytes.byteLength);
  }

  /** The ICAO address. */
  get address() {
    return this.#view.getUint32(AT.entry.address, true);
  }

  /** The timestamp of its newest position frame. */
  get moment() {
    return this.#view.getBigUint64(AT.entry.moment, true);
  }

  /** What is kept of it in the air. */
  get airborne() {
    return this.#side(AT.entry.airborne);
  }

  /** What is kept of it on the ground. */
  get surface() {
    return this.#side(AT.entry.surface);
  }

  #side(at) {
    const { even, odd, fix } = AT.side;
    return { even: this.#received(at + even), odd: this.#received(at + odd), fix: this.#fix(at + fix) };
  }

  /** Returns a frame and its timestamp, or null. All bytes of an absent one are 0. */
  #received(at) {
    const view = this.#view;
    const frame = new Uint8Array(view.buffer, view.byteOffset + at + AT.received.frame, FRAME_BYTES).slice();
    return frame[0] ? { moment: view.getBigUint64(at + AT.received.moment, true), frame } : null;
  }

  /** Returns the last fix and its timestamp, or null. The denominators of an absent one are 0. */
  #fix(at) {
    const [lat, lon] = [AT.position.lat, AT.position.lon]
      .map((angle) => readAngle(this.#view, at + AT.lastFix.position + angle));
    if (!lat.den) return null;
    const position = Object.freeze({ lat: exactAngle(this.#library, lat), lon: exactAngle(this.#library, lon) });
    return { moment: this.#view.getBigUint64(at + AT.lastFix.moment, true), position };
  }
}

/** Returns the angle of a fraction that may have common factors. */
function exactAngle(library, fraction) {
  const { num, den } = lowest(fraction.num, fraction.den);
  return new Angle(library, num, den);
}

/** Returns the aircraft of a tracker or a log that were heard since a timestamp, the last heard first. */
function presentIn(library, listener, since) {
  const { memory } = library, from = moment(since), call = memory.exports[`squitter_${listener.name}_present`];
  for (let size = PRESENT_AT_FIRST; ; size *= 4) {
    const room = memory.claim(ENTRY_BYTES * size);
    try {
      const count = Number(call(listener.slot, from, 0n, BigInt(room.at), BigInt(size)));
      if (count === size) continue;
      const bytes = memory.bytesAt(room.at, ENTRY_BYTES * count).slice();
      return Array.from({ length: count }, (_, index) =>
        new Present(library, bytes.subarray(ENTRY_BYTES * index, ENTRY_BYTES * (index + 1))));
    } finally {
      memory.release(room);
    }
  }
}

const ANSWERS_AT_ONCE = 4096, TEXT_ROOM = 1 << 18, E7 = 10_000_000;

// Sizes and offsets in bytes. As constants of their own they cost nothing for each line.
const LAST_BYTES = BYTES.last, ENTRY_BYTES = BYTES.entry, ANSWER_BYTES = BYTES.answer;
const { number: NUMBER, moment: MOMENT, address: ADDRESS, feet: FEET, kind: KIND, altitudeForm: FORM } = AT.answer;
const WHAT = AT.answer.heard + AT.heard.what, EVEN = AT.answer.heard + AT.heard.even;
const ODD = AT.answer.heard + AT.heard.odd, CODE = AT.answer.fault + AT.fault.code;
const FIRST = AT.answer.fault + AT.fault.first, LAT = AT.answer.degrees + AT.degreesE7.lat;
const LON = AT.answer.degrees + AT.degreesE7.lon;

/** Columns are filled with up to this many results, and then copied at their length. 1 MB of a log has fewer lines. */
const COLUMN_ROOM = 1 << 15;

/** The index of the lower half of a number of 64 bits in a typed array: 0, or 1 on a big-endian machine. */
const LOWER = 1 - new Uint8Array(Uint32Array.of(1).buffer)[0];

/** Returns columns with room for `count` results. */
function columnsOf(count) {
  return {
    numbers: new Float64Array(count), moments: new BigUint64Array(count), whats: new Uint8Array(count),
    addresses: new Int32Array(count), kinds: new Uint8Array(count), lats: new Float64Array(count),
    lons: new Float64Array(count), feet: new Float64Array(count), evens: new Uint8Array(count),
    odds: new Uint8Array(count), codes: new Uint32Array(count), firsts: new BigUint64Array(count),
  };
}

/** Returns copies of the columns, cut to the first `count` results. */
function frontOf({ ...columns }, count) {
  for (const name of Object.keys(columns)) columns[name] = columns[name].slice(0, count);
  return columns;
}

/** Joins columns, one part after the other. */
function joinedColumns(parts) {
  const all = columnsOf(parts.reduce((sum, part) => sum + part.numbers.length, 0));
  let from = 0;
  for (const part of parts) {
    for (const name of Object.keys(all)) all[name].set(part[name], from);
    from += part.numbers.length;
  }
  return all;
}

/** Copies `count` results from the address `from` to columns, from the index `first` on. Numbers of 64 bits are copied
 * in halves, because a BigInt for each line takes longer than everything else. */
function putAnswers(view, from, count, columns, first) {
  const { numbers, moments, whats, addresses, kinds, lats, lons, feet, evens, odds, codes, firsts } = columns;
  const times = new Uint32Array(moments.buffer), details = new Uint32Array(firsts.buffer);
  for (let index = first, at = from; index < first + count; index++, at += ANSWER_BYTES) {
    const what = view.getUint8(at + WHAT), isPlace = what === What.FIX || what === What.FOLLOWED;
    const lower = 2 * index + LOWER, upper = 2 * index + 1 - LOWER;
    numbers[index] = view.getUint32(at + NUMBER, true) + 2 ** 32 * view.getUint32(at + NUMBER + 4, true);
    times[lower] = view.getUint32(at + MOMENT, true);
    times[upper] = view.getUint32(at + MOMENT + 4, true);
    whats[index] = what;
    evens[index] = view.getUint8(at + EVEN);
    odds[index] = view.getUint8(at + ODD);
    codes[index] = view.getUint32(at + CODE, true);
    details[lower] = view.getUint32(at + FIRST, true);
    details[upper] = view.getUint32(at + FIRST + 4, true);
    addresses[index] = what ? view.getUint32(at + ADDRESS, true) : -1;
    kinds[index] = view.getUint8(at + KIND);
    lats[index] = isPlace ? view.getInt32(at + LAT, true) / E7 : NaN;
    lons[index] = isPlace ? view.getInt32(at + LON, true) / E7 : NaN;
    feet[index] = view.getUint8(at + FORM) === AltitudeForm.FEET ? view.getInt32(at + FEET, true) : NaN;
  }
}

/** A log in pieces of any length, as `squitter track` decodes it. */
export class Log {
  #listener;
  #library;
  #columnRoom;

  /** Creates a log without lines. `window` is in milliseconds, WINDOW by default. `limit` is the most aircraft at once.
   * `site` is the receiver position, which surface pairs need. Throws a RangeError for a limit below 0 or above 2^20,
   * and a TypeError for another setting. Faults: BAD_POSITION (the site), NO_LIMIT. */
  constructor(library, settings = {}) {
    this.#library = library;
    this.#listener = listenerOf(this, library, "log", settings);
    this.#listener.claimRooms({
      done: BYTES.done, piece: PIECE_BYTES, out: Math.max(TEXT_ROOM, ANSWERS_AT_ONCE * ANSWER_BYTES),
    });
  }

  /** Returns the results of the lines that end in this piece, as columns: `numbers` of the lines, `moments` (ms),
   * `whats` (see What; 0 for a refused line), `addresses` (-1 for a refused line), `kinds`, `lats` and `lons` in
   * degrees (NaN without a position), `feet` (NaN without an altitude), `evens` and `odds` (NL, for SPLIT), `codes` (0
   * for a good line) and `firsts`, the first numbers of faults. A text counts as its UTF-8 bytes. Throws a TypeError
   * unless the piece is a text, an ArrayBuffer or a view. Fault: NO_TRACKER. */
  take(piece) {
    return this.#columns((hear) => this.#pieces(piece, (at, count) => hear("log_take", at, count)));
  }

  /** Returns the result of the last line if it has no line feed, as columns. It ends the line and not the log: what is
   * taken next begins a new line, with the next number. Fault: NO_TRACKER. */
  finish() {
    return this.#columns((hear) => hear("log_finish"));
  }

  /** Returns the results of the lines that end in this piece, as text. Faults: NO_TRACKER, BAD_FORMAT. */
  takeText(piece, format = Format.LINES) {
    const number = fitted(format, 32);
    return this.#text((hear) => this.#pieces(piece, (at, count) => hear("log_take_text", number, at, count)));
  }

  /** Returns the result of the last line if it has no line feed, as text; see `finish`. Faults: NO_TRACKER,
   * BAD_FORMAT. */
  finishText(format = Format.LINES) {
    const number = fitted(format, 32);
    return this.#text((hear) => hear("log_finish_text", number));
  }

  /** Returns the header of a format: the line with the column names; empty for a format without one. */
  header(format = Format.LINES) {
    const { exports, outAt } = this.#library.memory;
    exports.squitter_log_header(fitted(format, 32), BigInt(outAt));
    return this.#library.memory.getText(outAt, HEADER_BYTES);
  }

  /** The numbers of good lines and of refused lines so far. Fault: NO_TRACKER. */
  get tally() {
    const { outAt } = this.#library.memory;
    ask(this.#library, "log_tally", this.#listener.slot, BigInt(outAt));
    return readTally(this.#library.memory.view(), outAt);
  }

  /** Returns the aircraft that were heard at or after a timestamp, as `Tracker.present` does. */
  present(since = 0n) {
    return presentIn(this.#library, this.#listener, since);
  }

  /** Frees the memory. Safe to call twice. */
  close() {
    this.#listener.close();
    this.#columnRoom = null;
  }

  /** Passes a piece to `hear` in parts that fit the memory. */
  #pieces(piece, hear) {
    const bytes = typeof piece === "string" ? new TextEncoder().encode(piece) : bytesOf(piece);
    if (!this.#listener.rooms.piece) return hear(this.#library.memory.zerosAt, 0);
    let from = 0;
    do {
      const part = bytes.subarray(from, from + PIECE_BYTES);
      this.#library.memory.putBytes(this.#listener.rooms.piece.at, part);
      hear(this.#listener.rooms.piece.at, part.length);
      from += PIECE_BYTES;
    } while (from < bytes.length);
  }

  /** Repeats a call until all of its bytes are taken and it leaves room in its output. */
  #call(room, full, name, at, count, format, use) {
    const { memory } = this.#library;
    const out = this.#listener.rooms.out?.at ?? memory.zerosAt, done = this.#listener.rooms.done?.at ?? memory.zerosAt;
    let taken = 0, written = 0;
    do {
      const words = [...(format === undefined ? [] : [format]),
        ...(at === undefined ? [] : [BigInt(at + taken), BigInt(count - taken)])];
      ask(this.#library, name, this.#listener.slot, ...words, BigInt(out), BigInt(room), BigInt(done));
      const progress = readDone(memory.view(), done);
      taken += Number(progress.taken);
      written = Number(progress.written);
      use(out, written);
    } while (written > full);
  }

  #columns(run) {
    const room = this.#columnRoom ??= columnsOf(COLUMN_ROOM), parts = [];
    let filled = 0;
    const flush = () => parts.push(frontOf(room, filled));
    run((name, at, count) => this.#call(ANSWERS_AT_ONCE, ANSWERS_AT_ONCE - 1, name, at, count, undefined,
      (out, written) => {
        if (filled + written > COLUMN_ROOM) {
          flush();
          filled = 0;
        }
        putAnswers(this.#library.memory.view(), out, written, room, filled);
        filled += written;
      }));
    flush();
    return parts.length === 1 ? parts[0] : joinedColumns(parts);
  }

  #text(run) {
    const decoder = new TextDecoder();
    let text = "";
    run((name, format, at, count) => this.#call(TEXT_ROOM, TEXT_ROOM - ANSWER_TEXT_BYTES, name, at, count, format,
      (out, written) => { text += decoder.decode(this.#library.memory.bytesAt(out, written)); }));
    return text;
  }
}

/** Gives a new tracker a state, and returns it. Frees the tracker if that fails. */
function restored(tracker, state) {
  try {
    tracker.restore(state);
  } catch (error) {
    tracker.close();
    throw error;
  }
  return tracker;
}

/** Positions of many aircraft from their frames, as `squitter track` decodes them. */
export class Tracker {
  #listener;
  #library;
  #settings;

  /** Creates an empty tracker. `window` is in milliseconds, WINDOW by default. `limit` is the most aircraft at once.
   * `site` is the receiver position, which surface pairs need. Throws a RangeError for a limit below 0 or above 2^20,
   * and a TypeError for another setting. Faults: BAD_POSITION (the site), NO_LIMIT. */
  constructor(library, settings = {}) {
    this.#library = library;
    this.#listener = listenerOf(this, library, "tracker", settings);
    const { window, limit, site } = settingsOf("tracker", settings);
    this.#settings = { window, limit, site: site && library.memory.exactPosition(site) };
  }

  /** Adds a frame with its timestamp, and returns the result. A Fault leaves the tracker unchanged.
   * Faults: those of `frame`, NO_TRACKER, NOT_DF17, PARITY, MOMENT_BACK, TABLE_FULL. */
  hear(at, source) {
    const { memory } = this.#library, time = moment(at);
    memory.putBytes(memory.firstAt, this.#library.frame(source));
    ask(this.#library, "tracker_hear", this.#listener.slot, time, BigInt(memory.firstAt), BigInt(memory.outAt));
    return heardAt(this.#library, memory.outAt);
  }

  /** The number of aircraft that are present; 0 after `close`. */
  get size() {
    return Number(this.#library.memory.exports.squitter_tracker_len(this.#listener.slot));
  }

  /** Returns the aircraft that were heard at or after a timestamp, the last heard first: `address`, `moment` of the
   * newest position, and what is kept `airborne` and on the `surface`: the newest `even` and `odd` frame with their
   * timestamps, and the last `fix`; each null if there is none. Without a timestamp these are all that are present;
   * none after `close`. */
  present(since = 0n) {
    return presentIn(this.#library, this.#listener, since);
  }

  /** The timestamp of the last accepted frame; 0n if none was accepted. */
  get last() {
    return this.#state(0).last ?? 0n;
  }

  /** Returns the state: `last`, the timestamp of the last accepted frame or null, and `entries`, 192 bytes for each
   * present aircraft. A structured clone can be restored elsewhere. A closed tracker has an empty state. */
  save() {
    return this.#state(this.size);
  }

  /** Returns the state, with the first `count` entries. */
  #state(count) {
    const { memory } = this.#library;
    const room = memory.claim(LAST_BYTES + ENTRY_BYTES * count);
    memory.bytesAt(room.at, LAST_BYTES).fill(0);
    const at = BigInt(room.at), entries = at + BigInt(LAST_BYTES);
    memory.exports.squitter_tracker_save(this.#listener.slot, at, entries, BigInt(count));
    const { moment: latest, heard } = readLast(memory.view(), room.at), last = heard ? latest : null;
    const saved = { last, entries: memory.bytesAt(room.at + LAST_BYTES, ENTRY_BYTES * count).slice() };
    memory.release(room);
    return saved;
  }

  /** Replaces the state of the tracker by one that `save` returned; the settings stay. Throws a RangeError unless the
   * entries have 192 bytes each. Faults: NO_TRACKER, BAD_ENTRY (no tracker with these settings can hold the entry at
   * index `first`). After BAD_ENTRY the tracker is as if it had heard no frame. */
  restore({ last, entries }) {
    const { memory } = this.#library, bytes = bytesOf(entries);
    if (bytes.length % ENTRY_BYTES) throw new RangeError(`an entry has ${ENTRY_BYTES} bytes`);
    const isHeard = last !== null && last !== undefined, time = isHeard ? moment(last) : 0n;
    const room = memory.claim(LAST_BYTES + bytes.length);
    try {
      writeLast(memory.view(), room.at, { moment: time, heard: isHeard ? 1n : 0n });
      memory.putBytes(room.at + LAST_BYTES, bytes);
      const at = BigInt(room.at), count = BigInt(bytes.length / ENTRY_BYTES);
      ask(this.#library, "tracker_restore", this.#listener.slot, at, at + BigInt(LAST_BYTES), count);
    } finally {
      memory.release(room);
    }
  }

  /** Returns a tracker with the same settings and state. */
  copy() {
    const state = this.save();
    return restored(new Tracker(this.#library, this.#settings), state);
  }

  /** Frees the memory. Safe to call twice. */
  close() {
    this.#listener.close();
  }
}

/** A tracker of one address. A second address throws TABLE_FULL while the first is present. */
export class Contact extends Tracker {
  #library;
  #window;
  #site;

  /** Creates a contact without frames; window and site as for Tracker, with the same default window. */
  constructor(library, window = WINDOW, site = null) {
    super(library, { window, site, limit: 1 });
    this.#library = library;
    this.#window = moment(window);
    this.#site = site && library.memory.exactPosition(site);
  }

  /** The timestamp of the newest position; 0n if there is none. */
  get newest() {
    return this.present()[0]?.moment ?? 0n;
  }

  /** Returns a contact with the same settings and state. */
  copy() {
    const state = this.save();
    return restored(new Contact(this.#library, this.#window, this.#site), state);
  }
}
