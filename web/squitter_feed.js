/* squitter_feed.js: the feeds of squitter.js. */

import {
  BYTES, FEED_ALL_FORMATS, FEED_BY_ARRIVAL, FEED_LIVE, FRAME_BYTES, FeedFormat, LINE_BYTES, readCounts, readDone,
} from "./squitter_layout.js";
import { Lent, PIECE_BYTES, ask, bytesOf } from "./squitter_memory.js";
import { fitted, moment, refuseSettings } from "./squitter_values.js";

const SQUITTERS_AT_ONCE = 1024, LINES_ROOM = 1 << 16;

/** Finds the squitters in a receiver's bytes, in pieces of any length, with their timestamps in milliseconds. */
export class Feed {
  #lent;
  #library;

  /** Creates a feed at the start of a source. `format` is one of FeedFormat. If it is AUTO, the first bytes show it:
   * the start of a Beast message, or a line with a frame. The whole source is then read in that format. A gap above
   * `leap` milliseconds is a jump of the source's clock. Arrival times count only if the source is `live`. A timestamp
   * may be before the latest one by `late` milliseconds; with 0, timestamps never go back. With `allFormats`, frames
   * of all downlink formats are written, those below 16 as seven bytes and seven zeros; otherwise those of format 17.
   * With `byArrival`, the receiver's clock is ignored. Throws a TypeError for another setting. Fault: BAD_FORMAT. */
  constructor(library, {
    format = FeedFormat.AUTO, leap = 600_000n, live = false, late = 0n, allFormats = false, byArrival = false,
    ...others
  } = {}) {
    refuseSettings("feed", ["format", "leap", "live", "late", "allFormats", "byArrival"], others);
    const { memory } = library, number = fitted(format, 32), longest = moment(leap), latest = moment(late);
    const flags = (live ? FEED_LIVE : 0) + (byArrival ? FEED_BY_ARRIVAL : 0) + (allFormats ? FEED_ALL_FORMATS : 0);
    this.#library = library;
    this.#lent = new Lent(this, library, "feed", Number(memory.exports.squitter_feed_size()),
      (slot, block) => ask(library, "feed_new", slot, block, number, longest, latest, flags));
    this.#lent.claimRooms({
      done: BYTES.done, piece: PIECE_BYTES, moments: 8 * SQUITTERS_AT_ONCE, out: LINES_ROOM,
    });
  }

  /** Returns the squitters in this piece: their timestamps (`moments`), and their `frames`, 14 bytes each, one after
   * the other. `arrival` is the arrival time of the piece (ms). An incomplete message at the end waits for the next
   * piece. Throws a TypeError unless the piece is an ArrayBuffer or a view. Fault: NO_TRACKER. */
  take(piece, arrival = 0n) {
    return this.#squitters("feed_take", bytesOf(piece), moment(arrival));
  }

  /** Ends the source. Returns its last squitters, as `take` does, such as that of a last line without a line feed. The
   * next piece belongs to another source. Fault: NO_TRACKER. */
  finish(arrival = 0n) {
    return this.#squitters("feed_finish", null, moment(arrival));
  }

  /** Returns the squitters in this piece as lines for a Log. Fault: NO_TRACKER. */
  takeText(piece, arrival = 0n) {
    return this.#text("feed_take_text", bytesOf(piece), moment(arrival));
  }

  /** Ends the source. Returns the lines of its last squitters. Fault: NO_TRACKER. */
  finishText(arrival = 0n) {
    return this.#text("feed_finish_text", null, moment(arrival));
  }

  /** Drops an unfinished frame after a lost connection, and counts it as damaged. The next piece belongs to a new
   * connection, and its clock starts afresh. Fault: NO_TRACKER. */
  disconnected() {
    ask(this.#library, "feed_disconnected", this.#lent.slot);
  }

  /** The format of the source, or null if its bytes so far do not show one. Fault: NO_TRACKER. */
  get format() {
    const number = this.#source();
    return number < FeedFormat.AUTO ? number : null;
  }

  /** What the source is (Stranger) if it holds no frames of a known format, or null. It is known
   * once 16,384 bytes show no format, or after `finish`. Fault: NO_TRACKER. */
  get stranger() {
    const number = this.#source();
    return number > FeedFormat.AUTO ? number : null;
  }

  #source() {
    const { memory } = this.#library;
    ask(this.#library, "feed_format", this.#lent.slot, BigInt(memory.outAt));
    return memory.view().getUint32(memory.outAt, true);
  }

  /** The counts of the items so far: `found` is the sum of all others. `formats` counts the frames of each downlink
   * format other than 17; its last number counts formats 24 and above. With `allFormats` these frames count as
   * `written`. Fault: NO_TRACKER. */
  get counts() {
    const { memory } = this.#library, { outAt } = memory;
    ask(this.#library, "feed_counts", this.#lent.slot, BigInt(outAt));
    return readCounts(memory.view(), outAt);
  }

  /** Frees the memory. Safe to call twice. */
  close() {
    this.#lent.close();
  }

  /** Calls the library for a piece, in parts that fit the memory, or for the end. Repeats the call until all bytes are
   * taken and it leaves room in its outputs. */
  #call(name, bytes, arrival, outputs, full, use) {
    const { memory } = this.#library, { zerosAt } = memory, at = this.#lent.rooms.piece?.at ?? zerosAt;
    const done = this.#lent.rooms.done?.at ?? zerosAt, rest = [...outputs.map(BigInt), BigInt(done)];
    let from = 0;
    do {
      const part = this.#lent.rooms.piece && bytes ? bytes.subarray(from, from + PIECE_BYTES) : new Uint8Array(0);
      memory.putBytes(at, part);
      let taken = 0, written = 0;
      do {
        const given = bytes ? [BigInt(at + taken), BigInt(part.length - taken)] : [];
        ask(this.#library, name, this.#lent.slot, ...given, arrival, ...rest);
        const progress = readDone(memory.view(), done);
        taken += Number(progress.taken);
        written = Number(progress.written);
        use(written);
      } while (written > full);
      from += PIECE_BYTES;
    } while (bytes && from < bytes.length);
  }

  #squitters(name, bytes, arrival) {
    const { memory } = this.#library, moments = this.#lent.rooms.moments?.at ?? memory.zerosAt;
    const out = this.#lent.rooms.out?.at ?? memory.zerosAt, parts = [];
    const outputs = [moments, SQUITTERS_AT_ONCE, out, SQUITTERS_AT_ONCE];
    this.#call(name, bytes, arrival, outputs, SQUITTERS_AT_ONCE - 1,
      (count) => parts.push(squittersAt(memory, moments, out, count)));
    return joinedSquitters(parts);
  }

  #text(name, bytes, arrival) {
    const { memory } = this.#library, out = this.#lent.rooms.out?.at ?? memory.zerosAt, decoder = new TextDecoder();
    let text = "";
    this.#call(name, bytes, arrival, [out, LINES_ROOM], LINES_ROOM - LINE_BYTES,
      (written) => { text += decoder.decode(memory.bytesAt(out, written)); });
    return text;
  }
}

/** Returns the squitters that a call has written: timestamps and frames, at these addresses. */
export function squittersAt(memory, moments, frames, count) {
  return {
    moments: new BigUint64Array(memory.exports.memory.buffer, moments, count).slice(),
    frames: memory.bytesAt(frames, FRAME_BYTES * count).slice(),
  };
}

/** Joins the squitters of several calls. */
export function joinedSquitters(parts) {
  if (parts.length === 1) return parts[0];
  const count = parts.reduce((sum, part) => sum + part.moments.length, 0);
  const moments = new BigUint64Array(count), frames = new Uint8Array(FRAME_BYTES * count);
  let from = 0;
  for (const part of parts) {
    moments.set(part.moments, from);
    frames.set(part.frames, FRAME_BYTES * from);
    from += part.moments.length;
  }
  return { moments, frames };
}
