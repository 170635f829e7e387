/* squitter_order.js: the orders of squitter.js. */

import { joinedSquitters, squittersAt } from "./squitter_feed.js";
import { BYTES, Code, FRAME_BYTES, readDone } from "./squitter_layout.js";
import { Lent, ask, bytesOf } from "./squitter_memory.js";
import { moment } from "./squitter_values.js";

const SORTED_AT_ONCE = 1024, FIRST_ROOM = 4096;

/** Sorts squitters by their timestamps. It holds each squitter until one has come that is `reorder` milliseconds later,
 * and takes memory as it needs. Equal timestamps keep the order of arrival. The timestamps that it gives never go back:
 * a squitter below the last one is late, and is dropped and counted. The results do not depend on how the squitters
 * are cut into calls. */
export class Order {
  #lent;
  #library;
  #room = FIRST_ROOM;

  /** Creates an order without squitters. `reorder` is the delay in milliseconds. Throws a RangeError unless it is below
   * 2^64. */
  constructor(library, reorder) {
    const { memory } = library, delay = moment(reorder);
    this.#library = library;
    this.#lent = new Lent(this, library, "order", Number(memory.exports.squitter_order_size(FIRST_ROOM)),
      (slot, block) => ask(library, "order_new", slot, block, delay));
    const moments = 8 * SORTED_AT_ONCE, frames = FRAME_BYTES * SORTED_AT_ONCE;
    this.#lent.claimRooms({ done: BYTES.done, came: moments, data: frames, moments, frames });
  }

  /** Takes squitters: their timestamps (ms), and their frames, 14 bytes each, one after the other. Returns those that
   * are due, as Feed.take does. Throws a RangeError, and takes nothing, unless there are as many timestamps as frames,
   * and each is below 2^64. Throws a RangeError if the memory cannot grow. Fault: NO_TRACKER. */
  take(moments, frames) {
    const came = BigUint64Array.from(moments, moment), bytes = bytesOf(frames), parts = [];
    if (bytes.length !== FRAME_BYTES * came.length)
      throw new RangeError(`${came.length} timestamps go with ${FRAME_BYTES * came.length} bytes of frames`);
    let from = 0;
    do {
      const next = from + SORTED_AT_ONCE;
      this.#take(came.subarray(from, next), bytes.subarray(FRAME_BYTES * from, FRAME_BYTES * next), parts);
      from = next;
    } while (from < came.length);
    return joinedSquitters(parts);
  }

  /** Returns the squitters that are held, and holds none afterwards. Squitters below the last of them are late from
   * then on: an earlier source needs a new order. Fault: NO_TRACKER. */
  flush() {
    const parts = [];
    this.#call("order_flush", () => [], parts);
    return joinedSquitters(parts);
  }

  /** How many squitters are held. Fault: NO_TRACKER. */
  get held() {
    return this.#count("order_held");
  }

  /** How many squitters were late, and were dropped. Fault: NO_TRACKER. */
  get late() {
    return this.#count("order_late");
  }

  /** Frees the memory. Safe to call twice. */
  close() {
    this.#lent.close();
  }

  #count(name) {
    const { memory } = this.#library;
    ask(this.#library, name, this.#lent.slot, BigInt(memory.outAt));
    return Number(memory.view().getBigUint64(memory.outAt, true));
  }

  /** Moves the order to memory with room for twice as many squitters. */
  #grow() {
    const room = 2 * this.#room, { exports } = this.#library.memory;
    this.#lent.grow(Number(exports.squitter_order_size(room)),
      (slot, block) => ask(this.#library, "order_grow", slot, block));
    this.#room = room;
  }

  /** Makes a call. Returns whether the order is full, and throws any other fault. */
  #isFull(name, ...words) {
    try {
      ask(this.#library, name, this.#lent.slot, ...words);
      return false;
    } catch (fault) {
      if (fault.code !== Code.NO_MEMORY) throw fault;
      return true;
    }
  }

  /** Takes squitters that fit the memory. A closed order gets none, and throws. */
  #take(came, bytes, parts) {
    const { memory } = this.#library, { rooms } = this.#lent, count = rooms.came ? came.length : 0;
    const cameAt = rooms.came?.at ?? memory.zerosAt, dataAt = rooms.data?.at ?? memory.zerosAt;
    new BigUint64Array(memory.exports.memory.buffer, cameAt, count).set(came.subarray(0, count));
    memory.putBytes(dataAt, bytes.subarray(0, FRAME_BYTES * count));
    const rest = (taken) => [cameAt + 8 * taken, count - taken, dataAt + FRAME_BYTES * taken, count - taken];
    this.#call("order_take", (taken) => rest(taken).map(BigInt), parts);
  }

  /** Repeats a call until it leaves room in its outputs, and adds the squitters of each. `given` has its arguments for
   * the squitters behind the ones that were taken. The order grows when it is full. */
  #call(name, given, parts) {
    const { memory } = this.#library, { rooms } = this.#lent, { zerosAt } = memory;
    const [moments, frames, done] = [rooms.moments, rooms.frames, rooms.done].map((room) => room?.at ?? zerosAt);
    const outputs = [moments, SORTED_AT_ONCE, frames, SORTED_AT_ONCE, done].map(BigInt);
    let taken = 0, written = 0, isFull = false;
    do {
      isFull = this.#isFull(name, ...given(taken), ...outputs);
      const progress = readDone(memory.view(), done);
      taken += Number(progress.taken);
      written = Number(progress.written);
      parts.push(squittersAt(memory, moments, frames, written));
      if (isFull) this.#grow();
    } while (isFull || written === SORTED_AT_ONCE);
  }
}
