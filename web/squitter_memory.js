/* squitter_memory.js: the memory of the module of squitter.js, and how calls find their arguments and results there. */

import {
  AT, AltitudeForm, Fields, HINTS, Kind, What, readAngle, readFault, readZones, writeAngle, writeBlock,
} from "./squitter_layout.js";
import { Angle, Fault, PAGE_BYTES, fitted, fraction } from "./squitter_values.js";

/** Pages that 32-bit addresses reach: 4 GiB. */
const MOST_PAGES = 65536;

/** The memory of the module, and the addresses of arguments and results, above the memory that the module uses. */
export class Memory {
  /** `angle` parses the text of an angle. */
  constructor(exports, angle) {
    Object.assign(this, { exports, angle });
    const base = exports.memory.buffer.byteLength;
    this.grow(1);
    Object.assign(this, { faultAt: base, outAt: base + 256, firstAt: base + 512, secondAt: base + 544 });
    Object.assign(this, { placeAt: base + 576, textAt: base + 1024, textRoom: PAGE_BYTES - 1088 });
    Object.assign(this, { zerosAt: base + PAGE_BYTES - 64, end: base + PAGE_BYTES });
    /** @type {{at: number, count: number}[]} */
    this.free = [];
    this.data = new DataView(exports.memory.buffer);
    this.all = new Uint8Array(exports.memory.buffer);
  }

  /** Grows by this many pages. Throws a RangeError beyond 4 GiB: the module takes the low 32 bits of an address, so one
   * beyond them would be another. The engine throws one too, if it has less memory. */
  grow(pages) {
    const { memory } = this.exports, most = MOST_PAGES - memory.buffer.byteLength / PAGE_BYTES;
    if (pages > most) throw new RangeError(`the library's memory ends at 4 GiB, and cannot grow by ${pages} pages`);
    memory.grow(pages);
  }

  /** Grows until there are `count` bytes from address `at` on. */
  reach(at, count) {
    const lack = at + count - this.exports.memory.buffer.byteLength;
    if (lack > 0) this.grow(Math.ceil(lack / PAGE_BYTES));
  }

  /** Returns a block of at least `count` bytes, aligned to 16: the front of the smallest free one that fits, or a new
   * one. Throws a RangeError if the memory cannot grow; nothing is claimed then. */
  claim(count) {
    const size = 16 * Math.ceil(count / 16);
    const [fitting] = this.free.filter((block) => block.count >= size).sort((one, other) => one.count - other.count);
    const block = { at: fitting ? fitting.at : this.end, count: size };
    if (!fitting) {
      this.reach(block.at, size);
      this.end += size;
    } else {
      this.free.splice(this.free.indexOf(fitting), 1);
      if (fitting.count > size) this.free.push({ at: fitting.at + size, count: fitting.count - size });
    }
    return block;
  }

  /** Makes a block free for later claims. It is joined with its free neighbours, so that a larger claim fits too. */
  release(block) {
    const touches = ({ at, count }) => at + count === block.at || at === block.at + block.count;
    const joined = [block, ...this.free.filter(touches)].sort((one, other) => one.at - other.at);
    const at = joined[0].at, count = joined.reduce((sum, part) => sum + part.count, 0);
    this.free = this.free.filter((other) => !joined.includes(other));
    if (at + count === this.end) this.end = at;
    else this.free.push({ at, count });
  }

  view() {
    const { buffer } = this.exports.memory;
    return this.data.buffer === buffer ? this.data : (this.data = new DataView(buffer));
  }

  bytes() {
    const { buffer } = this.exports.memory;
    return this.all.buffer === buffer ? this.all : (this.all = new Uint8Array(buffer));
  }

  bytesAt(at, count) {
    return this.bytes().subarray(at, at + count);
  }

  putBytes(at, bytes) {
    this.bytesAt(at, bytes.length).set(bytes);
  }

  /** Writes a text, and returns its length. Halves of surrogate pairs become bytes that no frame and no angle has. */
  putText(text) {
    const spelled = new TextEncoder().encode(text);
    if (spelled.length > this.textRoom) {
      const { at, count } = this.claim(2 * spelled.length);
      Object.assign(this, { textAt: at, textRoom: count });
    }
    this.putBytes(this.textAt, spelled);
    return BigInt(spelled.length);
  }

  /** Returns degrees as a fraction. Throws the fault of a text that is no angle. */
  exact(degrees) {
    return typeof degrees === "string" ? this.angle(degrees) : fraction(degrees);
  }

  /** Returns a position with exact degrees. Throws a TypeError for anything but {lat, lon}. */
  exactPosition(position) {
    const { lat, lon } = position ?? {};
    if (lat === undefined || lon === undefined) throw new TypeError("a position is {lat, lon}, in degrees");
    return { lat: this.exact(lat), lon: this.exact(lon) };
  }

  putAngle(at, degrees) {
    writeAngle(this.view(), at, this.exact(degrees));
  }

  putPosition(at, position) {
    const { lat, lon } = this.exactPosition(position);
    writeAngle(this.view(), at + AT.position.lat, lat);
    writeAngle(this.view(), at + AT.position.lon, lon);
  }

  /** Writes a head; `members` has the name, offset and size of each field. */
  putHead(at, members, head) {
    for (const [name, offset, count] of members) {
      const value = fitted(head[name], 8 * count), view = this.view();
      if (count === 4) view.setUint32(at + offset, value, true);
      else if (count === 2) view.setUint16(at + offset, value, true);
      else view.setUint8(at + offset, value);
    }
  }

  /** Returns the text at an address, up to the first zero. */
  getText(at, room) {
    const held = this.bytes();
    let text = "";
    for (let next = at; next < at + room && held[next]; next++) text += String.fromCharCode(held[next]);
    return text;
  }

  getFields(at) {
    const fields = new Fields(this.view(), at);
    // 0 is a code and an altitude, so what a squitter lacks is null.
    if (fields.kind === Kind.OTHER) fields.lat = fields.lon = null;
    if (fields.altitudeForm !== AltitudeForm.FEET) fields.feet = null;
    return fields;
  }

  getZones(at) {
    return readZones(this.view(), at);
  }
}

/** Makes a call that returns a fault, and throws the fault unless its code is OK. */
export function ask(library, name, ...words) {
  const { exports, faultAt } = library.memory;
  exports[`squitter_${name}`](BigInt(faultAt), ...words);
  const view = library.memory.view();
  // Only a fault is read as a whole, because a BigInt takes longer than the rest.
  if (!view.getUint32(faultAt + AT.fault.code, true)) return;
  const { code, first, second } = readFault(view, faultAt), text = library.faultText(code, first, second);
  throw new Fault(code in HINTS ? `${text}: ${HINTS[code]}` : text, code, first, second);
}

export function angleAt(library, at) {
  const { num, den } = readAngle(library.memory.view(), at);
  return new Angle(library, num, den);
}

export function positionAt(library, at) {
  return Object.freeze({ lat: angleAt(library, at + AT.position.lat), lon: angleAt(library, at + AT.position.lon) });
}

/** Returns the result for a frame, from an address. */
export function heardAt(library, at) {
  const view = library.memory.view(), what = view.getUint8(at + AT.heard.what);
  const isPlaced = what === What.FIX || what === What.FOLLOWED;
  const position = isPlaced ? positionAt(library, at + AT.heard.position) : null;
  return { what, position, even: view.getUint8(at + AT.heard.even), odd: view.getUint8(at + AT.heard.odd) };
}

/** Frees the memory of logs, trackers and feeds that are no longer used. */
const unused = new FinalizationRegistry((lent) => lent.close());

/** The memory of a log, a tracker or a feed: a block that starts with the library's 16 bytes (`slot`). `rooms` are
 * other blocks of the owner. */
export class Lent {
  /** Calls `make` with the slot, and with a pointer to the size and the address of a block of `size` bytes. */
  constructor(owner, library, name, size, make) {
    const { memory } = library;
    unused.register(owner, this);
    Object.assign(this, { library, name, block: memory.claim(16 + size), rooms: {} });
    this.slot = BigInt(this.block.at);
    memory.bytesAt(this.block.at, 16).fill(0);
    writeBlock(memory.view(), memory.outAt, { size: BigInt(size), memory: this.slot + 16n });
    try {
      make(this.slot, BigInt(memory.outAt));
    } catch (error) {
      this.close();
      throw error;
    }
  }

  /** Claims a block for each of these sizes as `rooms`. If the memory cannot grow, frees all memory of the owner, and
   * throws a RangeError. */
  claimRooms(sizes) {
    try {
      for (const [name, size] of Object.entries(sizes)) this.rooms[name] = this.library.memory.claim(size);
    } catch (error) {
      this.close();
      throw error;
    }
  }

  /** Calls `move` with the slot and a pointer to a block of `size` bytes, which takes the place of the one before it.
   * Throws a RangeError if the memory cannot grow. */
  grow(size, move) {
    const { memory } = this.library, block = memory.claim(size), last = this.rooms.grown;
    writeBlock(memory.view(), memory.outAt, { size: BigInt(block.count), memory: BigInt(block.at) });
    this.rooms.grown = block;
    move(this.slot, BigInt(memory.outAt));
    if (last) memory.release(last);
  }

  /** Frees the memory. Each later call throws NO_TRACKER. */
  close() {
    if (!this.block) return;
    this.library.memory.exports[`squitter_${this.name}_free`](this.slot);
    for (const block of [this.block, ...Object.values(this.rooms)]) this.library.memory.release(block);
    this.block = null;
    this.rooms = {};
    // A slot of zeros means no log, no tracker and no feed.
    this.slot = BigInt(this.library.memory.zerosAt);
  }
}

/** The most bytes that one call of the library gets. */
export const PIECE_BYTES = 1 << 16;

/** Returns the bytes of a piece. Throws a TypeError for anything else. */
export function bytesOf(piece) {
  if (ArrayBuffer.isView(piece)) return new Uint8Array(piece.buffer, piece.byteOffset, piece.byteLength);
  if (piece instanceof ArrayBuffer) return new Uint8Array(piece);
  const hint = typeof piece === "string" ? "; new TextEncoder().encode(text) makes one of a text" : "";
  throw new TypeError(`a piece is an ArrayBuffer or a view of one${hint}`);
}
