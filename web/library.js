/* squitter.js as a classic script, for a page opened from a folder; web/embed writes this file. */
"use strict";
function squitterModule() {
const VERSION = 256;
const FRAME_BYTES = 14; // of a frame
const FRAME_DIGITS = 28; // of a frame's text, without a zero at its end
const ANGLE_TEXT_BYTES = 16; // room for an angle's text and the zeros after it
const FAULT_TEXT_BYTES = 64; // room for a fault's text and the zeros after it
const BEYOND_RANGE = 1; // it is further from the site than the range
const TOO_FAST = 2; // the aircraft would be faster than the speed
const HEADER_BYTES = 64; // room for the header of a format and the zeros after it
const ANSWER_TEXT_BYTES = 512; // the most that the text of one line takes
const FEED_LIVE = 1; // arrivals say when the bytes were received; otherwise they have no effect
const FEED_BY_ARRIVAL = 2; // the receiver's clock is ignored, so that its frames have their arrivals
const FEED_ALL_FORMATS = 4; // frames of all downlink formats are written; otherwise those of format 17
const LINE_BYTES = 50; // the most that one line of a log takes
const Code = Object.freeze({
  OK: 0, WRAP: 1, SHORT: 2, LENGTH: 3, DIGIT: 4, NOT_DF17: 5, PARITY: 6, NOT_POSITION: 10, OTHER_ADDRESS: 11,
  OTHER_KIND: 12, SAME_PARITY: 13, NO_SITE: 14, OUT_OF_RANGE: 15, ZONE_COUNTS: 16, BAD_POSITION: 20, BAD_FIELDS: 21,
  BAD_ANGLE: 22, BAD_LATITUDE: 23, BAD_FEET: 24, BAD_PARITY: 25, NOT_A_NUMBER: 30, TOO_MANY_DECIMALS: 31,
  ANGLE_RANGE: 32, LONG_LINE: 40, BAD_MOMENT: 41, MOMENT_BACK: 42, TABLE_FULL: 43, NO_MEMORY: 44, NO_LIMIT: 45,
  NO_TRACKER: 46, LONG_LOG: 48, BAD_FORMAT: 49, BAD_ENTRY: 50,
});
const Kind = Object.freeze({ OTHER: 0, AIR: 1, GROUND: 2 });
const AltitudeForm = Object.freeze({ NONE: 0, FEET: 1, OTHER: 2 });
const What = Object.freeze({ FIX: 1, FOLLOWED: 2, WAITING: 3, SPLIT: 4, FAR: 5, WITHOUT_SITE: 6, NO_PLACE: 7 });
const Format = Object.freeze({ LINES: 0, CSV: 1, JSON: 2 });
const FeedFormat = Object.freeze({ BEAST: 0, AVR: 1, CSV: 2, LOG: 3, AUTO: 4 });
const Stranger = Object.freeze({
  SBS: 5, TAR: 6, PACKED: 7, UTF16: 8, JSON: 9, NO_FRAME: 10, SEMICOLONS: 11, TABS: 12, NO_TIME: 13, NO_RAWMSG: 14,
  NO_SECONDS: 15, NO_NAMES: 16,
});
const Unit = Object.freeze({
  MILLISECONDS: 0, SECONDS: 1, MICROSECONDS: 2, NANOSECONDS: 3, ALL_ZERO: 4, GPS: 5,
});
const BYTES = Object.freeze({
  fault: 16, angle: 16, position: 32, degreesE7: 8, fields: 40, airHead: 12, groundHead: 12, altitude: 8, zones: 16,
  received: 24, lastFix: 40, side: 88, entry: 192, watch: 8, last: 16, heard: 40, block: 16, tracker: 16, log: 16,
  answer: 96, done: 16, tally: 16, feed: 16, order: 16, counts: 272,
});
const AT = Object.freeze({
  fault: Object.freeze({ code: 0, second: 4, first: 8 }),
  angle: Object.freeze({ num: 0, den: 8 }),
  position: Object.freeze({ lat: 0, lon: 16 }),
  degreesE7: Object.freeze({ lat: 0, lon: 4 }),
  fields: Object.freeze({
    raw: 0, address: 8, lat: 12, lon: 16, feet: 20, altitude: 24, altitudeForm: 26, kind: 27, ca: 28, typeCode: 29,
    odd: 30, time: 31, status: 32, flag: 33, movement: 34, trackStatus: 35, track: 36,
  }),
  airHead: Object.freeze({ address: 0, altitude: 4, ca: 6, typeCode: 7, status: 8, flag: 9, time: 10, odd: 11 }),
  groundHead: Object.freeze({
    address: 0, ca: 4, typeCode: 5, movement: 6, trackStatus: 7, track: 8, time: 9, odd: 10,
  }),
  altitude: Object.freeze({ feet: 0, form: 4 }),
  zones: Object.freeze({ latZone: 0, lonZone: 4, degrees: 8, latZones: 12, zoneCount: 13, lonZones: 14, odd: 15 }),
  received: Object.freeze({ moment: 0, frame: 8 }),
  lastFix: Object.freeze({ moment: 0, position: 8 }),
  side: Object.freeze({ even: 0, odd: 24, fix: 48 }),
  entry: Object.freeze({ moment: 0, address: 8, airborne: 16, surface: 104 }),
  watch: Object.freeze({ range: 0, speed: 4 }),
  last: Object.freeze({ moment: 0, heard: 8 }),
  heard: Object.freeze({ position: 0, what: 32, even: 33, odd: 34 }),
  block: Object.freeze({ size: 0, memory: 8 }),
  tracker: Object.freeze({ full: 0, at: 8 }),
  log: Object.freeze({ full: 0, at: 8 }),
  answer: Object.freeze({
    number: 0, moment: 8, heard: 16, fault: 56, degrees: 72, address: 80, feet: 84, kind: 88, altitudeForm: 89,
  }),
  done: Object.freeze({ taken: 0, written: 8 }),
  tally: Object.freeze({ good: 0, refused: 8 }),
  feed: Object.freeze({ full: 0, at: 8 }),
  order: Object.freeze({ full: 0, at: 8 }),
  counts: Object.freeze({
    found: 0, written: 8, modeAc: 16, multilaterated: 24, receiverIds: 32, damaged: 40, aside: 48, formats: 56,
    breaks: 256, ahead: 264,
  }),
});
const AIR_HEAD_MEMBERS = [
  ["address", 0, 4], ["altitude", 4, 2], ["ca", 6, 1], ["typeCode", 7, 1], ["status", 8, 1], ["flag", 9, 1],
  ["time", 10, 1], ["odd", 11, 1],
];
const GROUND_HEAD_MEMBERS = [
  ["address", 0, 4], ["ca", 4, 1], ["typeCode", 5, 1], ["movement", 6, 1], ["trackStatus", 7, 1], ["track", 8, 1],
  ["time", 9, 1], ["odd", 10, 1],
];
class Fields {
  constructor(view, at) {
    this.raw = view.getBigUint64(at, true);
    this.address = view.getUint32(at + 8, true);
    this.lat = view.getUint32(at + 12, true);
    this.lon = view.getUint32(at + 16, true);
    this.feet = view.getInt32(at + 20, true);
    this.altitude = view.getUint16(at + 24, true);
    this.altitudeForm = view.getUint8(at + 26);
    this.kind = view.getUint8(at + 27);
    this.ca = view.getUint8(at + 28);
    this.typeCode = view.getUint8(at + 29);
    this.odd = view.getUint8(at + 30);
    this.time = view.getUint8(at + 31);
    this.status = view.getUint8(at + 32);
    this.flag = view.getUint8(at + 33);
    this.movement = view.getUint8(at + 34);
    this.trackStatus = view.getUint8(at + 35);
    this.track = view.getUint8(at + 36);
  }
  toJSON() {
    return { ...this, raw: String(this.raw) };
  }
}
function readFault(view, at) {
  return {
    code: view.getUint32(at, true),
    second: view.getUint32(at + 4, true),
    first: view.getBigUint64(at + 8, true),
  };
}
function readAngle(view, at) {
  return {
    num: view.getBigInt64(at, true),
    den: view.getBigUint64(at + 8, true),
  };
}
function readZones(view, at) {
  return {
    latZone: view.getInt32(at, true),
    lonZone: view.getUint32(at + 4, true),
    degrees: view.getUint32(at + 8, true),
    latZones: view.getUint8(at + 12),
    zoneCount: view.getUint8(at + 13),
    lonZones: view.getUint8(at + 14),
    odd: view.getUint8(at + 15),
  };
}
function readDegreesE7(view, at) {
  return {
    lat: view.getInt32(at, true),
    lon: view.getInt32(at + 4, true),
  };
}
function readAltitude(view, at) {
  return {
    feet: view.getInt32(at, true),
    form: view.getUint8(at + 4),
  };
}
function readDone(view, at) {
  return {
    taken: view.getBigUint64(at, true),
    written: view.getBigUint64(at + 8, true),
  };
}
function readTally(view, at) {
  return {
    good: view.getBigUint64(at, true),
    refused: view.getBigUint64(at + 8, true),
  };
}
function readLast(view, at) {
  return {
    moment: view.getBigUint64(at, true),
    heard: view.getBigUint64(at + 8, true),
  };
}
function readCounts(view, at) {
  return {
    found: view.getBigUint64(at, true),
    written: view.getBigUint64(at + 8, true),
    modeAc: view.getBigUint64(at + 16, true),
    multilaterated: view.getBigUint64(at + 24, true),
    receiverIds: view.getBigUint64(at + 32, true),
    damaged: view.getBigUint64(at + 40, true),
    aside: view.getBigUint64(at + 48, true),
    formats: Array.from({ length: 25 }, (_, index) => view.getBigUint64(at + 56 + 8 * index, true)),
    breaks: view.getBigUint64(at + 256, true),
    ahead: view.getBigUint64(at + 264, true),
  };
}
function writeFault(view, at, value) {
  view.setUint32(at, value.code, true);
  view.setUint32(at + 4, value.second, true);
  view.setBigUint64(at + 8, value.first, true);
}
function writeAngle(view, at, value) {
  view.setBigInt64(at, value.num, true);
  view.setBigUint64(at + 8, value.den, true);
}
function writeBlock(view, at, value) {
  view.setBigUint64(at, value.size, true);
  view.setBigUint64(at + 8, value.memory, true);
}
function writeLast(view, at, value) {
  view.setBigUint64(at, value.moment, true);
  view.setBigUint64(at + 8, value.heard, true);
}
const FAULTS = Object.freeze({
  [Code.NO_TRACKER]: "no tracker, log, feed or order",
});
const HINTS = Object.freeze({
  [Code.WRAP]: "a frame text is 28 hexadecimal digits, bare or between * and ;",
  [Code.SHORT]: "a frame text is 28 hexadecimal digits, bare or between * and ;",
  [Code.LENGTH]: "a frame text is 28 hexadecimal digits, bare or between * and ;",
  [Code.DIGIT]: "a frame text is 28 hexadecimal digits, bare or between * and ;",
  [Code.NOT_DF17]: "only extended squitters (DF17) are read; skip other frames",
  [Code.PARITY]: "the frame is damaged; skip it",
  [Code.NOT_POSITION]: "the message is no position; only kinds AIR and GROUND are",
  [Code.OTHER_ADDRESS]: "give two frames of one aircraft",
  [Code.OTHER_KIND]: "give two airborne or two surface positions",
  [Code.SAME_PARITY]: "give an even and an odd frame",
  [Code.NO_SITE]: "give the receiver position as the site",
  [Code.OUT_OF_RANGE]: "use newer frames, or a nearer reference",
  [Code.ZONE_COUNTS]: "the frames lie on two sides of a zone border; use newer ones",
  [Code.BAD_POSITION]: "a latitude is from -90 to 90 degrees, a longitude from -180 to 180, with at"
    + " most 12 decimals",
  [Code.BAD_FIELDS]: "squitter.h has the range of each field",
  [Code.BAD_ANGLE]: "an angle is from -360 to 360 degrees, with at most 12 decimals",
  [Code.BAD_LATITUDE]: "a latitude is from -90 to 90 degrees, with at most 12 decimals",
  [Code.BAD_FEET]: "feet are a multiple of 25 from -1000 to 50175",
  [Code.BAD_PARITY]: "odd is 0 or 1",
  [Code.NOT_A_NUMBER]: "an angle text is one to three digits, with an optional - before and "
    + "decimals after, such as '-52.25'",
  [Code.TOO_MANY_DECIMALS]: "an angle text has at most 12 decimals",
  [Code.ANGLE_RANGE]: "an angle is from -360 to 360 degrees",
  [Code.MOMENT_BACK]: "timestamps must not decrease; sort the frames first, as an Order does",
  [Code.TABLE_FULL]: "raise the limit",
  [Code.NO_LIMIT]: "a limit is at least 1",
  [Code.NO_TRACKER]: "it is closed",
  [Code.BAD_ENTRY]: "the state was saved with other settings, or is damaged",
});
const WINDOW = 10_000n;
class Fault extends Error {
  constructor(message, code, first = 0n, second = 0) {
    super(message);
    this.name = "Fault";
    this.code = code;
    this.first = first;
    this.second = second;
  }
  toJSON() {
    const { name, message, code, first, second } = this;
    return { name, message, code, first: String(first), second };
  }
}
class Angle {
  #library;
  constructor(library, num, den) {
    this.#library = library;
    this.num = num;
    this.den = den;
    Object.freeze(this);
  }
  toString() {
    return this.#library.angleText(this);
  }
  toNumber() {
    return Number(this.num) / Number(this.den);
  }
  toJSON() {
    return `${this.num}/${this.den}`;
  }
}
function refuseSettings(name, known, others) {
  for (const other of Object.keys(others)) {
    throw new TypeError(`a ${name} has no setting ${other}; its settings are ${known.join(", ")}`);
  }
}
function refuseOthers(head, others) {
  for (const name of Object.keys(others)) {
    const hint = name === "feet" ? ": give altitude, a field of 12 bits, which fieldOfFeet(feet) returns" : "";
    throw new TypeError(`${head} has no field ${name}${hint}`);
  }
}
class AirHead {
  constructor({ address, altitude = 0, ca = 5, typeCode = 11, status = 0, flag = 0, time = 0, odd = 0, ...others }) {
    refuseOthers("AirHead", others);
    Object.assign(this, { address, altitude, ca, typeCode, status, flag, time, odd });
  }
}
class GroundHead {
  constructor({
    address, ca = 4, typeCode = 7, movement = 0, trackStatus = 0, track = 0, time = 0, odd = 0, ...others
  }) {
    refuseOthers("GroundHead", others);
    Object.assign(this, { address, ca, typeCode, movement, trackStatus, track, time, odd });
  }
}
const PAGE_BYTES = 65536;
function whole(value) {
  if (typeof value === "bigint") return value;
  if (Number.isSafeInteger(value)) return BigInt(value);
  throw new TypeError(`a whole number is wanted, not ${String(value)}`);
}
function fitted(value, bits) {
  const number = whole(value);
  return Number(BigInt.asUintN(bits, number) === number ? number : (1n << BigInt(bits)) - 1n);
}
function moment(value) {
  const number = whole(value);
  if (BigInt.asUintN(64, number) !== number) throw new RangeError("a moment is a whole number below 2^64");
  return number;
}
function lowest(num, den) {
  let [one, other] = [num < 0n ? -num : num, den];
  while (other) [one, other] = [other, one % other];
  return { num: num / one, den: den / one };
}
function decimal(number) {
  const [, front, decimals = "", exponent = "0"] = /^(-?\d+)(?:\.(\d+))?(?:e(.\d+))?$/.exec(String(number));
  const places = decimals.length - Number(exponent), digits = BigInt(front + decimals);
  return places > 0 ? lowest(digits, 10n ** BigInt(places)) : { num: digits * 10n ** BigInt(-places), den: 1n };
}
function fraction(degrees) {
  if (!Number.isFinite(degrees) && typeof degrees !== "bigint" && typeof degrees?.num === "undefined") {
    throw new TypeError(`degrees are {num, den}, a BigInt, a number or a text such as "52.25", not ${String(degrees)}`);
  }
  const { num, den } = typeof degrees === "object" ? { num: whole(degrees.num), den: whole(degrees.den) }
    : typeof degrees === "bigint" ? { num: degrees, den: 1n } : decimal(degrees);
  const fits = BigInt.asIntN(64, num) === num && BigInt.asUintN(64, den) === den;
  return fits ? { num, den } : { num: 0n, den: 0n };
}
function frameBytes(source) {
  const isBytes = source instanceof ArrayBuffer || (ArrayBuffer.isView(source) && !(source.BYTES_PER_ELEMENT > 1));
  if (!isBytes) throw new TypeError("a frame is bytes or a text");
  if (source.byteLength !== FRAME_BYTES) throw new RangeError("a frame has 14 bytes");
  if (source instanceof ArrayBuffer) return new Uint8Array(source.slice(0));
  return new Uint8Array(source.buffer, source.byteOffset, FRAME_BYTES).slice();
}
const MOST_PAGES = 65536;
class Memory {
  constructor(exports, angle) {
    Object.assign(this, { exports, angle });
    const base = exports.memory.buffer.byteLength;
    this.grow(1);
    Object.assign(this, { faultAt: base, outAt: base + 256, firstAt: base + 512, secondAt: base + 544 });
    Object.assign(this, { placeAt: base + 576, textAt: base + 1024, textRoom: PAGE_BYTES - 1088 });
    Object.assign(this, { zerosAt: base + PAGE_BYTES - 64, end: base + PAGE_BYTES });
    this.free = [];
    this.data = new DataView(exports.memory.buffer);
    this.all = new Uint8Array(exports.memory.buffer);
  }
  grow(pages) {
    const { memory } = this.exports, most = MOST_PAGES - memory.buffer.byteLength / PAGE_BYTES;
    if (pages > most) throw new RangeError(`the library's memory ends at 4 GiB, and cannot grow by ${pages} pages`);
    memory.grow(pages);
  }
  reach(at, count) {
    const lack = at + count - this.exports.memory.buffer.byteLength;
    if (lack > 0) this.grow(Math.ceil(lack / PAGE_BYTES));
  }
  claim(count) {
    const size = 16 * Math.ceil(count / 16);
    const [fitting] = this.free.filter((block) => block.count >= size).sort((one, other) => one.count - other.count);
    const block = { at: fitting ? fitting.at : this.end, count: size };
    if (!fitting) {
      this.reach(block.at, size);
      this.end += size;
    } else {
      this.free.splice(this.free.indexOf(fitting), 1);
      if (fitting.count > size) this.free.push({ at: fitting.at + size, count: fitting.count - size });
    }
    return block;
  }
  release(block) {
    const touches = ({ at, count }) => at + count === block.at || at === block.at + block.count;
    const joined = [block, ...this.free.filter(touches)].sort((one, other) => one.at - other.at);
    const at = joined[0].at, count = joined.reduce((sum, part) => sum + part.count, 0);
    this.free = this.free.filter((other) => !joined.includes(other));
    if (at + count === this.end) this.end = at;
    else this.free.push({ at, count });
  }
  view() {
    const { buffer } = this.exports.memory;
    return this.data.buffer === buffer ? this.data : (this.data = new DataView(buffer));
  }
  bytes() {
    const { buffer } = this.exports.memory;
    return this.all.buffer === buffer ? this.all : (this.all = new Uint8Array(buffer));
  }
  bytesAt(at, count) {
    return this.bytes().subarray(at, at + count);
  }
  putBytes(at, bytes) {
    this.bytesAt(at, bytes.length).set(bytes);
  }
  putText(text) {
    const spelled = new TextEncoder().encode(text);
    if (spelled.length > this.textRoom) {
      const { at, count } = this.claim(2 * spelled.length);
      Object.assign(this, { textAt: at, textRoom: count });
    }
    this.putBytes(this.textAt, spelled);
    return BigInt(spelled.length);
  }
  exact(degrees) {
    return typeof degrees === "string" ? this.angle(degrees) : fraction(degrees);
  }
  exactPosition(position) {
    const { lat, lon } = position ?? {};
    if (lat === undefined || lon === undefined) throw new TypeError("a position is {lat, lon}, in degrees");
    return { lat: this.exact(lat), lon: this.exact(lon) };
  }
  putAngle(at, degrees) {
    writeAngle(this.view(), at, this.exact(degrees));
  }
  putPosition(at, position) {
    const { lat, lon } = this.exactPosition(position);
    writeAngle(this.view(), at + AT.position.lat, lat);
    writeAngle(this.view(), at + AT.position.lon, lon);
  }
  putHead(at, members, head) {
    for (const [name, offset, count] of members) {
      const value = fitted(head[name], 8 * count), view = this.view();
      if (count === 4) view.setUint32(at + offset, value, true);
      else if (count === 2) view.setUint16(at + offset, value, true);
      else view.setUint8(at + offset, value);
    }
  }
  getText(at, room) {
    const held = this.bytes();
    let text = "";
    for (let next = at; next < at + room && held[next]; next++) text += String.fromCharCode(held[next]);
    return text;
  }
  getFields(at) {
    const fields = new Fields(this.view(), at);
    if (fields.kind === Kind.OTHER) fields.lat = fields.lon = null;
    if (fields.altitudeForm !== AltitudeForm.FEET) fields.feet = null;
    return fields;
  }
  getZones(at) {
    return readZones(this.view(), at);
  }
}
function ask(library, name, ...words) {
  const { exports, faultAt } = library.memory;
  exports[`squitter_${name}`](BigInt(faultAt), ...words);
  const view = library.memory.view();
  if (!view.getUint32(faultAt + AT.fault.code, true)) return;
  const { code, first, second } = readFault(view, faultAt), text = library.faultText(code, first, second);
  throw new Fault(code in HINTS ? `${text}: ${HINTS[code]}` : text, code, first, second);
}
function angleAt(library, at) {
  const { num, den } = readAngle(library.memory.view(), at);
  return new Angle(library, num, den);
}
function positionAt(library, at) {
  return Object.freeze({ lat: angleAt(library, at + AT.position.lat), lon: angleAt(library, at + AT.position.lon) });
}
function heardAt(library, at) {
  const view = library.memory.view(), what = view.getUint8(at + AT.heard.what);
  const isPlaced = what === What.FIX || what === What.FOLLOWED;
  const position = isPlaced ? positionAt(library, at + AT.heard.position) : null;
  return { what, position, even: view.getUint8(at + AT.heard.even), odd: view.getUint8(at + AT.heard.odd) };
}
const unused = new FinalizationRegistry((lent) => lent.close());
class Lent {
  constructor(owner, library, name, size, make) {
    const { memory } = library;
    unused.register(owner, this);
    Object.assign(this, { library, name, block: memory.claim(16 + size), rooms: {} });
    this.slot = BigInt(this.block.at);
    memory.bytesAt(this.block.at, 16).fill(0);
    writeBlock(memory.view(), memory.outAt, { size: BigInt(size), memory: this.slot + 16n });
    try {
      make(this.slot, BigInt(memory.outAt));
    } catch (error) {
      this.close();
      throw error;
    }
  }
  claimRooms(sizes) {
    try {
      for (const [name, size] of Object.entries(sizes)) this.rooms[name] = this.library.memory.claim(size);
    } catch (error) {
      this.close();
      throw error;
    }
  }
  grow(size, move) {
    const { memory } = this.library, block = memory.claim(size), last = this.rooms.grown;
    writeBlock(memory.view(), memory.outAt, { size: BigInt(block.count), memory: BigInt(block.at) });
    this.rooms.grown = block;
    move(this.slot, BigInt(memory.outAt));
    if (last) memory.release(last);
  }
  close() {
    if (!this.block) return;
    this.library.memory.exports[`squitter_${this.name}_free`](this.slot);
    for (const block of [this.block, ...Object.values(this.rooms)]) this.library.memory.release(block);
    this.block = null;
    this.rooms = {};
    this.slot = BigInt(this.library.memory.zerosAt);
  }
}
const PIECE_BYTES = 1 << 16;
function bytesOf(piece) {
  if (ArrayBuffer.isView(piece)) return new Uint8Array(piece.buffer, piece.byteOffset, piece.byteLength);
  if (piece instanceof ArrayBuffer) return new Uint8Array(piece);
  const hint = typeof piece === "string" ? "; new TextEncoder().encode(text) makes one of a text" : "";
  throw new TypeError(`a piece is an ArrayBuffer or a view of one${hint}`);
}
const MOST_ADDRESSES = 1 << 20;
function settingsOf(name, { window = WINDOW, limit = 1000, site = null, ...others }) {
  refuseSettings(name, ["window", "limit", "site"], others);
  const number = Number(whole(limit));
  if (number < 0 || number > MOST_ADDRESSES) throw new RangeError(`a limit is from 1 to ${MOST_ADDRESSES}`);
  return { window: moment(window), limit: number, site };
}
function listenerOf(owner, library, name, settings) {
  const { memory } = library, { window, limit, site } = settingsOf(name, settings);
  const here = site === null ? null : memory.exactPosition(site);
  return new Lent(owner, library, name, Number(memory.exports[`squitter_${name}_size`](limit)), (slot, block) => {
    if (here) memory.putPosition(memory.placeAt, here);
    const words = [slot, block, limit, window, ...(here ? [BigInt(memory.placeAt)] : [])];
    ask(library, `${name}_new${here ? "_at" : ""}`, ...words);
  });
}
const PRESENT_AT_FIRST = 256;
class Present {
  #library;
  #view;
  constructor(library, bytes) {
    this.#library = library;
    this.#view = new DataView(bytes.buffer, bytes.byteOffset, bytes.byteLength);
  }
  get address() {
    return this.#view.getUint32(AT.entry.address, true);
  }
  get moment() {
    return this.#view.getBigUint64(AT.entry.moment, true);
  }
  get airborne() {
    return this.#side(AT.entry.airborne);
  }
  get surface() {
    return this.#side(AT.entry.surface);
  }
  #side(at) {
    const { even, odd, fix } = AT.side;
    return { even: this.#received(at + even), odd: this.#received(at + odd), fix: this.#fix(at + fix) };
  }
  #received(at) {
    const view = this.#view;
    const frame = new Uint8Array(view.buffer, view.byteOffset + at + AT.received.frame, FRAME_BYTES).slice();
    return frame[0] ? { moment: view.getBigUint64(at + AT.received.moment, true), frame } : null;
  }
  #fix(at) {
    const [lat, lon] = [AT.position.lat, AT.position.lon]
      .map((angle) => readAngle(this.#view, at + AT.lastFix.position + angle));
    if (!lat.den) return null;
    const position = Object.freeze({ lat: exactAngle(this.#library, lat), lon: exactAngle(this.#library, lon) });
    return { moment: this.#view.getBigUint64(at + AT.lastFix.moment, true), position };
  }
}
function exactAngle(library, fraction) {
  const { num, den } = lowest(fraction.num, fraction.den);
  return new Angle(library, num, den);
}
function presentIn(library, listener, since) {
  const { memory } = library, from = moment(since), call = memory.exports[`squitter_${listener.name}_present`];
  for (let size = PRESENT_AT_FIRST; ; size *= 4) {
    const room = memory.claim(ENTRY_BYTES * size);
    try {
      const count = Number(call(listener.slot, from, 0n, BigInt(room.at), BigInt(size)));
      if (count === size) continue;
      const bytes = memory.bytesAt(room.at, ENTRY_BYTES * count).slice();
      return Array.from({ length: count }, (_, index) =>
        new Present(library, bytes.subarray(ENTRY_BYTES * index, ENTRY_BYTES * (index + 1))));
    } finally {
      memory.release(room);
    }
  }
}
const ANSWERS_AT_ONCE = 4096, TEXT_ROOM = 1 << 18, E7 = 10_000_000;
const LAST_BYTES = BYTES.last, ENTRY_BYTES = BYTES.entry, ANSWER_BYTES = BYTES.answer;
const { number: NUMBER, moment: MOMENT, address: ADDRESS, feet: FEET, kind: KIND, altitudeForm: FORM } = AT.answer;
const WHAT = AT.answer.heard + AT.heard.what, EVEN = AT.answer.heard + AT.heard.even;
const ODD = AT.answer.heard + AT.heard.odd, CODE = AT.answer.fault + AT.fault.code;
const FIRST = AT.answer.fault + AT.fault.first, LAT = AT.answer.degrees + AT.degreesE7.lat;
const LON = AT.answer.degrees + AT.degreesE7.lon;
const COLUMN_ROOM = 1 << 15;
const LOWER = 1 - new Uint8Array(Uint32Array.of(1).buffer)[0];
function columnsOf(count) {
  return {
    numbers: new Float64Array(count), moments: new BigUint64Array(count), whats: new Uint8Array(count),
    addresses: new Int32Array(count), kinds: new Uint8Array(count), lats: new Float64Array(count),
    lons: new Float64Array(count), feet: new Float64Array(count), evens: new Uint8Array(count),
    odds: new Uint8Array(count), codes: new Uint32Array(count), firsts: new BigUint64Array(count),
  };
}
function frontOf({ ...columns }, count) {
  for (const name of Object.keys(columns)) columns[name] = columns[name].slice(0, count);
  return columns;
}
function joinedColumns(parts) {
  const all = columnsOf(parts.reduce((sum, part) => sum + part.numbers.length, 0));
  let from = 0;
  for (const part of parts) {
    for (const name of Object.keys(all)) all[name].set(part[name], from);
    from += part.numbers.length;
  }
  return all;
}
function putAnswers(view, from, count, columns, first) {
  const { numbers, moments, whats, addresses, kinds, lats, lons, feet, evens, odds, codes, firsts } = columns;
  const times = new Uint32Array(moments.buffer), details = new Uint32Array(firsts.buffer);
  for (let index = first, at = from; index < first + count; index++, at += ANSWER_BYTES) {
    const what = view.getUint8(at + WHAT), isPlace = what === What.FIX || what === What.FOLLOWED;
    const lower = 2 * index + LOWER, upper = 2 * index + 1 - LOWER;
    numbers[index] = view.getUint32(at + NUMBER, true) + 2 ** 32 * view.getUint32(at + NUMBER + 4, true);
    times[lower] = view.getUint32(at + MOMENT, true);
    times[upper] = view.getUint32(at + MOMENT + 4, true);
    whats[index] = what;
    evens[index] = view.getUint8(at + EVEN);
    odds[index] = view.getUint8(at + ODD);
    codes[index] = view.getUint32(at + CODE, true);
    details[lower] = view.getUint32(at + FIRST, true);
    details[upper] = view.getUint32(at + FIRST + 4, true);
    addresses[index] = what ? view.getUint32(at + ADDRESS, true) : -1;
    kinds[index] = view.getUint8(at + KIND);
    lats[index] = isPlace ? view.getInt32(at + LAT, true) / E7 : NaN;
    lons[index] = isPlace ? view.getInt32(at + LON, true) / E7 : NaN;
    feet[index] = view.getUint8(at + FORM) === AltitudeForm.FEET ? view.getInt32(at + FEET, true) : NaN;
  }
}
class Log {
  #listener;
  #library;
  #columnRoom;
  constructor(library, settings = {}) {
    this.#library = library;
    this.#listener = listenerOf(this, library, "log", settings);
    this.#listener.claimRooms({
      done: BYTES.done, piece: PIECE_BYTES, out: Math.max(TEXT_ROOM, ANSWERS_AT_ONCE * ANSWER_BYTES),
    });
  }
  take(piece) {
    return this.#columns((hear) => this.#pieces(piece, (at, count) => hear("log_take", at, count)));
  }
  finish() {
    return this.#columns((hear) => hear("log_finish"));
  }
  takeText(piece, format = Format.LINES) {
    const number = fitted(format, 32);
    return this.#text((hear) => this.#pieces(piece, (at, count) => hear("log_take_text", number, at, count)));
  }
  finishText(format = Format.LINES) {
    const number = fitted(format, 32);
    return this.#text((hear) => hear("log_finish_text", number));
  }
  header(format = Format.LINES) {
    const { exports, outAt } = this.#library.memory;
    exports.squitter_log_header(fitted(format, 32), BigInt(outAt));
    return this.#library.memory.getText(outAt, HEADER_BYTES);
  }
  get tally() {
    const { outAt } = this.#library.memory;
    ask(this.#library, "log_tally", this.#listener.slot, BigInt(outAt));
    return readTally(this.#library.memory.view(), outAt);
  }
  present(since = 0n) {
    return presentIn(this.#library, this.#listener, since);
  }
  close() {
    this.#listener.close();
    this.#columnRoom = null;
  }
  #pieces(piece, hear) {
    const bytes = typeof piece === "string" ? new TextEncoder().encode(piece) : bytesOf(piece);
    if (!this.#listener.rooms.piece) return hear(this.#library.memory.zerosAt, 0);
    let from = 0;
    do {
      const part = bytes.subarray(from, from + PIECE_BYTES);
      this.#library.memory.putBytes(this.#listener.rooms.piece.at, part);
      hear(this.#listener.rooms.piece.at, part.length);
      from += PIECE_BYTES;
    } while (from < bytes.length);
  }
  #call(room, full, name, at, count, format, use) {
    const { memory } = this.#library;
    const out = this.#listener.rooms.out?.at ?? memory.zerosAt, done = this.#listener.rooms.done?.at ?? memory.zerosAt;
    let taken = 0, written = 0;
    do {
      const words = [...(format === undefined ? [] : [format]),
        ...(at === undefined ? [] : [BigInt(at + taken), BigInt(count - taken)])];
      ask(this.#library, name, this.#listener.slot, ...words, BigInt(out), BigInt(room), BigInt(done));
      const progress = readDone(memory.view(), done);
      taken += Number(progress.taken);
      written = Number(progress.written);
      use(out, written);
    } while (written > full);
  }
  #columns(run) {
    const room = this.#columnRoom ??= columnsOf(COLUMN_ROOM), parts = [];
    let filled = 0;
    const flush = () => parts.push(frontOf(room, filled));
    run((name, at, count) => this.#call(ANSWERS_AT_ONCE, ANSWERS_AT_ONCE - 1, name, at, count, undefined,
      (out, written) => {
        if (filled + written > COLUMN_ROOM) {
          flush();
          filled = 0;
        }
        putAnswers(this.#library.memory.view(), out, written, room, filled);
        filled += written;
      }));
    flush();
    return parts.length === 1 ? parts[0] : joinedColumns(parts);
  }
  #text(run) {
    const decoder = new TextDecoder();
    let text = "";
    run((name, format, at, count) => this.#call(TEXT_ROOM, TEXT_ROOM - ANSWER_TEXT_BYTES, name, at, count, format,
      (out, written) => { text += decoder.decode(this.#library.memory.bytesAt(out, written)); }));
    return text;
  }
}
function restored(tracker, state) {
  try {
    tracker.restore(state);
  } catch (error) {
    tracker.close();
    throw error;
  }
  return tracker;
}
class Tracker {
  #listener;
  #library;
  #settings;
  constructor(library, settings = {}) {
    this.#library = library;
    this.#listener = listenerOf(this, library, "tracker", settings);
    const { window, limit, site } = settingsOf("tracker", settings);
    this.#settings = { window, limit, site: site && library.memory.exactPosition(site) };
  }
  hear(at, source) {
    const { memory } = this.#library, time = moment(at);
    memory.putBytes(memory.firstAt, this.#library.frame(source));
    ask(this.#library, "tracker_hear", this.#listener.slot, time, BigInt(memory.firstAt), BigInt(memory.outAt));
    return heardAt(this.#library, memory.outAt);
  }
  get size() {
    return Number(this.#library.memory.exports.squitter_tracker_len(this.#listener.slot));
  }
  present(since = 0n) {
    return presentIn(this.#library, this.#listener, since);
  }
  get last() {
    return this.#state(0).last ?? 0n;
  }
  save() {
    return this.#state(this.size);
  }
  #state(count) {
    const { memory } = this.#library;
    const room = memory.claim(LAST_BYTES + ENTRY_BYTES * count);
    memory.bytesAt(room.at, LAST_BYTES).fill(0);
    const at = BigInt(room.at), entries = at + BigInt(LAST_BYTES);
    memory.exports.squitter_tracker_save(this.#listener.slot, at, entries, BigInt(count));
    const { moment: latest, heard } = readLast(memory.view(), room.at), last = heard ? latest : null;
    const saved = { last, entries: memory.bytesAt(room.at + LAST_BYTES, ENTRY_BYTES * count).slice() };
    memory.release(room);
    return saved;
  }
  restore({ last, entries }) {
    const { memory } = this.#library, bytes = bytesOf(entries);
    if (bytes.length % ENTRY_BYTES) throw new RangeError(`an entry has ${ENTRY_BYTES} bytes`);
    const isHeard = last !== null && last !== undefined, time = isHeard ? moment(last) : 0n;
    const room = memory.claim(LAST_BYTES + bytes.length);
    try {
      writeLast(memory.view(), room.at, { moment: time, heard: isHeard ? 1n : 0n });
      memory.putBytes(room.at + LAST_BYTES, bytes);
      const at = BigInt(room.at), count = BigInt(bytes.length / ENTRY_BYTES);
      ask(this.#library, "tracker_restore", this.#listener.slot, at, at + BigInt(LAST_BYTES), count);
    } finally {
      memory.release(room);
    }
  }
  copy() {
    const state = this.save();
    return restored(new Tracker(this.#library, this.#settings), state);
  }
  close() {
    this.#listener.close();
  }
}
class Contact extends Tracker {
  #library;
  #window;
  #site;
  constructor(library, window = WINDOW, site = null) {
    super(library, { window, site, limit: 1 });
    this.#library = library;
    this.#window = moment(window);
    this.#site = site && library.memory.exactPosition(site);
  }
  get newest() {
    return this.present()[0]?.moment ?? 0n;
  }
  copy() {
    const state = this.save();
    return restored(new Contact(this.#library, this.#window, this.#site), state);
  }
}
const SQUITTERS_AT_ONCE = 1024, LINES_ROOM = 1 << 16;
class Feed {
  #lent;
  #library;
  constructor(library, {
    format = FeedFormat.AUTO, leap = 600_000n, live = false, late = 0n, allFormats = false, byArrival = false,
    ...others
  } = {}) {
    refuseSettings("feed", ["format", "leap", "live", "late", "allFormats", "byArrival"], others);
    const { memory } = library, number = fitted(format, 32), longest = moment(leap), latest = moment(late);
    const flags = (live ? FEED_LIVE : 0) + (byArrival ? FEED_BY_ARRIVAL : 0) + (allFormats ? FEED_ALL_FORMATS : 0);
    this.#library = library;
    this.#lent = new Lent(this, library, "feed", Number(memory.exports.squitter_feed_size()),
      (slot, block) => ask(library, "feed_new", slot, block, number, longest, latest, flags));
    this.#lent.claimRooms({
      done: BYTES.done, piece: PIECE_BYTES, moments: 8 * SQUITTERS_AT_ONCE, out: LINES_ROOM,
    });
  }
  take(piece, arrival = 0n) {
    return this.#squitters("feed_take", bytesOf(piece), moment(arrival));
  }
  finish(arrival = 0n) {
    return this.#squitters("feed_finish", null, moment(arrival));
  }
  takeText(piece, arrival = 0n) {
    return this.#text("feed_take_text", bytesOf(piece), moment(arrival));
  }
  finishText(arrival = 0n) {
    return this.#text("feed_finish_text", null, moment(arrival));
  }
  disconnected() {
    ask(this.#library, "feed_disconnected", this.#lent.slot);
  }
  get format() {
    const number = this.#source();
    return number < FeedFormat.AUTO ? number : null;
  }
  get stranger() {
    const number = this.#source();
    return number > FeedFormat.AUTO ? number : null;
  }
  #source() {
    const { memory } = this.#library;
    ask(this.#library, "feed_format", this.#lent.slot, BigInt(memory.outAt));
    return memory.view().getUint32(memory.outAt, true);
  }
  get counts() {
    const { memory } = this.#library, { outAt } = memory;
    ask(this.#library, "feed_counts", this.#lent.slot, BigInt(outAt));
    return readCounts(memory.view(), outAt);
  }
  close() {
    this.#lent.close();
  }
  #call(name, bytes, arrival, outputs, full, use) {
    const { memory } = this.#library, { zerosAt } = memory, at = this.#lent.rooms.piece?.at ?? zerosAt;
    const done = this.#lent.rooms.done?.at ?? zerosAt, rest = [...outputs.map(BigInt), BigInt(done)];
    let from = 0;
    do {
      const part = this.#lent.rooms.piece && bytes ? bytes.subarray(from, from + PIECE_BYTES) : new Uint8Array(0);
      memory.putBytes(at, part);
      let taken = 0, written = 0;
      do {
        const given = bytes ? [BigInt(at + taken), BigInt(part.length - taken)] : [];
        ask(this.#library, name, this.#lent.slot, ...given, arrival, ...rest);
        const progress = readDone(memory.view(), done);
        taken += Number(progress.taken);
        written = Number(progress.written);
        use(written);
      } while (written > full);
      from += PIECE_BYTES;
    } while (bytes && from < bytes.length);
  }
  #squitters(name, bytes, arrival) {
    const { memory } = this.#library, moments = this.#lent.rooms.moments?.at ?? memory.zerosAt;
    const out = this.#lent.rooms.out?.at ?? memory.zerosAt, parts = [];
    const outputs = [moments, SQUITTERS_AT_ONCE, out, SQUITTERS_AT_ONCE];
    this.#call(name, bytes, arrival, outputs, SQUITTERS_AT_ONCE - 1,
      (count) => parts.push(squittersAt(memory, moments, out, count)));
    return joinedSquitters(parts);
  }
  #text(name, bytes, arrival) {
    const { memory } = this.#library, out = this.#lent.rooms.out?.at ?? memory.zerosAt, decoder = new TextDecoder();
    let text = "";
    this.#call(name, bytes, arrival, [out, LINES_ROOM], LINES_ROOM - LINE_BYTES,
      (written) => { text += decoder.decode(memory.bytesAt(out, written)); });
    return text;
  }
}
function squittersAt(memory, moments, frames, count) {
  return {
    moments: new BigUint64Array(memory.exports.memory.buffer, moments, count).slice(),
    frames: memory.bytesAt(frames, FRAME_BYTES * count).slice(),
  };
}
function joinedSquitters(parts) {
  if (parts.length === 1) return parts[0];
  const count = parts.reduce((sum, part) => sum + part.moments.length, 0);
  const moments = new BigUint64Array(count), frames = new Uint8Array(FRAME_BYTES * count);
  let from = 0;
  for (const part of parts) {
    moments.set(part.moments, from);
    frames.set(part.frames, FRAME_BYTES * from);
    from += part.moments.length;
  }
  return { moments, frames };
}
const SORTED_AT_ONCE = 1024, FIRST_ROOM = 4096;
class Order {
  #lent;
  #library;
  #room = FIRST_ROOM;
  constructor(library, reorder) {
    const { memory } = library, delay = moment(reorder);
    this.#library = library;
    this.#lent = new Lent(this, library, "order", Number(memory.exports.squitter_order_size(FIRST_ROOM)),
      (slot, block) => ask(library, "order_new", slot, block, delay));
    const moments = 8 * SORTED_AT_ONCE, frames = FRAME_BYTES * SORTED_AT_ONCE;
    this.#lent.claimRooms({ done: BYTES.done, came: moments, data: frames, moments, frames });
  }
  take(moments, frames) {
    const came = BigUint64Array.from(moments, moment), bytes = bytesOf(frames), parts = [];
    if (bytes.length !== FRAME_BYTES * came.length)
      throw new RangeError(`${came.length} timestamps go with ${FRAME_BYTES * came.length} bytes of frames`);
    let from = 0;
    do {
      const next = from + SORTED_AT_ONCE;
      this.#take(came.subarray(from, next), bytes.subarray(FRAME_BYTES * from, FRAME_BYTES * next), parts);
      from = next;
    } while (from < came.length);
    return joinedSquitters(parts);
  }
  flush() {
    const parts = [];
    this.#call("order_flush", () => [], parts);
    return joinedSquitters(parts);
  }
  get held() {
    return this.#count("order_held");
  }
  get late() {
    return this.#count("order_late");
  }
  close() {
    this.#lent.close();
  }
  #count(name) {
    const { memory } = this.#library;
    ask(this.#library, name, this.#lent.slot, BigInt(memory.outAt));
    return Number(memory.view().getBigUint64(memory.outAt, true));
  }
  #grow() {
    const room = 2 * this.#room, { exports } = this.#library.memory;
    this.#lent.grow(Number(exports.squitter_order_size(room)),
      (slot, block) => ask(this.#library, "order_grow", slot, block));
    this.#room = room;
  }
  #isFull(name, ...words) {
    try {
      ask(this.#library, name, this.#lent.slot, ...words);
      return false;
    } catch (fault) {
      if (fault.code !== Code.NO_MEMORY) throw fault;
      return true;
    }
  }
  #take(came, bytes, parts) {
    const { memory } = this.#library, { rooms } = this.#lent, count = rooms.came ? came.length : 0;
    const cameAt = rooms.came?.at ?? memory.zerosAt, dataAt = rooms.data?.at ?? memory.zerosAt;
    new BigUint64Array(memory.exports.memory.buffer, cameAt, count).set(came.subarray(0, count));
    memory.putBytes(dataAt, bytes.subarray(0, FRAME_BYTES * count));
    const rest = (taken) => [cameAt + 8 * taken, count - taken, dataAt + FRAME_BYTES * taken, count - taken];
    this.#call("order_take", (taken) => rest(taken).map(BigInt), parts);
  }
  #call(name, given, parts) {
    const { memory } = this.#library, { rooms } = this.#lent, { zerosAt } = memory;
    const [moments, frames, done] = [rooms.moments, rooms.frames, rooms.done].map((room) => room?.at ?? zerosAt);
    const outputs = [moments, SORTED_AT_ONCE, frames, SORTED_AT_ONCE, done].map(BigInt);
    let taken = 0, written = 0, isFull = false;
    do {
      isFull = this.#isFull(name, ...given(taken), ...outputs);
      const progress = readDone(memory.view(), done);
      taken += Number(progress.taken);
      written = Number(progress.written);
      parts.push(squittersAt(memory, moments, frames, written));
      if (isFull) this.#grow();
    } while (isFull || written === SORTED_AT_ONCE);
  }
}
class Squitter {
  constructor(instance) {
    this.memory = new Memory(instance.exports, (text) => this.angle(text));
  }
  #ask(name, ...words) {
    ask(this, name, ...words);
  }
  #angleAt(at) {
    return angleAt(this, at);
  }
  #positionAt(at) {
    return positionAt(this, at);
  }
  #frameAt(at) {
    return this.memory.bytesAt(at, FRAME_BYTES).slice();
  }
  #look(near) {
    if (near === null) return;
    const { firstAt, placeAt, outAt } = this.memory;
    this.memory.putBytes(firstAt, new Uint8Array(FRAME_BYTES));
    this.memory.putPosition(placeAt, near);
    try {
      this.#ask("local", BigInt(firstAt), BigInt(placeAt), BigInt(outAt));
    } catch (error) {
      if (error.code === Code.BAD_POSITION) throw error;
    }
  }
  #frameNear(source, near) {
    try {
      return this.frame(source);
    } catch (error) {
      if (error instanceof Fault) this.#look(near);
      throw error;
    }
  }
  #twoFrames(older, newer, near) {
    const first = this.#frameNear(older, near);
    try {
      return [first, this.frame(newer)];
    } catch (error) {
      if (error instanceof Fault) this.#look(near);
      if (error instanceof Fault) this.read(first);
      throw error;
    }
  }
  doubts({ site = null, range = 0, speed = 0 }, at, place, before = null) {
    const { memory } = this, { outAt } = memory, time = moment(at);
    for (const one of [site, before && before.position, place]) this.#look(one);
    const watchAt = outAt, siteAt = outAt + 32, beforeAt = outAt + 64, atPlace = outAt + 128;
    memory.bytesAt(outAt, 160).fill(0);
    if (site) memory.putPosition(siteAt, site);
    if (before) memory.putPosition(beforeAt + AT.lastFix.position, before.position);
    memory.putPosition(atPlace, place);
    const view = memory.view();
    view.setUint32(watchAt + AT.watch.range, fitted(range, 32), true);
    view.setUint32(watchAt + AT.watch.speed, fitted(speed, 32), true);
    if (before) view.setBigUint64(beforeAt + AT.lastFix.moment, moment(before.moment), true);
    const words = [watchAt, siteAt, beforeAt].map(BigInt);
    return memory.exports.squitter_doubts(...words, time, BigInt(atPlace));
  }
  frame(source) {
    if (typeof source !== "string") return frameBytes(source);
    const length = this.memory.putText(source), { textAt, outAt } = this.memory;
    this.#ask("frame_of_text", BigInt(textAt), length, BigInt(outAt));
    return this.#frameAt(outAt);
  }
  frameText(source) {
    const { exports, firstAt, outAt } = this.memory;
    this.memory.putBytes(firstAt, this.frame(source));
    exports.squitter_text_of_frame(BigInt(firstAt), BigInt(outAt));
    return this.memory.getText(outAt, FRAME_DIGITS);
  }
  read(source) {
    const { firstAt, outAt } = this.memory;
    this.memory.putBytes(firstAt, this.frame(source));
    this.#ask("read_frame", BigInt(firstAt), BigInt(outAt));
    return this.memory.getFields(outAt);
  }
  local(source, reference) {
    const { firstAt, placeAt, outAt } = this.memory;
    this.memory.putPosition(placeAt, reference);
    this.memory.putBytes(firstAt, this.#frameNear(source, reference));
    this.#ask("local", BigInt(firstAt), BigInt(placeAt), BigInt(outAt));
    return this.#positionAt(outAt);
  }
  localZones(source, reference) {
    const { firstAt, placeAt, outAt } = this.memory;
    this.memory.putPosition(placeAt, reference);
    this.memory.putBytes(firstAt, this.#frameNear(source, reference));
    this.#ask("local_zones", BigInt(firstAt), BigInt(placeAt), BigInt(outAt));
    return this.memory.getZones(outAt);
  }
  pair(older, newer, site = null) {
    const { firstAt, secondAt, placeAt, outAt } = this.memory;
    if (site !== null) this.memory.putPosition(placeAt, site);
    const [first, second] = this.#twoFrames(older, newer, site);
    this.memory.putBytes(firstAt, first);
    this.memory.putBytes(secondAt, second);
    if (site !== null) this.#ask("pair_at", BigInt(firstAt), BigInt(secondAt), BigInt(placeAt), BigInt(outAt));
    else this.#ask("pair", BigInt(firstAt), BigInt(secondAt), BigInt(outAt));
    return this.#positionAt(outAt);
  }
  encode(head, position) {
    const isAir = head instanceof AirHead;
    if (!isAir && !(head instanceof GroundHead)) throw new TypeError("a head is an AirHead or a GroundHead");
    const { firstAt, placeAt, outAt } = this.memory;
    this.memory.putHead(firstAt, isAir ? AIR_HEAD_MEMBERS : GROUND_HEAD_MEMBERS, head);
    this.memory.putPosition(placeAt, position);
    this.#ask(isAir ? "encode_air" : "encode_ground", BigInt(firstAt), BigInt(placeAt), BigInt(outAt));
    return this.#frameAt(outAt);
  }
  sendAgain(source, odd, position) {
    const { firstAt, placeAt, outAt } = this.memory, parity = fitted(odd, 8);
    this.memory.putPosition(placeAt, position);
    const frame = parity > 1 ? new Uint8Array(FRAME_BYTES) : this.#frameNear(source, position);
    this.memory.putBytes(firstAt, frame);
    this.#ask("send_again", BigInt(firstAt), parity, BigInt(placeAt), BigInt(outAt));
    return this.#frameAt(outAt);
  }
  zoneCount(lat) {
    const { placeAt, outAt } = this.memory;
    this.memory.putAngle(placeAt, lat);
    this.#ask("zone_count", BigInt(placeAt), BigInt(outAt));
    return this.memory.view().getUint8(outAt);
  }
  angle(text) {
    if (typeof text !== "string") throw new TypeError("an angle is parsed from a text; degrees need no parsing");
    const length = this.memory.putText(text), { textAt, outAt } = this.memory;
    this.#ask("angle_of_text", BigInt(textAt), length, BigInt(outAt));
    return this.#angleAt(outAt);
  }
  angleText(degrees) {
    const { placeAt, outAt } = this.memory;
    this.memory.putAngle(placeAt, degrees);
    this.#ask("text_of_angle", BigInt(placeAt), BigInt(outAt));
    return this.memory.getText(outAt, ANGLE_TEXT_BYTES);
  }
  angleE7(degrees) {
    const { placeAt, outAt } = this.memory;
    this.memory.putAngle(placeAt, degrees);
    this.#ask("angle_e7", BigInt(placeAt), BigInt(outAt));
    return this.memory.view().getBigInt64(outAt, true);
  }
  positionE7(position) {
    const { placeAt, outAt } = this.memory;
    this.memory.putPosition(placeAt, position);
    this.#ask("position_e7", BigInt(placeAt), BigInt(outAt));
    return readDegreesE7(this.memory.view(), outAt);
  }
  feetOfField(typeCode, field) {
    const { outAt } = this.memory;
    this.#ask("feet_of_field", fitted(typeCode, 8), fitted(field, 16), BigInt(outAt));
    const { form, feet } = readAltitude(this.memory.view(), outAt);
    return { form, feet: form === AltitudeForm.FEET ? feet : null };
  }
  fieldOfFeet(feet) {
    const { outAt } = this.memory, number = whole(feet);
    const fits = BigInt.asIntN(32, number) === number;
    this.#ask("field_of_feet", fits ? Number(number) : 0x7fffffff, BigInt(outAt));
    return this.memory.view().getUint16(outAt, true);
  }
  unitOf(moments, addresses, clocked = false) {
    const { memory } = this, times = BigUint64Array.from(moments, moment), aircraft = Uint32Array.from(addresses);
    const count = times.length;
    if (count !== aircraft.length) throw new RangeError(`${count} timestamps and ${aircraft.length} addresses`);
    const room = memory.claim(12 * count + 16), next = room.at + 8 * count;
    try {
      memory.putBytes(room.at, new Uint8Array(times.buffer));
      memory.putBytes(next, new Uint8Array(aircraft.buffer));
      const words = [room.at, count, next, count].map(BigInt);
      return memory.exports.squitter_unit_of(...words, clocked ? 1 : 0);
    } finally {
      memory.release(room);
    }
  }
  faultText(code, first = 0n, second = 0) {
    const { exports, faultAt, outAt } = this.memory, view = this.memory.view();
    const numbers = [[code, 32], [first, 64], [second, 32]].map(([value, bits]) => [whole(value), bits]);
    const fit = numbers.every(([value, bits]) => BigInt.asUintN(bits, value) === value);
    if (!fit) throw new RangeError("a fault has a code and a second number below 2^32 and a first below 2^64");
    if (Number(code) in FAULTS) return FAULTS[Number(code)];
    writeFault(view, faultAt, { code: Number(code), first: BigInt(first), second: Number(second) });
    exports.squitter_text_of_fault(BigInt(faultAt), BigInt(outAt));
    return this.memory.getText(outAt, FAULT_TEXT_BYTES);
  }
  version() {
    const number = this.memory.exports.squitter_version();
    return `${number >> 16}.${(number >> 8) & 255}.${number & 255}`;
  }
}
async function load(source) {
  let given = await source;
  const isModule = given instanceof ArrayBuffer || ArrayBuffer.isView(given) || given instanceof WebAssembly.Module;
  if (!isModule && typeof Response !== "undefined" && given instanceof Response) {
    if (!given.ok) throw new Error(`the module cannot be loaded: ${given.status}`);
    given = await given.arrayBuffer();
  }
  if (ArrayBuffer.isView(given)) given = new Uint8Array(given.buffer, given.byteOffset, given.byteLength);
  const made = await WebAssembly.instantiate(given, {});
  return new Squitter(made instanceof WebAssembly.Instance ? made : made.instance);
}
return {
  AirHead, AltitudeForm, Angle, BEYOND_RANGE, Code, Contact, Fault, Feed, FeedFormat, Format, GroundHead, Kind, Log,
  Order, Squitter, Stranger, TOO_FAST, Tracker, Unit, WINDOW, What, load,
};
}
