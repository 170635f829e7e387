/* Made by clib/bindings from clib/squitter.h and clib/texts. Edit these and run the script. */

export const VERSION = 256;
export const FRAME_BYTES = 14; // of a frame
export const FRAME_DIGITS = 28; // of a frame's text, without a zero at its end
export const ANGLE_TEXT_BYTES = 16; // room for an angle's text and the zeros after it
export const FAULT_TEXT_BYTES = 64; // room for a fault's text and the zeros after it
export const BEYOND_RANGE = 1; // it is further from the site than the range
export const TOO_FAST = 2; // the aircraft would be faster than the speed
export const HEADER_BYTES = 64; // room for the header of a format and the zeros after it
export const ANSWER_TEXT_BYTES = 512; // the most that the text of one line takes
export const FEED_LIVE = 1; // arrivals say when the bytes were received; otherwise they have no effect
export const FEED_BY_ARRIVAL = 2; // the receiver's clock is ignored, so that its frames have their arrivals
export const FEED_ALL_FORMATS = 4; // frames of all downlink formats are written; otherwise those of format 17
export const LINE_BYTES = 50; // the most that one line of a log takes

/** The codes of faults. */
export const Code = Object.freeze({
  OK: 0, WRAP: 1, SHORT: 2, LENGTH: 3, DIGIT: 4, NOT_DF17: 5, PARITY: 6, NOT_POSITION: 10, OTHER_ADDRESS: 11,
  OTHER_KIND: 12, SAME_PARITY: 13, NO_SITE: 14, OUT_OF_RANGE: 15, ZONE_COUNTS: 16, BAD_POSITION: 20, BAD_FIELDS: 21,
  BAD_ANGLE: 22, BAD_LATITUDE: 23, BAD_FEET: 24, BAD_PARITY: 25, NOT_A_NUMBER: 30, TOO_MANY_DECIMALS: 31,
  ANGLE_RANGE: 32, LONG_LINE: 40, BAD_MOMENT: 41, MOMENT_BACK: 42, TABLE_FULL: 43, NO_MEMORY: 44, NO_LIMIT: 45,
  NO_TRACKER: 46, LONG_LOG: 48, BAD_FORMAT: 49, BAD_ENTRY: 50,
});

/** The kind of a squitter, by its type code. */
export const Kind = Object.freeze({ OTHER: 0, AIR: 1, GROUND: 2 });

/** The meaning of an altitude field. */
export const AltitudeForm = Object.freeze({ NONE: 0, FEET: 1, OTHER: 2 });

/** The result for a frame: the first of these that applies. */
export const What = Object.freeze({ FIX: 1, FOLLOWED: 2, WAITING: 3, SPLIT: 4, FAR: 5, WITHOUT_SITE: 6, NO_PLACE: 7 });

/** The formats of `squitter track --format`. */
export const Format = Object.freeze({ LINES: 0, CSV: 1, JSON: 2 });

/** The formats of a source. */
export const FeedFormat = Object.freeze({ BEAST: 0, AVR: 1, CSV: 2, LOG: 3, AUTO: 4 });

/** Sources without frames of a known format. */
export const Stranger = Object.freeze({
  SBS: 5, TAR: 6, PACKED: 7, UTF16: 8, JSON: 9, NO_FRAME: 10, SEMICOLONS: 11, TABS: 12, NO_TIME: 13, NO_RAWMSG: 14,
  NO_SECONDS: 15, NO_NAMES: 16,
});

/** What timestamps seem to be. */
export const Unit = Object.freeze({
  MILLISECONDS: 0, SECONDS: 1, MICROSECONDS: 2, NANOSECONDS: 3, ALL_ZERO: 4, GPS: 5,
});

/** The size of each struct in bytes. */
export const BYTES = Object.freeze({
  fault: 16, angle: 16, position: 32, degreesE7: 8, fields: 40, airHead: 12, groundHead: 12, altitude: 8, zones: 16,
  received: 24, lastFix: 40, side: 88, entry: 192, watch: 8, last: 16, heard: 40, block: 16, tracker: 16, log: 16,
  answer: 96, done: 16, tally: 16, feed: 16, order: 16, counts: 272,
});

/** The offset of each member of each struct in bytes. */
export const AT = Object.freeze({
  fault: Object.freeze({ code: 0, second: 4, first: 8 }),
  angle: Object.freeze({ num: 0, den: 8 }),
  position: Object.freeze({ lat: 0, lon: 16 }),
  degreesE7: Object.freeze({ lat: 0, lon: 4 }),
  fields: Object.freeze({
    raw: 0, address: 8, lat: 12, lon: 16, feet: 20, altitude: 24, altitudeForm: 26, kind: 27, ca: 28, typeCode: 29,
    odd: 30, time: 31, status: 32, flag: 33, movement: 34, trackStatus: 35, track: 36,
  }),
  airHead: Object.freeze({ address: 0, altitude: 4, ca: 6, typeCode: 7, status: 8, flag: 9, time: 10, odd: 11 }),
  groundHead: Object.freeze({
    address: 0, ca: 4, typeCode: 5, movement: 6, trackStatus: 7, track: 8, time: 9, odd: 10,
  }),
  altitude: Object.freeze({ feet: 0, form: 4 }),
  zones: Object.freeze({ latZone: 0, lonZone: 4, degrees: 8, latZones: 12, zoneCount: 13, lonZones: 14, odd: 15 }),
  received: Object.freeze({ moment: 0, frame: 8 }),
  lastFix: Object.freeze({ moment: 0, position: 8 }),
  side: Object.freeze({ even: 0, odd: 24, fix: 48 }),
  entry: Object.freeze({ moment: 0, address: 8, airborne: 16, surface: 104 }),
  watch: Object.freeze({ range: 0, speed: 4 }),
  last: Object.freeze({ moment: 0, heard: 8 }),
  heard: Object.freeze({ position: 0, what: 32, even: 33, odd: 34 }),
  block: Object.freeze({ size: 0, memory: 8 }),
  tracker: Object.freeze({ full: 0, at: 8 }),
  log: Object.freeze({ full: 0, at: 8 }),
  answer: Object.freeze({
    number: 0, moment: 8, heard: 16, fault: 56, degrees: 72, address: 80, feet: 84, kind: 88, altitudeForm: 89,
  }),
  done: Object.freeze({ taken: 0, written: 8 }),
  tally: Object.freeze({ good: 0, refused: 8 }),
  feed: Object.freeze({ full: 0, at: 8 }),
  order: Object.freeze({ full: 0, at: 8 }),
  counts: Object.freeze({
    found: 0, written: 8, modeAc: 16, multilaterated: 24, receiverIds: 32, damaged: 40, aside: 48, formats: 56,
    breaks: 256, ahead: 264,
  }),
});

/** The name, offset and size of each member of squitter_air_head. */
export const AIR_HEAD_MEMBERS = [
  ["address", 0, 4], ["altitude", 4, 2], ["ca", 6, 1], ["typeCode", 7, 1], ["status", 8, 1], ["flag", 9, 1],
  ["time", 10, 1], ["odd", 11, 1],
];

/** The name, offset and size of each member of squitter_ground_head. */
export const GROUND_HEAD_MEMBERS = [
  ["address", 0, 4], ["ca", 4, 1], ["typeCode", 5, 1], ["movement", 6, 1], ["trackStatus", 7, 1], ["track", 8, 1],
  ["time", 9, 1], ["odd", 10, 1],
];

/** A squitter_fields, read member by member. */
export class Fields {
  constructor(view, at) {
    this.raw = view.getBigUint64(at, true);
    this.address = view.getUint32(at + 8, true);
    this.lat = view.getUint32(at + 12, true);
    this.lon = view.getUint32(at + 16, true);
    this.feet = view.getInt32(at + 20, true);
    this.altitude = view.getUint16(at + 24, true);
    this.altitudeForm = view.getUint8(at + 26);
    this.kind = view.getUint8(at + 27);
    this.ca = view.getUint8(at + 28);
    this.typeCode = view.getUint8(at + 29);
    this.odd = view.getUint8(at + 30);
    this.time = view.getUint8(at + 31);
    this.status = view.getUint8(at + 32);
    this.flag = view.getUint8(at + 33);
    this.movement = view.getUint8(at + 34);
    this.trackStatus = view.getUint8(at + 35);
    this.track = view.getUint8(at + 36);
  }

  /** Returns the members, with BigInts as decimal digits, because JSON has none. */
  toJSON() {
    return { ...this, raw: String(this.raw) };
  }
}

/** Reads a squitter_fault. */
export function readFault(view, at) {
  return {
    code: view.getUint32(at, true),
    second: view.getUint32(at + 4, true),
    first: view.getBigUint64(at + 8, true),
  };
}

/** Reads a squitter_angle. */
export function readAngle(view, at) {
  return {
    num: view.getBigInt64(at, true),
    den: view.getBigUint64(at + 8, true),
  };
}

/** Reads a squitter_zones. */
export function readZones(view, at) {
  return {
    latZone: view.getInt32(at, true),
    lonZone: view.getUint32(at + 4, true),
    degrees: view.getUint32(at + 8, true),
    latZones: view.getUint8(at + 12),
    zoneCount: view.getUint8(at + 13),
    lonZones: view.getUint8(at + 14),
    odd: view.getUint8(at + 15),
  };
}

/** Reads a squitter_degrees_e7. */
export function readDegreesE7(view, at) {
  return {
    lat: view.getInt32(at, true),
    lon: view.getInt32(at + 4, true),
  };
}

/** Reads a squitter_altitude. */
export function readAltitude(view, at) {
  return {
    feet: view.getInt32(at, true),
    form: view.getUint8(at + 4),
  };
}

/** Reads a squitter_done. */
export function readDone(view, at) {
  return {
    taken: view.getBigUint64(at, true),
    written: view.getBigUint64(at + 8, true),
  };
}

/** Reads a squitter_tally. */
export function readTally(view, at) {
  return {
    good: view.getBigUint64(at, true),
    refused: view.getBigUint64(at + 8, true),
  };
}

/** Reads a squitter_last. */
export function readLast(view, at) {
  return {
    moment: view.getBigUint64(at, true),
    heard: view.getBigUint64(at + 8, true),
  };
}

/** Reads a squitter_counts. */
export function readCounts(view, at) {
  return {
    found: view.getBigUint64(at, true),
    written: view.getBigUint64(at + 8, true),
    modeAc: view.getBigUint64(at + 16, true),
    multilaterated: view.getBigUint64(at + 24, true),
    receiverIds: view.getBigUint64(at + 32, true),
    damaged: view.getBigUint64(at + 40, true),
    aside: view.getBigUint64(at + 48, true),
    formats: Array.from({ length: 25 }, (_, index) => view.getBigUint64(at + 56 + 8 * index, true)),
    breaks: view.getBigUint64(at + 256, true),
    ahead: view.getBigUint64(at + 264, true),
  };
}

/** Writes a squitter_fault. */
export function writeFault(view, at, value) {
  view.setUint32(at, value.code, true);
  view.setUint32(at + 4, value.second, true);
  view.setBigUint64(at + 8, value.first, true);
}

/** Writes a squitter_angle. */
export function writeAngle(view, at, value) {
  view.setBigInt64(at, value.num, true);
  view.setBigUint64(at + 8, value.den, true);
}

/** Writes a squitter_block. */
export function writeBlock(view, at, value) {
  view.setBigUint64(at, value.size, true);
  view.setBigUint64(at + 8, value.memory, true);
}

/** Writes a squitter_last. */
export function writeLast(view, at, value) {
  view.setBigUint64(at, value.moment, true);
  view.setBigUint64(at + 8, value.heard, true);
}

/** The texts of faults for which the library's is too narrow. */
export const FAULTS = Object.freeze({
  [Code.NO_TRACKER]: "no tracker, log, feed or order",
});

/** What to do after a fault. */
export const HINTS = Object.freeze({
  [Code.WRAP]: "a frame text is 28 hexadecimal digits, bare or between * and ;",
  [Code.SHORT]: "a frame text is 28 hexadecimal digits, bare or between * and ;",
  [Code.LENGTH]: "a frame text is 28 hexadecimal digits, bare or between * and ;",
  [Code.DIGIT]: "a frame text is 28 hexadecimal digits, bare or between * and ;",
  [Code.NOT_DF17]: "only extended squitters (DF17) are read; skip other frames",
  [Code.PARITY]: "the frame is damaged; skip it",
  [Code.NOT_POSITION]: "the message is no position; only kinds AIR and GROUND are",
  [Code.OTHER_ADDRESS]: "give two frames of one aircraft",
  [Code.OTHER_KIND]: "give two airborne or two surface positions",
  [Code.SAME_PARITY]: "give an even and an odd frame",
  [Code.NO_SITE]: "give the receiver position as the site",
  [Code.OUT_OF_RANGE]: "use newer frames, or a nearer reference",
  [Code.ZONE_COUNTS]: "the frames lie on two sides of a zone border; use newer ones",
  [Code.BAD_POSITION]: "a latitude is from -90 to 90 degrees, a longitude from -180 to 180, with at"
    + " most 12 decimals",
  [Code.BAD_FIELDS]: "squitter.h has the range of each field",
  [Code.BAD_ANGLE]: "an angle is from -360 to 360 degrees, with at most 12 decimals",
  [Code.BAD_LATITUDE]: "a latitude is from -90 to 90 degrees, with at most 12 decimals",
  [Code.BAD_FEET]: "feet are a multiple of 25 from -1000 to 50175",
  [Code.BAD_PARITY]: "odd is 0 or 1",
  [Code.NOT_A_NUMBER]: "an angle text is one to three digits, with an optional - before and "
    + "decimals after, such as '-52.25'",
  [Code.TOO_MANY_DECIMALS]: "an angle text has at most 12 decimals",
  [Code.ANGLE_RANGE]: "an angle is from -360 to 360 degrees",
  [Code.MOMENT_BACK]: "timestamps must not decrease; sort the frames first, as an Order does",
  [Code.TABLE_FULL]: "raise the limit",
  [Code.NO_LIMIT]: "a limit is at least 1",
  [Code.NO_TRACKER]: "it is closed",
  [Code.BAD_ENTRY]: "the state was saved with other settings, or is damaged",
});
