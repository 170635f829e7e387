/* squitter.d.ts: the types of squitter.js. tests/page holds the names here to what the module exports. */

import { AltitudeForm, Code, FeedFormat, Format, Kind, Stranger, Unit, What } from "./squitter_layout.js";

export { AltitudeForm, Code, FeedFormat, Format, Kind, Stranger, Unit, What } from "./squitter_layout.js";

/** The default window of trackers, contacts and logs, in milliseconds: 10 seconds, as that of `squitter track`. */
export declare const WINDOW: bigint;

/** A whole number. A number that is not whole, or too large to be exact, is a TypeError. */
export type Whole = number | bigint;

/** num/den degrees. */
export interface Fraction {
  readonly num: Whole;
  readonly den: Whole;
}

/** An exact number of degrees: a fraction, a BigInt, a number or a text such as "52.25". A number counts as its
 * shortest text: 52.31 is 5231/100. At most 12 decimals are valid, and computed numbers often have more: pass
 * `degrees.toFixed(12)`. */
export type Degrees = Fraction | Whole | string;

/** A latitude, north positive, at most 90 degrees, and a longitude, east positive, at most 180, on both sides. */
export interface Position {
  readonly lat: Degrees;
  readonly lon: Degrees;
}

/** What is known of the places of aircraft. */
export interface Watch {
  readonly site?: Position | null;
  readonly range?: Whole;
  readonly speed?: Whole;
}

/** The place is further from the site than the range. */
export declare const BEYOND_RANGE: number;

/** The aircraft would be faster than the speed. */
export declare const TOO_FAST: number;

/** A position that a call returns. */
export interface Place extends Position {
  readonly lat: Angle;
  readonly lon: Angle;
}

/** A frame: its text, or its 14 bytes, which are copied. */
export type Frame = string | ArrayBuffer | Uint8Array | Int8Array | Uint8ClampedArray | DataView;

/** A squitter, field by field. A field that its kind lacks is 0, or null where 0 is a value: the code and the altitude.
 * squitter.h gives the ranges. `raw` is text in JSON. */
export interface Fields {
  /** Of kind other: the 56 bits of the message, ME. */
  raw: bigint;
  /** The ICAO address, below 2^24. */
  address: number;
  /** The CPR code of the latitude, below 131072; null of kind other. */
  lat: number | null;
  /** The CPR code of the longitude, below 131072; null of kind other. */
  lon: number | null;
  /** In the air, where altitudeForm is FEET; null elsewhere. */
  feet: number | null;
  /** In the air: the altitude field, 12 bits. */
  altitude: number;
  altitudeForm: AltitudeForm;
  kind: Kind;
  ca: number;
  typeCode: number;
  /** Of a position: the parity of its code (F), 0 even, 1 odd. */
  odd: number;
  time: number;
  status: number;
  flag: number;
  movement: number;
  trackStatus: number;
  track: number;
}

/** The meaning of an altitude field; `feet` is null in the other forms. */
export interface Altitude {
  form: AltitudeForm;
  feet: number | null;
}

/** The result for a frame: one of the seven kinds, the position if there is one, and the zone counts of a split. */
export interface Heard {
  what: What;
  position: Place | null;
  even: number;
  odd: number;
}

/** The first error of a call. Its message is the library's text, and after a colon what to do. The text alone is
 * `faultText(code, first, second)`. */
export declare class Fault extends Error {
  constructor(message: string, code: Code, first?: bigint, second?: number);
  readonly code: Code;
  readonly first: bigint;
  readonly second: number;
  /** Returns the fault with `first` as a text, because JSON has no BigInt. */
  toJSON(): object;
}

/** An exact number of degrees that a call returns, num/den in lowest terms. Compare two by `toNumber()`, because `<`
 * compares their texts. */
export declare class Angle implements Fraction {
  constructor(library: Squitter, num: bigint, den: bigint);
  readonly num: bigint;
  readonly den: bigint;
  /** Returns the angle with seven decimals, rounded half away from zero by the library. */
  toString(): string;
  /** Returns a JavaScript number, for drawing; only the fraction is exact. */
  toNumber(): number;
  /** Returns the fraction as a text, such as `428091/8192`. */
  toJSON(): string;
}

/** The zones that a position lies in. `lat` and `lon` are the CPR code of its frame. Its latitude is
 * degrees / latZones * (latZone + lat / 2^17). Its longitude is degrees / lonZones * (lonZone + lon / 2^17), minus 360
 * degrees if that is 180 or more. */
export interface Zones {
  /** The zone of latitude, j: negative in the south. */
  latZone: number;
  /** The zone of longitude, m: from 0, eastwards from the prime meridian. */
  lonZone: number;
  /** The degrees that the zones divide: 360 in the air, 90 on the ground. */
  degrees: number;
  /** 60 even, 59 odd. */
  latZones: number;
  /** NL of the position's latitude. */
  zoneCount: number;
  /** NL even; odd, one less and at least 1. */
  lonZones: number;
  odd: number;
}

/** The fields of an airborne position squitter, except its position. Other fields throw a TypeError. */
export declare class AirHead {
  constructor(fields: {
    address: Whole; altitude?: Whole; ca?: Whole; typeCode?: Whole; status?: Whole; flag?: Whole; time?: Whole;
    odd?: Whole;
  });
  address: Whole;
  altitude: Whole;
  ca: Whole;
  typeCode: Whole;
  status: Whole;
  flag: Whole;
  time: Whole;
  odd: Whole;
}

/** The fields of a surface position squitter, except its position. Other fields throw a TypeError. */
export declare class GroundHead {
  constructor(fields: {
    address: Whole; ca?: Whole; typeCode?: Whole; movement?: Whole; trackStatus?: Whole; track?: Whole; time?: Whole;
    odd?: Whole;
  });
  address: Whole;
  ca: Whole;
  typeCode: Whole;
  movement: Whole;
  trackStatus: Whole;
  track: Whole;
  time: Whole;
  odd: Whole;
}

/** The loaded library. A call without a result throws a Fault: the first that applies of those it names. */
export declare class Squitter {
  constructor(instance: WebAssembly.Instance);
  /** The module's memory, for callers that use its exports directly. */
  readonly memory: object;
  /** Returns the 14 bytes of a frame, or of a frame text. Faults: WRAP, SHORT, LENGTH, DIGIT. */
  frame(source: Frame): Uint8Array;
  /** Returns why a place at a timestamp (ms) cannot be true: the sum of BEYOND_RANGE and TOO_FAST, or 0. A range
   * (nautical miles from the site) or a speed (knots) of 0 is not known. Fault: BAD_POSITION. */
  doubts(watch: Watch, at: Whole, place: Position, before?: LastFix | null): number;
  /** Returns the frame as 28 upper-case hexadecimal digits. Faults: those of `frame`. */
  frameText(source: Frame): string;
  /** Returns the fields of the squitter in a frame. Faults: those of `frame`, then NOT_DF17, PARITY. */
  read(source: Frame): Fields;
  /** Returns the position of a frame near a reference: the one point with its code within half a zone of it.
   * Faults: BAD_POSITION (the reference), those of `read`, NOT_POSITION, OUT_OF_RANGE. */
  local(source: Frame, reference: Position): Place;
  /** Returns the zones that the position of `local` lies in. Faults: those of `local`. */
  localZones(source: Frame, reference: Position): Zones;
  /** Returns the position of the newer of an even and an odd frame of one address. Surface pairs need the site. Faults:
   * BAD_POSITION (the site), those of `read` (of the older, then of the newer), NOT_POSITION, OTHER_ADDRESS,
   * OTHER_KIND, SAME_PARITY, NO_SITE, OUT_OF_RANGE, ZONE_COUNTS. */
  pair(older: Frame, newer: Frame, site?: Position | null): Place;
  /** Returns the frame for a position. Faults: BAD_FIELDS (the head), BAD_POSITION. */
  encode(head: AirHead | GroundHead, position: Position): Uint8Array;
  /** Returns the frame with this parity (0 even, 1 odd) and the code of this position. Its other fields stay.
   * Faults: BAD_PARITY, BAD_POSITION, those of `read`, NOT_POSITION. */
  sendAgain(source: Frame, odd: Whole, position: Position): Uint8Array;
  /** Returns the number of longitude zones at a latitude (NL), from 1 to 59. Fault: BAD_LATITUDE. */
  zoneCount(lat: Degrees): number;
  /** Parses an angle: an optional -, one to three digits, and optionally a point and up to twelve
   * decimals. Faults: NOT_A_NUMBER, TOO_MANY_DECIMALS, ANGLE_RANGE. */
  angle(text: string): Angle;
  /** Returns an angle with seven decimals, rounded half away from zero. Fault: BAD_ANGLE. */
  angleText(degrees: Degrees): string;
  /** Returns the angle in units of 10^-7 degree, rounded half away from zero. Fault: BAD_ANGLE. */
  angleE7(degrees: Degrees): bigint;
  /** Returns the position in units of 10^-7 degree, rounded half away from zero. Fault: BAD_POSITION. */
  positionE7(position: Position): { lat: number; lon: number };
  unitOf(moments: Iterable<bigint | number>, addresses: Iterable<number>, clocked?: boolean): Unit;
  /** Decodes an altitude field of 12 bits in an airborne position of this type code. Fault: BAD_FIELDS. */
  feetOfField(typeCode: Whole, field: Whole): Altitude;
  /** Returns the altitude field for these feet, a multiple of 25 from -1000 to 50175. Fault: BAD_FEET. */
  fieldOfFeet(feet: Whole): number;
  /** Returns the words of a fault, those of the program if it has any. Throws a RangeError for numbers that are too
   * large. */
  faultText(code: Whole, first?: Whole, second?: Whole): string;
  /** Returns the version of the library. */
  version(): string;
}

/** The settings of a log or a tracker. `window` is in milliseconds (WINDOW by default). `limit` is the most aircraft at
 * once (1000 by default; below 0 or above 2^20 throws a RangeError). `site` is the receiver position, which surface
 * pairs need. Another setting throws a TypeError. */
export interface Settings {
  window?: Whole;
  limit?: Whole;
  site?: Position | null;
}

/** Results of lines of a log, as columns of equal length. */
export interface Answers {
  /** The numbers of the lines, from 1. */
  readonly numbers: Float64Array;
  readonly moments: BigUint64Array;
  /** One of What, or 0 for a refused line. */
  readonly whats: Uint8Array;
  /** The ICAO address, or -1 for a refused line. */
  readonly addresses: Int32Array;
  /** One of Kind. */
  readonly kinds: Uint8Array;
  /** The position in degrees, exact to seven decimals, or NaN. */
  readonly lats: Float64Array;
  readonly lons: Float64Array;
  /** The altitude in feet, or NaN. */
  readonly feet: Float64Array;
  /** The zone counts of What.SPLIT, else 0. */
  readonly evens: Uint8Array;
  readonly odds: Uint8Array;
  /** One of Code (Code.OK for a good line), and the first number of the fault. */
  readonly codes: Uint32Array;
  readonly firsts: BigUint64Array;
}

/** The numbers of good lines and of refused lines. */
export interface Tally {
  readonly good: bigint;
  readonly refused: bigint;
}

/** A log in pieces of any length, as `squitter track` decodes it. */
export declare class Log {
  /** Creates a log without lines. Faults: BAD_POSITION (the site), NO_LIMIT. */
  constructor(library: Squitter, settings?: Settings);
  /** Returns the results of the lines that end in this piece. A text counts as its UTF-8 bytes. Fault: NO_TRACKER. */
  take(piece: BufferSource | string): Answers;
  /** Returns the result of the last line if it has no line feed. It ends the line and not the log: what is taken next
   * begins a new line, with the next number. Fault: NO_TRACKER. */
  finish(): Answers;
  /** Returns the results of the lines that end in this piece, as text. Faults: NO_TRACKER, BAD_FORMAT. */
  takeText(piece: BufferSource | string, format?: Format): string;
  /** Returns the result of the last line if it has no line feed, as text. Faults: NO_TRACKER, BAD_FORMAT. */
  finishText(format?: Format): string;
  /** Returns the header of a format: the line with the column names; empty for a format without one. */
  header(format?: Format): string;
  /** The numbers of good lines and of refused lines so far. Fault: NO_TRACKER. */
  get tally(): Tally;
  /** Returns the aircraft that were heard at or after a timestamp, as `Tracker.present` does. */
  present(since?: Whole): Present[];
  /** Frees the memory. Safe to call twice. */
  close(): void;
}

/** A frame of 14 bytes and its timestamp (ms). */
export interface Received {
  readonly moment: bigint;
  readonly frame: Uint8Array;
}

/** The position of a fix and its timestamp (ms). */
export interface LastFix {
  readonly moment: bigint;
  readonly position: Position;
}

/** What is kept of an aircraft in the air, or on the ground: its newest frames and its last fix, with timestamps in
 * milliseconds. */
export interface Side {
  readonly even: Received | null;
  readonly odd: Received | null;
  readonly fix: LastFix | null;
}

/** An aircraft that is present, and the timestamp of its newest position frame. */
export interface Present {
  readonly address: number;
  readonly moment: bigint;
  readonly airborne: Side;
  readonly surface: Side;
}

/** Positions of many aircraft from their frames, as `squitter track` decodes them. */
export declare class Tracker {
  /** Creates an empty tracker. Faults: BAD_POSITION (the site), NO_LIMIT. */
  constructor(library: Squitter, settings?: Settings);
  /** Adds a frame with its timestamp, and returns the result. A Fault leaves the tracker unchanged. Faults: those of
   * `frame`, NO_TRACKER, NOT_DF17, PARITY, MOMENT_BACK, TABLE_FULL. */
  hear(at: Whole, source: Frame): Heard;
  /** The number of aircraft that are present; 0 after `close`. */
  get size(): number;
  /** Returns the aircraft that were heard at or after a timestamp, the last heard first. Without one these are all that
   * are present; none after `close`. */
  present(since?: Whole): Present[];
  /** The timestamp of the last accepted frame; 0n if none was accepted. */
  get last(): bigint;
  /** Returns the state. A closed tracker has an empty state. */
  save(): Saved;
  /** Replaces the state of the tracker; the settings stay. Throws a RangeError unless the entries have 192 bytes each.
   * Faults: NO_TRACKER, BAD_ENTRY. After BAD_ENTRY the tracker is as if it had heard no frame. */
  restore(saved: Saved): void;
  /** Returns a tracker with the same settings and state. */
  copy(): Tracker;
  /** Frees the memory. Safe to call twice. */
  close(): void;
}

/** The state of a tracker: the timestamp of the last accepted frame or null, and 192 bytes for each aircraft. */
export interface Saved {
  readonly last: bigint | null;
  readonly entries: Uint8Array;
}

/** A tracker of one address. A second address throws TABLE_FULL while the first is present. */
export declare class Contact extends Tracker {
  /** Creates a contact without frames. `window` is in milliseconds, WINDOW by default. Fault: BAD_POSITION (the
   * site). */
  constructor(library: Squitter, window?: Whole, site?: Position | null);
  /** The timestamp of the newest position; 0n if there is none. */
  get newest(): bigint;
  /** Returns a contact with the same settings and state. */
  copy(): Contact;
}

/** The settings of a feed. `format` is AUTO by default. A gap above `leap` milliseconds (600000 by default) is a jump
 * of the source's clock. Arrival times count only if the source is `live`. A timestamp may be before the latest one by
 * `late` milliseconds (0 by default). With `allFormats`, frames of all downlink formats are written; with `byArrival`,
 * the receiver's clock is ignored. Another setting throws a TypeError. */
export interface FeedSettings {
  format?: FeedFormat;
  leap?: Whole;
  live?: boolean;
  late?: Whole;
  allFormats?: boolean;
  byArrival?: boolean;
}

/** Squitters: their timestamps in milliseconds, and their frames, 14 bytes each, one after the other. */
export interface Squitters {
  readonly moments: BigUint64Array;
  readonly frames: Uint8Array;
}

/** Counts of the items of a source: `found` is the sum of the other counts of items. */
export interface Counts {
  readonly found: bigint;
  /** Squitters, with a timestamp. */
  readonly written: bigint;
  readonly modeAc: bigint;
  readonly multilaterated: bigint;
  /** Ids of receivers in a Beast stream, which are no frames. */
  readonly receiverIds: bigint;
  readonly damaged: bigint;
  /** Squitters that were set aside because of their time. */
  readonly aside: bigint;
  /** Frames of each downlink format other than 17; the last number counts formats 24 and above. With `allFormats` these
   * frames count as `written`. */
  readonly formats: bigint[];
  /** How often times went back, so that timestamps are moved on. These are no items. */
  readonly breaks: bigint;
  /** 1 if the timestamps of a live source are ahead of its arrivals by more than a leap, otherwise 0: it is a
   * recording, or its clock does not run at 12 MHz. */
  readonly ahead: bigint;
}

/** Finds the squitters in a receiver's bytes, with their timestamps in milliseconds. The bytes come in pieces of any
 * length, with their arrival times in milliseconds (0 by default). This prints the positions in a recording:
 *
 *     const feed = new Feed(squitter), log = new Log(squitter);
 *     process.stdout.write(log.takeText(feed.takeText(readFileSync("recording.bin"))));
 *     process.stdout.write(log.takeText(feed.finishText()) + log.finishText());
 */
export declare class Feed {
  /** Creates a feed at the start of a source. Fault: BAD_FORMAT. */
  constructor(library: Squitter, settings?: FeedSettings);
  /** Returns the squitters in a piece. An unfinished message waits for the next piece. Fault: NO_TRACKER. */
  take(piece: BufferSource, arrival?: Whole): Squitters;
  /** Ends the source, and returns its last squitters. Fault: NO_TRACKER. */
  finish(arrival?: Whole): Squitters;
  /** Returns the squitters in a piece as lines for a Log. Fault: NO_TRACKER. */
  takeText(piece: BufferSource, arrival?: Whole): string;
  /** Ends the source, and returns the lines of its last squitters. Fault: NO_TRACKER. */
  finishText(arrival?: Whole): string;
  /** The format of the source, or null if its bytes so far do not show one. Fault: NO_TRACKER. */
  readonly format: FeedFormat | null;
  /** What the source is if it holds no frames of a known format, or null. It is known once 16,384 bytes show no
   * format, or after `finish`. Fault: NO_TRACKER. */
  readonly stranger: Stranger | null;
  /** Drops an unfinished frame after a lost connection. The next piece belongs to a new one. Fault: NO_TRACKER. */
  disconnected(): void;
  /** The counts so far. Fault: NO_TRACKER. */
  get counts(): Counts;
  /** Frees the memory. Safe to call twice. */
  close(): void;
}

/** Sorts squitters by their timestamps. It holds each squitter until one has come that is `reorder` milliseconds later.
 * Once it holds 4096, it gives the earliest. Equal timestamps keep the order of arrival. */
export declare class Order {
  /** Creates an order without squitters. */
  constructor(library: Squitter, reorder: Whole);
  /** Takes squitters, by their timestamps (ms) and their frames, 14 bytes each. Returns those that are due. Throws a
   * RangeError unless there are as many timestamps as frames, or if the memory cannot grow. Fault: NO_TRACKER. */
  take(moments: Iterable<Whole>, frames: BufferSource): Squitters;
  /** Returns the squitters that are held, and holds none afterwards. Fault: NO_TRACKER. */
  flush(): Squitters;
  /** How many squitters are held. Fault: NO_TRACKER. */
  get held(): number;
  /** How many squitters came below the last timestamp that was given, and were dropped. Fault: NO_TRACKER. */
  get late(): number;
  /** Frees the memory. Safe to call twice. */
  close(): void;
}

/** Loads the library from dist/squitter.wasm: its bytes, the Response of fetch, a compiled module, or a promise of one
 * of these. Rejects with a WebAssembly.CompileError if the engine has no SIMD, or the bytes are no module. */
export declare function load(
  source: BufferSource | Response | WebAssembly.Module | PromiseLike<BufferSource | Response | WebAssembly.Module>
): Promise<Squitter>;
