/* squitter_values.js: the faults, angles and heads of squitter.js, and the checks of what a caller passes. */

import { FRAME_BYTES } from "./squitter_layout.js";

/** The default window of trackers, contacts and logs, in milliseconds: 10 seconds, as that of `squitter track`. */
export const WINDOW = 10_000n;

/** The first error of a call. Its message is the library's text, and after a colon what to do. */
export class Fault extends Error {
  constructor(message, code, first = 0n, second = 0) {
    super(message);
    this.name = "Fault";
    this.code = code;
    this.first = first;
    this.second = second;
  }

  /** Returns the fault with `first` as a text, because JSON has no BigInt. */
  toJSON() {
    const { name, message, code, first, second } = this;
    return { name, message, code, first: String(first), second };
  }
}

/** An exact number of degrees, num/den in lowest terms. The library writes its text, with seven decimals. */
export class Angle {
  #library;

  constructor(library, num, den) {
    this.#library = library;
    this.num = num;
    this.den = den;
    Object.freeze(this);
  }

  /** Returns the angle with seven decimals, rounded half away from zero. */
  toString() {
    return this.#library.angleText(this);
  }

  /** Returns a JavaScript number, for drawing; only the fraction is exact. */
  toNumber() {
    return Number(this.num) / Number(this.den);
  }

  /** Returns the fraction as a text, because JSON has no BigInt. */
  toJSON() {
    return `${this.num}/${this.den}`;
  }
}

/** Throws a TypeError for a setting that an object lacks, because the setting would be ignored. */
export function refuseSettings(name, known, others) {
  for (const other of Object.keys(others)) {
    throw new TypeError(`a ${name} has no setting ${other}; its settings are ${known.join(", ")}`);
  }
}

/** Throws a TypeError for a field that a head lacks, because the field would be ignored. */
function refuseOthers(head, others) {
  for (const name of Object.keys(others)) {
    const hint = name === "feet" ? ": give altitude, a field of 12 bits, which fieldOfFeet(feet) returns" : "";
    throw new TypeError(`${head} has no field ${name}${hint}`);
  }
}

/** The fields of an airborne position squitter, except its position. Throws a TypeError for other fields. */
export class AirHead {
  constructor({ address, altitude = 0, ca = 5, typeCode = 11, status = 0, flag = 0, time = 0, odd = 0, ...others }) {
    refuseOthers("AirHead", others);
    Object.assign(this, { address, altitude, ca, typeCode, status, flag, time, odd });
  }
}

/** The fields of a surface position squitter, except its position. Throws a TypeError for other fields. */
export class GroundHead {
  constructor({
    address, ca = 4, typeCode = 7, movement = 0, trackStatus = 0, track = 0, time = 0, odd = 0, ...others
  }) {
    refuseOthers("GroundHead", others);
    Object.assign(this, { address, ca, typeCode, movement, trackStatus, track, time, odd });
  }
}

export const PAGE_BYTES = 65536;

/** Returns a whole number as a BigInt. */
export function whole(value) {
  if (typeof value === "bigint") return value;
  if (Number.isSafeInteger(value)) return BigInt(value);
  throw new TypeError(`a whole number is wanted, not ${String(value)}`);
}

/** Returns a whole number of this many bits without a sign. A number that does not fit becomes the largest one. The
 * largest one is out of range in every field, so the library refuses it in its turn. */
export function fitted(value, bits) {
  const number = whole(value);
  return Number(BigInt.asUintN(bits, number) === number ? number : (1n << BigInt(bits)) - 1n);
}

/** Returns a timestamp or a window as a BigInt. Throws a RangeError unless it is a whole number below 2^64. */
export function moment(value) {
  const number = whole(value);
  if (BigInt.asUintN(64, number) !== number) throw new RangeError("a moment is a whole number below 2^64");
  return number;
}

/** Returns a fraction in lowest terms, as BigInts. */
export function lowest(num, den) {
  let [one, other] = [num < 0n ? -num : num, den];
  while (other) [one, other] = [other, one % other];
  return { num: num / one, den: den / one };
}

/** Returns the fraction that the shortest text of a number spells: 5231/100 for 52.31, 1/10^7 for 1e-7. */
function decimal(number) {
  const [, front, decimals = "", exponent = "0"] = /^(-?\d+)(?:\.(\d+))?(?:e(.\d+))?$/.exec(String(number));
  const places = decimals.length - Number(exponent), digits = BigInt(front + decimals);
  return places > 0 ? lowest(digits, 10n ** BigInt(places)) : { num: digits * 10n ** BigInt(-places), den: 1n };
}

/** Returns numerator and denominator of degrees: a fraction, a BigInt or a number. A number counts as its shortest
 * text. A fraction that does not fit in C becomes 0/0, which the library refuses. */
export function fraction(degrees) {
  if (!Number.isFinite(degrees) && typeof degrees !== "bigint" && typeof degrees?.num === "undefined") {
    throw new TypeError(`degrees are {num, den}, a BigInt, a number or a text such as "52.25", not ${String(degrees)}`);
  }
  const { num, den } = typeof degrees === "object" ? { num: whole(degrees.num), den: whole(degrees.den) }
    : typeof degrees === "bigint" ? { num: degrees, den: 1n } : decimal(degrees);
  const fits = BigInt.asIntN(64, num) === num && BigInt.asUintN(64, den) === den;
  return fits ? { num, den } : { num: 0n, den: 0n };
}

/** Returns the bytes of a frame that is not a text. */
export function frameBytes(source) {
  const isBytes = source instanceof ArrayBuffer || (ArrayBuffer.isView(source) && !(source.BYTES_PER_ELEMENT > 1));
  if (!isBytes) throw new TypeError("a frame is bytes or a text");
  if (source.byteLength !== FRAME_BYTES) throw new RangeError("a frame has 14 bytes");
  if (source instanceof ArrayBuffer) return new Uint8Array(source.slice(0));
  return new Uint8Array(source.buffer, source.byteOffset, FRAME_BYTES).slice();
}
