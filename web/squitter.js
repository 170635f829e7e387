/* squitter.js: libsquitter for JavaScript: ADS-B position squitters (DF17), read, decoded and written exactly.
 *
 *     import { load } from "./squitter.js";
 *     const squitter = await load(fetch("squitter.wasm"));           // in a browser; in Node:
 *     const squitter = await load(readFileSync("squitter.wasm"));
 *     const place = squitter.pair("8D40621D58C382D690C8AC2863A7", "8D40621D58C386435CC412692AD6");
 *     console.log(`${place.lat} ${place.lon}`);                      // 52.2657802 3.9389125
 *     console.log(place.lat.num, place.lat.den);                     // 25261515n 483328n
 *
 * The module is dist/squitter.wasm, the proved library. This file only lays out arguments and results in memory, as
 * squitter.h does; the library computes them. Names are those of the Python module.
 *
 * DEGREES go in as a fraction {num, den} of two BigInts, a BigInt, a number or a text such as "52.25". A number counts
 * as its shortest text: 52.31 is 5231/100. At most 12 decimals are valid, and computed numbers often have more: pass
 * degrees.toFixed(12). They come out as an Angle: nothing is rounded. A FRAME is 14 bytes or its text of 28
 * hexadecimal digits, bare or between * and ;. A call without a result throws a Fault: the first error in the
 * order of squitter.h. A whole number that does not fit its field in C throws the fault of that field. Any other value
 * in place of a whole number throws a TypeError. */

import {
  AIR_HEAD_MEMBERS, ANGLE_TEXT_BYTES, AT, AltitudeForm, Code, FAULTS, FAULT_TEXT_BYTES, FRAME_BYTES, FRAME_DIGITS,
  GROUND_HEAD_MEMBERS, readAltitude, readDegreesE7, writeFault,
} from "./squitter_layout.js";
import { Memory, ask, angleAt, positionAt } from "./squitter_memory.js";
import { AirHead, Fault, GroundHead, fitted, frameBytes, moment, whole } from "./squitter_values.js";

export {
  BEYOND_RANGE, TOO_FAST, Code, Kind, AltitudeForm, What, Format, FeedFormat, Stranger, Unit,
} from "./squitter_layout.js";
export { WINDOW, Fault, Angle, AirHead, GroundHead } from "./squitter_values.js";
export { Contact, Log, Tracker } from "./squitter_tracking.js";
export { Feed } from "./squitter_feed.js";
export { Order } from "./squitter_order.js";

/** The loaded library. One is enough for all calls of a thread. */
export class Squitter {
  /** @param {WebAssembly.Instance} instance */
  constructor(instance) {
    this.memory = new Memory(instance.exports, (text) => this.angle(text));
  }

  #ask(name, ...words) {
    ask(this, name, ...words);
  }

  #angleAt(at) {
    return angleAt(this, at);
  }

  #positionAt(at) {
    return positionAt(this, at);
  }

  #frameAt(at) {
    return this.memory.bytesAt(at, FRAME_BYTES).slice();
  }

  /** Throws BAD_POSITION for an invalid position, whatever the frame. */
  #look(near) {
    if (near === null) return;
    const { firstAt, placeAt, outAt } = this.memory;
    this.memory.putBytes(firstAt, new Uint8Array(FRAME_BYTES));
    this.memory.putPosition(placeAt, near);
    try {
      this.#ask("local", BigInt(firstAt), BigInt(placeAt), BigInt(outAt));
    } catch (error) {
      if (error.code === Code.BAD_POSITION) throw error;
    }
  }

  /** Returns the bytes of a frame. A fault of the position comes before a fault of the frame's text. */
  #frameNear(source, near) {
    try {
      return this.frame(source);
    } catch (error) {
      if (error instanceof Fault) this.#look(near);
      throw error;
    }
  }

  /** Returns the bytes of two frames. Faults of the older one come before faults of the newer one's text. */
  #twoFrames(older, newer, near) {
    const first = this.#frameNear(older, near);
    try {
      return [first, this.frame(newer)];
    } catch (error) {
      if (error instanceof Fault) this.#look(near);
      if (error instanceof Fault) this.read(first);
      throw error;
    }
  }

  /** Returns why a place at a timestamp (ms) cannot be true: the sum of BEYOND_RANGE, if it is more than `range`
   * nautical miles from the `site`, and TOO_FAST, if it is further from the place `before`, {moment, position}, than
   * `speed` knots take an aircraft, and a mile; 0 if neither is so. A range or a speed of 0 is not known. Two places
   * are further apart than so many miles if their latitudes differ by more than miles / 60 degrees, or their
   * longitudes, the shorter way round, by more than miles / NL degrees, where the smaller zone count NL is at least 2.
   * Fault: BAD_POSITION. */
  doubts({ site = null, range = 0, speed = 0 }, at, place, before = null) {
    const { memory } = this, { outAt } = memory, time = moment(at);
    for (const one of [site, before && before.position, place]) this.#look(one);
    const watchAt = outAt, siteAt = outAt + 32, beforeAt = outAt + 64, atPlace = outAt + 128;
    memory.bytesAt(outAt, 160).fill(0);
    if (site) memory.putPosition(siteAt, site);
    if (before) memory.putPosition(beforeAt + AT.lastFix.position, before.position);
    memory.putPosition(atPlace, place);
    const view = memory.view();
    view.setUint32(watchAt + AT.watch.range, fitted(range, 32), true);
    view.setUint32(watchAt + AT.watch.speed, fitted(speed, 32), true);
    if (before) view.setBigUint64(beforeAt + AT.lastFix.moment, moment(before.moment), true);
    const words = [watchAt, siteAt, beforeAt].map(BigInt);
    return memory.exports.squitter_doubts(...words, time, BigInt(atPlace));
  }

  /** Returns the 14 bytes of a frame, or of a frame text. Faults: WRAP, SHORT, LENGTH, DIGIT. */
  frame(source) {
    if (typeof source !== "string") return frameBytes(source);
    const length = this.memory.putText(source), { textAt, outAt } = this.memory;
    this.#ask("frame_of_text", BigInt(textAt), length, BigInt(outAt));
    return this.#frameAt(outAt);
  }

  /** Returns the frame as 28 upper-case hexadecimal digits. Faults: those of `frame`. */
  frameText(source) {
    const { exports, firstAt, outAt } = this.memory;
    this.memory.putBytes(firstAt, this.frame(source));
    exports.squitter_text_of_frame(BigInt(firstAt), BigInt(outAt));
    return this.memory.getText(outAt, FRAME_DIGITS);
  }

  /** Returns the fields of the squitter in a frame. Faults: those of `frame`, then NOT_DF17, PARITY. */
  read(source) {
    const { firstAt, outAt } = this.memory;
    this.memory.putBytes(firstAt, this.frame(source));
    this.#ask("read_frame", BigInt(firstAt), BigInt(outAt));
    return this.memory.getFields(outAt);
  }

  /** Returns the position of a frame near a reference: the one point with its code within half a zone of it.
   * Faults: BAD_POSITION (the reference), those of `read`, NOT_POSITION, OUT_OF_RANGE. */
  local(source, reference) {
    const { firstAt, placeAt, outAt } = this.memory;
    this.memory.putPosition(placeAt, reference);
    this.memory.putBytes(firstAt, this.#frameNear(source, reference));
    this.#ask("local", BigInt(firstAt), BigInt(placeAt), BigInt(outAt));
    return this.#positionAt(outAt);
  }

  /** Returns the zones that the position of `local` lies in. Faults: those of `local`. */
  localZones(source, reference) {
    const { firstAt, placeAt, outAt } = this.memory;
    this.memory.putPosition(placeAt, reference);
    this.memory.putBytes(firstAt, this.#frameNear(source, reference));
    this.#ask("local_zones", BigInt(firstAt), BigInt(placeAt), BigInt(outAt));
    return this.memory.getZones(outAt);
  }

  /** Returns the position of the newer of an even and an odd frame of one address. Surface pairs need the site. Faults:
   * BAD_POSITION (the site), those of `read` (of the older, then of the newer), NOT_POSITION, OTHER_ADDRESS,
   * OTHER_KIND, SAME_PARITY, NO_SITE, OUT_OF_RANGE, ZONE_COUNTS. */
  pair(older, newer, site = null) {
    const { firstAt, secondAt, placeAt, outAt } = this.memory;
    if (site !== null) this.memory.putPosition(placeAt, site);
    const [first, second] = this.#twoFrames(older, newer, site);
    this.memory.putBytes(firstAt, first);
    this.memory.putBytes(secondAt, second);
    if (site !== null) this.#ask("pair_at", BigInt(firstAt), BigInt(secondAt), BigInt(placeAt), BigInt(outAt));
    else this.#ask("pair", BigInt(firstAt), BigInt(secondAt), BigInt(outAt));
    return this.#positionAt(outAt);
  }

  /** Returns the frame for a position, with an AirHead or a GroundHead. Faults: BAD_FIELDS, BAD_POSITION. */
  encode(head, position) {
    const isAir = head instanceof AirHead;
    if (!isAir && !(head instanceof GroundHead)) throw new TypeError("a head is an AirHead or a GroundHead");
    const { firstAt, placeAt, outAt } = this.memory;
    this.memory.putHead(firstAt, isAir ? AIR_HEAD_MEMBERS : GROUND_HEAD_MEMBERS, head);
    this.memory.putPosition(placeAt, position);
    this.#ask(isAir ? "encode_air" : "encode_ground", BigInt(firstAt), BigInt(placeAt), BigInt(outAt));
    return this.#frameAt(outAt);
  }

  /** Returns the frame with this parity (0 even, 1 odd) and the code of this position. Its other fields stay.
   * Faults: BAD_PARITY, BAD_POSITION, those of `read`, NOT_POSITION. */
  sendAgain(source, odd, position) {
    const { firstAt, placeAt, outAt } = this.memory, parity = fitted(odd, 8);
    this.memory.putPosition(placeAt, position);
    // An invalid parity is refused before the frame is looked at.
    const frame = parity > 1 ? new Uint8Array(FRAME_BYTES) : this.#frameNear(source, position);
    this.memory.putBytes(firstAt, frame);
    this.#ask("send_again", BigInt(firstAt), parity, BigInt(placeAt), BigInt(outAt));
    return this.#frameAt(outAt);
  }

  /** Returns the number of longitude zones at a latitude (NL), from 1 to 59. Fault: BAD_LATITUDE. */
  zoneCount(lat) {
    const { placeAt, outAt } = this.memory;
    this.memory.putAngle(placeAt, lat);
    this.#ask("zone_count", BigInt(placeAt), BigInt(outAt));
    return this.memory.view().getUint8(outAt);
  }

  /** Parses an angle: an optional -, one to three digits, and optionally a point and up to twelve
   * decimals. Faults: NOT_A_NUMBER, TOO_MANY_DECIMALS, ANGLE_RANGE. */
  angle(text) {
    if (typeof text !== "string") throw new TypeError("an angle is parsed from a text; degrees need no parsing");
    const length = this.memory.putText(text), { textAt, outAt } = this.memory;
    this.#ask("angle_of_text", BigInt(textAt), length, BigInt(outAt));
    return this.#angleAt(outAt);
  }

  /** Returns an angle with seven decimals, rounded half away from zero. Fault: BAD_ANGLE. */
  angleText(degrees) {
    const { placeAt, outAt } = this.memory;
    this.memory.putAngle(placeAt, degrees);
    this.#ask("text_of_angle", BigInt(placeAt), BigInt(outAt));
    return this.memory.getText(outAt, ANGLE_TEXT_BYTES);
  }

  /** Returns the angle in units of 10^-7 degree, rounded half away from zero. Fault: BAD_ANGLE. */
  angleE7(degrees) {
    const { placeAt, outAt } = this.memory;
    this.memory.putAngle(placeAt, degrees);
    this.#ask("angle_e7", BigInt(placeAt), BigInt(outAt));
    return this.memory.view().getBigInt64(outAt, true);
  }

  /** Returns the position in units of 10^-7 degree, rounded half away from zero. Fault: BAD_POSITION. */
  positionE7(position) {
    const { placeAt, outAt } = this.memory;
    this.memory.putPosition(placeAt, position);
    this.#ask("position_e7", BigInt(placeAt), BigInt(outAt));
    return readDegreesE7(this.memory.view(), outAt);
  }

  /** Decodes an altitude field of 12 bits in an airborne position of this type code: its form, and feet or null.
   * Fault: BAD_FIELDS. */
  feetOfField(typeCode, field) {
    const { outAt } = this.memory;
    this.#ask("feet_of_field", fitted(typeCode, 8), fitted(field, 16), BigInt(outAt));
    const { form, feet } = readAltitude(this.memory.view(), outAt);
    return { form, feet: form === AltitudeForm.FEET ? feet : null };
  }

  /** Returns the altitude field for these feet, a multiple of 25 from -1000 to 50175. Fault: BAD_FEET. */
  fieldOfFeet(feet) {
    const { outAt } = this.memory, number = whole(feet);
    const fits = BigInt.asIntN(32, number) === number;
    this.#ask("field_of_feet", fits ? Number(number) : 0x7fffffff, BigInt(outAt));
    return this.memory.view().getUint16(outAt, true);
  }

  /** Returns what timestamps (ms) seem to be (Unit), by the gaps between those of an aircraft. Both arrays have a value
   * for each squitter. Of timestamps that a receiver's clock gave (`clocked`), only GPS time and zeros are told. Throws
   * a RangeError unless there are as many of one as of the other. */
  unitOf(moments, addresses, clocked = false) {
    const { memory } = this, times = BigUint64Array.from(moments, moment), aircraft = Uint32Array.from(addresses);
    const count = times.length;
    if (count !== aircraft.length) throw new RangeError(`${count} timestamps and ${aircraft.length} addresses`);
    const room = memory.claim(12 * count + 16), next = room.at + 8 * count;
    try {
      memory.putBytes(room.at, new Uint8Array(times.buffer));
      memory.putBytes(next, new Uint8Array(aircraft.buffer));
      const words = [room.at, count, next, count].map(BigInt);
      return memory.exports.squitter_unit_of(...words, clocked ? 1 : 0);
    } finally {
      memory.release(room);
    }
  }

  /** Returns the words of a fault, those of the program if it has any. */
  faultText(code, first = 0n, second = 0) {
    const { exports, faultAt, outAt } = this.memory, view = this.memory.view();
    const numbers = [[code, 32], [first, 64], [second, 32]].map(([value, bits]) => [whole(value), bits]);
    const fit = numbers.every(([value, bits]) => BigInt.asUintN(bits, value) === value);
    if (!fit) throw new RangeError("a fault has a code and a second number below 2^32 and a first below 2^64");
    if (Number(code) in FAULTS) return FAULTS[Number(code)];
    writeFault(view, faultAt, { code: Number(code), first: BigInt(first), second: Number(second) });
    exports.squitter_text_of_fault(BigInt(faultAt), BigInt(outAt));
    return this.memory.getText(outAt, FAULT_TEXT_BYTES);
  }

  /** Returns the version of the library. */
  version() {
    const number = this.memory.exports.squitter_version();
    return `${number >> 16}.${(number >> 8) & 255}.${number & 255}`;
  }
}

/** Loads the library from dist/squitter.wasm: its bytes, the Response of fetch, a compiled module, or a promise of one
 * of these. Rejects with a WebAssembly.CompileError if the engine has no SIMD, or the bytes are no module. */
export async function load(source) {
  let given = await source;
  // Response is tested last: Node loads its fetch, some 60 ms, once Response is named.
  const isModule = given instanceof ArrayBuffer || ArrayBuffer.isView(given) || given instanceof WebAssembly.Module;
  if (!isModule && typeof Response !== "undefined" && given instanceof Response) {
    if (!given.ok) throw new Error(`the module cannot be loaded: ${given.status}`);
    given = await given.arrayBuffer();
  }
  // Node 20 refuses a DataView.
  if (ArrayBuffer.isView(given)) given = new Uint8Array(given.buffer, given.byteOffset, given.byteLength);
  const made = await WebAssembly.instantiate(given, {});
  return new Squitter(made instanceof WebAssembly.Instance ? made : made.instance);
}
