/* module.mjs check | track WINDOW [LAT LON] | names | hints | refusals: web/squitter.js in Node, as a program that
 * imports it. `check` and `track` answer lines of standard input as the program does; `names` prints what the module
 * has, for its types to be held to; `hints` prints what faults say to do; `refusals` tries calls that are refused, and
 * the tests of TESTS. */
import { readFileSync } from "node:fs";
import { setTimeout as waited } from "node:timers/promises";
import { setFlagsFromString } from "node:v8";
import { runInNewContext } from "node:vm";
import * as squitter from "../../web/squitter.js";
import { HINTS } from "../../web/squitter_layout.js";
import {
  ANSWERS_AT_ONCE, AT_ONCE, COLUMN_ROOM, ENTRY_BYTES, FIRST_ROOM, FRAME, FRAME_BYTES, GROUND, GROUND_ODD, LINES_ROOM,
  MODULE, MOST_ADDRESSES, ODD, about, codeOf, errorOf, hexadecimal, library, numbersTo, same, thrownBy, usedBy,
} from "./checks.mjs";

const {
  load, AirHead, AltitudeForm, Angle, Code, Contact, Fault, Feed, FeedFormat, GroundHead, Kind, Log, Order,
  Tracker, Unit, WINDOW, What,
} = squitter;

/** The words that a call comes to, or those of its fault, without the hint. */
function answered(call) {
  try {
    return call();
  } catch (error) {
    if (error instanceof Fault) return library.faultText(error.code, error.first, error.second);
    throw error;
  }
}

function checked(text) {
  const { address, kind, odd, lat, lon, typeCode } = library.read(text), name = hexadecimal(address, 6);
  if (kind === Kind.OTHER) return `ok ${name} other ${typeCode}`;
  return `ok ${name} ${kind === Kind.AIR ? "air" : "ground"} ${odd ? "odd" : "even"} ${lat} ${lon}`;
}

const WORDS = { [What.FIX]: "fix", [What.FOLLOWED]: "followed", [What.WAITING]: "waiting", [What.SPLIT]: "split",
  [What.FAR]: "far", [What.WITHOUT_SITE]: "no site", [What.NO_PLACE]: "no position" };

/** Decodes lines of a timestamp and a frame, with a tracker that is now and then restored from the one before it. */
function tracking([window, lat, lon]) {
  const site = lat && { lat: library.angle(lat), lon: library.angle(lon) };
  let tracker = new Tracker(library, { window: BigInt(window), site, limit: 100_000 }), count = 0;
  return (line) => {
    const [moment, text] = line.split(" "), frame = library.frame(text), { address } = library.read(frame);
    if (++count % 1000 === 0) {
      const before = tracker;
      tracker = before.copy();
      before.close();
    }
    const { what, position, even, odd } = tracker.hear(BigInt(moment), frame);
    const words = `${WORDS[what]} ${hexadecimal(address, 6)}`;
    if (position) return `${words} ${position.lat} ${position.lon}`;
    return what === What.SPLIT ? `${words} ${even} ${odd}` : words;
  };
}

function answerLines(answer) {
  const lines = readFileSync(0, "utf8").split("\n");
  lines.pop();
  process.stdout.write(lines.map((line, at) => `${at + 1} ${answered(() => answer(line))}\n`).join(""));
}

/** Of each export its entries, or the members of a class with how many arguments they want. */
function names() {
  const place = library.local(FRAME, { lat: 52, lon: 4 });
  const made = { Fault: new Fault("", 1), Angle: place.lat, AirHead: new AirHead({ address: 0 }),
    GroundHead: new GroundHead({ address: 0 }), Squitter: library, Contact: new Contact(library, 0),
    Fields: library.read(FRAME), Altitude: library.feetOfField(11, 0), Heard: new Contact(library, 0).hear(0, FRAME),
    Place: place, Zones: library.localZones(FRAME, place), Log: new Log(library), Tracker: new Tracker(library),
    Feed: new Feed(library), Order: new Order(library, 0) };
  const members = ({ prototype }) => Object.getOwnPropertyNames(prototype).filter((name) => name !== "constructor")
    .map((name) => [name, Object.getOwnPropertyDescriptor(prototype, name).value?.length ?? null]);
  const told = Object.entries(squitter).map(([name, one]) => [name, name in made ? Object.fromEntries(members(one))
    : typeof one === "function" ? one.length : typeof one === "object" ? one : { of: typeof one }]);
  const keys = Object.entries(made).map(([name, one]) => [name, Object.keys(one).filter((key) => key !== "name")]);
  console.log(JSON.stringify({ exports: Object.fromEntries(told), keys: Object.fromEntries(keys) }));
}

const zero = { lat: 0, lon: 0 }, bad = { lat: 91, lon: 0 }, head = (given) => new AirHead({ address: 0, ...given });
const logOf = (settings) => new Log(library, settings), trackerOf = (settings) => new Tracker(library, settings);
const feedOf = (settings) => new Feed(library, settings), orderOf = (reorder) => new Order(library, reorder);
const zeros = (count) => new Uint8Array(count), text = (words) => new TextEncoder().encode(words);
const huge = { num: 1n << 63n, den: 1n }, contact = new Contact(library, 10), wrong = `${FRAME.slice(0, -1)}6`;
contact.hear(5, FRAME);
const tracker = trackerOf({ limit: 1 }), closed = trackerOf(), ended = logOf(), gone = orderOf(0);
tracker.hear(5, FRAME);
const saved = tracker.save();
for (const one of [closed, ended, gone]) one.close();

/** Calls, by the code of their fault, or by the error that they throw. (owners.mjs has the calls of closed objects.) */
const REFUSED = [
  [Code.NO_LIMIT, [() => logOf({ limit: 0 })]],
  [Code.BAD_POSITION, [() => trackerOf({ site: bad }), () => library.local("x", bad),
    () => library.local("x", { lat: 0, lon: 181 }), () => library.local("x", { lat: -91, lon: 0 }),
    () => library.localZones("x", { lat: 0, lon: -181 }), () => library.pair("x", FRAME, { lat: 0, lon: 181 }),
    () => new Contact(library, 1, { lat: 0, lon: 181 }), () => library.local(FRAME, { lat: huge, lon: 0 }),
    () => library.localZones("x", bad), () => library.local(FRAME, { lat: 0, lon: { num: 1, den: 0 } }),
    () => library.pair(wrong, "x", bad), () => library.encode(head({}), bad), () => library.sendAgain("x", 1, bad),
    () => new Contact(library, 1, bad), () => library.positionE7(bad),
    () => library.local(FRAME, { lat: 0.1 + 0.2, lon: 0 }), () => library.local(FRAME, { lat: 0, lon: 5e-324 }),
    () => library.local(FRAME, { lat: 0, lon: -1e300 }), () => new Contact(library, 1, { lat: 90.5, lon: 0 })]],
  [RangeError, [() => logOf({ limit: MOST_ADDRESSES + 1 }), () => trackerOf({ limit: -1 }),
    () => logOf({ window: 1n << 64n }), () => orderOf(-1), () => orderOf(1n << 64n),
    () => orderOf(0).take([1n], zeros(FRAME_BYTES - 1)), () => orderOf(0).take([1n], zeros(2 * FRAME_BYTES)),
    () => orderOf(0).take([-1], zeros(FRAME_BYTES)), () => feedOf({ leap: 1n << 64n }),
    () => feedOf({ late: 1n << 64n }), () => feedOf().take(zeros(1), -1), () => feedOf().finishText(1n << 64n),
    () => trackerOf().restore({ last: 5n, entries: zeros(ENTRY_BYTES - 1) }),
    () => trackerOf().restore({ ...saved, last: 1n << 64n }), () => library.read(zeros(FRAME_BYTES - 1)),
    () => new Contact(library, -1), () => tracker.present(-1), () => contact.hear(1n << 64n, FRAME),
    () => library.faultText(1n << 32n)]],
  [Code.MOMENT_BACK, [() => tracker.hear(4, FRAME), () => contact.hear(4, FRAME)]],
  [Code.TABLE_FULL, [() => tracker.hear(6, library.encode(head({ address: 1 }), zero)),
    () => contact.hear(5, library.encode(head({ address: 1 }), zero))]],
  [Code.NO_TRACKER, [() => gone.take([], zeros(0)), () => closed.restore({ last: null, entries: zeros(0) })]],
  [TypeError, [() => orderOf(1.5), () => new Order(library), () => orderOf(0).take([1n], "x"),
    () => feedOf({ format: "beast" }), () => feedOf({ leap: 1.5 }), () => feedOf({ late: 1.5 }),
    () => feedOf().take("x"), () => feedOf().takeText([1]), () => logOf().take([53]), () => logOf().takeText(5),
    () => logOf().take(null), () => trackerOf().restore({ last: 5n, entries: "" }), () => library.zoneCount(true),
    () => library.zoneCount(null), () => library.zoneCount(Infinity), () => library.zoneCount({ num: 1.5, den: 1 }),
    () => library.zoneCount({ num: 1 }), () => library.local(FRAME, { lat: NaN, lon: 0 }),
    () => library.local(FRAME, { lat: 0 }), () => library.local(FRAME, [52, 4]), () => library.local(FRAME),
    () => library.read(null), () => library.read([...library.frame(FRAME)]), () => library.read(new Uint16Array(7)),
    () => library.encode({ address: 0 }, zero), () => head({ feet: 38000 }), () => head({ movement: 0 }),
    () => new GroundHead({ address: 0, altitude: 0 }), () => new GroundHead({ address: 0, feet: undefined }),
    () => library.encode(head({ odd: true }), zero), () => library.angle(52), () => library.fieldOfFeet(2 ** 60)]],
  [Code.BAD_FORMAT, [() => feedOf({ format: 5 }), () => feedOf({ format: -1 }), () => feedOf({ format: 2 ** 32 })]],
  [Code.LENGTH, [() => library.read("\ud800".repeat(9)), () => library.frame("0".repeat(5_000_000)),
    () => library.local("x", zero), () => library.sendAgain("x", 1, zero)]],
  [Code.WRAP, [() => library.frameText(`*${FRAME}`)]],
  [Code.PARITY, [() => library.read(wrong), () => library.pair(wrong, "x")]],
  [Code.NOT_DF17, [() => library.read(zeros(FRAME_BYTES))]],
  [Code.SAME_PARITY, [() => library.pair(FRAME, FRAME)]],
  [Code.BAD_FIELDS, [() => library.encode(head({ address: 1n << 70n }), bad),
    () => library.encode(head({ ca: -1 }), zero), () => library.encode(head({ altitude: 65536 }), zero),
    () => library.encode(new GroundHead({ address: 0, movement: 256 }), zero), () => library.feetOfField(256, 0),
    () => library.feetOfField(11, 65536)]],
  [Code.BAD_PARITY, [() => library.sendAgain("x", 256, bad)]],
  [Code.BAD_LATITUDE, [() => library.zoneCount(huge), () => library.zoneCount(90.5), () => library.zoneCount("-91")]],
  [Code.BAD_ANGLE, [() => library.angleText({ num: 1, den: -1 }), () => library.angleE7(361)]],
  [Code.TOO_MANY_DECIMALS, [() => library.angle("1.0000000000000"),
    () => library.local(FRAME, { lat: 52, lon: "4.0000000000001" })]],
  [Code.NOT_A_NUMBER, [() => library.angle("1e1"), () => library.zoneCount("5e1")]],
  [Code.BAD_FEET, [() => library.fieldOfFeet(2 ** 32)]],
  [Code.BAD_ENTRY, [() => trackerOf({ window: 10 }).restore({ ...saved, last: 16n }),
    () => trackerOf().restore({ ...saved, last: 4n }), () => trackerOf().restore({ ...saved, last: null }),
    () => trackerOf().restore({ entries: saved.entries })]],
];

/** Degrees, each with the fraction that they are, in lowest terms. */
const DEGREES = [
  [52.31, 5231n, 100n], [-0.5, -1n, 2n], [-0, 0n, 1n], [1e-7, 1n, 10_000_000n], [-2.5e-12, -1n, 400_000_000_000n],
  [123.456789012345, 24691357802469n, 200_000_000_000n], ["52.25", 209n, 4n], ["-33.9", -339n, 10n], [90, 90n, 1n],
  [-180n, -180n, 1n], [9007199254740992, 2n ** 53n, 1n], [1e21, 0n, 0n], [1.5e300, 0n, 0n],
  [{ num: 2n, den: 4 }, 2n, 4n], [(0.1 + 0.2).toFixed(12), 3n, 10n], [(-1e-13).toFixed(12), 0n, 1n],
];

/** Calls, each by the words of its error. */
const WORDS_OF_ERRORS = [
  ["a piece is an ArrayBuffer or a view of one; new TextEncoder().encode(text) makes one of a text",
    () => feedOf().takeText("5 x")],
  ["a piece is an ArrayBuffer or a view of one", () => logOf().take(5)],
  ["a position is {lat, lon}, in degrees", () => library.local(FRAME, { lat: 52, lng: 4 })],
  ["a whole number is wanted, not 1.5", () => library.encode(head({ ca: 1.5 }), zero)],
  ["a moment is a whole number below 2^64", () => tracker.hear(1n << 64n, FRAME)],
  ["a frame has 14 bytes", () => library.read(zeros(FRAME_BYTES + 1))],
  ["a limit is from 1 to 1048576", () => trackerOf({ limit: MOST_ADDRESSES + 1 })],
  ["an entry has 192 bytes", () => tracker.restore({ last: 5n, entries: zeros(ENTRY_BYTES + 1) })],
  ["same parity: give an even and an odd frame", () => library.pair(FRAME, FRAME)],
  ["not DF17 0: only extended squitters (DF17) are read; skip other frames", () => library.read("0".repeat(28))],
  ["no tracker, log, feed or order: it is closed", () => ended.take(zeros(1))],
  ["bad latitude: a latitude is from -90 to 90 degrees, with at most 12 decimals", () => library.zoneCount(91)],
  ["a log has no setting sight; its settings are window, limit, site", () => logOf({ sight: 1 })],
  ["a tracker has no setting Limit; its settings are window, limit, site", () => trackerOf({ Limit: 1 })],
  ["a feed has no setting fromat; its settings are format, leap, live, late, allFormats, byArrival",
    () => feedOf({ fromat: 1 })],
  ['degrees are {num, den}, a BigInt, a number or a text such as "52.25", not undefined',
    () => library.zoneCount(undefined)],
];

/** Tests the fields that a head has if they are not given, and that an angle cannot be changed. */
function defaultFields() {
  same(new AirHead({ address: 7 }),
    { address: 7, altitude: 0, ca: 5, typeCode: 11, status: 0, flag: 0, time: 0, odd: 0 }, "a head in the air");
  same(new GroundHead({ address: 7 }),
    { address: 7, ca: 4, typeCode: 7, movement: 0, trackStatus: 0, track: 0, time: 0, odd: 0 }, "one on the ground");
  same(Object.isFrozen(library.angle("1.5")), true, "an angle that cannot be changed");
}

/** Tests that numbers and texts are exact degrees, also as a site. */
function degrees() {
  for (const [given, ...wanted] of DEGREES) {
    const { num, den } = library.memory.exact(given);
    same([num, den], wanted, given);
  }
  const [near, exact] = [52.31, { num: 5231n, den: 100n }].map((lat) => library.local(FRAME, { lat, lon: "4.76" }));
  same([near.lat.num, near.lon.den], [exact.lat.num, exact.lon.den], "a number");
  const copy = new Contact(library, 10, { lat: "52.31", lon: 4.76 }).copy();
  same(copy instanceof Contact, true, "a copy of a contact with a site of numbers");
}

/** Tests the fields that a squitter lacks: its code and its altitude are null, because 0 is one. */
function lackedFields() {
  const sent = [0, library.fieldOfFeet(0)].map((altitude) => library.encode(head({ altitude }), zero));
  const told = ["8D485020994409940838175B284F", GROUND, FRAME, ...sent].map((frame) => library.read(frame))
    .map(({ kind, lat, lon, feet }) => [kind, lat, lon, feet]);
  same(told, [[0, null, null, null], [2, 115609, 116941, null], [1, 93000, 51372, 38000], [1, 0, 0, null],
    [1, 0, 0, 0]], "fields");
  const forms = [[11, 0], [11, 0xc38], [20, 0xc38]].map(([code, field]) => library.feetOfField(code, field).feet);
  same(forms, [null, 38000, null], "feet of fields");
}

/** Prints the hint of each fault. */
function hints() {
  const named = Object.entries(Code).filter(([, code]) => code in HINTS).map(([name, code]) => [name, HINTS[code]]);
  console.log(JSON.stringify(Object.fromEntries(named)));
}

/** Frames of other bytes: part of a larger buffer, and changed after they were handed over. */
function foreignBytes() {
  const bytes = library.frame(FRAME), room = zeros(40);
  room.set(bytes, 9);
  const parts = [room.subarray(9, 23), new DataView(room.buffer, 9, 14), new Uint8ClampedArray(room.buffer, 9, 14)];
  const kinds = [bytes, bytes.buffer, new DataView(bytes.buffer), new Uint8ClampedArray(bytes)];
  for (const part of [...parts, ...kinds]) same(library.frameText(part), FRAME, "bytes within a buffer");
  const taken = library.frame(parts[0]);
  room.fill(0);
  same(library.frameText(taken), FRAME, "a frame that is a copy");
}

/** Hears an even and an odd frame, and then the odd one alone: all of what is kept counts, also in a copy. */
function keptWhole() {
  for (const [older, newer] of [[FRAME, ODD], [GROUND, GROUND_ODD]]) {
    const one = new Contact(library, 10, { lat: 52, lon: { num: 4375, den: 1000 } });
    one.hear(0, older);
    const fix = one.hear(1, newer), copy = one.copy();
    const followed = [one.hear(11, newer), copy.hear(11, newer)], late = one.hear(22, newer);
    same([fix.what, late.what], [What.FIX, What.WAITING], older);
    for (const { what, position } of followed)
      same([what, String(position.lat)], [What.FOLLOWED, String(fix.position.lat)], `${older}, followed,`);
    const before = one.last;
    same(codeOf(() => one.hear(5, newer)), Code.MOMENT_BACK, "an earlier frame");
    same([one.last, one.hear(23, older).what], [before, What.FIX], "a contact after a fault");
  }
}

/** Opens and closes logs and trackers of several limits. Tests that their memory is reused, and is freed once even if
 * they are closed twice. */
function usedAgain() {
  const round = () => {
    for (const limit of [1000, 10, 300]) {
      const made = [logOf({ limit }), trackerOf({ limit }), feedOf(), orderOf(9)];
      for (const one of [...made, ...made]) one.close();
    }
  };
  round();
  const before = library.memory.exports.memory.buffer.byteLength;
  for (let turn = 0; turn < 50; turn++) round();
  const one = trackerOf(), other = trackerOf(), after = library.memory.exports.memory.buffer.byteLength;
  one.hear(5, FRAME);
  same([other.size, one.size], [0, 1], "two trackers");
  other.restore(one.save());
  trackerOf({ window: 10 }).restore({ ...saved, last: 15n });
  same([other.last, other.size, closed.save().entries.length], [5n, 1, 0], "a tracker that is restored");
  one.close();
  same(after <= before + 2 ** 20, true, `memory of ${before} that has ${after} bytes`);
}

const used = () => usedBy(library);
/** Returns the growth of the memory in use, in bytes, while a call is repeated. */
function grownBy(call) {
  call();
  const before = used();
  for (let turn = 0; turn < 20; turn++) call();
  return used() - before;
}

/** Tests that states are freed, that a refused tracker leaves no block, and that claims do not move later blocks. */
function statesInMemory() {
  const one = trackerOf({ window: 10 }), empty = trackerOf({ window: 10 }), { memory } = library;
  one.hear(5, FRAME);
  const state = one.save(), away = { lat: 0, lon: 181 };
  const refused = () => answered(() => trackerOf({ limit: 50_000, site: away }));
  const claimed = () => memory.release(memory.claim(4099));
  const calls = [() => one.save(), () => one.last, () => empty.restore(state), claimed, refused];
  for (const call of calls) same(grownBy(call), 0, `the memory that ${call}`);
  const odd = memory.claim(100_000_003), next = memory.claim(100_000_004);
  same([odd.at % 16, next.at % 16], [0, 0], "the address of a block");
  for (const block of [odd, next]) memory.release(block);
  same(memory.claim(odd.count).at, odd.at, "a block that just fits");
  memory.release(odd);
  // Each is asked after a tracker that has heard something, so that its memory is not blank.
  for (const other of [trackerOf(), closed]) same([one.last, other.last, other.save().last], [5n, 0n, null], "last");
  empty.restore({ last: null, entries: zeros(0) });
  same([empty.save().last, empty.size], [null, 0], "a blank state");
}

/** Tests that a text that just fits and one that is a byte longer are refused, and overwrite nothing. */
async function longTexts() {
  const blank = await load(MODULE), none = new Tracker(blank);
  none.close();
  for (const more of [0, 1, 16]) {
    const digits = "8".repeat(blank.memory.textRoom + more), told = answered(() => blank.read(digits));
    same([told, none.size], [`bad length ${digits.length}`, 0], `${digits.length} digits`);
    same(!more || blank.memory.textRoom >= digits.length, true, `the room for ${digits.length} digits`);
  }
}

/** Tests that trackers free their blocks once they are garbage. */
async function collected() {
  setFlagsFromString("--expose-gc");
  const collect = runInNewContext("gc"), size = Number(library.memory.exports.squitter_tracker_size(100_000));
  for (let number = 0; number < 10; number++) trackerOf({ limit: 100_000 + number });
  const full = used(), freed = () => (full - used()) / size;
  for (let turn = 0; turn < 100 && freed() < 5; turn++) await waited(10, collect());
  same(freed() >= 5, true, `${freed()} of 10 trackers`);
}

/** Tests that a copy has the window, the limit and the site of the original. Tests that a contact's `newest` is the
 * time of a position, and that a copy is its own. */
function copiesOfSettings() {
  const site = { lat: 52, lon: { num: 4375, den: 1000 } };
  for (const one of [trackerOf({ window: 10, limit: 1, site }), new Contact(library, 10, site)]) {
    const copy = one.copy();
    copy.hear(0, GROUND);
    const told = [answered(() => copy.hear(1, FRAME).what), copy.hear(1, GROUND_ODD).what, copy.hear(12, GROUND).what];
    same(told, ["table full", What.FIX, What.WAITING], "a copy");
  }
  const named = new Contact(library), copy = contact.copy();
  named.hear(3, "8D4840D6202CC371C32CE0576098");
  copy.hear(9n, FRAME);
  same([named.newest, named.last], [0n, 3n], "a contact without a position");
  same([contact.last, contact.newest, copy.last], [5n, 5n, 9n], "a contact and its copy");
}

/** Tests that trackers, contacts and logs have one default window, also in copies. */
function defaultWindows() {
  same(WINDOW, 10_000n, "the window");
  for (const [between, what] of [[0n, What.FIX], [WINDOW, What.FIX], [WINDOW + 1n, What.WAITING]]) {
    const made = [trackerOf(), new Contact(library), trackerOf({ site: zero }), new Contact(library, WINDOW),
      trackerOf({ window: WINDOW })];
    for (const tracker of [...made, ...made.map((one) => one.copy())]) {
      tracker.hear(5, ODD);
      same(tracker.hear(5n + between, FRAME).what, what, `a frame after ${between} ms`);
    }
    const { whats } = logOf().take(text(`5 ${ODD}\n${5n + between} ${FRAME}\n`));
    same(whats[1], what, `a line after ${between} ms`);
  }
}

/** Tests a piece with more results than the columns hold at once, and with nearly as many. */
function manyAnswers() {
  for (const count of [0, 1, ...about(ANSWERS_AT_ONCE), ...about(COLUMN_ROOM), 100_000]) {
    const log = logOf(), { numbers, codes, addresses, lats, lons, feet } = log.take(text("x\n".repeat(count)));
    same([numbers.length, codes.length], [count, count], "answers");
    const wrong = numbers.findIndex((number, at) => number !== at + 1 || !codes[at] || addresses[at] !== -1);
    same(wrong, -1, `the first wrong answer of ${count}`);
    same([...lats, ...lons, ...feet].every(Number.isNaN), true, "refused lines without a place");
    log.close();
  }
}

/** Tests timestamps above 2^32, and the two zone counts of a split. */
function largeMomentsAndZones() {
  // NL changes from 59 to 58 at a latitude of 10.4704713 degrees.
  const frames = [[0, 10.4704], [1, 10.4706]].map(([odd, lat]) =>
    library.frameText(library.encode(head({ address: 1, odd }), { lat, lon: 20 })));
  const lines = frames.map((frame, at) => `${2 ** 33 + 5 + at} ${frame}\n`).join("");
  const { moments, whats, evens, odds } = logOf().take(text(lines));
  same([...moments, ...whats, ...evens, ...odds], [8589934597n, 8589934598n, What.WAITING, What.SPLIT, 0, 59, 0, 58],
    "a split");
}

/** Tests each field of a record, in its place and with a value of its own, in the air and on the ground. */
function eachField() {
  const altitude = library.fieldOfFeet(-300), place = { lat: 1, lon: 2 }, isCode = (code) => code > 0 && code < 131072;
  const air = { address: 0x123456, ca: 3, typeCode: 18, status: 2, flag: 1, time: 0, odd: 1, altitude };
  const ground = { address: 0xABCDEF, ca: 6, typeCode: 7, movement: 100, trackStatus: 1, track: 90, time: 1, odd: 0 };
  const none = { raw: 0n, feet: null, altitude: 0, altitudeForm: AltitudeForm.NONE, time: 0, status: 0, flag: 0,
    movement: 0, trackStatus: 0, track: 0 };
  const rows = [
    [new AirHead(air), { ...none, ...air, kind: Kind.AIR, feet: -300, altitudeForm: AltitudeForm.FEET }],
    [new GroundHead(ground), { ...none, ...ground, kind: Kind.GROUND }],
  ];
  const order = ["raw", "address", "lat", "lon", "feet", "altitude", "altitudeForm", "kind", "ca", "typeCode", "odd",
    "time", "status", "flag", "movement", "trackStatus", "track"];
  for (const [sent, wanted] of rows) {
    const fields = library.read(library.encode(sent, place)), { lat, lon } = fields;
    same([isCode(lat), isCode(lon), lat !== lon], [true, true, true], `the code ${lat} ${lon}`);
    same(Object.entries(fields), order.map((name) => [name, { ...wanted, lat, lon }[name]]), "a record");
  }
  const { lat, lon, altitude: field } = library.read(FRAME);
  same([lat, lon, field], [93000, 51372, 0xC38], FRAME);
  // A record is the caller's own: the next call does not change it.
  const first = library.read(FRAME), before = { ...first };
  library.read(library.encode(rows[1][0], place));
  same({ ...first }, before, "a record after the next call");
}

/** Tests that each head refuses the fields that it lacks by name, and takes each that it has. */
function fieldsOfHeads() {
  const hint = ": give altitude, a field of 12 bits, which fieldOfFeet(feet) returns";
  for (const [kind, others] of [[AirHead, ["feet", "movement", "track", "kind", "raw"]],
    [GroundHead, ["feet", "altitude", "status", "flag", "lat"]]]) {
    for (const other of others) {
      for (const value of [38000, 0, undefined, null]) {
        const wanted = `TypeError: ${kind.name} has no field ${other}${other === "feet" ? hint : ""}`;
        same(errorOf(() => new kind({ address: 1, [other]: value })), wanted, other);
      }
    }
    const own = Object.keys(new kind({ address: 1 }));
    for (const field of own) same(errorOf(() => new kind({ address: 1, [field]: 1 })), "", field);
  }
  const altitude = library.fieldOfFeet(38000), { feet } = library.read(library.encode(head({ altitude }), zero));
  same(feet, 38000, "an altitude");
}

/** Tests the JSON of fields and of a fault: numbers of 64 bits are texts. */
function asJson() {
  const fields = library.read(FRAME), other = library.read("8D406B902015A678D4D220AA4BDA");
  const read = [fields, other].map((one) => JSON.parse(JSON.stringify(one)));
  same([read[0].feet, read[0].raw, read[1].raw], [38000, "0", String(0x2015A678D4D220n)], "the JSON of fields");
  same(Object.keys(read[0]), Object.keys(fields), "its names");
  const message = "parity 000001: the frame is damaged; skip it";
  same(thrownBy(() => library.read(wrong)), { name: "Fault", message, code: Code.PARITY, first: "1", second: 0 },
    "the JSON of a fault");
  // A result of a tracker too, and records within arrays.
  const tracker = trackerOf();
  tracker.hear(0, ODD);
  const heard = JSON.stringify([tracker.hear(1, FRAME), fields]);
  const start = '[{"what":1,"position":{"lat":"428091/8192","lon":"64215/16384"},"even":0,"odd":0},{"raw":"0",';
  same(heard.slice(0, start.length), start, "the JSON of a result");
}

/** Tests a log and a feed in pieces of several types, each a view of a larger buffer. */
function piecesOfBytes() {
  const line = text(`..5 ${FRAME}\n..`), at = line.byteOffset + 2, count = line.byteLength - 4;
  const kinds = [line.subarray(2, 2 + count), new DataView(line.buffer, at, count), line.slice(2, 2 + count).buffer];
  for (const kind of kinds) {
    const feed = feedOf(), lines = feed.takeText(kind) + feed.finishText();
    same([logOf().takeText(kind), lines, feed.counts.written], ["1 waiting 40621D\n", `5 ${FRAME}\n`, 1n], "a piece");
  }
}

/** Tests a log in texts: the lines of a feed, and letters of two bytes in UTF-8. */
function piecesOfText() {
  const feed = feedOf(), log = logOf(), beast = [[1, FRAME], [2, ODD]];
  const source = together(beast.map(([seconds, frame]) => beastMessage("3", 12_000_000 * seconds, frame)));
  same([feed.takeText(source), feed.finishText(), "5 \u00e9\u00e9\n"].map((lines) => log.takeText(lines)).join(""),
    "1 waiting 40621D\n2 fix 40621D 52.2657802 3.9389125\n3 bad length 4\n", "a log in texts");
  same(log.take(`9 ${FRAME}\n\n9`).whats.length, 1, "the lines of a text");
}

const hexadecimalBytes = (text) => Uint8Array.from(text.match(/../g), (digits) => parseInt(digits, 16));

/** Returns a Beast message: each 1A after its type is doubled. */
function beastMessage(kind, ticks, frame) {
  const digits = `${hexadecimal(ticks, 12)}1A${frame}`.match(/../g).map((byte) => (byte === "1A" ? "1A1A" : byte));
  return hexadecimalBytes(`1A${hexadecimal(kind.charCodeAt(0), 2)}${digits.join("")}`);
}

function together(parts) {
  const all = new Uint8Array(parts.reduce((sum, part) => sum + part.length, 0));
  parts.reduce((at, part) => (all.set(part, at), at + part.length), 0);
  return all;
}

/** Returns the lines that a feed writes for squitters. */
function linesOf({ moments, frames }) {
  const frame = (at) => library.frameText(frames.slice(14 * at, 14 * at + 14));
  return [...moments].map((at, index) => `${at} ${frame(index)}\n`).join("");
}

/** Tests the unit of timestamps: seventeen of one aircraft show it, and sixteen do not. */
function unitsOfTimestamps() {
  const at = (step, count = 17) => numbersTo(count).map((index) => step * index);
  const gps = numbersTo(17).map((index) => (BigInt(index) << 30n) / 12_000n);
  const cases = [
    [at(1), false, "SECONDS"], [at(1, 16), false, "MILLISECONDS"], [at(500), false, "MILLISECONDS"],
    [at(500_000), false, "MICROSECONDS"], [at(500_000_000), false, "NANOSECONDS"], [[0, 0], true, "ALL_ZERO"],
    [gps, true, "GPS"], [at(500_000), true, "MILLISECONDS"], [[], false, "MILLISECONDS"],
  ];
  for (const [moments, clocked, name] of cases)
    same(library.unitOf(moments, moments.map(() => 0x40621d), clocked), Unit[name], `${moments.join()}, ${name},`);
}

/** Tests pieces and outputs that are larger than one call of the library handles. */
function largeFeeds() {
  const line = `7 ${FRAME}\n`, linesAtOnce = Math.floor(LINES_ROOM / line.length);
  for (const count of [1, ...about(AT_ONCE), 2 * AT_ONCE, ...about(linesAtOnce), 9000]) {
    const feed = feedOf({ format: FeedFormat.LOG });
    same(feed.takeText(text(line.repeat(2))), line.repeat(2), "the first two lines"); // (one waits)
    const { moments, frames } = feed.take(text(line.repeat(count))), given = feed.takeText(text(line.repeat(count)));
    same([moments.length, frames.length, moments.every((at) => at === 7n)], [count, 14 * count, true], "squitters");
    same(linesOf({ moments: moments.slice(-2), frames: frames.slice(-28) }), line.repeat(Math.min(count, 2)), count);
    same([given === line.repeat(count), feed.counts.written], [true, BigInt(2 * count + 2)], `${count} lines`);
    feed.close();
  }
  // After the first call, one byte too few is left for the longest line.
  const long = `2345678901234567890 ${FRAME}\n`, lines = long.slice(1).repeat(26) + long.repeat(1312);
  const near = feedOf({ format: FeedFormat.LOG, leap: 2n ** 64n - 1n }), feed = feedOf({ format: FeedFormat.AVR });
  same([lines.length, near.takeText(text(lines)) === lines], [LINES_ROOM, true], "lines that end near the room");
  same(feed.take(text(`${FRAME}\n`.repeat(20_000))).moments.length, 20_000, "short lines");
  for (const one of [near, feed]) one.close();
}

/** Returns frames that begin with these numbers. */
function numbered(numbers) {
  return Uint8Array.from(numbers.flatMap((number) => [number & 255, number >> 8, ...new Array(12).fill(0)]));
}

/** Returns the timestamps of squitters, each with the number that its frame begins with. */
function numbersOf({ moments, frames }) {
  return [...moments].map((at, index) => `${at}:${frames[14 * index] + 256 * frames[14 * index + 1]}`).join(" ");
}

/** Tests an order: squitters that are due, equal and late ones, a flush, and one that grows. */
function orders() {
  const order = orderOf(200), told = [];
  const calls = [[[500, 400, 650], [1, 2, 3]], [[], []], [[500n, 699], [4, 5]], [[700], [6]], [[100], [7]]];
  for (const [moments, numbers] of calls)
    told.push(`${numbersOf(order.take(moments, numbered(numbers)))} ${order.held}`);
  told.push(`${numbersOf(order.flush())} ${order.held}`, numbersOf(order.flush()));
  same(told, ["400:2 2", " 2", " 4", "500:1 500:4 3", " 3", "650:3 699:5 700:6 0", ""], "an order");
  // Below and at the last timestamp that was given.
  same([699, 700].map((at) => (order.take([at], numbered([1])), [order.late, order.held].map(Number))),
    [[2, 0], [2, 1]], "late ones");
  order.close();
  // The first of three squitters makes 3000 due, which fill the outputs before the other two are taken.
  const filled = orderOf(100), early = numbersTo(3000);
  filled.take(new Array(3000).fill(0), numbered(early));
  const due = [numbersOf(filled.take([1000, 1002, 1001], numbered([3000, 3002, 3001]))), numbersOf(filled.flush())];
  same(due, [early.map((at) => `0:${at}`).join(" "), "1000:3000 1001:3001 1002:3002"], "outputs that fill up");
  filled.close();
  for (const count of [1, ...about(AT_ONCE), 2 * AT_ONCE, ...about(FIRST_ROOM), 5462, 5463, 9000, 40_000]) {
    const full = orderOf(2n ** 64n - 1n), numbers = numbersTo(count), moments = numbers.map((at) => (at ^ 1) + 7);
    const sorted = [...numbers].sort((one, other) => (one ^ 1) - (other ^ 1));
    const given = full.take(moments, numbered(numbers)), rest = full.flush();
    same([given.moments.length, rest.moments.length, Number(full.late)], [0, count, 0], `an order of ${count}`);
    same(numbersOf(rest) === sorted.map((at) => `${(at ^ 1) + 7}:${at}`).join(" "), true, `${count} in order`);
    full.close();
  }
}

/** Tests the worked positions of a frame near a reference, its zones, and positions in ten-millionths of a degree. */
function workedPositions() {
  const { lat } = library.local(FRAME, { lat: { num: 52258n, den: 1000n }, lon: { num: 3918, den: 1000 } });
  same([String(lat), JSON.stringify(lat), lat.toNumber(), lat instanceof Angle],
    ["52.2572021", '"428091/8192"', 52.2572021484375, true], "a latitude");
  const zones = Object.values(library.localZones("8C4280A23800038C883EB75816F9", { lat: -21, lon: -144 }));
  same(zones.map(Number), [-15, 132, 90, 60, 55, 55, 0], "zones");
  const { lat: north, lon: west } = library.positionE7({ lat: { num: 1, den: 3n }, lon: { num: -1, den: 20_000_000 } });
  same([library.angleE7(lat), north, west], [522572021n, 3333333, -1], "ten-millionths");
}

/** Tests what a library is loaded from: what is no module is refused, and so is a response that is not good. */
async function sources() {
  const given = [MODULE, MODULE.subarray(0, -1), zeros(3), Promise.resolve(new Response("", { status: 404 }))];
  const thrown = await Promise.all(given.map((source) => load(source).then(() => null, (error) => error)));
  same(thrown.map((error) => error?.name ?? null), [null, "CompileError", "CompileError", "Error"], "sources");
  same(thrown[3].message.includes("404"), true, `the words "${thrown[3].message}"`);
}

const TESTS = [asJson, eachField, fieldsOfHeads, defaultWindows, manyAnswers, largeMomentsAndZones, degrees,
  lackedFields, defaultFields, foreignBytes, keptWhole, usedAgain, longTexts, collected, statesInMemory,
  copiesOfSettings, piecesOfBytes, piecesOfText, unitsOfTimestamps, largeFeeds, orders, workedPositions, sources];

/** Tries each refusal, and that one leaves nothing behind for the next call; then runs the other tests. */
async function refusals() {
  const rows = [...REFUSED.flatMap(([wanted, calls]) => calls.map((call) => [wanted, call])), ...WORDS_OF_ERRORS];
  for (const [wanted, call] of rows) {
    const got = thrownBy(call);
    const good = typeof wanted === "function" ? got instanceof wanted : typeof wanted === "number"
      ? got instanceof Fault && got.code === wanted : got?.message === wanted;
    if (!good) throw new Error(`${call} throws ${got}, and not ${wanted.name ?? wanted}`);
    same(checked(FRAME), "ok 40621D air even 93000 51372", `the call after ${call}`);
  }
  for (const test of TESTS) await test();
  console.log(`${rows.length} refusals, ${TESTS.length} tests`);
}

const [what, ...words] = process.argv.slice(2);
const does = { check: () => answerLines(checked), track: () => answerLines(tracking(words)), names, hints, refusals };
await does[what]();
