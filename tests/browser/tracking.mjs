/* tracking.mjs: limits and states of the logs and trackers of web/squitter.js in Node, and the columns of a log beside
 * its text. Prints how many tests passed. */
import { readFileSync } from "node:fs";
import {
  BEYOND_RANGE, TOO_FAST, load, AirHead, Code, Contact, Feed, Format, GroundHead, Log, Order, Tracker, What,
} from "../../web/squitter.js";
import {
  COLUMN_ROOM, ENTRY_BYTES, FLIGHTS, FRAME, MODULE, MOST_ADDRESSES, ODD, PAGE_BYTES, about, codeOf, errorOf, library,
  numbersTo, same, thrownBy,
} from "./checks.mjs";

const VIEW = new DataView(MODULE.buffer, MODULE.byteOffset, MODULE.byteLength);
const blank = await load(VIEW), full = await load(MODULE), HERE = { lat: 52.31, lon: 4.76 };
const WORKED = readFileSync(new URL("../worked/track.txt", import.meta.url), "utf8");

const frameOf = (address, odd = 0) => library.frameText(library.encode(new AirHead({ address, odd }), HERE));

/** By default 1000 aircraft fit, and the next one does not; so they do with this limit. */
function limits() {
  const frames = numbersTo(1001).map((at) => frameOf(at + 1));
  for (const [settings, most] of [[{}, 1000], [{ limit: 1000 }, 1000], [{ limit: 3 }, 3], [{ limit: 3n }, 3]]) {
    const tracker = new Tracker(library, settings), log = new Log(library, settings);
    const codes = frames.slice(0, most + 1).map((frame) => codeOf(() => tracker.hear(5, frame)));
    same(codes, [...new Array(most).fill(null), Code.TABLE_FULL], `a limit of ${settings.limit}`);
    same(tracker.size, most, "the size");
    const told = log.take(frames.slice(0, most + 1).map((frame) => `5 ${frame}\n`).join(""));
    same([...told.codes], [...new Array(most).fill(0), Code.TABLE_FULL], "a log");
    for (const one of [tracker, log]) one.close();
  }
}

/** The first number of a fault may be above 2^32. */
function largeNumbers() {
  const log = new Log(library), late = 2n ** 33n + 5n, last = 2n ** 64n - 1n;
  const { codes, firsts, moments } = log.take([late, late - 1n, last, 7].map((at) => `${at} ${FRAME}\n`).join(""));
  same([...codes], [0, Code.MOMENT_BACK, 0, Code.MOMENT_BACK], "codes");
  same([...firsts], [0n, late, 0n, last], "firsts");
  same([moments[0], moments[2]], [late, last], "moments");
  log.close();
}

/** After its end a log goes on with a new line, the next number, and what it has heard. */
function afterFinish() {
  const log = new Log(library), texts = [log.takeText(`5 ${FRAME}\nx`), log.finishText(), log.finishText()];
  same(texts, ["1 waiting 40621D\n", "2 bad moment\n", ""], "the end of a log");
  same([...log.take(`4 ${FRAME}\n7 ${FRAME}\n`).numbers], [3, 4], "numbers after the end");
  same(log.tally, { good: 2n, refused: 2n }, "the tally after the end");
  log.close();
}

/** Each column of a log has the numbers of its text, which does not depend on the pieces. */
function columnsBesideText() {
  const whole = new Log(library, { site: HERE }), pieces = new Log(library, { site: HERE });
  const table = new Log(library, { site: HERE }), lines = Buffer.concat(new Array(8).fill(FLIGHTS));
  const text = whole.takeText(lines), words = [];
  for (let at = 0; at < lines.length; at += 999) words.push(pieces.takeText(lines.subarray(at, at + 999)));
  same(text === words.join(""), true, "a text in pieces");
  if (text.length <= 1 << 18) throw new Error("the text is short");
  const { numbers, whats, addresses, lats, lons } = table.take(lines), seen = new Set();
  text.trimEnd().split("\n").forEach((line, at) => {
    const found = /^(\d+) (fix|followed) ([0-9A-F]{6}) (\S+) (\S+)$/.exec(line);
    same(numbers[at], Number(line.split(" ")[0]), line);
    if (!found) return same([lats[at], lons[at]].every(Number.isNaN), true, line);
    seen.add(found[2]);
    same(whats[at], found[2] === "fix" ? What.FIX : What.FOLLOWED, line);
    same([addresses[at], lats[at].toFixed(7), lons[at].toFixed(7)], [parseInt(found[3], 16), found[4], found[5]], line);
  });
  same([...seen].sort(), ["fix", "followed"], "answers with a position");
  testHeaders(whole);
  for (const one of [whole, pieces, table]) one.close();
}

/** Tests the header of each format, if it has one: the columns, as the worked cases of `squitter track` have them. */
function testHeaders(log) {
  const columns = /^line,.*$/m.exec(WORKED)[0].split(",");
  const headers = [Format.LINES, Format.CSV, Format.JSON].map((format) => log.header(format));
  same(headers, ["", `${columns.join(",")}\n`, ""], "the headers");
  for (const header of Object.values(Format).map((format) => log.header(format)).filter(Boolean)) {
    same(header, `${columns.join(header[columns[0].length])}\n`, "a header");
  }
}

/** A text has the answers of all lines, though a part of a piece has more of them than the memory holds at once. */
function longAnswers() {
  for (const count of [1, 10_000, ...about(COLUMN_ROOM), 100_000]) {
    const log = new Log(library), told = log.takeText("x\n".repeat(count)).split("\n");
    same([told.length, told.pop()], [count + 1, ""], "lines");
    const wrong = told.findIndex((line, at) => line !== `${at + 1} bad moment`);
    if (wrong >= 0) throw new Error(`line ${wrong + 1} of ${count}: ${told[wrong]}`);
    log.close();
  }
}

/** A tracker keeps the site that it was given, though the caller's object changes, and so do its copies. */
function sitesOfTheirOwn() {
  const frames = [0, 1].map((odd) => library.encode(new GroundHead({ address: 1, odd }), HERE));
  for (const made of [(site) => new Tracker(library, { site }), (site) => new Contact(library, 10_000, site)]) {
    const site = { lat: "52.31", lon: 4.76 }, tracker = made(site), wanted = [What.WAITING, What.FIX];
    site.lat = 91;
    const copy = tracker.copy(), again = copy.copy();
    for (const one of [tracker, copy, again]) {
      same(frames.map((frame, at) => one.hear(at, frame).what), wanted, "a site");
      one.close();
    }
  }
}

/** A site may be texts, numbers or fractions; each gives the same answers. */
function sitesOfTexts() {
  const wanted = [What.WAITING, What.FIX];
  for (const [lat, lon] of [["52.31", "4.76"], ["52.1234567", "4.1234567"], ["52.123456789012", 4.76], ["-0.5", "0"]]) {
    const exact = { lat: library.angle(String(lat)), lon: library.angle(String(lon)) };
    const frames = [0, 1].map((odd) => library.encode(new GroundHead({ address: 1, odd }), exact)), told = [];
    const lines = frames.map((frame, at) => `${at} ${library.frameText(frame)}\n`).join("");
    for (const site of [{ lat, lon }, exact]) {
      const log = new Log(library, { site }), tracker = new Tracker(library, { site });
      for (const one of [tracker, tracker.copy(), new Contact(library, 10_000, site)]) {
        same(frames.map((frame, at) => one.hear(at, frame).what), wanted, `the site ${lat} ${lon}`);
      }
      told.push(log.takeText(lines));
      same([...log.take(lines).codes].length, 2, "lines");
    }
    same(told[0].includes(" fix ") && told[0] === told[1], true, `a log with the site ${lat} ${lon}`);
  }
}

/** A frame that is made of an ArrayBuffer is a copy; a text has its own length, whatever the memory held. */
function ownBytes() {
  const { buffer } = library.frame(FRAME), frame = library.frame(buffer), { memory } = library;
  new Uint8Array(buffer).fill(0);
  same(library.frameText(frame), FRAME, "a frame of a buffer that has changed");
  memory.bytesAt(memory.outAt, 64).fill(65);
  same(library.frameText(frame), FRAME, "a text in memory that was used");
  // Frames of 10.4704 and 10.4706 degrees: NL changes from 59 to 58 between them.
  const [older, newer] = [10.4704, 10.4706].map((lat, odd) =>
    library.encode(new AirHead({ address: 1, odd }), { lat, lon: 20 }));
  const told = JSON.parse(JSON.stringify(thrownBy(() => library.pair(older, newer))));
  same([told.code, told.first, told.second], [Code.ZONE_COUNTS, "59", 58], "the JSON of a split");
}

/** Memory grows by a block that starts at its end; a block that others have used is no tracker. */
function sharedMemory() {
  const { memory } = library, end = memory.exports.memory.buffer.byteLength;
  memory.free = [];
  memory.claim(end - memory.end);
  const next = memory.claim(16);
  same([next.at, memory.bytesAt(next.at, 16).length], [end, 16], "a block behind the memory");
  same(memory.exports.memory.buffer.byteLength, end + PAGE_BYTES, "a memory that grows by one page");
  for (const [name, kind] of [["tracker", Tracker], ["log", Log]]) {
    const used = memory.claim(16 + Number(memory.exports[`squitter_${name}_size`](1000)));
    memory.bytesAt(used.at, used.count).fill(255);
    memory.release(used);
    same(codeOf(() => new kind(library, { site: { lat: 91, lon: 0 } })), Code.BAD_POSITION, name);
  }
}

/** By default a gap above ten minutes is a jump. */
function usualLeap() {
  for (const [at, count] of [[600_006, 3], [600_007, 2]]) {
    const feed = new Feed(library), lines = [5, 6, at].map((moment) => `${moment} ${FRAME}\n`).join("");
    same(feed.takeText(new TextEncoder().encode(lines)).split("\n").length - 1, count, `a gap to ${at}`);
    feed.close();
  }
}

/** The timestamp 0 is one, also in a state and in a copy; a tracker without frames has none. */
function firstMoment() {
  for (const tracker of [new Tracker(library), new Contact(library)]) {
    same([tracker.last, tracker.save().last, tracker.copy().save().last], [0n, null, null], "no frame");
    tracker.hear(0, FRAME);
    same([tracker.last, tracker.save().last, tracker.copy().save().last], [0n, 0n, 0n], "a frame at 0");
    tracker.hear(7, FRAME);
    const { last, entries } = tracker.save();
    same([last, entries.length, tracker.copy().last], [7n, ENTRY_BYTES, 7n], "a frame at 7");
    same(codeOf(() => tracker.copy().hear(6, FRAME)), Code.MOMENT_BACK, "an earlier frame");
  }
}

/** Memory that is free again fits what comes later: the states of a tracker that grows, and large trackers between logs
 * that stay open. */
function memoryUsedAgain() {
  const { memory } = blank, tracker = new Tracker(blank), before = memory.end;
  for (let address = 1; address <= 1000; address++) {
    tracker.hear(5, frameOf(address));
    tracker.save();
  }
  // The largest state, of 1000 aircraft, has 16 bytes more than their entries.
  same(memory.end - before <= 1000 * ENTRY_BYTES + 16, true, "states of up to 1000 aircraft");
  const large = 16 + Number(memory.exports.squitter_tracker_size(100_000)), logs = [new Log(blank)];
  for (let round = 0; round < 3; round++) {
    new Tracker(blank, { limit: 100_000 }).close();
    logs.push(new Log(blank, { limit: 1 }));
  }
  same(memory.end - before < 2 * large, true, "three large trackers, one after the other");
  const [one, other, third] = [4096, 8192, 16].map((count) => memory.claim(count));
  for (const block of [one, other]) memory.release(block);
  const whole = memory.claim(12_288), front = [third.at, whole.at, other.at].join();
  same(whole.at, one.at, `two neighbours, of ${front},`);
  for (const block of [third, whole]) memory.release(block);
  const [wide, gap, narrow, after, kept] = [96, 16, 48, 16, 16].map((count) => memory.claim(count));
  for (const block of [wide, narrow]) memory.release(block);
  const [first, second] = [32, 96].map((count) => memory.claim(count));
  same([first.at, second.at], [narrow.at, wide.at], "the smallest free block that fits");
  same(memory.free.map(({ at, count }) => [at, count]), [[narrow.at + 32, 16]], "what is left of it");
  for (const block of [first, gap, second, after, kept]) memory.release(block);
  for (const log of logs) log.close();
  tracker.close();
  same(memory.free.length <= 1, true, "all memory");
}

/** A claim beyond the memory is a RangeError, and changes nothing. */
function memoryExhausted() {
  const { memory } = blank, end = memory.end;
  const refused = (count) => thrownBy(() => memory.claim(count)) instanceof RangeError;
  for (const count of [2 ** 36, 2 ** 40, 2 ** 45]) same([refused(count), memory.end], [true, end], `${count} bytes`);
  const pages = memory.exports.memory.buffer.byteLength - end + 16;
  memory.grow = () => { throw new RangeError("no more pages"); };
  same([refused(pages), memory.end], [true, end], "memory that cannot grow");
  delete memory.grow;
  const next = memory.claim(pages);
  same([next.at, memory.end], [end, end + next.count], "the next claim");
  memory.release(next);
}

/** The memory ends at 4 GiB. What lies just below works; a claim across the end is refused by name, and changes
 * nothing. The system commits only the pages that are written. */
function memoryEnd() {
  const { memory } = full, end = 2 ** 32, first = memory.end;
  const pages = memory.exports.memory.buffer.byteLength / PAGE_BYTES;
  const told = (count) => errorOf(() => memory.claim(count));
  const refused = (lack) => `RangeError: the library's memory ends at 4 GiB, and cannot grow by ${lack} pages`;
  same(told(end - first + 1), refused(PAGE_BYTES + 1 - pages), "a claim across the end");
  same([memory.end, memory.exports.memory.buffer.byteLength], [first, PAGE_BYTES * pages], "and memory after it");
  const before = new Log(full), taken = memory.end - first;
  before.close();
  const below = memory.claim(end - first - taken), log = new Log(full), answers = log.takeText(FLIGHTS);
  same([memory.end, memory.exports.memory.buffer.byteLength], [end, end], "a log up to the end");
  same(answers === new Log(library).takeText(FLIGHTS) && answers.length > 10_000, true, "its answers");
  same(told(1), refused(1), "a claim at the end");
  log.close();
  memory.release(below);
  same([memory.end, memory.free.length], [first, 0], "memory that is free again");
}

/** A log, a feed or an order that the memory has no room for is a RangeError, and all that it has claimed is free
 * again. */
function roomsExhausted() {
  const { memory } = blank, size = (name) => Number(memory.exports[`squitter_${name}_size`](1));
  const kinds = [["log", () => new Log(blank, { limit: 1 })], ["feed", () => new Feed(blank)],
    ["order", () => new Order(blank, 5)]];
  for (const [name, make] of kinds) {
    const whole = memory.end, rooms = [];
    // The block of the object itself has room, and more and more blocks besides.
    for (let spare = 0; !rooms.at(-1); spare += 1 << 14) {
      const left = memory.exports.memory.buffer.byteLength - memory.end, wanted = size(name) + 64 + spare;
      const rest = memory.claim(Math.max(left, wanted)), at = memory.end;
      memory.release(rest);
      const kept = memory.claim(at - memory.end - wanted);
      memory.grow = () => { throw new RangeError("no more pages"); };
      const thrown = thrownBy(() => make().close());
      same(thrown === null || thrown instanceof RangeError, true, `${name} with ${spare} bytes`);
      rooms.push(thrown === null);
      delete memory.grow;
      same([memory.end, memory.free.length], [kept.at + kept.count, 0], `${name} with ${spare} bytes`);
      memory.release(kept);
    }
    same([memory.end, rooms.length > 2], [whole, true], `${name} after ${rooms.length} attempts`);
  }
}

/** A format, an index or a site of a wrong kind is refused, and not taken for another one. */
function otherKinds() {
  const log = new Log(library), tracker = new Tracker(library), line = `5 ${FRAME}\n`;
  const isTypeError = (call) => thrownBy(call) instanceof TypeError;
  for (const format of ["csv", "1", 1.5, true, null, {}]) {
    for (const call of [() => log.takeText(line, format), () => log.finishText(format), () => log.header(format)])
      same(isTypeError(call), true, `${call} with ${JSON.stringify(format)}`);
  }
  for (const format of [3, -1, 2 ** 32, 2 ** 32 + 1, 2n ** 64n + 1n]) {
    for (const call of [() => log.takeText(line, format), () => log.takeText("", format), () => log.finishText(format)])
      same(codeOf(call), Code.BAD_FORMAT, `${call} with ${format}`);
    same(log.header(format), "", `the header of ${format}`);
  }
  same(log.takeText(line, 1n), "1,5,waiting,40621D,air,,,38000\n", "a BigInt");
  tracker.hear(5, FRAME);
  for (const [since, count] of [[undefined, 1], [0, 1], [5, 1], [5n, 1], [6, 0], [2n ** 64n - 1n, 0]])
    same(tracker.present(since).length, count, `since ${since}`);
  for (const since of [-1, 2n ** 64n])
    same(thrownBy(() => tracker.present(since)) instanceof RangeError, true, `since ${since}`);
  for (const site of [0, "", false, NaN]) {
    for (const call of [() => library.pair(FRAME, FRAME, site), () => new Log(library, { site }),
      () => new Tracker(library, { site }), () => new Contact(library, 5, site)])
      same(isTypeError(call), true, `${call} with the site ${JSON.stringify(site)}`);
  }
}

/** Who is present, the last heard first, with frames and fixes; in a log the same. */
function presence() {
  const tracker = new Tracker(library), log = new Log(library);
  same(JSON.stringify([tracker.present(), log.present()]), "[[],[]]", "nobody");
  for (const [at, text] of [[5, ODD], [400, FRAME]]) {
    tracker.hear(at, text);
    log.take(`${at} ${text}\n`);
  }
  for (const [it] of [tracker.present(), log.present()]) {
    same([it.address, it.moment].join(), "4219421,400", "the address");
    const { even, odd, fix } = it.airborne;
    same([even.moment, odd.moment, fix.moment].join(), "400,5,400", "the timestamps");
    same([even.frame, odd.frame].map((frame) => library.frameText(frame)).join(), `${FRAME},${ODD}`, "the frames");
    same(`${fix.position.lat.num}/${fix.position.lat.den}`, "428091/8192", "the latitude");
    same(JSON.stringify(it.surface), '{"even":null,"odd":null,"fix":null}', "nothing on the ground");
  }
  // A frame at timestamp 0 and a fix at 0, 0 are there.
  const zero = new Tracker(library), sent = [0, 1].map((odd) =>
    library.encode(new AirHead({ address: 1, odd }), { lat: "0", lon: "0" }));
  sent.forEach((frame) => zero.hear(0, frame));
  const [{ airborne }] = zero.present();
  same([airborne.even.moment, airborne.odd.moment, airborne.fix?.moment].join(), "0,0,0", "at zero");
  // At, just below and just above the room of the first call.
  for (const count of [255, 256, 257]) {
    const many = new Tracker(library);
    for (let address = 0; address < count; address++)
      many.hear(address, frameOf(address));
    const present = many.present();
    same(present.length, count, `${count} aircraft`);
    same(present.every((it, index) => it.address === count - 1 - index), true, "the last heard first");
    same(many.present(count - 3).length, 3, "the last three");
  }
}

/** Why places cannot be true: at, just below and just above a border. */
function doubts() {
  const at = (lat, lon = 0) => ({ lat, lon }), before = { moment: 1000, position: at(0) };
  const range = (miles, place) => library.doubts({ site: at(0), range: miles }, 7, place);
  const far = BEYOND_RANGE, fast = TOO_FAST;
  same([range(60, at(1)), range(60, at(1.000001)), range(0, at(9))], [0, far, 0], "a range in latitude");
  same([range(59, at(0, 1)), range(59, at(0, -1.000001))], [0, far], "a range in longitude");
  const speed = (knots, moment) => library.doubts({ speed: knots }, moment, at({ num: 1n, den: 30n }), before);
  same([speed(3600, 2000), speed(3600, 1999), speed(3599, 2000n), speed(0, 2000)], [0, fast, fast, 0], "a speed");
  same(library.doubts({ site: at(0), range: 1, speed: 1 }, 1000, at(1), before), far + fast, "both");
  same(library.doubts({ range: 1, speed: 1 }, 1000, at(1)), 0, "no site and no place before");
  for (const call of [() => library.doubts({}, 0, at(91)), () => library.doubts({ site: at(91) }, 0, at(0)),
    () => library.doubts({}, 0, at(0), { moment: 0, position: at(0, 181) })])
    same(codeOf(call), Code.BAD_POSITION, String(call));
}

/** The largest limit claims memory; a state that is cut within an entry is refused. */
function edges() {
  const tracker = new Tracker(library);
  blank.memory.claim = () => { throw new Error("claims"); };
  for (const kind of [Log, Tracker])
    same(errorOf(() => new kind(blank, { limit: MOST_ADDRESSES })), "Error: claims", "the largest limit");
  delete blank.memory.claim;
  for (const count of [1, 96, ENTRY_BYTES - 2, ENTRY_BYTES + 2])
    same(errorOf(() => tracker.restore({ last: null, entries: new Uint8Array(count) })),
      "RangeError: an entry has 192 bytes", `entries of ${count} bytes`);
}

const tests = [limits, largeNumbers, afterFinish, columnsBesideText, longAnswers, sitesOfTheirOwn, sitesOfTexts,
  ownBytes, sharedMemory, usualLeap, firstMoment, memoryUsedAgain, memoryExhausted, memoryEnd, roomsExhausted,
  otherKinds, presence, doubts, edges];
for (const test of tests) test();
console.log(`${tests.length} tests of trackers and logs`);
