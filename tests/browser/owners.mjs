/* owners.mjs: the objects of web/squitter.js in Node, closed, refused and without memory. After each of these as much
 * memory is in use as before, and all bytes of other owners are the same. Prints how many calls were tried. */
import { Code, Contact, Feed, Log, Order, Tracker } from "../../web/squitter.js";
import { ENTRY_BYTES, FRAME, FRAME_BYTES, MOST_ADDRESSES, library, thrownBy, usedBy } from "./checks.mjs";

const { memory } = library, BYTES = library.frame(FRAME), NOWHERE = { lat: "91", lon: "0" };
const LINES = `5 ${FRAME}\n`.repeat(5000), BEAST = new Uint8Array(200_000).fill(26);
const MANY = new Array(3000).fill(5n), FRAMES = new Uint8Array(FRAME_BYTES * MANY.length);
const heard = new Tracker(library), bad = { last: 5n, entries: new Uint8Array(ENTRY_BYTES).fill(255) };
heard.hear(5, FRAME);
const good = heard.save();
let tried = 0;

/** The classes: how one is made, what every call of it is given, and what it refuses. */
const OWNERS = {
  Log: {
    make: (settings) => new Log(library, settings),
    calls: {
      take: [LINES], finish: [], takeText: [LINES], finishText: [], header: [], tally: null, present: [0], close: [],
    },
    refused: {
      take: [[5]], takeText: [[5], [LINES, 99]], finishText: [[99]], present: [[-1]],
    },
    unmade: [{ limit: 0 }, { limit: -1 }, { limit: MOST_ADDRESSES + 1 }, { window: -1 }, { site: NOWHERE },
      { site: {} }, { sight: 1 }],
  },
  Tracker: {
    make: (settings) => new Tracker(library, settings),
    calls: {
      hear: [5, FRAME], size: null, present: [0], last: null, save: [], restore: [good], copy: [], close: [],
    },
    refused: {
      hear: [[5, "8D"], [-1, FRAME], ["x", FRAME]], present: [[-1], ["x"]],
      restore: [[bad], [{ last: 5n, entries: new Uint8Array(5) }], [{ last: -1, entries: good.entries }],
        [{ last: 5n, entries: "x" }], [{ last: null, entries: good.entries }]],
    },
    unmade: [{ limit: 0 }, { limit: MOST_ADDRESSES + 1 }, { window: "x" }, { site: NOWHERE }],
  },
  Contact: {
    make: (settings = {}) => new Contact(library, settings.window, settings.site),
    calls: {
      hear: [5, FRAME], size: null, present: [0], last: null, save: [], restore: [good], copy: [], close: [],
      newest: null,
    },
    refused: { hear: [[5, "8D"]], restore: [[bad]] },
    unmade: [{ window: -1 }, { site: NOWHERE }],
  },
  Feed: {
    make: (settings) => new Feed(library, settings),
    calls: {
      take: [BEAST], finish: [], takeText: [BEAST], finishText: [], disconnected: [], format: null, stranger: null,
      counts: null, close: [],
    },
    refused: { take: [["x"], [BEAST, -1]], takeText: [[5], [BEAST, "x"]], finish: [[-1]] },
    unmade: [{ format: 99 }, { leap: -1 }, { late: "x" }, { lat: 1 }],
  },
  Order: {
    make: (settings = {}) => new Order(library, settings.reorder ?? 1000),
    calls: { take: [MANY, FRAMES], flush: [], held: null, late: null, close: [] },
    refused: { take: [[[5n], FRAMES], [[-1], BYTES], [[5n], "x"]] },
    unmade: [{ reorder: -1 }, { reorder: "x" }],
  },
};

function expect(good, ...words) {
  if (!good) throw new Error(words.join(" "));
  tried += 1;
}

/** Makes a call, or reads a property. Returns what it throws, or null. */
const thrownOf = (one, name, given) => thrownBy(() => given === null ? one[name] : one[name](...given)?.close?.());

const used = () => usedBy(library);

/** Copies the blocks that are in use, by their address. */
function blocksInUse() {
  const blocks = new Map();
  let from = memory.zerosAt;
  for (const { at, count } of [...memory.free, { at: memory.end, count: 0 }].sort((one, other) => one.at - other.at)) {
    blocks.set(from, memory.bytesAt(from, at - from).slice());
    from = at + count;
  }
  return blocks;
}

/** Runs something. Tests that as much memory is in use afterwards, and that the bytes in use before are the same. */
function changesNothing(what, run) {
  const before = used(), blocks = blocksInUse(), result = run();
  expect(used() === before, what, "changes the memory in use by", used() - before);
  for (const [at, bytes] of blocks) {
    const now = memory.bytesAt(at, bytes.length), index = bytes.findIndex((byte, place) => byte !== now[place]);
    expect(index < 0, what, "writes to memory of another owner, at", at + index);
  }
  return result;
}

/** Claims all memory that is free, and fills it. */
function claimAll() {
  const claimed = [];
  while (memory.free.length) claimed.push(memory.claim(memory.free[0].count));
  for (const { at, count } of claimed) memory.bytesAt(at, count).fill(7);
  return claimed;
}

/** All calls of a closed object: each throws NO_TRACKER or has an empty result, and touches nothing. */
function closedCalls(name, { make, calls }) {
  const before = used(), one = make(), behind = memory.claim(64);
  for (const [call, given] of Object.entries(calls)) if (call !== "close") thrownOf(one, call, given);
  one.close();
  expect(used() === before + behind.count, name, "keeps", used() - before - behind.count, "bytes after close");
  // The memory that it had belongs to others now, all of it.
  const others = claimAll();
  for (const [call, given] of Object.entries(calls)) {
    const thrown = changesNothing(`a closed ${name}, ${call},`, () => thrownOf(one, call, given));
    const isSilent = ["close", "size", "last", "newest", "present", "save", "copy", "header"].includes(call);
    expect(isSilent ? thrown === null : thrown?.code === Code.NO_TRACKER, `a closed ${name}, ${call}, throws`, thrown);
  }
  const next = make();
  changesNothing(`a closed ${name} that is closed again`, () => one.close());
  expect(thrownOf(next, ...Object.entries(calls)[0]) === null, `the next ${name} fails`);
  for (const block of others) memory.release(block);
  next.close();
  memory.release(behind);
}

/** Each refused call, with a fault or an error, leaves the memory as it was, and so does each refused object. */
function refusals(name, { make, refused, unmade }) {
  const one = make();
  for (const [call, lists] of Object.entries(refused)) {
    for (const given of lists) {
      const before = used(), thrown = thrownOf(one, call, given);
      expect(thrown instanceof Error, `${name}.${call} of`, given, "throws", thrown);
      expect(used() === before, `${name}.${call} of`, given, "keeps", used() - before, "bytes");
    }
  }
  one.close();
  for (const settings of unmade) {
    const thrown = changesNothing(`a refused ${name}`, () => thrownOf({ make }, "make", [settings]));
    expect(thrown instanceof Error, `a ${name} of`, JSON.stringify(settings), "throws", thrown);
  }
}

/** Runs something with the claim of this number refused. Returns whether it came to that claim. */
function withClaimRefused(number, run) {
  const claim = memory.claim.bind(memory);
  let count = 0;
  memory.claim = (size) => {
    count += 1;
    if (count === number) throw new RangeError("no memory");
    return claim(size);
  };
  try {
    run(() => count >= number);
  } finally {
    delete memory.claim;
  }
  return count >= number;
}

/** Each claim of memory refused in turn: the object is not made, and each call leaves the memory as it was. */
function failures(name, { make, calls }) {
  let number = 0;
  const isMade = () => !withClaimRefused(number, (failed) => changesNothing(`a ${name} without memory`, () => {
    const thrown = thrownOf({ make }, "make", []);
    expect(failed() === thrown instanceof RangeError, `a ${name} without claim`, number, "throws", thrown);
  }));
  do number += 1; while (!isMade());
  expect(number > 1, name, "claims no memory");
  for (const [call, given] of Object.entries(calls)) {
    for (let at = 1; at < 9; at++) {
      const one = make();
      withClaimRefused(at, (failed) => {
        const before = used(), thrown = thrownOf(one, call, given);
        if (failed()) expect(used() === before && thrown instanceof RangeError, `${name}.${call} keeps memory`, thrown);
      });
      one.close();
    }
  }
}

for (const [name, owner] of Object.entries(OWNERS)) {
  const one = owner.make(), names = new Set();
  for (let type = Object.getPrototypeOf(one); type !== Object.prototype; type = Object.getPrototypeOf(type)) {
    for (const each of Object.getOwnPropertyNames(type)) if (each !== "constructor") names.add(each);
  }
  one.close();
  expect(`${[...names].sort()}` === `${Object.keys(owner.calls).sort()}`, name, "has these calls:", ...names);
  closedCalls(name, owner);
  refusals(name, owner);
  failures(name, owner);
}
heard.close();
expect(used() === memory.zerosAt + 64, "memory is left over:", used() - memory.zerosAt - 64);
console.log(`${tried} tries of ${Object.keys(OWNERS).length} classes`);
