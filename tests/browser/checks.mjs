/* checks.mjs: what the tests of web/squitter.js in Node share: a library, its logs and frames, and how they compare. */
import { readFileSync } from "node:fs";
import { load, Fault } from "../../web/squitter.js";

export const MODULE = readFileSync(new URL("../../dist/squitter.wasm", import.meta.url)), library = await load(MODULE);
export const FLIGHTS = readFileSync(new URL("../../examples/flights.log", import.meta.url));
export const FRAME = "8D40621D58C382D690C8AC2863A7", ODD = "8D40621D58C386435CC412692AD6";
export const GROUND = "8C4841753AAB238733C8CD4020B1", GROUND_ODD = "8C4841753A8A35323FAEBDAC702D";
export const hexadecimal = (number, digits) => number.toString(16).toUpperCase().padStart(digits, "0");

/** Returns a number with those just below and just above it. */
export const about = (number) => [number - 1, number, number + 1];

// What one call of the library gives at most (web/squitter_*.js): squitters, bytes of lines, answers and their columns;
// and the squitters that an order first has room for.
export const AT_ONCE = 1024, LINES_ROOM = 1 << 16, ANSWERS_AT_ONCE = 4096, COLUMN_ROOM = 1 << 15, FIRST_ROOM = 4096;
export const ENTRY_BYTES = 192, FRAME_BYTES = 14, PAGE_BYTES = 1 << 16, MOST_ADDRESSES = 2 ** 20;

const textOf = (value) => JSON.stringify(value, (_, part) => typeof part === "bigint" ? `${part}n`
  : part === undefined || Number.isNaN(part) ? String(part) : part);

/** Fails unless two values have the same JSON, in which a BigInt ends in n, and undefined and NaN are texts. */
export function same(got, wanted, what) {
  const [one, other] = [got, wanted].map(textOf);
  if (one !== other) throw new Error(`${what} gives ${one} where ${other} is wanted`);
}

/** Returns what a call throws, or null. */
export function thrownBy(call) {
  try {
    call();
  } catch (error) {
    return error;
  }
  return null;
}

/** Returns the code of the fault that a call throws, or null. */
export function codeOf(call) {
  const thrown = thrownBy(call);
  if (thrown && !(thrown instanceof Fault)) throw thrown;
  return thrown && thrown.code;
}

/** Returns the error that a call throws as text, or "" if there is none. */
export const errorOf = (call) => String(thrownBy(call) ?? "");

/** Returns how many bytes of a library's memory are in use. */
export const usedBy = ({ memory }) => memory.free.reduce((rest, { count }) => rest - count, memory.end);

/** Returns the numbers from 0, as many as there are. */
export const numbersTo = (count) => Array.from({ length: count }, (_, at) => at);
