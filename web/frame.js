/* frame.js: the fields of a frame, their bits and their meanings. */
"use strict";

/** @typedef {{name: string, from: number, bits: number, value: (fields: Fields) => string,
 *   means: (fields: Fields) => string, number: (fields: Fields) => number | bigint}} FieldRow
 * A field: its first bit, counted from 1, and how many it has; its value as text and as a number, and what it means. */

const KINDS = ["another message", "airborne position", "surface position"], RAW = "(not decoded)";

/** Returns a row of a field. By default its value is its number. @returns {FieldRow} */
function fieldRow(name, from, bits, number, means, value = (fields) => String(number(fields))) {
  return { name, from, bits, number, means, value };
}

const FIRST_ROWS = [
  fieldRow("CA, capability", 6, 3, (f) => f.ca, () => `capability of the transponder ${RAW}`),
  fieldRow("AA, address", 9, 24, (f) => f.address, () => "ICAO address", (f) => hexadecimal(f.address, 6)),
  fieldRow("type code", 33, 5, (f) => f.typeCode, (f) => KINDS[f.kind]),
];

const PLACE_ROWS = [
  fieldRow("T, time", 53, 1, (f) => f.time, () => "1 if synchronised to UTC"),
  fieldRow("F, parity", 54, 1, (f) => f.odd, (f) => (f.odd ? "odd format" : "even format")),
  fieldRow("latitude code", 55, 17, (f) => f.lat, () => "where in its zone, in steps of 1/131072"),
  fieldRow("longitude code", 72, 17, (f) => f.lon, () => "where in its zone, in steps of 1/131072"),
];

/** Returns the meaning of the altitude field. @param {Fields} fields */
function altitudeMeans({ altitudeForm, feet }) {
  if (altitudeForm === 1) return `${feet} feet`;
  return altitudeForm === 0 ? "no altitude" : `another form, or a height above the ellipsoid ${RAW}`;
}

/** The rows of each kind, by its number. @type {FieldRow[][]} */
const ROWS = [
  [...FIRST_ROWS, fieldRow("the rest of ME", 38, 51, (f) => f.raw & ((1n << 51n) - 1n), () => RAW,
    (f) => `ME ${hexadecimal(f.raw, 14)}`)],
  [
    ...FIRST_ROWS,
    fieldRow("surveillance status", 38, 2, (f) => f.status, () => RAW),
    fieldRow("flag", 40, 1, (f) => f.flag, () => `single antenna, or NIC supplement B ${RAW}`),
    fieldRow("altitude", 41, 12, (f) => f.altitude, altitudeMeans, (f) => hexadecimal(f.altitude, 3)),
    ...PLACE_ROWS,
  ],
  [
    ...FIRST_ROWS,
    fieldRow("movement", 38, 7, (f) => f.movement, () => `speed on the ground ${RAW}`),
    fieldRow("track status", 45, 1, (f) => f.trackStatus, (f) => `the track is ${f.trackStatus ? "" : "not "}valid`),
    fieldRow("track", 46, 7, (f) => f.track, () => `heading, or track over ground ${RAW}`),
    ...PLACE_ROWS,
  ],
];

/** The fields of a frame that is not read: those that each frame of 112 bits has. */
const OUTER = [
  { name: "DF, downlink format", from: 1, bits: 5 }, { name: "CA, capability", from: 6, bits: 3 },
  { name: "AA, address", from: 9, bits: 24 }, { name: "ME, message", from: 33, bits: 56 },
  { name: "PI, parity", from: 89, bits: 24 },
];

const bitsOf = (bytes) => [...bytes].map((byte) => byte.toString(2).padStart(8, "0")).join("");

/** Returns the 112 bits, with the number of its field above each run of them. */
function bitStrip(bits, rows) {
  const runs = rows.map(({ name, from, bits: count }, index) => {
    const words = `${name}, bits ${from} to ${from + count - 1}`;
    const run = element("span", { class: `run tint${index % 8}`, title: words });
    run.append(element("span", { class: "run-name" }, String(index + 1)), element("span", { class: "run-bits" },
      bits.slice(from - 1, from - 1 + count)));
    return run;
  });
  const label = "The 112 bits by field. The table below has each field.";
  return element("div", { class: "bits", role: "img", "aria-label": label }, ...runs);
}

/** Returns the table of the fields. */
function fieldTable(rows) {
  const cells = rows.map((row, index) => [
    element("span", {}, element("span", { class: `mark tint${index % 8}` }, String(index + 1)), ` ${row.name}`),
    row.bits === 1 ? String(row.from) : `${row.from}-${row.from + row.bits - 1}`, row.value, row.means,
  ]);
  return tableOf("The fields", ["Field", "Bits", "Value", "Meaning"], cells);
}

/** Returns the rows of a squitter, with the format before them and the parity after them. */
function rowsOf(fields, bits) {
  const rows = ROWS[fields.kind].map(({ name, from, bits: count, value, means }) =>
    ({ name, from, bits: count, value: value(fields), means: means(fields) }));
  const parity = hexadecimal(parseInt(bits.slice(88), 2), 6);
  return [
    { name: "DF, downlink format", from: 1, bits: 5, value: "17", means: "extended squitter" }, ...rows,
    { name: "PI, parity", from: 89, bits: 24, value: parity, means: "the remainder is 000000: no bit is damaged" },
  ];
}

/** Returns the index of an error in the text, or null. */
function faultPlace(error, text) {
  if (error.code === 4) return Number(error.first) - 1 + (text.startsWith("*") ? 1 : 0);
  if (error.code === 1) return text.startsWith("*") ? text.length : 0;
  return null;
}

/** Returns the text with a box around the error, and an arrow below it. */
function markedText(text, at) {
  const shown = text.slice(at, at + 1) || " ";
  return element("div", { class: "marked hex" }, text.slice(0, at), element("mark", {}, shown), text.slice(at + 1),
    element("div", { class: "arrow", "aria-hidden": "true" }, `${" ".repeat(at)}^`));
}

/** Returns what is shown of a text that is not a frame, or of a frame that is not decoded. */
function refusedFrame(library, text, error) {
  const shown = [refusal("Refused", error)];
  const at = faultPlace(error, text);
  if (at !== null) {
    shown.push(markedText(text.slice(0, 200), at), element("p", {}, error.code === 4
      ? `Character ${at + 1} is not a hexadecimal digit.`
      : "A frame has * before it and ; after it, or neither. One is missing at the mark."));
    return shown;
  }
  return error.code === 5 || error.code === 6 ? [...shown, ...outerShown(bitsOf(library.frame(text)), error)] : shown;
}

/** Returns the outer fields of a frame of another format (5) or with a remainder (6). */
function outerShown(bits, { code, first }) {
  const meanings = code === 5 ? ["only format 17 is decoded"] : ["", "", "", "",
    `the remainder is ${hexadecimal(first, 6)}, not 000000: a bit is damaged, or this is not a squitter`];
  const rows = OUTER.map(({ name, from, bits: count }, index) => {
    const number = BigInt(`0b${bits.slice(from - 1, from - 1 + count)}`);
    const value = index ? hexadecimal(number, Math.ceil(count / 4)) : String(number);
    return { name, from, bits: count, value, means: meanings[index] ?? "" };
  });
  return [bitStrip(bits, rows), fieldTable(rows)];
}

/** Returns what is shown of a frame text. */
function frameShown(library, text) {
  let fields;
  try {
    fields = library.read(text);
  } catch (error) {
    return refusedFrame(library, text, error);
  }
  const bits = bitsOf(library.frame(text)), rows = rowsOf(fields, bits);
  const head = element("p", { class: "answer" }, `${hexadecimal(fields.address, 6)}: ${KINDS[fields.kind]}`);
  const onward = element("p", {}, element("a", { href: linkOf("pair", ["", text]) }, "Find its position"));
  return [head, ...(fields.kind ? [onward] : []), bitStrip(bits, rows), fieldTable(rows)];
}

/** @param {Library} library */
function startFrame(library) {
  const input = byId("frame-text");
  answerWith(byId("frame-form"), () => showAnswer(byId("frame-answer"), frameShown(library, input.value.trim())));
}
