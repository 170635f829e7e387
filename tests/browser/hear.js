/* hear.js MODULE: decodes logs with web/squitter.js and a module of dist/. A line of standard input is a job in JSON:
 * {log, out, window, limit, piece, site}. The log is read in pieces of `piece` bytes, and the results are written to
 * the file `out`. Two more logs decode it as columns and as CSV. The columns have to say the same. */
"use strict";
const { readFileSync, writeFileSync } = require("node:fs");
const { loaded } = require("./modules.js");

/** Returns a line of the text for the result at an index of columns. */
function lineOf({ library, What, names }, columns, at) {
  const { numbers, whats, addresses, lats, lons, evens, odds, codes, firsts } = columns, what = whats[at];
  if (!what) return `${numbers[at]} ${library.faultText(codes[at], firsts[at])}\n`;
  const place = Number.isNaN(lats[at]) ? "" : ` ${lats[at].toFixed(7)} ${lons[at].toFixed(7)}`;
  const counts = what === What.SPLIT ? ` ${evens[at]} ${odds[at]}` : "";
  const address = addresses[at].toString(16).toUpperCase().padStart(6, "0");
  return `${numbers[at]} ${names[what]} ${address}${place}${counts}\n`;
}

/** Returns the timestamp, the kind and the altitude at an index of columns, as they are in a row of CSV. */
function cellsOf(kinds, columns, at) {
  const feet = Number.isNaN(columns.feet[at]) ? "" : String(columns.feet[at]);
  return columns.whats[at] ? [String(columns.moments[at]), kinds[columns.kinds[at]], feet] : ["", "", ""];
}

/** Returns the text of the results of a log. */
function heard({ Format, Kind, Log, What }, library, log, { window, limit, piece, site: given }) {
  const names = { [What.FIX]: "fix", [What.FOLLOWED]: "followed", [What.WAITING]: "waiting", [What.SPLIT]: "split",
    [What.FAR]: "far", [What.WITHOUT_SITE]: "no site", [What.NO_PLACE]: "no position" };
  const kinds = { [Kind.AIR]: "air", [Kind.GROUND]: "ground", [Kind.OTHER]: "other" };
  const site = given && { lat: library.angle(given[0]), lon: library.angle(given[1]) };
  // The program allocates memory as addresses come; a log of the module allocates it all at once.
  const settings = { window: BigInt(window), limit: Math.min(limit, 1 << 16), site };
  const texts = new Log(library, settings), columns = new Log(library, settings), rows = new Log(library, settings);
  let text = "", same = true, count = 0;
  const compare = (lines, found, table) => {
    text += lines;
    count += found.numbers.length;
    const cells = table.split("\n").map((row) => row.split(",")).map((row) => [row[1], row[4], row[7]].join());
    const at = [...found.numbers.keys()];
    same &&= lines === at.map((index) => lineOf({ library, What, names }, found, index)).join("");
    same &&= at.every((index) => cells[index] === cellsOf(kinds, found, index).join());
  };
  for (let from = 0; from < log.length; from += piece) {
    const part = log.subarray(from, from + piece);
    compare(texts.takeText(part), columns.take(part), rows.takeText(part, Format.CSV));
  }
  compare(texts.finishText(), columns.finish(), rows.finishText(Format.CSV));
  const { good, refused } = columns.tally;
  if (BigInt(count) !== good + refused || !same) throw new Error(`${count} columns differ from the text`);
  for (const one of [texts, columns, rows]) one.close();
  return text;
}

async function main([name]) {
  const { squitter, library } = await loaded(name);
  for (const job of readFileSync(0, "utf8").split("\n").filter(Boolean).map((line) => JSON.parse(line))) {
    writeFileSync(job.out, heard(squitter, library, readFileSync(job.log), job));
  }
}

main(process.argv.slice(2));
