/* faces.js JOBS: decodes logs with web/squitter.js, as faces.c does. The page loads this file too, for `facesOf`. */
"use strict";

/** Writes a row of CSV from columns. */
function rowOf({ What, Kind }, library, columns, at) {
  const { numbers, moments, whats, addresses, kinds, lats, lons, feet, codes, firsts } = columns, what = whats[at];
  if (codes[at]) return `${numbers[at]},,${library.faultText(codes[at], firsts[at])},,,,,\n`;
  const words = { [What.FIX]: "fix", [What.FOLLOWED]: "followed", [What.WAITING]: "waiting", [What.SPLIT]: "split",
    [What.FAR]: "far", [What.WITHOUT_SITE]: "no site", [What.NO_PLACE]: "no position" };
  const kind = { [Kind.OTHER]: "other", [Kind.AIR]: "air", [Kind.GROUND]: "ground" }[kinds[at]];
  const address = addresses[at].toString(16).toUpperCase().padStart(6, "0");
  const place = Number.isNaN(lats[at]) ? "," : `${lats[at].toFixed(7)},${lons[at].toFixed(7)}`;
  const altitude = Number.isNaN(feet[at]) ? "" : feet[at];
  return `${numbers[at]},${moments[at]},${words[what]},${address},${kind},${place},${altitude}\n`;
}

/** Decodes a log. Returns its results as text in a format, or for "rows" as rows written from columns. */
function facesOf(squitter, library, bytes, { window, limit, site, format, pieces }) {
  const { Log, Format } = squitter, angle = (text) => library.angle(text);
  const settings = { window: BigInt(window), limit, site: site && { lat: angle(site[0]), lon: angle(site[1]) } };
  const log = new Log(library, settings), isRows = format === "rows", told = [log.header(isRows ? Format.CSV : format)];
  const tell = (answers) => {
    if (!isRows) return told.push(answers);
    for (let at = 0; at < answers.numbers.length; at++) told.push(rowOf(squitter, library, answers, at));
    return 0;
  };
  for (let at = 0, turn = 0; at < bytes.length; turn++) {
    const piece = bytes.subarray(at, at + pieces[turn % pieces.length]);
    tell(isRows ? log.take(piece) : log.takeText(piece, format));
    at += piece.length;
  }
  tell(isRows ? log.finish() : log.finishText(format));
  log.close();
  return told.join("");
}

async function main(path) {
  const { readFileSync, writeFileSync } = require("node:fs");
  const squitter = await import("../web/squitter.js");
  const library = await squitter.load(readFileSync(`${__dirname}/../dist/squitter.wasm`));
  for (const job of readFileSync(path, "utf8").split("\n").filter(Boolean)) {
    const [log, out, window, limit, lat, lon, format, pieces] = job.split(" ");
    const site = lat === "-" ? null : [lat, lon], sizes = pieces.split(",").map(Number);
    const settings = { window, limit: Number(limit), site, pieces: sizes };
    settings.format = format === "rows" ? format : Number(format);
    writeFileSync(out, facesOf(squitter, library, readFileSync(log), settings));
  }
}

if (typeof module !== "undefined") main(process.argv[2]);
