/* log.mjs texts|columns LAT LON: decodes the log of standard input with web/squitter.js and this site, in pieces of a
 * MiB. Prints the results as text, or only the number of results in the columns. */
import { readFileSync, writeSync } from "node:fs";
import { load, Log } from "../web/squitter.js";

const PIECE_BYTES = 1 << 20;
const [form, lat, lon] = process.argv.slice(2);
const library = await load(readFileSync(new URL("../dist/squitter.wasm", import.meta.url)));
const heard = new Log(library, { site: { lat: library.angle(lat), lon: library.angle(lon) } }), log = readFileSync(0);
let count = 0;

/** Handles the result of a call: prints text, and counts the results in columns. */
function tell(answers) {
  if (typeof answers === "string") writeSync(1, answers);
  else count += answers.numbers.length;
}

for (let from = 0; from < log.length; from += PIECE_BYTES) {
  const piece = log.subarray(from, from + PIECE_BYTES);
  tell(form === "texts" ? heard.takeText(piece) : heard.take(piece));
}
tell(form === "texts" ? heard.finishText() : heard.finish());
if (form === "columns") console.log(count);
