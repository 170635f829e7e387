/* workers.mjs: web/squitter.js in several worker threads of Node at once. Each loads the module and decodes the same
 * log with trackers. All have the results of one thread. Prints how many results they compared. */
import { Worker, isMainThread, parentPort, workerData } from "node:worker_threads";
import { load, Fault, Log, Tracker } from "../../web/squitter.js";
import { FLIGHTS, MODULE } from "./checks.mjs";

const WORKERS = 4, SITE = { lat: "52.31", lon: "4.76" };
const LOG = FLIGHTS.toString("ascii");

/** Returns the result of a call as text, also that of a fault. */
function textOf(call) {
  try {
    return JSON.stringify(call(), (_, part) => typeof part === "bigint" ? `${part}n` : part);
  } catch (error) {
    if (error instanceof Fault) return `${error.code} ${error.message}`;
    throw error;
  }
}

/** Decodes the log several times, each time with a tracker and a log of its own that stay open. Returns the results. */
async function decoded(source) {
  const library = await load(source), results = [];
  for (const site of [SITE, null, SITE, null]) {
    const tracker = new Tracker(library, { site }), log = new Log(library, { site });
    for (const line of LOG.trimEnd().split("\n")) {
      const [moment, frame] = line.split(" ");
      results.push(textOf(() => tracker.hear(BigInt(moment), frame)));
    }
    const { last, entries } = tracker.save();
    results.push(`${last} ${Buffer.from(entries).toString("hex")}`, log.takeText(LOG), log.finishText());
  }
  return results;
}

/** Starts the workers together. Returns the results of each. */
function inWorkers(source) {
  return Promise.all(Array.from({ length: WORKERS }, () => new Promise((resolve, reject) => {
    const worker = new Worker(new URL(import.meta.url), { workerData: source });
    worker.once("message", resolve);
    worker.once("error", reject);
  })));
}

if (isMainThread) {
  const alone = await decoded(MODULE), compiled = await WebAssembly.compile(MODULE);
  for (const [name, source] of [["bytes", MODULE], ["a compiled module", compiled]]) {
    // The main thread decodes meanwhile.
    const started = inWorkers(source), all = [await decoded(source), ...await started];
    for (const results of all) {
      const at = alone.findIndex((text, index) => text !== results[index]);
      if (at >= 0) throw new Error(`result ${at} with ${name} is ${results[at]} and not ${alone[at]}`);
      if (results.length !== alone.length) throw new Error(`${results.length} results with ${name}`);
    }
  }
  console.log(`${alone.length} results in ${WORKERS} workers`);
} else {
  parentPort.postMessage(await decoded(workerData));
}
