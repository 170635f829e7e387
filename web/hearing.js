/* hearing.js: the worker that decodes a log for the page. */
"use strict";

/** @typedef {{window: bigint, limit: number, site: Position | null}} HearingSettings */
/** @typedef {ReturnType<import("./squitter.js").Log["take"]>} Answers */

/** Returns a file, unpacked if it is compressed with gzip. Refuses other archives. @param {Blob} file */
async function squitterUnpacked(file) {
  const first = new Uint8Array(await file.slice(0, 6).arrayBuffer());
  const isOf = (...magic) => magic.every((byte, at) => first[at] === byte);
  if (isOf(0x42, 0x5a, 0x68) || isOf(0xfd, 0x37, 0x7a, 0x58, 0x5a, 0) || isOf(0x50, 0x4b, 3, 4)) {
    throw new Error("unpack it first: only gzip is unpacked here");
  }
  if (!isOf(0x1f, 0x8b)) return file;
  try {
    return await squitterGunzipped(file);
  } catch (error) {
    throw error instanceof TypeError ? new Error("its gzip data is damaged or ends early") : error;
  }
}

/** Says that a text that is no feed has no frames. Returns "" for a text with the digits of one: it may be a log.
 * @param {Uint8Array} first the first bytes of the file */
function squitterTextKind(first) {
  const hasFrame = /[0-9a-f]{28}/i.test(new TextDecoder("latin1").decode(first));
  return hasFrame ? "" : "It has no frames: a frame has 28 hexadecimal digits.";
}

/** Returns the feed that turns a receiver's bytes into a log, or null for a log, and a text that names any other kind.
 * Text without times counts as a log too: there each line is refused, while a feed would give all its frames one
 * time. */
function squitterFeedOf({ Feed, FeedFormat, Stranger }, library, first) {
  // The first squitter may come later, so frames of all formats count. Mode A/C gives no lines, and rows may wait.
  const trial = new Feed(library, { allFormats: true }), taken = trial.takeText(first), { format } = trial;
  const lines = taken + trial.finishText(), isTimed = /^[1-9]/m.test(lines) || (format === FeedFormat.BEAST && !lines);
  const { stranger } = trial;
  trial.close();
  const kind = {
    [Stranger.SBS]: "It is SBS (BaseStation) text, which has no frames.",
    [Stranger.TAR]: "It is a tar archive: unpack it first.",
    [Stranger.PACKED]: "It is compressed: only gzip is unpacked here, and once.",
    [Stranger.UTF16]: "It is UTF-16: save it as UTF-8.",
    [Stranger.JSON]: "It is JSON, which has no frames.",
    [Stranger.SEMICOLONS]: "The table has semicolons between its columns: they have to be commas, and its decimal " +
      "commas points.",
    [Stranger.TABS]: "The table has tabs between its columns: they have to be commas.",
    [Stranger.NO_TIME]: "The table has no column time (seconds): name its columns time, icao24 and rawmsg in the " +
      "first row.",
    [Stranger.NO_RAWMSG]: "The table has no column rawmsg, so it has no frames: take one that has them.",
    [Stranger.NO_SECONDS]: "The first column of the table has no times in seconds, as 1700000000.25: " +
      "milliseconds and dates are not read.",
    [Stranger.NO_NAMES]: "The third column of the table has no frames: name its columns time (seconds), icao24 and " +
      "rawmsg in the first row.",
  }[stranger] ?? (format === null ? squitterTextKind(first) : "");
  if (format === null || format === FeedFormat.LOG) return { feed: null, kind };
  if (!isTimed && format === FeedFormat.BEAST) throw new Error("its frames have no times");
  return { feed: isTimed ? new Feed(library) : null, kind, clocked: isTimed && format !== FeedFormat.CSV };
}

/** The worker of a log, or of a receiver's bytes (Beast, AVR with times, CSV), which it turns into a log first. It
 * posts the results as columns, or as text if the task has a format. Its source text is joined with the library's and
 * started from a blob: a page opened from a folder may not start a worker from a file. */
function squitterHearingWorker() {
  const PIECE_BYTES = 1 << 20, encoder = new TextEncoder(), squitter = squitterModule();
  // Columns are transferred, not copied.
  const tell = (answers) => postMessage({ answers }, Object.values(answers).map(({ buffer }) => buffer));
  const pieceOf = async (file, from) => new Uint8Array(await file.slice(from, from + PIECE_BYTES).arrayBuffer());

  onmessage = async ({ data: { wasm, file: packed, settings, format = null } }) => {
    try {
      const file = await squitterUnpacked(packed), library = await squitter.load(wasm), isText = format !== null;
      const log = new squitter.Log(library, settings);
      const hear = (piece) => isText ? postMessage({ text: log.takeText(piece, format) }) : tell(log.take(piece));
      if (isText) postMessage({ text: log.header(format) });
      let feed = null, kind = "", clocked = false;
      for (let from = 0; from < file.size; from += PIECE_BYTES) {
        const piece = await pieceOf(file, from);
        if (from === 0) ({ feed, kind, clocked = false } = squitterFeedOf(squitter, library, piece));
        hear(feed ? encoder.encode(feed.takeText(piece)) : piece);
        postMessage({ done: Math.min((from + PIECE_BYTES) / file.size, 1) });
      }
      if (feed) hear(encoder.encode(feed.finishText()));
      if (isText) postMessage({ text: log.finishText(format) });
      else tell(log.finish());
      postMessage({ finished: true, feed: feed && feed.counts, kind, clocked });
    } catch (error) {
      postMessage({ failed: String(error instanceof Error ? error.message : error) });
    }
  };
}

/** Starts a worker of a log. @param {any} task @param {(said: any) => void} told @returns {Worker} */
function startHearing(task, told) {
  const gzip = [squitterPaddingAt, squitterMember, squitterGunzipped];
  const kinds = [squitterTextKind, squitterFeedOf], start = `(${squitterHearingWorker})();`;
  const text = ['"use strict";', squitterModule, ...gzip, squitterUnpacked, ...kinds, start].join("\n");
  const address = URL.createObjectURL(new Blob([text], { type: "text/javascript" }));
  const worker = new Worker(WORKER_POLICY.createScriptURL(address));
  URL.revokeObjectURL(address);
  worker.onmessage = ({ data }) => told(data);
  worker.onerror = (event) => told({ failed: event.message || "the worker did not start" });
  worker.postMessage({ wasm: moduleBytes(), ...task });
  return worker;
}
