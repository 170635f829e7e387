/* cases.js: a case of vectors/, asked of web/squitter.js. In the browser tests/page calls squitterCase; by
 * node this is an adapter: vectors/run 'node tests/browser/cases.js'. A word names another module of dist/, or the
 * folder of the installed package. */
"use strict";

/** The answer to a case, in the words of vectors/README.md. */
function squitterCase({ AirHead, GroundHead, Feed, FeedFormat, Order, Stranger }, library, { op, input }) {
  const hexadecimal = (number, digits) => number.toString(16).toUpperCase().padStart(digits, "0");
  const ratio = ({ num, den }) => `${num}/${den}`;
  const decimals = ({ lat, lon }) => [String(lat), String(lon)];
  const place = (found) => ({ lat: ratio(found.lat), lon: ratio(found.lon), decimal: decimals(found) });

  /** The fraction of decimals, or of num/den. */
  function angle(text) {
    const [top, bottom] = text.split("/");
    if (bottom) return { num: BigInt(top), den: BigInt(bottom) };
    const [whole, decimals = ""] = text.split(".");
    return { num: BigInt(whole + decimals), den: 10n ** BigInt(decimals.length) };
  }

  const position = (given) => given && { lat: angle(given.lat), lon: angle(given.lon) };

  function parity() {
    try {
      library.read(input.frame);
      return { correct: true, remainder: "000000" };
    } catch (error) {
      if (error.code !== 6) throw error;
      return { correct: false, remainder: hexadecimal(error.first, 6) };
    }
  }

  /** What an altitude means, asked twice: of the frame and of its field. */
  function altitude(read = library.read(input.frame)) {
    const { form, feet } = library.feetOfField(read.typeCode, read.altitude);
    const same = form === read.altitudeForm && feet === read.feet;
    if (!same) throw new Error("the altitude of the frame and of its field differ");
    return [{ form: "none" }, { form: "feet", feet }, { form: "raw", field: hexadecimal(read.altitude, 3) }][form];
  }

  function fields() {
    const read = library.read(input.frame);
    const kind = ["other", "air", "ground"][read.kind];
    const found = { address: hexadecimal(read.address, 6), ca: read.ca, type: read.typeCode, kind };
    if (read.kind === 0) return { ...found, me: hexadecimal(read.raw, 14) };
    const after = { time: read.time, parity: ["even", "odd"][read.odd], lat: read.lat, lon: read.lon };
    if (read.kind === 2) {
      return { ...found, movement: read.movement, "track status": read.trackStatus, track: read.track, ...after };
    }
    const { form, feet, field } = altitude(read);
    const words = { none: "none", feet: `${feet} ft`, raw: `raw ${field}` }[form];
    return { ...found, status: read.status, flag: read.flag, altitude: words, ...after };
  }

  function encode() {
    const head = { address: parseInt(input.address, 16), odd: Number(input.parity === "odd") };
    if (input.kind === "air" && "feet" in input) head.altitude = library.fieldOfFeet(input.feet);
    const sent = input.kind === "air" ? new AirHead(head) : new GroundHead(head);
    const frame = library.encode(sent, position(input)), read = library.read(frame);
    return { frame: library.frameText(frame), code: [read.lat, read.lon] };
  }

  /** A source, cut as it is given and byte by byte, as text and as arrays. All have to come to the same. */
  function feed() {
    const ways = [[0, false], [0, true], [1, false], [1, true]];
    const found = ways.map(([cut, isText]) => heard(cut, isText));
    const same = found.every((one) => JSON.stringify(one) === JSON.stringify(found[0]));
    return same ? found[0] : { differing: found };
  }

  function heard(cut, isText) {
    const { calls, format, leap, late, live, by_arrival: byArrival, all_formats: allFormats, reorder } = input;
    const given = { leap: leap && BigInt(leap), late: late && BigInt(late), live, byArrival, allFormats,
      format: format && FeedFormat[format.toUpperCase()] };
    const settings = Object.fromEntries(Object.entries(given).filter(([, value]) => value !== undefined));
    const source = new Feed(library, settings), lines = [], after = [];
    const order = reorder === undefined ? null : new Order(library, BigInt(reorder));
    for (const call of calls) {
      const before = lines.length;
      if (call.lost) source.disconnected();
      const pieces = call.lost ? [] : "end" in call ? [null] : piecesOf(call, cut);
      for (const piece of pieces) lines.push(...linesOfPiece(source, order, piece, call.end ?? call.arrival, isText));
      const name = (of, number) => Object.keys(of).find((key) => of[key] === number)?.toLowerCase() ?? null;
      after.push([lines.length - before, name(FeedFormat, source.format) ?? name(Stranger, source.stranger)]);
    }
    const counts = countsOf(source.counts, order);
    for (const one of [source, order]) one?.close();
    return { lines, counts, after };
  }

  /** The bytes of a call, in pieces of so many, or as they are where that is 0. */
  function piecesOf({ bytes, times = 1 }, cut) {
    const one = Uint8Array.from(bytes.match(/../g) ?? [], (digits) => parseInt(digits, 16));
    const all = new Uint8Array(one.length * times);
    for (let at = 0; at < all.length; at += one.length) all.set(one, at);
    const size = cut || all.length || 1, count = Math.ceil(all.length / size) || 1;
    return Array.from({ length: count }, (_, at) => all.subarray(at * size, (at + 1) * size));
  }

  /** The lines that a piece gives, or the end of the source if there is none. */
  function linesOfPiece(source, order, piece, arrival, isText) {
    const time = BigInt(arrival ?? 0);
    if (isText && !order) {
      return (piece ? source.takeText(piece, time) : source.finishText(time)).split("\n").slice(0, -1);
    }
    const { moments, frames } = piece ? source.take(piece, time) : source.finish(time);
    if (!order) return linesOf(moments, frames);
    const due = order.take(moments, frames), lines = linesOf(due.moments, due.frames);
    const rest = piece ? { moments: [], frames: [] } : order.flush();
    return [...lines, ...linesOf(rest.moments, rest.frames)];
  }

  /** Lines of arrays; a frame of a downlink format below 16 has seven bytes. */
  function linesOf(moments, frames) {
    return Array.from(moments, (moment, at) => {
      const frame = [...frames.slice(14 * at, 14 * at + 14)];
      return `${moment} ${frame.slice(0, frame[0] < 0x80 ? 7 : 14).map((byte) => hexadecimal(byte, 2)).join("")}`;
    });
  }

  /** The counts that are not 0. */
  function countsOf({ formats, modeAc, receiverIds, ...others }, order) {
    const all = { ...others, mode_ac: modeAc, receiver_ids: receiverIds, late: order?.late ?? 0n };
    formats.forEach((count, number) => (all[`DF${number}`] = count));
    const told = Object.entries(all).map(([name, count]) => [name, Number(count)]).filter(([, count]) => count);
    return Object.fromEntries(told.sort());
  }

  const local = () => place(library.local(library.frame(input.frame), position(input.reference)));
  const pair = () => place(library.pair(library.frame(input.older), library.frame(input.newer), position(input.site)));
  const nl = () => ({ zones: library.zoneCount(angle(input.lat)) });
  const ops = { parity, altitude, fields, encode, local, pair, "surface-pair": pair, nl, feed };
  if (!(op in ops)) return { unsupported: true };
  try {
    return ops[op]();
  } catch (error) {
    if (!error.code) throw error;
    return { refused: library.faultText(error.code, error.first, error.second) };
  }
}

/** Answers each line of the input. */
async function main([name]) {
  const { squitter, library } = await require("./modules.js").loaded(name);
  const adapter = "libsquitter as a WebAssembly module";
  console.log(JSON.stringify({ adapter, version: library.version(), exact: true }));
  for await (const line of require("node:readline").createInterface({ input: process.stdin })) {
    const asked = JSON.parse(line);
    console.log(JSON.stringify({ id: asked.id, ...squitterCase(squitter, library, asked) }));
  }
}

if (typeof module !== "undefined") main(process.argv.slice(2));
