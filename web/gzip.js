/* gzip.js: unpacks gzip data of one member or several. Joined files and files of bgzip have several. */
"use strict";

/** Returns the place from which a file has only zeros: gzip ignores them after the last member. @param {Blob} file */
async function squitterPaddingAt(file) {
  const PIECE_BYTES = 1 << 16;
  for (let end = file.size; end > 0; end -= PIECE_BYTES) {
    const bytes = new Uint8Array(await file.slice(Math.max(end - PIECE_BYTES, 0), end).arrayBuffer());
    const last = bytes.findLastIndex((byte) => byte !== 0);
    if (last >= 0) return end - bytes.length + last + 1;
  }
  return 0;
}

/** Starts to decompress a member. Passes its output to `take`. `length` counts the bytes of the output.
 * @param {(chunk: Uint8Array) => void} take */
function squitterMember(take) {
  const { readable, writable } = new DecompressionStream("gzip"), writer = writable.getWriter();
  const write = (chunk) => {
    member.length += chunk.length;
    take(chunk);
  };
  const read = readable.pipeTo(new WritableStream({ write })), ended = read.catch(() => {});
  const member = {
    length: 0,
    write: (bytes) => bytes.length ? writer.write(bytes) : undefined,
    /** Returns whether the member goes on with these bytes. If not, all of its output has been taken. */
    takes: (bytes) => writer.write(bytes).then(() => true, () => ended.then(() => false)),
    close: () => Promise.all([writer.close(), read]),
  };
  return member;
}

/** Unpacks a file. A DecompressionStream refuses the bytes after the first member, but does not say where it ended. So
 * each byte that may begin the next member, or the padding, is written alone. The member ended before it if the stream
 * refuses it, and if the four bytes before it are the length of the output. Rejects with a TypeError if the data are
 * damaged or end early. @param {Blob} file */
async function squitterGunzipped(file) {
  const PIECE_BYTES = 1 << 20, BLOB_BYTES = 1 << 24, LENGTH_BYTES = 4, padding = await squitterPaddingAt(file);
  let parts = [], chunks = [], bytesKept = 0;
  const take = (chunk) => {
    chunks.push(chunk);
    bytesKept += chunk.length;
    if (bytesKept < BLOB_BYTES) return;
    // A browser may keep a large blob on the disk.
    parts.push(new Blob(chunks));
    chunks = [];
    bytesKept = 0;
  };
  let member = squitterMember(take);
  for (let from = 0; from < file.size; from += PIECE_BYTES) {
    const start = Math.max(from - LENGTH_BYTES, 0), zeros = padding - start;
    const bytes = new Uint8Array(await file.slice(start, from + PIECE_BYTES).arrayBuffer());
    const view = new DataView(bytes.buffer);
    // Returns the first place from `at` on where a member or the padding may begin.
    const startFrom = (at) => {
      if (at >= zeros) return at;
      let next = bytes.indexOf(0x1f, at);
      while (next >= 0 && (bytes[next + 1] ?? 0x8b) !== 0x8b) next = bytes.indexOf(0x1f, next + 1);
      return Math.min(next < 0 ? bytes.length : next, zeros);
    };
    let written = from - start;
    for (let at = startFrom(written); at < bytes.length; at = startFrom(at + 1)) {
      await member.write(bytes.subarray(written, at));
      written = at;
      if (await member.takes(bytes.subarray(at, at + 1))) {
        written++;
      } else {
        const length = at < LENGTH_BYTES ? NaN : view.getUint32(at - LENGTH_BYTES, true);
        if (length !== member.length % 2 ** 32) throw new TypeError("the member is damaged");
        if (at >= zeros) return new Blob([...parts, ...chunks]);
        member = squitterMember(take);
      }
    }
    await member.write(bytes.subarray(written));
  }
  await member.close();
  return new Blob([...parts, ...chunks]);
}
