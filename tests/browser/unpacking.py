"""Parts of tests/page about files that are compressed with gzip, of one member or several."""
import base64
import gzip
import json
import random
import struct
import zlib
from typing import Iterator, List, Optional, Tuple

from chromium import Chromium
from logs import PIECE_BYTES, flights
from trying import Tries, expect
from using import given_file, heard_right, says

# Unpacks a file as the worker of a log does. Returns its text, or null if it is refused as damaged.
UNPACKED = """((packed) => {
  const bytes = Uint8Array.from(atob(packed), (letter) => letter.charCodeAt(0));
  return squitterUnpacked(new Blob([bytes])).then((file) => file.text(), ({ message }) => {
    if (message !== "its gzip data is damaged or ends early") throw new Error(message);
    return null;
  });
})"""


def stored(data: bytes) -> bytes:
    """Returns a member of stored blocks, which hold the data as they are."""
    squeezer = zlib.compressobj(0, zlib.DEFLATED, 31)
    return squeezer.compress(data) + squeezer.flush()


def of_length(length: int, data: bytes) -> bytes:
    """Returns a member of this many bytes. Its file name pads it to that length."""
    body = stored(data)[10:]
    return b"\x1f\x8b\x08\x08" + bytes(6) + b"n" * (length - len(body) - 11) + b"\0" + body


def named(data: bytes) -> bytes:
    """Returns a member with a file name, a comment, an extra field and a checksum of its header."""
    header = b"\x1f\x8b\x08\x1e" + struct.pack("<IBB", 1_700_000_000, 0, 3) + b"\3\0BC\0" + b"a.csv\0" + b"hourly\0"
    header += struct.pack("<H", zlib.crc32(header) & 0xFFFF)
    return header + gzip.compress(data)[10:]


def joined(rng: random.Random) -> Iterator[Tuple[str, bytes, Optional[bytes]]]:
    """Names of files, their bytes, and the data in them, or None if a file is damaged."""
    one, two = (bytes(rng.choices(b"0123456789ABCDEF\n", k=size)) for size in (70_000, 3000))
    first, second, empty = gzip.compress(one), gzip.compress(two), gzip.compress(b"")
    both = first + second
    yield "one member", first, one
    yield "two members", both, one + two
    yield "three members with names", named(two) + named(one) + named(two), two + one + two
    yield "an empty member", empty, b""
    yield "empty members between", empty + empty + second + empty + first + empty, two + one
    for size in (1, 2, 3, 8, 9, 10, 511, 70_000, 3 * PIECE_BYTES):
        yield f"{size} zeros", both + bytes(size), one + two
        yield f"{size} zeros after an empty member", empty + bytes(size), b""
    yield "zeros before a member", first + bytes(9) + second, None
    for tail in (b"\1", b"\x1f", b"\x1f\x8b", b"\x1f\x8b\x08", b"garbage", b"\0\0\1", b"\x1f\x8b" + bytes(20)):
        yield f"the tail {tail!r}", both + tail, None
    for cut in (*range(1, 30), len(second) - 1):
        yield f"a second member without {cut} bytes", both[:-cut], None
    for cut in range(1, 30):
        yield f"a first member without {cut} bytes", first[:-cut] + second, None
    for at in (len(first) - 8, len(first) - 4, len(first) + 1, len(first) + 2, len(first) + 40, len(both) - 5):
        yield f"byte {at} damaged", both[:at] + bytes([both[at] ^ 1]) + both[at + 1 :], None
    yield "four bytes", b"\x1f\x8b\0\0", None
    yield "a gzip file inside", stored(both) + second, both + two
    front = b"x" * 1000
    false = front + struct.pack("<II", 0, 1004 + 4) + second
    for kind in (stored, gzip.compress):
        yield f"a false end, {kind.__name__}", kind(false) + kind(two), false + two
    data = b"x" * 4 + b"\x1f" * 5000 + b"\x1f\x8b\x08" * 5000
    yield "many false starts", stored(data) * 2, data * 2


def at_pieces() -> Iterator[Tuple[str, bytes, Optional[bytes]]]:
    """Members that end near the end of the first piece that is read."""
    second, data = gzip.compress(b"second"), b"0123456789abcdef" * 60_000
    for off in (-9, -4, -1, 0, 1, 2, 4, 9):
        member = of_length(PIECE_BYTES + off, data)
        yield f"a border at {off}", member + second, data + b"second"
        yield f"zeros at {off}", member + bytes(12), data
        yield f"an end at {off}", member, data


def members(tries: Tries) -> str:
    """Files of several members are unpacked as gzip does. Damaged ones are refused."""
    browser, rows = tries.page("log"), [*joined(random.Random(7)), *at_pieces()]
    for name, packed, wanted in rows:
        got = browser.evaluate(f"{UNPACKED}({json.dumps(base64.b64encode(packed).decode())})")
        expect(got == (wanted if wanted is None else wanted.decode("utf-8", "replace")), name, "gives", repr(got)[:99])
    count = many_members(tries, browser)
    return f"{len(rows)} files, {count} members"


def many_members(tries: Tries, browser: Chromium) -> int:
    """Joined hourly files and small blocks give the results of their log, in a time linear in their number."""
    log, path = flights(), f"{tries.work}/joined"
    half = log.index(b"\n", len(log) // 2) + 1
    given_file(browser, f"{path}.hours.gz", gzip.compress(log[:half]) + gzip.compress(log[half:]))
    heard_right(tries, log)
    blocks = b"".join(gzip.compress(log[at : at + 100], 1) for at in range(0, len(log), 100)) + gzip.compress(b"")
    given_file(browser, f"{path}.blocks.gz", blocks)
    heard_right(tries, log)
    # By the least of the processor's times, which other work hardly changes: four times as many members take four times
    # as long, and would take sixteen times if each looked at all others.
    least: List[float] = []
    for times in (2, 8):
        script = f"{UNPACKED}(btoa(atob({json.dumps(base64.b64encode(blocks).decode())}).repeat({times})))"
        seconds: List[float] = []
        for _ in range(3):
            start = browser.processor_seconds()
            got = browser.evaluate(f"{script}.then((text) => text.length)")
            seconds.append(browser.processor_seconds() - start)
            expect(got == times * len(log), times, "times:", got)
        least.append(min(seconds))
    expect(least[1] < 8 * least[0], "four times as many members take", least)
    # The length of these members has no zero byte at its end, so the padding begins where the member ends.
    large = base64.b64encode(gzip.compress(b"0" * 2**24 + b"12345") * 2 + bytes(3)).decode()
    got = browser.evaluate(f"{UNPACKED}({json.dumps(large)}).then((text) => [text.length, text.replaceAll('0', '')])")
    expect(got == [2**25 + 10, "1234512345"], "32 MiB:", got)
    given_file(browser, f"{path}.cut.gz", blocks[:-9])
    says(browser, "(its gzip data is damaged or ends early)")
    return len(range(0, len(log), 100)) + 1
