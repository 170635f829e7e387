"""How squitter-feed unpacks archives, and refuses what is no feed. Searching for a format is linear."""
from __future__ import annotations

import bz2
import gzip
import lzma
import random
import struct
import tarfile
import time
import zlib
from io import BytesIO
from typing import Callable, Dict, Iterable, List, Optional, Tuple

import squitter_unpack
from process import line_of, listening, ran, started
from squitter_feed import Feed, Refused
from squitter_unpack import Unpacking
from trying import AIR_EVEN, GROUND, Late, beast, expect, same

E = AIR_EVEN.encode()
LINE = b"*%s;\n" % E
UNDECIDED = 16_384  # bytes within which a source has to show its format


def decided(pieces: Iterable[bytes]) -> Optional[str]:
    """Returns the format that pieces are taken for, if they show one."""
    feed = Feed(True, lambda _: None)
    for piece in pieces:
        feed.hear(piece, 0)
    return feed.feed.format.name if feed.feed.format is not None else None


def byte_by_byte(data: bytes) -> List[bytes]:
    return [data[place : place + 1] for place in range(len(data))]


def fast() -> None:
    """Searching is linear: 16 KiB byte by byte, of line feeds, semicolons, escapes and starts of messages."""
    message = b"\x1a1\x00\x00\x00\x00\x00\x00\x00\x00\x00"
    rows = (b",", b"\t", b"a;", b"a;\n", b",\n", b"\t\n", b"*0;x", b"*0;x\n", b"8D,", b'"')
    for data in (b"\n", b"\x1a", b"\x1a1", message, b"x", b"1234\n", b";", b"*0;", b"*" + b"0" * 8000 + b";", *rows):
        whole = b"x"[: len(data) < 8000] + (data * UNDECIDED)[: UNDECIDED - 200]
        begun = time.process_time()
        same(decided(byte_by_byte(whole)), "BEAST" if data == message else None, data)
        if time.process_time() - begun >= 3:
            raise Late(f"{data!r} took {time.process_time() - begun} seconds")


# The first bytes of files without a feed, as the descriptions of their formats have them.
FOREIGN = {
    "504B0304": "a zip archive", "504B0506": "an empty zip archive", "28B52FFD": "compressed by zstd",
    "04224D18": "compressed by lz4", "4C5A4950": "compressed by lzip", "5D0000": "compressed by lzma",
    "1F9D": "compressed by compress", "1FA0": "compressed by compress", "377ABCAF271C": "a 7z archive",
    "526172211A07": "a rar archive", "53514C69746520666F726D6174203300": "an SQLite database",
    "50415231": "a Parquet file", **dict.fromkeys(("D4C3B2A1", "A1B2C3D4", "0A0D0D0A"), "a capture of network packets"),
}


def refused_by_name() -> None:
    """What is no feed is refused by its name, in any pieces."""
    tar = BytesIO()
    with tarfile.open(fileobj=tar, mode="w") as archive:
        member = tarfile.TarInfo("feed.csv")
        member.size = 1000
        archive.addfile(member, BytesIO(bytes(1000)))
    same({magic.hex().upper() for magic in squitter_unpack.REFUSED}, set(FOREIGN), "first bytes")
    rows = [(bytes.fromhex(magic) + bytes(30), f"the input is {text}") for magic, text in FOREIGN.items()]
    rows += [(tar.getvalue(), "a tar archive"), (b"MSG,3,1,1,4B1001,1,2026/11/23\n", "SBS"), (b"STA,,1\n", "SBS")]
    rows += [(b'{"hex":"40621d"}\n', "JSON"), ("5 8D".encode("utf-16"), "UTF-16")]
    for data, text in rows:
        for pieces in ([data], byte_by_byte(data)):
            same(heard(pieces)[0], b"", text)
            expect(text in str(heard(pieces)[1]), text, heard(pieces)[1])
    status, printed, said = ran(["-"], b"PK\x03\x04" + bytes(100))
    expect((status, printed) == (1, "") and "a zip archive" in said, said)
    same(decided([tar.getvalue()[:257] + b"ustaR"]), None)


def heard(pieces: Iterable[bytes], live: bool = True) -> Tuple[bytes, Optional[str]]:
    """The lines of a source in pieces, through unpacking and a feed; and the words by which it is refused."""
    feed, unpacking = Feed(live, lambda _: None), Unpacking()
    lines = b""
    refusal = None
    try:
        for data in pieces:
            for piece in unpacking.pieces(data):
                lines += feed.hear(piece, 7)
        for piece in unpacking.end():
            lines += feed.hear(piece, 7)
    except Refused as why:
        refusal = str(why)
    lines += feed.end(7)
    return lines, refusal or (str(feed.refusal) if feed.refusal else None)


ARCHIVES: Dict[str, Callable[[bytes], bytes]] = {"gzip": gzip.compress, "bzip2": bz2.compress, "xz": lzma.compress}


def many_rows(count: int) -> bytes:
    """Rows of CSV that no archive makes very small."""
    chance = random.Random(5)
    return b"time,icao24,rawmsg\n" + b"".join(
        b"%d.%03d,40621d,8d%s\n" % (k, chance.randrange(1000), chance.randbytes(13).hex().encode())
        for k in range(count)
    )


def archives() -> None:
    """gzip, bzip2 and xz are read as what is packed in them, in any pieces, of many members, and filled up with
    zeros."""
    for data in (LINE, b"", many_rows(20), many_rows(30_000)):
        wanted = heard([data])
        for name, pack in ARCHIVES.items():
            packed = pack(data)
            half = len(data) // 2
            halves = pack(data[:half]) + bytes(512) + pack(data[half:])
            both = pack(data[:half]) + pack(data[half:])
            for archive in (packed, both, halves, packed + bytes(1024), pack(b"") + packed):
                same(heard([archive]), wanted, name)
                pieces = [archive[place : place + 4096] for place in range(0, len(archive), 4096)]
                same(heard(pieces), wanted, name, "in pieces")
                if len(archive) < 5000:
                    same(heard(byte_by_byte(archive)), wanted, name, "byte by byte")
    twice = gzip.compress(gzip.compress(LINE))
    same(heard([twice])[0], b"", "packed twice")
    expect("compressed twice" in str(heard([twice])[1]), "packed twice")
    for name, pack in ARCHIVES.items():
        expect("no frame" in str(heard([pack(b"x" * 100_000)])[1]), name)


def by_process() -> None:
    """An archive in a file and by a pipe; one that is damaged, or ends early: what came before is printed, status 1."""
    data = many_rows(5000)
    whole = ran(["-"], data)[1]
    same(whole.count("\n"), 5000)
    for name, pack in ARCHIVES.items():
        packed = pack(data)
        same(ran(["-"], packed), (0, whole, "squitter-feed: 5000 written\n"), name)
        status, printed, said = ran(["-"], packed[: len(packed) // 2])
        expect(status == 1 and f"the {name} archive ends early" in said, name, status, said)
        expect(whole.startswith(printed) and printed.count("\n") > (1000 if name != "bzip2" else -1), name)
        expect(f": {printed.count(chr(10))} written" in said, said)
        harmed = bytearray(packed)
        harmed[len(packed) * 2 // 3] ^= 0x55
        status, printed, said = ran(["-"], bytes(harmed))
        expect(status == 1 and f"the {name} archive is damaged" in said, name, status, said)
        expect(printed.count("\n") > (1000 if name == "gzip" else -1), name, printed.count("\n"))


def lost_in_an_archive() -> None:
    """A connection that was lost in the middle of an archive begins anew, whatever it gives then."""
    packed = gzip.compress(many_rows(300))
    with listening() as listener, started([f"127.0.0.1:{listener.getsockname()[1]}"]) as run:
        listener.settimeout(20)
        for data in (packed[: len(packed) // 2], LINE, gzip.compress(LINE)):
            link, _ = listener.accept()
            link.sendall(data)
            expect(line_of(run), "no line of", data[:20])
            link.close()
        run.terminate()
        printed, said = run.communicate(timeout=30)
        same((run.returncode, printed.count(AIR_EVEN.encode()) > 0), (0, True), said)
        expect(b"archive" not in said, "a part of an archive is no fault of the run", said)


def damaged() -> None:
    """Of a damaged gzip archive all is read that stands before the damage; an archive with a foreign end is refused."""
    data = many_rows(300)
    wanted = heard([data])[0]
    packed = gzip.compress(data)
    for place in (len(packed) - 1, len(packed) - 8):
        harmed = packed[:place] + bytes([packed[place] ^ 1]) + packed[place + 1 :]
        same(heard([harmed]), (wanted, "the gzip archive is damaged"), place)
    for name, pack in ARCHIVES.items():
        packed = pack(data)
        for count in range(len(packed) - 20, len(packed)):
            same(heard([packed[:count]])[1], f"the {name} archive ends early", count)
        same(heard([packed + b"\x00\x00x"]), (wanted, f"the {name} archive is damaged at its end"), name)
        same(heard([packed + packed[:2]]), (wanted, f"the {name} archive ends early"), name)
        for place in (12, len(packed) // 2):
            harmed = packed[:place] + bytes(40) + packed[place + 40 :]
            expect(heard([harmed])[1] is not None, name, place)
    same(heard([b"\x1f\x8b" + bytes(30)]), (b"", "the gzip archive is damaged"))
    same(heard([b"\x1f"])[1], heard([b"x"])[1], "one byte")


def little_is_lost() -> None:
    """A fault of a bzip2 or an xz archive takes at most 512 bytes with it that could be unpacked."""
    data = many_rows(5000)
    archives = (("bzip2", bz2.compress(data, 1), bz2.BZ2Decompressor()),
                ("xz", lzma.compress(data), lzma.LZMADecompressor()),
                ("xz of like lines", lzma.compress(LINE * 10_000), lzma.LZMADecompressor()))
    for name, packed, inner in archives:
        place, most, kept = len(packed) * 3 // 4, 0, 0
        harmed = packed[:place] + bytes(40) + packed[place + 40 :]
        try:
            for byte in harmed:
                most += len(inner.decompress(bytes([byte]), 1))
                while not inner.needs_input:
                    most += len(inner.decompress(b"", 1))
        except (OSError, lzma.LZMAError):
            pass
        try:
            for piece in Unpacking().pieces(harmed):
                kept += len(piece)
        except Refused:
            pass
        expect(90_000 < most and most - 512 <= kept <= most, name, "has", kept, "of", most)


def too_large() -> None:
    """An xz archive that wants more memory than there may be taken is refused; a very small one of much is not kept."""
    packed = bytearray(lzma.compress(LINE * 10))
    head = 12  # of the stream; then comes the head of the block, with the size of the dictionary, and its sum
    size = (packed[head] + 1) * 4
    place = packed.index(b"\x21\x01", head) + 2
    too_much = (b"", "the xz archive wants too much memory")
    whole = heard([LINE * 10])
    for code, wanted in ((28, whole), (29, too_much), (39, too_much)):  # 64 MiB, 96 MiB and 3 GiB
        packed[place] = code
        packed[head + size - 4 : head + size] = struct.pack("<I", zlib.crc32(packed[head : head + size - 4]))
        same(heard([bytes(packed)]), wanted, code)
    same(heard([lzma.compress(LINE * 10, preset=9 | lzma.PRESET_EXTREME)]), whole, "the highest preset")
    room = max(kind.room for kind in squitter_unpack.PACKED.values())
    same(room, 65_536)
    for name, pack in ARCHIVES.items():
        packed_zeros = pack(b"\n" * 50_000_000)
        sizes = [len(piece) for piece in Unpacking().pieces(packed_zeros)]
        expect(max(sizes) <= room and sum(sizes) == 50_000_000, name, max(sizes), sum(sizes))


def never_well() -> None:
    """Bytes by chance and archives of other kinds never end with status 0."""
    chance = random.Random(7)
    for number in range(400):
        size = chance.choice((1, 2, 5, 11, 50, 300, 5000, 20_000))
        data = chance.randbytes(size)
        lines, refusal = heard([data])
        expect(not lines and refusal is not None, number, data[:40], lines)
    packed = zlib.compress(many_rows(2000))
    for data in (packed, packed[2:], lzma.compress(LINE, lzma.FORMAT_ALONE)):
        expect(heard([data])[1] is not None and not heard([data])[0], data[:20])
    same(ran(["-"], chance.randbytes(200_000))[:2], (1, ""))
    same(heard([beast(GROUND) * 3])[1], None)
