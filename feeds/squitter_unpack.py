"""Unpacks compressed sources as they come: gzip, bzip2 and xz, by Python's own library and in bounded memory.

Other archives are refused by name, so that none is taken for a feed."""
from __future__ import annotations

import bz2
import lzma
import zlib
from typing import Any, Callable, Dict, Generator, Iterator, NamedTuple, Optional, Tuple, Union

MEMORY = 100_000_000  # bytes that xz may take: its highest preset takes 65 MiB

# Archives by their first bytes, and what to do with them.
REFUSED: Dict[bytes, str] = {
    b"PK\x03\x04": "a zip archive: try unzip -p FILE | squitter feed",
    b"PK\x05\x06": "an empty zip archive",
    b"\x28\xb5\x2f\xfd": "compressed by zstd: try zstd -dc FILE | squitter feed",
    b"\x04\x22\x4d\x18": "compressed by lz4: try lz4 -dc FILE | squitter feed",
    b"LZIP": "compressed by lzip: try lzip -dc FILE | squitter feed",
    b"\x5d\x00\x00": "compressed by lzma: try xz -dc FILE | squitter feed",
    **dict.fromkeys((b"\x1f\x9d", b"\x1f\xa0"), "compressed by compress: try gunzip -c FILE | squitter feed"),
    b"7z\xbc\xaf\x27\x1c": "a 7z archive: unpack it first",
    b"Rar!\x1a\x07": "a rar archive: unpack it first",
    b"SQLite format 3\x00": "an SQLite database",
    b"PAR1": "a Parquet file",
    **dict.fromkeys((b"\xd4\xc3\xb2\xa1", b"\xa1\xb2\xc3\xd4", b"\n\r\r\n"), "a capture of network packets"),
}
FAULTS = (zlib.error, lzma.LZMAError, OSError)  # (bz2 raises the last one)


class Refused(Exception):
    """The source has no format that is read."""


class Kind(NamedTuple):
    """A kind of archive: its name, what unpacks a member of it, how many packed bytes go in at once, and how many
    unpacked ones come out. bzip2 and xz take few, because a fault takes these with it."""

    name: str
    begin: Callable[[], Any]
    slice: int
    room: int


PACKED = {
    b"\x1f\x8b": Kind("gzip", lambda: zlib.decompressobj(16 + zlib.MAX_WBITS), 4096, 65_536),
    b"BZh": Kind("bzip2", bz2.BZ2Decompressor, 64, 512),
    b"\xfd7zXZ\x00": Kind("xz", lambda: lzma.LZMADecompressor(lzma.FORMAT_XZ, MEMORY), 64, 512),
}


def magic_of(data: bytes) -> Tuple[Optional[bytes], bool]:
    """Returns the magic number that data begin with, and whether more bytes may complete one."""
    known = [*PACKED, *REFUSED]
    found = next((magic for magic in known if data.startswith(magic)), None)
    return found, found is None and any(magic.startswith(data) for magic in known)


def unpacked(kind: Kind, member: Any, data: bytes) -> Generator[bytes, None, bytes]:
    """Unpacks a member of an archive in pieces of at most a room; those of gzip up to the damaged byte where one is
    damaged. Returns the data behind the member's end."""
    for at in range(0, len(data), kind.slice):
        left, piece = data[at : at + kind.slice], b""
        while left or len(piece) == kind.room:
            saved = member.copy() if kind.name == "gzip" else None  # (the others have no copy)
            try:
                piece = member.decompress(left, kind.room)
            except zlib.error:
                for number in left if saved else b"":
                    yield saved.decompress(bytes([number]))
                raise
            if piece:
                yield piece
            if member.eof:
                return member.unused_data + data[at + kind.slice :]
            left = member.unconsumed_tail if saved else b""
    return b""


class Unpacking:
    """Passes a source on: unpacked where its first bytes are those of gzip, bzip2 or xz, and else as it is."""

    def __init__(self) -> None:
        self.plain = False
        self.head = b""  # first bytes that may yet become a magic number
        self.kind: Optional[Kind] = None  # of the archive, once one has begun
        self.member: Any = None  # what unpacks the member of the archive that has begun

    def pieces(self, source: Union[bytes, memoryview]) -> Iterator[Union[bytes, memoryview]]:
        """Passes on what is known by these bytes. Raises `Refused` once that is done where an archive is damaged."""
        data, self.head = source if self.plain else self.head + source, b""
        while data and not self.plain:
            if self.member is None and not self._begins(data):
                return
            if self.kind is not None:
                try:
                    data = yield from unpacked(self.kind, self.member, data)
                except FAULTS as fault:
                    what = "wants too much memory" if "Memory" in str(fault) else "is damaged"
                    raise Refused(f"the {self.kind.name} archive {what}") from None
                if self.member.eof:
                    self.member, data = None, data.lstrip(b"\x00")  # (an archive may be filled up with zeros)
        if data:
            yield data

    def end(self) -> Iterator[bytes]:
        """Passes on what was held. Raises `Refused` where an archive ends early."""
        if self.kind is not None and (self.member is not None or self.head):
            raise Refused(f"the {self.kind.name} archive ends early")
        if self.head:
            yield self.head

    def _begins(self, data: bytes) -> bool:
        """Tells whether more can be passed on: of an archive that begins, or of a plain source."""
        if self.kind is not None and not data.strip(b"\x00"):
            return False
        magic, may_come = magic_of(data)
        if may_come:
            self.head = data
        elif magic in REFUSED:
            raise Refused(f"the input is {REFUSED[magic]}")
        elif magic is not None:
            self.kind = PACKED[magic]
            self.member = self.kind.begin()
        elif self.kind is not None:
            raise Refused(f"the {self.kind.name} archive is damaged at its end")
        else:
            self.plain = True
        return not may_come
