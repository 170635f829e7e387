"""What a receiver recorded, as arrays: the timestamps and the frames of Beast, AVR, CSV or a log."""

from __future__ import annotations

import bz2
import io
import lzma
import os
import re
import warnings
import zlib
from typing import Any, Callable, Dict, Optional, Sequence, Tuple, Union

import numpy as np
import numpy.typing as npt

import squitter
from squitter import FeedFormat
from squitter._errors import hint_of_source, shown
from squitter._made import UNITS

Source = Union[str, "os.PathLike[str]", Any]
"""A file, by its name or open for bytes, or bytes."""

Squitters = Tuple[npt.NDArray[np.uint64], npt.NDArray[np.uint8]]
"""Timestamps in milliseconds, and frames of shape (n, 14)."""

_FIRST = 1 << 14  # bytes by which the library finds the format of a source
_PIECE = 1 << 20  # bytes that a feed takes at once
_PACKED = 1 << 16  # bytes that are unpacked at once
WATCHED = 1 << 14  # squitters that show the unit of their timestamps
_CLOCKED = (FeedFormat.BEAST, FeedFormat.AVR)  # timestamps by a receiver's clock

# Archives by their first bytes, and what unpacks them.
_ARCHIVES: Dict[bytes, Tuple[str, Callable[[], Any]]] = {
    b"\x1f\x8b": ("gzip", lambda: zlib.decompressobj(16 + zlib.MAX_WBITS)),
    b"BZh": ("bzip2", bz2.BZ2Decompressor),
    b"\xfd7zXZ\x00": ("xz", lzma.LZMADecompressor),
}


def feed(source: Source, format: Union[FeedFormat, str, None] = None, leap: int = 600_000) -> Squitters:
    """Returns the timestamps (ms) and the frames, (n, 14) uint8, of a receiver's recording, for :func:`track`.

    The source is a file or a pipe, by its name or open for bytes, or bytes. It is what ``squitter feed`` reads: Beast,
    AVR, CSV with the columns time and rawmsg, or a log, also packed by gzip, bzip2 or xz. Without a `format`
    (:class:`squitter.FeedFormat` or its name) its first bytes decide. A gap above `leap` milliseconds is a jump of the
    receiver's clock. Frames without times get the timestamp 0. A warning says if there are several, or if timestamps do
    not seem to be milliseconds. Raises ValueError if the source has no squitter, or if an archive is damaged or ends
    early.
    """
    squitters, fault, form = _squitters(unpacked(bytes_of(source), source), format or FeedFormat.AUTO, leap)
    if fault:
        raise ValueError(f"{name_of(source)}: {fault}")
    times, frames = squitters[0][:WATCHED], squitters[1][:WATCHED]
    warn_of_unit(times.tolist(), (frames[:, 1:4] @ np.array([1 << 16, 1 << 8, 1])).tolist(), form in _CLOCKED, 2)
    return squitters


def squitters_of(data: npt.NDArray[np.uint8], source: Source) -> Tuple[Optional[Squitters], bool]:
    """Returns the squitters of a recording of Beast, AVR or CSV, or None for any other data, such as a log; and whether
    a receiver's clock gave the timestamps. Raises ValueError if there are none."""
    form = _format_of(data)
    if form is None or form == FeedFormat.LOG:
        return None, False
    squitters, fault, _ = _squitters(data, form, 600_000)
    if fault:
        raise ValueError(f"{name_of(source)}: {fault}")
    return squitters, form in _CLOCKED


def _format_of(data: npt.NDArray[np.uint8]) -> Optional[FeedFormat]:
    """Returns the format that the first bytes show. A short source may end without a line feed."""
    with squitter.Feed() as source:
        source.take(data[:_FIRST].tobytes() + b"\n" * (len(data) < _FIRST))
        return source.format


def _squitters(
    data: npt.NDArray[np.uint8], form: Union[FeedFormat, str], leap: int
) -> Tuple[Squitters, str, Optional[FeedFormat]]:
    """Returns the squitters of a recording; why there are none, or an empty text; and the format of the recording."""
    moments, frames = [], []
    with squitter.Feed(form, leap) as source:
        for at in range(0, len(data), _PIECE):
            times, some = source.take(data[at:at + _PIECE].tobytes())
            moments.append(np.frombuffer(times, np.uint64) if times else np.zeros(0, np.uint64))
            frames.append(some)
        found = source.format
        times, some = source.finish()
        stranger, counts = source.stranger, source.counts
    moments.append(np.array(times, np.uint64))
    squitters = np.concatenate(moments), np.frombuffer(b"".join([*frames, some]), np.uint8).reshape(-1, 14)
    return squitters, "" if counts.written else hint_of_source(stranger, counts, data[:8].tobytes()), found


def refuse_none(data: npt.NDArray[np.uint8], source: Source) -> None:
    """Raises ValueError if data without a good line show no format."""
    if _format_of(data) is None:
        raise ValueError(f"{name_of(source)}: {_squitters(data, FeedFormat.AUTO, 0)[1]}")


def warn_of_unit(moments: Sequence[int], addresses: Sequence[int], clocked: bool, above: int) -> None:
    """Warns the caller, so many calls above, if timestamps do not seem to be milliseconds, or several are all 0."""
    unit = squitter.unit_of(moments, addresses, clocked)
    if unit in UNITS:
        warnings.warn(UNITS[unit], stacklevel=above + 1)


def bytes_of(source: Source) -> npt.NDArray[np.uint8]:
    """Returns the bytes of a file, by its name or open for bytes, or given bytes. Raises TypeError for anything else,
    such as a text file."""
    if isinstance(source, (bytes, bytearray, memoryview)):
        return np.frombuffer(bytes(source), np.uint8)
    if hasattr(source, "read"):
        data = source.read()
        if isinstance(data, str):
            raise TypeError("a source is a file that is open for bytes ('rb'), not for text")
        return np.frombuffer(data, np.uint8)
    if not isinstance(source, (str, os.PathLike)):
        raise TypeError(f"a source is a file, by its name or open for bytes ('rb'), or bytes, not {shown(source)}")
    with _opened(source) as file:
        # (read into an array, because NumPy asks for large pages for it; a pipe has the size 0)
        data = np.empty(os.fstat(file.fileno()).st_size, np.uint8)
        data, rest = data[:file.readinto(data)], np.frombuffer(file.read(), np.uint8)
    return np.concatenate([data, rest]) if len(rest) else data


def _opened(name: Union[str, "os.PathLike[str]"]) -> io.BufferedReader:
    """Opens a file. If that fails and the name looks like data, the system's error also says that data are bytes."""
    try:
        return open(name, "rb")
    except OSError as error:
        if not isinstance(name, str) or not re.search(r"[\n,;]|[0-9A-Fa-f]{14}", name):
            raise
        wanted = f"{error.strerror}; a str is the name of a file, and data are bytes, as encode() makes them"
        raise type(error)(error.errno, wanted, name if len(name) < 256 else f"{name[:60]}...") from None


def name_of(source: Source) -> str:
    """Returns the name of a file for an error, or a word for other sources."""
    name = source if isinstance(source, (str, os.PathLike)) else getattr(source, "name", None)
    return str(name) if isinstance(name, (str, os.PathLike)) else "this"


def unpacked(data: npt.NDArray[np.uint8], source: Source) -> npt.NDArray[np.uint8]:
    """Returns the contents of an archive: all its members, which zeros may follow. Returns other data as they are.
    Raises ValueError if an archive is damaged or ends early."""
    parts, at, name = [], 0, ""
    while at < len(data):
        front = data[at:at + 6].tobytes()
        kind, begin = next((of for magic, of in _ARCHIVES.items() if front.startswith(magic)), ("", None))
        if begin is None:
            if not name:
                return data
            raise ValueError(f"{name_of(source)}: the {name} archive is damaged at its end")
        name, inner = kind, begin()
        while not inner.eof:
            piece = data[at:at + _PACKED].tobytes()
            if not piece:
                raise ValueError(f"{name_of(source)}: the {name} archive ends early")
            try:
                parts.append(inner.decompress(piece))
            except (zlib.error, lzma.LZMAError, OSError):
                raise ValueError(f"{name_of(source)}: the {name} archive is damaged") from None
            at += len(piece)
        at -= len(inner.unused_data)
        while at < len(data) and data[at] == 0:
            some = data[at:at + _PACKED]
            at += int(np.argmax(some != 0)) or len(some)
    return np.frombuffer(b"".join(parts), np.uint8) if name else data


def refuse_file(wanted: str, source: Any) -> None:
    """Raises ValueError for a file or its name in place of an array, and for a single text. `wanted` begins the
    error."""
    is_name = isinstance(source, (str, os.PathLike))
    if not is_name and not hasattr(source, "read"):
        return
    if isinstance(source, str) and not os.path.exists(source):
        raise ValueError(f"{wanted}, not a single text: {shown(source)}")
    of = repr(name_of(source)) if is_name or name_of(source) != "this" else "file"
    raise ValueError(f"{wanted}, not a file: batch.feed reads it, as in track(*batch.feed({of}))")
