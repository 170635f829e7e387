"""Arrays of frames over NumPy: the functions of the module squitter for millions of frames in one call.

Each function returns two structured arrays with one record for each frame: the results, and the faults, with ``code`` 0
for a result. For a frame with a fault, the record of the result is unchanged, so it is all 0 in a new array. The types
below describe each field. Pass arrays as ``out`` and ``faults`` to have both written in place.

Frames are bytes: an array of ``(n, 14)`` uint8 or of ``V14``, or a buffer of 14 bytes for each. Or they are frame
texts: an array of ``S28``, or of other bytes, texts or objects that are str, or a list of str. An argument is read in
place if its memory has the layout that the library takes, and copied first otherwise. An argument of another shape,
type, length or layout raises a ValueError that names it. While a call runs nobody else may write to its arrays. A
masked value of an array is missing, as None is: its row has a fault.

>>> from squitter import batch
>>> fields, faults = batch.read(["8D40621D58C382D690C8AC2863A7", "8D40621D58C382D690C8AC2863A6"])
>>> fields["feet"].tolist(), faults["code"].tolist()
([38000, 0], [0, 6])
>>> heard, faults = batch.track([0, 400], ["8D40621D58C386435CC412692AD6", "8D40621D58C382D690C8AC2863A7"])
>>> batch.lines(heard, faults).decode().splitlines()
['1 waiting 40621D', '2 fix 40621D 52.2572021 3.9193726']
>>> batch.csv_rows([0, 400], heard, faults).decode().splitlines()
['1,0,waiting,40621D,air,,,38000', '2,400,fix,40621D,air,52.2572021,3.9193726,38000']
>>> heard[["lat_e7", "lon_e7", "lat_num", "lat_den"]][1].tolist()
(522572021, 39193726, 428091, 8192)
"""

from __future__ import annotations

import copy
import ctypes
import operator
from array import array as _Items
from mmap import mmap
from typing import Any, Dict, Iterable, List, NamedTuple, Optional, Sequence, SupportsIndex, Tuple, Type, Union

from squitter._errors import missing, shown

try:
    import numpy as np
    import numpy.typing as npt
except ModuleNotFoundError as error:
    raise missing(error, "squitter.batch", "NumPy 1.21 or later") from None

import squitter
from squitter import WINDOW, Code, Point, Position, _parts
from squitter._answers import ANSWER, COLUMNS, columns, csv_rows, dataframe, fractions, lines
from squitter._library import _FRAME, _binary, _lib, _text
from squitter._parts import DEGREES_E7, Room, first_words
from squitter._records import (
    DEGREES, FAULT, FIELDS, POSITION, PRESENT, TRACKED, Records, _is_missing, _limit, _moments, kind_of, name_of_type,
    refuse_mask, whole_numbers, without_mask,
)
from squitter._source import feed, refuse_file

__all__ = [
    "ANSWER", "COLUMNS", "DEGREES", "FAULT", "FIELDS", "POSITION", "PRESENT", "TRACKED", "Tracker", "columns",
    "csv_rows", "dataframe", "feed", "fractions", "lines", "local", "pair", "pair_at", "position_e7", "positions",
    "present", "read", "track",
]


def __dir__() -> List[str]:
    """Returns the public names, which a prompt completes."""
    return sorted({*__all__, *(name for name in globals() if name.startswith("__"))})


_ADDRESSES = 1 << 24  # the number of ICAO addresses
_LEAST_LIMIT = 1000  # addresses that a tracker has room for at first


# ---- arguments ----


def _given(array: npt.NDArray[Any]) -> Tuple[int, int]:
    """Returns the address of an array and its number of elements, as C takes it."""
    return array.ctypes.data, len(array)


def _room(count: int, dtype: np.dtype[Any], name: str, given: Optional[Records]) -> Records:
    """Returns the array to write: a new one, or the given one if its layout is the one that C needs."""
    if given is None:
        # NumPy asks the system for large pages in np.empty, and not in np.zeros. Small pages take longer to come than
        # the zeros take to be written.
        new = np.empty(count * dtype.itemsize, np.uint8)
        new.fill(0)
        return new.view(dtype)
    refuse_mask(name, given)
    if not isinstance(given, np.ndarray) or given.dtype != dtype or not given.dtype.isnative:
        raise ValueError(f"{name} is an array of another type than batch.{name_of_type(dtype)}: {kind_of(given)}")
    if given.shape != (count,):
        raise ValueError(f"{name} has the shape {given.shape}, not ({count},)")
    if not given.flags.writeable:
        raise ValueError(f"{name} is read-only")
    if not given.flags.c_contiguous or not given.flags.aligned:
        raise ValueError(f"{name} is not contiguous or not aligned")
    return given


def _rooms(
    count: int, dtype: np.dtype[Any], out: Optional[Records], faults: Optional[Records], *inputs: npt.NDArray[Any]
) -> Tuple[Records, Records]:
    """Returns the arrays of results and of faults. Raises ValueError if they overlap each other or an input."""
    rooms = _room(count, dtype, "out", out), _room(count, FAULT, "faults", faults)
    if np.may_share_memory(*rooms) or any(np.may_share_memory(room, one) for room in rooms for one in inputs):
        raise ValueError("out and faults overlap each other or what is read")
    return rooms


class _Frames(NamedTuple):
    """Frames as bytes, of shape (n, 14); zeros for an invalid text. `bad` has the indices of invalid texts, and
    `faults` their faults."""

    bytes: npt.NDArray[np.uint8]
    bad: npt.NDArray[np.intp]
    faults: Records


_NO_ROWS, _NO_FAULTS = np.zeros(0, np.intp), np.zeros(0, FAULT)
_BUFFERS = (bytes, bytearray, memoryview, _Items, mmap)


def _frames(name: str, source: npt.ArrayLike) -> _Frames:
    """Returns the frames of an argument of this name."""
    none = _NO_ROWS, _NO_FAULTS
    if isinstance(source, _BUFFERS):
        view = _binary(name, memoryview(source))
        # NumPy refuses to make an array from an empty buffer.
        return _Frames(np.frombuffer(view if view.nbytes else bytes(14), np.uint8, view.nbytes).reshape(-1, 14), *none)
    if isinstance(source, (list, tuple)):
        return _frames_of_texts(name, source)
    source, masked = without_mask(source)
    if len(masked):
        # A masked frame has the fault of an empty text, as any other missing one.
        return _refused(_frames(name, source), masked, Code.LENGTH)
    array = np.asarray(source)
    if array.ndim == 0:
        refuse_file(f"{name} are a list, an array or bytes", source)
    if array.shape == (0,):
        return _Frames(np.zeros((0, 14), np.uint8), *none)  # An empty column may have any type.
    if array.dtype == np.uint8 and array.ndim == 2 and array.shape[1] == 14:
        return _Frames(np.ascontiguousarray(array), *none)
    if array.dtype.kind not in "SUOV" or (array.dtype.kind == "V" and array.dtype != "V14"):
        raise ValueError(f"{name} are (n, 14) of uint8, V14 or texts, not {array.dtype} of the shape {array.shape}")
    if array.ndim != 1:
        given = shown(source) if array.ndim == 0 else f"an array of {array.ndim} dimensions"
        raise ValueError(f"{name} are a list, an array of one dimension or bytes, not {given}")
    if array.dtype.kind == "V":
        return _Frames(np.ascontiguousarray(array).view(np.uint8).reshape(-1, 14), *none)
    return _frames_of_bytes(array) if array.dtype.kind == "S" else _frames_of_texts(name, array.tolist())


def _refused(source: _Frames, rows: npt.NDArray[np.intp], code: Code) -> _Frames:
    """Returns these frames, with zeros and this fault in some rows."""
    blank, bad = source.bytes.copy(), np.union1d(source.bad, rows)
    blank[rows] = 0
    faults = np.zeros(len(bad), FAULT)
    faults[np.searchsorted(bad, source.bad)] = source.faults
    faults[np.searchsorted(bad, rows)] = code, 0, 0
    return _Frames(blank, bad, faults)


# ---- texts ----

_BODY = 28
_NO_BODY = "-" * _BODY


def _frames_of_texts(name: str, texts: Sequence[Any]) -> _Frames:
    """Returns the frames of str values. A missing value counts as an empty text, which has a fault."""
    if not set(map(type, texts)) <= {str}:
        for place, text in enumerate(texts):
            if not isinstance(text, str) and not _is_missing(text):
                raise ValueError(f"{name}[{place}] is no str, but of type {type(text).__name__}{_of_bytes(name, text)}")
        texts = [text if isinstance(text, str) else "" for text in texts]
    # Each character becomes one byte, and only digits become digits.
    joined = "".join(map(_body, texts)).encode("latin-1", "replace")
    digits = np.frombuffer(joined, np.uint8) if texts else np.zeros(0, np.uint8)
    frames, bad = _decoded(digits.reshape(-1, _BODY))
    return _Frames(frames, bad, _text_faults(_text(texts[place]) for place in bad.tolist()))


def _of_bytes(name: str, text: Any) -> str:
    """Returns what to do with bytes in a list, or an empty text for anything else."""
    if not isinstance(text, bytes):
        return ""
    return f'; join frames with b"".join({name})' if len(text) == 14 else "; decode() makes a str of bytes"


def _body(text: str) -> str:
    """Returns the 28 characters that must be digits, or 28 characters that are not digits."""
    if len(text) == _BODY:
        return text
    return text[1:-1] if len(text) == _BODY + 2 and text[0] == "*" and text[-1] == ";" else _NO_BODY


def _frames_of_bytes(texts: npt.NDArray[np.bytes_]) -> _Frames:
    """Returns the frames of an array of bytes. Each text ends before the zeros that fill its element."""
    width = texts.dtype.itemsize
    raw = np.ascontiguousarray(texts).view(np.uint8).reshape(len(texts), width)
    if width < _BODY:
        digits = np.zeros((len(texts), _BODY), np.uint8)
    elif width == _BODY:
        digits = raw
    else:
        digits = np.where(raw[:, _BODY:].any(axis=1)[:, np.newaxis], np.uint8(0), raw[:, :_BODY])
        if width >= _BODY + 2:
            wrapped = (raw[:, 0] == ord("*")) & (raw[:, _BODY + 1] == ord(";")) & ~raw[:, _BODY + 2:].any(axis=1)
            digits[wrapped] = raw[wrapped, 1:_BODY + 1]
    frames, bad = _decoded(digits)
    return _Frames(frames, bad, _text_faults(bytes(texts[place]) for place in bad.tolist()))


def _decoded(digits: npt.NDArray[np.uint8]) -> Tuple[npt.NDArray[np.uint8], npt.NDArray[np.intp]]:
    """Returns the frames of rows of 28 digits, and the indices of rows with another byte. Their frames are 0."""
    frames, bad = np.empty((len(digits), 14), np.uint8), []
    for at in range(0, len(digits), 1 << 14):  # few enough to stay in the processor's cache
        part, into = digits[at:at + (1 << 14)], frames[at:at + (1 << 14)]
        # A byte below the first digit wraps around to a value above the last digit.
        good = ((part - ord("0")) < 10) | (((part | 0x20) - ord("a")) < 6)
        values = (part & 15) + 9 * (part >> 6)
        np.bitwise_or(values[:, ::2] << 4, values[:, 1::2], out=into)
        if not good.all():
            rows = np.flatnonzero(~good.all(axis=1))
            into[rows] = 0
            bad.append(rows + at)
    return frames, np.concatenate(bad) if bad else np.zeros(0, np.intp)


def _text_faults(texts: Iterable[bytes]) -> Records:
    """Returns the faults of these texts."""
    out, told = _FRAME(), []
    for text in texts:
        fault = _lib.squitter_frame_of_text(text, len(text), ctypes.byref(out))
        told.append((fault.code, fault.second, fault.first))
    return np.array(told, FAULT)


# ---- positions ----


def _positions(name: str, source: npt.ArrayLike, count: Optional[int] = None) -> Records:
    """Returns the positions of an array with the fields of POSITION, laid out for C."""
    array = np.asarray(without_mask(source)[0])
    if array.ndim != 1 or array.dtype.names is None or not set(POSITION.names or ()) <= set(array.dtype.names):
        one = "" if count is None else ", or one squitter.Position for all"
        raise ValueError(f"{name} are an array of POSITION{one}, not {kind_of(array)} of the shape {array.shape}")
    if count is not None and len(array) != count:
        raise ValueError(f"there are {len(array)} {name}, not {count}")
    if array.dtype == POSITION and array.dtype.isnative and array.flags.c_contiguous and array.flags.aligned:
        return array
    out = np.empty(len(array), POSITION)
    for field in POSITION.names or ():
        if not np.can_cast(array.dtype[field], POSITION[field], "equiv"):
            raise ValueError(f"{field} of {name} is {array.dtype[field]}, not {POSITION[field]}")
        out[field] = array[field]
    return out


def _one_position(position: Position) -> Records:
    """Returns a position as an array of one."""
    return np.frombuffer(bytes(squitter._position(position)), POSITION)


def positions(lat_e7: npt.ArrayLike, lon_e7: npt.ArrayLike) -> Records:
    """Returns positions from units of 10^-7 degree, as references for :func:`local`. Raises ValueError unless all are
    whole numbers of 64 bits, with one longitude for each latitude. Where one is missing, the position is all 0, which
    is no position."""
    both = [whole_numbers(part) for part in (lat_e7, lon_e7)]
    parts = [part for part, _ in both]
    for name, part in zip(("lat_e7", "lon_e7"), parts):
        if part.ndim != 1 or not (np.can_cast(part.dtype, np.int64) and part.dtype.kind in "iu" or part.size == 0):
            raise ValueError(f"{name} are a list or an array of whole numbers of 64 bits, in units of 10^-7 degree, "
                             f"not {part.dtype} of the shape {part.shape}")
    if len(parts[0]) != len(parts[1]):
        raise ValueError(f"{len(parts[0])} latitudes and {len(parts[1])} longitudes")
    out = np.empty(len(parts[0]), POSITION)
    out["lat_num"], out["lon_num"] = parts
    out["lat_den"] = out["lon_den"] = 10**7
    for _, missing in both:
        out[missing] = np.zeros((), POSITION)
    return out


def position_e7(
    places: npt.ArrayLike, out: Optional[Records] = None, faults: Optional[Records] = None
) -> Tuple[Records, Records]:
    """Returns each position in units of 10^-7 degree (DEGREES). Fault: BAD_POSITION. The places are an array of
    POSITION, or of another type with the same fields."""
    source = _positions("places", places)
    out, faults = _rooms(len(source), DEGREES, out, faults, source)
    narrow = np.empty(min(len(source), 1 << 14), DEGREES_E7)
    for at in range(0, len(source), len(narrow) or 1):
        part, told = source[at:at + len(narrow)], faults[at:at + len(narrow)]
        _lib.squitter_position_e7_many(*_given(part), *_given(narrow), *_given(told))
        if told["code"].any():
            good = np.flatnonzero(told["code"] == 0)
            into, these = out[at:at + len(narrow)], narrow[:len(part)][good]
            into["lat_e7"][good], into["lon_e7"][good] = these["lat"], these["lon"]
        else:
            into, these = out[at:at + len(narrow)], narrow[:len(part)]
            into["lat_e7"], into["lon_e7"] = these["lat"], these["lon"]
    return out, faults


# ---- frames ----


def read(
    frames: npt.ArrayLike, out: Optional[Records] = None, faults: Optional[Records] = None
) -> Tuple[Records, Records]:
    """Returns the fields of each frame (FIELDS). Faults: those of its text, then NOT_DF17, PARITY."""
    source = _frames("frames", frames)
    out, faults = _rooms(len(source.bytes), FIELDS, out, faults, source.bytes)
    if len(out):
        _lib.squitter_read_many(*_given(source.bytes), *_given(out), *_given(faults))
        faults[source.bad] = source.faults
    return out, faults


def local(
    frames: npt.ArrayLike, references: Any, out: Optional[Records] = None, faults: Optional[Records] = None
) -> Tuple[Records, Records]:
    """Returns the position of each frame near its reference (POSITION). `references` has one for each frame, or is one
    `squitter.Position` for all. Faults: those of `squitter.local`."""
    source = _frames("frames", frames)
    count = len(source.bytes)
    if isinstance(references, Position):
        near = np.repeat(_one_position(references), count)
    else:
        near = _positions("references", references, count)
    out, faults = _rooms(count, POSITION, out, faults, source.bytes, near)
    if count:
        _lib.squitter_local_many(*_given(source.bytes), *_given(near), *_given(out), *_given(faults))
        _tell(source, faults)
    return out, faults


def pair(
    older: npt.ArrayLike, newer: npt.ArrayLike, out: Optional[Records] = None, faults: Optional[Records] = None
) -> Tuple[Records, Records]:
    """Returns the position of the newer frame of each pair (POSITION). Faults: those of `squitter.pair`. A surface pair
    has the fault NO_SITE."""
    return _pair(older, newer, None, out, faults)


def pair_at(
    older: npt.ArrayLike, newer: npt.ArrayLike, site: Point, out: Optional[Records] = None,
    faults: Optional[Records] = None,
) -> Tuple[Records, Records]:
    """The same with one receiver position (the site), which surface pairs need. With an invalid site each fault is
    BAD_POSITION."""
    return _pair(older, newer, squitter._position(site), out, faults)


def _pair(
    older: npt.ArrayLike, newer: npt.ArrayLike, site: Optional[ctypes.Structure], out: Optional[Records],
    faults: Optional[Records],
) -> Tuple[Records, Records]:
    first, second = _frames("older", older), _frames("newer", newer)
    count = len(first.bytes)
    if len(second.bytes) != count:
        raise ValueError(f"newer are {len(second.bytes)}, and older {count}")
    out, faults = _rooms(count, POSITION, out, faults, first.bytes, second.bytes)
    if not count:
        return out, faults
    frames = *_given(first.bytes), *_given(second.bytes)
    if site is None:
        _lib.squitter_pair_many(*frames, *_given(out), *_given(faults))
    else:
        _lib.squitter_pair_at_many(*frames, ctypes.byref(site), *_given(out), *_given(faults))
    if len(second.bad):
        # Faults of the older frame come before faults of the newer one's text.
        _, of_older = read(first.bytes[second.bad])
        wrong = of_older["code"] != 0
        _tell(_Frames(second.bytes, second.bad, np.where(wrong, of_older, second.faults)), faults)
    _tell(first, faults)
    return out, faults


def _tell(source: _Frames, faults: Records) -> None:
    """Writes the faults of texts, unless a reference or a site has a fault, which comes first."""
    told = faults["code"][source.bad] != Code.BAD_POSITION
    faults[source.bad[told]] = source.faults[told]


# ---- hearing ----


def track(
    moments: npt.ArrayLike, frames: npt.ArrayLike, window: int = WINDOW, site: Optional[Point] = None,
    limit: Optional[int] = 1000, out: Optional[Records] = None, faults: Optional[Records] = None,
) -> Tuple[Records, Records]:
    """Returns the results of `squitter track` for the lines of a log (TRACKED), each a timestamp in milliseconds and a
    frame, and their faults.

    The faults are those of the program, in its order: those of a frame's text, NOT_DF17, PARITY, MOMENT_BACK (the
    timestamp is before that of the last accepted line), TABLE_FULL. Window, site and limit are the options of `track`,
    with the same defaults. With a limit of None no line is TABLE_FULL, as with `track --limit=16777216`, the number of
    all addresses. Raises the Fault BAD_POSITION if the site is out of range.
    """
    source, times = _log(moments, frames)
    with squitter.Tracker(window, site, _limit(window, limit, len(times))) as tracker:
        return _hear_all(tracker, Room(min(len(times), _parts.PART)), source, times, out, faults)


def _hear_all(
    tracker: squitter.Tracker, room: Room, source: _Frames, times: npt.NDArray[np.uint64], out: Optional[Records],
    faults: Optional[Records],
) -> Tuple[Records, Records]:
    """Returns the tracker's results for lines (TRACKED) and their faults. In a given array, the records of refused
    lines are unchanged."""
    count, is_new = len(times), out is None
    rooms = [np.empty(count, dtype) if given is None else given for given, dtype in ((out, TRACKED), (faults, FAULT))]
    out, faults = rooms if is_new and faults is None else _rooms(count, TRACKED, *rooms, source.bytes, times)
    with tracker._lock:
        room.hear_all(tracker, times, source.bytes, out, faults, is_new)
    # An invalid text was passed to the tracker as zeros, which it refused without a change.
    if len(source.bad):
        faults[source.bad] = source.faults
    return out, faults


class Tracker:
    """A log in pieces: together the results are those of :func:`track` for the whole log.

    It is a :class:`squitter.Tracker` for arrays. It can be pickled, and unpickled on a machine of the same byte order.
    One thread at a time may call it.
    """

    __slots__ = ("_most", "_rooms", "_tracker")

    def __init__(
        self, window: int = WINDOW, site: Optional[Point] = None, limit: Optional[int] = 1000
    ) -> None:
        """Creates a tracker without lines; window, site and limit as for :func:`track`."""
        self._most = _limit(window, limit, _ADDRESSES)
        self._tracker = squitter.Tracker(window, site, min(self._most, _LEAST_LIMIT))
        self._rooms: Dict[int, Room] = {}

    @property
    def last(self) -> int:
        """The timestamp of the last accepted frame; 0 if none was accepted."""
        return self._tracker.last

    def hear(
        self, moments: npt.ArrayLike, frames: npt.ArrayLike, out: Optional[Records] = None,
        faults: Optional[Records] = None,
    ) -> Tuple[Records, Records]:
        """Returns the results of the next lines (TRACKED) and their faults, as :func:`track` does."""
        source, times = _log(moments, frames)
        self._make_room(source.bytes)
        return _hear_all(self._tracker, self._room(len(times)), source, times, out, faults)

    def __reduce_ex__(self, protocol: SupportsIndex) -> Tuple[Any, ...]:
        """Returns a tracker with the same settings and state, without its scratch arrays, and the attributes of a
        subclass."""
        made: Any = super().__reduce_ex__(max(2, operator.index(protocol)))
        _, _, (attributes, slots), *more = made
        added = {name: value for name, value in slots.items() if name not in Tracker.__slots__}
        return (_unpickled, (type(self), self._most, self._tracker), (attributes, added), *more)

    def _room(self, count: int) -> Room:
        """Returns memory for pieces of this size: one for each power of two, because a new one takes longer than a
        small piece."""
        size = min(1 << max(count - 1, 1).bit_length(), _parts.PART)
        room = self._rooms.get(size)
        if room is None:
            room = self._rooms[size] = Room(size)
        return room

    def _make_room(self, frames: npt.NDArray[np.uint8]) -> None:
        """Replaces the tracker by a larger one, up to the limit, if these frames may bring more addresses than fit."""
        window, site, room = self._tracker._settings
        if room == self._most or (present := len(self._tracker)) + len(frames) <= room:
            return
        wanted = present + len(np.unique(first_words(frames) & np.uint32(0xFFFFFF)))
        if wanted <= room:
            return
        larger = squitter.Tracker(window, site, min(max(2 * room, wanted), self._most))
        larger._restore(*self._tracker._save())
        self._tracker.close()
        self._tracker = larger


# The layouts of squitter_received, squitter_side and squitter_entry.
_RECEIVED = np.dtype([("moment", "u8"), ("frame", "u1", 14)], align=True)
_SIDE = np.dtype([("even", _RECEIVED), ("odd", _RECEIVED), ("fix_moment", "u8"), *POSITION.descr], align=True)
_ENTRY = np.dtype([("moment", "u8"), ("address", "u4"), ("airborne", _SIDE), ("surface", _SIDE)], align=True)


def _newest(choices: Sequence[Records]) -> Records:
    """Returns for each row the one of these records that is there and has the latest moment, the first of equals."""
    ranks = np.stack([np.where(one["is_there"], one["moment"] + np.uint64(1), 0) for one in choices])
    best, rows = ranks.argmax(axis=0), np.arange(len(choices[0]))
    return np.stack(choices)[best, rows]


def present(source: Union[squitter.Tracker, squitter.Log, Tracker], since: int = 0) -> Records:
    """Returns the aircraft of a tracker or a log that were heard at or after a timestamp in milliseconds (PRESENT), the
    last heard first. Without one these are all that are present."""
    told = (source._tracker if isinstance(source, Tracker) else source).present(since)
    entries = np.frombuffer(told._out, _ENTRY)
    sides = [entries["airborne"], entries["surface"]]
    frames, fixes = [], []
    for side in sides:
        for frame in (side["even"], side["odd"]):
            one = np.zeros(len(entries), [("is_there", "?"), ("moment", "u8"), ("frame", "u1", 14)])
            one["is_there"] = frame["frame"].any(axis=1)
            one["moment"], one["frame"] = frame["moment"], frame["frame"]
            frames.append(one)
        fix = np.zeros(len(entries), [("is_there", "?"), ("moment", "u8"), *POSITION.descr])
        fix["is_there"], fix["moment"] = side["lat_den"] != 0, side["fix_moment"]
        for name in POSITION.names or ():
            fix[name] = side[name]
        fixes.append(fix)
    out = np.zeros(len(entries), PRESENT)
    if not len(out):
        return out
    frame, fix = _newest(frames), _newest(fixes)
    fields, _ = read(np.ascontiguousarray(frame["frame"]))
    for name in ("moment", "address"):
        out[name] = entries[name]
    for name in ("kind", "altitude_form", "feet"):
        out[name] = fields[name]
    out["frame"], out["fix_moment"] = frame["frame"], np.where(fix["is_there"], fix["moment"], 0)
    for angle in ("lat", "lon"):
        num, den = fix[f"{angle}_num"], fix[f"{angle}_den"].astype("i8")
        common = np.maximum(np.gcd(num, den), 1)
        out[f"{angle}_num"], out[f"{angle}_den"] = num // common, den // common
    degrees, _ = position_e7(out)
    out["lat_e7"], out["lon_e7"] = degrees["lat_e7"], degrees["lon_e7"]
    return out


def _unpickled(kind: Type[Tracker], most: int, tracker: squitter.Tracker) -> Tracker:
    """Returns a tracker with this limit and a copy of this state."""
    made = kind.__new__(kind)
    made._most, made._tracker, made._rooms = most, copy.copy(tracker), {}
    return made


def _log(moments: npt.ArrayLike, frames: npt.ArrayLike) -> Tuple[_Frames, npt.NDArray[np.uint64]]:
    """Returns the frames and the timestamps of a log. A line without a timestamp gets the fault BAD_MOMENT and a frame
    of zeros."""
    source = _frames("frames", frames)
    times, missing = _moments(moments, len(source.bytes))
    return _refused(source, missing, Code.BAD_MOMENT) if len(missing) else source, times
