"""Feeds of libsquitter in Python's memory: they find the squitters in a receiver's bytes, and give them timestamps."""

from __future__ import annotations

import array
import ctypes
import threading
from typing import Any, NamedTuple, Optional, Tuple, Union

from squitter import _done
from squitter._errors import shown, whole
from squitter._hearing import _Lent, _bytes, _form
from squitter._library import _lend, _lib
from squitter._made import (
    FEED_ALL_FORMATS, FEED_BY_ARRIVAL, FEED_LIVE, FRAME_BYTES, LINE_BYTES, FeedFormat, Stranger, _Counts, _Done, _Feed,
)

_ROOM = 1 << 16  # bytes of lines that a call writes at once
_COUNT = 1 << 12  # squitters that a call writes at once
_ARRIVAL = "an arrival is a whole number of milliseconds from 0"


class Counts(NamedTuple):
    """Counts of the items of a source. ``found`` is the sum of the other counts of items.

    ``breaks`` counts how often times went back, so that timestamps are moved on. ``ahead`` says whether the timestamps
    of a live source are ahead of its arrivals by more than a leap: it is a recording, or its clock does not run at
    12 MHz. ``formats`` counts the frames of each downlink format other than 17; ``formats[24]`` counts formats 24 and
    above. With `all_formats` these frames count as ``written``."""

    found: int
    written: int
    mode_ac: int
    multilaterated: int
    receiver_ids: int
    damaged: int
    aside: int
    formats: Tuple[int, ...]
    breaks: int
    ahead: bool


class Feed(_Lent):
    r"""Finds the squitters in a receiver's bytes, in pieces of any length, with their timestamps in milliseconds.

    :meth:`take_text` and :meth:`finish_text` return lines for ``squitter track`` and :class:`Log`. :meth:`take` and
    :meth:`finish` return timestamps and frames for :meth:`Tracker.hear_many`. The results do not depend on how
    the source is cut into pieces. After :meth:`close`, or at the end of a ``with``, each
    call except :meth:`close` raises the Fault NO_TRACKER. Calls from several threads wait for one another.

    >>> with Feed("avr") as feed:
    ...     feed.take_text(b"@0000005B8D808D40621D58C386435CC4")
    ...     feed.take_text(b"12692AD6;") + feed.finish_text()
    ...     feed.counts.written
    b''
    b'500 8D40621D58C386435CC412692AD6\n'
    1
    """

    __slots__ = ("__weakref__",)

    def __init__(
        self, format: Union[FeedFormat, str] = FeedFormat.AUTO, leap: int = 600_000, live: bool = False,
        *, late: int = 0, all_formats: bool = False, by_arrival: bool = False,
    ) -> None:
        """Creates a feed at the start of a source. The format is one of :class:`FeedFormat`, or its name in lower case
        ("beast", "avr", "csv", "log", "auto"). If it is AUTO, the first bytes show it: the start of a Beast message, or
        a line with a frame. The whole source is then read in that format, from its first byte on. A gap above `leap`
        milliseconds is a jump: such frames wait until others confirm their times. Arrival times count only for a live
        source. A timestamp may be before the latest one by `late` milliseconds; with 0, timestamps never go back. With
        `all_formats`, frames of all downlink formats are written, those below 16 as seven bytes and seven zeros;
        otherwise those of format 17. With `by_arrival`, the receiver's clock is ignored. Raises ValueError for any
        other format, and unless `leap` and `late` are whole numbers below 2**64."""
        form = _form(FeedFormat, format)
        leap = whole(leap, 64, "a leap is a whole number of milliseconds from 0")
        late = whole(late, 64, "late is a whole number of milliseconds from 0")
        flags = FEED_LIVE * bool(live) | FEED_BY_ARRIVAL * bool(by_arrival) | FEED_ALL_FORMATS * bool(all_formats)
        self._kind, self._lock, self._slot = "feed", threading.RLock(), _Feed()
        block, self._memory = _lend(_lib.squitter_feed_size())
        _done(_lib.squitter_feed_new(ctypes.byref(self._slot), block, form, leap, late, flags))

    def __enter__(self) -> Feed:
        self._look_open()
        return self

    def take_text(self, piece: Union[bytes, bytearray, memoryview], arrival: int = 0) -> bytes:
        """Returns the lines of the squitters in this piece; `arrival` is its arrival time (ms). An incomplete message
        at the end waits for the next piece. Raises ValueError unless the arrival is a whole number below 2**64."""
        with self._lock:
            self._look_open()
            return self._texts(_bytes(piece), arrival)

    def take_text_into(
        self, piece: Union[bytes, bytearray, memoryview], room: Union[bytearray, memoryview], arrival: int = 0,
    ) -> Union[bytes, memoryview]:
        """Writes the lines of the squitters in this piece to `room`, a bytearray or another writable buffer that the
        piece is not in. Returns a view of them, so that nothing is copied, or bytes if they do not fit. The other
        arguments are those of :meth:`take_text`. Raises ValueError if the room has less than 50 bytes, and TypeError
        unless it is writable."""
        with self._lock:
            self._look_open()
            (source, length), done = _shared(piece), _Done()
            out, size = _shared(room) if isinstance(room, (bytearray, memoryview)) else (b"", 0)
            if isinstance(out, bytes) or size < LINE_BYTES:
                raise _no_room(room)
            _done(_lib.squitter_feed_take_text(
                ctypes.byref(self._slot), source, length, whole(arrival, 64, _ARRIVAL), out, size, ctypes.byref(done)))
            lines = memoryview(room).cast("B")[:done.written]
            if done.written + LINE_BYTES <= size:
                return lines
            return bytes(lines) + self._texts(_bytes(piece)[done.taken:], arrival)

    def finish_text(self, arrival: int = 0) -> bytes:
        """Ends the source. Returns the lines of its last squitters, such as that of a last line without a line feed,
        and those of frames that waited for others to confirm their times. The next piece belongs to another source."""
        with self._lock:
            self._look_open()
            return self._texts(None, arrival)

    def take(
        self, piece: Union[bytes, bytearray, memoryview], arrival: int = 0,
    ) -> Tuple[array.array[int], bytes]:
        """Returns the timestamps of the squitters in this piece, an array of type "Q", and their frames, 14 bytes each,
        one after the other. The arguments are those of :meth:`take_text`."""
        with self._lock:
            self._look_open()
            return self._squitters(_bytes(piece), arrival)

    def finish(self, arrival: int = 0) -> Tuple[array.array[int], bytes]:
        """Ends the source. Returns the timestamps and the frames of its last squitters, as :meth:`take` does."""
        with self._lock:
            self._look_open()
            return self._squitters(None, arrival)

    def disconnected(self) -> None:
        """Drops an unfinished frame after a lost connection, and counts it as damaged. The next piece belongs to a new
        connection, and its clock starts afresh."""
        with self._lock:
            self._look_open()
            _done(_lib.squitter_feed_disconnected(ctypes.byref(self._slot)))

    @property
    def format(self) -> Optional[FeedFormat]:
        """The format of the source, or None if its bytes so far do not show one."""
        number = self._source()
        return FeedFormat(number) if number < FeedFormat.AUTO else None

    @property
    def stranger(self) -> Optional[Stranger]:
        """What the source is if it holds no frames of a known format, or None. It is known once 16,384 bytes
        show no format, or after :meth:`finish_text`."""
        number = self._source()
        return Stranger(number) if number > FeedFormat.AUTO else None

    def _source(self) -> int:
        with self._lock:
            self._look_open()
            out = ctypes.c_uint32()
            _done(_lib.squitter_feed_format(ctypes.byref(self._slot), ctypes.byref(out)))
        return out.value

    @property
    def counts(self) -> Counts:
        """The counts of the items so far. A frame that waits is counted when its time is confirmed, or at the end."""
        with self._lock:
            self._look_open()
            out = _Counts()
            _done(_lib.squitter_feed_counts(ctypes.byref(self._slot), ctypes.byref(out)))
        return Counts(
            out.found, out.written, out.mode_ac, out.multilaterated, out.receiver_ids, out.damaged, out.aside,
            tuple(out.formats), out.breaks, bool(out.ahead),
        )

    def _texts(self, data: Optional[bytes], arrival: int) -> bytes:
        """Calls the library until it leaves room, and returns the lines."""
        # Each call has a buffer of its own, because a signal handler may use the feed between two calls.
        room, done, at, told = ctypes.create_string_buffer(_ROOM), _Done(0, _ROOM), 0, []
        call = _lib.squitter_feed_finish_text if data is None else _lib.squitter_feed_take_text
        while done.written + LINE_BYTES > _ROOM:
            given = _given(data, at, arrival)
            _done(call(ctypes.byref(self._slot), *given, ctypes.addressof(room), _ROOM, ctypes.byref(done)))
            told.append(ctypes.string_at(room, done.written))
            at += done.taken
        return b"".join(told)

    def _squitters(self, data: Optional[bytes], arrival: int) -> Tuple[array.array[int], bytes]:
        """Calls the library until it leaves room, and returns the timestamps and frames of the squitters."""
        moments, frames = (ctypes.c_uint64 * _COUNT)(), ctypes.create_string_buffer(FRAME_BYTES * _COUNT)
        arrays = ctypes.addressof(moments), _COUNT, ctypes.addressof(frames), _COUNT
        call = _lib.squitter_feed_finish if data is None else _lib.squitter_feed_take
        done, at, times, told = _Done(0, _COUNT), 0, array.array("Q"), []
        while done.written == _COUNT:
            given = _given(data, at, arrival)
            _done(call(ctypes.byref(self._slot), *given, *arrays, ctypes.byref(done)))
            times.frombytes(ctypes.string_at(moments, 8 * done.written))
            told.append(ctypes.string_at(frames, FRAME_BYTES * done.written))
            at += done.taken
        return times, b"".join(told)


def _given(data: Optional[bytes], at: int, arrival: int) -> Tuple[int, ...]:
    """Returns the arguments of a call: the address and length of the data from `at` on, if any, and the arrival."""
    arrival = whole(arrival, 64, _ARRIVAL)
    if data is None:
        return (arrival,)
    start = ctypes.cast(data, ctypes.c_void_p).value or 0
    return start + at, len(data) - at, arrival


def _shared(buffer: Union[bytes, bytearray, memoryview]) -> Tuple[Any, int]:
    """Returns a buffer as a call takes it, and its number of bytes: itself if it is writable, or its bytes."""
    if isinstance(buffer, (bytearray, memoryview)):
        view = memoryview(buffer)
        if not view.readonly and view.c_contiguous and view.nbytes:
            return ctypes.byref(ctypes.c_char.from_buffer(view)), view.nbytes
    data = _bytes(buffer)
    return data, len(data)


def _no_room(room: Any) -> Exception:
    """Returns the error for a room that is too small, or no room."""
    wanted = f"a room is a writable buffer of at least {LINE_BYTES} bytes, such as a bytearray, not {shown(room)}"
    try:
        view = memoryview(room)
    except TypeError:
        return TypeError(wanted)
    return TypeError(wanted) if view.readonly or not view.c_contiguous else ValueError(wanted)
