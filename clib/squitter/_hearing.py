"""Trackers and logs of libsquitter in Python's memory: they decode all addresses at once."""

from __future__ import annotations

import ctypes
import operator
import threading
from typing import (
    Any, Callable, Iterator, List, NamedTuple, Optional, Sequence, SupportsIndex, Tuple, Type, TypeVar, Union,
)

from squitter import (
    _HEARD, WINDOW, Code, Fault, Frame, Frames, Heard, Point, _done, _heard_of, _many, _position,
    _unpacked_heard, frame,
)
from squitter._errors import shown, whole
from squitter._library import _frames, _lend, _lib, _moment, _quick, _times
from squitter._made import (
    ANSWER_TEXT_BYTES, FRAME_BYTES, HEADER_BYTES, FeedFormat, Format, _Done, _Entry, _Heard, _Last, _Log,
    _Tally, _Tracker,
)
from squitter._present import Present, _present
from squitter._results import Results


class _Lent:
    """A tracker, a log or a feed of the library, in Python's memory.

    Calls from several threads wait for one another. A signal handler may call too: its thread may hold the lock, but
    is not inside a call of the library."""

    __slots__ = ("_kind", "_lock", "_memory", "_slot")

    def close(self) -> None:
        """Frees the memory. Safe to call twice."""
        with self._lock:
            getattr(_lib, f"squitter_{self._kind}_free")(ctypes.byref(self._slot))
            self._memory = None

    def _look_open(self) -> None:
        """Raises the Fault NO_TRACKER after :meth:`close`."""
        if self._memory is None:
            raise Fault(Code.NO_TRACKER, hint=f"the {self._kind} is closed")

    def __exit__(self, *fault: object) -> None:
        self.close()

    def __reduce__(self) -> Union[str, Tuple[Any, ...]]:
        article = "an" if self._kind == "order" else "a"
        raise TypeError(f"{article} {self._kind} cannot be copied or pickled")


_SLOTS = {"tracker": _Tracker, "log": _Log}


class _Listener(_Lent):
    """A tracker or a log of the library."""

    __slots__ = ("_at", "_settings")

    def __init__(self, kind: str, window: int, site: Optional[Point], limit: int) -> None:
        window = whole(window, 64, "a window is a whole number of milliseconds from 0")
        limit = whole(limit, 32, "a limit is a whole number of addresses from 1")
        self._kind, self._lock, self._slot = kind, threading.RLock(), _SLOTS[kind]()
        here = None if site is None else _position(site)
        # A copy needs the site's first value. A caller may change a list later, and an iterator can be read only once.
        self._settings = window, None if here is None else here.given, limit
        block, self._memory = _lend(getattr(_lib, f"squitter_{kind}_size")(limit))
        slot = self._at = ctypes.byref(self._slot)
        if here is None:
            _done(getattr(_lib, f"squitter_{kind}_new")(slot, block, limit, window))
        else:
            new = getattr(_lib, f"squitter_{kind}_new_at")(slot, block, limit, window, ctypes.byref(here))
            _done(new, *here.given)

    def present(self, since: int = 0) -> Results[Present]:
        """Returns the addresses that were heard at or after a timestamp in milliseconds, the last heard first. Without
        one these are all that are present. Raises ValueError for a timestamp below 0 or from 2**64 on."""
        with self._lock:
            self._look_open()
            return _present(getattr(_lib, f"squitter_{self._kind}_present"), self._at, _moment(since))


_tracker_hear = _quick("tracker_hear")
_TOO_LATE = 1 << 64  # timestamps are below


class _HeardRoom:
    """The timestamp of a frame, and room for its result."""

    __slots__ = ("at", "out", "time")

    def __init__(self) -> None:
        self.time, self.out = ctypes.c_uint64(), _Heard()
        self.at = ctypes.byref(self.out)


_ROOMS: List[_HeardRoom] = []


class Tracker(_Listener):
    """Positions of many aircraft from their frames, as the program ``squitter track`` decodes them.

    Its memory is freed by :meth:`close`, at the end of a ``with``, or with the tracker itself. After that each call
    except :meth:`close` raises the Fault NO_TRACKER. Calls from several threads wait for one another, and a signal
    handler may call too. A copy starts with the same state. So does an unpickled tracker, on a machine of the same byte
    order.

    >>> with Tracker() as tracker:
    ...     tracker.hear(0, "8D40621D58C386435CC412692AD6").what.name
    ...     tracker.hear(400, "8D40621D58C382D690C8AC2863A7").position
    ...     [(f"{it.address:06X}", it.fix.moment, it.fields.feet) for it in tracker.present()]
    'WAITING'
    Position(lat=Fraction(428091, 8192), lon=Fraction(64215, 16384))
    [('40621D', 400, 38000)]
    """

    __module__ = "squitter"  # where pickles look for it
    __slots__ = ("__weakref__",)

    def __init__(self, window: int = WINDOW, site: Optional[Point] = None, limit: int = 1000) -> None:
        """Creates a tracker without frames. The window is in milliseconds, by default :data:`WINDOW`. The site is the
        receiver position, such as (52.25, 3.92), which surface pairs need; a float counts as its shortest text. An
        address is present while its newest position is at most the window older than the last accepted frame; at most
        `limit` can be. Raises the Faults of a text in the site, BAD_POSITION (the site), NO_LIMIT, NO_MEMORY."""
        super().__init__("tracker", window, site, limit)

    def __enter__(self) -> Tracker:
        self._look_open()
        return self

    __reduce__ = object.__reduce__  # __reduce_ex__ makes copies and pickles

    def __reduce_ex__(self, protocol: SupportsIndex) -> Tuple[Any, ...]:
        """Returns how the tracker is made again, with its state, and then the attributes of a subclass, or what its
        ``__getstate__`` returns."""
        with self._lock:
            self._look_open()
            made: Any = super().__reduce_ex__(max(2, operator.index(protocol)))
            call, arguments, attributes, *more = made
            if isinstance(attributes, tuple) and len(attributes) == 2 and isinstance(attributes[1], dict):
                own = {*_Lent.__slots__, *_Listener.__slots__}
                added = {name: value for name, value in attributes[1].items() if name not in own}
                attributes = attributes[0], added
            return (type(self)._again, (call, arguments, self._settings, *self._save()), attributes, *more)

    @classmethod
    def _again(
        cls, call: Callable[..., Any], arguments: Tuple[Any, ...], settings: Tuple[int, Any, int],
        last: Optional[int], entries: bytes,
    ) -> Tracker:
        """Returns a tracker with this state. Raises the Fault BAD_ENTRY if no tracker can hold it."""
        made: Tracker = call(*arguments)
        _Listener.__init__(made, "tracker", *settings)
        made._restore(last, entries)
        return made

    def __setstate__(self, state: Any) -> None:
        """Sets the attributes of a subclass: a dict, or a pair of two dicts. Each may be None. Raises TypeError for
        any other state. An earlier version pickled the state of the tracker here too."""
        if isinstance(state, tuple) and len(state) == 5:
            *state, settings, last, entries = state
            _Listener.__init__(self, "tracker", *settings)
            self._restore(last, entries)
        parts = state if isinstance(state, (list, tuple)) and len(state) == 2 else [state]
        if not all(isinstance(part, (dict, type(None))) for part in parts):
            name = type(self).__name__
            raise TypeError(f"the __getstate__ of {name} returned {shown(state)}, which is no dict of attributes, so "
                            f"{name} needs a __setstate__ too")
        for part in parts:
            for name, value in (part or {}).items():
                setattr(self, name, value)

    def _save(self) -> Tuple[Optional[int], bytes]:
        """Returns the timestamp of the last accepted frame, and the entries of the present addresses."""
        last, slot = _Last(), ctypes.byref(self._slot)
        entries = (_Entry * _lib.squitter_tracker_len(slot))()
        _lib.squitter_tracker_save(slot, ctypes.byref(last), ctypes.addressof(entries), len(entries))
        return last.moment if last.heard else None, bytes(entries)

    def _restore(self, last: Optional[int], entries: bytes) -> None:
        """Restores what :meth:`_save` returned."""
        if len(entries) % ctypes.sizeof(_Entry):
            raise ValueError(f"an entry has {ctypes.sizeof(_Entry)} bytes")
        kept = _Last(last or 0, last is not None)
        held = (_Entry * (len(entries) // ctypes.sizeof(_Entry))).from_buffer_copy(entries)
        slot = ctypes.byref(self._slot)
        _done(_lib.squitter_tracker_restore(slot, ctypes.byref(kept), ctypes.addressof(held), len(held)))

    @property
    def last(self) -> int:
        """The timestamp of the last accepted frame; 0 if none was accepted."""
        with self._lock:
            self._look_open()
            last = _Last()
            _lib.squitter_tracker_save(ctypes.byref(self._slot), ctypes.byref(last), ctypes.addressof(last), 0)
        return int(last.moment)

    def hear(self, moment: int, source: Frame) -> Heard:
        """Adds a frame with its timestamp in milliseconds, and returns the result. Raises the Faults of a frame text,
        NO_TRACKER, NOT_DF17, PARITY, MOMENT_BACK, TABLE_FULL. After a Fault the tracker is unchanged."""
        with self._lock:
            if self._memory is None:
                self._look_open()
            if type(moment) is not int or not 0 <= moment < _TOO_LATE:
                moment = _moment(moment)
            if type(source) is not bytes or len(source) != FRAME_BYTES:
                source = frame(source)
            try:
                room = _ROOMS.pop()
            except IndexError:
                room = _HeardRoom()
            try:
                room.time.value = moment
                if _tracker_hear(self._at, room.time, source, room.at):
                    # A second call gives the fault. It succeeds if a signal handler changed the tracker in between.
                    _done(_lib.squitter_tracker_hear(self._at, moment, source, room.at))
                members = _unpacked_heard(room.out)
            finally:
                _ROOMS.append(room)
        return _heard_of(members)

    def hear_many(self, moments: Sequence[int], frames: Frames) -> Results[Union[Heard, Fault]]:
        """Adds frames one after the other. Returns the results, with a Fault for each refused frame. Raises ValueError
        unless there is one timestamp for each frame."""
        with self._lock:
            self._look_open()
            source, count = _frames(frames)
            times = _times(moments, count)
            arrays = times.buffer_info()[0], count, source, count
            return _many("tracker_hear_many", _HEARD, _heard_of, count, self._at, *arrays)

    def __len__(self) -> int:
        """Returns the number of present addresses, at most the limit."""
        with self._lock:
            self._look_open()
            return int(_lib.squitter_tracker_len(ctypes.byref(self._slot)))


class Contact(Tracker):
    """A tracker of one address. A second address raises TABLE_FULL while the first is present."""

    __module__ = "squitter"
    __slots__ = ()

    def __init__(self, window: int = WINDOW, site: Optional[Point] = None) -> None:
        """Creates a contact without frames; window and site as for :class:`Tracker`, with the same default window."""
        super().__init__(window, site, 1)

    @property
    def newest(self) -> int:
        """The timestamp of the newest position; 0 if there is none."""
        with self._lock:
            return max((it.moment for it in self.present()), default=0)


class Tally(NamedTuple):
    """The numbers of good lines and of refused lines."""

    good: int
    refused: int


_ROOM = 1 << 16  # bytes of text that a call writes at once


def _bytes(piece: Union[bytes, bytearray, memoryview], wanted: str = "a piece is bytes") -> bytes:
    """Returns the bytes of a piece. Raises TypeError for anything else, such as a str; `wanted` begins the error."""
    if isinstance(piece, bytes):
        return piece
    try:
        return memoryview(piece).tobytes()
    except TypeError:
        advice = "; encode() makes bytes of a str, and 'rb' opens a file for bytes" if isinstance(piece, str) else ""
        advice = "; take what its read() returns" if hasattr(piece, "read") else advice
        raise TypeError(f"{wanted}, not {shown(piece)}{advice}") from None


_Form = TypeVar("_Form", Format, FeedFormat)


def _form(kind: Type[_Form], format: Union[_Form, str]) -> _Form:
    """Returns a member of an enum of formats, which is given as it is or by its name in lower case."""
    names = {form.name.lower(): form for form in kind}
    if isinstance(format, str) and format in names:
        return names[format]
    try:
        value: Any = format
        return kind(value)
    except ValueError:
        wanted = f"a format is one of {', '.join(map(repr, names))}, or of {kind.__name__}"
        raise ValueError(f"{wanted}, not {shown(format)}") from None


class Log(_Listener):
    r"""A log in pieces, as the program ``squitter track`` decodes it.

    The results of :meth:`take_text` and :meth:`finish_text`, joined, are the output of the program, byte for byte.
    After :meth:`close`, or at the end of a ``with``, each call except :meth:`close` raises the Fault NO_TRACKER. Calls
    from several threads wait for one another.

    >>> with Log() as log:
    ...     log.take_text(b"0 8D40621D58C386435CC412692AD6\n400 8D40621D58C3")
    ...     log.take_text(b"82D690C8AC2863A7") + log.finish_text()
    ...     log.tally
    b'1 waiting 40621D\n'
    b'2 fix 40621D 52.2572021 3.9193726\n'
    Tally(good=2, refused=0)
    """

    __slots__ = ("_ahead", "_format", "__weakref__")

    def __init__(
        self, window: int = WINDOW, site: Optional[Point] = None, limit: int = 1000,
        format: Union[Format, str] = Format.LINES,
    ) -> None:
        """Creates a log without lines; window, site and limit as for :class:`Tracker`. The format is one of
        :class:`Format`, or its name in lower case, such as "csv". Raises ValueError for any other format."""
        self._format = _form(Format, format)
        super().__init__("log", window, site, limit)
        header = ctypes.create_string_buffer(HEADER_BYTES)
        _lib.squitter_log_header(self._format, header)
        self._ahead = header.value

    def __enter__(self) -> Log:
        self._look_open()
        return self

    def take_text(self, piece: Union[bytes, bytearray, memoryview]) -> bytes:
        """Returns the output for the lines that end in this piece. An incomplete line at the end waits for the next
        piece. Raises the Fault LONG_LOG after 2**63 lines."""
        with self._lock:
            self._look_open()
            return self._texts("log_take_text", _bytes(piece))

    def finish_text(self) -> bytes:
        """Returns the output for the last line, if it has no line feed. It ends the line and not the log: what is taken
        next begins a new line, with the next number."""
        with self._lock:
            self._look_open()
            return self._texts("log_finish_text", None)

    def _texts(self, name: str, data: Optional[bytes]) -> bytes:
        """Calls the library until it leaves room, and returns the text that it wrote."""
        call, told = getattr(_lib, f"squitter_{name}"), [self._ahead]
        self._ahead = b""
        # Each call has a buffer of its own, because a signal handler may use the log between two calls.
        room, done, at = ctypes.create_string_buffer(_ROOM), _Done(0, _ROOM), 0
        start = ctypes.cast(data, ctypes.c_void_p).value or 0
        while done.written + ANSWER_TEXT_BYTES > _ROOM:
            given = () if data is None else (start + at, len(data) - at)
            out = ctypes.addressof(room), _ROOM, ctypes.byref(done)
            _done(call(ctypes.byref(self._slot), self._format, *given, *out))
            told.append(ctypes.string_at(room, done.written))
            at += done.taken
        return b"".join(told)

    def _answers(self, start: int, length: int, out: int, count: int) -> Iterator[int]:
        """Decodes a whole log of `length` bytes at the address `start`. Writes the results to the array of `count`
        squitter_answers at the address `out`, again and again; yields how many it holds, until all are written."""
        at, done = 0, _Done(0, count)
        for name in ("log_take", "log_finish"):
            call, done.written = getattr(_lib, f"squitter_{name}"), count
            while done.written == count:
                given = (start + at, length - at) if name == "log_take" else ()
                _done(call(ctypes.byref(self._slot), *given, out, count, ctypes.byref(done)))
                at += done.taken
                yield int(done.written)

    @property
    def tally(self) -> Tally:
        """The numbers of good lines and of refused lines so far."""
        with self._lock:
            self._look_open()
            out = _Tally()
            _done(_lib.squitter_log_tally(ctypes.byref(self._slot), ctypes.byref(out)))
        return Tally(out.good, out.refused)
