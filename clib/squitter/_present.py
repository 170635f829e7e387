"""Who is present in a tracker or a log, with the frames and the places that they were heard with."""

from __future__ import annotations

import ctypes
import struct
from fractions import Fraction
from typing import Any, Callable, NamedTuple, Optional, Tuple

from squitter import _FAULT, Fields, Position, _fault_of, read
from squitter._made import FRAME_BYTES, _Entry
from squitter._results import Results

# The members of a squitter_entry. Each side has nine: two frames with their timestamps, and a fix with its own.
_SIDE = f"Q{FRAME_BYTES}s2xQ{FRAME_BYTES}s2xQqqqq"
_ENTRY = struct.Struct(f"=QI4x{_SIDE}{_SIDE}")
_SIDE_MEMBERS = 9
_NO_FRAME = bytes(FRAME_BYTES)
_AT_FIRST = 256  # entries that the first call has room for


class Received(NamedTuple):
    """A frame, 14 bytes, and its timestamp in milliseconds."""

    moment: int
    frame: bytes


class LastFix(NamedTuple):
    """The position of the newest fix or followed position, in degrees, and its timestamp in milliseconds."""

    moment: int
    position: Position


class Side(NamedTuple):
    """What is kept of an aircraft in the air, or on the ground: its newest even and odd frames, and its last fix."""

    even: Optional[Received]
    odd: Optional[Received]
    fix: Optional[LastFix]


class Present(NamedTuple):
    """An aircraft that is present: its address, the timestamp (ms) of its newest position frame, and what is kept of it
    in the air and on the ground. A frame or a fix that is older than the window is kept, but no longer used."""

    address: int
    moment: int
    airborne: Side
    surface: Side

    @property
    def newest(self) -> Received:
        """The newest position frame."""
        frames = [frame for side in (self.airborne, self.surface) for frame in (side.even, side.odd) if frame]
        return max(frames, key=lambda frame: frame.moment)

    @property
    def fix(self) -> Optional[LastFix]:
        """The newest position, in the air or on the ground; None if there was none."""
        fixes = [side.fix for side in (self.airborne, self.surface) if side.fix]
        return max(fixes, key=lambda fix: fix.moment, default=None)

    @property
    def fields(self) -> Fields:
        """The fields of the newest position frame, such as ``kind`` and ``feet``."""
        return read(self.newest.frame)


def _received(moment: int, frame: bytes) -> Optional[Received]:
    return None if frame == _NO_FRAME else Received(moment, frame)


def _side_of(members: Tuple[Any, ...]) -> Side:
    even_moment, even, odd_moment, odd, moment, lat, lat_den, lon, lon_den = members
    fix = LastFix(moment, Position(Fraction(lat, lat_den), Fraction(lon, lon_den))) if lat_den else None
    return Side(_received(even_moment, even), _received(odd_moment, odd), fix)


def _present_of(members: Tuple[Any, ...]) -> Present:
    moment, address, *sides = members
    return Present(address, moment, _side_of(tuple(sides[:_SIDE_MEMBERS])), _side_of(tuple(sides[_SIDE_MEMBERS:])))


def _present(call: Callable[..., int], slot: Any, since: int) -> Results[Present]:
    """Returns the addresses heard since a timestamp, the last heard first. One call writes them all, because a signal
    handler may use the tracker between two."""
    size = _AT_FIRST
    out = (_Entry * size)()
    while (count := call(slot, since, 0, ctypes.addressof(out), size)) == size:
        size *= 4
        out = (_Entry * size)()
    room = bytearray(memoryview(out).cast("B")[:count * _ENTRY.size])
    return Results(_ENTRY, _present_of, room, _FAULT, _fault_of, bytearray(_FAULT.size * count))
