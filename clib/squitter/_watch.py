"""Whether a place can be true, by a receiver's range and the speed of aircraft."""

from __future__ import annotations

import ctypes
import enum
from typing import Optional

from squitter import Point, _look, _position
from squitter._errors import whole
from squitter._library import _lib, _moment, _Position
from squitter._made import BEYOND_RANGE, TOO_FAST, _LastFix, _Watch
from squitter._present import LastFix


class Doubt(enum.IntFlag):
    """Why a place cannot be true. No doubt is 0, which is false."""

    BEYOND_RANGE = BEYOND_RANGE
    TOO_FAST = TOO_FAST


def _checked(position: Point) -> _Position:
    """Returns a position for C. Raises the Fault BAD_POSITION for one that is out of range."""
    here = _position(position)
    _look(here)
    return here


class Watch:
    """What is known of the places of aircraft: none is further than `range` nautical miles from the site, and none is
    faster than `speed` knots. A range or a speed of 0 is not known.

    >>> watch = Watch(site=(52.31, 4.76), range=300, speed=2000)
    >>> watch.doubts(0, (-38.0254041, -165.5217511))
    <Doubt.BEYOND_RANGE: 1>
    >>> bool(watch.doubts(1000, (52.3, 4.8), LastFix(0, (52.29, 4.8))))
    False
    """

    __module__ = "squitter"
    __slots__ = ("_known", "_site")

    def __init__(self, site: Optional[Point] = None, range: int = 0, speed: int = 0) -> None:
        """Raises the Faults of a text in the site, BAD_POSITION (the site), and ValueError or TypeError for a range or
        a speed that is no whole number below 2**32."""
        self._known = _Watch(whole(range, 32, "a range is a whole number of nautical miles from 0"),
                             whole(speed, 32, "a speed is a whole number of knots from 0"))
        self._site = _Position() if site is None else _checked(site)

    def doubts(self, moment: int, place: Point, before: Optional[LastFix] = None) -> Doubt:
        """Returns why a place at a timestamp in milliseconds cannot be true: it is beyond the range, or it is further
        from the place before than the speed takes an aircraft in the time between, and a nautical mile. Two places are
        further apart than so many miles if their latitudes differ by more than miles / 60 degrees, or their longitudes,
        the shorter way round, by more than miles / NL degrees, where the smaller zone count NL is at least 2. Raises
        the Fault BAD_POSITION."""
        older = _LastFix()
        if before is not None:
            older.moment, older.position = _moment(before.moment), _checked(before.position)
        told = _lib.squitter_doubts(ctypes.byref(self._known), ctypes.byref(self._site), ctypes.byref(older),
                                    _moment(moment), ctypes.byref(_checked(place)))
        return Doubt(told)
