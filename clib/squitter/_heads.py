"""Heads of squitters. They are loaded when they are first used, because dataclasses load slowly."""

from __future__ import annotations

from dataclasses import dataclass


@dataclass(frozen=True)
class AirHead:
    """The fields of an airborne position squitter, except its position."""

    __module__ = "squitter"

    address: int
    altitude: int = 0
    ca: int = 5
    type_code: int = 11
    status: int = 0
    flag: int = 0
    time: int = 0
    odd: int = 0


@dataclass(frozen=True)
class GroundHead:
    """The fields of a surface position squitter, except its position."""

    __module__ = "squitter"

    address: int
    ca: int = 4
    type_code: int = 7
    movement: int = 0
    track_status: int = 0
    track: int = 0
    time: int = 0
    odd: int = 0
