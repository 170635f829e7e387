"""A sample of a log, which shows the unit of its timestamps."""
from __future__ import annotations

from array import array
from typing import Union

import squitter
from squitter._made import FRAME_BYTES

ENOUGH = 1 << 14  # squitters


class Sample:
    """The timestamps and the ICAO addresses of the first squitters in the lines of a log."""

    def __init__(self) -> None:
        # No timestamp is a jump, so that the library reads all lines.
        self.lines = squitter.Feed("log", leap=(1 << 64) - 1)
        self.moments, self.frames = array("Q"), bytearray()

    def add(self, lines: Union[bytes, memoryview]) -> None:
        self.keep(*self.lines.take(lines))

    def keep(self, moments: array[int], frames: bytes) -> None:
        self.moments.extend(moments)
        self.frames += frames

    def is_full(self) -> bool:
        return len(self.moments) >= ENOUGH

    def unit(self, clocked: bool) -> squitter.Unit:
        """Returns what the timestamps seem to be; see `squitter.unit_of`."""
        self.keep(*self.lines.finish())
        moments, frames = self.moments[:ENOUGH], self.frames[:FRAME_BYTES * ENOUGH]
        # An address is in the second to fourth byte of a frame. Addresses are only compared, so in any order.
        addresses = bytearray(4 * len(moments))
        for at in (1, 2, 3):
            addresses[at::4] = frames[at::FRAME_BYTES]
        return squitter.unit_of(moments, memoryview(addresses).cast("I"), clocked)
