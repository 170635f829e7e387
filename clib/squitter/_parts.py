"""The results of a tracker for arrays of any length, part by part, in memory that stays in the processor's cache."""

from __future__ import annotations

import ctypes
from concurrent.futures import ThreadPoolExecutor
from contextlib import closing
from typing import Any, Callable, Generator

import numpy as np
import numpy.typing as npt

import squitter
from squitter import Code
from squitter._library import _lib
from squitter._made import RECORDS
from squitter._records import FAULT, FIELDS, POSITION, TRACKED, Records

PART = 1 << 14  # the most lines of a part
HEARD = np.dtype(RECORDS["heard"], align=True)
DEGREES_E7 = np.dtype(RECORDS["degrees_e7"], align=True)
_ADDRESS = np.uint32(0xFFFFFF)


def front(records: Records, dtype: np.dtype[Any]) -> npt.NDArray[np.void]:
    """Returns the front of each record, as large as a record of this type. NumPy copies it as one piece of memory, and
    not field by field."""
    return np.ndarray(records.shape, f"V{dtype.itemsize}", records, 0, records.strides)


def first_words(frames: npt.NDArray[np.uint8]) -> npt.NDArray[np.uint32]:
    """Returns the first four bytes of each frame; the last three are its address."""
    return np.ndarray(len(frames), ">u4", frames, 0, frames.strides[:1])


class _Turn:
    """The lines of one call of the library, and the tracker's results and faults."""

    __slots__ = ("at", "codes", "faults", "frames", "heard_front", "place_front", "times", "whole_faults", "words")

    def __init__(self, count: int) -> None:
        self.times, self.frames = np.zeros(count, np.uint64), np.zeros((count, 14), np.uint8)
        heard, self.faults = np.zeros(count, HEARD), np.zeros(count, FAULT)
        self.words, self.codes = first_words(self.frames), self.faults["code"]
        self.whole_faults = front(self.faults, FAULT)
        self.place_front, self.heard_front = front(heard, POSITION), front(heard, HEARD)
        self.at = [array.ctypes.data for array in (self.times, self.frames, heard, self.faults)]

    def hear(self, tracker: squitter.Tracker, times: npt.NDArray[np.uint64], frames: npt.NDArray[np.uint8]) -> None:
        """Has the tracker hear these lines."""
        size = len(times)
        self.times[:size], self.frames[:size] = times, frames
        times_at, frames_at, heard_at, faults_at = self.at
        _lib.squitter_tracker_hear_many(
            ctypes.byref(tracker._slot), times_at, size, frames_at, size, heard_at, size, faults_at, size)


class Room:
    """Memory for the lines of a part and for their results. It has two turns: the library hears one while NumPy reads
    the other. All views are made once, because a view takes longer than the work on a hundred records."""

    __slots__ = (
        "_address", "_angles", "_degrees", "_degrees_at", "_fields", "_fields_at", "_heard_front", "_nowhere",
        "_nowhere_at", "_place_front", "_places", "_places_at", "_turns", "_whole", "count",
    )

    def __init__(self, count: int) -> None:
        self.count, self._turns = count, (_Turn(count), _Turn(count))
        out, self._places = np.zeros(count, TRACKED), np.zeros(count, POSITION)
        degrees, fields, self._nowhere = np.zeros(count, DEGREES_E7), np.zeros(count, FIELDS), np.zeros(count, FAULT)
        self._whole, self._heard_front, self._address = front(out, TRACKED), front(out, HEARD), out["address"]
        self._place_front, self._degrees = front(self._places, POSITION), degrees.view(np.uint64)
        self._angles = [(out[f"{name}_e7"], degrees[name]) for name in ("lat", "lon")]
        self._fields = [(out[name], fields[name]) for name in ("kind", "feet", "altitude_form")]
        self._places_at, self._degrees_at, self._fields_at, self._nowhere_at = (
            array.ctypes.data for array in (self._places, degrees, fields, self._nowhere))

    def hear_all(
        self, tracker: squitter.Tracker, times: npt.NDArray[np.uint64], frames: npt.NDArray[np.uint8], out: Records,
        faults: Records, is_new: bool,
    ) -> None:
        """Writes the tracker's results for lines (TRACKED) and their faults. At a fault the record of the result is
        unchanged, or 0 if the array is new."""
        count, whole_out, whole_faults = len(times), front(out, TRACKED), front(faults, FAULT)
        parts = [slice(at, at + self.count) for at in range(0, count, self.count or 1)]

        def hear(number: int) -> _Turn:
            turn, part = self._turns[number % 2], parts[number]
            turn.hear(tracker, times[part], frames[part])
            return turn

        if len(parts) == 1:
            self.write(hear(0), whole_out, whole_faults, is_new)
        elif parts:
            with closing(_one_ahead(hear, len(parts))) as hearing:
                for part, turn in zip(parts, hearing):
                    self.write(turn, whole_out[part], whole_faults[part], is_new)

    def write(
        self, turn: _Turn, out: npt.NDArray[np.void], faults: npt.NDArray[np.void], is_new: bool,
    ) -> None:
        """Writes the results of a turn and its faults, as whole records. Raises MemoryError if a fault is NO_MEMORY."""
        size = len(out)
        bad = turn.codes[:size].nonzero()[0]
        if len(bad) and (turn.codes[bad] == Code.NO_MEMORY).any():
            raise MemoryError(squitter.fault_text(Code.NO_MEMORY))
        self._fill(turn, size)
        faults[:] = turn.whole_faults[:size]
        if is_new or not len(bad):
            out[:] = self._whole[:size]
            out[bad] = np.zeros((), out.dtype)
        else:
            good = turn.codes[:size] == 0
            out[good] = self._whole[:size][good]

    def _fill(self, turn: _Turn, size: int) -> None:
        """Makes the results of the first lines of a turn. Those of other lines and of refused ones have no meaning."""
        self._place_front[:] = turn.place_front
        self._degrees.fill(0)  # without a position, both angles stay 0
        _lib.squitter_position_e7_many(self._places_at, size, self._degrees_at, size, self._nowhere_at, size)
        self._heard_front[:] = turn.heard_front
        # (the copied front overlaps the address, so the address is written after it)
        np.bitwise_and(turn.words, _ADDRESS, out=self._address)
        for into, angles in self._angles:
            into[:] = angles
        _lib.squitter_read_many(turn.at[1], size, self._fields_at, size, self._nowhere_at, size)
        for into, values in self._fields:
            into[:] = values


def _one_ahead(call: Callable[[int], _Turn], count: int) -> Generator[_Turn, None, None]:
    """Yields the results of call(0), call(1) and so on. Meanwhile the next call runs in another thread."""
    with ThreadPoolExecutor(1) as beside:
        under_way = beside.submit(call, 0)
        for number in range(count):
            answer = under_way.result()
            if number + 1 < count:
                under_way = beside.submit(call, number + 1)
            yield answer
