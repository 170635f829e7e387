"""Orders of libsquitter in Python's memory: they sort squitters by timestamp."""

from __future__ import annotations

import array
import ctypes
import threading
from typing import Any, Iterable, Tuple, Union

from squitter import Code, _done
from squitter._errors import shown, whole
from squitter._hearing import _Lent, _bytes
from squitter._library import _frames, _lend, _lib, _of_counts, _times
from squitter._made import FRAME_BYTES, _Done, _Order

_COUNT = 1 << 12  # squitters that a call writes at once


class Order(_Lent):
    r"""Sorts squitters by timestamp that come late by at most a delay, as from several receivers.

    It holds each squitter until one has come that is `reorder` milliseconds later, and takes memory as it needs. Equal
    timestamps keep the order of arrival. The timestamps that it gives never go back: a squitter below the last one is
    late, and is dropped and counted. The results do not depend on how the squitters are cut into calls. After
    :meth:`close`, or at the end of a ``with``, each call except :meth:`close` raises the Fault NO_TRACKER. Calls from
    several threads wait for one another.

    >>> with Order(200) as order:
    ...     moments, frames = order.take([500, 400, 650], bytes(14) + bytes([1] * 14) + bytes([2] * 14))
    ...     moments.tolist(), frames[0], order.held
    ...     order.flush()[0].tolist()
    ...     order.take([649], bytes(14))[0].tolist(), order.late
    ([400], 1, 2)
    [500, 650]
    ([], 1)
    """

    __slots__ = ("__weakref__", "_room")

    def __init__(self, reorder: int) -> None:
        """Creates an order without squitters. `reorder` is the delay in milliseconds. Raises ValueError unless it is a
        whole number below 2**64, and the Fault NO_MEMORY."""
        reorder = whole(reorder, 64, "a delay is a whole number of milliseconds from 0")
        self._kind, self._lock, self._slot = "order", threading.RLock(), _Order()
        self._room = _COUNT
        block, self._memory = _lend(_lib.squitter_order_size(self._room))
        _done(_lib.squitter_order_new(ctypes.byref(self._slot), block, reorder))

    def __enter__(self) -> Order:
        self._look_open()
        return self

    def take(
        self, moments: Union[array.array[int], Iterable[int]], frames: Union[bytes, bytearray, memoryview],
    ) -> Tuple[array.array[int], bytes]:
        """Takes squitters: their timestamps (ms), and their frames, 14 bytes each, one after the other. Returns the
        timestamps of those that are due, an array of type "Q", and their frames, as :meth:`Feed.take` does.
        Raises ValueError, and takes nothing, unless there are as many timestamps as frames, and each is a whole number
        below 2**64. Raises MemoryError if there is no memory for more squitters."""
        came, data = _moments(moments), _bytes(frames, "frames are 14 bytes each, one after the other")
        if len(data) != FRAME_BYTES * len(came):
            _, count = _frames(data)
            raise _of_counts(count, len(came))
        with self._lock:
            self._look_open()
            return self._squitters(came, data)

    def flush(self) -> Tuple[array.array[int], bytes]:
        """Returns the timestamps and the frames of the squitters that are held, as :meth:`take` does, and holds none
        any more. Squitters below the last of them are late from then on: an earlier source needs a new order."""
        with self._lock:
            self._look_open()
            return self._squitters(None, b"")

    @property
    def held(self) -> int:
        """How many squitters are held."""
        return self._count(_lib.squitter_order_held)

    @property
    def late(self) -> int:
        """How many squitters were late, and were dropped."""
        return self._count(_lib.squitter_order_late)

    def _count(self, call: Any) -> int:
        """Returns a count of the library."""
        with self._lock:
            self._look_open()
            out = ctypes.c_uint64()
            _done(call(ctypes.byref(self._slot), ctypes.byref(out)))
        return out.value

    def _grow(self) -> None:
        """Moves the order to memory with room for twice as many squitters."""
        self._room *= 2
        block, memory = _lend(_lib.squitter_order_size(self._room))
        # A signal handler may let the order grow too, so all memory is kept; that before takes at most as much again.
        self._memory = (self._memory, memory)
        _done(_lib.squitter_order_grow(ctypes.byref(self._slot), block))

    def _squitters(self, came: Any, data: bytes) -> Tuple[array.array[int], bytes]:
        """Calls the library until it leaves room, and returns the timestamps and frames of the squitters. The order
        grows when it is full."""
        # Each call has arrays of its own, because a signal handler may use the order between two calls.
        moments, frames = (ctypes.c_uint64 * _COUNT)(), ctypes.create_string_buffer(FRAME_BYTES * _COUNT)
        arrays = ctypes.addressof(moments), _COUNT, ctypes.addressof(frames), _COUNT
        done, at, times, told = _Done(0, _COUNT), 0, array.array("Q"), []
        given = ctypes.cast(data, ctypes.c_void_p).value or 0
        is_full = False
        while is_full or done.written == _COUNT:
            if came is None:
                fault = _lib.squitter_order_flush(ctypes.byref(self._slot), *arrays, ctypes.byref(done))
            else:
                rest = len(came) - at
                fault = _lib.squitter_order_take(
                    ctypes.byref(self._slot), ctypes.addressof(came) + 8 * at, rest, given + FRAME_BYTES * at, rest,
                    *arrays, ctypes.byref(done),
                )
            is_full = fault.code == Code.NO_MEMORY
            if is_full:
                self._grow()
            else:
                _done(fault)
            times.frombytes(ctypes.string_at(moments, 8 * done.written))
            told.append(ctypes.string_at(frames, FRAME_BYTES * done.written))
            at += done.taken
        return times, b"".join(told)


def _moments(moments: Union[array.array[int], Iterable[int]]) -> Any:
    """Returns timestamps as an array for C."""
    try:
        every = list(moments)
    except TypeError:
        raise TypeError(f"moments are a list or another iterable of whole numbers, not {shown(moments)}") from None
    return (ctypes.c_uint64 * len(every))(*_times(every, len(every)))
