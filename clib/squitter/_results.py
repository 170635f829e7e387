"""The results of a call of arrays."""
from __future__ import annotations

import operator
import struct
from typing import Any, Callable, Iterator, List, Sequence, Tuple, Type, TypeVar, Union, overload

_Members = Tuple[int, ...]
_Result = TypeVar("_Result", covariant=True)


class Results(Sequence[_Result]):
    """The results of a call of arrays: for each frame what the single call returns, or its :class:`squitter.Fault`.

    They are kept as the library wrote them. Each is made when it is asked for, so two readings of one are equal and are
    not one object. Slices, copies and pickles are lists. Results are equal to a list with equal elements."""

    __slots__ = ("_layout", "_made", "_out", "_fault_layout", "_fault_made", "_faults")

    def __init__(
        self, layout: struct.Struct, made: Callable[[_Members], _Result], out: bytearray,
        fault_layout: struct.Struct, fault_made: Callable[[_Members], _Result], faults: bytearray,
    ) -> None:
        self._layout, self._made, self._out = layout, made, out
        self._fault_layout, self._fault_made, self._faults = fault_layout, fault_made, faults

    def __len__(self) -> int:
        return len(self._out) // self._layout.size

    @overload
    def __getitem__(self, index: int) -> _Result: ...

    @overload
    def __getitem__(self, index: slice) -> List[_Result]: ...

    def __getitem__(self, index: Union[int, slice]) -> Union[_Result, List[_Result]]:
        count = len(self)
        if isinstance(index, slice):
            return [self._result(place) for place in range(*index.indices(count))]
        place = operator.index(index)
        if not -count <= place < count:
            raise IndexError(f"there are {count} results, and none has the index {place}")
        return self._result(place % count)

    def __iter__(self) -> Iterator[_Result]:
        results = self._layout.iter_unpack(self._out)
        if self._faults.count(0) == len(self._faults):
            return map(self._made, results)
        return (self._fault_made(fault) if fault[0] else self._made(result)
                for fault, result in zip(self._fault_layout.iter_unpack(self._faults), results))

    def __eq__(self, other: object) -> bool:
        if not isinstance(other, (list, Results)):
            return NotImplemented
        return len(self) == len(other) and all(map(operator.eq, self, other))

    __hash__ = None  # type: ignore[assignment]

    def __repr__(self) -> str:
        return repr(list(self))

    def __reduce__(self) -> Tuple[Type[List[Any]], Tuple[List[_Result]]]:
        return list, (list(self),)

    def _result(self, place: int) -> _Result:
        fault = self._fault_layout.unpack_from(self._faults, place * self._fault_layout.size)
        if fault[0]:
            return self._fault_made(fault)
        return self._made(self._layout.unpack_from(self._out, place * self._layout.size))
