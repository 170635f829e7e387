"""The records of squitter.batch: their types, and the timestamps of a log as C takes them."""
from __future__ import annotations

import operator
from datetime import datetime, timedelta, timezone
from typing import Any, List, Optional, Sequence, Tuple

import numpy as np
import numpy.typing as npt

from squitter._errors import shown, whole
from squitter._library import _of_counts
from squitter._made import RECORDS
from squitter._source import refuse_file

Records = npt.NDArray[np.void]
"""A structured array of one dimension."""

FAULT = np.dtype(RECORDS["fault"], align=True)
"""A fault: `code` is one of :class:`squitter.Code`, or 0 for a result, with the numbers of that code."""

FIELDS = np.dtype(RECORDS["fields"], align=True)
"""A squitter, field by field: ``squitter_fields`` of squitter.h. `lat` and `lon` are the CPR code of the position."""

POSITION = np.dtype(RECORDS["position"], align=True)
"""A latitude, north positive, and a longitude, east positive: lat_num / lat_den and lon_num / lon_den degrees,
exactly. Results are in lowest terms; a denominator of 0 means no position."""

DEGREES = np.dtype([("lat_e7", "i8"), ("lon_e7", "i8")], align=True)
"""A latitude and a longitude in units of 10^-7 degree, rounded half away from zero. They would fit 32 bits; the
difference of two longitudes would not."""

TRACKED = np.dtype([
    *POSITION.descr, ("what", "u1"), ("even", "u1"), ("odd", "u1"), ("kind", "u1"), ("address", "u4"), *DEGREES.descr,
    ("feet", "i4"), ("altitude_form", "u1"),
], align=True)
"""The result of a line of a log. `address` is the ICAO address, `kind` is one of :class:`squitter.Kind`, and `what` is
one of :class:`squitter.What`. The fields of POSITION and DEGREES have the position of FIX and FOLLOWED; otherwise they
are 0. So a longitude of 0 is a position only if lon_den is not 0. `even` and `odd` are the zone counts of SPLIT,
otherwise 0. `feet` is the altitude if `altitude_form`, one of :class:`squitter.AltitudeForm`, is FEET, otherwise 0."""

PRESENT = np.dtype([
    ("moment", "u8"), ("address", "u4"), ("kind", "u1"), ("altitude_form", "u1"), ("feet", "i4"), ("frame", "u1", 14),
    ("fix_moment", "u8"), *POSITION.descr, *DEGREES.descr,
], align=True)
"""An aircraft that is present: the timestamp (ms) of its newest position `frame`, whose `kind` and altitude these are,
and its newest fix or followed position with the timestamp `fix_moment`; lat_den is 0 if there was none."""


_NAMES = {FAULT: "FAULT", FIELDS: "FIELDS", POSITION: "POSITION", DEGREES: "DEGREES", TRACKED: "TRACKED",
          PRESENT: "PRESENT"}


def name_of_type(dtype: np.dtype[Any]) -> str:
    """Returns the name of a type of this module, or the words of NumPy for any other type."""
    return _NAMES.get(dtype) or shown(dtype)


def kind_of(value: Any) -> str:
    """Returns the type of an array's elements, or of any other value, for an error."""
    return f"an array of {name_of_type(value.dtype)}" if isinstance(value, np.ndarray) else type(value).__name__


def _is_missing(value: Any) -> bool:
    """Returns whether a value is missing: None, NaN, NaT, NA of pandas, or a masked one of NumPy."""
    if value is None or value is np.ma.masked:
        return True
    if isinstance(value, (float, np.floating, np.datetime64, datetime)):
        return bool(value != value)
    return type(value).__name__ == "NAType"


def without_mask(source: Any) -> Tuple[Any, npt.NDArray[np.intp]]:
    """Returns a masked array without its mask, and the indices of the rows in which a value is masked. These rows are
    zeros, or None among objects. Returns any other value as it is, and no rows."""
    if not isinstance(source, np.ma.MaskedArray) or not source.ndim or not source.size:
        return source, np.zeros(0, np.intp)
    mask = np.ascontiguousarray(np.ma.getmaskarray(source)).view(np.bool_)
    rows = np.flatnonzero(mask.reshape(len(source), -1).any(axis=1))
    values = source.data
    if len(rows):
        values = values.copy()
        values[rows] = None if values.dtype.kind == "O" else np.zeros((), values.dtype)
    return values, rows


def refuse_mask(name: str, array: Any) -> None:
    """Raises ValueError for a masked array. C would write beneath its mask, or read what is beneath it."""
    if isinstance(array, np.ma.MaskedArray):
        raise ValueError(f"{name} is a masked array; pass its data")


def whole_numbers(source: npt.ArrayLike) -> Tuple[npt.NDArray[Any], npt.NDArray[np.intp]]:
    """Returns an array without its missing values, which become 0, and their indices. A column of pandas that lacks
    values has objects, so objects that are whole numbers become whole numbers. Any other array stays as it is."""
    values, masked = without_mask(source)
    array = np.asarray(values)
    if array.dtype.kind != "O" or array.ndim != 1:
        return array, masked
    numbers = array.tolist()
    missing = [place for place, value in enumerate(numbers) if type(value) is not int and _is_missing(value)]
    for place in missing:
        numbers[place] = 0
    # NumPy would take True for 1.
    if any(type(value) is not int and not isinstance(value, np.integer) for value in numbers):
        return array, masked
    return np.array(numbers, None if numbers else np.int64), np.array(missing, np.intp)


def _limit(window: int, limit: Optional[int], lines: int) -> int:
    """Returns the limit of a tracker for this many lines, which have at most as many addresses. With a limit of None no
    line is TABLE_FULL. Raises ValueError for an invalid window or limit."""
    whole(window, 64, "a window is a whole number of milliseconds from 0")
    least, wanted = max(lines, 1), "a limit is None, or a whole number of addresses from 1"
    if limit is None:
        return least
    number = whole(limit, 32, wanted)
    if not number:
        raise ValueError(f"{wanted}, below 2**32, not {shown(limit)}")
    return min(number, least)


def _moments(source: npt.ArrayLike, count: int) -> Tuple[npt.NDArray[np.uint64], npt.NDArray[np.intp]]:
    """Returns the timestamps of this many lines, as C takes them, and the indices of missing timestamps, which become
    0."""
    wanted = "moments are a list or an array with one for each frame"
    source, masked = without_mask(source)
    if isinstance(source, (list, tuple, range)):
        # One NaN would turn an array of all timestamps into floats.
        array = np.empty(len(source), object)
        array[:] = source
    else:
        array = np.asarray(source)
    if array.ndim != 1:
        refuse_file(wanted, source)
        raise ValueError(f"{wanted}, not {shown(source)}")
    if len(array) != count:
        raise _of_counts(count, len(array))
    missing = np.zeros(0, np.intp)
    if array.dtype.kind == "M":
        missing = np.flatnonzero(np.isnat(array))
        array = _since_1970(array)
    elif array.dtype.kind == "f":
        missing = np.flatnonzero(np.isnan(array))
        array = _whole_floats(array)
    elif array.dtype.kind == "O":
        values = array.tolist()
        if set(map(type, values)) != {int}:
            values = [None if _is_missing(value) else value for value in values]
        missing = np.array([place for place, value in enumerate(values) if value is None], np.intp)
        array = _whole_objects(values)
    if array.dtype.kind not in "iu" and count:
        raise _no_moment(next((value for value in array.tolist() if not _is_moment(value)), array.dtype))
    if array.dtype.kind == "i" and (array < 0).any():
        raise _no_moment(int(array[array < 0][0]))
    missing = np.union1d(missing, masked) if len(masked) else missing
    return np.require(array.astype(np.uint64, copy=False), None, ["C", "A"]), missing


def _is_moment(value: Any) -> bool:
    """Returns whether a number is whole and exact as a float, or missing."""
    return isinstance(value, (int, float)) and (value != value or abs(value) <= 1 << 53 and value == value // 1)


def _no_moment(value: Any) -> ValueError:
    advice = "; for seconds use round(1000 * seconds)" if isinstance(value, (float, np.floating)) else ""
    return ValueError("moments are whole numbers of milliseconds from 0, below 2**64, or dates since 1970, not "
                      f"{shown(value)}{advice}")


_EPOCH = datetime(1970, 1, 1, tzinfo=timezone.utc)


# Units of dates that may not fit 64 bits in milliseconds: NumPy then wraps around.
_LONG_UNITS = ("Y", "M", "W", "D", "h", "m", "s")


def _since_1970(dates: npt.NDArray[np.datetime64]) -> npt.NDArray[np.int64]:
    """Dates of NumPy in whole milliseconds since 1970, rounded down; 0 of NaT. Raises ValueError if a date does not fit
    64 bits."""
    (unit, multiple), millis = np.datetime_data(dates.dtype), dates
    # Dates of a multiple, as M8[90000ms], may not fit its unit either.
    for step in [unit] * (multiple > 1) + ["ms"] * (unit in _LONG_UNITS):
        wider, millis = millis, millis.astype(f"M8[{step}]")
        wrapped = dates[(millis.astype(wider.dtype) != wider) & ~np.isnat(dates)]
        if len(wrapped):
            raise _no_moment(wrapped[0])
    millis = millis.astype("M8[ms]")
    return np.where(np.isnat(dates), np.int64(0), millis.astype(np.int64))


def _whole_floats(numbers: npt.NDArray[np.floating[Any]]) -> npt.NDArray[Any]:
    """Whole numbers of an array that is of floats, as pandas makes it where one is missing; 0 of NaN. Others are left
    as they are."""
    filled = np.where(np.isnan(numbers), 0, numbers)
    # (above 2**53 a float is not the number that was written)
    whole = (filled == np.floor(filled)) & (np.abs(filled) <= 1 << 53)
    return filled.astype(np.int64) if whole.all() else numbers


def _whole_objects(values: Sequence[Any]) -> npt.NDArray[Any]:
    """Whole numbers, floats that are whole, and dates; 0 of None."""
    if set(map(type, values)) == {int} and 0 <= min(values) and max(values) < 1 << 64:
        return np.array(values, np.uint64)
    told: List[int] = []
    value: Any
    for given in values:
        value = given
        if isinstance(value, datetime):
            date = value if value.tzinfo else value.replace(tzinfo=timezone.utc)
            value = (date - _EPOCH) // timedelta(milliseconds=1)
        elif isinstance(value, np.datetime64):
            value = int(_since_1970(np.array([value]))[0])
        elif isinstance(value, (float, np.floating)) and abs(float(value)) <= 1 << 53 and value == int(value):
            value = int(value)
        number = operator.index(value) if isinstance(value, (int, np.integer)) else -1 if value is not None else 0
        if not 0 <= number < 1 << 64:
            raise _no_moment(given)
        told.append(number)
    return np.array(told, np.uint64)
