"""The results of squitter.batch as lines, rows and data frames, as `squitter track` prints them."""
from __future__ import annotations

import operator
import os
from fractions import Fraction
from typing import TYPE_CHECKING, Any, Dict, Iterator, List, Mapping, Optional, Sequence, Tuple, Union

import numpy as np
import numpy.typing as npt

import squitter
from squitter import WINDOW, AltitudeForm, Kind, Point, Position, What
from squitter._errors import missing
from squitter._made import COLUMNS, KINDS, WHATS, _Answer
from squitter._records import FAULT, POSITION, TRACKED, Records, _limit, _moments, kind_of, name_of_type, refuse_mask
from squitter._source import WATCHED, Source, bytes_of, refuse_none, squitters_of, unpacked, warn_of_unit

if TYPE_CHECKING:
    import pandas  # type: ignore[import]

# ---- texts ----

_WORDS, _KINDS = np.array(["", *WHATS.values()], "S"), np.array([*KINDS.values()], "S")


def lines(heard: Records, faults: Records, first: int = 1) -> bytes:
    """Returns the lines that `squitter track` prints for these results; `first` is the number of the first line. Empty
    lines have no result, so arrays do not contain them. Raises ValueError if a line has neither result nor fault."""
    numbers = _numbers(heard, faults, first)
    return b"".join(_lines(heard[some], faults[some], numbers[some]) for some in _blocks(len(heard)))


def csv_rows(moments: npt.ArrayLike, heard: Records, faults: Records, first: int = 1) -> bytes:
    """Returns the rows that `squitter track --format=csv` prints, byte for byte (COLUMNS). The row of a refused line
    has only its number and the fault."""
    numbers = _numbers(heard, faults, first)
    times, _ = _moments(moments, len(heard))
    blocks = _blocks(len(heard))
    return b"".join(_csv_rows(times[some], heard[some], faults[some], numbers[some]) for some in blocks)


def _numbers(heard: Records, faults: Records, first: int) -> npt.NDArray[np.uint64]:
    """Returns the line numbers from `first` on. Raises ValueError if `first` is invalid, or if the arrays are not
    results of `track`."""
    _look(heard, faults)
    try:
        start = operator.index(first)
    except TypeError:
        raise ValueError(f"the first number is a whole number, not {first!r}") from None
    if not 0 <= start <= (1 << 64) - max(len(heard), 1):
        raise ValueError(f"the first number is {first}, but line numbers are from 0 and below 2**64")
    return np.arange(len(heard), dtype=np.uint64) + np.uint64(start)


def _look(heard: Records, faults: Records) -> None:
    """Raises ValueError if the arrays are not results of `track`."""
    for name, array, dtype in (("heard", heard, TRACKED), ("faults", faults, FAULT)):
        refuse_mask(name, array)
        if not isinstance(array, np.ndarray) or array.dtype != dtype or array.ndim != 1:
            raise ValueError(f"{name} is an array of another type than batch.{name_of_type(dtype)}, or of more "
                             f"dimensions: {kind_of(array)}; track returns heard and faults")
    if len(heard) != len(faults):
        raise ValueError(f"heard are {len(heard)}, and faults {len(faults)}")


_MOST = {"what": len(What), "kind": len(Kind) - 1, "address": 0xFFFFFF}  # What counts from 1, and all others from 0


def _look_inside(heard: Records, faults: Records, numbers: npt.NDArray[np.uint64]) -> None:
    """Raises ValueError if a line with neither a fault nor a valid result is among these, such as an array of zeros."""
    good = faults["code"] == 0
    for name, most in _MOST.items():
        least, values = int(name == "what"), heard[name]
        wrong = np.flatnonzero(good & ((values < least) | (values > most)))
        if len(wrong):
            raise ValueError(f"line {numbers[wrong[0]]} has no fault, so its {name} is from {least} to {most}, not "
                             f"{values[wrong[0]]}; track returns heard and faults")


def _blocks(count: int) -> Iterator[slice]:
    """Yields slices of `count` lines, so that the characters of few lines are in memory at once."""
    return (slice(at, at + (1 << 15)) for at in range(0, count, 1 << 15))


Characters = npt.NDArray[np.uint8]
"""A row of characters for each line; a 0 is no character."""


def _lines(heard: Records, faults: Records, numbers: npt.NDArray[np.uint64]) -> bytes:
    _look_inside(heard, faults, numbers)
    good, words = _words(heard, faults)
    placed, split = good & (heard["what"] <= What.FOLLOWED), good & (heard["what"] == What.SPLIT)
    space = _mark(" ")
    return _joined(len(heard), [
        _decimal(numbers), space, words, _if(good, space, _hexadecimal(heard["address"])),
        _if(placed, space, _degrees(heard["lat_e7"]), space, _degrees(heard["lon_e7"])),
        _if(split, space, _decimal(heard["even"]), space, _decimal(heard["odd"])), _mark("\n"),
    ])


def _csv_rows(
    times: npt.NDArray[np.uint64], heard: Records, faults: Records, numbers: npt.NDArray[np.uint64]
) -> bytes:
    _look_inside(heard, faults, numbers)
    good, words = _words(heard, faults)
    placed, high = good & (heard["what"] <= What.FOLLOWED), good & (heard["altitude_form"] == AltitudeForm.FEET)
    comma = _mark(",")
    feet, kinds = heard["feet"], _KINDS[np.where(good, heard["kind"], 0)]
    below = np.where(feet < 0, np.uint8(ord("-")), np.uint8(0))[:, np.newaxis]
    return _joined(len(heard), [
        _decimal(numbers), comma, _if(good, _decimal(times)), comma, words, comma,
        _if(good, _hexadecimal(heard["address"])), comma, _if(good, _characters(kinds)), comma,
        _if(placed, _degrees(heard["lat_e7"])), comma, _if(placed, _degrees(heard["lon_e7"])), comma,
        _if(high, below, _decimal(np.abs(feet))), _mark("\n"),
    ])


def _words(heard: Records, faults: Records) -> Tuple[npt.NDArray[np.bool_], Characters]:
    """Returns which lines are good, and a word for each: one of the seven results, or the text of the fault."""
    good = faults["code"] == 0
    words = _WORDS[np.where(good, heard["what"], 0)]
    bad = np.flatnonzero(~good)
    if len(bad):
        told = faults[bad].tolist()
        texts = np.array([squitter.fault_text(code, first, second) for code, second, first in told], "S")
        words = words.astype(np.promote_types(words.dtype, texts.dtype))
        words[bad] = texts
    return good, _characters(words)


def _characters(words: npt.NDArray[np.bytes_]) -> Characters:
    return words.view(np.uint8).reshape(len(words), words.itemsize)


def _joined(count: int, columns: Sequence[Characters]) -> bytes:
    """Joins the characters of all columns, line by line."""
    rows = np.hstack([np.broadcast_to(column, (count, column.shape[1])) for column in columns])
    return bytes(rows[rows != 0])


def _mark(character: str) -> Characters:
    """Returns a column with this character in each line."""
    return np.array([[ord(character)]], np.uint8)


def _if(these: npt.NDArray[np.bool_], *columns: Characters) -> Characters:
    """Joins columns that only these lines have."""
    rows = np.hstack([np.broadcast_to(column, (len(these), column.shape[1])) for column in columns])
    return np.where(these[:, np.newaxis], rows, np.uint8(0))


def _decimal(values: npt.NDArray[Any], least: int = 1) -> Characters:
    """Writes whole numbers in decimal, with at least `least` digits."""
    most = int(values.max(initial=0))
    width = max(least, len(str(most)))
    digits = np.empty((width, len(values)), np.uint8)
    rest = values.astype(np.uint32 if most < 1 << 32 else np.uint64)
    for place in range(width - 1, -1, -1):
        above = rest // rest.dtype.type(10)
        digits[place] = rest - above * rest.dtype.type(10) + ord("0")
        if place < width - least:
            digits[place] *= rest != 0
        rest = above
    return digits.T


def _hexadecimal(addresses: npt.NDArray[np.uint32]) -> Characters:
    """Writes addresses in six hexadecimal digits."""
    digits = np.stack([addresses >> np.uint32(shift) & np.uint32(15) for shift in range(20, -1, -4)], axis=1)
    return np.where(digits < 10, digits + ord("0"), digits + ord("A") - 10).astype(np.uint8)


def _degrees(angles: npt.NDArray[np.int64]) -> Characters:
    """Writes angles in degrees, with seven decimals."""
    whole, part = np.divmod(np.abs(angles), 10**7)
    sign = np.where(angles < 0, np.uint8(ord("-")), np.uint8(0))[:, np.newaxis]
    point = np.broadcast_to(_mark("."), (len(angles), 1))
    return np.hstack([sign, _decimal(whole), point, _decimal(part, 7)])


# ---- columns and data frames ----


def columns(
    moments: npt.ArrayLike, heard: Records, faults: Records, first: int = 1
) -> Dict[str, np.ma.MaskedArray[Any, Any]]:
    """Returns the results as columns: COLUMNS, then `lat_e7`, `lon_e7` and `fault`, one of :class:`squitter.Code`.
    Values that a line lacks are masked."""
    numbers = _numbers(heard, faults, first)
    times, _ = _moments(moments, len(heard))
    table = _Table(len(heard))
    for at in range(0, len(heard), _AT_ONCE):
        some = slice(at, at + _AT_ONCE)
        _look_inside(heard[some], faults[some], numbers[some])
        table.add(numbers[some], times[some], heard[some], faults[some])
    return table.columns()


_WORD_TEXTS = _WORDS.astype("U").astype(object)
_KIND_TEXTS = _KINDS.astype("U").astype(object)
_AT_ONCE = 1 << 13  # results of a call: few enough to stay in the processor's cache

# The type of each column, and the condition for a value: a good line, a position, an altitude.
_OF_TABLE = dict(zip((*COLUMNS, "lat_e7", "lon_e7", "fault"), (
    ("u8", ""), ("u8", "good"), ("O", ""), ("O", "good"), ("O", "good"), ("f8", "placed"), ("f8", "placed"),
    ("i8", "high"), ("i8", "placed"), ("i8", "placed"), ("i8", ""),
)))


class _Table:
    """Columns that are written part by part, while the results are in the cache. Each page of them is written once."""

    def __init__(self, most: int) -> None:
        """Creates columns with room for `most` lines."""
        self._count = 0
        self._values = {name: np.empty(most, dtype) for name, (dtype, _) in _OF_TABLE.items()}
        self._masks = {name: np.empty(most, np.bool_) for name in ("good", "placed", "high")}
        # Index of each address's text, or 0. calloc commits pages only when they are written.
        self._places, self._texts = np.zeros(1 << 24, np.uint32), np.array([""], object)
        self.has_good = False

    def add(
        self, numbers: npt.NDArray[np.uint64], times: npt.NDArray[np.uint64],
        heard: Union[Records, Mapping[str, npt.NDArray[Any]]], faults: Records,
    ) -> None:
        """Adds the results of the lines with these numbers and timestamps."""
        part = slice(self._count, self._count + len(numbers))
        into = {name: values[part] for name, values in self._values.items()}
        self._count = part.stop
        what, codes = heard["what"].copy(), into["fault"]
        codes[:] = faults["code"]
        good = codes == 0
        self.has_good = self.has_good or bool(good.any())
        placed, high = good & (what <= What.FOLLOWED), good & (heard["altitude_form"] == AltitudeForm.FEET)
        for name, these in (("good", good), ("placed", placed), ("high", high)):
            np.logical_not(these, out=self._masks[name][part])
        into["line"][:], into["moment"][:], into["feet"][:] = numbers, times, heard["feet"]
        for name in ("lat", "lon"):
            into[f"{name}_e7"][:] = heard[f"{name}_e7"]
            np.divide(into[f"{name}_e7"], 1e7, out=into[name])
        # In an array that the caller gave to `track`, the record of a refused line may have any value.
        into["answer"][:] = _WORD_TEXTS[np.where(good, what, 0)]
        into["kind"][:] = _KIND_TEXTS[np.where(good, heard["kind"], 0)]
        self._put_addresses(np.where(good, heard["address"], 0), into["address"])
        # Each parity fault has a number of its own, so the texts of refused lines are not shared.
        bad = np.flatnonzero(self._masks["good"][part])
        texts = [squitter.fault_text(code, first, second) for code, second, first in faults[bad].tolist()]
        into["answer"][bad] = np.array(texts, object)

    def _put_addresses(self, addresses: npt.NDArray[np.uint32], into: npt.NDArray[np.object_]) -> None:
        """Writes addresses in six hexadecimal digits. Equal addresses share one text."""
        places = self._places[addresses]
        if not places.all():
            new = np.unique(addresses[places == 0])
            self._places[new] = np.arange(len(self._texts), len(self._texts) + len(new), dtype=np.uint32)
            self._texts = np.append(self._texts, np.array([f"{address:06X}" for address in new.tolist()], object))
            places = self._places[addresses]
        into[:] = self._texts[places]

    def columns(self) -> Dict[str, np.ma.MaskedArray[Any, Any]]:
        """Returns the columns of all lines that were added."""
        told: Dict[str, np.ma.MaskedArray[Any, Any]] = {}
        made: Any = np.ma.MaskedArray
        for name, (_, condition) in _OF_TABLE.items():
            # Each column gets a mask of its own, because the caller may write to it.
            mask = self._masks[condition][:self._count].copy() if condition else np.zeros(self._count, np.bool_)
            told[name] = made(self._values[name][:self._count], mask)
        return told


ANSWER = np.dtype(_Answer)
"""The result of a line of a log: ``squitter_answer`` of squitter.h."""


def dataframe(
    log: Union[Source, Any], window: int = WINDOW, site: Optional[Point] = None, limit: Optional[int] = 1000,
    exact: bool = False,
) -> pandas.DataFrame:
    """Decodes a log as `squitter track` does. Returns a pandas data frame with a row for each line that is not empty.

    Its columns are COLUMNS, then `lat_e7` and `lon_e7` in units of 10^-7 degree, and `fault`, one of
    :class:`squitter.Code`. `answer` is the word or the fault that `track` prints, and `address` six hexadecimal digits.
    Values that a line lacks are missing: NaN in `lat` and `lon`, which are floats, and NA or None in other columns.
    With `exact`, the Fractions `lat_exact` and `lon_exact` follow.

    The log is a file or a pipe, by its name or open for bytes, or bytes, or a table with the columns `moment` and
    `frame`. A file may also be a receiver's: Beast, AVR or CSV, as :func:`squitter.batch.feed` reads them; `line` then
    counts its squitters. It may be packed by gzip, bzip2 or xz. Frames without times get the timestamp 0. A warning
    says if there are several, or if timestamps do not seem to be milliseconds. Window, site and limit are those of
    :func:`squitter.batch.track`. Raises ValueError if no frame is in the file, or if an archive is damaged or ends
    early, and KeyError for a table without one of the two columns. A site may be any floats: they are rounded to 12
    decimals, a tenth of a micrometre.
    """
    try:
        import pandas
    except ModuleNotFoundError as error:
        raise missing(error, "batch.dataframe", "pandas") from None

    site = _rounded(site)
    if isinstance(log, (str, os.PathLike, bytes, bytearray, memoryview)) or hasattr(log, "read"):
        told, places, clocked = _columns_of_file(log, window, site, limit, exact)
    else:
        told, places = _columns_of_squitters(_column(log, "moment"), _column(log, "frame"), window, site, limit)
        clocked = False
    moments, addresses = (told[name][:WATCHED].compressed().tolist() for name in ("moment", "address"))
    warn_of_unit(moments, [int(address, 16) for address in addresses], clocked, 2)
    frame = pandas.DataFrame({name: _of_pandas(name, values) for name, values in told.items()}, copy=False)
    if exact:
        both = fractions(places)
        frame["lat_exact"] = pandas.Series([place and place.lat for place in both], dtype=object)
        frame["lon_exact"] = pandas.Series([place and place.lon for place in both], dtype=object)
    return frame


def _rounded(site: Optional[Point]) -> Optional[Point]:
    """Returns a site with floats of at most 12 decimals; any other value as it is."""
    try:
        lat, lon = site if site is not None else ()
    except (TypeError, ValueError):
        return site
    return tuple(round(part, 12) if isinstance(part, float) else part for part in (lat, lon))


_LINE_OF_FRAME = 30  # bytes of the shortest line with a frame


def _columns_of_file(
    log: Source, window: int, site: Optional[Point], limit: Optional[int], exact: bool
) -> Tuple[Dict[str, np.ma.MaskedArray[Any, Any]], Records, bool]:
    """Decodes a file. Returns the columns of its results, the positions, and whether a receiver's clock gave the
    timestamps. Frames without times may be a log of which the first lines lack theirs."""
    data = unpacked(bytes_of(log), log)
    squitters, clocked = squitters_of(data, log)
    if squitters is None or not squitters[0].any():
        told, places, has_good = _columns_of_log(data, window, site, limit, exact)
        if squitters is None and not has_good:
            refuse_none(data, log)
        if squitters is None or has_good:
            return told, places, False
    return (*_columns_of_squitters(*squitters, window, site, limit), clocked)


def _columns_of_squitters(
    moments: npt.ArrayLike, frames: npt.ArrayLike, window: int, site: Optional[Point], limit: Optional[int],
) -> Tuple[Dict[str, np.ma.MaskedArray[Any, Any]], Records]:
    """Decodes timestamps and frames. Returns the columns of their results, and the positions. Raises the Faults
    BAD_POSITION (the site), NO_MEMORY."""
    from squitter.batch import track

    heard, faults = track(moments, frames, window, site, limit)
    return columns(moments, heard, faults), heard


def _columns_of_log(
    data: npt.NDArray[np.uint8], window: int, site: Optional[Point], limit: Optional[int], exact: bool,
) -> Tuple[Dict[str, np.ma.MaskedArray[Any, Any]], Records, bool]:
    """Decodes a log. Returns the columns of its results, with `exact` the positions (POSITION), and whether a line is
    good. There are at most as many addresses as lines that fit a frame. Raises the Faults BAD_POSITION (the site),
    NO_MEMORY."""
    most = _limit(window, limit, len(data) // _LINE_OF_FRAME + 1)
    table, room, parts = _Table(_line_feeds(data) + 1), np.empty(_AT_ONCE, ANSWER), [np.zeros(0, POSITION)]
    with squitter.Log(window, site, most) as listener:
        for count in listener._answers(data.ctypes.data, len(data), room.ctypes.data, len(room)):
            answers = room[:count]
            table.add(answers["number"], answers["moment"], _fields(answers), answers["fault"])
            if exact:
                parts.append(answers.view(_PLACES)["place"].copy().view(POSITION))
    return table.columns(), np.concatenate(parts), table.has_good


def _column(table: Any, name: str) -> Any:
    """Returns a column of a table. Raises KeyError if the column is missing, and TypeError if there is no table."""
    wanted = "a log is a file, by its name or open for bytes, or bytes, or a table with the columns moment and frame"
    try:
        return table[name]
    except (KeyError, ValueError):
        there = ", ".join(map(str, getattr(table, "keys", list)()))
        given = f"a table with the columns {there}" if there else f"a {type(table).__name__} without columns"
        raise KeyError(f"{wanted}, not {given}") from None
    except (TypeError, IndexError):
        raise TypeError(f"{wanted}, not {type(table).__name__}") from None


def _line_feeds(data: npt.NDArray[np.uint8]) -> int:
    """Returns the number of line feeds."""
    parts = (data[at:at + (1 << 16)] for at in range(0, len(data), 1 << 16))
    return sum(int(np.count_nonzero(part == ord("\n"))) for part in parts)


# The position of a result as a block of memory: NumPy copies it whole, instead of field by field.
_PLACES = np.dtype({
    "names": ["place"], "formats": [f"V{POSITION.itemsize}"], "offsets": [_Answer.heard.offset],
    "itemsize": ANSWER.itemsize,
})


def _fields(answers: Records) -> Dict[str, npt.NDArray[Any]]:
    """Returns views of the fields that columns are made from, under their names in TRACKED."""
    degrees = answers["degrees"]
    told = {name: answers[name] for name in ("address", "kind", "feet", "altitude_form")}
    return {**told, "what": answers["heard"]["what"], "lat_e7": degrees["lat"], "lon_e7": degrees["lon"]}


def _of_pandas(name: str, column: np.ma.MaskedArray[Any, Any]) -> Any:
    """Returns a column for pandas, which takes over the column's memory. Masked values become NaN in floats, None in
    texts, and NA in whole numbers."""
    import pandas

    values, mask = column.data, np.ma.getmaskarray(column)
    if column.dtype.kind in "fO":
        values[mask] = np.nan if column.dtype.kind == "f" else None
        return values
    return pandas.arrays.IntegerArray(values, mask) if _OF_TABLE[name][1] else values


def fractions(heard: Records) -> List[Optional[Position]]:
    """Returns the position of each record of TRACKED or POSITION in exact fractions of a degree, or None. Raises
    ValueError for anything else."""
    names = heard.dtype.names if isinstance(heard, np.ndarray) and heard.ndim == 1 else None
    if not set(POSITION.names or ()) <= set(names or ()):
        raise ValueError(f"heard is an array of TRACKED or POSITION, as track returns first, not {kind_of(heard)}")
    return [
        Position(Fraction(lat_num, lat_den), Fraction(lon_num, lon_den)) if lat_den else None
        for lat_num, lat_den, lon_num, lon_den in heard[list(POSITION.names or ())].tolist()
    ]
