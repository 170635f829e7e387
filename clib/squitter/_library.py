"""libsquitter for ctypes: the library, and values as its calls take them."""

from __future__ import annotations

import array
import ctypes
import mmap
import operator
import os
import struct
import sys
from fractions import Fraction
from typing import Any, Optional, Sequence, Tuple, Type, Union

from squitter import _made
from squitter._errors import packed, shown, whole
from squitter._made import CALLS, FRAME_BYTES, FRAME_DIGITS, _Angle, _Block, _Fault

_FRAME = ctypes.c_uint8 * FRAME_BYTES


class _Position(_made._Position):
    given: Tuple[Any, ...] = ()  # the degrees that a caller gave, for the hint of a fault


# ---- the library ----

# The folder of the library, where `make install` put it: the loader may not look there by itself.
_LIBDIR = ""


_SO = {"win32": "squitter.dll", "darwin": "libsquitter.dylib"}.get(sys.platform, "libsquitter.so.0")


def _found() -> Optional[str]:
    """Returns the library that the system knows. What looks for it loads slowly, and is mostly not needed."""
    from ctypes.util import find_library

    return find_library("squitter")


def _load() -> ctypes.CDLL:
    """The library: LIBSQUITTER's, that in this package or beside it, the one installed with it, or the system's. Raises
    OSError if there is none."""
    package = os.path.dirname(os.path.abspath(__file__))
    folders = [folder for folder in (package, os.path.dirname(package), _LIBDIR) if folder]
    places = [os.path.join(folder, _SO) for folder in folders]
    installed = next((place for place in places if os.path.exists(place)), None)
    named = os.environ.get("LIBSQUITTER")
    try:
        library = ctypes.CDLL(named or installed or _found() or _SO)
    except OSError as error:
        if named:
            wanted = f"LIBSQUITTER has to be the path of {_SO}, or unset: {error}"
        elif installed:
            wanted = f"{installed} cannot be loaded; build it again with `make -C clib` in a clone: {error}"
        else:
            wanted = (f"{_SO} is neither in {' nor in '.join(folders)} nor where the system has its libraries: "
                      "build it with `make -C clib` in a clone, or set LIBSQUITTER to its path")
        raise OSError(wanted) from None
    return _declared(library)


def _declared(library: ctypes.CDLL) -> ctypes.CDLL:
    """Returns the library with the types of its calls. Raises AttributeError if it lacks one."""
    for name, (arguments, result) in CALLS.items():
        try:
            call = getattr(library, f"squitter_{name}")
        except AttributeError:
            raise AttributeError(f"{library._name} lacks squitter_{name}, so it is of another version than this "
                                 "package: build it again with `make -C clib` in a clone") from None
        call.argtypes, call.restype = arguments, result
    return library


_lib = _load()

_QUICK = ctypes.PyDLL(_lib._name, handle=_lib._handle)
# These processors return the 16 bytes of a fault in two registers: the code is the lower half of the first one.
_RETURNS_CODE = (
    hasattr(os, "uname") and os.uname().machine in ("x86_64", "amd64", "aarch64", "arm64")
    and ctypes.sizeof(ctypes.c_void_p) == 8)


def _quick(name: str) -> Any:
    """Returns a call of the library that converts no arguments, keeps the interpreter's lock, and returns only the code
    of its fault, in a third of the time of `_lib`. Its arguments are bytes and ctypes objects of the types in `CALLS`:
    a plain int would be cut to 32 bits."""
    call = _QUICK[f"squitter_{name}"]
    call.restype = ctypes.c_uint32 if _RETURNS_CODE else _Fault
    return call if _RETURNS_CODE else lambda *arguments: call(*arguments).code


_LENGTHS = {length: ctypes.c_size_t(length) for length in (FRAME_DIGITS, FRAME_DIGITS + 2)}


def _length(text: bytes) -> ctypes.c_size_t:
    """Returns the number of bytes of a text, as a call of `_quick` takes it. Those of frame texts are made once."""
    return _LENGTHS.get(len(text)) or ctypes.c_size_t(len(text))


# ---- memory ----


def _lend(size: int) -> Tuple[_Block, Optional[mmap.mmap]]:
    """Returns a block of this size, and the object that owns its memory. The system commits a page when it is first
    written. If there is no memory, the block has size 0."""
    private = {} if sys.platform == "win32" else {"flags": mmap.MAP_PRIVATE | mmap.MAP_ANONYMOUS}
    try:
        memory = mmap.mmap(-1, max(size, 1), **private)
    except (OSError, OverflowError):
        return _Block(0, None), None
    return _Block(size, ctypes.addressof(ctypes.c_char.from_buffer(memory))), memory


# ---- values ----


def _fits(value: int, bits: int) -> bool:
    """Whether a whole number fits so many bits. What is no whole number, as a float, is a TypeError."""
    return 0 <= operator.index(value) < 1 << bits


def _text(text: str) -> bytes:
    """Returns the bytes of a text. Bytes from the operating system that are not UTF-8 come back unchanged. Any other
    half of a surrogate pair becomes three bytes that no frame and no angle has."""
    try:
        return text.encode()
    except UnicodeEncodeError:
        pass
    try:
        return text.encode("utf-8", "surrogateescape")
    except UnicodeEncodeError:
        return text.encode("utf-8", "surrogatepass")


def _frames(source: Union[bytes, bytearray, memoryview]) -> Tuple[bytes, int]:
    """Returns the bytes and the number of frames. Raises ValueError unless there are 14 bytes for each."""
    view = _binary("frames", source)
    return view.tobytes(), view.nbytes // 14


_OF_TEXT = b"0123456789ABCDEFabcdef*; \r\n"


def _binary(name: str, source: Union[bytes, bytearray, memoryview]) -> memoryview:
    """Returns the bytes of frames one after the other. Raises ValueError unless there are 14 bytes for each, and for
    texts. Text bytes cannot be squitters: the first byte of a squitter is at least 128."""
    wanted = f"{name} are 14 bytes each, one after the other"
    try:
        view = memoryview(source)
    except TypeError:
        advice = "; squitter.frame makes bytes of a text" if isinstance(source, str) else ""
        if isinstance(source, (list, tuple)):
            advice = f'; join a list with b"".join(map(squitter.frame, {name}))'
        raise TypeError(f"{wanted}, not {type(source).__name__}{advice}") from None
    if view.itemsize != 1:
        raise ValueError(f"{wanted}, not items of {view.itemsize} bytes")
    if not view.c_contiguous:
        raise ValueError(f"{wanted}, not a view with gaps; bytes(view) has none")
    if view.nbytes and not view[:14].tobytes().strip(_OF_TEXT) and not view.tobytes().strip(_OF_TEXT):
        raise ValueError(f"{wanted}, not hexadecimal digits: {view[:32].tobytes().decode('ascii')!r}; "
                         "a frame text is a str")
    if view.nbytes % 14:
        archive = packed(view[:8].tobytes())
        raise ValueError(f"{wanted}, not {view.nbytes} bytes{archive and ' of ' + archive}")
    return view


def _times(moments: Sequence[int], count: int) -> array.array[int]:
    """Returns the timestamps of this many frames, as C takes them."""
    try:
        length = len(moments)
    except TypeError:
        raise TypeError(f"moments are a list or another sequence of whole numbers, not {shown(moments)}") from None
    if length != count:
        raise _of_counts(count, length)
    times = array.array("Q")
    try:
        # Before Python 3.10 an array takes the whole part of a float or a Decimal.
        is_exact = sys.version_info >= (3, 10) or set(map(type, moments)) <= {int}
        times.extend(moments if is_exact else map(_moment, moments))
    except (OverflowError, TypeError):
        # One by one, for the error of the first that is wrong, or because this is an array of another type.
        times = array.array("Q", [_moment(moment) for moment in moments])
    if len(times) != count:
        raise _of_counts(count, len(times))
    return times


def _of_counts(frames: int, moments: int) -> ValueError:
    return ValueError(f"{frames} frames and {moments} moments: there has to be a moment for each frame")


def _moment(moment: int) -> int:
    """Returns a timestamp, as C takes it."""
    return whole(moment, 64, "a moment is a whole number of milliseconds from 0")


def _layout(kind: Type[ctypes.Structure]) -> struct.Struct:
    """Returns the members of a structure, and of those in it, as the module struct unpacks them from an array."""
    codes = {ctypes.c_uint64: "Q", ctypes.c_int64: "q", ctypes.c_uint32: "I", ctypes.c_int32: "i", ctypes.c_uint16: "H",
             ctypes.c_uint8: "B"}

    def spelled(part: Any) -> str:
        return codes.get(part) or "".join(spelled(member) for _, member in part._fields_)
    members = "@" + spelled(kind)
    return struct.Struct(f"{members}{ctypes.sizeof(kind) - struct.calcsize(members)}x")


_new: Any = object.__new__


def _slotted(num: int, den: int) -> Fraction:
    """Returns the fraction of two numbers in lowest terms, as calls of the library write them."""
    made: Any = _new(Fraction)
    made._numerator, made._denominator = num, den
    return made  # type: ignore[no-any-return]


def _slotted_two(lat_num: int, lat_den: int, lon_num: int, lon_den: int) -> Tuple[Fraction, Fraction]:
    """The same for a latitude and a longitude, without two more calls."""
    lat, lon = _new(Fraction), _new(Fraction)
    lat._numerator, lat._denominator, lon._numerator, lon._denominator = lat_num, lat_den, lon_num, lon_den
    return lat, lon


def _plain(num: int, den: int) -> Fraction:
    return Fraction(num, den)


def _plain_two(lat_num: int, lat_den: int, lon_num: int, lon_den: int) -> Tuple[Fraction, Fraction]:
    return Fraction(lat_num, lat_den), Fraction(lon_num, lon_den)


# Fraction() finds the lowest terms again, and takes ten times as long.
_HAS_SLOTS = Fraction.__slots__ == ("_numerator", "_denominator")
_lowest = _slotted if _HAS_SLOTS else _plain
_lowest_two = _slotted_two if _HAS_SLOTS else _plain_two


def _read_angle(angle: _Angle) -> Fraction:
    return _lowest(angle.num, angle.den)
