"""ADS-B position squitters (DF17), read, decoded and written exactly: libsquitter for Python.

Angles are ``fractions.Fraction`` in degrees, so nothing is rounded. Whole numbers, ``decimal.Decimal``, texts such as
``"52.25"`` and floats are taken too. A float counts as its shortest text, which is how it was written: 52.31 is
5231/100, and 1e-07 is 1/10**7. Fractions and texts stay exact. An angle has a denominator of at most 10**12, so a
computed float may need ``round(degrees, 12)``. A frame is 14 bytes, or its text of 28 hexadecimal digits, bare or
between ``*`` and ``;``. A call without a result raises a :class:`Fault` with the library's text, and with what was
given and what is wanted. A value that does not fit its field in C raises the fault of that field.

>>> import squitter
>>> squitter.read("8D40621D58C382D690C8AC2863A7").feet
38000
>>> squitter.local("8D40621D58C382D690C8AC2863A7", squitter.Position(52, 4))
Position(lat=Fraction(428091, 8192), lon=Fraction(64215, 16384))
"""

from __future__ import annotations

import ctypes
import functools
import operator
import struct
from array import array
from decimal import Decimal
from fractions import Fraction
from numbers import Rational
from typing import (
    TYPE_CHECKING, Any, Callable, Iterable, List, NamedTuple, Optional, Sequence, Tuple, TypeVar, Union,
)

from squitter._errors import (
    hint_of_altitude, hint_of_code, hint_of_field, hint_of_head, hint_of_text, index, shown, whole,
)
from squitter._library import (
    _FRAME, _Position, _fits, _frames, _layout, _length, _lib, _lowest_two, _quick, _read_angle, _text,
)
from squitter._made import (
    ANGLE_TEXT_BYTES, FAULTS, FAULT_TEXT_BYTES, FRAME_BYTES, FRAME_DIGITS, AltitudeForm, Code, FeedFormat, Format, Kind,
    Stranger, Unit, What, _AirHead, _Altitude, _Angle, _DegreesE7, _Fault, _Fields, _GroundHead, _Heard, _Zones,
)
from squitter._results import Results

if TYPE_CHECKING:
    from squitter._heads import AirHead, GroundHead

__all__ = [
    "AirHead", "Altitude", "AltitudeForm", "Code", "Contact", "Counts", "Doubt", "Fault", "Feed", "FeedFormat",
    "Fields", "Format", "Frame", "GroundHead", "Heard", "Kind", "LastFix", "Log", "Order", "Position", "Present",
    "Received", "Results", "Side", "Stranger", "Tally", "Tracker", "Unit", "WINDOW", "Watch", "What", "Zones", "angle",
    "angle_e7", "angle_text", "encode", "fault_text", "feet_of_field", "field_of_feet", "frame", "frame_text", "local",
    "local_many", "local_zones", "pair", "pair_many", "position_e7", "read", "read_many", "send_again", "unit_of",
    "version", "zone_count",
]


def __dir__() -> List[str]:
    """Returns the public names, which a prompt completes."""
    return sorted({*__all__, *(name for name in globals() if name.startswith("__") or name == "batch")})


def __getattr__(name: str) -> Any:
    """Loads the heads when one is first used."""
    if name not in ("AirHead", "GroundHead"):
        raise AttributeError(f"module {__name__!r} has no attribute {name!r}")
    from squitter import _heads

    return getattr(_heads, name)


Frame = Union[bytes, bytearray, str]
"""A frame: 14 bytes, or a frame text."""

Frames = Union[bytes, bytearray, memoryview]
"""Frames one after the other, 14 bytes each."""

Degrees = Union[int, Rational, Decimal, str, float]
"""A number of degrees: an int, a Fraction, a Decimal, a text or a float. The float 52.31 counts as the text "52.31".
The denominator is at most 10**12, so decimals and floats have at most 12 decimals."""

Point = Tuple[Degrees, Degrees]
"""A latitude and a longitude: a :class:`Position`, or any pair, such as (52.25, 3.92), which is ("52.25", "3.92")."""

WINDOW = 10_000
"""The default window of trackers, contacts and logs, in milliseconds: 10 seconds, as that of ``squitter track``."""


class Fault(ValueError):
    """The first error of a call. Its ``str`` is the library's text, followed by a hint that says what to do. Faults
    with the same code and numbers are equal."""

    def __init__(self, code: int, first: int = 0, second: int = 0, hint: str = "") -> None:
        self.code = Code(code)
        self.first = first
        self.second = second
        self.hint = hint or hint_of_code(code)
        text = _words(code, first, second)
        super().__init__(f"{text}: {self.hint}" if self.hint else text)

    def __eq__(self, other: object) -> bool:
        """Returns whether the other is a fault with the same code and numbers, whatever their hints."""
        if not isinstance(other, Fault):
            return NotImplemented
        return (self.code, self.first, self.second) == (other.code, other.first, other.second)

    def __hash__(self) -> int:
        return hash((self.code, self.first, self.second))

    def __reduce__(self) -> Tuple[type, Tuple[int, int, int, str]]:
        """Returns the class and the arguments that copies and pickles of the fault are made from."""
        return type(self), (int(self.code), self.first, self.second, self.hint)


class Position(NamedTuple):
    """A latitude, north positive, from -90 to 90 degrees, and a longitude, east positive, from -180 to 180."""

    lat: Degrees
    lon: Degrees


class Fields(NamedTuple):
    """A squitter, field by field. A field that its kind lacks is 0, or None where 0 is a value: ``lat`` and ``lon``
    (the CPR code) of kind other, and ``feet`` unless ``altitude_form`` is FEET. ``squitter.h`` gives the ranges."""

    kind: Kind
    address: int
    ca: int
    type_code: int
    odd: int
    lat: Optional[int]
    lon: Optional[int]
    time: int
    status: int
    flag: int
    altitude: int
    altitude_form: AltitudeForm
    feet: Optional[int]
    movement: int
    track_status: int
    track: int
    raw: int

    @property
    def lat_code(self) -> Optional[int]:
        """The CPR code of the latitude, 17 bits: the field `lat`, which is not in degrees."""
        return self.lat

    @property
    def lon_code(self) -> Optional[int]:
        """The CPR code of the longitude, 17 bits: the field `lon`, which is not in degrees."""
        return self.lon


class Zones(NamedTuple):
    """The zones that a position lies in. ``lat`` and ``lon`` are the CPR code of its frame. Its latitude is
    ``degrees / lat_zones * (lat_zone + lat / 2**17)``. Its longitude is
    ``degrees / lon_zones * (lon_zone + lon / 2**17)``, minus 360 degrees if that is 180 or more. ``zone_count`` is the
    NL of its latitude."""

    lat_zone: int
    lon_zone: int
    degrees: int
    lat_zones: int
    zone_count: int
    lon_zones: int
    odd: int


class Altitude(NamedTuple):
    """The meaning of an altitude field; ``feet`` is None in the other forms."""

    form: AltitudeForm
    feet: Optional[int]


class Heard(NamedTuple):
    """The result for a frame: one of the seven kinds, the position if there is one, and the zone counts of a split."""

    what: What
    position: Optional[Position]
    even: int
    odd: int


# ---- from C and to C ----


_FINEST = 10**12  # the largest denominator of an angle
_MOST = {"latitude": 90, "longitude": 180, "angle": 360}  # degrees, on both sides

# The angles that a fault of this code is about.
_ABOUT = {Code.BAD_POSITION: ("latitude", "longitude"), Code.BAD_LATITUDE: ("latitude",), Code.BAD_ANGLE: ("angle",)}


def _done(fault: _Fault, *given: Degrees) -> None:
    """Raises the fault, unless its code is OK. `given` are the degrees that the call got, for the hint."""
    if fault.code:
        raise Fault(fault.code, fault.first, fault.second, _hint(fault.code, given))


def _read_text_done(fault: _Fault, text: str) -> None:
    """Raises the fault of a text, unless its code is OK."""
    if fault.code:
        raise Fault(fault.code, fault.first, fault.second, hint_of_text(fault.code, text))


def _hint(code: int, given: Sequence[Degrees]) -> str:
    """Returns what is wanted in place of the first invalid angle, or an empty text if the fault is about another
    value."""
    about = zip(_ABOUT.get(Code(code), ()), given)
    return next((_wanted(name, degrees) for name, degrees in about if not _is_valid(name, degrees)), "")


def _wanted(name: str, degrees: Degrees) -> str:
    most, article = _MOST[name], "an" if name == "angle" else "a"
    finest = "a denominator of at most 10**12" if isinstance(degrees, Rational) else "at most 12 decimals"
    return f"{article} {name} is from -{most} to {most} degrees with {finest}, not {shown(degrees)}"


def _is_valid(name: str, degrees: Degrees) -> bool:
    exact = _exact(degrees)
    return exact is not None and abs(exact) <= _MOST[name] and exact.denominator <= _FINEST


def _exact(degrees: Degrees) -> Optional[Rational]:
    """Returns degrees as a fraction, or None if they are not finite, or far too large or too small for C. Raises the
    Faults of a text that is no angle."""
    if isinstance(degrees, str):
        return angle(degrees)
    if isinstance(degrees, float):
        # A subclass of float may have its own repr, as NumPy's has.
        degrees = Decimal(float.__repr__(degrees))
    if isinstance(degrees, Decimal):
        if not degrees.is_finite() or degrees.adjusted() > 20 or int(degrees.as_tuple().exponent) < -400:
            return None
        return Fraction(degrees)
    if not isinstance(degrees, Rational):
        raise TypeError("degrees are an int, a Fraction, a Decimal, a float or a text, not "
                        f"{type(degrees).__name__}")
    return degrees


def _angle(degrees: Degrees, name: str, code: Code) -> _Angle:
    """Returns degrees as C takes them. Raises a Fault with this code if numerator or denominator do not fit."""
    exact = _exact(degrees)
    if exact is not None:
        num, den = int(exact.numerator), int(exact.denominator)
        if -1 << 63 <= num < 1 << 63 and _fits(den, 64):
            return _Angle(num, den)
    raise Fault(code, hint=_wanted(name, degrees))


# Two items of these are no latitude and longitude: they are characters, bytes, keys, or values in no order.
_NO_PAIRS = (str, bytes, bytearray, dict, set, frozenset)


def _position(position: Point) -> _Position:
    try:
        lat, lon = () if isinstance(position, _NO_PAIRS) else position
    except (TypeError, ValueError):
        raise TypeError(f"a position is a Position, or a latitude and a longitude, not {shown(position)}") from None
    here = _Position(_angle(lat, "latitude", Code.BAD_POSITION), _angle(lon, "longitude", Code.BAD_POSITION))
    here.given = lat, lon
    return here


def _look(here: Optional[_Position]) -> None:
    """Raises the Fault BAD_POSITION for an invalid position, whatever the frame."""
    if here is not None:
        fault = _lib.squitter_local(bytes(14), ctypes.byref(here), ctypes.byref(_Position()))
        if fault.code == Code.BAD_POSITION:
            _done(fault, *here.given)


def _frame_near(source: Frame, here: Optional[_Position]) -> bytes:
    """Returns the bytes of a frame. If its text is invalid, a fault of the position comes first, as in the library's
    calls."""
    try:
        return frame(source)
    except Fault:
        _look(here)
        raise


def _two_frames(older: Frame, newer: Frame, here: Optional[_Position]) -> Tuple[bytes, bytes]:
    """Returns the bytes of two frames. Faults of the older one come before faults of the newer one's text."""
    first = _frame_near(older, here)
    try:
        return first, frame(newer)
    except Fault:
        _look(here)
        read(first)
        raise


def _read_position(position: _Position) -> Position:
    return Position(_read_angle(position.lat), _read_angle(position.lon))


# Members by their values: an enum looks them up in three times the time.
_KINDS, _FORMS, _WHATS = ({int(member): member for member in kind} for kind in (Kind, AltitudeForm, What))
# All members of a structure are read at once, because each attribute takes a call.
_FIELDS, _HEARD, _PLACE, _FAULT = map(_layout, (_Fields, _Heard, _Position, _Fault))
_unpacked_fields, _unpacked_heard = _FIELDS.unpack_from, _HEARD.unpack_from
_LAST_PLACED = int(What.FOLLOWED)  # FIX and FOLLOWED have positions
_OTHER, _FEET = int(Kind.OTHER), int(AltitudeForm.FEET)
_Members = Tuple[int, ...]

# A named tuple is made of a tuple, because its own constructor takes four times as long.
_tuple: Any = tuple.__new__


def _fields_of(members: _Members) -> Fields:
    (raw, address, lat, lon, feet, altitude, form, kind, ca, type_code, odd, time, status, flag, movement, track_status,
     track) = members
    code = (lat, lon) if kind != _OTHER else (None, None)
    made: Fields = _tuple(Fields, (
        _KINDS[kind], address, ca, type_code, odd, *code, time, status, flag, altitude, _FORMS[form],
        feet if form == _FEET else None, movement, track_status, track, raw))
    return made


def _position_of(members: _Members) -> Position:
    made: Position = _tuple(Position, _lowest_two(*members))
    return made


def _heard_of(members: _Members) -> Heard:
    lat_num, lat_den, lon_num, lon_den, number, even, odd = members
    place = None
    if number <= _LAST_PLACED:
        place = _tuple(Position, _lowest_two(lat_num, lat_den, lon_num, lon_den))
    made: Heard = _tuple(Heard, (_WHATS[number], place, even, odd))
    return made


def _fault_of(members: _Members) -> Fault:
    code, second, first = members
    return Fault(code, first, second)


_Result = TypeVar("_Result")


def _many(
    name: str, layout: struct.Struct, made: Callable[[_Members], _Result], count: int, *before: object
) -> Results[Union[_Result, Fault]]:
    """Makes a call of arrays. Returns for each element the result that `made` makes of its members, or the fault."""
    out, faults = bytearray(layout.size * count), bytearray(_FAULT.size * count)
    if count:
        out_at, faults_at = (ctypes.addressof(ctypes.c_char.from_buffer(room)) for room in (out, faults))
        getattr(_lib, f"squitter_{name}")(*before, out_at, count, faults_at, count)
    return Results(layout, made, out, _FAULT, _fault_of, faults)


_frame_of_text, _read_text, _read_frame = map(_quick, ("frame_of_text", "read_text", "read_frame"))
_Room = Tuple[Any, Any]
_FRAME_ROOMS: List[_Room] = []
_FIELDS_ROOMS: List[_Room] = []


def _room(out: Any) -> _Room:
    """Returns a room for the result of a call, and its address. A call takes a room out of a list, or makes one, so it
    has the room for itself, whatever threads and signal handlers call meanwhile."""
    return out, ctypes.byref(out)


# ---- texts and frames ----


def frame(source: Frame) -> bytes:
    """Returns the 14 bytes of a frame, or of a frame text. Raises ValueError for another number of bytes, or for wider
    items."""
    if type(source) is bytes and len(source) == 14:
        return source
    if isinstance(source, str):
        text = _text(source)
        try:
            room = _FRAME_ROOMS.pop()
        except IndexError:
            room = _room(ctypes.create_string_buffer(14))
        code = _frame_of_text(text, _length(text), room[1])
        found: bytes = room[0].raw
        _FRAME_ROOMS.append(room)
        if code:
            _read_text_done(_lib.squitter_frame_of_text(text, len(text), ctypes.byref(_FRAME())), source)
        return found
    wanted = "a frame is 14 bytes or a text of 28 hexadecimal digits"
    try:
        view = memoryview(source)
    except TypeError:
        raise TypeError(f"{wanted}, not {shown(source)}") from None
    if view.itemsize != 1:
        raise ValueError(f"{wanted}, not {view.nbytes} bytes in items of {view.itemsize}")
    if view.nbytes != FRAME_BYTES:
        advice = "; a frame text is a str" if view.nbytes in (FRAME_DIGITS, FRAME_DIGITS + 2) else ""
        raise ValueError(f"{wanted}, not {view.nbytes} bytes{advice}")
    return view.tobytes()


def frame_text(source: Frame) -> str:
    """Returns the frame as 28 upper-case hexadecimal digits."""
    out = ctypes.create_string_buffer(FRAME_DIGITS)
    _lib.squitter_text_of_frame(frame(source), out)
    return out.raw.decode("ascii")


def read(source: Frame) -> Fields:
    """Returns the fields of the squitter in a frame or a frame text."""
    text = None
    if type(source) is not bytes or len(source) != FRAME_BYTES:
        if isinstance(source, str):
            text = _text(source)
        else:
            source = frame(source)
    try:
        room = _FIELDS_ROOMS.pop()
    except IndexError:
        room = _room(_Fields())
    out, at = room
    code = _read_frame(source, at) if text is None else _read_text(text, _length(text), at)
    members = _unpacked_fields(out)
    _FIELDS_ROOMS.append(room)
    if code and text is None:
        _done(_lib.squitter_read_frame(source, ctypes.byref(_Fields())))
    elif code and text is not None:
        _read_text_done(_lib.squitter_read_text(text, len(text), ctypes.byref(_Fields())), str(source))
    return _fields_of(members)


# ---- places ----


def local(source: Frame, reference: Point) -> Position:
    """Returns the exact position of a frame near a reference."""
    here, out = _position(reference), _Position()
    _done(_lib.squitter_local(_frame_near(source, here), ctypes.byref(here), ctypes.byref(out)),
          *here.given)
    return _read_position(out)


def local_zones(source: Frame, reference: Point) -> Zones:
    """Returns the zones that the position of a frame near a reference lies in."""
    here, out = _position(reference), _Zones()
    _done(_lib.squitter_local_zones(_frame_near(source, here), ctypes.byref(here), ctypes.byref(out)), *here.given)
    return Zones(*(getattr(out, name) for name in Zones._fields))


def pair(older: Frame, newer: Frame, site: Optional[Point] = None) -> Position:
    """Returns the exact position of the newer of an even and an odd frame of one address. Surface pairs need a site."""
    here, out = None if site is None else _position(site), _Position()
    first, second = _two_frames(older, newer, here)
    if here is None:
        _done(_lib.squitter_pair(first, second, ctypes.byref(out)))
    else:
        _done(_lib.squitter_pair_at(first, second, ctypes.byref(here), ctypes.byref(out)), *here.given)
    return _read_position(out)


# ---- arrays ----


def read_many(frames: Frames) -> Results[Union[Fields, Fault]]:
    """Returns the fields or the fault of each frame; it raises no Fault."""
    source, count = _frames(frames)
    return _many("read_many", _FIELDS, _fields_of, count, source, count)


def local_many(frames: Frames, references: Sequence[Point]) -> Results[Union[Position, Fault]]:
    """Returns the position of each frame near its reference, or its fault. Raises ValueError unless there is one
    reference for each frame."""
    source, count = _frames(frames)
    wanted = "there has to be a list with a position for each frame"
    try:
        length = len(references)
    except TypeError:
        raise TypeError(f"{wanted}, not {shown(references)}") from None
    if length != count:
        raise ValueError(f"{count} frames and {length} references: {wanted}")
    here = (_Position * count)(*map(_position, references))
    return _many("local_many", _PLACE, _position_of, count, source, count, ctypes.addressof(here), count)


def pair_many(older: Frames, newer: Frames, site: Optional[Point] = None) -> Results[Union[Position, Fault]]:
    """Returns the position of each pair of frames, or its fault; surface pairs need the site. Raises ValueError unless
    there is one newer frame for each older one."""
    (first, count), (second, other) = _frames(older), _frames(newer)
    if count != other:
        raise ValueError(f"{count} older frames and {other} newer ones: there has to be a newer one for each")
    arrays = first, count, second, count
    if site is None:
        return _many("pair_many", _PLACE, _position_of, count, *arrays)
    return _many("pair_at_many", _PLACE, _position_of, count, *arrays, ctypes.byref(_position(site)))


# ---- sending ----


def encode(head: Union[AirHead, GroundHead], position: Point) -> bytes:
    """Returns the frame for a position, with this head."""
    from squitter._heads import AirHead

    is_air = isinstance(head, AirHead)
    plain, out = _plain_head(head, is_air), _FRAME()
    call = _lib.squitter_encode_air if is_air else _lib.squitter_encode_ground
    try:
        here = _position(position)
    except Fault:
        # Faults of the head come first, as in the library's call.
        nowhere = _position(Position(0, 0))
        _head_done(call(ctypes.byref(plain), ctypes.byref(nowhere), ctypes.byref(out)), head, is_air)
        raise
    fault = call(ctypes.byref(plain), ctypes.byref(here), ctypes.byref(out))
    _head_done(fault, head, is_air)
    _done(fault, *here.given)
    return bytes(out)


def _plain_head(head: Union[AirHead, GroundHead], is_air: bool) -> Union[_AirHead, _GroundHead]:
    """Returns a head as C takes it. Raises TypeError for anything else, and the Fault BAD_FIELDS if a field does not
    fit."""
    plain: Union[_AirHead, _GroundHead] = _AirHead() if is_air else _GroundHead()
    for field in plain._fields_:
        name = field[0]
        try:
            value = getattr(head, name)
        except AttributeError:
            raise TypeError(f"a head is an AirHead or a GroundHead, not {shown(head)}") from None
        number = index(value, f"{name} is a whole number")
        if not _fits(number, 8 * ctypes.sizeof(field[1])):
            raise Fault(Code.BAD_FIELDS, hint=hint_of_field(is_air, name, number))
        setattr(plain, name, number)
    return plain


def _head_done(fault: _Fault, head: Union[AirHead, GroundHead], is_air: bool) -> None:
    """Raises the Fault BAD_FIELDS, with the first invalid field of the head, if that is the fault."""
    if fault.code == Code.BAD_FIELDS:
        from squitter._heads import AirHead, GroundHead

        other = "" if isinstance(head, (AirHead, GroundHead)) else "; a head is an AirHead or a GroundHead"
        raise Fault(Code.BAD_FIELDS, hint=hint_of_head(is_air, head) + other)


def send_again(source: Frame, odd: int, position: Point) -> bytes:
    """Returns the frame with this parity (0 even, 1 odd) and the code of this position. Its other fields stay."""
    try:
        parity = operator.index(odd)
    except TypeError:
        parity = -1
    if parity not in (0, 1):
        raise Fault(Code.BAD_PARITY, hint=f"{hint_of_code(Code.BAD_PARITY)}, not {shown(odd)}")
    here, out = _position(position), _FRAME()
    again = _lib.squitter_send_again(_frame_near(source, here), parity, ctypes.byref(here), ctypes.byref(out))
    _done(again, *here.given)
    return bytes(out)


# ---- parts ----


def zone_count(lat: Degrees) -> int:
    """Returns the number of longitude zones at a latitude (NL), from 1 to 59."""
    plain, out = _angle(lat, "latitude", Code.BAD_LATITUDE), ctypes.c_uint8()
    _done(_lib.squitter_zone_count(ctypes.byref(plain), ctypes.byref(out)), lat)
    return out.value


def angle_text(degrees: Degrees) -> str:
    """Returns an angle with seven decimals, rounded half away from zero."""
    plain, out = _angle(degrees, "angle", Code.BAD_ANGLE), ctypes.create_string_buffer(ANGLE_TEXT_BYTES)
    _done(_lib.squitter_text_of_angle(ctypes.byref(plain), out), degrees)
    return out.value.decode("ascii")


def angle_e7(degrees: Degrees) -> int:
    """Returns the angle in units of 10^-7 degree, rounded half away from zero."""
    plain, out = _angle(degrees, "angle", Code.BAD_ANGLE), ctypes.c_int64()
    _done(_lib.squitter_angle_e7(ctypes.byref(plain), ctypes.byref(out)), degrees)
    return out.value


def position_e7(position: Point) -> Tuple[int, int]:
    """Returns latitude and longitude in units of 10^-7 degree, rounded half away from zero."""
    here, out = _position(position), _DegreesE7()
    _done(_lib.squitter_position_e7(ctypes.byref(here), ctypes.byref(out)), *here.given)
    return out.lat, out.lon


def angle(text: str) -> Fraction:
    """Returns the angle of a text: an optional ``-``, one to three digits, and optionally a point and decimals. Raises
    TypeError for anything but a str."""
    if not isinstance(text, str):
        raise TypeError(f"an angle is read from a text, as '52.25', not from {shown(text)}")
    out, spelled = _Angle(), _text(text)
    _read_text_done(_lib.squitter_angle_of_text(spelled, len(spelled), ctypes.byref(out)), text)
    return _read_angle(out)


def feet_of_field(type_code: int, field: int) -> Altitude:
    """Decodes an altitude field of 12 bits in an airborne position of this type code."""
    numbers = index(type_code, "a type code is a whole number"), index(field, "an altitude field is a whole number")
    out = _Altitude()
    if not _fits(numbers[0], 8) or not _fits(numbers[1], 16) or \
            _lib.squitter_feet_of_field(*numbers, ctypes.byref(out)).code:
        raise Fault(Code.BAD_FIELDS, hint=hint_of_altitude(*numbers))
    return Altitude(AltitudeForm(out.form), out.feet if out.form == _FEET else None)


def field_of_feet(feet: int) -> int:
    """Returns the altitude field for these feet, a multiple of 25 from -1000 to 50175."""
    number, out = index(feet, "feet are a whole number"), ctypes.c_uint16()
    if not -1 << 31 <= number < 1 << 31 or _lib.squitter_field_of_feet(number, ctypes.byref(out)).code:
        raise Fault(Code.BAD_FEET, hint=f"{hint_of_code(Code.BAD_FEET)}, not {shown(feet)}")
    return out.value


def fault_text(code: int, first: int = 0, second: int = 0) -> str:
    """Returns the words of a fault, those of the program ``squitter`` if it has any. Raises ValueError for a number
    that is too large for C."""
    code, first, second = (
        whole(number, bits, f"the {name} of a fault is a whole number from 0")
        for number, bits, name in ((code, 32, "code"), (first, 64, "first number"), (second, 32, "second number")))
    if code in FAULTS:
        return FAULTS[code]
    plain, out = _Fault(code, second, first), ctypes.create_string_buffer(FAULT_TEXT_BYTES)
    _lib.squitter_text_of_fault(ctypes.byref(plain), out)
    return out.value.decode("ascii")


# Many frames have the same few faults.
_words = functools.lru_cache(512, typed=True)(fault_text)


def unit_of(moments: Iterable[int], addresses: Iterable[int], clocked: bool = False) -> Unit:
    """Returns what timestamps (ms) seem to be, by the gaps between those of an aircraft. Both arguments have a value
    for each squitter. Of timestamps that a receiver's clock gave (`clocked`), only GPS time and zeros are told. Raises
    ValueError unless timestamps are whole numbers below 2**64 and addresses below 2**32, as many of one as of the
    other."""
    times, aircraft = array("Q"), array("I")
    try:
        times.extend(moments)
        aircraft.extend(addresses)
    except (OverflowError, TypeError) as error:
        raise ValueError(f"timestamps are whole numbers below 2**64, and addresses below 2**32: {error}") from None
    if len(times) != len(aircraft):
        raise ValueError(f"there are {len(times)} timestamps and {len(aircraft)} addresses")
    at = [ctypes.c_void_p(part.buffer_info()[0] or 8) for part in (times, aircraft)]
    return Unit(_lib.squitter_unit_of(at[0], len(times), at[1], len(aircraft), bool(clocked)))


def version() -> str:
    """Returns the version of the library."""
    number = _lib.squitter_version()
    return f"{number >> 16}.{number >> 8 & 255}.{number & 255}"


__version__ = version()


# These modules import the names above.
from squitter._present import LastFix, Present, Received, Side  # noqa: E402
from squitter._hearing import Contact, Log, Tally, Tracker  # noqa: E402
from squitter._watch import Doubt, Watch  # noqa: E402
from squitter._feed import Counts, Feed  # noqa: E402
from squitter._order import Order  # noqa: E402
