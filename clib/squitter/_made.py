# Made by clib/bindings from clib/squitter.h and clib/texts. Edit these and run the script.
"""libsquitter for ctypes and NumPy: constants, enums, structures, calls and records."""

from __future__ import annotations

import ctypes
import enum
from typing import Any, Dict, List, Tuple

# ---- constants ----

VERSION = 256
FRAME_BYTES = 14  # of a frame
FRAME_DIGITS = 28  # of a frame's text, without a zero at its end
ANGLE_TEXT_BYTES = 16  # room for an angle's text and the zeros after it
FAULT_TEXT_BYTES = 64  # room for a fault's text and the zeros after it
BEYOND_RANGE = 1  # it is further from the site than the range
TOO_FAST = 2  # the aircraft would be faster than the speed
HEADER_BYTES = 64  # room for the header of a format and the zeros after it
ANSWER_TEXT_BYTES = 512  # the most that the text of one line takes
FEED_LIVE = 1  # arrivals say when the bytes were received; otherwise they have no effect
FEED_BY_ARRIVAL = 2  # the receiver's clock is ignored, so that its frames have their arrivals
FEED_ALL_FORMATS = 4  # frames of all downlink formats are written; otherwise those of format 17
LINE_BYTES = 50  # the most that one line of a log takes

# ---- enums ----


class Code(enum.IntEnum):
    """The codes of faults."""

    __module__ = "squitter"

    OK = 0
    WRAP = 1  # one of `*` and `;` without the other
    SHORT = 2  # the body has 14 bytes: a reply of 56 bits
    LENGTH = 3  # the body has `first` bytes, neither 28 nor 14
    DIGIT = 4  # byte `first` of the body, from 1, is the first that is not a hexadecimal digit
    NOT_DF17 = 5  # the downlink format is `first`, not 17
    PARITY = 6  # the remainder of the parity is `first`, not 0
    NOT_POSITION = 10  # the squitter carries no position
    OTHER_ADDRESS = 11  # the addresses of a pair differ
    OTHER_KIND = 12  # one of a pair is in the air and one on the ground
    SAME_PARITY = 13  # both of a pair are even, or both are odd
    NO_SITE = 14  # a surface pair needs a receiver position (site)
    OUT_OF_RANGE = 15  # a latitude would lie outside -90 to 90 degrees
    ZONE_COUNTS = 16  # the zone counts (NL) of a pair's latitudes, even `first`, odd `second`, differ
    BAD_POSITION = 20  # the reference, the site or the position is invalid
    BAD_FIELDS = 21  # a field of a head, or of an altitude, is out of range
    BAD_ANGLE = 22  # the fraction is not a valid angle
    BAD_LATITUDE = 23  # the fraction is not a valid latitude
    BAD_FEET = 24  # no altitude field encodes these feet
    BAD_PARITY = 25  # the parity is neither 0 nor 1
    NOT_A_NUMBER = 30  # not an optional `-`, one to three digits, and optionally a point and digits
    TOO_MANY_DECIMALS = 31  # more than twelve digits after the point
    ANGLE_RANGE = 32  # the magnitude is above 360 degrees
    MOMENT_BACK = 42  # the timestamp is before the last one, `first`
    LONG_LINE = 40  # a line has more than 64 bytes
    BAD_MOMENT = 41  # a line does not begin with a timestamp
    TABLE_FULL = 43  # as many other addresses as the limit are present
    NO_MEMORY = 44  # the block is too small
    NO_LIMIT = 45  # the limit is 0
    NO_TRACKER = 46  # there is no tracker, log, feed or order
    LONG_LOG = 48  # a log has 2^63 lines, or a piece more than 2^61 bytes
    BAD_FORMAT = 49  # no format has this number, or the bytes show no format
    BAD_ENTRY = 50  # no tracker with the same settings can hold the entry at index `first`


class Kind(enum.IntEnum):
    """The kind of a squitter, by its type code."""

    __module__ = "squitter"

    OTHER = 0  # every other type code: kept raw
    AIR = 1  # an airborne position, type codes 9 to 18 and 20 to 22
    GROUND = 2  # a surface position, type codes 5 to 8


class AltitudeForm(enum.IntEnum):
    """The meaning of an altitude field."""

    __module__ = "squitter"

    NONE = 0  # none is sent
    FEET = 1  # feet, a multiple of 25 from -1000 to 50175
    OTHER = 2  # a field in another form, or a GNSS height


class What(enum.IntEnum):
    """The result for a frame: the first of these that applies."""

    __module__ = "squitter"

    FIX = 1  # position from this frame and the newest frame of its kind with the other parity
    FOLLOWED = 2  # position near the last fix of its kind, instead of WAITING or SPLIT
    WAITING = 3  # no frame of its kind with the other parity within the window
    SPLIT = 4  # the zone counts of the pair's latitudes, `even` and `odd`, differ
    FAR = 5  # a latitude of the pair would lie outside -90 to 90 degrees
    WITHOUT_SITE = 6  # the pair is on the ground, and no site is given
    NO_PLACE = 7  # the frame carries no position


class Format(enum.IntEnum):
    """The formats of ``squitter track --format``."""

    __module__ = "squitter"

    LINES = 0
    CSV = 1
    JSON = 2


class FeedFormat(enum.IntEnum):
    """The formats of a source."""

    __module__ = "squitter"

    BEAST = 0  # Beast binary
    AVR = 1  # AVR text, with clocks or without
    CSV = 2  # CSV: columns `time`, `mintime` or `timestamp` (s), and `rawmsg`; without a header 1 and 3
    LOG = 3  # a log: a timestamp (ms), a space and a frame on each line
    AUTO = 4  # the first bytes show the format; not known yet


class Stranger(enum.IntEnum):
    """Sources without frames of a known format."""

    __module__ = "squitter"

    SBS = 5  # SBS (BaseStation) text: it has positions and no frames
    TAR = 6  # a tar archive
    PACKED = 7  # compressed by gzip, bzip2, xz or zstd, or a zip archive
    UTF16 = 8  # text in UTF-16
    JSON = 9  # lines of JSON
    NO_FRAME = 10  # bytes without frames
    SEMICOLONS = 11  # a table with semicolons between its columns
    TABS = 12  # a table with tabs between its columns
    NO_TIME = 13  # a table with a column `rawmsg`, and no column `time`, `mintime` or `timestamp`
    NO_RAWMSG = 14  # a table with columns of the time and `icao24`, and no column `rawmsg`
    NO_SECONDS = 15  # a table with frames in its third column, and no seconds in its first one
    NO_NAMES = 16  # a table with frames in another column, and no names of its columns


class Unit(enum.IntEnum):
    """What timestamps seem to be."""

    __module__ = "squitter"

    MILLISECONDS = 0  # or too few show it
    SECONDS = 1
    MICROSECONDS = 2
    NANOSECONDS = 3
    ALL_ZERO = 4  # several frames, all with the timestamp 0
    GPS = 5  # a receiver's clock that counts GPS time, and not 12 MHz


# ---- structures ----


class _Fault(ctypes.Structure):
    _fields_ = [("code", ctypes.c_uint32), ("second", ctypes.c_uint32), ("first", ctypes.c_uint64)]


class _Angle(ctypes.Structure):
    _fields_ = [("num", ctypes.c_int64), ("den", ctypes.c_uint64)]


class _Position(ctypes.Structure):
    _fields_ = [("lat", _Angle), ("lon", _Angle)]


class _DegreesE7(ctypes.Structure):
    _fields_ = [("lat", ctypes.c_int32), ("lon", ctypes.c_int32)]


class _Fields(ctypes.Structure):
    _fields_ = [
        ("raw", ctypes.c_uint64), ("address", ctypes.c_uint32), ("lat", ctypes.c_uint32), ("lon", ctypes.c_uint32),
        ("feet", ctypes.c_int32), ("altitude", ctypes.c_uint16), ("altitude_form", ctypes.c_uint8),
        ("kind", ctypes.c_uint8), ("ca", ctypes.c_uint8), ("type_code", ctypes.c_uint8), ("odd", ctypes.c_uint8),
        ("time", ctypes.c_uint8), ("status", ctypes.c_uint8), ("flag", ctypes.c_uint8), ("movement", ctypes.c_uint8),
        ("track_status", ctypes.c_uint8), ("track", ctypes.c_uint8),
    ]


class _AirHead(ctypes.Structure):
    _fields_ = [
        ("address", ctypes.c_uint32), ("altitude", ctypes.c_uint16), ("ca", ctypes.c_uint8),
        ("type_code", ctypes.c_uint8), ("status", ctypes.c_uint8), ("flag", ctypes.c_uint8), ("time", ctypes.c_uint8),
        ("odd", ctypes.c_uint8),
    ]


class _GroundHead(ctypes.Structure):
    _fields_ = [
        ("address", ctypes.c_uint32), ("ca", ctypes.c_uint8), ("type_code", ctypes.c_uint8),
        ("movement", ctypes.c_uint8), ("track_status", ctypes.c_uint8), ("track", ctypes.c_uint8),
        ("time", ctypes.c_uint8), ("odd", ctypes.c_uint8),
    ]


class _Altitude(ctypes.Structure):
    _fields_ = [("feet", ctypes.c_int32), ("form", ctypes.c_uint8)]


class _Zones(ctypes.Structure):
    _fields_ = [
        ("lat_zone", ctypes.c_int32), ("lon_zone", ctypes.c_uint32), ("degrees", ctypes.c_uint32),
        ("lat_zones", ctypes.c_uint8), ("zone_count", ctypes.c_uint8), ("lon_zones", ctypes.c_uint8),
        ("odd", ctypes.c_uint8),
    ]


class _Received(ctypes.Structure):
    _fields_ = [("moment", ctypes.c_uint64), ("frame", ctypes.c_uint8 * 14)]


class _LastFix(ctypes.Structure):
    _fields_ = [("moment", ctypes.c_uint64), ("position", _Position)]


class _Side(ctypes.Structure):
    _fields_ = [("even", _Received), ("odd", _Received), ("fix", _LastFix)]


class _Entry(ctypes.Structure):
    _fields_ = [("moment", ctypes.c_uint64), ("address", ctypes.c_uint32), ("airborne", _Side), ("surface", _Side)]


class _Watch(ctypes.Structure):
    _fields_ = [("range", ctypes.c_uint32), ("speed", ctypes.c_uint32)]


class _Last(ctypes.Structure):
    _fields_ = [("moment", ctypes.c_uint64), ("heard", ctypes.c_uint64)]


class _Heard(ctypes.Structure):
    _fields_ = [("position", _Position), ("what", ctypes.c_uint8), ("even", ctypes.c_uint8), ("odd", ctypes.c_uint8)]


class _Block(ctypes.Structure):
    _fields_ = [("size", ctypes.c_size_t), ("memory", ctypes.c_void_p)]


class _Tracker(ctypes.Structure):
    _fields_ = [("full", ctypes.c_uint64), ("at", ctypes.c_void_p)]


class _Log(ctypes.Structure):
    _fields_ = [("full", ctypes.c_uint64), ("at", ctypes.c_void_p)]


class _Answer(ctypes.Structure):
    _fields_ = [
        ("number", ctypes.c_uint64), ("moment", ctypes.c_uint64), ("heard", _Heard), ("fault", _Fault),
        ("degrees", _DegreesE7), ("address", ctypes.c_uint32), ("feet", ctypes.c_int32), ("kind", ctypes.c_uint8),
        ("altitude_form", ctypes.c_uint8),
    ]


class _Done(ctypes.Structure):
    _fields_ = [("taken", ctypes.c_size_t), ("written", ctypes.c_size_t)]


class _Tally(ctypes.Structure):
    _fields_ = [("good", ctypes.c_uint64), ("refused", ctypes.c_uint64)]


class _Feed(ctypes.Structure):
    _fields_ = [("full", ctypes.c_uint64), ("at", ctypes.c_void_p)]


class _Order(ctypes.Structure):
    _fields_ = [("full", ctypes.c_uint64), ("at", ctypes.c_void_p)]


class _Counts(ctypes.Structure):
    _fields_ = [
        ("found", ctypes.c_uint64), ("written", ctypes.c_uint64), ("mode_ac", ctypes.c_uint64),
        ("multilaterated", ctypes.c_uint64), ("receiver_ids", ctypes.c_uint64), ("damaged", ctypes.c_uint64),
        ("aside", ctypes.c_uint64), ("formats", ctypes.c_uint64 * 25), ("breaks", ctypes.c_uint64),
        ("ahead", ctypes.c_uint64),
    ]


# ---- calls ----

_P = ctypes.POINTER

# The arguments and the result of each call.
CALLS: Dict[str, Tuple[List[Any], Any]] = {
    "frame_of_text": ([ctypes.c_void_p, ctypes.c_size_t, _P(ctypes.c_uint8 * 14)], _Fault),
    "text_of_frame": ([ctypes.c_char_p, ctypes.c_char_p], None),
    "read_text": ([ctypes.c_void_p, ctypes.c_size_t, _P(_Fields)], _Fault),
    "read_frame": ([ctypes.c_char_p, _P(_Fields)], _Fault),
    "local": ([ctypes.c_char_p, _P(_Position), _P(_Position)], _Fault),
    "local_zones": ([ctypes.c_char_p, _P(_Position), _P(_Zones)], _Fault),
    "pair": ([ctypes.c_char_p, ctypes.c_char_p, _P(_Position)], _Fault),
    "pair_at": ([ctypes.c_char_p, ctypes.c_char_p, _P(_Position), _P(_Position)], _Fault),
    "tracker_size": ([ctypes.c_uint32], ctypes.c_size_t),
    "tracker_new": ([_P(_Tracker), _Block, ctypes.c_uint32, ctypes.c_uint64], _Fault),
    "tracker_new_at": ([_P(_Tracker), _Block, ctypes.c_uint32, ctypes.c_uint64, _P(_Position)], _Fault),
    "tracker_free": ([_P(_Tracker)], None),
    "tracker_hear": ([_P(_Tracker), ctypes.c_uint64, ctypes.c_char_p, _P(_Heard)], _Fault),
    "tracker_hear_many": ([
        _P(_Tracker), ctypes.c_void_p, ctypes.c_size_t, ctypes.c_void_p, ctypes.c_size_t, ctypes.c_void_p,
        ctypes.c_size_t, ctypes.c_void_p, ctypes.c_size_t,
    ], ctypes.c_size_t),
    "tracker_len": ([_P(_Tracker)], ctypes.c_size_t),
    "tracker_present": ([
        _P(_Tracker), ctypes.c_uint64, ctypes.c_size_t, ctypes.c_void_p, ctypes.c_size_t,
    ], ctypes.c_size_t),
    "tracker_save": ([_P(_Tracker), _P(_Last), ctypes.c_void_p, ctypes.c_size_t], ctypes.c_size_t),
    "tracker_restore": ([_P(_Tracker), _P(_Last), ctypes.c_void_p, ctypes.c_size_t], _Fault),
    "doubts": ([_P(_Watch), _P(_Position), _P(_LastFix), ctypes.c_uint64, _P(_Position)], ctypes.c_uint32),
    "log_size": ([ctypes.c_uint32], ctypes.c_size_t),
    "log_new": ([_P(_Log), _Block, ctypes.c_uint32, ctypes.c_uint64], _Fault),
    "log_new_at": ([_P(_Log), _Block, ctypes.c_uint32, ctypes.c_uint64, _P(_Position)], _Fault),
    "log_free": ([_P(_Log)], None),
    "log_take": ([_P(_Log), ctypes.c_void_p, ctypes.c_size_t, ctypes.c_void_p, ctypes.c_size_t, _P(_Done)], _Fault),
    "log_finish": ([_P(_Log), ctypes.c_void_p, ctypes.c_size_t, _P(_Done)], _Fault),
    "log_header": ([ctypes.c_uint32, ctypes.c_char_p], None),
    "log_take_text": ([
        _P(_Log), ctypes.c_uint32, ctypes.c_void_p, ctypes.c_size_t, ctypes.c_void_p, ctypes.c_size_t, _P(_Done),
    ], _Fault),
    "log_finish_text": ([_P(_Log), ctypes.c_uint32, ctypes.c_void_p, ctypes.c_size_t, _P(_Done)], _Fault),
    "log_tally": ([_P(_Log), _P(_Tally)], _Fault),
    "log_present": ([_P(_Log), ctypes.c_uint64, ctypes.c_size_t, ctypes.c_void_p, ctypes.c_size_t], ctypes.c_size_t),
    "feed_size": ([], ctypes.c_size_t),
    "feed_new": ([_P(_Feed), _Block, ctypes.c_uint32, ctypes.c_uint64, ctypes.c_uint64, ctypes.c_uint32], _Fault),
    "feed_free": ([_P(_Feed)], None),
    "feed_take": ([
        _P(_Feed), ctypes.c_void_p, ctypes.c_size_t, ctypes.c_uint64, ctypes.c_void_p, ctypes.c_size_t, ctypes.c_void_p,
        ctypes.c_size_t, _P(_Done),
    ], _Fault),
    "feed_finish": ([
        _P(_Feed), ctypes.c_uint64, ctypes.c_void_p, ctypes.c_size_t, ctypes.c_void_p, ctypes.c_size_t, _P(_Done),
    ], _Fault),
    "feed_take_text": ([
        _P(_Feed), ctypes.c_void_p, ctypes.c_size_t, ctypes.c_uint64, ctypes.c_void_p, ctypes.c_size_t, _P(_Done),
    ], _Fault),
    "feed_finish_text": ([_P(_Feed), ctypes.c_uint64, ctypes.c_void_p, ctypes.c_size_t, _P(_Done)], _Fault),
    "feed_disconnected": ([_P(_Feed)], _Fault),
    "feed_format": ([_P(_Feed), _P(ctypes.c_uint32)], _Fault),
    "feed_counts": ([_P(_Feed), _P(_Counts)], _Fault),
    "unit_of": ([ctypes.c_void_p, ctypes.c_size_t, ctypes.c_void_p, ctypes.c_size_t, ctypes.c_uint8], ctypes.c_uint32),
    "order_size": ([ctypes.c_uint32], ctypes.c_size_t),
    "order_new": ([_P(_Order), _Block, ctypes.c_uint64], _Fault),
    "order_grow": ([_P(_Order), _Block], _Fault),
    "order_free": ([_P(_Order)], None),
    "order_take": ([
        _P(_Order), ctypes.c_void_p, ctypes.c_size_t, ctypes.c_void_p, ctypes.c_size_t, ctypes.c_void_p,
        ctypes.c_size_t, ctypes.c_void_p, ctypes.c_size_t, _P(_Done),
    ], _Fault),
    "order_flush": ([
        _P(_Order), ctypes.c_void_p, ctypes.c_size_t, ctypes.c_void_p, ctypes.c_size_t, _P(_Done),
    ], _Fault),
    "order_held": ([_P(_Order), _P(ctypes.c_uint64)], _Fault),
    "order_late": ([_P(_Order), _P(ctypes.c_uint64)], _Fault),
    "read_many": ([
        ctypes.c_void_p, ctypes.c_size_t, ctypes.c_void_p, ctypes.c_size_t, ctypes.c_void_p, ctypes.c_size_t,
    ], ctypes.c_size_t),
    "local_many": ([
        ctypes.c_void_p, ctypes.c_size_t, ctypes.c_void_p, ctypes.c_size_t, ctypes.c_void_p, ctypes.c_size_t,
        ctypes.c_void_p, ctypes.c_size_t,
    ], ctypes.c_size_t),
    "pair_many": ([
        ctypes.c_void_p, ctypes.c_size_t, ctypes.c_void_p, ctypes.c_size_t, ctypes.c_void_p, ctypes.c_size_t,
        ctypes.c_void_p, ctypes.c_size_t,
    ], ctypes.c_size_t),
    "pair_at_many": ([
        ctypes.c_void_p, ctypes.c_size_t, ctypes.c_void_p, ctypes.c_size_t, _P(_Position), ctypes.c_void_p,
        ctypes.c_size_t, ctypes.c_void_p, ctypes.c_size_t,
    ], ctypes.c_size_t),
    "position_e7_many": ([
        ctypes.c_void_p, ctypes.c_size_t, ctypes.c_void_p, ctypes.c_size_t, ctypes.c_void_p, ctypes.c_size_t,
    ], ctypes.c_size_t),
    "encode_air": ([_P(_AirHead), _P(_Position), _P(ctypes.c_uint8 * 14)], _Fault),
    "encode_ground": ([_P(_GroundHead), _P(_Position), _P(ctypes.c_uint8 * 14)], _Fault),
    "send_again": ([ctypes.c_char_p, ctypes.c_uint8, _P(_Position), _P(ctypes.c_uint8 * 14)], _Fault),
    "zone_count": ([_P(_Angle), _P(ctypes.c_uint8)], _Fault),
    "text_of_angle": ([_P(_Angle), ctypes.c_char_p], _Fault),
    "angle_e7": ([_P(_Angle), _P(ctypes.c_int64)], _Fault),
    "position_e7": ([_P(_Position), _P(_DegreesE7)], _Fault),
    "angle_of_text": ([ctypes.c_void_p, ctypes.c_size_t, _P(_Angle)], _Fault),
    "feet_of_field": ([ctypes.c_uint8, ctypes.c_uint16, _P(_Altitude)], _Fault),
    "field_of_feet": ([ctypes.c_int32, _P(ctypes.c_uint16)], _Fault),
    "text_of_fault": ([_P(_Fault), ctypes.c_char_p], None),
    "version": ([], ctypes.c_uint32),
}

# ---- records ----

# The numbers of a struct, for NumPy.
RECORDS: Dict[str, List[Tuple[str, str]]] = {
    "fault": [("code", "u4"), ("second", "u4"), ("first", "u8")],
    "fields": [
        ("raw", "u8"), ("address", "u4"), ("lat", "u4"), ("lon", "u4"), ("feet", "i4"), ("altitude", "u2"),
        ("altitude_form", "u1"), ("kind", "u1"), ("ca", "u1"), ("type_code", "u1"), ("odd", "u1"), ("time", "u1"),
        ("status", "u1"), ("flag", "u1"), ("movement", "u1"), ("track_status", "u1"), ("track", "u1"),
    ],
    "position": [("lat_num", "i8"), ("lat_den", "u8"), ("lon_num", "i8"), ("lon_den", "u8")],
    "heard": [
        ("lat_num", "i8"), ("lat_den", "u8"), ("lon_num", "i8"), ("lon_den", "u8"), ("what", "u1"), ("even", "u1"),
        ("odd", "u1"),
    ],
    "degrees_e7": [("lat", "i4"), ("lon", "i4")],
}

# ---- words ----

COLUMNS = ("line", "moment", "answer", "address", "kind", "lat", "lon", "feet")

# The word of each answer.
WHATS: Dict[What, str] = {
    What.FIX: "fix",
    What.FOLLOWED: "followed",
    What.WAITING: "waiting",
    What.SPLIT: "split",
    What.FAR: "far",
    What.WITHOUT_SITE: "no site",
    What.NO_PLACE: "no position",
}

# The word of each kind.
KINDS: Dict[Kind, str] = {
    Kind.OTHER: "other",
    Kind.AIR: "air",
    Kind.GROUND: "ground",
}

# The texts of faults for which the library has a text that is too narrow.
FAULTS: Dict[int, str] = {
    Code.NO_TRACKER: "no tracker, log, feed or order",
}

# What to do after a fault.
HINTS: Dict[int, str] = {
    Code.WRAP: "a frame text is 28 hexadecimal digits, bare or between * and ;",
    Code.SHORT: "a frame text is 28 hexadecimal digits, bare or between * and ;",
    Code.LENGTH: "a frame text is 28 hexadecimal digits, bare or between * and ;",
    Code.DIGIT: "a frame text is 28 hexadecimal digits, bare or between * and ;",
    Code.NOT_DF17: "only extended squitters (DF17) are read; skip other frames",
    Code.PARITY: "the frame is damaged; skip it",
    Code.NOT_POSITION: "the message is no position; only kinds AIR and GROUND are",
    Code.OTHER_ADDRESS: "give two frames of one aircraft",
    Code.OTHER_KIND: "give two airborne or two surface positions",
    Code.SAME_PARITY: "give an even and an odd frame",
    Code.NO_SITE: "give the receiver position as the site",
    Code.OUT_OF_RANGE: "use newer frames, or a nearer reference",
    Code.ZONE_COUNTS: "the frames lie on two sides of a zone border; use newer ones",
    Code.BAD_POSITION: "a latitude is from -90 to 90 degrees, a longitude from -180 to 180, with at"
        " most 12 decimals",
    Code.BAD_FIELDS: "squitter.h has the range of each field",
    Code.BAD_ANGLE: "an angle is from -360 to 360 degrees, with at most 12 decimals",
    Code.BAD_LATITUDE: "a latitude is from -90 to 90 degrees, with at most 12 decimals",
    Code.BAD_FEET: "feet are a multiple of 25 from -1000 to 50175",
    Code.BAD_PARITY: "odd is 0 or 1",
    Code.NOT_A_NUMBER: "an angle text is one to three digits, with an optional - before and "
        "decimals after, such as '-52.25'",
    Code.TOO_MANY_DECIMALS: "an angle text has at most 12 decimals",
    Code.ANGLE_RANGE: "an angle is from -360 to 360 degrees",
    Code.MOMENT_BACK: "timestamps must not decrease; sort the frames first, as an Order does",
    Code.TABLE_FULL: "raise the limit",
    Code.NO_LIMIT: "a limit is at least 1",
    Code.NO_TRACKER: "it is closed",
    Code.BAD_ENTRY: "the state was saved with other settings, or is damaged",
}

# What a source without frames is, in the words of ``squitter feed``.
STRANGERS: Dict[Stranger, str] = {
    Stranger.SBS: "the input is SBS (BaseStation) text, which has no frames: read port 30005 or "
        "30002",
    Stranger.TAR: "the input is a tar archive: try tar -xOf FILE | squitter feed",
    Stranger.PACKED: "the input is compressed: try gzip -dc FILE | squitter feed",
    Stranger.UTF16: "the input is UTF-16: try iconv -f UTF-16 -t UTF-8 FILE | squitter feed",
    Stranger.JSON: "the input is lines of JSON, which have no frames",
    Stranger.NO_FRAME: "no frame is in the first 16384 bytes: try --format=beast, avr, csv or log; "
        "a table has the columns time (seconds), icao24 and rawmsg",
    Stranger.SEMICOLONS: "the table has semicolons between its columns: they have to be commas, and"
        " its decimal commas points",
    Stranger.TABS: "the table has tabs between its columns: they have to be commas",
    Stranger.NO_TIME: "the table has no column time (seconds): name its columns time, icao24 and "
        "rawmsg in the first row",
    Stranger.NO_RAWMSG: "the table has no column rawmsg, so it has no frames: take one that has "
        "them",
    Stranger.NO_SECONDS: "the first column of the table has no times in seconds, as 1700000000.25: "
        "milliseconds and dates are not read",
    Stranger.NO_NAMES: "the third column of the table has no frames: name its columns time "
        "(seconds), icao24 and rawmsg in the first row",
}

# What timestamps that are no milliseconds are, in the words of ``squitter feed``.
UNITS: Dict[Unit, str] = {
    Unit.SECONDS: "the timestamps of this log seem to be seconds; they have to be milliseconds",
    Unit.MICROSECONDS: "the timestamps seem to be microseconds; a log has milliseconds, and a table"
        " has seconds",
    Unit.NANOSECONDS: "the timestamps seem to be nanoseconds; a log has milliseconds, and a table "
        "has seconds",
    Unit.ALL_ZERO: "all frames of this file have the timestamp 0, as without times: old ones pair "
        "with new",
    Unit.GPS: "the clock of this source seems to be GPS time (Radarcape): set it to 12 MHz, or read"
        " its port with --arrival",
}
