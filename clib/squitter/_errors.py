"""What errors say: the value that was given, in one line, and what is wanted in its place."""

from __future__ import annotations

import operator
import re
from typing import Any, Container, Dict, Optional, Tuple, Type

from squitter._made import HINTS, STRANGERS, Code, Stranger

_MOST_SHOWN = 60  # characters


def shown(value: object) -> str:
    """Returns the repr of a value in one line, with at most 60 characters."""
    # The front of a long value is enough; the repr of the rest may take a while.
    front = value[:_MOST_SHOWN] if isinstance(value, (str, bytes, bytearray, list)) else value
    try:
        text = repr(front)
    except Exception:  # such as that of an int with too many digits
        text = f"a value of type {type(value).__name__}"
    return re.sub(r"\s*\n\s*", " ", text)[:_MOST_SHOWN]


def index(value: Any, wanted: str) -> int:
    """Returns a whole number as an int. Raises TypeError for anything else; `wanted` begins the error's text."""
    try:
        return operator.index(value)
    except TypeError:
        raise TypeError(f"{wanted}, not {shown(value)}") from None


def whole(value: Any, bits: int, wanted: str) -> int:
    """Returns a whole number from 0, below 2**bits. Raises TypeError for any other type, and ValueError for any other
    number; `wanted` begins the error's text."""
    error: Type[Exception] = ValueError
    try:
        number = operator.index(value)
    except TypeError:
        error = TypeError
    else:
        if 0 <= number < 1 << bits:
            return number
    raise error(f"{wanted}, below 2**{bits}, not {shown(value)}{_advice(value, wanted)}") from None


def _advice(value: object, wanted: str) -> str:
    return "; for seconds use round(1000 * seconds)" if isinstance(value, float) and "milliseconds" in wanted else ""


def missing(error: ModuleNotFoundError, user: str, wanted: str) -> ModuleNotFoundError:
    """Returns the error for a package that is not installed, or is too old to have a module, and says how to install
    it. Returns the given error if something else is missing."""
    package = wanted.split()[0].lower()
    if (error.name or "").split(".")[0] != package:
        return error
    return ModuleNotFoundError(
        f"{user} needs {wanted}: pip install {package}, or apt install python3-{package}", name=error.name)


# The first bytes of archives, their names, and the modules of Python that unpack them.
_PACKED = (
    (rb"\x1f\x8b", "gzip", "gzip"), (rb"BZh[1-9]", "bzip2", "bz2"), (rb"\xfd7zXZ\x00", "xz", "lzma"),
    (rb"\x28\xb5\x2f\xfd", "zstd", ""), (rb"PK\x03\x04", "a zip archive", ""),
)


def packed(front: bytes) -> str:
    """Returns the kind of archive that begins with these bytes, and how to unpack it, or an empty text for other
    data."""
    for pattern, name, module in _PACKED:
        if re.match(pattern, front):
            return f"{name}: unpack it {f'with {module}.decompress ' if module else ''}first"
    return ""


# ---- texts ----

# The faults of texts that no call takes.
_OF_TEXT = frozenset((
    Code.WRAP, Code.SHORT, Code.LENGTH, Code.DIGIT, Code.NOT_A_NUMBER, Code.TOO_MANY_DECIMALS, Code.ANGLE_RANGE))


def hint_of_text(code: int, text: str) -> str:
    """Returns what is wanted in place of a text with this fault, or an empty text for the fault of a good text."""
    return f"{HINTS[code]}, not {shown(text)}" if code in _OF_TEXT else ""


def hint_of_code(code: int) -> str:
    """Returns what to do after a fault, or an empty text if only its call can tell."""
    return HINTS.get(code, "")


def hint_of_source(stranger: Optional[Stranger], counts: Any, front: bytes) -> str:
    """Returns why a source that begins with these bytes has no squitters, and what to do."""
    if not front:
        return "it is empty"
    archive = packed(front)
    if stranger is Stranger.PACKED and archive:
        return f"the input is {archive}"
    if stranger is not None:
        return STRANGERS[stranger].replace("--format", "format")
    told = [("of other downlink formats", sum(counts.formats)), ("of Mode A/C", counts.mode_ac),
            ("multilaterated", counts.multilaterated), ("receiver ids", counts.receiver_ids),
            ("set aside", counts.aside), ("damaged", counts.damaged)]
    return ", ".join(["no extended squitter (DF17) is in it", *(f"{count} {what}" for what, count in told if count)])


# ---- heads ----

_BIT, _ADDRESS = (range(2), "0 or 1"), (range(1 << 24), "a number of 24 bits")
_CA, _SEVEN = (range(8), "from 0 to 7"), (range(128), "from 0 to 127")
_AIR_TYPE = ({*range(9, 19), *range(20, 23)}, "from 9 to 18 or from 20 to 22")

_Values = Tuple[Container[int], str]
_OF_AIR: Dict[str, _Values] = {
    "address": _ADDRESS, "altitude": (range(1 << 12), "a field of 12 bits"), "ca": _CA, "type_code": _AIR_TYPE,
    "status": (range(4), "from 0 to 3"), "flag": _BIT, "time": _BIT, "odd": _BIT,
}
_OF_GROUND: Dict[str, _Values] = {
    "address": _ADDRESS, "ca": _CA, "type_code": (range(5, 9), "from 5 to 8"), "movement": _SEVEN,
    "track_status": _BIT, "track": _SEVEN, "time": _BIT, "odd": _BIT,
}


def hint_of_head(is_air: bool, head: Any) -> str:
    """Returns what is wanted in place of the first invalid field of a head, or an empty text if there is none."""
    hints = (hint_of_field(is_air, name, getattr(head, name)) for name in (_OF_AIR if is_air else _OF_GROUND))
    return next(filter(None, hints), "")


def hint_of_field(is_air: bool, name: str, value: Any) -> str:
    """Returns what is wanted in place of an invalid field of a head, or an empty text if it is valid."""
    return _hint(name, (_OF_AIR if is_air else _OF_GROUND)[name], value)


def _hint(name: str, wanted: _Values, value: Any) -> str:
    values, words = wanted
    if operator.index(value) in values:
        return ""
    if name == "altitude" and 0 < value <= 50175 and value % 25 == 0:
        return f"altitude is {words}; for {value} feet use field_of_feet({value})"
    return f"{name} is {words}, not {shown(value)}"


def hint_of_altitude(type_code: int, field: int) -> str:
    """Returns what is wanted in place of an invalid type code or altitude field."""
    return _hint("type_code", _AIR_TYPE, type_code) or _hint("field", (range(1 << 12), "from 0 to 4095"), field)
