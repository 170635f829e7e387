#!/usr/bin/env python3
"""What the errors of the module squitter say, in full: the value that was given and what is wanted in its place; and
what is missing, for a library, a call or a package that is not there."""
import array
import decimal
import io
import os
import shutil
import subprocess
import sys
import tempfile
import unittest
from fractions import Fraction
from unittest import mock

HERE = os.path.dirname(os.path.abspath(__file__))
sys.path.insert(0, os.path.join(HERE, ".."))
import squitter  # noqa: E402
from squitter import AirHead, Contact, Fault, Feed, FeedFormat, Format, GroundHead, Log, Order, Tracker  # noqa: E402
from squitter import _errors, _library  # noqa: E402

EVEN = "8D40621D58C382D690C8AC2863A7"
ODD = "8D40621D58C386435CC412692AD6"
GROUND = "8C4841753AAB238733C8CD4020B1"
FRAME, BOTH = bytes.fromhex(EVEN), bytes.fromhex(ODD + EVEN)
FRAME_TEXT = "a frame text is 28 hexadecimal digits, bare or between * and ;, not "
ANGLE_TEXT = ("an angle text is one to three digits, with an optional - before and decimals after, such as '-52.25', "
              "not ")
POSITION = "a position is a Position, or a latitude and a longitude, not "
FRAMES = "frames are 14 bytes each, one after the other, not "
JOIN = '; join a list with b"".join(map(squitter.frame, frames))'
SECONDS = "; for seconds use round(1000 * seconds)"
LAST = (1 << 64) - 1


def millis(name):
    return f"{name} a whole number of milliseconds from 0, below 2**64, not "


class Errors(unittest.TestCase):
    def told(self, kind, text, call, *arguments, **named):
        """The call raises an error of this type, and no other, with this text in one line."""
        with self.assertRaises(Exception) as raised:
            call(*arguments, **named)
        self.assertEqual((type(raised.exception), str(raised.exception)), (kind, text))
        self.assertNotIn("\n", text)

    def test_frames(self):
        for call in (squitter.read, squitter.frame, squitter.frame_text, lambda text: Tracker().hear(5, text),
                     lambda text: squitter.local(text, (52, 4)), lambda text: squitter.pair(text, EVEN),
                     lambda text: squitter.pair(ODD, text), lambda text: squitter.send_again(text, 0, (52, 4))):
            for text, fault in (
                ("", "bad length 0"), ("8D", "bad length 2"), (EVEN[:27], "bad length 27"),
                (f"*{EVEN}", "bad wrapping"), (f"{EVEN};", "bad wrapping"), ("*", "bad wrapping"),
                (f" {EVEN}", "bad length 29"),
                (EVEN[:-1] + "G", "bad digit 28"), ("G" + EVEN[1:], "bad digit 1"), (f"{EVEN}\n", "bad length 29"),
                ("5D40621D000000", "short frame"),
            ):
                self.told(Fault, f"{fault}: {FRAME_TEXT}{text!r}", call, text)
        for text in (EVEN, EVEN.lower(), f"*{EVEN};", f"*{EVEN.lower()};"):
            self.assertEqual(squitter.read(text), squitter.read(FRAME))
        self.told(Fault, f"bad length 1000: {FRAME_TEXT}'{'0' * 59}", squitter.read, "0" * 1000)
        wanted = "a frame is 14 bytes or a text of 28 hexadecimal digits, not "
        for given in (None, 5, 1.5, [EVEN], (1,), {}):
            self.told(TypeError, wanted + repr(given), squitter.read, given)
        for count in (0, 1, 13, 15, 27, 29, 31):
            self.told(ValueError, f"{wanted}{count} bytes", squitter.read, bytes(count))
        for count in (28, 30):
            self.told(ValueError, f"{wanted}{count} bytes; a frame text is a str", squitter.frame,
                      bytes(count))
        self.told(ValueError, f"{wanted}14 bytes in items of 2", squitter.read, array.array("H", range(7)))
        self.told(Fault, "parity 000001: the frame is damaged; skip it", squitter.read, EVEN[:-1] + "6")
        self.told(Fault, "not DF17 0: only extended squitters (DF17) are read; skip other frames", squitter.read,
                  "0" * 28)
        self.told(Fault, "same parity: give an even and an odd frame", squitter.pair, EVEN, EVEN)
        self.told(Fault, "no site: give the receiver position as the site", squitter.pair,
                  "8C4841753AAB238733C8CD4020B1", "8C4841753A8A35323FAEBDAC702D")

    def test_frames_of_many(self):
        for call in (squitter.read_many, lambda given: squitter.pair_many(given, FRAME),
                     lambda given: squitter.pair_many(FRAME, given), lambda given: squitter.local_many(given, []),
                     lambda given: Tracker().hear_many([5], given)):
            for given, text in ((None, "NoneType"), (5, "int"), ([EVEN], "list" + JOIN),
                                (EVEN, "str; squitter.frame makes bytes of a text"),
                                ((FRAME,), "tuple" + JOIN), ([], "list" + JOIN), ({}, "dict")):
                self.told(TypeError, FRAMES + text, call, given)
            for given, text in (
                (bytes(13), "13 bytes"), (bytes(15), "15 bytes"), (array.array("H", range(7)), "items of 2 bytes"),
                (memoryview(bytes(56))[::2], "a view with gaps; bytes(view) has none"),
                (EVEN.encode(), f"hexadecimal digits: '{EVEN}'; a frame text is a str"),
                (b"\x1f\x8b\x08" + bytes(12), "15 bytes of gzip: unpack it with gzip.decompress first"),
                (b"BZh9" + bytes(9), "13 bytes of bzip2: unpack it with bz2.decompress first"),
                (b"\xfd7zXZ\0" + bytes(1), "7 bytes of xz: unpack it with lzma.decompress first"),
                (b"\x28\xb5\x2f\xfd" + bytes(9), "13 bytes of zstd: unpack it first"),
                (b"PK\3\4" + bytes(9), "13 bytes of a zip archive: unpack it first"),
                (b"BZh0" + bytes(9), "13 bytes"), (b"x\x1f\x8b", "3 bytes"),
            ):
                self.told(ValueError, FRAMES + text, call, given)
        # Frames that begin as an archive does are frames.
        self.assertEqual(squitter.read_many(b"\x1f\x8b" + bytes(12))[0].code, squitter.Code.NOT_DF17)
        wanted = "there has to be a list with a position for each frame"
        for count in (0, 1, 3):
            self.told(ValueError, f"2 frames and {count} references: {wanted}", squitter.local_many, BOTH,
                      [(52, 4)] * count)
        for given in (None, 5):
            self.told(TypeError, f"{wanted}, not {given}", squitter.local_many, BOTH, given)
        self.told(TypeError, f"{POSITION}52", squitter.local_many, BOTH, (52, 4))
        self.told(ValueError, "1 older frames and 2 newer ones: there has to be a newer one for each",
                  squitter.pair_many, FRAME, BOTH)

    def test_places(self):
        for call in (squitter.position_e7, lambda given: squitter.local(EVEN, given),
                     lambda given: squitter.local_zones(EVEN, given), lambda given: squitter.encode(AirHead(1), given),
                     lambda given: squitter.send_again(EVEN, 1, given),
                     lambda given: squitter.pair(ODD, EVEN, given), lambda given: Tracker(site=given),
                     lambda given: Contact(site=given), lambda given: Log(site=given)):
            for given in (5, "52", "52,4", b"ab", bytearray(b"ab"), {52: 1, 4: 2}, {52}, frozenset({52}), (52,),
                          (52, 4, 3), [], False):
                self.told(TypeError, POSITION + repr(given), call, given)
            self.told(Fault, f"not a number: {ANGLE_TEXT}'52,25'", call, ("52,25", "4"))
            self.told(Fault, f"not a number: {ANGLE_TEXT}'E4'", call, (52, "E4"))
        degrees = "degrees are an int, a Fraction, a Decimal, a float or a text, not "
        for call in (squitter.zone_count, squitter.angle_text, squitter.angle_e7):
            for text in ("", "x", "-", "+5", " 5", "5 ", "1e1", "52.25N", "5.", "1000"):
                self.told(Fault, f"not a number: {ANGLE_TEXT}{text!r}", call, text)
            self.told(Fault, "too many decimals: an angle text has at most 12 decimals, not '1.1234567890123'", call,
                      "1.1234567890123")
            self.told(Fault, "out of range: an angle is from -360 to 360 degrees, not '-360.1'", call, "-360.1")
            for given, name in ((None, "NoneType"), (b"52", "bytes"), ([], "list")):
                self.told(TypeError, degrees + name, call, given)
        for given in (None, 52.25, b"52"):
            self.told(TypeError, f"an angle is read from a text, as '52.25', not from {given!r}", squitter.angle, given)
        for pair in ((52, 4), [52, 4], ("52", "4"), array.array("d", [52, 4]), squitter.Position(52, 4)):
            self.assertEqual(squitter.position_e7(pair), (520000000, 40000000))

    def test_heads(self):
        for head in (None, {}, 5, AirHead):
            self.told(TypeError, f"a head is an AirHead or a GroundHead, not {head!r}", squitter.encode, head, (1, 2))
        bit, seven, ca = "0 or 1", "from 0 to 127", "from 0 to 7"
        air, ground = "from 9 to 18 or from 20 to 22", "from 5 to 8"
        for kind, name, wanted, good, bad in (
            (AirHead, "address", "a number of 24 bits", (0, 0xFFFFFF), (-1, 1 << 24, 1 << 32)),
            (AirHead, "altitude", "a field of 12 bits", (0, 4095), (-25, 4096, 4099, 50176, 50200, 65536)),
            (AirHead, "ca", ca, (0, 7), (-1, 8, 256)), (AirHead, "status", "from 0 to 3", (0, 3), (-1, 4, 256)),
            (AirHead, "type_code", air, (9, 18, 20, 22), (-1, 0, 5, 8, 19, 23, 31, 32, 256)),
            (AirHead, "flag", bit, (0, 1), (-1, 2, 256)), (AirHead, "time", bit, (0, 1), (-1, 2, 256)),
            (AirHead, "odd", bit, (0, 1, True), (-1, 2, 256)),
            (GroundHead, "address", "a number of 24 bits", (0, 0xFFFFFF), (-1, 1 << 24, 1 << 32)),
            (GroundHead, "ca", ca, (0, 7), (-1, 8, 256)), (GroundHead, "type_code", ground, (5, 8), (-1, 4, 9, 256)),
            (GroundHead, "movement", seven, (0, 127), (-1, 128, 256)),
            (GroundHead, "track_status", bit, (0, 1), (-1, 2, 256)), (GroundHead, "track", seven, (0, 127), (-1, 128)),
            (GroundHead, "time", bit, (0, 1), (-1, 2, 256)), (GroundHead, "odd", bit, (0, 1), (-1, 2, 256)),
        ):
            for value in good:
                head = kind(**{"address": 1, name: value})
                self.assertEqual(getattr(squitter.read(squitter.encode(head, (52, 4))), name), value)
                # It is not named in place of another field.
                other, text = ("time", "time is 0 or 1, not 2") if name != "time" else ("odd", "odd is 0 or 1, not 2")
                head = kind(**{"address": 1, name: value, other: 2})
                self.told(Fault, f"bad fields: {text}", squitter.encode, head, (52, 4))
            for value in bad:
                head = kind(**{"address": 1, name: value})
                self.told(Fault, f"bad fields: {name} is {wanted}, not {value}", squitter.encode, head, (52, 4))
            for value in (None, "5", 5.0):
                head = kind(**{"address": 1, name: value})
                self.told(TypeError, f"{name} is a whole number, not {value!r}", squitter.encode, head, (52, 4))
        for feet in (4100, 38000, 50175):
            self.told(Fault, f"bad fields: altitude is a field of 12 bits; for {feet} feet use field_of_feet({feet})",
                      squitter.encode, AirHead(1, altitude=feet), (52, 4))
        # The first of two is named, and a fault of the head comes before one of the position.
        self.told(Fault, "bad fields: ca is from 0 to 7, not 8", squitter.encode, AirHead(1, ca=8, odd=2), (91, 0))
        self.told(Fault, "bad fields: type_code is from 5 to 8, not 11; a head is an AirHead or a GroundHead",
                  squitter.encode, squitter.read(EVEN), (52, 4))

    def test_parts(self):
        for odd in (2, -1, None, "1", 1.0, 0.0):
            self.told(Fault, f"bad parity: odd is 0 or 1, not {odd!r}", squitter.send_again, EVEN, odd, (52, 4))
        for odd in (0, 1, False, True):
            self.assertEqual(squitter.read(squitter.send_again(EVEN, odd, (52, 4))).odd, odd)
        for code in (-1, 0, 5, 8, 19, 23, 256, 256 + 11, (1 << 32) + 11):
            self.told(Fault, f"bad fields: type_code is from 9 to 18 or from 20 to 22, not {code}",
                      squitter.feet_of_field, code, 1)
        for field in (-1, 4096, 65536, 65536 + 0xC38, (1 << 32) + 0xC38):
            self.told(Fault, f"bad fields: field is from 0 to 4095, not {field}", squitter.feet_of_field, 11, field)
        for code in (9, 18, 20, 22):
            for field in (0, 4095):
                is_in_feet = code < 20 and field > 0
                self.assertEqual(squitter.feet_of_field(code, field).feet is not None, is_in_feet, (code, field))
        for given in (None, "11", 11.0):
            self.told(TypeError, f"a type code is a whole number, not {given!r}", squitter.feet_of_field, given, 1)
            self.told(TypeError, f"an altitude field is a whole number, not {given!r}", squitter.feet_of_field, 11,
                      given)
            self.told(TypeError, f"feet are a whole number, not {given!r}", squitter.field_of_feet, given)
        for feet in (-1025, -1001, 10, 50176, 50200, 1 << 31, -(1 << 31) - 1, 1 << 40):
            self.told(Fault, f"bad feet: feet are a multiple of 25 from -1000 to 50175, not {feet}",
                      squitter.field_of_feet, feet)
        for feet in (-1000, 50175):
            self.assertEqual(squitter.feet_of_field(11, squitter.field_of_feet(feet)).feet, feet)
        for place, name, bits in ((0, "code", 32), (1, "first number", 64), (2, "second number", 32)):
            wanted = f"the {name} of a fault is a whole number from 0, below 2**{bits}, not "
            for kind, given in ((ValueError, -1), (ValueError, 1 << bits), (TypeError, 1.0), (TypeError, "6"),
                                (TypeError, None)):
                numbers = [6, 1, 1]
                numbers[place] = given
                self.told(kind, wanted + repr(given), squitter.fault_text, *numbers)
        self.assertEqual(squitter.fault_text((1 << 32) - 1, LAST, (1 << 32) - 1), "unknown fault")

    def test_numbers(self):
        """Each number of milliseconds, at its borders, and in types that are no whole numbers."""
        order, feed = Order(5), Feed("avr")
        for name, call in (
            ("a window is", Tracker), ("a window is", Contact), ("a window is", Log),
            ("a moment is", lambda moment: Tracker().hear(moment, ODD)),
            ("a moment is", lambda moment: Tracker().hear_many([moment], bytes.fromhex(ODD))),
            ("a moment is", lambda moment: order.take([moment], FRAME)),
            ("a leap is", lambda leap: Feed("avr", leap)), ("late is", lambda late: Feed("avr", late=late)),
            ("an arrival is", lambda arrival: feed.take_text(b"", arrival)),
            ("an arrival is", lambda arrival: feed.take(b"", arrival)),
            ("an arrival is", feed.finish_text), ("an arrival is", feed.finish), ("a delay is", Order),
        ):
            for given in (0, True, LAST):
                call(given)
            for given in (-1, 1 << 64, -(1 << 70)):
                self.told(ValueError, f"{millis(name)}{given}", call, given)
            for given in (None, "5", b"5", [5], decimal.Decimal(5), Fraction(5)):
                self.told(TypeError, f"{millis(name)}{given!r}", call, given)
            for given in (1.5, 5.0, float("nan")):
                self.told(TypeError, f"{millis(name)}{given}{SECONDS}", call, given)
        limit = "a limit is a whole number of addresses from 1, below 2**32, not "
        for kind in (Tracker, Log):
            for given in (-1, 1 << 32):
                self.told(ValueError, f"{limit}{given}", kind, limit=given)
            for given in (None, 1.0, "5"):
                self.told(TypeError, f"{limit}{given!r}", kind, limit=given)
            self.told(Fault, "limit is 0: a limit is at least 1", kind, limit=0)

    def test_moments(self):
        wanted = "moments are a list or another sequence of whole numbers, not "
        for given in (None, 5):
            self.told(TypeError, f"{wanted}{given}", Tracker().hear_many, given, BOTH)
            self.told(TypeError, f"moments are a list or another iterable of whole numbers, not {given}", Order(5).take,
                      given, BOTH)
        stream = map(int, "56")
        self.told(TypeError, f"{wanted}{stream!r}", Tracker().hear_many, stream, BOTH)
        for count in (0, 1, 3):
            text = f"2 frames and {count} moments: there has to be a moment for each frame"
            self.told(ValueError, text, Tracker().hear_many, [5] * count, BOTH)
            self.told(ValueError, text, Order(5).take, [5] * count, BOTH)
        for moments, text in (([5, 6.0], f"6.0{SECONDS}"), ("56", "'5'"), ([5, None], "None"), (["5", 6], "'5'")):
            self.told(TypeError, millis("a moment is") + text, Tracker().hear_many, moments, BOTH)

    def test_pieces(self):
        of_text = "; encode() makes bytes of a str, and 'rb' opens a file for bytes"
        for wanted, call in (("a piece is bytes", Log().take_text), ("a piece is bytes", Feed("log").take_text),
                             ("a piece is bytes", Feed("log").take),
                             (FRAMES[:-6], lambda piece: Order(5).take([5], piece))):
            for given in (None, 5, [5]):
                self.told(TypeError, f"{wanted}, not {given}", call, given)
            self.told(TypeError, f"{wanted}, not '5 x'{of_text}", call, "5 x")
            with io.BytesIO(b"") as file:
                self.told(TypeError, f"{wanted}, not {file!r:.60}; take what its read() returns", call, file)
            call(bytearray(14))
        for given, text in ((b"x", "1 bytes"), (bytes(15), "15 bytes"),
                            (EVEN.encode(), f"hexadecimal digits: '{EVEN}'; a frame text is a str")):
            self.told(ValueError, FRAMES + text, Order(5).take, [5], given)

    def test_formats(self):
        for kind, enum in ((lambda form: Log(format=form), Format), (Feed, FeedFormat)):
            names = ", ".join(f"'{form.name.lower()}'" for form in enum)
            for given in ("xml", "CSV", "", None, len(enum), -1, b"csv"):
                self.told(ValueError, f"a format is one of {names}, or of {enum.__name__}, not {given!r}", kind, given)
            for form in enum:
                for given in (form, form.name.lower(), int(form)):
                    with kind(given) as one:
                        one.take_text(b"x\n")

    def test_closed(self):
        for kind, name, calls in (
            (Tracker, "tracker", (len, lambda it: it.hear(5, ODD), lambda it: it.hear_many([], b""),
                                  lambda it: it.last, lambda it: it.present())),
            (Contact, "tracker", (lambda it: it.newest,)),
            (Log, "log", (lambda it: it.take_text(b""), lambda it: it.finish_text(), lambda it: it.tally,
                          lambda it: it.present())),
            (Feed, "feed", (lambda it: it.take_text(b""), lambda it: it.finish_text(), lambda it: it.counts,
                            lambda it: it.format)),
            (lambda: Order(5), "order", (lambda it: it.take([], b""), lambda it: it.flush(), lambda it: it.held)),
        ):
            one = kind()
            one.close()
            for call in calls:
                self.told(Fault, f"no tracker, log, feed or order: the {name} is closed", call, one)

    def test_shown(self):
        """Values are shown in one line, cut, also long ones and ones without a repr."""
        lines = type("Lines", (), {"__repr__": lambda self: "two\n  lines\nthree"})()
        broken = type("Broken", (), {"__repr__": lambda self: {}["x"]})()
        for value, text in ((5, "5"), ("a  b\n", r"'a  b\n'"), (lines, "two lines three"),
                            (broken, "a value of type Broken"), ("x" * 60, "'" + "x" * 59),
                            ("x" * 58, f"'{'x' * 58}'"), (b"x" * 10**6, "b'" + "x" * 58),
                            ([1] * 10**6, ("[" + "1, " * 60)[:60]), ([1, 2], "[1, 2]")):
            self.assertEqual(_errors.shown(value), text)
        if sys.version_info >= (3, 11):
            self.told(ValueError, f"{millis('a window is')}a value of type int", Tracker, 10**5000)


class Missing(unittest.TestCase):
    """What is missing is named in one line, and what to do about it."""

    def run_alone(self, code, **where):
        """Runs code in a copy of the package without a library beside it. Returns the last line of its errors."""
        with tempfile.TemporaryDirectory() as folder:
            shutil.copytree(os.path.join(HERE, "..", "squitter"), os.path.join(folder, "squitter"),
                            ignore=lambda folder, names: [name for name in names if not name.endswith(".py")])
            where = {name: value.replace("FOLDER", folder) for name, value in where.items()}
            around = {name: value for name, value in os.environ.items() if name != "LIBSQUITTER"}
            done = subprocess.run([sys.executable, "-c", code], cwd=folder, stderr=subprocess.PIPE, text=True,
                                  env={**around, "PYTHONPATH": folder, "LC_ALL": "C", **where})
            last = done.stderr.strip().splitlines()[-1]
            return last.replace(os.path.realpath(folder), "FOLDER").replace(folder, "FOLDER")

    def test_no_library(self):
        no_library = """
import ctypes, ctypes.util
load, ctypes.util.find_library = ctypes.CDLL, lambda name: None
def only_by_path(name):
    return load(name if "/" in name else "/nonesuch")
ctypes.CDLL = only_by_path
import squitter"""
        line = self.run_alone(no_library)
        self.assertEqual(line, "OSError: libsquitter.so.0 is neither in FOLDER/squitter nor in FOLDER nor where the "
                               "system has its libraries: build it with `make -C clib` in a clone, or set LIBSQUITTER "
                               "to its path")
        line = self.run_alone(no_library, LIBSQUITTER="/nonesuch.so")
        self.assertEqual(line, "OSError: LIBSQUITTER has to be the path of libsquitter.so.0, or unset: /nonesuch.so: "
                               "cannot open shared object file: No such file or directory")
        line = self.run_alone("open('libsquitter.so.0', 'w').close()" + no_library)
        self.assertEqual(line, "OSError: FOLDER/libsquitter.so.0 cannot be loaded; build it again with `make -C "
                               "clib` in a clone: FOLDER/libsquitter.so.0: file too short")

    def test_order_of_places(self):
        """LIBSQUITTER comes first, then the package, the folder around it, the installed one, and the system's."""
        package = os.path.dirname(os.path.abspath(_library.__file__))
        places = [os.path.join(folder, "libsquitter.so.0") for folder in (package, os.path.dirname(package), "/lib/x")]
        tried = []

        def load(name):
            tried.append(name)
            raise OSError("no")

        for there, named, found, wanted in (
            (places, "/named", "found", "/named"), (places, "", "found", places[0]),
            (places[1:], "", "found", places[1]),
            (places[2:], "", "found", places[2]), ([], "", "found", "found"), ([], "", None, "libsquitter.so.0"),
        ):
            with mock.patch.object(_library.ctypes, "CDLL", load), \
                    mock.patch.object(_library.os.path, "exists", there.__contains__), \
                    mock.patch.object(_library, "_found", lambda: found), \
                    mock.patch.object(_library, "_LIBDIR", "/lib/x"), \
                    mock.patch.dict(os.environ, {"LIBSQUITTER": named}):
                with self.assertRaises(OSError) as raised:
                    _library._load()
            self.assertEqual(tried.pop(), wanted)
            self.assertEqual("/lib/x nor where the system has" in str(raised.exception), not there)

    def test_another_version(self):
        with mock.patch.dict(_library.CALLS, {"nonesuch": ([], None)}):
            with self.assertRaises(AttributeError) as raised:
                _library._load()
        self.assertEqual(str(raised.exception),
                         f"{_library._lib._name} lacks squitter_nonesuch, so it is of another version than this "
                         "package: build it again with `make -C clib` in a clone")

    def test_no_numpy(self):
        library = {"LIBSQUITTER": os.path.abspath(_library._lib._name)}
        wanted = ("ModuleNotFoundError: squitter.batch needs NumPy 1.21 or later: pip install numpy, or "
                  "apt install python3-numpy")
        for code in ("import squitter.batch", "from squitter import batch"):
            self.assertEqual(self.run_alone(f"import sys; sys.modules['numpy'] = None; {code}", **library), wanted)
        # A NumPy without typing is too old; what NumPy itself needs is not NumPy.
        old = "import sys, types; sys.modules['numpy'] = types.ModuleType('numpy'); "
        old += "sys.modules['numpy.typing'] = None; import squitter.batch"
        self.assertEqual(self.run_alone(old, **library), wanted)
        name = "try:\n import squitter.batch\nexcept ImportError as error:\n sys.exit(error.name)"
        self.assertEqual(self.run_alone(f"import sys; sys.modules['numpy'] = None\n{name}", **library), "numpy")
        other = ModuleNotFoundError("No module named 'mkl'", name="mkl")
        self.assertIs(_errors.missing(other, "squitter.batch", "NumPy 1.21 or later"), other)
        other = ModuleNotFoundError("No module named 'numpyro'", name="numpyro")
        self.assertIs(_errors.missing(other, "squitter.batch", "NumPy 1.21 or later"), other)
        self.assertIs(_errors.missing(nameless := ModuleNotFoundError("x"), "a", "NumPy"), nameless)


if __name__ == "__main__":
    unittest.main()
