#!/usr/bin/env python3
"""The module squitter: each call on a worked row, each fault as it is raised, and what Python alone adds.
test_hearing.py has contacts, trackers and logs."""
import array
import copy
import dataclasses
import doctest
import os
import pickle
import sys
import unittest
from decimal import Decimal
from fractions import Fraction

CLIB = os.path.join(os.path.dirname(os.path.abspath(__file__)), "..")
sys.path.insert(0, CLIB)
import squitter  # noqa: E402
from squitter import (  # noqa: E402
    AirHead, AltitudeForm, Code, Contact, Fault, GroundHead, Kind, Log, Position, Tracker, What,
)

EVEN = "8D40621D58C382D690C8AC2863A7"
ODD = "8D40621D58C386435CC412692AD6"
OTHER = "8D4840D6202CC371C32CE0576098"
GROUND_OLDER = "8C4841753AAB238733C8CD4020B1"
GROUND_NEWER = "8C4841753A8A35323FAEBDAC702D"
PLACE = Position(Fraction(428091, 8192), Fraction(64215, 16384))
GROUND_PLACE = Position(Fraction(202304115, 3866624), Fraction(2172069, 458752))
SITE = Position(Fraction(51990, 1000), Fraction(4375, 1000))

# The faults that say what to do: all that calls raise.
HINTED = {*Code} - {Code.OK, Code.LONG_LINE, Code.BAD_MOMENT, Code.LONG_LOG, Code.NO_MEMORY, Code.BAD_FORMAT}


class Refusing(unittest.TestCase):
    """Tests of calls that raise faults."""

    def refused(self, code, call, *arguments, first=0, second=0, **named):
        with self.assertRaises(Fault) as raised:
            call(*arguments, **named)
        fault = raised.exception
        self.assertEqual((fault.code, fault.first, fault.second), (code, first, second))
        text = squitter.fault_text(code, first, second)
        self.assertEqual(str(fault), f"{text}: {fault.hint}" if fault.hint else text)
        self.assertEqual(bool(fault.hint), code in HINTED)
        self.assertNotIn("\n", str(fault))


class Calls(Refusing):
    """Frames, angles, positions and zones."""

    def test_each_field(self):
        """Each field of a squitter in its place, each with a value of its own, in the air and on the ground."""
        altitude = squitter.field_of_feet(-300)
        air = AirHead(0x123456, altitude, ca=3, type_code=18, status=2, flag=1, time=0, odd=1)
        read = squitter.read(squitter.encode(air, Position(1, 2)))
        self.assertEqual(read._replace(lat=0, lon=0, raw=0), squitter.Fields(
            Kind.AIR, 0x123456, 3, 18, 1, 0, 0, 0, 2, 1, altitude, AltitudeForm.FEET, -300, 0, 0, 0, 0))
        ground = GroundHead(0xABCDEF, ca=6, type_code=7, movement=100, track_status=1, track=90, time=1)
        read = squitter.read(squitter.encode(ground, Position(1, 2)))
        self.assertEqual(read._replace(lat=0, lon=0, raw=0), squitter.Fields(
            Kind.GROUND, 0xABCDEF, 6, 7, 0, 0, 0, 1, 0, 0, 0, AltitudeForm.NONE, None, 100, 1, 90, 0))

    def test_lacked_fields(self):
        """What a squitter lacks is None where 0 is a value: the code of no position, and no altitude in feet."""
        nowhere = AirHead(5, altitude=0), AirHead(5, altitude=squitter.field_of_feet(0)), GroundHead(5)
        frames = ["8D485020994409940838175B284F", EVEN, *(squitter.encode(head, Position(0, 0)) for head in nowhere)]
        told = [(read.lat, read.lon, read.lat_code, read.lon_code, read.feet) for read in map(squitter.read, frames)]
        self.assertEqual(told, [(None,) * 5, (93000, 51372, 93000, 51372, 38000), (0, 0, 0, 0, None), (0, 0, 0, 0, 0),
                                (0, 0, 0, 0, None)])
        many = squitter.read_many(b"".join(map(squitter.frame, frames)))
        self.assertEqual([(read.lat, read.feet) for read in many], [(lat, feet) for lat, *_, feet in told])

    def test_public_names(self):
        """A prompt completes the public names, and no imports or helpers."""
        names = [name for name in dir(squitter) if not name.startswith("__")]
        self.assertEqual(sorted({*names} - {"batch"}), sorted(squitter.__all__))
        self.assertTrue({"__doc__", "__name__"} <= {*dir(squitter)})
        self.assertTrue(all(hasattr(squitter, name) for name in dir(squitter)))

    def test_frames(self):
        frame = squitter.frame(f"*{EVEN.lower()};")
        self.assertEqual(frame, bytes.fromhex(EVEN))
        self.assertEqual(squitter.frame_text(frame), EVEN)
        self.assertEqual(squitter.frame(bytearray(frame)), frame)
        self.refused(Code.WRAP, squitter.frame, "*")
        self.refused(Code.SHORT, squitter.frame, "5D40621D000000")
        self.refused(Code.LENGTH, squitter.frame, "", first=0)
        self.refused(Code.DIGIT, squitter.frame, EVEN[:-1] + "G", first=28)
        self.refused(Code.LENGTH, squitter.frame, EVEN[:-1] + "\u00e9", first=29)
        for other in (b"\0" * 13, b"", array.array("H", range(14)), array.array("H", range(7))):
            with self.assertRaises(ValueError):
                squitter.frame(other)
        for other in (14, [0] * 14, None):
            with self.assertRaises(TypeError):
                squitter.frame(other)
        self.assertEqual(squitter.frame(memoryview(b"-" + frame)[1:]), frame)
        self.refused(Code.DIGIT, squitter.frame, "\ud800" + EVEN[3:], first=1)
        self.refused(Code.DIGIT, squitter.frame, "\udc80" + EVEN[1:], first=1)

    def test_arrays(self):
        bad, even, odd = bytes(14), bytes.fromhex(EVEN), bytes.fromhex(ODD)
        near = Position(52, 4)
        fault, first, second = squitter.read_many(bad + even + odd)
        self.assertEqual((fault.code, fault.first), (Code.NOT_DF17, 0))
        self.assertEqual((first, second), (squitter.read(EVEN), squitter.read(ODD)))
        self.assertEqual(squitter.read_many(b""), [])
        place, fault = squitter.local_many(even + bad, [near, near])
        self.assertEqual((place, fault.code), (PLACE, Code.NOT_DF17))
        self.assertEqual(squitter.local_many(even, [Position(91, 0)])[0].code, Code.BAD_POSITION)
        older, newer = bytes.fromhex(GROUND_OLDER) + odd, bytes.fromhex(GROUND_NEWER) + even
        fault, place = squitter.pair_many(older, newer)
        self.assertEqual((fault.code, place), (Code.NO_SITE, PLACE))
        self.assertEqual(squitter.pair_many(older, newer, SITE), [GROUND_PLACE, PLACE])
        for site in (None, SITE):
            one, many = Contact(10_000, site), Contact(10_000, site)
            waiting, fault, fix, back = many.hear_many([5, 6, 7, 6], odd + bad + even + odd)
            self.assertEqual((waiting, fix), (one.hear(5, ODD), one.hear(7, EVEN)))
            self.assertEqual((fault.code, back.code, back.first), (Code.NOT_DF17, Code.MOMENT_BACK, 7))
            self.assertEqual((many.last, many.newest), (one.last, one.newest))
        for call, arguments in (
            (squitter.read_many, (b"-",)), (squitter.local_many, (even, [])), (squitter.pair_many, (older, even)),
            (Contact(1).hear_many, ([], even)), (Contact(1).hear_many, ([-1], even)),
        ):
            with self.assertRaises(ValueError):
                call(*arguments)

    def test_moments_of_many(self):
        """Any sequence of whole numbers gives timestamps, and each border and error is that of single calls."""
        frames = bytes.fromhex(ODD + EVEN)
        wanted = [Tracker().hear(5, ODD), PLACE]
        for moments in ([5, 6], (5, 6), range(5, 7), b"\5\6", bytearray(b"\5\6"), array.array("Q", [5, 6]),
                        array.array("i", [5, 6]), array.array("B", [5, 6]), [5, True + 5]):
            waiting, fix = Tracker().hear_many(moments, frames)
            self.assertEqual([waiting, fix.position], wanted, moments)
        late = (1 << 64) - 1
        whats = [heard.what for heard in Tracker().hear_many([late - 1, late], frames)]
        self.assertEqual(whats, [What.WAITING, What.FIX])
        for moment in (0, 1, (1 << 31) - 1, 1 << 31, 1 << 32, (1 << 53) + 1, 1 << 63, late):
            one, many = Tracker(), Tracker()
            for tracker, heard in ((one, one.hear(moment, ODD)), (many, many.hear_many([moment], frames[:14])[0])):
                self.assertEqual((heard.what, tracker.last, [it.moment for it in tracker.present()]),
                                 (What.WAITING, moment, [moment]))
        for moments in ([5, -1], [5, 1 << 64], [-1, 5], [5], [5, 6, 7]):
            with self.assertRaises(ValueError):
                Tracker().hear_many(moments, frames)
        for moments in ([5, 6.0], [5, "6"], [5, None], "56"):
            with self.assertRaises(TypeError):
                Tracker().hear_many(moments, frames)

        class Short(list):
            def __iter__(self):
                return iter([5])

        with self.assertRaises(ValueError):
            Tracker().hear_many(Short([5, 6]), frames)

    def test_sizes_of_frames(self):
        """The library gets 14 bytes, whatever a caller passes, and the timestamp that it means."""
        class Index:
            def __index__(self):
                return 7

        frame = bytes.fromhex(ODD)
        for wrong in (b"", frame[:13], frame + b"\0", frame * 2, bytearray(13), memoryview(frame)[:13]):
            for call in (squitter.frame, squitter.read, lambda source: Tracker().hear(1, source)):
                with self.assertRaisesRegex(ValueError, f"^a frame is 14 bytes .*, not {len(wrong)} bytes"):
                    call(wrong)
        for right in (frame, bytearray(frame), memoryview(frame), ODD, f"*{ODD};"):
            self.assertEqual(squitter.read(right), squitter.read(ODD))
            for moment in (7, Index(), True):
                tracker = Tracker()
                self.assertEqual(tracker.hear(moment, right).what, What.WAITING)
                self.assertEqual(tracker.last, int(moment) if moment is True else 7)
        tracker = Tracker(window=10)
        heard = tracker.hear_many([0, 1, 11, 12, 12, 40], bytes.fromhex(ODD + EVEN + EVEN + EVEN + OTHER + EVEN))
        self.assertEqual([(one.what, one.position) for one in heard], [
            (What.WAITING, None), (What.FIX, PLACE), (What.FOLLOWED, PLACE), (What.FOLLOWED, PLACE),
            (What.NO_PLACE, None), (What.WAITING, None)])

    def test_results_are_fractions(self):
        """The fractions of results are those that Fraction makes, in lowest terms, for all that a caller may do."""
        places = [squitter.local(EVEN, Position(52, 4)), squitter.pair(ODD, EVEN)]
        places += squitter.local_many(bytes.fromhex(EVEN), [Position(52, 4)])
        tracker = Tracker()
        tracker.hear(0, ODD)
        places += [tracker.hear(1, EVEN).position, Tracker().hear_many([0, 1], bytes.fromhex(ODD + EVEN))[1].position]
        for place in places:
            self.assertIs(type(place), Position)
            self.assertEqual((place, repr(place), hash(place)), (PLACE, repr(PLACE), hash(PLACE)))
            for part, wanted in zip(place, PLACE):
                self.assertIs(type(part), Fraction)
                self.assertEqual((part.numerator, part.denominator), (wanted.numerator, wanted.denominator))
                self.assertEqual((part + 1, part / 3, -part), (wanted + 1, wanted / 3, -wanted))
                self.assertEqual((float(part), round(part, 3)), (float(wanted), round(wanted, 3)))
                self.assertEqual(pickle.loads(pickle.dumps(part)), wanted)
        self.assertEqual(squitter.angle("-0.50"), Fraction(-1, 2))
        self.assertEqual(squitter.angle("0"), Fraction(0))
        self.assertEqual([type(one) for one in (squitter.read(EVEN), squitter.read_many(bytes.fromhex(EVEN))[0],
                                                tracker.hear(2, ODD), tracker.hear_many([3], bytes.fromhex(ODD))[0])],
                         [squitter.Fields, squitter.Fields, squitter.Heard, squitter.Heard])
        self.assertEqual(squitter._library._lowest(3, 4), Fraction(3, 4))

    def test_whole_numbers(self):
        self.assertEqual(squitter.position_e7(PLACE), (522572021, 39193726))
        self.assertEqual(squitter.angle_e7(360), 3600000000)
        self.assertEqual(squitter.angle_e7(Fraction(-1, 20000000)), -1)
        self.refused(Code.BAD_ANGLE, squitter.angle_e7, 361)
        self.refused(Code.BAD_POSITION, squitter.position_e7, Position(91, 0))

    def test_fields(self):
        fields = squitter.read(EVEN)
        self.assertEqual(fields, squitter.read(bytes.fromhex(EVEN)))
        self.assertEqual((fields.kind, fields.address, fields.ca, fields.type_code), (Kind.AIR, 0x40621D, 5, 11))
        self.assertEqual((fields.odd, fields.lat, fields.lon), (0, 93000, 51372))
        self.assertEqual((fields.altitude_form, fields.feet, fields.altitude), (AltitudeForm.FEET, 38000, 0xC38))
        self.assertEqual(squitter.read(GROUND_NEWER).kind, Kind.GROUND)
        self.refused(Code.PARITY, squitter.read, EVEN[:-1] + "6", first=1)
        self.refused(Code.NOT_DF17, squitter.read, bytes(14))

    def test_local(self):
        self.assertEqual(squitter.local(EVEN, Position(52, 4)), PLACE)
        self.refused(Code.BAD_POSITION, squitter.local, EVEN, Position(91, 0))
        self.refused(Code.BAD_POSITION, squitter.local, EVEN, Position(Fraction(1, 1 << 64), 0))

    def test_degrees(self):
        """Positions can be whole numbers, fractions, decimals, texts or floats. A float counts as its shortest text."""
        here = Position(Fraction(5225, 100), Fraction(-1, 8))
        wanted = squitter.local(EVEN, Position(Fraction(5225, 100), 4))
        for lat in ("52.25", Decimal("52.25"), Decimal("5225E-2"), Fraction(209, 4), "52.250000000000", 52.25):
            self.assertEqual(squitter.local(EVEN, Position(lat, "4")), wanted)
            self.assertEqual(squitter.position_e7(Position(lat, "-0.125")), squitter.position_e7(here))
            site = Position("51.99", Decimal("4.375"))
            self.assertEqual(squitter.pair(GROUND_OLDER, GROUND_NEWER, site), GROUND_PLACE)
            self.assertEqual(squitter.zone_count(lat), 36)
            self.assertEqual(Contact(10, Position(lat, 4)).hear(1, ODD).what, What.WAITING)
        self.assertEqual(squitter.angle_text(Decimal("-0.125")), "-0.1250000")
        for text, code in (("x", Code.NOT_A_NUMBER), ("1.0000000000000", Code.TOO_MANY_DECIMALS),
                           ("361", Code.ANGLE_RANGE), ("", Code.NOT_A_NUMBER)):
            self.refused(code, squitter.local, EVEN, Position(text, 4))
        for number in ("NaN", "Infinity", "1E+30", "1E-500", "1E-70", "1E+1000000", "91", "-sNaN"):
            self.refused(Code.BAD_POSITION, squitter.local, EVEN, Position(Decimal(number), 4))
        self.refused(Code.BAD_ANGLE, squitter.angle_text, Decimal("NaN"))
        class Float(float):
            def __repr__(self):
                return f"Float({float(self)})"

        for number, fraction in ((52.31, Fraction(5231, 100)), (0.1, Fraction(1, 10)), (-0.0, 0), (90.0, 90),
                                 (1e-07, Fraction(1, 10**7)), (Float(4.76), Fraction(476, 100))):
            self.assertEqual(squitter.angle_text(number), squitter.angle_text(fraction))
            here, there = Position(number, number), Position(fraction, fraction)
            self.assertEqual(bytes(squitter._position(here)), bytes(squitter._position(there)))
        for wrong in (float("nan"), float("inf"), float("-inf"), 91.0, -90.00000000000001, 1e300, 5e-324):
            self.refused(Code.BAD_POSITION, squitter.local, EVEN, Position(wrong, 4))
        for wrong in (None, b"52", 1j, [52]):
            with self.assertRaisesRegex(TypeError, "are an int, a Fraction, a Decimal, a float or a text, not "):
                squitter.local(EVEN, Position(wrong, 4))

    def test_float_sites(self):
        """A site in floats is the site of their texts, for each class and call that takes one."""
        heard = [(1, GROUND_OLDER), (2, GROUND_NEWER)]
        for floats, texts in (((51.99, 4.375), ("51.99", "4.375")), ((1e-07, -1e-07), ("0.0000001", "-0.0000001")),
                              ((-90.0, 180.0), ("-90", "180")), ((90.0, -180.0), ("90", "-180")),
                              ((1e-12, -0.0), ("0.000000000001", "0")), ((52.25, 3.92), ("52.25", "3.92"))):
            self.assertEqual(bytes(squitter._position(floats)), bytes(squitter._position(texts)))
            self.assertEqual(squitter.position_e7(floats), squitter.position_e7(texts))
            for kind in (Contact, Tracker):
                given, wanted = kind(site=floats), kind(site=Position(*texts))
                for moment, frame in heard:
                    answer = wanted.hear(moment, frame)
                    self.assertEqual(given.hear(moment, frame), answer)
                    self.assertEqual(copy.copy(given).hear(moment, frame), copy.copy(wanted).hear(moment, frame))
            lines = "".join(f"{moment} {frame}\n" for moment, frame in heard).encode()
            self.assertEqual(Log(site=floats).take_text(lines), Log(site=texts).take_text(lines))
            pairs = [squitter.pair_many(*map(bytes.fromhex, (GROUND_OLDER, GROUND_NEWER)), site)[0]
                     for site in (floats, texts)]
            self.assertEqual(*(pair.code if isinstance(pair, Fault) else pair for pair in pairs))
            frames = [squitter.send_again(EVEN, 0, place) for place in (floats, texts)]
            self.assertEqual(*frames)
            self.assertEqual(*(squitter.local(frames[0], place) for place in (floats, texts)))
            self.assertEqual(*(squitter.local_zones(frames[0], place) for place in (floats, texts)))
            self.assertEqual(*(squitter.encode(AirHead(1), place) for place in (floats, texts)))
        self.assertEqual(squitter.pair(GROUND_OLDER, GROUND_NEWER, (51.99, 4.375)), GROUND_PLACE)

    def test_hints(self):
        """A fault for degrees says in one line what is wanted and what was given, wherever they are taken."""
        latitude, longitude, angle = ("a latitude is from -90 to 90 degrees", "a longitude is from -180 to 180 degrees",
                                      "an angle is from -360 to 360 degrees")
        decimals, denominator = "with at most 12 decimals, not ", "with a denominator of at most 10**12, not "
        nan, inf = float("nan"), float("inf")
        sites = (
            ((nan, 4), f"{latitude} {decimals}nan"), ((4.0, nan), f"{longitude} {decimals}nan"),
            ((inf, 4), f"{latitude} {decimals}inf"), ((4, -inf), f"{longitude} {decimals}-inf"),
            ((90.00000000000001, 4), f"{latitude} {decimals}90.00000000000001"),
            ((-90.00000000000001, 4), f"{latitude} {decimals}-90.00000000000001"),
            ((90.1, 4), f"{latitude} {decimals}90.1"), ((-90.1, 4), f"{latitude} {decimals}-90.1"),
            ((4, 180.1), f"{longitude} {decimals}180.1"), ((4, -180.1), f"{longitude} {decimals}-180.1"),
            ((4, 180.00000000000003), f"{longitude} {decimals}180.00000000000003"),
            ((91, 181), f"{latitude} {denominator}91"), ((90, 181), f"{longitude} {denominator}181"),
            (("91", 4), f"{latitude} {decimals}'91'"),
            ((4, Decimal("180.5")), f"{longitude} {decimals}Decimal('180.5')"),
            ((1e300, 4), f"{latitude} {decimals}1e+300"), ((4, 5e-324), f"{longitude} {decimals}5e-324"),
            ((1e-13, 4), f"{latitude} {decimals}1e-13"), ((4, 52.300000000000004), f"{longitude} {decimals}52.3000"),
            ((Fraction(1, 10**12 + 1), 4), f"{latitude} {denominator}Fraction(1, 1000000000001)"),
            ((4, 1 << 64), f"{longitude} {denominator}18446744073709551616"),
        )
        calls = (
            lambda site: Tracker(site=site), lambda site: Contact(site=site), lambda site: Log(site=site),
            squitter.position_e7, lambda site: squitter.pair(GROUND_OLDER, GROUND_NEWER, site),
            lambda site: squitter.local(EVEN, site), lambda site: squitter.local("", site),
            lambda site: squitter.local_zones(EVEN, site), lambda site: squitter.encode(AirHead(1), site),
            lambda site: squitter.send_again(EVEN, 0, site), lambda site: squitter.pair("", EVEN, site),
        )
        for site, hint in sites:
            for call in calls:
                with self.assertRaises(Fault) as told:
                    call(site)
                self.assertEqual(told.exception.code, Code.BAD_POSITION)
                self.assertTrue(str(told.exception).startswith(f"bad position: {hint}"), told.exception)
        for call, code, wanted, most in (
            (squitter.zone_count, Code.BAD_LATITUDE, latitude, 90), (squitter.angle_text, Code.BAD_ANGLE, angle, 360),
            (squitter.angle_e7, Code.BAD_ANGLE, angle, 360),
        ):
            for right in (float(most), -float(most), most, f"-{most}", 1e-12, Fraction(1, 10**12), Decimal("1E-12")):
                call(right)
            for wrong in (nan, inf, most + 0.1, -most - 0.1, 1e-13, Decimal("NaN"), Decimal("1E-500"), 1e30):
                self.refused(code, call, wrong)
                with self.assertRaisesRegex(Fault, f"^bad [a-z]*: {wanted} with at most 12 decimals, not {wrong!r:.6}"
                                            .replace("(", r"\(").replace("+", r"\+")):
                    call(wrong)
            with self.assertRaisesRegex(Fault, f"{wanted} with a denominator of at most 10..12, not {most + 1}$"):
                call(most + 1)
        self.assertLess(len(str(self.told(squitter.angle_e7, Fraction(1, 3**200)))), 160)
        self.assertEqual(squitter.angle_e7(round(51.56620156177409, 12)), 515662016)

    def told(self, call, *arguments):
        """Returns the Fault that a call raises."""
        with self.assertRaises(Fault) as raised:
            call(*arguments)
        return raised.exception

    def test_told(self):
        """An error says in one line which value is wanted, and which one was given."""
        for wrong in (5, None, [EVEN], 1.5):
            with self.assertRaisesRegex(TypeError, "^a frame is 14 bytes or a text of 28 hexadecimal digits, not "):
                squitter.read(wrong)
        for wrong in (b"", bytes(13), bytes(15), EVEN.encode()):
            with self.assertRaisesRegex(ValueError, f"^a frame is 14 bytes or a text .*, not {len(wrong)} bytes"):
                squitter.frame(wrong)
        for wrong in (float("nan"), 52.25, 52, None, b"52"):
            with self.assertRaisesRegex(TypeError, "^an angle is read from a text, as '52.25', not from "):
                squitter.angle(wrong)
        for wrong in (5, (1, 2, 3), None, Fraction(1)):
            with self.assertRaisesRegex(TypeError, "^a position is a Position, or a latitude and a longitude, not "):
                squitter.local(EVEN, wrong)

    def test_feet_as_altitude(self):
        """The fault for feet in the altitude field says how to get the field. It does not for other numbers."""
        for feet in (4100, 38000, 50175):
            with self.assertRaises(Fault) as told:
                squitter.encode(AirHead(0x40621D, altitude=feet), Position(52, 4))
            self.assertEqual(told.exception.code, Code.BAD_FIELDS)
            text = squitter.fault_text(Code.BAD_FIELDS)
            wanted = f"{text}: altitude is a field of 12 bits; for {feet} feet use field_of_feet({feet})"
            for fault in (told.exception, pickle.loads(pickle.dumps(told.exception)), copy.copy(told.exception)):
                self.assertEqual((str(fault), fault.code), (wanted, Code.BAD_FIELDS))
        for field in (4096, 4101, 50176, 50200, 65536, -25):
            self.refused(Code.BAD_FIELDS, squitter.encode, AirHead(0, altitude=field), Position(52, 4))
            with self.assertRaisesRegex(Fault, f"^bad fields: altitude is a field of 12 bits, not {field}$"):
                squitter.encode(AirHead(0, altitude=field), Position(52, 4))
        field = squitter.field_of_feet(38000)
        self.assertEqual(squitter.read(squitter.encode(AirHead(0, altitude=field), Position(52, 4))).feet, 38000)

    def test_names(self):
        fields = squitter.read(EVEN)
        self.assertEqual((fields.lat_code, fields.lon_code), (fields.lat, fields.lon))
        self.assertEqual((fields.lat_code, fields.lon_code), (93000, 51372))
        self.assertEqual(squitter.__version__, squitter.version())

    def test_zones(self):
        self.assertEqual(squitter.local_zones(EVEN, Position(52, 4)), (8, 0, 360, 60, 36, 36, 0))
        self.assertEqual(squitter.local_zones(ODD, Position(52, 4)), (8, 0, 360, 59, 36, 35, 1))
        south = squitter.local_zones("8C4280A23800038C883EB75816F9", Position(-21, -144))
        self.assertEqual(south, (-15, 132, 90, 60, 55, 55, 0))
        self.refused(Code.BAD_POSITION, squitter.local_zones, EVEN, Position(91, 0))

    def test_pairs(self):
        self.assertEqual(squitter.pair(ODD, EVEN), PLACE)
        self.assertEqual(squitter.pair(GROUND_OLDER, GROUND_NEWER, SITE), GROUND_PLACE)
        self.refused(Code.NO_SITE, squitter.pair, GROUND_OLDER, GROUND_NEWER)
        self.refused(Code.SAME_PARITY, squitter.pair, EVEN, EVEN)
        self.refused(Code.OTHER_ADDRESS, squitter.pair, GROUND_OLDER, EVEN)

    def test_order_of_faults(self):
        damaged = EVEN[:-1] + "6"
        self.refused(Code.PARITY, squitter.pair, damaged, "", first=1)
        self.refused(Code.LENGTH, squitter.pair, "", damaged)
        self.refused(Code.BAD_POSITION, squitter.pair, "", damaged, Position(91, 0))
        self.refused(Code.BAD_POSITION, squitter.pair, damaged, "", Position(91, 0))
        self.refused(Code.BAD_POSITION, squitter.local, "", Position(91, 0))

    def test_sending(self):
        frame = squitter.encode(AirHead(0x40621D, altitude=squitter.field_of_feet(38000)), PLACE)
        self.assertEqual(frame, bytes.fromhex(EVEN))
        fields = squitter.read(GROUND_NEWER)
        head = GroundHead(fields.address, fields.ca, fields.type_code, fields.movement, fields.track_status,
                          fields.track, fields.time, fields.odd)
        self.assertEqual(squitter.encode(head, GROUND_PLACE), bytes.fromhex(GROUND_NEWER))
        self.assertEqual(squitter.send_again(ODD, 0, PLACE), bytes.fromhex(EVEN))
        self.refused(Code.BAD_FIELDS, squitter.encode, AirHead(1 << 24), PLACE)
        self.refused(Code.BAD_FIELDS, squitter.encode, AirHead(1 << 32), PLACE)
        nowhere = Position(Fraction(1, 1 << 64), 0)
        self.refused(Code.BAD_FIELDS, squitter.encode, AirHead(1 << 24), nowhere)
        self.refused(Code.BAD_FIELDS, squitter.encode, AirHead(1, type_code=99), nowhere)
        self.refused(Code.BAD_FIELDS, squitter.encode, GroundHead(1, type_code=99), nowhere)
        self.refused(Code.BAD_POSITION, squitter.encode, AirHead(1), nowhere)
        with self.assertRaises(TypeError):
            squitter.encode(AirHead(1.0), PLACE)
        self.refused(Code.BAD_PARITY, squitter.send_again, ODD, 2, PLACE)
        for wrong in (-1, 1.0, Fraction(1), Decimal(1), None, "1"):
            self.refused(Code.BAD_PARITY, squitter.send_again, ODD, wrong, PLACE)

    def test_parts(self):
        self.assertEqual(squitter.zone_count(Fraction(-523, 10)), 36)
        self.assertEqual(squitter.angle_text(Fraction(-1, 8)), "-0.1250000")
        self.assertEqual(squitter.angle("-0.50"), Fraction(-1, 2))
        self.assertEqual(squitter.feet_of_field(11, 0xC38), (AltitudeForm.FEET, 38000))
        self.assertEqual(squitter.feet_of_field(20, 5), (AltitudeForm.OTHER, None))
        with open(os.path.join(os.path.dirname(__file__), "..", "..", "VERSION"), encoding="utf-8") as file:
            self.assertEqual(squitter.version(), file.read().strip())
        self.refused(Code.BAD_LATITUDE, squitter.zone_count, 91)
        self.refused(Code.BAD_ANGLE, squitter.angle_text, 361)
        self.refused(Code.NOT_A_NUMBER, squitter.angle, "1e3")
        self.refused(Code.TOO_MANY_DECIMALS, squitter.angle, "1.0000000000000")
        self.refused(Code.ANGLE_RANGE, squitter.angle, "360.1")
        self.refused(Code.BAD_FEET, squitter.field_of_feet, 38001)
        self.refused(Code.BAD_FEET, squitter.field_of_feet, 1 << 40)
        self.refused(Code.BAD_FIELDS, squitter.feet_of_field, 19, 0)

    def test_classes_of_heads(self):
        """Heads have defaults, are equal by their fields, cannot be changed, and are pickled by their public names."""
        for head, fields in ((AirHead(7), (7, 0, 5, 11, 0, 0, 0, 0)), (GroundHead(7), (7, 4, 7, 0, 0, 0, 0, 0))):
            self.assertEqual(dataclasses.astuple(head), fields)
            self.assertEqual(pickle.loads(pickle.dumps(head)), head)
            self.assertEqual((type(head).__module__, type(head)), ("squitter", getattr(squitter, type(head).__name__)))
            with self.assertRaises(dataclasses.FrozenInstanceError):
                head.ca = 1
        self.assertEqual([name for name in squitter.__all__ if not hasattr(squitter, name)], [])
        with self.assertRaisesRegex(AttributeError, "module 'squitter' has no attribute 'nonesuch'"):
            squitter.nonesuch

    def test_faults(self):
        self.assertEqual(squitter.fault_text(Code.ZONE_COUNTS, 45, 44), "zone counts 45 44")
        self.assertEqual(squitter.fault_text(Code.PARITY, 10), "parity 00000A")
        self.assertEqual(squitter.fault_text(77), "unknown fault")
        self.assertEqual(squitter.fault_text(Code.NO_TRACKER, 5, 6), "no tracker, log, feed or order")
        texts = [squitter.fault_text(code) for code in Code]
        self.assertNotIn("unknown fault", texts)
        for code, first, second in ((1 << 32, 0, 0), (-1, 0, 0), (6, 1 << 64, 0), (16, 45, 1 << 32)):
            with self.assertRaises(ValueError):
                squitter.fault_text(code, first, second)


def load_tests(loader, tests, pattern):
    tests.addTests(doctest.DocTestSuite(squitter))
    tests.addTests(doctest.DocTestSuite(squitter._hearing))
    return tests


if __name__ == "__main__":
    unittest.main()
