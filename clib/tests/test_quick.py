#!/usr/bin/env python3
"""How the module squitter calls for one frame: codes in registers, second calls for the numbers of a fault, texts that
are kept, rooms for results, and fractions without slots."""
import ctypes
import os
import sys
import threading
import unittest
from fractions import Fraction
from unittest import mock

sys.path.insert(0, os.path.join(os.path.dirname(os.path.abspath(__file__)), ".."))
import squitter  # noqa: E402
from squitter import Code, Fault, Position, Tracker, What  # noqa: E402

EVEN = "8D40621D58C382D690C8AC2863A7"
ODD = "8D40621D58C386435CC412692AD6"
OTHER = "8D4840D6202CC371C32CE0576098"
GROUND_OLDER = "8C4841753AAB238733C8CD4020B1"
PLACE = Position(Fraction(428091, 8192), Fraction(64215, 16384))
RETURNS_CODE = squitter._library._RETURNS_CODE


def refused(test, code, call, *arguments, first):
    """Tests that a call raises the fault with this code and this first number."""
    with test.assertRaises(Fault) as raised:
        call(*arguments)
    test.assertEqual((raised.exception.code, raised.exception.first, raised.exception.second), (code, first, 0))


class Quick(unittest.TestCase):
    def test_codes_of_calls(self):
        """A call that returns its code alone returns that of the whole fault, on processors of each kind."""
        damaged = bytes.fromhex(EVEN[:-1] + "6")
        for in_registers in (True, False):
            with mock.patch.object(squitter._library, "_RETURNS_CODE", in_registers and RETURNS_CODE):
                read = squitter._library._quick("read_frame")
            room = squitter._Fields()
            at = ctypes.byref(room)
            codes = [read(frame, at) for frame in (bytes(14), damaged, bytes.fromhex(ODD))]
            self.assertEqual(codes, [Code.NOT_DF17, Code.PARITY, 0])
            self.assertEqual((room.address, room.lat, room.lon, room.odd), (0x40621D, 74158, 50194, 1))
        self.assertTrue(RETURNS_CODE or os.uname().machine not in ("x86_64", "aarch64"))
        for length in (0, 1, 27, 28, 29, 30, 31, 1000):
            self.assertEqual(squitter._library._length(b"0" * length).value, length)
        # The library reads all of a text, and nothing after it.
        for length in (0, 1, 27, 29, 30, 31, 1000):
            refused(self, Code.LENGTH, squitter.read, "0" * length, first=length)

    def test_fault_of_a_second_call(self):
        """Each number of a fault is told, though the call by which it is found returns the code alone."""
        tracker = Tracker()
        tracker.hear(7, ODD)
        refused(self, Code.MOMENT_BACK, tracker.hear, 6, EVEN, first=7)
        refused(self, Code.PARITY, tracker.hear, 8, bytes.fromhex(EVEN[:-1] + "6"), first=1)
        refused(self, Code.PARITY, squitter.read, bytes.fromhex(EVEN[:-1] + "6"), first=1)
        self.assertEqual((tracker.last, len(squitter._hearing._ROOMS)), (7, 1))
        # A signal handler changed the tracker before the second call, which takes the frame: it is heard once.
        with mock.patch.object(squitter._hearing, "_tracker_hear", lambda *_: int(Code.TABLE_FULL)):
            self.assertEqual(tracker.hear(9, EVEN), (What.FIX, PLACE, 0, 0))
        self.assertEqual((tracker.last, [it[:2] for it in tracker.present()]), (9, [(0x40621D, 9)]))

    def test_words_of_faults(self):
        """The text of a fault is that of its numbers, also of one that came before, and of numbers that are equal."""
        for code, first, second, text in ((6, 1, 0, "parity 000001"), (6, 2, 0, "parity 000002"),
                                          (6, 1, 0, "parity 000001"), (16, 4, 5, "zone counts 4 5"),
                                          (16, 5, 4, "zone counts 5 4"), (True, 0, 0, "bad wrapping")):
            fault = Fault(code, first, second)
            self.assertEqual(str(fault), f"{text}: {fault.hint}" if fault.hint else text)
        for numbers in ((6, 1.0), (6, 1, 0.0), (16, 4.0, 5)):
            with self.assertRaises(TypeError):
                Fault(*numbers)

    def test_plain_fractions(self):
        """Positions are the same where a Fraction has no slots of the usual names."""
        plain = squitter._library._plain_two(428091, 8192, 64215, 16384)
        self.assertEqual(plain, squitter._library._lowest_two(428091, 8192, 64215, 16384))
        self.assertEqual((plain, [type(part) for part in plain]), (tuple(PLACE), [Fraction, Fraction]))
        for call in (squitter._library._plain, squitter._library._lowest):
            self.assertEqual((call(-3, 4), type(call(-3, 4))), (Fraction(-3, 4), Fraction))

    def test_rooms_of_calls(self):
        """Threads that read and hear at once get their own results, and a call may interrupt another one."""
        told, wanted = [], [(squitter.read(text), squitter.frame(text)) for text in (ODD, EVEN, GROUND_OLDER, OTHER)]

        def work(which):
            text = (ODD, EVEN, GROUND_OLDER, OTHER)[which]
            tracker = Tracker()
            for moment in range(400):
                got = squitter.read(text), squitter.frame(text)
                got_too = squitter.read(got[1]), squitter.frame(f"*{text};")
                what = tracker.hear(moment, text).what
                if got != wanted[which] or got_too != got or (which < 3) != (what is What.WAITING):
                    told.append((which, got, what))

        was = sys.getswitchinterval()
        self.addCleanup(sys.setswitchinterval, was)
        sys.setswitchinterval(1e-6)
        threads = [threading.Thread(target=work, args=(number % 4,)) for number in range(8)]
        for thread in threads:
            thread.start()
        for thread in threads:
            thread.join()
        self.assertEqual(told, [])
        # A call has its room for itself: one that is made in the middle of another does not write to it.
        for rooms, call in ((squitter._FIELDS_ROOMS, squitter.read), (squitter._FRAME_ROOMS, squitter.frame),
                            (squitter._hearing._ROOMS, lambda text: Tracker().hear(1, text))):
            rooms.clear()
            call(ODD)
            (mine,) = rooms
            taken = rooms.pop()
            call(EVEN)
            self.assertEqual((taken is mine, len(rooms), rooms[0] is mine), (True, 1, False))
            (mine,) = rooms
            call(EVEN)
            self.assertTrue(len(rooms) == 1 and rooms[0] is mine)
        for _ in range(3):
            with self.assertRaises(Fault):
                squitter.read(EVEN[:-1] + "6")
            with self.assertRaises(Fault):
                squitter.frame("*")
        self.assertEqual([len(rooms) for rooms in (squitter._FIELDS_ROOMS, squitter._FRAME_ROOMS)], [1, 1])


if __name__ == "__main__":
    unittest.main()
