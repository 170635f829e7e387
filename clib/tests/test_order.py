#!/usr/bin/env python3
"""Tests the class Order of the module squitter: squitters that come late, in any cut, many of them, and errors."""
import array
import copy
import doctest
import os
import sys
import unittest

sys.path.insert(0, os.path.join(os.path.dirname(os.path.abspath(__file__)), ".."))
import squitter  # noqa: E402
from squitter import Code, Fault, Order  # noqa: E402

COUNT = 10_000


def frame(number):
    """Returns a frame that begins with this number."""
    return number.to_bytes(2, "big") + bytes(12)


# Squitters that come late by at most 19 ms.
MOMENTS = [1000 + 3 * number - number * 7919 % 20 for number in range(COUNT)]
FRAMES = b"".join(map(frame, range(COUNT)))
SORTED = sorted(range(COUNT), key=MOMENTS.__getitem__)  # Python sorts stably


class Orders(unittest.TestCase):
    def refused(self, code, call, *arguments):
        with self.assertRaises(Fault) as raised:
            call(*arguments)
        self.assertEqual(raised.exception.code, code)

    def test_cuts(self):
        """The squitters are sorted, equal timestamps keep their order, and none is lost, however they are cut."""
        for size in (1, 7, 5000, COUNT):
            times, frames = array.array("Q"), b""
            with Order(20) as order:
                for at in range(0, COUNT, size):
                    more, some = order.take(MOMENTS[at:at + size], FRAMES[14 * at:14 * (at + size)])
                    self.assertEqual((more.typecode, 14 * len(more)), ("Q", len(some)))
                    self.assertEqual(order.held, min(at + size, COUNT) - len(times) - len(more))
                    times += more
                    frames += some
                more, some = order.flush()
                self.assertEqual(order.held, 0)
                self.assertEqual([len(part) for part in order.flush()], [0, 0])
            self.assertEqual((times + more).tolist(), [MOMENTS[number] for number in SORTED])
            self.assertEqual(frames + some, b"".join(map(frame, SORTED)))

    def test_due(self):
        """A squitter is given once one has come that is later by the delay."""
        order = Order(25)
        self.assertEqual(order.take(array.array("Q", [30, 10, 30, 20, 34]), bytearray(70))[0].tolist(), [])
        self.assertEqual(order.take([35], memoryview(frame(1))), (array.array("Q", [10]), bytes(14)))
        self.assertEqual(order.take([55], frame(2))[0].tolist(), [20, 30, 30])
        self.assertEqual(order.take([], b"")[0].tolist(), [])
        self.assertEqual(order.flush(), (array.array("Q", [34, 35, 55]), bytes(14) + frame(1) + frame(2)))
        self.assertEqual(order.late, 0)

    def test_late(self):
        """A squitter below the last timestamp given is dropped and counted; one at it is not. A flush counts too."""
        order = Order(10)
        self.assertEqual(order.take([20, 30], bytes(28))[0].tolist(), [20])
        self.assertEqual((order.take([19], frame(1))[0].tolist(), order.late, order.held), ([], 1, 1))
        self.assertEqual(order.take([20, 21], frame(2) + frame(3)), (array.array("Q", [20]), frame(2)))
        self.assertEqual((order.late, order.flush()[0].tolist()), (1, [21, 30]))
        self.assertEqual((order.take([29, 30, 0], bytes(42))[0].tolist(), order.late, order.held), ([], 3, 1))
        self.assertEqual(order.flush()[0].tolist(), [30])

    def test_many(self):
        """An order takes memory as it needs, and gives all in order: below and above the room of its first block."""
        for count in (4095, 4096, 4097, 5461, 5462, 5463, 20_000):
            with Order(2**64 - 1) as order:
                self.assertEqual(order.take(range(count, 0, -1), bytes(14 * count))[0].tolist(), [])
                self.assertEqual(order.held, count)
                self.assertEqual(order.flush()[0].tolist(), [*range(1, count + 1)])
                self.assertEqual((order.held, order.late), (0, 0))

    def test_grouped(self):
        """Rows that are grouped by aircraft: 20,000 squitters, each group over the whole time, come out in order."""
        moments = [1000 * at + group for group in range(20) for at in range(1000)]
        with Order(2**40) as order:
            self.assertEqual(order.take(moments, bytes(14 * len(moments)))[0].tolist(), [])
            self.assertEqual((order.flush()[0].tolist(), order.late), (sorted(moments), 0))

    def test_ends_of_timestamps(self):
        """The largest timestamp and no delay, and the largest delay."""
        order = Order(0)
        self.assertEqual(order.take([2**64 - 1, 2**64 - 1, 0], bytes(42))[0].tolist(), [2**64 - 1, 2**64 - 1])
        self.assertEqual(order.late, 1)
        order = Order(2**64 - 1)
        self.assertEqual(order.take([1, 0, 2**64 - 1], bytes(42))[0].tolist(), [0])

    def test_errors(self):
        """Wrong arguments are refused, and change nothing."""
        for delay in (-1, 2**64):
            self.assertRaises(ValueError, Order, delay)
        self.assertRaises(TypeError, Order, 0.5)
        order = Order(10)
        for moments, frames in (([1], b""), ([], frame(1)), ([1], frame(1)[1:]), ([-1], frame(1)), ([2**64], frame(1))):
            self.assertRaises(ValueError, order.take, moments, frames)
        self.assertRaises(TypeError, order.take, [1.5], frame(1))
        self.assertRaises(TypeError, order.take, [1], "0" * 14)
        self.assertEqual(order.held, 0)
        self.assertRaisesRegex(TypeError, "^an order cannot be copied or pickled$", copy.copy, order)
        order.close()
        order.close()
        for call in (order.flush, lambda: order.held, lambda: order.late, lambda: order.take([], b""), order.__enter__):
            self.refused(Code.NO_TRACKER, call)

    def test_examples(self):
        self.assertEqual(doctest.testmod(sys.modules["squitter._order"], extraglobs={"Order": squitter.Order})[0], 0)


if __name__ == "__main__":
    unittest.main()
