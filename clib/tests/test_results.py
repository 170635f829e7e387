#!/usr/bin/env python3
"""The results of calls of arrays: a sequence that makes each result when it is asked for. Copies of subclasses of
Tracker."""
from __future__ import annotations

import copy
import os
import pickle
import sys
import threading
import unittest
from fractions import Fraction
from typing import Any, Dict, List

HERE = os.path.dirname(os.path.abspath(__file__))
sys.path.insert(0, os.path.join(HERE, ".."))
import squitter  # noqa: E402
from squitter import Code, Fault, Fields, Position, Results, Tracker, What  # noqa: E402

EVEN, ODD = "8D40621D58C382D690C8AC2863A7", "8D40621D58C386435CC412692AD6"
DAMAGED = "8D40621D58C382D690C8AC2863A6"
MIXED = b"".join(map(squitter.frame, (EVEN, DAMAGED, ODD)))
LAT, LON = Fraction(25261515, 483328), Fraction(225873, 57344)


class Sequences(unittest.TestCase):
    def test_elements(self) -> None:
        results = squitter.read_many(MIXED)
        self.assertIsInstance(results, Results)
        self.assertEqual(len(results), 3)
        even, fault, odd = results
        self.assertEqual((even, odd), (squitter.read(EVEN), squitter.read(ODD)))
        self.assertIsInstance(fault, Fault)
        self.assertEqual((fault.code, fault.first, fault.second), (Code.PARITY, 1, 0))
        self.assertEqual([results[place] for place in (0, 2, -1, -3)], [even, odd, odd, even])
        self.assertEqual([str(results[place]) for place in (1, -2)], [str(fault)] * 2)

    def test_no_such_element(self) -> None:
        results = squitter.read_many(MIXED)
        for place in (3, -4, 1 << 70):
            with self.assertRaisesRegex(IndexError, f"^there are 3 results, and none has the index {place}$"):
                results[place]
        for given in ("0", 0.0, None):
            with self.assertRaises(TypeError):
                results[given]  # type: ignore[call-overload]
        with self.assertRaisesRegex(IndexError, "^there are 0 results"):
            squitter.read_many(b"")[0]

    def test_slices(self) -> None:
        results = squitter.read_many(MIXED)
        ends = results[::2]
        self.assertIs(type(ends), list)
        self.assertEqual(ends, [squitter.read(EVEN), squitter.read(ODD)])
        self.assertEqual(results[::-2], ends[::-1])
        self.assertEqual([len(results[part]) for part in (slice(None), slice(1, 9), slice(3, None))], [3, 2, 0])

    def test_readings(self) -> None:
        """Each reading gives equal results, in any order, with and without faults among them."""
        for frames in (MIXED, squitter.frame(EVEN) * 3, squitter.frame(DAMAGED) * 2, bytes(28), b""):
            results = squitter.read_many(frames)
            kinds = [type(one) for one in results]
            self.assertEqual([type(results[place]) for place in range(len(results))], kinds)
            self.assertEqual([type(one) for one in reversed(results)], kinds[::-1])
            self.assertEqual(list(map(str, results)), list(map(str, results)))
        self.assertIn(squitter.read(EVEN), squitter.read_many(MIXED))
        self.assertEqual(squitter.read_many(MIXED).index(squitter.read(ODD)), 2)

    def test_all_calls(self) -> None:
        tracker = Tracker()
        near: List[squitter.Point] = [Position(52, 4)] * 2
        both = MIXED[28:] + MIXED[:14]
        for results in (tracker.hear_many([0, 400], both), squitter.pair_many(MIXED[:14], MIXED[28:]),
                        squitter.local_many(both, near)):
            self.assertIsInstance(results, Results)
        self.assertEqual([one.what for one in tracker.hear_many([800], MIXED[28:])], [What.FIX])
        self.assertEqual(squitter.pair_many(MIXED[:14], MIXED[28:]), [Position(LAT, LON)])

    def test_equality(self) -> None:
        results, one = squitter.read_many(MIXED[:14]), squitter.read(EVEN)
        self.assertTrue(results == [one] and results == squitter.read_many(MIXED[:14]) and [one] == results)
        for other in ([], [one, one], [squitter.read(ODD)], (one,), None, squitter.read_many(MIXED)):
            self.assertFalse(results == other, other)
        self.assertRaises(TypeError, hash, results)
        self.assertEqual(repr(results), f"[{one!r}]")

    def test_faults(self) -> None:
        """Faults are equal by code and numbers, so results with faults are equal too."""
        results, fault = squitter.read_many(MIXED), Fault(Code.PARITY, 1)
        self.assertTrue(results == results and results == list(results) and results[1] == results[1])
        self.assertEqual(results, [squitter.read(EVEN), fault, squitter.read(ODD)])
        self.assertEqual((results.index(fault), results.count(fault), fault in results), (1, 1, True))
        for copied in (copy.copy(results), copy.deepcopy(results), pickle.loads(pickle.dumps(results))):
            self.assertEqual(results, copied)
        hinted = Fault(Code.PARITY, 1, 0, "a hint")
        self.assertEqual((hinted, hash(hinted)), (fault, hash(fault)))
        for other in (Fault(Code.NOT_DF17, 1), Fault(Code.PARITY, 2), Fault(Code.PARITY, 1, 1), ValueError(str(fault)),
                      str(fault), None):
            self.assertNotEqual(fault, other)
        self.assertNotEqual(results, squitter.read_many(MIXED[:14] + MIXED))

    def test_copies(self) -> None:
        results = squitter.read_many(squitter.frame(EVEN) * 2)
        for copied in (copy.copy(results), copy.deepcopy(results), pickle.loads(pickle.dumps(results))):
            self.assertIs(type(copied), list)
            self.assertEqual(results, copied)
        self.assertEqual([type(one) for one in pickle.loads(pickle.dumps(squitter.read_many(MIXED)))],
                         [Fields, Fault, Fields])


class Chosen(Tracker):
    kept: Any

    def __getstate__(self) -> Dict[str, int]:
        return {"kept": 1}


class Locked(Tracker):
    kept: Any

    def __getstate__(self) -> Any:
        return self.kept

    def __setstate__(self, state: Any) -> None:
        self.kept, self.lock = state, threading.Lock()


class Odd(Tracker):
    def __getstate__(self) -> List[int]:
        return [5]


class Copies(unittest.TestCase):
    def test_state_of_a_subclass(self) -> None:
        """A subclass says by __getstate__ what is copied beside the tracker, and by __setstate__ how it is set."""
        for kind, wanted in ((Chosen, 1), (Locked, [2])):
            mine: Any = kind(10_000)
            mine.kept, mine.lock = [2], threading.Lock()
            mine.hear(4, ODD)
            for take in (copy.copy, copy.deepcopy, lambda one: pickle.loads(pickle.dumps(one))):
                other = take(mine)
                self.assertEqual((type(other), other.kept, hasattr(other, "lock")), (kind, wanted, kind is Locked))
                heard = other.hear(5, EVEN)
                self.assertEqual(heard.position, Position(Fraction(428091, 8192), Fraction(64215, 16384)))
                self.assertEqual((mine.last, other.last), (4, 5))
        with self.assertRaisesRegex(TypeError, r"^the __getstate__ of Odd returned \[5\], which is no dict of "
                                               "attributes, so Odd needs a __setstate__ too$"):
            copy.copy(Odd())


if __name__ == "__main__":
    unittest.main()
