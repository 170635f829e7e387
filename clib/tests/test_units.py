"""squitter.unit_of: planted units are told from 20 pairs of frames on, and right timestamps never."""
from __future__ import annotations

import random
import unittest
from typing import Callable, Dict, List, Tuple

from squitter import Unit, unit_of

DAY = 86_400_000  # milliseconds
DAYS = 300
EPOCH = 1_795_965_328_000  # a day of 2026, in milliseconds since 1970
Heard = List[Tuple[int, int]]


def heard_of(chance: random.Random, start: int, planes: int, frames: int, gap: Callable[[], float]) -> Heard:
    """Returns timestamps and addresses of aircraft that come within ten hours, in the order of time."""
    heard = []
    for address in chance.sample(range(1, 1 << 24), planes):
        moment = start + chance.uniform(0, 36_000_000)
        for _ in range(frames):
            heard.append((int(moment), address))
            moment += gap()
    return sorted(heard)


def days(chance: random.Random) -> Dict[str, Heard]:
    """Returns right traffic of a day, of each kind. Half of the days begin at 0, the others in 2026."""
    start = chance.choice((0, EPOCH))
    dense = heard_of(chance, start, chance.randrange(1, 80), 60, lambda: chance.expovariate(1 / 185))
    sparse = heard_of(chance, start, chance.randrange(2, 60), 30, lambda: chance.expovariate(1 / 45_000))
    surface = heard_of(chance, start, 20, 40, lambda: chance.choice((500, 5000)) + chance.uniform(-100, 100))
    moved = chance.randrange(3_600_000, DAY // 2)
    twice = heard_of(chance, start, 10, 1, lambda: 0)
    return {
        "dense": dense, "sparse": sparse, "surface": surface, "replayed": sorted(dense + dense),
        "replayed from its start": dense + dense,
        "rare, in 2026": heard_of(chance, EPOCH, 20, 30, lambda: chance.expovariate(1 / 300_000)),
        "replayed later": sorted(dense + [(moment + moved, address) for moment, address in dense]),
        "twice": sorted(twice + [(moment + DAY // 2, address) for moment, address in twice]),
        "rounded": [(moment // 1000 * 1000, address) for moment, address in dense],
    }


def told(heard: Heard, clocked: bool = False) -> Unit:
    return unit_of([moment for moment, _ in heard], [address for _, address in heard], clocked)


def gps_of(heard: Heard) -> Heard:
    """Returns the timestamps of a clock of GPS time, read as a count at 12 MHz."""
    return [(((moment // 1000 % 86_400 << 30) + moment % 1000 * 10**6) // 12_000, address) for moment, address in heard]


class Units(unittest.TestCase):
    def test_no_false_alarm(self) -> None:
        """Of these days, none is told to have another unit, neither as a log nor by a receiver's clock."""
        for seed in range(DAYS):
            for name, heard in days(random.Random(seed)).items():
                self.assertEqual(told(heard), Unit.MILLISECONDS, (seed, name))
                if name not in ("twice", "rare, in 2026") and len(heard) > 400:
                    self.assertEqual(told(heard, clocked=True), Unit.MILLISECONDS, (seed, name, "clock"))

    def test_planted(self) -> None:
        """Each unit is told of 20 pairs of one aircraft, and of 20 aircraft that were heard twice."""
        for seed in range(300):
            chance = random.Random(seed)
            start = chance.choice((3_600_000, EPOCH))
            one = heard_of(chance, start, 1, 21, lambda: chance.uniform(400, 600))
            many = heard_of(chance, start, 20, 2, lambda: chance.uniform(400, 600))
            for heard in (one, many):
                scaled = {Unit.SECONDS: lambda moment: moment // 1000, Unit.MICROSECONDS: lambda moment: moment * 1000,
                          Unit.NANOSECONDS: lambda moment: moment * 10**6, Unit.ALL_ZERO: lambda moment: 0}
                for unit, by in scaled.items():
                    self.assertEqual(told([(by(moment), address) for moment, address in heard]), unit, seed)
                self.assertEqual(told(gps_of(heard), clocked=True), Unit.GPS, seed)
                self.assertEqual(told(gps_of(heard)), Unit.MILLISECONDS if heard is one else told(gps_of(heard)), seed)

    def test_two_clocks(self) -> None:
        """Two receivers' clocks in one source are no microseconds."""
        ticks = [(300_000 * number + 7_200_000 * (number % 2), 0x40621D) for number in range(100)]
        self.assertEqual(told(sorted(ticks), clocked=True), Unit.MILLISECONDS)

    def test_arguments(self) -> None:
        self.assertEqual(unit_of([], []), Unit.MILLISECONDS)
        self.assertEqual(unit_of([0, 0], [1, 2]), Unit.ALL_ZERO)
        self.assertEqual(unit_of([0], [1]), Unit.MILLISECONDS)
        bad = ([1], []), ([-1], [1]), ([1 << 64], [1]), ([1], [1 << 32]), ([0.5], [1]), (["1"], [1])
        for moments, addresses in bad:
            with self.assertRaises(ValueError):
                unit_of(moments, addresses)  # type: ignore[arg-type]


if __name__ == "__main__":
    unittest.main()
