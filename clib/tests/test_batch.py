#!/usr/bin/env python3
"""test_batch.py [COUNT]: squitter.batch beside the calls for one frame, on so many mutated frames (50000), and
`track` beside the program, byte for byte, on logs of the repository and random ones. PROGRAM is the program (the
launcher at the top of the repository where it is not set). Needs NumPy. test_arrays.py has arrays in all forms, and
test_frames.py data frames."""
import copy
import ctypes
import doctest
import inspect
import json
import os
import pickle
import random
import re
import subprocess
import sys
import threading
import time
import unittest
from fractions import Fraction
from typing import Any, Callable, Dict, Iterable, Iterator, List, Sequence, Tuple
from unittest import mock

import numpy as np

HERE = os.path.dirname(os.path.abspath(__file__))
TOP = os.path.join(HERE, "..", "..")
sys.path.insert(0, os.path.join(HERE, ".."))
import squitter  # noqa: E402
from squitter import AirHead, Code, Contact, Fault, GroundHead, Kind, Position, What  # noqa: E402
from squitter import _library, _made, _parts, batch  # noqa: E402

PROGRAM = os.environ.get("PROGRAM") or subprocess.run(
    [os.path.join(TOP, "dist", "program")], check=True, stdout=subprocess.PIPE, text=True).stdout.strip()
COUNT = 50_000
EVEN, ODD = "8D40621D58C382D690C8AC2863A7", "8D40621D58C386435CC412692AD6"
GROUND_OLDER, GROUND_NEWER = "8C4841753AAB238733C8CD4020B1", "8C4841753A8A35323FAEBDAC702D"
PLACE = (428091, 8192, 64215, 16384)
SITE = Position(Fraction(5231, 100), Fraction(476, 100))
NOWHERE = Position(91, 0)
ALL = 1 << 24  # addresses


# ---- what is given ----


def random_frames(rng: random.Random, count: int) -> np.ndarray:
    """Frames of some aircraft near each other, in the air and on the ground, and other squitters; one in ten is
    damaged in some bits, so that no, one or many of its faults apply."""
    made: List[bytes] = []
    for _ in range(min(count, 4000)):
        address, odd = rng.randint(1, 60), rng.randint(0, 1)
        place = Position(Fraction(rng.randint(52_000, 52_600), 1000), Fraction(rng.randint(4_000, 5_000), 1000))
        if address % 4:
            head = AirHead(address, rng.randint(0, 4095), odd=odd, type_code=rng.choice([9, 11, 18, 22]))
            frame = squitter.encode(head, place)
        else:
            frame = squitter.encode(GroundHead(address, odd=odd), place)
        if rng.random() < 0.2:
            frame = sealed(frame[:4] + bytes(rng.randrange(256) for _ in range(7)))
        made.append(frame)
    frames = np.frombuffer(b"".join(rng.choices(made, k=count)), np.uint8).reshape(-1, 14).copy()
    numpy_rng = np.random.default_rng(rng.randrange(1 << 30))
    for _ in range(3):
        damaged = np.flatnonzero(numpy_rng.random(count) < 0.05)
        bits = (1 << numpy_rng.integers(0, 8, len(damaged))).astype(np.uint8)
        frames[damaged, numpy_rng.integers(0, 14, len(damaged))] ^= bits
    return frames


def sealed(front: bytes) -> bytes:
    """Eleven bytes with the parity that makes a frame of them: the remainder by the generator of 25 bits."""
    value = int.from_bytes(front + bytes(3), "big")
    for bit in range(111, 23, -1):
        if value >> bit & 1:
            value ^= 0x1FFF409 << bit - 24
    return front + value.to_bytes(3, "big")


def random_texts(rng: random.Random, frames: np.ndarray) -> List[str]:
    """The frames as texts, of which one in ten is no frame, or another writing of one."""
    texts = [frame.tobytes().hex().upper() for frame in frames]
    for place in rng.sample(range(len(texts)), len(texts) // 10):
        text, at = texts[place], rng.randrange(28)
        texts[place] = rng.choice([
            text[:at] + rng.choice("gG/:@`{ \u00e9\u0663") + text[at + 1:], text[:at], text[:14], text[:27], text + "0",
            f"*{text};", f"*{text}", f"{text};", f"*{text[:14]};", f"*{text}0;", text.lower(), f" {text[1:]}",
            "", "*;", "*", ";", f"*{text}0", f"0{text};"])
    return texts


def random_log(rng: random.Random, count: int) -> Tuple[List[int], List[str]]:
    """Moments that go back now and then, and stand still, and frames."""
    moment, moments = rng.choice([0, 10**6, 2**63 - 10**6, 2**64 - 10**9]), []
    for _ in range(count):
        moment += rng.choice([0, 1, 20, 300, 300])
        moments.append(max(0, moment - rng.choice([0] * 12 + [1, 400, 90_000])))
    return moments, random_texts(rng, random_frames(rng, count))


def by_program(moments: Sequence[int], texts: Sequence[str], *words: str) -> bytes:
    log = b"".join(b"%d %s\n" % (moment, _library._text(text)) for moment, text in zip(moments, texts))
    return subprocess.run([PROGRAM, "track", *words], input=log, stdout=subprocess.PIPE).stdout


# ---- what is answered ----


def single(call: Callable[..., Any], *arguments: Any) -> Any:
    """What a call for one frame answers, or its fault."""
    try:
        return call(*arguments)
    except Fault as fault:
        return fault


def fields(one: squitter.Fields) -> Tuple[int, ...]:
    # (what a squitter lacks is 0 in an array)
    return tuple(int(getattr(one, name) or 0) for name in batch.FIELDS.names or ())


def numbers(place: Position) -> Tuple[int, ...]:
    return place.lat.numerator, place.lat.denominator, place.lon.numerator, place.lon.denominator


class Batch(unittest.TestCase):
    def alike(self, many: Tuple[np.ndarray, np.ndarray], ones: Iterable[Any], plain: Callable[[Any], Any]) -> None:
        """The answers of a call of arrays are those of single calls, and where there is none the record is all 0."""
        nothing, ones = np.zeros((), many[0].dtype).item(), list(ones)
        self.assertEqual((len(many[0]), len(many[1])), (len(ones), len(ones)))
        for answer, fault, one in zip(many[0].tolist(), many[1].tolist(), ones):
            if isinstance(one, Fault):
                self.assertEqual((fault, answer), ((int(one.code), one.second, one.first), nothing))
            else:
                self.assertEqual((fault, answer), ((0, 0, 0), plain(one)))

    def test_present(self) -> None:
        """Columns of who is present, beside the objects of the module squitter: in the air and on the ground, with one
        frame and with two, and after both."""
        tracker, log = squitter.Tracker(site=SITE), squitter.Log(site=SITE)
        for row in (batch.present(tracker), batch.present(log), batch.present(batch.Tracker(), 5)):
            self.assertEqual((len(row), row.dtype), (0, batch.PRESENT))
        frames = [(5, GROUND_OLDER), (9, ODD), (400, GROUND_NEWER), (400, EVEN), (401, squitter.encode(
            AirHead(0xABCDEF, squitter.field_of_feet(-1000)), Position(-12, -170)))]
        for moment, frame in frames:
            tracker.hear(moment, frame)
        row = batch.present(tracker)
        self.assertEqual(row[["address", "moment", "feet", "fix_moment"]].tolist(),
                         [(0xABCDEF, 401, -1000, 0), (0x40621D, 400, 38000, 400), (0x484175, 400, 0, 400)])
        self.assertEqual(row[list(batch.POSITION.names or ())][1].tolist(), PLACE)
        self.assertEqual(row[["lat_e7", "lon_e7"]][:2].tolist(), [(0, 0), (522572021, 39193726)])
        self.assertEqual(row["kind"].tolist(), [Kind.AIR, Kind.AIR, Kind.GROUND])
        heard = batch.Tracker(site=SITE)
        heard.hear([moment for moment, _ in frames], b"".join(squitter.frame(frame) for _, frame in frames))
        self.assertEqual(batch.present(heard, 401).tobytes(), row[:1].tobytes())
        with open(os.path.join(TOP, "examples", "flights.log"), "rb") as lines:
            log.take_text(lines.read(100_000))
        for one, row in zip(log.present(), batch.present(log)):
            fix = (one.fix.moment, *one.fix.position) if one.fix else (0, 0, 0)
            self.assertEqual((one.address, one.moment, one.newest.frame, one.fields.kind, one.fields.feet or 0),
                             (row["address"], row["moment"], bytes(row["frame"]), row["kind"], row["feet"]))
            angles = (Fraction(int(row[f"{angle}_num"]), int(row[f"{angle}_den"]) or 1) for angle in ("lat", "lon"))
            self.assertEqual(fix, (row["fix_moment"], *angles))

    def test_beside_single_calls(self) -> None:
        rng = random.Random(20261124)
        frames = random_frames(rng, COUNT)
        read = batch.read(frames)
        bytes_of = [frame.tobytes() for frame in frames]
        self.alike(read, (single(squitter.read, one) for one in bytes_of), fields)
        near = Position(Fraction(523, 10), Fraction(45, 10))
        some = frames[:COUNT // 4]
        ones = (single(squitter.local, one, near) for one in bytes_of[:len(some)])
        self.alike(batch.local(some, near), ones, numbers)
        older = some[np.random.default_rng(1).permutation(len(some))]
        for site, many in ((None, batch.pair(older, some)), (SITE, batch.pair_at(older, some, SITE))):
            ones = (single(squitter.pair, *(one.tobytes() for one in two), site) for two in zip(older, some))
            self.alike(many, ones, numbers)
        places, _ = batch.pair_at(older, some, SITE)
        degrees = (squitter.position_e7(Position(Fraction(a, b), Fraction(c, d))) if b else Fault(Code.BAD_POSITION)
                   for a, b, c, d in places.tolist())
        self.alike(batch.position_e7(places), degrees, tuple)

    def test_texts_beside_single_calls(self) -> None:
        rng = random.Random(7)
        texts = random_texts(rng, random_frames(rng, 5000))
        others = rng.sample(texts, len(texts))
        for of_texts in (list, lambda them: np.array(them, object), np.array, lambda them: np.array(them, "U90")):
            self.alike(batch.read(of_texts(texts)), (single(squitter.read, one) for one in texts), fields)
        for near in (SITE, NOWHERE):
            self.alike(batch.local(texts, near), (single(squitter.local, one, near) for one in texts), numbers)
            ones = (single(squitter.pair, *two, near) for two in zip(others, texts))
            self.alike(batch.pair_at(others, texts, near), ones, numbers)
        self.alike(batch.pair(others, texts), (single(squitter.pair, *two) for two in zip(others, texts)), numbers)

    def test_bytes_of_each_width(self) -> None:
        texts = [EVEN, f"*{EVEN};", EVEN[:14], EVEN.lower(), f"*{EVEN}0", "", f"x{EVEN};", EVEN + "00;", f"*{EVEN};0",
                 f"*{EVEN};;", f"*{EVEN}; ", f"*{EVEN};{'0' * 33}"]
        for width in (1, 14, 27, 28, 29, 30, 31, 64):
            cut = np.array([text.encode() for text in texts], f"S{width}")
            self.alike(batch.read(cut), (single(squitter.read, one.decode()) for one in cut.tolist()), fields)

    def test_layouts(self) -> None:
        kinds = {batch.FAULT: "_Fault", batch.FIELDS: "_Fields", batch.POSITION: "_Position", _parts.HEARD: "_Heard",
                 _parts.DEGREES_E7: "_DegreesE7"}
        for dtype, name in kinds.items():
            self.assertEqual((list(flat(getattr(_made, name))), ctypes.sizeof(getattr(_made, name))), (
                [(dtype.fields[one][1], dtype.fields[one][0].itemsize, one) for one in dtype.names], dtype.itemsize))

    def test_doctests(self) -> None:
        tried = doctest.testmod(batch)
        self.assertEqual(tried.failed, 0)
        self.assertGreater(tried.attempted, 5)


def flat(kind: type, at: int = 0, before: str = "") -> Iterator[Tuple[int, int, str]]:
    """The numbers of a C struct, where they lie, and how long they are."""
    for name, part in kind._fields_:
        here = at + getattr(kind, name).offset
        name = "" if name == "position" else f"{before}{name}"
        if issubclass(part, ctypes.Structure):
            yield from flat(part, here, f"{name}_" if name else "")
        else:
            yield here, ctypes.sizeof(part), name


def answer_line(answer: Dict[str, Any]) -> str:
    """The line of `track` that an answer of vectors/ is."""
    words = [answer.get("refused") or answer["heard"], answer.get("address"), *answer.get("decimal", ()),
             answer.get("even"), answer.get("odd")]
    return " ".join(str(word) for word in [answer["line"], *words] if word is not None)


class Track(unittest.TestCase):
    def as_program(self, moments: Sequence[int], texts: Sequence[str], window: int, site: Any, limit: Any) -> bytes:
        """The program's answers, which those of `track` are, of the whole log and of its pieces."""
        words = [f"--window={window}", f"--limit={limit or ALL}"]
        if site:
            words += [f"--lat={squitter.angle_text(site.lat)}", f"--lon={squitter.angle_text(site.lon)}"]
        answers = by_program(moments, texts, *words)
        times = np.array(moments, np.uint64)
        heard, faults = batch.track(times, texts, window, site, limit)
        self.assertEqual(batch.lines(heard, faults), answers)
        table = by_program(moments, texts, "--format=csv", *words)
        header = ",".join(batch.COLUMNS) + "\n"
        self.assertTrue(header.encode() + batch.csv_rows(times, heard, faults) == table, "rows")
        tracker, rng, at, pieces = batch.Tracker(window, site, limit), random.Random(len(texts)), 0, b""
        while at < len(texts):
            to = at + rng.choice([0, 1, 2, 50, 3000])
            heard_of, faults_of = tracker.hear(times[at:to], texts[at:to])
            pieces += batch.lines(heard_of, faults_of, first=at + 1)
            np.testing.assert_array_equal(heard_of, heard[at:to])
            np.testing.assert_array_equal(faults_of, faults[at:to])
            tracker, at = pickle.loads(pickle.dumps(tracker)), to
        self.assertEqual(pieces, answers)
        return answers

    def test_breaks_off(self) -> None:
        """Where a part cannot be written, the part that is heard meanwhile ends, before the tracker is freed."""
        running, others, close = [], threading.active_count(), squitter.Tracker.close

        def closed(tracker: squitter.Tracker) -> None:
            running.append(threading.active_count() - others)
            close(tracker)

        frames = np.tile(np.frombuffer(bytes.fromhex(EVEN), np.uint8), (60_000, 1))
        with mock.patch.object(squitter.Tracker, "close", closed):
            with mock.patch.object(_parts.Room, "write", side_effect=KeyboardInterrupt):
                self.assertRaises(KeyboardInterrupt, batch.track, range(60_000), frames)
        self.assertEqual(running, [0])

    def test_log_of_the_repository(self) -> None:
        with open(os.path.join(TOP, "examples", "flights.log"), encoding="ascii") as log:
            words, texts = zip(*(line.split() for line in log))
        moments = list(map(int, words))
        for site in (SITE, None):
            answers = self.as_program(moments, texts, 10_000, site, 1000)
            self.assertGreater(answers.count(b" fix "), 1500)
        answers = by_program(moments, texts, "--lat=52.31", "--lon=4.76")
        self.assertEqual(batch.lines(*batch.track(np.array(moments), np.array(texts, "S30"), site=SITE)), answers)

    def test_random_logs(self) -> None:
        rng, told = random.Random(5), b""
        for window in (0, 300, 10_000, (1 << 64) - 1):
            for limit in (None, 1, 20, 44, 1000):
                moments, texts = random_log(rng, rng.choice([1, 30, 4000]))
                told += self.as_program(moments, texts, window, rng.choice([SITE, None]), limit)
        for word in (b" fix ", b" followed ", b" waiting ", b" split ", b" no site ", b" no position ", b"moment back",
                     b"table full", b"parity", b"not DF17", b"wrapping", b"short frame", b"bad length", b"bad digit"):
            self.assertIn(word, told)

    def test_vectors(self) -> None:
        """The logs of vectors/, whose answers come from definitions of their own: all whose lines have a moment."""
        tried = 0
        with open(os.path.join(TOP, "vectors", "log.jsonl"), encoding="utf-8") as cases:
            for case in map(json.loads, cases):
                asked = case["input"]
                lines = [re.fullmatch(r"([0-9]{1,20}) ([^\r]*)", line) for line in asked["lines"]]
                if not all(line and int(line[1]) < 1 << 64 and len(line[0]) <= 64 for line in lines):
                    continue
                site = asked.get("site") and Position(*(Fraction(asked["site"][name]) for name in ("lat", "lon")))
                heard, faults = batch.track([int(line[1]) for line in lines], [line[2] for line in lines],
                                            asked.get("window", 10_000), site, asked.get("limit", 1000))
                said = batch.lines(heard, faults).decode().splitlines()
                self.assertEqual(said, list(map(answer_line, case["answer"]["lines"])), case["id"])
                exact = [[f"{a}/{b}" for a, b in ((one[0], one[1]), (one[2], one[3]))] for one in heard.tolist()]
                for place, wanted in zip(exact, case["answer"]["lines"]):
                    if "lat" in wanted:
                        self.assertEqual(place, [wanted["lat"], wanted["lon"]], case["id"])
                tried += 1
        self.assertGreater(tried, 150)

    def test_many_aircraft(self) -> None:
        """More addresses than the block of a sort has places, each by its own bits."""
        rng, place = random.Random(3), Position(52, 4)
        addresses = [rng.randrange(ALL) for _ in range(3000)] + [0, 1, 0xFFFF, 0x10000, 0xFFFFFF]
        frames = [squitter.encode(AirHead(one, odd=odd), place) for odd in (0, 1) for one in addresses]
        texts = list(map(squitter.frame_text, frames))
        for limit in (None, 1000, 3005):
            answers = self.as_program(range(len(texts)), texts, 10_000, None, limit)
            self.assertEqual(answers.count(b" fix "), 1000 if limit == 1000 else len(addresses))

    def test_blocks(self) -> None:
        """The results do not depend on how many lines are decoded at once."""
        moments, texts = random_log(random.Random(9), 3000)
        whole = batch.track(moments, texts, site=SITE, limit=30)
        for size in (1, 7, 1000):
            with mock.patch.object(_parts, "PART", size):
                tracker = batch.Tracker(site=SITE, limit=30)
                for call in (batch.track, tracker.hear):
                    options = {"site": SITE, "limit": 30} if call is batch.track else {}
                    for ours, theirs in zip(call(moments, texts, **options), whole):
                        np.testing.assert_array_equal(ours, theirs)

    def test_parts(self) -> None:
        """What is heard ahead, in another thread, does not take the place of what is not yet written."""
        moments, texts = random_log(random.Random(10), 2000)
        whole, write = batch.track(moments, texts, site=SITE), _parts.Room.write

        def late(*given: Any) -> None:
            time.sleep(0.02)  # (the next part is heard meanwhile)
            write(*given)

        for size in (1, 2, 90, 700):
            count = min(len(texts), 12 * size)
            with mock.patch.object(_parts, "PART", size), mock.patch.object(_parts.Room, "write", late):
                for ours, theirs in zip(batch.track(moments[:count], texts[:count], site=SITE), whole):
                    np.testing.assert_array_equal(ours, theirs[:count])

    def test_rooms(self) -> None:
        """A tracker keeps memory for each power of two up to a part, and uses it again."""
        tracker = batch.Tracker()
        for count, size in ((1, 2), (2, 2), (3, 4), (4, 4), (5, 8)):
            self.assertEqual(tracker._room(count).count, size)
            self.assertIs(tracker._room(count), tracker._room(size))
        for count in (_parts.PART, _parts.PART + 1, 10 * _parts.PART):
            self.assertEqual(tracker._room(count).count, _parts.PART)

    def test_no_memory(self) -> None:
        """NO_MEMORY of any line is a MemoryError."""
        def hear(turn: Any, *given: Any) -> None:
            turn.codes[1] = Code.NO_MEMORY

        with mock.patch.object(_parts._Turn, "hear", hear):
            self.assertRaises(MemoryError, batch.track, [0, 1], [ODD, EVEN])

    def test_default_window(self) -> None:
        """Without a window, arrays and data frames have that of squitter.Tracker."""
        for call in (batch.track, batch.Tracker, batch.dataframe):
            self.assertIs(inspect.signature(call).parameters["window"].default, squitter.WINDOW)
        for between, what in ((squitter.WINDOW, What.FIX), (squitter.WINDOW + 1, What.WAITING)):
            moments, frames = [5, 5 + between], [ODD, EVEN]
            for hear in (batch.track, batch.Tracker().hear):
                self.assertEqual(hear(moments, frames)[0]["what"].tolist(), [What.WAITING, what])

    def test_at_the_window(self) -> None:
        """What is as old as the window is kept between pieces, and what is older is not."""
        other = squitter.frame_text(squitter.encode(AirHead(5), Position(1, 1)))
        for age, what in ((9, What.FIX), (10, What.FIX), (11, What.WAITING)):
            for pieces in ([([0], [ODD]), ([age], [other]), ([age], [EVEN])], [([0, age, age], [ODD, other, EVEN])]):
                tracker = batch.Tracker(window=10)
                for piece in pieces:
                    heard, faults = tracker.hear(*piece)
                    tracker = pickle.loads(pickle.dumps(tracker))
                self.assertEqual((heard["what"][-1], faults["code"][-1]), (what, 0), age)
        full = batch.Tracker(window=10, limit=1)
        refused = Code.TABLE_FULL
        for moment, text, code in ((0, ODD, 0), (10, other, refused), (11, other, 0), (11, ODD, refused)):
            self.assertEqual(full.hear([moment], [text])[1]["code"].tolist(), [code], moment)
        self.assertEqual((full.last, len(full._tracker)), (11, 1))

    def test_room(self) -> None:
        """A tracker grows as addresses come, up to its limit, and keeps its state. A copy has all attributes."""
        frames = [[squitter.encode(AirHead(one, odd=odd), Position(52, 4)) for one in range(1003)] for odd in (0, 1)]
        for limit, full in ((None, 0), (1003, 0), (1002, 1), (1001, 2)):
            for first in (999, 1000, 1001):
                tracker, rooms, told = batch.Tracker(limit=limit), [], []
                for piece in (frames[0][:first], frames[0][first:], frames[1]):
                    told.append(tracker.hear([0] * len(piece), np.frombuffer(b"".join(piece), "V14")))
                    rooms.append(tracker._tracker._settings[2])
                self.assertEqual(rooms[0], 1000 if first < 1001 else min(2000, limit or 2000))
                self.assertEqual([(faults["code"] != 0).sum() for _, faults in told[1:]], [full, full])
                self.assertEqual((told[2][0]["what"] == What.FIX).sum(), 1003 - full)
        named: Any = type("Named", (batch.Tracker,), {"__slots__": ("name", "__dict__")})()
        named.name, named.other = 1, 2
        for one in (copy.copy(named), copy.deepcopy(named)):
            self.assertEqual((one.name, one.other, len(one.hear([5], [ODD])[0]), named.last), (1, 2, 1, 0))

    def test_beside_contacts(self) -> None:
        """The exact places are those that the library hears of one address."""
        contact, moments = Contact(10_000), [0, 400, 800]
        heard, _ = batch.track(moments, [ODD, EVEN, ODD])
        places = [contact.hear(moment, text).position for moment, text in zip(moments, [ODD, EVEN, ODD])][1:]
        self.assertEqual(heard[1].tolist()[:4], PLACE)
        self.assertEqual(list(map(numbers, places)), [one[:4] for one in heard.tolist()[1:]])
        self.assertEqual(list(map(squitter.position_e7, places)), heard[["lat_e7", "lon_e7"]].tolist()[1:])
        self.assertEqual(heard["what"].tolist(), [What.WAITING, What.FIX, What.FIX])
        self.assertEqual(heard["address"].tolist(), [0x40621D] * 3)
        self.assertEqual(heard[0].tolist(), (0, 0, 0, 0, What.WAITING, 0, 0, Kind.AIR, 0x40621D, 0, 0, 38000, 1))

    def test_tracker(self) -> None:
        tracker = batch.Tracker()
        self.assertEqual(tracker.last, 0)
        tracker.hear([7], [EVEN])
        self.assertEqual(tracker.last, 7)
        for wrong in ({"window": -1}, {"window": 1 << 64}, {"limit": 0}, {"limit": 1 << 32}):
            with self.assertRaises(ValueError):
                batch.Tracker(**wrong)
        for wrong in ({"window": 1.0}, {"limit": 1.0}, {"site": (52, None)}):
            with self.assertRaises(TypeError):
                batch.Tracker(**wrong)
        with self.assertRaises(Fault):
            batch.Tracker(site=NOWHERE)


if __name__ == "__main__":
    if len(sys.argv) > 1 and sys.argv[1].isdigit():
        COUNT = int(sys.argv.pop(1))
    unittest.main()
