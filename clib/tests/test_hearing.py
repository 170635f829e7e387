#!/usr/bin/env python3
"""Contacts, trackers and logs of the module squitter: each call on worked rows, copies and saved states, calls from
threads and signal handlers, and the memory that they take."""
import contextlib
import copy
import gc
import inspect
import os
import pickle
import re
import resource
import signal
import sys
import threading
import unittest
import weakref
from fractions import Fraction

CLIB = os.path.join(os.path.dirname(os.path.abspath(__file__)), "..")
sys.path[:0] = [CLIB, os.path.join(CLIB, "..", "tests")]
import squitter  # noqa: E402
import transcripts  # noqa: E402
from squitter import Code, Contact, Fault, Format, Log, Position, Tracker, What  # noqa: E402
from test_squitter import (  # noqa: E402
    EVEN, GROUND_NEWER, GROUND_OLDER, GROUND_PLACE, ODD, OTHER, PLACE, SITE, Refusing,
)

# A log without a line feed at its end, its results, and the number of results after each number of line feeds.
LINES = f"""5 {ODD}
6 {GROUND_OLDER}\r

10005 *{EVEN};
x
10004 {ODD}
{"A" * 65}
10006 {GROUND_NEWER}""".encode()
ANSWERS = b"""1 waiting 40621D
2 waiting 484175
4 fix 40621D 52.2572021 3.9193726
5 bad moment
6 moment back 10005
7 long line
8 fix 484175 52.3206071 4.7347347
"""
ANSWERED = [0, 1, 2, 2, 3, 4, 5, 6]


class Named(Contact):
    """A contact with more: a slot, and attributes."""

    __slots__ = ("name", "__dict__")


def pages_of_memory():
    """The pages of address space that this process has."""
    with open("/proc/self/statm", encoding="ascii") as file:
        return int(file.read().split()[0])


def interrupted(call, again):
    """Makes a call, and another one of the same object at each line of its loop, as a signal handler may. Returns the
    results of both."""
    inner = []

    def trace(frame, event, _):
        if event == "line":
            inner.append(again())
        return trace if frame.f_code.co_name in ("_texts", "_squitters") else None
    before = sys.gettrace()  # that of coverage, if it measures
    sys.settrace(trace)
    try:
        outer = call()
    finally:
        sys.settrace(before)
    return outer, inner


class Hearing(Refusing):
    """Contacts, trackers and logs."""

    def test_log_after_finish(self):
        """After its end a log goes on with a new line, the next number, and what it has heard."""
        log = squitter.Log()
        told = (log.take_text(f"5 {ODD}\nx".encode()), log.finish_text(), log.finish_text(),
                log.take_text(f"400 {EVEN}\n".encode()))
        self.assertEqual(told, (b"1 waiting 40621D\n", b"2 bad moment\n", b"", b"3 fix 40621D 52.2572021 3.9193726\n"))
        self.assertEqual(log.tally, (2, 1))

    def test_calls_between_calls(self):
        """A signal handler may use a log, a feed or an order in the middle of its call: each result comes once, to the
        call that gave its input."""
        log = Log()
        outer, inner = interrupted(lambda: log.take_text(b"x\n" * 5), lambda: log.take_text(b"y\n"))
        numbers = [int(line.split()[0]) for line in (outer + b"".join(inner)).splitlines()]
        self.assertEqual(([*map(len, inner)].count(0), outer.count(b"\n")), (0, 5))
        self.assertEqual(sorted(numbers), [*range(1, len(inner) + 6)])
        for texts in (True, False):
            feed = squitter.Feed("log")
            take = feed.take_text if texts else feed.take
            ours, theirs = (f"5 {frame}\n".encode() for frame in (EVEN, ODD))
            feed.take_text(ours * 2)  # (the first row waits for the second)
            outer, inner = interrupted(lambda: take(ours * 5), lambda: take(theirs))
            if not texts:
                outer, *inner = (b"".join(b"%d %s\n" % (moment, frames[14 * at:14 * at + 14].hex().upper().encode())
                                          for at, moment in enumerate(moments)) for moments, frames in (outer, *inner))
            self.assertEqual((outer, {*inner}, len(inner) > 5), (ours * 5, {theirs}, True))
        order, even, odd = squitter.Order(0), *map(squitter.frame, (EVEN, ODD))
        outer, inner = interrupted(lambda: order.take([5] * 5, even * 5), lambda: order.take([5], odd))
        self.assertEqual((outer[1], {frames for _, frames in inner}, len(inner) > 5), (even * 5, {odd}, True))

    def test_memory_of_closed_and_refused(self):
        """Objects that are closed, refused or restored from a refused state leave no memory behind."""
        with Tracker() as tracker:
            tracker.hear(5, ODD)
            last, entries = tracker._save()
        wrong = bytes(entries[:-8]) + b"\xff" * 8

        def restored():
            with Tracker() as other:
                other._restore(last, wrong * 2)
        def closed(kind, *given):
            one = kind(*given)
            one.close()
            kept.append(one)  # a closed object has no memory, also while somebody has it
        kept = []
        calls = [
            lambda: closed(Tracker), lambda: closed(Log), lambda: closed(squitter.Feed),
            lambda: closed(squitter.Order, 5), lambda: Tracker(limit=0), lambda: Log(limit=0),
            lambda: Tracker(site=(91, 0)), lambda: Log(site=(91, 0)), lambda: Contact(site=(91, 0)),
            lambda: squitter.Feed(99), lambda: squitter.Order(-1), restored,
        ]
        for call in calls:
            grown = []
            for count in (3, 100, 100):
                before = pages_of_memory()
                for _ in range(count):
                    with contextlib.suppress(ValueError):
                        call()
                grown.append(pages_of_memory() - before)
            # (the least block, that of a feed, has a page; an arena of Python's own has 256, and comes once)
            self.assertLess(min(grown[1:]), 50, call)

    def test_changed_states(self):
        """A saved state has no check sum: most states in which one bit is changed are accepted, as squitter.h says."""
        tracker, other = Tracker(), Tracker()
        tracker.hear(5, ODD)
        tracker.hear(400, EVEN)
        last, entries = tracker._save()
        accepted = 0
        for bit in range(8 * len(entries)):
            changed = bytearray(entries)
            changed[bit // 8] ^= 1 << bit % 8
            try:
                other._restore(last, bytes(changed))
                accepted += 1
            except Fault as fault:
                self.assertEqual(fault.code, Code.BAD_ENTRY)
        self.assertTrue(4 * len(entries) < accepted < 8 * len(entries), accepted)

    def test_hearing(self):
        contact = Contact(10_000)
        self.assertEqual(contact.hear(5, ODD), (What.WAITING, None, 0, 0))
        self.assertEqual(contact.hear(10_005, EVEN), (What.FIX, PLACE, 0, 0))
        self.refused(Code.MOMENT_BACK, contact.hear, 10_004, EVEN, first=10_005)
        self.assertEqual((contact.last, contact.newest), (10_005, 10_005))
        self.assertEqual((Contact().last, Contact().newest), (0, 0))
        self.assertEqual(contact.hear(10_006, EVEN).what, What.FOLLOWED)
        self.assertEqual(contact.hear(30_000, EVEN).what, What.WAITING)
        ground = Contact(10, SITE)
        ground.hear(1, GROUND_OLDER)
        self.assertEqual(ground.hear(2, GROUND_NEWER), (What.FIX, GROUND_PLACE, 0, 0))
        self.refused(Code.BAD_POSITION, Contact, 10, Position(91, 0))
        self.refused(Code.TABLE_FULL, contact.hear, 40_000, GROUND_OLDER)
        self.assertEqual(contact.hear(40_001, GROUND_OLDER).what, What.WAITING)
        for window, moment in ((10.0, 1), (10, 1.0), ("10", 1)):
            with self.assertRaises(TypeError):
                Contact(window).hear(moment, EVEN)
        for window, moment in ((-1, 1), (1 << 64, 1), (10, -1), (10, 1 << 64)):
            with self.assertRaises(ValueError):
                Contact(window).hear(moment, EVEN)

    def test_default_window(self):
        """Trackers, contacts and logs have one default window. A pair has at most the window between its frames."""
        self.assertEqual(squitter.WINDOW, 10_000)
        self.assertIn("WINDOW", squitter.__all__)
        for kind in (Tracker, Contact, Log):
            self.assertIs(inspect.signature(kind).parameters["window"].default, squitter.WINDOW)
        for between, what in ((0, What.FIX), (squitter.WINDOW, What.FIX), (squitter.WINDOW + 1, What.WAITING)):
            for kind in (Tracker, Contact):
                for tracker in (kind(), kind(squitter.WINDOW), kind(window=squitter.WINDOW)):
                    tracker.hear(5, ODD)
                    self.assertEqual(tracker.hear(5 + between, EVEN).what, what)
            lines = Log().take_text(f"5 {ODD}\n{5 + between} {EVEN}\n".encode()).splitlines()
            self.assertEqual(lines[1].split()[1].decode(), what.name.lower())

    def test_tracker(self):
        with Tracker(10_000, SITE) as tracker:
            self.assertEqual(tracker.hear(5, ODD), (What.WAITING, None, 0, 0))
            self.assertEqual(tracker.hear(6, GROUND_OLDER).what, What.WAITING)
            self.assertEqual(tracker.hear(10_005, EVEN), (What.FIX, PLACE, 0, 0))
            self.assertEqual(tracker.hear(10_006, GROUND_NEWER), (What.FIX, GROUND_PLACE, 0, 0))
            self.refused(Code.MOMENT_BACK, tracker.hear, 10_005, ODD, first=10_006)
            self.refused(Code.PARITY, tracker.hear, 1, ODD[:-1] + "7", first=1)
            self.refused(Code.SHORT, tracker.hear, 1, ODD[:14])
            self.assertEqual(len(tracker), 2)
            self.assertEqual([it[:2] for it in tracker.present()], [(0x484175, 10_006), (0x40621D, 10_005)])
        tracker.close()

    def test_present(self):
        """Who is present, the last heard first, with frames and fixes; in a log the same."""
        frames = [(5, ODD), (6, GROUND_OLDER), (10_005, EVEN), (10_006, GROUND_NEWER)]
        tracker, log = Tracker(10_000, SITE), Log(10_000, SITE)
        self.assertEqual((list(tracker.present()), list(log.present())), ([], []))
        for moment, frame in frames:
            tracker.hear(moment, frame)
            log.take_text(f"{moment} {frame}\n".encode())
        on_ground, in_air = present = tracker.present()
        self.assertEqual(list(log.present()), list(present))
        self.assertEqual(in_air, squitter.Present(0x40621D, 10_005, squitter.Side(
            squitter.Received(10_005, squitter.frame(EVEN)), squitter.Received(5, squitter.frame(ODD)),
            squitter.LastFix(10_005, PLACE)), squitter.Side(None, None, None)))
        self.assertEqual((in_air.newest, in_air.fix), ((10_005, squitter.frame(EVEN)), (10_005, PLACE)))
        self.assertEqual((in_air.fields.kind, in_air.fields.feet), (squitter.Kind.AIR, 38_000))
        self.assertEqual((on_ground.address, on_ground.moment, on_ground.airborne), (0x484175, 10_006, (None,) * 3))
        self.assertEqual((on_ground.newest.moment, on_ground.surface.fix), (10_006, (10_006, GROUND_PLACE)))
        for since, count in ((0, 2), (10_005, 2), (10_006, 1), (10_007, 0), ((1 << 64) - 1, 0)):
            self.assertEqual((len(tracker.present(since)), len(log.present(since))), (count, count))
        for since in (-1, 1 << 64):
            with self.assertRaises(ValueError):
                tracker.present(since)
        with self.assertRaises(TypeError):
            tracker.present("0")
        waiting = Tracker()
        waiting.hear(7, ODD)
        self.assertEqual([(it.fix, it.newest.moment) for it in waiting.present()], [(None, 7)])

    def test_present_at_zero(self):
        """A frame at timestamp 0 and a fix at 0, 0 are there; of two fixes the newest counts."""
        even, odd = (squitter.encode(squitter.AirHead(1, odd=odd), (0, 0)) for odd in (0, 1))
        tracker = Tracker()
        tracker.hear(0, even)
        tracker.hear(0, odd)
        (one,) = tracker.present()
        self.assertEqual(one.airborne, squitter.Side(squitter.Received(0, even), squitter.Received(0, odd),
                                                     squitter.LastFix(0, (0, 0))))
        older, newer = (squitter.Side(None, None, squitter.LastFix(moment, PLACE)) for moment in (5, 9))
        self.assertEqual([squitter.Present(1, 9, *sides).fix.moment for sides in ((older, newer), (newer, older))],
                         [9, 9])

    def test_doubts(self):
        """Why places cannot be true: at, just below and just above each border."""
        fine = Fraction(1, 10**9)
        beyond, fast = squitter.Doubt.BEYOND_RANGE, squitter.Doubt.TOO_FAST
        for miles, site, place, told in (
            (60, (0, 0), (1, 0), 0), (60, (0, 0), (1 + fine, 0), beyond), (60, (0, 0), (-1 - fine, 0), beyond),
            (59, (0, 0), (0, 1), 0), (59, (0, 0), (0, 1 + fine), beyond), (2, (87, 0), (87, 1), 0),
            (2, (87, 0), (87, 1 + fine), beyond), (1, (87 + fine, 0), (87 + fine, 180), 0), (1, (90, 0), (90, 77), 0),
            (59, (0, Fraction(359, 2)), (0, Fraction(-359, 2)), 0), (58, (0, -180), (0, 179), beyond),
            (59, (0, -180), (0, 179), 0), (0, (0, 0), (1, 1), 0), ((1 << 32) - 1, (90, 0), (-90, 0), 0),
        ):
            watch = squitter.Watch(site, miles)
            self.assertEqual((watch.doubts(7, place), watch.doubts(7, site)), (told, 0), (miles, site, place))
        before = squitter.LastFix(1000, Position(0, 0))
        for knots, moment, lat, told in (
            (3600, 2000, Fraction(1, 30), 0), (3600, 1999, Fraction(1, 30), fast), (3599, 2000, Fraction(1, 30), fast),
            (1, 1000, Fraction(1, 60), 0), (1, 1000, Fraction(1, 59), fast), (1, 0, Fraction(1, 60), 0),
            (1, (1 << 64) - 1, 90, 0), (0, 1000, 90, 0),
        ):
            watch = squitter.Watch(speed=knots)
            self.assertEqual((watch.doubts(moment, (lat, 0), before), watch.doubts(moment, (lat, 0))), (told, 0))
        self.assertEqual(squitter.Watch((0, 0), 1, 1).doubts(1000, (1, 0), before), beyond | fast)
        self.refused(Code.BAD_POSITION, squitter.Watch, (91, 0))
        self.refused(Code.BAD_POSITION, watch.doubts, 0, (0, 181))
        self.refused(Code.BAD_POSITION, watch.doubts, 0, (0, 0), squitter.LastFix(0, (91, 0)))
        for given in ({"range": -1}, {"speed": 1 << 32}):
            with self.assertRaises(ValueError):
                squitter.Watch(**given)
        with self.assertRaises(TypeError):
            squitter.Watch(speed=1.5)
        with self.assertRaises(ValueError):
            watch.doubts(-1, (0, 0))

    def test_many_present(self):
        """More aircraft than one call has room for at first; at, just below and just above that room."""
        for count in (255, 256, 257, 1024, 1025):
            tracker = Tracker(limit=2000)
            frames = b"".join(squitter.encode(squitter.AirHead(number, squitter.field_of_feet(10_000)), PLACE)
                              for number in range(count))
            tracker.hear_many(range(count), frames)
            self.assertEqual([it[:2] for it in tracker.present()], [(n, n) for n in reversed(range(count))])
            self.assertEqual(len(tracker.present(count - 3)), 3)

    def test_closed_tracker(self):
        """Each call of a closed tracker raises NO_TRACKER, whatever its arguments."""
        tracker = Tracker()
        tracker.hear(1, ODD)
        for _ in range(2):
            tracker.close()
            for call in (
                len, bool, lambda it: it.present(), lambda it: it.present(1 << 70), lambda it: it.present("0"),
                lambda it: it.hear(2, EVEN), lambda it: it.hear(2, "*"),
                lambda it: it.hear(-1, EVEN), lambda it: it.hear(1.0, None), lambda it: it.hear_many([1, 2], bytes(28)),
                lambda it: it.hear_many([], b""), lambda it: it.hear_many([1], b"x"), lambda it: it.__enter__(),
            ):
                self.refused(Code.NO_TRACKER, call, tracker)

    def test_closed_by_another_thread(self):
        """Closing a tracker waits until the calls under way are done."""
        tracker = Tracker()
        with tracker._lock:
            closing = threading.Thread(target=tracker.close)
            closing.start()
            closing.join(0.2)
            self.assertTrue(closing.is_alive() and tracker._slot.full)
        closing.join(5)
        self.assertFalse(closing.is_alive() or tracker._slot.full)

    def test_signal_handler(self):
        """A signal handler may use a tracker in the middle of a call of the thread."""
        tracker, told = Tracker(), []
        tracker.hear(1, ODD)

        def handler(*_):
            if not tracker._lock.acquire(blocking=False):
                return  # The calls below would wait for ever.
            tracker._lock.release()
            told.append((len(tracker), tracker.present()[0].address, tracker.hear(5, EVEN).what))

        was = signal.signal(signal.SIGALRM, handler)
        self.addCleanup(signal.signal, signal.SIGALRM, was)
        taken = tracker._lock

        class Slow:
            """Timestamps that raise the signal while they are read."""

            def __len__(self):
                return 1

            def __iter__(self):
                signal.raise_signal(signal.SIGALRM)
                return iter([9])

        self.assertEqual(tracker.hear_many(Slow(), squitter.frame(ODD))[0].what, What.FIX)
        self.assertEqual(told, [(1, 0x40621D, What.FIX)] * len(told))
        self.assertTrue(told and taken is tracker._lock)

    def test_tracker_of_many(self):
        frames = [squitter.frame(text) for text in (ODD, GROUND_OLDER, EVEN, GROUND_NEWER)]
        source, moments = b"".join(frames) + bytes(14), [5, 6, 4, 7, 8]
        one, many = Tracker(limit=2), Tracker(limit=2)
        heard = many.hear_many(moments, source)
        self.assertEqual([answer.what for answer in (heard[0], heard[1], heard[3])],
                         [What.WAITING, What.WAITING, What.WITHOUT_SITE])
        self.assertEqual([(fault.code, fault.first) for fault in (heard[2], heard[4])],
                         [(Code.MOMENT_BACK, 6), (Code.NOT_DF17, 0)])
        for moment, frame, answer in zip(moments, frames, heard):
            if isinstance(answer, Fault):
                self.refused(answer.code, one.hear, moment, frame, first=answer.first)
            else:
                self.assertEqual(one.hear(moment, frame), answer)
        self.assertEqual(many.hear_many([], b""), [])
        for wrong in ([1], [1, -1], [1, 1 << 64]):
            with self.assertRaises(ValueError):
                many.hear_many(wrong, bytes(28))
        full = Tracker(limit=1)
        full.hear(0, ODD)
        self.refused(Code.TABLE_FULL, full.hear, 10_000, GROUND_OLDER)
        self.assertEqual(full.hear(10_001, GROUND_OLDER).what, What.WAITING)

    def test_tracker_and_its_memory(self):
        self.refused(Code.NO_LIMIT, Tracker, 10_000, None, 0)
        self.refused(Code.BAD_POSITION, Tracker, 10_000, Position(91, 0))
        for wrong in ({"window": -1}, {"window": 1 << 64}, {"limit": -1}, {"limit": 1 << 32}):
            with self.assertRaises(ValueError):
                Tracker(**wrong)
        with self.assertRaises(TypeError):
            Tracker(limit=1.0)
        tracker = Tracker()
        tracker.hear(1, ODD)
        memory = weakref.ref(tracker._memory)
        tracker.close()
        for taken in (copy.copy, copy.deepcopy, pickle.dumps):
            self.refused(Code.NO_TRACKER, taken, tracker)
        self.assertFalse(tracker._slot.full or tracker._slot.at or memory())
        tracker = Tracker()
        memory = weakref.ref(tracker._memory)
        del tracker
        gc.collect()
        self.assertIsNone(memory())

    def test_no_memory(self):
        """Trackers and logs for more addresses than the system has memory for are refused."""
        was = resource.getrlimit(resource.RLIMIT_AS)
        self.addCleanup(resource.setrlimit, resource.RLIMIT_AS, was)
        resource.setrlimit(resource.RLIMIT_AS, (1 << 33, was[1]))
        for make in (Tracker, Log):
            self.refused(Code.NO_MEMORY, make, limit=(1 << 32) - 1)
            self.refused(Code.BAD_POSITION, make, site=Position(91, 0), limit=(1 << 32) - 1)
            self.assertIsNotNone(make(limit=1))

    def test_log(self):
        """The result of a line comes with its line feed, whatever the pieces, and that of the last line at the end."""
        for size in (1, 2, 7, 64, len(LINES)):
            log, told = Log(10_000, SITE), b""
            for at in range(0, len(LINES), size):
                told += log.take_text(LINES[at:at + size])
                self.assertEqual(told.count(b"\n"), ANSWERED[LINES[:at + size].count(b"\n")])
            self.assertEqual(told + log.finish_text(), ANSWERS)
            self.assertEqual(log.tally, (4, 3))
            self.assertEqual(log.finish_text(), b"")
        for kind in (bytearray, memoryview):
            log = Log(10_000, SITE)
            self.assertEqual(log.take_text(kind(LINES)) + log.finish_text(), ANSWERS)
        self.assertEqual((Log().take_text(b""), Log().finish_text()), (b"", b""))
        for wrong in ("5 x", 5, None, [53]):
            with self.assertRaises(TypeError):
                Log().take_text(wrong)

    def test_formats(self):
        """Each format prints what the worked cases of `squitter track` print. The header of CSV comes once."""
        worked, words_of = {}, re.compile(r"squitter track --format=(\w+)(?: --window=(\d+))? << END\n(.*)END\n", re.S)
        for case in transcripts.cases("track"):
            words = words_of.fullmatch(case.script)
            if words:
                worked[words[1]] = words[3].encode().splitlines(True), case.printed.encode().splitlines(True)
                log = Log(int(words[2] or 10_000), format=words[1])
                self.assertEqual(log.take_text(words[3].encode()) + log.finish_text(), case.printed.encode())
        self.assertEqual({"lines", *worked}, {form.name.lower() for form in Format})
        lines, (header, first, *rows) = worked["csv"]
        for form in ("csv", Format.CSV, 1):
            log = Log(format=form)
            self.assertEqual([log.take_text(line) for line in lines], [header + first, *rows])
        self.assertEqual(Log(format="csv").finish_text(), header)
        for wrong in ("CSV", "lines ", "", len(Format), -1, None):
            with self.assertRaises(ValueError):
                Log(format=wrong)

    def test_log_in_a_signal_handler(self):
        """A signal handler may use the log between two calls of the library; the outer call returns the same."""
        log, count, told, texts = Log(), 10_000, [], squitter._hearing.ctypes.string_at

        def interrupted(*words):
            """Runs the handler before the module copies the library's output."""
            squitter._hearing.ctypes.string_at = texts
            signal.raise_signal(signal.SIGALRM)
            return texts(*words)

        was = signal.signal(signal.SIGALRM, lambda *_: told.append(log.take_text(b"\nx\n")))
        self.addCleanup(signal.signal, signal.SIGALRM, was)
        self.addCleanup(setattr, squitter._hearing.ctypes, "string_at", texts)
        squitter._hearing.ctypes.string_at = interrupted
        outer = log.take_text(f"5 {ODD}\n".encode() * count)
        # The handler's bytes come in the middle of a line.
        (inner,) = told
        self.assertTrue(inner.endswith(b" bad moment\n"), inner)
        before = int(inner.split()[0])
        self.assertTrue(outer.startswith(b"".join(b"%d waiting 40621D\n" % number for number in range(1, before))))

    def test_rooms_of_answers(self):
        """All results are returned, however many calls of the library they take."""
        line, log = f"5 {ODD}\n".encode(), Log()
        for count in (1, 3_500, 3_641, 3_642, 10_000):
            log = Log()
            told = log.take_text(line * count)
            self.assertEqual(told, b"".join(b"%d waiting 40621D\n" % (number + 1) for number in range(count)))
            self.assertEqual(log.tally, (count, 0))

    def test_closed_log(self):
        log = Log()
        log.take_text(LINES[:40])
        for _ in range(2):
            log.close()
            for call in (lambda it: it.take_text(b""), lambda it: it.take_text(3), lambda it: it.finish_text(),
                         lambda it: it.tally, lambda it: it.__enter__()):
                self.refused(Code.NO_TRACKER, call, log)
        with Log() as log:
            self.assertEqual(log.take_text(b"x\n"), b"1 bad moment\n")
        self.refused(Code.NO_TRACKER, log.finish_text)
        for taken in (copy.copy, copy.deepcopy, pickle.dumps):
            with self.assertRaises(TypeError):
                taken(Log())
        self.refused(Code.NO_LIMIT, Log, limit=0)

    def test_tracker_of_threads(self):
        tracker, heard = Tracker(), []

        def hear():
            heard.extend(tracker.hear(7, ODD).what for _ in range(200))

        threads = [threading.Thread(target=hear) for _ in range(4)]
        for thread in threads:
            thread.start()
        tracker.hear_many([7] * 500, squitter.frame(ODD) * 500)
        for thread in threads:
            thread.join()
        self.assertEqual((len(heard), set(heard), len(tracker)), (800, {What.WAITING}, 1))

    def test_copies(self):
        tracker = Tracker(10_000, SITE, 7)
        tracker.hear(4, GROUND_OLDER), tracker.hear(5, ODD)
        for other in (copy.copy(tracker), copy.deepcopy(tracker), pickle.loads(pickle.dumps(tracker))):
            self.assertEqual(other.present(), tracker.present())
            self.assertEqual(other.hear(6, EVEN), (What.FIX, PLACE, 0, 0))
            self.assertEqual((tracker.last, other.last), (5, 6))
            self.assertEqual(other.hear(8, GROUND_NEWER).position, GROUND_PLACE)
            self.refused(Code.MOMENT_BACK, other.hear, 7, ODD, first=8)
        self.assertEqual(tracker.hear(6, EVEN).what, What.FIX)
        # An empty tracker too, and one that accepted a frame without a position.
        for moments in ([], [9]):
            tracker = Tracker(limit=1)
            tracker.hear_many(moments, bytes.fromhex(OTHER) * len(moments))
            other = pickle.loads(pickle.dumps(tracker))
            self.assertEqual((other.last, len(other), other._save()), (sum(moments), 0, tracker._save()))
        # A pickle names the class in the package, not in a module of it.
        self.assertNotIn(b"squitter.", pickle.dumps(tracker))
        mine = Named(10_000, SITE)
        mine.name, mine.notes, mine.__dict__["free"] = "A", [1], 5
        mine.hear(5, ODD)
        for take in (copy.copy, copy.deepcopy, lambda one: pickle.loads(pickle.dumps(one)),
                     lambda one: pickle.loads(pickle.dumps(one, 0))):
            other = take(mine)
            self.assertEqual((type(other), other.name, other.notes, other.free), (Named, "A", [1], 5))
            self.assertEqual(other.notes is mine.notes, take is copy.copy)
            self.assertEqual(other.hear(6, EVEN).position, PLACE)
            self.assertEqual((mine.last, other.last), (5, 6))
        _, entries = mine._save()
        Contact().__setstate__((None, {}, (10, None, 1), 15, entries))
        self.refused(Code.BAD_ENTRY, Contact().__setstate__, (None, {}, (10, None, 1), 16, entries))
        with self.assertRaises(ValueError):
            Contact().__setstate__((None, {}, (10, None, 1), 15, entries + b"0"))
        fault = Fault(Code.ZONE_COUNTS, 45, 44)
        for other in (copy.copy(fault), copy.deepcopy(fault), pickle.loads(pickle.dumps(fault))):
            self.assertEqual((other.code, other.first, other.second), (Code.ZONE_COUNTS, 45, 44))
            self.assertEqual(str(other), f"zone counts 45 44: {other.hint}")

    def test_site_of_a_copy(self):
        """A copy has the site that its tracker was made with, though the caller's list has changed since."""
        for site in ([*SITE], iter(SITE)):
            tracker = Tracker(site=site)
            tracker.hear(4, GROUND_OLDER)
            if isinstance(site, list):
                site[:] = 0, 91
            for other in (copy.copy(tracker), copy.deepcopy(tracker), pickle.loads(pickle.dumps(tracker))):
                self.assertEqual(other.hear(8, GROUND_NEWER).position, GROUND_PLACE)


if __name__ == "__main__":
    unittest.main()
