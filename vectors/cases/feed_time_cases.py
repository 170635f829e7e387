"""Cases of feeds: the timestamps of frames, which of them are believed, and the order of frames that come late."""
from __future__ import annotations

from typing import List, Optional, Sequence

from cases.case import Collection, pick
from cases.feed_words import LOST, RATE, Cases, Call, E, O, S, clocked, clocks, end, log, message, row, times

TURN = 1 << 48  # ticks
MOST = (1 << 64) - 1
LEAP = 600_000  # milliseconds, if no other is given
DAY = 86_400_000  # milliseconds
NOW = 1_700_000_000_000  # an arrival: milliseconds since 1970
BARE = b"*%s;" % E.encode()


def add_feed_times(collection: Collection) -> None:
    """Adds the cases about times."""
    cases = Cases(collection)
    for part in (add_late_rows, add_leaps, add_runs, add_backs, add_first_rows, add_digits, add_ends_of_runs,
                 add_largest_times,
                 add_recorded_clocks, add_clock_turns, add_live_clocks, add_ahead, add_arrivals, add_orders,
                 add_sources, add_lost, add_flights):
        part(cases)


def each(moments: Sequence[int], arrivals: Optional[Sequence[int]] = None) -> List[Call]:
    """Returns a log with these timestamps, a line a call."""
    return [(log(moment), arrival) for moment, arrival in zip(moments, arrivals or [0] * len(moments))]


def ticking(moments: Sequence[int], arrivals: Optional[Sequence[int]] = None) -> List[Call]:
    """Returns frames with these times (ms) on the clock, one a call."""
    return [(clocks(moment), arrival) for moment, arrival in zip(moments, arrivals or [0] * len(moments))]


# ---- rows


def add_late_rows(cases: Cases) -> None:
    """A row before the latest one: moved up to `late` before it, or set aside if it is later than a second and `late`.
    """
    for late, moment, told in (
        (0, 5000, 5000), (0, 4999, 5000), (0, 4001, 5000), (0, 4000, 5000), (0, 3999, None), (1, 4999, 4999),
        (1, 4998, 4999),
        (300, 4701, 4701), (300, 4700, 4700), (300, 4699, 4700), (300, 4000, 4700), (300, 3999, None),
        (999, 4000, 4001),
        (1000, 4000, 4000), (1000, 3999, None), (1001, 3999, 3999), (1001, 3998, None), (2000, 3001, 3001),
        (2000, 3000, 3000), (2000, 2999, None), (MOST - 1, 0, 0), (MOST, 1, 1),
    ):
        told_as = [f"{told} O"] if told is not None else []
        for form, source in (("log", log(5000) + b"%d %s\n" % (moment, O.encode())),
                             ("csv", row("5") + row(f"{moment // 1000}.{moment % 1000:03}", O))):
            cases.add("late", "LateRow", source, ["5000 E", *told_as], {"aside": int(told is None)}, format=form,
                      late=late)
        cases.add("late", "LateRow", clocks(5000) + clocked(O, RATE * moment), ["5000 E", *told_as] if moment else
                  ["5000 E", "5000 O"], {"aside": int(told is None)}, late=late,
                  note="a clock of 0 is none" if not moment else "")
    cases.add("late", "LateRow", log(5000, 5001, 4500, 4002, 4001, 5001, 5002), times([5000, *[5001] * 5, 5002]),
              note="timestamps do not go back")
    cases.add("late", "LateRow", log(5000, 6000, 5200, 5700, 5500, 6001), times([5000, 6000, 5500, 5700, 5500, 6001]),
              late=500, note="by at most `late`")


def add_leaps(cases: Cases) -> None:
    """A row after the latest one by the leap, by 1 ms less and by 1 ms more."""
    for leap in (0, 1, 1000, LEAP, 10**12):
        for ahead in sorted({max(leap - 1, 0), leap, leap + 1}):
            first = [5000, 5000, 5000 + ahead]
            settings = {"leap": leap} if leap != LEAP else {}
            fits = ahead <= leap
            for calls, begun in ((each(first), [0, 2]), (ticking(first), [1, 1])):
                if first[-1] * RATE < TURN or begun == [0, 2]:
                    cases.add("leap", "TimesJump", calls, times(first), gives=[*begun, int(fits), int(not fits)],
                              **settings)
            if not fits:
                cases.add("leap", "TimesJump", each([*first, 5000]), times([5000] * 3), {"aside": 1}, [0, 2, 0, 1, 0],
                          note="a row that fits ends the wait", **settings)


def add_runs(cases: Cases) -> None:
    """Rows that jump wait; two that follow each other are told with the third."""
    flags, far = "TimesJump", 10**7
    for run, gives, told, aside in (
        ([far, far + 1, far + 2], [0, 0, 3], [far, far + 1, far + 2], 0),
        ([far, far, far], [0, 0, 3], [far] * 3, 0),
        ([far, far + LEAP, far + 2 * LEAP], [0, 0, 3], [far, far + LEAP, far + 2 * LEAP], 0),
        ([far, far + LEAP + 1, far + 2 * LEAP + 1], [0, 0, 3], [far, far + LEAP + 1, far + 2 * LEAP + 1], 0),
        ([far, far + 1, far + LEAP + 2], [0, 0, 2], [far, far + 1, far + LEAP + 2], 0),
        ([far, 2 * far, 3 * far, 4 * far, 5 * far], [0, 0, 2, 0, 2], [far, 2 * far, 3 * far, 4 * far, 5 * far], 0),
        ([far, far - 1000, far + 1], [0, 0, 3], [far, far, far + 1], 0),
        ([far, far - 1001, far + 1], [0, 0, 0], [far, far + 1], 1),
        ([far, far + 1, far - 999], [0, 0, 3], [far, far + 1, far + 1], 0),
        ([far, far + 1, far - 1000], [0, 0, 0], [far, far], 1),
        ([far, 4 * far, 3 * far, 2 * far, 5 * far, 6 * far], [0, 0, 0, 0, 2, 0], [far, 2 * far, 5 * far, 6 * far], 2),
        ([far, 9 * far, 2 * far, 2 * far + 1], [0, 0, 0, 3], [far, 2 * far, 2 * far + 1], 1),
        ([2 * far, far, 3 * far, 3 * far + 1], [0, 0, 0, 3], [far, 3 * far, 3 * far + 1], 1),
        ([far, far + 1, 5002], [0, 0, 1], [5002], 2), ([far, 5002], [0, 1], [5002], 1),
        ([far, 1, far + 1, far + 2], [0, 0, 0, 3], [far, far + 1, far + 2], 1),
        ([far, 1, 5001], [0, 0, 1], [5001], 2),
    ):
        begun = [5000, 5001]
        last = len(told) - sum(gives)
        cases.add("run", flags, each([*begun, *run]), times([*begun, *told]), {"aside": aside}, [0, 2, *gives, last])
        cases.add("run", flags, ticking([*begun, *run]), times([*begun, *told]), {"aside": aside}, [1, 1, *gives, last])


def add_backs(cases: Cases) -> None:
    """Times that go back are moved on, in a recording by the leap and 1 ms after the latest timestamp."""
    for run, gives, told, counts in (
        ([1, 2, 3], [0, 0, 3], [605_002, 605_003, 605_004], {"breaks": 1}),
        ([1, 1, 1], [0, 0, 3], [605_002] * 3, {"breaks": 1}),
        ([1, 2, 3, 4, 600_004, 600_005], [0, 0, 3, 1, 1, 1], [605_002, 605_003, 605_004, 605_005, 1_205_005, 1_205_006],
         {"breaks": 1}),
        ([3, 2, 1], [0, 0, 3], [605_002] * 3, {"breaks": 1}),
        ([1, 2, 5001], [0, 0, 1], [5001], {"aside": 2}),
    ):
        last = len(told) - sum(gives)
        for calls, first in ((each([4000, 5001, *run]), [0, 2]), (ticking([4000, 5001, *run]), [1, 1])):
            cases.add("back", "TimesBack", calls, times([4000, 5001, *told]), counts, [*first, *gives, last],
                      note="times that go back are moved on")
    cases.add("back", "TimesBack", log(9000, 9001, 1, 2, 3, 8000, 1, 2, 3),
              times([9000, 9001, 609_002, 609_003, 609_004,
              617_001, 1_217_002, 1_217_003, 1_217_004]), {"breaks": 2}, note="twice")
    cases.add("back", "TimesBack", log(9000, 9001, 1, 2, 3), times([9000, 9001, 9102, 9103, 9104]), {"breaks": 1},
              leap=100)
    cases.add("back", "TimesBack", log(9000, 9001, 1, 2, 3), times([9000, 9001, 1, 2, 3]), late=10_000,
              note="all of them fit")


def add_first_rows(cases: Cases) -> None:
    """The first row waits until another fits it; if rows go back, it was wrong. The first clock does not wait."""
    flags, wild = "FirstRow", 9_999_000
    for moments, gives, told, counts in (
        ([5000], [0, 1], [5000], {}), ([5000, 5000], [0, 2, 0], [5000] * 2, {}),
        ([5000, 4000], [0, 2, 0], [5000] * 2, {}),
        ([5000, 3999], [0, 0, 1], [5000], {"aside": 1}), ([5000, 605_000], [0, 2, 0], [5000, 605_000], {}),
        ([5000, 605_001], [0, 0, 2], [5000, 605_001], {}),
        ([5000, 605_001, 605_002, 605_003], [0, 0, 0, 4, 0], [5000, 605_001, 605_002, 605_003], {}),
        ([wild, 1500], [0, 0, 1], [wild], {"aside": 1}),
        ([wild, 1500, 2500], [0, 0, 0, 2], [1500, 2500], {"aside": 1}),
        ([wild, 1500, 2500, 3500], [0, 0, 0, 3, 0], [1500, 2500, 3500], {"aside": 1}),
        ([wild, 1500, wild + 1, 2500], [0, 0, 2, 0, 0], [wild, wild + 1], {"aside": 2}),
        ([wild, 1500, 2500, wild], [0, 0, 0, 2, 0], [wild, wild], {"aside": 2}),
    ):
        cases.add("first", flags, each(moments), times(told), counts, gives)
    cases.add("first", flags, ticking([wild, 1500, 2500, 3500]),
              times([wild, wild + 600_001, wild + 601_001, wild + 602_001]),
              {"breaks": 1}, [1, 0, 0, 3, 0], note="a clock has no first time that waits")


def add_digits(cases: Cases) -> None:
    """Rows about the powers of ten, where the number of digits changes, and one before them."""
    for power in (1, 2, 3, 4, 9, 12):
        edge = 10**power
        moments = [edge - 3, edge - 2, edge - 1, edge, edge + 1, edge - 1]
        cases.add("digits", "LateRow", log(*moments), times([*moments[:5], edge + 1]))
        table = b"".join(row(f"{moment // 1000}.{moment % 1000:03}") for moment in moments)
        cases.add("digits", "LateRow", table, times([*moments[:5], edge + 1]))


def add_ends_of_runs(cases: Cases) -> None:
    """What waits at the end: one that goes ahead is told, two that follow each other are, and others are set aside."""
    far = 10**7
    for run, told, counts in (
        ([far], [far], {}), ([1], [], {"aside": 1}), ([far, far + 1], [far, far + 1], {}),
        ([1, 2], [605_002, 605_003], {"breaks": 1}), ([far, 1], [], {"aside": 2}), ([1, far], [], {"aside": 2}),
        ([far, far - 1000], [far, far], {}), ([far, far - 1001], [], {"aside": 2}),
        ([far, 2 * far], [far, 2 * far], {}),
        ([2 * far, far], [], {"aside": 2}), ([1, 3000], [605_002, 608_001], {"breaks": 1}),
    ):
        for calls, first in ((each([4000, 5001, *run]), [0, 2]), (ticking([4000, 5001, *run]), [1, 1])):
            cases.add("end", "TimesJump", calls, times([4000, 5001, *told]), counts,
                      [*first, *[0] * len(run), len(told)])


def add_largest_times(cases: Cases) -> None:
    """Timestamps at 2^64 - 1, and leaps of that size."""
    for leap, gives in ((MOST, [0, 2, 0]), (MOST - 1, [0, 0, 2])):
        cases.add("largest", "LargestTime", each([0, MOST]), times([0, MOST]), gives=gives, leap=leap)
    cases.add("largest", "LargestTime", log(MOST - 1, MOST, MOST), times([MOST - 1, MOST, MOST]))
    cases.add("largest", "LargestTime", log(MOST - 1, MOST, 1, 2, 3), times([MOST - 1, *[MOST] * 4]), {"breaks": 1})
    cases.add("largest", "LargestTime", [(BARE, MOST), (BARE, MOST)], times([MOST, MOST]), live=True, format="avr")
    cases.add("largest", "LargestTime", [(BARE, 5), (BARE, MOST), (BARE, 4)], times([5, MOST, MOST]), {"ahead": 1},
              live=True)


# ---- clocks


def add_recorded_clocks(cases: Cases) -> None:
    """In a recording, timestamps are what the clock says; ticks are rounded down; and a clock of 0 is none."""
    for ticks, moment in ((1, 0), (RATE - 1, 0), (RATE, 1), (RATE + 1, 1), (2 * RATE - 1, 1), (2 * RATE, 2),
                          (TURN - 1, (TURN - 1) // RATE), (1 << 47, (1 << 47) // RATE)):
        for source in (clocked(E, ticks), message(E, ticks)):
            cases.add("clock", "Clock", source, [f"{moment} E"], note="12,000 ticks are a millisecond")
    cases.add("clock", "ClockOfZero", message(E, 0) + clocked(O, 0)[:0] + message(O, 7 * RATE) + message(E, 0),
              ["0 E", "7 O", "7 E"], note="a frame without a time has the timestamp before it")
    cases.add("clock", "ClockOfZero", clocks(7) + BARE + clocked(O, 0), ["7 E", "7 E", "7 O"])
    for start in (1, LEAP, LEAP + 1, 1000 * LEAP):
        for none in (clocked(O, 0), b"*%s;\n" % O.encode()):
            cases.add("clock", "ClockOfZero", none * 2 + clocks(start, start + 100), ["0 O", "0 O", f"{start} E",
                      f"{start + 100} E"], note="the first clock is as it is, however late")
    cases.add("clock", "ClockIgnored", clocks(7, 9), ["0 E", "0 E"], by_arrival=True)
    cases.add("clock", "ClockIgnored", log(7, 9), ["7 E", "9 E"], by_arrival=True, note="times of rows are no clock")
    cases.add("clock", "Clock", message(S, 9 * RATE) + message(E, 7 * RATE), ["7 E"], {"DF11": 1},
              note="a frame that is left out sets no clock")
    cases.add("clock", "Clock", message(S, 9 * RATE) + message(E, 7 * RATE), [f"9 {S}", "9 E"], all_formats=True)


def add_clock_turns(cases: Cases) -> None:
    """A clock of 48 bits goes on by the shorter way: just under half a turn ahead, and back from there."""
    half, far = TURN // 2, 10**15
    for start, ahead in ((RATE, half - 1), (TURN - RATE, 2 * RATE), (TURN - 1, 1), (TURN - 1, RATE + 1),
                         (1, half - RATE)):
        later = (start + ahead) // RATE
        cases.add("turn", "ClockTurn", clocked(E, start) + clocked(O, (start + ahead) % TURN),
                  [f"{start // RATE} E", f"{later} O"], leap=far, note=f"{ahead} ticks ahead")
    for ahead in (half, half + 1):
        start = RATE + half
        cases.add("turn", "ClockTurn", clocked(E, start) + clocked(O, (start + ahead) % TURN), [f"{start // RATE} E"],
                  {"aside": 1}, leap=far, note="half a turn ahead is back")
    days = [0, 100, 200, 271, 272, 400, 500]
    cases.add("turn", "ClockTurn", [clocked(E, (1 + day * DAY * RATE) % TURN) for day in days],
              times([day * DAY for day in days]), leap=130 * DAY, note="the clock turns after 271 days")
    back = TURN - 500 * RATE  # half a second before the clock turns
    cases.add("turn", "ClockTurn", clocked(E, 0x0000000000FF) + clocked(O, back), ["0 E", "0 O"],
              note="a clock before 0 is at 0, and late")
    start = 500 * RATE
    for back, lines in ((1001 * RATE - 1, ["500 E", "500 O"]), (1001 * RATE, ["500 E"]), (half, ["500 E"])):
        cases.add("turn", "ClockTurn", clocked(E, start) + clocked(O, (start - back) % TURN), lines,
                  {} if len(lines) == 2 else {"aside": 1}, note="a clock before 0 is late by at most a second")
    for back in (1001 * RATE, half):
        cases.add("turn", "ClockTurn", clocked(E, start) + clocked(O, (start - back) % TURN) + clocks(600, 700),
                  ["500 E", *times([600, 700])], {"aside": 1}, note="a wild value moves no later time")
    for late, back in ((5000, 5001 * RATE - 1), (5000, 5001 * RATE)):
        fits = back < 5001 * RATE
        cases.add("turn", "ClockTurn", clocked(E, start) + clocked(O, (start - back) % TURN),
                  ["500 E", "0 O"] if fits else ["500 E"], {} if fits else {"aside": 1}, late=late)
    cases.add("turn", "ClockTurn", clocked(E, start) + b"".join(clocked(O, (TURN - 9000 * RATE) + n * RATE)
                                                                  for n in (0, 1, 2)) + clocked(E, TURN - 8000 * RATE),
              ["500 E", "600501 O", "600501 O", "600501 O", "601499 E"], {"breaks": 1},
              note="three values before 0 start the clock anew")


def add_live_clocks(cases: Cases) -> None:
    """The first clock is at its arrival, and later ones count from there. A jump that the arrivals show is none."""
    flags = "LiveClock"
    cases.add("live", flags, ticking([1000, 1500, 2500], [NOW, NOW + 9, NOW + 1700]),
              times([NOW, NOW + 500, NOW + 1500]),
              live=True, note="the clock counts, and not the arrivals")
    for leap in (1000, LEAP):
        settings = {"leap": leap} if leap != LEAP else {}
        for away in (-leap - 1, -leap, 1 - leap, leap - 1, leap, leap + 1):
            gap = 2 * leap + 5000
            fits = abs(away) <= leap
            calls = ticking([1000, 1000 + gap], [NOW, NOW + gap - away])
            cases.add("live", flags, calls, times([NOW, NOW + gap]), {"ahead": int(not fits)},
                      [1, int(fits), int(not fits)],
                      live=True, note="a gap that the arrivals show, within the leap", **settings)
    for source, told, note in (
        ([(b, NOW + at) for b, at in ((clocks(9000), 0), (clocks(1), 5000), (clocks(2), 5001), (clocks(3), 5002))],
         [NOW, NOW + 5002, NOW + 5003, NOW + 5004],
         "a clock that starts again goes on by the arrival of the third frame"),
        ([(BARE, NOW), (clocks(7), NOW + 50), (BARE, NOW + 80), (clocks(9), NOW + 99)],
         [NOW, NOW + 50, NOW + 80, NOW + 80], "a frame without a clock has its arrival"),
        ([(clocks(7), NOW), (BARE, NOW + 80), (clocks(500), NOW + 90)], [NOW, NOW + 80, NOW + 493],
         "and the clock counts on"),
    ):
        cases.add("live", flags, source, times(told), {"breaks": 1} if "again" in note else {}, live=True, note=note)
    cases.add("live", "ClockIgnored", ticking([500, 1000], [77, 78]), times([77, 78]), live=True, by_arrival=True)


def add_ahead(cases: Cases) -> None:
    """A live source that is ahead of its arrivals by more than the leap is a recording, or has another clock."""
    for leap in (1000, LEAP):
        settings = {"leap": leap} if leap != LEAP else {}
        for ahead in (leap - 1, leap, leap + 1):
            moments = [500, 500 + leap // 2, 500 + ahead]
            told = times([77, 77 + leap // 2, 77 + ahead])
            cases.add("ahead", "ClockAhead", ticking(moments, [77] * 3), told, {"ahead": int(ahead > leap)}, live=True,
                      **settings)
            cases.add("ahead", "ClockAhead", ticking(moments, [77] * 3), times(moments), **settings)
    for third, last, told, note in (
        (2000, NOW, [1500, 2501, 2502, 2503], "then a clock that starts again goes on beyond the leap"),
        (1500, NOW + 1, [1000, 1001, 1002, 1003], "and before, by the arrival"),
    ):
        cases.add("ahead", "ClockAhead TimesBack", ticking([500, 1400, third, 1, 2, 3], [NOW] * 5 + [last]),
                  times([NOW + at for at in (0, 900, *told)]), {"ahead": 1, "breaks": 1}, live=True, leap=1000,
                  note=note)
    cases.add("ahead", "ClockAhead TimesBack", ticking([500, 1400, 2000, 1, 2, 3], [77] * 6),
              times([77, 977, 1577, 2578, 2578, 2578]), {"ahead": 1, "breaks": 1}, live=True, leap=1000,
              note="a clock that goes back to before 0 is at 0")


def add_arrivals(cases: Cases) -> None:
    """Frames without a clock have their arrival, live; in a recording the timestamp before them."""
    for live in (True, False):
        flags, settings = "Arrival", {"live": True} if live else {}
        told = [NOW, NOW + 500] if live else [0, 0]
        cases.add("arrival", flags, [(BARE + E.encode(), NOW), end(NOW + 500)], times(told), gives=[1, 1], format="avr",
                  **settings)
        cases.add("arrival", flags, [(BARE, NOW), (BARE, NOW - 1), (BARE, NOW + 1)],
                  times([NOW, NOW, NOW + 2] if live else [0] * 3), **settings,
                  note="as much later than the one before it as their arrivals are apart")
        cases.add("arrival", flags, [(BARE[:-1], NOW), (b";", NOW + 3)], times([NOW + 3] if live else [0]), **settings,
                  note="a frame arrives with its last byte")
        cases.add("arrival", flags, [(b"x" + message(E, 0), NOW), (message(E, 0), NOW + 9), end(NOW + 10)],
                  times([NOW + 9 if live else 0] * 2), {"damaged": 1}, [0, 2, 0], **settings,
                  note="the frames before the one that shows the format arrive with it")
    cases.add("arrival", "Arrival", [(log(5), NOW), (log(6), NOW + 1)], times([5, 6]), live=True,
              note="rows have their own times")


# ---- orders, sources and connections


def add_orders(cases: Cases) -> None:
    """Frames are sorted that are late by at most the order. Equal ones stay. A later one has the earliest time."""
    for reorder in (1, 100, 2000):
        for behind in (reorder - 1, reorder, reorder + 1):
            third, is_aside = 5000 + reorder - behind, behind > max(reorder, 1000)
            told = sorted([5000, 5000 + reorder, *[max(third, 5000)] * (not is_aside)])
            cases.add("order", "Reorder", each([5000, 5000 + reorder, third]), times(told), {"aside": int(is_aside)},
                      late=reorder, reorder=reorder,
                      note="a frame that is later has the earliest timestamp that can be sorted in")
        for ahead in (reorder - 1, reorder, reorder + 1):
            cases.add("order", "Reorder", each([5000, 5000, 5000 + ahead]), times([5000, 5000, 5000 + ahead]),
                      gives=[0, 0, 2, 1] if ahead >= reorder else [0, 0, 0, 3], late=reorder, reorder=reorder,
                      note="a frame is given once one has come that is so much later")
    cases.add("order", "Reorder", log(5000) + b"5000 %s\n5000 %s\n" % (O.encode(), E.encode()),
              ["5000 E", "5000 O", "5000 E"],
              late=10, reorder=10, note="equal timestamps stay in the order of the frames")
    cases.add("order", "Reorder", each([1000, 950, 1060, 1000, 1099, 1010, 1100, 1000, 1001]),
              times([950, 1000, 1000, 1000, 1001, 1010, 1060, 1099, 1100]), gives=[0, 0, 1, 0, 0, 0, 2, 1, 0, 5],
              late=100,
              reorder=100, note="a late frame does not move the front back")
    cases.add("order", "Reorder", each([1000, 5000, 2000]), times([1000, 5000]), {"aside": 1}, late=10, reorder=10)
    cases.add("order", "Reorder", each([1000, 5000, 5100, 4500]), times([1000, 5000, 5100]), {"late": 1}, late=1000,
              reorder=100,
              note="if times may be later than the order, a frame is dropped")
    cases.add("order", "Reorder", [log(5, 6), end(0), log(6, 7), end(0)], times([5, 6, 6, 7]), gives=[1, 1, 1, 1],
              late=1, reorder=1, note="the end of a source gives all that is held")
    cases.add("order", "Reorder", [log(9, 9), end(0), log(8)], times([9, 9]), {"late": 1}, late=1, reorder=1)
    cases.add("order", "Reorder", ticking([7, 5, 9]), times([5, 7, 9]), late=2, reorder=2, format="avr")


def add_sources(cases: Cases) -> None:
    """Several sources, one after the other: times go on, and a last line lacks its end."""
    flags = "NextSource"
    for form, last, moment in (("avr", E.encode(), 0), ("csv", row("7").strip(), 7000), ("log", log(7).strip(), 7)):
        for settings in ({"format": form}, {}):
            cases.add("source", flags, [last, end(0), end(0), last, end(0)], times([moment] * 2), gives=[0, 1, 0, 0, 1],
                          **settings)
    cases.add("source", flags, [clocks(7), end(0), log(9), end(0), row("0.011"), end(0)], times([7, 9, 11]),
              note="each source has its own format")
    cases.add("source", flags, [b"rawmsg,x,time\n%s,,7\n" % E.encode(), end(0), row("8"), end(0)], times([7000, 8000]),
              format="csv", note="names of columns end with their source")
    cases.add("source", flags, [message(E, 7 * RATE)[:9], end(0), message(O, 8 * RATE)], ["8 O"], {"damaged": 1})
    cases.add("source", flags, [clocks(9000), end(0), clocks(7, 8, 9)], times([9000, 609_001, 609_002, 609_003]),
              {"breaks": 1},
              gives=[1, 0, 3, 0], note="a clock goes on in the next source")


def add_lost(cases: Cases) -> None:
    """A lost connection drops an unfinished frame. The clock starts anew: live by the arrival, else beyond a leap."""
    flags, one = "LostConnection", message(E, 1000 * RATE)
    for leap in (0, 10_000, 20_000):
        cases.add("lost", flags, [one + one[:9], LOST, one], times([1000, 1001 + leap]), {"damaged": 1}, [1, 0, 1, 0],
                  format="beast", leap=leap)
    for form, whole, cut, damaged in (
        ("beast", one, b"", 0), ("beast", one, b"\x1a", 0), ("beast", one, b"\x1a3", 1), ("beast", one, one[:-1], 1),
        ("beast", one, b"\x1a4", 0), ("avr", clocks(1000), b"", 0), ("avr", clocks(1000), b"*", 1),
        ("avr", clocks(1000), b"8", 1), ("avr", clocks(1000), E.encode(), 1), ("avr", clocks(1000), b"\r", 0),
    ):
        for settings in ({"format": form}, {}):
            cases.add("lost", flags, [whole + cut, LOST, LOST, whole], times([1000, 601_001]), {"damaged": damaged},
                      [1, 0, 0, 1, 0], shows=[form, settings.get("format"), settings.get("format"), form,
                                              settings.get("format")],
                      **settings)
    for form, rows in (("log", log(7, 8)), ("csv", row("0.007") + row("0.008"))):
        for cut, damaged in ((b"", 0), (b"x", 1), (b"\r", 1), (rows.splitlines()[0], 1)):
            cases.add("lost", flags, [rows + cut, LOST, rows], times([7, 8, 8, 8]), {"damaged": damaged}, [2, 0, 2, 0],
                      format=form, note="a row is read only with its end")
    cases.add("lost", flags, [E.encode(), LOST, clocks(7)], times([7]), {"damaged": 1}, [0, 0, 1, 0],
              note="bytes of a connection without a format are damaged")
    cases.add("lost", flags, [log(7), LOST, LOST, log(8), end(0)], times([7, 8]), gives=[0, 0, 0, 2, 0],
              note="a first row that waits comes with the next call")
    cases.add("lost", flags, [(clocks(1000), 5000), LOST, (log(7000, 7001, 7002), 6000)],
              times([5000, 7000, 7001, 7002]),
              live=True, note="rows are as they are, though a clock was heard before")
    cases.add("lost", flags, [log(7, 8), LOST, b"time;rawmsg\n", end(0)], times([7, 8]), {"damaged": 1}, [2, 0, 0, 0],
              ["log", None, None, "semicolons"])
    cases.add("lost", flags, [log(7), LOST, end(0)], times([7]), gives=[0, 0, 1])
    far = 10**7
    for run, told, counts in (([far], [far], {}), ([1], [], {"aside": 1}), ([far, 1], [], {"aside": 2}),
                              ([far, far + 1], [far, far + 1], {})):
        cases.add("lost", flags, [*ticking([5000, *run]), LOST, (b"", 0)], times([5000, *told]), counts,
                  [1, *[0] * len(run), 0, len(told), 0], format="avr")
    add_lost_clocks(cases)


def add_lost_clocks(cases: Cases) -> None:
    """After a lost connection a live clock goes on by the arrival, or beyond the leap if it was ahead."""
    flags = "LostConnection"
    for arrival in (NOW + 100, NOW - 100):
        cases.add("lost", flags, [(clocks(1000), NOW), LOST, (clocks(5), arrival)], times([NOW, max(arrival, NOW)]),
                  live=True)
    cases.add("lost", flags, [(clocks(1000, 2000, 2500), NOW), LOST, (clocks(5), NOW + 100)],
              times([NOW, NOW + 1000, NOW + 1500, NOW + 2501]), {"ahead": 1}, live=True, leap=1000,
              note="ahead of its arrivals, the clock starts beyond the leap")


# ---- whole sources


def add_flights(cases: Cases) -> None:
    """Longer sources of each format, with a few wild times and other frames, by the definitions alone."""
    for form in ("beast", "avr", "csv", "log"):
        for number in range(12):
            name = f"flight of {form} {number}"
            now, parts = pick(name, 0, 10**9), []
            for step in range(1, 16):
                now += pick(name + " gap", step, (50, 2000, LEAP)[number % 3])
                kind = pick(name + " kind", step, 12)
                told = now + (0, 10**8, -700, -5000)[kind] if kind < 4 else now
                told, frame = max(told, 0), S if kind == 4 else O if kind % 2 else E
                parts.append({"beast": message(frame, told * RATE % TURN), "avr": clocked(frame, told * RATE % TURN),
                              "csv": row(f"{told // 1000}.{told % 1000:03}", frame),
                              "log": f"{told} {frame}\n".encode()}[form])
            live = {"live": True} if number % 4 == 1 else {}
            late = {"late": 2000, "reorder": 2000} if number % 4 == 2 else {}
            calls = [{"bytes": b"".join(parts[at : at + 5]).hex(), "arrival": NOW + 1000 * at} for at in range(0, 15,
                                                                                                               5)]
            cases.define("flight", "Flight", {**live, **late, "calls": [*calls, end(NOW + 20_000)]})


