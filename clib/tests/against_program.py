#!/usr/bin/env python3
"""against_program.py [COUNT]: the module squitter beside the program, on so many random frames, positions and pairs
(10000). The calls of arrays, and whole numbers of 10^-7 degree, are held to the single calls, which are held to the
program.

The frames are nearly good: made of random positions, some damaged. The program reads them as one input of `check` and
of `track`; `encode`, `local` and `pair`, with a site and without, are called so many times each. PROGRAM is the program
(by default what dist/program says). Says what differs, and ends with status 1."""
import argparse
import os
import random
import subprocess
import sys
from concurrent.futures import ThreadPoolExecutor
from fractions import Fraction

HERE = os.path.dirname(os.path.abspath(__file__))


def number(word):
    if not (word.isdecimal() and int(word)):
        raise argparse.ArgumentTypeError(f"{word} is no number from 1 on")
    return int(word)


# The words are read before dist/program builds the program.
PARSER = argparse.ArgumentParser(description=__doc__, formatter_class=argparse.RawDescriptionHelpFormatter)
PARSER.add_argument("count", nargs="?", default=10_000, type=number, metavar="COUNT")
COUNT = PARSER.parse_args().count
sys.path.insert(0, os.path.join(HERE, ".."))
import squitter  # noqa: E402
from squitter import AirHead, Code, Contact, Fault, GroundHead, Kind, Position, Tracker, What  # noqa: E402

PROGRAM = os.environ.get("PROGRAM") or subprocess.run(
    [os.path.join(HERE, "..", "..", "dist", "program")], check=True, stdout=subprocess.PIPE, text=True).stdout.strip()
WORDS = {What.FIX: "fix", What.FOLLOWED: "followed", What.WAITING: "waiting", What.SPLIT: "split", What.FAR: "far",
         What.WITHOUT_SITE: "no site", What.NO_PLACE: "no position"}
PARITIES = ("even", "odd")
differences = 0


def same(what, ours, theirs):
    global differences
    if ours != theirs:
        differences += 1
        if differences < 10:
            print(f"{what} differs:\n  module  {ours}\n  program {theirs}")


def run(*words, text=""):
    done = subprocess.run([PROGRAM, *words], input=text, capture_output=True, text=True)
    return done.stdout, done.stderr, done.returncode


def decimals(number):
    """A random angle as text, with seven decimals."""
    sign = "-" if number < 0 else ""
    return f"{sign}{abs(number) // 10**7}.{abs(number) % 10**7:07}"


def random_position(rng):
    if rng.random() < 0.2:
        lat = rng.choice([-90, -87, 0, 87, 90]) * 10**7 + rng.randint(-5, 5)
        lon = rng.choice([-180, -90, 0, 90, 180]) * 10**7 + rng.randint(-5, 5)
    else:
        lat, lon = rng.randint(-90 * 10**7, 90 * 10**7), rng.randint(-180 * 10**7, 180 * 10**7)
    return max(-90 * 10**7, min(90 * 10**7, lat)), max(-180 * 10**7, min(180 * 10**7, lon))


def degrees(place):
    return Position(*(Fraction(part, 10**7) for part in place))


def random_frames(rng, count):
    """Frames of a few aircraft that move a little, now and then damaged or of another kind."""
    places = {}
    for _ in range(count):
        address = rng.randint(1, 40)
        lat, lon = places.get(address) or random_position(rng)
        if rng.random() < 0.01:
            lat, lon = random_position(rng)
        lat = max(-90 * 10**7, min(90 * 10**7, lat + rng.randint(-20000, 20000)))
        lon = max(-180 * 10**7, min(180 * 10**7, lon + rng.randint(-20000, 20000)))
        places[address] = lat, lon
        if address % 4:
            head = AirHead(address, rng.randint(0, 4095), rng.randint(0, 7), rng.choice([9, 11, 18, 20, 22]),
                           rng.randint(0, 3), rng.randint(0, 1), rng.randint(0, 1), rng.randint(0, 1))
        else:
            head = GroundHead(address, rng.randint(0, 7), rng.randint(5, 8), rng.randint(0, 127), rng.randint(0, 1),
                              rng.randint(0, 127), rng.randint(0, 1), rng.randint(0, 1))
        frame = bytearray(squitter.encode(head, degrees((lat, lon))))
        if rng.random() < 0.1:
            frame[rng.randrange(14)] ^= 1 << rng.randrange(8)
        text = squitter.frame_text(frame)
        if rng.random() < 0.1:
            at = rng.randrange(1, len(text))
            text = rng.choice([text[:at] + "g" + text[at + 1:], text[:at], f"*{text}", f"*{text};", text.lower()])
        yield text


def words(fault):
    """The words of a fault without its hint, which the program does not print."""
    return squitter.fault_text(fault.code, fault.first, fault.second)


def summary(text):
    """The line of `check`, without its number."""
    try:
        fields = squitter.read(text)
    except Fault as fault:
        return words(fault)
    if fields.kind == Kind.OTHER:
        return f"ok {fields.address:06X} other {fields.type_code}"
    kind = "air" if fields.kind == Kind.AIR else "ground"
    return f"ok {fields.address:06X} {kind} {PARITIES[fields.odd]} {fields.lat} {fields.lon}"


def heard_line(tracker, moment, text):
    """The line of `track`, without its number."""
    try:
        address = squitter.read(text).address
        heard = tracker.hear(moment, text)
    except Fault as fault:
        return words(fault)
    line = f"{WORDS[heard.what]} {address:06X}"
    if heard.position:
        line += " " + " ".join(map(squitter.angle_text, heard.position))
    return line + (f" {heard.even} {heard.odd}" if heard.what == What.SPLIT else "")


def place_lines(call, *arguments):
    """What `local` and `pair` write, or the fault that they report."""
    try:
        place = call(*arguments)
    except Fault as fault:
        return words(fault)
    fractions = " ".join(f"{part.numerator}/{part.denominator}" for part in place)
    return " ".join(map(squitter.angle_text, place)) + "\n" + fractions + "\n"


def shown(answer):
    """What the program wrote, or the fault that it reported."""
    out, report, status = answer
    return out if status == 0 else report.strip()


def compare_logs(rng, texts, _count):
    out, _, _ = run("check", text="".join(f"{text}\n" for text in texts))
    *lines, tally = out.splitlines()
    for number, (text, line) in enumerate(zip(texts, lines), 1):
        same(f"check of {text!r}", f"{number} {summary(text)}", line)
    moment, log, ours = 0, [], []
    tracker = Tracker(site=Position(Fraction(521, 10), 4))
    for number, text in enumerate(texts, 1):
        moment += rng.randint(0, 900)
        log.append(f"{moment} {text}\n")
        ours.append(f"{number} {heard_line(tracker, moment, text)}")
    out, _, _ = run("track", "--lat", "52.1", "--lon", "4", text="".join(log))
    theirs = out.splitlines()
    same("lines of track", len(ours), len(theirs))
    for one, other in zip(ours, theirs):
        same("track", one, other)
    return len(lines)


def compare_calls(rng, texts, count):
    good = [text for text in texts if not summary(text).startswith("bad")]
    asked = []
    for _ in range(count):
        place = random_position(rng)
        lat, lon = map(decimals, place)
        text, other = rng.choice(good), rng.choice(good)
        near = f"--lat={lat}", f"--lon={lon}"
        asked.append((place_lines(squitter.local, text, degrees(place)), ("local", *near, text)))
        asked.append((place_lines(squitter.pair, text, other), ("pair", text, other)))
        asked.append((place_lines(squitter.pair, text, other, degrees(place)), ("pair", *near, text, other)))
        odd, address, feet = rng.randint(0, 1), rng.randint(0, (1 << 24) - 1), rng.randrange(-1000, 50176, 25)
        head = AirHead(address, squitter.field_of_feet(feet), odd=odd)
        words = "--kind=air", f"--parity={PARITIES[odd]}", f"--address={address:06X}", f"--feet={feet}"
        sent = squitter.frame_text(squitter.encode(head, degrees(place))) + "\n"
        asked.append((sent, ("encode", *words, *near)))
    with ThreadPoolExecutor(os.cpu_count()) as workers:
        for (ours, words), answer in zip(asked, workers.map(lambda one: run(*one[1]), asked)):
            same(" ".join(words), ours, shown(answer))
    return len(asked)


def single(call, *arguments):
    """What a call answers, or its fault, so that two can be compared."""
    try:
        return call(*arguments)
    except Fault as fault:
        return fault.code, fault.first, fault.second


def places_of(answers):
    return [(one.code, one.first, one.second) if isinstance(one, Fault) else one for one in answers]


def compare_arrays(rng, texts, _count):
    """Each call of arrays beside the single calls, with a frame at each place that is now and then at fault."""
    frames = [frame for frame in (single(squitter.frame, text) for text in texts) if isinstance(frame, bytes)]
    older = [rng.choice(frames) for _ in frames]
    near = [Position(91, 0) if rng.random() < 0.01 else degrees(random_position(rng)) for _ in frames]
    moments = [rng.randint(at, at + 40) for at in range(len(frames))]
    one, many, array, site = Contact(10_000), Contact(10_000), b"".join(frames), degrees(random_position(rng))
    asked = (
        ("read", squitter.read_many(array), [single(squitter.read, frame) for frame in frames]),
        ("local", squitter.local_many(array, near), [single(squitter.local, *two) for two in zip(frames, near)]),
        ("pair", squitter.pair_many(b"".join(older), array),
         [single(squitter.pair, *two) for two in zip(older, frames)]),
        ("pair with a site", squitter.pair_many(b"".join(older), array, site),
         [single(squitter.pair, *two, site) for two in zip(older, frames)]),
        ("hear", many.hear_many(moments, array), [single(one.hear, *two) for two in zip(moments, frames)]),
        ("e7", [single(squitter.position_e7, place) for place in near],
         [(Code.BAD_POSITION, 0, 0) if place.lat > 90 else tuple(int(squitter.angle_text(part).replace(".", ""))
          for part in place) for place in near]),
    )
    for name, ours, theirs in asked:
        same(f"places of {name}", len(ours), len(theirs))
        for got, wanted in zip(places_of(ours), theirs):
            same(f"{name} of arrays", got, wanted)
    return len(frames)


def main():
    rng = random.Random(20261122)
    texts = list(random_frames(rng, COUNT))
    # (tries each function of this file with this prefix)
    counts = {name: one(rng, texts, COUNT) for name, one in list(globals().items()) if name.startswith("compare_")}
    print(f"against the program: {counts['compare_logs']} frames by check and by track, "
          f"{counts['compare_calls']} calls of local, pair and encode; "
          f"{counts['compare_arrays']} places of each call of arrays; {differences} differ")
    sys.exit(differences != 0)


if __name__ == "__main__":
    main()
