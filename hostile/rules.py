"""The rules of `check` and `track`, written again in Python from docs/FORMATS.md and the standard's formulas, with
exact fractions and a plain list of everything that was heard."""
from fractions import Fraction
from math import floor

CODES = 2**17

# the latitudes up to which there are 59, 58, .. 2 zones of longitude
LIMITS = """10.47047130 14.82817437 18.18626357 21.02939493 23.54504487 25.82924707 27.93898710 29.91135686 31.77209708
33.53993436 35.22899598 36.85025108 38.41241892 39.92256684 41.38651832 42.80914012 44.19454951 45.54626723 46.86733252
48.16039128 49.42776439 50.67150166 51.89342469 53.09516153 54.27817472 55.44378444 56.59318756 57.72747354 58.84763776
59.95459277 61.04917774 62.13216659 63.20427479 64.26616523 65.31845310 66.36171008 67.39646774 68.42322022 69.44242631
70.45451075 71.45986473 72.45884545 73.45177442 74.43893416 75.42056257 76.39684391 77.36789461 78.33374083 79.29428225
80.24923213 81.19801349 82.13956981 83.07199445 83.99173563 84.89166191 85.75541621 86.53536998 87.00000000"""
LIMITS = [Fraction(limit) for limit in LIMITS.split()]


class Fault(Exception):
    """Why a line is refused."""


# ---- frames


def remainder(bits):
    for place in range(111, 23, -1):
        if bits >> place & 1:
            bits ^= 0x1FFF409 << (place - 24)
    return bits


def sealed(front):
    """The 88 bits of a frame in hexadecimal digits, with their parity."""
    return f"{front}{remainder(int(front, 16) << 24):06X}"


class Squitter:
    """The fields of a frame that `check` and `track` speak of."""

    def __init__(self, bits):
        self.address = f"{bits >> 80 & 0xFFFFFF:06X}"
        self.type = bits >> 75 & 31
        self.kind = "ground" if 5 <= self.type <= 8 else "air" if self.type in (*range(9, 19), 20, 21, 22) else "other"
        self.parity = bits >> 58 & 1
        self.lat, self.lon = bits >> 41 & 0x1FFFF, bits >> 24 & 0x1FFFF

    def summary(self):
        if self.kind == "other":
            return f"ok {self.address} other {self.type}"
        return f"ok {self.address} {self.kind} {'odd' if self.parity else 'even'} {self.lat} {self.lon}"


def content(line):
    """The line but for a carriage return at its end; None where nothing is left."""
    if len(line) > 64:
        raise Fault("long line")
    return (line[:-1] if line.endswith("\r") else line) or None


def read_frame(text):
    begins, ends = text.startswith("*"), text.endswith(";")
    if begins != ends or text in ("*", ";"):
        raise Fault("bad wrapping")
    body = text[1:-1] if begins else text
    if len(body) != 28:
        raise Fault("short frame" if len(body) == 14 else f"bad length {len(body)}")
    for place, digit in enumerate(body, 1):
        if digit not in "0123456789abcdefABCDEF":
            raise Fault(f"bad digit {place}")
    bits = int(body, 16)
    if bits >> 107 != 17:
        raise Fault(f"not DF17 {bits >> 107}")
    if remainder(bits):
        raise Fault(f"parity {remainder(bits):06X}")
    return Squitter(bits)


def read_timed(text):
    moment, space, frame = text.partition(" ")
    is_number = 1 <= len(moment) <= 20 and all(digit in "0123456789" for digit in moment)
    if not space or not is_number or int(moment) >= 2**64:
        raise Fault("bad moment")
    return int(moment), read_frame(frame)


# ---- positions


def zone_count(lat):
    return 1 + sum(abs(lat) <= limit for limit in LIMITS)


def lon_zones(lat, parity):
    return max(zone_count(lat) - parity, 1)


def east_of(lon, west):
    """The longitude modulo 360 from `west` on."""
    return (lon - west) % 360 + west


def decimals(x):
    ten_millionths = floor(abs(x) * 10**7 + Fraction(1, 2))
    sign = "-" if x < 0 and ten_millionths else ""
    return f"{sign}{ten_millionths // 10**7}.{ten_millionths % 10**7:07}"


def span(squitter):
    return 360 if squitter.kind == "air" else 90


def encode(degrees, parity, lat, lon):
    """The code of a position."""
    def rounded(x, zone):
        return floor(CODES * (x - zone * floor(x / zone)) / zone + Fraction(1, 2)) % CODES

    zone = Fraction(degrees, 60 - parity)
    lat_index = floor(CODES * lat / zone + Fraction(1, 2))
    return rounded(lat, zone), rounded(lon, Fraction(degrees, lon_zones(lat_index * zone / CODES, parity)))


def local(squitter, reference):
    """The place near the reference, or None where its latitude is out of range."""
    def near(x, zone, code):
        part = (x - zone * floor(x / zone)) / zone
        return zone * (floor(x / zone) + floor(Fraction(1, 2) + part - Fraction(code, CODES)) + Fraction(code, CODES))

    lat = near(reference[0], Fraction(span(squitter), 60 - squitter.parity), squitter.lat)
    if abs(lat) > 90:
        return None
    lon = near(reference[1], Fraction(span(squitter), lon_zones(lat, squitter.parity)), squitter.lon)
    return lat, east_of(lon, -180)


def around(x, center, degrees):
    """The number that differs from x by whole multiples of `degrees`, and lies in
    (center - degrees/2, center + degrees/2]."""
    half = Fraction(degrees, 2)
    return center + half - (center + half - x) % degrees


def pair(older, newer, site):
    """What a pair is heard as, and its place where it has one."""
    degrees = span(newer)
    if degrees == 90 and site is None:
        return "no site", None
    even, odd = (older, newer) if newer.parity else (newer, older)
    j = (59 * even.lat - 60 * odd.lat + CODES // 2) // CODES
    lats = []
    for squitter in (even, odd):
        zones = 60 - squitter.parity
        lat = Fraction(degrees, zones) * (j % zones + Fraction(squitter.lat, CODES))
        lats.append(lat - 360 if degrees == 360 and lat >= 270 else lat if degrees == 360 else around(lat, site[0], 90))
    if any(abs(lat) > 90 for lat in lats):
        return "far", None
    counts = [zone_count(lat) for lat in lats]
    if counts[0] != counts[1]:
        return f"split {counts[0]} {counts[1]}", None
    count = counts[0]
    m = (even.lon * (count - 1) - odd.lon * count + CODES // 2) // CODES
    zones = max(count - newer.parity, 1)
    lon = Fraction(degrees, zones) * (m % zones + Fraction(newer.lon, CODES))
    if degrees == 90:
        lon = around(lon, site[1], 90)
    return "fix", (lats[newer.parity], east_of(lon, -180))


class Log:
    """Everything that a tracker accepted, in order: moment, squitter, and the place where one was heard."""

    def __init__(self, limit, window, site):
        self.limit, self.window, self.site = limit, window, site
        self.heard = []

    def newest(self, moment, fits):
        """The newest entry that fits, if it is at most the window older."""
        for entry in reversed(self.heard):
            if fits(*entry):
                return entry if moment - entry[0] <= self.window else None
        return None

    def hear(self, moment, new):
        if self.heard and moment < self.heard[-1][0]:
            raise Fault(f"moment back {self.heard[-1][0]}")
        if new.kind == "other":
            self.heard.append((moment, new, None))
            return f"no position {new.address}"
        recent = (old.address for at, old, _ in self.heard if old.kind != "other" and moment - at <= self.window)
        if len(set(recent) - {new.address}) >= self.limit:
            raise Fault("table full")

        def of_sender(old):
            return old.address == new.address and old.kind == new.kind

        older = self.newest(moment, lambda at, old, place: of_sender(old) and old.parity != new.parity)
        word, place = pair(older[1], new, self.site) if older else ("waiting", None)
        if word == "waiting" or word.startswith("split"):
            fix = self.newest(moment, lambda at, old, place: of_sender(old) and place is not None)
            near = local(new, fix[2]) if fix else None
            if near:
                word, place = "followed", near
        self.heard.append((moment, new, place))
        first, *counts = word.split() if word.startswith("split") else [word]
        return " ".join([first, new.address, *counts, *(map(decimals, place) if place else ())])


def answers(lines, answer):
    """The output for lines of which each is answered so."""
    for number, line in enumerate(lines, 1):
        try:
            text = content(line)
            if text is not None:
                yield f"{number} {answer(text)}\n"
        except Fault as why:
            yield f"{number} {why}\n"


def check(lines):
    return "".join(answers(lines, lambda text: read_frame(text).summary()))


def track(lines, limit, window, site):
    log = Log(limit, window, site)
    return "".join(answers(lines, lambda text: log.hear(*read_timed(text))))
