"""Logs, good, damaged and hostile, and what the program `squitter track` answers to them."""
import random
import subprocess
from typing import Iterator, Optional, Tuple

from trying import AIR_EVEN, SITE, TOP, bytes_of, cases, expect

Settings = Tuple[int, int, Optional[Tuple[str, str]]]
USUAL: Settings = (10_000, 1000, None)
PIECE_BYTES = 1 << 20  # what the page reads of a file at once
NEAR: Settings = (10_000, 1000, SITE)  # near the example's airport


def flights() -> bytes:
    return bytes_of(f"{TOP}/examples/flights.log")


def damaged(count: int) -> bytes:
    """The flights again and again, each time later, with digits changed, lines cut, moments set back and forth, and
    carriage returns put in: of ten answers nine are places or wait for one."""
    rng, lines, log, later = random.Random(32), flights().decode().splitlines(), [], 0
    while len(log) < count:
        for line in lines:
            moment, text = line.split(" ")
            kind, turned = rng.random(), int(moment) + later
            if kind < 0.03:
                at = rng.randrange(len(text))
                text = text[:at] + rng.choice("0123456789ABCDEFg ;*-") + text[at + 1 :]
            elif kind < 0.04:
                text = text[: rng.randrange(len(text))]
            elif kind < 0.05:
                text += rng.choice(["\r", " ", "\r\r", "0" * 40])
            elif kind < 0.06:
                turned = max(0, turned + rng.choice([-400, -200, -1]))
            spelled = f"{turned + (9000 if kind > 0.9995 else 0)} {text}"
            log.append(spelled if kind > 0.005 else spelled[: rng.randrange(len(spelled))])
        later += 400_000
    return "\n".join(log[:count]).encode()


def of_address(log: bytes, address: str) -> bytes:
    """The lines of a log with the frames of one address."""
    return b"".join(line for line in log.splitlines(True) if line.split(b" ")[1][3:9] == address.encode())


def logs() -> Iterator[Tuple[str, bytes, Settings]]:
    """Logs that are heard, each with its settings."""
    for case in cases("log"):
        given = case["input"]
        site = given.get("site")
        lines = "".join(f"{line}\n" for line in given["lines"]).encode()
        yield case["id"], lines, (
            given.get("window", 10_000), given.get("limit", 1000), site and (site["lat"], site["lon"]))
    yield from hostile_logs()


def hostile_logs() -> Iterator[Tuple[str, bytes, Settings]]:
    rng = random.Random(64)
    yield "flights", flights(), NEAR
    yield "flights with a small table", flights(), (3000, 3, None)
    yield "damaged flights", damaged(6000), NEAR
    yield "damaged flights with a small table", damaged(6000), (700, 4, SITE)
    yield "nothing", b"", USUAL
    yield "line feeds", b"\n\n\r\n", USUAL
    yield "carriage returns", flights().replace(b"\n", b"\r\n"), USUAL
    yield "no last line feed", flights()[:-1], USUAL
    yield "any bytes", rng.randbytes(60_000), USUAL
    yield "zeros", bytes(5000), USUAL
    yield "one long line", b"0 " + b"8D" * 1_500_000, USUAL
    edges = [
        f"{moment} {AIR_EVEN}"
        for moment in ("", "0", "007", "18446744073709551615", "18446744073709551616", "1" * 21, "+1", "1.0")
    ]
    yield "moments", "\n".join(edges).encode(), (2**64 - 1, 1, None)
    lengths = [f"0 {AIR_EVEN}".ljust(length, "0") for length in (62, 63, 64, 65, 66)]
    yield "lengths", "\r\n".join([*lengths, ""]).encode() + "\n".join(lengths).encode(), USUAL


def tracked(program: str, log: bytes, settings: Settings, form: str = "lines") -> bytes:
    """What `squitter track` answers, in a format."""
    window, limit, site = settings
    words = [f"--format={form}", f"--window={window}", f"--limit={limit}",
             *(f"--{name}={text}" for name, text in zip(("lat", "lon"), site or ()))]
    done = subprocess.run([program, "track", *words], input=log, capture_output=True)
    expect(done.returncode in (0, 1), words, done.stderr)
    return done.stdout
