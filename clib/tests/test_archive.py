#!/usr/bin/env python3
"""test_archive.py: examples/archive.py on four processes, of which one is killed in the run, beside one `squitter
track` of the same lines: the answers have to be the same, byte for byte. The files are plain and compressed, with
columns in two orders, rows that are damaged, and moments that go back within a file and from file to file. PROGRAM is
the program. Needs NumPy and Dask."""
import contextlib
import gzip
import io
import os
import pickle
import random
import runpy
import signal
import subprocess
import sys
import tempfile
import time
import unittest
from fractions import Fraction
from typing import Iterator, List, Tuple
from unittest import mock

HERE = os.path.dirname(os.path.abspath(__file__))
TOP = os.path.join(HERE, "..", "..")
sys.path.insert(0, os.path.join(HERE, ".."))
import squitter  # noqa: E402
from squitter import AirHead, GroundHead, Position, batch  # noqa: E402

PROGRAM = os.environ.get("PROGRAM") or subprocess.run(
    [os.path.join(TOP, "dist", "program")], check=True, stdout=subprocess.PIPE, text=True).stdout.strip()
ARCHIVE = os.path.join(TOP, "examples/archive.py")
HOURS, LINES = 12, 6000
# Hours of an archive without a good line: an empty file, one with a row of names, and one with refused lines alone. In
# the hour after each, the first moments are before the last one of the hours before.
WITHOUT_LINES = {4: [], 6: [b"time,icao24,rawmsg"], 8: [b"time,icao24,rawmsg", b"x,,", b"5,,8D"]}
OF_LOG = {4: [], 6: [], 8: [b"x ", b"5000 8D"]}
HEADER = ",".join(batch.COLUMNS).encode()
ENVIRONMENT = dict(os.environ, PYTHONPATH=os.path.abspath(os.path.join(HERE, "..")))
if "LIBSQUITTER" in ENVIRONMENT:
    ENVIRONMENT["LIBSQUITTER"] = os.path.abspath(ENVIRONMENT["LIBSQUITTER"])
SITE = ["--lat=52.1", "--lon=4.7"]


def frames(rng: random.Random) -> List[str]:
    """Frames of some aircraft in the air and on the ground, one in ten with a damaged bit."""
    made = []
    for _ in range(3000):
        address, odd = rng.randint(1, 300) * 977, rng.randint(0, 1)
        place = Position(squitter.angle(f"52.{address % 100}"), squitter.angle(f"4.{address % 90}"))
        head = AirHead(address, odd=odd) if address % 3 else GroundHead(address, odd=odd)
        frame = bytearray(squitter.encode(head, place))
        frame[rng.randrange(14)] ^= (rng.random() < 0.1) << rng.randrange(8)
        made.append(frame.hex())
    return made


def odd_rows(good: str) -> Iterator[Tuple[bytes, bytes]]:
    """Rows of time, icao24 and rawmsg that are damaged or spelled otherwise, each with its line of the log."""
    text = good.encode()
    yield b"1.5,a,*%s;\r" % text, b"1500 *%s;" % text
    yield b'"1.5","a","%s"' % text, b"1500 %s" % text
    yield b" 1.5 ,a, %s ,more" % text, b"1500 %s" % text
    yield b"1.9999999,,%s" % text.upper(), b"1999 %s" % text
    yield b"1,a,%s" % text, b"1000 %s" % text
    yield b"1.,a,%s" % text[:14], b"1000 %s" % text[:14]
    yield b"2.0004,a,", b"2000 "
    yield b"999999999999.999,a,8d", b"999999999999999 8d"
    yield b"999999999999.9,a,%s" % (b"0" * 48), b"999999999999900 %s" % (b"0" * 48)
    yield b"999999999999.9,a,%s" % (b"0" * 49), b"999999999999900 %s" % (b"0" * 49)
    yield b"1,a,%s" % (b"8" * 100_000), b"1000 %s" % (b"8" * 100_000)
    for wrong in (b"", b"x", b"-1", b"1e3", b"1.5.5", b"\xd9\xa3", b"1" * 80):
        yield wrong + b",a," + text, wrong + b" " + text
    yield b"1234567890123,a,%s" % text, b"- %s" % text  # too many seconds
    yield b"3,a,\xff%s" % text[1:], b"3000 \xff%s" % text[1:]
    yield b"3,a,\xc3\xa9%s" % text[1:], b"3000 \xc3\xa9%s" % text[1:]
    yield b"3,a,%s\0" % text, b"3000 %s\0" % text
    yield b"7", b"7000 "


def archive(folder: str, rng: random.Random) -> Tuple[List[str], bytes]:
    """Files of an archive, and the log that they are."""
    paths, log, moment, made = [], [], 1_480_000_000_000, frames(rng)
    for hour in range(HOURS):
        rows = [] if hour % 3 == 1 else [b"time,icao24,rawmsg"] if hour % 3 else [b"rawmsg,x,Time"]
        if hour in WITHOUT_LINES:
            rows = WITHOUT_LINES[hour]
            log += OF_LOG[hour]
        for number in range(0 if hour in WITHOUT_LINES else LINES):
            moment += rng.choice([0, 3, 40])
            at = moment - (rng.choice([0] * 9 + [5, 70_000]) if number > 5 else 9000 * (hour % 2))
            text = rng.choice(made).encode()
            log.append(b"%d %s" % (at, text))
            seconds = b"%d.%03d" % divmod(at, 1000)
            rows.append(b"%s,%s,%s" % ((seconds, text[2:8], text) if hour % 3 else (text, b"", seconds)))
        if hour % 3 and hour not in WITHOUT_LINES:
            for row, line in odd_rows(made[0]):
                rows += [row, b"", b"\r"]
                log.append(line)
        paths.append(f"{folder}/{hour:02}.csv{'.gz' if hour % 4 == 1 else ''}")
        with (gzip.open if hour % 4 == 1 else open)(paths[-1], "wb") as file:
            file.write(b"\n".join(rows))
    return paths, b"\n".join(log) + b"\n"


def answers(paths: List[str], folder: str) -> bytes:
    """What the files of answers say: the rows of `track --format=csv` below a header each."""
    said = []
    for path in paths:
        to = os.path.join(folder, os.path.basename(path))
        with (gzip.open if path.endswith(".gz") else open)(to, "rb") as file:
            rows = file.read().split(b"\n")
        assert rows[0] == HEADER and rows[-1] == b"", rows[0]
        said += [row + b"\n" for row in rows[1:-1]]
    return b"".join(said)


# In place of pyarrow, which Debian has not: a table is its columns, and is written as NumPy writes them.
STAND_IN = {
    "__init__.py": "def table(columns):\n    return columns\n\ndef array(values, mask):\n    return values, mask\n",
    "parquet.py": "import pickle\n\ndef write_table(table, path):\n    with open(path, 'wb') as file:\n"
                  "        pickle.dump(table, file)\n",
}


def workers(parent: int) -> List[int]:
    """The processes that work for this one."""
    found = []
    for name in filter(str.isdigit, os.listdir("/proc")):
        try:
            with open(f"/proc/{name}/stat", encoding="latin-1") as file:
                of = int(file.read().rpartition(")")[2].split()[1])
            with open(f"/proc/{name}/cmdline", "rb") as file:
                works = b"spawn_main" in file.read()
        except OSError:
            continue
        if of == parent and works:
            found.append(int(name))
    return found


class Archive(unittest.TestCase):
    def setUp(self) -> None:
        self.folder = tempfile.TemporaryDirectory()
        self.addCleanup(self.folder.cleanup)
        self.paths, log = archive(self.folder.name, random.Random(11))
        run = [PROGRAM, "track", "--limit=16777216", "--format=csv", *SITE]
        head, _, self.wanted = subprocess.run(run, input=log, stdout=subprocess.PIPE).stdout.partition(b"\n")
        self.assertEqual(head, HEADER)
        for word in (b"fix", b"waiting", b"moment back", b"long line", b"bad moment", b"parity", b"bad digit"):
            self.assertIn(b",%s" % word, self.wanted)

    def started(self, *words: str) -> Tuple[subprocess.Popen, str]:
        to = f"{self.folder.name}/answers{len(os.listdir(self.folder.name))}"
        run = subprocess.Popen([sys.executable, ARCHIVE, *SITE, *words, to, *self.paths], env=ENVIRONMENT,
                               stdout=subprocess.DEVNULL, stderr=subprocess.PIPE, text=True)
        return run, to

    def test_columns(self) -> None:
        """The columns that go to Parquet say what the rows say."""
        package = f"{self.folder.name}/stand_in/pyarrow"
        os.makedirs(package)
        for name, text in STAND_IN.items():
            with open(f"{package}/{name}", "w", encoding="ascii") as file:
                file.write(text)
        path = os.pathsep.join([os.path.dirname(package), ENVIRONMENT["PYTHONPATH"]])
        with mock.patch.dict(ENVIRONMENT, PYTHONPATH=path):
            run, to = self.started("--workers=2", "--hours=3", "--parquet")
        _, said = run.communicate(timeout=300)
        self.assertEqual(run.returncode, 0, said)
        self.assertEqual(answers(self.paths, to), self.wanted)
        rows, more = b"", ["lat_e7", "lon_e7", "fault", *batch.POSITION.names, "even", "odd", "fault_first",
                           "fault_second"]
        for name in map(os.path.basename, self.paths):
            with open(f"{to}/{name}.parquet", "rb") as file:
                columns = pickle.load(file)
            self.assertEqual(list(columns), [*batch.COLUMNS, *more])
            told = {name: [None if none else value for value, none in zip(values.tolist(), mask.tolist())]
                    for name, (values, mask) in columns.items()}
            for name in ("lat", "lon"):
                told[name] = [None if value is None else f"{value:.7f}" for value in told[name]]
                for value, num, den in zip(told[name], told[f"{name}_num"], told[f"{name}_den"]):
                    self.assertEqual(value, num and squitter.angle_text(Fraction(num, den)))
            for row in zip(*(told[name] for name in batch.COLUMNS)):
                rows += ",".join("" if cell is None else str(cell) for cell in row).encode() + b"\n"
        self.assertEqual(rows, self.wanted)

    def test_refused_first(self) -> None:
        """What is not installed is said before any work, and nothing is written."""
        for words, hidden, status, why in (
            (["--parquet"], "pyarrow", 2, "--parquet needs pyarrow"), ([], "dask", 1, "needs python3-dask"),
            ([], "numpy", 1, "needs python3-numpy"), ([], "distributed", 1, "needs python3-distributed"),
        ):
            script = ("import importlib.util, runpy, sys\nfind = importlib.util.find_spec\n"
                      "importlib.util.find_spec = lambda name, *more: (\n"
                      f"    None if name == {hidden!r} else find(name, *more))\n"
                      "sys.argv = sys.argv[1:]\nrunpy.run_path(sys.argv[0], run_name='__main__')\n")
            to = f"{self.folder.name}/none"
            done = subprocess.run([sys.executable, "-c", script, ARCHIVE, *words, to, *self.paths], env=ENVIRONMENT,
                                  capture_output=True, text=True, timeout=60)
            self.assertEqual((done.returncode, why in done.stderr, os.path.exists(to)), (status, True, False), done)
            self.assertNotIn("Traceback", done.stderr)
        nowhere = {**ENVIRONMENT, "LIBSQUITTER": "/nonesuch"}
        done = subprocess.run([sys.executable, ARCHIVE, to, *self.paths], env=nowhere, capture_output=True, text=True)
        self.assertEqual((done.returncode, "needs squitter for Python" in done.stderr), (1, True), done)

    def test_told_what_failed(self) -> None:
        """A file that cannot be read or written, and a folder that cannot be made, are named, without a traceback."""
        own = tempfile.mkdtemp(dir=self.folder.name)
        rows = gzip.compress(b"0.0,40621d,8D40621D58C386435CC412692AD6\n" * 99)
        for name, data in (("cut.csv.gz", rows[:-12]), ("plain.csv.gz", b"0.0,,\n"), ("damaged.csv.gz", rows[:12] +
                           bytes(9) + rows[12:]), ("good.csv.gz", rows)):
            with open(f"{own}/{name}", "wb") as file:
                file.write(data)
        os.makedirs(f"{own}/taken/good.csv.gz")
        calls = [([f"{own}/to", f"{own}/{name}"], f"archive.py: cannot read {own}/{name}: ")
                 for name in ("cut.csv.gz", "plain.csv.gz", "damaged.csv.gz")]
        calls += [([f"{own}/taken", f"{own}/good.csv.gz"], f"cannot write {own}/taken/good.csv.gz: Is a directory"),
                  ([f"{own}/good.csv.gz/to", f"{own}/good.csv.gz"], f"cannot make {own}/good.csv.gz/to: Not a "),
                  (["--scheduler=nonsense", f"{own}/to", f"{own}/good.csv.gz"], "archive.py: no scheduler: ")]
        for words, why in calls:
            done = subprocess.run([sys.executable, ARCHIVE, "--workers=1", *words], env=ENVIRONMENT,
                                  capture_output=True, text=True, timeout=60)
            self.assertIn(why, done.stderr.replace("\r", "\n"))
            self.assertEqual(done.returncode, 1)
            self.assertEqual(done.stderr.splitlines()[-1].split(": ")[0], "archive.py")
        self.assertEqual((os.listdir(f"{own}/to"), os.listdir(f"{own}/taken")), ([], ["good.csv.gz"]))

    def test_one_is_killed(self) -> None:
        run, to = self.started("--workers=4", "--hours=3", "--parts=5")
        while run.poll() is None and not (os.path.isdir(to) and os.listdir(to)):
            time.sleep(0.01)
        found = workers(run.pid)
        self.assertEqual(len(found), 4)
        os.kill(found[1], signal.SIGKILL)
        self.assertLess(len(os.listdir(to)), HOURS)
        _, said = run.communicate(timeout=300)
        self.assertEqual(run.returncode, 0, said)
        self.assertEqual(answers(self.paths, to), self.wanted)
        self.assertEqual(len(os.listdir(to)), HOURS)
        self.assertIn("100% Completed", said, "a bar of progress")

    def test_one_process(self) -> None:
        run, to = self.started("--workers=1", "--hours=5", "--parts=1")
        _, said = run.communicate(timeout=300)
        self.assertEqual(run.returncode, 0, said)
        self.assertEqual(answers(self.paths, to), self.wanted)

    def test_byte_order_mark(self) -> None:
        """A byte order mark at the start of a file is left out, before names and before a row, as in squitter-feed."""
        text, path = frames(random.Random(1))[0].encode(), f"{self.folder.name}/marked.csv"
        for rows in (b"rawmsg,x,time\n%s,,1.5\n" % text, b"1.5,,%s\n" % text, b'"1.5",,%s\n' % text):
            with open(path, "wb") as file:
                file.write(b"\xef\xbb\xbf" + rows)
            hour = runpy.run_path(ARCHIVE)["read_hour"](path)
            self.assertEqual((hour.moments.tolist(), hour.frames.tolist()), ([1500], [text]))

    def test_command_lines(self) -> None:
        options_of = runpy.run_path(ARCHIVE)["options_of"]
        for words, why in (
            ("--lat=1 out a.csv", "a site is"), ("--lat=91 --lon=0 out a.csv", "position"),
            ("out x/a.csv y/a.csv", "one name"), (". a.csv", "another folder"), ("out", "files"),
            ("--window=-1 out a.csv", "a window is"),
            ("--lat=1/0 --lon=0 out a.csv", "--lat"), ("--parts=0 out a.csv", "from 1"),
        ):
            with self.assertRaises(SystemExit) as ended, contextlib.redirect_stderr(io.StringIO()) as said:
                options_of(words.split())
            self.assertEqual((ended.exception.code, why in said.getvalue()), (2, True), said.getvalue())
        self.assertEqual(options_of(["--lat=52.31", "--lon=-0.5", "out", "a.csv"]).lon, Fraction(-1, 2))


if __name__ == "__main__":
    unittest.main()
