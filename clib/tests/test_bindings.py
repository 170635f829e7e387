#!/usr/bin/env python3
"""Tests of clib/bindings: what it makes of squitter.h, and of headers with an edit. BINDINGS names another script.

The layouts are compared with a C compiler's, and the types of calls with rows that are written out here."""
import ctypes
import importlib.machinery
import importlib.util
import os
import re
import shutil
import subprocess
import sys
import tempfile
import unittest
from typing import Any, Dict, List

HERE = os.path.dirname(os.path.abspath(__file__))
CLIB = os.path.dirname(HERE)
SCRIPT = os.environ.get("BINDINGS", os.path.join(CLIB, "bindings"))
CC = os.environ.get("CC", "cc")
PYTHON, SCRIPT_FILE, TYPES = "clib/squitter/_made.py", "web/squitter_layout.js", "web/squitter_layout.d.ts"


def loaded() -> Any:
    """Returns the script as a module."""
    loader = importlib.machinery.SourceFileLoader("bindings", SCRIPT)
    spec = importlib.util.spec_from_loader("bindings", loader)
    assert spec
    module = importlib.util.module_from_spec(spec)
    sys.modules["bindings"], sys.dont_write_bytecode = module, True
    loader.exec_module(module)
    return module


bindings = loaded()
with open(os.path.join(CLIB, "squitter.h"), encoding="utf-8") as header_file:
    HEADER = header_file.read()
with open(os.path.join(CLIB, "texts"), encoding="utf-8") as texts_file:
    TEXTS = texts_file.read()
MADE: Dict[str, str] = bindings.made(HEADER, TEXTS)


def edited(old: str, new: str) -> str:
    """Returns the header with an edit of a text that it has once."""
    assert HEADER.count(old) == 1, (old, HEADER.count(old))
    return HEADER.replace(old, new)


def line_of(text: str, part: str) -> int:
    return text[:text.index(part)].count("\n") + 1


def module_of(text: str) -> Dict[str, Any]:
    """Returns the names of a module in Python."""
    names: Dict[str, Any] = {"__name__": "made"}
    exec(compile(text, "made", "exec", dont_inherit=True), names)
    return names


class OfTheHeader(unittest.TestCase):
    """What the script makes of squitter.h."""

    names = module_of(MADE[PYTHON])

    def test_layout_of_c(self) -> None:
        """The C compiler gives each struct and member the same size and offset, and so does ctypes."""
        lines = ['#include "squitter.h"']
        for struct in bindings.Parser(HEADER).read().structs.values():
            kind, here = f"squitter_{struct.name}", self.names[bindings.class_name(struct.name)]
            lines.append(f'_Static_assert(sizeof({kind}) == {ctypes.sizeof(here)}, "size of {kind}");')
            self.assertEqual(ctypes.sizeof(here), struct.size)
            for member in struct.members:
                at = getattr(here, member.name).offset
                lines.append(f'_Static_assert(offsetof({kind}, {member.name}) == {at}, "{member.name} of {kind}");')
                self.assertEqual(at, member.at, (kind, member.name))
                if bindings.NUMBERS.get(member.type) and not member.count:
                    one = f"(({kind} *)0)->{member.name}"
                    lines.append(f'_Static_assert(_Generic({one}, {member.type}: 1, default: 0), "{member.name}");')
        self.assertGreater(len(lines), 150)
        with tempfile.NamedTemporaryFile("w", suffix=".c") as file:
            file.write("\n".join(lines) + "\n")
            file.flush()
            done = subprocess.run([CC, "-std=c11", "-fsyntax-only", "-I", CLIB, file.name], capture_output=True,
                                  text=True)
        self.assertEqual(done.returncode, 0, done.stderr)

    def test_numbers(self) -> None:
        """Each number of C has its sign and its size in ctypes, in NumPy and in a DataView."""
        for kind, number in bindings.NUMBERS.items():
            of_ctypes = getattr(ctypes, number.ctypes)
            self.assertEqual((ctypes.sizeof(of_ctypes), int(number.numpy[1:])), (number.size, number.size), kind)
            sign, name = ("i", "Int") if kind.startswith("int") else ("u", "Uint")
            view = f"Big{name}64" if number.size == 8 else f"{name}{8 * number.size}"
            self.assertEqual((number.numpy[0], number.view), (sign, view), kind)
            if kind not in ("void *", "size_t", "squitter_at"):
                self.assertEqual(number.ctypes, f"c_{kind[:-2]}")

    def test_calls(self) -> None:
        """Some calls of each form, with the types of their arguments and results."""
        get = self.names.__getitem__
        byte, word, size, wide = ctypes.c_uint8, ctypes.c_uint32, ctypes.c_size_t, ctypes.c_uint64
        address, text, to, fault = ctypes.c_void_p, ctypes.c_char_p, ctypes.POINTER, get("_Fault")
        rows: Dict[str, Any] = {
            "frame_of_text": ([address, size, to(byte * 14)], fault),
            "text_of_frame": ([text, text], None),
            "local": ([text, to(get("_Position")), to(get("_Position"))], fault),
            "send_again": ([text, byte, to(get("_Position")), to(byte * 14)], fault),
            "zone_count": ([to(get("_Angle")), to(byte)], fault),
            "field_of_feet": ([ctypes.c_int32, to(ctypes.c_uint16)], fault),
            "angle_e7": ([to(get("_Angle")), to(ctypes.c_int64)], fault),
            "tracker_new_at": ([to(get("_Tracker")), get("_Block"), word, wide, to(get("_Position"))], fault),
            "tracker_present": ([to(get("_Tracker")), wide, size, address, size], size),
            "tracker_save": ([to(get("_Tracker")), to(get("_Last")), address, size], size),
            "log_take_text": ([to(get("_Log")), word, address, size, address, size, to(get("_Done"))], fault),
            "log_header": ([word, text], None),
            "order_take": ([to(get("_Order")), *(4 * [address, size]), to(get("_Done"))], fault),
            "order_held": ([to(get("_Order")), to(wide)], fault),
            "order_late": ([to(get("_Order")), to(wide)], fault),
            "order_grow": ([to(get("_Order")), get("_Block")], fault),
            "order_size": ([word], size),
            "pair_at_many": ([address, size, address, size, to(get("_Position")), address, size, address, size], size),
            "feed_size": ([], size), "version": ([], word),
        }
        for name, row in rows.items():
            self.assertEqual(get("CALLS")[name], row, name)
        code = re.sub(r"/\*.*?\*/", "", HEADER, flags=re.S)
        self.assertEqual([f"squitter_{name}" for name in get("CALLS")], re.findall(r"\b(squitter_\w+)\(", code))

    def test_enums(self) -> None:
        told = {name: {one.name: one.value for one in self.names[name]} for name in ("Kind", "AltitudeForm")}
        self.assertEqual(told, {
            "Kind": {"OTHER": 0, "AIR": 1, "GROUND": 2}, "AltitudeForm": {"NONE": 0, "FEET": 1, "OTHER": 2}})
        for name, prefix, first in (("Code", "", "OK"), ("Format", "", "LINES"), ("FeedFormat", "FEED_", "BEAST")):
            members = HEADER[HEADER.index(f"  SQUITTER_{prefix}{first} = "):].partition("};")[0]
            wanted = re.findall(rf"^  SQUITTER_{prefix}(\w+) = (\d+)", members, re.M)
            self.assertEqual([(one.name, str(one.value)) for one in self.names[name]], wanted)
            self.assertEqual(len(wanted), members.count(" = "), name)
        self.assertEqual((self.names["Code"].__module__, self.names["Kind"].__doc__),
                         ("squitter", "The kind of a squitter, by its type code."))
        self.assertEqual([self.names[f"FEED_{name}"] for name in ("LIVE", "BY_ARRIVAL", "ALL_FORMATS")], [1, 2, 4])
        self.assertEqual([self.names[f"{name}_BYTES"] for name in ("FRAME", "LINE", "ANSWER_TEXT")], [14, 50, 512])

    def test_records(self) -> None:
        position = [("lat_num", "i8"), ("lat_den", "u8"), ("lon_num", "i8"), ("lon_den", "u8")]
        told = self.names["RECORDS"]
        self.assertEqual(told["heard"], [*position, ("what", "u1"), ("even", "u1"), ("odd", "u1")])
        self.assertEqual((told["position"], told["degrees_e7"]), (position, [("lat", "i4"), ("lon", "i4")]))

    def test_javascript(self) -> None:
        text = MADE[SCRIPT_FILE]
        for part in (
            "export const FEED_ALL_FORMATS = 4;", "  ANGLE_RANGE: 32, LONG_LINE: 40, BAD_MOMENT: 41, MOMENT_BACK: 42,",
            "    this.raw = view.getBigUint64(at, true);", "    this.feet = view.getInt32(at + 20, true);",
            "    this.altitudeForm = view.getUint8(at + 26);", "    return { ...this, raw: String(this.raw) };",
            "  heard: Object.freeze({ position: 0, what: 32, even: 33, odd: 34 }),", '["altitude", 4, 2]',
            "    formats: Array.from({ length: 25 }, (_, index) => view.getBigUint64(at + 56 + 8 * index, true)),",
            "  view.setBigInt64(at, value.num, true);\n  view.setBigUint64(at + 8, value.den, true);", "entry: 192,",
        ):
            self.assertIn(part, text)
        self.assertIn("  /** The body has 14 bytes: a reply of 56 bits. */\n  readonly SHORT: 2;\n", MADE[TYPES])
        self.assertIn("const Code: {\n  readonly OK: 0;\n  /**", MADE[TYPES])

    def test_lines(self) -> None:
        for path, text in MADE.items():
            self.assertIn("Made by clib/bindings from clib/squitter.h and clib/texts", text.partition("\n")[0], path)
            self.assertEqual([line for line in text.splitlines() if len(line) > 120 or line != line.rstrip()], [], path)


class OfAnEdit(unittest.TestCase):
    """What the script makes of a header with an edit: something else, or a refusal with the line."""

    def changed(self, old: str, new: str, wanted: Dict[str, List[str]]) -> None:
        made = bindings.made(edited(old, new), TEXTS)
        for path, parts in wanted.items():
            for part in parts:
                self.assertIn(part, made[path])
                self.assertNotIn(part, MADE[path])

    def refused(self, old: str, new: str, part: str, why: str) -> None:
        """The edit is refused at the line of this part of it, for this reason."""
        text = edited(old, new)
        with self.assertRaises(bindings.Refused) as caught:
            bindings.made(text, TEXTS)
        self.assertIn(f"squitter.h:{line_of(text, part)}: ", str(caught.exception))
        self.assertRegex(str(caught.exception), why)

    def test_order_of_fields(self) -> None:
        first = "  uint8_t kind;          /* SQUITTER_OTHER, SQUITTER_AIR or SQUITTER_GROUND */\n"
        second = "  uint8_t ca;            /* the capability, below 8 */\n"
        self.changed(first + second, second + first, {
            PYTHON: ['("ca", ctypes.c_uint8), ("kind", ctypes.c_uint8)', '("ca", "u1"), ("kind", "u1")'],
            SCRIPT_FILE: ["    this.ca = view.getUint8(at + 27);\n    this.kind = view.getUint8(at + 28);"]})

    def test_new_code(self) -> None:
        last = "  SQUITTER_BAD_ENTRY = 50        /*"
        self.changed(last, f"  SQUITTER_NEW_ONE = 51, /* something new */\n{last}", {
            PYTHON: ["    NEW_ONE = 51  # something new\n"], SCRIPT_FILE: ["BAD_ENTRY: 50, NEW_ONE: 51,"],
            TYPES: ["  /** Something new. */\n  readonly NEW_ONE: 51;\n"]})

    def test_new_function(self) -> None:
        new = "int64_t squitter_new_one(const squitter_angle *a, size_t a_count, uint8_t b) SQUITTER_PURE;\n"
        last = "uint32_t squitter_version(void) SQUITTER_PURE;\n"
        self.changed(last, last + new, {
            PYTHON: ['    "new_one": ([ctypes.c_void_p, ctypes.c_size_t, ctypes.c_uint8], ctypes.c_int64),\n']})

    def test_new_struct(self) -> None:
        self.changed("/* An order sorts", "typedef struct squitter_new_one {\n  uint16_t a, b;\n  squitter_fault c;\n}"
                     " squitter_new_one;\nSQUITTER_SIZE(squitter_new_one, 24);\n/* An order sorts", {
                         PYTHON: ['class _NewOne(ctypes.Structure):\n    _fields_ = [("a", ctypes.c_uint16), '
                                  '("b", ctypes.c_uint16), ("c", _Fault)]\n'],
                         SCRIPT_FILE: ["newOne: 24", "  newOne: Object.freeze({ a: 0, b: 2, c: 8 }),"]})

    def test_sizes(self) -> None:
        size = "SQUITTER_SIZE(squitter_heard, 40);"
        self.refused("  uint8_t even, odd;          /* of SPLIT; else 0 */", "  uint64_t even, odd;",
                     size, r"squitter_heard has 56 bytes, not 40$")
        self.refused(size, "SQUITTER_SIZE(squitter_heard, 48);", "SQUITTER_SIZE(squitter_heard", "40 bytes, not 48$")
        self.refused(size + "\n", "", "typedef struct squitter_heard {", "no SQUITTER_SIZE of squitter_heard: 40 bytes")
        self.refused(size, f"{size}\nSQUITTER_SIZE(squitter_none, 8);", "SQUITTER_SIZE(squitter_none",
                     "no struct squitter_none")

    def test_structs(self) -> None:
        moment, found = "  uint64_t good, refused;", "a member in another form|unknown type|two members"
        for new in ("  uint64_t good : 3, refused;", "  double good, refused;", "  squitter_none good, refused;",
                    "  uint64_t good, good;", "  uint64_t good, refused"):
            self.refused(moment, new, new.strip(), found)
        self.refused("} squitter_tally;", "} squitter_talk;", "typedef struct squitter_tally", "not one new name")

    def test_enums(self) -> None:
        self.refused("  SQUITTER_FEED_TAR = 6, ", "  SQUITTER_FEED_TAR, ", "SQUITTER_FEED_TAR,",
                     "a member of an enum without a number: SQUITTER_FEED_TAR$")
        enum = "/* The formats of `squitter track --format`. */\nenum {\n  SQUITTER_LINES = 0,"
        self.refused(enum, enum.replace("LINES", "LINE"), "enum {\n  SQUITTER_LINE =", "no name for this enum")
        self.refused(enum, enum.partition("\n")[2], "enum {\n  SQUITTER_LINES", "no comment above it")
        for new in ("SQUITTER_CSV = 0", "SQUITTER_LINES = 1"):
            self.refused("  SQUITTER_CSV = 1", f"  {new}", "enum {\n  SQUITTER_LINES", "a name or a number twice")

    def test_constants(self) -> None:
        line = "#define SQUITTER_LINE_BYTES 50"
        for new in ("0x32", "(SQUITTER_HEADER_BYTES - 14)"):
            self.refused(line, f"#define SQUITTER_LINE_BYTES {new}", "#define SQUITTER_LINE_BYTES", "not a whole")
        self.refused(line, "#define SQUITTER_HEADER_BYTES 50", "#define SQUITTER_HEADER_BYTES 50", "defined twice")

    def test_calls(self) -> None:
        version = "uint32_t squitter_version(void) SQUITTER_PURE;"
        for new, why in (
            ("uint32_t squitter_version(squitter_none *out) SQUITTER_PURE;", "unknown type: squitter_none"),
            ("float squitter_version(void) SQUITTER_PURE;", "unknown type: float"),
            ("uint32_t squitter_version(uint32_t (*made)(void)) SQUITTER_PURE;", "a parameter in another form"),
            ("uint32_t squitter_version(const uint8_t (*frames)[14]) SQUITTER_PURE;", "in another form"),
            ("uint32_t squitter_version(uint8_t SQUITTER_CONST_BYTES(a, 14)) SQUITTER_PURE;", "in another form"),
            ("uint32_t squitter_version(void);", "neither a struct"),
            ("uint32_t squitter_version;", "neither a struct"),
            ("uint32_t squitter_pair(void) SQUITTER_PURE;", "not a new name"),
            ("uint32_t another_version(void) SQUITTER_PURE;", "not a new name"),
        ):
            self.refused(version, new, new, why)


class OfTheWords(unittest.TestCase):
    """What the script makes of clib/texts, and of an edit of it."""

    def test_words(self) -> None:
        names = module_of(MADE[PYTHON])
        what, code, unit = names["What"], names["Code"], names["Unit"]
        self.assertEqual(names["WHATS"][what.WITHOUT_SITE], "no site")
        self.assertEqual(list(names["WHATS"]), list(what))
        self.assertEqual(list(names["KINDS"].values()), ["other", "air", "ground"])
        self.assertEqual(names["COLUMNS"], ("line", "moment", "answer", "address", "kind", "lat", "lon", "feet"))
        self.assertEqual(names["FAULTS"], {code.NO_TRACKER: "no tracker, log, feed or order"})
        self.assertEqual(names["HINTS"][code.NOT_A_NUMBER], "an angle text is one to three digits, with an optional - "
                         "before and decimals after, such as '-52.25'")
        self.assertEqual(list(names["STRANGERS"]), list(names["Stranger"]))
        gps = "the clock of this source seems to be GPS time (Radarcape): set it to 12 MHz"
        self.assertEqual(names["UNITS"][unit.GPS], f"{gps}, or read its port with --arrival")
        self.assertNotIn(unit.MILLISECONDS, names["UNITS"])
        self.assertIn(f'  [Unit.GPS]: "T{gps[1:]}.",\n', MADE["web/texts.js"])
        heard = '["refused", "fix", "followed", "waiting", "split", "far", "no site", "no position"]'
        self.assertIn(f"const HEARD = {heard};", MADE["web/texts.js"])
        self.assertIn("""  [Code.NOT_A_NUMBER]: "an angle text is one to three digits, with an optional - before and "
    + "decimals after, such as '-52.25'",
""", MADE[SCRIPT_FILE])
        self.assertIn('  [Code.NO_TRACKER]: "no tracker, log, feed or order",\n', MADE[SCRIPT_FILE])
        for line in ('  [SQUITTER_WITHOUT_SITE] = "no site",', '  [SQUITTER_GROUND] = "ground",',
                     '  [SQUITTER_FEED_JSON] = "the input is lines of JSON, which have no frames",',
                     f'  [SQUITTER_UNIT_GPS] = "{gps[:-3]}"', '        "MHz, or read its port with --arrival",'):
            self.assertIn(f"\n{line}\n", MADE["portable/squitter_texts.h"])
        answers = module_of(MADE["feeds/squitter_texts.py"])
        self.assertEqual((answers["COLUMNS"], answers["PLACES"], answers["KINDS"]),
                         (list(names["COLUMNS"]), ("fix", "followed"), ("", "air", "ground")))
        for text in ("waiting", "no position", "bad length 27", "parity 00AF07", "moment back 0", "table full"):
            self.assertTrue(any(re.fullmatch(one, text) for one in answers["OTHERS"]), text)
        for text in ("fix", "bad length", "bad length ", "bad length N", "parity 00AF0", "parity 00af07",
                     "moment back", "table full "):
            self.assertFalse(any(re.fullmatch(one, text) for one in answers["OTHERS"]), text)

    def test_texts_of_the_library(self) -> None:
        """The answers for refused lines are the texts of the library, with any number."""
        sys.path.insert(0, CLIB)
        import squitter
        for name, words in re.findall(r"^Refused\.(\w+): (.*)$", TEXTS, re.M):
            for number in (0, 10, 0xABCDEF):
                text = squitter.fault_text(squitter.Code[name], number)
                self.assertEqual(text, words.replace("XXXXXX", f"{number:06X}").replace(" N", f" {number}"))

    def test_refusals(self) -> None:
        for old, new, why in (
            ("What.FAR: far\n", "", r"^texts: What\.FAR has no words$"),
            ("Kind.AIR: air\n", "", r"^texts: Kind\.AIR has no words$"),
            ("Stranger.JSON: the input is lines of JSON, which have no frames\n", "", r"^texts: Stranger\.JSON has no"),
            ("Stranger.TAR: ", "Stranger.TAPE: ", "new member of squitter.h"),
            ("What.FAR: far\n", "What.FAR: far\nWhat.FAR: far\n", "new member of squitter.h"),
            ("What.FAR: far\n", "What.FAR: far \n", "new member"), ("What.FAR: far\n", "What.FAR:\n", "new member"),
            ("What.FAR: far\n", "What.FAR: f\u00e4r\n", "new member"), ("What.FAR", "Why.FAR", "new member"),
            ("Columns: ", "Columns.LINE: ", "new member"), ("Columns: ", "Columns: x\nColumns: ", "new member"),
            ("# The answers for lines", "The answers for lines", "nor a comment: The answers for lines"),
        ):
            assert TEXTS.count(old) == 1, old
            with self.assertRaises(bindings.Refused) as caught:
                bindings.made(HEADER, TEXTS.replace(old, new))
            self.assertRegex(str(caught.exception), why)
        with self.assertRaises(bindings.Refused) as caught:
            bindings.made(HEADER, "# one\n\nWhy: x\n")
        self.assertRegex(str(caught.exception), "^texts:3: ")


class OfTheCommand(unittest.TestCase):
    """The command in a folder of its own."""

    def ran(self, *words: str) -> "subprocess.CompletedProcess[str]":
        return subprocess.run([sys.executable, f"{self.top}/clib/bindings", *words], capture_output=True, text=True)

    def setUp(self) -> None:
        folder = tempfile.TemporaryDirectory()
        self.addCleanup(folder.cleanup)
        self.top = folder.name
        for path in ("clib/squitter", "web", "feeds", "portable"):
            os.makedirs(f"{self.top}/{path}")
        shutil.copy(SCRIPT, f"{self.top}/clib/bindings")
        shutil.copy(os.path.join(CLIB, "texts"), f"{self.top}/clib/texts")
        self.put(HEADER)

    def put(self, text: str) -> None:
        with open(f"{self.top}/clib/squitter.h", "w", encoding="utf-8") as file:
            file.write(text)

    def read(self, path: str) -> str:
        with open(f"{self.top}/{path}", encoding="utf-8") as file:
            return file.read()

    def test_writes_and_compares(self) -> None:
        self.assertEqual(self.ran("--check").returncode, 1)  # there is no file yet
        self.assertEqual((self.ran().returncode, self.ran("--check").returncode), (0, 0))
        self.assertEqual({path: self.read(path) for path in MADE}, MADE)
        self.put(edited("SQUITTER_LINE_BYTES 50", "SQUITTER_LINE_BYTES 51"))
        done = self.ran("--check")
        self.assertEqual(done.returncode, 1)
        for part in ("+LINE_BYTES = 51", "-export const LINE_BYTES = 50;", f"{TYPES}: as clib/bindings makes it"):
            self.assertIn(part, done.stdout)
        self.assertEqual({path: self.read(path) for path in MADE}, MADE)

    def test_refuses(self) -> None:
        self.ran()
        self.put(edited("SQUITTER_SIZE(squitter_last, 16)", "SQUITTER_SIZE(squitter_last, 24)"))
        for words in ((), ("--check",)):
            done = self.ran(*words)
            self.assertRegex(done.stderr, r"^squitter\.h:\d+: squitter_last has 16 bytes, not 24\n$")
            self.assertEqual(done.returncode, 1)
        self.assertEqual({path: self.read(path) for path in MADE}, MADE)
        for words in (("--chek",), ("x",), ("--check", "x")):
            done = self.ran(*words)
            self.assertEqual((done.returncode, done.stdout), (2, ""))
            self.assertRegex(done.stderr, "^usage: bindings .*--check")


if __name__ == "__main__":
    unittest.main()
