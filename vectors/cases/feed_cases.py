"""Cases of feeds: the frames in the bytes of Beast, AVR text, tables and logs, and what the first bytes show."""
from __future__ import annotations

from typing import Dict, List, Optional, Tuple

from cases import feeds
from cases.case import Collection, pick
from cases.feed_words import LOST, OPEN, RATE, Cases, E, L, M, O, S, V, X, clocked, clocks, end, log, message, row

SECOND = 1000 * RATE  # ticks
BEAST = message(E, SECOND)
BAR = b"*%s;\n" % E.encode()
MARK = b"\xef\xbb\xbf"  # of the order of bytes, in UTF-8


def add_feeds(collection: Collection) -> None:
    """Adds the cases about bytes."""
    cases = Cases(collection)
    for part in (add_beast, add_beast_damage, add_downlink_formats, add_avr, add_avr_words, add_tables, add_cells,
                 add_logs, add_longest_lines, add_shown, add_text_before, add_strangers, add_limit, add_damaged_places):
        part(cases)


# ---- Beast


def add_beast(cases: Cases) -> None:
    """Each kind of message; escapes in each place; ids of receivers and states."""
    flags = "BeastMessage"
    for frame, counts in ((E, {}), (S, {"DF11": 1}), (M, {"mode_ac": 1}), (L, {"DF20": 1})):
        cases.add("beast", flags, message(frame, SECOND), ["1000 E"] * (frame == E), counts, format="beast")
    cases.add("beast", flags, BEAST + message(M, 1) + message(S, 2) + message(O, 2 * SECOND), ["1000 E", "2000 O"],
              {"mode_ac": 1, "DF11": 1}, note="a reply without a position has no timestamp")
    for signal in (0, 0x1A, 0xFF):
        cases.add("beast", flags, message(E, SECOND, signal), ["1000 E"], note="the signal strength means nothing")
    for place in range(6):
        ticks = 0x1A << 8 * (5 - place)
        cases.add("escape", "BeastEscape", message(E, ticks), [f"{ticks // RATE} E"], note="an escape in the clock")
    for place in range(14):
        frame = E[: 2 * place] + "1A" + E[2 * place + 2 :]
        wanted = {"DF3": 1} if not place else {}  # 1A begins a frame of format 3, which has 56 bits
        cases.add("escape", "BeastEscape", message(frame, SECOND), [f"1000 {frame}"] if place else [],
                  {"damaged": 1} if wanted else {}, note="an escape in the frame")
    cases.add("escape", "BeastEscape", message(X, 0x1A1A1A1A1A1A, 0x1A), [f"{0x1A1A1A1A1A1A // RATE} X"])
    for kind, count in ((b"4", {}), (b"\xe3", {"receiver_ids": 1}), (b"5", {"damaged": 1}), (b"0", {"damaged": 1})):
        flag = "ReceiverId" if kind == b"\xe3" else flags
        for size in (0, 1, 8, 21):
            cases.add("start", flag, BEAST + b"\x1a" + kind + b"\x07" * size + message(O, 2 * SECOND),
                      ["1000 E", "2000 O"], count, note="what else starts with an escape ends at the next start")
        cases.add("start", flag, BEAST + b"\x1a" + kind, ["1000 E"], count, note="at the end of the source")
    cases.add("start", "ReceiverId", b"\x1a\xe3" + b"\x1a\x1a" * 8 + BEAST, ["1000 E"], {"receiver_ids": 1},
              note="an id of escapes")


def add_beast_damage(cases: Cases) -> None:
    """Bytes that are lost or too many, and messages that are cut off after each byte."""
    flags, after = "BeastCutOff", message(O, 2 * SECOND)
    for size in range(2, len(BEAST)):
        cases.add("cut", flags, BEAST[:size] + after, ["2000 O"], {"damaged": 1}, format="beast",
                  note="a start cuts a message off")
    cases.add("cut", flags, BEAST[:1] + after + after, ["2000 O"], {"damaged": 1}, format="beast",
              note="two escapes are a byte, so that the first message is none")
    cases.add("cut", flags, BEAST + b"\x07" + after, ["1000 E", "2000 O"], {"damaged": 1}, note="a byte too many")
    cases.add("cut", flags, BEAST + b"\x1a\x1a" + after, ["1000 E", "2000 O"], {"damaged": 1},
              note="the byte too many is an escape")
    cases.add("cut", flags, BEAST + b"xyz" * 9 + after, ["1000 E", "2000 O"], {"damaged": 1},
              note="bytes that are no message are one damage")
    cases.add("cut", flags, b"xyz" + BEAST + after, ["1000 E", "2000 O"], {"damaged": 1}, format="beast")
    cases.add("cut", flags, [BEAST + b"\x1ax", b"\0" * 20_000, after], ["1000 E", "2000 O"], {"damaged": 1},
              note="of any length")
    cases.add("cut", flags, BEAST + b"\0 garbage \x1a\x1a\x1a9" + after, ["1000 E", "2000 O"], {"damaged": 2},
              note="bytes, and a start of unknown type")
    cut = message(E, SECOND) + message(O, 2 * SECOND)[1:] + message(O, 3 * SECOND)
    cases.add("cut", flags, cut, ["1000 E", "3000 O"], {"damaged": 1}, note="a message without its escape")
    cases.add("cut", flags, BEAST[:9] + BEAST + BEAST[:12] + after, ["1000 E", "2000 O"], {"damaged": 2})
    for size in (1, 2, 3, len(BEAST) - 1):
        cases.add("cut", flags, BEAST + BEAST[:size], ["1000 E"], {"damaged": int(size > 1)},
                  note="at the end; a lone escape there is no damage")


def add_downlink_formats(cases: Cases) -> None:
    """Frames of each downlink format in 56 and in 112 bits, left out and written."""
    for number in range(32):
        long, short = f"{number << 3 | 5:02X}{E[2:]}", f"{number << 3 | 5:02X}{S[2:]}"
        name = f"DF{min(number, 24)}"
        for frame, is_right in ((short, number < 16), (long, number > 15)):
            left = {name: 1} if is_right and number != 17 else {} if is_right else {"damaged": 1}
            cases.add("format", "DownlinkFormat", message(frame, SECOND), [f"1000 {frame}"] * (not left), left)
            if number in (0, 15, 16, 17, 18, 23, 24, 31):
                cases.add("format", "DownlinkFormat", message(frame, SECOND), [f"1000 {frame}"] * is_right,
                          {} if is_right else left, all_formats=True)
    for ticks, is_it in ((0xFF004D4C4153, 0), (0xFF004D4C4154, 1), (0xFF004D4C4155, 0)):
        # (a clock of its own: the first frame starts it)
        for data in (message(E, ticks), clocked(E, ticks)):
            cases.add("multilaterated", "Multilaterated", data, [] if is_it else [f"{ticks // RATE} E"],
                      {"multilaterated": is_it}, note="FF 00 and MLAT are no clock: a server computed the position")
    cases.add("multilaterated", "Multilaterated", message(E, SECOND) + message(S, 0xFF004D4C4154)
              + message(M, 0xFF004D4C4154) + message("A0" + S[2:], 0xFF004D4C4154), ["1000 E"],
              {"multilaterated": 1, "mode_ac": 1, "damaged": 1}, all_formats=True,
              note="a reply of Mode A/C and a frame of the wrong length are counted as what they are")


# ---- AVR text


def add_avr(cases: Cases) -> None:
    """Each mark with each number of digits about the right ones."""
    for mark, lead in (("*", ""), (":", ""), ("@", f"{SECOND:012X}"), ("%", f"{SECOND:012X}"),
                       ("<", f"{SECOND:012X}1A"), ("", "")):
        flags, moment = ("AvrClock", 1000) if lead else ("AvrText", 0)
        close = ";\n" if mark else "\n"
        for frame, lines, counts in ((E, [f"{moment} E"], {}), (S, [], {"DF11": 1}), (M, [], {"mode_ac": 1}),
                                     (E.lower(), [f"{moment} E"], {})):
            text = f"{mark}{lead}{frame}{close}".encode()
            cases.add("avr", flags, text, lines, counts, format="avr")
        for size in (0, 1, 3, 5, 13, 15, 27, 29):
            text = f"{mark}{lead}{(E + E)[:size]}{close}".encode()
            cases.add("avr", flags, text, [], {"damaged": int(bool(mark or size))}, format="avr",
                      note=f"{size} digits are no frame")
    for lead in ("", "0" * 11, "0" * 13, "0" * 14):
        cases.add("avr", "AvrClock", f"@{lead}{E};".encode(), [], {"damaged": 1}, format="avr",
                  note="a clock has 12 digits")
        if len(lead) != 14:
            cases.add("avr", "AvrClock", f"<{lead}{E};".encode(), [], {"damaged": 1}, format="avr",
                      note="12 digits of clock, and two of the signal")


def add_avr_words(cases: Cases) -> None:
    """What stands between frames, and what ends a word."""
    e, o = E.encode(), O.encode()
    two, damage = ["0 E", "0 O"], {"damaged": 1}
    rows: List[Tuple[bytes, List[str], Dict[str, int]]] = [
        (b"*%s;*%s;" % (e, o), two, {}), (b"*%s;\r\n*%s;\r\n" % (e, o), two, {}), (b"*%s;\r*%s;" % (e, o), two, {}),
        (b"*%s;\n\n\r\n*%s;" % (e, o), two, {}), (b"%s\r%s" % (e, o), two, {}), (b"*%s;%s\n" % (e, o), two, {}),
        (b"%s;*%s;" % (e, o), ["0 O"], damage), (b"*%s*%s;" % (e, o), ["0 O"], damage),
        (b"*%s\n*%s;" % (e, o), ["0 O"], damage), (b"*%s;x*%s;" % (e, o), two, damage),
        (b"*%s; *%s;" % (e, o), two, damage), (b"rx1: *%s;*%s;" % (e, o), two, {"damaged": 2}),
        (b"*%s;;*%s;" % (e, o), two, damage), (b"**%s;*%s;" % (e, o), two, damage),
        (b"*%s;*%s" % (e, o), ["0 E"], damage),
        (b" %s\n%s\n" % (e, o), ["0 O"], damage), (b"%s \n%s\n" % (e, o), ["0 O"], damage),
        (b"*%s ;*%s;" % (e, o), ["0 O"], damage), (b"* %s;*%s;" % (e, o), ["0 O"], damage),
        (b"*%sG;*%s;" % (e[1:], o), ["0 O"], damage), (b"%s%s\n%s" % (e, o, o), ["0 O"], damage),
        (b"*%s;\0*%s;" % (e, o), two, damage), (b"*%s;\xff*%s;" % (e, o), two, damage),
    ]
    for text, lines, counts in rows:
        cases.add("word", "AvrText", text, lines, counts, format="avr")
    for edge in (b"\xef", b"\xbb", b"\xbf", MARK, b"\n" + MARK):
        cases.add("word", "AvrText ByteOrderMark", edge + b"%s%s%s" % (e, edge, o), two, format="avr",
                  note="each byte of a byte order mark ends a line")
    cases.add("word", "AvrText", [b"*", b"8" * 20_000, b"*%s;" % e], ["0 E"], {"damaged": 1}, format="avr")
    cases.add("word", "AvrText", [b"*%s;" % e, b"8" * 20_000, b"\n*%s;" % o], two, {"damaged": 1}, format="avr")
    cases.add("word", "AvrText", [b" " * 9000, b"*%s;" % e], ["0 E"], {"damaged": 1}, format="avr",
              note="a line of AVR text may have any length")


# ---- tables and logs


def add_tables(cases: Cases) -> None:
    """Rows of names, in any order, with other columns, and which name is the time."""
    e, o = E.encode(), O.encode()
    good: List[Tuple[bytes, bytes]] = [
        (b"time,icao24,rawmsg", b"7,a,%s"), (b"rawmsg,time", b"%s,7"), (b"x,rawmsg,y,time,z", b",%s,,7,"),
        (b"mintime,rawmsg", b"7,%s"), (b"timestamp,rawmsg", b"7,%s"), (b"timestamp,mintime,rawmsg", b"8,7,%s"),
        (b"mintime,time,rawmsg", b"8,7,%s"), (b"timestamp,mintime,time,rawmsg", b"9,8,7,%s"),
        (b"TIME,RawMsg", b"7,%s"), (b'"time","rawmsg"', b'"7","%s"'), (b" time\t, rawmsg ", b" 7 ,\t%s "),
        (b"time,time,rawmsg,rawmsg", b"7,8,%s,x"), (b"rawmsg,mintime\r", b"%s,7\r"), (MARK + b"time,rawmsg", b"7,%s"),
        (b"," * 99 + b"rawmsg,time", b"," * 99 + b"%s,7"),
    ]
    for names, columns in good:
        cases.add("names", "TableNames", b"%s\n%s\n" % (names, columns % e), ["7000 E"], shows=["csv", None],
                  note="a row of names says where the time and the frame are")
        cases.add("names", "TableNames", b"%s\n%s\n" % (names, columns % e), ["7000 E"], format="csv")
    for names in (b"times,rawmsg", b"time,rawmsgs", b"time,raw msg", b"'time',rawmsg", b"date,rawmsg", b"time",
                  b"time;rawmsg", b"time\trawmsg", b" \"time,rawmsg\""):
        cases.add("names", "TableNames", names + b"\n7,%s\n8,x,%s\n" % (e, o), ["8000 O"], {"damaged": 2},
                  format="csv", note="no row of names: the first and the third column count")
    cases.add("names", "TableNames", b"time,x,rawmsg\n7,,%s\nrawmsg,x,time\n%s,,8\n9,,%s\n" % (e, o, e),
              ["7000 E", "8000 O"], {"damaged": 1}, format="csv", note="other names later")
    cases.add("names", "TableNames", b"rawmsg,x,time\ntime,x,rawmsg\n", [], format="csv", note="names alone")


def add_cells(cases: Cases) -> None:
    """Seconds, quotes, spaces and frames of rows."""
    e = E.encode()
    for seconds, moment in (("0", 0), ("1", 1000), ("1.", 1000), ("1.5", 1500), ("1.05", 1050), ("1.0005", 1000),
                            ("1.9999999999", 1999), ("007", 7000), ("1." + "9" * 99, 1999), ("0.001", 1),
                            ("0.0009", 0), ("999999999999.999", 999_999_999_999_999), ("000000000007", 7000)):
        cases.add("seconds", "TableTime", row(seconds), [f"{moment} E"], note="rounded down to milliseconds")
    for seconds in ("", ".5", "-1", "+1", "1e5", "1 0", "1,5", "1:00", "1.5.5", "1.5s", "0x1", "0000000000007", "1.-5",
                    "2016-03-14T23:00:02Z", "\u00b2"):
        cases.add("seconds", "TableTime", row(seconds) + row("7", O), ["7000 O"], {"damaged": 1}, format="csv",
                  note="no seconds")
    for line in (b"7,x,%s", b"7,,%s,9,y z", b'7,"x",%s', b'7,"x,y",%s', b'7,"x ""y"", z",%s', b'"7",x,"%s"',
                 b' "7"\t,x, %s \x0c', b'7,x"y,%s', b"7,\xb5,%s", b"7,\0,%s", b"7," + b"x" * 465 + b",%s", b'7,"",%s',
                 b'7,"x"y,%s', b'7,x,%s,"z'):
        cases.add("cells", "TableCell", line % e + b"\n", ["7000 E"], format="csv")
    for line in (b'7,"x,%s', b'"7,x,%s', b'7, "x,y",%s', b"7,x,' %s'", b'7,x,"%s', b'7,x,%s"', b'7,x," %s"',
                 b"7,x,*%s;", b"7,x,0%s", b"7,%s", b"7;x;%s", b"x,7,%s", b"7,x,y,%s", b'7,x,""%s""', b"7\xa0,x,%s"):
        cases.add("cells", "TableCell", line % e + b"\n" + row("8", O), ["8000 O"], {"damaged": 1}, format="csv")
    for frame, lines, counts in ((S, [], {"DF11": 1}), (M, [], {"mode_ac": 1}), (L, [], {"DF20": 1}),
                                 (E[1:], [], {"damaged": 1}), (E.lower(), ["7000 E"], {})):
        cases.add("cells", "TableCell", row("7", frame), lines, counts, format="csv")


def add_logs(cases: Cases) -> None:
    """Lines of a log: timestamps, spaces, wrapped frames and ends of lines."""
    for moment in (0, 7, 10**19, 2**64 - 1):
        cases.add("log", "LogLine", log(moment), [f"{moment} E"])
        cases.add("log", "LogLine", f"{moment:020} *{E.lower()};\r\n".encode(), [f"{moment} E"],
                  note="20 digits, wrapped, in small letters, with a carriage return")
    for line in (f"{2**64} {E}", f"{7:021} {E}", f" 7 {E}", f"7  {E}", f"7\t{E}", f"7 {E} ", f"7 *{E}", f"7 {E};",
                 f"7 **{E};;", f"7 *{E};;", f"7 :{E};", f"7 {E[1:]}", f"7 {E}0", f"7 {E[:-1]}G", f"-7 {E}", f"7.5 {E}",
                 f" {E}", E, "7", "7 ", "7 *;", "x", f"7 {E}\r\r", "\r\r", f"7,{E}", "\0", f"7 {E} x"):
        cases.add("log", "LogLine", line.encode() + b"\n" + log(8), ["8 E"], {"damaged": 1}, format="log")
    for line in ("", "\r"):
        cases.add("log", "LogLine", line.encode() + b"\n" + log(8), ["8 E"], format="log", note="an empty line")
    cases.add("log", "LogLine ByteOrderMark", MARK + log(7) + MARK + log(8), ["7 E", "8 E"],
              note="a byte order mark at the start of a line is left out")
    for mark in (MARK[:2], MARK + MARK, b" " + MARK):
        cases.add("log", "LogLine ByteOrderMark", mark + log(7) + log(8), ["8 E"], {"damaged": 1}, format="log")
    for frame, counts in ((S, {"DF11": 1}), (M, {"mode_ac": 1}), (L, {"DF20": 1}), (V, {})):
        cases.add("log", "LogLine", f"7 {frame}\n".encode(), ["7 V"] * (frame == V), counts, format="log")


def add_longest_lines(cases: Cases) -> None:
    """Rows of 511, 512 and 513 bytes, with and without their end."""
    for size in (511, 512, 513):
        is_good = size <= 512
        for form, line in (("csv", row("7").strip() + b","), ("csv", b"7,")):
            behind = b",%s" % E.encode() if line == b"7," else b""
            line += b"y" * (size - len(line) - len(behind)) + behind
            for whole in (line + b"\n", line, line[:-1] + b"\r\n" if not behind else line + b"\n\n"):
                cases.add("longest", "LongestLine", [row("6"), whole], ["6000 E", "7000 E"][: 1 + is_good],
                          {"damaged": int(not is_good)}, format=form)
        line = b"7 %s" % E.encode()
        cases.add("longest", "LongestLine", [log(6), MARK + line + b"\r" * (size - len(line) - 3), b"\n", log(7)],
                  ["6 E", "7 E"], {"damaged": 1}, format="log", note="of carriage returns only one is left out")
    cases.add("longest", "LongestLine", [log(6), b"7" * 20_000, b"\n", log(7)], ["6 E", "7 E"], {"damaged": 1},
              format="log")


# ---- what the first bytes show


def add_shown(cases: Cases) -> None:
    """The byte that shows a format, and the one before it."""
    flags = "FormatShown"
    for data, form, lines, counts in (
        (b"\x1a3", "beast", [], {"damaged": 1}), (b"\x1a1", "beast", [], {"damaged": 1}),
        (b"\x1a2", "beast", [], {"damaged": 1}), (b"\x1a4", "beast", [], {}),
        (b"\x1a\xe3", "beast", [], {"receiver_ids": 1}),
        (b"*2040;", "avr", [], {"mode_ac": 1}), (b":%s;" % S.encode(), "avr", [], {"DF11": 1}),
        (b"*%s;" % E.encode(), "avr", ["0 E"], {}), (clocks(7).strip(), "avr", ["7 E"], {}),
        (b"<%012X80%s;" % (RATE * 7, E.encode()), "avr", ["7 E"], {}), (MARK + b"*2040;", "avr", [], {"mode_ac": 1}),
        (b"%s\n" % E.encode(), "avr", ["0 E"], {}), (b"\r*%s;\n" % E.encode() * 2, "avr", ["0 E"] * 2, {}),
        (b"x *2040; *%s;\n" % E.encode() * 2, "avr", ["0 E"] * 2, {"damaged": 4, "mode_ac": 2}),
        (b"\r*%s;\n1234\n %s;\nx *%s;\n" % (E.encode(), E.encode(), E.encode()), "avr", ["0 E"] * 2,
         {"damaged": 2, "mode_ac": 1}),
        (b"x *%s;\n" % E.encode() + log(7), "log", ["7 E"], {"damaged": 1}),
        (b"x *%s;\n" % E.encode() + row("7"), "csv", ["7000 E"], {"damaged": 1}),
        (log(7), "log", ["7 E"], {}), (b"7 *2040;\n", "log", [], {"mode_ac": 1}), (MARK + log(7), "log", ["7 E"], {}),
        (row("7"), "csv", ["7000 E"], {}), (b"time,rawmsg\n", "csv", [], {}), (MARK + b"RAWMSG,time\n", "csv", [], {}),
        (b"x\n" + log(7), "log", ["7 E"], {"damaged": 1}), (b"x" + BEAST + BEAST, "beast", ["1000 E"] * 2,
                                                            {"damaged": 1}),
        (b"x" + message(M, 1) + b"\x1a\xe3\7" + message(M, 2), "beast", [],
         {"damaged": 1, "mode_ac": 2, "receiver_ids": 1}),
        (b"x" + message(M, 1) + b"x" + message(M, 2) + message(M, 3), "beast", [], {"damaged": 2, "mode_ac": 3}),
    ):
        # (a first row, and a frame without a time in a line, come with the end or with the byte that shows them)
        gives = [0, len(lines) if form in ("beast", "avr") else 0, len(lines) if form in ("log", "csv") else 0]
        cases.add("shown", flags, [data[:-1], data[-1:], end(0)], lines, counts, gives, [None, form, None])
        cases.add("shown", flags, [data[:-1], data[-1:]], lines, counts, None, [form] * 3, format=form)
    add_shown_late(cases)


def add_shown_late(cases: Cases) -> None:
    """What only looks like a format, and what the end of a source shows."""
    flags, garbage = "FormatShown", b"\0\xff\x1a9 garbage 12\n1234\n"
    status, receiver = b"\x1a4" + bytes(range(1, 22)), b"\x1a\xe3" + bytes(range(8))
    for data in (b"x" + BEAST, b"x" + (BEAST + b"\0") * 3, b"x" + BEAST + BEAST[:-1],
                 b"x" + BEAST + b"\x1a5" + BEAST[2:],
                 b"x" + BEAST + b"\x1a\x1a" + BEAST, b"x" + BEAST + status, b"x" + BEAST + receiver,
                 *(b"\x1a" + bytes([kind]) + BEAST[2:] for kind in (0x00, 0x1A, 0x30, 0x35, 0xE2, 0xE4)),
                 b"garbage \x1a1123456789 and more\n", b"1234\n", b"x *1234;\n", b"5;x;%s\n" % E.encode(),
                 b"*%sG;\n" % E[:-1].encode(), b"x,%s,9\n" % E.encode(), garbage):
        cases.add("shown", flags, [data, OPEN], [], shows=[None], note="no format is shown yet")
    for data, form, lines, counts in (
        (BAR, "avr", ["0 E"], {"damaged": 2}), (E.encode() + b"\n", "avr", ["0 E"], {"damaged": 2}),
        (log(7), "log", ["7 E"], {"damaged": 2}), (row("7"), "csv", ["7000 E"], {"damaged": 2}),
        (message(M, 1) + status + message(M, 2), "beast", [], {"damaged": 2, "mode_ac": 2}),
    ):
        counts = {**counts, **({"damaged": 1, "mode_ac": 1} if form == "avr" else {})}
        cases.add("shown", flags, garbage + data, lines, counts, shows=[form, None], note="behind garbage")
    add_short(cases)
    for data in (b"2040\n", b"*20G0;\n", b"x*2040;\n", b"*;", b"7 x\n", b"7,,x\n", b"time,raw\n", b"\x1a9", b"\x1a\x1a",
                 b"7,,%s;\n" % E.encode()):
        cases.add("shown", flags, [data, OPEN], [], shows=[None], note="no format is shown yet")
    for last, form, lines in ((log(7)[:-1], "log", ["7 E"]), (row("7")[:-1], "csv", ["7000 E"]),
                              (E.encode(), "avr", ["0 E"]),
                              (b"x" + BEAST, "beast", ["1000 E"])):
        cases.add("shown", flags, last, lines, {"damaged": int(form == "beast")},
                  note="the end of a source shows its format")


def add_short(cases: Cases) -> None:
    """Short sources: a start of a message shows Beast; behind other bytes, a message at the end of the source does."""
    flags = "FormatShown"
    status, receiver = b"\x1a4" + bytes(range(1, 22)), b"\x1a\xe3" + bytes(range(8))
    for data, lines, counts in (
        (BEAST + message(O, 1)[:-1], ["1000 E"], {"damaged": 1}), (b"\x1a3x", [], {"damaged": 1}), (status, [], {}),
        (receiver, [], {"receiver_ids": 1}), (BEAST + b"x" + BEAST, ["1000 E"] * 2, {"damaged": 1}),
    ):
        cases.add("short", flags, data, lines, counts, shows=["beast", None])
    for data, lines, counts in (
        (BEAST, ["1000 E"], {}), (message(M, 1), [], {"mode_ac": 1}), (status + BEAST, ["1000 E"], {}),
        (BEAST + b"\x1a", ["1000 E"], {}),
    ):
        cases.add("short", flags, b"x" + data, lines, {**counts, "damaged": 1}, shows=[None, None],
                  note="one message at the end of a source is enough")
    for data in (BEAST + BEAST[:-1], BEAST + BEAST[:5], BEAST + b"x", BEAST + b"\x1a9", BEAST[:-1], status,
                 b"\x1a1" + bytes(8)):
        cases.add("short", flags, b"x" + data, [], {"damaged": 1}, shows=[None, "no_frame"],
                  note="damage begins the count of messages anew")


def add_text_before(cases: Cases) -> None:
    """Text before the frames: the first line that can be read decides, and a frame outweighs other signs."""
    e = E.encode()
    for data, lines, counts in (
        (b'{"now":1}\n*%s;\n' % e, ["0 E"], {"damaged": 2}), (b"MSG,3,1\n*%s;\n" % e, ["0 E"], {"damaged": 1}),
        (b"MSG,3,1\n7 %s\n" % e, ["7 E"], {"damaged": 1}), (b"rx1: @%012X%s;\n" % (RATE * 7, e), ["7 E"],
                                                            {"damaged": 2}),
        (b"time;icao24;rawmsg\n7 %s\n" % e, ["7 E"], {"damaged": 1}), (b"2040\n%s\n" % e, ["0 E"], {"mode_ac": 1}),
        (b"\x1f\x8b\x08\n7 %s\n" % e, ["7 E"], {"damaged": 1}), (b"a,b,*%s;\n" % e, ["0 E"], {"damaged": 1}),
        (b"7;x;%s\n7 %s\n" % (e, e), ["7 E"], {"damaged": 1}),
        (b"5.5 *%s;\n" % e, ["0 E"], {"damaged": 1}), (b'{"a":1}*%s;\n' % e, ["0 E"], {"damaged": 2}),
        (b"\0*%s;\n" % e, ["0 E"], {"damaged": 1}), (b"2026-11-29 22:00:00 *%s;\n" % e, ["0 E"], {"damaged": 3}),
        (b"x" * 600 + b"*%s;\n" % e, ["0 E"], {"damaged": 1}),
        (b"icao24,rawmsg\n" + row("7"), ["7000 E"], {"damaged": 1}),
        (b"x\n5 %sG\n7 %s\n" % (e[1:], e), ["7 E"], {"damaged": 2}),
        (b"\x1a3*%s;\n" % e, [], {"damaged": 2}), (b"\n\n\n7 %s\n" % e, ["7 E"], {}),
        (b"5 %s\n7,x,%s\n" % (e, e), ["5 E"], {"damaged": 1}), (b"5,x,%s\n7 %s\n" % (e, e), ["5000 E"], {"damaged": 1}),
    ):
        cases.add("before", "FormatShown", data, lines, counts)
    clock = message(E, 0x0A4D53472C00)  # its bytes spell a line feed and MSG,
    cases.add("before", "FormatShown", clock, [f"{0x0A4D53472C00 // RATE} E"], shows=["beast", None])


# Sources that hold no frames of a format that is read, by the name of what they are.
E_TEXT = E.encode()
STRANGERS: Dict[str, Tuple[bytes, ...]] = {
    "sbs": (b"MSG,3,1,1,4840D6\n", b"SEL,\n", b"ID,\n", b"AIR,\n", b"STA,\n", b"CLK,\n", MARK + b"MSG,3", b"MSG,3\r\n"),
    "tar": (bytes(257) + b"ustar",),
    "packed": (b"\x1f\x8b\x08", b"BZh", b"\xfd7zXZ", b"\x28\xb5\x2f\xfd", b"PK\3\4", b"BZh9\n"),
    "utf16": (b"\xff\xfe7\0", b"\xfe\xff\x007", b"\xff\xfe\n\0"[:2] + b"x\0"),
    "json": (b"{", b'{"now":1}\n', MARK + b"{}\n"),
    "semicolons": (b"time;icao24;rawmsg\n1.5;40621d;%s\n" % E_TEXT, b"1,5;40621d;%s\n" % E_TEXT, b"%s;1.5\n" % E_TEXT,
                   b'"rawmsg";"time"\r\n"%s";"1.5"\r\n' % E_TEXT, b"time;rawmsg\n", b"7;x;%s\n" % E_TEXT, b"x;RAWMSG",
                   b"7; %s \n" % S.encode()),
    "tabs": (b"1.5\t\t%s\r\n" % E_TEXT, b"rawmsg\ttime;\n7000000000000,x,%s\n" % E_TEXT, b"time\trawmsg\n",
             b"7\tx\t%s\n" % E_TEXT),
    "no_time": (b"icao24,rawmsg\n", b"rawmsg", b"x,\"rawmsg\"\n"),
    "no_rawmsg": (b'lat, "ICAO24" ,MinTime\r\n', b"time,icao24,lat\n", b"timestamp,ICAO24\n", b"icao24,mintime"),
    "no_seconds": (b"# a comment\n\n1700000000000,x,%s\n" % E_TEXT, b"40621d,1.5,%s\n" % E_TEXT,
                   b"2023-11-14 22:13:20,,%s\n" % S.encode(), b"1700000000000,x,%s\n" % E_TEXT,
                   b"2016-03-14T23:00:02Z,,%s\n" % E_TEXT, b"x,,%s" % S.encode()),
    "no_names": (b"40621d,%s" % E_TEXT, b"5,9%s\n" % E_TEXT[1:], b"1.5,,,%s\n" % S.encode(), b"7,%s\n" % E_TEXT,
                 b"%s,7\n" % E_TEXT, b"7,x,y,%s" % S.encode()),
    "no_frame": (b"icao24;lat;lon\n40621d;5;6\n", b"40621d,5,6\n", b"%s%s,5\n" % (E_TEXT, E_TEXT), b"icao24,lat\n5,6\n",
                 b"xrawmsg,5\n", b"x %s,5\n" % E_TEXT, b"5,2040\n", b"5;2040\n",
                 b"5x,y,%s,%s\n" % (E_TEXT, b"z" * 512), b"x", b"\n", b"2040\n", b"MSG3", b"\x1f\x8b\x07", b"BZ",
                 b"\xff\xfe7x", b"\xfe\xff7x", b"PK\3\5",
                 b"sel,\n",
                 bytes(256) + b"ustar", bytes(258) + b"ustar", b"time,lat\n", b"x,y,2040\n", b"time;raw\n", b"\x1a"),
}


def add_strangers(cases: Cases) -> None:
    """What a source without frames is, at its end; the first sign is told; and a frame outweighs them all."""
    for stranger, sources in STRANGERS.items():
        for data in sources:
            cases.add("stranger", "Stranger", [data, end(0)], [], {"damaged": 1}, shows=[None, stranger])
    for first, data in (("sbs", b"MSG,\n{\n"), ("json", b"{\nMSG,\n"), ("packed", b"BZh\n{\n"),
                        ("tabs", b"x\tRAWMSG\n{\n"),
                        ("semicolons", b"x;y\trawmsg;rawmsg\n"), ("no_time", b"x\nrawmsg\nx;rawmsg\n")):
        cases.add("stranger", "Stranger", [data, end(0)], [], {"damaged": 1}, shows=[None, first],
                  note="the first sign is told")
    cases.add("stranger", "Stranger", [b"{\n", end(0), log(7, 8), end(0)], ["7 E", "8 E"], {"damaged": 1},
              shows=[None, "json", "log", "json"], note="the next source is read")
    for form in feeds.FORMATS:
        cases.add("stranger", "Stranger", b"MSG,3,1,1,4840D6\n", [], {"damaged": 1}, shows=[form] * 2, format=form,
                  note="a format that is named is not looked for")
        cases.add("empty", "EmptySource", [end(0)], [], shows=[form], format=form)
    cases.add("empty", "EmptySource", [end(0)], [], shows=[None])
    cases.add("empty", "EmptySource", [b"", end(0), b"", LOST, end(0)], [], shows=[None] * 5)


def add_limit(cases: Cases) -> None:
    """What is known after 16,383 bytes, 16,384 and 16,385."""
    flags, limit = "FirstBytes", 16_384
    for size in (limit - 1, limit, limit + 1):
        is_full = size >= limit
        for data, stranger in ((b"x", "no_frame"), (b"MSG,\n", "sbs"), (b"BZh", "packed")):
            cases.add("limit", flags, [data, b"\0" * (size - len(data)), OPEN], [], {"damaged": int(is_full)},
                      shows=[None, stranger if is_full else None])
        line = log(7)
        for whole in (line, line[:-1]):
            cases.add("limit", flags, [b"\0" * (size - len(whole) - 1), b"\n", whole],
                      ["7 E"] * (size - whole.endswith(b"\n") <= limit), {"damaged": 1},
                      note="at these bytes, the last line counts as it is")
        cases.add("limit", flags, [b"x" * (size - 2 * len(BEAST)), BEAST, BEAST], ["1000 E"] * 2 * (size <= limit),
                  {"damaged": 1}, note="two messages have to end within these bytes")
        tail = b"x\n\r" + BAR[:-1]
        cases.add("limit", flags, [b"\n" * (size - len(tail)), tail], ["0 E"] * (size <= limit), {"damaged": 1},
                  note="a line that no line feed ends")
    cases.add("limit", flags, [b"\n" * (limit - 7), b'{"a":1}', OPEN], [], {"damaged": 1}, shows=[None, "json"])
    cases.add("limit", flags, [b"\0" * limit, b"\n", log(7, 8), end(0), log(7, 8)], ["7 E", "8 E"], {"damaged": 1},
              note="a source without frames is left out to its end")
    cases.add("limit", flags, [b"\0" * limit, LOST, log(7, 8)], ["7 E", "8 E"], {"damaged": 1},
              shows=["no_frame", "no_frame", "log", "no_frame"])


# ---- damage at each place


def add_damaged_places(cases: Cases) -> None:
    """Short sources of each format with a byte left out, doubled or changed at each place, by the definitions alone."""
    sources = {"beast": message(X, SECOND) + message(S, 1) + message(O, 2 * SECOND),
               "avr": clocks(1000) + b"*%s;\r\n" % S.encode() + clocked(O, 2 * SECOND),
               "csv": b"rawmsg,x,time\n%s,,1.5\n\"%s\",,2\r\n" % (E.encode(), O.lower().encode()),
               "log": b"1000 %s\r\n2000 *%s;\n" % (E.encode(), O.encode())}
    others = (b"\x1a", b"\n", b"*", b";", b",", b'"', b" ", b"0", b"\x80", b"\xbf")
    for form, data in sources.items():
        for place in range(len(data)):
            kind = pick(f"damage of {form}", place, 4)
            other = others[pick(f"other byte of {form}", place, len(others))]
            harmed = (data[:place] + data[place + 1 :], data[:place] + data[place : place + 1] + data[place:],
                      data[:place] + other + data[place + 1 :], data[:place] + other + data[place:])[kind]
            named: Dict[str, Optional[str]] = {"format": form} if place % 2 else {}
            asked = {**named, "calls": [{"bytes": harmed.hex()}, end(0)]}
            if asked["calls"][0]["bytes"] != data.hex():
                cases.define("damaged", "DamagedPlace", asked)
