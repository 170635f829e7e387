#!/usr/bin/env python3
"""same.py: compares squitter.h with the crates.

It compares the structs of the crates' sources, with the sizes and offsets that C gives them; the types of the exports;
the enums and flags as the specs state them; and the symbols that the archive and the shared object export and need. It
needs a C compiler and nm. It prints each difference, and then has status 1. `clib/bindings` makes the tables of Python
and JavaScript from the header, so they are not compared here; the order in which Python takes a struct apart is."""
import argparse
import os
import re
import subprocess
import sys
import tempfile

HERE = os.path.dirname(os.path.abspath(__file__))
CLIB = os.path.dirname(HERE)
CRATE = os.path.join(os.path.dirname(CLIB), "crates", "squitter_c")
argparse.ArgumentParser(description=__doc__, formatter_class=argparse.RawDescriptionHelpFormatter).parse_args()
sys.path.insert(0, CLIB)
os.environ.setdefault("LIBSQUITTER", os.path.join(CLIB, "libsquitter.so.0"))
import squitter  # noqa: E402

CC = os.environ.get("CC", "cc")
NUMBERS = {"u8": "uint8_t", "u16": "uint16_t", "u32": "uint32_t", "u64": "uint64_t", "i32": "int32_t", "i64": "int64_t",
           "usize": "size_t", "*mut u8": "void *"}
# What C holds, and its file, and the pointer in each of them, and its file: their fields are private.
SLOTS = (("Slot", "slot"), ("FeedSlot", "feed_slot"), ("OrderSlot", "order_slot"))
SEAL = ("Seal", "seal")
# The crate's structs, as C names them.
STRUCTS = {
    "Fault": "squitter_fault", "PlainAngle": "squitter_angle", "PlainPosition": "squitter_position",
    "PlainSquitter": "squitter_fields", "PlainAirHead": "squitter_air_head", "PlainGroundHead": "squitter_ground_head",
    "PlainAltitude": "squitter_altitude", "PlainReceived": "squitter_received", "PlainFix": "squitter_last_fix",
    "PlainSide": "squitter_side", "PlainEntry": "squitter_entry", "PlainHeard": "squitter_heard",
    "DegreesE7": "squitter_degrees_e7", "PlainZones": "squitter_zones",
    "Slot": "squitter_tracker", "Room": "squitter_block", "PlainAnswer": "squitter_answer", "Done": "squitter_done",
    "PlainTally": "squitter_tally", "PlainLast": "squitter_last", "PlainWatch": "squitter_watch",
    "PlainCounts": "squitter_counts", "FeedSlot": "squitter_feed", "OrderSlot": "squitter_order",
}
# Reasons that have another name in C.
RENAMED = {
    "NoPosition": "BAD_POSITION", "NoHead": "BAD_FIELDS", "NoAngle": "BAD_ANGLE", "NoLatitude": "BAD_LATITUDE",
    "NoFeet": "BAD_FEET", "NoParity": "BAD_PARITY", "angles.OutOfRange": "ANGLE_RANGE", "lines.Moment": "BAD_MOMENT",
    "lines.Full": "TABLE_FULL", "lines.NotDf17": "NOT_DF17", "Memory": "NO_MEMORY",
    "NoFormat": "BAD_FORMAT", "Entry": "BAD_ENTRY",
}
# The symbols that the libraries may need: functions of the C library that compilers call by themselves, and, for the
# archive, the divisions of libgcc.
WANTED = {"memcpy", "memset", "memmove", "memcmp", "__udivti3", "__umodti3"}
differences = []


def differ(text):
    differences.append(text)
    print("differs:", text)


def sources():
    folder = os.path.join(CRATE, "src")
    for name in sorted(os.listdir(folder)):
        if name.endswith(".rt"):
            with open(os.path.join(folder, name), encoding="utf-8") as file:
                yield file.read()


def c_type(rust):
    """Returns the C type of a Rust type, and the text after the name."""
    array = re.fullmatch(r"\[(u8|u64); (\d+)\]", rust)
    if array:
        return NUMBERS[array[1]], f"[{array[2]}]"
    return (NUMBERS[rust] if rust in NUMBERS else STRUCTS[rust]), ""


def fields_of(crate, name, file):
    """Returns the fields of a struct with private fields, from this file of the crate."""
    path = os.path.join(os.path.dirname(CRATE), crate, "src", f"{file}.rt")
    with open(path, encoding="utf-8") as file:
        body = re.search(rf"#\[repr\(C\)\]\n(?:#\[[^\n]*\]\n)*pub struct {name} \{{\n(.*?)\n\}}", file.read(), re.S)[1]
    return re.findall(r"^    (?:pub(?:\(crate\))? )?(\w+): ([\w* ]+),$", body, re.M)


def structs():
    """Yields each #[repr(C)] struct with its fields, in order. Seals and memories are replaced by their own fields."""
    sealed = fields_of("squitter_c", *SEAL)
    for slot, file in SLOTS:
        yield slot, [field for name, kind in fields_of("squitter_c", slot, file)
                     for field in (sealed if kind == SEAL[0] else [(name, kind)])]
    memory = [kind for _, kind in fields_of("sq_lent", "Memory", "memory")]
    room = fields_of("sq_lent", "Room", "memory")
    yield "Room", [(name, memory[0] if kind == "Memory" else kind) for name, kind in room]
    for source in sources():
        for name, body in re.findall(r"#\[repr\(C\)\]\n(?:#\[[^\n]*\]\n)*pub struct (\w+) \{\n(.*?)\n\}", source, re.S):
            if not any(name == private for private, _ in (SEAL, *SLOTS)):
                yield name, re.findall(r"^    pub (\w+): (.*),$", body, re.M)


def exports():
    """Yields the name, the parameters and the result of each export."""
    for source in sources():
        for name, parameters, answer in re.findall(r"pub extern \"C\" fn (\w+)\((.*?)\)(?: -> (\w+))?\n", source, re.S):
            yield name, re.findall(r"(\w+): (&?(?:mut )?(?:\[+\w+(?:; \d+)?\]+|\w+))", parameters), answer


def c_parameter(call, name, rust):
    """Returns a parameter of a call as C declares it. The bytes of a text are char in C, those of a frame uint8_t."""
    if rust == "&[u8]":
        return "const char *, size_t"
    if rust == "&mut [u8]":
        return "char *, size_t"
    if rust == "&[[u8; 14]]":
        return "const uint8_t (*)[14], size_t"
    if rust == "&mut [[u8; 14]]":
        return "uint8_t (*)[14], size_t"
    if rust == "&mut Slot":
        return "squitter_log *" if call.startswith("squitter_log_") else "squitter_tracker *"
    many = re.fullmatch(r"&(mut )?\[(\w+)\]", rust)
    if many:
        return f"{'' if many[1] else 'const '}{c_type(many[2])[0]} *, size_t"
    borrowed = re.fullmatch(r"&(mut )?(.*)", rust)
    if not borrowed:
        return c_type(rust)[0]
    array = re.fullmatch(r"\[u8; (\d+)\]", borrowed[2])
    is_text = name == "out" and call.startswith(("squitter_text_of", "squitter_log_header"))
    kind = ("char" if is_text else "uint8_t") if array else c_type(borrowed[2])[0]
    return f"{'' if borrowed[1] else 'const '}{kind} *"


def c_checks():
    """A C file of assertions, each true where the header is as the crates."""
    yield '#include "squitter.h"\n#include <stddef.h>\n'
    seen = set()
    for name, fields in structs():
        seen.add(name)
        here = STRUCTS[name]
        if name == "Slot":
            yield f'_Static_assert(sizeof(squitter_log) == sizeof({here}), "size of squitter_log");'
            yield f'_Static_assert(offsetof(squitter_log, at) == offsetof({here}, at), "at of squitter_log");'
        yield f"struct own_{here} {{ {' '.join(f'{c_type(t)[0]} {n}{c_type(t)[1]};' for n, t in fields)} }};"
        yield f'_Static_assert(sizeof(struct own_{here}) == sizeof({here}), "size of {here}");'
        yield f'_Static_assert(_Alignof(struct own_{here}) == _Alignof({here}), "alignment of {here}");'
        for field, kind in fields:
            at = f"offsetof({here}, {field})"
            yield f'_Static_assert(offsetof(struct own_{here}, {field}) == {at}, "{field} of {here}");'
            one = f"(({here} *)0)->{field}"
            if not c_type(kind)[1]:
                yield f'_Static_assert(_Generic({one}, {c_type(kind)[0]}: 1, default: 0), "type of {field} of {here}");'
    for name in set(STRUCTS) - seen:
        differ(f"the crates have no struct {name}")
    for name, parameters, answer in exports():
        kinds = ", ".join(c_parameter(name, n, t) for n, t in parameters) or "void"
        result = {"": "void", "Fault": "squitter_fault", "usize": "size_t"}.get(answer) or NUMBERS[answer]
        yield f'_Static_assert(_Generic(&{name}, {result} (*)({kinds}): 1, default: 0), "type of {name}");'


def check_c():
    with tempfile.TemporaryDirectory() as folder:
        path = os.path.join(folder, "same.c")
        with open(path, "w", encoding="utf-8") as file:
            file.write("\n".join(c_checks()) + "\n")
        done = subprocess.run([CC, "-std=c11", "-fsyntax-only", "-I", CLIB, path], capture_output=True, text=True)
        for line in done.stderr.splitlines():
            if "error" in line:
                differ(line)
        if done.returncode and not differences:
            differ(done.stderr)


def check_taken_apart():
    """Gives each member of a struct a number of its own, and compares what the module makes of them by name."""
    members = [name for name, _ in squitter._Fields._fields_]
    given = {name: 100 + number for number, name in enumerate(members)}
    given.update(kind=squitter.Kind.GROUND, altitude_form=squitter.AltitudeForm.FEET)
    if squitter._fields_of(tuple(given[name] for name in members))._asdict() != given:
        differ("fields that the module takes apart in another order")
    if [name for name, _ in squitter._Heard._fields_] != ["position", "what", "even", "odd"]:
        differ("results that the module takes apart in another order")
    if squitter._heard_of((1, 2, 3, 4, 1, 5, 6))[1:] != (squitter._position_of((1, 2, 3, 4)), 5, 6):
        differ("results that the module takes apart in another way")


def header():
    with open(os.path.join(CLIB, "squitter.h"), encoding="utf-8") as file:
        return file.read()


def check_codes():
    """Compares the codes of the header with those of the specs, where each has one reason."""
    with open(os.path.join(CRATE, "specs", "Faults.antt"), encoding="utf-8") as file:
        stated = re.findall(r"^fault_of\w* \(?([\w.]+)[^=]*= told (\d+) ", file.read(), re.M)
    codes = {"OK": 0}
    for variant, code in stated:
        plain = re.sub(r"(?<!^)([A-Z])", r"_\1", variant.split(".")[-1]).upper()
        name = RENAMED.get(variant, plain)
        if name in codes:
            differ(f"two reasons are named {name}")
        codes[name] = int(code)
    if len(set(codes.values())) != len(codes):
        differ("two reasons have one code")
    block = re.search(r"enum \{\s+SQUITTER_OK = 0.*?\};", header(), re.S)[0]
    named = {name: int(code) for name, code in re.findall(r"SQUITTER_(\w+) = (\d+)", block)}
    if named != codes:
        differ(f"codes of squitter.h: {sorted(set(named.items()) ^ set(codes.items()))}")


def definitions(crate, file, pattern):
    """What a definition says of each case, as numbers by the names of the cases."""
    with open(os.path.join(os.path.dirname(CRATE), crate, "specs", file), encoding="utf-8") as text:
        return {name: int(number) for name, number in re.findall(pattern, text.read(), re.M)}


def check_flags():
    """Compares the flags of a feed in the header with their definition, which takes them out of a sum."""
    stated = definitions("squitter_c", "FeedCalls.antt", r"^  (\w+) = flags / (\d+) % 2 == 1;$")
    stated |= definitions("squitter_c", "FeedCalls.antt", r"^  (\w+) = flags % (2) == 1;$")
    named = {"is_live": "LIVE", "ignores_clock": "BY_ARRIVAL", "all_formats": "ALL_FORMATS"}
    if stated.pop("is_live", 0) != 2 or set(stated) | {"is_live"} != set(named):
        differ("the definition of a feed's flags")
    for field, number in {"is_live": 1, **stated}.items():
        name = named.get(field, field)
        if not re.search(rf"^  SQUITTER_FEED_{name} = {number}\b", header(), re.M):
            differ(f"SQUITTER_FEED_{name} of squitter.h and of the definition")


def check_enums():
    """Compares the other enums of the header with their definitions: kinds, altitude forms, results and formats."""
    kinds = definitions("squitter_c", "Fields.antt", r"^pub record IsPlain(\w+) .*\n  pub kind : plain\.kind ≡ (\d+)$")
    forms = definitions("squitter_c", "Fields.antt", r"^IsPlainAltitude \(?altitudes\.(\w+)[^=]*= \(form ≡ (\d+)\)")
    heard = definitions("squitter_c", "Heard.antt", r"^IsPlainHeard \(?(\w+)[^=]*= IsHeardAs (\d+) ")
    feeds = definitions("squitter_c", "FeedCalls.antt", r"^feed_format_number formats\.(\w+) = (\d+)$")
    feeds |= definitions("squitter_c", "FeedCalls.antt", r"^feed_number (None) = (\d+)$")
    answers = definitions("sq_commands", "Formats.antt", r"^format_number \(?(\w+(?: \w+)?)\)? = (\d+)$")
    strangers = definitions("squitter_c", "FeedCalls.antt", r"^stranger_number strangers\.(\w+) = (\d+)$")
    # the definitions, and the names of their cases in the header
    rows = (
        (kinds, {"Other": "OTHER", "Airborne": "AIR", "Surface": "GROUND"}),
        (forms, {"Missing": "NO_ALTITUDE", "Feet": "FEET", "Raw": "OTHER_ALTITUDE"}),
        (heard, {"Fix": "FIX", "Followed": "FOLLOWED", "Waiting": "WAITING", "Split": "SPLIT", "Far": "FAR",
                 "NoSite": "WITHOUT_SITE", "NotPosition": "NO_PLACE"}),
        (feeds, {"Beast": "FEED_BEAST", "Avr": "FEED_AVR", "Csv": "FEED_CSV", "Log": "FEED_LOG", "None": "FEED_AUTO"}),
        (answers, {"Lines": "LINES", "Rows Csv": "CSV", "Rows Json": "JSON"}),
        (strangers, {"Sbs": "FEED_SBS", "Tar": "FEED_TAR", "Packed": "FEED_PACKED", "Utf16": "FEED_UTF16",
                     "Json": "FEED_JSON", "NoFrame": "FEED_NO_FRAME", "Semicolons": "FEED_SEMICOLONS",
                     "Tabs": "FEED_TABS", "NoTime": "FEED_NO_TIME", "NoRawmsg": "FEED_NO_RAWMSG",
                     "NoSeconds": "FEED_NO_SECONDS",
                     "NoNames": "FEED_NO_NAMES"}),
    )
    blocks = [{name: int(number) for name, number in re.findall(r"SQUITTER_(\w+) = (\d+)", block)}
              for block in re.findall(r"^enum \{\n(.*?)^\};", header(), re.M | re.S)]
    for stated, named in rows:
        if set(stated) != set(named):
            differ(f"the definitions have {sorted(stated)}, not {sorted(named)}")
        elif {name: stated[case] for case, name in named.items()} not in blocks:
            differ(f"the enum of SQUITTER_{list(named.values())[0]} in squitter.h and its definition")


def symbols(*words):
    lines = subprocess.run(["nm", *words], capture_output=True, text=True, check=True).stdout.splitlines()
    return [line.split() for line in lines if line and not line.endswith(":")]


def check_symbols():
    names = {name for name, _, _ in exports()}
    declared = set(re.findall(r"\b(squitter_\w+)\(", re.sub(r"/\*.*?\*/", "", header(), flags=re.S)))
    if declared != names:
        differ(f"calls of squitter.h: {sorted(declared ^ names)}")
    for file, words in (("libsquitter.so.0", ["-D"]), ("libsquitter.a", ["-g"])):
        path = os.path.join(CLIB, file)
        defined = {row[-1].split("@")[0] for row in symbols(*words, "--defined-only", path)} - {"SQUITTER_0"}
        if defined != names:
            differ(f"symbols of {file}: {sorted(defined ^ names)}")
        wanted = {row[-1].split("@")[0] for row in symbols(*words, "--undefined-only", path)}
        if wanted - WANTED:
            differ(f"{file} wants {sorted(wanted - WANTED)}")


def check_page():
    """The README has the number of calls, and what the archive needs of other libraries."""
    with open(os.path.join(CLIB, "README.md"), encoding="utf-8") as file:
        front = " ".join(file.read().partition("## Install")[0].split())
    count = len(list(exports()))
    if f"It has {count} calls," not in front:
        differ(f"README.md: there are {count} calls")
    for row in symbols("-g", "--undefined-only", os.path.join(CLIB, "libsquitter.a")):
        if f"`{row[-1]}`" not in front:
            differ(f"README.md: the archive needs {row[-1]}")


def check_tests():
    """The tests: each file of them is named by the Makefile, or by a script for a shell that the Makefile names. Each
    method of a test case is a test, or is used."""
    with open(os.path.join(CLIB, "Makefile"), encoding="utf-8") as file:
        make = file.read()
    scripts = ""
    for name in re.findall(r"tests/(\w+\.sh)", make):
        with open(os.path.join(HERE, name), encoding="utf-8") as file:
            scripts += file.read()
    for name in sorted(os.listdir(HERE)):
        if not name.startswith((".", "__")) and f"tests/{name}" not in make + scripts:
            differ(f"the Makefile does not run tests/{name}")
        if name.startswith("test_"):
            with open(os.path.join(HERE, name), encoding="utf-8") as file:
                text = file.read()
            for method in re.findall(r"^    def (\w+)\(self\)", text, re.M):
                # (Python calls methods with two underscores in front by itself)
                if not method.startswith(("test_", "setUp", "tearDown", "__")) and text.count(f".{method}(") == 0:
                    differ(f"{method} of tests/{name} is no test, and nothing calls it")


def main():
    # (tries each function of this file with this prefix)
    for name, one in list(globals().items()):
        if name.startswith("check_"):
            one()
    print(f"same: {len(list(exports()))} calls, {len(list(structs()))} structs, {len(squitter.Code)} codes")
    sys.exit(bool(differences))


if __name__ == "__main__":
    main()
