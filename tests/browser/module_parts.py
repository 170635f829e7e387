"""Parts of tests/page about the module that it runs: what web/squitter.js has, and the vectors and logs that it
answers, by node and on the page."""
import json
import re
import subprocess
from typing import List

from logs import PIECE_BYTES, logs, tracked
from trying import HERE, NARROW, SITE, TOP, WIDE, Tries, bytes_of, cases, expect, first_difference, read_text


def of_module(tries: Tries, *words: str, given: bytes = b"") -> bytes:
    """What tests/browser/module.mjs prints, a program that imports web/squitter.js."""
    done = subprocess.run([*tries.node, f"{HERE}/module.mjs", *words], input=given, capture_output=True)
    expect(done.returncode == 0, words, done.stderr.decode())
    return done.stdout


def imported(tries: Tries) -> str:
    """web/squitter.js beside the program: ten thousand frames that it reads, and as many that its contacts hear. (A
    contact knows the moments of its own address alone, so the log is sorted.)"""
    lines = subprocess.run([f"{TOP}/tests/lines", "10000"], check=True, capture_output=True).stdout.splitlines(True)
    log = b"".join(sorted(lines, key=lambda line: int(line.split(b" ")[0])))
    texts = b"".join(line.split(b" ")[1] for line in log.splitlines(True))
    wanted = subprocess.run([tries.program, "check"], input=texts, capture_output=True).stdout
    got = of_module(tries, "check", given=texts)
    expect(got == wanted and wanted.count(b"\n") == 10_000, first_difference(got, wanted))
    for window, site in ((10_000, SITE), (3000, None)):
        wanted = tracked(tries.program, log, (window, 1000, site))
        got = of_module(tries, "track", str(window), *(site or ()), given=log)
        expect(got == wanted, first_difference(got, wanted))
    return f"3 times 10000 lines, {of_module(tries, 'refusals').decode().strip()}"


def of_program(tries: Tries, name: str) -> str:
    """What a program of tests/browser/ prints."""
    done = subprocess.run([*tries.node, f"{HERE}/{name}"], capture_output=True, text=True)
    expect(done.returncode == 0, done.stderr)
    return done.stdout.strip()


def tracked_by_node(tries: Tries) -> str:
    """tests/browser/tracking.mjs: limits and states of trackers and logs, and the columns of a log beside its text."""
    return of_program(tries, "tracking.mjs")


def owners(tries: Tries) -> str:
    """tests/browser/owners.mjs: closed and refused objects, and objects without memory, touch no memory of others."""
    return of_program(tries, "owners.mjs")


def in_workers(tries: Tries) -> str:
    """tests/browser/workers.mjs: four worker threads and the main one decode at once, each as one thread alone does."""
    return of_program(tries, "workers.mjs")


# Only Python has calls of arrays: there, a call costs more than the work it asks for.
OF_PYTHON_ALONE = {"local_many", "pair_many", "read_many", "Doubt", "Results"}


def camel(name: str) -> str:
    first, *others = name.split("_")
    return first + "".join(other.capitalize() for other in others)


def declared(tries: Tries) -> str:
    """web/squitter.d.ts and squitter_layout.d.ts name what web/squitter.js has, with as many arguments, and the names
    are those of Python."""
    told = json.loads(of_module(tries, "names"))
    both = (bytes_of(f"{TOP}/web/{name}.d.ts").decode() for name in ("squitter_layout", "squitter"))
    text = re.sub(r"/\*.*?\*/", "", "".join(both), flags=re.S)
    blocks = re.findall(r"^export (?:declare (?:class|const)|interface) (\w+)[^{;]*\{\n(.*?)^\};?$", text, re.M | re.S)
    functions = dict(re.findall(r"^export declare function (\w+)\((.*?)\): ", text, re.M | re.S))
    numbers = {name for name, kind in re.findall(r"^export declare const (\w+): (\w+);$", text, re.M)
               if told["exports"].get(name) == {"of": kind}}
    names = {name for name, _ in blocks if name in told["exports"]} | functions.keys() | numbers
    expect(names == told["exports"].keys(), "exports:", names ^ told["exports"].keys())
    count = len(names)
    for name, body in blocks:
        of = told["exports"].get(name, {})
        fields = dict(re.findall(r"^  (?:readonly |get )?(\w+)(?:\(\))?: ([^;]+);", body, re.M))
        calls = dict(re.findall(r"^  (\w+)\((.*)\): ", body, re.M))
        if name in told["keys"]:
            wanted = set(told["keys"][name]) | of.keys()
            expect(fields.keys() | calls.keys() == wanted, name, (fields.keys() | calls.keys()) ^ wanted)
            for call, words in calls.items():
                needed = sum("?:" not in word for word in re.findall(r"\w+\??:", words))
                expect(needed == of[call], name, call, "wants", of[call], "arguments, not", needed)
        elif of:
            expect({key: int(value) for key, value in fields.items()} == of, name, fields, of)
        count += len(fields) + len(calls)
    package = read_text("clib/squitter/__init__.py")
    every = re.findall(r'"(\w+)"', re.findall(r"__all__ = \[(.*?)\]", package, re.S)[0])
    calls = {call for _, body in blocks for call in re.findall(r"^  (\w+)\(", body, re.M)}
    ours = {name for name, _ in blocks} | numbers | calls
    missing = {name for name in every if camel(name) not in ours | {"Frame"}}
    expect(missing == OF_PYTHON_ALONE, "names of Python:", missing ^ OF_PYTHON_ALONE)
    return f"{count} names, and those of Python but {len(missing)}"


def hints(tries: Tries) -> str:
    """Each fault of a frame, a pair, a tracker or an argument says what to do."""
    told = json.loads(of_module(tries, "hints"))
    enum = re.search(r"^class Code\(.*?\n\n\n", read_text("clib/squitter/_made.py"), re.M | re.S)
    names = set(re.findall(r"^    ([A-Z_0-9]+) = ", enum[0] if enum else "", re.M))
    # These occur in lines of a log, or not at all: JavaScript and Python make no such error of their own.
    silent_codes = {"OK", "LONG_LINE", "BAD_MOMENT", "LONG_LOG", "NO_MEMORY", "BAD_FORMAT"}
    expect(names - told.keys() == silent_codes, "without a hint:", names - told.keys() ^ silent_codes)
    return f"{len(told)} faults"


def answered_vectors(node: List[str], module: str) -> int:
    """How many vectors a module answers by node: all but the logs, exactly."""
    adapter = " ".join([*node, f"{HERE}/cases.js", module])
    done = subprocess.run([f"{TOP}/vectors/run", adapter], capture_output=True, text=True)
    expect(done.returncode == 0, done.stdout[-1500:], done.stderr)
    passed = re.search(r"^all +\d+ +(\d+)", done.stdout, re.M)
    wanted = len(cases()) - len(cases("log"))
    expect(passed and int(passed[1]) == wanted, "passed", passed and passed[1], "of", wanted)
    return wanted


def heard_logs(tries: Tries, node: List[str], module: str) -> int:
    """How many logs a module hears by node as the program does, in pieces of several sizes."""
    jobs, wanted = [], []
    for number, (name, log, settings) in enumerate(logs()):
        window, limit, site = settings
        piece = (PIECE_BYTES, 1, 37, 64, 65, 1000)[number % 6 if len(log) < 200_000 else 0]
        path = f"{tries.work}/{number}.log"
        with open(path, "wb") as file:
            file.write(log)
        job = {"log": path, "out": f"{path}.out", "window": str(window), "limit": limit, "piece": piece, "site": site}
        jobs.append(job)
        wanted.append((name, tracked(tries.program, log, settings)))
    lines = "".join(f"{json.dumps(job)}\n" for job in jobs).encode()
    done = subprocess.run([*node, f"{HERE}/hear.js", module], input=lines, capture_output=True)
    expect(done.returncode == 0, module, done.stderr.decode())
    for job, (name, text) in zip(jobs, wanted):
        got = bytes_of(str(job["out"]))
        expect(got == text, module, name, job, first_difference(got, text))
    return len(jobs)


def vectors_by_node(tries: Tries) -> str:
    return f"{answered_vectors(tries.node, NARROW)} cases"


def logs_by_node(tries: Tries) -> str:
    return f"{heard_logs(tries, tries.node, NARROW)} logs"


BEYOND = """
require("HERE/modules.js").loaded("NAME").then(({ library: { memory } }) => {
  const { exports, firstAt, outAt } = memory;
  for (const [from, to] of [[firstAt, outAt], [2 ** 32 + firstAt, outAt], [firstAt, 2 ** 32 + outAt]]) {
    memory.bytesAt(firstAt, 14).fill(0xA5);
    memory.bytesAt(outAt, 28).fill(0);
    try {
      exports.squitter_text_of_frame(BigInt(from), BigInt(to));
      console.log(memory.getText(outAt, 28));
    } catch (error) {
      console.log(error.name);
    }
  }
});
"""


def beyond(node: List[str], module: str) -> List[str]:
    """What a module does with an address of 4 GiB and more, to read from and to write to."""
    script = BEYOND.replace("HERE", HERE).replace("NAME", module)
    return subprocess.run([*node, "-e", script], capture_output=True, text=True).stdout.split()


def wide_module(tries: Tries) -> str:
    """The module with 64-bit memory answers all vectors and logs as the one that is made from it. Only an address of
    4 GiB and more differs: it wraps, and is an error here."""
    node = tries.wide_node
    told = beyond(tries.node, NARROW), beyond(node, WIDE)
    expect(told == (["A5" * 14] * 3, ["A5" * 14, "RuntimeError", "RuntimeError"]), told)
    return f"{answered_vectors(node, WIDE)} cases, {heard_logs(tries, node, WIDE)} logs"


def vectors_in_browser(tries: Tries) -> str:
    """All vectors but the logs, exactly, on the page that is opened from a folder."""
    browser = tries.page()
    browser.evaluate(bytes_of(f"{HERE}/cases.js").decode())
    asked = [case for case in cases() if case["op"] != "log"]
    questions = [{"op": case["op"], "input": case["input"]} for case in asked]
    got = browser.evaluate(
        "((made) => made.load(moduleBytes()).then((library) => "
        f"{json.dumps(questions)}.map((one) => squitterCase(made, library, one))))(squitterModule())"
    )
    for case, answer in zip(asked, got):
        expect(answer == case["answer"], case["id"], answer, case["answer"])
    return f"{len(asked)} cases"
