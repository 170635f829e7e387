"""Helpers of the parts of tests/run: checks, and the program under test, with stand-ins for receivers."""
import os
import re
import shutil
import signal
import subprocess
import sys

TOP = os.path.dirname(os.path.dirname(os.path.abspath(__file__)))
AIR_EVEN = "8D40621D58C382D690C8AC2863A7"
AIR_ODD = "8D40621D58C386435CC412692AD6"

# The output of the stand-ins for receivers. The clock of `dump1090 --mlat` has 12 MHz: the second frame comes 6 s
# later.
FRAMES = f"*{AIR_EVEN};\n*{AIR_ODD};\n"
CLOCKED = f"@000000000000{AIR_EVEN};\n@{72_000_000:012X}{AIR_ODD};\n"
RECEIVERS = {
    "rtl_adsb": f"cat <<'END'\n{FRAMES}END\n",
    "nc": f"cat <<'END'\n{FRAMES}END\n",
    "dump1090-mutability": f"case \"$*\" in *--mlat*) cat <<'END'\n{CLOCKED}END\n;; "
                           f"*) cat <<'END'\n{FRAMES}END\n;; esac\n",
}


def python_with(*modules):
    """A Python that has these modules: this one, or the system's beside it."""
    script = f"import {', '.join(modules)}"
    for path in (sys.executable, "/usr/bin/python3"):
        if shutil.which(path) and subprocess.run([path, "-c", script], stderr=subprocess.DEVNULL).returncode == 0:
            return path
    return None


class Failed(Exception):
    """A result differs from the expected one."""


class Missing(Exception):
    """A tool that is not installed."""


def expect(good, *words):
    if not good:
        raise Failed(" ".join(str(word) for word in words))


def need(tool):
    if shutil.which(tool) is None:
        raise Missing(tool)


def text_of(path):
    with open(f"{TOP}/{path}", encoding="utf-8") as file:
        return file.read()


def all_passed(told, *rows):
    """Returns how many cases passed, by the table that vectors/run printed. Fails if a case fails, and unless these
    rows of docs/PLATFORMS.md have this number."""
    found = re.search(r"^all +(\d+) +(\d+) .*? (\d+) +\.$", told, re.M)
    expect(found and int(found[1]) == int(found[2]) + int(found[3]), told[-600:])
    page = text_of("docs/PLATFORMS.md").splitlines()
    for row in rows:
        has_it = any(line.startswith(f"| {row} |") and f"| {int(found[2]):,} |" in line for line in page)
        expect(has_it, f"docs/PLATFORMS.md does not say {int(found[2]):,} vectors of {row}")
    return f"{found[2]} cases"


def first_difference(got, wanted):
    """The first line in which two texts differ."""
    for number, (ours, theirs) in enumerate(zip(got.splitlines(True), wanted.splitlines(True)), 1):
        if ours != theirs:
            return f"line {number}: {ours!r} where {theirs!r} is wanted"
    return f"{len(got.splitlines())} lines where {len(wanted.splitlines())} are wanted"


class Tries:
    """The program that is tried, a folder to work in, and the stand-ins of other programs in it."""

    def __init__(self, program, work):
        self.program = program
        self.work = work
        self.stands = f"{work}/stands"
        os.mkdir(self.stands)
        os.symlink(program, f"{self.stands}/squitter")
        for name in ("squitter-feed", "squitter-geojson", "squitter-live"):
            os.symlink(f"{TOP}/feeds/{name}", f"{self.stands}/{name}")
        self.pandas = python_with("numpy", "pandas")
        self.has_node = bool(shutil.which("node"))
        python = {"python3": f'exec {self.pandas} "$@"\n'} if self.pandas else {}
        for name, text in {**RECEIVERS, **python}.items():
            with open(f"{self.stands}/{name}", "w") as file:
                file.write(f"#!/bin/sh\n{text}")
            os.chmod(f"{self.stands}/{name}", 0o755)

    def run(self, *words):
        ran = subprocess.run([self.program, *words], stdin=subprocess.DEVNULL, capture_output=True, text=True,
                             timeout=60)
        return ran.returncode, ran.stdout, ran.stderr

    def folder(self, name):
        """A folder that shows the files of the repository, into which commands may write."""
        path = f"{self.work}/{name}"
        built = f"{path}/crates/squitter/out"
        os.makedirs(built)
        os.symlink(self.program, f"{path}/squitter")
        os.symlink(self.program, f"{built}/squitter")
        for shown, below in ((".", path), ("crates", f"{path}/crates"), ("crates/squitter", f"{path}/crates/squitter")):
            for entry in os.listdir(f"{TOP}/{shown}"):
                if entry not in (".git", "crates", "squitter", "out"):
                    os.symlink(os.path.normpath(f"{TOP}/{shown}/{entry}"), f"{below}/{entry}")
        return path

    def streams(self, script, folder, stderr=subprocess.PIPE):
        """Returns the status of a script, its output, and its error output if that is captured separately."""
        environment = dict(os.environ, HOME=folder, PATH=f"{self.stands}:{os.environ['PATH']}", LC_ALL="C.UTF-8")
        run = subprocess.Popen(["bash", "-o", "pipefail", "-c", script], cwd=folder, env=environment,
                               stdin=subprocess.DEVNULL, stdout=subprocess.PIPE, stderr=stderr, start_new_session=True)
        try:
            printed, reported = run.communicate(timeout=120)
            return run.returncode, printed.decode(), (reported or b"").decode()
        except subprocess.TimeoutExpired:
            os.killpg(run.pid, signal.SIGKILL)
            raise Failed(f"no end in 120 seconds: {script}") from None

    def shell(self, script, folder):
        """The status of a script and all that it printed."""
        return self.streams(script, folder, stderr=subprocess.STDOUT)[:2]

    def options(self, command):
        """The long names of a command's options, as its help has them."""
        text = self.run(*([command] if command else []), "--help")[2]
        return set(re.findall(r"^ +(?:-\w, |    )--([a-z]+)", text, re.M))
