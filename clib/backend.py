"""backend.py: builds the package squitter for pip (PEP 517): the modules of clib/squitter, and the library that make
builds of dist/.

It needs a C compiler and make, and of Python what every Python brings: a fresh environment has no setuptools and no
wheel. pyproject.toml names it. The source package, and other systems, need no make: they compile dist/squitter.c."""
import base64
import gzip
import hashlib
import io
import os
import platform
import re
import subprocess
import sys
import sysconfig
import tarfile
import tempfile
import zipfile
from typing import Dict, List, Optional, Tuple

HERE = os.path.dirname(os.path.abspath(__file__))
LIBRARY = "libsquitter.so.0"
NAMES = {"win32": "squitter.dll", "darwin": "libsquitter.dylib"}  # as squitter/_library.py has them
MODULES = "squitter"
Settings = Optional[Dict[str, str]]

METADATA = """\
Metadata-Version: 2.1
Name: squitter
Version: {version}
Summary: ADS-B position squitters (DF17), read, decoded and written exactly: libsquitter for Python
Requires-Python: >=3.8
Provides-Extra: batch
Requires-Dist: numpy>=1.21; extra == "batch"
Description-Content-Type: text/markdown

"""

WHEEL = """\
Wheel-Version: 1.0
Generator: squitter
Root-Is-Purelib: false
Tag: {tag}
"""


def read_bytes(path: str) -> bytes:
    with open(f"{HERE}/{path}", "rb") as file:
        return file.read()


def version() -> str:
    """Returns the version: the text of the file VERSION."""
    return read_bytes("../VERSION").decode().strip()


def modules() -> List[str]:
    """Returns the files of the package."""
    return sorted(name for name in os.listdir(f"{HERE}/{MODULES}") if name.endswith(".py") or name == "py.typed")


def metadata() -> bytes:
    return METADATA.format(version=version()).encode() + read_bytes("README.md")


def record(files: Dict[str, bytes], name: str) -> bytes:
    """Returns the list of the files with their sums; its own line has none."""
    lines = []
    for path, data in files.items():
        digest = base64.urlsafe_b64encode(hashlib.sha256(data).digest()).rstrip(b"=").decode()
        lines.append(f"{path},sha256={digest},{len(data)}\n")
    return "".join([*lines, f"{name},,\n"]).encode()


def ran(words: List[str]) -> None:
    """Runs a compiler or make. What it prints goes to standard error, as pip has it."""
    try:
        subprocess.run(words, check=True, stdout=sys.stderr.fileno())
    except FileNotFoundError:
        raise SystemExit(f"squitter: {words[0]} is not installed: the package needs a C compiler (CC)") from None


def compiled(name: str, words: List[str]) -> Tuple[str, bytes]:
    """Returns the library that a compiler makes under this name; its words lack those of the output."""
    with tempfile.TemporaryDirectory() as folder:
        ran([*words, "-o", f"{folder}/{name}"])
        with open(f"{folder}/{name}", "rb") as file:
            return name, file.read()


def portable(compiler: List[str], end: str) -> List[str]:
    """Returns the words that compile the one C file, for a library of this name's end."""
    kind = ["-dynamiclib"] if end == "dylib" else ["-shared"] + ["-fPIC"] * (end != "dll")
    return [*compiler, "-std=c11", "-O2", *kind, f"-I{HERE}", f"{HERE}/../dist/squitter.c"]


def library_here() -> Tuple[str, bytes]:
    """Returns the library for this system by its name: that of the assembly in a clone, or else of the one C file."""
    if sys.platform == "linux" and os.path.exists(f"{HERE}/../dist/libsquitter-{platform.machine()}.s"):
        ran(["make", "-s", "-C", HERE, LIBRARY])
        return LIBRARY, read_bytes(LIBRARY)
    name = NAMES.get(sys.platform, LIBRARY)
    usual = "gcc" if sys.platform == "win32" else "cc"
    return compiled(name, portable(os.environ.get("CC", usual).split(), name.rpartition(".")[2]))


def write_wheel(folder: str, tag: str, library: Tuple[str, bytes]) -> str:
    """Writes the wheel with a library, and returns its name. The same sources make the same bytes."""
    info = f"squitter-{version()}.dist-info"
    files = {f"{MODULES}/{name}": read_bytes(f"{MODULES}/{name}") for name in modules()}
    files[f"{MODULES}/{library[0]}"] = library[1]
    files[f"{info}/METADATA"] = metadata()
    files[f"{info}/WHEEL"] = WHEEL.format(tag=tag).encode()
    files[f"{info}/RECORD"] = record(files, f"{info}/RECORD")
    wheel = f"squitter-{version()}-{tag}.whl"
    with zipfile.ZipFile(f"{folder}/{wheel}", "w", zipfile.ZIP_DEFLATED) as archive:
        for path, data in files.items():
            entry = zipfile.ZipInfo(path)  # of 1980
            entry.external_attr = 0o100644 << 16
            archive.writestr(entry, data, zipfile.ZIP_DEFLATED)
    return wheel


def build_wheel(wheel_directory: str, config_settings: Settings = None,
                metadata_directory: Optional[str] = None) -> str:
    """Builds the library and the wheel; returns the wheel's name. It fits each Python 3 on this system and processor,
    as ctypes loads the library."""
    tag = f"py3-none-{re.sub('[-.]', '_', sysconfig.get_platform())}"
    return write_wheel(wheel_directory, tag, library_here())


def build_sdist(sdist_directory: str, config_settings: Settings = None) -> str:
    """Writes the source package, and returns its name: the modules, and the library as one C file."""
    name = f"squitter-{version()}"
    files = {path: read_bytes(f"../{path}") for path in (
        "pyproject.toml", "VERSION", "dist/squitter.c", "clib/backend.py", "clib/squitter.h", "clib/README.md",
        *(f"clib/{MODULES}/{one}" for one in modules()))}
    files["PKG-INFO"] = metadata()
    with open(f"{sdist_directory}/{name}.tar.gz", "wb") as file, \
            gzip.GzipFile("", "wb", fileobj=file, mtime=0) as packed, tarfile.open(fileobj=packed, mode="w") as archive:
        for path in sorted(files):
            entry = tarfile.TarInfo(f"{name}/{path}")
            entry.size, entry.mode = len(files[path]), 0o644
            archive.addfile(entry, io.BytesIO(files[path]))
    return f"{name}.tar.gz"
