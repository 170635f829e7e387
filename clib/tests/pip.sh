#!/bin/sh
# pip.sh PYTHON: installs the package squitter by pip, from a copy of this tree and without the network, into a fresh
# virtual environment, which has neither setuptools nor wheel, and into one with the system's modules. There it tries
# the package without what lies here: the library that came with it, the doctests, a log beside the program, and the
# types by mypy if that is installed; and takes it away again. PROGRAM is the program. PYTHON needs pip.
set -eu
case $#/${1-} in
  1/[!-]*) ;;
  *) echo "pip.sh: takes one PYTHON, and no options: $*" >&2; exit 2 ;;
esac
python=$1
command -v "$python" > /dev/null || { echo "pip.sh: no program: $python" >&2; exit 2; }
clib=$(cd "$(dirname "$0")/.." && pwd)
program=${PROGRAM:-$("$clib/../dist/program")}
case $program in /*) ;; *) program=$PWD/$program ;; esac
work=$(mktemp -d)
trap 'rm -rf "$work"' EXIT
trap 'exit 129' HUP; trap 'exit 130' INT; trap 'exit 143' TERM # where sh is dash, a signal runs no EXIT trap
unset PYTHONPATH LIBSQUITTER MAKEFLAGS MFLAGS MAKELEVEL DESTDIR PYTHONHOME PIP_TARGET PIP_PREFIX
mkdir "$work/tree"
(cd "$clib/.." && tar -cf - \
  --exclude=out --exclude=build --exclude='libsquitter.*' --exclude=__pycache__ \
  VERSION pyproject.toml clib dist crates.txt crates/*/src crates/*/specs crates/*/proofs) | tar -C "$work/tree" -xf -
cp "$clib/libsquitter.map" "$work/tree/clib/"
"$python" -m venv --without-pip "$work/fresh"
fresh=$work/fresh/bin/python
"$fresh" -c 'from importlib.util import find_spec; assert not find_spec("setuptools") and not find_spec("wheel")'
"$python" -m pip -q --python "$fresh" install --no-index --disable-pip-version-check "$work/tree" \
  > "$work/said" 2>&1 || { cat "$work/said"; exit 1; }
version=$(cat "$clib/../VERSION")
test "$(cd / && "$fresh" -c 'import squitter; print(squitter.version())')" = "$version"
# If the library cannot be built there is no package.
if CC=false "$python" -m pip -q --python "$fresh" install --no-index --force-reinstall "$work/tree" > "$work/said" 2>&1
then echo "a package without a compiler"; exit 1; fi
# The wheel: its name and tag, the sums of its files, and the same bytes each time.
cat > "$work/wheel.py" <<'PYTHON'
import base64
import csv
import hashlib
import os
import sys
import zipfile

sys.path.insert(0, ".")
import backend

work, version = sys.argv[1:]
tag = f"py3-none-linux_{os.uname().machine}"
made = []
for folder in ("one", "two"):
    os.mkdir(f"{work}/{folder}")
    name = backend.build_wheel(f"{work}/{folder}")
    assert name == f"squitter-{version}-{tag}.whl", name
    with open(f"{work}/{folder}/{name}", "rb") as file:
        made.append(file.read())
assert made[0] == made[1]
with zipfile.ZipFile(f"{work}/one/{name}") as wheel:
    info = f"squitter-{version}.dist-info"
    files = {path: wheel.read(path) for path in wheel.namelist()}
rows = list(csv.reader(files[f"{info}/RECORD"].decode().splitlines()))
assert [path for path, _, _ in rows] == list(files) and rows[-1] == [f"{info}/RECORD", "", ""], rows
for path, digest, size in rows[:-1]:
    wanted = base64.urlsafe_b64encode(hashlib.sha256(files[path]).digest()).decode().rstrip("=")
    assert (digest, size) == (f"sha256={wanted}", str(len(files[path]))), (path, digest, size)
assert f"Tag: {tag}\n" in files[f"{info}/WHEEL"].decode()
modules = {f"squitter/{path}" for path in os.listdir("squitter") if path.endswith(".py")}
assert files.keys() == modules | {"squitter/py.typed", "squitter/libsquitter.so.0"} | {
    f"{info}/{path}" for path in ("METADATA", "WHEEL", "RECORD")}, files.keys()
PYTHON
(cd "$work/tree/clib" && "$fresh" "$work/wheel.py" "$work" "$version")

"$python" -m venv --system-site-packages --without-pip "$work/venv"
own=$work/venv/bin/python
"$own" -m pip -q install --no-index --no-build-isolation --no-deps --disable-pip-version-check "$work/tree" \
  > "$work/said" 2>&1 || { cat "$work/said"; exit 1; }
rm -rf "$work/tree"

cd "$work"
cat > tried.py <<'PYTHON'
import doctest
import importlib.metadata
import os
import sys

import squitter
from squitter import _library

folder = os.path.dirname(squitter.__file__)
assert folder.startswith(sys.prefix), folder
assert _library._lib._name == os.path.join(folder, "libsquitter.so.0"), _library._lib._name
assert os.path.exists(os.path.join(folder, "py.typed"))
assert importlib.metadata.version("squitter") == squitter.version()
modules = [squitter]
try:
    import squitter.batch
    modules.append(squitter.batch)
except ModuleNotFoundError as missing:
    assert missing.name == "numpy", missing
for module in modules:
    tried = doctest.testmod(module)
    assert tried.attempted and not tried.failed, (module, tried)
PYTHON
"$own" tried.py
"$own" "$clib/examples/decode_log.py" "$clib/../examples/flights.log" > ours
"$program" track < "$clib/../examples/flights.log" | cmp - ours

if command -v mypy > /dev/null; then
  printf 'import squitter\ntext: str = squitter.read(b"").address\nnumber: int = squitter.read("").address\n' > typed.py
  mypy --strict --python-executable "$own" --cache-dir "$work/cache" typed.py > typed.log && exit 1
  grep -q 'typed.py:2: error: .*"int", variable has type "str"' typed.log
  test "$(grep -c error: typed.log)" = 1
fi
"$own" -m pip -q uninstall -y squitter
test -z "$(find "$work/venv" -name '*squitter*')"
