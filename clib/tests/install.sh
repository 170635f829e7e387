#!/bin/sh
# install.sh PYTHON: `make install` below a folder with spaces in its name: the C example with what pkg-config says, and
# the Python package. A second installation from the same tree has its own folders, also for the library that Python
# loads (PYTHON_LIBDIR). `make uninstall` leaves no file and touches no neighbour. PYTHON runs the package.
set -eu
python=$1
clib=$(cd "$(dirname "$0")/.." && pwd)
work=$(mktemp -d)
trap 'rm -rf "$work"' EXIT
trap 'exit 129' HUP; trap 'exit 130' INT; trap 'exit 143' TERM # where sh is dash, a signal runs no EXIT trap
unset MAKEFLAGS MFLAGS MAKELEVEL DESTDIR PYTHONPATH LIBSQUITTER PREFIX
prefix="$work/the  one" neighbour="$work/the"
echo kept > "$neighbour"
mkdir "$work/tree"
(cd "$clib/.." && tar -cf - --exclude=out --exclude=build --exclude=__pycache__ --exclude='libsquitter.*' \
  VERSION clib dist crates.txt crates/*/src crates/*/specs crates/*/proofs) | tar -C "$work/tree" -xf -
cp "$clib/libsquitter.map" "$work/tree/clib/"
cp "$clib/man/libsquitter.3" "$work/tree/clib/man/"
install_by() { make -s -C "$work/tree/clib" "$1" PREFIX="$prefix" PYTHON="$python" PYTHONDIR="$prefix/modules"; }
install_by install > "$work/said"
grep -qF "PYTHONPATH=\"$prefix/modules\"" "$work/said"
if command -v pkg-config > /dev/null; then
  flags=$(PKG_CONFIG_PATH="$prefix/lib/pkgconfig" pkg-config --cflags --libs squitter)
  eval "${CC:-cc} -o \"$work/example\" \"$clib/examples/example.c\" $flags"
  LD_LIBRARY_PATH="$prefix/lib" "$work/example" | diff "$clib/tests/example.expected" -
fi
if command -v cmake > /dev/null; then
  mkdir "$work/project"
  cp "$clib/examples/example.c" "$work/project/"
  printf '#include <squitter.hpp>\nint main() { return squitter::Frame::parse("*").fault().code != SQUITTER_WRAP; }\n' \
    > "$work/project/wrapped.cpp"
  cat > "$work/project/CMakeLists.txt" << 'END'
cmake_minimum_required(VERSION 3.13)
project(user C CXX)
set(CMAKE_CXX_STANDARD 17)
find_package(squitter 0.0 REQUIRED)
find_package(squitter REQUIRED)
add_executable(shared example.c)
target_link_libraries(shared squitter::squitter)
add_executable(static example.c)
target_link_libraries(static squitter::static)
add_executable(wrapped wrapped.cpp)
target_link_libraries(wrapped squitter::squitter)
foreach(wanted 1 99.0)
  find_package(squitter ${wanted} QUIET)
  if(squitter_FOUND)
    message(FATAL_ERROR "version ${wanted} is found")
  endif()
endforeach()
END
  mkdir "$work/project/out"
  (cd "$work/project/out" && cmake -DCMAKE_PREFIX_PATH="$prefix" .. && make) > "$work/said" ||
    { cat "$work/said"; exit 1; }
  for one in shared static; do "$work/project/out/$one" | diff "$clib/tests/example.expected" -; done
  "$work/project/out/wrapped"
fi
told=$(cd / && PYTHONPATH="$prefix/modules" "$python" -c 'import squitter; print(squitter.version())')
test "$told" = "$(cat "$clib/../VERSION")"
test -s "$prefix/share/man/man3/squitter_pair.3"
# loaded MODULES: the library that the package in this folder loads
loaded() { (cd / && PYTHONPATH="$1" "$python" -c 'from squitter import _library; print(_library._lib._name)'); }
test "$(loaded "$prefix/modules")" = "$prefix/lib/libsquitter.so.0"
second=$work/second libdir=$work/second/own
make -s -C "$work/tree/clib" install PREFIX="$second" LIBDIR="$libdir" PYTHON="$python" PYTHONDIR="$second/modules" \
  PYTHON_LIBDIR="$libdir" INCLUDEDIR="$second/headers" MANDIR="$second/pages" > "$work/said"
test "$(loaded "$second/modules")" = "$libdir/libsquitter.so.0"
test "$(loaded "$prefix/modules")" = "$prefix/lib/libsquitter.so.0"
grep -q "^prefix=$second\$" "$libdir/pkgconfig/squitter.pc"
grep -q "$second/headers" "$libdir/pkgconfig/squitter.pc"
grep -q "$libdir" "$libdir/pkgconfig/squitter.pc"
test -s "$second/headers/squitter.h"
test -s "$second/pages/man3/squitter_pair.3"
grep -q "^prefix=$prefix\$" "$prefix/lib/pkgconfig/squitter.pc"
# Python may load the library from another folder than the one where C finds it.
mkdir "$work/elsewhere"
cp "$libdir/libsquitter.so.0" "$work/elsewhere/"
make -s -C "$work/tree/clib" install PREFIX="$second" LIBDIR="$libdir" PYTHON="$python" PYTHONDIR="$second/modules" \
  PYTHON_LIBDIR="$work/elsewhere" INCLUDEDIR="$second/headers" MANDIR="$second/pages" > "$work/said"
test "$(loaded "$second/modules")" = "$work/elsewhere/libsquitter.so.0"
make -s -C "$work/tree/clib" uninstall PREFIX="$second" LIBDIR="$libdir" PYTHON="$python" PYTHONDIR="$second/modules" \
  INCLUDEDIR="$second/headers" MANDIR="$second/pages"
test -z "$(find "$second" -type f -o -type l)"
test "$(loaded "$prefix/modules")" = "$prefix/lib/libsquitter.so.0"
install_by uninstall
test -z "$(find "$prefix" -type f -o -type l)"
test "$(cat "$neighbour")" = kept
