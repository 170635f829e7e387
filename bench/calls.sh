#!/bin/sh
# calls.sh: nanoseconds a call, and calls a second, of libsquitter from C and from Python, for the plain x86-64
# processor that it is installed for, and of dump1090's functions on codes where apt has the source package
# dump1090-mutability (or DUMP1090 names a folder with its source). Needs what `make -C clib` needs, and Python 3.
set -eu
[ $# = 0 ] || { echo "calls.sh: takes no words" >&2; exit 2; }
here=$(cd "$(dirname "$0")" && pwd)
clib=$here/../clib
make -s -C "$clib" libsquitter.a libsquitter.so.0
work=$(mktemp -d)
trap 'rm -rf "$work"' EXIT
trap 'exit 129' HUP; trap 'exit 130' INT; trap 'exit 143' TERM # where sh is dash, a signal runs no EXIT trap
cc -O2 -I "$clib" -o "$work/calls" "$here/calls.c" "$clib/libsquitter.a"
echo 'from C'
"$work/calls"
echo 'from Python'
LIBSQUITTER="$clib/libsquitter.so.0" python3 "$here/calls.py"

peer=${DUMP1090:-}
if [ -z "$peer" ]; then
    (cd "$work" && apt-get -qq source --download-only dump1090-mutability > apt.log 2>&1) || :
    for archive in "$work"/*.orig.tar.*; do
        [ -f "$archive" ] && tar -xf "$archive" -C "$work"
    done
    peer=$(dirname "$(find "$work" -name cpr.c | head -n 1)")
fi
if [ -f "$peer/cpr.c" ]; then
    cc -O2 -I "$clib" -I "$peer" -o "$work/peer" "$here/calls_dump1090.c" "$peer/cpr.c" "$clib/libsquitter.a" -lm
    echo "dump1090's functions on codes, in doubles"
    "$work/peer"
else
    echo 'no source of dump1090-mutability from apt (deb-src): its functions are left out'
fi
