#!/bin/sh
# archive.sh [LINES [WORKERS..]]: an archive of so many lines (ten million) in 24 files of CSV, heard by
# examples/archive.py on 1, 2 and 4 processes, or on so many WORKERS, and by one `squitter track` of the same lines.
# Prints the seconds of each, with the start of the processes in them, and lines a second; the answers have to be the
# same, byte for byte. Needs what `make -C clib` needs, and a Python with NumPy and Dask (PYTHON, or python3).
set -eu
for word; do
    case $word in '' | *[!0-9]* | 0*) echo "archive.sh: $word is no number from 1 on" >&2; exit 2 ;; esac
done
here=$(cd "$(dirname "$0")" && pwd)
lines=${1:-10000000}
[ $# = 0 ] || shift
[ $# != 0 ] || set -- 1 2 4
make -s -C "$here/../clib" libsquitter.so.0
program=$("$here/../dist/program")
export PYTHONPATH="$here/../clib"
work=$(mktemp -d)
trap 'rm -rf "$work"' EXIT
trap 'exit 129' HUP; trap 'exit 130' INT; trap 'exit 143' TERM # where sh is dash, a signal runs no EXIT trap
cc -O2 -o "$work/gen" "$here/gen.c" -lm
"$work/gen" track "$lines" 1 2000 > "$work/log"
mkdir "$work/hours"
awk -v lines="$lines" -v folder="$work/hours" '{
    file = sprintf("%s/%02d.csv", folder, int((NR - 1) * 24 / lines))
    printf "%d.%03d,%s,%s\n", $1 / 1000, $1 % 1000, tolower(substr($2, 3, 6)), $2 > file }' "$work/log"
now() { date +%s%N; }
say() { awk "BEGIN { printf \"%-28s %7.1f s %12d lines a second\n\", \"$1\", $2 / 1e9, $lines / ($2 / 1e9) }"; }

echo "$lines lines, $(du -sk --apparent-size "$work/hours" | awk '{ print $1 * 1024 }') bytes of CSV"
start=$(now)
"$program" track --limit=16777216 --lat=52.1 --lon=4.7 < "$work/log" > "$work/wanted"
say 'squitter track' $(($(now) - start))
for workers; do
    rm -rf "$work/answers"
    start=$(now)
    "${PYTHON:-python3}" "$here/../examples/archive.py" --workers "$workers" --lat=52.1 --lon=4.7 \
        "$work/answers" "$work"/hours/* 2> "$work/said" || { cat "$work/said"; exit 1; }
    took=$(($(now) - start))
    tail -q -n +2 "$work"/answers/* | cut -d, -f1,3,4,6,7 | sed 's/,,*/ /g; s/ $//' | cmp - "$work/wanted"
    say "archive.py, $workers processes" $took
done
