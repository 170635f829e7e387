#!/bin/sh
# track.sh [LINES [ROUNDS]]: lines a second of `squitter track` beside a C program that pairs in doubles and follows
# nothing (track.c, built without vectors and with them), and the most memory that it held, for 10 to 100,000 aircraft.
# Each is run three times, or so many ROUNDS, on the same log of good positions, its output to the null device, and the
# fastest counts. Needs a C compiler and GNU time.
set -eu
[ $# -le 2 ] || { echo "track.sh: takes LINES and ROUNDS, and no more words" >&2; exit 2; }
for word; do
    case $word in '' | *[!0-9]* | 0*) echo "track.sh: $word is no number from 1 on" >&2; exit 2 ;; esac
done
here=$(cd "$(dirname "$0")" && pwd)
lines=${1:-1000000}
rounds=${2:-3}
program=${PROGRAM:-$("$here/../dist/program")}
work=$(mktemp -d)
trap 'rm -rf "$work"' EXIT
trap 'exit 129' HUP; trap 'exit 130' INT; trap 'exit 143' TERM # where sh is dash, a signal runs no EXIT trap
cc -O3 -march=native -o "$work/gen" "$here/gen.c" -lm
cc -O2 -mavx2 -fno-tree-vectorize -DSCALAR -o "$work/blocks" "$here/track.c" -lm
cc -O3 -march=native -o "$work/vectors" "$here/track.c" -lm
rate() {
    best=
    for _ in $(seq "$rounds"); do
        start=$(date +%s%N)
        "$@" < "$work/log" > /dev/null
        took=$(($(date +%s%N) - start))
        [ -n "$best" ] && [ "$took" -ge "$best" ] || best=$took
    done
    echo $((lines * 1000000 / (best / 1000)))
}
ratio() { awk "BEGIN { printf \"%.2f\", $1 / $2 }"; }
printf '%9s %14s %14s %14s %8s %8s %10s\n' aircraft squitter blocks vectors 'of them' '' memory
for aircraft in 10 200 1000 10000 100000; do
    "$work/gen" track "$lines" 1 "$aircraft" > "$work/log"
    ours=$(rate "$program" track --limit=200000 --lat=52.1 --lon=4.7)
    blocks=$(rate "$work/blocks" 200000 10000 52.1 4.7)
    vectors=$(rate "$work/vectors" 200000 10000 52.1 4.7)
    memory=$(/usr/bin/time -f %M "$program" track --limit=200000 --lat=52.1 --lon=4.7 < "$work/log" 2>&1 > /dev/null)
    printf '%9s %14s %14s %14s %8s %8s %7s kB\n' "$aircraft" "$ours" "$blocks" "$vectors" \
        "$(ratio "$ours" "$blocks")" "$(ratio "$ours" "$vectors")" "$memory"
done
