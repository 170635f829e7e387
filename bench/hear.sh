#!/bin/sh
# hear.sh [CALLS]: nanoseconds a call of `hear` at 10 to 1,000,000 addresses, heard in turn and at random, beside a
# table in C that does the same with doubles (hear.c). Each is run three times with the same calls, the fastest counts,
# and what the loop takes without the calls is taken off. hear.rattle is the source of a program over the proved crates;
# it is built in a copy of them, so that the gate does not prove it, or is the one that PROGRAM names. With KEEP, that
# file keeps the built program. Needs rt and a C compiler.
set -eu
[ $# -le 1 ] || { echo "hear.sh: takes CALLS, and no more words" >&2; exit 2; }
for word; do
    case $word in '' | *[!0-9]* | 0*) echo "hear.sh: $word is no number from 1 on" >&2; exit 2 ;; esac
done
here=$(cd "$(dirname "$0")" && pwd)
calls=${1:-4000000}
work=$(mktemp -d)
trap 'rm -rf "$work"' EXIT
trap 'exit 129' HUP; trap 'exit 130' INT; trap 'exit 143' TERM # where sh is dash, a signal runs no EXIT trap
build() {
    mkdir "$work/crates"
    for name in sq_digits sq_bits sq_angle sq_zones sq_cpr sq_message sq_track; do
        cp -a "$here/../crates/$name" "$work/crates/"
        grep "^$name:" "$here/../crates.txt" >> "$work/crates.txt"
    done
    mkdir -p "$work/crates/hear/src" "$work/crates/hear/specs"
    cp "$here/hear.rattle" "$work/crates/hear/src/main.rt"
    : > "$work/crates/hear/specs/Lib.antt"
    echo "hear: sq_bits sq_angle sq_zones sq_cpr sq_message sq_track" >> "$work/crates.txt"
    cp "$here/../HANDLES" "$work/"
    (cd "$work/crates/hear" && rt run -- 10 1000 0 > /dev/null)
    cp "$work/crates/hear/out/hear" "${KEEP:-$work/hear}"
}
[ -n "${PROGRAM:-}" ] || build
program=${PROGRAM:-${KEEP:-$work/hear}}
cc -O2 -o "$work/plain" "$here/hear.c" -lm
nanoseconds() { # PROGRAM ADDRESSES ORDER
    best=
    for _ in 1 2 3; do
        start=$(date +%s%N)
        "$1" "$2" "$calls" "$3" > /dev/null
        took=$(($(date +%s%N) - start))
        [ -n "$best" ] && [ "$took" -ge "$best" ] || best=$took
    done
    echo "$best"
}
a_call() { echo $((($(nanoseconds "$1" "$2" "$3") - $(nanoseconds "$1" "$2" $(($3 + 2)))) / calls)); }
printf '%10s %-9s %8s %8s %6s\n' addresses order hear C times
for addresses in 10 100 1000 10000 100000 1000000; do
    for order in 0 1; do
        ours=$(a_call "$program" "$addresses" "$order")
        theirs=$(a_call "$work/plain" "$addresses" "$order")
        word=$([ "$order" = 0 ] && echo 'in turn' || echo 'random')
        times=$(awk "BEGIN { printf \"%.1f\", $ours / $theirs }")
        printf '%10s %-9s %5s ns %5s ns %6s\n' "$addresses" "$word" "$ours" "$theirs" "$times"
    done
done
