#!/bin/sh
# compare.sh [LINES [ROUNDS]]: lines a second of `squitter check` beside two C programs for the same job, in one run: an
# ordinary one, and one by large blocks and one table, built without vectors and with them. Each is run three times, or
# so many ROUNDS, on the same log of good positions, its output to the null device, and the fastest counts. Needs a C
# compiler.
set -eu
[ $# -le 2 ] || { echo "compare.sh: takes LINES and ROUNDS, and no more words" >&2; exit 2; }
for word; do
    case $word in '' | *[!0-9]* | 0*) echo "compare.sh: $word is no number from 1 on" >&2; exit 2 ;; esac
done
here=$(cd "$(dirname "$0")" && pwd)
lines=${1:-1000000}
rounds=${2:-3}
program=$("$here/../dist/program")
work=$(mktemp -d)
trap 'rm -rf "$work"' EXIT
trap 'exit 129' HUP; trap 'exit 130' INT; trap 'exit 143' TERM # where sh is dash, a signal runs no EXIT trap
cc -O3 -march=native -o "$work/gen" "$here/gen.c" -lm
cc -O3 -march=native -o "$work/plain" "$here/plain.c"
cc -O2 -mavx2 -fno-tree-vectorize -DSCALAR -o "$work/blocks" "$here/blocks.c"
cc -O3 -march=native -o "$work/vectors" "$here/blocks.c"
"$work/gen" avr "$lines" 1 200 > "$work/log"
rate() {
    best=
    for _ in $(seq "$rounds"); do
        start=$(date +%s%N)
        "$@" < "$work/log" > /dev/null
        took=$(($(date +%s%N) - start))
        [ -n "$best" ] && [ "$took" -ge "$best" ] || best=$took
    done
    echo $((lines * 1000000 / (best / 1000)))
}
row() {
    times=$(awk "BEGIN { printf \"%.2f\", $2 / $plain }")
    printf '%-10s %12s lines a second, %s times plain C\n' "$1" "$2" "$times"
}
plain=$(rate "$work/plain")
row 'plain C' "$plain"
row 'blocks' "$(rate "$work/blocks")"
row 'vectors' "$(rate "$work/vectors")"
row 'squitter' "$(rate "$program" check)"
