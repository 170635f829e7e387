#!/bin/sh
# shards.sh [LINES [SHARDS]]: cuts a log of so many lines (ten million) by the address of the frame, has each shard
# heard by a `track` of its own, as many at once as there are processors, and compares the answers with those of one run
# over the whole log, address by address. An address answers for itself alone as long as moments are in order and no
# limit is reached, so none differs. The same for `check`, whose lines answer each for itself, cut at any line.
set -eu
[ $# -le 2 ] || { echo "shards.sh: takes LINES and SHARDS, and no more words" >&2; exit 2; }
for word; do
    case $word in '' | *[!0-9]* | 0*) echo "shards.sh: $word is no number from 1 on" >&2; exit 2 ;; esac
done
here=$(cd "$(dirname "$0")" && pwd)
lines=${1:-10000000}
shards=${2:-$(nproc)}
program=$("$here/../dist/program")
work=$(mktemp -d)
trap 'rm -rf "$work"' EXIT
trap 'exit 129' HUP; trap 'exit 130' INT; trap 'exit 143' TERM # where sh is dash, a signal runs no EXIT trap
cc -O2 -o "$work/gen" "$here/gen.c" -lm
"$work/gen" track "$lines" 1 2000 > "$work/log"
now() { date +%s%N; }

# each answer without its number, the address first: those of one address stay in their order
by_address() {
    awk '{ for (i = 2; i <= NF; i++) if (length($i) == 6 && $i ~ /^[0-9A-F]+$/) { $1 = $i; break } print }' "$@" |
        LC_ALL=C sort -s -k1,1
}
# a time as a part of the other
part_of() { awk "BEGIN { printf \"%.2f\", $1 / $2 }"; }

start=$(now)
"$program" track --limit 100000 --lat 52.1 --lon 4.7 < "$work/log" > "$work/whole"
one=$(($(now) - start))
awk -v shards="$shards" -v out="$work/shard" '
    BEGIN { for (i = 0; i < 16; i++) digit[sprintf("%X", i)] = i }
    {
        frame = $2
        sub(/^\*/, "", frame)
        print > (out "." (16 * digit[substr(frame, 7, 1)] + digit[substr(frame, 8, 1)]) % shards)
    }' "$work/log"
start=$(now)
ls "$work"/shard.* |
    xargs -P "$shards" -I{} sh -c "$program track --limit 100000 --lat 52.1 --lon 4.7 < {} > {}.answers"
many=$(($(now) - start))
by_address "$work/whole" > "$work/one"
by_address "$work"/shard.*.answers > "$work/many"
cmp "$work/one" "$work/many"
echo "track: $(wc -l < "$work/one") answers, none differs;" \
    "$shards shards took $(part_of "$many" "$one") of the time of one run"

cut -d ' ' -f 2 "$work/log" > "$work/frames"
start=$(now)
"$program" check < "$work/frames" > "$work/whole"
one=$(($(now) - start))
cut -d ' ' -f 2- "$work/whole" > "$work/one"
split -n "l/$shards" "$work/frames" "$work/part."
start=$(now)
ls "$work"/part.* | xargs -P "$shards" -I{} sh -c "$program check < {} > {}.answers"
many=$(($(now) - start))
cat "$work"/part.*.answers | cut -d ' ' -f 2- > "$work/many"
cmp "$work/one" "$work/many"
echo "check: $(wc -l < "$work/one") answers, none differs;" \
    "$shards parts took $(part_of "$many" "$one") of the time of one run"
