#!/bin/sh
# live.sh: what no contract says of the built program's pipes and devices, for `check` and `track`. A line of a pipe is
# answered while the pipe stays open; a million lines pass in 8 and in 16 MiB of address space; a line of 100 MB takes
# no memory; a full disk and a closed pipe are status 3.
set -eu
[ $# = 0 ] || { echo "live.sh: takes no words" >&2; exit 2; }
here=$(cd "$(dirname "$0")" && pwd)
frame=8D40621D58C382D690C8AC2863A7
program=$("$here/../dist/program")
work=$(mktemp -d)
trap 'rm -rf "$work"' EXIT
trap 'exit 129' HUP; trap 'exit 130' INT; trap 'exit 143' TERM # where sh is dash, a signal runs no EXIT trap
shown=0
fail() { echo "failed: $1" >&2; exit 1; }
seen() { shown=$((shown + 1)); }

# is_live COMMAND LINE ANSWER: the line of a pipe that stays open until the whole answer is there, or for a minute
is_live() {
    # The answers of the command before would be read in place of its own, where the program starts slowly.
    rm -f "$work/pipe" "$work/live"
    mkfifo "$work/pipe"
    : > "$work/live"
    "$program" "$1" < "$work/pipe" > "$work/live" &
    exec 3> "$work/pipe"
    echo "$2" >&3
    tries=0
    while [ "$(wc -l < "$work/live")" = 0 ] && [ "$tries" -lt 600 ]; do sleep 0.1; tries=$((tries + 1)); done
    [ "$(cat "$work/live")" = "1 $3" ] || fail "$1: a line of an open pipe has no answer"
    exec 3>&-
    wait
    seen
}

# is_small COMMAND KIB LAST: a million lines of $work/log in so much address space, and the last one's answer
is_small() {
    (ulimit -v "$2"; "$program" "$1" < "$work/log" > "$work/answers") || fail "$1: a million lines pass"
    [ "$(tail -n 1 "$work/answers")" = "1000000 $3" ] || fail "$1: the last of a million lines is answered"
    seen
    status=0
    head -c 100000000 /dev/zero | (ulimit -v "$2"; "$program" "$1") > "$work/answers" || status=$?
    [ "$status" = 1 ] && [ "$(cat "$work/answers")" = '1 long line' ] || fail "$1: a line of 100 MB takes no memory"
    seen
}

# is_stopped COMMAND: a full disk and a closed pipe
is_stopped() {
    status=0
    "$program" "$1" < "$work/log" > /dev/full 2> "$work/reported" || status=$?
    [ "$status" = 3 ] && [ "$(cat "$work/reported")" = 'write failed' ] || fail "$1: a full disk is status 3"
    seen
    {
        status=0
        "$program" "$1" < "$work/log" 2> "$work/reported" || status=$?
        echo "$status" > "$work/status"
    } | head -n 1 > /dev/null
    [ "$(cat "$work/status")" = 3 ] && [ "$(cat "$work/reported")" = 'write failed' ] ||
        fail "$1: a closed pipe is status 3"
    seen
}

is_live check "$frame" 'ok 40621D air even 93000 51372'
yes "$frame" | head -n 1000000 > "$work/log"
is_small check 8192 'ok 40621D air even 93000 51372'
is_stopped check

is_live track "0 $frame" 'waiting 40621D'
seq 0 999999 | sed "s/\$/ $frame/" > "$work/log"
is_small track 16384 'waiting 40621D'
is_stopped track
echo "live: $shown shown"
