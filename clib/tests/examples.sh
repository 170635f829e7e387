#!/bin/sh
# examples.sh PYTHON: decode_log.c and decode_log.py print what `squitter track` prints for each kind of log of
# hostile_log.py, and for flights.log. A full disk is reported with status 3, however short the log is. PROGRAM is the
# program. It prints the first difference.
set -u
case $#/${1-} in
  1/[!-]*) ;;
  *) echo "examples.sh: takes one PYTHON, and no options: $*" >&2; exit 2 ;;
esac
python=$1
command -v "$python" > /dev/null || { echo "examples.sh: no program: $python" >&2; exit 2; }
cd "$(dirname "$0")/.." || exit 1
program=${PROGRAM:-$(../dist/program)}
work=$(mktemp -d)
trap 'rm -rf "$work"' EXIT
trap 'exit 129' HUP; trap 'exit 130' INT; trap 'exit 143' TERM # where sh is dash, a signal runs no EXIT trap
cp ../examples/flights.log "$work/flights"
for kind in $("$python" tests/hostile_log.py --kinds); do
  "$python" tests/hostile_log.py "$kind" > "$work/$kind" || exit 1
done
tried=0
for log in "$work"/*; do
  "$program" track < "$log" > "$work/wanted" 2> "$work/said"
  [ "$?" -le 1 ] || { cat "$work/said"; exit 1; }
  for example in build/decode_log "$python examples/decode_log.py"; do
    # (the words are split: some are two)
    # shellcheck disable=SC2086
    $example "$log" > "$work/got" || { echo "$example, ${log##*/}: status $?"; exit 1; }
    cmp "$work/wanted" "$work/got" || { echo "$example, ${log##*/}: other answers than squitter track"; exit 1; }
    tried=$((tried + 1))
    if [ -w /dev/full ] && [ -s "$work/wanted" ]; then
      # shellcheck disable=SC2086
      reported=$($example "$log" 2>&1 > /dev/full)
      case $?-$reported in
        3-*": write failed" | 3-*": No space left on device") ;;
        *) echo "$example, ${log##*/}, a full disk: $reported"; exit 1 ;;
      esac
    fi
  done
  rm "$work/wanted" "$work/got" "$work/said"
done
echo "$tried logs"
[ "$tried" -ge 24 ]
