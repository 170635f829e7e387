#!/bin/sh
# usage.sh PYTHON: examples/decode_log.py says how it is called if asked (status 0), and with no log, a log that is not
# there, and two logs (status 2).
set -u
python=$1
cd "$(dirname "$0")/.." || exit 1
[ "$("$python" examples/decode_log.py --help | head -n 1)" = "usage: decode_log.py [-h] LOG" ] || exit 1
for words in '' /nonexistent '/dev/null /dev/null'; do
  # (the words are split: some are two)
  # shellcheck disable=SC2086
  reported=$("$python" examples/decode_log.py $words 2>&1 > /dev/null)
  status=$?
  case $status-$reported in "2-usage: decode_log.py [-h] LOG"*) ;; *) echo "'$words': $status $reported"; exit 1 ;; esac
done
# A read that fails is reported (status 3). A folder cannot be opened by Python.
reported=$(build/decode_log / 2>&1 > /dev/null)
[ "$?-$reported" = "3-decode_log: read failed" ] || { echo "a folder: $reported"; exit 1; }
# Without the module squitter it says what to do (-I leaves PYTHONPATH out, and -S what is installed).
reported=$("$python" -I -S examples/decode_log.py ../examples/flights.log 2>&1 > /dev/null)
status=$?
wanted="3-decode_log.py: needs the Python module squitter: PYTHONPATH=clib, after make -C clib"
[ "$status-$reported" = "$wanted" ] || { echo "no module: $reported"; exit 1; }
