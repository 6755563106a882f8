#!/bin/sh
# Runs one step of make quietly: step.sh NAME LABEL COMMAND...
# Prints the label, and the seconds that the command took. What the command prints goes to build/log/NAME.log; where it fails,
# its last lines are shown and that file is named.
set -u

name=$1 label=$2
shift 2
log=build/log/$name.log
mkdir -p build/log || exit 1
printf '%-64s' "$label"
began=$(date +%s)
"$@" >"$log" 2>&1
status=$?
printf '%6s s\n' "$(($(date +%s) - began))"
[ "$status" -eq 0 ] && exit 0
tail -n 40 "$log" | cut -c 1-500 >&2
printf 'mednukals: FAILED: %s; all that it said is in %s\n' "$label" "$log" >&2
exit 1
