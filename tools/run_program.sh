#!/bin/sh
# Runs a proved program over a capture: run_program.sh PROGRAM LAST WHAT FILE
# FILE - is standard input. The proved programs end with status 0 in any case: one has gone well where its last line is LAST, an
# extended regular expression. Otherwise this fails, and the program has said why.
set -u

fail() {
    printf 'mednukals: FAILED: %s\n' "$1" >&2
    exit 1
}

[ $# -eq 4 ] || fail 'usage: run_program.sh PROGRAM LAST WHAT FILE'
program=$1 wanted=$2 what=$3 file=$4

if [ "$file" = - ]; then
    file='standard input'
else
    [ -e "$file" ] || fail "there is no file $file"
    [ ! -d "$file" ] || fail "$file is a directory, and no file"
    [ -r "$file" ] || fail "$file may not be read"
    exec <"$file"
fi
printf '%s %s:\n' "$what" "$file" || fail 'standard output cannot be written'
# The mark keeps the line end, without which the last line is not whole.
output=$("$program"; printf .)
output=${output%.}
printf '%s' "$output" || fail 'standard output cannot be written'
printf '%s' "$output" | tail -n 1 | grep -Eqx "$wanted" && [ -z "${output##*
}" ] || fail "$program has not come to its end, over $file"
