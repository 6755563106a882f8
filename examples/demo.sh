#!/bin/sh
# Starts a board, lets talk.py talk to it and ends it: demo.sh BOARD [DXL]
# Where DXL is given, that talks to it too. It leaves nothing running; if it is killed, the board ends after a minute.
set -eu

# Longer than on a wire: here a scheduler stands between the board and its line.
gap=20000
slot=20000

fail() {
    echo "demo: $1" >&2
    exit 1
}

# Ends the board and returns its exit code.
end_board() {
    kill "$pid" 2>/dev/null || :
    code=0
    wait "$pid" || code=$?
    pid=
    return "$code"
}

clean_up() {
    [ -z "$pid" ] || end_board || :
    [ -z "$folder" ] || rm -rf "$folder"
}

[ $# -eq 1 ] || [ $# -eq 2 ] || fail 'usage: demo.sh BOARD'
for program; do
    [ -x "$program" ] || fail "$program is not there; make demo builds it"
done
command -v python3 >/dev/null 2>&1 || fail 'python3 is needed and is not on the PATH'

pid=
folder=
trap clean_up EXIT
trap 'exit 1' HUP INT TERM
folder=$(mktemp -d)

echo "demo: starting $1, a device on a pseudo-terminal"
mkfifo "$folder/out"
"$1" --gap "$gap" --slot "$slot" --seconds 60 >"$folder/out" &
pid=$!
exec 3<"$folder/out"
read -r word path <&3 || fail 'the board has not printed its line'
[ "$word" = line: ] || fail "the board printed '$word $path' and not its line"

echo "demo: talking to it on $path"
python3 "$(dirname "$0")/talk.py" --gap "$gap" --slot "$slot" "$path" || fail 'the talk failed'
[ $# -eq 1 ] || sh "$(dirname "$0")/send.sh" "$2" "$path" || fail 'the talk of dxl failed'
end_board || fail "the board ended with code $?"
echo 'demo: the board is ended; every reply was as expected'
