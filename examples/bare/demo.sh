#!/bin/sh
# Runs the bare board under qemu, lets talk.py talk to it over its serial port and ends it: demo.sh MACHINE PROGRAM [DXL]
# Where DXL is given, that talks to it too. It leaves nothing running; if it is killed, the board ends after five minutes.
set -eu

# Behind an emulated line stands a scheduler: the board takes a silence of a tenth of a second for an idle line. Its slots are those
# of 57,600 baud.
gap=100000
slot=6600

fail() {
    echo "demo: $1" >&2
    exit 1
}

clean_up() {
    [ -z "$pid" ] || kill "$pid" 2>/dev/null || :
    [ -z "$folder" ] || rm -rf "$folder"
}

[ $# -eq 2 ] || [ $# -eq 3 ] || fail 'usage: demo.sh MACHINE PROGRAM'
[ -f "$2" ] || fail "$2 is not there; make demo TARGET=NAME builds it"
command -v qemu-system-arm >/dev/null 2>&1 || fail "Debian's qemu-system-arm is needed"
command -v python3 >/dev/null 2>&1 || fail 'python3 is needed and is not on the PATH'

pid=
folder=
trap clean_up EXIT
trap 'exit 1' HUP INT TERM
folder=$(mktemp -d)

echo "demo: starting $2 on the emulated board $1"
timeout 300 qemu-system-arm -M "$1" -display none -monitor none -serial pty -semihosting-config enable=on,target=native \
    -kernel "$2" >"$folder/said" 2>&1 &
pid=$!
line=
for _ in $(seq 100); do
    line=$(sed -n 's,.*redirected to \(/dev/[^ ]*\).*,\1,p' "$folder/said")
    [ -z "$line" ] || break
    kill -0 "$pid" 2>/dev/null || break
    sleep 0.1
done
[ -n "$line" ] || fail "qemu has not opened a line: $(cat "$folder/said")"

echo "demo: talking to it on $line"
python3 "$(dirname "$0")/../talk.py" --gap "$gap" --slot "$slot" --timeout 20 "$line" || fail 'the talk failed'
[ $# -eq 2 ] || sh "$(dirname "$0")/../send.sh" "$3" "$line" || fail 'the talk of dxl failed'
echo 'demo: every reply was as expected'
