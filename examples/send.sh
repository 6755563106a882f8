#!/bin/sh
# Talks to a board with the tool dxl, and shows what it prints: send.sh DXL LINE
# The demos run it behind talk.py.
set -eu

# how it has to end, and then the words behind the line
show() {
    wanted=$1
    shift
    echo "\$ dxl send $line $*"
    code=0
    "$dxl" send --timeout 10000 "$line" "$@" || code=$?
    [ "$code" -eq "$wanted" ] || { echo "send: it ended with $code and not with $wanted" >&2; exit 1; }
}

[ $# -eq 2 ] || { echo 'send: usage: send.sh DXL LINE' >&2; exit 1; }
dxl=$1
line=$2
show 0 ping 1
show 0 write 1 goal-position 512
show 0 read 1 goal-position
show 1 write 1 goal-position 5000
show 0 sync read goal-position 1
