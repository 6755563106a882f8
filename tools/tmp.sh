#!/bin/sh
# Prints the folder for temporary files, where TMPDIR names none. Each try of a must-fail edit gets a copy of its crate and of what is
# proved of it there, hundreds of small files: so it is a folder in memory where several checks find room.
set -u

room() { # FOLDER: kilobytes that are free in it
    df -Pk "$1" | awk 'END { print $4 + 0 }'
}
memory() { # kilobytes
    awk '/^MemAvailable:/ { found = $2 } END { print found + 0 }' /proc/meminfo
}

if [ -n "${TMPDIR:-}" ]; then
    echo "$TMPDIR"
elif [ -w /dev/shm ] && [ "$(room /dev/shm)" -ge 6000000 ] && [ "$(memory)" -ge 12000000 ]; then
    echo /dev/shm
else
    echo /tmp
fi
