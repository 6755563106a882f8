#!/bin/sh
# Makes one archive of the objects of others: join.sh ARCHIVE PART...
# A linker takes out of it only the objects whose functions are called.
set -eu

whole=$1 count=0
shift
room=$(mktemp -d)
trap 'rm -rf "$room"' EXIT
for part; do
    count=$((count + 1))
    mkdir "$room/$count"
    cp "$part" "$room/$count/part.a"
    (cd "$room/$count" && ar x part.a && ar qcD ../whole.a ./*.o)
done
ar sD "$room/whole.a"
mv "$room/whole.a" "$whole"
