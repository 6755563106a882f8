#!/bin/sh
# Makes a shared library of the objects of an archive, and the links to it: shared.sh LIBRARY ARCHIVE COMPILER...
# LIBRARY is PATH.so.VERSION. Only the exports can be seen, bound to each other within it. They carry the part of the version within
# which calls stay as they are, so that a program that was linked before a call changed is not started with the library of today.
set -eu

library=$1 archive=$2
shift 2
version=${library##*.so.}
plain=${library%".$version"}
major=${version%%.*}
case $major in
0) calls=${version%.*} ;; # before 1.0 a minor version may change calls
*) calls=$major ;;
esac
room=$(mktemp -d)
trap 'rm -rf "$room"' EXIT
echo "MEDNUKALS_$calls { global: dxl_*; local: *; };" >"$room/exports"
# -z text refuses objects that are not position independent.
"$@" -shared -nostartfiles -o "$library" -Wl,--whole-archive "$archive" -Wl,--no-whole-archive -Wl,-Bsymbolic \
    -Wl,-soname,"$(basename "$plain").$major" -Wl,--version-script="$room/exports" -Wl,-z,defs,-z,text,-z,now,-z,noexecstack
ln -sf "$(basename "$library")" "$plain.$major"
ln -sf "$(basename "$plain").$major" "$plain"
