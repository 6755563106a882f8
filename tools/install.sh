#!/bin/sh
# Puts the library and what belongs to it below MEDNUKALS_DESTDIR and MEDNUKALS_PREFIX, or takes it away:
# install.sh VERSION LIBRARY TARGET install|uninstall
# LIBRARY is libmednukals, or the name of the one over another checksum function. What is for another processor, TARGET, goes below
# lib/TARGET, with the text that says what of it is proved.
set -eu

version=$1 library=$2 target=$3 task=$4
prefix=$MEDNUKALS_PREFIX dest=$MEDNUKALS_DESTDIR
case $prefix in
/*) ;;
'') echo "mednukals: make $task PREFIX=DIR [DESTDIR=DIR]" >&2 && exit 1 ;;
*) prefix=$PWD/$prefix ;;
esac
prefix=${prefix%/}
root=$dest$prefix lib=lib${target:+/$target} name=${library#lib}
header=include/mednukals.h pkgconfig=$lib/pkgconfig/$name.pc
links="$library.so.${version%%.*} $library.so"

# The folder below the prefix in which python3 looks for modules, or one that PYTHONPATH has to name.
own=lib/python3/site-packages
modules() {
    found=$(python3 -c 'if True:
        import site, sys
        for path in site.getsitepackages():
            if path.startswith(sys.argv[1] + "/lib/"):
                print(path[len(sys.argv[1]) + 1:])' "$prefix" 2>/dev/null | head -n 1) || :
    echo "${found:-$own}"
}

# Mode, source and place of each file.
files() {
    echo "644 $header $header"
    echo "644 build/$lib/$library.a $lib/$library.a"
    if [ -n "$target" ]; then
        echo "644 build/$lib/$library.txt $lib/$library.txt"
        return
    fi
    echo "644 build/lib/$library.so.$version lib/$library.so.$version"
    [ "$library" = libmednukals ] || return 0
    echo "755 build/c/dxl bin/dxl"
    echo "644 man/dxl.1 share/man/man1/dxl.1"
    echo "644 completion/dxl.bash share/bash-completion/completions/dxl"
    echo "644 python/mednukals.py $(modules)/mednukals.py"
}

# In quotes, for a prefix with a space in it. A program looks for the shared library where it was put.
describe() {
    path=
    [ -n "$target" ] || path=" -Wl,-rpath,\"\${libdir}\""
    cat <<END
prefix=$prefix
includedir=\${prefix}/include
libdir=\${prefix}/$lib
archive=\${libdir}/$library.a

Name: Mednukals
Description: The bus side of a DYNAMIXEL Protocol 2.0 device${target:+, for $target}
Version: $version
Cflags: -I"\${includedir}"
Libs: -L"\${libdir}"$path -l$name
END
}

put() {
    files | while read -r mode source place; do
        mkdir -p "$root/$(dirname "$place")"
        install -m "$mode" "$source" "$root/$place"
    done
    mkdir -p "$root/$lib/pkgconfig"
    describe >"$root/$pkgconfig"
    chmod 644 "$root/$pkgconfig"
    if [ -z "$target" ]; then
        for link in $links; do
            ln -sf "$library.so.$version" "$root/lib/$link"
        done
        # Where the loader goes by a list of what is there.
        case $root in
        /usr | /usr/local) ldconfig 2>/dev/null || : ;;
        esac
    fi
    places=$(files | sed 's/.* //' | tr '\n' ' ')
    echo "installed below $root: $places$pkgconfig"
    case $places in
    *" $own/"*) echo "python3 does not look there for mednukals.py by itself: PYTHONPATH=$prefix/$own" ;;
    esac
}

# The header belongs to every library that is there.
others() {
    for archive in "$root"/lib/libmednukals*.a "$root"/lib/*/libmednukals*.a; do
        [ ! -e "$archive" ] || return 0
    done
    return 1
}

# A file, and the folders that become empty with it; not the prefix itself.
remove() {
    [ -e "$root/$1" ] || [ -L "$root/$1" ] || return 0
    rm -f "$root/$1"
    echo "$1"
    folder=$(dirname "$1")
    while [ "$folder" != . ] && rmdir "$root/$folder" 2>/dev/null; do
        folder=$(dirname "$folder")
    done
}

take() {
    removed=$(
        for place in $(files | sed 's/.* //' | grep -vx "$header") $pkgconfig; do
            remove "$place"
        done
        [ -n "$target" ] || for link in $links; do remove "lib/$link"; done
        [ "$target$library" != libmednukals ] || for kept in "$root/$(modules)"/__pycache__/mednukals.*.pyc; do remove "${kept#"$root/"}"; done
        others || remove "$header"
    )
    if [ -n "$removed" ]; then
        echo "removed below $root: $(printf %s "$removed" | tr '\n' ' ')"
    else
        echo "nothing of it is below $root"
    fi
}

case $task in
install) put ;;
uninstall) take ;;
esac
