#!/bin/bash
# Build the libraries and install them under a prefix, with the headers, a pkg-config file, the tools and what to read.
#
# Usage: ./install.sh PREFIX [PATH_TO_STATIC_LIB]
# Needs gcc, and the Rattle kit's command rt unless a static library that is ready is given. DESTDIR, if set, is put
# before PREFIX in every path that is written to. All is built in a temporary folder and copied beside its place before
# the first file takes its place, so that a failure leaves what was there.
set -u

fail() { # WORDS...
    echo "install.sh: $*" >&2
    exit 1
}

if [ $# -lt 1 ] || [ $# -gt 2 ] || [ -z "$1" ] || [ "${1:0:1}" = - ]; then
    echo "usage: ./install.sh PREFIX [PATH_TO_STATIC_LIB]" >&2
    exit 2
fi

# The path that does not depend on where we stand.
from_root() { # PATH
    case $1 in
    /*) printf '%s\n' "$1" ;;
    *) printf '%s\n' "$PWD/$1" ;;
    esac
}

prefix=$(from_root "$1")
prefix=${prefix%/}
ready=${2:+$(from_root "$2")}
destination=${DESTDIR:+$(from_root "$DESTDIR")}$prefix
cd "$(dirname "$0")" || fail "cannot enter the folder of this script"

stage=$(mktemp -d) || fail "cannot make a temporary folder"
new=.new.$$     # the end of a file's name until all are there
made_folders=() # that were not there before, outermost first
copied=()

# Until the files take their places, leave no trace.
undo() {
    local i

    rm -rf "$stage"
    for i in "${copied[@]+"${copied[@]}"}"; do rm -f "$i"; done
    for ((i = ${#made_folders[@]} - 1; i >= 0; i--)); do rmdir "${made_folders[i]}" 2>/dev/null; done
}
trap undo EXIT
trap 'exit 1' HUP INT TERM

# ---- building ----

number() { # MAJOR, MINOR or PATCH
    sed -n "s/^#define ZAV_VERSION_$1 //p" include/zavullimen.h
}

# The static library: the one given, or the one that the kit makes of the proved crates.
get_static() {
    if [ -n "$ready" ]; then
        [ -f "$ready" ] || fail "there is no library $ready"
    else
        command -v rt >/dev/null 2>&1 ||
            fail "the Rattle kit's command rt is not on the PATH; with a library that is ready: ./install.sh PREFIX LIBRARY"
        tools/library || fail "tools/library failed"
        ready=target/staticlib/libhost.a
    fi
    cp "$ready" "$stage/lib/libzavullimen.a" || fail "cannot copy $ready"
}

# The shared library from the same archive; only the zav_ functions are seen from outside.
link_shared() {
    printf '{ global: zav_*; local: *; };\n' >"$stage/symbols"
    gcc -shared -o "$stage/lib/$soname" -Wl,-soname,"$soname" -Wl,--version-script="$stage/symbols" \
        -Wl,-z,defs,-z,text,-z,relro,-z,now \
        -Wl,--whole-archive "$stage/lib/libzavullimen.a" -Wl,--no-whole-archive ||
        fail "the shared library cannot be linked"
    ln -s "$soname" "$stage/lib/libzavullimen.so"
}

# The library needs no other than C's own, so there is nothing private to link.
write_pkgconfig() {
    cat >"$stage/lib/pkgconfig/zavullimen.pc" <<PC
prefix=$prefix
libdir=\${prefix}/lib
includedir=\${prefix}/include

Name: zavullimen
Description: Level strips for tile puzzles, read through damage
Version: $version
Libs: -L\${libdir} -lzavullimen
Cflags: -I\${includedir}
PC
}

# ---- installing ----

# Make a folder and remember what was not there.
make_folder() { # FOLDER
    [ -d "$1" ] && return
    make_folder "$(dirname "$1")"
    mkdir -m 755 "$1" || fail "cannot make the folder $1"
    made_folders+=("$1")
}

copy_beside() { # NAME
    make_folder "$(dirname "$destination/$1")"
    [ ! -d "$destination/$1" ] || fail "$destination/$1 is a folder"
    copied+=("$destination/$1$new")
    cp -P --preserve=mode "$stage/$1" "$destination/$1$new" || fail "cannot write to $(dirname "$destination/$1")"
}

# What a newcomer has to tell the compiler and the program, where the prefix is on no search path.
say_how_to_use() {
    local lib

    lib=$(printf '%q' "$prefix/lib")
    cat <<WORDS
If your system does not look there by itself, compile a program that uses the library like this:
    gcc game.c \$(PKG_CONFIG_PATH=$lib/pkgconfig pkg-config --cflags --libs zavullimen) -Wl,-rpath,$lib -o game
A program that was linked without -Wl,-rpath has to be told where the shared library is:
    LD_LIBRARY_PATH=$lib ./game
WORDS
}

# Programs and the shared library may be run; all may be read, whatever the umask.
set_mode() { # NAME
    case $1 in
    *.so) ;; # a link has no mode
    bin/* | *.so.*) chmod 755 "$stage/$1" ;;
    *) chmod 644 "$stage/$1" ;;
    esac
}

command -v gcc >/dev/null 2>&1 || fail "gcc is not on the PATH"
version=$(number MAJOR).$(number MINOR).$(number PATCH)
soname=libzavullimen.so.$(number MAJOR)
mkdir -p "$stage/lib/pkgconfig" "$stage/include" "$stage/bin" "$stage/share/doc/zavullimen"
get_static
link_shared
write_pkgconfig
cp include/zavullimen*.h "$stage/include" || fail "the headers cannot be copied"
cp docs/FORMAT.md docs/C-INTERFACE.md docs/STICKERS.md LICENSE "$stage/share/doc/zavullimen" || fail "the documents cannot be copied"
tools/build "$stage/lib/libzavullimen.a" "$stage/bin" || fail "the tools cannot be built"

cd "$stage" || fail "cannot enter $stage"
names=(include/* lib/libzavullimen.a "lib/$soname" lib/libzavullimen.so lib/pkgconfig/zavullimen.pc bin/*
    share/doc/zavullimen/*)
for name in "${names[@]}"; do
    set_mode "$name"
    copy_beside "$name"
done
for name in "${names[@]}"; do
    mv -fT "$destination/$name$new" "$destination/$name" || fail "cannot write $destination/$name"
done
made_folders=()
cd / && echo "zavullimen $version is installed under $destination"
if [ -z "${DESTDIR:-}" ]; then say_how_to_use; fi
