#!/bin/bash
# Installs the library for hosts into a folder: its headers, the archive, the shared object with its links, and what
# pkg-config and CMake find them by.
#
#   release/install_library.sh ARCHIVE DIR [LIB [PREFIX]]
#
# LIB is the libraries' folder within DIR, without it lib. What pkg-config reads says where DIR is by its own place, or
# that it will be PREFIX. Without a C compiler and ld there is no shared object, which standard error says; the status
# is 0 then too.
set -eu
top=$(cd "$(dirname "$0")/.." && pwd)
. "$top/release/package.sh"
[ $# -ge 2 ] && [ $# -le 4 ] || { sed -n 's/^#   //p' "$0" >&2; exit 3; }
archive=$1 dir=$2 lib=${3:-lib}
version=$(version_of_sources)
minor=${version#*.}
up=$(sed 's|[^/]*|..|g' <<<"$lib")
prefix=${4:-'${pcfiledir}'/../$up}

# Fills the places @name@ of a file of build_files into the file $1.
fill() {
    sed -e "s|@version@|$version|g; s|@major@|${version%%.*}|g; s|@minor@|${minor%%.*}|g; s|@lib@|$lib|g" \
        -e "s|@soname@|libwathread.so.${version%%.*}|g; s|@up@|$up|g; s|@prefix@|$prefix|g" \
        "$top/release/build_files/${1##*/}.in" >"$1"
    chmod 644 "$1"
}

mkdir -p "$dir/include" "$dir/$lib/pkgconfig" "$dir/$lib/cmake/wathread"
install -m 644 "$top/include/"* "$dir/include"
[ ! -f "$top/hosts/cxx/wathread.hpp" ] || install -m 644 "$top/hosts/cxx/wathread.hpp" "$dir/include"
[ "$archive" -ef "$dir/$lib/libwathread.a" ] || install -m 644 "$archive" "$dir/$lib/libwathread.a"
echo "$dir/$lib/libwathread.a"
"$top/release/shared.sh" "$archive" "$dir/$lib" || echo "$dir/$lib/libwathread.so isn't installed" >&2
fill "$dir/$lib/pkgconfig/wathread.pc"
fill "$dir/$lib/cmake/wathread/wathreadConfig.cmake"
fill "$dir/$lib/cmake/wathread/wathreadConfigVersion.cmake"
