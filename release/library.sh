#!/bin/bash
# The library for hosts, lib/libwathread.a.
#
#   release/library.sh          unpacks the shipped one, where it is of these sources, and else proves and builds it
#   release/library.sh --build  proves and builds it, and ships it
#
# To build it takes `rt` on the path, and `ar`.
set -eu
top=$(cd "$(dirname "$0")/.." && pwd)
. "$top/release/package.sh"
cd "$top"
mkdir -p lib
if [ "${1-}" != --build ] && why=$(unpack_library lib/libwathread.a); then
    echo "lib/libwathread.a"
    exit
fi
[ "${1-}" = --build ] || echo "release/library.sh: $why: it is proved and built" >&2
room=$(mktemp -dt wathread.XXXXXX)
trap 'rm -rf "$room"' EXIT
(cd crates/wathread_c && rt lib)
cp crates/wathread_c/out/libwathread_c.a "$room/libwathread.a"
# What gives its functions memory is the toolchain's, in C.
kit=$(dirname "$(rt doc)")
(cd "$room" && ar x "$kit/c/liblibc_c.a" && ar rD libwathread.a ./*.o)
cp "$room/libwathread.a" lib/libwathread.a
echo "lib/libwathread.a"
[ "${1-}" = --build ] || exit 0
read_crates wathread_c
xz -9e -c lib/libwathread.a >"$library.xz"
printf 'sources %s\nlibrary %s\ntoolchain %s\n' "$(sum_of_sources)" "$(sum_of lib/libwathread.a)" "$(rt version)" \
    >"$library.sum"
cat "$library.sum"
