#!/bin/bash
# Builds the modules of this folder anew, by c/wathread-cc with clang 14 and lld 14 of Debian 12, and compares them, byte for
# byte, with those that lie here and with their copies in crates/cases/data, which the gate tries (cc_NAME.wasm; those
# whose names end in _without_names have no names and no lines); and the records with theirs. With --write it puts the
# modules here, and all copies there.
set -u
cd "$(dirname "$0")" || exit 1
data=../../crates/cases/data
work=$(mktemp -d)
trap 'rm -rf "$work"' EXIT
different=0

compare() { # what is new, what lies there
    cmp -s "$1" "$2" && return
    [ "${write-}" ] && cp "$1" "$2" && echo "written: $2" && return
    echo "different: $2"
    different=1
}

without_names() { # what custom sections has, what hasn't
    python3 - "$1" "$2" <<'END'
import sys
data = open(sys.argv[1], 'rb').read()
out, at = data[:8], 8
while at < len(data):
    begin, size, shift = at, 0, 0
    while True:
        at += 1
        size |= (data[at] & 127) << shift
        shift += 7
        if data[at] < 128:
            break
    at += 1 + size
    if data[begin]:
        out += data[begin:at]
open(sys.argv[2], 'wb').write(out)
END
}

[ "${1-}" != --write ] || write=yes
for source in *.c; do
    name=${source%.c}
    CC=${CC:-clang-14} ../../c/wathread-cc "$source" -o "$work/$name.wasm" || exit 1
    compare "$work/$name.wasm" "$name.wasm"
    compare "$work/$name.wasm" "$data/cc_$name.wasm"
    [ -e "$name.record" ] || continue
    compare "$name.record" "$data/cc_$name.record"
    without_names "$work/$name.wasm" "$work/without.wasm"
    compare "$work/without.wasm" "$data/cc_${name}_without_names.wasm"
done
[ $different = 1 ] || echo "all the same"
exit $different
