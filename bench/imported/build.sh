#!/bin/bash
# Modules in C whose memory is imported: fixed addresses in place of data, and none of wathread-cc. clang 14 and wasm-ld 14
# (Debian 12: apt-get install clang lld) make of each source here, byte for byte, the module c_NAME.wasm of crates/cases/data,
# of which crates/test_modules has the bytes as well. It builds them anew and says which differ.
#
#   -matomics -mbulk-memory        atomic instructions; the linker wants the second feature with a shared memory, and no
#                                  instruction of it comes out where there is no static data, and no large struct copied
#   -O1 -fno-builtin               loops stay loops, and no call of memset or memcpy is made up
#   --import-memory --shared-memory --max-memory=65536
#                                  one page, shared with a maximum, imported as `env` `memory`, which the host makes
#   -z stack-size=512 --stack-first
#                                  the stack grows down from 512, below the fixed addresses of the sources
set -eu
cd "$(dirname "$0")"
data=../../crates/cases/data
work=$(mktemp -d)
trap 'rm -rf "$work"' EXIT
build() { # source, module, more switches
    clang "${@:3}" --target=wasm32 -nostdlib -matomics -mbulk-memory -O1 -fno-builtin \
        -Wl,--no-entry,--import-memory,--shared-memory,--initial-memory=65536,--max-memory=65536 \
        -Wl,-z,stack-size=512,--stack-first "$1" -o "$work/$2"
    cmp "$work/$2" "$data/$2" && echo "the same: $2" || differ=1
}
differ=0
for name in counter ticket_lock one_word_lock; do
    build "$name.c" "c_$name.wasm"
done
# those of debug.cases
build counter.c counter-dwarf-4.wasm -g -gdwarf-4 -fdebug-compilation-dir=/src
build counter.c counter-dwarf-5.wasm -g -gdwarf-5 -fdebug-compilation-dir=/src
exit "$differ"
