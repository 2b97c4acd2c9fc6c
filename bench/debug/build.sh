#!/bin/sh
# Makes the modules of crates/cases/data/info.cases, and one of show_files.cases, by clang 14 and wasm-ld 14.
set -eu
cd "$(dirname "$0")"
data=../../crates/cases/data
make() {
    clang-14 --target=wasm32 -g "$1" "$2" "$3" -matomics -mbulk-memory -fno-builtin -nostdlib -Wl,--no-entry -Wl,--export=main \
        -Wl,--stack-first -Wl,-z,stack-size=4096 -o "$data/$4"
}
make -gdwarf-5 -O1 queue.c queue-dwarf-5.wasm
make -gdwarf-4 -O0 queue.c queue-dwarf-4.wasm
make -gdwarf-5 -O2 kinds.c kinds-dwarf-5.wasm
make -gdwarf-4 -O1 small.c small-dwarf-4.wasm
make -gdwarf-5 -O1 small.c small-dwarf-5.wasm
CC=clang-14 ../../c/wathread-cc -O0 pool.c -o "$data/pool-O0.wasm"
