#!/bin/sh
# Builds the modules of this folder: NAME.wasm of each NAME.c, and NAME-repaired.wasm with -DREPAIRED.
set -eu
cd "$(dirname "$0")"
for source in *.c; do
    ../../c/wathread-cc "$source" -o "${source%.c}.wasm"
    ../../c/wathread-cc -DREPAIRED "$source" -o "${source%.c}-repaired.wasm"
done
