#!/bin/bash
# How long `wathread check` takes to read and validate a module with 10,000 functions, and one with 15 functions of nearly
# 64 KiB, each of nearly 1 MiB in all, and one of nothing but `nop`, beside wabt's wasm-validate on the same files. And how
# much memory both take. Wants python3, wabt, hyperfine and time.
set -eu
cd "$(dirname "$0")/.."
folder=$(mktemp -d)
trap 'rm -rf "$folder"' EXIT
program=${PROGRAM:-crates/wathread/out/wathread.by-rattle}
for kind in functions blocks nops; do
    file=$folder/$kind.wasm
    python3 bench/modules.py "$kind" "$file"
    [ -n "${PROGRAM-}" ] || ./wathread check "$file"
    hyperfine -N --warmup 3 "$program check $file" "wasm-validate $file"
    /usr/bin/time -f "wathread: %M KiB at most" "$program" check "$file"
    /usr/bin/time -f "wasm-validate: %M KiB at most" wasm-validate "$file"
done
