#!/bin/bash
# `search --all --orders all` beside Spin on models of the same locks, written by hand (bench/spin): states, seconds of the processor's
# time and MiB for the whole search, each once after the other. A step of a model is an access to the memory with what the thread makes
# of it; Spin reduces the orders (its default) and keeps states by their parts (COLLAPSE). Needs spin and gcc.
set -e
. "$(dirname "$0")/common.sh"
models=$(cd "$(dirname "$0")/spin" && pwd)

# The seconds and MiB that were taken, of a line with user's and system's seconds and KiB.
took() {
    awk 'END { printf "%.2f s, %d MiB", $1 + $2, $3 / 1024 }' "$work/took"
}
# A lock by Spin and by the program: beside NAME OPTIONS_OF_THE_MODEL ARG..
beside() {
    local name=$1 options=$2 states
    shift 2
    mkdir -p "$work/$name" && cp "$models"/* "$work/$name" && cd "$work/$name"
    # shellcheck disable=SC2086
    spin -a $options "$name.pml" > /dev/null && gcc -O2 -DSAFETY -DCOLLAPSE -DMEMLIM=8192 -o pan pan.c
    states=$(/usr/bin/time -f '%U %S %M' -o "$work/took" ./pan -m100000 -n | sed -n 's/^ *\([0-9]*\) states, stored$/\1/p')
    echo "$name $*: spin: $states states, $(took)"
    states=$(/usr/bin/time -f '%U %S %M' -o "$work/took" "$program" search "$top/examples/search/$name.wasm" --invoke f --all --orders all \
        --states 1000000000 "$@" | sed -n 's/^all: //p')
    echo "$name $*: wathread: $states; $(took)"
}
beside peterson "-DROUNDS=20" 20
beside mutex "-DTHREADS=3 -DROUNDS=3" 3 3
beside tickets "-DTHREADS=3 -DROUNDS=4" 3 4
beside queue "-DITEMS=1" 1
beside queue "-DITEMS=2" 2
if [ -n "${LARGE-}" ]; then
    beside queue "-DITEMS=3" 3
fi
