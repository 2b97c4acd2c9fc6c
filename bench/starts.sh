#!/bin/bash
# What the start of threads costs: runs of a module that can't start any, and of such that can, and spawn none, one and 63, over both
# memories. In milliseconds of the clock, the least of several runs, which take turns; and the largest part that stayed in memory.
# Needs python3 and time. ROUNDS=N: how often each runs.
set -eu
. "$(dirname "$0")/common.sh"
"$top/bench/crowds.py" "$top/examples" "$work"

# A run of one of these modules, as a command: start_of MEMORY MODULE
start_of() {
    echo "$program run $work/$2.wasm --invoke f --memory $1"
}

machine
names=(none spawns_0 spawns_1 spawns_63)
commands=()
for name in "${names[@]}"; do
    commands+=("$name-locked=$(start_of locked "$name")" "$name-words=$(start_of words "$name")")
done
"$top/bench/least.py" "$rounds" "${commands[@]}" >"$work/times"
printf '%-10s %12s %10s %13s %10s\n' module 'recorder ms' 'words ms' 'recorder KiB' 'words KiB'
for name in "${names[@]}"; do
    printf '%-10s' "$name"
    for memory in locked words; do
        awk -v name="$name-$memory" '$1 == name { printf " %11.2f", $2 }' "$work/times"
    done
    for memory in locked words; do
        /usr/bin/time -f %M -o "$work/kib" $(start_of $memory "$name") >/dev/null
        printf ' %12d' "$(cat "$work/kib")"
    done
    echo
done
