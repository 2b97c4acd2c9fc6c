#!/bin/bash
# Runs a second on one core: through the library for hosts, and by starting the program each time. The most of several
# rounds of each. Needs a C compiler and lib/libwathread.a (release/library.sh).
set -eu
. "$(dirname "$0")/common.sh"
[ -f "$top/lib/libwathread.a" ] || "$top/release/library.sh"
"${CC:-cc}" -O2 -I "$top/include" "$top/bench/host.c" "$top/lib/libwathread.a" -o "$work/host"
machine
printf '%-34s %12s %12s\n' module library processes
while read -r file name runs; do
    most=0 best=0
    for ((round = 0; round < rounds; round++)); do
        it=$("$work/host" "$top/examples/$file" "$name" "$runs")
        ((it > most)) && most=$it || true
        start=$(date +%s%N)
        for ((n = 0; n < 100; n++)); do "$program" run "$top/examples/$file" --invoke "$name" >/dev/null; done
        it=$((100 * 1000000000 / ($(date +%s%N) - start)))
        ((it > best)) && best=$it || true
    done
    printf '%-34s %12d %12d\n' "$file" "$most" "$best"
done <<'END'
atomic_add.wasm f 20000
c/broken_lock.wasm main 2000
c/counter.wasm main 200
END
