#!/bin/bash
# Builds `bench` and the plain program that it is compared with, runs each three times with one thread that notifies
# where nobody is asleep, and with two threads that take turns, and prints how many calls, or turns of each thread, it
# makes a second.
set -e
here=$(cd "$(dirname "$0")" && pwd)
(cd "$here/../crates/bench" && rt run -- desk alone 10 > /dev/null)
(cd "$here/plain-desk" && cargo build --release --quiet --offline)
bench=$here/../crates/bench/out/bench
plain=$here/plain-desk/target/release/plain-desk

# The nanoseconds of one call, or of one turn of each thread: nanos COMMAND..
nanos() {
    "$@" time | sed -n 's/^\([0-9]*\) nanoseconds each$/\1/p'
}

echo "$(nproc) processors, load $(cut -d ' ' -f 1-3 /proc/loadavg)"
echo "work   proved a second  plain a second  proved ns  plain ns"
for work in alone turns; do
    for _ in 1 2 3; do
        a=$(nanos "$bench" desk "$work" 50000)
        b=$(nanos "$plain" "$work" 50000)
        awk -v w="$work" -v a="$a" -v b="$b" 'BEGIN { printf "%-6s %15d  %14d  %9d  %8d\n", w, 1e9 / a, 1e9 / b, a, b }'
    done
done
