#!/bin/bash
# An access over the recorder alone, without the interpreter: builds `bench` and the plain program that it is compared
# with, runs each with 1 and with 4 threads and 1,000,000 accesses, atomic adds and loads in turn, and prints the
# nanoseconds an access and the ratio. The sides take turns, and the least of several runs counts. ROUNDS=N: how often.
set -eu
here=$(cd "$(dirname "$0")" && pwd)
(cd "$here/../crates/bench" && rt run -- memory locked adds turns 1 1000 >/dev/null)
(cd "$here/plain-memory" && cargo build --release --quiet --offline)
bench=$here/../crates/bench/out/bench
plain=$here/plain-memory/target/release/plain-memory
rounds=${ROUNDS:-15}

echo "$(date +%F), $(nproc) processors, load $(cut -d ' ' -f 1-3 /proc/loadavg); the least of $rounds runs of each side, in turn"
echo "threads  proved ns  plain ns  ratio"
for threads in 1 4; do
    "$here/least.py" "$rounds" proved="$bench memory locked adds turns $threads 1000000 time" \
        plain="$plain $threads 1000000 time" | awk -v t=$threads '{ ms[$1] = $4 } END {
        printf "%7d  %9.1f  %8.1f  %5.2f\n", t, ms["proved"], ms["plain"], ms["proved"] / ms["plain"]
    }'
done
