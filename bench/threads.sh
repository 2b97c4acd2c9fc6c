#!/bin/bash
# Atomic adds by one thread and by four, and starts and ends of 15 threads, by wathread over both memories and by node
# with worker threads on the same modules (they import their memory, so that node can share it). The adds are 900,000 in
# all, as many as a log takes. Node compiles what wathread interprets.
# A line's first numbers are milliseconds of whole processes by the clock. `net` is, of wathread, that less a run that adds once,
# and of node its own time from the call of `run` to the last end; both in nanoseconds an add.
# Needs wabt, node and python3. ROUNDS=N: how often each runs.
set -eu
source "$(dirname "$0")/common.sh"

machine
all=900000
alone=$(module threads/alone)
adds=$(module threads/adds)
ends=$(module threads/ends)
node="node --no-wasm-dynamic-tiering $top/bench/node.js"

print() {
    awk -v name="$1" -v all=$all '{ wall[$1] = $2; own[$1] = $4 } END {
        l = (wall["locked"] - wall["locked0"]) * 1e6 / all
        w = (wall["words"] - wall["words0"]) * 1e6 / all
        n = own["node"] * 1e6 / all
        printf "%-24s %11.1f %8.1f %8.1f  %13.1f %9.1f %8.1f  %13.3f %10.3f\n", name, wall["locked"], wall["words"], wall["node"],
            l, w, n, wall["node"] / wall["locked"], wall["node"] / wall["words"]
    }' "$work/times"
}

printf '%-24s %11s %8s %8s  %13s %9s %8s  %13s %10s\n' adds 'recorder ms' 'words ms' 'node ms' 'recorder net' 'words net' \
    'node net' node/recorder node/words
"$top/bench/least.py" "$rounds" locked="$(run_of locked "$alone" $all)" locked0="$(run_of locked "$alone" 1)" \
    words="$(run_of words "$alone" $all)" words0="$(run_of words "$alone" 1)" node="$node $alone 0 $all" >"$work/times"
print '1 thread'
for shape in '0 one word' '64 four words'; do
    read -r stride words <<<"$shape"
    each=$((all / 4))
    "$top/bench/least.py" "$rounds" locked="$(run_of locked "$adds" 4 $stride $each)" \
        locked0="$(run_of locked "$adds" 4 $stride 1)" words="$(run_of words "$adds" 4 $stride $each)" \
        words0="$(run_of words "$adds" 4 $stride 1)" node="$node $adds 4 4 $stride $each" >"$work/times"
    print "4 threads, $words"
done

echo
printf '%-24s %11s %8s %8s\n' '15 threads that end' 'recorder ms' 'words ms' 'node ms'
"$top/bench/least.py" "$rounds" locked="$(run_of locked "$ends" 15)" words="$(run_of words "$ends" 15)" \
    node="$node $ends 15 15" locked0="$(run_of locked "$alone" 0)" words0="$(run_of words "$alone" 0)" \
    node0="$node $alone 0 0" >"$work/times"
awk '{ wall[$1] = $2; own[$1] = $4 } END {
    printf "%-24s %11.1f %8.1f %8.1f\n", "whole process", wall["locked"], wall["words"], wall["node"]
    printf "%-24s %11.1f %8.1f %8.1f\n", "with no thread started", wall["locked0"], wall["words0"], wall["node0"]
    printf "%-24s %11.1f %8.1f %8.1f\n", "a thread, microseconds", (wall["locked"] - wall["locked0"]) * 1e3 / 15,
        (wall["words"] - wall["words0"]) * 1e3 / 15, (wall["node"] - wall["node0"]) * 1e3 / 15
}' "$work/times"
