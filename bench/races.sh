#!/bin/bash
# What `races` costs: of a record with close to 1,000,000 entries of 16 threads that share data under a lock, and of one in
# which they touch it outside, beside `replay` of the same record; in milliseconds of the clock and of processors, the least
# of several runs, and MiB at most.
# Needs wabt and python3. ROUNDS=N: how often each runs.
set -eu
source "$(dirname "$0")/common.sh"

machine
file=$(module races/locked)
times=${TIMES:-5200}
printf '%-8s %-7s %10s %10s %8s %8s %s\n' data what clock processor ratio MiB "its first line"
for outside in 0 1; do
    record=$work/record$outside
    $program run "$file" --invoke run --limit 1000000 --fuel 1000000000000 --record "$record" "$times" "$outside" >/dev/null || true
    lines=$(wc -l <"$record")
    "$top/bench/least.py" "$rounds" "replay=sh -c '$program replay $file $record || true'" \
        "races=sh -c '$program races $file $record || true'" >"$work/times"
    for what in replay races; do
        mib=$(/usr/bin/time -f %M "$program" $what "$file" "$record" 2>&1 >"$work/said" | tail -1 | awk '{ printf "%.0f", $1 / 1024 }')
        awk -v what=$what -v data=$([ $outside = 1 ] && echo outside || echo locked) -v mib="$mib" -v said="$(head -1 "$work/said")" '
            $1 == "replay" { base = $2 } $1 == what { printf "%-8s %-7s %10.1f %10.1f %8.2f %8s %s\n", data, what, $2, $3, $2 / base, mib, said }
        ' "$work/times"
    done
    echo "the record has $lines lines"
done
