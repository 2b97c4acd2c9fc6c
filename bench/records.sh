#!/bin/bash
# What a record costs: a run that enters 1,000,000 accesses, the same run with --record, and where the program has the command,
# `replay` of that record, and of one whose last line is cut off, which is read to its end and refused. In milliseconds of
# the clock and of processors; the sides take turns, and the least of several runs counts.
# Needs wabt and python3. ROUNDS=N: how often each runs.
set -eu
source "$(dirname "$0")/common.sh"

machine
file=$(module threads/alone)
times=999999 # and one load
run=$(run_of locked "$file")
sides=("run=$run $times" "record=$run --record $work/made $times")
$run --record "$work/record" $times >/dev/null
if "$program" replay --help >/dev/null 2>&1; then
    head -n -1 "$work/record" >"$work/cut"
    sides+=("replay=$program replay $file $work/record" "reading=sh -c '$program replay $file $work/cut || true'")
fi
"$top/bench/least.py" "$rounds" "${sides[@]}" >"$work/times"
printf '%-8s %10s %10s %8s\n' what clock processor ratio
awk '{ if ($1 == "run") run = $2; printf "%-8s %10.1f %10.1f %8.2f\n", $1, $2, $3, $2 / run }' "$work/times"
awk -v bytes="$(wc -c <"$work/record")" -v lines="$(wc -l <"$work/record")" '{ ms[$1] = $2 } END {
    more = ms["record"] - ms["run"]
    printf "the record has %d bytes in %d lines; writing it takes %.0f ns a line, %.0f MB/s\n", bytes, lines, more * 1e6 / lines, bytes / more / 1e3
}' "$work/times"
