#!/bin/bash
# What it costs that a refusal is an object, and is explained: a module of 992 KB that is refused at its last function, and a record
# of 32,808 lines that doesn't fit at its last access, or at its end line; each refused plainly, with --json, with --explain,
# and with both. In milliseconds of the clock and of processors, of the whole process; the sides take turns, and the least of several
# runs counts. Needs python3. ROUNDS=N: how often each runs. Status 1 where one takes more than 1.3 times the plain one.
set -eu
source "$(dirname "$0")/common.sh"

machine
late=$work/late.wasm loop=$work/loop.wasm record=$work/record entry=$work/entry.record end=$work/end.record
python3 "$top/bench/modules.py" late "$late"
python3 "$top/bench/refusals.py" loop "$loop"
"$program" run "$loop" --invoke run --limit 1000000 --fuel 1000000000 --record "$record" 32794 >/dev/null
python3 "$top/bench/refusals.py" unfit "$record" "$entry" "$end"

# Times a command that is refused with a status, and what it takes more: refused NAME STATUS COMMAND..
refused() {
    local name=$1 status=$2 sides=() more
    shift 2
    for more in "" --json --explain "--json --explain"; do
        sides+=("$name${more// /}:$status=$* $more")
    done
    "$top/bench/least.py" "$rounds" "${sides[@]}" >>"$work/times"
}

refused module 2 "$program check $late"
refused entry 4 "$program replay $loop $entry"
refused end 4 "$program replay $loop $end"
printf '%-24s %10s %10s %8s\n' what clock processor ratio
awk '{ split($1, words, "--"); if ($1 == words[1]) plain = $2; ratio = $2 / plain; if (ratio > 1.3) dear = 1
    printf "%-24s %10.2f %10.2f %8.2f\n", $1, $2, $3, ratio } END { exit dear }' "$work/times"
