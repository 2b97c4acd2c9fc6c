#!/bin/bash
# Runs the modules of machine/ by wathread over both memories, by wabt's wasm-interp and by JavaScriptCore's interpreter in
# place, and prints how many million instructions each makes a second, without its start. JavaScriptCore's time is that of
# the shortest of twenty calls in one process, by its own clock (jsc.js). Ours over words is the difference of five calls and
# one, over four; over the recorder, whose log is full behind one call, and wabt's, that of one call and of a module that does
# nothing (machine/none.wat), in processor time. The loop of `sum` is also made by an interpreter in C (turns.c), by its own
# clock. Then what memory runs take. Other work on the machine slows all sides, so the least of several runs counts, and the
# sides take turns.
# Needs wabt, python3, cc and time (Debian: apt-get install wabt python3 gcc time); JavaScriptCore's shell is left out
# where it isn't there (Debian: libjavascriptcoregtk-4.0-bin). ROUNDS=N: how often each runs.
set -eu
source "$(dirname "$0")/common.sh"

# How many units thread 0 of a run spends: the instructions of the module.
units_of() {
    $(run_of locked "$1") --record "$work/record" >/dev/null
    awk '$1 == "end" { print $NF }' "$work/record"
}

# A run of a module's `runs`, so many times, as a command.
runs_of() { echo "$program run $1 --invoke runs --memory words --fuel 1000000000000 $2"; }

machine
has_jsc=1
command -v jsc >/dev/null || has_jsc=
none=$(module machine/none)
printf '%-6s %12s %12s %12s %12s %12s %11s %11s %11s %15s\n' module instructions recorder words wabt jsc words/wabt \
    jsc/words jsc/recorder words/recorder
for name in sum fib sieve adds; do
    file=$(module machine/$name)
    commands=(start="$(run_of locked "$none")" recorder="$(run_of locked "$file")"
        once="$(runs_of "$file" 1)" five="$(runs_of "$file" 5)"
        wabt_start="wasm-interp $none --run-all-exports" wabt="wasm-interp --enable-threads $file --run-all-exports"
        jsc="jsc --useBBQJIT=0 --useOMGJIT=0 $top/bench/jsc.js -- $file 20")
    "$top/bench/least.py" "$rounds" "${commands[@]:0:6+0$has_jsc}" >"$work/times"
    awk -v name=$name -v units="$(units_of "$file")" '{ spent[$1] = $3; own[$1] = $4 } END {
        recorder = spent["recorder"] - spent["start"]
        words = (spent["five"] - spent["once"]) / 4
        wabt = spent["wabt"] - spent["wabt_start"]
        jsc = own["jsc"]
        printf "%-6s %12d %8.1f M/s %8.1f M/s %8.1f M/s", name, units, units / recorder / 1e3, units / words / 1e3, units / wabt / 1e3
        if (jsc) printf " %8.1f M/s %11.2f %11.2f %11.2f", units / jsc / 1e3, wabt / words, words / jsc, recorder / jsc
        else printf " %12s %11.2f %11s %11s", "-", wabt / words, "-", "-"
        printf " %15.2f\n", recorder / words
    }' "$work/times"
done
cc -O2 -o "$work/turns" "$top/bench/turns.c"
"$top/bench/least.py" "$rounds" turns="$work/turns" | awk '{ printf "sum in C, %.1f M/s\n", 24000.003 / $4 }'

# The largest part of a run that stayed in memory, in KiB.
resident() {
    /usr/bin/time -f %M -o "$work/kib" "$@" >/dev/null
    cat "$work/kib"
}

echo
echo 'Resident memory of a run, in KiB: what it has at most, the bytes of the opening pages, and those of the log that was filled'
printf '%-44s %9s %9s %9s %9s\n' run most pages log beside
row() {
    printf '%-44s %9d %9d %9d %9d\n' "$1" "$2" "$3" "$4" $(($2 - $3 - $4))
}
adds=$(module threads/alone)
few=$(resident $(run_of locked "$adds" 0))
many=$(resident $(run_of locked "$adds" 999998))
row 'one page, no entry in the log' "$few" 64 0
row "one page, 999,999 entries, $(((many - few) * 1024 / 999999)) bytes each" "$many" 64 $((many - few))
row '64 pages of data, over the recorder' "$(resident $(run_of locked "$(module machine/pages)"))" 4096 0
row '64 pages of data, over words' "$(resident $(run_of words "$(module machine/pages)"))" 4096 0
python3 "$top/bench/modules.py" functions "$work/large.wasm" run >/dev/null
row '850,036 bytes of module, 10,000 functions' "$(resident $(run_of locked "$work/large.wasm" 1))" 0 0
row '16 threads, over the recorder' "$(resident $(run_of locked "$(module threads/ends)" 15))" 64 0
row '16 threads, over words' "$(resident $(run_of words "$(module threads/ends)" 15))" 64 0
