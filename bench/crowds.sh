#!/bin/bash
# Each threaded example with 63 spawned threads in place of its three or four, again and again over both memories. The runs over the
# recorder are recorded, and each record is replayed: it has to print what the run printed. What a run has to answer is counted
# here; the broken lock's sum differs. `crowds.py` makes the modules. TIMES=N: how often each, a hundred times unless it is said.
# Needs python3.
set -u
. "$(dirname "$0")/common.sh"
"$top/bench/crowds.py" "$top/examples" "$top/crates/cases/data" "$work" || exit 1
cd "$work" || exit 1
times=${TIMES:-100} wrong=0 runs=0

say() {
    echo "wrong: $*" | head -n 1
    wrong=$((wrong + 1))
}

ends=$(printf $'\nthread %d: ok' $(seq 1 63))$'\npages 1'

# Whether a run says what it has to, and its replay the same: tries MODULE ANSWER, where the answer is a pattern.
tries() {
    local name=$1 answer=$2 pattern out again run
    run=("$program" run "$name.wasm" --invoke f --fuel 1000000000 --limit 1000000)
    pattern="^thread 0: ok i32:$answer$ends\$"
    for _ in $(seq "$times"); do
        out=$("${run[@]}" --memory words 2>&1) || say "status $? of $name over words"
        [[ $out =~ $pattern ]] || say "$name over words: $out"
        out=$("${run[@]}" --record "$name.record" 2>&1) || say "status $? of $name"
        [[ $out =~ $pattern ]] || say "$name: $out"
        again=$("$program" replay "$name.wasm" "$name.record" 2>&1) || say "status $? of the replay of $name"
        [ "$again" = "$out" ] || say "the replay of $name: $again"
        runs=$((runs + 2))
    done
    echo "$name: the last record has $(wc -l <"$name.record") lines"
}

tries sums 2015
tries counting 24 # 63,000 modulo 256
tries condition 3150
tries ticket_lock 315
tries broken_lock '[0-9]+'
tries c_counter 31500
tries c_ticket_lock 10080 # each of its five times a thread adds its own number, 1 to 63
tries c_one_word_lock 10080
[ $wrong -eq 0 ] && echo "all as it should be: $runs runs of 64 threads"
exit $((wrong != 0))
