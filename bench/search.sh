#!/bin/bash
# How many runs a second and core `search` makes of a lock that isn't one, with two threads and five rounds, beside a loop of processes
# that run it. The first counts the processor's time of one job, user and system; the second has malloc keep what is given back.
# And how long `search --all` takes to go through every order of some locks, and how much memory it takes a state: wanted within a
# minute and 2 GiB each; how many states it needs of programs in which nothing races, beside every order; and how long that takes by one
# thread, by two and by four.
#
# search.sh strategies: instead, how many runs each strategy makes until it finds the bug of each program of examples/bugs, the median of
# SEEDS seeds, and how the mix stands to the best of the others; a search that finds nothing in MOST runs counts as more than MOST.
set -e
. "$(dirname "$0")/common.sh"

# The number of the first run that is found, or one more than MOST.
first_find() {
    "$program" search "$1" --invoke main --strategy "$2" --seed "$3" --runs "$most" --jobs 1 --record "$work/record" |
        awk -v most="$most" '/^found in run / { run = $4 } END { print run ? run : most + 1 }'
}
strategies() {
    local most=${MOST:-20000} seeds=${SEEDS:-20} ways=(random pct:2 pct:3 pct:5 pct:8 spin mix) way file name row
    echo "| Program |$(printf ' %s |' "${ways[@]}") mix to the best |"
    echo "|---$(printf '|---%.0s' "${ways[@]}")|---|"
    for file in "$top"/examples/bugs/*.wasm; do
        name=$(basename "$file" .wasm)
        [[ $name != *-repaired ]] || continue
        row=
        for way in "${ways[@]}"; do
            row+=" $(for seed in $(seq "$seeds"); do first_find "$file" "$way" "$seed"; done | sort -n |
                awk '{ at[NR] = $1 } END { print int((at[int((NR + 1) / 2)] + at[int(NR / 2) + 1]) / 2) }')"
        done
        awk -v name="$name" -v most="$most" '{
            for (i = 1; i < NF; i++) if (!best || $i < best) best = $i
            printf "| `%s.c` |", name
            for (i = 1; i <= NF; i++) printf " %s |", ($i > most ? "more than " most : $i)
            printf " %s |\n", (best > most ? "" : sprintf("%s%.1f", ($NF > most ? "above " : ""), $NF / best))
        }' <<< "$row"
    done
}
if [ "${1-}" = strategies ]; then
    strategies
    exit
fi
file=$(module search/broken_lock)
runs=${RUNS:-20000}
searched() {
    local TIMEFORMAT='%U %S'
    { time "$@" "$program" search "$file" --invoke run --runs "$runs" --jobs 1 > /dev/null; } 2>&1 |
        awk -v runs="$runs" '{ printf "%.0f runs a second, user %s s, system %s s\n", runs / ($1 + $2), $1, $2 }'
}
echo "search: $(searched env)"
echo "search, with malloc's memory kept: $(searched env MALLOC_TRIM_THRESHOLD_=1000000000 MALLOC_TOP_PAD_=100000000)"
loops=$(( runs / 100 ))
start=$(date +%s%N)
for _ in $(seq "$loops"); do "$program" run "$file" --invoke run > /dev/null || true; done
took=$(( $(date +%s%N) - start ))
echo "a loop of processes: $(( loops * 1000000000 / took )) runs a second"
gone_through() {
    local name=$1 out user system kib states
    shift
    out=$(/usr/bin/time -f '%U %S %M' -o "$work/took" "$program" search "$top/examples/search/$name.wasm" --invoke f --all \
        --states 1000000000 --orders all "$@" | grep -E '^(not )?all: ')
    read -r user system kib < <(tail -n 1 "$work/took")
    states=$(sed -n 's/^all: .* endings*, \([0-9]*\) states*.*$/\1/p' <<< "$out")
    awk -v what="$name $*" -v said="$out" -v n="${states:-0}" -v t="$user" -v u="$system" -v kib="$kib" 'BEGIN {
        s = t + u; if (s <= 0) s = 0.01
        if (!n) { print what ": " said; exit }
        printf "%s: %s; %.1f s, %.0f states a second, %d MiB, %.0f bytes a state\n", what, said, s, n / s, kib / 1024, kib * 1024 / n
    }'
}
# The states of a program's search where nothing races, and of every order: compared are the endings.
looked_through() {
    local free every
    free=$("$program" search "$1" --invoke main --all --states 1000000000 | grep -vE '^(every|whether)')
    every=$("$program" search "$1" --invoke main --all --states 1000000000 --orders all | grep -vE '^(every|whether)')
    echo "${2:-$(basename "$1" .wasm)}: $(tail -n 1 <<< "$free"); in every order $(tail -n 1 <<< "$every")"
    [ "$(grep '^thread' <<< "$free" | sort)" = "$(grep '^thread' <<< "$every" | sort)" ] || echo "  OTHER ENDINGS"
}
for name in mutex ticket_lock reader_writer_lock bounded_queue read_copy_update barrier seqlock; do
    looked_through "$top/examples/c/$name.wasm"
done
if command -v clang >/dev/null && command -v wasm-ld >/dev/null; then
    "$top/c/wathread-cc" -O0 "$top/examples/c/mutex.c" -o "$work/mutex-O0.wasm"
    looked_through "$work/mutex-O0.wasm" "mutex at -O0"
fi
# Where nothing races, by one thread, two and four: by the clock, the least of TIMES, and whether the same is printed.
by_jobs() {
    local jobs took least line="$(basename "$1" .wasm):"
    for jobs in 1 2 4; do
        least=
        for _ in $(seq "${TIMES:-3}"); do
            took=$( { TIMEFORMAT=%R; time "$program" search "$1" --invoke main --all --states 1000000000 --jobs "$jobs" > "$work/by$jobs"; } 2>&1 )
            least=$(awk -v a="$took" -v b="${least:-$took}" 'BEGIN { print (a < b ? a : b) }')
        done
        line+=" $jobs jobs $least s;"
        cmp -s "$work/by1" "$work/by$jobs" || line+=" OTHER LINES;"
    done
    echo "${line%;}"
}
for name in bounded_queue philosophers ticket_lock counter; do
    by_jobs "$top/examples/c/$name.wasm"
done
gone_through peterson 20
gone_through mutex 3 3
gone_through tickets 3 4
gone_through queue 1
gone_through queue 2
machine
