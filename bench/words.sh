#!/bin/bash
# Stores and loads of words in turn, over the recorder and over the row of words, by one thread and by two whose words are
# apart: of the memories alone (`bench`, beside a plain Rust program of AtomicU64), and by the whole program on
# modules (beside node with worker threads on the same modules; they import their memory, so that node can share it).
# Nanoseconds an access of one thread, by the clock. Of the program it is a run less one of eight accesses; of the others
# their own time; node makes ten times as many, since it is done so soon. `two` is what two threads do in the time of one: 2 would be twice as much.
# Then the six events that are one step on a word, each alone, by one thread over words and in plain Rust; and additions by four
# threads to one word, as one step (8 bytes) and as an exchange that may be lost and is made again (4 bytes).
# Needs wabt, node, rustc and python3. ROUNDS=N: how often each runs.
set -eu
source "$(dirname "$0")/common.sh"
(cd "$top/crates/bench" && rt run -- memory words stores turns 1 1000 >/dev/null)
rustc -O -o "$work/plain" "$top/bench/plain.rs"
bench=$top/crates/bench/out/bench

machine
printf '%-34s %9s %9s %6s\n' 'memory alone' '1 thread' '2 threads' two
few=500000
many=10000000
for change in stores adds; do
    "$top/bench/least.py" "$rounds" locked1="$bench memory locked $change turns 1 $few time" \
        locked2="$bench memory locked $change turns 2 $((2 * few)) time" words1="$bench memory words $change turns 1 $many time" \
        words2="$bench memory words $change turns 2 $((2 * many)) time" plain1="$work/plain $change turns 1 $many" \
        plain2="$work/plain $change turns 2 $((2 * many))" >"$work/times"
    awk -v change=$change -v few=$few -v many=$many '{ ns[$1] = $4 * 1e6 } END {
        split("locked words plain", sides)
        for (i = 1; i <= 3; i++) {
            s = sides[i]; n = s == "locked" ? few : many
            one = ns[s "1"] / n; two = ns[s "2"] / n; of[s] = one
            printf "%-34s %9.1f %9.1f %6.2f\n", change " and loads, " s, one, two, 2 * one / two
        }
        printf "  recorder/words %.1f, words/plain %.1f\n", of["locked"] / of["words"], of["words"] / of["plain"]
    }' "$work/times"
done

echo
printf '%-34s %9s %9s %6s\n' 'one step, 1 thread' words plain ratio
sides=()
for change in stores swaps adds ands ors xors; do
    sides+=("words-$change=$bench memory words $change apart 1 $many time" "plain-$change=$work/plain $change apart 1 $many")
done
"$top/bench/least.py" "$rounds" "${sides[@]}" >"$work/times"
awk -v many=$many '{ ns[$1] = $4 * 1e6 / many } END {
    split("stores swaps adds ands ors xors", changes)
    for (i = 1; i <= 6; i++) {
        c = changes[i]
        printf "%-34s %9.1f %9.1f %6.2f\n", c, ns["words-" c], ns["plain-" c], ns["words-" c] / ns["plain-" c]
    }
}' "$work/times"

echo
printf '%-34s %9s %9s %9s\n' 'additions, one word' '8 bytes' '4 bytes' plain
"$top/bench/least.py" "$rounds" one="$bench memory words adds together 4 $many time" \
    exchange="$bench memory words narrow-adds together 4 $many time" plain="$work/plain adds together 4 $many" >"$work/times"
awk -v many=$many '{ ns[$1] = $4 * 1e6 / many } END {
    printf "%-34s %9.1f %9.1f %9.1f\n", "4 threads", ns["one"], ns["exchange"], ns["plain"]
    printf "  4 bytes/8 bytes %.2f, 8 bytes/plain %.2f\n", ns["exchange"] / ns["one"], ns["one"] / ns["plain"]
}' "$work/times"

echo
printf '%-34s %9s %9s %6s\n' 'the program' '1 thread' '2 threads' two
alone=$(module words/alone)
apart=$(module words/disjoint)
times=112500
half=56250
node="node --no-wasm-dynamic-tiering $top/bench/node.js"
"$top/bench/least.py" "$rounds" \
    lockedA="$(run_of locked "$alone" $times)" lockedA0="$(run_of locked "$alone" 1)" \
    locked1="$(run_of locked "$apart" 1 $half)" locked2="$(run_of locked "$apart" 2 $half)" locked0="$(run_of locked "$apart" 1 1)" \
    wordsA="$(run_of words "$alone" $times)" wordsA0="$(run_of words "$alone" 1)" \
    words1="$(run_of words "$apart" 1 $times)" words2="$(run_of words "$apart" 2 $times)" words0="$(run_of words "$apart" 1 1)" \
    nodeA="$node $alone 0 $((10 * times))" node1="$node $apart 2 1 $((10 * times))" node2="$node $apart 2 2 $((10 * times))" >"$work/times"
awk -v times=$times -v half=$half '{ wall[$1] = $2; own[$1] = $4 } END {
    all = 8 * times
    l = (wall["lockedA"] - wall["lockedA0"]) * 1e6 / all
    w = (wall["wordsA"] - wall["wordsA0"]) * 1e6 / all
    n = own["nodeA"] * 1e5 / all
    printf "%-34s %9.1f\n%-34s %9.1f\n%-34s %9.1f\n", "alone, recorder", l, "alone, words", w, "alone, node", n
    printf "  recorder/words %.2f, words/node %.1f\n", l / w, w / n
    l1 = (wall["locked1"] - wall["locked0"]) * 1e6 / 8 / half; l2 = (wall["locked2"] - wall["locked0"]) * 1e6 / 8 / half
    w1 = (wall["words1"] - wall["words0"]) * 1e6 / all; w2 = (wall["words2"] - wall["words0"]) * 1e6 / all
    n1 = own["node1"] * 1e5 / all; n2 = own["node2"] * 1e5 / all
    printf "%-34s %9.1f %9.1f %6.2f\n", "spawned, own words, recorder", l1, l2, 2 * l1 / l2
    printf "%-34s %9.1f %9.1f %6.2f\n", "spawned, own words, words", w1, w2, 2 * w1 / w2
    printf "%-34s %9.1f %9.1f %6.2f\n", "spawned, own words, node", n1, n2, 2 * n1 / n2
}' "$work/times"
