#!/bin/bash
# tests/nondet.sh [WATHREAD]: nondet.c's ways of asking come to each number and to no other one in all orders, with no race, and
# every state can end; drawn runs come to each too; then bugs, planted in the library, which have to be found. CC names the
# clang, LEVELS="0 1" has fewer than -O0 to -O2, and BUGS=no plants none.
set -u
here=$(cd "$(dirname "$0")/.." && pwd)
wathread=${1:-$here/../wathread}
work=$(mktemp -d)
trap 'rm -rf "$work"' EXIT
m=$work/m.wasm wrong=0 tried=0 invoked=main

say() {
    echo "WRONG: $words: $*"
    wrong=$((wrong + 1))
}

build() { # folder, words of wathread-cc
    words=${*:2} tried=$((tried + 1))
    rm -f "$m"
    "$1/wathread-cc" --threads 3 --stack 1024 --pool 1024 "${@:2}" "$here/tests/nondet.c" -o "$m" 2>"$work/err" || say build
    ! [ -s "$work/err" ] || say "$(head -n 1 "$work/err")"
}

# What main comes to in all orders, as `0 1 10 11`, and behind it `all`, where no thread fails, races or goes on for ever.
found() {
    "$wathread" search "$m" --invoke $invoked --all --states 100000 >"$work/out" 2>/dev/null
    local status=$?
    echo $(sed -nE 's/^thread 0: ok i32:([0-9]+);.*/\1/p' "$work/out" | sort -nu) \
        $([ $status = 0 ] && grep -qx 'every state can end' "$work/out" && grep -qx 'every fair run ends' "$work/out" && echo all)
}

right() { # what is wanted, how many endings, words
    local got level
    for level in ${LEVELS-0 1 2}; do
        build "$here" -O$level "${@:3}"
        got=$(found)
        [ "$got" = "$1 all" ] || say "'$got' and not '$1 all'"
        grep -q "^all: $2 ending" "$work/out" || say "$(grep all: "$work/out")"
    done
}

drawn() { # the same of drawn runs
    local got
    "$wathread" search "$m" --invoke main --runs 2000 >"$work/out" 2>/dev/null
    got=$(echo $(sed -nE 's/.* thread 0: ok i32:([0-9]+);.*/\1/p' "$work/out" | sort -nu))
    [ "$got" = "$1" ] || say "drawn runs come to '$got' and not to '$1'"
}

planted() { # what, what is right, an edit by sed, words
    local got
    [ "${BUGS-}" != no ] || return
    rm -rf "$work/c"
    mkdir "$work/c"
    cp -R "$here/wathread-cc" "$here/wathread-link" "$here/include" "$here/lib" "$work/c"
    sed -E -i "$3" "$work/c/lib/choices.c"
    ! cmp -s "$here/lib/choices.c" "$work/c/lib/choices.c" || say "no change: $1"
    build "$work/c" "${@:4}"
    got=$(found)
    [ "$got" != "$2 all" ] || say "NOT FOUND: $1"
    echo "found: $1: $got $(grep -cE 'asleep|trap|no run ends' "$work/out")"
}

right '0 1 2 3 4 5 6' 7 -DWAY=0 -DLOW=-3 -DHIGH=3
drawn '0 1 2 3 4 5 6'
right '0' 1 -DWAY=0 -DLOW=5 -DHIGH=5
! grep -q 'thread 1' "$work/out" || say 'a helper where nothing is to be chosen'
right '0 1 10 11' 4 -DWAY=1
drawn '0 1 10 11'
right '0 1 10 11 100 101 110 111 1000 1001 1010 1011 1100 1101 1110 1111' 16 -DWAY=2
right '0 1 2' 3 -DWAY=3
right '0 1 10 11' 4 -DWAY=4
right '0' '[1-4]' -DWAY=5
invoked=other right '0 1' 2 -DWAY=6
right '0 1 2 3 12 13 23' 7 -DWAY=7 -DN=1
right '0 11' 2 -DWAY=9
LEVELS=1 right '0 1 10 11 100 101 110 111 1000 1001 1010 1011 1100 1101 1110 1111' 16 -DWAY=2 --orders c11
words='-DWAY=8' LEVELS=1
build "$here" -O1 -DWAY=8
found >"$work/got"
grep -q 'thread 0: trap unreachable' "$work/out" || say 'no trap where another thread is there'
words='--threads 63'
"$here/wathread-cc" --threads 63 -DWAY=0 "$here/tests/nondet.c" -o "$m" 2>"$work/err" && say 'not refused'
grep -q '63: with nondet it takes 1 to 62' "$work/err" || say "$(cat "$work/err")"

planted 'a number is left out' '0 1 2 3 4 5 6' 's/low = middle \+ 1;/low = middle + 1 + (middle == 0);/' \
    -DWAY=0 -DLOW=-3 -DHIGH=3
planted 'one too many' '0 1 2 3 4 5 6' 's/^    chosen = low;/    low += low == high \&\& low == 3;\n&/' -DWAY=0 -DLOW=-3 -DHIGH=3
planted 'nothing comes but the least' '0 1 10 11' 's/(define chooses_upper\(\)) notify_all.*/\1 0/' -DWAY=1
planted 'the helper is not told that it is over' '0 1 10 11' '/tell_helper\(was & NUMBER, OVER\)/s/tell.*/;/' -DWAY=1
planted 'it is not woken where it becomes a thread' '0 1 10 11' '/^    notify_all\(&becomes\[helper\]\);/d' -DWAY=1
planted 'who starts one lets nobody else go on' '0 1 10 11' 's/^        chooser = was & MAIN;/        ;/' -DWAY=1
planted 'two start a helper' '0 1 10 11' 's/^        was &= MAIN;/        break;/' -DWAY=4
planted 'what is assumed is not' '0 1 2 3 12 13 23' 's/^    __wathread_leave\(0\);//' -DWAY=7 -DN=1

echo "$tried programs, $wrong wrong"
[ $wrong = 0 ]
