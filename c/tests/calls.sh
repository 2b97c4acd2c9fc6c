#!/bin/bash
# tests/calls.sh [WATHREAD [BUG]]: a plug-in with state is called 200 times, each time over the memory that the call before left, by
# a function of its own and by main, at -O0 to -O2 and with --orders c11; then calls over what one left that was stopped in
# the middle; then all orders of such a call. Then bugs, planted in the library, which have to be found. CC names the clang,
# CALLS=20 has fewer calls, BUGS=no plants none, and BUG is the only one that is tried.
set -u
here=$(cd "$(dirname "$0")/.." && pwd)
wathread=${1:-$here/../wathread}
only=${2-}
work=$(mktemp -d)
trap 'rm -rf "$work"' EXIT
m=$work/m.wasm wrong=0 tried=0 memory=locked

say() {
    echo "WRONG: $words: $*"
    wrong=$((wrong + 1))
}

build() { # folder, words of wathread-cc
    words=${*:2} tried=$((tried + 1))
    rm -f "$m"
    "$1/wathread-cc" --threads 4 --pool 65536 --orders sc "${@:2}" "$here/tests/calls.c" -o "$m" 2>"$work/err" || say build
    ! [ -s "$work/err" ] || say "$(head -n 1 "$work/err")"
    [ -e "$m" ]
}

anew() { rm -f "$work/memory"; } # the next call is a first one

# call FUNCTION WORDS..: a call over what the last one left. Its first line stays in `line`, its status in `status`.
call() {
    "$wathread" run "$m" --invoke "$1" --memory $memory --memory-out "$work/new" \
        $([ ! -e "$work/memory" ] || echo "--memory-in $work/memory@0") "${@:2}" >"$work/out" 2>/dev/null
    status=$? line=$(head -n 1 "$work/out")
    mv "$work/new" "$work/memory"
}

wants() { # status, line, function, words
    call "${@:3}"
    [ "$status $line" = "$1 $2" ] || { say "${*:3}: status $status: $line, and not $2" && return 1; }
}

# So many calls one after the other, of which each adds to what is told.
calls() { # function, how many, how much each adds
    local number
    anew
    for ((number = 0; number < $2; number++)); do
        wants 0 "thread 0: ok i32:$((($number + 1) * $3))" "$1" $([ "$1" = main ] || echo $number) || return
    done
}

# All that `orders` answers, by what a search says, as `0 1 11`, and behind it `all` where all is well.
answers() { # module
    "$wathread" search "$1" --invoke orders --all --states 100000 >"$work/out" 2>/dev/null
    local status=$?
    echo $(sed -nE 's/^thread 0: ok i32:([0-9]+);.*/\1/p' "$work/out" | sort -nu) \
        $([ $status = 0 ] && grep -qx 'every state can end' "$work/out" && grep -qx 'every fair run ends' "$work/out" && echo all)
}

later_orders() { # what is right
    local got
    "$here/wathread-over" "$m" "$work/memory" "$work/over.wasm" && got=$(answers "$work/over.wasm")
    [ "$got" = "$1" ] || say "in all orders of a later call '$got' and not '$1'"
}

# With --orders c11: which tables of the simulation are there still in a later call, where one before was stopped anywhere.
tables() { # words of wathread-cc
    local limit left kinds=('call 0' leave orders)
    build "$@" "-Wl,-Map=$work/map"
    for limit in $(seq 300 131 ${TABLES-6000}); do
        anew
        call ${kinds[limit % 3]} --limit $limit
        memory=words
        wants 0 'thread 0: ok i32:0' cleaned
        memory=locked
        left=$(python3 - "$work/map" "$work/memory" <<'END_OF_PYTHON'
import re
import sys
with open(sys.argv[1]) as lines, open(sys.argv[2], 'rb') as left:
    memory = left.read()
    for line in lines:
        found = re.match(r' *([0-9a-f]+) +[0-9a-f]+ +([0-9a-f]+) .*orders\.o:\(\.bss\.(\w+)\)', line)
        if found:
            at, size = int(found[1], 16), int(found[2], 16)
            if found[3] == 'orders':
                size -= (65536 // 32 + 1) * 8           # blocks that were freed stay so
            if any(memory[at:at + size]):
                print(found[3])
END_OF_PYTHON
        )
        left=$(grep -vxE 'results|slots_of_starts|chosen' <<<"$left")
        [ -z "$left" ] || { say "behind --limit $limit there is" $left && return; }
    done
}

# What a call leaves that ended in the middle.
middles() { # what all orders of `orders` answer
    local limit number
    anew
    wants 1 'thread 0: ok i32:0' hold 0 && wants 0 'thread 0: ok i32:0' held && wants 0 'thread 0: ok i32:100' cleaned
    anew
    wants 1 'thread 0: ok i32:0' hold 1 && wants 0 'thread 0: ok i32:0' held && wants 0 'thread 0: ok i32:100' cleaned
    anew
    wants 1 'thread 0: trap unreachable' hold 2 && wants 0 'thread 0: ok i32:0' held &&
        wants 0 'thread 0: ok i32:100' cleaned
    anew
    wants 0 'thread 0: ok i32:0' take && call leave && wants 0 'thread 0: ok i32:0' take &&
        wants 0 'thread 0: ok i32:0' give && wants 0 'thread 0: ok i32:0' give && wants 0 'thread 0: ok i32:1' give
    anew
    memory=words
    wants 0 'thread 0: ok i32:0' leave && later_orders "$1"
    memory=locked
    anew
    for number in {1..8}; do
        call orders
        [ $status = 0 ] || say "orders: status $status: $line"
    done
    later_orders "$1"
    for limit in ${LIMITS-40 100 200 400 700 1200 2000 3000 5000 8000}; do
        anew
        call leave --limit $limit
        later_orders "$1"
        memory=words
        for ((number = 0; number < 3; number++)); do
            wants 0 "thread 0: ok i32:$((($number + 1) * $each))" call $number || break
        done
        memory=locked
        [ $number = 3 ] || return
    done
}

try() { # how much each call adds, what all orders answer, words
    [ -z "$only" ] || return
    each=$1
    build "$here" "${@:3}"
    memory=words                                        # where the simulation's turns fill no record
    calls call "${CALLS-200}" $each
    calls main "${CALLS-200}" $each
    memory=locked
    [ $each = 3 ] || calls call $((${CALLS-200} / 4)) $each
    [ "$(answers "$m")" = "$2" ] || say "$(answers "$m")"
    middles "$2"
}

planted() { # what, an edit by sed, a file, what to do, words
    local before=$wrong
    [ "${BUGS-}" != no ] && [ "${only:-$1}" = "$1" ] || return
    rm -rf "$work/c"
    mkdir "$work/c"
    cp -R "$here/wathread-cc" "$here/wathread-link" "$here/include" "$here/lib" "$work/c"
    sed -E -i "$2" "$work/c/$3"
    ! cmp -s "$here/$3" "$work/c/$3" || echo "no change: $1"
    build "$work/c" "${@:5}"
    eval "$4" >"$work/said"
    [ $wrong -gt $before ] && echo "found: $1: $(head -n 1 "$work/said" | cut -c8-)" && wrong=$before && return
    words=$1
    say 'NOT FOUND'
}

for level in ${LEVELS-0 1 2}; do
    try 9 '0 1 11 all' -O$level
done
[ -n "$only" ] || { build "$here" -O1 --reuse --pool 1024 && calls call "${CALLS-200}" 9; }
[ "${ORDERS-}" = no ] || try 3 '0 1 10 11 all' -O1 --orders c11 -DC11
[ -n "${ORDERS-}$only" ] || tables "$here" -O1 --orders c11 -DC11

each=9
planted 'threads of a call before are there' '/^            forget_threads\(/s/forget.*/;/' lib/threads.c 'calls call 3 9' -O1
planted 'a thread has what one before left' '/^	call	__wathread_values_anew/d' lib/start.s 'calls call 3 9' -O1
planted 'all values are zero at first' 's/^    if \(first\)/    if (0)/' lib/calls.c 'calls call 3 9' -O1
planted 'what atexit was given is of all calls' 's/^    int count = is_begun\(list, 1\).*/    is_begun(list, 1);\n    int count = list->count;/' \
    lib/threads.c 'calls call 10 9' -O1
planted 'a mutex takes a thread for one before' 's/__wathread_owner\(\)/thread_self()/' lib/mutex.c "LIMITS= middles '0 1 11 all'" -O1
planted 'what is cleaned up is of all calls' 's/^static int cleans_up\(int more\).*/static int cleans_up(int more) { return 1; }/' \
    lib/threads.c "LIMITS= middles '0 1 11 all'" -O1
planted 'a key that was deleted comes no more' 's/^    take_keys_back\(\);//' lib/threads.c 'calls call 130 9' -O1
planted 'constructors are called each time' 's/^        .kept.CONSTRUCTED. = 1;//' lib/calls.c 'calls call 3 9' -O1
planted 'constructors are called by main alone' 's/if \(__wathread_constructs\(\)/if (0/' lib/calls.c 'calls call 3 9' -O1
planted 'a call from within is a new one' 's/^	global.set	thread_came/	drop/' lib/start.s 'calls call 3 9' -O1
planted 'a thread forgets what it freed' '/^    have_freed\(freed\);/d' lib/calls.c "calls call 200 9" -O1 --reuse --pool 1024
if [ "${ORDERS-}" != no ]; then
    each=3
    c11='-O1 --orders c11 -DC11'
    planted 'what was simulated goes on' '/^        orders_forget\(\);/d' lib/threads.c "middles '0 1 10 11 all'" $c11
    planted 'half an operation stays' 's/if \(gate & HELD\)/if (0)/' lib/orders.c 'tables "$work/c" $c11' $c11
    planted 'the gate stays shut' 's/^    gate = running/    running/' lib/orders.c "middles '0 1 10 11 all'" $c11
    planted 'the helper is one that is gone' 's/^    simulates = helper = /    simulates = /' lib/orders.c \
        "middles '0 1 10 11 all'" $c11
    planted 'the helper has chosen' '/^        dice\[thread\] = IDLE;/d' lib/orders.c 'tables "$work/c" $c11' $c11
    planted 'who waits is there' 's/^        joiner\[t\] = queue\[t\] = 0;//' lib/orders.c 'tables "$work/c" $c11' $c11
    planted 'who returns without a join keeps others out' 's/orders_left\(\)/(void)0/' lib/calls.c \
        "middles '0 1 10 11 all'" $c11
fi

words=wathread-over
build "$here" -O1 && cp "$m" "$work/module.wasm"
head -c 65536 /dev/zero >"$work/memory"
"$here/wathread-over" "$m" "$work/memory" "$m" 2>"$work/err" && say 'not refused: a memory of another size'
grep -q '[0-9] bytes of memory at first, and MEMORY 65536' "$work/err" || say "$(cat "$work/err")"
cmp -s "$m" "$work/module.wasm" || say 'what is refused is written'

echo "$tried modules, $wrong wrong"
[ $wrong = 0 ]
