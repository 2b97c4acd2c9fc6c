#!/bin/bash
# Refuses the program each allocation in turn, from the first to the last, in each command, over three modules and both memories.
# It must say `no memory` or, where threads are started, `no thread`, with status 5, nothing on standard output and no record; or
# give the answer of an untroubled run, with all of its record. Nothing is refused once a thread made a turn: thread 0 of a module
# that goes round for good then goes on. Wants cc.
set -u
. "$(dirname "$0")/common.sh"
cp "$program" "$work/wathread"
cp "$top"/examples/{atomic_add,counting}.wasm "$top/crates/cases/data/c_one_word_lock.wasm" "$work"
cc -O2 -shared -fPIC "$top/bench/refuse.c" -o "$work/refuse.so" || exit 1
cd "$work" || exit 1
# (import "wasi" "thread-spawn" ..) (memory 1 1 shared) (func (export "f") (loop $round br $round))
# (func (export "wasi_thread_start") (param i32 i32))
printf '%b' '\x00\x61\x73\x6d\x01\x00\x00\x00' '\x01\x0e\x03\x60\x01\x7f\x01\x7f\x60\x00\x00\x60\x02\x7f\x7f\x00' \
    '\x02\x15\x01\x04wasi\x0cthread-spawn\x00\x00' '\x03\x03\x02\x01\x02' '\x05\x04\x01\x03\x01\x01' \
    '\x07\x19\x02\x01\x66\x00\x01\x11wasi_thread_start\x00\x02' '\x0a\x0c\x02\x07\x00\x03\x40\x0c\x00\x0b\x0b\x02\x00\x0b' \
    >endless.wasm
wrong=0 most=100000

# Runs a command with one allocation refused: with REFUSE COMMAND.. Leaves status, out, err; answers whether one was refused.
with() {
    local number=$1
    shift
    rm -f mark
    timeout "${seconds:-20}" env REFUSE="$number" MARK="$work/mark" LD_PRELOAD="$work/refuse.so" "$@" >out 2>err </dev/null
    status=$?
    [ -e mark ]
}

say() {
    echo "wrong: allocation $number refused, status $status, $(head -c 200 err): $*"
    wrong=$((wrong + 1))
}

# Refuses each allocation of a command in turn. The record, if there is one, is at a.record.
each() {
    local number refused=0 status wanted
    echo old >a.record
    with 0 "$@"
    wanted=$status
    cp out wanted.out
    cp err wanted.err
    for ((number = 1; number < most; number++)); do
        echo old >a.record
        with $number "$@" || break
        if [ "$status" = 5 ] && [ ! -s out ] && [[ $(<err) =~ ^no\ (memory|thread)$ ]]; then
            refused=$((refused + 1))
            [ "$(<a.record)" = old ] || say "the record is another: $*"
        elif [ "$status" = "$wanted" ] && cmp -s out wanted.out && cmp -s err wanted.err; then
            [ "$(<a.record)" = old ] || [ "$(tail -n 1 a.record)" = finish ] || say "half a record: $*"
        else
            say "$*"
        fi
        [ -z "$(find . -maxdepth 1 -name '.wathread-*')" ] || say "a file was left: $*"
    done
    echo "$((number - 1)) allocations, $refused of them told: $*"
    [ $number -gt 1 ] || say "none was refused: $*"
}

# The same of a run that goes on for good once it has begun.
each_before_begin() {
    local number status refused=0 seconds=0.7
    for ((number = 1; number < most; number++)); do
        with $number "$@" || break
        if [ "$status" = 5 ] && [[ $(<err) =~ ^no\ (memory|thread)$ ]]; then
            refused=$((refused + 1))
        elif [ "$status" != 124 ] || [ -s out ] || [ -s err ]; then
            say "$*"
        fi
    done
    echo "$((number - 1)) allocations before and in the run, $refused of them told: $*"
}

each ./wathread --help
each ./wathread run
each ./wathread check $'\xff'
each ./wathread check nothing.wasm
for file in atomic_add counting c_one_word_lock; do
    each ./wathread check $file.wasm
    for memory in locked words; do
        each ./wathread run $file.wasm --invoke f --memory $memory --dump 16
    done
    each ./wathread run $file.wasm --invoke f --record a.record
    ./wathread run $file.wasm --invoke f --record kept.record >out
    each ./wathread replay $file.wasm kept.record
done
for memory in locked words; do
    each_before_begin ./wathread run endless.wasm --invoke f --fuel 1000000000000 --memory $memory
done
echo "$wrong wrong"
[ $wrong -eq 0 ]
