#!/bin/bash
# tests/rust.sh [WATHREAD]: compare-exchanges of 8 and 16 bits in Rust, whose lines stay right, and what wathread-rustc
# refuses. RUSTC names a rustc with the library of wasm32-unknown-unknown; without one nothing is tried. CLANGS="14" and
# LEVELS="0 2" name what is tried.
set -u
here=$(cd "$(dirname "$0")/.." && pwd)
wathread=$(readlink -f "${1:-$here/../wathread}")
work=$(mktemp -d)
trap 'rm -rf "$work"' EXIT
cd "$work" || exit 1
wrong=0 tried=0

say() {
    echo "WRONG: $*"
    wrong=$((wrong + 1))
}

# refuses TEXT WORDS..: the call says one line with the text, with status 1, and m.wasm is what it was.
refuses() {
    local text=$1 status
    shift
    tried=$((tried + 1))
    echo old >m.wasm
    "$here/wathread-rustc" "$@" >out.text 2>err.text
    status=$?
    [ $status = 1 ] || say "status $status: $*"
    [ "$(wc -l <err.text)" = 1 ] && [ ! -s out.text ] || say "not one line: $*: $(head -3 err.text)"
    [[ $(cat err.text) = "wathread-rustc: "*"$text"* ]] || say "said '$(head -3 err.text)' and not '$text': $*"
    [ "$(cat m.wasm)" = old ] && [ ! -e a.wasm ] || say "OUT is changed: $*"
}

# counts LEVEL: narrow.rs has one ending, and its exchange is on its line.
counts() {
    local said lines=()
    tried=$((tried + 1))
    [ "$1" != 0 ] || lines=(-C debuginfo=0)
    "$here/wathread-rustc" -C opt-level="$1" "${lines[@]}" "$here/tests/narrow.rs" -o m.wasm ||
        say "clang $version, $1: no module"
    said=$("$wathread" search m.wasm --invoke main --all --states 300000 --jobs 1 2>&1)
    [[ $said = *'thread 0: ok i32:7;'*'all: 1 ending, '*', no race'*'every state can end'* ]] ||
        say "clang $version, $1: $said"
    [ "$1" != 0 ] || return
    rm -f run
    "$wathread" run m.wasm --invoke main --record run >/dev/null 2>&1
    "$wathread" show m.wasm run --addr COUNT | grep cmpxchg | head -1 | grep -q 'narrow\.rs:27' ||
        say "clang $version, $1: no line"
}

echo '#![no_std]
#[panic_handler] fn panic(_: &core::panic::PanicInfo) -> ! { core::arch::wasm32::unreachable() }' >none.rs
{ cat none.rs && echo 'extern "C" { fn ftok() -> i32; } #[export_name = "__main_void"] pub extern "C" fn main() -> i32 { unsafe { ftok() } }'; } >ftok.rs
{ cat none.rs && echo 'static T: [u8; 2000000] = [1; 2000000];
#[export_name = "__main_void"] pub extern "C" fn main() -> i32 { unsafe { core::ptr::read_volatile(&T[5]) as i32 } }'; } >large.rs
echo 'int main(void) { return 0; }' >ok.c
mkdir dir

refuses 'no source' -o m.wasm
refuses 'dir is a folder' dir -o m.wasm
refuses 'ok.c is no source of Rust' ok.c -o m.wasm
refuses 'm.wasm is no source of Rust' none.rs m.wasm
refuses 'none.rs and ftok.rs: it takes one source' none.rs ftok.rs -o m.wasm
refuses '-C wants a value' none.rs -o m.wasm -C
refuses '-o wants a path' none.rs -o ''
refuses '-o wants a value' none.rs -o
refuses 'dir is a folder' none.rs -o dir
refuses "--target: the target is always wasm32" none.rs -o m.wasm --target x86_64-unknown-linux-gnu

if "${RUSTC:-rustc}" --print target-libdir --target wasm32-unknown-unknown 2>/dev/null | xargs -r ls >/dev/null 2>&1; then
    for version in ${CLANGS-14 16 19}; do
        export CC=clang-$version
        command -v "$CC" >/dev/null || { echo "no $CC" && continue; }
        refuses '--threads 64: it takes 1 to 63' none.rs -o m.wasm --threads 64
        refuses 'there is no main: #[export_name = "__main_void"] pub extern "C" fn main()' none.rs -o m.wasm
        refuses 'ftok.rs: undefined symbol: ftok' ftok.rs -o m.wasm
        refuses 'one may have 1048576: -C debuginfo=0 takes its lines away' large.rs -o m.wasm
        for level in ${LEVELS-0 2}; do counts "$level"; done
    done
else
    echo "no rustc with the library of wasm32-unknown-unknown"
fi
echo "$tried calls, $wrong wrong"
[ $wrong = 0 ]
