#!/bin/bash
# tests/clang.sh [WATHREAD]: a module does what its source says, whatever clang would make of it: by each clang of 14, 16,
# 19 and 22 that is there, at -O0 to -O3. CLANGS="14" and LEVELS="1 2" name fewer. It wants node.
set -u
here=$(cd "$(dirname "$0")/.." && pwd)
wathread=${1:-$here/../wathread}
work=$(mktemp -d)
trap 'rm -rf "$work"' EXIT
m=$work/m.wasm wrong=0 version=14 level=1

say() {
    echo "WRONG: clang $version -O$level: $*"
    wrong=$((wrong + 1))
}

build() { # words of wathread-cc
    echo "$*" >>"$work/tried"
    CC=clang-$version "$here/wathread-cc" --threads 2 --stack 1024 --pool 1024 "-O$level" "$@" -o "$m" || say "build $*"
}

# all WORDS..: what a search of all orders of such a module says in its last three lines, and of races.
all() {
    build "$@"
    "$wathread" search "$m" --invoke main --all --states 300000 --jobs 1 2>&1
}

# ends WORDS..: there is one ending, without a trap or a race, and all ends.
ends() {
    local said
    said=$(all "$@")
    [[ $said == *'all: 1 ending, '*', no race'* && $said == *'every state can end'* && $said != *trap* ]] ||
        say "$*: $said"
}

# finds TEXT WORDS..: the search says this.
finds() {
    local text=$1 said
    shift
    said=$(all "$@")
    [[ $said == *"$text"* ]] || say "$*: not '$text': $said"
}

# The answers of 16 calls of a module's `test` by node.
by_node() {
    node -e 'const code = require("fs").readFileSync(process.argv[1]);
        const module = new WebAssembly.Module(code);
        for (let i = 0; i < 16; i++) {
            const { test } = new WebAssembly.Instance(module, {}).exports;
            console.log(`thread 0: ok i32:${test(i * 77) >>> 0}`);
        }' "$m"
}

by_wathread() {
    local i
    for i in {0..15}; do "$wathread" run "$m" --invoke test $((i * 77)) | head -n 1; done
}

exchanges() {
    build "$here/tests/clang_exchange.c"
    [ "$(by_node)" = "$(by_wathread)" ] || say "clang_exchange.c: node answers otherwise"
    ends "$here/tests/clang_unreachable.c"
    ends "$here/tests/clang_byte.c"
    "$wathread" search "$m" --invoke main --record "$work/r" --find ok --runs 1 >/dev/null 2>&1
    "$wathread" show "$m" "$work/r" | grep 'cmpxchg' | grep -qvE 'clang_byte\.c:13( |$)' && say "show: another line"
    CC=clang-$version "$here/wathread-cc" "-O$level" -S "$here/tests/clang_byte.c" -o "$work/m.s" &&
        CC=clang-$version "$here/wathread-cc" "-O$level" -c "$here/tests/clang_byte.c" -o "$work/m.o" || say "-S, -c"
    ends "$work/m.o"
    ends "$work/m.s"
    # what another made
    [ "$level" != 0 ] || return
    clang-$version --target=wasm32 -mcpu=mvp -matomics -mbulk-memory -msign-ext -ftls-model=local-exec -nostdlibinc \
        -isystem "$here/include" -O1 -c "$here/tests/clang_byte.c" -o "$work/m.o"
    CC=clang-$version "$here/wathread-cc" "$work/m.o" -o "$work/none" 2>"$work/said" && say "an unmasked one is taken"
    grep -q '^wathread-cc: in [a-z]*: a compare-exchange of 8 bits by .* wider (compile its source with wathread-cc)$' \
        "$work/said" || say "$(cat "$work/said")"
}

statics() {
    finds 'trap unreachable' "$here/tests/clang_static.c"
    finds 'trap unreachable' "$here/tests/clang_static.c" -DINSIDE -Wall -Wextra -Werror
    ends "$here/tests/clang_peterson.c"
}

reads() {
    local way
    for way in 1 2 3 4 5 6 7 8; do
        finds 'no race' "$here/tests/clang_reads.c" -DWAY=$way
    done
    finds 'with races' "$here/tests/clang_reads.c" -DBUG
    finds 'trap unreachable' "$here/tests/clang_twice.c"
}

volatiles() {
    finds 'with races' "$here/tests/clang_volatile.c"
    ends "$here/tests/clang_volatile.c" --volatile-atomic
    CC=clang-$version "$here/wathread-cc" "-O$level" --volatile-atomic "$here/tests/clang_packed.c" -o "$m" 2>"$work/said"
    grep -q '^wathread-cc: in [a-z_]*: volatile accesses that stay plain: ' "$work/said" || say "clang_packed.c: no line"
}

definitions() {
    ends "$here/tests/clang_weak.c"
    ends "$here/tests/clang_weak.c" -DSTRONG
    ends "$here/tests/clang_weak.c" -DHALF
}

# wasm-opt on the path, which would take the names away.
optimizers() {
    mkdir -p "$work/bin"
    printf '#!/bin/sh\nfor word in "$@"; do [ ! -f "$word" ] || : >"$word"; done\n' >"$work/bin/wasm-opt"
    chmod +x "$work/bin/wasm-opt"
    PATH=$work/bin:$PATH ends "$here/tests/clang_byte.c"
}

for version in ${CLANGS-14 16 19 22}; do
    command -v clang-$version >/dev/null || { echo "no clang-$version" && continue; }
    for level in ${LEVELS-0 1 2 3}; do
        before=$wrong
        exchanges
        statics
        reads
        volatiles
        definitions
        optimizers
        echo "clang $version -O$level: $((wrong - before)) wrong"
    done
done
echo "$(wc -l <"$work/tried") modules, $wrong wrong"
[ $wrong = 0 ]
