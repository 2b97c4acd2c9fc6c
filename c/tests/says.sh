#!/bin/bash
# tests/says.sh [WATHREAD]: `run --text` and `replay --text` print what three threads of says.c print, at -O0 to -O2 and with
# --orders c11, and what an assert says that fails; a program that prints nothing has no section of it; and to print takes
# few entries, since drawn runs don't meet what comes behind many. CC names the clang.
set -u
here=$(cd "$(dirname "$0")/.." && pwd)
wathread=${1:-$here/../wathread}
work=$(mktemp -d)
trap 'rm -rf "$work"' EXIT
m=$work/m.wasm wrong=0 tried=0

say() {
    echo "WRONG: $words: $*"
    wrong=$((wrong + 1))
}

build() { # words of wathread-cc
    words=$* tried=$((tried + 1))
    "$here/wathread-cc" --threads 2 "$@" -o "$m" || say build
}

# Whether a run and its replay print just these lines in front of the threads'.
prints() {
    "$wathread" run "$m" --invoke main --text --record "$work/record" >"$work/run" 2>/dev/null
    "$wathread" replay "$m" "$work/record" --text >"$work/replay" 2>/dev/null
    grep ' says: ' "$work/run" | cmp -s - "$1" || say "printed $(grep ' says: ' "$work/run")"
    cmp -s "$work/run" "$work/replay" || say 'the replay prints something else'
    [ "$(grep -n '^thread 0: ' "$work/run" | cut -d: -f1)" = $(($(wc -l <"$1") + 1)) ] || say 'the threads stand elsewhere'
}

cat >"$work/wanted" <<END
t0 says: two lines
t0 says: of one call
t1 says: worker 1 of two, which is more than eight letters
t2 says: worker 2 of two, which is more than eight letters
t1 says: 
t2 says: 
t0 says: 
t0 says: a|1
t0 says: ababcabcdabcdeabcdefabcdefgabcdefghthe eighth|8
t0 says: abcdefghi|9
t0 says: abcdefghijabcdefghijkabcdefghijklabcdefghijklmabcdefghijklmnabcdefghijklmnoabcdefghijklmnopthe eighth|16
t0 says: abcdefghijklmnopq|17
t0 says: open
t1 says: no line feed from 1
t2 says: no line feed from 2
END
for shape in -O0 -O1 -O2 '--orders c11'; do
    # shellcheck disable=SC2086
    build $shape "$here/tests/says.c"
    prints "$work/wanted"
done

line=$(grep -n 'assert(turn' "$here/tests/says.c" | cut -d: -f1)
sed -i "s/^t0 says: open$/&\\nt0 says: says.c:$line: turn == 7/" "$work/wanted"
cp "$here/tests/says.c" "$work"
words='-DBUG' tried=$((tried + 1))
(cd "$work" && "$here/wathread-cc" --threads 2 -DBUG says.c -o "$m") || say build
prints "$work/wanted"
grep -q '^thread 0: trap unreachable$' "$work/run" || say 'no trap'

build -x c - <<<'int main(void) { return 0; }'
grep -q wathread.text "$m" && say 'a section where nothing is printed'

build -x c - <<<'#include <stdio.h>
int main(void) { return printf("half: %f\n", 0.5); }' -w -O1
"$wathread" run "$m" --invoke main --explain 2>&1 | grep -q 'trap unreachable at printf_has_no_floats' || say "no trap of its own"

build -x c - <<<'#include <stdio.h>
int main(void) { return printf("%s %d of %08x\n", "thread", -12345, 0xBEEFu) != 26; }'
"$wathread" run "$m" --invoke main --record "$work/record" >"$work/run"
grep -qx 'thread 0: ok i32:0' "$work/run" || say "$(head -n 1 "$work/run")"
entries=$("$wathread" show "$m" "$work/record" | grep -c '^ .* t0 ')
[ "$entries" -le 50 ] || say "$entries entries for a line"

echo "$tried programs, $wrong wrong"
[ $wrong = 0 ]
