#!/bin/bash
# tests/names.sh [WATHREAD]: races say whose stack or whose thread-local data they are about, and `show` finds these by
# their names, at -O0 to -O2, by the map alone, and with --orders c11. CC names the clang.
set -u
here=$(cd "$(dirname "$0")/.." && pwd)
wathread=${1:-$here/../wathread}
work=$(mktemp -d)
trap 'rm -rf "$work"' EXIT
m=$work/m.wasm wrong=0 tried=0

say() {
    echo "WRONG: $words: $*"
    wrong=$((wrong + 1))
}

build() { # words of wathread-cc
    words=$* tried=$((tried + 1))
    "$here/wathread-cc" --threads 2 --stack 1024 --pool 64 "$@" "$here/tests/names.c" -o "$m" || say build
}

# Where both accesses of a race of `change` are, by what drawn runs say.
races() {
    "$wathread" search "$m" --invoke main --races --runs 1000 2>&1 | sed -nE \
        's/^race: [^,]*[0-9)]( at ([^,]*))?, entry [0-9]*, change[^;]*; [^,]*[0-9)]( at ([^,]*))?, entry [0-9]*, change.*/\2 \4/p' |
        head -n 1
}

# names WAY WANTED: both accesses have this name, a pattern.
names() {
    local found
    build "${shape[@]}" -DWAY="$1"
    found=$(races)
    # shellcheck disable=SC2053
    [[ -n $found && ${found% *} = $2 && ${found#* } = "${found% *}" ]] || say "'$found' and not '$2'"
}

# shown NAME WANTED: so many rows of a run are at data of this name.
shown() {
    local found
    found=$("$wathread" show "$m" "$work/record" --addr "$1" 2>&1 | grep -c ' at ')
    [ "$found" = "$2" ] || say "$found rows of $1, and not $2"
}

for shape in "-O0" "-O1" "-O2" "-O1 -gdwarf-5 -g1" "-O1 --orders c11"; do
    read -ra shape <<<"$shape"
    names 1 'thread-0.stack\[10[0-2][0-9]\]'
    names 2 'thread-1.stack\[*\]'
    names 3 "thread-1.own$([[ ${shape[*]} = *-g1* ]] && echo '\[8\]' || echo '.second\[1\]')"
    "$wathread" search "$m" --invoke main --find ok --runs 100 --record "$work/record" >/dev/null 2>&1
    [[ ${shape[*]} = *-g1* ]] || shown 'thread-1.before[1]' 1
    shown thread-1.wathread_text 2
    shown thread-0.before 0
    names 4 thread-1.errno
    names 5 ''
done

words=-g0
"$here/wathread-cc" -g0 -DWAY=1 "$here/tests/names.c" -o "$m"
grep -q debug_info "$m" && say "debug information"
words='-Wl,-Map'
"$here/wathread-cc" -DWAY=1 "-Wl,-Map=$work/users" "$here/tests/names.c" -o "$m" && grep -q tdata "$work/users" ||
    say "no map"

echo "$tried modules, $wrong wrong"
[ $wrong = 0 ]
