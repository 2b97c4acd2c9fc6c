#!/bin/bash
# tests/orders.sh [WATHREAD]: what `wathread-cc --orders c11` finds. The programs of tests/orders/accesses in drawn runs, at
# -O1 and -O0, each with what it is to end as on its first line (`EXPECT ok`, `trap`, `asleep`, or a name in a trace); those
# that fill a table once more, with a greater pool; those of tests/orders/algorithms, which are right; and bugs planted in
# the runtime, each found by a litmus test of bench/orders, by a loop that then waits for ever, or by what is said. Of some
# programs each line that the runtime says in a run that fails; whose end a deadlock waits for; and what wathread-views says.
# Prints a table. WATHREAD is the program, or ../wathread. CC names the clang; RUNS is how many are drawn; ONLY=says leaves
# out all but what is said, and ONLY=viewed all but the last two.
set -u
here=$(cd "$(dirname "$0")/.." && pwd)
export WATHREAD=${1:-$here/../wathread}
work=$(mktemp -d)
trap 'rm -rf "$work"' EXIT
wrong=0

say() { printf '%-22s %-4s %-34s %s\n' "$@"; }

# What drawn runs of a module end as: `ok`, or the name of a trap of the runtime, `trap` or `asleep`.
ending() {
    "$WATHREAD" search "$work/m.wasm" --invoke main --runs "${RUNS:-1000}" --limit 60000 --record "$work/r" >"$work/out" 2>&1
    grep -q 'found in run' "$work/out" || { echo ok && return; }
    "$WATHREAD" show "$work/m.wasm" "$work/r" --at trap 2>/dev/null |
        grep -oE 'data_race|use_after_free|atomics_of_mixed_sizes|orders_full_of_[a-z]+' | head -1 | grep . && return
    sed '1,/^found in/d' "$work/out" | grep -oE 'trap|asleep' | sort -r | head -1
}

build() { "$1/wathread-cc" --orders c11 -w --threads 6 --pool 1024 "${@:2}" -o "$work/m.wasm" || wrong=1; }

accesses() {
    local file level want got
    for file in "$here"/tests/orders/accesses/*.c; do
        want=$(sed -nE '1s/.*EXPECT ([a-z_]+).*/\1/p' "$file")
        for level in 1 0; do
            build "$here" -O$level "$file"
            got=$(ending)
            [ "$got" = "$want" ] || wrong=1 got="WRONG: $got"
            say "$(basename "$file" .c)" -O$level "$want" "$got"
        done
    done
}

# What fills the tables has room in those of a greater pool.
room() {
    local name got
    for name in many places; do
        build "$here" --pool 65536 "$here/tests/orders/accesses/$name.c"
        got=$(ending)
        [ "$got" = ok ] || wrong=1 got="WRONG: $got"
        say "$name" -O1 "ok with a greater pool" "$got"
    done
}

algorithms() {
    local file got
    for file in "$here"/tests/orders/algorithms/*.c; do
        build "$here" -O1 "$file"
        got=$(ending)
        [ "$got" = ok ] || wrong=1 got="WRONG: $got"
        say "$(basename "$file" .c)" -O1 right "$got"
    done
}

# A bug in the runtime, an edit by sed; the status is 1 where it changes nothing.
plant() { # what, file, edit
    rm -rf "$work/c" && mkdir -p "$work/c" "$work/bench"
    cp -R "$here/wathread-cc" "$here/wathread-link" "$here/wathread-views" "$here/include" "$here/lib" "$work/c"
    cp -R "$here/../bench/orders" "$work/bench"
    sed -E "$3" "$here/lib/$2" >"$work/c/lib/$2"
    ! cmp -s "$here/lib/$2" "$work/c/lib/$2" || { wrong=1 && say "$1" "" "no change" "$3" && return 1; }
}

# It has to change the outcomes of one of the litmus tests.
planted() { # what, file, edit, tests
    plant "$@" || return
    local out
    out=$(python3 "$work/bench/orders/compare.py" --all 100000 $4 2>&1)
    if [ $? = 0 ]; then wrong=1 out='NOT FOUND'; else out=$(echo "$out" | grep -E 'WEAKER|stronger' | cut -c1-80); fi
    say "planted" "" "$1" "$out"
}

# It has to let a loop of one of the algorithms wait for ever.
planted_loop() { # what, file, edit, algorithm
    plant "$@" || return
    build "$work/c" -O1 "$here/tests/orders/algorithms/$4.c"
    local out
    out=$("$WATHREAD" search "$work/m.wasm" --invoke main --all --states 100000 2>&1 | grep -E 'for ever|no run ends' | head -1)
    [ -n "$out" ] || { wrong=1 && out='NOT FOUND'; }
    say "planted" "" "$1" "$4: $out"
}

# What is said, but for a failed assert, with an x in place of each address. Of which threads may read what, main's view may
# be there too.
said() {
    "$WATHREAD" show "$work/m.wasm" "$work/r" --text |
        sed -E '/: seen == 42$/d; s/^[0-9]+ +//; s/address [0-9]+/x/; s/, and t0 may still read 0//; / is [0-9]*$/d'
}

# What t2 has to say of a program of tests/orders/accesses, NAME being how its file is called there.
wanted() { # program, name
    local unknown="isn't known with it" late='and nothing orders that before this' since='nothing orders what t1 did since'
    case $1 in
    mp_stale) cat <<END ;;
$2:12 reads ready = 1, which t1 wrote at $2:8 without release: what t1 did before $unknown
$2:13 reads data = 0, which is old: t1 wrote 42 at $2:7, $late
data is 42, and t2 may still read 0
END
    unacquired) cat <<END ;;
$2:11 reads ready = 1 without acquire, which t1 wrote at $2:7: what t1 did before $unknown
data race: $2:12 reads data, which t1 wrote at $2:6, $late
END
    unreleased) cat <<END ;;
is it done?
$2:13 reads done = -1, which t1 wrote at $2:8 without release: what t1 did before $unknown
 it is
data race: $2:14 writes box.in.data[1], which t1 reads or read, $late
END
    fenced) cat <<END ;;
$2:13 reads ready = 1, which t1 wrote at $2:9 without release: $since its release fence at $2:7 before that store
data race: $2:14 reads since, which t1 wrote at $2:8, $late
END
    fenced_old) cat <<END ;;
$2:13 reads ready = 1 without acquire, which t1 wrote at $2:9 without release: what t1 did before is known only behind an \
acquire fence, and $since its release fence at $2:7 before that store
$2:15 reads data = 0, which is old: t1 wrote 42 at $2:8, $late
data is 42, and t2 may still read 0
END
    views) cat <<END ;;
$2:13 reads ready = 1, which t1 wrote at $2:9 without release: what t1 did before $unknown
data is 42, and t2 may still read 0
$2:15 reads data = 0, which is old: t1 wrote 42 at $2:8, $late
data is 42, and t2 may still read 0
END
    freed) echo "use after free: $2:13 touches x, in a block that t1 freed at $2:7" ;;
    freed_row) echo "use after free: $2:18 touches x, in a block that t3 freed at $2:12" ;;
    mixed) echo "mixed sizes: $2:9 touches both.half by an atomic access of another size than before, or not aligned:" \
        "C has none" ;;
    esac | sed 's/^/t2 says: /'
}

# Whether a run of a program that fails says what it has to, and one of a program that doesn't fail, nothing.
says() { # the compiler's folder, a program, the name of the file, words of wathread-cc
    cp "$here/tests/orders/accesses/$2.c" "$work/$3"
    build "$1" -O1 "$work/$3" "${@:4}"
    if [ "$2" = futex ]; then
        "$WATHREAD" search "$work/m.wasm" --invoke main --runs 1 --find 'thread 0' --limit 60000 --record "$work/r" >/dev/null
    else
        ending >"$work/ending"
    fi
    wanted "$2" "$3" >"$work/wanted"
    [[ " ${*:4} " != *' -g0 '* ]] || sed -i -E "s/$3:[0-9]+ //; s/ at $3:[0-9]+//; s/ (ready|data)/ x/" "$work/wanted"
    said | cmp -s - "$work/wanted"
}

told() { # the same as a row of the table
    local got="as wanted"
    says "$here" "$@" || { wrong=1 && got=WRONG; }
    say "$1" "${3:-}" "what is said" "$got"
}

# Whether in no run of a program, of which all are right, it's said that what is known with a value isn't all.
quiet() { # the compiler's folder, a program
    local run
    build "$1" -O1 "$here/tests/orders/accesses/$2.c"
    for run in {1..20}; do
        "$WATHREAD" search "$work/m.wasm" --invoke main --from $run --runs 1 --find 'thread 0: ok' --limit 60000 \
            --record "$work/r" >"$work/out"
        grep -q '^found in run' "$work/out" || return
        ! "$WATHREAD" show "$work/m.wasm" "$work/r" --text |
            grep -E "isn't known with it|acquire fence|release fence" || return
    done
}

quietly() { # the same as a row of the table
    local got="as wanted"
    quiet "$here" "$1" >/dev/null || { wrong=1 && got=WRONG; }
    say "$1" "" "nothing is said of news" "$got"
}

# It has to make something be said in one of these runs.
planted_quiet() { # what, file, edit, program
    plant "$@" || return
    local out="words of $4"
    ! quiet "$work/c" "$4" >/dev/null || { wrong=1 && out='NOT FOUND'; }
    say "planted" "" "$1" "$out"
}

# It has to change what is said of a program.
planted_said() { # what, file, edit, program
    plant "$@" || return
    local out="others of $4"
    ! says "$work/c" "$4" "$4.c" || { wrong=1 && out='NOT FOUND'; }
    say "planted" "" "$1" "$out"
}

all_told() {
    local name
    for name in mp_stale unacquired unreleased fenced fenced_old views freed freed_row mixed futex; do
        told $name $name.c
    done
    quietly fenced_ok
    told mp_stale mp_stale.c -g0
    told unacquired 'an "odd" n\äme.c'
    planted_said "another thread is told" orders_says.h 's/\(thread_self\(\) \+ 1\)/(thread_self() + 2)/' unacquired
    planted_said "another place is told" orders_plain.h 's/^        set_site\(access >> 40\);/        ;/' unreleased
    planted_said "it's said where nothing lacks" orders.c 's/^    if \(!ORDERS_NEWS .*/    if (!by)/' futex
    planted_said "all is known behind a fence" orders.c 's/since = has_more\(.*\);/since = 0;/' fenced
    planted_quiet "nothing is known behind a fence" orders.c 's/^( +)if \(join\(word, all\) != word\)$/\1if (all)/;
        s/since = has_more\(.*\);/since = 1;/' fenced_ok
    planted_quiet "a place's own message counts" orders.c 's/\|\| \(i >= l && i < l \+ cells_of\(l\)\)/|| 0/' fenced_ok
    planted_quiet "what nobody wrote counts" orders.c 's/\(lacks \&\& orders.wrote\[i\]\)/lacks/' fenced_ok
    planted_said "a line isn't ended" orders_says.h 's/^static void begin_line.*/static void begin_line(void) {}/' unreleased
}

# Whether of a program that fails it's told that main waits for a thread's end.
joins() { # the compiler's folder, a program, the thread
    build "$1" -O1 "$here/tests/orders/accesses/$2.c"
    ending >"$work/ending"
    "$WATHREAD" show "$work/m.wasm" "$work/r" --at end |
        grep -qE "^t0: stop asleep for good: t0 sleeps on [0-9]+ while 1 at thread_end\[$3\], entry "
}

# What wathread-views says before the first row of a thread at a variable; the moment may be before that.
views_before() { # the compiler's folder, thread, variable
    local entry
    entry=$("$WATHREAD" show "$work/m.wasm" "$work/r" --thread "$2" --addr "$3" | sed -nE '1s/^ *([0-9]+) .*/\1/p')
    "$1/wathread-views" "$work/m.wasm" "$work/r" "$entry" |
        sed -E 's/entry [0-9]+/entry x/g; s/, and t0 may still read 0//'
}

# Of the run of mp_stale that fails: before t1 writes data, before t2 reads ready, and before it reads data, which is old.
views() { # the compiler's folder
    local inside='entry x is in the middle of an operation, which begins at entry x; before that:'
    build "$1" -O1 "$here/tests/orders/accesses/mp_stale.c"
    ending >"$work/ending"
    (views_before "$1" 1 data && views_before "$1" 2 ready && views_before "$1" 2 data) >"$work/views"
    cmp -s "$work/views" - <<END
$inside
no atomic variable is shared there
$inside
data is 42, and t2 may still read 0
ready is 1, and t2 may still read 0
$inside
data is 42, and t2 may still read 0
ready is 1
END
}

# Of a variable that nobody writes the name is that of `show`. What isn't made so, and an entry that isn't there, is refused.
views_others() { # the compiler's folder
    local said
    build "$1" -O1 "$here/tests/orders/accesses/viewed.c"
    "$WATHREAD" search "$work/m.wasm" --invoke main --runs 1 --find 'thread 0' --limit 60000 --record "$work/r" >/dev/null
    views_before "$1" 1 table.end | grep -qx 'table.slots\[1\] is 7' || return
    said=$("$1/wathread-views" "$work/m.wasm" "$work/r" 1000000 2>&1) && return 1
    [[ $said == *"has entries 9 to "* ]] || return
    "$1/wathread-cc" --orders sc "$here/tests/orders/accesses/viewed.c" -o "$work/m.wasm" || return
    said=$("$1/wathread-views" "$work/m.wasm" "$work/r" 9 2>&1) && return 1
    [[ $said == *"has no views: wathread-cc --orders c11 makes a module that has"* ]]
}

# Where the words don't say how many entries a run has, the module asks for more than other ones.
has_room() { # the compiler's folder
    build "$1" -O1 "$here/tests/orders/accesses/mp_stale.c"
    "$WATHREAD" search "$work/m.wasm" --invoke main --runs 1 --json | grep -q '"limit":160000' &&
        "$WATHREAD" search "$work/m.wasm" --invoke main --runs 1 --limit 60000 --json | grep -q '"limit":60000'
}

check() { # what, how it's tested, and the words for that
    local got="as wanted"
    "${@:2}" || { wrong=1 && got=WRONG; }
    say viewed "" "$1" "$got"
}

# It has to make a test fail.
planted_viewed() { # what, file, edit, the test, and its words
    plant "$@" || return
    local out="$4 ${*:5}"
    ! "$4" "$work/c" "${@:5}" 2>/dev/null || { wrong=1 && out='NOT FOUND'; }
    say "planted" "" "$1" "$out"
}

viewed() {
    check "a join of who trapped" joins "$here" mp_stale 2
    check "a join in a deadlock" joins "$here" deadlock 1
    check "views of mp_stale" views "$here"
    check "names, and what is refused" views_others "$here"
    check "room for the entries of a run" has_room "$here"
    planted_viewed "a join of another thread" orders.c 's/\[thread\], 1/[thread ^ 3], 1/' joins deadlock 1
    planted_viewed "no view of what all know" orders.c 's/if \(COUNT\(place\) < least/if (COUNT(place) < 2/' views
    planted_viewed "views of a moment inside" orders.c 's/return \(u32\)&gate;/return (u32)\&over;/' views
}

case ${ONLY:-} in
says | viewed)
    if [ "$ONLY" = says ]; then all_told; else viewed; fi
    exit $wrong
    ;;
esac
accesses
room
algorithms
all_told
viewed
planted "an acquire joins no view" orders.c 's/^    if \(acquires\(order\)\)$/    if (0)/' MP+rel+acq
planted "a release leaves no view" orders.c 's/mine = releases\(order\) \?/mine = 0 ?/' MP+rel+acq
planted "no old message is read" orders.c 's/^        p -= choose\(newest - least \+ 1\);/        p -= 0;/' SB+rlx+rlx
planted "a message is passed by" orders.c 's/^    return oldest > sc \? oldest : sc;/    return sc;/' CoWR+rlx+rlx
planted "a store comes in between" orders.c 's/ \| \(glued \? GLUED : 0\);/;/' RMW+late
planted "a fence that releases nothing" orders.c 's/copy\(&orders.released\[t\], &orders.current\[t\]\);/;/' MP+frel+acq
planted "a fence that acquires nothing" orders.c 's/add\(&orders.current\[t\], &orders.acquirable\[t\]\);/;/' MP+rel+facq
planted "a fence out of order" orders.c 's/^        join_psc\(t\);/        ;/' SB+fsc
planted "an SC load of what is old" orders.c 's/sc = order == SEQ_CST \&\&/sc = 0 \&\&/' SB+sc+sc
planted "who starts a thread is first" orders_gate.h 's/if \(stays \&\& commutes\)/if (stays)/' MP+rel+acq
planted_loop "told the same behind a store" orders_gate.h 's/same = marks \& NEWS \? 0 : own/same = own/' ticket
planted "a choice that isn't offered" orders_gate.h 's/while \(i < many - 1 \&\& draw/while (i < many - 2 \&\& draw/' SB+rlx+rlx
planted "no release sequence" orders.c 's/word = glued \? glued->words\[w\] : 0;/word = 0;/' MP+rs+rmw

[ $wrong = 0 ] && echo "all as wanted" || echo "WRONG"
exit $wrong
