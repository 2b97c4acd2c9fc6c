#!/bin/sh
# Plants faults of waking in a copy of the desk, and runs the tests of the desk over each, unproved. They are of the one
# line that wakes, of which no contract can say whom it wakes: each has to fail a test, or to hang there for ten seconds.
# usage: crates/shared_memory_tests/plants.sh
set -u
top=$(cd "$(dirname "$0")/../.." && pwd)
room=$(mktemp -d)
trap 'rm -rf "$room"' EXIT
missed=0

# The tests, over a desk whose `Told::tell_all` has this in place of its notify_all.
plant() {
    rm -rf "$room/crates"
    tar -C "$top" --exclude=out -cf - crates.txt crates | tar -C "$room" -xf -
    told="$room/crates/waiters_desk/src/told.rt"
    sed -i "0,/bell\.changed\.notify_all();/s//$2/" "$told"
    if cmp -s "$told" "$top/crates/waiters_desk/src/told.rt"; then
        echo "$1: not planted"
        missed=1
        return
    fi
    said=$(cd "$room/crates/shared_memory_tests" && rt try --test --seconds 10 2>&1)
    if failed=$(echo "$said" | grep '^test [^ ]* ... FAILED'); then
        echo "$1: seen"
        echo "$failed"
    else
        echo "$1: NOT SEEN"
        echo "$said" | tail -n 3
        missed=1
    fi
}

plant "one is woken in place of all" 'bell.changed.notify_one();'
plant "nobody is woken" 'let _ = bell;'
exit $missed
