#!/bin/bash
# tests/weakened.sh [ALGORITHM ..]: each memory order of tests/orders/algorithms, or of those that are named, is weakened by
# wathread-weaken, and what drawn runs say of it stands beside what it should be (tests/orders/weakenings.txt). The runs are
# those of one seed, so the table is the same each time for one compiler. WATHREAD is the program, or ../wathread; RUNS is
# how many are drawn (10000).
set -u
here=$(cd "$(dirname "$0")/.." && pwd)
work=$(mktemp -d)
trap 'rm -rf "$work"' EXIT
wrong=0
[ $# -gt 0 ] || set -- $(cd "$here/tests/orders/algorithms" && ls *.c | sed 's/\.c$//')

# Whether a verdict of wathread-weaken is what an order should be.
fits() { # what it should be, verdict
    case $1:$2 in
    needed:needed*) ;;
    needed:* | unneeded:needed*) return 1 ;;
    esac
}

for name; do
    "$here/wathread-weaken" "$here/tests/orders/algorithms/$name.c" --runs "${RUNS:-10000}" >"$work/found" || wrong=1
    sed 1d "$work/found" >"$work/each"
    grep -E "^$name " "$here/tests/orders/weakenings.txt" >"$work/wanted"
    [ "$(wc -l <"$work/each")" = "$(wc -l <"$work/wanted")" ] || { wrong=1 && echo "$name: other weakenings than the table has"; }
    while IFS= read -r found <&3 && IFS= read -r wanted <&4; do
        read -r _ line rest <<<"$wanted"
        want=$(grep -oE '\b(needed|unneeded|open)\b' <<<"$rest" | head -1)
        got=$(sed -E 's/.* (needed: |not )/\1/' <<<"$found")
        mark=
        fits "$want" "$got" || { wrong=1 && mark=WRONG; }
        [[ $found == "line $line "* ]] || { wrong=1 && mark='WRONG: another line'; }
        printf '%-9s %-4s %-22s %-9s %s %s\n' "$name" "$line" "$(sed -E 's/ +(needed|unneeded|open).*//' <<<"$rest")" "$want" \
            "$got" "$mark"
    done 3<"$work/each" 4<"$work/wanted"
done
[ $wrong = 0 ] && echo "all as wanted" || echo "WRONG"
exit $wrong
