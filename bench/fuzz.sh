#!/bin/bash
# Changes the modules of the examples, and the records of their runs, a million times each, by a seed, and says how many came to
# which status: fuzz.sh [TIMES of each of the twelve] [SEED]. They are the cases of crates/cases/data/changes.cases, of which the
# gate tries fewer. PROGRAM=PATH: the crate `cases` as a program, where it is built already.
set -eu
top=$(cd "$(dirname "${BASH_SOURCE[0]}")/.." && pwd)
if [ -z "${PROGRAM-}" ]; then
    (cd "$top/crates/cases" && rt run -- >/dev/null)
    PROGRAM=$top/crates/cases/out/cases
fi
work=$(mktemp -d)
trap 'rm -rf "$work"' EXIT
cp "$top"/crates/cases/data/*.wasm "$work"
awk -v times="${1:-83334}" -v seed="${2:-7}" '
    $1 == "times" { $2 = times }
    $1 == "seed" { $2 += 1000 * seed }
    { print }' "$top/crates/cases/data/changes.cases" >"$work/changes.cases"
cd "$work"
time "$PROGRAM" mutants changes.cases
