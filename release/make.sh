#!/bin/bash
# Ships the program that was built here: packs crates/wathread/out/wathread.by-rattle, as .ci/run and `./wathread
# --prove` leave it, into this folder, with the sum of its sources, its own sum, and the toolchain.
set -eu
top=$(cd "$(dirname "$0")/.." && pwd)
. "$top/release/package.sh"
read_crates
cd "$top"

stop() { echo "release/make.sh: $*" >&2; exit 1; }
[ -z "$(git status --porcelain -- crates crates.txt)" ] || stop "crates/ or crates.txt has what isn't committed"
is_built "$(sum_of_sources)" || stop "there's no program of these sources: ./wathread --prove builds it"
xz -9e -c "$built" >"$shipped.xz"
cp "$built.sum" "$shipped.sum"
compare
ls -l "$built" "$shipped.xz"
cat "$shipped.sum"
