#!/bin/bash
# Builds both hosts into out/ here, by $CC or cc, and runs them: the plug-in is examples/c/broken_lock.wasm. With --tests
# it builds and runs the tests of each call instead.
set -eu
top=$(cd "$(dirname "$0")/../.." && pwd)
out=$top/examples/host/out
cc=${CC:-cc}
[ -f "$top/lib/libwathread.a" ] || "$top/release/library.sh"
mkdir -p "$out"
if [ "${1-}" = --tests ]; then
    $cc -O2 -Wall -I "$top/include" "$top/examples/host/tests.c" "$top/lib/libwathread.a" -o "$out/tests"
    exec "$out/tests" "$top/examples"
fi
$cc -O2 -Wall -I "$top/include" "$top/examples/host/host.c" "$top/lib/libwathread.a" -o "$out/host"
"$top/release/shared.sh" "$top/lib/libwathread.a" "$out" >/dev/null
module=$top/examples/c/broken_lock.wasm
echo "in C:"
"$out/host" "$module" main 1000
echo "in Python:"
python3 "$top/examples/host/host.py" "$out/libwathread.so" "$module" main 1000
