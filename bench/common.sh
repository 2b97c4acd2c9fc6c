# What the scripts of this folder share: the program, a folder that is removed at the end, and modules made from text.
top=$(cd "$(dirname "${BASH_SOURCE[0]}")/.." && pwd)
work=$(mktemp -d)
trap 'rm -rf "$work"' EXIT
# PROGRAM=PATH: the program, where it is built already.
program=${PROGRAM:-$top/crates/wathread/out/wathread.by-rattle}
[ -n "${PROGRAM-}" ] || "$top/wathread" --version >/dev/null

# How often each command runs; the least time counts.
rounds=${ROUNDS:-15}

# Makes the module of a text beside this file, and prints its path: module FOLDER/NAME
module() {
    local made=$work/${1//\//_}.wasm
    [ -e "$made" ] || wat2wasm --enable-threads "$top/bench/$1.wat" -o "$made"
    echo "$made"
}

# A run of a module's `run`, as a command: run_of MEMORY MODULE [ARG..]
run_of() {
    local memory=$1 file=$2
    shift 2
    echo "$program run $file --invoke run --memory $memory --limit 1000000 --fuel 1000000000000 $*"
}

machine() {
    echo "$(date +%F), $(nproc) processors, load $(cut -d ' ' -f 1-3 /proc/loadavg); the least of $rounds runs of each side, in turn"
}
