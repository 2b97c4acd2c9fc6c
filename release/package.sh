# What the launcher, .ci/run and make.sh have in common: the program as it is built here, and as it is shipped. A shell
# reads it, with the top of the repository in `top`.
#
# Beside either lies a file `.sum` with three lines: the sum of the sources that it was built from, its own sum, and the
# toolchain that built it, as `rt version` names it. Sums are sha256sum's.
out=$top/crates/wathread/out
# Of the two that `rt ci` builds, this is the one by Rattle's own compiler.
built=$out/wathread.by-rattle
shipped=$top/release/wathread-x86_64-linux
needed=()
declare -A uses row seen

# Puts into `needed` the crates below $1, each after those that it uses, and $1 last.
find_below() {
    local it
    seen[$1]=1
    for it in ${uses[$1]}; do [ -n "${seen[$it]-}" ] || [ -z "${row[$it]-}" ] || find_below "$it"; done
    needed+=("$1")
}

# Reads crates.txt, and finds the crates that the program is made of, or the crate $1.
read_crates() {
    local name words
    needed=() seen=()
    while IFS=: read -r name words; do
        [ -z "$name" ] || { uses[${name%% *}]=$words && row[${name%% *}]=$name:$words; }
    done < <(sed 's/#.*//' "$top/crates.txt")
    find_below "${1:-wathread}"
}

# Prints a sum of all that the program is made from.
sum_of_sources() {
    local it parts=()
    for it in "${needed[@]}"; do parts+=("crates/$it/"{src,specs,proofs}); done
    (cd "$top" && for it in "${needed[@]}"; do echo "${row[$it]}"; done &&
        find "${parts[@]}" -type f -print0 2>/dev/null | LC_ALL=C sort -z | xargs -0 sha256sum) | sha256sum | cut -c1-64
}

# Prints the version that the program says it is.
version_of_sources() { sed -n 's/.*\.version("\([0-9.]*\)").*/\1/p' "$top/crates/report_command/src/commands.rt"; }

sum_of() { sha256sum <"$1" | cut -c1-64; }

# Prints what stands behind the word $1 in the file $2.
said() { sed -n "s/^$1 //p" "$2" 2>/dev/null; }

# Writes down what was just built, of the sources with the sum $1.
describe() { printf 'sources %s\nprogram %s\ntoolchain %s\n' "$1" "$(sum_of "$built")" "$(rt version)" >"$built.sum"; }

# Whether what lies here was built of the sources with the sum $1. Contents decide, not times: a copied tree runs too.
is_built() {
    [ -x "$built" ] && [ "$(said sources "$built.sum")" = "$1" ] &&
        [ "$(said program "$built.sum")" = "$(sum_of "$built")" ]
}

# Whether xz or Python can unpack here.
can_unpack() { command -v xz >/dev/null || python3 -c 'import lzma' 2>/dev/null; }

# Prints what is packed in the file $1.
unpacked() {
    if command -v xz >/dev/null; then
        xz -dc "$1"
    else
        python3 -c 'import lzma, shutil, sys; shutil.copyfileobj(lzma.open(sys.argv[1]), sys.stdout.buffer)' "$1"
    fi
}

# Whether the shipped program can be unpacked here, or puts into `why` what hinders it, or will.
is_packed() {
    why="no program is shipped"
    [ -f "$shipped.xz" ] && [ -f "$shipped.sum" ] || return
    why="there's neither xz nor python3, and the shipped program is packed"
    can_unpack || return
    why="the shipped program is damaged, or there's no room for it"
}

# Unpacks the shipped program into the file $1, or puts into `why` what hinders it.
unpack() {
    is_packed && unpacked "$shipped.xz" >"$1" 2>/dev/null &&
        ([ "$(sum_of "$1")" = "$(said program "$shipped.sum")" ]) && chmod 755 "$1"
}

# The library for hosts, as it is shipped.
library=$top/release/libwathread-x86_64-linux

# Unpacks the shipped library into the file $1, or puts into `why` what hinders it. It takes the place of what
# read_crates found, so it runs in a shell of its own.
unpack_library() (
    read_crates wathread_c
    why="no library is shipped"
    [ -f "$library.xz" ] && [ -f "$library.sum" ] && why="the shipped library is of other sources" &&
        [ "$(said sources "$library.sum")" = "$(sum_of_sources)" ] && why="there's neither xz nor python3" && can_unpack &&
        why="the shipped library is damaged, or there's no room for it" && unpacked "$library.xz" >"$1" 2>/dev/null &&
        [ "$(sum_of "$1")" = "$(said library "$library.sum")" ] && return
    rm -f "$1"
    echo "$why"
    return 1
)

# Whether the shipped program is said to have the same $1 as what was just built.
agrees() { [ "$(said "$1" "$shipped.sum")" = "$(said "$1" "$built.sum")" ]; }

# Says whether the shipped program is what was just built, byte for byte. The status is 0 where it is; 1 where it isn't,
# and is said to be of the same sources and toolchain; 2 where it is said to be of others, none is shipped, or it can't
# be unpacked here.
compare() {
    local status=1 verdict="isn't the one that was built"
    is_packed && [ "$(unpacked "$shipped.xz" 2>/dev/null | sum_of /dev/stdin)" = "$(said program "$shipped.sum")" ] &&
        why="they differ" && unpacked "$shipped.xz" 2>/dev/null | cmp -s - "$built" && status=0
    [ "$status" = 0 ] && echo "the shipped program is the one that was built, byte for byte" && return
    if [ ! -f "$shipped.sum" ] || ! can_unpack; then
        verdict="wasn't compared" status=2
    elif ! agrees sources; then
        why="it is of other sources" status=2
    elif ! agrees toolchain; then
        why="it was built by $(said toolchain "$shipped.sum")" status=2
    fi
    echo "the shipped program $verdict: $why"
    return "$status"
}
