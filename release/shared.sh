#!/bin/bash
# The library for hosts as a shared object: libwathread.so.VERSION, and beside it the links libwathread.so.N, which is
# its SONAME, and libwathread.so.
#
#   release/shared.sh [ARCHIVE [FOLDER]]    of lib/libwathread.a, into the archive's folder
#
# $CC links it, or cc, gcc or clang, or else ld. It exports the calls of include/wathread.h and nothing else, which nm
# has to say of it.
set -eu
top=$(cd "$(dirname "$0")/.." && pwd)
. "$top/release/package.sh"

stop() { echo "release/shared.sh: $*" >&2; exit 1; }

# Prints the first of the words that is a command here.
first_of() {
    local it
    for it in "$@"; do command -v "${it%% *}" >/dev/null && echo "$it" && return; done
    return 1
}

# Links the archive $1 to the shared object $2 with the SONAME $3.
link_shared() {
    local words linker
    words=(-soname "$3" "--version-script=$top/release/build_files/libwathread.map" -z defs -z relro -z now
        -z noexecstack --build-id=sha1 --whole-archive "$1" --no-whole-archive)
    if linker=$(first_of ${CC:+"$CC"} cc gcc clang); then
        # shellcheck disable=SC2086 # CC may have words behind the command
        $linker -shared -o "$2" "${words[@]/#/-Wl,}"
    elif linker=$(first_of ld ld.lld ld.gold); then
        "$linker" -shared -o "$2" "${words[@]}" -L/lib64 -L/lib/x86_64-linux-gnu -l:libc.so.6
    else
        stop "there's neither a C compiler nor ld, which link it"
    fi
}

# Prints the calls that the header declares.
declared() { grep -o '\bwathread_[a-z_0-9]*(' "$top/include/wathread.h" | tr -d '(' | LC_ALL=C sort -u; }

# Prints what the shared object $1 exports, without versions.
exported() { "$nm" -D --defined-only "$1" | awk '$2 != "A" {sub(/@.*/, "", $3); print $3}' | LC_ALL=C sort; }

archive=${1:-$top/lib/libwathread.a}
[ -f "$archive" ] || stop "$archive isn't there: release/library.sh unpacks it"
folder=${2:-$(dirname "$archive")}
version=$(version_of_sources)
[ -n "$version" ] || stop "the sources don't say which version they are"
soname=libwathread.so.${version%%.*}
mkdir -p "$folder"
room=$(mktemp -dp "$folder" .wathread.XXXXXX) || stop "there's no room in $folder"
trap 'rm -rf "$room"' EXIT
link_shared "$archive" "$room/it" "$soname" || stop "$archive couldn't be linked"
if nm=$(first_of nm llvm-nm); then
    [ "$(exported "$room/it")" = "$(declared)" ] ||
        stop "it doesn't export what the header declares, but: $(exported "$room/it" | tr '\n' ' ')"
else
    echo "release/shared.sh: without nm it isn't looked at what libwathread.so exports" >&2
fi
chmod 644 "$room/it"
mv -f "$room/it" "$folder/libwathread.so.$version"
ln -sfn "libwathread.so.$version" "$folder/$soname"
ln -sfn "$soname" "$folder/libwathread.so"
echo "$folder/libwathread.so"
