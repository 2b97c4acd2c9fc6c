#!/bin/bash
# Builds and runs the tests and the example of each way into the library, over an installation in a folder of its own,
# whose name has a space; and says of each whether it passed, failed, or was skipped since the machine hasn't what it
# takes. The status is 1 where one failed.
#
#   hosts/test.sh [NAME..]    of these alone: versions shared c pkgconfig cmake cxx python mypy pip rust go manual deb
#
# CALLS is how many calls each thread of an example makes, without it 1,000. CC, CXX and PYTHON name commands.
set -eu
top=$(cd "$(dirname "$0")/.." && pwd)
. "$top/release/package.sh"
CC=${CC:-cc} CXX=${CXX:-c++} CALLS=${CALLS:-1000}
lock=$top/examples/c/broken_lock.wasm
room=$(mktemp -dt wathread.XXXXXX)
trap 'rm -rf "$room"' EXIT
trap 'exit 1' HUP INT TERM
place="$room/a place"
passed=0 failed=0 skipped=0
unset PKG_CONFIG_PATH WATHREAD_LIBRARY WATHREAD_LIB_DIR

# What an example has to print.
wanted="check: {\"status\":0,\"functions\":26}
run 1: ok i32:2
run 13: ok i32:1, a record of 1824 bytes
replay: {\"ok\":{\"i32\":1}}
8 threads: $((8 * CALLS)) of $((8 * CALLS)) runs ended as before"

# Whether there are the commands, or puts into `missing` the first that isn't there.
has() {
    for missing in "$@"; do command -v "${missing%% *}" >/dev/null || return; done
}

# Runs an example, and compares what it prints.
run_example() {
    local said
    said=$("$@" "$lock" "$CALLS") || return
    [ "$said" = "$wanted" ] || { echo "$1 printed:" "$said" >&2; return 1; }
}

# The place of a Python that has the module $1.
python_with() {
    local it
    for it in ${PYTHON:+"$PYTHON"} python3 /usr/bin/python3; do
        "$it" -c "import $1" 2>/dev/null && echo "$it" && return
    done
    return 1
}

test_shared() {
    has nm || return 77
    local names declared
    names=$(nm -D --defined-only "$place/lib/libwathread.so" | sed -n 's/.* [^A] //p' | sed 's/@.*//' | LC_ALL=C sort)
    declared=$(grep -o '\bwathread_[a-z_0-9]*(' "$place/include/wathread.h" | tr -d '(' | LC_ALL=C sort -u)
    [ "$names" = "$declared" ] || { echo "it exports $names"; return 1; }
    has readelf || return 0
    readelf -d "$place/lib/libwathread.so.0" | grep -q 'SONAME.*\[libwathread.so.0\]'
}

test_c() {
    has "$CC" || return 77
    local it
    for it in keep_run keep_memory; do
        $CC -O2 -Wall -Wextra -Werror -pthread -I "$place/include" "$top/hosts/c/$it.c" "$place/lib/libwathread.a" \
            -o "$room/$it" || return
    done
    run_example "$room/keep_run" || return
    "$room/keep_memory" "$top/examples/atomic_add.wasm" f >"$room/said" || return
    diff - "$room/said" <<'END'
call 1: kind 2, value 0
call 2: kind 2, value 5
call 3: kind 2, value 10
made again: the same memory, {"status":0,"threads":[{"thread":0,"outcome":{"ok":{"i32":10}},"units":4}],"pages":1}
END
}

test_pkgconfig() {
    has "$CC" pkg-config || return 77
    local flags
    export PKG_CONFIG_PATH="$place/lib/pkgconfig"
    [ "$(pkg-config --modversion wathread)" = "$(version_of_sources)" ] || return
    [ -f "$(pkg-config --variable=archive wathread | sed 's/\\//g')" ] || return
    eval "flags=($(pkg-config --cflags --libs wathread))"
    $CC -O2 -pthread "$top/hosts/c/keep_run.c" "${flags[@]}" -Wl,-rpath,"$place/lib" -o "$room/keep_pc" &&
        run_example "$room/keep_pc"
}

test_cmake() {
    has cmake || return 77
    has "$CC" || return 77
    local it
    configure() { cmake -S "$1" -B "$2" -DCMAKE_PREFIX_PATH="$place" >"$room/said" 2>&1; }
    configure "$top/hosts/c" "$room/cmake" && cmake --build "$room/cmake" >>"$room/said" ||
        { cat "$room/said"; return 1; }
    for it in keep_run keep_run_shared; do run_example "$room/cmake/$it" || return; done
    sed 's/wathread 0.1/wathread 9.0/' "$top/hosts/c/CMakeLists.txt" >"$room/CMakeLists.txt"
    ! configure "$room" "$room/newer" && grep -q "version: $(version_of_sources)" "$room/said"
}

test_cxx() {
    has "$CXX" || return 77
    local it
    for it in tests keep_run; do
        $CXX -std=c++17 -O2 -Wall -Wextra -pedantic -Werror -pthread -I "$place/include" "$top/hosts/cxx/$it.cpp" \
            "$place/lib/libwathread.a" -o "$room/cxx_$it" || return
    done
    "$room/cxx_tests" "$top/examples" && run_example "$room/cxx_keep_run"
}

test_python() {
    local python
    missing=pytest
    python=$(python_with pytest) || return 77
    export WATHREAD_LIBRARY="$place/lib/libwathread.so" WATHREAD_PROGRAM="$place/bin/wathread" PYTHONDONTWRITEBYTECODE=1
    export PYTHONPATH="$top/hosts/python"
    (cd "$top/hosts/python" && "$python" -m pytest -q -p no:cacheprovider --basetemp="$room/pytest") &&
        run_example "$python" "$top/hosts/python/examples/keep_run.py"
}

test_mypy() {
    local python
    missing=mypy
    python=$(python_with mypy) || return 77
    (cd "$top/hosts/python" && "$python" -m mypy --strict --cache-dir="$room/mypy")
}

test_pip() {
    local python
    missing=pip
    python=$(python_with ensurepip) || return 77
    "$python" -m venv "$room/venv" || return
    "$room/venv/bin/pip" -q --disable-pip-version-check install --no-index "$top/hosts/python" || return
    cp "$place/lib/libwathread.so.0" "$room/venv/lib"
    (cd "$room" && "$room/venv/bin/python" -c 'import wathread; print(wathread.check(b"\0asm\1\0\0\0"))') &&
        run_example "$room/venv/bin/python" "$top/hosts/python/examples/keep_run.py"
}

test_rust() {
    has cargo "$CC" || return 77
    export CARGO_TARGET_DIR="$room/cargo" WATHREAD_LIB_DIR="$place/lib" WATHREAD_INCLUDE_DIR="$place/include"
    mkdir "$room/hosts" && cp -R "$top/hosts/rust" "$room/hosts" && ln -s "$top/examples" "$room" || return
    cd "$room/hosts/rust" || return
    cargo test -q --offline && cargo build -q --offline --release --example keep_run &&
        run_example "$room/cargo/release/examples/keep_run"
}

test_go() {
    has go "$CC" pkg-config || return 77
    export GOCACHE="$room/go" GOPROXY=off GOFLAGS=-mod=mod CGO_ENABLED=1
    [ -f "$top/lib/libwathread.a" ] || "$top/release/library.sh" >/dev/null
    cd "$top/hosts/go" || return
    [ -z "$(gofmt -l .)" ] || { gofmt -l .; return 1; }
    go vet . && go test . || return
    # cgo takes no path with a space from pkg-config.
    ln -s "$place" "$room/place"
    export PKG_CONFIG_PATH="$room/place/lib/pkgconfig"
    go build -tags wathread_pkgconfig -o "$room/keep_go" ./examples/keep_run || return
    LD_LIBRARY_PATH="$place/lib" run_example "$room/keep_go"
}

test_manual() {
    has python3 || return 77
    "$top/release/manual_cc.py" --check || return
    ! has zsh || zsh -n "$top/share/zsh/site-functions/_wathread-cc" || return
    ! has fish || fish -n "$top/share/fish/vendor_completions.d/wathread-cc.fish" || return
    bash -n "$top/share/bash-completion/completions/wathread-cc"
}

# Installs the package into a root of its own, runs what is there, and removes it.
test_deb() {
    has dpkg dpkg-deb nm strip "$CC" || return 77
    local root="$room/root" package as=() it
    package=$("$top/release/deb.sh" "$room/deb") || return
    mkdir -p "$root/var/lib/dpkg/"{info,updates,triggers} && : >"$root/var/lib/dpkg/status"
    [ "$(id -u)" = 0 ] || { has fakeroot || return 77; as=(fakeroot); }
    it=(dpkg "--root=$root" --force-depends --force-not-root --log=/dev/null)
    "${as[@]}" "${it[@]}" --install "$package" >"$room/said" 2>&1 || { cat "$room/said"; return 1; }
    "$root/usr/bin/wathread" check "$lock" || return
    cmp "$root/usr/libexec/wathread/wathread" "$place/libexec/wathread/wathread" || return
    $CC -pthread -I "$root/usr/include" "$top/hosts/c/keep_run.c" -L "$root/usr/lib/x86_64-linux-gnu" -lwathread \
        -o "$room/keep_deb" || return
    LD_LIBRARY_PATH="$root/usr/lib/x86_64-linux-gnu" run_example "$room/keep_deb" || return
    "${as[@]}" "${it[@]}" --purge wathread >"$room/said" 2>&1 || { cat "$room/said"; return 1; }
    [ -z "$(find "$root" -name '*wathread*')" ] || { find "$root" -name '*wathread*'; return 1; }
    ! has lintian || lintian --fail-on error,warning --allow-root "$package" >&2
}

# Whether the packages have the program's version.
test_versions() {
    local version it
    version=$("$place/bin/wathread" --version | sed 's/^wathread //')
    [ "$version" = "$(version_of_sources)" ] || return
    for it in python/pyproject.toml rust/Cargo.toml; do
        grep -qx "version = \"$version\"" "$top/hosts/$it" || { echo "hosts/$it has another version"; return 1; }
    done
}

# Runs a test in a shell of its own.
try() {
    local status=0
    (set +e; "test_$1"; status=$?; echo "${missing-}" >"$room/missing"; exit $status) >"$room/log" 2>&1 || status=$?
    case $status in
        0) echo "$1: passed" && passed=$((passed + 1)) ;;
        77) echo "$1: skipped, there's no $(cat "$room/missing")" && skipped=$((skipped + 1)) ;;
        *) tail -n 40 "$room/log" && echo "$1: failed" && failed=$((failed + 1)) ;;
    esac
}

[ $# != 0 ] || set -- versions shared c pkgconfig cmake cxx python mypy pip rust go manual deb
for it in "$@"; do declare -F "test_$it" >/dev/null || { sed -n 's/^#   //p' "$0" >&2; exit 3; }; done
"$top/wathread" --install "$place" >"$room/log" 2>&1 && [ -f "$place/lib/libwathread.so" ] ||
    { cat "$room/log"; echo "hosts/test.sh: it couldn't be installed"; exit 1; }
for it in "$@"; do try "$it"; done
echo "hosts: $passed passed, $failed failed, $skipped skipped"
[ "$failed" = 0 ]
