#!/bin/bash
# The launcher ./wathread in clones and copies of this repository as it is committed: which program it takes, what it
# says, and what it passes on. Where the shipped program is of other sources, PROGRAM=PATH is packed in its place. With
# rt on the path it also proves, builds and compares, in a repository with a small program in place of wathread: some
# minutes. Wants git, xz and python3, and root, for a tree that another user can't write. SIGNALS=N: how many of each
# kind are sent to each of some commands, 200 else.
set -u
top=$(cd "$(dirname "$0")/.." && pwd)
work=$(mktemp -d)
trap 'rm -rf "$work"' EXIT
chmod 755 "$work"
mkdir -m 777 "$work/temporary"
wrong=0 tried=0

say() {
    echo "wrong: $*"
    wrong=$((wrong + 1))
}

# Whether a command ends with a status, and says this on standard output and standard error, patterns: ends STATUS OUT ERR COMMAND..
ends() {
    local status=$1 out=$2 err=$3 got
    shift 3
    timeout 3600 "$@" >"$work/.out" 2>"$work/.err" </dev/null
    got=$?
    tried=$((tried + 1))
    [ "$got" -eq "$status" ] || say "status $got: $*"
    [[ $(<"$work/.out") =~ ^($out)$ ]] || say "output of $*: $(<"$work/.out")"
    [[ $(<"$work/.err") =~ ^($err)$ ]] || say "standard error of $*: $(<"$work/.err")"
}

# Packs a program in a tree, as one of its sources: pack TREE PROGRAM
pack() (
    top=$1
    . "$top/release/package.sh"
    read_crates
    xz -c "$2" >"$shipped.xz"
    printf 'sources %s\nprogram %s\ntoolchain that of a trial\n' "$(sum_of_sources)" "$(sum_of "$2")" >"$shipped.sum"
)

# Makes a clean clone of this name, and goes there.
clone() {
    cd "$work" && git -c advice.detachedHead=false clone -q "$top" "$1" && cd "$1" || exit 1
    [ -z "${PROGRAM-}" ] || pack "$PWD" "$PROGRAM"
}

# A folder with the commands that the launcher needs, but for some: tools FOLDER NAME..
tools() {
    local it
    mkdir "$work/$1"
    for it in bash env readlink dirname sed sha256sum cut find sort xargs mktemp uname chmod mv cp rm mkdir install sleep \
        tail grep setpriv xz; do
        [[ " ${*:2} " == *" $it "* ]] || ln -s "$(type -P "$it")" "$work/$1/$it"
    done
    [[ " ${*:2} " == *" python3 "* ]] || ln -s "$(python3 -c 'import sys; print(sys.executable)')" "$work/$1/python3"
}
tools all
tools no_xz xz
tools no_packer xz python3
bare=(env -i "HOME=$work" "TMPDIR=$work/temporary" "PATH=$work/all")
run=(./wathread run examples/atomic_add.wasm --invoke f)
ADDED=$'thread 0: ok i32:0\npages 1'
TOOK=$'wathread: this is the shipped program, made of these sources by [^\n]*; ./wathread --prove[^\n]*'
USAGE=$'Usage: wathread --prove \\[--anew\\]\n *wathread --install DIR'
no_rt() { echo "wathread: $1, and the command rt of the Rattle toolchain isn't on the path"; }

# The first command in a clean clone answers in two seconds, without the toolchain, and with it where it is.
clone first
began=$(date +%s%N)
ends 0 "$ADDED" "$TOOK" "${bare[@]}" "${run[@]}"
took=$((($(date +%s%N) - began) / 1000000))
[ $took -lt 2000 ] || say "the first command took $took ms"
began=$(date +%s%N)
ends 0 "$ADDED" '' "${bare[@]}" "${run[@]}"
echo "the first command took $took ms, the second $((($(date +%s%N) - began) / 1000000)) ms"
clone second
began=$(date +%s%N)
ends 0 "$ADDED" "$TOOK" "${run[@]}"
took=$((($(date +%s%N) - began) / 1000000))
[ $took -lt 2000 ] || say "the first command took $took ms with all that is on the path"

# Many first commands at a time.
clone many
for _ in {1..20}; do "${bare[@]}" "${run[@]}" 2>&1 & done >"$work/.many"
wait
[ "$(grep -c "${ADDED%%$'\n'*}" "$work/.many")" = 20 ] || say "many first commands: $(<"$work/.many")"
ends 0 "$ADDED" '' "${bare[@]}" "${run[@]}"
[ "$(ls crates/wathread/out)" = $'wathread.by-rattle\nwathread.by-rattle.sum' ] || say "$(ls crates/wathread/out)"

# What is passed on: the folder, words with blanks, streams, statuses.
cd "$work/first" || exit 1
cp examples/atomic_add.wasm "$work/a name  with blanks.wasm"
ln -s "$work/first/wathread" "$work/link"
ends 0 'ok functions 1' '' "${bare[@]}" bash -c 'cd examples && ../wathread check "../../a name  with blanks.wasm"'
ends 0 'ok functions 1' '' "${bare[@]}" bash -c 'cd / && "$0" check "$1"' "$work/link" "$work/a name  with blanks.wasm"
ends 0 'ok functions 1' '' "${bare[@]}" bash -c './wathread check /dev/stdin <examples/atomic_add.wasm'
ends 1 'thread 0: stop out of fuel.*' '' "${bare[@]}" "${run[@]}" --fuel 0
ends 2 '' 'module refused: read 1 at 0' "${bare[@]}" ./wathread check /dev/null
ends 3 '' 'run refused: unknown export' "${bare[@]}" ./wathread run examples/atomic_add.wasm --invoke g
ends 3 '' 'error: .*' "${bare[@]}" ./wathread
ends 5 '' $'file fault: nothing.wasm\nthere is nothing with this path' "${bare[@]}" ./wathread check nothing.wasm

# A copied tree runs as it is.
cp -r "$work/first" "$work/a copy"
cd "$work/a copy" && ends 0 "$ADDED" '' "${bare[@]}" "${run[@]}"

# A tree that can't be written: nothing is left, in it or among the temporary files.
clone forbidden
other=(setpriv --reuid 54321 --clear-groups "${bare[@]}")
for _ in 1 2; do ends 0 "$ADDED" "$TOOK" "${other[@]}" "${run[@]}"; done
ends 5 '' "$TOOK"$'\nfile fault: nothing.wasm\nthere is nothing with this path' "${other[@]}" ./wathread check nothing.wasm
ends 0 $'.*all: 1 ending, 209 states, no race\nevery state can end\nevery fair run ends' "$TOOK" "${other[@]}" \
    ./wathread search examples/search/peterson.wasm --invoke f --all 2
[ ! -e crates/wathread/out ] || say "the tree that can't be written has crates/wathread/out"
[ -z "$(ls -A "$work/temporary")" ] || say "left among the temporary files: $(ls -A "$work/temporary")"

# What lies in out/ is run where nobody could have written it but this user and root. Else it is said, and isn't run.
clone shared
kept=$PWD/crates/wathread/out
OTHERS="wathread: what is in $kept isn't run: [^"$'\n'"]*"

# Puts another program there, with a sum that fits: forge OWNER MODE OF_ITS_FOLDER MODE
forge() {
    rm -rf "$kept" && mkdir "$kept" && printf '#!/bin/sh\necho forged\n' >"$kept/wathread.by-rattle"
    printf '%s\nprogram %s\ntoolchain one\n' "$(grep ^sources release/wathread-x86_64-linux.sum)" \
        "$(sha256sum <"$kept/wathread.by-rattle" | cut -c1-64)" >"$kept/wathread.by-rattle.sum"
    chown "$1" "$kept/wathread.by-rattle" && chmod "$2" "$kept/wathread.by-rattle"
    chown "$3" "$kept" && chmod "$4" "$kept"
}

forge 0 755 0 755
ends 0 forged '' "${bare[@]}" "${run[@]}"
ends 0 forged '' "${other[@]}" "${run[@]}"
while read -r words; do
    # shellcheck disable=SC2086
    forge $words
    for _ in 1 2; do ends 0 "$ADDED" "$OTHERS"$'\n'"$TOOK" "${other[@]}" "${run[@]}"; done
done <<END
0 775 0 755
0 757 0 755
0 755 0 775
0 755 0 1777
54322 755 0 755
0 755 54322 755
54322 755 54322 755
END
# A folder of one's own is made so that nobody else can write it.
for words in '54321 755 54321 777' '54322 755 54321 775' '54321 775 54321 755'; do
    # shellcheck disable=SC2086
    forge $words
    ends 0 "$ADDED" "$OTHERS"$'\n'"$TOOK" "${other[@]}" "${run[@]}"
    ends 0 "$ADDED" '' "${other[@]}" "${run[@]}"
    [ "$(stat -c '%u %a' "$kept" "$kept"/*)" = $'54321 755\n54321 755\n54321 644' ] || say "kept: $(stat -c '%u %a %n' "$kept" "$kept"/*)"
done
forge 0 755 0 755
mv "$kept/wathread.by-rattle" elsewhere && ln -s "$PWD/elsewhere" "$kept/wathread.by-rattle"
ends 0 "$ADDED" "$OTHERS"$'\n'"$TOOK" "${bare[@]}" "${run[@]}"
[ "$(<elsewhere)" = $'#!/bin/sh\necho forged' ] || say "a link in out/ was followed"
ends 0 "$ADDED" '' "${bare[@]}" "${run[@]}"
# One of another user stays as it is, whoever runs the launcher.
forge 54322 755 54322 755
ends 0 "$ADDED" "$OTHERS"$'\n'"$TOOK" "${bare[@]}" "${run[@]}"
[ "$(<"$kept/wathread.by-rattle")" = $'#!/bin/sh\necho forged' ] || say "another user's program is replaced"
rm release/wathread-x86_64-linux.sum
ends 70 '' "$OTHERS"$'\n'"wathread: no program is shipped, and $kept can't be written, or others may write it" \
    "${bare[@]}" "${run[@]}"
# Whatever the umask is, what is kept is nobody else's to write.
clone loose
ends 0 "$ADDED" "$TOOK" "${bare[@]}" bash -c 'umask 0 && exec "$0" "$@"' "${run[@]}"
ends 0 "$ADDED" '' "${bare[@]}" "${run[@]}"
[ -z "$(ls -A "$work/temporary")" ] || say "left among the temporary files: $(ls -A "$work/temporary")"

# Signals leave nothing: of a first command, of a search, of a tree that can't be written, of a proof. Some come right
# behind a command that makes or moves a file or folder, which stands here in its place, and others at any time.
clone signalled
mkdir "$work/fake" "$work/none"
times=${SIGNALS:-200}
# signals TIMES OUT COMMAND..
signals() {
    local count=$1 folder=$2 tool signal
    shift 2
    for tool in mkdir mktemp cp mv chmod find xz setpriv; do
        for signal in HUP INT TERM; do
            rm -rf "${folder:?}"
            printf '#!/bin/bash\n%s "$@"\nstatus=$?\nkill -%s $PPID\nexit $status\n' "$(type -P $tool)" $signal >"$work/fake/$tool"
            chmod 755 "$work/fake/$tool"
            { timeout 60 "$@" >/dev/null </dev/null; } 2>/dev/null
            tried=$((tried + 1))
            [ -z "$(ls -A "$work/temporary")" ] || say "SIG$signal behind $tool leaves $(ls -A "$work/temporary"): $*"
            [ ! -d "$folder" ] || [ -z "$(find "$folder" -mindepth 1 ! -name 'wathread.by-rattle*' ! -name wathread.log)" ] ||
                say "SIG$signal behind $tool leaves $(ls -A "$folder"): $*"
            rm -rf "$work/temporary"/* "$work/fake/$tool"
        done
    done
    ends 0 '[0-9]+ signals within [^,]*, 0 leave something: .*' '' python3 "$top/bench/signals.py" "$count" "$work/temporary" "$folder" \
        'wathread.by-rattle*,wathread.log' "$@"
    cat "$work/.out"
}
bare=("${bare[@]}" "PATH=$work/fake:$work/all")
other=("${other[@]}" "PATH=$work/fake:$work/all")
signals "$times" crates/wathread/out "${bare[@]}" "${run[@]}"
"${bare[@]}" ./wathread --version >/dev/null 2>&1
signals "$times" "$work/none" "${bare[@]}" ./wathread search examples/broken_lock.wasm --invoke f --runs 1000000 --time 3
cd "$work/forbidden" && signals "$times" "$work/none" "${other[@]}" "${run[@]}"
cd "$work/signalled" && rm -r release/wathread-*
printf '#!/bin/sh\nexec sleep 2\n' >"$work/fake/rt" && chmod 755 "$work/fake/rt"
signals $((times / 4)) crates/wathread/out "${bare[@]}" "${run[@]}"
rm -r "$work/fake"

# A package that is damaged, cut, of another sum, not there, or can't be unpacked; other sources.
cd "$work/second" && cp -r release "$work/kept" || exit 1
again() { rm -rf release crates/wathread/out && cp -r "$work/kept" release; }
DAMAGED="the shipped program is damaged, or there's no room for it"
again && printf damage | dd of=release/wathread-x86_64-linux.xz bs=1 seek=1000 conv=notrunc 2>/dev/null
ends 70 '' "$(no_rt "$DAMAGED")" "${bare[@]}" "${run[@]}"
again && truncate -s 2000 release/wathread-x86_64-linux.xz
ends 70 '' "$(no_rt "$DAMAGED")" "${bare[@]}" "${run[@]}"
again && sed -i 's/^program ./program g/' release/wathread-x86_64-linux.sum
ends 70 '' "$(no_rt "$DAMAGED")" "${bare[@]}" "${run[@]}"
again && rm release/wathread-x86_64-linux.xz
ends 70 '' "$(no_rt 'no program is shipped')" "${bare[@]}" "${run[@]}"
again
ends 0 "$ADDED" "$TOOK" "${bare[@]}" "PATH=$work/no_xz" "${run[@]}"
again
ends 70 '' "$(no_rt "there's neither xz nor python3, and the shipped program is packed")" \
    "${bare[@]}" "PATH=$work/no_packer" "${run[@]}"
echo '// More.' >>crates/types/src/lib.rt
ends 70 '' "$(no_rt 'the shipped program is of other sources')" "${bare[@]}" "${run[@]}"
git checkout -q crates
sed -i 's/^wathread: /wathread:  /' crates.txt
ends 70 '' "$(no_rt 'the shipped program is of other sources')" "${bare[@]}" "${run[@]}"

# The launcher's own words.
cd "$work/first" || exit 1
ends 0 '.*--prove .*--install .*' '' "${bare[@]}" ./wathread --help
ends 70 '' 'wathread: the command rt of the Rattle toolchain isn.t on the path' "${bare[@]}" ./wathread --prove
for words in '--prove x' '--prove --anew x' '--install' '--install a b'; do
    # shellcheck disable=SC2086
    ends 3 '' "$USAGE" "${bare[@]}" ./wathread $words
done
ends 3 '' "$USAGE" "${bare[@]}" ./wathread --install ''
mkdir -p share/man/man1 && echo 'a page' >share/man/man1/wathread.1
INSTALLED="$work/a place/bin/wathread"$'\n('"$work/a place/lib/libwathread.a"$'\n)?'"$work/a place/bin/wathread-cc"
INSTALLED+=$'\n'"$work/a place/bin/wathread-rustc"
LACKS="release/shared.sh: there's neither a C compiler nor ld, which link it"$'\n'"$work/a place/lib/libwathread.so isn't"
LACKS+=" installed|wathread: the library isn't installed: the shipped library is of other sources[^"$'\n'"]*"
ends 0 "$INSTALLED" "$LACKS" "${bare[@]}" ./wathread --install "$work/a place"
ends 0 "$ADDED" '' "${bare[@]}" bash -c '"$0" "${@:2}"' "$work/a place/bin/wathread" "${run[@]}"
cmp -s "$work/a place/libexec/wathread/wathread" crates/wathread/out/wathread.by-rattle || say "another program is installed"
[ "$(<"$work/a place/share/man/man1/wathread.1")" = 'a page' ] || say "no page is installed"
ends 0 "$INSTALLED" "$LACKS" "${bare[@]}" ./wathread --install "$work/a place"
ends 5 '' '.*/dev/null.*' "${bare[@]}" ./wathread --install /dev/null/place
if command -v clang >/dev/null; then
    ends 0 '' '' "$work/a place/bin/wathread-cc" examples/c/counter.c -o "$work/counter.wasm"
    c/wathread-cc examples/c/counter.c -o "$work/same.wasm"
    cmp -s "$work/counter.wasm" "$work/same.wasm" || say "an installed wathread-cc makes another module"
fi

# Ctrl-C: after DELAY seconds, N times, each a hundredth of a second behind the other: interrupted N DELAY COMMAND..
# Where the command ended well before the last one came, or saw two as one, it is run again, up to ten times.
interrupted='
import os, signal, subprocess, sys, time
def begin():
    os.setsid()
    signal.signal(signal.SIGINT, signal.SIG_DFL)
times = int(sys.argv[1])
for _ in range(10):
    job = subprocess.Popen(sys.argv[3:], preexec_fn=begin)
    time.sleep(float(sys.argv[2]))
    for _ in range(times):
        os.killpg(job.pid, signal.SIGINT)
        time.sleep(0.01)
    status = job.wait()
    if status or times < 3:
        break
sys.exit(status if status >= 0 else 128 - status)'
search=(search examples/broken_lock.wasm --invoke f --runs 1000000)
AWAITED='wathread: the search was told to end; awaited are [^;]*; another Ctrl-C kills it'
for it in ./wathread "$work/a place/bin/wathread"; do
    ends 0 $'.*\ntold to end: [0-9]+ of 1000000 runs\n[^\n]*' '' \
        "${bare[@]}" python3 -c "$interrupted" 1 3 "$it" "${search[@]}"
    ends 0 $'.*\ntold to end: [0-9]+ of 1000000 runs\n[^\n]*' "($AWAITED)?" \
        "${bare[@]}" python3 -c "$interrupted" 2 3 "$it" "${search[@]}"
    ends 130 '.*' "($AWAITED"$'\n?)*' "${bare[@]}" python3 -c "$interrupted" 3 3 "$it" "${search[@]}"
    ends 130 '' '' "${bare[@]}" python3 -c "$interrupted" 1 3 "$it" "${search[@]}" --until "$work/never"
done
[ -z "$(ls -A "$work/temporary")" ] || say "left among the temporary files: $(ls -A "$work/temporary")"

# A repository whose program is one of the toolchain's examples: it is proved and built, compared and shipped.
if command -v rt >/dev/null; then
    mkdir -p "$work/small one"/{crates,bench} && cd "$work/small one" || exit 1
    cp -r "$top"/{wathread,release,.ci,HANDLES,.gitignore} .
    rm -f release/wathread-*
    cp -r "$(dirname "$(rt doc)")/rattle/examples/start_io" crates/wathread
    rm -f crates/wathread/{BUILD.bazel,*.md}
    echo 'wathread:' >crates.txt
    # What .ci/run checks of documents isn't there.
    for it in {bench/{headline,proved},release/manual{,_cc}}.py; do : >"$it"; done
    printf '\n// A trial: %s.\n' "$(date)" >>crates/wathread/src/main.rt
    commit() { git add -A && git -c user.name=trial -c user.email=trial commit -qm trial; }
    git init -q . && commit
    SAME='the shipped program is the one that was built, byte for byte'
    DIFFERS="the shipped program isn't the one that was built"
    COST=$'\ngate: [0-9]+ processor minutes, [0-9]+ by the clock\n'
    PROVED=$'wathread: [^\n]*proving and building the program[^\n]*(\nwathread: proving and building: [^\n]*)*\nwathread: proved and built in [^\n]*'
    # shellcheck disable=SC2016
    ends 130 '' 'wathread: no program is shipped: proving and building .*' \
        env "TMPDIR=$work/temporary" python3 -c "$interrupted" 1 8 ./wathread
    [ -z "$(ls -A "$work/temporary" | grep '^wathread')" ] || say "Ctrl-C leaves $(ls -A "$work/temporary")"
    ends 0 '' "$PROVED" ./wathread
    ends 0 '' '' ./wathread
    ends 1 "the shipped program wasn't compared: no program is shipped" "$PROVED" ./wathread --prove
    ends 0 "$SAME"$'\n.*' '' release/make.sh
    commit
    ends 0 "$SAME" "$PROVED" ./wathread --prove
    rm -rf crates/wathread/out
    ends 0 '' "$TOOK" "${bare[@]}" ./wathread
    ends 0 ".*$SAME${COST}1 passed, 0 failed" '.*' .ci/run
    printf damage | dd of=release/wathread-x86_64-linux.xz bs=1 seek=1000 conv=notrunc 2>/dev/null
    ends 1 ".*$DIFFERS: $DAMAGED${COST}1 passed, 0 failed" '.*' .ci/run
    pack "$PWD" "$(type -P true)"
    ends 0 ".*$DIFFERS: it was built by that of a trial${COST}1 passed, 0 failed" '.*' .ci/run
    sed -i "s/^toolchain .*/toolchain $(rt version)/" release/wathread-x86_64-linux.sum
    ends 1 ".*$DIFFERS: they differ${COST}1 passed, 0 failed" '.*' .ci/run
    ends 1 "$DIFFERS: they differ" "$PROVED" ./wathread --prove
    sed -i 's/^sources ./sources g/' release/wathread-x86_64-linux.sum
    ends 0 ".*$DIFFERS: it is of other sources${COST}1 passed, 0 failed" '.*' .ci/run
    rm -rf crates/wathread/out
    ends 0 '' "${PROVED/: /: the shipped program is of other sources: }" ./wathread
    echo 'fn wrong() -> u8 ensures { result ≡ 1 } { 2 }' >>crates/wathread/src/main.rt
    ends 70 '' '.*NOT PROVED.*the program wasn.t proved or built: .*' ./wathread
    ends 70 '' '.*NOT PROVED.*the program wasn.t proved or built: .*' ./wathread --prove
    ends 1 '.*0 passed, 1 failed' '.*' .ci/run
fi

echo "$tried tried, $wrong wrong"
[ $wrong -eq 0 ]
